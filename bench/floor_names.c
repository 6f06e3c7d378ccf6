/* The floor: opaques, names, and credentials. */
#include "floor_items.h"
#include "floor_copy.h"

/* ---- opaque */

COLD static uint32_t walk_opaque(struct careful *c)
{
    return skip_opaque(c);
}

READS(judge_opaque)
{
    size_t count, size;
    if (UNLIKELY(infos < 3 || !fits(len, at, 4)) || UNLIKELY(len - at - 4 < padded(count = word(src + at))))
        return refusal(src, len, at, info, infos, 3, walk_opaque);
    size = 4 + padded(count);
    return took(info, at + size, !odd_padding(src + at + size, count), size);
}

COPIES(opaque)
{
    size_t count, size;
    if (UNLIKELY(infos < 3 || !fits(len, at, 4)) || UNLIKELY(len - at - 4 < padded(count = word(src + at))))
        return refusal(src, len, at, info, infos, 3, walk_opaque);
    size = 4 + padded(count);
    if (UNLIKELY(room < size))
        return no_room(info, 3, size);
    uint32_t odd = odd_padding(src + at + size, count);
    memcpy(out, src + at, size);
    if (UNLIKELY(odd))
        clean_padding(out + size, count);
    return took(info, at + size, !odd, size);
}

/* ---- diropargs3: a handle and a name */

COLD static uint32_t walk_diropargs3(struct careful *c)
{
    TRY(skip_opaque(c));
    return skip_opaque(c);
}

/* How many bytes the two have, and where they end. */
struct diropargs3 {
    size_t dir, name, dir_end, end;
};

static inline int is_diropargs3(const uint8_t *src, size_t len, size_t at, struct diropargs3 *v)
{
    if (UNLIKELY(!fits(len, at, 8)))
        return 0;
    v->dir = word(src + at);
    v->dir_end = at + 4 + padded(v->dir);
    if (UNLIKELY(v->dir_end + 4 > len))
        return 0;
    v->name = word(src + v->dir_end);
    v->end = v->dir_end + 4 + padded(v->name);
    return !UNLIKELY(v->end > len);
}

static inline uint32_t odd_diropargs3(const uint8_t *src, const struct diropargs3 *v)
{
    return odd_padding(src + v->dir_end, v->dir) | odd_padding(src + v->end, v->name);
}

READS(read_diropargs3)
{
    struct diropargs3 v;
    if (UNLIKELY(infos < 6 || !is_diropargs3(src, len, at, &v)))
        return refusal(src, len, at, info, infos, 6, walk_diropargs3);
    info[0] = v.end;
    info[1] = odd_diropargs3(src, &v) == 0;
    info[2] = at + 4;
    info[3] = v.dir;
    info[4] = v.dir_end + 4;
    info[5] = v.name;
    return 0;
}

READS(judge_diropargs3)
{
    struct diropargs3 v;
    if (UNLIKELY(infos < 3 || !is_diropargs3(src, len, at, &v)))
        return refusal(src, len, at, info, infos, 3, walk_diropargs3);
    return took(info, v.end, odd_diropargs3(src, &v) == 0, v.end - at);
}

COPIES(diropargs3)
{
    struct diropargs3 v;
    if (UNLIKELY(infos < 3 || !is_diropargs3(src, len, at, &v)))
        return refusal(src, len, at, info, infos, 3, walk_diropargs3);
    size_t size = v.end - at;
    if (UNLIKELY(room < size))
        return no_room(info, 3, size);
    uint32_t odd = odd_diropargs3(src, &v);
    memcpy(out, src + at, size);
    if (UNLIKELY(odd)) {
        clean_padding(out + (v.dir_end - at), v.dir);
        clean_padding(out + size, v.name);
    }
    return took(info, v.end, odd == 0, size);
}

WRITES_FROM_TWO(diropargs3)
{
    if (UNLIKELY(fields < 4 || infos < 1))
        return SHORT_LIST;
    if (UNLIKELY(start > room))
        return refused(info, 1, PAST_END);
    if (UNLIKELY(len > LIMIT || len2 > LIMIT))
        return refused(info, 1, TOO_LONG);
    if (UNLIKELY(!inside(f[0], f[1], len) || !inside(f[2], f[3], len2)))
        return refused(info, 1, OUTSIDE);
    size_t dir = 4 + padded(f[1]), size = dir + 4 + padded(f[3]);
    if (UNLIKELY(size > LIMIT))
        return refused(info, 1, TOO_LONG);
    if (UNLIKELY(room - start < size))
        return no_room(info, 1, size);
    lay_opaque(out + start, src + f[0], f[1]);
    lay_opaque(out + start + dir, src2 + f[2], f[3]);
    info[0] = start + size;
    return 0;
}

/* ---- auth_unix: a stamp, a name, two words, and words */

COLD static uint32_t walk_auth_unix(struct careful *c)
{
    size_t gids;
    TRY(skip(c, 4));
    TRY(skip_opaque(c));
    TRY(skip_words(c, 2));
    return skip_counted(c, 4, &gids);
}

/* How many bytes the name has, and where it ends; how many gids there are, and where they end. */
struct auth_unix {
    size_t name, name_end, gids, end;
};

/* The message has `len` bytes from its beginning on, and 20 at least from there on. */
static inline int is_auth_unix(const uint8_t *src, size_t len, size_t at, struct auth_unix *v)
{
    v->name = word(src + at + 4);
    v->name_end = at + 8 + padded(v->name);
    if (UNLIKELY(v->name_end + 12 > len))
        return 0;
    v->gids = word(src + v->name_end + 8);
    v->end = v->name_end + 12 + 4 * v->gids;
    return !UNLIKELY(v->end > len);
}

uint32_t floor_read_auth_unix(
    const uint8_t *src, size_t len, size_t at, size_t count, uint64_t *restrict info, size_t infos)
{
    struct auth_unix v;
    if (UNLIKELY(infos < 9))
        return SHORT_LIST;
    if (UNLIKELY(len > LIMIT))
        return refused(info, 9, TOO_LONG);
    if (UNLIKELY(at > len || count > len - at)) {
        /* A credential that does not lie in the message is one of no bytes: its stamp is wanting. */
        return refusal(src, 0, 0, info, infos, 9, walk_auth_unix);
    }
    if (UNLIKELY(count < 20 || !is_auth_unix(src, at + count, at, &v)))
        return refusal(src, at + count, at, info, infos, 9, walk_auth_unix);
    info[0] = v.end;
    info[1] = odd_padding(src + v.name_end, v.name) == 0;
    info[2] = word(src + at);
    info[3] = at + 8;
    info[4] = v.name;
    info[5] = word(src + v.name_end);
    info[6] = word(src + v.name_end + 4);
    info[7] = v.name_end + 12;
    info[8] = v.gids;
    return 0;
}

READS(judge_auth_unix)
{
    struct auth_unix v;
    if (UNLIKELY(infos < 3 || !fits(len, at, 20) || !is_auth_unix(src, len, at, &v)))
        return refusal(src, len, at, info, infos, 3, walk_auth_unix);
    return took(info, v.end, odd_padding(src + v.name_end, v.name) == 0, v.end - at);
}

COPIES(auth_unix)
{
    struct auth_unix v;
    if (UNLIKELY(infos < 3 || !fits(len, at, 20) || !is_auth_unix(src, len, at, &v)))
        return refusal(src, len, at, info, infos, 3, walk_auth_unix);
    size_t size = v.end - at;
    if (UNLIKELY(room < size))
        return no_room(info, 3, size);
    uint32_t odd = odd_padding(src + v.name_end, v.name);
    memcpy(out, src + at, size);
    if (UNLIKELY(odd))
        clean_padding(out + (v.name_end - at), v.name);
    return took(info, v.end, odd == 0, size);
}
