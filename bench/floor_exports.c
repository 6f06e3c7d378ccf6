/* The floor: export lists. Flags say whether an entry follows, or a name of its groups. One walk tests all of it. */
#include "floor_items.h"
#include "floor_copy.h"

#define LONGEST_PATH 1024

/* ---- refusals */

COLD static uint32_t walk_groups(struct careful *c)
{
    for (;;) {
        uint32_t there;
        TRY(see_word(c, &there));
        if (!there)
            return 0;
        TRY(skip_opaque(c));
    }
}

COLD static uint32_t walk_entry(struct careful *c, uint32_t *there, size_t *path)
{
    *path = 0;
    TRY(see_word(c, there));
    if (!*there)
        return 0;
    TRY(skip_counted(c, 1, path));
    return walk_groups(c);
}

/* The first path that is too long counts only once all is read. */
COLD static uint32_t walk_entries(struct careful *c, size_t *count)
{
    size_t path, too_long = 0;
    for (*count = 0;; ++*count) {
        uint32_t there;
        size_t here = c->at;
        TRY(walk_entry(c, &there, &path));
        if (!there)
            break;
        if (path > LONGEST_PATH && !too_long)
            too_long = here + 4;
    }
    return too_long ? (c->at = too_long, LONG_PATH) : 0;
}

COLD static uint32_t walk_exports(struct careful *c)
{
    size_t count;
    return walk_entries(c, &count);
}

COLD static uint32_t walk_next_export(struct careful *c)
{
    uint32_t there;
    size_t path, here = c->at;
    TRY(walk_entry(c, &there, &path));
    return path > LONGEST_PATH ? (c->at = here + 4, LONG_PATH) : 0;
}

COLD static uint32_t walk_next_group(struct careful *c)
{
    uint32_t there;
    TRY(see_word(c, &there));
    return there ? skip_opaque(c) : 0;
}

/* ---- steps */

/* No place: a step that cannot be taken. */
#define NONE SIZE_MAX

/* Steps over a flag that is set and the opaque behind it, which must be followed by so many bytes at least. Gives its
 * end, or NONE where the message is too short. */
static inline size_t take_flagged(
    const uint8_t *src, size_t len, size_t at, size_t follow, size_t *count, uint32_t *odd)
{
    if (UNLIKELY(at + 8 + follow > len))
        return NONE;
    *count = word(src + at + 4);
    size_t end = at + 8 + padded(*count);
    if (UNLIKELY(end + follow > len))
        return NONE;
    *odd |= odd_flag(raw_word(src + at)) | odd_padding(src + end, *count);
    return end;
}

/* Steps over names, up to the flag that says there is none. */
static inline size_t take_groups(const uint8_t *src, size_t len, size_t at, size_t follow, size_t *names, uint32_t *odd)
{
    for (*names = 0; raw_word(src + at); ++*names) {
        size_t count;
        at = take_flagged(src, len, at, follow, &count, odd);
        if (UNLIKELY(at == NONE))
            return NONE;
    }
    return at;
}

struct list {
    size_t count, next;
    uint32_t odd;
};

/* Behind an entry's path, and behind a name, two flags follow at least. */
static inline int is_list(const uint8_t *src, size_t len, size_t at, struct list *v)
{
    *v = (struct list){0, 0, 0};
    if (UNLIKELY(!fits(len, at, 4)))
        return 0;
    for (; raw_word(src + at); v->count++) {
        size_t path, names;
        at = take_flagged(src, len, at, 8, &path, &v->odd);
        if (UNLIKELY(at == NONE || path > LONGEST_PATH))
            return 0;
        at = take_groups(src, len, at, 8, &names, &v->odd);
        if (UNLIKELY(at == NONE))
            return 0;
        at += 4;
    }
    v->next = at + 4;
    return 1;
}

/* Puts right a copy of a list: sets each flag that is set to 1, and clears each padding. */
static void straighten(uint8_t *p)
{
    for (; raw_word(p); p += 4) {
        do {
            lay_word(p, 1);
            size_t count = word(p + 4);
            p += 8 + padded(count);
            clean_padding(p, count);
        } while (raw_word(p));
    }
}

static inline void lay_list(uint8_t *restrict out, const uint8_t *restrict p, size_t size, uint32_t odd)
{
    memcpy(out, p, size);
    if (UNLIKELY(odd))
        straighten(out);
}

/* ---- lists */

READS(read_exports)
{
    struct list v;
    if (UNLIKELY(infos < 4 || !is_list(src, len, at, &v)))
        return refusal(src, len, at, info, infos, 4, walk_exports);
    info[0] = v.next;
    info[1] = v.odd == 0;
    info[2] = at;
    info[3] = v.count;
    return 0;
}

READS(judge_exports)
{
    struct list v;
    if (UNLIKELY(infos < 3 || !is_list(src, len, at, &v)))
        return refusal(src, len, at, info, infos, 3, walk_exports);
    return took(info, v.next, v.odd == 0, v.next - at);
}

COPIES(exports)
{
    struct list v;
    if (UNLIKELY(infos < 3 || !is_list(src, len, at, &v)))
        return refusal(src, len, at, info, infos, 3, walk_exports);
    size_t size = v.next - at;
    if (UNLIKELY(room < size))
        return no_room(info, 3, size);
    lay_list(out, src + at, size, v.odd);
    return took(info, v.next, v.odd == 0, size);
}

/* Why a list is not written: there is none, or not of so many entries, or a path is too long. */
COLD static uint32_t unwritten(const uint8_t *src, size_t len, size_t place, size_t count, uint64_t *info)
{
    struct careful c = {src, len, place, 0};
    size_t found;
    if (len > LIMIT)
        return refused(info, 1, TOO_LONG);
    uint32_t number = place > len ? ENDS : walk_entries(&c, &found);
    return refused(info, 1, number == LONG_PATH && found == count ? LONG_PATH : OUTSIDE);
}

uint32_t floor_write_exports(const uint8_t *src, size_t len, size_t place, size_t count, uint8_t *restrict out,
    size_t room, size_t start, uint64_t *restrict info, size_t infos)
{
    struct list v;
    if (UNLIKELY(infos < 1))
        return SHORT_LIST;
    if (UNLIKELY(start > room))
        return refused(info, 1, PAST_END);
    if (UNLIKELY(!is_list(src, len, place, &v) || v.count != count))
        return unwritten(src, len, place, count, info);
    size_t size = v.next - place;
    if (UNLIKELY(room - start < size))
        return no_room(info, 1, size);
    lay_list(out + start, src + place, size, v.odd);
    info[0] = start + size;
    return 0;
}

/* ---- entries and names: a list need not go on behind them */

READS(next_export)
{
    size_t path, names;
    uint32_t odd = 0;
    if (UNLIKELY(infos < 7 || !fits(len, at, 4)))
        return refusal(src, len, at, info, infos, 7, walk_next_export);
    if (!raw_word(src + at)) {
        memset(info, 0, 7 * sizeof *info);
        info[0] = at + 4;
        info[1] = 1;
        return 0;
    }
    size_t groups = take_flagged(src, len, at, 4, &path, &odd);
    if (UNLIKELY(groups == NONE || path > LONGEST_PATH))
        return refusal(src, len, at, info, infos, 7, walk_next_export);
    size_t end = take_groups(src, len, groups, 4, &names, &odd);
    if (UNLIKELY(end == NONE))
        return refusal(src, len, at, info, infos, 7, walk_next_export);
    info[0] = end + 4;
    info[1] = odd == 0;
    info[2] = 1;
    info[3] = at + 8;
    info[4] = path;
    info[5] = groups;
    info[6] = names;
    return 0;
}

READS(next_group)
{
    size_t count = 0, end;
    uint32_t odd = 0;
    if (UNLIKELY(infos < 5 || !fits(len, at, 4)))
        return refusal(src, len, at, info, infos, 5, walk_next_group);
    if (!raw_word(src + at)) {
        memset(info, 0, 5 * sizeof *info);
        info[0] = at + 4;
        info[1] = 1;
        return 0;
    }
    end = take_flagged(src, len, at, 0, &count, &odd);
    if (UNLIKELY(end == NONE))
        return refusal(src, len, at, info, infos, 5, walk_next_group);
    info[0] = end;
    info[1] = odd == 0;
    info[2] = 1;
    info[3] = at + 8;
    info[4] = count;
    return 0;
}
