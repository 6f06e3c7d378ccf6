/* The floor: results of READ and arguments of WRITE. Their data stay where they are, until they are written. */
#include "floor_items.h"
#include "floor_copy.h"

/* ---- read3res: a status, a flag, attributes if it is set; in success a count, a flag, and the data */

static inline int is_status(uint32_t v)
{
    /* The numbers below 72 that nfsstat3 has. */
    static const uint64_t low = UINT64_C(0x80000000D87E2067), high = UINT64_C(0xE4);
    if (v < 64)
        return low >> v & 1;
    return v < 72 ? high >> (v - 64) & 1 : v - 10001 <= 7;
}

COLD static uint32_t walk_post_op_attr(struct careful *c)
{
    uint32_t follow;
    TRY(see_word(c, &follow));
    return follow ? floor_walk_fattr3(c) : 0;
}

COLD static uint32_t walk_read3res(struct careful *c)
{
    uint32_t status;
    TRY(see_word(c, &status));
    if (!is_status(status))
        return (c->at -= 4, UNDECLARED);
    TRY(walk_post_op_attr(c));
    if (status)
        return 0;
    TRY(skip_words(c, 2));
    return skip_opaque(c);
}

/* Where the attributes end, how many bytes the data have, and where they end; what is odd. */
struct read3res {
    size_t attributes_end, data, end;
    uint32_t odd;
};

static inline int is_read3res(const uint8_t *src, size_t len, size_t at, struct read3res *v)
{
    if (UNLIKELY(!fits(len, at, 8)))
        return 0;
    uint32_t status = word(src + at), follow = raw_word(src + at + 4);
    v->attributes_end = at + 8 + (follow ? 84 : 0);
    v->odd = odd_flag(follow);
    if (UNLIKELY(follow && (len - at < 92 || word(src + at + 8) - 1 > 6)))
        return 0;
    v->end = v->attributes_end;
    v->data = 0;
    if (status)
        return is_status(status);
    if (UNLIKELY(v->attributes_end + 12 > len))
        return 0;
    v->data = word(src + v->attributes_end + 8);
    v->end = v->attributes_end + 12 + padded(v->data);
    if (UNLIKELY(v->end > len))
        return 0;
    v->odd |= odd_flag(raw_word(src + v->attributes_end + 4)) | odd_padding(src + v->end, v->data);
    return 1;
}

READS(judge_read3res)
{
    struct read3res v;
    if (UNLIKELY(infos < 3 || !is_read3res(src, len, at, &v)))
        return refusal(src, len, at, info, infos, 3, walk_read3res);
    return took(info, v.end, v.odd == 0, v.end - at);
}

COPIES(read3res)
{
    struct read3res v;
    if (UNLIKELY(infos < 3 || !is_read3res(src, len, at, &v)))
        return refusal(src, len, at, info, infos, 3, walk_read3res);
    size_t size = v.end - at;
    if (UNLIKELY(room < size))
        return no_room(info, 3, size);
    memcpy(out, src + at, size);
    if (UNLIKELY(v.odd)) {
        lay_word(out + 4, raw_word(src + at + 4) != 0);
        if (v.end > v.attributes_end) {
            lay_word(out + (v.attributes_end - at) + 4, raw_word(src + v.attributes_end + 4) != 0);
            clean_padding(out + size, v.data);
        }
    }
    return took(info, v.end, v.odd == 0, size);
}

/* ---- write3args: a handle, a hyper, a word, stable_how, and the data */

COLD static uint32_t walk_write3args(struct careful *c)
{
    TRY(skip_opaque(c));
    TRY(skip(c, 8));
    TRY(skip(c, 4));
    TRY(see_declared(c, 0, 2));
    return skip_opaque(c);
}

/* How many bytes the handle and the data have, and where they end. */
struct write3args {
    size_t file, file_end, data, end;
};

static inline int is_write3args(const uint8_t *src, size_t len, size_t at, struct write3args *v)
{
    if (UNLIKELY(!fits(len, at, 24)))
        return 0;
    v->file = word(src + at);
    v->file_end = at + 4 + padded(v->file);
    if (UNLIKELY(v->file_end + 20 > len || word(src + v->file_end + 12) > 2))
        return 0;
    v->data = word(src + v->file_end + 16);
    v->end = v->file_end + 20 + padded(v->data);
    return !UNLIKELY(v->end > len);
}

static inline uint32_t odd_write3args(const uint8_t *src, const struct write3args *v)
{
    return odd_padding(src + v->file_end, v->file) | odd_padding(src + v->end, v->data);
}

READS(judge_write3args)
{
    struct write3args v;
    if (UNLIKELY(infos < 3 || !is_write3args(src, len, at, &v)))
        return refusal(src, len, at, info, infos, 3, walk_write3args);
    return took(info, v.end, odd_write3args(src, &v) == 0, v.end - at);
}

COPIES(write3args)
{
    struct write3args v;
    if (UNLIKELY(infos < 3 || !is_write3args(src, len, at, &v)))
        return refusal(src, len, at, info, infos, 3, walk_write3args);
    size_t size = v.end - at;
    if (UNLIKELY(room < size))
        return no_room(info, 3, size);
    uint32_t odd = odd_write3args(src, &v);
    memcpy(out, src + at, size);
    if (UNLIKELY(odd)) {
        clean_padding(out + (v.file_end - at), v.file);
        clean_padding(out + size, v.data);
    }
    return took(info, v.end, odd == 0, size);
}
