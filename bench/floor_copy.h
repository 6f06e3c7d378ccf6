/* The floor: copies of short runs of bytes. memcpy is called for long ones. */
#ifndef FLOOR_COPY_H
#define FLOOR_COPY_H

#include "floor_items.h"

struct block {
    uint8_t bytes[16];
};

static inline struct block block_at(const uint8_t *p)
{
    struct block v;
    memcpy(&v, p, sizeof v);
    return v;
}

static inline void lay_block(uint8_t *p, struct block v)
{
    memcpy(p, &v, sizeof v);
}

/* From 16 bytes up to 64, without a branch: blocks that overlap where there are fewer. */
static inline void copy_blocks(uint8_t *restrict out, const uint8_t *restrict p, size_t count)
{
    size_t last = count - 16, second = last < 16 ? last : 16, third = last < 32 ? last : 32;
    struct block a = block_at(p), b = block_at(p + second), c = block_at(p + third), d = block_at(p + last);
    lay_block(out, a);
    lay_block(out + second, b);
    lay_block(out + third, c);
    lay_block(out + last, d);
}

/* The bytes of an opaque, which are mostly few: names, handles, credentials. */
static inline void copy_piece(uint8_t *restrict out, const uint8_t *restrict p, size_t count)
{
    if (count > 64) {
        memcpy(out, p, count);
    } else if (count >= 16) {
        copy_blocks(out, p, count);
    } else if (count >= 8) {
        memcpy(out, p, 8);
        memcpy(out + count - 8, p + count - 8, 8);
    } else if (count >= 4) {
        memcpy(out, p, 4);
        memcpy(out + count - 4, p + count - 4, 4);
    } else if (count > 0) {
        out[0] = p[0];
        out[count / 2] = p[count / 2];
        out[count - 1] = p[count - 1];
    }
}

/* The opaque whose padding ends at p. */
static inline void clean_padding(uint8_t *p, size_t count)
{
    for (; count & 3; count++)
        *--p = 0;
}

/* Whether a piece lies in its source. */
static inline int inside(uint64_t at, uint64_t count, size_t len)
{
    return at <= len && count <= len - at;
}

/* An opaque that there is room for. Of the padding the last word is written first. */
static inline void lay_opaque(uint8_t *restrict out, const uint8_t *restrict p, size_t count)
{
    lay_word(out + padded(count), 0);
    lay_word(out, (uint32_t)count);
    copy_piece(out + 4, p, count);
}

#endif
