/* The floor: what a good C programmer would write for the same duty as the functions of include/yugerzat.h: the same
 * answers, the same figures, the same refusals.
 *
 * A reader tests the room once for all that is fixed, and moves whole words. It takes every message that is to be taken.
 * Only if something is short or undeclared it leaves the rest to a cold function, which walks the message again, item by
 * item, to find out which refusal is due and where. A message that is plain is rewritten by a copy of its bytes. */
#ifndef FLOOR_ITEMS_H
#define FLOOR_ITEMS_H

#include <stddef.h>
#include <stdint.h>
#include <string.h>

#include "floor.h"

#define LIMIT ((size_t)1048576)

enum answer {
    ENDS = 1,
    UNDECLARED = 2,
    TOO_LONG = 3,
    OUTSIDE = 4,
    NO_ROOM = 5,
    PAST_END = 9,
    LONG_PATH = 10,
    WIDE_NUMBER = 253,
    SHORT_LIST = 254,
    UNKNOWN_KIND = 255
};

#define UNLIKELY(condition) __builtin_expect(!!(condition), 0)
#define COLD __attribute__((noinline, cold, unused))

/* What is read after this is loaded again, so that numbers which were tested need not stay in registers until they are
 * written. */
#define FORGET_LOADS() __asm__ volatile("" : : : "memory")

/* gcc would gather numbers in vectors to store them at once, which takes more instructions than it saves. */
#if defined __GNUC__ && !defined __clang__
#pragma GCC optimize("no-tree-slp-vectorize")
#endif

/* ---- words and hypers */

/* As it lies there: enough to tell whether it is zero, or which bytes are. */
static inline uint32_t raw_word(const uint8_t *p)
{
    uint32_t v;
    memcpy(&v, p, 4);
    return v;
}

static inline uint32_t word(const uint8_t *p)
{
    return __builtin_bswap32(raw_word(p));
}

static inline uint64_t hyper(const uint8_t *p)
{
    uint64_t v;
    memcpy(&v, p, 8);
    return __builtin_bswap64(v);
}

static inline void lay_word(uint8_t *p, uint32_t v)
{
    v = __builtin_bswap32(v);
    memcpy(p, &v, 4);
}

static inline void lay_hyper(uint8_t *p, uint64_t v)
{
    v = __builtin_bswap64(v);
    memcpy(p, &v, 8);
}

/* What a flag has besides the bit of 1, as it lies there: nothing in published form. */
static inline uint32_t odd_flag(uint32_t raw)
{
    return raw & ~__builtin_bswap32(1);
}

/* ---- opaques */

static inline size_t padded(size_t count)
{
    return (count + 3) & ~(size_t)3;
}

/* What an opaque has in its padding, which ends at p. Without padding that is nothing of the word there, be it its last or
 * its length. */
static inline uint32_t odd_padding(const uint8_t *p, size_t count)
{
    static const uint8_t mask[4][4] = {{0}, {0, 255, 255, 255}, {0, 0, 255, 255}, {0, 0, 0, 255}};
    return raw_word(p - 4) & raw_word(mask[count & 3]);
}

/* ---- answers */

/* Whether a message that is not too long has so many bytes from a place on. */
static inline int fits(size_t len, size_t at, size_t count)
{
    return len <= LIMIT && at <= len && len - at >= count;
}

/* A refusal without a place: zeros. */
COLD static uint32_t refused(uint64_t *info, size_t count, uint32_t number)
{
    memset(info, 0, count * sizeof *info);
    return number;
}

/* Too little room: how many bytes are needed is the last figure. */
COLD static uint32_t no_room(uint64_t *info, size_t count, size_t needed)
{
    memset(info, 0, count * sizeof *info);
    info[count - 1] = needed;
    return NO_ROOM;
}

/* A judged or rewritten message: its next place, whether it is plain, how long its rewriting is. */
static inline uint32_t took(uint64_t *info, size_t next, int plain, size_t size)
{
    info[0] = next;
    info[1] = (uint64_t)plain;
    info[2] = size;
    return 0;
}

/* ---- refusals of a reading, item by item: all that follows is cold */

struct careful {
    const uint8_t *src;
    size_t len;
    /* The next item; on a refusal, that which is refused, and how long it is if it is cut. */
    size_t at;
    size_t size;
};

/* Walks over a message, up to a refusal. */
typedef uint32_t walk(struct careful *c);

/* Attributes stand in results too. */
COLD walk floor_walk_fattr3;

#define TRY(step)                   \
    do {                            \
        uint32_t refusal_ = (step); \
        if (refusal_)               \
            return refusal_;        \
    } while (0)

/* An item of so many bytes. */
COLD static uint32_t skip(struct careful *c, size_t size)
{
    if (c->len - c->at < size)
        return (c->size = size, ENDS);
    c->at += size;
    return 0;
}

COLD static uint32_t skip_words(struct careful *c, size_t count)
{
    for (; count > 0; count--)
        TRY(skip(c, 4));
    return 0;
}

COLD static uint32_t see_word(struct careful *c, uint32_t *v)
{
    TRY(skip(c, 4));
    *v = word(c->src + c->at - 4);
    return 0;
}

/* A word of an enumeration, which must be one of some numbers that follow each other. */
COLD static uint32_t see_declared(struct careful *c, uint32_t least, uint32_t most)
{
    uint32_t v;
    TRY(see_word(c, &v));
    return v < least || v > most ? (c->at -= 4, UNDECLARED) : 0;
}

/* A counted item whose elements have so many bytes each: an opaque, or a list of words. */
COLD static uint32_t skip_counted(struct careful *c, size_t each, size_t *count)
{
    if (c->len - c->at < 4)
        return (c->size = 4, ENDS);
    *count = word(c->src + c->at);
    return skip(c, 4 + padded(each * *count));
}

COLD static uint32_t skip_opaque(struct careful *c)
{
    size_t count;
    return skip_counted(c, 1, &count);
}

/* Why a message is refused: its place, how many bytes are wanting where an item is cut, then zeros. */
COLD static uint32_t refusal(
    const uint8_t *src, size_t len, size_t at, uint64_t *info, size_t infos, size_t count, walk *over)
{
    struct careful c = {src, len, at, 0};
    if (infos < count)
        return SHORT_LIST;
    if (len > LIMIT)
        return refused(info, count, TOO_LONG);
    if (at > len)
        return refused(info, count, PAST_END);
    uint32_t number = over(&c);
    memset(info, 0, count * sizeof *info);
    info[0] = c.at;
    info[1] = number == ENDS ? c.size - (c.len - c.at) : 0;
    return number;
}

#endif
