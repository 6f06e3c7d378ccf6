/* The floor: attributes and their change. */
#include "floor_items.h"
#include "floor_copy.h"

/* ---- fattr3: 84 bytes */

#define FATTR3 84

uint32_t floor_walk_fattr3(struct careful *c)
{
    TRY(see_declared(c, 1, 7));
    TRY(skip_words(c, 4));
    TRY(skip(c, 8));
    TRY(skip(c, 8));
    TRY(skip_words(c, 2));
    TRY(skip(c, 8));
    TRY(skip(c, 8));
    return skip_words(c, 6);
}

/* Whether all of it is there, and its type is declared. */
static inline int is_fattr3(const uint8_t *src, size_t len, size_t at)
{
    return fits(len, at, FATTR3) && word(src + at) - 1 <= 6;
}

READS(read_fattr3)
{
    if (UNLIKELY(infos < 19 || !is_fattr3(src, len, at)))
        return refusal(src, len, at, info, infos, 19, floor_walk_fattr3);
    const uint8_t *p = src + at;
    info[0] = at + FATTR3;
    info[1] = 1;
    info[2] = word(p);
    info[3] = word(p + 4);
    info[4] = word(p + 8);
    info[5] = word(p + 12);
    info[6] = word(p + 16);
    info[7] = hyper(p + 20);
    info[8] = hyper(p + 28);
    info[9] = word(p + 36);
    info[10] = word(p + 40);
    info[11] = hyper(p + 44);
    info[12] = hyper(p + 52);
    info[13] = word(p + 60);
    info[14] = word(p + 64);
    info[15] = word(p + 68);
    info[16] = word(p + 72);
    info[17] = word(p + 76);
    info[18] = word(p + 80);
    return 0;
}

READS(judge_fattr3)
{
    if (UNLIKELY(infos < 3 || !is_fattr3(src, len, at)))
        return refusal(src, len, at, info, infos, 3, floor_walk_fattr3);
    return took(info, at + FATTR3, 1, FATTR3);
}

COPIES(fattr3)
{
    if (UNLIKELY(infos < 3 || !is_fattr3(src, len, at)))
        return refusal(src, len, at, info, infos, 3, floor_walk_fattr3);
    if (UNLIKELY(room < FATTR3))
        return no_room(info, 3, FATTR3);
    memcpy(out, src + at, FATTR3);
    return took(info, at + FATTR3, 1, FATTR3);
}

WRITES(fattr3)
{
    if (UNLIKELY(fields < 17 || infos < 1))
        return SHORT_LIST;
    uint64_t wide = f[1] | f[2] | f[3] | f[4] | f[7] | f[8] | f[11] | f[12] | f[13] | f[14] | f[15] | f[16];
    if (UNLIKELY(f[0] - 1 > 6 || wide >> 32))
        return WIDE_NUMBER;
    if (UNLIKELY(start > room))
        return refused(info, 1, PAST_END);
    if (UNLIKELY(room - start < FATTR3))
        return no_room(info, 1, FATTR3);
    FORGET_LOADS();
    uint8_t *p = out + start;
    lay_word(p, (uint32_t)f[0]);
    lay_word(p + 4, (uint32_t)f[1]);
    lay_word(p + 8, (uint32_t)f[2]);
    lay_word(p + 12, (uint32_t)f[3]);
    lay_word(p + 16, (uint32_t)f[4]);
    lay_hyper(p + 20, f[5]);
    lay_hyper(p + 28, f[6]);
    lay_word(p + 36, (uint32_t)f[7]);
    lay_word(p + 40, (uint32_t)f[8]);
    lay_hyper(p + 44, f[9]);
    lay_hyper(p + 52, f[10]);
    lay_word(p + 60, (uint32_t)f[11]);
    lay_word(p + 64, (uint32_t)f[12]);
    lay_word(p + 68, (uint32_t)f[13]);
    lay_word(p + 72, (uint32_t)f[14]);
    lay_word(p + 76, (uint32_t)f[15]);
    lay_word(p + 80, (uint32_t)f[16]);
    info[0] = start + FATTR3;
    return 0;
}

/* ---- sattr3: six flags or tags; behind each that is set a word, a hyper, or a time of two words */

COLD static uint32_t walk_set(struct careful *c, size_t size)
{
    uint32_t flag;
    TRY(see_word(c, &flag));
    return flag ? skip(c, size) : 0;
}

COLD static uint32_t walk_time(struct careful *c)
{
    TRY(see_declared(c, 0, 2));
    return word(c->src + c->at - 4) == 2 ? skip_words(c, 2) : 0;
}

COLD static uint32_t walk_sattr3(struct careful *c)
{
    TRY(walk_set(c, 4));
    TRY(walk_set(c, 4));
    TRY(walk_set(c, 4));
    TRY(walk_set(c, 8));
    TRY(walk_time(c));
    return walk_time(c);
}

/* Steps over a flag and the word or hyper that it sets, and notes the flag. Where there is a list, both are put there. */
static inline size_t take_set(const uint8_t *src, size_t at, size_t size, uint32_t *flags, uint64_t *info)
{
    uint32_t flag = raw_word(src + at);
    if (!flag) {
        if (info)
            memset(info, 0, 2 * sizeof *info);
        return at + 4;
    }
    *flags |= flag;
    if (info) {
        info[0] = 1;
        info[1] = size == 4 ? word(src + at + 4) : hyper(src + at + 4);
    }
    return at + 4 + size;
}

/* The same for a tag and the time that it sets, behind which so many bytes follow at least. Says whether it was done. */
static inline int take_time(const uint8_t *src, size_t len, size_t *at, size_t follow, uint64_t *info)
{
    size_t here = *at;
    uint32_t how = word(src + here);
    if (how == 2) {
        if (UNLIKELY(here + 12 + follow > len))
            return 0;
        if (info) {
            info[0] = 2;
            info[1] = word(src + here + 4);
            info[2] = word(src + here + 8);
        }
        *at = here + 12;
        return 1;
    }
    *at = here + 4;
    if (info) {
        info[0] = how;
        memset(info + 1, 0, 2 * sizeof *info);
    }
    return how < 2;
}

/* Steps over a sattr3, and says whether it is one. Its figures go into the list, if there is one. The least that may
 * follow is tested before it is looked at: 24 bytes hold the first three flags, with what each of them sets. */
static inline int take_sattr3(const uint8_t *src, size_t len, size_t *next, uint32_t *odd, uint64_t *info)
{
    size_t at = *next;
    uint32_t flags = 0;
    if (UNLIKELY(!fits(len, at, 24)))
        return 0;
    at = take_set(src, at, 4, &flags, info);
    at = take_set(src, at, 4, &flags, info ? info + 2 : NULL);
    at = take_set(src, at, 4, &flags, info ? info + 4 : NULL);
    if (UNLIKELY(at + 12 > len))
        return 0;
    at = take_set(src, at, 8, &flags, info ? info + 6 : NULL);
    *odd = odd_flag(flags);
    if (UNLIKELY(at + 8 > len))
        return 0;
    if (UNLIKELY(!take_time(src, len, &at, 4, info ? info + 8 : NULL)))
        return 0;
    if (UNLIKELY(!take_time(src, len, &at, 0, info ? info + 11 : NULL)))
        return 0;
    *next = at;
    return 1;
}

READS(read_sattr3)
{
    uint32_t odd;
    size_t next = at;
    if (UNLIKELY(infos < 16 || !take_sattr3(src, len, &next, &odd, info + 2)))
        return refusal(src, len, at, info, infos, 16, walk_sattr3);
    info[0] = next;
    info[1] = odd == 0;
    return 0;
}

READS(judge_sattr3)
{
    uint32_t odd;
    size_t next = at;
    if (UNLIKELY(infos < 3 || !take_sattr3(src, len, &next, &odd, NULL)))
        return refusal(src, len, at, info, infos, 3, walk_sattr3);
    return took(info, next, odd == 0, next - at);
}

/* Writes the flags again, each as 0 or 1. */
static inline void lay_flags(uint8_t *p)
{
    static const uint8_t sizes[] = {4, 4, 4, 8};
    for (int n = 0; n < 4; n++) {
        uint32_t set = raw_word(p) != 0;
        lay_word(p, set);
        p += 4 + sizes[n] * set;
    }
}

COPIES(sattr3)
{
    uint32_t odd;
    size_t next = at;
    if (UNLIKELY(infos < 3 || !take_sattr3(src, len, &next, &odd, NULL)))
        return refusal(src, len, at, info, infos, 3, walk_sattr3);
    size_t size = next - at;
    if (UNLIKELY(room < size))
        return no_room(info, 3, size);
    copy_blocks(out, src + at, size);
    if (UNLIKELY(odd))
        lay_flags(out);
    return took(info, next, odd == 0, size);
}

static inline uint8_t *lay_set(uint8_t *p, uint64_t flag, uint64_t value)
{
    if (!flag) {
        lay_word(p, 0);
        return p + 4;
    }
    lay_word(p, 1);
    lay_word(p + 4, (uint32_t)value);
    return p + 8;
}

static inline uint8_t *lay_time(uint8_t *p, const uint64_t *f)
{
    lay_word(p, (uint32_t)f[0]);
    if (f[0] != 2)
        return p + 4;
    lay_word(p + 4, (uint32_t)f[1]);
    lay_word(p + 8, (uint32_t)f[2]);
    return p + 12;
}

/* Where one of its numbers is wide: whether one that is set is. */
COLD static int is_wide(const uint64_t *f)
{
    return (f[0] && f[1] >> 32) || (f[2] && f[3] >> 32) || (f[4] && f[5] >> 32) ||
           (f[8] == 2 && (f[9] | f[10]) >> 32) || (f[11] == 2 && (f[12] | f[13]) >> 32);
}

static inline size_t size_of_sattr3(const uint64_t *f)
{
    return 24 + 4 * ((size_t)(f[0] != 0) + (f[2] != 0) + (f[4] != 0)) +
           8 * ((size_t)(f[6] != 0) + (f[8] == 2) + (f[11] == 2));
}

WRITES(sattr3)
{
    if (UNLIKELY(fields < 14 || infos < 1))
        return SHORT_LIST;
    if (UNLIKELY(f[8] > 2 || f[11] > 2))
        return WIDE_NUMBER;
    if (UNLIKELY((f[1] | f[3] | f[5] | f[9] | f[10] | f[12] | f[13]) >> 32) && is_wide(f))
        return WIDE_NUMBER;
    if (UNLIKELY(start > room))
        return refused(info, 1, PAST_END);
    /* With room for the longest it need not be known how long this one is. */
    if (UNLIKELY(room - start < 60) && room - start < size_of_sattr3(f))
        return no_room(info, 1, size_of_sattr3(f));
    FORGET_LOADS();
    uint8_t *p = out + start;
    p = lay_set(p, f[0], f[1]);
    p = lay_set(p, f[2], f[3]);
    p = lay_set(p, f[4], f[5]);
    if (f[6]) {
        lay_word(p, 1);
        lay_hyper(p + 4, f[7]);
        p += 12;
    } else {
        lay_word(p, 0);
        p += 4;
    }
    p = lay_time(lay_time(p, f + 8), f + 11);
    info[0] = (size_t)(p - out);
    return 0;
}
