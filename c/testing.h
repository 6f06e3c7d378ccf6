/*
 * What the C tests share: checks, memory that shows what was touched, bytes from hex, what is told besides values, any
 * numbers, and a message of every kind.
 */
#ifndef TESTING_H
#define TESTING_H

#include <stdio.h>
#include <stdlib.h>
#include <string.h>

#include "yugerzat.h"

/* ---- checks */

static unsigned long passed, failed;

/* What the checks are about, where one line serves many cases, and in which reading of replies. */
static const char *of = "", *in = "";

static inline void check(bool good, const char *what, const char *file, int line)
{
    if (good) {
        passed++;
        return;
    }
    failed++;
    printf("%s:%d: %s%s%s%s%s\n", file, line, what, *of ? ", of " : "", of, *in ? ", in " : "", in);
}

#define CHECK(condition) check((condition), #condition, __FILE__, __LINE__)

static inline int total(void)
{
    printf("%lu passed, %lu failed\n", passed, failed);
    return failed ? EXIT_FAILURE : EXIT_SUCCESS;
}

/* ---- memory: filled with EE, so that what was touched can be told */

#define BUFFER 4096
#define FIGURES 24
#define UNTOUCHED 0xEEEEEEEEEEEEEEEEu

static uint8_t out[BUFFER];
static uint64_t info[FIGURES];
static uint8_t long_message[YUGERZAT_LIMIT_BYTES + 1];
static uint8_t long_out[YUGERZAT_LIMIT_BYTES + 8];

static inline void fresh(void)
{
    memset(out, 0xEE, sizeof out);
    memset(info, 0xEE, sizeof info);
}

/* Whether the bytes of out from a place on are as they were. */
static inline bool out_untouched_from(size_t place)
{
    size_t i;
    for (i = place; i < BUFFER; i++)
        if (out[i] != 0xEE)
            return false;
    return true;
}

static inline bool out_untouched_before(size_t place)
{
    size_t i;
    for (i = 0; i < place; i++)
        if (out[i] != 0xEE)
            return false;
    return true;
}

static inline bool long_out_untouched(void)
{
    return long_out[0] == 0xEE && memcmp(long_out, long_out + 1, sizeof long_out - 1) == 0;
}

/* ---- bytes from hex */

struct bytes {
    uint8_t at[512];
    size_t count;
};

static inline int digit(char c)
{
    return c <= '9' ? c - '0' : c - 'A' + 10;
}

static inline struct bytes hex(const char *text)
{
    struct bytes b;
    int high = -1;
    memset(&b, 0, sizeof b);
    for (; *text; text++) {
        if (*text == ' ')
            continue;
        if (high < 0) {
            high = digit(*text);
        } else {
            b.at[b.count++] = (uint8_t)(high * 16 + digit(*text));
            high = -1;
        }
    }
    return b;
}

/* The bytes themselves, until the next call. */
static inline const uint8_t *bytes_of(const char *text)
{
    static struct bytes b;
    b = hex(text);
    return b.at;
}

static inline bool out_is(size_t place, const char *due)
{
    struct bytes b = hex(due);
    return memcmp(out + place, b.at, b.count) == 0;
}

/* Bytes that hold a path of a length, all 'p', between others; they stand until the next call. */
static inline const uint8_t *around_path(const char *before, size_t length, const char *behind, size_t *count)
{
    static uint8_t text[BUFFER];
    struct bytes first = hex(before), last = hex(behind);
    size_t pad = (4 - length % 4) % 4;
    memcpy(text, first.at, first.count);
    yugerzat_set_word(text + first.count, 0, (uint32_t)length);
    memset(text + first.count + 4, 'p', length);
    memset(text + first.count + 4 + length, 0, pad);
    *count = first.count + 4 + length + pad;
    memcpy(text + *count, last.at, last.count);
    *count += last.count;
    return text;
}

/* The bytes of a message behind five others. */
static inline struct bytes behind_five(const struct bytes *b)
{
    struct bytes later;
    memset(&later, 0xFF, sizeof later);
    memcpy(later.at + 5, b->at, b->count);
    later.count = b->count + 5;
    return later;
}

/* ---- what is told besides values */

static inline bool refusal_is(
    const struct yugerzat_refusal *refusal, enum yugerzat_answer answer, size_t place, uint64_t wanting, size_t needed)
{
    return refusal->answer == answer && refusal->place == place && refusal->wanting == wanting &&
           refusal->needed == needed;
}

/* A refusal of a reading, by its answer and the two figures that are told. */
static inline bool refusal_of(const struct yugerzat_refusal *refusal, enum yugerzat_answer answer, const uint64_t *told)
{
    switch (answer) {
    case YUGERZAT_ENDS: return refusal_is(refusal, answer, (size_t)told[0], told[1], 0);
    case YUGERZAT_UNDECLARED:
    case YUGERZAT_LONG_PATH: return refusal_is(refusal, answer, (size_t)told[0], 0, 0);
    default: return refusal_is(refusal, answer, YUGERZAT_NO_PLACE, 0, 0);
    }
}

static inline bool reading_of(const struct yugerzat_reading *reading, enum yugerzat_answer answer, const uint64_t *told)
{
    bool done = answer == YUGERZAT_DONE;
    return reading->next == (done ? told[0] : 0) && reading->plain == (done && told[1] == 1) &&
           refusal_of(&reading->refusal, answer, told);
}

static inline bool writing_is(
    const struct yugerzat_writing *writing, enum yugerzat_answer answer, size_t after, size_t needed)
{
    return writing->after == after && refusal_is(&writing->refusal, answer, YUGERZAT_NO_PLACE, 0, needed);
}

/* ---- values that were never read */

/* Numbers that come out the same on every machine. */
static inline uint64_t any_number(void)
{
    static uint64_t last = 42;
    last = last * 6364136223846793005u + 1442695040888963407u;
    return last >> 11;
}

static inline struct yugerzat_nfstime3 any_time(void)
{
    struct yugerzat_nfstime3 moment;
    moment.seconds = (uint32_t)any_number();
    moment.nseconds = (uint32_t)any_number();
    return moment;
}

/* ---- messages */

/* A message of every kind, in published form: those of kinds.txt, which c/test writes down in the kinds' order. */
static const struct {
    const char *name;
    const char *message;
} samples[] = {
#include "samples.h"
};

#define SAMPLES (sizeof samples / sizeof *samples)

#endif
