/* The floor: calls and replies. */
#include "floor_items.h"
#include "floor_copy.h"

/* ---- refusals */

COLD static uint32_t walk_auth(struct careful *c)
{
    TRY(see_declared(c, 0, 3));
    return skip_opaque(c);
}

COLD static uint32_t walk_reply(struct careful *c)
{
    uint32_t tag;
    TRY(see_word(c, &tag));
    if (tag == 0) {
        TRY(walk_auth(c));
        TRY(see_word(c, &tag));
        return tag == 2 ? skip_words(c, 2) : 0;
    }
    if (tag > 1)
        return 0;
    TRY(see_word(c, &tag));
    return tag == 0 ? skip_words(c, 2) : tag == 1 ? see_declared(c, 1, 5) : 0;
}

COLD static uint32_t walk_rpc_msg(struct careful *c)
{
    uint32_t tag;
    TRY(skip(c, 4));
    TRY(see_word(c, &tag));
    if (tag > 0)
        return tag == 1 ? walk_reply(c) : 0;
    TRY(skip_words(c, 4));
    TRY(walk_auth(c));
    return walk_auth(c);
}

/* ---- calls: 28 bytes up to the first body's count, the body, then a flavor and a count, and that body */

/* How many bytes the bodies have, and where they end. */
struct call {
    size_t cred, cred_end, verf, end;
};

/* Whether a message that has 8 bytes is a call: its tag is zero. */
static inline int calls(const uint8_t *src, size_t at)
{
    return raw_word(src + at + 4) == 0;
}

static inline int is_call(const uint8_t *src, size_t len, size_t at, struct call *v)
{
    if (UNLIKELY(len - at < 40 || word(src + at + 24) > 3))
        return 0;
    v->cred = word(src + at + 28);
    v->cred_end = at + 32 + padded(v->cred);
    if (UNLIKELY(v->cred_end + 8 > len || word(src + v->cred_end) > 3))
        return 0;
    v->verf = word(src + v->cred_end + 4);
    v->end = v->cred_end + 8 + padded(v->verf);
    return !UNLIKELY(v->end > len);
}

static inline uint32_t odd_call(const uint8_t *src, const struct call *v)
{
    return odd_padding(src + v->cred_end, v->cred) | odd_padding(src + v->end, v->verf);
}

/* ---- replies */

/* What is neither a call nor a reply is taken for an empty call. */
enum which { EMPTY_CALL = 0, ACCEPTED = 1, OTHER_VERSION = 2, NOT_AUTHENTIC = 3 };

/* An accepted one has a verifier: its flavor, how many bytes it has, and where they end. */
struct reply {
    enum which tag;
    uint32_t flavor, stat, low, high, odd;
    size_t verf, verf_end, next, size;
};

static inline int is_accepted(const uint8_t *src, size_t len, size_t at, struct reply *v)
{
    v->tag = ACCEPTED;
    if (len - at < 24 || (v->flavor = word(src + at + 12)) > 3)
        return 0;
    v->verf = word(src + at + 16);
    v->verf_end = at + 20 + padded(v->verf);
    if (v->verf_end + 4 > len)
        return 0;
    v->odd = odd_padding(src + v->verf_end, v->verf);
    v->stat = word(src + v->verf_end);
    v->next = v->verf_end + 4;
    if (v->stat > 4) {
        v->stat = 4;
        v->odd = 1;
    } else if (v->stat == 2) {
        if (v->next + 8 > len)
            return 0;
        v->low = word(src + v->next);
        v->high = word(src + v->next + 4);
        v->next += 8;
    }
    v->size = v->next - at;
    return 1;
}

/* Reads what is no call. A tag that is not declared ends the message: the first of its cases is taken, with zeros. */
__attribute__((noinline)) static int is_reply(const uint8_t *src, size_t len, size_t at, struct reply *v)
{
    memset(v, 0, sizeof *v);
    v->tag = EMPTY_CALL;
    v->odd = 1;
    v->size = 40;
    v->next = at + 8;
    if (word(src + at + 4) > 1)
        return 1;
    if (len - at < 12)
        return 0;
    uint32_t tag = word(src + at + 8);
    v->tag = ACCEPTED;
    v->size = 24;
    v->next = at + 12;
    if (tag == 0)
        return is_accepted(src, len, at, v);
    if (tag > 1)
        return 1;
    if (len - at < 16)
        return 0;
    tag = word(src + at + 12);
    v->next = at + 16;
    v->tag = OTHER_VERSION;
    if (tag > 1)
        return 1;
    v->odd = 0;
    if (tag == 1) {
        v->tag = NOT_AUTHENTIC;
        v->size = 20;
        v->next = at + 20;
        return v->next <= len && (v->stat = word(src + at + 16)) - 1 <= 4;
    }
    v->next = at + 24;
    if (v->next > len)
        return 0;
    v->low = word(src + at + 16);
    v->high = word(src + at + 20);
    return 1;
}

static uint32_t put_reply(const uint8_t *src, size_t at, const struct reply *v, uint64_t *restrict info)
{
    memset(info, 0, 14 * sizeof *info);
    info[0] = v->next;
    info[1] = v->odd == 0;
    info[2] = word(src + at);
    info[3] = v->tag;
    if (v->tag == ACCEPTED) {
        info[4] = v->flavor;
        info[5] = v->verf_end ? at + 20 : 0;
        info[6] = v->verf;
        info[7] = v->stat;
        info[8] = v->low;
        info[9] = v->high;
    } else if (v->tag == OTHER_VERSION) {
        info[4] = v->low;
        info[5] = v->high;
    } else if (v->tag == NOT_AUTHENTIC) {
        info[4] = v->stat;
    }
    return 0;
}

/* In published form, where it came in another. */
static void lay_reply(uint8_t *restrict p, const uint8_t *restrict src, size_t at, const struct reply *v)
{
    memset(p, 0, v->size);
    lay_word(p, word(src + at));
    if (v->tag == EMPTY_CALL)
        return;
    lay_word(p + 4, 1);
    lay_word(p + 8, v->tag != ACCEPTED);
    if (v->tag != ACCEPTED)
        return;
    lay_word(p + 12, v->flavor);
    lay_opaque(p + 16, src + at + 20, v->verf);
    p += 20 + padded(v->verf);
    lay_word(p, v->stat);
    if (v->stat == 2) {
        lay_word(p + 4, v->low);
        lay_word(p + 8, v->high);
    }
}

/* ---- rpc_msg */

READS(read_rpc_msg)
{
    struct call v;
    if (UNLIKELY(infos < 14 || !fits(len, at, 8)))
        return refusal(src, len, at, info, infos, 14, walk_rpc_msg);
    if (UNLIKELY(!calls(src, at))) {
        struct reply reply;
        if (is_reply(src, len, at, &reply))
            return put_reply(src, at, &reply, info);
        return refusal(src, len, at, info, infos, 14, walk_rpc_msg);
    }
    if (UNLIKELY(!is_call(src, len, at, &v)))
        return refusal(src, len, at, info, infos, 14, walk_rpc_msg);
    info[0] = v.end;
    info[1] = odd_call(src, &v) == 0;
    info[2] = word(src + at);
    info[3] = 0;
    info[4] = word(src + at + 8);
    info[5] = word(src + at + 12);
    info[6] = word(src + at + 16);
    info[7] = word(src + at + 20);
    info[8] = word(src + at + 24);
    info[9] = at + 32;
    info[10] = v.cred;
    info[11] = word(src + v.cred_end);
    info[12] = v.cred_end + 8;
    info[13] = v.verf;
    return 0;
}

READS(judge_rpc_msg)
{
    struct call v;
    if (UNLIKELY(infos < 3 || !fits(len, at, 8)))
        return refusal(src, len, at, info, infos, 3, walk_rpc_msg);
    if (UNLIKELY(!calls(src, at))) {
        struct reply reply;
        if (is_reply(src, len, at, &reply))
            return took(info, reply.next, reply.odd == 0, reply.size);
        return refusal(src, len, at, info, infos, 3, walk_rpc_msg);
    }
    if (UNLIKELY(!is_call(src, len, at, &v)))
        return refusal(src, len, at, info, infos, 3, walk_rpc_msg);
    return took(info, v.end, odd_call(src, &v) == 0, v.end - at);
}

static uint32_t copy_reply(const uint8_t *src, size_t len, size_t at, uint8_t *restrict out, size_t room,
    uint64_t *restrict info, size_t infos)
{
    struct reply v;
    if (!is_reply(src, len, at, &v))
        return refusal(src, len, at, info, infos, 3, walk_rpc_msg);
    if (room < v.size)
        return no_room(info, 3, v.size);
    if (v.odd)
        lay_reply(out, src, at, &v);
    else
        memcpy(out, src + at, v.size);
    return took(info, v.next, v.odd == 0, v.size);
}

COPIES(rpc_msg)
{
    struct call v;
    if (UNLIKELY(infos < 3 || !fits(len, at, 8)))
        return refusal(src, len, at, info, infos, 3, walk_rpc_msg);
    if (UNLIKELY(!calls(src, at)))
        return copy_reply(src, len, at, out, room, info, infos);
    if (UNLIKELY(!is_call(src, len, at, &v)))
        return refusal(src, len, at, info, infos, 3, walk_rpc_msg);
    size_t size = v.end - at;
    if (UNLIKELY(room < size))
        return no_room(info, 3, size);
    uint32_t odd = odd_call(src, &v);
    memcpy(out, src + at, size);
    if (UNLIKELY(odd)) {
        clean_padding(out + (v.cred_end - at), v.cred);
        clean_padding(out + size, v.verf);
    }
    return took(info, v.end, odd == 0, size);
}

WRITES_FROM_TWO(call)
{
    if (UNLIKELY(fields < 11 || infos < 1))
        return SHORT_LIST;
    if (UNLIKELY((f[0] | f[1] | f[2] | f[3] | f[4]) >> 32 || f[5] > 3 || f[8] > 3))
        return WIDE_NUMBER;
    if (UNLIKELY(start > room))
        return refused(info, 1, PAST_END);
    if (UNLIKELY(len > LIMIT || len2 > LIMIT))
        return refused(info, 1, TOO_LONG);
    if (UNLIKELY(!inside(f[6], f[7], len) || !inside(f[9], f[10], len2)))
        return refused(info, 1, OUTSIDE);
    size_t cred = padded(f[7]), size = 40 + cred + padded(f[10]);
    if (UNLIKELY(size > LIMIT))
        return refused(info, 1, TOO_LONG);
    if (UNLIKELY(room - start < size))
        return no_room(info, 1, size);
    FORGET_LOADS();
    uint8_t *p = out + start;
    info[0] = start + size;
    lay_word(p, (uint32_t)f[0]);
    lay_word(p + 4, 0);
    lay_word(p + 8, (uint32_t)f[1]);
    lay_word(p + 12, (uint32_t)f[2]);
    lay_word(p + 16, (uint32_t)f[3]);
    lay_word(p + 20, (uint32_t)f[4]);
    lay_word(p + 24, (uint32_t)f[5]);
    lay_word(p + 32 + cred, (uint32_t)f[8]);
    lay_opaque(p + 28, src + f[6], f[7]);
    lay_opaque(p + 36 + cred, src2 + f[9], f[10]);
    return 0;
}
