/*
 * The arguments and results of NFS procedures, for programs in C and C++. yugerzat.h includes this file, and explains
 * slices, places, pieces, answers, and the form of the functions.
 *
 * THE KINDS, each with a struct, yugerzat_get_KIND and yugerzat_put_KIND (RFC 1813, sections 3.3.1 to 3.3.3, 3.3.6
 * and 3.3.7, under the names that it has for them):
 *
 *     GETATTR   getattr3args   getattr3res
 *     SETATTR   setattr3args   setattr3res   sattrguard3
 *     LOOKUP    lookup3args    lookup3res
 *     READ      read3args      read3res
 *     WRITE     write3args     write3res
 *
 * Arguments begin where the header of a call ends. Results begin where the header of a reply ends, if the call was
 * accepted with YUGERZAT_SUCCESS; yugerzat_get_rpc_msg tells both places.
 *
 * WHAT IS NOT THERE. Both arms of a result are one struct. A member that the status does not have, or that a flag
 * says is not there, is 0 or an empty piece when read, and is not looked at when written.
 *
 * COUNTS. Nothing holds the count of a READ or a WRITE to the length of its data: they are two numbers on the wire.
 *
 * WHAT IS PROVED, and what is tested. The library has no function that hands over the members of these kinds. It
 * judges them.
 *   - Reading: yugerzat_judge reads the whole message first. So the answer, the place, the bytes wanting, the next
 *     place and whether the message is plain are what the library says, and that is proved. Then the members are taken
 *     out of the message: a fattr3, a sattr3 and a diropargs3 by the library's readers, all else by this header. That
 *     they are the message's is tested (c/calls.c). Of the data of a READ or a WRITE nothing is looked at but the last
 *     word, and that only if there is padding in it.
 *   - Writing: a fattr3, a sattr3 and a diropargs3 are written by the library's writers, all else by this header. Then
 *     yugerzat_judge reads what was written. So after YUGERZAT_DONE, a message of that kind stands there, in published
 *     form and exactly as long as it is told: that is proved. That it is the value's is tested. (If the library ever
 *     refused what was written, the answer would be YUGERZAT_OUTSIDE, which has no other cause here. It cannot happen
 *     as long as value and its pieces do not overlap out, and nobody changes them during the call.)
 */
#include "yugerzat.h" /* it includes this file in turn, so it stands before the guard */

#ifndef YUGERZAT_NFS_H
#define YUGERZAT_NFS_H

/* ------------------------------------------------------------------ the structs */

enum yugerzat_nfsstat3 YUGERZAT_32_BITS {
    YUGERZAT_NFS3_OK = 0,
    YUGERZAT_NFS3ERR_PERM = 1,
    YUGERZAT_NFS3ERR_NOENT = 2,
    YUGERZAT_NFS3ERR_IO = 5,
    YUGERZAT_NFS3ERR_NXIO = 6,
    YUGERZAT_NFS3ERR_ACCES = 13,
    YUGERZAT_NFS3ERR_EXIST = 17,
    YUGERZAT_NFS3ERR_XDEV = 18,
    YUGERZAT_NFS3ERR_NODEV = 19,
    YUGERZAT_NFS3ERR_NOTDIR = 20,
    YUGERZAT_NFS3ERR_ISDIR = 21,
    YUGERZAT_NFS3ERR_INVAL = 22,
    YUGERZAT_NFS3ERR_FBIG = 27,
    YUGERZAT_NFS3ERR_NOSPC = 28,
    YUGERZAT_NFS3ERR_ROFS = 30,
    YUGERZAT_NFS3ERR_MLINK = 31,
    YUGERZAT_NFS3ERR_NAMETOOLONG = 63,
    YUGERZAT_NFS3ERR_NOTEMPTY = 66,
    YUGERZAT_NFS3ERR_DQUOT = 69,
    YUGERZAT_NFS3ERR_STALE = 70,
    YUGERZAT_NFS3ERR_REMOTE = 71,
    YUGERZAT_NFS3ERR_BADHANDLE = 10001,
    YUGERZAT_NFS3ERR_NOT_SYNC = 10002,
    YUGERZAT_NFS3ERR_BAD_COOKIE = 10003,
    YUGERZAT_NFS3ERR_NOTSUPP = 10004,
    YUGERZAT_NFS3ERR_TOOSMALL = 10005,
    YUGERZAT_NFS3ERR_SERVERFAULT = 10006,
    YUGERZAT_NFS3ERR_BADTYPE = 10007,
    YUGERZAT_NFS3ERR_JUKEBOX = 10008,
};

enum yugerzat_stable_how YUGERZAT_32_BITS {
    YUGERZAT_UNSTABLE = 0,
    YUGERZAT_DATA_SYNC = 1,
    YUGERZAT_FILE_SYNC = 2,
};

struct yugerzat_wcc_attr {
    uint64_t size;
    struct yugerzat_nfstime3 mtime;
    struct yugerzat_nfstime3 ctime;
};

struct yugerzat_pre_op_attr {
    bool attributes_follow;
    struct yugerzat_wcc_attr attributes;
};

struct yugerzat_post_op_attr {
    bool attributes_follow;
    struct yugerzat_fattr3 attributes;
};

struct yugerzat_wcc_data {
    struct yugerzat_pre_op_attr before;
    struct yugerzat_post_op_attr after;
};

struct yugerzat_sattrguard3 {
    bool check;
    struct yugerzat_nfstime3 obj_ctime;
};

struct yugerzat_getattr3args {
    struct yugerzat_piece object; /* the bytes of a handle, as in all of these */
};

struct yugerzat_getattr3res {
    enum yugerzat_nfsstat3 status;
    struct yugerzat_fattr3 obj_attributes; /* YUGERZAT_NFS3_OK */
};

struct yugerzat_setattr3args {
    struct yugerzat_piece object;
    struct yugerzat_sattr3 new_attributes;
    struct yugerzat_sattrguard3 guard;
};

struct yugerzat_setattr3res {
    enum yugerzat_nfsstat3 status;
    struct yugerzat_wcc_data obj_wcc;
};

struct yugerzat_lookup3args {
    struct yugerzat_diropargs3 what;
};

struct yugerzat_lookup3res {
    enum yugerzat_nfsstat3 status;
    struct yugerzat_piece object;                /* YUGERZAT_NFS3_OK */
    struct yugerzat_post_op_attr obj_attributes; /* YUGERZAT_NFS3_OK */
    struct yugerzat_post_op_attr dir_attributes;
};

struct yugerzat_read3args {
    struct yugerzat_piece file;
    uint64_t offset;
    uint32_t count;
};

struct yugerzat_read3res {
    enum yugerzat_nfsstat3 status;
    struct yugerzat_post_op_attr file_attributes;
    uint32_t count; /* this and the next two: YUGERZAT_NFS3_OK */
    bool eof;
    struct yugerzat_piece data;
};

struct yugerzat_write3args {
    struct yugerzat_piece file;
    uint64_t offset;
    uint32_t count;
    enum yugerzat_stable_how stable;
    struct yugerzat_piece data;
};

struct yugerzat_write3res {
    enum yugerzat_nfsstat3 status;
    struct yugerzat_wcc_data file_wcc;
    uint32_t count; /* this and the next two: YUGERZAT_NFS3_OK */
    enum yugerzat_stable_how committed;
    uint8_t verf[8];
};

/* ------------------------------------------------------------------ what is named private serves this header alone */

/* ---- taking members out of a message that was judged: what is left of it */

struct yugerzat_private_rest {
    const uint8_t *src;
    size_t at;
    size_t end;
};

/* Judges a message. All of it is left. */
static inline enum yugerzat_answer yugerzat_private_judged(enum yugerzat_kind kind, const uint8_t *src, size_t src_len,
    size_t at, struct yugerzat_private_rest *rest, struct yugerzat_reading *reading)
{
    uint64_t info[YUGERZAT_FIGURES_JUDGE];
    enum yugerzat_answer answer = yugerzat_judge(kind, src, src_len, at, info, YUGERZAT_FIGURES_JUDGE);
    yugerzat_private_read(answer, info, reading);
    rest->src = src;
    rest->at = at;
    rest->end = reading->next;
    return answer;
}

/* The next bytes, so many. NULL if there are fewer, which the judging has ruled out. */
static inline const uint8_t *yugerzat_private_take(struct yugerzat_private_rest *rest, size_t count)
{
    const uint8_t *bytes = rest->src + rest->at;
    if (count > rest->end - rest->at)
        return NULL;
    rest->at += count;
    return bytes;
}

static inline uint32_t yugerzat_private_take_word(struct yugerzat_private_rest *rest)
{
    struct yugerzat_words word;
    word.bytes = yugerzat_private_take(rest, 4);
    word.count = 1;
    return word.bytes ? yugerzat_word_at(&word, 0) : 0;
}

static inline uint64_t yugerzat_private_take_hyper(struct yugerzat_private_rest *rest)
{
    uint64_t high = yugerzat_private_take_word(rest);
    return high << 32 | yugerzat_private_take_word(rest);
}

static inline bool yugerzat_private_take_flag(struct yugerzat_private_rest *rest)
{
    return yugerzat_private_take_word(rest) != 0;
}

static inline struct yugerzat_piece yugerzat_private_take_opaque(struct yugerzat_private_rest *rest)
{
    struct yugerzat_piece piece;
    size_t count = yugerzat_private_take_word(rest);
    piece.bytes = yugerzat_private_take(rest, count);
    piece.count = piece.bytes ? count : 0;
    yugerzat_private_take(rest, (4 - count % 4) % 4);
    return piece;
}

static inline void yugerzat_private_take_time(struct yugerzat_private_rest *rest, struct yugerzat_nfstime3 *value)
{
    value->seconds = yugerzat_private_take_word(rest);
    value->nseconds = yugerzat_private_take_word(rest);
}

static inline void yugerzat_private_take_fattr3(struct yugerzat_private_rest *rest, struct yugerzat_fattr3 *value)
{
    struct yugerzat_reading part;
    if (yugerzat_get_fattr3(rest->src, rest->end, rest->at, value, &part) == YUGERZAT_DONE)
        rest->at = part.next;
}

static inline void yugerzat_private_take_post_op_attr(
    struct yugerzat_private_rest *rest, struct yugerzat_post_op_attr *value)
{
    value->attributes_follow = yugerzat_private_take_flag(rest);
    if (value->attributes_follow)
        yugerzat_private_take_fattr3(rest, &value->attributes);
}

static inline void yugerzat_private_take_wcc_data(struct yugerzat_private_rest *rest, struct yugerzat_wcc_data *value)
{
    value->before.attributes_follow = yugerzat_private_take_flag(rest);
    if (value->before.attributes_follow) {
        value->before.attributes.size = yugerzat_private_take_hyper(rest);
        yugerzat_private_take_time(rest, &value->before.attributes.mtime);
        yugerzat_private_take_time(rest, &value->before.attributes.ctime);
    }
    yugerzat_private_take_post_op_attr(rest, &value->after);
}

static inline void yugerzat_private_take_guard(struct yugerzat_private_rest *rest, struct yugerzat_sattrguard3 *value)
{
    value->check = yugerzat_private_take_flag(rest);
    if (value->check)
        yugerzat_private_take_time(rest, &value->obj_ctime);
}

/* ---- laying members one after the other, twice: they are counted and looked at first, and then written */

struct yugerzat_private_room {
    uint8_t *next; /* where the next byte is written; NULL while they are counted */
    size_t left;   /* how many bytes may be written there; 0 while they are counted */
    size_t size;   /* how many were counted */
    bool wide;     /* a number is not declared */
    bool too_long; /* a piece is too long */
    bool long_path;
    enum yugerzat_answer answer;
};

static inline struct yugerzat_private_room yugerzat_private_no_room(void)
{
    struct yugerzat_private_room room = {NULL, 0, 0, false, false, false, YUGERZAT_NO_ROOM};
    return room;
}

/* After the counting: the answer, and whether the members are to be laid once more, to be written. */
static inline bool yugerzat_private_fits(struct yugerzat_private_room *room, uint8_t *out, size_t out_len, size_t start)
{
    if (room->wide)
        room->answer = YUGERZAT_WIDE_NUMBER;
    else if (start > out_len)
        room->answer = YUGERZAT_PAST_END;
    else if (room->long_path && !room->too_long)
        room->answer = YUGERZAT_LONG_PATH;
    else if (room->too_long || room->size > YUGERZAT_LIMIT_BYTES)
        room->answer = YUGERZAT_TOO_LONG;
    else if (room->size <= out_len - start)
        room->answer = YUGERZAT_DONE;
    if (room->answer != YUGERZAT_DONE)
        return false;
    room->next = out + start;
    room->left = room->size;
    return true;
}

/* The end of a writing: what was written is judged. The comment at the top has why YUGERZAT_OUTSIDE cannot happen. */
static inline enum yugerzat_answer yugerzat_private_laid(const struct yugerzat_private_room *room,
    enum yugerzat_kind kind, const uint8_t *out, size_t start, struct yugerzat_writing *writing)
{
    uint64_t info[YUGERZAT_FIGURES_JUDGE], figure = room->size;
    enum yugerzat_answer answer = room->answer;
    if (answer == YUGERZAT_DONE) {
        answer = yugerzat_judge(kind, out + start, room->size, 0, info, YUGERZAT_FIGURES_JUDGE);
        if (answer != YUGERZAT_DONE || info[YUGERZAT_FIGURE_NEXT] != room->size || info[YUGERZAT_FIGURE_PLAIN] != 1)
            answer = YUGERZAT_OUTSIDE;
        figure = start + room->size;
    }
    return yugerzat_private_written(answer, &figure, writing);
}

/* Where the next bytes are written, so many; NULL while they are counted. */
static inline uint8_t *yugerzat_private_lay(struct yugerzat_private_room *room, size_t count)
{
    uint8_t *next = room->next;
    if (!next)
        room->size = count < (size_t)-1 - room->size ? room->size + count : (size_t)-1;
    if (!next || count > room->left)
        return NULL;
    room->next += count;
    room->left -= count;
    return next;
}

/* What one of the library's writers did at room->next: it tells how many bytes it needs, or that it wrote. */
static inline void yugerzat_private_lay_part(
    struct yugerzat_private_room *room, enum yugerzat_answer answer, const struct yugerzat_writing *part)
{
    room->wide = room->wide || answer == YUGERZAT_WIDE_NUMBER;
    room->too_long = room->too_long || answer == YUGERZAT_TOO_LONG;
    yugerzat_private_lay(room, answer == YUGERZAT_DONE ? part->after : part->refusal.needed);
}

static inline void yugerzat_private_lay_word(struct yugerzat_private_room *room, uint32_t word)
{
    uint8_t *next = yugerzat_private_lay(room, 4);
    if (next)
        yugerzat_set_word(next, 0, word);
}

static inline void yugerzat_private_lay_hyper(struct yugerzat_private_room *room, uint64_t hyper)
{
    yugerzat_private_lay_word(room, (uint32_t)(hyper >> 32));
    yugerzat_private_lay_word(room, (uint32_t)hyper);
}

/* A number of an enumeration: while it is counted, the library says whether it is declared. */
static inline void yugerzat_private_lay_number(
    struct yugerzat_private_room *room, enum yugerzat_kind kind, uint32_t number)
{
    uint8_t word[4];
    uint64_t info[YUGERZAT_FIGURES_JUDGE];
    yugerzat_set_word(word, 0, number);
    if (!room->next && yugerzat_judge(kind, word, sizeof word, 0, info, YUGERZAT_FIGURES_JUDGE) != YUGERZAT_DONE)
        room->wide = true;
    yugerzat_private_lay_word(room, number);
}

static inline void yugerzat_private_lay_bytes(struct yugerzat_private_room *room, const uint8_t *bytes, size_t count)
{
    uint8_t *next = yugerzat_private_lay(room, count);
    if (next && count)
        memcpy(next, bytes, count);
}

static inline void yugerzat_private_lay_opaque(struct yugerzat_private_room *room, struct yugerzat_piece piece)
{
    static const uint8_t pad[3] = {0, 0, 0};
    if (piece.count > YUGERZAT_LIMIT_BYTES) {
        room->too_long = true;
        return;
    }
    yugerzat_private_lay_word(room, (uint32_t)piece.count);
    yugerzat_private_lay_bytes(room, piece.bytes, piece.count);
    yugerzat_private_lay_bytes(room, pad, (4 - piece.count % 4) % 4);
}

static inline void yugerzat_private_lay_time(struct yugerzat_private_room *room, const struct yugerzat_nfstime3 *value)
{
    yugerzat_private_lay_word(room, value->seconds);
    yugerzat_private_lay_word(room, value->nseconds);
}

static inline void yugerzat_private_lay_fattr3(struct yugerzat_private_room *room, const struct yugerzat_fattr3 *value)
{
    struct yugerzat_writing part;
    enum yugerzat_answer answer = yugerzat_put_fattr3(value, room->next, room->left, 0, &part);
    yugerzat_private_lay_part(room, answer, &part);
}

static inline void yugerzat_private_lay_post_op_attr(
    struct yugerzat_private_room *room, const struct yugerzat_post_op_attr *value)
{
    yugerzat_private_lay_word(room, value->attributes_follow);
    if (value->attributes_follow)
        yugerzat_private_lay_fattr3(room, &value->attributes);
}

static inline void yugerzat_private_lay_wcc_data(
    struct yugerzat_private_room *room, const struct yugerzat_wcc_data *value)
{
    yugerzat_private_lay_word(room, value->before.attributes_follow);
    if (value->before.attributes_follow) {
        yugerzat_private_lay_hyper(room, value->before.attributes.size);
        yugerzat_private_lay_time(room, &value->before.attributes.mtime);
        yugerzat_private_lay_time(room, &value->before.attributes.ctime);
    }
    yugerzat_private_lay_post_op_attr(room, &value->after);
}

/* ------------------------------------------------------------------ GETATTR */

YUGERZAT_MUST_USE static inline enum yugerzat_answer yugerzat_get_getattr3args(const uint8_t *src, size_t src_len,
    size_t at, struct yugerzat_getattr3args *value, struct yugerzat_reading *reading)
{
    struct yugerzat_private_rest rest;
    enum yugerzat_answer answer = yugerzat_private_judged(YUGERZAT_KIND_GETATTR3ARGS, src, src_len, at, &rest, reading);
    memset(value, 0, sizeof *value);
    if (answer != YUGERZAT_DONE)
        return answer;
    value->object = yugerzat_private_take_opaque(&rest);
    return answer;
}

static inline void yugerzat_private_lay_getattr3args(
    struct yugerzat_private_room *room, const struct yugerzat_getattr3args *value)
{
    yugerzat_private_lay_opaque(room, value->object);
}

YUGERZAT_MUST_USE static inline enum yugerzat_answer yugerzat_put_getattr3args(
    const struct yugerzat_getattr3args *value, uint8_t *out, size_t out_len, size_t start,
    struct yugerzat_writing *writing)
{
    struct yugerzat_private_room room = yugerzat_private_no_room();
    yugerzat_private_lay_getattr3args(&room, value);
    if (yugerzat_private_fits(&room, out, out_len, start))
        yugerzat_private_lay_getattr3args(&room, value);
    return yugerzat_private_laid(&room, YUGERZAT_KIND_GETATTR3ARGS, out, start, writing);
}

YUGERZAT_MUST_USE static inline enum yugerzat_answer yugerzat_get_getattr3res(
    const uint8_t *src, size_t src_len, size_t at, struct yugerzat_getattr3res *value, struct yugerzat_reading *reading)
{
    struct yugerzat_private_rest rest;
    enum yugerzat_answer answer = yugerzat_private_judged(YUGERZAT_KIND_GETATTR3RES, src, src_len, at, &rest, reading);
    memset(value, 0, sizeof *value);
    if (answer != YUGERZAT_DONE)
        return answer;
    value->status = (enum yugerzat_nfsstat3)yugerzat_private_take_word(&rest);
    if (value->status == YUGERZAT_NFS3_OK)
        yugerzat_private_take_fattr3(&rest, &value->obj_attributes);
    return answer;
}

static inline void yugerzat_private_lay_getattr3res(
    struct yugerzat_private_room *room, const struct yugerzat_getattr3res *value)
{
    yugerzat_private_lay_number(room, YUGERZAT_KIND_NFSSTAT3, (uint32_t)value->status);
    if (value->status == YUGERZAT_NFS3_OK)
        yugerzat_private_lay_fattr3(room, &value->obj_attributes);
}

YUGERZAT_MUST_USE static inline enum yugerzat_answer yugerzat_put_getattr3res(const struct yugerzat_getattr3res *value,
    uint8_t *out, size_t out_len, size_t start, struct yugerzat_writing *writing)
{
    struct yugerzat_private_room room = yugerzat_private_no_room();
    yugerzat_private_lay_getattr3res(&room, value);
    if (yugerzat_private_fits(&room, out, out_len, start))
        yugerzat_private_lay_getattr3res(&room, value);
    return yugerzat_private_laid(&room, YUGERZAT_KIND_GETATTR3RES, out, start, writing);
}

/* ------------------------------------------------------------------ SETATTR */

YUGERZAT_MUST_USE static inline enum yugerzat_answer yugerzat_get_sattrguard3(
    const uint8_t *src, size_t src_len, size_t at, struct yugerzat_sattrguard3 *value, struct yugerzat_reading *reading)
{
    struct yugerzat_private_rest rest;
    enum yugerzat_answer answer = yugerzat_private_judged(YUGERZAT_KIND_SATTRGUARD3, src, src_len, at, &rest, reading);
    memset(value, 0, sizeof *value);
    if (answer != YUGERZAT_DONE)
        return answer;
    yugerzat_private_take_guard(&rest, value);
    return answer;
}

static inline void yugerzat_private_lay_sattrguard3(
    struct yugerzat_private_room *room, const struct yugerzat_sattrguard3 *value)
{
    yugerzat_private_lay_word(room, value->check);
    if (value->check)
        yugerzat_private_lay_time(room, &value->obj_ctime);
}

YUGERZAT_MUST_USE static inline enum yugerzat_answer yugerzat_put_sattrguard3(const struct yugerzat_sattrguard3 *value,
    uint8_t *out, size_t out_len, size_t start, struct yugerzat_writing *writing)
{
    struct yugerzat_private_room room = yugerzat_private_no_room();
    yugerzat_private_lay_sattrguard3(&room, value);
    if (yugerzat_private_fits(&room, out, out_len, start))
        yugerzat_private_lay_sattrguard3(&room, value);
    return yugerzat_private_laid(&room, YUGERZAT_KIND_SATTRGUARD3, out, start, writing);
}

YUGERZAT_MUST_USE static inline enum yugerzat_answer yugerzat_get_setattr3args(const uint8_t *src, size_t src_len,
    size_t at, struct yugerzat_setattr3args *value, struct yugerzat_reading *reading)
{
    struct yugerzat_private_rest rest;
    struct yugerzat_reading part;
    enum yugerzat_answer answer = yugerzat_private_judged(YUGERZAT_KIND_SETATTR3ARGS, src, src_len, at, &rest, reading);
    memset(value, 0, sizeof *value);
    if (answer != YUGERZAT_DONE)
        return answer;
    value->object = yugerzat_private_take_opaque(&rest);
    if (yugerzat_get_sattr3(src, rest.end, rest.at, &value->new_attributes, &part) == YUGERZAT_DONE)
        rest.at = part.next;
    yugerzat_private_take_guard(&rest, &value->guard);
    return answer;
}

static inline void yugerzat_private_lay_setattr3args(
    struct yugerzat_private_room *room, const struct yugerzat_setattr3args *value)
{
    struct yugerzat_writing part;
    enum yugerzat_answer answer;
    yugerzat_private_lay_opaque(room, value->object);
    answer = yugerzat_put_sattr3(&value->new_attributes, room->next, room->left, 0, &part);
    yugerzat_private_lay_part(room, answer, &part);
    yugerzat_private_lay_sattrguard3(room, &value->guard);
}

YUGERZAT_MUST_USE static inline enum yugerzat_answer yugerzat_put_setattr3args(
    const struct yugerzat_setattr3args *value, uint8_t *out, size_t out_len, size_t start,
    struct yugerzat_writing *writing)
{
    struct yugerzat_private_room room = yugerzat_private_no_room();
    yugerzat_private_lay_setattr3args(&room, value);
    if (yugerzat_private_fits(&room, out, out_len, start))
        yugerzat_private_lay_setattr3args(&room, value);
    return yugerzat_private_laid(&room, YUGERZAT_KIND_SETATTR3ARGS, out, start, writing);
}

YUGERZAT_MUST_USE static inline enum yugerzat_answer yugerzat_get_setattr3res(
    const uint8_t *src, size_t src_len, size_t at, struct yugerzat_setattr3res *value, struct yugerzat_reading *reading)
{
    struct yugerzat_private_rest rest;
    enum yugerzat_answer answer = yugerzat_private_judged(YUGERZAT_KIND_SETATTR3RES, src, src_len, at, &rest, reading);
    memset(value, 0, sizeof *value);
    if (answer != YUGERZAT_DONE)
        return answer;
    value->status = (enum yugerzat_nfsstat3)yugerzat_private_take_word(&rest);
    yugerzat_private_take_wcc_data(&rest, &value->obj_wcc);
    return answer;
}

static inline void yugerzat_private_lay_setattr3res(
    struct yugerzat_private_room *room, const struct yugerzat_setattr3res *value)
{
    yugerzat_private_lay_number(room, YUGERZAT_KIND_NFSSTAT3, (uint32_t)value->status);
    yugerzat_private_lay_wcc_data(room, &value->obj_wcc);
}

YUGERZAT_MUST_USE static inline enum yugerzat_answer yugerzat_put_setattr3res(const struct yugerzat_setattr3res *value,
    uint8_t *out, size_t out_len, size_t start, struct yugerzat_writing *writing)
{
    struct yugerzat_private_room room = yugerzat_private_no_room();
    yugerzat_private_lay_setattr3res(&room, value);
    if (yugerzat_private_fits(&room, out, out_len, start))
        yugerzat_private_lay_setattr3res(&room, value);
    return yugerzat_private_laid(&room, YUGERZAT_KIND_SETATTR3RES, out, start, writing);
}

/* ------------------------------------------------------------------ LOOKUP */

YUGERZAT_MUST_USE static inline enum yugerzat_answer yugerzat_get_lookup3args(
    const uint8_t *src, size_t src_len, size_t at, struct yugerzat_lookup3args *value, struct yugerzat_reading *reading)
{
    struct yugerzat_private_rest rest;
    struct yugerzat_reading part;
    enum yugerzat_answer answer = yugerzat_private_judged(YUGERZAT_KIND_LOOKUP3ARGS, src, src_len, at, &rest, reading);
    memset(value, 0, sizeof *value);
    if (answer != YUGERZAT_DONE)
        return answer;
    if (yugerzat_get_diropargs3(src, rest.end, rest.at, &value->what, &part) == YUGERZAT_DONE)
        rest.at = part.next;
    return answer;
}

static inline void yugerzat_private_lay_lookup3args(
    struct yugerzat_private_room *room, const struct yugerzat_lookup3args *value)
{
    struct yugerzat_writing part;
    enum yugerzat_answer answer = yugerzat_put_diropargs3(&value->what, room->next, room->left, 0, &part);
    yugerzat_private_lay_part(room, answer, &part);
}

YUGERZAT_MUST_USE static inline enum yugerzat_answer yugerzat_put_lookup3args(const struct yugerzat_lookup3args *value,
    uint8_t *out, size_t out_len, size_t start, struct yugerzat_writing *writing)
{
    struct yugerzat_private_room room = yugerzat_private_no_room();
    yugerzat_private_lay_lookup3args(&room, value);
    if (yugerzat_private_fits(&room, out, out_len, start))
        yugerzat_private_lay_lookup3args(&room, value);
    return yugerzat_private_laid(&room, YUGERZAT_KIND_LOOKUP3ARGS, out, start, writing);
}

YUGERZAT_MUST_USE static inline enum yugerzat_answer yugerzat_get_lookup3res(
    const uint8_t *src, size_t src_len, size_t at, struct yugerzat_lookup3res *value, struct yugerzat_reading *reading)
{
    struct yugerzat_private_rest rest;
    enum yugerzat_answer answer = yugerzat_private_judged(YUGERZAT_KIND_LOOKUP3RES, src, src_len, at, &rest, reading);
    memset(value, 0, sizeof *value);
    if (answer != YUGERZAT_DONE)
        return answer;
    value->status = (enum yugerzat_nfsstat3)yugerzat_private_take_word(&rest);
    if (value->status == YUGERZAT_NFS3_OK) {
        value->object = yugerzat_private_take_opaque(&rest);
        yugerzat_private_take_post_op_attr(&rest, &value->obj_attributes);
    }
    yugerzat_private_take_post_op_attr(&rest, &value->dir_attributes);
    return answer;
}

static inline void yugerzat_private_lay_lookup3res(
    struct yugerzat_private_room *room, const struct yugerzat_lookup3res *value)
{
    yugerzat_private_lay_number(room, YUGERZAT_KIND_NFSSTAT3, (uint32_t)value->status);
    if (value->status == YUGERZAT_NFS3_OK) {
        yugerzat_private_lay_opaque(room, value->object);
        yugerzat_private_lay_post_op_attr(room, &value->obj_attributes);
    }
    yugerzat_private_lay_post_op_attr(room, &value->dir_attributes);
}

YUGERZAT_MUST_USE static inline enum yugerzat_answer yugerzat_put_lookup3res(const struct yugerzat_lookup3res *value,
    uint8_t *out, size_t out_len, size_t start, struct yugerzat_writing *writing)
{
    struct yugerzat_private_room room = yugerzat_private_no_room();
    yugerzat_private_lay_lookup3res(&room, value);
    if (yugerzat_private_fits(&room, out, out_len, start))
        yugerzat_private_lay_lookup3res(&room, value);
    return yugerzat_private_laid(&room, YUGERZAT_KIND_LOOKUP3RES, out, start, writing);
}

/* ------------------------------------------------------------------ READ */

YUGERZAT_MUST_USE static inline enum yugerzat_answer yugerzat_get_read3args(
    const uint8_t *src, size_t src_len, size_t at, struct yugerzat_read3args *value, struct yugerzat_reading *reading)
{
    struct yugerzat_private_rest rest;
    enum yugerzat_answer answer = yugerzat_private_judged(YUGERZAT_KIND_READ3ARGS, src, src_len, at, &rest, reading);
    memset(value, 0, sizeof *value);
    if (answer != YUGERZAT_DONE)
        return answer;
    value->file = yugerzat_private_take_opaque(&rest);
    value->offset = yugerzat_private_take_hyper(&rest);
    value->count = yugerzat_private_take_word(&rest);
    return answer;
}

static inline void yugerzat_private_lay_read3args(
    struct yugerzat_private_room *room, const struct yugerzat_read3args *value)
{
    yugerzat_private_lay_opaque(room, value->file);
    yugerzat_private_lay_hyper(room, value->offset);
    yugerzat_private_lay_word(room, value->count);
}

YUGERZAT_MUST_USE static inline enum yugerzat_answer yugerzat_put_read3args(const struct yugerzat_read3args *value,
    uint8_t *out, size_t out_len, size_t start, struct yugerzat_writing *writing)
{
    struct yugerzat_private_room room = yugerzat_private_no_room();
    yugerzat_private_lay_read3args(&room, value);
    if (yugerzat_private_fits(&room, out, out_len, start))
        yugerzat_private_lay_read3args(&room, value);
    return yugerzat_private_laid(&room, YUGERZAT_KIND_READ3ARGS, out, start, writing);
}

YUGERZAT_MUST_USE static inline enum yugerzat_answer yugerzat_get_read3res(
    const uint8_t *src, size_t src_len, size_t at, struct yugerzat_read3res *value, struct yugerzat_reading *reading)
{
    struct yugerzat_private_rest rest;
    enum yugerzat_answer answer = yugerzat_private_judged(YUGERZAT_KIND_READ3RES, src, src_len, at, &rest, reading);
    memset(value, 0, sizeof *value);
    if (answer != YUGERZAT_DONE)
        return answer;
    value->status = (enum yugerzat_nfsstat3)yugerzat_private_take_word(&rest);
    yugerzat_private_take_post_op_attr(&rest, &value->file_attributes);
    if (value->status == YUGERZAT_NFS3_OK) {
        value->count = yugerzat_private_take_word(&rest);
        value->eof = yugerzat_private_take_flag(&rest);
        value->data = yugerzat_private_take_opaque(&rest);
    }
    return answer;
}

static inline void yugerzat_private_lay_read3res(
    struct yugerzat_private_room *room, const struct yugerzat_read3res *value)
{
    yugerzat_private_lay_number(room, YUGERZAT_KIND_NFSSTAT3, (uint32_t)value->status);
    yugerzat_private_lay_post_op_attr(room, &value->file_attributes);
    if (value->status == YUGERZAT_NFS3_OK) {
        yugerzat_private_lay_word(room, value->count);
        yugerzat_private_lay_word(room, value->eof);
        yugerzat_private_lay_opaque(room, value->data);
    }
}

YUGERZAT_MUST_USE static inline enum yugerzat_answer yugerzat_put_read3res(
    const struct yugerzat_read3res *value, uint8_t *out, size_t out_len, size_t start, struct yugerzat_writing *writing)
{
    struct yugerzat_private_room room = yugerzat_private_no_room();
    yugerzat_private_lay_read3res(&room, value);
    if (yugerzat_private_fits(&room, out, out_len, start))
        yugerzat_private_lay_read3res(&room, value);
    return yugerzat_private_laid(&room, YUGERZAT_KIND_READ3RES, out, start, writing);
}

/* ------------------------------------------------------------------ WRITE */

YUGERZAT_MUST_USE static inline enum yugerzat_answer yugerzat_get_write3args(
    const uint8_t *src, size_t src_len, size_t at, struct yugerzat_write3args *value, struct yugerzat_reading *reading)
{
    struct yugerzat_private_rest rest;
    enum yugerzat_answer answer = yugerzat_private_judged(YUGERZAT_KIND_WRITE3ARGS, src, src_len, at, &rest, reading);
    memset(value, 0, sizeof *value);
    if (answer != YUGERZAT_DONE)
        return answer;
    value->file = yugerzat_private_take_opaque(&rest);
    value->offset = yugerzat_private_take_hyper(&rest);
    value->count = yugerzat_private_take_word(&rest);
    value->stable = (enum yugerzat_stable_how)yugerzat_private_take_word(&rest);
    value->data = yugerzat_private_take_opaque(&rest);
    return answer;
}

static inline void yugerzat_private_lay_write3args(
    struct yugerzat_private_room *room, const struct yugerzat_write3args *value)
{
    yugerzat_private_lay_opaque(room, value->file);
    yugerzat_private_lay_hyper(room, value->offset);
    yugerzat_private_lay_word(room, value->count);
    yugerzat_private_lay_number(room, YUGERZAT_KIND_STABLE_HOW, (uint32_t)value->stable);
    yugerzat_private_lay_opaque(room, value->data);
}

YUGERZAT_MUST_USE static inline enum yugerzat_answer yugerzat_put_write3args(const struct yugerzat_write3args *value,
    uint8_t *out, size_t out_len, size_t start, struct yugerzat_writing *writing)
{
    struct yugerzat_private_room room = yugerzat_private_no_room();
    yugerzat_private_lay_write3args(&room, value);
    if (yugerzat_private_fits(&room, out, out_len, start))
        yugerzat_private_lay_write3args(&room, value);
    return yugerzat_private_laid(&room, YUGERZAT_KIND_WRITE3ARGS, out, start, writing);
}

YUGERZAT_MUST_USE static inline enum yugerzat_answer yugerzat_get_write3res(
    const uint8_t *src, size_t src_len, size_t at, struct yugerzat_write3res *value, struct yugerzat_reading *reading)
{
    struct yugerzat_private_rest rest;
    const uint8_t *verf;
    enum yugerzat_answer answer = yugerzat_private_judged(YUGERZAT_KIND_WRITE3RES, src, src_len, at, &rest, reading);
    memset(value, 0, sizeof *value);
    if (answer != YUGERZAT_DONE)
        return answer;
    value->status = (enum yugerzat_nfsstat3)yugerzat_private_take_word(&rest);
    yugerzat_private_take_wcc_data(&rest, &value->file_wcc);
    if (value->status == YUGERZAT_NFS3_OK) {
        value->count = yugerzat_private_take_word(&rest);
        value->committed = (enum yugerzat_stable_how)yugerzat_private_take_word(&rest);
        verf = yugerzat_private_take(&rest, sizeof value->verf);
        if (verf)
            memcpy(value->verf, verf, sizeof value->verf);
    }
    return answer;
}

static inline void yugerzat_private_lay_write3res(
    struct yugerzat_private_room *room, const struct yugerzat_write3res *value)
{
    yugerzat_private_lay_number(room, YUGERZAT_KIND_NFSSTAT3, (uint32_t)value->status);
    yugerzat_private_lay_wcc_data(room, &value->file_wcc);
    if (value->status == YUGERZAT_NFS3_OK) {
        yugerzat_private_lay_word(room, value->count);
        yugerzat_private_lay_number(room, YUGERZAT_KIND_STABLE_HOW, (uint32_t)value->committed);
        yugerzat_private_lay_bytes(room, value->verf, sizeof value->verf);
    }
}

YUGERZAT_MUST_USE static inline enum yugerzat_answer yugerzat_put_write3res(const struct yugerzat_write3res *value,
    uint8_t *out, size_t out_len, size_t start, struct yugerzat_writing *writing)
{
    struct yugerzat_private_room room = yugerzat_private_no_room();
    yugerzat_private_lay_write3res(&room, value);
    if (yugerzat_private_fits(&room, out, out_len, start))
        yugerzat_private_lay_write3res(&room, value);
    return yugerzat_private_laid(&room, YUGERZAT_KIND_WRITE3RES, out, start, writing);
}

#endif
