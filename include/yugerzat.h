/*
 * Yugerzat: a proved wire layer for NFS version 3, for programs in C (C99 and later) and C++ (C++11 and later).
 *
 * It reads and writes the messages of XDR (RFC 4506), ONC RPC (RFC 5531) and NFS (RFC 1813), assembles records from a
 * stream, and chooses the program that a call is for. It reads what the Rust crate nfsserve 0.11.0 reads, says whether
 * that came in published form, and writes published form only. It also answers for mounts and ports (yugerzat_mount.h).
 *
 *     cc program.c $(pkg-config --cflags --libs yugerzat)      after ./install PREFIX
 *     cc -Iinclude program.c build/libyugerzat.a               in the repository, after ./library
 *
 * The library needs nothing else. It allocates nothing, keeps nothing between calls, calls no function of the system,
 * and may be used by any number of threads at once. c/example.c, c/filter.c and c/mount_server.c show how it is used.
 *
 * THE FUNCTIONS that programs call:
 *
 *     yugerzat_get_KIND         reads a message into a struct: rpc_msg, auth_unix, fattr3, sattr3, diropargs3, and the
 *                               arguments and results of procedures, which stand in yugerzat_nfs.h
 *     yugerzat_put_KIND         writes a struct in published form: the same kinds; and yugerzat_put_fragment
 *     yugerzat_judge_kind       reads a message of any kind: is it plain, and how long is its rewriting?
 *     yugerzat_rewrite_kind     reads a message of any kind, and writes it in published form
 *     yugerzat_mark_kind        reads a message of any kind: the padding of which of its pieces was dirty?
 *     yugerzat_feed_run         assembles records from a stream
 *     yugerzat_choose_program   says what to do with a message that came in
 *     yugerzat_ask_program      the same for a server that answers for mounts and ports too; it stands in
 *                               yugerzat_mount.h, with what belongs to mounts and ports
 *     yugerzat_get_current_rpc_msg, yugerzat_put_current_rpc_msg, yugerzat_choose_current_program
 *                               the same for rpc_msg in the current reading: see TWO READINGS
 *     yugerzat_procedure_kinds  says of which kinds the arguments and results of a procedure are
 *     yugerzat_strerror, yugerzat_kind_name, yugerzat_kind_by_name
 *
 * They are inline, over the library's own functions, which put numbers into lists where these fill structs. Those are
 * for bindings to other languages, and stand in yugerzat_list.h.
 *
 * SLICES. Memory is lent as an address and a length, in that order. The library reads and writes only inside what is
 * lent. A caller must hold to this, which no proof can see:
 *   - `length` bytes lie at the address and stay there during the call; where the library writes, they may be written;
 *   - what the library writes (not const) overlaps nothing else that is lent in the same call, nor the pieces of a
 *     value that is written. The compiler relies on this (noalias): otherwise the behaviour is undefined;
 *   - where the length is 0 the address is not looked at: NULL is fine.
 *
 * PLACES are offsets: counts of bytes from the start of a slice. A message is read from a place `at` on, and the
 * reading says the next place. A message is written from a place `start` on, and all other bytes of out stay.
 *
 * PIECES. Opaque bytes (names, handles, credentials) are not copied out of a message. What was read has a piece of the
 * message instead, an address and a count. It is good as long as the message stays where it is, and as it is.
 *
 * PLAIN AND LOOSE. A message that was read is plain if its bytes are in published form (others say canonical): every
 * flag is 0 or 1, all padding is zero, every tag is declared. Otherwise it is loose: taken as it was meant. Its
 * REWRITING is the same message in published form, and never longer than the larger of 40 bytes and the bytes read.
 *
 * MARKS. Where a message is loose, yugerzat_mark_kind says of each of its pieces whether it is clean (its padding was all
 * zero) or dirty, and yugerzat_piece_name which field that is. A mark is no part of the message: two messages are the
 * same whatever their marks, and a writer writes zeros in any case. If all pieces are clean, a flag was odd or a tag
 * was not declared.
 *
 * Plain does not mean that a strict server takes the message:
 *   - Four upper bounds of the RFCs are not held against it: 400 bytes for a credential's body, 255 for a machine
 *     name, 16 gids, 64 bytes for a file handle. Servers refuse calls that pass them, so if you pass calls on, test
 *     the counts of these pieces.
 *   - It covers only the bytes that were read. The body of a credential stays opaque in a plain rpc_msg, so an odd
 *     byte inside an AUTH_UNIX credential is seen by yugerzat_get_auth_unix alone. The arguments of a call come after
 *     its rpc_msg, and are to be read by themselves.
 *
 * TWO READINGS OF REPLIES. In nfsserve's, accept_stat is 0 to 4 and auth_stat 1 to 5; in the CURRENT READING, which is
 * RFC 5531's, accept_stat is 0 to 5 and auth_stat 0 to 14. A larger accept_stat reads as GARBAGE_ARGS, so in the first
 * reading 5, SYSTEM_ERR, a server's own failure, looks like the caller's. Whoever must answer just as nfsserve does
 * takes the functions without `current` in their names; whoever relays replies, or looks for the cause of a failure,
 * takes those with it. The kinds whose names begin with current_ are the current reading too, for the functions that
 * take any kind. A call is the same in both readings.
 *
 * ANSWERS. Every call of every function returns an answer. 0, and those from 100 on, hand something over. 1 to 10 are
 * REFUSALS, a numbered "no": nothing is handed over, and every lent buffer stays as it was. (One exception: after
 * YUGERZAT_FRAGMENT_TOO_LONG the record buffer holds what was placed before.) From 253 on the call itself is at fault,
 * and nothing is written.
 *
 * WANTING. Where a message ends too soon, the refusal says how many bytes are wanting (still missing) to finish the
 * item inside which it ends: the rest of a word, a hyper or eight fixed bytes; of an opaque or a list, the rest of its
 * length word if that is cut, and else the rest of its content and padding, or of its words. Exactly so many more bytes
 * finish the item, whatever they hold, and fewer never do, as long as the message stays within YUGERZAT_LIMIT_BYTES.
 * So a program whose bytes come late waits for no byte too many:
 *
 *     while (yugerzat_get_rpc_msg(message, length, 0, &header, &reading) == YUGERZAT_ENDS) {
 *         uint64_t wanting = reading.refusal.wanting;
 *         if (wanting > sizeof message - length)
 *             return -1;
 *         receive(message + length, (size_t)wanting);
 *         length += (size_t)wanting;
 *     }
 *
 * It tests its room first, because the sender chooses the length words: up to 17,179,869,180 bytes can be wanting.
 */
#ifndef YUGERZAT_H
#define YUGERZAT_H

#include <stddef.h>
#include <stdint.h>
#include <string.h>
#ifndef __cplusplus
#include <stdbool.h>
#endif

/* made by tools/generate: version */
#define YUGERZAT_VERSION "0.7.2"
/* end of version */

/* The compiler warns where an answer is not looked at. */
#if defined __GNUC__ || defined __clang__
#define YUGERZAT_MUST_USE __attribute__((warn_unused_result))
#else
#define YUGERZAT_MUST_USE
#endif

/*
 * Enumerations are passed to the library as the 32-bit numbers that they are there. C++ is told so, and then every
 * such number is a lawful value. In C this is tested below; -fshort-enums would break it.
 */
#ifdef __cplusplus
#define YUGERZAT_32_BITS : uint32_t
#else
#define YUGERZAT_32_BITS
#endif

/* ------------------------------------------------------------------ the answers */

enum yugerzat_answer YUGERZAT_32_BITS {
    /* It was done. */
    YUGERZAT_DONE = 0,

    /* Refusals. The first two have a place, and so has the last, where it is one of a reading. */
    YUGERZAT_ENDS = 1,               /* the message ends inside an item: its first byte; how many bytes are wanting */
    YUGERZAT_UNDECLARED = 2,         /* a number is not one of its enumeration, or no time_how: the place of its word */
    YUGERZAT_TOO_LONG = 3,           /* a message, a source, a capacity or an encoding is over YUGERZAT_LIMIT_BYTES */
    YUGERZAT_OUTSIDE = 4,            /* a piece lies outside its source (yugerzat_list.h alone), or a list is none */
    YUGERZAT_NO_ROOM = 5,            /* too little room from the asked place on: how many bytes are needed */
    YUGERZAT_STATE_DOES_NOT_FIT = 6, /* the assembler's state does not fit, itself or the record buffer */
    YUGERZAT_FRAGMENT_TOO_LONG = 7,  /* a fragment would pass the end of the record buffer; the state is then stopped */
    YUGERZAT_REPLY_CAME = 8,         /* a reply reached the choice of program */
    YUGERZAT_PAST_END = 9,           /* a start place is past the end */
    YUGERZAT_LONG_PATH = 10,         /* a path is above 1,024 bytes: the place of its length word */

    /* Answers of yugerzat_choose_program and yugerzat_ask_program. */
    YUGERZAT_HAND_OVER = 100,
    YUGERZAT_REPLY = 101,
    YUGERZAT_SILENCE = 102,

    /* Answers of yugerzat_feed_run. */
    YUGERZAT_MORE = 103,
    YUGERZAT_COMPLETE = 104,

    /* Answers of yugerzat_ask_program: which procedure is called. */
    YUGERZAT_MNT = 105,
    YUGERZAT_UMNT = 106,
    YUGERZAT_EXPORT = 107,
    YUGERZAT_GETPORT = 108,

    /* The call itself is at fault. */
    YUGERZAT_WIDE_NUMBER = 253,  /* a number to be written does not fit its field, or is not one of its enumeration */
    YUGERZAT_SHORT_LIST = 254,   /* a lent list of figures is too short (yugerzat_list.h alone) */
    YUGERZAT_UNKNOWN_KIND = 255, /* there is no kind of that number */
};

typedef char yugerzat_answer_has_32_bits[sizeof(enum yugerzat_answer) == 4 ? 1 : -1];

/* A message, a source, an assembler's capacity and an encoding have at most so many bytes. */
#define YUGERZAT_LIMIT_BYTES ((size_t)1048576)

/* No message has more pieces. */
#define YUGERZAT_LIMIT_PIECES 2

/* What an answer means, in a few words. Never NULL. */
static inline const char *yugerzat_strerror(enum yugerzat_answer answer)
{
    switch (answer) {
    case YUGERZAT_DONE: return "done";
    case YUGERZAT_ENDS: return "the message ends too soon";
    case YUGERZAT_UNDECLARED: return "a number is not declared";
    case YUGERZAT_TOO_LONG: return "longer than 1,048,576 bytes";
    case YUGERZAT_OUTSIDE: return "a piece lies outside its source";
    case YUGERZAT_NO_ROOM: return "too little room for the output";
    case YUGERZAT_STATE_DOES_NOT_FIT: return "the assembler's state does not fit";
    case YUGERZAT_FRAGMENT_TOO_LONG: return "a fragment is longer than the record buffer has room";
    case YUGERZAT_REPLY_CAME: return "a reply where a call is due";
    case YUGERZAT_PAST_END: return "a start place is past the end";
    case YUGERZAT_LONG_PATH: return "a path is above 1,024 bytes";
    case YUGERZAT_HAND_OVER: return "a call for a program that is served";
    case YUGERZAT_REPLY: return "a reply is to be sent";
    case YUGERZAT_SILENCE: return "a call that came before gets no reply";
    case YUGERZAT_MORE: return "the record is not complete";
    case YUGERZAT_COMPLETE: return "the record is complete";
    case YUGERZAT_MNT: return "a call of MNT";
    case YUGERZAT_UMNT: return "a call of UMNT";
    case YUGERZAT_EXPORT: return "a call of EXPORT";
    case YUGERZAT_GETPORT: return "a call of GETPORT";
    case YUGERZAT_WIDE_NUMBER: return "a number to be written is too large or not declared";
    case YUGERZAT_SHORT_LIST: return "a list of figures is too short";
    case YUGERZAT_UNKNOWN_KIND: return "there is no kind of that number";
    }
    return "not an answer of this library";
}

/* ------------------------------------------------------------------ the kinds of message */

/* The names are those of the RFCs and of nfsserve. The numbers never change. */
/* made by tools/generate: kinds */
enum yugerzat_kind YUGERZAT_32_BITS {
    YUGERZAT_KIND_BOOL = 0,
    YUGERZAT_KIND_I32 = 1,
    YUGERZAT_KIND_I64 = 2,
    YUGERZAT_KIND_U32 = 3,
    YUGERZAT_KIND_U64 = 4,
    YUGERZAT_KIND_EIGHT = 5,  /* eight bytes without a length: [u8; 8] */
    YUGERZAT_KIND_OPAQUE = 6, /* Vec<u8> */
    YUGERZAT_KIND_NFSSTRING = 7,
    YUGERZAT_KIND_WORDS = 8, /* a counted list of words: Vec<u32> */
    YUGERZAT_KIND_MSG_TYPE = 9,
    YUGERZAT_KIND_REPLY_STAT = 10,
    YUGERZAT_KIND_ACCEPT_STAT = 11,
    YUGERZAT_KIND_REJECT_STAT = 12,
    YUGERZAT_KIND_AUTH_STAT = 13,
    YUGERZAT_KIND_AUTH_FLAVOR = 14,
    YUGERZAT_KIND_TIME_HOW = 15,
    YUGERZAT_KIND_NFSSTAT3 = 16,
    YUGERZAT_KIND_FTYPE3 = 17,
    YUGERZAT_KIND_AUTH_UNIX = 18,
    YUGERZAT_KIND_OPAQUE_AUTH = 19,
    YUGERZAT_KIND_RPC_MSG = 20,
    YUGERZAT_KIND_RPC_BODY = 21,
    YUGERZAT_KIND_CALL_BODY = 22,
    YUGERZAT_KIND_REPLY_BODY = 23,
    YUGERZAT_KIND_ACCEPTED_REPLY = 24,
    YUGERZAT_KIND_ACCEPT_BODY = 25,
    YUGERZAT_KIND_REJECTED_REPLY = 26,
    YUGERZAT_KIND_MISMATCH_INFO = 27,
    YUGERZAT_KIND_SPECDATA3 = 28,
    YUGERZAT_KIND_NFS_FH3 = 29,
    YUGERZAT_KIND_NFSTIME3 = 30,
    YUGERZAT_KIND_FATTR3 = 31,
    YUGERZAT_KIND_FSINFO3 = 32,
    YUGERZAT_KIND_WCC_ATTR = 33,
    YUGERZAT_KIND_PRE_OP_ATTR = 34,
    YUGERZAT_KIND_POST_OP_ATTR = 35,
    YUGERZAT_KIND_WCC_DATA = 36,
    YUGERZAT_KIND_POST_OP_FH3 = 37,
    YUGERZAT_KIND_SET_MODE3 = 38,
    YUGERZAT_KIND_SET_UID3 = 39,
    YUGERZAT_KIND_SET_GID3 = 40,
    YUGERZAT_KIND_SET_SIZE3 = 41,
    YUGERZAT_KIND_SET_ATIME = 42,
    YUGERZAT_KIND_SET_MTIME = 43,
    YUGERZAT_KIND_SATTR3 = 44,
    YUGERZAT_KIND_DIROPARGS3 = 45,
    YUGERZAT_KIND_SYMLINKDATA3 = 46,
    YUGERZAT_KIND_STABLE_HOW = 47,
    YUGERZAT_KIND_SATTRGUARD3 = 48,
    YUGERZAT_KIND_GETATTR3ARGS = 49,
    YUGERZAT_KIND_GETATTR3RES = 50,
    YUGERZAT_KIND_SETATTR3ARGS = 51,
    YUGERZAT_KIND_SETATTR3RES = 52,
    YUGERZAT_KIND_LOOKUP3ARGS = 53,
    YUGERZAT_KIND_LOOKUP3RES = 54,
    YUGERZAT_KIND_READ3ARGS = 55,
    YUGERZAT_KIND_READ3RES = 56,
    YUGERZAT_KIND_WRITE3ARGS = 57,
    YUGERZAT_KIND_WRITE3RES = 58,
    YUGERZAT_KIND_CURRENT_ACCEPT_STAT = 59,
    YUGERZAT_KIND_CURRENT_AUTH_STAT = 60,
    YUGERZAT_KIND_CURRENT_ACCEPT_BODY = 61,
    YUGERZAT_KIND_CURRENT_ACCEPTED_REPLY = 62,
    YUGERZAT_KIND_CURRENT_REJECTED_REPLY = 63,
    YUGERZAT_KIND_CURRENT_REPLY_BODY = 64,
    YUGERZAT_KIND_CURRENT_RPC_BODY = 65,
    YUGERZAT_KIND_CURRENT_RPC_MSG = 66,
    YUGERZAT_KIND_DIRPATH = 67,
    YUGERZAT_KIND_MOUNTSTAT3 = 68,
    YUGERZAT_KIND_MOUNTRES3 = 69,
    YUGERZAT_KIND_EXPORTS = 70,
    YUGERZAT_KIND_MAPPING = 71,
};
#define YUGERZAT_KINDS 72 /* how many there are: their numbers are below this */
/* end of kinds */

typedef char yugerzat_kind_has_32_bits[sizeof(enum yugerzat_kind) == 4 ? 1 : -1];

/* The name of a kind: "fattr3". "?" where there is no such kind. */
static inline const char *yugerzat_kind_name(enum yugerzat_kind kind)
{
    static const char *const names[YUGERZAT_KINDS] = {
        /* clang-format off */
        /* made by tools/generate: kind names */
        "bool",
        "i32",
        "i64",
        "u32",
        "u64",
        "eight",
        "opaque",
        "nfsstring",
        "words",
        "msg_type",
        "reply_stat",
        "accept_stat",
        "reject_stat",
        "auth_stat",
        "auth_flavor",
        "time_how",
        "nfsstat3",
        "ftype3",
        "auth_unix",
        "opaque_auth",
        "rpc_msg",
        "rpc_body",
        "call_body",
        "reply_body",
        "accepted_reply",
        "accept_body",
        "rejected_reply",
        "mismatch_info",
        "specdata3",
        "nfs_fh3",
        "nfstime3",
        "fattr3",
        "fsinfo3",
        "wcc_attr",
        "pre_op_attr",
        "post_op_attr",
        "wcc_data",
        "post_op_fh3",
        "set_mode3",
        "set_uid3",
        "set_gid3",
        "set_size3",
        "set_atime",
        "set_mtime",
        "sattr3",
        "diropargs3",
        "symlinkdata3",
        "stable_how",
        "sattrguard3",
        "getattr3args",
        "getattr3res",
        "setattr3args",
        "setattr3res",
        "lookup3args",
        "lookup3res",
        "read3args",
        "read3res",
        "write3args",
        "write3res",
        "current_accept_stat",
        "current_auth_stat",
        "current_accept_body",
        "current_accepted_reply",
        "current_rejected_reply",
        "current_reply_body",
        "current_rpc_body",
        "current_rpc_msg",
        "dirpath",
        "mountstat3",
        "mountres3",
        "exports",
        "mapping",
        /* end of kind names */
        /* clang-format on */
    };
    return (uint32_t)kind < YUGERZAT_KINDS ? names[kind] : "?";
}

/* Finds the kind of a name. False, and kind is untouched, where there is none. */
YUGERZAT_MUST_USE static inline bool yugerzat_kind_by_name(const char *name, enum yugerzat_kind *kind)
{
    uint32_t number;
    for (number = 0; number < YUGERZAT_KINDS; number++) {
        if (strcmp(name, yugerzat_kind_name((enum yugerzat_kind)number)) == 0) {
            *kind = (enum yugerzat_kind)number;
            return true;
        }
    }
    return false;
}

/* ------------------------------------------------------------------ procedures */

/*
 * The procedures of NFS version 3 (RFC 1813, section 3) whose arguments and results are kinds here, by the numbers that
 * calls have for them. A later version of the library may know more.
 */
/* made by tools/generate: procedures */
enum yugerzat_procedure YUGERZAT_32_BITS {
    YUGERZAT_PROCEDURE_GETATTR = 1,
    YUGERZAT_PROCEDURE_SETATTR = 2,
    YUGERZAT_PROCEDURE_LOOKUP = 3,
    YUGERZAT_PROCEDURE_READ = 6,
    YUGERZAT_PROCEDURE_WRITE = 7,
};
/* end of procedures */

/* The kinds of a procedure's arguments and results. False, and both are untouched, where it is another procedure. */
YUGERZAT_MUST_USE static inline bool yugerzat_procedure_kinds(
    uint32_t procedure, enum yugerzat_kind *arguments, enum yugerzat_kind *results)
{
    switch (procedure) {
        /* made by tools/generate: procedure kinds */
    case YUGERZAT_PROCEDURE_GETATTR:
        *arguments = YUGERZAT_KIND_GETATTR3ARGS;
        *results = YUGERZAT_KIND_GETATTR3RES;
        return true;
    case YUGERZAT_PROCEDURE_SETATTR:
        *arguments = YUGERZAT_KIND_SETATTR3ARGS;
        *results = YUGERZAT_KIND_SETATTR3RES;
        return true;
    case YUGERZAT_PROCEDURE_LOOKUP:
        *arguments = YUGERZAT_KIND_LOOKUP3ARGS;
        *results = YUGERZAT_KIND_LOOKUP3RES;
        return true;
    case YUGERZAT_PROCEDURE_READ:
        *arguments = YUGERZAT_KIND_READ3ARGS;
        *results = YUGERZAT_KIND_READ3RES;
        return true;
    case YUGERZAT_PROCEDURE_WRITE:
        *arguments = YUGERZAT_KIND_WRITE3ARGS;
        *results = YUGERZAT_KIND_WRITE3RES;
        return true;
        /* end of procedure kinds */
    default: return false;
    }
}

/* ------------------------------------------------------------------ the library's own functions */

#include "yugerzat_list.h"

/* ------------------------------------------------------------------ what every function tells */

/* Opaque bytes in the caller's own memory. */
struct yugerzat_piece {
    const uint8_t *bytes;
    size_t count;
};

/* A list of words in the caller's own memory, four bytes each, as they are on the wire; yugerzat_word_at reads one. */
struct yugerzat_words {
    const uint8_t *bytes;
    size_t count; /* of words */
};

/* Why something was refused. It is filled at every call: where nothing is refused, by the answer alone. */
struct yugerzat_refusal {
    enum yugerzat_answer answer; /* what the function returned */
    size_t place;                /* of a reading, YUGERZAT_ENDS, YUGERZAT_UNDECLARED, YUGERZAT_LONG_PATH: where;
                                    YUGERZAT_NO_PLACE for all others */
    uint64_t wanting;            /* YUGERZAT_ENDS: how many bytes are wanting; else 0 */
    size_t needed;               /* YUGERZAT_NO_ROOM: how many bytes the output takes, from its start on; else 0 */
};

/* The place of a refusal that has none. No message is so long that it could be one. */
#define YUGERZAT_NO_PLACE ((size_t)-1)

/* What a reading tells besides the value. */
struct yugerzat_reading {
    size_t next; /* the place after what was read; 0 where it was refused */
    bool plain;  /* whether that is in published form; false where it was refused */
    struct yugerzat_refusal refusal;
};

/* What judging and rewriting tell. */
struct yugerzat_rewriting {
    size_t next;
    bool plain;
    size_t size; /* how many bytes the rewriting has; 0 where it was refused */
    struct yugerzat_refusal refusal;
};

/* What marking tells. */
struct yugerzat_marking {
    size_t next;
    bool plain;
    size_t pieces;                     /* how many pieces the message has; 0 where it was refused */
    bool clean[YUGERZAT_LIMIT_PIECES]; /* of each: whether its padding was all zero; false behind the last */
    struct yugerzat_refusal refusal;
};

/* What a writing tells. */
struct yugerzat_writing {
    size_t after; /* the place after what was written; 0 where it was refused */
    struct yugerzat_refusal refusal;
};

/* What is named private serves this header alone. */

/* The refusal of a reading. Only the figures that belong to the answer are looked at: there may be no others. */
static inline struct yugerzat_refusal yugerzat_private_refusal(enum yugerzat_answer answer, const uint64_t *info)
{
    struct yugerzat_refusal refusal;
    bool ends = answer == YUGERZAT_ENDS;
    bool placed = ends || answer == YUGERZAT_UNDECLARED || answer == YUGERZAT_LONG_PATH;
    refusal.answer = answer;
    refusal.place = placed ? (size_t)info[YUGERZAT_FIGURE_PLACE] : YUGERZAT_NO_PLACE;
    refusal.wanting = ends ? info[YUGERZAT_FIGURE_WANTING] : 0;
    refusal.needed = 0;
    return refusal;
}

static inline enum yugerzat_answer yugerzat_private_read(
    enum yugerzat_answer answer, const uint64_t *info, struct yugerzat_reading *reading)
{
    bool done = answer == YUGERZAT_DONE;
    reading->next = done ? (size_t)info[YUGERZAT_FIGURE_NEXT] : 0;
    reading->plain = done && info[YUGERZAT_FIGURE_PLAIN] != 0;
    reading->refusal = yugerzat_private_refusal(answer, info);
    return answer;
}

static inline enum yugerzat_answer yugerzat_private_rewritten(
    enum yugerzat_answer answer, const uint64_t *info, struct yugerzat_rewriting *rewriting)
{
    bool done = answer == YUGERZAT_DONE;
    rewriting->next = done ? (size_t)info[YUGERZAT_FIGURE_NEXT] : 0;
    rewriting->plain = done && info[YUGERZAT_FIGURE_PLAIN] != 0;
    rewriting->size = done ? (size_t)info[YUGERZAT_FIGURE_REWRITE_SIZE] : 0;
    rewriting->refusal = yugerzat_private_refusal(answer, info);
    if (answer == YUGERZAT_NO_ROOM)
        rewriting->refusal.needed = (size_t)info[YUGERZAT_FIGURE_REWRITE_SIZE];
    return answer;
}

static inline enum yugerzat_answer yugerzat_private_written(
    enum yugerzat_answer answer, const uint64_t *info, struct yugerzat_writing *writing)
{
    writing->after = answer == YUGERZAT_DONE ? (size_t)info[YUGERZAT_FIGURE_WRITTEN_AFTER] : 0;
    writing->refusal.answer = answer;
    writing->refusal.place = YUGERZAT_NO_PLACE;
    writing->refusal.wanting = 0;
    writing->refusal.needed = answer == YUGERZAT_NO_ROOM ? (size_t)info[YUGERZAT_FIGURE_WRITTEN_NEEDED] : 0;
    return answer;
}

/* A piece of src whose place and count are figures[0] and figures[1]. */
static inline struct yugerzat_piece yugerzat_private_piece(const uint8_t *src, const uint64_t *figures)
{
    struct yugerzat_piece piece;
    piece.bytes = src + figures[0];
    piece.count = (size_t)figures[1];
    return piece;
}

static inline struct yugerzat_words yugerzat_private_words(const uint8_t *src, const uint64_t *figures)
{
    struct yugerzat_words words;
    words.bytes = src + figures[0];
    words.count = (size_t)figures[1];
    return words;
}

/* A word of a list, counted from 0. The caller sees to it that index is less than words->count. */
static inline uint32_t yugerzat_word_at(const struct yugerzat_words *words, size_t index)
{
    const uint8_t *at = words->bytes + 4 * index;
    return (uint32_t)at[0] << 24 | (uint32_t)at[1] << 16 | (uint32_t)at[2] << 8 | (uint32_t)at[3];
}

/* Puts a word, counted from 0, into the bytes of a list that is to be written. */
static inline void yugerzat_set_word(uint8_t *bytes, size_t index, uint32_t word)
{
    uint8_t *at = bytes + 4 * index;
    at[0] = (uint8_t)(word >> 24);
    at[1] = (uint8_t)(word >> 16);
    at[2] = (uint8_t)(word >> 8);
    at[3] = (uint8_t)word;
}

/* ------------------------------------------------------------------ any kind */

/*
 * Reads a message of a kind from place `at` of src, and writes nothing: says whether it is plain, and how long its
 * rewriting is. Refusals: YUGERZAT_ENDS, YUGERZAT_UNDECLARED, YUGERZAT_TOO_LONG (src), YUGERZAT_PAST_END (at), and of
 * the kinds that hold paths YUGERZAT_LONG_PATH.
 */
YUGERZAT_MUST_USE static inline enum yugerzat_answer yugerzat_judge_kind(
    enum yugerzat_kind kind, const uint8_t *src, size_t src_len, size_t at, struct yugerzat_rewriting *rewriting)
{
    uint64_t info[YUGERZAT_FIGURES_JUDGE];
    return yugerzat_private_rewritten(
        yugerzat_judge(kind, src, src_len, at, info, YUGERZAT_FIGURES_JUDGE), info, rewriting);
}

/*
 * Reads a message of a kind from place `at` of src, and writes its rewriting from the start of out. Two messages of a
 * kind are the same exactly when their rewritings are equal bytes. Refusals: those of judging, and YUGERZAT_NO_ROOM
 * (out).
 */
YUGERZAT_MUST_USE static inline enum yugerzat_answer yugerzat_rewrite_kind(enum yugerzat_kind kind, const uint8_t *src,
    size_t src_len, size_t at, uint8_t *out, size_t out_len, struct yugerzat_rewriting *rewriting)
{
    uint64_t info[YUGERZAT_FIGURES_REWRITE];
    return yugerzat_private_rewritten(
        yugerzat_rewrite(kind, src, src_len, at, out, out_len, info, YUGERZAT_FIGURES_REWRITE), info, rewriting);
}

/*
 * Reads a message of a kind from place `at` of src, and writes nothing: says of each of its pieces whether it is clean.
 * Where no flag is odd and no tag undeclared, the message is plain exactly if all are. Refusals: those of judging.
 */
YUGERZAT_MUST_USE static inline enum yugerzat_answer yugerzat_mark_kind(
    enum yugerzat_kind kind, const uint8_t *src, size_t src_len, size_t at, struct yugerzat_marking *marking)
{
    uint64_t info[YUGERZAT_FIGURES_MARKS];
    enum yugerzat_answer answer = yugerzat_marks(kind, src, src_len, at, info, YUGERZAT_FIGURES_MARKS);
    bool done = answer == YUGERZAT_DONE;
    marking->next = done ? (size_t)info[YUGERZAT_FIGURE_NEXT] : 0;
    marking->plain = done && info[YUGERZAT_FIGURE_PLAIN] != 0;
    marking->pieces = done ? (size_t)info[YUGERZAT_FIGURE_MARKS_PIECES] : 0;
    marking->clean[0] = done && info[YUGERZAT_FIGURE_MARKS_FIRST] != 0;
    marking->clean[1] = done && info[YUGERZAT_FIGURE_MARKS_SECOND] != 0;
    marking->refusal = yugerzat_private_refusal(answer, info);
    return answer;
}

/*
 * Which field a piece is, counted from 0, of a message of a kind that has so many pieces: "dir.data" and "name" of a
 * diropargs3. Kinds with cases, as rpc_msg, have other pieces in each, and another count of them. What is one piece
 * itself has the kind's name. NULL if there is no such piece.
 */
static inline const char *yugerzat_piece_name(enum yugerzat_kind kind, size_t pieces, size_t index)
{
    static const struct {
        enum yugerzat_kind kind;
        size_t pieces;
        const char *names[YUGERZAT_LIMIT_PIECES];
    } table[] = {
        /* made by tools/generate: pieces */
        {YUGERZAT_KIND_OPAQUE, 1, {"opaque", NULL}},
        {YUGERZAT_KIND_NFSSTRING, 1, {"nfsstring", NULL}},
        {YUGERZAT_KIND_WORDS, 1, {"words", NULL}},
        {YUGERZAT_KIND_AUTH_UNIX, 2, {"machinename", "gids"}},
        {YUGERZAT_KIND_OPAQUE_AUTH, 1, {"body", NULL}},
        {YUGERZAT_KIND_RPC_MSG, 2, {"cred.body", "verf.body"}},
        {YUGERZAT_KIND_RPC_MSG, 1, {"verf.body", NULL}},
        {YUGERZAT_KIND_RPC_BODY, 2, {"cred.body", "verf.body"}},
        {YUGERZAT_KIND_RPC_BODY, 1, {"verf.body", NULL}},
        {YUGERZAT_KIND_CALL_BODY, 2, {"cred.body", "verf.body"}},
        {YUGERZAT_KIND_REPLY_BODY, 1, {"verf.body", NULL}},
        {YUGERZAT_KIND_ACCEPTED_REPLY, 1, {"verf.body", NULL}},
        {YUGERZAT_KIND_NFS_FH3, 1, {"data", NULL}},
        {YUGERZAT_KIND_POST_OP_FH3, 1, {"handle.data", NULL}},
        {YUGERZAT_KIND_DIROPARGS3, 2, {"dir.data", "name"}},
        {YUGERZAT_KIND_SYMLINKDATA3, 1, {"symlink_data", NULL}},
        {YUGERZAT_KIND_GETATTR3ARGS, 1, {"object.data", NULL}},
        {YUGERZAT_KIND_SETATTR3ARGS, 1, {"object.data", NULL}},
        {YUGERZAT_KIND_LOOKUP3ARGS, 2, {"what.dir.data", "what.name"}},
        {YUGERZAT_KIND_LOOKUP3RES, 1, {"object.data", NULL}},
        {YUGERZAT_KIND_READ3ARGS, 1, {"file.data", NULL}},
        {YUGERZAT_KIND_READ3RES, 1, {"data", NULL}},
        {YUGERZAT_KIND_WRITE3ARGS, 2, {"file.data", "data"}},
        {YUGERZAT_KIND_CURRENT_ACCEPTED_REPLY, 1, {"verf.body", NULL}},
        {YUGERZAT_KIND_CURRENT_REPLY_BODY, 1, {"verf.body", NULL}},
        {YUGERZAT_KIND_CURRENT_RPC_BODY, 2, {"cred.body", "verf.body"}},
        {YUGERZAT_KIND_CURRENT_RPC_BODY, 1, {"verf.body", NULL}},
        {YUGERZAT_KIND_CURRENT_RPC_MSG, 2, {"cred.body", "verf.body"}},
        {YUGERZAT_KIND_CURRENT_RPC_MSG, 1, {"verf.body", NULL}},
        {YUGERZAT_KIND_DIRPATH, 1, {"dirpath", NULL}},
        {YUGERZAT_KIND_MOUNTRES3, 2, {"fhandle", "auth_flavors"}},
        {YUGERZAT_KIND_EXPORTS, 1, {"exports", NULL}},
        /* end of pieces */
    };
    size_t row;
    for (row = 0; row < sizeof table / sizeof table[0]; row++)
        if (table[row].kind == kind && table[row].pieces == pieces && index < pieces)
            return table[row].names[index];
    return NULL;
}

/*
 * READERS AND WRITERS OF STRUCTS are all of one form:
 *
 *     yugerzat_get_KIND(src, src_len, at, &value, &reading)
 *
 * reads a message of that kind from place `at` of src. YUGERZAT_DONE: value holds it, and reading the rest. Refusals:
 * YUGERZAT_ENDS, YUGERZAT_UNDECLARED, YUGERZAT_TOO_LONG (src), YUGERZAT_PAST_END (at); all of value is then 0.
 *
 *     yugerzat_put_KIND(&value, out, out_len, start, &writing)
 *
 * writes a message of that kind, in published form, from place `start` of out. Other answers than YUGERZAT_DONE, in
 * this order: YUGERZAT_WIDE_NUMBER (a member that is an enumeration has a number that is not declared),
 * YUGERZAT_PAST_END (start), YUGERZAT_TOO_LONG (a piece, or what would be written), YUGERZAT_NO_ROOM.
 */

/* ------------------------------------------------------------------ rpc_msg: the header of a call or a reply */

/* Other flavors, RPCSEC_GSS among them, are refused. */
enum yugerzat_auth_flavor YUGERZAT_32_BITS {
    YUGERZAT_AUTH_NULL = 0,
    YUGERZAT_AUTH_UNIX = 1,
    YUGERZAT_AUTH_SHORT = 2,
    YUGERZAT_AUTH_DES = 3,
};

/* A credential or a verifier. */
struct yugerzat_opaque_auth {
    enum yugerzat_auth_flavor flavor;
    struct yugerzat_piece body;
};

enum yugerzat_accept_stat YUGERZAT_32_BITS {
    YUGERZAT_SUCCESS = 0,
    YUGERZAT_PROG_UNAVAIL = 1,
    YUGERZAT_PROG_MISMATCH = 2,
    YUGERZAT_PROC_UNAVAIL = 3,
    YUGERZAT_GARBAGE_ARGS = 4,

    /* The current reading alone: the other functions never give it, and refuse to write it. */
    YUGERZAT_SYSTEM_ERR = 5,
};

enum yugerzat_auth_stat YUGERZAT_32_BITS {
    YUGERZAT_AUTH_BADCRED = 1,
    YUGERZAT_AUTH_REJECTEDCRED = 2,
    YUGERZAT_AUTH_BADVERF = 3,
    YUGERZAT_AUTH_REJECTEDVERF = 4,
    YUGERZAT_AUTH_TOOWEAK = 5,

    /* The current reading alone: the other functions never give them, and refuse to write them. */
    YUGERZAT_AUTH_OK = 0,
    YUGERZAT_AUTH_INVALIDRESP = 6,
    YUGERZAT_AUTH_FAILED = 7,
    YUGERZAT_AUTH_KERB_GENERIC = 8,
    YUGERZAT_AUTH_TIMEEXPIRE = 9,
    YUGERZAT_AUTH_TKT_FILE = 10,
    YUGERZAT_AUTH_DECODE = 11,
    YUGERZAT_AUTH_NET_ADDR = 12,
    YUGERZAT_RPCSEC_GSS_CREDPROBLEM = 13,
    YUGERZAT_RPCSEC_GSS_CTXPROBLEM = 14,
};

/* Which of its four forms an rpc_msg has. */
enum yugerzat_tag YUGERZAT_32_BITS {
    YUGERZAT_TAG_CALL = 0,
    YUGERZAT_TAG_ACCEPTED = 1,       /* a REPLY, MSG_ACCEPTED */
    YUGERZAT_TAG_DENIED_VERSION = 2, /* a REPLY, MSG_DENIED, RPC_MISMATCH */
    YUGERZAT_TAG_DENIED_AUTH = 3,    /* a REPLY, MSG_DENIED, AUTH_ERROR */
};

struct yugerzat_call {
    uint32_t rpcvers; /* 2 */
    uint32_t prog;
    uint32_t vers;
    uint32_t proc;
    struct yugerzat_opaque_auth cred;
    struct yugerzat_opaque_auth verf;
};

/* The lowest and the highest version. */
struct yugerzat_mismatch_info {
    uint32_t low;
    uint32_t high;
};

struct yugerzat_accepted_reply {
    struct yugerzat_opaque_auth verf;
    enum yugerzat_accept_stat stat;
    struct yugerzat_mismatch_info mismatch; /* YUGERZAT_PROG_MISMATCH; else 0 and 0 when read, and not written */
};

struct yugerzat_rpc_msg {
    uint32_t xid;
    enum yugerzat_tag tag;
    union {
        struct yugerzat_call call;                    /* YUGERZAT_TAG_CALL */
        struct yugerzat_accepted_reply accepted;      /* YUGERZAT_TAG_ACCEPTED */
        struct yugerzat_mismatch_info denied_version; /* YUGERZAT_TAG_DENIED_VERSION */
        enum yugerzat_auth_stat denied_auth;          /* YUGERZAT_TAG_DENIED_AUTH */
    } body;
};

/* Both readings have the same figures: `current` says which of the library's functions is called. */
static inline enum yugerzat_answer yugerzat_private_get_rpc_msg(bool current, const uint8_t *src, size_t src_len,
    size_t at, struct yugerzat_rpc_msg *value, struct yugerzat_reading *reading)
{
    uint64_t info[YUGERZAT_FIGURES_RPC_MSG];
    enum yugerzat_answer answer = (current ? yugerzat_read_current_rpc_msg : yugerzat_read_rpc_msg)(
        src, src_len, at, info, YUGERZAT_FIGURES_RPC_MSG);
    memset(value, 0, sizeof *value);
    value->xid = (uint32_t)info[YUGERZAT_FIGURE_RPC_MSG_XID];
    value->tag = (enum yugerzat_tag)info[YUGERZAT_FIGURE_RPC_MSG_TAG];
    if (answer != YUGERZAT_DONE)
        return yugerzat_private_read(answer, info, reading);
    if (value->tag == YUGERZAT_TAG_CALL) {
        struct yugerzat_call *call = &value->body.call;
        call->rpcvers = (uint32_t)info[YUGERZAT_FIGURE_RPC_MSG_CALL_RPCVERS];
        call->prog = (uint32_t)info[YUGERZAT_FIGURE_RPC_MSG_CALL_PROG];
        call->vers = (uint32_t)info[YUGERZAT_FIGURE_RPC_MSG_CALL_VERS];
        call->proc = (uint32_t)info[YUGERZAT_FIGURE_RPC_MSG_CALL_PROC];
        call->cred.flavor = (enum yugerzat_auth_flavor)info[YUGERZAT_FIGURE_RPC_MSG_CALL_CRED_FLAVOR];
        call->cred.body = yugerzat_private_piece(src, info + YUGERZAT_FIGURE_RPC_MSG_CALL_CRED_AT);
        call->verf.flavor = (enum yugerzat_auth_flavor)info[YUGERZAT_FIGURE_RPC_MSG_CALL_VERF_FLAVOR];
        call->verf.body = yugerzat_private_piece(src, info + YUGERZAT_FIGURE_RPC_MSG_CALL_VERF_AT);
    } else if (value->tag == YUGERZAT_TAG_ACCEPTED) {
        struct yugerzat_accepted_reply *accepted = &value->body.accepted;
        accepted->verf.flavor = (enum yugerzat_auth_flavor)info[YUGERZAT_FIGURE_RPC_MSG_ACCEPTED_VERF_FLAVOR];
        accepted->verf.body = yugerzat_private_piece(src, info + YUGERZAT_FIGURE_RPC_MSG_ACCEPTED_VERF_AT);
        accepted->stat = (enum yugerzat_accept_stat)info[YUGERZAT_FIGURE_RPC_MSG_ACCEPTED_STAT];
        accepted->mismatch.low = (uint32_t)info[YUGERZAT_FIGURE_RPC_MSG_ACCEPTED_LOW];
        accepted->mismatch.high = (uint32_t)info[YUGERZAT_FIGURE_RPC_MSG_ACCEPTED_HIGH];
    } else if (value->tag == YUGERZAT_TAG_DENIED_VERSION) {
        value->body.denied_version.low = (uint32_t)info[YUGERZAT_FIGURE_RPC_MSG_DENIED_LOW];
        value->body.denied_version.high = (uint32_t)info[YUGERZAT_FIGURE_RPC_MSG_DENIED_HIGH];
    } else {
        value->body.denied_auth = (enum yugerzat_auth_stat)info[YUGERZAT_FIGURE_RPC_MSG_DENIED_AUTH_STAT];
    }
    return yugerzat_private_read(answer, info, reading);
}

/* The arguments of a call, or the results of a reply, begin at reading->next. */
YUGERZAT_MUST_USE static inline enum yugerzat_answer yugerzat_get_rpc_msg(
    const uint8_t *src, size_t src_len, size_t at, struct yugerzat_rpc_msg *value, struct yugerzat_reading *reading)
{
    return yugerzat_private_get_rpc_msg(false, src, src_len, at, value, reading);
}

/* The same in the current reading. */
YUGERZAT_MUST_USE static inline enum yugerzat_answer yugerzat_get_current_rpc_msg(
    const uint8_t *src, size_t src_len, size_t at, struct yugerzat_rpc_msg *value, struct yugerzat_reading *reading)
{
    return yugerzat_private_get_rpc_msg(true, src, src_len, at, value, reading);
}

static inline enum yugerzat_answer yugerzat_private_put_call(
    uint32_t xid, const struct yugerzat_call *call, uint8_t *out, size_t out_len, size_t start, uint64_t *info)
{
    uint64_t fields[YUGERZAT_FIGURES_WRITE_CALL];
    fields[YUGERZAT_FIGURE_WRITE_CALL_XID] = xid;
    fields[YUGERZAT_FIGURE_WRITE_CALL_RPCVERS] = call->rpcvers;
    fields[YUGERZAT_FIGURE_WRITE_CALL_PROG] = call->prog;
    fields[YUGERZAT_FIGURE_WRITE_CALL_VERS] = call->vers;
    fields[YUGERZAT_FIGURE_WRITE_CALL_PROC] = call->proc;
    fields[YUGERZAT_FIGURE_WRITE_CALL_CRED_FLAVOR] = (uint64_t)call->cred.flavor;
    fields[YUGERZAT_FIGURE_WRITE_CALL_CRED_AT] = 0;
    fields[YUGERZAT_FIGURE_WRITE_CALL_CRED_COUNT] = call->cred.body.count;
    fields[YUGERZAT_FIGURE_WRITE_CALL_VERF_FLAVOR] = (uint64_t)call->verf.flavor;
    fields[YUGERZAT_FIGURE_WRITE_CALL_VERF_AT] = 0;
    fields[YUGERZAT_FIGURE_WRITE_CALL_VERF_COUNT] = call->verf.body.count;
    return yugerzat_write_call(call->cred.body.bytes, call->cred.body.count, call->verf.body.bytes,
        call->verf.body.count, fields, YUGERZAT_FIGURES_WRITE_CALL, out, out_len, start, info,
        YUGERZAT_FIGURES_WRITTEN);
}

static inline enum yugerzat_answer yugerzat_private_put_reply(
    bool current, const struct yugerzat_rpc_msg *value, uint8_t *out, size_t out_len, size_t start, uint64_t *info)
{
    uint64_t figures[YUGERZAT_FIGURES_RPC_MSG] = {0};
    const uint64_t *fields = figures + YUGERZAT_FIGURE_FIELDS;
    struct yugerzat_piece verf = {NULL, 0};
    figures[YUGERZAT_FIGURE_RPC_MSG_XID] = value->xid;
    figures[YUGERZAT_FIGURE_RPC_MSG_TAG] = (uint64_t)value->tag;
    if (value->tag == YUGERZAT_TAG_ACCEPTED) {
        const struct yugerzat_accepted_reply *accepted = &value->body.accepted;
        verf = accepted->verf.body;
        figures[YUGERZAT_FIGURE_RPC_MSG_ACCEPTED_VERF_FLAVOR] = (uint64_t)accepted->verf.flavor;
        figures[YUGERZAT_FIGURE_RPC_MSG_ACCEPTED_VERF_COUNT] = verf.count;
        figures[YUGERZAT_FIGURE_RPC_MSG_ACCEPTED_STAT] = (uint64_t)accepted->stat;
        figures[YUGERZAT_FIGURE_RPC_MSG_ACCEPTED_LOW] = accepted->mismatch.low;
        figures[YUGERZAT_FIGURE_RPC_MSG_ACCEPTED_HIGH] = accepted->mismatch.high;
    } else if (value->tag == YUGERZAT_TAG_DENIED_VERSION) {
        figures[YUGERZAT_FIGURE_RPC_MSG_DENIED_LOW] = value->body.denied_version.low;
        figures[YUGERZAT_FIGURE_RPC_MSG_DENIED_HIGH] = value->body.denied_version.high;
    } else if (value->tag == YUGERZAT_TAG_DENIED_AUTH) {
        figures[YUGERZAT_FIGURE_RPC_MSG_DENIED_AUTH_STAT] = (uint64_t)value->body.denied_auth;
    }
    return (current ? yugerzat_write_current_reply : yugerzat_write_reply)(verf.bytes, verf.count, fields,
        YUGERZAT_FIGURES_WRITE_REPLY, out, out_len, start, info, YUGERZAT_FIGURES_WRITTEN);
}

static inline enum yugerzat_answer yugerzat_private_put_rpc_msg(bool current, const struct yugerzat_rpc_msg *value,
    uint8_t *out, size_t out_len, size_t start, struct yugerzat_writing *writing)
{
    uint64_t info[YUGERZAT_FIGURES_WRITTEN] = {0};
    enum yugerzat_answer answer =
        value->tag == YUGERZAT_TAG_CALL
            ? yugerzat_private_put_call(value->xid, &value->body.call, out, out_len, start, info)
            : yugerzat_private_put_reply(current, value, out, out_len, start, info);
    return yugerzat_private_written(answer, info, writing);
}

/* Writes a call or a reply, as the tag says. A call's credential and verifier may lie in different buffers. */
YUGERZAT_MUST_USE static inline enum yugerzat_answer yugerzat_put_rpc_msg(
    const struct yugerzat_rpc_msg *value, uint8_t *out, size_t out_len, size_t start, struct yugerzat_writing *writing)
{
    return yugerzat_private_put_rpc_msg(false, value, out, out_len, start, writing);
}

/* The same in the current reading. */
YUGERZAT_MUST_USE static inline enum yugerzat_answer yugerzat_put_current_rpc_msg(
    const struct yugerzat_rpc_msg *value, uint8_t *out, size_t out_len, size_t start, struct yugerzat_writing *writing)
{
    return yugerzat_private_put_rpc_msg(true, value, out, out_len, start, writing);
}

/* ------------------------------------------------------------------ auth_unix: the body of an AUTH_UNIX credential */

struct yugerzat_auth_unix {
    uint32_t stamp;
    struct yugerzat_piece machinename;
    uint32_t uid;
    uint32_t gid;
    struct yugerzat_words gids;
};

/*
 * Reads the body of a credential whose flavor is YUGERZAT_AUTH_UNIX: lend it the body alone, as src,
 *
 *     yugerzat_get_auth_unix(call->cred.body.bytes, call->cred.body.count, 0, &value, &reading)
 *
 * since the end of the body is the end of the reading. Bytes left over in the body (reading->next on) are ignored.
 * YUGERZAT_ENDS: bytes are wanting in the body; more bytes behind the message do not help.
 */
YUGERZAT_MUST_USE static inline enum yugerzat_answer yugerzat_get_auth_unix(
    const uint8_t *src, size_t src_len, size_t at, struct yugerzat_auth_unix *value, struct yugerzat_reading *reading)
{
    uint64_t info[YUGERZAT_FIGURES_AUTH_UNIX];
    enum yugerzat_answer answer = YUGERZAT_PAST_END;
    /* The library's function takes a piece; a message that is too long is so before its place is looked at. */
    if (at <= src_len || src_len > YUGERZAT_LIMIT_BYTES)
        answer = yugerzat_read_auth_unix(src, src_len, at, src_len - at, info, YUGERZAT_FIGURES_AUTH_UNIX);
    memset(value, 0, sizeof *value);
    if (answer == YUGERZAT_DONE) {
        value->stamp = (uint32_t)info[YUGERZAT_FIGURE_AUTH_UNIX_STAMP];
        value->machinename = yugerzat_private_piece(src, info + YUGERZAT_FIGURE_AUTH_UNIX_NAME_AT);
        value->uid = (uint32_t)info[YUGERZAT_FIGURE_AUTH_UNIX_UID];
        value->gid = (uint32_t)info[YUGERZAT_FIGURE_AUTH_UNIX_GID];
        value->gids = yugerzat_private_words(src, info + YUGERZAT_FIGURE_AUTH_UNIX_GIDS_AT);
    }
    return yugerzat_private_read(answer, info, reading);
}

/* Writes the content of a credential's body: what yugerzat_put_rpc_msg then takes as cred.body. */
YUGERZAT_MUST_USE static inline enum yugerzat_answer yugerzat_put_auth_unix(const struct yugerzat_auth_unix *value,
    uint8_t *out, size_t out_len, size_t start, struct yugerzat_writing *writing)
{
    uint64_t info[YUGERZAT_FIGURES_WRITTEN] = {0};
    uint64_t figures[YUGERZAT_FIGURES_AUTH_UNIX];
    const uint64_t *fields = figures + YUGERZAT_FIGURE_FIELDS;
    enum yugerzat_answer answer;
    size_t gids_len = value->gids.count <= (size_t)-1 / 4 ? value->gids.count * 4 : (size_t)-1;
    figures[YUGERZAT_FIGURE_AUTH_UNIX_STAMP] = value->stamp;
    figures[YUGERZAT_FIGURE_AUTH_UNIX_NAME_AT] = 0;
    figures[YUGERZAT_FIGURE_AUTH_UNIX_NAME_COUNT] = value->machinename.count;
    figures[YUGERZAT_FIGURE_AUTH_UNIX_UID] = value->uid;
    figures[YUGERZAT_FIGURE_AUTH_UNIX_GID] = value->gid;
    figures[YUGERZAT_FIGURE_AUTH_UNIX_GIDS_AT] = 0;
    figures[YUGERZAT_FIGURE_AUTH_UNIX_GIDS_COUNT] = value->gids.count;
    answer = yugerzat_write_auth_unix(value->machinename.bytes, value->machinename.count, value->gids.bytes, gids_len,
        fields, YUGERZAT_FIGURES_WRITE_AUTH_UNIX, out, out_len, start, info, YUGERZAT_FIGURES_WRITTEN);
    return yugerzat_private_written(answer, info, writing);
}

/* ------------------------------------------------------------------ fattr3: the attributes of a file */

enum yugerzat_ftype3 YUGERZAT_32_BITS {
    YUGERZAT_NF3REG = 1,
    YUGERZAT_NF3DIR = 2,
    YUGERZAT_NF3BLK = 3,
    YUGERZAT_NF3CHR = 4,
    YUGERZAT_NF3LNK = 5,
    YUGERZAT_NF3SOCK = 6,
    YUGERZAT_NF3FIFO = 7,
};

struct yugerzat_specdata3 {
    uint32_t specdata1;
    uint32_t specdata2;
};

struct yugerzat_nfstime3 {
    uint32_t seconds;
    uint32_t nseconds;
};

struct yugerzat_fattr3 {
    enum yugerzat_ftype3 type;
    uint32_t mode;
    uint32_t nlink;
    uint32_t uid;
    uint32_t gid;
    uint64_t size;
    uint64_t used;
    struct yugerzat_specdata3 rdev;
    uint64_t fsid;
    uint64_t fileid;
    struct yugerzat_nfstime3 atime;
    struct yugerzat_nfstime3 mtime;
    struct yugerzat_nfstime3 ctime;
};

#define YUGERZAT_FATTR3_BYTES ((size_t)84) /* of every fattr3 */

static inline struct yugerzat_nfstime3 yugerzat_private_time(const uint64_t *figures)
{
    struct yugerzat_nfstime3 moment;
    moment.seconds = (uint32_t)figures[0];
    moment.nseconds = (uint32_t)figures[1];
    return moment;
}

static inline void yugerzat_private_put_time(uint64_t *figures, struct yugerzat_nfstime3 moment)
{
    figures[0] = moment.seconds;
    figures[1] = moment.nseconds;
}

/* A fattr3 that is taken is always plain. */
YUGERZAT_MUST_USE static inline enum yugerzat_answer yugerzat_get_fattr3(
    const uint8_t *src, size_t src_len, size_t at, struct yugerzat_fattr3 *value, struct yugerzat_reading *reading)
{
    uint64_t info[YUGERZAT_FIGURES_FATTR3];
    enum yugerzat_answer answer = yugerzat_read_fattr3(src, src_len, at, info, YUGERZAT_FIGURES_FATTR3);
    value->type = (enum yugerzat_ftype3)info[YUGERZAT_FIGURE_FATTR3_TYPE];
    value->mode = (uint32_t)info[YUGERZAT_FIGURE_FATTR3_MODE];
    value->nlink = (uint32_t)info[YUGERZAT_FIGURE_FATTR3_NLINK];
    value->uid = (uint32_t)info[YUGERZAT_FIGURE_FATTR3_UID];
    value->gid = (uint32_t)info[YUGERZAT_FIGURE_FATTR3_GID];
    value->size = info[YUGERZAT_FIGURE_FATTR3_SIZE];
    value->used = info[YUGERZAT_FIGURE_FATTR3_USED];
    value->rdev.specdata1 = (uint32_t)info[YUGERZAT_FIGURE_FATTR3_SPECDATA1];
    value->rdev.specdata2 = (uint32_t)info[YUGERZAT_FIGURE_FATTR3_SPECDATA2];
    value->fsid = info[YUGERZAT_FIGURE_FATTR3_FSID];
    value->fileid = info[YUGERZAT_FIGURE_FATTR3_FILEID];
    value->atime = yugerzat_private_time(info + YUGERZAT_FIGURE_FATTR3_ATIME_SECONDS);
    value->mtime = yugerzat_private_time(info + YUGERZAT_FIGURE_FATTR3_MTIME_SECONDS);
    value->ctime = yugerzat_private_time(info + YUGERZAT_FIGURE_FATTR3_CTIME_SECONDS);
    return yugerzat_private_read(answer, info, reading);
}

YUGERZAT_MUST_USE static inline enum yugerzat_answer yugerzat_put_fattr3(
    const struct yugerzat_fattr3 *value, uint8_t *out, size_t out_len, size_t start, struct yugerzat_writing *writing)
{
    uint64_t info[YUGERZAT_FIGURES_WRITTEN] = {0};
    uint64_t figures[YUGERZAT_FIGURES_FATTR3];
    const uint64_t *fields = figures + YUGERZAT_FIGURE_FIELDS;
    enum yugerzat_answer answer;
    figures[YUGERZAT_FIGURE_FATTR3_TYPE] = (uint64_t)value->type;
    figures[YUGERZAT_FIGURE_FATTR3_MODE] = value->mode;
    figures[YUGERZAT_FIGURE_FATTR3_NLINK] = value->nlink;
    figures[YUGERZAT_FIGURE_FATTR3_UID] = value->uid;
    figures[YUGERZAT_FIGURE_FATTR3_GID] = value->gid;
    figures[YUGERZAT_FIGURE_FATTR3_SIZE] = value->size;
    figures[YUGERZAT_FIGURE_FATTR3_USED] = value->used;
    figures[YUGERZAT_FIGURE_FATTR3_SPECDATA1] = value->rdev.specdata1;
    figures[YUGERZAT_FIGURE_FATTR3_SPECDATA2] = value->rdev.specdata2;
    figures[YUGERZAT_FIGURE_FATTR3_FSID] = value->fsid;
    figures[YUGERZAT_FIGURE_FATTR3_FILEID] = value->fileid;
    yugerzat_private_put_time(figures + YUGERZAT_FIGURE_FATTR3_ATIME_SECONDS, value->atime);
    yugerzat_private_put_time(figures + YUGERZAT_FIGURE_FATTR3_MTIME_SECONDS, value->mtime);
    yugerzat_private_put_time(figures + YUGERZAT_FIGURE_FATTR3_CTIME_SECONDS, value->ctime);
    answer = yugerzat_write_fattr3(
        fields, YUGERZAT_FIGURES_WRITE_FATTR3, out, out_len, start, info, YUGERZAT_FIGURES_WRITTEN);
    return yugerzat_private_written(answer, info, writing);
}

/* ------------------------------------------------------------------ sattr3: a change of attributes */

enum yugerzat_time_how YUGERZAT_32_BITS {
    YUGERZAT_DONT_CHANGE = 0,
    YUGERZAT_SET_TO_SERVER_TIME = 1,
    YUGERZAT_SET_TO_CLIENT_TIME = 2,
};

/* What is not set is 0 when read, and not written. */
struct yugerzat_sattr3 {
    bool set_mode;
    bool set_uid;
    bool set_gid;
    bool set_size;
    enum yugerzat_time_how set_atime;
    enum yugerzat_time_how set_mtime;
    uint32_t mode;
    uint32_t uid;
    uint32_t gid;
    uint64_t size;
    struct yugerzat_nfstime3 atime; /* YUGERZAT_SET_TO_CLIENT_TIME */
    struct yugerzat_nfstime3 mtime;
};

#define YUGERZAT_SATTR3_MOST_BYTES ((size_t)60) /* if all is set */

YUGERZAT_MUST_USE static inline enum yugerzat_answer yugerzat_get_sattr3(
    const uint8_t *src, size_t src_len, size_t at, struct yugerzat_sattr3 *value, struct yugerzat_reading *reading)
{
    uint64_t info[YUGERZAT_FIGURES_SATTR3];
    enum yugerzat_answer answer = yugerzat_read_sattr3(src, src_len, at, info, YUGERZAT_FIGURES_SATTR3);
    value->set_mode = info[YUGERZAT_FIGURE_SATTR3_MODE_SET] != 0;
    value->set_uid = info[YUGERZAT_FIGURE_SATTR3_UID_SET] != 0;
    value->set_gid = info[YUGERZAT_FIGURE_SATTR3_GID_SET] != 0;
    value->set_size = info[YUGERZAT_FIGURE_SATTR3_SIZE_SET] != 0;
    value->set_atime = (enum yugerzat_time_how)info[YUGERZAT_FIGURE_SATTR3_ATIME_HOW];
    value->set_mtime = (enum yugerzat_time_how)info[YUGERZAT_FIGURE_SATTR3_MTIME_HOW];
    value->mode = (uint32_t)info[YUGERZAT_FIGURE_SATTR3_MODE];
    value->uid = (uint32_t)info[YUGERZAT_FIGURE_SATTR3_UID];
    value->gid = (uint32_t)info[YUGERZAT_FIGURE_SATTR3_GID];
    value->size = info[YUGERZAT_FIGURE_SATTR3_SIZE];
    value->atime = yugerzat_private_time(info + YUGERZAT_FIGURE_SATTR3_ATIME_SECONDS);
    value->mtime = yugerzat_private_time(info + YUGERZAT_FIGURE_SATTR3_MTIME_SECONDS);
    return yugerzat_private_read(answer, info, reading);
}

YUGERZAT_MUST_USE static inline enum yugerzat_answer yugerzat_put_sattr3(
    const struct yugerzat_sattr3 *value, uint8_t *out, size_t out_len, size_t start, struct yugerzat_writing *writing)
{
    uint64_t info[YUGERZAT_FIGURES_WRITTEN] = {0};
    uint64_t figures[YUGERZAT_FIGURES_SATTR3];
    const uint64_t *fields = figures + YUGERZAT_FIGURE_FIELDS;
    enum yugerzat_answer answer;
    figures[YUGERZAT_FIGURE_SATTR3_MODE_SET] = value->set_mode;
    figures[YUGERZAT_FIGURE_SATTR3_MODE] = value->mode;
    figures[YUGERZAT_FIGURE_SATTR3_UID_SET] = value->set_uid;
    figures[YUGERZAT_FIGURE_SATTR3_UID] = value->uid;
    figures[YUGERZAT_FIGURE_SATTR3_GID_SET] = value->set_gid;
    figures[YUGERZAT_FIGURE_SATTR3_GID] = value->gid;
    figures[YUGERZAT_FIGURE_SATTR3_SIZE_SET] = value->set_size;
    figures[YUGERZAT_FIGURE_SATTR3_SIZE] = value->size;
    figures[YUGERZAT_FIGURE_SATTR3_ATIME_HOW] = (uint64_t)value->set_atime;
    yugerzat_private_put_time(figures + YUGERZAT_FIGURE_SATTR3_ATIME_SECONDS, value->atime);
    figures[YUGERZAT_FIGURE_SATTR3_MTIME_HOW] = (uint64_t)value->set_mtime;
    yugerzat_private_put_time(figures + YUGERZAT_FIGURE_SATTR3_MTIME_SECONDS, value->mtime);
    answer = yugerzat_write_sattr3(
        fields, YUGERZAT_FIGURES_WRITE_SATTR3, out, out_len, start, info, YUGERZAT_FIGURES_WRITTEN);
    return yugerzat_private_written(answer, info, writing);
}

/* ------------------------------------------------------------------ diropargs3: a name in a directory */

struct yugerzat_diropargs3 {
    struct yugerzat_piece dir; /* the bytes of the directory's handle */
    struct yugerzat_piece name;
};

YUGERZAT_MUST_USE static inline enum yugerzat_answer yugerzat_get_diropargs3(
    const uint8_t *src, size_t src_len, size_t at, struct yugerzat_diropargs3 *value, struct yugerzat_reading *reading)
{
    uint64_t info[YUGERZAT_FIGURES_DIROPARGS3];
    enum yugerzat_answer answer = yugerzat_read_diropargs3(src, src_len, at, info, YUGERZAT_FIGURES_DIROPARGS3);
    memset(value, 0, sizeof *value);
    if (answer == YUGERZAT_DONE) {
        value->dir = yugerzat_private_piece(src, info + YUGERZAT_FIGURE_DIROPARGS3_DIR_AT);
        value->name = yugerzat_private_piece(src, info + YUGERZAT_FIGURE_DIROPARGS3_NAME_AT);
    }
    return yugerzat_private_read(answer, info, reading);
}

YUGERZAT_MUST_USE static inline enum yugerzat_answer yugerzat_put_diropargs3(const struct yugerzat_diropargs3 *value,
    uint8_t *out, size_t out_len, size_t start, struct yugerzat_writing *writing)
{
    uint64_t info[YUGERZAT_FIGURES_WRITTEN] = {0};
    uint64_t figures[YUGERZAT_FIGURES_DIROPARGS3];
    const uint64_t *fields = figures + YUGERZAT_FIGURE_FIELDS;
    enum yugerzat_answer answer;
    figures[YUGERZAT_FIGURE_DIROPARGS3_DIR_AT] = 0;
    figures[YUGERZAT_FIGURE_DIROPARGS3_DIR_COUNT] = value->dir.count;
    figures[YUGERZAT_FIGURE_DIROPARGS3_NAME_AT] = 0;
    figures[YUGERZAT_FIGURE_DIROPARGS3_NAME_COUNT] = value->name.count;
    answer = yugerzat_write_diropargs3(value->dir.bytes, value->dir.count, value->name.bytes, value->name.count, fields,
        YUGERZAT_FIGURES_WRITE_DIROPARGS3, out, out_len, start, info, YUGERZAT_FIGURES_WRITTEN);
    return yugerzat_private_written(answer, info, writing);
}

/* ------------------------------------------------------------------ records in a stream */

/*
 * An assembler's state, which the caller keeps. The members are for looking at; yugerzat_fresh_state makes a state,
 * and yugerzat_feed_run changes it.
 */
struct yugerzat_state {
    uint64_t capacity;     /* the length of the record buffer */
    uint64_t placed;       /* bytes of the record so far */
    uint64_t header_count; /* bytes of a fragment's header so far: 0 to 3 .. */
    uint64_t header_value; /* .. and their value */
    uint64_t left;         /* bytes left in the fragment */
    uint64_t last;         /* 1: the fragment is the record's last */
    uint64_t stopped;      /* 1: a fragment was too long */
};

/* The members are the figures of the library's function, in their order. */
typedef char yugerzat_state_has_its_figures[sizeof(struct yugerzat_state) == 8 * YUGERZAT_FIGURES_STATE ? 1 : -1];

static inline struct yugerzat_state yugerzat_fresh_state(size_t capacity)
{
    struct yugerzat_state state = {0, 0, 0, 0, 0, 0, 0};
    state.capacity = capacity;
    return state;
}

/*
 * Whether the state holds the beginning of a record, or is stopped: a stream that ends so is cut. (A fragment that is
 * empty and not the last leaves nothing to be seen.)
 */
static inline bool yugerzat_inside_record(const struct yugerzat_state *state)
{
    return state->placed != 0 || state->header_count != 0 || state->left != 0 || state->stopped != 0;
}

struct yugerzat_fed {
    size_t used;   /* how many bytes of the run were used */
    size_t length; /* YUGERZAT_COMPLETE: the length of the record; else 0 */
};

/*
 * Feeds a run of bytes from the stream to an assembler. The record is put at the start of buf, whose length must be
 * the capacity at every feed. From one feed to the next its first state->placed bytes, the record so far, have to
 * stay. Another buffer may be lent if it is as long and begins with these bytes: between two records, any other.
 *
 * YUGERZAT_MORE: the run is used up, and the record is not complete.
 * YUGERZAT_COMPLETE: the record is the first fed->length bytes of buf. No byte after the record's end was used, and
 * the state is fresh. Read the record, then feed the rest of the run: that may put the next record over it.
 * YUGERZAT_FRAGMENT_TOO_LONG: the state is stopped, and stays so: where the next record begins cannot be known. No
 * byte is used after that.
 * YUGERZAT_STATE_DOES_NOT_FIT: the state stays as it is, and no byte is used.
 *
 * However the stream is cut, the same comes of it. Feed it to a fresh state in runs of any lengths, empty ones too,
 * each beginning with the first byte that was not used yet: you get the same records in the same order, the same
 * number of bytes used in all, the same stop after the same byte, if there is one, and the same state at the end. On
 * the way, too, what you have depends only on how many bytes were used. Of a run that is not empty a byte is always
 * used unless the state is stopped or does not fit, so whoever feeds again what was not used comes to the end. This is
 * proved of the library's own function; that nothing is lost between that and this one is tested.
 */
YUGERZAT_MUST_USE static inline enum yugerzat_answer yugerzat_feed_run(struct yugerzat_state *state, const uint8_t *run,
    size_t run_len, uint8_t *buf, size_t buf_len, struct yugerzat_fed *fed)
{
    uint64_t figures[YUGERZAT_FIGURES_STATE], info[YUGERZAT_FIGURES_FEED];
    enum yugerzat_answer answer;
    memcpy(figures, state, sizeof figures);
    answer = yugerzat_feed(figures, YUGERZAT_FIGURES_STATE, run, run_len, buf, buf_len, info, YUGERZAT_FIGURES_FEED);
    memcpy(state, figures, sizeof figures);
    fed->used = (size_t)info[YUGERZAT_FIGURE_FEED_USED];
    fed->length = (size_t)info[YUGERZAT_FIGURE_FEED_LENGTH];
    return answer;
}

#define YUGERZAT_FRAGMENT_HEADER_BYTES ((size_t)4)

/*
 * Writes a message as a record's only fragment, a header of four bytes and the message, from place `start` of out.
 * Refusals, in this order: YUGERZAT_PAST_END (start), YUGERZAT_TOO_LONG (message), YUGERZAT_NO_ROOM.
 */
YUGERZAT_MUST_USE static inline enum yugerzat_answer yugerzat_put_fragment(const uint8_t *message, size_t message_len,
    uint8_t *out, size_t out_len, size_t start, struct yugerzat_writing *writing)
{
    uint64_t info[YUGERZAT_FIGURES_WRITTEN] = {0};
    return yugerzat_private_written(
        yugerzat_fragment(message, message_len, out, out_len, start, info, YUGERZAT_FIGURES_WRITTEN), info, writing);
}

/* ------------------------------------------------------------------ the choice of program */

/* What was chosen. All that has no meaning for the answer is 0. */
struct yugerzat_chosen {
    /* YUGERZAT_HAND_OVER */
    uint32_t prog;
    uint32_t vers;
    uint32_t proc;
    size_t arguments;                    /* the place where the arguments begin */
    bool has_auth_unix;                  /* whether the credential is AUTH_UNIX .. */
    struct yugerzat_auth_unix auth_unix; /* .. and what it says */

    /* YUGERZAT_REPLY */
    size_t reply_length;

    struct yugerzat_refusal refusal;
};

#define YUGERZAT_REPLY_BYTES ((size_t)24) /* of every reply that is chosen */

/* The caller, whose figures stand at the same places of info as in the list of yugerzat_choose. */
static inline bool yugerzat_private_caller(
    const uint8_t *message, const uint64_t *info, struct yugerzat_auth_unix *auth_unix)
{
    if (info[YUGERZAT_FIGURE_CHOOSE_UNIX] == 0)
        return false;
    auth_unix->stamp = (uint32_t)info[YUGERZAT_FIGURE_CHOOSE_STAMP];
    auth_unix->machinename = yugerzat_private_piece(message, info + YUGERZAT_FIGURE_CHOOSE_NAME_AT);
    auth_unix->uid = (uint32_t)info[YUGERZAT_FIGURE_CHOOSE_UID];
    auth_unix->gid = (uint32_t)info[YUGERZAT_FIGURE_CHOOSE_GID];
    auth_unix->gids = yugerzat_private_words(message, info + YUGERZAT_FIGURE_CHOOSE_GIDS_AT);
    return true;
}

static inline enum yugerzat_answer yugerzat_private_choose_program(bool current, const uint8_t *message,
    size_t message_len, bool seen, uint8_t *out, size_t out_len, struct yugerzat_chosen *chosen)
{
    uint64_t info[YUGERZAT_FIGURES_CHOOSE];
    enum yugerzat_answer answer = (current ? yugerzat_current_choose : yugerzat_choose)(
        message, message_len, seen ? 1 : 0, out, out_len, info, YUGERZAT_FIGURES_CHOOSE);
    memset(chosen, 0, sizeof *chosen);
    if (answer == YUGERZAT_HAND_OVER) {
        chosen->prog = (uint32_t)info[YUGERZAT_FIGURE_CHOOSE_PROG];
        chosen->vers = (uint32_t)info[YUGERZAT_FIGURE_CHOOSE_VERS];
        chosen->proc = (uint32_t)info[YUGERZAT_FIGURE_CHOOSE_PROC];
        chosen->arguments = (size_t)info[YUGERZAT_FIGURE_CHOOSE_ARGUMENTS];
        chosen->has_auth_unix = yugerzat_private_caller(message, info, &chosen->auth_unix);
    }
    if (answer == YUGERZAT_REPLY)
        chosen->reply_length = (size_t)info[YUGERZAT_FIGURE_CHOOSE_REPLY_LENGTH];
    chosen->refusal = yugerzat_private_refusal(answer, info);
    if (answer == YUGERZAT_NO_ROOM)
        chosen->refusal.needed = YUGERZAT_REPLY_BYTES;
    return answer;
}

/*
 * Chooses what to do with a message that came in; `seen` says whether its call came before.
 *
 * YUGERZAT_HAND_OVER: it is a call for NFS (100003), the port mapper (100000) or mount (100005). out is untouched.
 * YUGERZAT_REPLY: a reply to send back stands at the start of out: the RPC version is not 2 (it names the versions 0
 * and 0, as nfsserve does), or the program is not served.
 * YUGERZAT_SILENCE: the call was seen before.
 * Refusals: YUGERZAT_TOO_LONG, YUGERZAT_ENDS, YUGERZAT_UNDECLARED, YUGERZAT_REPLY_CAME, and YUGERZAT_NO_ROOM where a
 * reply is due and out is shorter than YUGERZAT_REPLY_BYTES. The auth_unix of a credential may be what ends: then
 * bytes are wanting in the credential's body, and more bytes behind the message do not help; yugerzat_get_rpc_msg
 * tells, since it takes such a message.
 */
YUGERZAT_MUST_USE static inline enum yugerzat_answer yugerzat_choose_program(
    const uint8_t *message, size_t message_len, bool seen, uint8_t *out, size_t out_len, struct yugerzat_chosen *chosen)
{
    return yugerzat_private_choose_program(false, message, message_len, seen, out, out_len, chosen);
}

/*
 * The same in the current reading. Two things differ: where the RPC version is not 2 the reply names the versions 2
 * and 2, and a reply that came is YUGERZAT_REPLY_CAME with every auth_stat from 0 to 14.
 */
YUGERZAT_MUST_USE static inline enum yugerzat_answer yugerzat_choose_current_program(
    const uint8_t *message, size_t message_len, bool seen, uint8_t *out, size_t out_len, struct yugerzat_chosen *chosen)
{
    return yugerzat_private_choose_program(true, message, message_len, seen, out, out_len, chosen);
}

/* ------------------------------------------------------------------ arguments and results of procedures */

#include "yugerzat_nfs.h"

/* ------------------------------------------------------------------ mounts and ports */

#include "yugerzat_mount.h"

#endif
