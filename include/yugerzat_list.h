/*
 * The library's own functions, for bindings to other languages. Programs in C and C++ do better with yugerzat.h, which
 * has structs and inline functions over these. It explains slices, places and answers, and is included here.
 *
 * LISTS. A function puts its FIGURES, 64-bit numbers, into a list that the caller lends (`info`); a writer takes the
 * fields of its message from another (`fields`). A list is a slice of uint64_t, so its address is one that uint64_t may
 * have. A list that is longer than it must be is fine: the rest is not touched. Names:
 *   YUGERZAT_FIGURE_...   which figure of a list, counted from 0
 *   YUGERZAT_FIGURES_...  how many figures a list must have
 *
 * PIECES are two figures here, a place and a count: bytes of a message that is read, or of a source that is lent to a
 * writer. The gids of an auth_unix are counted in words of four bytes.
 */
#include "yugerzat.h" /* the answers and the kinds; it includes this file in turn, so it stands before the guard */

#ifndef YUGERZAT_LIST_H
#define YUGERZAT_LIST_H

#ifdef __cplusplus
extern "C" {
#endif

/*
 * READERS put these figures first. Where a reading is refused, all their other figures are 0. So is the place, unless
 * the answer is YUGERZAT_ENDS, YUGERZAT_UNDECLARED or YUGERZAT_LONG_PATH, and the count of bytes wanting, unless it is
 * YUGERZAT_ENDS.
 */
enum {
    YUGERZAT_FIGURE_NEXT = 0,    /* YUGERZAT_DONE: the place after what was read */
    YUGERZAT_FIGURE_PLAIN = 1,   /* YUGERZAT_DONE: 1 if that is in published form, and else 0 */
    YUGERZAT_FIGURE_PLACE = 0,   /* refused: the refusal's place */
    YUGERZAT_FIGURE_WANTING = 1, /* refused: how many bytes are wanting */

    /* A writer's `fields` are its reader's figures from this one on: info + YUGERZAT_FIGURE_FIELDS. */
    YUGERZAT_FIGURE_FIELDS = 2
};

/*
 * WRITERS write in published form from place `start` of out; all other bytes of out stay. They have one figure. The
 * first of these that applies is the answer, and all but YUGERZAT_DONE leave out untouched:
 *   - YUGERZAT_SHORT_LIST: fields or info is too short. Info stays as it is;
 *   - YUGERZAT_WIDE_NUMBER: a figure does not fit its field, since it is over 2^32 - 1, or not declared for an
 *     enumeration. Info stays as it is. A figure that would not be written is not looked at;
 *   - YUGERZAT_PAST_END (start), YUGERZAT_TOO_LONG (a source), YUGERZAT_OUTSIDE (a piece), YUGERZAT_LONG_PATH (a path),
 *     YUGERZAT_TOO_LONG (what would be written): the figure is 0;
 *   - YUGERZAT_NO_ROOM, YUGERZAT_DONE: the figure is as below.
 */
enum {
    YUGERZAT_FIGURE_WRITTEN_AFTER = 0,  /* YUGERZAT_DONE: the place after what was written */
    YUGERZAT_FIGURE_WRITTEN_NEEDED = 0, /* YUGERZAT_NO_ROOM: how many bytes the writing takes, from `start` on */
    YUGERZAT_FIGURES_WRITTEN = 1
};

/* ------------------------------------------------------------------ any kind */

enum {
    YUGERZAT_FIGURE_REWRITE_SIZE = 2, /* how many bytes were written; YUGERZAT_NO_ROOM: how many are needed */
    YUGERZAT_FIGURES_REWRITE = 3,

    YUGERZAT_FIGURE_JUDGE_SIZE = 2, /* how many bytes the rewriting has */
    YUGERZAT_FIGURES_JUDGE = 3,

    YUGERZAT_FIGURE_MARKS_PIECES = 2, /* how many pieces the message has: up to two */
    YUGERZAT_FIGURE_MARKS_FIRST = 3,  /* 1 if the padding of the first was all zero; 0 if not, or if there is none */
    YUGERZAT_FIGURE_MARKS_SECOND = 4, /* the same of the second */
    YUGERZAT_FIGURES_MARKS = 5
};

/*
 * Reads a message of a kind from place `at` of src, and writes it in published form from the start of out.
 * Refusals of the reading: YUGERZAT_ENDS, YUGERZAT_UNDECLARED, YUGERZAT_TOO_LONG (src), YUGERZAT_PAST_END (at), and of
 * the kinds that hold paths YUGERZAT_LONG_PATH.
 * YUGERZAT_NO_ROOM (out): 0, 0 and what is needed. YUGERZAT_UNKNOWN_KIND: three zeros.
 */
YUGERZAT_MUST_USE enum yugerzat_answer yugerzat_rewrite(enum yugerzat_kind kind, const uint8_t *src, size_t src_len,
    size_t at, uint8_t *out, size_t out_len, uint64_t *info, size_t info_len);

/* The same, but nothing is written: says how long the rewriting would be. */
YUGERZAT_MUST_USE enum yugerzat_answer yugerzat_judge(
    enum yugerzat_kind kind, const uint8_t *src, size_t src_len, size_t at, uint64_t *info, size_t info_len);

/* made by tools/generate: each kind */
/* clang-format off */
/* Each kind by its name, in the order of the numbers: with(bool) with(i32) .. */
#define YUGERZAT_EACH_KIND(with) \
    with(bool)                   \
    with(i32)                    \
    with(i64)                    \
    with(u32)                    \
    with(u64)                    \
    with(eight)                  \
    with(opaque)                 \
    with(nfsstring)              \
    with(words)                  \
    with(msg_type)               \
    with(reply_stat)             \
    with(accept_stat)            \
    with(reject_stat)            \
    with(auth_stat)              \
    with(auth_flavor)            \
    with(time_how)               \
    with(nfsstat3)               \
    with(ftype3)                 \
    with(auth_unix)              \
    with(opaque_auth)            \
    with(rpc_msg)                \
    with(rpc_body)               \
    with(call_body)              \
    with(reply_body)             \
    with(accepted_reply)         \
    with(accept_body)            \
    with(rejected_reply)         \
    with(mismatch_info)          \
    with(specdata3)              \
    with(nfs_fh3)                \
    with(nfstime3)               \
    with(fattr3)                 \
    with(fsinfo3)                \
    with(wcc_attr)               \
    with(pre_op_attr)            \
    with(post_op_attr)           \
    with(wcc_data)               \
    with(post_op_fh3)            \
    with(set_mode3)              \
    with(set_uid3)               \
    with(set_gid3)               \
    with(set_size3)              \
    with(set_atime)              \
    with(set_mtime)              \
    with(sattr3)                 \
    with(diropargs3)             \
    with(symlinkdata3)           \
    with(stable_how)             \
    with(sattrguard3)            \
    with(getattr3args)           \
    with(getattr3res)            \
    with(setattr3args)           \
    with(setattr3res)            \
    with(lookup3args)            \
    with(lookup3res)             \
    with(read3args)              \
    with(read3res)               \
    with(write3args)             \
    with(write3res)              \
    with(current_accept_stat)    \
    with(current_auth_stat)      \
    with(current_accept_body)    \
    with(current_accepted_reply) \
    with(current_rejected_reply) \
    with(current_reply_body)     \
    with(current_rpc_body)       \
    with(current_rpc_msg)        \
    with(dirpath)                \
    with(mountstat3)             \
    with(mountres3)              \
    with(exports)                \
    with(mapping)
/* clang-format on */
/* end of each kind */

/*
 * Each kind by itself: yugerzat_rewrite_fattr3 does what yugerzat_rewrite does for YUGERZAT_KIND_FATTR3, and
 * yugerzat_judge_fattr3 what yugerzat_judge does. They take the same arguments without the kind, give the same answers,
 * and are faster, since the kind need not be found by its number.
 */
#define YUGERZAT_PRIVATE_DECLARES(kind)                                                                            \
    YUGERZAT_MUST_USE enum yugerzat_answer yugerzat_rewrite_##kind(const uint8_t *src, size_t src_len, size_t at, \
        uint8_t *out, size_t out_len, uint64_t *info, size_t info_len);                                           \
    YUGERZAT_MUST_USE enum yugerzat_answer yugerzat_judge_##kind(                                                 \
        const uint8_t *src, size_t src_len, size_t at, uint64_t *info, size_t info_len);
YUGERZAT_EACH_KIND(YUGERZAT_PRIVATE_DECLARES)
#undef YUGERZAT_PRIVATE_DECLARES

/*
 * Reads as yugerzat_judge does, with the same answers, and says of each piece of the message whether its padding was all
 * zero. The pieces are in the order of the fields; yugerzat_piece_name names them. A list of words, and an empty piece
 * of a default, are always clean. An export list is one piece: it is clean if all its entries are.
 */
YUGERZAT_MUST_USE enum yugerzat_answer yugerzat_marks(
    enum yugerzat_kind kind, const uint8_t *src, size_t src_len, size_t at, uint64_t *info, size_t info_len);

/* ------------------------------------------------------------------ rpc_msg: the header of a call or a reply */

enum {
    YUGERZAT_FIGURE_RPC_MSG_XID = 2,
    YUGERZAT_FIGURE_RPC_MSG_TAG = 3, /* enum yugerzat_tag: which of the four below it is */

    /* YUGERZAT_TAG_CALL */
    YUGERZAT_FIGURE_RPC_MSG_CALL_RPCVERS = 4,
    YUGERZAT_FIGURE_RPC_MSG_CALL_PROG = 5,
    YUGERZAT_FIGURE_RPC_MSG_CALL_VERS = 6,
    YUGERZAT_FIGURE_RPC_MSG_CALL_PROC = 7,
    YUGERZAT_FIGURE_RPC_MSG_CALL_CRED_FLAVOR = 8, /* enum yugerzat_auth_flavor */
    YUGERZAT_FIGURE_RPC_MSG_CALL_CRED_AT = 9,
    YUGERZAT_FIGURE_RPC_MSG_CALL_CRED_COUNT = 10,
    YUGERZAT_FIGURE_RPC_MSG_CALL_VERF_FLAVOR = 11,
    YUGERZAT_FIGURE_RPC_MSG_CALL_VERF_AT = 12,
    YUGERZAT_FIGURE_RPC_MSG_CALL_VERF_COUNT = 13,

    /* YUGERZAT_TAG_ACCEPTED; the other four are 0 */
    YUGERZAT_FIGURE_RPC_MSG_ACCEPTED_VERF_FLAVOR = 4,
    YUGERZAT_FIGURE_RPC_MSG_ACCEPTED_VERF_AT = 5,
    YUGERZAT_FIGURE_RPC_MSG_ACCEPTED_VERF_COUNT = 6,
    YUGERZAT_FIGURE_RPC_MSG_ACCEPTED_STAT = 7, /* enum yugerzat_accept_stat: 0 to 4; 0 to 5 in the current reading */
    YUGERZAT_FIGURE_RPC_MSG_ACCEPTED_LOW = 8,  /* 0 unless that is YUGERZAT_PROG_MISMATCH */
    YUGERZAT_FIGURE_RPC_MSG_ACCEPTED_HIGH = 9,

    /* YUGERZAT_TAG_DENIED_VERSION; the other eight are 0 */
    YUGERZAT_FIGURE_RPC_MSG_DENIED_LOW = 4,
    YUGERZAT_FIGURE_RPC_MSG_DENIED_HIGH = 5,

    /* YUGERZAT_TAG_DENIED_AUTH; the other nine are 0 */
    YUGERZAT_FIGURE_RPC_MSG_DENIED_AUTH_STAT = 4, /* enum yugerzat_auth_stat: 1 to 5; 0 to 14 in the current reading */

    YUGERZAT_FIGURES_RPC_MSG = 14
};

/*
 * Reads an rpc_msg from place `at` of message. What follows it, arguments or results, begins at YUGERZAT_FIGURE_NEXT.
 * Refusals: YUGERZAT_ENDS, YUGERZAT_UNDECLARED, YUGERZAT_TOO_LONG, YUGERZAT_PAST_END.
 */
YUGERZAT_MUST_USE enum yugerzat_answer yugerzat_read_rpc_msg(
    const uint8_t *message, size_t message_len, size_t at, uint64_t *info, size_t info_len);

/* The same in the current reading. */
YUGERZAT_MUST_USE enum yugerzat_answer yugerzat_read_current_rpc_msg(
    const uint8_t *message, size_t message_len, size_t at, uint64_t *info, size_t info_len);

/* The fields of a call: those of the reader for YUGERZAT_TAG_CALL, without the tag. */
enum {
    YUGERZAT_FIGURE_WRITE_CALL_XID = 0,
    YUGERZAT_FIGURE_WRITE_CALL_RPCVERS = 1,
    YUGERZAT_FIGURE_WRITE_CALL_PROG = 2,
    YUGERZAT_FIGURE_WRITE_CALL_VERS = 3,
    YUGERZAT_FIGURE_WRITE_CALL_PROC = 4,
    YUGERZAT_FIGURE_WRITE_CALL_CRED_FLAVOR = 5,
    YUGERZAT_FIGURE_WRITE_CALL_CRED_AT = 6, /* a piece of cred_source */
    YUGERZAT_FIGURE_WRITE_CALL_CRED_COUNT = 7,
    YUGERZAT_FIGURE_WRITE_CALL_VERF_FLAVOR = 8,
    YUGERZAT_FIGURE_WRITE_CALL_VERF_AT = 9, /* a piece of verf_source */
    YUGERZAT_FIGURE_WRITE_CALL_VERF_COUNT = 10,
    YUGERZAT_FIGURES_WRITE_CALL = 11
};

/* Writes a call. The two sources may be the same buffer. */
YUGERZAT_MUST_USE enum yugerzat_answer yugerzat_write_call(const uint8_t *cred_source, size_t cred_source_len,
    const uint8_t *verf_source, size_t verf_source_len, const uint64_t *fields, size_t fields_len, uint8_t *out,
    size_t out_len, size_t start, uint64_t *info, size_t info_len);

/*
 * Writes a reply. Its fields are the reader's figures from YUGERZAT_FIGURE_RPC_MSG_XID to
 * YUGERZAT_FIGURE_RPC_MSG_ACCEPTED_HIGH: info + YUGERZAT_FIGURE_FIELDS. Those that the tag has no use for are not
 * looked at, nor are LOW and HIGH unless the accept_stat is YUGERZAT_PROG_MISMATCH. The verifier is a piece of source.
 * A tag that is not a reply's is a YUGERZAT_WIDE_NUMBER.
 */
enum { YUGERZAT_FIGURES_WRITE_REPLY = 8 };

YUGERZAT_MUST_USE enum yugerzat_answer yugerzat_write_reply(const uint8_t *source, size_t source_len,
    const uint64_t *fields, size_t fields_len, uint8_t *out, size_t out_len, size_t start, uint64_t *info,
    size_t info_len);

/* The same in the current reading: YUGERZAT_SYSTEM_ERR is written too, and so are the auth_stat 0 and 6 to 14. */
YUGERZAT_MUST_USE enum yugerzat_answer yugerzat_write_current_reply(const uint8_t *source, size_t source_len,
    const uint64_t *fields, size_t fields_len, uint8_t *out, size_t out_len, size_t start, uint64_t *info,
    size_t info_len);

/* ------------------------------------------------------------------ auth_unix: the body of an AUTH_UNIX credential */

enum {
    YUGERZAT_FIGURE_AUTH_UNIX_STAMP = 2,
    YUGERZAT_FIGURE_AUTH_UNIX_NAME_AT = 3,
    YUGERZAT_FIGURE_AUTH_UNIX_NAME_COUNT = 4,
    YUGERZAT_FIGURE_AUTH_UNIX_UID = 5,
    YUGERZAT_FIGURE_AUTH_UNIX_GID = 6,
    YUGERZAT_FIGURE_AUTH_UNIX_GIDS_AT = 7,
    YUGERZAT_FIGURE_AUTH_UNIX_GIDS_COUNT = 8, /* in words */
    YUGERZAT_FIGURES_AUTH_UNIX = 9,

    YUGERZAT_FIGURES_WRITE_AUTH_UNIX = 7 /* from YUGERZAT_FIGURE_AUTH_UNIX_STAMP on */
};

/*
 * Reads the auth_unix inside a credential's body, the piece `at`, `count` of message. The end of the body is the end
 * of the reading; bytes left over in it are ignored. All places are places of the whole message. A body that does not
 * lie in the message is as an empty one: YUGERZAT_ENDS at place 0, 4 bytes wanting.
 * Refusals: YUGERZAT_ENDS (bytes are wanting in the body; more bytes behind the message do not help),
 * YUGERZAT_TOO_LONG.
 */
YUGERZAT_MUST_USE enum yugerzat_answer yugerzat_read_auth_unix(
    const uint8_t *message, size_t message_len, size_t at, size_t count, uint64_t *info, size_t info_len);

/* Writes an auth_unix: the content of a credential's body, without the opaque_auth around it. */
YUGERZAT_MUST_USE enum yugerzat_answer yugerzat_write_auth_unix(const uint8_t *name_source, size_t name_source_len,
    const uint8_t *gids_source, size_t gids_source_len, const uint64_t *fields, size_t fields_len, uint8_t *out,
    size_t out_len, size_t start, uint64_t *info, size_t info_len);

/* ------------------------------------------------------------------ fattr3: the attributes of a file */

enum {
    YUGERZAT_FIGURE_FATTR3_TYPE = 2, /* enum yugerzat_ftype3 */
    YUGERZAT_FIGURE_FATTR3_MODE = 3,
    YUGERZAT_FIGURE_FATTR3_NLINK = 4,
    YUGERZAT_FIGURE_FATTR3_UID = 5,
    YUGERZAT_FIGURE_FATTR3_GID = 6,
    YUGERZAT_FIGURE_FATTR3_SIZE = 7,
    YUGERZAT_FIGURE_FATTR3_USED = 8,
    YUGERZAT_FIGURE_FATTR3_SPECDATA1 = 9,
    YUGERZAT_FIGURE_FATTR3_SPECDATA2 = 10,
    YUGERZAT_FIGURE_FATTR3_FSID = 11,
    YUGERZAT_FIGURE_FATTR3_FILEID = 12,
    YUGERZAT_FIGURE_FATTR3_ATIME_SECONDS = 13,
    YUGERZAT_FIGURE_FATTR3_ATIME_NSECONDS = 14,
    YUGERZAT_FIGURE_FATTR3_MTIME_SECONDS = 15,
    YUGERZAT_FIGURE_FATTR3_MTIME_NSECONDS = 16,
    YUGERZAT_FIGURE_FATTR3_CTIME_SECONDS = 17,
    YUGERZAT_FIGURE_FATTR3_CTIME_NSECONDS = 18,
    YUGERZAT_FIGURES_FATTR3 = 19,

    YUGERZAT_FIGURES_WRITE_FATTR3 = 17 /* from YUGERZAT_FIGURE_FATTR3_TYPE on */
};

/* Refusals: YUGERZAT_ENDS, YUGERZAT_UNDECLARED (the type), YUGERZAT_TOO_LONG, YUGERZAT_PAST_END. */
YUGERZAT_MUST_USE enum yugerzat_answer yugerzat_read_fattr3(
    const uint8_t *src, size_t src_len, size_t at, uint64_t *info, size_t info_len);

YUGERZAT_MUST_USE enum yugerzat_answer yugerzat_write_fattr3(const uint64_t *fields, size_t fields_len, uint8_t *out,
    size_t out_len, size_t start, uint64_t *info, size_t info_len);

/* ------------------------------------------------------------------ sattr3: a change of attributes */

/* What is not set is 0. */
enum {
    YUGERZAT_FIGURE_SATTR3_MODE_SET = 2, /* 0 or 1; the writer takes every number but 0 for 1 */
    YUGERZAT_FIGURE_SATTR3_MODE = 3,
    YUGERZAT_FIGURE_SATTR3_UID_SET = 4,
    YUGERZAT_FIGURE_SATTR3_UID = 5,
    YUGERZAT_FIGURE_SATTR3_GID_SET = 6,
    YUGERZAT_FIGURE_SATTR3_GID = 7,
    YUGERZAT_FIGURE_SATTR3_SIZE_SET = 8,
    YUGERZAT_FIGURE_SATTR3_SIZE = 9,
    YUGERZAT_FIGURE_SATTR3_ATIME_HOW = 10, /* enum yugerzat_time_how */
    YUGERZAT_FIGURE_SATTR3_ATIME_SECONDS = 11,
    YUGERZAT_FIGURE_SATTR3_ATIME_NSECONDS = 12,
    YUGERZAT_FIGURE_SATTR3_MTIME_HOW = 13,
    YUGERZAT_FIGURE_SATTR3_MTIME_SECONDS = 14,
    YUGERZAT_FIGURE_SATTR3_MTIME_NSECONDS = 15,
    YUGERZAT_FIGURES_SATTR3 = 16,

    YUGERZAT_FIGURES_WRITE_SATTR3 = 14 /* from YUGERZAT_FIGURE_SATTR3_MODE_SET on */
};

/* Refusals: YUGERZAT_ENDS, YUGERZAT_UNDECLARED (how a time is set), YUGERZAT_TOO_LONG, YUGERZAT_PAST_END. */
YUGERZAT_MUST_USE enum yugerzat_answer yugerzat_read_sattr3(
    const uint8_t *src, size_t src_len, size_t at, uint64_t *info, size_t info_len);

/* A value that is not set is not written, whatever figure stands for it. */
YUGERZAT_MUST_USE enum yugerzat_answer yugerzat_write_sattr3(const uint64_t *fields, size_t fields_len, uint8_t *out,
    size_t out_len, size_t start, uint64_t *info, size_t info_len);

/* ------------------------------------------------------------------ diropargs3: a name in a directory */

enum {
    YUGERZAT_FIGURE_DIROPARGS3_DIR_AT = 2, /* the bytes of the directory's handle */
    YUGERZAT_FIGURE_DIROPARGS3_DIR_COUNT = 3,
    YUGERZAT_FIGURE_DIROPARGS3_NAME_AT = 4,
    YUGERZAT_FIGURE_DIROPARGS3_NAME_COUNT = 5,
    YUGERZAT_FIGURES_DIROPARGS3 = 6,

    YUGERZAT_FIGURES_WRITE_DIROPARGS3 = 4 /* from YUGERZAT_FIGURE_DIROPARGS3_DIR_AT on */
};

/* Refusals: YUGERZAT_ENDS, YUGERZAT_TOO_LONG, YUGERZAT_PAST_END. */
YUGERZAT_MUST_USE enum yugerzat_answer yugerzat_read_diropargs3(
    const uint8_t *src, size_t src_len, size_t at, uint64_t *info, size_t info_len);

/* The two sources may be the same buffer. */
YUGERZAT_MUST_USE enum yugerzat_answer yugerzat_write_diropargs3(const uint8_t *dir_source, size_t dir_source_len,
    const uint8_t *name_source, size_t name_source_len, const uint64_t *fields, size_t fields_len, uint8_t *out,
    size_t out_len, size_t start, uint64_t *info, size_t info_len);

/* ------------------------------------------------------------------ pieces */

enum {
    YUGERZAT_FIGURE_PART_AT = 0,
    YUGERZAT_FIGURE_PART_COUNT = 1,
    YUGERZAT_FIGURES_PART = 2,
};

/*
 * Whether a piece of bytes lies in a message. YUGERZAT_DONE: it does; the figures are its place and count.
 * YUGERZAT_OUTSIDE: it does not; they are 0 and 0, the empty part at the start.
 */
YUGERZAT_MUST_USE enum yugerzat_answer yugerzat_part(
    const uint8_t *message, size_t message_len, size_t at, size_t count, uint64_t *info, size_t info_len);

/* ------------------------------------------------------------------ records in a stream */

/* An assembler's state, which the caller keeps. A fresh one is the capacity and six zeros. */
enum {
    YUGERZAT_FIGURE_STATE_CAPACITY = 0,     /* the length of the record buffer */
    YUGERZAT_FIGURE_STATE_PLACED = 1,       /* bytes of the record so far */
    YUGERZAT_FIGURE_STATE_HEADER_COUNT = 2, /* bytes of a fragment's header so far: 0 to 3 .. */
    YUGERZAT_FIGURE_STATE_HEADER_VALUE = 3, /* .. and their value */
    YUGERZAT_FIGURE_STATE_LEFT = 4,         /* bytes left in the fragment */
    YUGERZAT_FIGURE_STATE_LAST = 5,         /* whether the fragment is the record's last: 0, or not */
    YUGERZAT_FIGURE_STATE_STOPPED = 6,      /* whether a fragment was too long: 0, or not */
    YUGERZAT_FIGURES_STATE = 7,

    YUGERZAT_FIGURE_FEED_USED = 0,   /* how many bytes of the run were used */
    YUGERZAT_FIGURE_FEED_LENGTH = 1, /* YUGERZAT_COMPLETE: the length of the record; else 0 */
    YUGERZAT_FIGURES_FEED = 2
};

/*
 * Feeds a run of bytes from the stream to an assembler. The record is put at the start of buf, whose length must be
 * the capacity at every feed. From one feed to the next its first YUGERZAT_FIGURE_STATE_PLACED bytes have to stay;
 * another buffer may be lent if it is as long and begins with these bytes. `state` becomes the state to go on with.
 *
 * YUGERZAT_MORE: the run is used up, and the record is not complete.
 * YUGERZAT_COMPLETE: the record is the first YUGERZAT_FIGURE_FEED_LENGTH bytes of buf. No byte after the record's end
 * was used, and the state is fresh.
 * YUGERZAT_STATE_DOES_NOT_FIT: the state stays as given and no byte is used; only a LAST or STOPPED that is neither 0
 * nor 1 comes back as 1, as after every other answer. YUGERZAT_FRAGMENT_TOO_LONG: the state is stopped, and stays so;
 * buf holds what was placed before. YUGERZAT_SHORT_LIST: state or info is too short.
 *
 * However a stream is cut into runs, the same comes of it: that is proved, and stands in full at yugerzat_feed_run.
 */
YUGERZAT_MUST_USE enum yugerzat_answer yugerzat_feed(uint64_t *state, size_t state_len, const uint8_t *run,
    size_t run_len, uint8_t *buf, size_t buf_len, uint64_t *info, size_t info_len);

/* Writes a message as a record's only fragment, a header of four bytes and the message. It is a writer, see above. */
YUGERZAT_MUST_USE enum yugerzat_answer yugerzat_fragment(const uint8_t *message, size_t message_len, uint8_t *out,
    size_t out_len, size_t start, uint64_t *info, size_t info_len);

/* ------------------------------------------------------------------ the choice of program */

enum {
    /* YUGERZAT_HAND_OVER */
    YUGERZAT_FIGURE_CHOOSE_PROG = 0,
    YUGERZAT_FIGURE_CHOOSE_VERS = 1,
    YUGERZAT_FIGURE_CHOOSE_PROC = 2,
    YUGERZAT_FIGURE_CHOOSE_ARGUMENTS = 3, /* the place where the arguments begin */
    YUGERZAT_FIGURE_CHOOSE_UNIX = 4,      /* 1: the credential is AUTH_UNIX, and those below are its; 0: they are 0 */
    YUGERZAT_FIGURE_CHOOSE_STAMP = 5,
    YUGERZAT_FIGURE_CHOOSE_NAME_AT = 6,
    YUGERZAT_FIGURE_CHOOSE_NAME_COUNT = 7,
    YUGERZAT_FIGURE_CHOOSE_UID = 8,
    YUGERZAT_FIGURE_CHOOSE_GID = 9,
    YUGERZAT_FIGURE_CHOOSE_GIDS_AT = 10,
    YUGERZAT_FIGURE_CHOOSE_GIDS_COUNT = 11, /* in words */

    /* YUGERZAT_REPLY */
    YUGERZAT_FIGURE_CHOOSE_REPLY_LENGTH = 0,

    YUGERZAT_FIGURES_CHOOSE = 12
};

/*
 * Chooses what to do with a message that came in; `seen` is 0 where its call did not come before.
 *
 * YUGERZAT_HAND_OVER: it is a call for NFS (100003), the port mapper (100000) or mount (100005). out is untouched.
 * YUGERZAT_REPLY: a reply to send back stands at the start of out, YUGERZAT_REPLY_BYTES bytes: the RPC version is not
 * 2 (it names the versions 0 and 0, as nfsserve does), or the program is not served. YUGERZAT_SILENCE: the call was
 * seen before.
 * Refusals: YUGERZAT_TOO_LONG, YUGERZAT_ENDS, YUGERZAT_UNDECLARED, YUGERZAT_REPLY_CAME, and YUGERZAT_NO_ROOM where a
 * reply is due and out is shorter than that. The first two figures are YUGERZAT_FIGURE_PLACE and
 * YUGERZAT_FIGURE_WANTING. Where the auth_unix of the credential ends, bytes are wanting in the credential's body,
 * and more bytes behind the message do not help; yugerzat_read_rpc_msg tells, since it takes such a message. All
 * figures that have no meaning for the answer are 0.
 */
YUGERZAT_MUST_USE enum yugerzat_answer yugerzat_choose(const uint8_t *message, size_t message_len, uint32_t seen,
    uint8_t *out, size_t out_len, uint64_t *info, size_t info_len);

/*
 * The same in the current reading. Two things differ: where the RPC version is not 2 the reply names the versions 2
 * and 2, and a reply that came is YUGERZAT_REPLY_CAME with every auth_stat from 0 to 14.
 */
YUGERZAT_MUST_USE enum yugerzat_answer yugerzat_current_choose(const uint8_t *message, size_t message_len,
    uint32_t seen, uint8_t *out, size_t out_len, uint64_t *info, size_t info_len);

/* ------------------------------------------------------------------ mounts and ports */

enum {
    /* YUGERZAT_HAND_OVER; the next figure is 0 */
    YUGERZAT_FIGURE_ASK_PROG = 0,
    YUGERZAT_FIGURE_ASK_VERS = 1,
    YUGERZAT_FIGURE_ASK_PROC = 2,
    YUGERZAT_FIGURE_ASK_ARGUMENTS = 3, /* the place where the arguments begin */

    /* YUGERZAT_MNT, YUGERZAT_UMNT; the next two are 0 */
    YUGERZAT_FIGURE_ASK_PATH_AT = 0,
    YUGERZAT_FIGURE_ASK_PATH_COUNT = 1,

    /* YUGERZAT_GETPORT; for YUGERZAT_EXPORT these four are 0 */
    YUGERZAT_FIGURE_ASK_MAPPING_PROG = 0,
    YUGERZAT_FIGURE_ASK_MAPPING_VERS = 1,
    YUGERZAT_FIGURE_ASK_MAPPING_PROT = 2,
    YUGERZAT_FIGURE_ASK_MAPPING_PORT = 3,

    /* YUGERZAT_MNT, YUGERZAT_UMNT, YUGERZAT_EXPORT, YUGERZAT_GETPORT: the place after the arguments */
    YUGERZAT_FIGURE_ASK_NEXT = 4,

    /* these four and YUGERZAT_HAND_OVER: the caller, as yugerzat_choose has it */
    YUGERZAT_FIGURE_ASK_UNIX = 5, /* 1: the credential is AUTH_UNIX, and those below are its; 0: they are 0 */
    YUGERZAT_FIGURE_ASK_STAMP = 6,
    YUGERZAT_FIGURE_ASK_NAME_AT = 7,
    YUGERZAT_FIGURE_ASK_NAME_COUNT = 8,
    YUGERZAT_FIGURE_ASK_UID = 9,
    YUGERZAT_FIGURE_ASK_GID = 10,
    YUGERZAT_FIGURE_ASK_GIDS_AT = 11,
    YUGERZAT_FIGURE_ASK_GIDS_COUNT = 12, /* in words */

    /* YUGERZAT_REPLY */
    YUGERZAT_FIGURE_ASK_REPLY_LENGTH = 0,

    YUGERZAT_FIGURES_ASK = 13
};

/*
 * Chooses what to do with a message, as yugerzat_choose does, for a server that answers for mounts (program 100005) and
 * ports (100000) too; `seen` is 0 where its call did not come before.
 *
 * YUGERZAT_HAND_OVER: it is a call for NFS (100003). YUGERZAT_SILENCE: the call was seen before.
 * YUGERZAT_MNT, YUGERZAT_UMNT, YUGERZAT_EXPORT (mount version 3), YUGERZAT_GETPORT (port mapper version 2): it is a
 * call of that procedure, and its arguments were read. out is untouched.
 * YUGERZAT_REPLY: a reply to send back stands at the start of out. It has 32 bytes where mount or the port mapper is
 * called in another version (it names the one that is served), and else 24: the procedure is 0, which succeeds, or none
 * of these; or it is a reply of yugerzat_choose.
 * Refusals: YUGERZAT_TOO_LONG, YUGERZAT_ENDS, YUGERZAT_UNDECLARED, YUGERZAT_REPLY_CAME, YUGERZAT_LONG_PATH, and
 * YUGERZAT_NO_ROOM where a reply is due and out is shorter than that. The first two figures are YUGERZAT_FIGURE_PLACE
 * and YUGERZAT_FIGURE_WANTING. All figures that have no meaning for the answer are 0.
 */
YUGERZAT_MUST_USE enum yugerzat_answer yugerzat_ask(const uint8_t *message, size_t message_len, uint32_t seen,
    uint8_t *out, size_t out_len, uint64_t *info, size_t info_len);

/*
 * LISTS OF EXPORTS, the results of EXPORT, are linked lists: every entry stands behind a flag that is true, and a flag
 * that is false ends the list. A list is two figures, the place of its first flag and the count of its entries. So are
 * the groups of an entry, a linked list of names.
 */
enum {
    YUGERZAT_FIGURE_EXPORTS_AT = 2, /* as asked */
    YUGERZAT_FIGURE_EXPORTS_COUNT = 3,
    YUGERZAT_FIGURES_EXPORTS = 4,

    YUGERZAT_FIGURE_NEXT_EXPORT_THERE = 2, /* 1: an entry, and those below are its; 0: the list's end, and they are 0 */
    YUGERZAT_FIGURE_NEXT_EXPORT_DIR_AT = 3,
    YUGERZAT_FIGURE_NEXT_EXPORT_DIR_COUNT = 4,
    YUGERZAT_FIGURE_NEXT_EXPORT_GROUPS_AT = 5, /* the place of their first flag */
    YUGERZAT_FIGURE_NEXT_EXPORT_GROUPS_COUNT = 6,
    YUGERZAT_FIGURES_NEXT_EXPORT = 7,

    YUGERZAT_FIGURE_NEXT_GROUP_THERE = 2, /* 1: a name, and those below are its; 0: the list's end, and they are 0 */
    YUGERZAT_FIGURE_NEXT_GROUP_NAME_AT = 3,
    YUGERZAT_FIGURE_NEXT_GROUP_NAME_COUNT = 4,
    YUGERZAT_FIGURES_NEXT_GROUP = 5,

    YUGERZAT_FIGURE_SAME_EXPORTS = 0, /* 1: both lists mean the same; 0: they do not */
    YUGERZAT_FIGURES_SAME_EXPORTS = 1
};

/*
 * Reads a whole list. Refusals: YUGERZAT_ENDS, YUGERZAT_TOO_LONG, YUGERZAT_PAST_END, and YUGERZAT_LONG_PATH once the
 * whole is read: the place of the first length word of a path that is above 1,024 bytes.
 */
YUGERZAT_MUST_USE enum yugerzat_answer yugerzat_read_exports(
    const uint8_t *src, size_t src_len, size_t at, uint64_t *info, size_t info_len);

/*
 * Reads what stands at a place of a list: its end, or an entry. A list that was read is walked from its own place on,
 * by YUGERZAT_FIGURE_NEXT of each entry. Refusals: those of yugerzat_read_exports.
 */
YUGERZAT_MUST_USE enum yugerzat_answer yugerzat_next_export(
    const uint8_t *src, size_t src_len, size_t at, uint64_t *info, size_t info_len);

/* The same for the groups of an entry: their end, or a name, of any length. */
YUGERZAT_MUST_USE enum yugerzat_answer yugerzat_next_group(
    const uint8_t *src, size_t src_len, size_t at, uint64_t *info, size_t info_len);

/* Writes a path, the piece `at`, `count` of source. It is a writer, see above, without `fields`. */
YUGERZAT_MUST_USE enum yugerzat_answer yugerzat_write_dirpath(const uint8_t *source, size_t source_len, size_t at,
    size_t count, uint8_t *out, size_t out_len, size_t start, uint64_t *info, size_t info_len);

/*
 * Writes the list that stands at place `at` of source, `count` entries. YUGERZAT_OUTSIDE: what stands there is not read
 * as a list of so many. It is a writer, see above, without `fields`.
 */
YUGERZAT_MUST_USE enum yugerzat_answer yugerzat_write_exports(const uint8_t *source, size_t source_len, size_t at,
    size_t count, uint8_t *out, size_t out_len, size_t start, uint64_t *info, size_t info_len);

/*
 * Whether two lists mean the same: the same paths with the same names, in the same order. Odd flags and dirty padding
 * do not matter. Refusals, with the figure 0: YUGERZAT_TOO_LONG, YUGERZAT_OUTSIDE, YUGERZAT_LONG_PATH, as in writing;
 * the first of these that one of the lists has.
 */
YUGERZAT_MUST_USE enum yugerzat_answer yugerzat_same_exports(const uint8_t *one, size_t one_len, size_t one_at,
    size_t one_count, const uint8_t *other, size_t other_len, size_t other_at, size_t other_count, uint64_t *info,
    size_t info_len);

#ifdef __cplusplus
}
#endif

#endif
