/*
 * Mounts and ports, for programs in C and C++: what one box needs beside NFS so that clients find and mount it.
 * yugerzat.h includes this file, and explains slices, places, pieces, answers, and the form of the functions.
 *
 *     MNT       dirpath   mountres3    of mount version 3, program 100005 (RFC 1813, appendix I)
 *     UMNT      dirpath
 *     EXPORT              exports
 *     GETPORT   mapping   a word       of the port mapper version 2, program 100000 (RFC 1057, appendix A)
 *
 * A SERVER lends each message to yugerzat_ask_program. It answers by itself what needs no thought: wrong versions,
 * procedures that are not served, procedure 0. Of the four calls it hands over the arguments. The results go behind the
 * header of a reply (c/mount_server.c has a whole one):
 *
 *     switch (yugerzat_ask_program(message, length, false, out, sizeof out, &asked)) {
 *     case YUGERZAT_REPLY: return asked.reply_length;
 *     case YUGERZAT_MNT: result = mount(asked.path); break;
 *     ..
 *     }
 *     header.xid = asked.xid;
 *     header.tag = YUGERZAT_TAG_ACCEPTED;     (all else of it is 0: YUGERZAT_SUCCESS, and no verifier)
 *     yugerzat_put_rpc_msg(&header, out, sizeof out, 0, &writing);
 *     yugerzat_put_mountres3(&result, out, sizeof out, writing.after, &writing);
 *
 * PATHS have at most YUGERZAT_MNTPATHLEN bytes. A longer one is YUGERZAT_LONG_PATH: in reading, after all other
 * refusals of that message, and with the place of its length word; in writing without a place. Names and handles have
 * no bound, so what yugerzat.h says of plain holds here too: whoever passes messages on tests their counts.
 *
 * LISTS OF EXPORTS are not copied out of a message either. A list has the address of its first flag, how many bytes it
 * has up to its end, and how many entries. yugerzat_take_export walks it.
 *
 * WHAT IS PROVED, and what is tested. Asking, and reading, walking, comparing and writing lists, and writing paths, are
 * the library's own functions, and proved; that the members of the structs are their figures is tested. For mountres3,
 * mapping and the reading of a dirpath all is as for the structs of yugerzat_nfs.h: the library's verdict on what is
 * read, and on what was written, is proved, and that the members are the message's is tested (c/mount.c). So it is for
 * yugerzat_put_export_entries.
 */
#include "yugerzat.h" /* it includes this file in turn, so it stands before the guard */

#ifndef YUGERZAT_MOUNT_H
#define YUGERZAT_MOUNT_H

#define YUGERZAT_MNTPATHLEN ((size_t)1024) /* the longest path */

/* ------------------------------------------------------------------ dirpath: a path */

YUGERZAT_MUST_USE static inline enum yugerzat_answer yugerzat_get_dirpath(
    const uint8_t *src, size_t src_len, size_t at, struct yugerzat_piece *value, struct yugerzat_reading *reading)
{
    struct yugerzat_private_rest rest;
    enum yugerzat_answer answer = yugerzat_private_judged(YUGERZAT_KIND_DIRPATH, src, src_len, at, &rest, reading);
    memset(value, 0, sizeof *value);
    if (answer != YUGERZAT_DONE)
        return answer;
    *value = yugerzat_private_take_opaque(&rest);
    return answer;
}

/* Refusals, in this order: YUGERZAT_PAST_END, YUGERZAT_TOO_LONG, YUGERZAT_LONG_PATH, YUGERZAT_NO_ROOM. */
YUGERZAT_MUST_USE static inline enum yugerzat_answer yugerzat_put_dirpath(
    const struct yugerzat_piece *value, uint8_t *out, size_t out_len, size_t start, struct yugerzat_writing *writing)
{
    uint64_t info[YUGERZAT_FIGURES_WRITTEN] = {0};
    enum yugerzat_answer answer = yugerzat_write_dirpath(
        value->bytes, value->count, 0, value->count, out, out_len, start, info, YUGERZAT_FIGURES_WRITTEN);
    return yugerzat_private_written(answer, info, writing);
}

/* ------------------------------------------------------------------ mountres3: the results of MNT */

enum yugerzat_mountstat3 YUGERZAT_32_BITS {
    YUGERZAT_MNT3_OK = 0,
    YUGERZAT_MNT3ERR_PERM = 1,
    YUGERZAT_MNT3ERR_NOENT = 2,
    YUGERZAT_MNT3ERR_IO = 5,
    YUGERZAT_MNT3ERR_ACCES = 13,
    YUGERZAT_MNT3ERR_NOTDIR = 20,
    YUGERZAT_MNT3ERR_INVAL = 22,
    YUGERZAT_MNT3ERR_NAMETOOLONG = 63,
    YUGERZAT_MNT3ERR_NOTSUPP = 10004,
    YUGERZAT_MNT3ERR_SERVERFAULT = 10006,
};

/* Both arms are one struct, as in yugerzat_nfs.h. */
struct yugerzat_mountres3 {
    enum yugerzat_mountstat3 fhs_status;
    struct yugerzat_piece fhandle;      /* YUGERZAT_MNT3_OK: the bytes of the directory's handle */
    struct yugerzat_words auth_flavors; /* YUGERZAT_MNT3_OK: those that a client may use with it */
};

static inline struct yugerzat_words yugerzat_private_take_words(struct yugerzat_private_rest *rest)
{
    struct yugerzat_words words;
    words.count = yugerzat_private_take_word(rest);
    words.bytes = yugerzat_private_take(rest, words.count * 4);
    words.count = words.bytes ? words.count : 0;
    return words;
}

static inline void yugerzat_private_lay_words(struct yugerzat_private_room *room, struct yugerzat_words words)
{
    if (words.count > YUGERZAT_LIMIT_BYTES / 4) {
        room->too_long = true;
        return;
    }
    yugerzat_private_lay_word(room, (uint32_t)words.count);
    yugerzat_private_lay_bytes(room, words.bytes, words.count * 4);
}

YUGERZAT_MUST_USE static inline enum yugerzat_answer yugerzat_get_mountres3(
    const uint8_t *src, size_t src_len, size_t at, struct yugerzat_mountres3 *value, struct yugerzat_reading *reading)
{
    struct yugerzat_private_rest rest;
    enum yugerzat_answer answer = yugerzat_private_judged(YUGERZAT_KIND_MOUNTRES3, src, src_len, at, &rest, reading);
    memset(value, 0, sizeof *value);
    if (answer != YUGERZAT_DONE)
        return answer;
    value->fhs_status = (enum yugerzat_mountstat3)yugerzat_private_take_word(&rest);
    if (value->fhs_status == YUGERZAT_MNT3_OK) {
        value->fhandle = yugerzat_private_take_opaque(&rest);
        value->auth_flavors = yugerzat_private_take_words(&rest);
    }
    return answer;
}

static inline void yugerzat_private_lay_mountres3(
    struct yugerzat_private_room *room, const struct yugerzat_mountres3 *value)
{
    yugerzat_private_lay_number(room, YUGERZAT_KIND_MOUNTSTAT3, (uint32_t)value->fhs_status);
    if (value->fhs_status == YUGERZAT_MNT3_OK) {
        yugerzat_private_lay_opaque(room, value->fhandle);
        yugerzat_private_lay_words(room, value->auth_flavors);
    }
}

YUGERZAT_MUST_USE static inline enum yugerzat_answer yugerzat_put_mountres3(const struct yugerzat_mountres3 *value,
    uint8_t *out, size_t out_len, size_t start, struct yugerzat_writing *writing)
{
    struct yugerzat_private_room room = yugerzat_private_no_room();
    yugerzat_private_lay_mountres3(&room, value);
    if (yugerzat_private_fits(&room, out, out_len, start))
        yugerzat_private_lay_mountres3(&room, value);
    return yugerzat_private_laid(&room, YUGERZAT_KIND_MOUNTRES3, out, start, writing);
}

/* ------------------------------------------------------------------ mapping: a program and its port */

/* What `prot` of a mapping can be. */
enum { YUGERZAT_IPPROTO_TCP = 6, YUGERZAT_IPPROTO_UDP = 17 };

/* GETPORT looks for the port of a program, a version and a protocol; its result is a word, 0 where there is none. */
struct yugerzat_mapping {
    uint32_t prog;
    uint32_t vers;
    uint32_t prot;
    uint32_t port; /* of GETPORT's arguments it says nothing */
};

#define YUGERZAT_MAPPING_BYTES ((size_t)16) /* of every mapping */

/* A mapping that is taken is always plain. */
YUGERZAT_MUST_USE static inline enum yugerzat_answer yugerzat_get_mapping(
    const uint8_t *src, size_t src_len, size_t at, struct yugerzat_mapping *value, struct yugerzat_reading *reading)
{
    struct yugerzat_private_rest rest;
    enum yugerzat_answer answer = yugerzat_private_judged(YUGERZAT_KIND_MAPPING, src, src_len, at, &rest, reading);
    memset(value, 0, sizeof *value);
    if (answer != YUGERZAT_DONE)
        return answer;
    value->prog = yugerzat_private_take_word(&rest);
    value->vers = yugerzat_private_take_word(&rest);
    value->prot = yugerzat_private_take_word(&rest);
    value->port = yugerzat_private_take_word(&rest);
    return answer;
}

static inline void yugerzat_private_lay_mapping(
    struct yugerzat_private_room *room, const struct yugerzat_mapping *value)
{
    yugerzat_private_lay_word(room, value->prog);
    yugerzat_private_lay_word(room, value->vers);
    yugerzat_private_lay_word(room, value->prot);
    yugerzat_private_lay_word(room, value->port);
}

YUGERZAT_MUST_USE static inline enum yugerzat_answer yugerzat_put_mapping(
    const struct yugerzat_mapping *value, uint8_t *out, size_t out_len, size_t start, struct yugerzat_writing *writing)
{
    struct yugerzat_private_room room = yugerzat_private_no_room();
    yugerzat_private_lay_mapping(&room, value);
    if (yugerzat_private_fits(&room, out, out_len, start))
        yugerzat_private_lay_mapping(&room, value);
    return yugerzat_private_laid(&room, YUGERZAT_KIND_MAPPING, out, start, writing);
}

/* ------------------------------------------------------------------ exports: the results of EXPORT */

/* A list in the caller's own memory, as it is on the wire. */
struct yugerzat_exports {
    const uint8_t *bytes; /* its first flag */
    size_t length;        /* how many bytes it has, up to its end */
    size_t count;         /* of entries */
};

/* The groups of an entry: a list of names in the caller's own memory. */
struct yugerzat_groups {
    const uint8_t *bytes;
    size_t length;
    size_t count; /* of names */
};

/* An entry of a list. */
struct yugerzat_exportnode {
    struct yugerzat_piece ex_dir;
    struct yugerzat_groups ex_groups;
};

YUGERZAT_MUST_USE static inline enum yugerzat_answer yugerzat_get_exports(
    const uint8_t *src, size_t src_len, size_t at, struct yugerzat_exports *value, struct yugerzat_reading *reading)
{
    uint64_t info[YUGERZAT_FIGURES_EXPORTS];
    enum yugerzat_answer answer = yugerzat_read_exports(src, src_len, at, info, YUGERZAT_FIGURES_EXPORTS);
    memset(value, 0, sizeof *value);
    if (answer == YUGERZAT_DONE) {
        value->bytes = src + info[YUGERZAT_FIGURE_EXPORTS_AT];
        value->length = (size_t)(info[YUGERZAT_FIGURE_NEXT] - info[YUGERZAT_FIGURE_EXPORTS_AT]);
        value->count = (size_t)info[YUGERZAT_FIGURE_EXPORTS_COUNT];
    }
    return yugerzat_private_read(answer, info, reading);
}

/*
 * Takes the first entry off a list: `left` becomes the rest, which is a list itself. False at the list's end; then node
 * is 0, and left stays.
 *
 *     struct yugerzat_exports left = exports;
 *     while (yugerzat_take_export(&left, &node))
 *         ..
 */
YUGERZAT_MUST_USE static inline bool yugerzat_take_export(
    struct yugerzat_exports *left, struct yugerzat_exportnode *node)
{
    uint64_t info[YUGERZAT_FIGURES_NEXT_EXPORT];
    size_t next, groups;
    memset(node, 0, sizeof *node);
    /* A list that was read has as many entries as its count says. */
    if (left->count == 0 ||
        yugerzat_next_export(left->bytes, left->length, 0, info, YUGERZAT_FIGURES_NEXT_EXPORT) != YUGERZAT_DONE)
        return false;
    if (info[YUGERZAT_FIGURE_NEXT_EXPORT_THERE] == 0)
        return false;
    next = (size_t)info[YUGERZAT_FIGURE_NEXT];
    groups = (size_t)info[YUGERZAT_FIGURE_NEXT_EXPORT_GROUPS_AT];
    node->ex_dir = yugerzat_private_piece(left->bytes, info + YUGERZAT_FIGURE_NEXT_EXPORT_DIR_AT);
    /* The groups are the last of an entry, so they end where it ends. */
    node->ex_groups.bytes = left->bytes + groups;
    node->ex_groups.length = next - groups;
    node->ex_groups.count = (size_t)info[YUGERZAT_FIGURE_NEXT_EXPORT_GROUPS_COUNT];
    left->bytes += next;
    left->length -= next;
    left->count--;
    return true;
}

/* The same for the names of an entry's groups. */
YUGERZAT_MUST_USE static inline bool yugerzat_take_group(struct yugerzat_groups *left, struct yugerzat_piece *name)
{
    uint64_t info[YUGERZAT_FIGURES_NEXT_GROUP];
    memset(name, 0, sizeof *name);
    if (left->count == 0 ||
        yugerzat_next_group(left->bytes, left->length, 0, info, YUGERZAT_FIGURES_NEXT_GROUP) != YUGERZAT_DONE)
        return false;
    if (info[YUGERZAT_FIGURE_NEXT_GROUP_THERE] == 0)
        return false;
    *name = yugerzat_private_piece(left->bytes, info + YUGERZAT_FIGURE_NEXT_GROUP_NAME_AT);
    left->bytes += info[YUGERZAT_FIGURE_NEXT];
    left->length -= (size_t)info[YUGERZAT_FIGURE_NEXT];
    left->count--;
    return true;
}

/*
 * Writes a list that was read, in published form. Refusals, in this order: YUGERZAT_PAST_END, YUGERZAT_TOO_LONG,
 * YUGERZAT_OUTSIDE (the bytes are no list of so many entries), YUGERZAT_LONG_PATH, YUGERZAT_NO_ROOM. The three in the
 * middle do not happen to a list that yugerzat_get_exports gave, as long as its bytes stay as they are.
 */
YUGERZAT_MUST_USE static inline enum yugerzat_answer yugerzat_put_exports(
    const struct yugerzat_exports *value, uint8_t *out, size_t out_len, size_t start, struct yugerzat_writing *writing)
{
    uint64_t info[YUGERZAT_FIGURES_WRITTEN] = {0};
    enum yugerzat_answer answer = yugerzat_write_exports(
        value->bytes, value->length, 0, value->count, out, out_len, start, info, YUGERZAT_FIGURES_WRITTEN);
    return yugerzat_private_written(answer, info, writing);
}

/*
 * Whether two lists mean the same: the same paths with the same names, in the same order. How their flags and padding
 * came does not matter. Refusals are those in the middle of yugerzat_put_exports; `same` is false then.
 */
YUGERZAT_MUST_USE static inline enum yugerzat_answer yugerzat_compare_exports(
    const struct yugerzat_exports *one, const struct yugerzat_exports *other, bool *same)
{
    uint64_t info[YUGERZAT_FIGURES_SAME_EXPORTS] = {0};
    enum yugerzat_answer answer = yugerzat_same_exports(one->bytes, one->length, 0, one->count, other->bytes,
        other->length, 0, other->count, info, YUGERZAT_FIGURES_SAME_EXPORTS);
    *same = answer == YUGERZAT_DONE && info[YUGERZAT_FIGURE_SAME_EXPORTS] == 1;
    return answer;
}

/* An entry of a list that is to be made: a path, and an array of names. */
struct yugerzat_export_entry {
    struct yugerzat_piece ex_dir;
    const struct yugerzat_piece *ex_groups; /* not looked at if there are none */
    size_t ex_groups_count;
};

static inline void yugerzat_private_lay_entries(
    struct yugerzat_private_room *room, const struct yugerzat_export_entry *entries, size_t count)
{
    size_t i, k;
    for (i = 0; i < count; i++) {
        const struct yugerzat_export_entry *entry = entries + i;
        room->long_path = room->long_path || entry->ex_dir.count > YUGERZAT_MNTPATHLEN;
        yugerzat_private_lay_word(room, 1);
        yugerzat_private_lay_opaque(room, entry->ex_dir);
        for (k = 0; k < entry->ex_groups_count; k++) {
            yugerzat_private_lay_word(room, 1);
            yugerzat_private_lay_opaque(room, entry->ex_groups[k]);
        }
        yugerzat_private_lay_word(room, 0);
    }
    yugerzat_private_lay_word(room, 0);
}

/*
 * Makes a list of entries, none too, and writes it from place `start` of out. Refusals, in this order:
 * YUGERZAT_PAST_END, YUGERZAT_TOO_LONG (a path or a name), YUGERZAT_LONG_PATH, YUGERZAT_TOO_LONG (what would be
 * written), YUGERZAT_NO_ROOM.
 */
YUGERZAT_MUST_USE static inline enum yugerzat_answer yugerzat_put_export_entries(
    const struct yugerzat_export_entry *entries, size_t count, uint8_t *out, size_t out_len, size_t start,
    struct yugerzat_writing *writing)
{
    struct yugerzat_private_room room = yugerzat_private_no_room();
    yugerzat_private_lay_entries(&room, entries, count);
    if (yugerzat_private_fits(&room, out, out_len, start))
        yugerzat_private_lay_entries(&room, entries, count);
    return yugerzat_private_laid(&room, YUGERZAT_KIND_EXPORTS, out, start, writing);
}

/* ------------------------------------------------------------------ what is asked */

/* What is asked. All that has no meaning for the answer is 0. */
struct yugerzat_asked {
    /* YUGERZAT_MNT, YUGERZAT_UMNT, YUGERZAT_EXPORT, YUGERZAT_GETPORT, YUGERZAT_HAND_OVER */
    uint32_t xid;                        /* of the call, which its reply has to have too */
    bool has_auth_unix;                  /* whether the credential is AUTH_UNIX .. */
    struct yugerzat_auth_unix auth_unix; /* .. and what it says */

    struct yugerzat_piece path;      /* YUGERZAT_MNT, YUGERZAT_UMNT */
    struct yugerzat_mapping mapping; /* YUGERZAT_GETPORT */
    size_t next;                     /* YUGERZAT_MNT, YUGERZAT_UMNT, YUGERZAT_EXPORT, YUGERZAT_GETPORT: the place after
                                        the arguments */

    /* YUGERZAT_HAND_OVER: as in struct yugerzat_chosen */
    uint32_t prog;
    uint32_t vers;
    uint32_t proc;
    size_t arguments;

    /* YUGERZAT_REPLY */
    size_t reply_length;

    struct yugerzat_refusal refusal; /* its `answer` is what the function returned, always */
};

#define YUGERZAT_LONGEST_REPLY_BYTES ((size_t)32) /* of the longest reply that yugerzat_ask_program writes */

/*
 * Chooses what to do with a message that came in, as yugerzat_choose_program does, for a server that answers for mounts
 * and ports too; `seen` says whether its call came before.
 *
 * YUGERZAT_HAND_OVER: it is a call for NFS (100003).
 * YUGERZAT_MNT, YUGERZAT_UMNT, YUGERZAT_EXPORT, YUGERZAT_GETPORT: it is a call of that procedure, and asked has its
 * arguments; whether a path came plain, yugerzat_get_dirpath tells. out is untouched.
 * YUGERZAT_REPLY: a reply to send back stands at the start of out. Mount or the port mapper was called in another
 * version than 3 or 2 (the reply has 32 bytes and names that one), or procedure 0 was, which succeeds, or one that is
 * not served; or it is a reply of yugerzat_choose_program.
 * YUGERZAT_SILENCE: the call was seen before.
 * Refusals: YUGERZAT_TOO_LONG, YUGERZAT_ENDS, YUGERZAT_UNDECLARED, YUGERZAT_REPLY_CAME, YUGERZAT_LONG_PATH, and
 * YUGERZAT_NO_ROOM where a reply is due and out is too short; lend it YUGERZAT_LONGEST_REPLY_BYTES, which is what
 * refusal.needed then says. Of a credential that ends, yugerzat_choose_program has more.
 */
YUGERZAT_MUST_USE static inline enum yugerzat_answer yugerzat_ask_program(
    const uint8_t *message, size_t message_len, bool seen, uint8_t *out, size_t out_len, struct yugerzat_asked *asked)
{
    uint64_t info[YUGERZAT_FIGURES_ASK];
    enum yugerzat_answer answer =
        yugerzat_ask(message, message_len, seen ? 1 : 0, out, out_len, info, YUGERZAT_FIGURES_ASK);
    bool path = answer == YUGERZAT_MNT || answer == YUGERZAT_UMNT;
    memset(asked, 0, sizeof *asked);
    if (path)
        asked->path = yugerzat_private_piece(message, info + YUGERZAT_FIGURE_ASK_PATH_AT);
    if (answer == YUGERZAT_GETPORT) {
        asked->mapping.prog = (uint32_t)info[YUGERZAT_FIGURE_ASK_MAPPING_PROG];
        asked->mapping.vers = (uint32_t)info[YUGERZAT_FIGURE_ASK_MAPPING_VERS];
        asked->mapping.prot = (uint32_t)info[YUGERZAT_FIGURE_ASK_MAPPING_PROT];
        asked->mapping.port = (uint32_t)info[YUGERZAT_FIGURE_ASK_MAPPING_PORT];
    }
    if (answer == YUGERZAT_HAND_OVER) {
        asked->prog = (uint32_t)info[YUGERZAT_FIGURE_ASK_PROG];
        asked->vers = (uint32_t)info[YUGERZAT_FIGURE_ASK_VERS];
        asked->proc = (uint32_t)info[YUGERZAT_FIGURE_ASK_PROC];
        asked->arguments = (size_t)info[YUGERZAT_FIGURE_ASK_ARGUMENTS];
    }
    if (path || answer == YUGERZAT_EXPORT || answer == YUGERZAT_GETPORT || answer == YUGERZAT_HAND_OVER) {
        /* The xid is the first word of every call: the library has read it, but does not hand it over. */
        struct yugerzat_words first;
        first.bytes = message;
        first.count = 1;
        asked->xid = yugerzat_word_at(&first, 0);
        asked->next = (size_t)info[YUGERZAT_FIGURE_ASK_NEXT];
        asked->has_auth_unix = yugerzat_private_caller(
            message, info + (YUGERZAT_FIGURE_ASK_UNIX - YUGERZAT_FIGURE_CHOOSE_UNIX), &asked->auth_unix);
    }
    if (answer == YUGERZAT_REPLY)
        asked->reply_length = (size_t)info[YUGERZAT_FIGURE_ASK_REPLY_LENGTH];
    asked->refusal = yugerzat_private_refusal(answer, info);
    if (answer == YUGERZAT_NO_ROOM)
        asked->refusal.needed = YUGERZAT_LONGEST_REPLY_BYTES;
    return answer;
}

#endif
