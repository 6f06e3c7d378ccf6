/*
 * Calls every function of include/yugerzat_list.h at its limits, and looks at every byte and figure that it was lent.
 * What stands over them, include/yugerzat.h, is held to them by structs.c.
 */
#include "testing.h"

/* ---- figures */

static bool info_untouched_from(size_t place)
{
    size_t i;
    for (i = place; i < FIGURES; i++)
        if (info[i] != UNTOUCHED)
            return false;
    return true;
}

/* Whether the figures are these, and no other was touched. */
static bool figures(size_t count, const uint64_t *due)
{
    return memcmp(info, due, count * sizeof *due) == 0 && info_untouched_from(count);
}

/* Whether the first of so many figures is a place, the others are zeros, and no other was touched. */
static bool refused_at(size_t count, uint64_t place)
{
    uint64_t due[FIGURES] = {0};
    due[YUGERZAT_FIGURE_PLACE] = place;
    return figures(count, due);
}

/* Whether the one figure of a writer is this, and no other was touched. */
static bool told(uint64_t figure)
{
    return figures(1, &figure);
}

/* The same as refused_at, of a message that ends inside an item: the second figure is how many bytes are wanting. */
static bool ended_at(size_t count, uint64_t place, uint64_t wanting)
{
    uint64_t due[FIGURES] = {0};
    due[YUGERZAT_FIGURE_PLACE] = place;
    due[YUGERZAT_FIGURE_WANTING] = wanting;
    return figures(count, due);
}

static bool all_untouched(void)
{
    return out_untouched_from(0) && info_untouched_from(0);
}

/* ---- what is wanting */

/* Reads what begins at place `first` of a message of `count` bytes, up to its end, or as a credential's body. */
typedef enum yugerzat_answer reading(const uint8_t *message, size_t count, size_t first);

static uint64_t word_at(const struct bytes *b, size_t place)
{
    const uint8_t *p = b->at + place;
    return (uint64_t)p[0] << 24 | (uint64_t)p[1] << 16 | (uint64_t)p[2] << 8 | p[3];
}

/*
 * Whether a reading went on, once all had come that the item at a place wanted. The item is whole, and ends where the
 * bytes end: the reading is done there, or the next item begins there, or the item's number is not declared. Or only
 * the length word was cut: it is whole now, and says what is to follow.
 */
static bool went_on(enum yugerzat_answer answer, const struct bytes *b, uint64_t place)
{
    uint64_t length;
    switch (answer) {
    case YUGERZAT_DONE: return info[YUGERZAT_FIGURE_NEXT] == b->count;
    case YUGERZAT_UNDECLARED: return info[YUGERZAT_FIGURE_PLACE] == place && info[YUGERZAT_FIGURE_WANTING] == 0;
    case YUGERZAT_HAND_OVER:
    case YUGERZAT_REPLY:
    case YUGERZAT_MNT:
    case YUGERZAT_UMNT:
    case YUGERZAT_EXPORT:
    case YUGERZAT_GETPORT: return true;
    case YUGERZAT_ENDS:
        if (info[YUGERZAT_FIGURE_PLACE] == b->count)
            return info[YUGERZAT_FIGURE_WANTING] == 4 || info[YUGERZAT_FIGURE_WANTING] == 8;
        if (info[YUGERZAT_FIGURE_PLACE] != place || b->count != place + 4)
            return false;
        length = word_at(b, (size_t)place);
        return length != 0 &&
               (info[YUGERZAT_FIGURE_WANTING] == (length + 3) / 4 * 4 || info[YUGERZAT_FIGURE_WANTING] == length * 4);
    default: return false;
    }
}

/*
 * Cuts a message, which `read` takes with the answer `taken`, at every place, and holds each refusal to its promise:
 * as long as fewer bytes have come than are wanting, the others are; once all have come, the reading goes on. What
 * they hold does not matter: they are those of the message, then all 00, then all FF.
 */
static void cut(reading *read, enum yugerzat_answer taken, size_t list, const char *message, size_t first)
{
    struct bytes b = hex(message), whole, part;
    uint64_t place, wanting;
    size_t n, more;
    int filling;
    memset(whole.at, 0xFF, sizeof whole.at);
    memcpy(whole.at + first, b.at, b.count);
    whole.count = first + b.count;
    fresh();
    CHECK(read(whole.at, whole.count, first) == taken);
    for (n = first; n < whole.count; n++) {
        fresh();
        CHECK(read(whole.at, n, first) == YUGERZAT_ENDS);
        place = info[YUGERZAT_FIGURE_PLACE];
        wanting = info[YUGERZAT_FIGURE_WANTING];
        CHECK(place >= first && place <= n && (place - first) % 4 == 0);
        CHECK(ended_at(list, place, wanting) && out_untouched_from(0));
        /* no byte too many: the message has them all */
        CHECK(wanting >= 1 && wanting <= whole.count - n);
        if (wanting > whole.count - n)
            continue;
        part = whole;
        for (filling = 0; filling < 3; filling++) {
            if (filling)
                memset(part.at + n, filling == 1 ? 0x00 : 0xFF, (size_t)wanting);
            for (more = 1; more < wanting; more++) {
                fresh();
                CHECK(read(part.at, n + more, first) == YUGERZAT_ENDS);
                CHECK(ended_at(list, place, wanting - more) && out_untouched_from(0));
            }
            part.count = n + (size_t)wanting;
            fresh();
            CHECK(went_on(read(part.at, part.count, first), &part, place));
        }
    }
}

/* ---- yugerzat_rewrite, yugerzat_judge and yugerzat_marks */

/* Marks, and holds them to what judging says: the same answer; a plain message has no dirty piece; each piece has a name. */
static void mark(enum yugerzat_kind kind, const uint8_t *src, size_t count, size_t at, enum yugerzat_answer judgement,
    const uint64_t *judged)
{
    uint64_t marks[FIGURES];
    struct yugerzat_marking marking;
    size_t piece, pieces;
    memset(marks, 0xEE, sizeof marks);
    memset(&marking, 0xEE, sizeof marking);
    CHECK(yugerzat_marks(kind, src, count, at, marks, YUGERZAT_FIGURES_MARKS) == judgement);
    CHECK(yugerzat_mark_kind(kind, src, count, at, &marking) == judgement && marking.refusal.answer == judgement);
    CHECK(marks[0] == judged[0] && marks[1] == judged[1] && marks[YUGERZAT_FIGURES_MARKS] == UNTOUCHED);
    pieces = marking.pieces;
    CHECK(pieces <= YUGERZAT_LIMIT_PIECES && marks[YUGERZAT_FIGURE_MARKS_PIECES] == pieces);
    CHECK(marks[YUGERZAT_FIGURE_MARKS_FIRST] == (uint64_t)marking.clean[0]);
    CHECK(marks[YUGERZAT_FIGURE_MARKS_SECOND] == (uint64_t)marking.clean[1]);
    if (judgement != YUGERZAT_DONE) {
        CHECK(marking.next == 0 && !marking.plain && pieces == 0 && !marking.clean[0] && !marking.clean[1]);
        return;
    }
    CHECK(marking.next == judged[YUGERZAT_FIGURE_NEXT] && marking.plain == (judged[YUGERZAT_FIGURE_PLAIN] == 1));
    for (piece = 0; piece < YUGERZAT_LIMIT_PIECES; piece++) {
        CHECK((yugerzat_piece_name(kind, pieces, piece) != NULL) == (piece < pieces));
        CHECK(piece < pieces ? !marking.plain || marking.clean[piece] : !marking.clean[piece]);
    }
}

/* The functions of each kind by itself. */
typedef enum yugerzat_answer rewrites(
    const uint8_t *src, size_t src_len, size_t at, uint8_t *out, size_t out_len, uint64_t *list, size_t list_len);
typedef enum yugerzat_answer judges(const uint8_t *src, size_t src_len, size_t at, uint64_t *list, size_t list_len);
#define REWRITES(kind) yugerzat_rewrite_##kind,
#define JUDGES(kind) yugerzat_judge_##kind,
static rewrites *const rewrite_of[] = {YUGERZAT_EACH_KIND(REWRITES)};
static judges *const judge_of[] = {YUGERZAT_EACH_KIND(JUDGES)};

/* What a kind's own functions do: what those do that take its number, into a buffer that held the same before. */
static void by_itself(enum yugerzat_kind kind, const uint8_t *src, size_t count, size_t at, uint8_t *own,
    const uint8_t *to, size_t room, enum yugerzat_answer judgement, const uint64_t *judged, enum yugerzat_answer answer)
{
    uint64_t list[FIGURES];
    memset(list, 0xEE, sizeof list);
    CHECK(judge_of[kind](src, count, at, list, YUGERZAT_FIGURES_JUDGE) == judgement &&
          memcmp(list, judged, sizeof list) == 0);
    memset(list, 0xEE, sizeof list);
    CHECK(
        judge_of[kind](src, count, at, list, 2) == YUGERZAT_SHORT_LIST && list[0] == UNTOUCHED && list[2] == UNTOUCHED);
    CHECK(rewrite_of[kind](src, count, at, own, room, list, 2) == YUGERZAT_SHORT_LIST && list[0] == UNTOUCHED);
    CHECK(rewrite_of[kind](src, count, at, own, room, list, YUGERZAT_FIGURES_REWRITE) == answer);
    CHECK(memcmp(list, info, YUGERZAT_FIGURES_REWRITE * sizeof *list) == 0 &&
          list[YUGERZAT_FIGURES_REWRITE] == UNTOUCHED);
    CHECK(room == 0 || memcmp(own, to, room) == 0);
}

/* Rewrites, and holds what judging says to that: it differs where there is no room, and then says what is needed. */
static enum yugerzat_answer rewrite(
    enum yugerzat_kind kind, const uint8_t *src, size_t count, size_t at, uint8_t *to, size_t room)
{
    static uint8_t own[BUFFER];
    uint64_t judged[FIGURES];
    enum yugerzat_answer answer, judgement;
    memset(judged, 0xEE, sizeof judged);
    judgement = yugerzat_judge(kind, src, count, at, judged, YUGERZAT_FIGURES_JUDGE);
    mark(kind, src, count, at, judgement, judged);
    if (room > 0 && room <= sizeof own)
        memcpy(own, to, room);
    answer = yugerzat_rewrite(kind, src, count, at, to, room, info, YUGERZAT_FIGURES_REWRITE);
    if (room <= sizeof own && (uint32_t)kind < YUGERZAT_KINDS)
        by_itself(kind, src, count, at, own, to, room, judgement, judged, answer);
    if (answer == YUGERZAT_NO_ROOM) {
        CHECK(judgement == YUGERZAT_DONE && judged[YUGERZAT_FIGURE_JUDGE_SIZE] > room);
        CHECK(judged[YUGERZAT_FIGURE_JUDGE_SIZE] == info[YUGERZAT_FIGURE_REWRITE_SIZE]);
        CHECK(judged[YUGERZAT_FIGURES_JUDGE] == UNTOUCHED);
    } else {
        CHECK(judgement == answer && memcmp(judged, info, sizeof judged) == 0);
    }
    return answer;
}

static enum yugerzat_answer read_kind(enum yugerzat_kind kind, const struct bytes *b, size_t at, size_t room)
{
    fresh();
    return rewrite(kind, b->at, b->count, at, out, room);
}

/* The kind stands here, so that the signature of `cut` serves. */
static enum yugerzat_kind kind_read;

static enum yugerzat_answer read_by_kind(const uint8_t *message, size_t count, size_t first)
{
    return rewrite(kind_read, message, count, first, out, BUFFER);
}

/* Three figures of a rewriting that has no room: the last one is what it needs. */
static bool no_room(uint64_t needed)
{
    uint64_t due[3] = {0, 0, 0};
    due[YUGERZAT_FIGURE_REWRITE_SIZE] = needed;
    return figures(3, due);
}

static void every_kind(enum yugerzat_kind kind)
{
    const char *message = samples[kind].message;
    struct bytes b = hex(message), later = behind_five(&b);
    uint64_t took[3], first;
    size_t room;
    of = samples[kind].name;
    took[0] = b.count;
    took[1] = 1;
    took[2] = b.count;

    CHECK(read_kind(kind, &b, 0, BUFFER) == YUGERZAT_DONE);
    CHECK(figures(3, took) && out_is(0, message) && out_untouched_from(b.count));
    CHECK(read_kind(kind, &b, 0, b.count) == YUGERZAT_DONE);
    CHECK(figures(3, took) && out_is(0, message) && out_untouched_from(b.count));
    for (room = 0; room < b.count; room++) {
        CHECK(read_kind(kind, &b, 0, room) == YUGERZAT_NO_ROOM);
        CHECK(no_room(b.count) && out_untouched_from(0));
    }
    fresh();
    CHECK(rewrite(kind, b.at, b.count, 0, NULL, 0) == YUGERZAT_NO_ROOM && no_room(b.count));

    /* from a later place */
    took[0] = later.count;
    CHECK(read_kind(kind, &later, 5, BUFFER) == YUGERZAT_DONE);
    CHECK(figures(3, took) && out_is(0, message) && out_untouched_from(b.count));

    /* cut at every place */
    kind_read = kind;
    cut(read_by_kind, YUGERZAT_DONE, 3, message, 0);
    cut(read_by_kind, YUGERZAT_DONE, 3, message, 5);
    fresh();
    CHECK(rewrite(kind, NULL, 0, 0, out, BUFFER) == YUGERZAT_ENDS);
    /* a kind begins with a word or with eight bytes; cut() has seen which */
    first = info[YUGERZAT_FIGURE_WANTING];
    CHECK((first == 4 || first == 8) && ended_at(3, 0, first) && out_untouched_from(0));
    CHECK(read_kind(kind, &b, b.count, BUFFER) == YUGERZAT_ENDS);
    CHECK(ended_at(3, b.count, first) && out_untouched_from(0));
    CHECK(read_kind(kind, &b, b.count + 1, BUFFER) == YUGERZAT_PAST_END);
    CHECK(refused_at(3, 0) && out_untouched_from(0));
    CHECK(read_kind(kind, &b, SIZE_MAX, BUFFER) == YUGERZAT_PAST_END);
    CHECK(refused_at(3, 0) && out_untouched_from(0));

    /* a message as long as may be, and one byte longer */
    memset(long_message, 0, sizeof long_message);
    memcpy(long_message, b.at, b.count);
    took[0] = b.count;
    fresh();
    CHECK(rewrite(kind, long_message, YUGERZAT_LIMIT_BYTES, 0, out, BUFFER) == YUGERZAT_DONE);
    CHECK(figures(3, took) && out_is(0, message) && out_untouched_from(b.count));
    fresh();
    CHECK(rewrite(kind, long_message, YUGERZAT_LIMIT_BYTES + 1, 0, out, BUFFER) == YUGERZAT_TOO_LONG);
    CHECK(refused_at(3, 0) && out_untouched_from(0));

    /* lists that are too short, and one that is longer than it must be */
    fresh();
    CHECK(yugerzat_rewrite(kind, b.at, b.count, 0, out, BUFFER, info, 2) == YUGERZAT_SHORT_LIST && all_untouched());
    CHECK(yugerzat_rewrite(kind, b.at, b.count, 0, out, BUFFER, NULL, 0) == YUGERZAT_SHORT_LIST && all_untouched());
    CHECK(yugerzat_judge(kind, b.at, b.count, 0, info, 2) == YUGERZAT_SHORT_LIST && all_untouched());
    CHECK(yugerzat_judge(kind, b.at, b.count, 0, NULL, 0) == YUGERZAT_SHORT_LIST && all_untouched());
    CHECK(yugerzat_marks(kind, b.at, b.count, 0, info, 4) == YUGERZAT_SHORT_LIST && all_untouched());
    CHECK(yugerzat_marks(kind, b.at, b.count, 0, NULL, 0) == YUGERZAT_SHORT_LIST && all_untouched());
    CHECK(yugerzat_judge(kind, b.at, b.count, 0, info, FIGURES) == YUGERZAT_DONE && figures(3, took) &&
          out_untouched_from(0));
    CHECK(yugerzat_rewrite(kind, b.at, b.count, 0, out, BUFFER, info, FIGURES) == YUGERZAT_DONE && figures(3, took));
    of = "";
}

static void loose(enum yugerzat_kind kind, const char *message, uint64_t next, const char *rewriting)
{
    uint64_t due[3];
    struct bytes b = hex(message), written = hex(rewriting);
    of = message;
    due[0] = next;
    due[1] = 0;
    due[2] = written.count;
    CHECK(read_kind(kind, &b, 0, BUFFER) == YUGERZAT_DONE);
    CHECK(figures(3, due) && out_is(0, rewriting) && out_untouched_from(written.count));
    CHECK(read_kind(kind, &b, 0, written.count) == YUGERZAT_DONE);
    CHECK(figures(3, due) && out_is(0, rewriting) && out_untouched_from(written.count));
    CHECK(read_kind(kind, &b, 0, written.count - 1) == YUGERZAT_NO_ROOM);
    CHECK(no_room(written.count) && out_untouched_from(0));
    /* What is rewritten is plain, and is its own rewriting. */
    due[0] = written.count;
    due[1] = 1;
    CHECK(read_kind(kind, &written, 0, BUFFER) == YUGERZAT_DONE);
    CHECK(figures(3, due) && out_is(0, rewriting));
    of = "";
}

static void undeclared(enum yugerzat_kind kind, const char *message, uint64_t place)
{
    struct bytes b = hex(message);
    of = message;
    CHECK(read_kind(kind, &b, 0, BUFFER) == YUGERZAT_UNDECLARED);
    CHECK(refused_at(3, place) && out_untouched_from(0));
    of = "";
}

static void ends(enum yugerzat_kind kind, const char *message, uint64_t place, uint64_t wanting)
{
    struct bytes b = hex(message);
    of = message;
    CHECK(read_kind(kind, &b, 0, BUFFER) == YUGERZAT_ENDS);
    CHECK(ended_at(3, place, wanting) && out_untouched_from(0));
    of = "";
}

/* The message has so many pieces, and those of these names are dirty, each behind a blank. */
static void dirty(enum yugerzat_kind kind, const char *message, size_t pieces, const char *names)
{
    struct bytes b = hex(message);
    struct yugerzat_marking marking;
    char found[100] = "";
    size_t piece;
    of = message;
    CHECK(yugerzat_mark_kind(kind, b.at, b.count, 0, &marking) == YUGERZAT_DONE);
    CHECK(marking.pieces == pieces && marking.next == b.count && !marking.plain);
    for (piece = 0; piece < marking.pieces; piece++)
        if (!marking.clean[piece]) {
            strcat(found, " ");
            strcat(found, yugerzat_piece_name(kind, marking.pieces, piece));
        }
    CHECK(strcmp(found, names) == 0);
    of = "";
}

static void test_marks(void)
{
    dirty(YUGERZAT_KIND_OPAQUE, "00000001AA000001", 1, " opaque");
    dirty(YUGERZAT_KIND_DIROPARGS3, "00000001AA00000000000001BB0000CC", 2, " name");
    dirty(YUGERZAT_KIND_DIROPARGS3, "00000001AA01000000000001BB000000", 2, " dir.data");
    dirty(YUGERZAT_KIND_DIROPARGS3, "00000001AA01000000000001BB800000", 2, " dir.data name");
    dirty(YUGERZAT_KIND_LOOKUP3ARGS, "00000001AA00000000000001BB0000CC", 2, " what.name");
    dirty(YUGERZAT_KIND_POST_OP_FH3, "0000000100000003AABBCC01", 1, " handle.data");
    dirty(YUGERZAT_KIND_MOUNTRES3, "0000000000000001AA0000FF0000000100000001", 2, " fhandle");
    dirty(YUGERZAT_KIND_EXPORTS,
        "00000001000000012F00000000000001000000016200000100000000"
        "00000000",
        1, " exports");
    /* An odd flag, a stray tag: no piece is dirty. */
    dirty(YUGERZAT_KIND_BOOL, "00000002", 0, "");
    dirty(YUGERZAT_KIND_POST_OP_FH3, "0000000200000003AABBCC00", 1, "");
    dirty(YUGERZAT_KIND_RPC_MSG, "0000002A00000002", 2, "");
    dirty(YUGERZAT_KIND_REPLY_BODY, "00000002", 1, "");
    CHECK(yugerzat_piece_name(YUGERZAT_KIND_RPC_MSG, 2, 0) && !yugerzat_piece_name(YUGERZAT_KIND_RPC_MSG, 3, 0));
    CHECK(!yugerzat_piece_name(YUGERZAT_KIND_BOOL, 1, 0) &&
          !yugerzat_piece_name((enum yugerzat_kind)YUGERZAT_KINDS, 1, 0));
}

static void test_kinds(void)
{
    static const uint32_t unknown[] = {YUGERZAT_KINDS, 100, 0x7FFFFFFF, 0xFFFFFFFF};
    struct bytes b = hex("00000001");
    size_t i;
    CHECK(SAMPLES == YUGERZAT_KINDS);
    for (i = 0; i < SAMPLES; i++)
        every_kind((enum yugerzat_kind)i);
    for (i = 0; i < sizeof unknown / sizeof *unknown; i++) {
        enum yugerzat_kind kind = (enum yugerzat_kind)unknown[i];
        CHECK(read_kind(kind, &b, 0, BUFFER) == YUGERZAT_UNKNOWN_KIND);
        CHECK(refused_at(3, 0) && out_untouched_from(0));
        fresh();
        CHECK(yugerzat_rewrite(kind, NULL, 0, 0, NULL, 0, NULL, 0) == YUGERZAT_SHORT_LIST);
        CHECK(yugerzat_judge(kind, NULL, 0, 0, NULL, 0) == YUGERZAT_SHORT_LIST);
    }

    loose(YUGERZAT_KIND_BOOL, "00000100", 4, "00000001");
    loose(YUGERZAT_KIND_BOOL, "FFFFFFFF", 4, "00000001");
    loose(YUGERZAT_KIND_OPAQUE, "00000005 68656C6C 6F000001", 12, "00000005 68656C6C 6F000000");
    loose(YUGERZAT_KIND_SATTR3, "00000000 00000000 00000000 FFFFFFFF 0000000000000000 00000000 00000000", 32,
        "00000000 00000000 00000000 00000001 0000000000000000 00000000 00000000");
    loose(YUGERZAT_KIND_RPC_MSG, "0000002A 00000002", 8,
        "0000002A 00000000 00000000 00000000 00000000 00000000 00000000 00000000 00000000 00000000");
    loose(YUGERZAT_KIND_RPC_MSG, "0000002A 00000001 00000000 00000000 00000000 00000005", 24,
        "0000002A 00000001 00000000 00000000 00000000 00000004");
    loose(YUGERZAT_KIND_REPLY_BODY, "00000002", 4, "00000000 00000000 00000000 00000000");
    loose(YUGERZAT_KIND_REJECTED_REPLY, "00000007", 4, "00000000 00000000 00000000");
    loose(YUGERZAT_KIND_CURRENT_RPC_MSG, "0000002A 00000002", 8,
        "0000002A 00000000 00000000 00000000 00000000 00000000 00000000 00000000 00000000 00000000");
    loose(YUGERZAT_KIND_CURRENT_RPC_BODY, "FFFFFFFF", 4,
        "00000000 00000000 00000000 00000000 00000000 00000000 00000000 00000000 00000000");
    loose(YUGERZAT_KIND_CURRENT_REPLY_BODY, "00000002", 4, "00000000 00000000 00000000 00000000");
    loose(YUGERZAT_KIND_CURRENT_REJECTED_REPLY, "00000007", 4, "00000000 00000000 00000000");
    loose(YUGERZAT_KIND_CURRENT_ACCEPTED_REPLY, "00000002 00000001 99000001 00000005", 16,
        "00000002 00000001 99000000 00000005");
    loose(YUGERZAT_KIND_DIRPATH, "00000001 2F00FF00", 8, "00000001 2F000000");
    loose(YUGERZAT_KIND_MOUNTRES3, "00000000 00000001 99000001 00000001 FFFFFFFF", 20,
        "00000000 00000001 99000000 00000001 FFFFFFFF");
    loose(YUGERZAT_KIND_EXPORTS, "80000000 00000001 2F000001 00000002 00000001 61FFFFFF 00000000 00000000", 32,
        "00000001 00000001 2F000000 00000001 00000001 61000000 00000000 00000000");

    undeclared(YUGERZAT_KIND_MSG_TYPE, "00000002", 0);
    undeclared(YUGERZAT_KIND_REPLY_STAT, "00000002", 0);
    undeclared(YUGERZAT_KIND_ACCEPT_STAT, "00000005", 0);
    undeclared(YUGERZAT_KIND_REJECT_STAT, "00000002", 0);
    undeclared(YUGERZAT_KIND_AUTH_STAT, "00000000", 0);
    undeclared(YUGERZAT_KIND_AUTH_STAT, "00000006", 0);
    undeclared(YUGERZAT_KIND_AUTH_FLAVOR, "00000004", 0);
    undeclared(YUGERZAT_KIND_TIME_HOW, "00000003", 0);
    undeclared(YUGERZAT_KIND_NFSSTAT3, "00000003", 0);
    undeclared(YUGERZAT_KIND_NFSSTAT3, "00002719", 0);
    undeclared(YUGERZAT_KIND_FTYPE3, "00000000", 0);
    undeclared(YUGERZAT_KIND_FTYPE3, "00000008", 0);
    undeclared(YUGERZAT_KIND_SET_ATIME, "00000003", 0);
    undeclared(YUGERZAT_KIND_SATTR3, "00000000 00000000 00000000 00000000 00000000 00000003", 20);
    undeclared(YUGERZAT_KIND_REJECTED_REPLY, "00000001 00000006", 4);
    undeclared(YUGERZAT_KIND_MOUNTSTAT3, "00000003", 0);
    undeclared(YUGERZAT_KIND_MOUNTSTAT3, "00002715", 0);
    undeclared(YUGERZAT_KIND_MOUNTRES3, "00000006", 0);
    undeclared(YUGERZAT_KIND_MOUNTRES3, "FFFFFFFF", 0);

    /* A message that ends inside an item, and what is wanting: of a word or eight bytes, .. */
    ends(YUGERZAT_KIND_U32, "", 0, 4);
    ends(YUGERZAT_KIND_U32, "000000", 0, 1);
    ends(YUGERZAT_KIND_BOOL, "00", 0, 3);
    ends(YUGERZAT_KIND_U64, "", 0, 8);
    ends(YUGERZAT_KIND_U64, "00000000", 0, 4);
    ends(YUGERZAT_KIND_EIGHT, "01020304 050607", 0, 1);
    ends(YUGERZAT_KIND_FTYPE3, "0000", 0, 2);
    /* .. of a length word, and then of content and pad, or of the words, .. */
    ends(YUGERZAT_KIND_OPAQUE, "", 0, 4);
    ends(YUGERZAT_KIND_OPAQUE, "0000", 0, 2);
    ends(YUGERZAT_KIND_OPAQUE, "00000001", 0, 4);
    ends(YUGERZAT_KIND_OPAQUE, "00000001 AA0000", 0, 1);
    ends(YUGERZAT_KIND_OPAQUE, "00000005 68656C6C", 0, 4);
    ends(YUGERZAT_KIND_NFSSTRING, "00000004 616263", 0, 1);
    ends(YUGERZAT_KIND_WORDS, "000000", 0, 1);
    ends(YUGERZAT_KIND_WORDS, "00000003", 0, 12);
    ends(YUGERZAT_KIND_WORDS, "00000003 00000001 0000", 0, 6);
    /* .. and of an item inside a larger message. */
    ends(YUGERZAT_KIND_NFSTIME3, "00000007 0000", 4, 2);
    ends(YUGERZAT_KIND_SET_SIZE3, "00000001 00000000 0000", 4, 2);
    ends(YUGERZAT_KIND_DIROPARGS3, "00000004 0A0B0C0D 00000005 68656C", 8, 5);
    ends(YUGERZAT_KIND_AUTH_UNIX, "00000001 00000003 616263", 4, 1);
    ends(YUGERZAT_KIND_AUTH_UNIX, "00000001 00000000 00000002 00000003 00000002 00000004 00", 16, 3);
    ends(YUGERZAT_KIND_RPC_MSG, "0000002A 00000000 00000002 000186A3 00000003 00000001 00000001 00000190 01", 28, 399);
    ends(YUGERZAT_KIND_MOUNTRES3, "00000000 00000001 99000000 00000002 0000", 12, 6);
    ends(YUGERZAT_KIND_EXPORTS, "00000001 00000401 2F", 4, 1027);
    ends(YUGERZAT_KIND_EXPORTS, "00000001 00000000 00000000 00", 12, 3);

    /* Lengths that would pass the end of every number. */
    ends(YUGERZAT_KIND_OPAQUE, "FFFFFFFF", 0, 4294967296);
    ends(YUGERZAT_KIND_OPAQUE, "FFFFFFFC", 0, 4294967292);
    ends(YUGERZAT_KIND_OPAQUE, "FFFFFFFF 00000000", 0, 4294967292);
    ends(YUGERZAT_KIND_WORDS, "FFFFFFFF", 0, 17179869180);
    ends(YUGERZAT_KIND_WORDS, "FFFFFFFF 00000000", 0, 17179869176);
    ends(YUGERZAT_KIND_WORDS, "40000001 00000000", 0, 4294967296);
    ends(YUGERZAT_KIND_WORDS, "3FFFFFFF 0000", 0, 4294967290);

    /* An opaque that fills a message of the largest size: what is written is as long as what is read. */
    memset(long_message, 0x5A, sizeof long_message);
    memcpy(long_message, bytes_of("000FFFFC"), 4);
    memset(long_out, 0xEE, sizeof long_out);
    fresh();
    CHECK(rewrite(YUGERZAT_KIND_OPAQUE, long_message, YUGERZAT_LIMIT_BYTES, 0, long_out, YUGERZAT_LIMIT_BYTES) ==
          YUGERZAT_DONE);
    CHECK(info[0] == YUGERZAT_LIMIT_BYTES && info[1] == 1 && info[2] == YUGERZAT_LIMIT_BYTES);
    CHECK(memcmp(long_out, long_message, YUGERZAT_LIMIT_BYTES) == 0 && long_out[YUGERZAT_LIMIT_BYTES] == 0xEE);
    memset(long_out, 0xEE, sizeof long_out);
    CHECK(rewrite(YUGERZAT_KIND_OPAQUE, long_message, YUGERZAT_LIMIT_BYTES, 0, long_out, YUGERZAT_LIMIT_BYTES - 1) ==
          YUGERZAT_NO_ROOM);
    CHECK(no_room(YUGERZAT_LIMIT_BYTES) && long_out_untouched());
    /* Its last byte is wanting; and one byte more of content, with its pad, would make the message too long. */
    fresh();
    CHECK(rewrite(YUGERZAT_KIND_OPAQUE, long_message, YUGERZAT_LIMIT_BYTES - 1, 0, long_out, YUGERZAT_LIMIT_BYTES) ==
          YUGERZAT_ENDS);
    CHECK(ended_at(3, 0, 1));
    memcpy(long_message, bytes_of("000FFFFD"), 4);
    fresh();
    CHECK(rewrite(YUGERZAT_KIND_OPAQUE, long_message, YUGERZAT_LIMIT_BYTES, 0, long_out, YUGERZAT_LIMIT_BYTES) ==
          YUGERZAT_ENDS);
    CHECK(ended_at(3, 0, 4) && long_out[0] == 0xEE);
    fresh();
    CHECK(rewrite(YUGERZAT_KIND_OPAQUE, long_message, YUGERZAT_LIMIT_BYTES + 1, 0, long_out, YUGERZAT_LIMIT_BYTES) ==
          YUGERZAT_TOO_LONG);
    CHECK(refused_at(3, 0));
}

/* ---- yugerzat_fragment */

static void test_fragment(void)
{
    static const uint8_t message[3] = {1, 2, 3};
    fresh();
    CHECK(yugerzat_fragment(message, 3, out, BUFFER, 5, info, 1) == YUGERZAT_DONE);
    CHECK(info[0] == 12 && info_untouched_from(1));
    CHECK(out_untouched_before(5) && out_is(5, "80000003 010203") && out_untouched_from(12));
    fresh();
    CHECK(yugerzat_fragment(message, 3, out, 7, 0, info, 1) == YUGERZAT_DONE && info[0] == 7 && out_untouched_from(7));
    fresh();
    CHECK(yugerzat_fragment(message, 3, out, 6, 0, info, 1) == YUGERZAT_NO_ROOM && told(7) && out_untouched_from(0));
    fresh();
    CHECK(yugerzat_fragment(NULL, 0, out, 4, 0, info, 1) == YUGERZAT_DONE && info[0] == 4);
    CHECK(out_is(0, "80000000") && out_untouched_from(4));
    fresh();
    CHECK(yugerzat_fragment(NULL, 0, NULL, 0, 0, info, 1) == YUGERZAT_NO_ROOM && told(4));
    fresh();
    CHECK(yugerzat_fragment(message, 3, out, 10, 10, info, 1) == YUGERZAT_NO_ROOM && told(7) && out_untouched_from(0));
    fresh();
    CHECK(yugerzat_fragment(message, 3, out, 10, 11, info, 1) == YUGERZAT_PAST_END && told(0) && out_untouched_from(0));
    fresh();
    CHECK(yugerzat_fragment(message, 3, out, 10, SIZE_MAX, info, 1) == YUGERZAT_PAST_END && told(0));
    fresh();
    CHECK(yugerzat_fragment(message, 3, out, BUFFER, 0, NULL, 0) == YUGERZAT_SHORT_LIST && all_untouched());

    /* the largest message, one more byte, and the order of the refusals: place, length, room */
    memset(long_message, 0x5A, sizeof long_message);
    memset(long_out, 0xEE, sizeof long_out);
    fresh();
    CHECK(yugerzat_fragment(long_message, YUGERZAT_LIMIT_BYTES, long_out, YUGERZAT_LIMIT_BYTES + 4, 0, info, 1) ==
          YUGERZAT_DONE);
    CHECK(info[0] == YUGERZAT_LIMIT_BYTES + 4 && memcmp(long_out, bytes_of("80100000"), 4) == 0);
    CHECK(memcmp(long_out + 4, long_message, YUGERZAT_LIMIT_BYTES) == 0 && long_out[YUGERZAT_LIMIT_BYTES + 4] == 0xEE);
    fresh();
    CHECK(yugerzat_fragment(long_message, YUGERZAT_LIMIT_BYTES + 1, long_out, sizeof long_out, 0, info, 1) ==
          YUGERZAT_TOO_LONG);
    CHECK(told(0) && long_out[YUGERZAT_LIMIT_BYTES + 4] == 0xEE);
    fresh();
    CHECK(
        yugerzat_fragment(long_message, YUGERZAT_LIMIT_BYTES + 1, out, 0, 0, info, 1) == YUGERZAT_TOO_LONG && told(0));
    fresh();
    CHECK(
        yugerzat_fragment(long_message, YUGERZAT_LIMIT_BYTES + 1, out, 0, 1, info, 1) == YUGERZAT_PAST_END && told(0));
}

/* ---- yugerzat_feed */

static uint64_t state[8];

static void begin(uint64_t capacity)
{
    memset(state, 0, sizeof state);
    state[YUGERZAT_FIGURE_STATE_CAPACITY] = capacity;
    state[7] = UNTOUCHED;
    fresh();
}

static enum yugerzat_answer feed(const char *run, size_t length)
{
    struct bytes b = hex(run);
    memset(info, 0xEE, sizeof info);
    return yugerzat_feed(state, 7, b.at, b.count, out, length, info, 2);
}

static bool state_is(
    uint64_t capacity, uint64_t placed, uint64_t count, uint64_t value, uint64_t left, uint64_t last, uint64_t stopped)
{
    return state[0] == capacity && state[1] == placed && state[2] == count && state[3] == value && state[4] == left &&
           state[5] == last && state[6] == stopped && state[7] == UNTOUCHED;
}

static bool fed(uint64_t used, uint64_t length)
{
    return info[YUGERZAT_FIGURE_FEED_USED] == used && info[YUGERZAT_FIGURE_FEED_LENGTH] == length &&
           info_untouched_from(2);
}

/* A state that does not fit: it stays, and so does the buffer. */
static void unfit(const char *why, uint64_t capacity, uint64_t placed, uint64_t count, uint64_t value, uint64_t left,
    uint64_t last, uint64_t stopped, size_t length)
{
    of = why;
    begin(capacity);
    state[1] = placed;
    state[2] = count;
    state[3] = value;
    state[4] = left;
    state[5] = last;
    state[6] = stopped;
    CHECK(feed("80000001 AA", length) == YUGERZAT_STATE_DOES_NOT_FIT);
    CHECK(fed(0, 0) && state_is(capacity, placed, count, value, left, last, stopped) && out_untouched_from(0));
    of = "";
}

static void test_feed(void)
{
    static const char *const bytes[] = {"00", "00", "00", "02", "AB", "CD", "80", "00", "00", "01", "EF"};
    size_t i;
    begin(10);
    CHECK(feed("00000000 80000002 ABCD 77", 10) == YUGERZAT_COMPLETE);
    CHECK(fed(10, 2) && state_is(10, 0, 0, 0, 0, 0, 0) && out_is(0, "ABCD") && out_untouched_from(2));

    /* the same, byte by byte */
    begin(3);
    for (i = 0; i < 10; i++)
        CHECK(feed(bytes[i], 3) == YUGERZAT_MORE && fed(1, 0));
    CHECK(state_is(3, 2, 0, 0, 1, 1, 0));
    CHECK(feed(bytes[10], 3) == YUGERZAT_COMPLETE && fed(1, 3) && out_is(0, "ABCDEF") && out_untouched_from(3));
    CHECK(state_is(3, 0, 0, 0, 0, 0, 0));

    /* an empty record, into no buffer at all */
    begin(0);
    memset(info, 0xEE, sizeof info);
    CHECK(yugerzat_feed(state, 7, bytes_of("80000000"), 4, NULL, 0, info, 2) == YUGERZAT_COMPLETE && fed(4, 0));
    CHECK(state_is(0, 0, 0, 0, 0, 0, 0));
    memset(info, 0xEE, sizeof info);
    CHECK(yugerzat_feed(state, 7, NULL, 0, NULL, 0, info, 2) == YUGERZAT_MORE && fed(0, 0));

    /* a fragment that is too long by one byte, and one that just fits */
    begin(3);
    CHECK(feed("80000004", 3) == YUGERZAT_FRAGMENT_TOO_LONG && fed(4, 0) && state_is(3, 0, 0, 0, 0, 0, 1));
    CHECK(out_untouched_from(0));
    CHECK(feed("80000001 AA", 3) == YUGERZAT_FRAGMENT_TOO_LONG && fed(0, 0) && state_is(3, 0, 0, 0, 0, 0, 1));
    CHECK(out_untouched_from(0));
    begin(4);
    CHECK(feed("80000004", 4) == YUGERZAT_MORE && fed(4, 0) && state_is(4, 0, 0, 0, 4, 1, 0));
    /* what was placed before stays in the buffer */
    begin(4);
    CHECK(feed("00000002 ABCD 80000003 01", 4) == YUGERZAT_FRAGMENT_TOO_LONG && fed(10, 0) &&
          state_is(4, 2, 0, 0, 0, 0, 1));
    CHECK(out_is(0, "ABCD") && out_untouched_from(2));
    begin(4);
    CHECK(feed("7FFFFFFF", 4) == YUGERZAT_FRAGMENT_TOO_LONG && fed(4, 0));

    unfit("a capacity that is not the buffer's length", 9, 0, 0, 0, 0, 0, 0, 10);
    unfit("a capacity over the limit", YUGERZAT_LIMIT_BYTES + 1, 0, 0, 0, 0, 0, 0, 10);
    unfit("more placed than the capacity", 10, 11, 0, 0, 0, 0, 0, 10);
    unfit("more left than there is room for", 10, 5, 0, 0, 6, 0, 0, 10);
    unfit("four header bytes", 10, 0, 4, 0, 0, 0, 0, 10);
    unfit("a header value too large for its bytes", 10, 0, 1, 256, 0, 0, 0, 10);
    unfit("a header value without header bytes", 10, 0, 0, 1, 0, 0, 0, 10);
    unfit("left with header bytes", 10, 0, 1, 0, 1, 0, 0, 10);
    unfit("last with nothing left", 10, 0, 0, 0, 0, 1, 0, 10);
    unfit("stopped with header bytes", 10, 0, 1, 0, 0, 0, 1, 10);
    unfit("stopped with bytes left", 10, 0, 0, 0, 1, 0, 1, 10);

    /* every number but 0 is a yes, and comes back as 1 */
    begin(10);
    state[4] = 1;
    state[5] = 77;
    CHECK(feed("", 10) == YUGERZAT_MORE && fed(0, 0) && state_is(10, 0, 0, 0, 1, 1, 0));

    /* lists that are too short */
    begin(10);
    CHECK(yugerzat_feed(state, 6, bytes_of("80000000"), 4, out, 10, info, 2) == YUGERZAT_SHORT_LIST && all_untouched());
    CHECK(yugerzat_feed(NULL, 0, bytes_of("80000000"), 4, out, 10, info, 2) == YUGERZAT_SHORT_LIST && all_untouched());
    CHECK(yugerzat_feed(state, 7, bytes_of("80000000"), 4, out, 10, info, 1) == YUGERZAT_SHORT_LIST && all_untouched());
    CHECK(yugerzat_feed(state, 7, bytes_of("80000000"), 4, out, 10, NULL, 0) == YUGERZAT_SHORT_LIST && all_untouched());
    CHECK(state_is(10, 0, 0, 0, 0, 0, 0));

    /* a record of the largest size */
    memset(long_message, 0x5A, sizeof long_message);
    memcpy(long_message, bytes_of("800FFFFD"), 4);
    memset(long_out, 0xEE, sizeof long_out);
    begin(YUGERZAT_LIMIT_BYTES);
    CHECK(yugerzat_feed(state, 7, bytes_of("80100000"), 4, long_out, YUGERZAT_LIMIT_BYTES, info, 2) == YUGERZAT_MORE);
    CHECK(yugerzat_feed(state, 7, long_message, YUGERZAT_LIMIT_BYTES + 1, long_out, YUGERZAT_LIMIT_BYTES, info, 2) ==
          YUGERZAT_COMPLETE);
    CHECK(fed(YUGERZAT_LIMIT_BYTES, YUGERZAT_LIMIT_BYTES) && memcmp(long_out, long_message, YUGERZAT_LIMIT_BYTES) == 0);
    CHECK(long_out[YUGERZAT_LIMIT_BYTES] == 0xEE);
}

/* ---- the two readings of replies */

typedef enum yugerzat_answer reader(const uint8_t *, size_t, size_t, uint64_t *, size_t);
typedef enum yugerzat_answer reply_writer(
    const uint8_t *, size_t, const uint64_t *, size_t, uint8_t *, size_t, size_t, uint64_t *, size_t);
typedef enum yugerzat_answer chooser(const uint8_t *, size_t, uint32_t, uint8_t *, size_t, uint64_t *, size_t);

/* Their functions, and wherein they differ. */
static const struct replies {
    const char *name;
    reader *read;
    reply_writer *write;
    chooser *choose;
    uint32_t last_accept; /* accept_stat: 0 to this is declared */
    uint32_t first_auth;  /* auth_stat: from this .. */
    uint32_t last_auth;   /* .. to this */
    const char *mismatch; /* what xid 42 gets where the RPC version is not 2 */
} readings[] = {
    {"nfsserve's reading", yugerzat_read_rpc_msg, yugerzat_write_reply, yugerzat_choose, 4, 1, 5,
        "0000002A 00000001 00000001 00000000 00000000 00000000"},
    {"the current reading", yugerzat_read_current_rpc_msg, yugerzat_write_current_reply, yugerzat_current_choose, 5, 0,
        14, "0000002A 00000001 00000001 00000000 00000002 00000002"},
};

#define READINGS (sizeof readings / sizeof *readings)

/* The one that is tested stands here, so that the signatures of others serve. */
static const struct replies *replies = readings;

/* ---- yugerzat_choose and yugerzat_current_choose */

static enum yugerzat_answer choose(const char *message, uint32_t seen, size_t room)
{
    struct bytes b = hex(message);
    fresh();
    return replies->choose(b.at, b.count, seen, out, room, info, 12);
}

#define CALL_NFS "0000002A 00000000 00000002 000186A3 00000003 00000006 00000000 00000000 00000000 00000000"
#define CALL_UNIX                                                                                                 \
    "0000002A 00000000 00000002 000186A0 00000002 00000003 00000001 0000001D 00000001 00000003 61626300 00000002" \
    "00000003 00000001 00000004 EE 000000 00000000 00000000"
#define ARGUMENTS "11223344"

/* A call for NFS by AUTH_UNIX: everything before the credential's body, but for its length, which is the last byte. */
#define CALL_BEFORE_BODY "0000002A 00000000 00000002 000186A3 00000003 00000006 00000001 000000"

static enum yugerzat_answer choose_by_message(const uint8_t *message, size_t count, size_t first)
{
    return replies->choose(message + first, count - first, 0, out, BUFFER, info, 12);
}

/* A credential's body, as long as it is, in a message that is whole: 32 bytes before it, pad and a verifier behind. */
static enum yugerzat_answer choose_by_body(const uint8_t *message, size_t count, size_t first)
{
    struct bytes call = hex(CALL_BEFORE_BODY);
    size_t length = count - first, pad = (4 - length % 4) % 4;
    call.at[call.count++] = (uint8_t)length;
    memcpy(call.at + call.count, message + first, length);
    call.count += length;
    memset(call.at + call.count, 0, pad + 8);
    call.count += pad + 8;
    return replies->choose(call.at, call.count, 0, out, BUFFER, info, 12);
}

static void test_choose(void)
{
    static const uint64_t nfs[12] = {100003, 3, 6, 40};
    static const uint64_t portmap[12] = {100000, 2, 3, 72, 1, 1, 40, 3, 2, 3, 56, 1};
    struct bytes b = hex(CALL_NFS);
    CHECK(choose(CALL_NFS, 0, 0) == YUGERZAT_HAND_OVER && figures(12, nfs) && out_untouched_from(0));
    fresh();
    CHECK(replies->choose(b.at, b.count, 0, NULL, 0, info, 12) == YUGERZAT_HAND_OVER && figures(12, nfs));
    CHECK(
        choose(CALL_UNIX ARGUMENTS, 0, BUFFER) == YUGERZAT_HAND_OVER && figures(12, portmap) && out_untouched_from(0));
    CHECK(choose(CALL_NFS, 1, 24) == YUGERZAT_SILENCE && refused_at(12, 0) && out_untouched_from(0));
    CHECK(choose(CALL_NFS, 0xFFFFFFFF, 24) == YUGERZAT_SILENCE && refused_at(12, 0) && out_untouched_from(0));

    /* the RPC version is not 2 */
    CHECK(choose("0000002A 00000002", 0, 24) == YUGERZAT_REPLY && refused_at(12, 24));
    CHECK(out_is(0, replies->mismatch) && out_untouched_from(24));
    CHECK(choose("0000002A 00000002", 0, 23) == YUGERZAT_NO_ROOM && refused_at(12, 0) && out_untouched_from(0));
    CHECK(choose("0000002A 00000000 00000003 000186A3 00000003 00000006 00000000 00000000 00000000 00000000", 1,
              BUFFER) == YUGERZAT_REPLY);
    CHECK(refused_at(12, 24) && out_is(0, replies->mismatch) && out_untouched_from(24));
    /* a program that is not served */
    CHECK(choose("0000002A 00000000 00000002 00000007 00000003 00000006 00000000 00000000 00000000 00000000", 0,
              BUFFER) == YUGERZAT_REPLY);
    CHECK(refused_at(12, 24) && out_is(0, "0000002A 00000001 00000000 00000000 00000000 00000001") &&
          out_untouched_from(24));

    CHECK(choose("0000002A 00000001 00000000 00000000 00000000 00000000", 0, BUFFER) == YUGERZAT_REPLY_CAME);
    CHECK(refused_at(12, 0) && out_untouched_from(0));
    CHECK(choose("0000002A 00000000 00000002", 0, BUFFER) == YUGERZAT_ENDS && ended_at(12, 12, 4) &&
          out_untouched_from(0));
    CHECK(choose("0000002A 00000000 00000002 00", 0, BUFFER) == YUGERZAT_ENDS && ended_at(12, 12, 3) &&
          out_untouched_from(0));
    /* a credential's body that is cut itself: the place is that of its length word */
    CHECK(choose(CALL_BEFORE_BODY "14 00000001 00000000 00000002 00000003 000000", 0, BUFFER) == YUGERZAT_ENDS);
    CHECK(ended_at(12, 28, 1) && out_untouched_from(0));
    /* one that ends inside its list of groups: the place is one of the message, the bytes are wanting in the body */
    CHECK(choose(CALL_BEFORE_BODY "14 00000001 00000000 00000002 00000003 00000001 00000000 00000000", 0, BUFFER) ==
          YUGERZAT_ENDS);
    CHECK(ended_at(12, 48, 4) && out_untouched_from(0));
    CHECK(
        choose(CALL_BEFORE_BODY "16 00000001 00000000 00000002 00000003 00000003 0000 0000 00000000 00000000" ARGUMENTS,
            0, BUFFER) == YUGERZAT_ENDS);
    CHECK(ended_at(12, 48, 10) && out_untouched_from(0));
    CHECK(choose(CALL_BEFORE_BODY "03 000000 00 00000000 00000000", 0, BUFFER) == YUGERZAT_ENDS);
    CHECK(ended_at(12, 32, 1) && out_untouched_from(0));
    CHECK(choose(CALL_BEFORE_BODY "00 00000000 00000000", 0, BUFFER) == YUGERZAT_ENDS);
    CHECK(ended_at(12, 32, 4) && out_untouched_from(0));
    of = "a call that is cut";
    cut(choose_by_message, YUGERZAT_HAND_OVER, 12, CALL_NFS, 0);
    of = "a call by AUTH_UNIX that is cut";
    cut(choose_by_message, YUGERZAT_HAND_OVER, 12, CALL_UNIX, 0);
    of = "a credential that is cut";
    cut(choose_by_body, YUGERZAT_HAND_OVER, 12, samples[YUGERZAT_KIND_AUTH_UNIX].message, 32);
    of = "";
    CHECK(choose("0000002A 00000000 00000002 000186A3 00000003 00000006 00000004 00000000 00000000 00000000", 0,
              BUFFER) == YUGERZAT_UNDECLARED);
    CHECK(refused_at(12, 24) && out_untouched_from(0));
    fresh();
    CHECK(replies->choose(NULL, 0, 0, NULL, 0, info, 12) == YUGERZAT_ENDS && ended_at(12, 0, 4));
    fresh();
    CHECK(replies->choose(b.at, b.count, 0, out, BUFFER, info, 11) == YUGERZAT_SHORT_LIST && all_untouched());
    CHECK(replies->choose(b.at, b.count, 0, out, BUFFER, NULL, 0) == YUGERZAT_SHORT_LIST && all_untouched());

    memset(long_message, 0, sizeof long_message);
    memcpy(long_message, b.at, b.count);
    fresh();
    CHECK(replies->choose(long_message, YUGERZAT_LIMIT_BYTES, 0, out, BUFFER, info, 12) == YUGERZAT_HAND_OVER &&
          figures(12, nfs));
    fresh();
    CHECK(replies->choose(long_message, YUGERZAT_LIMIT_BYTES + 1, 0, out, BUFFER, info, 12) == YUGERZAT_TOO_LONG);
    CHECK(refused_at(12, 0) && out_untouched_from(0));
}

/* ---- readers of values: what is common to all of one signature */

static enum yugerzat_answer read_at(reader *read, const char *message, size_t at, size_t count)
{
    struct bytes b = hex(message);
    fresh();
    return read(b.at, b.count, at, info, count);
}

/* The reader and its figures stand here, so that the signature of `cut` serves. */
static reader *reader_cut;
static size_t figures_cut;

static enum yugerzat_answer read_by_reader(const uint8_t *message, size_t count, size_t first)
{
    return reader_cut(message, count, first, info, figures_cut);
}

static void reader_limits(const char *name, reader *read, size_t count, const char *message)
{
    struct bytes b = hex(message), later = behind_five(&b);
    uint64_t took[FIGURES];
    of = name;
    CHECK(read_at(read, message, 0, count) == YUGERZAT_DONE);
    CHECK(info[YUGERZAT_FIGURE_NEXT] == b.count && info[YUGERZAT_FIGURE_PLAIN] == 1 && info_untouched_from(count));
    memcpy(took, info, sizeof took);
    /* a longer list than is wanted */
    CHECK(read_at(read, message, 0, FIGURES) == YUGERZAT_DONE && memcmp(took, info, sizeof took) == 0);
    /* from a later place */
    fresh();
    CHECK(read(later.at, later.count, 5, info, count) == YUGERZAT_DONE);
    CHECK(info[YUGERZAT_FIGURE_NEXT] == b.count + 5 && info[YUGERZAT_FIGURE_PLAIN] == 1 && info_untouched_from(count));
    /* cut at every place */
    reader_cut = read;
    figures_cut = count;
    cut(read_by_reader, YUGERZAT_DONE, count, message, 0);
    cut(read_by_reader, YUGERZAT_DONE, count, message, 5);
    fresh();
    CHECK(read(NULL, 0, 0, info, count) == YUGERZAT_ENDS && ended_at(count, 0, 4));
    fresh();
    CHECK(read(NULL, 0, 1, info, count) == YUGERZAT_PAST_END && refused_at(count, 0));
    CHECK(read_at(read, message, b.count, count) == YUGERZAT_ENDS && ended_at(count, b.count, 4));
    CHECK(read_at(read, message, b.count + 1, count) == YUGERZAT_PAST_END && refused_at(count, 0));
    CHECK(read_at(read, message, SIZE_MAX, count) == YUGERZAT_PAST_END && refused_at(count, 0));
    /* as long as may be, and one byte longer */
    memset(long_message, 0, sizeof long_message);
    memcpy(long_message, b.at, b.count);
    fresh();
    CHECK(read(long_message, YUGERZAT_LIMIT_BYTES, 0, info, count) == YUGERZAT_DONE &&
          memcmp(took, info, sizeof took) == 0);
    fresh();
    CHECK(read(long_message, YUGERZAT_LIMIT_BYTES + 1, 0, info, count) == YUGERZAT_TOO_LONG && refused_at(count, 0));
    fresh();
    CHECK(read(long_message, YUGERZAT_LIMIT_BYTES + 1, SIZE_MAX, info, count) == YUGERZAT_TOO_LONG &&
          refused_at(count, 0));
    /* lists that are too short */
    CHECK(read_at(read, message, 0, count - 1) == YUGERZAT_SHORT_LIST && all_untouched());
    CHECK(read(b.at, b.count, 0, NULL, 0) == YUGERZAT_SHORT_LIST);
    of = "";
}

/* ---- yugerzat_read_rpc_msg and yugerzat_read_current_rpc_msg */

static void header(const char *message, uint64_t next, uint64_t plain, uint64_t xid, uint64_t tag, const uint64_t *ten)
{
    uint64_t due[14];
    of = message;
    due[0] = next;
    due[1] = plain;
    due[2] = xid;
    due[3] = tag;
    memcpy(due + 4, ten, 10 * sizeof *ten);
    CHECK(read_at(replies->read, message, 0, 14) == YUGERZAT_DONE && figures(14, due));
    of = "";
}

static void test_rpc_msg(void)
{
    static const uint64_t zeros[10] = {0};
    static const uint64_t call[10] = {2, 100003, 3, 1, 1, 32, 3, 0, 44, 0};
    static const uint64_t loose_call[10] = {2, 100003, 3, 1, 3, 32, 1, 2, 44, 0};
    static const uint64_t accepted[10] = {0, 20, 2, 0, 0, 0};
    static const uint64_t unavailable[10] = {0, 20, 0, 3, 0, 0};
    static const uint64_t mismatch[10] = {0, 20, 0, 2, 3, 4};
    static const uint64_t garbage[10] = {0, 20, 0, 4, 0, 0};
    static const uint64_t denied[10] = {2, 3};
    static const uint64_t weak[10] = {5};
    reader_limits("an rpc_msg", replies->read, 14, samples[YUGERZAT_KIND_RPC_MSG].message);
    reader_limits("an rpc_msg of a reply", replies->read, 14,
        "0000002A 00000001 00000000 00000000 00000000 00000002 00000003 00000004");
    reader_limits("an rpc_msg of a denial", replies->read, 14, "0000002A 00000001 00000001 00000001 00000005");
    header("0000002A 00000000 00000002 000186A3 00000003 00000001 00000001 00000003 01020300 00000000 00000000", 44, 1,
        42, 0, call);
    header("FFFFFFFF 00000000 00000002 000186A3 00000003 00000001 00000003 00000001 01020300 00000002 00000000", 44, 0,
        0xFFFFFFFF, 0, loose_call);
    header("0000002A 00000002", 8, 0, 42, 0, zeros);
    header("0000002A 00000001 00000000 00000000 00000002 AABB0000 00000000", 28, 1, 42, 1, accepted);
    header("0000002A 00000001 00000000 00000000 00000000 00000003", 24, 1, 42, 1, unavailable);
    header("0000002A 00000001 00000000 00000000 00000000 00000002 00000003 00000004", 32, 1, 42, 1, mismatch);
    header("0000002A 00000001 00000000 00000000 00000000 00000006", 24, 0, 42, 1, garbage);
    header("0000002A 00000001 00000002", 12, 0, 42, 1, zeros);
    header("0000002A 00000001 00000001 00000000 00000002 00000003", 24, 1, 42, 2, denied);
    header("0000002A 00000001 00000001 00000007", 16, 0, 42, 2, zeros);
    header("0000002A 00000001 00000001 00000001 00000005", 20, 1, 42, 3, weak);
    CHECK(read_at(replies->read, "0000002A 00000001 00000001 00000001 0000000F", 0, 14) == YUGERZAT_UNDECLARED);
    CHECK(refused_at(14, 16));
    CHECK(
        read_at(replies->read, "0000002A 00000001 00000000 00000004 00000000 00000000", 0, 14) == YUGERZAT_UNDECLARED);
    CHECK(refused_at(14, 12));
}

/* ---- yugerzat_read_auth_unix */

static enum yugerzat_answer credential(const char *message, size_t at, size_t count, size_t list)
{
    struct bytes b = hex(message);
    fresh();
    return yugerzat_read_auth_unix(b.at, b.count, at, count, info, list);
}

/* The end of the body is the end of the reading: eight bytes of the message lie behind it. */
static enum yugerzat_answer read_by_body(const uint8_t *message, size_t count, size_t first)
{
    return yugerzat_read_auth_unix(message, count + 8, first, count - first, info, YUGERZAT_FIGURES_AUTH_UNIX);
}

static void test_auth_unix(void)
{
    /* four bytes before, the credential of 32 bytes, and four that are left over in the body */
    const char *message = "77777777 00000001 00000003 61626300 00000002 00000003 00000002 00000004 00000005 88888888";
    static const uint64_t due[9] = {36, 1, 1, 12, 3, 2, 3, 28, 2};
    static const uint64_t dirty[9] = {20, 0, 1, 8, 1, 2, 3, 24, 0};
    struct bytes b = hex(message);
    CHECK(credential(message, 4, 32, 9) == YUGERZAT_DONE && figures(9, due));
    CHECK(credential(message, 4, 36, 9) == YUGERZAT_DONE && figures(9, due));
    CHECK(credential(message, 4, 32, FIGURES) == YUGERZAT_DONE && figures(9, due));
    /* a body that is cut, in a message that is not: the bytes are wanting in the body */
    CHECK(credential(message, 4, 31, 9) == YUGERZAT_ENDS && ended_at(9, 24, 1));
    CHECK(credential(message, 4, 24, 9) == YUGERZAT_ENDS && ended_at(9, 24, 8));
    CHECK(credential(message, 4, 21, 9) == YUGERZAT_ENDS && ended_at(9, 24, 3));
    CHECK(credential(message, 4, 10, 9) == YUGERZAT_ENDS && ended_at(9, 8, 2));
    CHECK(credential(message, 4, 0, 9) == YUGERZAT_ENDS && ended_at(9, 4, 4));
    of = "a credential that is cut";
    cut(read_by_body, YUGERZAT_DONE, 9, samples[YUGERZAT_KIND_AUTH_UNIX].message, 0);
    cut(read_by_body, YUGERZAT_DONE, 9, samples[YUGERZAT_KIND_AUTH_UNIX].message, 4);
    of = "";
    /* a body that is not inside the message: as an empty one at its start */
    CHECK(credential(message, 4, 37, 9) == YUGERZAT_ENDS && ended_at(9, 0, 4));
    CHECK(credential(message, 41, 0, 9) == YUGERZAT_ENDS && ended_at(9, 0, 4));
    CHECK(credential(message, SIZE_MAX, 1, 9) == YUGERZAT_ENDS && ended_at(9, 0, 4));
    CHECK(credential(message, 4, SIZE_MAX, 9) == YUGERZAT_ENDS && ended_at(9, 0, 4));
    /* one that is empty, at the end */
    CHECK(credential(message, 40, 0, 9) == YUGERZAT_ENDS && ended_at(9, 40, 4));
    fresh();
    CHECK(yugerzat_read_auth_unix(NULL, 0, 0, 0, info, 9) == YUGERZAT_ENDS && ended_at(9, 0, 4));
    /* padding that is not zero */
    CHECK(credential("00000001 00000001 61000001 00000002 00000003 00000000", 0, 24, 9) == YUGERZAT_DONE);
    CHECK(info[0] == 24 && info[1] == 0 && memcmp(info + 2, dirty + 2, 7 * sizeof *info) == 0);
    CHECK(credential(message, 4, 32, 8) == YUGERZAT_SHORT_LIST && all_untouched());
    CHECK(yugerzat_read_auth_unix(b.at, b.count, 4, 32, NULL, 0) == YUGERZAT_SHORT_LIST);
    memset(long_message, 0, sizeof long_message);
    fresh();
    CHECK(yugerzat_read_auth_unix(long_message, YUGERZAT_LIMIT_BYTES, 0, YUGERZAT_LIMIT_BYTES, info, 9) ==
              YUGERZAT_DONE &&
          info[0] == 20);
    fresh();
    CHECK(yugerzat_read_auth_unix(long_message, YUGERZAT_LIMIT_BYTES + 1, 0, 20, info, 9) == YUGERZAT_TOO_LONG &&
          refused_at(9, 0));
}

/* ---- writers: what is common to all */

typedef enum yugerzat_answer writer(const uint64_t *, size_t, uint8_t *, size_t, size_t, uint64_t *, size_t);

static bool wide(writer *write, const uint64_t *fields, size_t count)
{
    fresh();
    return write(fields, count, out, BUFFER, 0, info, 1) == YUGERZAT_WIDE_NUMBER && all_untouched();
}

static bool writes(writer *write, const uint64_t *fields, size_t count, const char *due)
{
    struct bytes b = hex(due);
    fresh();
    return write(fields, count, out, BUFFER, 0, info, 1) == YUGERZAT_DONE && told(b.count) && out_is(0, due) &&
           out_untouched_from(b.count);
}

/* Whether the one figure of a writer is how many bytes it needs, or else 0, and nothing was written. */
static bool refused_writing(uint64_t needed)
{
    return told(needed) && out_untouched_from(0);
}

static void writer_limits(const char *name, writer *write, const uint64_t *fields, size_t count, const char *due)
{
    struct bytes b = hex(due);
    size_t room;
    of = name;
    CHECK(writes(write, fields, count, due));
    /* at a later place, into room that is just enough, and into all that is less */
    fresh();
    CHECK(write(fields, count, out, b.count + 7, 7, info, 1) == YUGERZAT_DONE && told(b.count + 7));
    CHECK(out_untouched_before(7) && out_is(7, due) && out_untouched_from(b.count + 7));
    for (room = 7; room < b.count + 7; room++) {
        fresh();
        CHECK(write(fields, count, out, room, 7, info, 1) == YUGERZAT_NO_ROOM && refused_writing(b.count));
    }
    fresh();
    CHECK(write(fields, count, out, b.count - 1, 0, info, 1) == YUGERZAT_NO_ROOM && refused_writing(b.count));
    fresh();
    CHECK(write(fields, count, NULL, 0, 0, info, 1) == YUGERZAT_NO_ROOM && refused_writing(b.count));
    fresh();
    CHECK(write(fields, count, out, 9, 10, info, 1) == YUGERZAT_PAST_END && refused_writing(0));
    fresh();
    CHECK(write(fields, count, out, BUFFER, SIZE_MAX, info, 1) == YUGERZAT_PAST_END && refused_writing(0));
    /* lists that are too short, and ones that are longer than they must be */
    fresh();
    CHECK(write(fields, count - 1, out, BUFFER, 0, info, 1) == YUGERZAT_SHORT_LIST && all_untouched());
    CHECK(write(NULL, 0, out, BUFFER, 0, info, 1) == YUGERZAT_SHORT_LIST && all_untouched());
    CHECK(write(fields, count, out, BUFFER, 0, NULL, 0) == YUGERZAT_SHORT_LIST && all_untouched());
    CHECK(write(fields, count, out, BUFFER, 0, info, FIGURES) == YUGERZAT_DONE && told(b.count));
    of = "";
}

/* A number that does not fit comes before a place that is past the end, and a list that is too short before both. */
static void wide_comes_early(writer *write, const uint64_t *wrong, size_t count)
{
    fresh();
    CHECK(write(wrong, count, out, 9, 10, info, 1) == YUGERZAT_WIDE_NUMBER && all_untouched());
    CHECK(write(wrong, count, out, 9, 10, NULL, 0) == YUGERZAT_SHORT_LIST && all_untouched());
    CHECK(write(wrong, count - 1, out, 9, 10, info, 1) == YUGERZAT_SHORT_LIST && all_untouched());
}

/* ---- writers of two pieces, each from a source of its own */

typedef enum yugerzat_answer pair_writer(const uint8_t *, size_t, const uint8_t *, size_t, const uint64_t *, size_t,
    uint8_t *, size_t, size_t, uint64_t *, size_t);

/* A writer, how many fields it has, where among them its two pieces stand, and how many bytes their units have. */
struct pair {
    const char *name;
    pair_writer *write;
    size_t count;
    size_t at[2];
    size_t unit[2];
    size_t empty; /* how many bytes it writes for two empty pieces and zeros */
};

static const struct pair call_pair = {"yugerzat_write_call", yugerzat_write_call, 11, {6, 9}, {1, 1}, 40};
static const struct pair unix_pair = {"yugerzat_write_auth_unix", yugerzat_write_auth_unix, 7, {1, 5}, {1, 4}, 20};
static const struct pair name_pair = {"yugerzat_write_diropargs3", yugerzat_write_diropargs3, 4, {0, 2}, {1, 1}, 8};

/* The sources stand here, so that the signature of a writer serves. */
static struct bytes sources[2];

static enum yugerzat_answer write_pair(const struct pair *pair, const uint64_t *fields, size_t count, uint8_t *to,
    size_t room, size_t start, uint64_t *list, size_t lists)
{
    return pair->write(
        sources[0].at, sources[0].count, sources[1].at, sources[1].count, fields, count, to, room, start, list, lists);
}

static enum yugerzat_answer write_call(
    const uint64_t *fields, size_t count, uint8_t *to, size_t room, size_t start, uint64_t *list, size_t lists)
{
    return write_pair(&call_pair, fields, count, to, room, start, list, lists);
}

static enum yugerzat_answer write_auth_unix(
    const uint64_t *fields, size_t count, uint8_t *to, size_t room, size_t start, uint64_t *list, size_t lists)
{
    return write_pair(&unix_pair, fields, count, to, room, start, list, lists);
}

static enum yugerzat_answer write_diropargs3(
    const uint64_t *fields, size_t count, uint8_t *to, size_t room, size_t start, uint64_t *list, size_t lists)
{
    return write_pair(&name_pair, fields, count, to, room, start, list, lists);
}

/* Each piece is taken from its own source and judged by it. */
static void pair_limits(const struct pair *pair)
{
    struct bytes one = hex("99AABBCC 0A0B0C0D 68656C6C 6F000000"), first = hex("FFAABBCC0A"),
                 second = hex("00000C0D68656C6C6FEE");
    struct bytes written;
    uint64_t fields[11] = {0}, moved[11];
    uint64_t *const place[2] = {fields + pair->at[0], fields + pair->at[1]};
    size_t half, k, after;
    of = pair->name;

    /* from two buffers, as from one */
    place[0][0] = 1;
    place[0][1] = 4;
    place[1][0] = 6;
    place[1][1] = pair->unit[1] == 1 ? 7 : 1;
    sources[0] = sources[1] = one;
    fresh();
    CHECK(write_pair(pair, fields, pair->count, out, BUFFER, 0, info, 1) == YUGERZAT_DONE && info[0] > pair->empty);
    after = (size_t)info[0];
    memcpy(written.at, out, after);
    CHECK(out_untouched_from(after));
    memcpy(moved, fields, sizeof moved);
    moved[pair->at[1]] = 2;
    sources[0] = first;
    sources[1] = second;
    fresh();
    CHECK(write_pair(pair, moved, pair->count, out, BUFFER, 0, info, 1) == YUGERZAT_DONE && told(after));
    CHECK(memcmp(out, written.at, after) == 0 && out_untouched_from(after));
    /* each would lie outside the other's source */
    sources[0] = second;
    sources[1] = hex("FF");
    fresh();
    CHECK(write_pair(pair, moved, pair->count, out, BUFFER, 0, info, 1) == YUGERZAT_OUTSIDE && refused_writing(0));
    sources[0] = hex("FF");
    sources[1] = second;
    fresh();
    CHECK(write_pair(pair, moved, pair->count, out, BUFFER, 0, info, 1) == YUGERZAT_OUTSIDE && refused_writing(0));

    /* pieces at the end, one byte past it, and past every number */
    sources[0] = sources[1] = hex("00112233 44556677 8899AABB CCDDEEFF 01020304");
    for (half = 0; half < 2; half++) {
        size_t unit = pair->unit[half], most = 20 / unit;
        const uint64_t outside[][2] = {{21, 0}, {20, 1}, {0, most + 1}, {1, most}, {UINT64_MAX, 1}, {1, UINT64_MAX},
            {UINT64_MAX, UINT64_MAX}, {0x100000000, 0}, {0, 0x100000000}, {0, 0x4000000000000000}, {UINT64_MAX, 0}};
        memset(fields, 0, sizeof fields);
        place[half][0] = 20;
        fresh();
        CHECK(write_pair(pair, fields, pair->count, out, BUFFER, 0, info, 1) == YUGERZAT_DONE && told(pair->empty));
        place[half][0] = 0;
        place[half][1] = most;
        fresh();
        CHECK(
            write_pair(pair, fields, pair->count, out, BUFFER, 0, info, 1) == YUGERZAT_DONE && told(pair->empty + 20));
        for (k = 0; k < sizeof outside / sizeof *outside; k++) {
            place[half][0] = outside[k][0];
            place[half][1] = outside[k][1];
            fresh();
            CHECK(write_pair(pair, fields, pair->count, out, BUFFER, 0, info, 1) == YUGERZAT_OUTSIDE &&
                  refused_writing(0));
        }
    }

    /* no sources at all */
    memset(fields, 0, sizeof fields);
    fresh();
    CHECK(pair->write(NULL, 0, NULL, 0, fields, pair->count, out, BUFFER, 0, info, 1) == YUGERZAT_DONE &&
          info[0] == pair->empty);
    CHECK(out_untouched_from(pair->empty));

    /* an encoding as long as may be, one byte longer, and sources that are too long; the order of the refusals */
    memset(long_message, 0x5A, sizeof long_message);
    for (half = 0; half < 2; half++) {
        size_t unit = pair->unit[half], most = YUGERZAT_LIMIT_BYTES - pair->empty;
        const uint8_t *a = half ? NULL : long_message, *b = half ? long_message : NULL;
        size_t full_a = half ? 0 : YUGERZAT_LIMIT_BYTES, full_b = half ? YUGERZAT_LIMIT_BYTES : 0;
        size_t over_a = half ? 0 : YUGERZAT_LIMIT_BYTES + 1, over_b = half ? YUGERZAT_LIMIT_BYTES + 1 : 0;
        memset(fields, 0, sizeof fields);
        place[half][1] = most / unit;
        memset(long_out, 0xEE, sizeof long_out);
        fresh();
        CHECK(pair->write(a, full_a, b, full_b, fields, pair->count, long_out, sizeof long_out, 0, info, 1) ==
              YUGERZAT_DONE);
        CHECK(told(YUGERZAT_LIMIT_BYTES) && long_out[YUGERZAT_LIMIT_BYTES] == 0xEE);
        fresh();
        CHECK(pair->write(a, full_a, b, full_b, fields, pair->count, out, BUFFER, 0, info, 1) == YUGERZAT_NO_ROOM);
        CHECK(refused_writing(YUGERZAT_LIMIT_BYTES));
        place[half][1]++;
        memset(long_out, 0xEE, sizeof long_out);
        fresh();
        CHECK(pair->write(a, full_a, b, full_b, fields, pair->count, long_out, sizeof long_out, 0, info, 1) ==
              YUGERZAT_TOO_LONG);
        CHECK(told(0) && long_out_untouched());
        fresh();
        CHECK(pair->write(a, full_a, b, full_b, fields, pair->count, out, 0, 0, info, 1) == YUGERZAT_TOO_LONG);
        CHECK(pair->write(a, full_a, b, full_b, fields, pair->count, out, 0, 1, info, 1) == YUGERZAT_PAST_END &&
              refused_writing(0));
        /* a source that is too long, though nothing of it is written, comes before a piece that lies outside */
        memset(fields, 0, sizeof fields);
        fresh();
        CHECK(pair->write(a, over_a, b, over_b, fields, pair->count, out, BUFFER, 0, info, 1) == YUGERZAT_TOO_LONG &&
              refused_writing(0));
        for (k = 0; k < 2; k++) {
            place[k][0] = UINT64_MAX;
            fresh();
            CHECK(pair->write(a, over_a, b, over_b, fields, pair->count, out, 0, 0, info, 1) == YUGERZAT_TOO_LONG &&
                  refused_writing(0));
            fresh();
            CHECK(pair->write(a, over_a, b, over_b, fields, pair->count, out, 0, 1, info, 1) == YUGERZAT_PAST_END &&
                  refused_writing(0));
            /* a piece that lies outside comes before an encoding that is too long, and before room */
            place[1 - k][1] = most;
            fresh();
            CHECK(pair->write(a, full_a, b, full_b, fields, pair->count, out, 0, 0, info, 1) == YUGERZAT_OUTSIDE &&
                  refused_writing(0));
            memset(fields, 0, sizeof fields);
        }
    }
    of = "";
}

/* ---- auth_unix, written */

static void test_write_auth_unix(void)
{
    static const uint64_t empty[7] = {0};
    static const size_t words[] = {0, 3, 4};
    const char *message = samples[YUGERZAT_KIND_AUTH_UNIX].message;
    uint64_t fields[7];
    size_t i;
    /* what is read is written as it was */
    sources[0] = sources[1] = hex(message);
    fresh();
    CHECK(yugerzat_read_auth_unix(sources[0].at, sources[0].count, 0, sources[0].count, info, 9) == YUGERZAT_DONE &&
          info[1] == 1);
    memcpy(fields, info + YUGERZAT_FIGURE_FIELDS, sizeof fields);
    writer_limits("yugerzat_write_auth_unix", write_auth_unix, fields, YUGERZAT_FIGURES_WRITE_AUTH_UNIX, message);
    /* a name and gids that were never in one message */
    sources[0] = hex("FF 616263");
    sources[1] = hex("FFFF 00000004 00000005 FF");
    fields[1] = 1;
    fields[5] = 2;
    writer_limits("yugerzat_write_auth_unix from two sources", write_auth_unix, fields, 7, message);
    sources[0].count = sources[1].count = 0;
    writer_limits("yugerzat_write_auth_unix of nothing", write_auth_unix, empty, 7,
        "00000000 00000000 00000000 00000000 00000000");
    for (i = 0; i < sizeof words / sizeof *words; i++) {
        memcpy(fields, empty, sizeof fields);
        fields[words[i]] = 0x100000000;
        CHECK(wide(write_auth_unix, fields, 7));
        fields[words[i]] = UINT64_MAX;
        CHECK(wide(write_auth_unix, fields, 7));
        wide_comes_early(write_auth_unix, fields, 7);
        fields[words[i]] = 0xFFFFFFFF;
        fresh();
        CHECK(write_auth_unix(fields, 7, out, BUFFER, 0, info, 1) == YUGERZAT_DONE && told(20));
    }
    pair_limits(&unix_pair);
}

/* ---- fattr3 */

static void test_fattr3(void)
{
    static const uint64_t due[19] = {84, 1, 2, 0x1ED, 3, 4, 5, 6, 7, 8, 9, 10, 11, 12, 13, 14, 15, 16, 17};
    static const uint64_t largest[17] = {7, 0xFFFFFFFF, 0xFFFFFFFF, 0xFFFFFFFF, 0xFFFFFFFF, UINT64_MAX, UINT64_MAX,
        0xFFFFFFFF, 0xFFFFFFFF, UINT64_MAX, UINT64_MAX, 0xFFFFFFFF, 0xFFFFFFFF, 0xFFFFFFFF, 0xFFFFFFFF, 0xFFFFFFFF,
        0xFFFFFFFF};
    const char *message = samples[YUGERZAT_KIND_FATTR3].message;
    uint64_t fields[17], back[17];
    size_t i;
    reader_limits("yugerzat_read_fattr3", yugerzat_read_fattr3, YUGERZAT_FIGURES_FATTR3, message);
    CHECK(read_at(yugerzat_read_fattr3, message, 0, 19) == YUGERZAT_DONE && figures(19, due));
    CHECK(read_at(yugerzat_read_fattr3, "00000000 00000000", 0, 19) == YUGERZAT_UNDECLARED && refused_at(19, 0));
    CHECK(read_at(yugerzat_read_fattr3, "00000000 00000008", 4, 19) == YUGERZAT_UNDECLARED && refused_at(19, 4));

    memcpy(fields, due + YUGERZAT_FIGURE_FIELDS, sizeof fields);
    writer_limits("yugerzat_write_fattr3", yugerzat_write_fattr3, fields, YUGERZAT_FIGURES_WRITE_FATTR3, message);
    /* each field at its largest number, and past it */
    fresh();
    CHECK(yugerzat_write_fattr3(largest, 17, out, YUGERZAT_FATTR3_BYTES, 0, info, 1) == YUGERZAT_DONE && info[0] == 84);
    CHECK(yugerzat_read_fattr3(out, 84, 0, info, 19) == YUGERZAT_DONE);
    memcpy(back, info + YUGERZAT_FIGURE_FIELDS, sizeof back);
    CHECK(memcmp(back, largest, sizeof back) == 0);
    for (i = 0; i < 17; i++) {
        memcpy(fields, largest, sizeof fields);
        if (fields[i] == UINT64_MAX)
            continue;
        fields[i]++;
        CHECK(wide(yugerzat_write_fattr3, fields, 17));
        fields[i] = UINT64_MAX;
        CHECK(wide(yugerzat_write_fattr3, fields, 17));
    }
    memcpy(fields, largest, sizeof fields);
    fields[0] = 0;
    CHECK(wide(yugerzat_write_fattr3, fields, 17));
    fields[0] = 0x100000001;
    CHECK(wide(yugerzat_write_fattr3, fields, 17));
}

/* ---- sattr3 */

static void test_sattr3(void)
{
    static const uint64_t full[16] = {60, 1, 1, 0x1A4, 1, 1000, 1, 1001, 1, 4096, 2, 7, 8, 2, 9, 10};
    static const uint64_t empty[16] = {24, 1};
    static const uint64_t server[16] = {24, 1, 0, 0, 0, 0, 0, 0, 0, 0, 1, 0, 0, 1, 0, 0};
    static const uint64_t truncation[16] = {32, 0, 0, 0, 0, 0, 0, 0, 1, 0};
    static const size_t words[] = {1, 3, 5, 9, 10, 12, 13};
    const char *message = samples[YUGERZAT_KIND_SATTR3].message;
    const char *nothing = "00000000 00000000 00000000 00000000 00000000 00000000";
    uint64_t fields[14];
    size_t i;
    reader_limits("yugerzat_read_sattr3", yugerzat_read_sattr3, YUGERZAT_FIGURES_SATTR3, message);
    reader_limits("yugerzat_read_sattr3 of nothing", yugerzat_read_sattr3, YUGERZAT_FIGURES_SATTR3, nothing);
    CHECK(read_at(yugerzat_read_sattr3, message, 0, 16) == YUGERZAT_DONE && figures(16, full));
    CHECK(read_at(yugerzat_read_sattr3, nothing, 0, 16) == YUGERZAT_DONE && figures(16, empty));
    CHECK(
        read_at(yugerzat_read_sattr3, "00000000 00000000 00000000 00000000 00000001 00000001", 0, 16) == YUGERZAT_DONE);
    CHECK(figures(16, server));
    /* the flag that is not 1: the truncation is not lost */
    CHECK(read_at(yugerzat_read_sattr3, "00000000 00000000 00000000 FFFFFFFF 0000000000000000 00000000 00000000", 0,
              16) == YUGERZAT_DONE);
    CHECK(figures(16, truncation));
    CHECK(read_at(yugerzat_read_sattr3, "00000000 00000000 00000000 00000000 00000003 00000000", 0, 16) ==
          YUGERZAT_UNDECLARED);
    CHECK(refused_at(16, 16));

    memcpy(fields, full + YUGERZAT_FIGURE_FIELDS, sizeof fields);
    writer_limits("yugerzat_write_sattr3", yugerzat_write_sattr3, fields, YUGERZAT_FIGURES_WRITE_SATTR3, message);
    for (i = 0; i < sizeof words / sizeof *words; i++) {
        memcpy(fields, full + YUGERZAT_FIGURE_FIELDS, sizeof fields);
        fields[words[i]] = 0x100000000;
        CHECK(wide(yugerzat_write_sattr3, fields, 14));
        fields[words[i]] = UINT64_MAX;
        CHECK(wide(yugerzat_write_sattr3, fields, 14));
    }
    for (i = 8; i <= 11; i += 3) {
        memcpy(fields, full + YUGERZAT_FIGURE_FIELDS, sizeof fields);
        fields[i] = 3;
        CHECK(wide(yugerzat_write_sattr3, fields, 14));
        fields[i] = 0x100000002;
        CHECK(wide(yugerzat_write_sattr3, fields, 14));
    }
    /* every flag but 0 is a yes; a size may have 64 bits */
    memset(fields, 0, sizeof fields);
    fields[6] = UINT64_MAX;
    fields[7] = UINT64_MAX;
    CHECK(writes(
        yugerzat_write_sattr3, fields, 14, "00000000 00000000 00000000 00000001 FFFFFFFFFFFFFFFF 00000000 00000000"));
    /* what is not set is not looked at */
    memset(fields, 0, sizeof fields);
    fields[1] = fields[3] = fields[5] = fields[7] = fields[9] = fields[10] = fields[12] = fields[13] = UINT64_MAX;
    writer_limits("yugerzat_write_sattr3 of nothing", yugerzat_write_sattr3, fields, 14, nothing);
    fields[8] = YUGERZAT_SET_TO_SERVER_TIME;
    CHECK(writes(yugerzat_write_sattr3, fields, 14, "00000000 00000000 00000000 00000000 00000001 00000000"));
}

/* ---- diropargs3 */

static void test_diropargs3(void)
{
    static const uint64_t due[6] = {20, 1, 4, 4, 12, 5};
    static const uint64_t dirty[6] = {20, 0, 4, 4, 12, 5};
    const char *message = samples[YUGERZAT_KIND_DIROPARGS3].message;
    uint64_t fields[4] = {4, 4, 12, 5};
    reader_limits("yugerzat_read_diropargs3", yugerzat_read_diropargs3, YUGERZAT_FIGURES_DIROPARGS3, message);
    CHECK(read_at(yugerzat_read_diropargs3, message, 0, 6) == YUGERZAT_DONE && figures(6, due));
    CHECK(read_at(yugerzat_read_diropargs3, "00000004 0A0B0C0D 00000005 68656C6C 6F0000FF", 0, 6) == YUGERZAT_DONE);
    CHECK(figures(6, dirty));
    CHECK(read_at(yugerzat_read_diropargs3, "00000000 FFFFFFFF 00000000", 0, 6) == YUGERZAT_ENDS);
    CHECK(ended_at(6, 4, 4294967292));

    sources[0] = sources[1] = hex(message);
    writer_limits("yugerzat_write_diropargs3", write_diropargs3, fields, YUGERZAT_FIGURES_WRITE_DIROPARGS3, message);
    fields[0] = 20;
    fields[1] = 0;
    CHECK(writes(write_diropargs3, fields, 4, "00000000 00000005 68656C6C 6F000000"));
    /* a handle and a name that were never in one message */
    sources[0] = hex("0A0B0C0D");
    sources[1] = hex("68656C6C 6F");
    fields[0] = fields[2] = 0;
    fields[1] = 4;
    writer_limits("yugerzat_write_diropargs3 from two sources", write_diropargs3, fields, 4, message);
    pair_limits(&name_pair);
}

/* ---- call */

static void test_call(void)
{
    static const uint64_t call[11] = {42, 2, 100003, 3, 1, 1, 1, 3, 0, 0, 0};
    static const uint64_t signed_call[11] = {42, 2, 100003, 3, 1, 1, 1, 3, 2, 2, 5};
    static const uint64_t nothing[11] = {0};
    static const char *const due =
        "0000002A 00000000 00000002 000186A3 00000003 00000001 00000001 00000003 AABBCC00 00000000 00000000";
    uint64_t fields[11];
    size_t i;
    sources[0] = hex("99AABBCC");
    sources[1] = hex("99AABBCC");
    writer_limits("yugerzat_write_call", write_call, call, YUGERZAT_FIGURES_WRITE_CALL, due);
    sources[1] = hex("0000 1122334455 66");
    writer_limits("yugerzat_write_call from two sources", write_call, signed_call, 11,
        "0000002A 00000000 00000002 000186A3 00000003 00000001 00000001 00000003 AABBCC00"
        "00000002 00000005 11223344 55000000");
    fresh();
    CHECK(
        yugerzat_write_call(NULL, 0, NULL, 0, nothing, 11, out, BUFFER, 0, info, 1) == YUGERZAT_DONE && info[0] == 40);
    CHECK(out_untouched_from(40) && yugerzat_read_rpc_msg(out, 40, 0, info, 14) == YUGERZAT_DONE && info[1] == 1);
    for (i = 0; i < 5; i++) {
        memcpy(fields, call, sizeof fields);
        fields[i] = 0x100000000;
        CHECK(wide(write_call, fields, 11));
        fields[i] = UINT64_MAX;
        CHECK(wide(write_call, fields, 11));
        wide_comes_early(write_call, fields, 11);
        fields[i] = 0xFFFFFFFF;
        fresh();
        CHECK(write_call(fields, 11, out, BUFFER, 0, info, 1) == YUGERZAT_DONE);
    }
    for (i = 5; i <= 8; i += 3) {
        memcpy(fields, call, sizeof fields);
        fields[i] = 4;
        CHECK(wide(write_call, fields, 11));
        fields[i] = 0x100000000;
        CHECK(wide(write_call, fields, 11));
        wide_comes_early(write_call, fields, 11);
        fields[i] = 3;
        fresh();
        CHECK(write_call(fields, 11, out, BUFFER, 0, info, 1) == YUGERZAT_DONE);
    }
    pair_limits(&call_pair);
}

/* ---- yugerzat_write_reply and yugerzat_write_current_reply */

static struct bytes reply_source;

static enum yugerzat_answer write_reply(
    const uint64_t *fields, size_t count, uint8_t *to, size_t room, size_t start, uint64_t *list, size_t lists)
{
    return replies->write(reply_source.at, reply_source.count, fields, count, to, room, start, list, lists);
}

/* What is read of a plain reply is written as it was; so is what has rubbish where the tag has no use for it. */
static void reply_back(const char *message, uint64_t tag, size_t used)
{
    uint64_t fields[8];
    size_t i;
    of = message;
    reply_source = hex(message);
    CHECK(read_at(replies->read, message, 0, 14) == YUGERZAT_DONE && info[1] == 1 && info[3] == tag);
    memcpy(fields, info + YUGERZAT_FIGURE_FIELDS, sizeof fields);
    writer_limits(message, write_reply, fields, YUGERZAT_FIGURES_WRITE_REPLY, message);
    for (i = used; i < 8; i++)
        fields[i] = UINT64_MAX;
    CHECK(writes(write_reply, fields, 8, message));
    of = "";
}

/* A field of a reply that may not be over a number, nor under another. */
static void reply_range(const uint64_t *reply, size_t at, uint64_t least, uint64_t most)
{
    uint64_t fields[8];
    memcpy(fields, reply, sizeof fields);
    fields[at] = most;
    fresh();
    CHECK(write_reply(fields, 8, out, BUFFER, 0, info, 1) == YUGERZAT_DONE);
    fields[at] = least;
    fresh();
    CHECK(write_reply(fields, 8, out, BUFFER, 0, info, 1) == YUGERZAT_DONE);
    if (least) {
        fields[at] = least - 1;
        CHECK(wide(write_reply, fields, 8));
    }
    fields[at] = most + 1;
    CHECK(wide(write_reply, fields, 8));
    fields[at] = 0x100000000 + least;
    CHECK(wide(write_reply, fields, 8));
    fields[at] = UINT64_MAX;
    CHECK(wide(write_reply, fields, 8));
    wide_comes_early(write_reply, fields, 8);
}

static void test_reply(void)
{
    static const uint64_t success[8] = {42, YUGERZAT_TAG_ACCEPTED, YUGERZAT_AUTH_SHORT, 1, 3, YUGERZAT_SUCCESS, 0, 0};
    static const uint64_t mismatch[8] = {42, YUGERZAT_TAG_ACCEPTED, 0, 0, 0, YUGERZAT_PROG_MISMATCH, 2, 3};
    static const uint64_t version[8] = {42, YUGERZAT_TAG_DENIED_VERSION, 2, 3};
    static const uint64_t weak[8] = {42, YUGERZAT_TAG_DENIED_AUTH, YUGERZAT_AUTH_TOOWEAK};
    static const uint64_t tags[] = {YUGERZAT_TAG_CALL, 4, 5, 0x100000001, UINT64_MAX};
    static const uint64_t outside[][2] = {
        {5, 0}, {4, 1}, {0, 5}, {1, 4}, {UINT64_MAX, 1}, {1, UINT64_MAX}, {0, 0x100000000}};
    uint64_t fields[8];
    size_t i;
    /* every arm and every status */
    reply_back("0000002A 00000001 00000000 00000000 00000000 00000000", 1, 6);
    reply_back("FFFFFFFF 00000001 00000000 00000003 00000005 11223344 55000000 00000000", 1, 6);
    reply_back("0000002A 00000001 00000000 00000001 00000004 11223344 00000001", 1, 6);
    reply_back("0000002A 00000001 00000000 00000000 00000000 00000002 00000003 FFFFFFFF", 1, 8);
    reply_back("0000002A 00000001 00000000 00000002 00000001 99000000 00000002 00000000 00000001", 1, 8);
    reply_back("0000002A 00000001 00000000 00000000 00000000 00000003", 1, 6);
    reply_back("0000002A 00000001 00000000 00000000 00000000 00000004", 1, 6);
    reply_back("0000002A 00000001 00000001 00000000 00000002 FFFFFFFF", 2, 4);
    reply_back("00000000 00000001 00000001 00000001 00000001", 3, 3);
    reply_back("0000002A 00000001 00000001 00000001 00000002", 3, 3);
    reply_back("0000002A 00000001 00000001 00000001 00000003", 3, 3);
    reply_back("0000002A 00000001 00000001 00000001 00000004", 3, 3);
    reply_back("0000002A 00000001 00000001 00000001 00000005", 3, 3);

    /* numbers that do not fit, in the arms that use them */
    reply_source = hex("99AABBCC");
    CHECK(writes(write_reply, success, 8, "0000002A 00000001 00000000 00000002 00000003 AABBCC00 00000000"));
    reply_range(success, 0, 0, 0xFFFFFFFF);
    reply_range(success, 2, YUGERZAT_AUTH_NULL, YUGERZAT_AUTH_DES);
    reply_range(success, 5, YUGERZAT_SUCCESS, replies->last_accept);
    reply_range(mismatch, 6, 0, 0xFFFFFFFF);
    reply_range(mismatch, 7, 0, 0xFFFFFFFF);
    reply_range(version, 0, 0, 0xFFFFFFFF);
    reply_range(version, 2, 0, 0xFFFFFFFF);
    reply_range(version, 3, 0, 0xFFFFFFFF);
    reply_range(weak, 0, 0, 0xFFFFFFFF);
    reply_range(weak, 2, replies->first_auth, replies->last_auth);
    for (i = 0; i < sizeof tags / sizeof *tags; i++) {
        memcpy(fields, success, sizeof fields);
        fields[1] = tags[i];
        CHECK(wide(write_reply, fields, 8));
        wide_comes_early(write_reply, fields, 8);
    }

    /* the verifier outside its source, an encoding and a source that are too long, and the order of the refusals */
    for (i = 0; i < sizeof outside / sizeof *outside; i++) {
        memcpy(fields, success, sizeof fields);
        fields[3] = outside[i][0];
        fields[4] = outside[i][1];
        fresh();
        CHECK(write_reply(fields, 8, out, BUFFER, 0, info, 1) == YUGERZAT_OUTSIDE && refused_writing(0));
        fresh();
        CHECK(write_reply(fields, 8, out, 0, 0, info, 1) == YUGERZAT_OUTSIDE && refused_writing(0));
        fresh();
        CHECK(write_reply(fields, 8, out, 0, 1, info, 1) == YUGERZAT_PAST_END && refused_writing(0));
        fresh();
        CHECK(
            replies->write(long_message, YUGERZAT_LIMIT_BYTES + 1, fields, 8, out, 0, 0, info, 1) == YUGERZAT_TOO_LONG);
        CHECK(refused_writing(0));
    }
    memset(long_message, 0x5A, sizeof long_message);
    memset(long_out, 0xEE, sizeof long_out);
    memcpy(fields, success, sizeof fields);
    fields[3] = 0;
    fields[4] = YUGERZAT_LIMIT_BYTES - 24;
    fresh();
    CHECK(replies->write(long_message, YUGERZAT_LIMIT_BYTES, fields, 8, long_out, sizeof long_out, 0, info, 1) ==
          YUGERZAT_DONE);
    CHECK(told(YUGERZAT_LIMIT_BYTES) && long_out[YUGERZAT_LIMIT_BYTES] == 0xEE);
    fresh();
    CHECK(replies->write(long_message, YUGERZAT_LIMIT_BYTES, fields, 8, out, BUFFER, 0, info, 1) == YUGERZAT_NO_ROOM);
    CHECK(refused_writing(YUGERZAT_LIMIT_BYTES));
    fields[4]++;
    memset(long_out, 0xEE, sizeof long_out);
    fresh();
    CHECK(replies->write(long_message, YUGERZAT_LIMIT_BYTES, fields, 8, long_out, sizeof long_out, 0, info, 1) ==
          YUGERZAT_TOO_LONG);
    CHECK(told(0) && long_out_untouched());
    /* a denial has no verifier, but a source that is too long is refused all the same */
    fresh();
    CHECK(
        replies->write(long_message, YUGERZAT_LIMIT_BYTES + 1, weak, 8, out, BUFFER, 0, info, 1) == YUGERZAT_TOO_LONG);
    CHECK(refused_writing(0));
    fresh();
    CHECK(replies->write(NULL, 0, weak, 8, out, BUFFER, 0, info, 1) == YUGERZAT_DONE && told(20));
}

/* ---- the numbers of replies, in both readings */

#define ACCEPTED "0000002A 00000001 00000000 00000000 00000000"
#define DENIED "0000002A 00000001 00000001 00000001"

/* The kinds that hold a number, in the one reading and in the other, and what stands before it. */
struct holder {
    enum yugerzat_kind kind[READINGS];
    const char *before;
};

static const struct holder accept_holders[] = {
    {{YUGERZAT_KIND_ACCEPT_BODY, YUGERZAT_KIND_CURRENT_ACCEPT_BODY}, ""},
    {{YUGERZAT_KIND_ACCEPTED_REPLY, YUGERZAT_KIND_CURRENT_ACCEPTED_REPLY}, "00000000 00000000"},
    {{YUGERZAT_KIND_REPLY_BODY, YUGERZAT_KIND_CURRENT_REPLY_BODY}, "00000000 00000000 00000000"},
    {{YUGERZAT_KIND_RPC_BODY, YUGERZAT_KIND_CURRENT_RPC_BODY}, "00000001 00000000 00000000 00000000"},
    {{YUGERZAT_KIND_RPC_MSG, YUGERZAT_KIND_CURRENT_RPC_MSG}, ACCEPTED},
};

static const struct holder auth_holders[] = {
    {{YUGERZAT_KIND_AUTH_STAT, YUGERZAT_KIND_CURRENT_AUTH_STAT}, ""},
    {{YUGERZAT_KIND_REJECTED_REPLY, YUGERZAT_KIND_CURRENT_REJECTED_REPLY}, "00000001"},
    {{YUGERZAT_KIND_REPLY_BODY, YUGERZAT_KIND_CURRENT_REPLY_BODY}, "00000001 00000001"},
    {{YUGERZAT_KIND_RPC_BODY, YUGERZAT_KIND_CURRENT_RPC_BODY}, "00000001 00000001 00000001"},
    {{YUGERZAT_KIND_RPC_MSG, YUGERZAT_KIND_CURRENT_RPC_MSG}, DENIED},
};

static const enum yugerzat_kind accept_stats[READINGS] = {YUGERZAT_KIND_ACCEPT_STAT, YUGERZAT_KIND_CURRENT_ACCEPT_STAT};

/* A message in hex: what stands before a number, the number, and the versions that follow it in a PROG_MISMATCH. */
struct text {
    char hex[100];
};

static struct text text_of(const char *before, uint32_t number, bool versions)
{
    struct text text;
    snprintf(
        text.hex, sizeof text.hex, "%s %08lX%s", before, (unsigned long)number, versions ? " 00000007 00000008" : "");
    return text;
}

/* A kind by its number: the message is plain, and so its own rewriting. */
static void plain(enum yugerzat_kind kind, const char *message)
{
    uint64_t due[3];
    struct bytes b = hex(message);
    of = message;
    due[0] = due[2] = b.count;
    due[1] = 1;
    CHECK(read_kind(kind, &b, 0, BUFFER) == YUGERZAT_DONE);
    CHECK(figures(3, due) && out_is(0, message) && out_untouched_from(b.count));
    of = "";
}

static void test_accept_stat(size_t which, uint32_t number)
{
    bool declared = number <= replies->last_accept, versions = number == YUGERZAT_PROG_MISMATCH;
    uint32_t meaning = declared ? number : YUGERZAT_GARBAGE_ARGS;
    struct text message = text_of(ACCEPTED, number, versions), rewriting = text_of(ACCEPTED, meaning, versions);
    struct text alone = text_of("", number, false);
    uint64_t next = hex(message.hex).count;
    uint64_t ten[10] = {0, 20, 0}, fields[8] = {42, YUGERZAT_TAG_ACCEPTED, 0, 0, 0, 0, 7, 8};
    size_t i;
    for (i = 0; i < sizeof accept_holders / sizeof *accept_holders; i++) {
        struct text held = text_of(accept_holders[i].before, number, versions);
        struct text again = text_of(accept_holders[i].before, meaning, versions);
        if (declared)
            plain(accept_holders[i].kind[which], held.hex);
        else
            loose(accept_holders[i].kind[which], held.hex, hex(held.hex).count, again.hex);
    }
    /* as a kind of its own it is closed */
    if (declared)
        plain(accept_stats[which], alone.hex);
    else
        undeclared(accept_stats[which], alone.hex, 0);

    /* what is read, and that it is written and read back */
    ten[3] = meaning;
    ten[4] = versions ? 7 : 0;
    ten[5] = versions ? 8 : 0;
    header(message.hex, next, declared, 42, YUGERZAT_TAG_ACCEPTED, ten);
    fields[5] = number;
    reply_source = hex("");
    of = message.hex;
    CHECK(declared ? writes(write_reply, fields, 8, message.hex) : wide(write_reply, fields, 8));
    fields[5] = meaning;
    CHECK(writes(write_reply, fields, 8, rewriting.hex));
    header(rewriting.hex, next, 1, 42, YUGERZAT_TAG_ACCEPTED, ten);
    if (declared) {
        reader_limits(message.hex, replies->read, 14, message.hex);
        reply_back(message.hex, YUGERZAT_TAG_ACCEPTED, versions ? 8 : 6);
    }
    /* no number makes a call of it */
    of = message.hex;
    CHECK(choose(message.hex, 0, BUFFER) == YUGERZAT_REPLY_CAME && refused_at(12, 0) && out_untouched_from(0));
    of = "";
}

static void test_auth_stat(size_t which, uint32_t number)
{
    bool declared = number >= replies->first_auth && number <= replies->last_auth;
    struct text message = text_of(DENIED, number, false);
    uint64_t ten[10] = {0}, fields[8] = {42, YUGERZAT_TAG_DENIED_AUTH};
    size_t i;
    for (i = 0; i < sizeof auth_holders / sizeof *auth_holders; i++) {
        struct text held = text_of(auth_holders[i].before, number, false);
        if (declared)
            plain(auth_holders[i].kind[which], held.hex);
        else
            undeclared(auth_holders[i].kind[which], held.hex, hex(auth_holders[i].before).count);
    }
    ten[0] = fields[2] = number;
    if (declared) {
        header(message.hex, 20, 1, 42, YUGERZAT_TAG_DENIED_AUTH, ten);
        reader_limits(message.hex, replies->read, 14, message.hex);
        reply_back(message.hex, YUGERZAT_TAG_DENIED_AUTH, 3);
        of = message.hex;
        CHECK(writes(write_reply, fields, 8, message.hex));
        CHECK(choose(message.hex, 0, BUFFER) == YUGERZAT_REPLY_CAME && refused_at(12, 0) && out_untouched_from(0));
    } else {
        of = message.hex;
        CHECK(read_at(replies->read, message.hex, 0, 14) == YUGERZAT_UNDECLARED && refused_at(14, 16));
        CHECK(wide(write_reply, fields, 8));
        CHECK(choose(message.hex, 0, BUFFER) == YUGERZAT_UNDECLARED && refused_at(12, 16) && out_untouched_from(0));
    }
    of = "";
}

static void test_replies(void)
{
    size_t i;
    uint32_t number;
    for (i = 0; i < READINGS; i++) {
        replies = readings + i;
        in = replies->name;
        test_choose();
        test_rpc_msg();
        test_reply();
        for (number = 0; number <= 8; number++)
            test_accept_stat(i, number);
        test_accept_stat(i, 0xFFFFFFFF);
        for (number = 0; number <= 16; number++)
            test_auth_stat(i, number);
        test_auth_stat(i, 0xFFFFFFFF);
        in = "";
    }
}

/* ---- yugerzat_part */

static bool part(size_t length, size_t at, size_t count, enum yugerzat_answer answer, uint64_t first, uint64_t second)
{
    uint64_t due[2];
    due[0] = first;
    due[1] = second;
    fresh();
    return yugerzat_part(length ? out : NULL, length, at, count, info, 2) == answer && figures(2, due) &&
           out_untouched_from(0);
}

static void test_part(void)
{
    CHECK(part(5, 1, 3, YUGERZAT_DONE, 1, 3));
    CHECK(part(5, 0, 5, YUGERZAT_DONE, 0, 5));
    CHECK(part(5, 5, 0, YUGERZAT_DONE, 5, 0));
    CHECK(part(5, 3, 3, YUGERZAT_OUTSIDE, 0, 0));
    CHECK(part(5, 6, 0, YUGERZAT_OUTSIDE, 0, 0));
    CHECK(part(5, SIZE_MAX, 1, YUGERZAT_OUTSIDE, 0, 0));
    CHECK(part(5, 1, SIZE_MAX, YUGERZAT_OUTSIDE, 0, 0));
    CHECK(part(5, SIZE_MAX, SIZE_MAX, YUGERZAT_OUTSIDE, 0, 0));
    CHECK(part(0, 0, 0, YUGERZAT_DONE, 0, 0));
    CHECK(part(0, 0, 1, YUGERZAT_OUTSIDE, 0, 0));
    fresh();
    CHECK(yugerzat_part(out, 5, 0, 5, info, 1) == YUGERZAT_SHORT_LIST && all_untouched());
    CHECK(yugerzat_part(out, 5, 0, 5, NULL, 0) == YUGERZAT_SHORT_LIST && all_untouched());
}

/* ---- yugerzat_ask */

#define NULL_AUTH "00000000 00000000 00000000 00000000"
#define UNIX_AUTH                                                                                        \
    "00000001 00000020 00000001 00000003 61626300 00000002 00000003 00000002 00000004 00000005 00000000" \
    "00000000"
#define MOUNT_3 "0000002A 00000000 00000002 000186A5 00000003 "
#define PORTMAP_2 "0000002A 00000000 00000002 000186A0 00000002 "
#define MNT MOUNT_3 "00000001"
#define UMNT MOUNT_3 "00000003"
#define EXPORT MOUNT_3 "00000005"
#define GETPORT PORTMAP_2 "00000003"
#define PATH "00000005 2F657870 6F000000"
#define MAPPING "000186A3 00000003 00000006 FFFFFFFF"

static enum yugerzat_answer ask(const char *message, uint32_t seen, size_t room)
{
    struct bytes b = hex(message);
    fresh();
    return yugerzat_ask(b.at, b.count, seen, out, room, info, 13);
}

static enum yugerzat_answer ask_by_message(const uint8_t *message, size_t count, size_t first)
{
    return yugerzat_ask(message + first, count - first, 0, out, BUFFER, info, 13);
}

/* A call of a procedure, by each credential: what is asked, even without room; silence if it came before; every cut. */
static void asked(enum yugerzat_answer answer, const char *procedure, const char *arguments, const uint64_t *first)
{
    static const uint64_t callers[2][8] = {{0}, {1, 1, 40, 3, 2, 3, 56, 2}};
    static const char *const auths[] = {NULL_AUTH, UNIX_AUTH};
    char message[500];
    uint64_t due[13];
    size_t i, k, ends;
    for (i = 0; i < 2; i++) {
        snprintf(message, sizeof message, "%s %s %s", procedure, auths[i], arguments);
        of = message;
        ends = hex(procedure).count + hex(auths[i]).count;
        for (k = 0; k < 4; k++)
            due[k] = first[k];
        due[4] = answer == YUGERZAT_HAND_OVER ? 0 : ends + hex(arguments).count;
        if (answer == YUGERZAT_MNT || answer == YUGERZAT_UMNT)
            due[0] += ends;
        if (answer == YUGERZAT_HAND_OVER)
            due[3] += ends;
        memcpy(due + 5, callers[i], sizeof callers[i]);
        CHECK(ask(message, 0, 0) == answer && figures(13, due) && out_untouched_from(0));
        CHECK(ask(message, 0, BUFFER) == answer && figures(13, due) && out_untouched_from(0));
        CHECK(ask(message, 1, BUFFER) == YUGERZAT_SILENCE && refused_at(13, 0) && out_untouched_from(0));
        CHECK(ask(message, 0xFFFFFFFF, 0) == YUGERZAT_SILENCE && refused_at(13, 0) && out_untouched_from(0));
        cut(ask_by_message, answer, 13, message, 0);
        /* what follows is not looked at */
        snprintf(message, sizeof message, "%s %s %s EEFF", procedure, auths[i], arguments);
        CHECK(ask(message, 0, BUFFER) == answer && figures(13, due) && out_untouched_from(0));
        of = "";
    }
}

/* A call that gets a reply: not by arguments, of which it has none. Into room that is just enough, and into less. */
static void asked_reply(const char *procedure, const char *due)
{
    char message[500];
    size_t room, count = hex(due).count;
    snprintf(message, sizeof message, "%s %s", procedure, NULL_AUTH);
    of = message;
    for (room = 0; room < count; room++)
        CHECK(ask(message, 0, room) == YUGERZAT_NO_ROOM && refused_at(13, 0) && out_untouched_from(0));
    CHECK(ask(message, 0, count) == YUGERZAT_REPLY && refused_at(13, count));
    CHECK(out_is(0, due) && out_untouched_from(count));
    CHECK(ask(message, 1, count) == YUGERZAT_SILENCE && refused_at(13, 0) && out_untouched_from(0));
    snprintf(message, sizeof message, "%s %s %s", procedure, UNIX_AUTH, ARGUMENTS);
    CHECK(ask(message, 0, BUFFER) == YUGERZAT_REPLY && refused_at(13, count));
    CHECK(out_is(0, due) && out_untouched_from(count));
    of = "";
}

/* What yugerzat_choose does not hand over is answered as it does. */
static void asked_as_chosen(const char *message, enum yugerzat_answer answer)
{
    uint64_t due[13] = {0};
    uint8_t written[BUFFER];
    struct bytes b = hex(message);
    size_t room;
    of = message;
    for (room = 0; room <= 24; room++) {
        fresh();
        CHECK(yugerzat_choose(b.at, b.count, 0, out, room, info, 12) ==
              (answer == YUGERZAT_REPLY && room < 24 ? YUGERZAT_NO_ROOM : answer));
        memcpy(due, info, 12 * sizeof *due);
        memcpy(written, out, sizeof written);
        CHECK(ask(message, 0, room) == (answer == YUGERZAT_REPLY && room < 24 ? YUGERZAT_NO_ROOM : answer));
        CHECK(figures(13, due) && memcmp(written, out, sizeof written) == 0);
    }
    of = "";
}

/* A path of 1,024 bytes and one of a byte more, of a call; its length word stands at a place. */
static void ask_long_path(enum yugerzat_answer answer, const char *before, size_t place)
{
    uint64_t due[13];
    size_t count, n;
    const uint8_t *message;
    of = before;
    message = around_path(before, 1024, ARGUMENTS, &count);
    fresh();
    CHECK(yugerzat_ask(message, count, 0, out, BUFFER, info, 13) == answer && out_untouched_from(0));
    memcpy(due, info, sizeof due);
    CHECK(due[0] == place + 4 && due[1] == 1024 && due[2] == 0 && due[3] == 0 && due[4] == place + 1028);
    message = around_path(before, 1025, "", &count);
    fresh();
    CHECK(yugerzat_ask(message, count, 0, out, BUFFER, info, 13) == YUGERZAT_LONG_PATH);
    CHECK(refused_at(13, place) && out_untouched_from(0));
    /* it has to be there first; and one that came before is not looked at */
    for (n = place + 4; n < count; n++) {
        fresh();
        CHECK(yugerzat_ask(message, n, 0, out, BUFFER, info, 13) == YUGERZAT_ENDS && ended_at(13, place, count - n));
    }
    fresh();
    CHECK(yugerzat_ask(message, count, 1, out, BUFFER, info, 13) == YUGERZAT_SILENCE && refused_at(13, 0));
    of = "";
}

static void test_ask(void)
{
    static const uint64_t nfs[4] = {100003, 3, 6, 0}, path[4] = {4, 5, 0, 0}, no_path[4] = {4, 0, 0, 0};
    static const uint64_t none[4] = {0}, port[4] = {100003, 3, 6, 0xFFFFFFFF};
    static const char *const unserved[] = {MOUNT_3 "00000002", MOUNT_3 "00000004", MOUNT_3 "00000006",
        MOUNT_3 "FFFFFFFF", PORTMAP_2 "00000001", PORTMAP_2 "00000002", PORTMAP_2 "00000004", PORTMAP_2 "00000005",
        PORTMAP_2 "01000003"};
    static const char *const mounts[] = {"00000000", "00000001", "00000002", "00000004", "FFFFFFFF"};
    static const char *const ports[] = {"00000000", "00000001", "00000003", "00000004", "02000000"};
    static const char *const procedures[] = {"00000000", "00000001", "00000003", "00000005", "00000009"};
    struct bytes b = hex(MNT NULL_AUTH PATH);
    char text[200];
    size_t i, k;
    asked(YUGERZAT_HAND_OVER, "0000002A 00000000 00000002 000186A3 00000003 00000006", "", nfs);
    asked(YUGERZAT_MNT, MNT, PATH, path);
    asked(YUGERZAT_MNT, MNT, "00000000", no_path);
    asked(YUGERZAT_UMNT, UMNT, PATH, path);
    asked(YUGERZAT_EXPORT, EXPORT, "", none);
    asked(YUGERZAT_GETPORT, GETPORT, MAPPING, port);
    /* dirty padding of a path does not matter, but has to be there */
    asked(YUGERZAT_MNT, MNT, "00000005 2F657870 6FEEEEEE", path);

    asked_reply(MOUNT_3 "00000000", "0000002A 00000001 00000000 00000000 00000000 00000000");
    asked_reply(PORTMAP_2 "00000000", "0000002A 00000001 00000000 00000000 00000000 00000000");
    for (i = 0; i < sizeof unserved / sizeof *unserved; i++)
        asked_reply(unserved[i], "0000002A 00000001 00000000 00000000 00000000 00000003");
    /* another version, whatever the procedure is */
    for (i = 0; i < sizeof mounts / sizeof *mounts; i++) {
        for (k = 0; k < sizeof procedures / sizeof *procedures; k++) {
            snprintf(text, sizeof text, "0000002A 00000000 00000002 000186A5 %s %s", mounts[i], procedures[k]);
            asked_reply(text, "0000002A 00000001 00000000 00000000 00000000 00000002 00000003 00000003");
            snprintf(text, sizeof text, "0000002A 00000000 00000002 000186A0 %s %s", ports[i], procedures[k]);
            asked_reply(text, "0000002A 00000001 00000000 00000000 00000000 00000002 00000002 00000002");
        }
    }
    /* every version of NFS is handed over */
    CHECK(ask("0000002A 00000000 00000002 000186A3 00000004 00000000" NULL_AUTH, 0, 0) == YUGERZAT_HAND_OVER);

    asked_as_chosen("0000002A 00000000 00000002 00000007 00000003 00000001" NULL_AUTH PATH, YUGERZAT_REPLY);
    asked_as_chosen("0000002A 00000000 00000003 000186A5 00000003 00000001" NULL_AUTH PATH, YUGERZAT_REPLY);
    asked_as_chosen("0000002A 00000002", YUGERZAT_REPLY);
    asked_as_chosen("0000002A 00000001 00000000 00000000 00000000 00000000", YUGERZAT_REPLY_CAME);
    asked_as_chosen("0000002A 00000001 00000001 00000001 00000005", YUGERZAT_REPLY_CAME);
    asked_as_chosen(MNT "00000004 00000000 00000000 00000000" PATH, YUGERZAT_UNDECLARED);
    asked_as_chosen(MNT "00000000 00000000 00000007 00000000" PATH, YUGERZAT_UNDECLARED);
    /* a credential that ends: bytes are wanting in its body */
    asked_as_chosen(
        EXPORT "00000001 00000014 00000001 00000000 00000002 00000003 00000001 00000000 00000000", YUGERZAT_ENDS);
    asked_as_chosen("", YUGERZAT_ENDS);

    ask_long_path(YUGERZAT_MNT, MNT NULL_AUTH, 40);
    ask_long_path(YUGERZAT_UMNT, UMNT NULL_AUTH, 40);
    ask_long_path(YUGERZAT_MNT, MNT UNIX_AUTH, 72);
    CHECK(ask(MNT NULL_AUTH "FFFFFFFF", 0, BUFFER) == YUGERZAT_ENDS && ended_at(13, 40, 4294967296));

    fresh();
    CHECK(yugerzat_ask(NULL, 0, 0, NULL, 0, info, 13) == YUGERZAT_ENDS && ended_at(13, 0, 4));
    fresh();
    CHECK(yugerzat_ask(b.at, b.count, 0, out, BUFFER, info, 12) == YUGERZAT_SHORT_LIST && all_untouched());
    CHECK(yugerzat_ask(b.at, b.count, 0, out, BUFFER, NULL, 0) == YUGERZAT_SHORT_LIST && all_untouched());
    CHECK(yugerzat_ask(b.at, b.count, 0, out, BUFFER, info, FIGURES) == YUGERZAT_MNT && info_untouched_from(13));
    memset(long_message, 0, sizeof long_message);
    memcpy(long_message, b.at, b.count);
    fresh();
    CHECK(yugerzat_ask(long_message, YUGERZAT_LIMIT_BYTES, 0, out, BUFFER, info, 13) == YUGERZAT_MNT);
    fresh();
    CHECK(yugerzat_ask(long_message, YUGERZAT_LIMIT_BYTES + 1, 0, out, BUFFER, info, 13) == YUGERZAT_TOO_LONG);
    CHECK(refused_at(13, 0) && out_untouched_from(0));
}

/* ---- yugerzat_read_exports, yugerzat_next_export and yugerzat_next_group */

/* Three entries: of two names, of one that is empty, and of none. */
#define ENTRY_1                                                                                          \
    "00000001 00000005 2F657870 6F000000 00000001 00000002 61620000 00000001 00000005 68656C6C 6F000000" \
    "00000000"
#define ENTRY_2 "00000001 00000001 2F000000 00000001 00000000 00000000"
#define ENTRY_3 "00000001 00000000 00000000"
#define END "00000000"
#define LIST ENTRY_1 ENTRY_2 ENTRY_3 END

/* What stands before a path: an entry, and the flag of another. The place of its length word. */
#define BEFORE_PATH ENTRY_2 "00000001"
#define LONG_PATH_AT 28

static void test_exports(void)
{
    static const uint64_t list[4] = {88, 1, 0, 3}, empty[4] = {4, 1, 0, 0}, second[4] = {88, 1, 48, 2};
    static const char *const loose_lists[] = {"FFFFFFFF 00000000 00000000 00000000",
        "00000001 00000001 2F000001 00000000 00000000",
        "00000001 00000000 80000000 00000001 61000000 00000000 00000000",
        "00000001 00000000 00000001 00000001 61010000 00000000 00000000"};
    const uint8_t *message;
    size_t i, count, n;
    reader_limits("yugerzat_read_exports", yugerzat_read_exports, YUGERZAT_FIGURES_EXPORTS, LIST);
    reader_limits("yugerzat_read_exports of nothing", yugerzat_read_exports, YUGERZAT_FIGURES_EXPORTS, END);
    CHECK(read_at(yugerzat_read_exports, LIST, 0, 4) == YUGERZAT_DONE && figures(4, list));
    CHECK(read_at(yugerzat_read_exports, LIST EXPORT, 0, 4) == YUGERZAT_DONE && figures(4, list));
    CHECK(read_at(yugerzat_read_exports, END, 0, 4) == YUGERZAT_DONE && figures(4, empty));
    /* the rest of a list is a list */
    CHECK(read_at(yugerzat_read_exports, LIST, 48, 4) == YUGERZAT_DONE && figures(4, second));
    for (i = 0; i < sizeof loose_lists / sizeof *loose_lists; i++) {
        of = loose_lists[i];
        CHECK(read_at(yugerzat_read_exports, loose_lists[i], 0, 4) == YUGERZAT_DONE);
        CHECK(info[0] == hex(loose_lists[i]).count && info[1] == 0 && info[2] == 0 && info[3] == 1);
        of = "";
    }
    /* paths, at their bound and above; the list has to be there to its end first */
    message = around_path(BEFORE_PATH, 1024, END END, &count);
    fresh();
    CHECK(yugerzat_read_exports(message, count, 0, info, 4) == YUGERZAT_DONE && info[0] == count && info[1] == 1 &&
          info[3] == 2);
    message = around_path(BEFORE_PATH, 1025, END, &count);
    fresh();
    CHECK(yugerzat_read_exports(message, count, 0, info, 4) == YUGERZAT_ENDS && ended_at(4, count, 4));
    message = around_path(BEFORE_PATH, 1025, END ENTRY_3 END, &count);
    fresh();
    CHECK(yugerzat_read_exports(message, count, 0, info, 4) == YUGERZAT_LONG_PATH && refused_at(4, LONG_PATH_AT));
    for (n = 0; n < count; n++) {
        fresh();
        CHECK(yugerzat_read_exports(message, n, 0, info, 4) == YUGERZAT_ENDS);
    }
    fresh();
    CHECK(yugerzat_judge(YUGERZAT_KIND_EXPORTS, message, count, 0, info, 3) == YUGERZAT_LONG_PATH &&
          refused_at(3, LONG_PATH_AT));
    fresh();
    CHECK(yugerzat_rewrite(YUGERZAT_KIND_EXPORTS, message, count, 0, out, BUFFER, info, 3) == YUGERZAT_LONG_PATH &&
          refused_at(3, LONG_PATH_AT) && out_untouched_from(0));
    /* the first of two; names are not bounded */
    memcpy(long_message, message, count);
    memcpy(long_message + count - 4, message, count);
    fresh();
    CHECK(yugerzat_read_exports(long_message, 2 * count - 4, 0, info, 4) == YUGERZAT_LONG_PATH &&
          refused_at(4, LONG_PATH_AT));
    message = around_path("00000001 00000000 00000001", 1025, END END, &count);
    fresh();
    CHECK(yugerzat_read_exports(message, count, 0, info, 4) == YUGERZAT_DONE && info[0] == count && info[3] == 1);

    /* as many entries as a message can have */
    memset(long_message, 0, sizeof long_message);
    for (n = 0; n + 16 <= YUGERZAT_LIMIT_BYTES; n += 12)
        long_message[n + 3] = 1;
    fresh();
    CHECK(yugerzat_read_exports(long_message, YUGERZAT_LIMIT_BYTES, 0, info, 4) == YUGERZAT_DONE);
    CHECK(info[0] == YUGERZAT_LIMIT_BYTES && info[1] == 1 && info[3] == n / 12 && n / 12 == 87381);
}

static void test_next_export(void)
{
    static const uint64_t due[][7] = {
        {48, 1, 1, 8, 5, 16, 2}, {72, 1, 1, 56, 1, 60, 1}, {84, 1, 1, 80, 0, 80, 0}, {88, 1, 0, 0, 0, 0, 0}};
    static const uint64_t loose_entry[7] = {24, 0, 1, 8, 1, 12, 1};
    const uint8_t *message;
    size_t i, count, n, at = 0;
    reader_limits("yugerzat_next_export", yugerzat_next_export, YUGERZAT_FIGURES_NEXT_EXPORT, ENTRY_1);
    reader_limits("yugerzat_next_export at an end", yugerzat_next_export, YUGERZAT_FIGURES_NEXT_EXPORT, END);
    for (i = 0; i < sizeof due / sizeof *due; i++) {
        CHECK(read_at(yugerzat_next_export, LIST, at, 7) == YUGERZAT_DONE && figures(7, due[i]));
        at = (size_t)info[YUGERZAT_FIGURE_NEXT];
    }
    CHECK(
        read_at(yugerzat_next_export, "00000001 00000001 2F0000EE 00000001 00000000 00000000", 0, 7) == YUGERZAT_DONE);
    CHECK(figures(7, loose_entry));
    CHECK(
        read_at(yugerzat_next_export, "FF000000 00000001 2F000000 00000100 00000000 00000000", 0, 7) == YUGERZAT_DONE);
    CHECK(figures(7, loose_entry));
    message = around_path("00000001", 1024, END, &count);
    fresh();
    CHECK(yugerzat_next_export(message, count, 0, info, 7) == YUGERZAT_DONE && info[0] == count && info[4] == 1024);
    message = around_path("EEEEEEEE 00000001", 1025, END, &count);
    fresh();
    CHECK(yugerzat_next_export(message, count, 4, info, 7) == YUGERZAT_LONG_PATH && refused_at(7, 8));
    for (n = 4; n < count; n++) {
        fresh();
        CHECK(yugerzat_next_export(message, n, 4, info, 7) == YUGERZAT_ENDS);
    }
}

static void test_next_group(void)
{
    static const uint64_t due[][5] = {{28, 1, 1, 24, 2}, {44, 1, 1, 36, 5}, {48, 1, 0, 0, 0}};
    static const uint64_t loose_name[5] = {12, 0, 1, 8, 1};
    const uint8_t *message;
    size_t i, count, at = 16;
    reader_limits(
        "yugerzat_next_group", yugerzat_next_group, YUGERZAT_FIGURES_NEXT_GROUP, "00000001 00000005 68656C6C 6F000000");
    reader_limits("yugerzat_next_group at an end", yugerzat_next_group, YUGERZAT_FIGURES_NEXT_GROUP, END);
    for (i = 0; i < sizeof due / sizeof *due; i++) {
        CHECK(read_at(yugerzat_next_group, LIST, at, 5) == YUGERZAT_DONE && figures(5, due[i]));
        at = (size_t)info[YUGERZAT_FIGURE_NEXT];
    }
    CHECK(read_at(yugerzat_next_group, "00000001 00000001 61EE0000", 0, 5) == YUGERZAT_DONE && figures(5, loose_name));
    CHECK(read_at(yugerzat_next_group, "00010000 00000001 61000000", 0, 5) == YUGERZAT_DONE && figures(5, loose_name));
    message = around_path("00000001", 2000, "", &count);
    fresh();
    CHECK(yugerzat_next_group(message, count, 0, info, 5) == YUGERZAT_DONE && info[0] == count && info[4] == 2000);
}

/* ---- dirpath, and yugerzat_write_exports */

typedef enum yugerzat_answer piece_writer(
    const uint8_t *, size_t, size_t, size_t, uint8_t *, size_t, size_t, uint64_t *, size_t);

/* What stands at a place of a source is written so: at every start, into room that is just enough, and into less. */
static void piece_limits(
    const char *name, piece_writer *write, const char *source, size_t at, size_t count, const char *due)
{
    struct bytes s = hex(source), d = hex(due);
    size_t start, room;
    of = name;
    for (start = 0; start < 10; start++) {
        fresh();
        CHECK(write(s.at, s.count, at, count, out, BUFFER, start, info, 1) == YUGERZAT_DONE && told(start + d.count));
        CHECK(out_untouched_before(start) && out_is(start, due) && out_untouched_from(start + d.count));
        fresh();
        CHECK(write(s.at, s.count, at, count, out, start + d.count, start, info, 1) == YUGERZAT_DONE);
        CHECK(out_is(start, due) && out_untouched_from(start + d.count));
        for (room = start; room < start + d.count; room++) {
            fresh();
            CHECK(write(s.at, s.count, at, count, out, room, start, info, 1) == YUGERZAT_NO_ROOM);
            CHECK(refused_writing(d.count));
        }
        fresh();
        CHECK(write(s.at, s.count, at, count, out, start, start + 1, info, 1) == YUGERZAT_PAST_END);
        CHECK(refused_writing(0));
    }
    fresh();
    CHECK(write(s.at, s.count, at, count, NULL, 0, 0, info, 1) == YUGERZAT_NO_ROOM && refused_writing(d.count));
    fresh();
    CHECK(write(s.at, s.count, at, count, out, BUFFER, SIZE_MAX, info, 1) == YUGERZAT_PAST_END && refused_writing(0));
    fresh();
    CHECK(write(s.at, s.count, at, count, out, BUFFER, 0, NULL, 0) == YUGERZAT_SHORT_LIST && all_untouched());
    CHECK(write(s.at, s.count, at, count, out, 0, 1, NULL, 0) == YUGERZAT_SHORT_LIST && all_untouched());
    CHECK(write(s.at, s.count, at, count, out, BUFFER, 0, info, FIGURES) == YUGERZAT_DONE && told(d.count));
    of = "";
}

/*
 * What is refused as a piece or for its path, in a source that is not too long: before room, after the start. In one
 * that is too long, that comes first.
 */
static void piece_refused(
    piece_writer *write, const uint8_t *source, size_t length, size_t at, size_t count, enum yugerzat_answer due)
{
    fresh();
    CHECK(write(source, length, at, count, out, BUFFER, 0, info, 1) == due && refused_writing(0));
    fresh();
    CHECK(write(source, length, at, count, out, 0, 0, info, 1) == due && refused_writing(0));
    fresh();
    CHECK(write(source, length, at, count, out, 5, 6, info, 1) == YUGERZAT_PAST_END && refused_writing(0));
    fresh();
    CHECK(write(source, length, at, count, out, 5, 6, NULL, 0) == YUGERZAT_SHORT_LIST && all_untouched());
    memset(long_message, 0, sizeof long_message);
    if (length)
        memcpy(long_message, source, length);
    fresh();
    CHECK(write(long_message, YUGERZAT_LIMIT_BYTES + 1, at, count, out, BUFFER, 0, info, 1) == YUGERZAT_TOO_LONG);
    CHECK(refused_writing(0));
    fresh();
    CHECK(write(long_message, YUGERZAT_LIMIT_BYTES + 1, at, count, out, 5, 6, info, 1) == YUGERZAT_PAST_END);
    CHECK(refused_writing(0));
}

static void test_dirpath(void)
{
    static const size_t outside[][2] = {
        {8, 1}, {9, 0}, {0, 9}, {1, 8}, {SIZE_MAX, 1}, {1, SIZE_MAX}, {SIZE_MAX, SIZE_MAX}, {0, 1025}, {7, 1025}};
    const char *source = "EE2F6578 706FEEEE";
    struct bytes s = hex(source);
    const uint8_t *path;
    size_t i, count;
    /* reading, by its number: at the bound and above; the padding has to be there first */
    path = around_path("EEEEEEEE", 1024, "", &count);
    fresh();
    CHECK(rewrite(YUGERZAT_KIND_DIRPATH, path, count, 4, out, BUFFER) == YUGERZAT_DONE && info[0] == count);
    CHECK(info[1] == 1 && info[2] == 1028 && memcmp(out, path + 4, 1028) == 0 && out_untouched_from(1028));
    path = around_path("EEEEEEEE", 1025, "", &count);
    fresh();
    CHECK(rewrite(YUGERZAT_KIND_DIRPATH, path, count, 4, out, BUFFER) == YUGERZAT_LONG_PATH);
    CHECK(refused_at(3, 4) && out_untouched_from(0));
    fresh();
    CHECK(rewrite(YUGERZAT_KIND_DIRPATH, path, count - 1, 4, out, BUFFER) == YUGERZAT_ENDS && ended_at(3, 4, 1));

    piece_limits("yugerzat_write_dirpath", yugerzat_write_dirpath, source, 1, 5, PATH);
    piece_limits("yugerzat_write_dirpath of nothing", yugerzat_write_dirpath, source, 8, 0, "00000000");
    piece_limits("yugerzat_write_dirpath of all", yugerzat_write_dirpath, source, 0, 8, "00000008 EE2F6578 706FEEEE");
    fresh();
    CHECK(yugerzat_write_dirpath(NULL, 0, 0, 0, out, BUFFER, 0, info, 1) == YUGERZAT_DONE && told(4));
    for (i = 0; i < sizeof outside / sizeof *outside; i++)
        piece_refused(yugerzat_write_dirpath, s.at, s.count, outside[i][0], outside[i][1], YUGERZAT_OUTSIDE);
    path = around_path("", 1100, "", &count);
    fresh();
    CHECK(yugerzat_write_dirpath(path, count, 4, 1024, out, BUFFER, 0, info, 1) == YUGERZAT_DONE && told(1028));
    CHECK(out_is(0, "00000400 70707070") && out[1027] == 'p' && out_untouched_from(1028));
    piece_refused(yugerzat_write_dirpath, path, count, 4, 1025, YUGERZAT_LONG_PATH);
    piece_refused(yugerzat_write_dirpath, path, count, 0, count, YUGERZAT_LONG_PATH);
    piece_refused(yugerzat_write_dirpath, path, count, 5, count - 4, YUGERZAT_OUTSIDE);
    memset(long_message, 'p', sizeof long_message);
    fresh();
    CHECK(yugerzat_write_dirpath(long_message, YUGERZAT_LIMIT_BYTES, YUGERZAT_LIMIT_BYTES - 5, 5, out, BUFFER, 0, info,
              1) == YUGERZAT_DONE &&
          told(12));
}

static void test_write_exports(void)
{
    /* a place and a count at which no list stands */
    static const size_t outside[][2] = {{0, 0}, {0, 2}, {0, 4}, {4, 3}, {48, 3}, {88, 0}, {88, 1}, {85, 0}, {89, 0},
        {SIZE_MAX, 0}, {0, SIZE_MAX}, {SIZE_MAX, SIZE_MAX}};
    struct bytes s = hex(LIST);
    const uint8_t *list;
    uint64_t after;
    size_t i, count, n;
    piece_limits("yugerzat_write_exports", yugerzat_write_exports, LIST, 0, 3, LIST);
    piece_limits("yugerzat_write_exports of the rest", yugerzat_write_exports, LIST, 48, 2, ENTRY_2 ENTRY_3 END);
    piece_limits("yugerzat_write_exports of nothing", yugerzat_write_exports, LIST, 84, 0, END);
    piece_limits("yugerzat_write_exports of odd flags and dirty padding", yugerzat_write_exports,
        "EEEEEE FFFFFFFF 00000001 2FEEEEEE 00000002 00000002 6162FFFF 00000000 00000000 EE", 3, 1,
        "00000001 00000001 2F000000 00000001 00000002 61620000 00000000 00000000");
    for (i = 0; i < sizeof outside / sizeof *outside; i++)
        piece_refused(yugerzat_write_exports, s.at, s.count, outside[i][0], outside[i][1], YUGERZAT_OUTSIDE);
    for (n = 0; n < s.count; n++) {
        fresh();
        CHECK(yugerzat_write_exports(s.at, n, 0, 3, out, BUFFER, 0, info, 1) == YUGERZAT_OUTSIDE && refused_writing(0));
    }
    piece_refused(yugerzat_write_exports, NULL, 0, 0, 0, YUGERZAT_OUTSIDE);

    /* a path at its bound and above: after the count, and after the list's end */
    list = around_path(BEFORE_PATH, 1024, END END, &count);
    fresh();
    CHECK(yugerzat_write_exports(list, count, 0, 2, out, BUFFER, 0, info, 1) == YUGERZAT_DONE && told(count));
    CHECK(memcmp(out, list, count) == 0 && out_untouched_from(count));
    list = around_path(BEFORE_PATH, 1025, END END, &count);
    piece_refused(yugerzat_write_exports, list, count, 0, 2, YUGERZAT_LONG_PATH);
    piece_refused(yugerzat_write_exports, list, count, 24, 1, YUGERZAT_LONG_PATH);
    piece_refused(yugerzat_write_exports, list, count, 0, 1, YUGERZAT_OUTSIDE);
    piece_refused(yugerzat_write_exports, list, count, 0, 3, YUGERZAT_OUTSIDE);
    fresh();
    CHECK(yugerzat_write_exports(list, count - 1, 0, 2, out, BUFFER, 0, info, 1) == YUGERZAT_OUTSIDE);
    CHECK(refused_writing(0));

    /* a list as long as may be */
    memset(long_message, 0, sizeof long_message);
    for (n = 0; n + 16 <= YUGERZAT_LIMIT_BYTES; n += 12)
        long_message[n] = 1;
    memset(long_out, 0xEE, sizeof long_out);
    fresh();
    CHECK(yugerzat_write_exports(long_message, YUGERZAT_LIMIT_BYTES, 0, n / 12, long_out, YUGERZAT_LIMIT_BYTES - 1, 0,
              info, 1) == YUGERZAT_NO_ROOM);
    CHECK(told(YUGERZAT_LIMIT_BYTES) && long_out_untouched());
    CHECK(yugerzat_write_exports(
              long_message, YUGERZAT_LIMIT_BYTES, 0, n / 12, long_out, sizeof long_out, 1, info, 1) == YUGERZAT_DONE);
    after = info[0];
    CHECK(after == YUGERZAT_LIMIT_BYTES + 1 && long_out[0] == 0xEE && long_out[after] == 0xEE);
    for (n = 0; n < YUGERZAT_LIMIT_BYTES; n++)
        if (long_out[n + 1] != (n % 12 == 3 && n + 13 <= YUGERZAT_LIMIT_BYTES))
            break;
    CHECK(n == YUGERZAT_LIMIT_BYTES);
}

/* ---- yugerzat_same_exports */

static enum yugerzat_answer same_lists(const char *one, size_t one_at, size_t one_count, const char *other,
    size_t other_at, size_t other_count, size_t list)
{
    struct bytes a = hex(one), b = hex(other);
    fresh();
    return yugerzat_same_exports(a.at, a.count, one_at, one_count, b.at, b.count, other_at, other_count, info, list);
}

/* Both ways round. */
static bool compared(
    const char *one, size_t one_at, size_t one_count, const char *other, size_t other_at, size_t other_count, bool same)
{
    return same_lists(one, one_at, one_count, other, other_at, other_count, 1) == YUGERZAT_DONE && told(same) &&
           same_lists(other, other_at, other_count, one, one_at, one_count, 1) == YUGERZAT_DONE && told(same);
}

/* One of two that is refused, whichever it is; the other one is a list. */
static bool one_refused(const uint8_t *source, size_t length, size_t at, size_t count, enum yugerzat_answer due)
{
    struct bytes b = hex(LIST);
    bool first, second, both;
    fresh();
    first = yugerzat_same_exports(source, length, at, count, b.at, b.count, 0, 3, info, 1) == due && told(0);
    fresh();
    second = yugerzat_same_exports(b.at, b.count, 0, 3, source, length, at, count, info, 1) == due && told(0);
    fresh();
    both = yugerzat_same_exports(source, length, at, count, source, length, at, count, info, 1) == due && told(0);
    return first && second && both;
}

static void test_same_exports(void)
{
    static const char *const others[] = {END, ENTRY_1 ENTRY_2 END, ENTRY_2 ENTRY_1 ENTRY_3 END,
        ENTRY_1 ENTRY_2 ENTRY_2 END,
        /* another path, and one that is longer */
        "00000001 00000005 2F657871 6F000000 00000001 00000002 61620000 00000001 00000005 68656C6C 6F000000 "
        "00000000" ENTRY_2 ENTRY_3 END,
        "00000001 00000006 2F657870 6F000000 00000001 00000002 61620000 00000001 00000005 68656C6C 6F000000 "
        "00000000" ENTRY_2 ENTRY_3 END,
        /* another name, the same ones in another order, and one of them less */
        "00000001 00000005 2F657870 6F000000 00000001 00000002 61630000 00000001 00000005 68656C6C 6F000000 "
        "00000000" ENTRY_2 ENTRY_3 END,
        "00000001 00000005 2F657870 6F000000 00000001 00000005 68656C6C 6F000000 00000001 00000002 61620000 "
        "00000000" ENTRY_2 ENTRY_3 END,
        "00000001 00000005 2F657870 6F000000 00000001 00000002 61620000 00000000" ENTRY_2 ENTRY_3 END};
    /* the three entries, and all in them that can be loose */
    const char *loose_list =
        "000000FF 00000005 2F657870 6FFFFFFF 80000000 00000002 6162FFFF FFFFFFFF 00000005 68656C6C 6FFFFFFF 00000000"
        "00000100 00000001 2FFFFFFF 00000002 00000000 00000000" ENTRY_3 END;
    struct bytes s = hex(LIST);
    const uint8_t *list;
    size_t i, count, n;
    CHECK(compared(LIST, 0, 3, LIST, 0, 3, true));
    CHECK(compared(LIST, 0, 3, loose_list, 0, 3, true));
    CHECK(compared(loose_list, 0, 3, loose_list, 0, 3, true));
    CHECK(compared(LIST, 48, 2, ENTRY_2 ENTRY_3 END, 0, 2, true));
    CHECK(compared(LIST, 0, 3, "EEEEEE" LIST, 3, 3, true));
    CHECK(compared(END, 0, 0, LIST, 84, 0, true));
    for (i = 0; i < sizeof others / sizeof *others; i++) {
        of = others[i];
        CHECK(read_at(yugerzat_read_exports, others[i], 0, 4) == YUGERZAT_DONE);
        n = (size_t)info[YUGERZAT_FIGURE_EXPORTS_COUNT];
        CHECK(compared(LIST, 0, 3, others[i], 0, n, false));
        CHECK(compared(loose_list, 0, 3, others[i], 0, n, false));
        CHECK(compared(others[i], 0, n, others[i], 0, n, true));
        of = "";
    }
    for (n = 0; n < s.count; n++)
        CHECK(one_refused(s.at, n, 0, 3, YUGERZAT_OUTSIDE));
    CHECK(one_refused(s.at, s.count, 0, 2, YUGERZAT_OUTSIDE));
    CHECK(one_refused(s.at, s.count, 0, 4, YUGERZAT_OUTSIDE));
    CHECK(one_refused(s.at, s.count, 89, 0, YUGERZAT_OUTSIDE));
    CHECK(one_refused(s.at, s.count, SIZE_MAX, SIZE_MAX, YUGERZAT_OUTSIDE));
    CHECK(one_refused(NULL, 0, 0, 0, YUGERZAT_OUTSIDE));
    list = around_path(BEFORE_PATH, 1025, END END, &count);
    CHECK(one_refused(list, count, 0, 2, YUGERZAT_LONG_PATH));
    CHECK(one_refused(list, count, 0, 1, YUGERZAT_OUTSIDE));
    /* of two refusals the lower number, whichever list has it */
    memset(long_message, 0, sizeof long_message);
    for (i = 0; i < 2; i++) {
        fresh();
        CHECK(yugerzat_same_exports(list, count, 0, 2 - i, list, count, 0, 1 + i, info, 1) == YUGERZAT_OUTSIDE &&
              told(0));
        fresh();
        CHECK(yugerzat_same_exports(list, count, 0, 2 - i, long_message, YUGERZAT_LIMIT_BYTES + 1, 0, 0, info, 1) ==
                  YUGERZAT_TOO_LONG &&
              told(0));
        fresh();
        CHECK(yugerzat_same_exports(long_message, YUGERZAT_LIMIT_BYTES + 1, 0, 0, list, count, 0, 2 - i, info, 1) ==
                  YUGERZAT_TOO_LONG &&
              told(0));
    }
    CHECK(one_refused(long_message, YUGERZAT_LIMIT_BYTES + 1, 0, 0, YUGERZAT_TOO_LONG));
    CHECK(one_refused(long_message, YUGERZAT_LIMIT_BYTES + 1, SIZE_MAX, 7, YUGERZAT_TOO_LONG));
    fresh();
    CHECK(yugerzat_same_exports(long_message, YUGERZAT_LIMIT_BYTES, 0, 0, s.at, s.count, 84, 0, info, 1) ==
              YUGERZAT_DONE &&
          told(1));
    CHECK(same_lists(LIST, 0, 3, LIST, 0, 3, 0) == YUGERZAT_SHORT_LIST && all_untouched());
    CHECK(yugerzat_same_exports(NULL, 0, 0, 0, NULL, 0, 0, 0, NULL, 0) == YUGERZAT_SHORT_LIST);
    CHECK(same_lists(LIST, 0, 3, LIST, 0, 3, FIGURES) == YUGERZAT_DONE && told(1));
}

int main(void)
{
    test_kinds();
    test_marks();
    test_fragment();
    test_feed();
    test_auth_unix();
    test_write_auth_unix();
    test_fattr3();
    test_sattr3();
    test_diropargs3();
    test_call();
    test_replies();
    test_part();
    test_ask();
    test_exports();
    test_next_export();
    test_next_group();
    test_dirpath();
    test_write_exports();
    test_same_exports();
    return total();
}
