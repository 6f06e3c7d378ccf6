/*
 * Holds the structs and inline functions of include/yugerzat.h to the library's own functions: both are asked the
 * same, and must say the same. What the library's own functions say is tested by tests.c. A stream is also held to
 * itself, cut in other ways.
 */
#include "testing.h"

/* ---- what is told besides values */

static bool rewriting_of(const struct yugerzat_rewriting *rewriting, enum yugerzat_answer answer, const uint64_t *told)
{
    bool done = answer == YUGERZAT_DONE;
    if (rewriting->next != (done ? told[0] : 0) || rewriting->plain != (done && told[1] == 1) ||
        rewriting->size != (done ? told[2] : 0))
        return false;
    if (answer == YUGERZAT_NO_ROOM)
        return told[2] > 0 && refusal_is(&rewriting->refusal, answer, YUGERZAT_NO_PLACE, 0, (size_t)told[2]);
    return refusal_of(&rewriting->refusal, answer, told);
}

/* ---- names */

/* The answers, with the numbers that other languages have for them. */
static const struct {
    enum yugerzat_answer answer;
    uint32_t number;
    const char *words;
} answers[] = {
    {YUGERZAT_DONE, 0, "done"},
    {YUGERZAT_ENDS, 1, "the message ends too soon"},
    {YUGERZAT_UNDECLARED, 2, "a number is not declared"},
    {YUGERZAT_TOO_LONG, 3, "longer than 1,048,576 bytes"},
    {YUGERZAT_OUTSIDE, 4, "a piece lies outside its source"},
    {YUGERZAT_NO_ROOM, 5, "too little room for the output"},
    {YUGERZAT_STATE_DOES_NOT_FIT, 6, "the assembler's state does not fit"},
    {YUGERZAT_FRAGMENT_TOO_LONG, 7, "a fragment is longer than the record buffer has room"},
    {YUGERZAT_REPLY_CAME, 8, "a reply where a call is due"},
    {YUGERZAT_PAST_END, 9, "a start place is past the end"},
    {YUGERZAT_LONG_PATH, 10, "a path is above 1,024 bytes"},
    {YUGERZAT_HAND_OVER, 100, "a call for a program that is served"},
    {YUGERZAT_REPLY, 101, "a reply is to be sent"},
    {YUGERZAT_SILENCE, 102, "a call that came before gets no reply"},
    {YUGERZAT_MORE, 103, "the record is not complete"},
    {YUGERZAT_COMPLETE, 104, "the record is complete"},
    {YUGERZAT_MNT, 105, "a call of MNT"},
    {YUGERZAT_UMNT, 106, "a call of UMNT"},
    {YUGERZAT_EXPORT, 107, "a call of EXPORT"},
    {YUGERZAT_GETPORT, 108, "a call of GETPORT"},
    {YUGERZAT_WIDE_NUMBER, 253, "a number to be written is too large or not declared"},
    {YUGERZAT_SHORT_LIST, 254, "a list of figures is too short"},
    {YUGERZAT_UNKNOWN_KIND, 255, "there is no kind of that number"},
};

static void test_names(void)
{
    static const uint32_t none[] = {11, 99, 109, 252, 256, 0x7FFFFFFF, 0xFFFFFFFF};
    static const char *const wrong[] = {"", "?", "fattr", "fattr33", "FATTR3", " fattr3", "fattr3 ", "post-op-attr"};
    enum yugerzat_kind kind;
    size_t i;
    for (i = 0; i < sizeof answers / sizeof *answers; i++) {
        of = answers[i].words;
        CHECK((uint32_t)answers[i].answer == answers[i].number);
        CHECK(strcmp(yugerzat_strerror(answers[i].answer), answers[i].words) == 0);
        of = "";
    }
    for (i = 0; i < sizeof none / sizeof *none; i++)
        CHECK(strcmp(yugerzat_strerror((enum yugerzat_answer)none[i]), "not an answer of this library") == 0);

    CHECK(SAMPLES == YUGERZAT_KINDS);
    for (i = 0; i < SAMPLES; i++) {
        of = samples[i].name;
        CHECK(strcmp(yugerzat_kind_name((enum yugerzat_kind)i), samples[i].name) == 0);
        kind = YUGERZAT_KIND_BOOL;
        CHECK(yugerzat_kind_by_name(samples[i].name, &kind) && kind == (enum yugerzat_kind)i);
        of = "";
    }
    CHECK(strcmp(yugerzat_kind_name(YUGERZAT_KIND_FATTR3), "fattr3") == 0);
    CHECK(strcmp(yugerzat_kind_name((enum yugerzat_kind)YUGERZAT_KINDS), "?") == 0);
    for (i = 0; i < sizeof none / sizeof *none; i++)
        if (none[i] >= YUGERZAT_KINDS)
            CHECK(strcmp(yugerzat_kind_name((enum yugerzat_kind)none[i]), "?") == 0);
    for (i = 0; i < sizeof wrong / sizeof *wrong; i++) {
        of = wrong[i];
        kind = YUGERZAT_KIND_SATTR3;
        CHECK(!yugerzat_kind_by_name(wrong[i], &kind) && kind == YUGERZAT_KIND_SATTR3);
        of = "";
    }
}

/* ---- messages to try */

/*
 * More messages of kinds that have structs than kinds.txt has: loose ones, all arms of every union, refused ones. Those
 * of an rpc_msg are tried in both readings.
 */
static const struct {
    enum yugerzat_kind kind;
    const char *message;
} more[] = {
    {YUGERZAT_KIND_RPC_MSG,
        "0000002A 00000000 00000002 000186A3 00000003 00000001 00000001 00000003 01020300 00000000 00000000"},
    {YUGERZAT_KIND_RPC_MSG,
        "FFFFFFFF 00000000 00000002 000186A3 00000003 00000001 00000003 00000001 01020300 00000002 00000000"},
    {YUGERZAT_KIND_RPC_MSG, "0000002A 00000002"},
    {YUGERZAT_KIND_RPC_MSG, "0000002A 00000001 00000000 00000000 00000002 AABB0000 00000000"},
    {YUGERZAT_KIND_RPC_MSG, "0000002A 00000001 00000000 00000003 00000002 AABB0001 00000001"},
    {YUGERZAT_KIND_RPC_MSG, "0000002A 00000001 00000000 00000000 00000000 00000003"},
    {YUGERZAT_KIND_RPC_MSG, "0000002A 00000001 00000000 00000000 00000000 00000002 00000003 00000004"},
    {YUGERZAT_KIND_RPC_MSG, "0000002A 00000001 00000000 00000000 00000000 00000005"},
    {YUGERZAT_KIND_RPC_MSG, "0000002A 00000001 00000000 00000002 00000001 99000001 00000005"},
    {YUGERZAT_KIND_RPC_MSG, "0000002A 00000001 00000000 00000000 00000000 00000006"},
    {YUGERZAT_KIND_RPC_MSG, "0000002A 00000001 00000002"},
    {YUGERZAT_KIND_RPC_MSG, "0000002A 00000001 00000001 00000000 00000002 00000003"},
    {YUGERZAT_KIND_RPC_MSG, "0000002A 00000001 00000001 00000007"},
    {YUGERZAT_KIND_RPC_MSG, "0000002A 00000001 00000001 00000001 00000005"},
    {YUGERZAT_KIND_RPC_MSG, "0000002A 00000001 00000001 00000001 00000006"},
    {YUGERZAT_KIND_RPC_MSG, "0000002A 00000001 00000001 00000001 0000000F"},
    {YUGERZAT_KIND_AUTH_UNIX, "00000001 00000000 00000002 00000003 00000000"},
    {YUGERZAT_KIND_AUTH_UNIX, "FFFFFFFF 00000001 61000001 FFFFFFFF FFFFFFFE 00000003 00000001 00000002 00000003"},
    {YUGERZAT_KIND_AUTH_UNIX, "00000001 00000000 00000002 00000003 FFFFFFFF 00000001"},
    {YUGERZAT_KIND_FATTR3, "00000008 00000000"},
    {YUGERZAT_KIND_SATTR3, "00000000 00000000 00000000 00000000 00000000 00000000"},
    {YUGERZAT_KIND_SATTR3, "00000000 00000000 00000000 00000000 00000001 00000001"},
    {YUGERZAT_KIND_SATTR3, "00000000 00000000 00000000 FFFFFFFF 0000000000000000 00000000 00000000"},
    {YUGERZAT_KIND_SATTR3, "00000000 00000000 00000000 00000000 00000000 00000003"},
    {YUGERZAT_KIND_DIROPARGS3, "00000000 00000000"},
    {YUGERZAT_KIND_DIROPARGS3, "00000001 0A000001 00000003 616263FF"},
};

/* ---- any kind */

static void ask_kind(enum yugerzat_kind kind, const uint8_t *src, size_t count, size_t at, size_t room)
{
    struct yugerzat_rewriting rewriting;
    uint8_t written[BUFFER];
    enum yugerzat_answer answer;
    fresh();
    memset(&rewriting, 0xEE, sizeof rewriting);
    answer = yugerzat_judge(kind, src, count, at, info, YUGERZAT_FIGURES_JUDGE);
    CHECK(yugerzat_judge_kind(kind, src, count, at, &rewriting) == answer && rewriting_of(&rewriting, answer, info));
    memset(&rewriting, 0xEE, sizeof rewriting);
    memset(written, 0xEE, sizeof written);
    answer = yugerzat_rewrite(kind, src, count, at, out, room, info, YUGERZAT_FIGURES_REWRITE);
    CHECK(yugerzat_rewrite_kind(kind, src, count, at, written, room, &rewriting) == answer);
    CHECK(rewriting_of(&rewriting, answer, info) && memcmp(written, out, sizeof written) == 0);
}

static void test_any_kind(void)
{
    struct bytes b, later;
    size_t i, n;
    for (i = 0; i < SAMPLES; i++) {
        enum yugerzat_kind kind = (enum yugerzat_kind)i;
        of = samples[i].name;
        b = hex(samples[i].message);
        later = behind_five(&b);
        for (n = 0; n <= b.count; n++) {
            ask_kind(kind, b.at, n, 0, BUFFER);
            ask_kind(kind, b.at, b.count, 0, n);
            ask_kind(kind, later.at, n + 5, 5, BUFFER);
        }
        ask_kind(kind, b.at, b.count, b.count + 1, BUFFER);
        ask_kind(kind, b.at, b.count, SIZE_MAX, BUFFER);
        ask_kind(kind, NULL, 0, 0, 0);
        ask_kind(kind, long_message, YUGERZAT_LIMIT_BYTES + 1, 0, BUFFER);
        of = "";
    }
    b = hex("00000000 00000003");
    ask_kind((enum yugerzat_kind)YUGERZAT_KINDS, b.at, b.count, 0, BUFFER);
    ask_kind((enum yugerzat_kind)0xFFFFFFFF, b.at, b.count, 0, BUFFER);
    ask_kind(YUGERZAT_KIND_FTYPE3, b.at, b.count, 0, BUFFER);
}

/* ---- structs as the figures that they stand for */

static void put_piece(uint64_t *figures, const uint8_t *src, struct yugerzat_piece piece)
{
    figures[0] = piece.bytes ? (uint64_t)(piece.bytes - src) : 0;
    figures[1] = piece.count;
}

static void put_words(uint64_t *figures, const uint8_t *src, struct yugerzat_words words)
{
    figures[0] = words.bytes ? (uint64_t)(words.bytes - src) : 0;
    figures[1] = words.count;
}

static void rpc_msg_figures(const struct yugerzat_rpc_msg *v, const uint8_t *src, uint64_t *figures)
{
    figures[2] = v->xid;
    figures[3] = v->tag;
    switch (v->tag) {
    case YUGERZAT_TAG_CALL:
        figures[4] = v->body.call.rpcvers;
        figures[5] = v->body.call.prog;
        figures[6] = v->body.call.vers;
        figures[7] = v->body.call.proc;
        figures[8] = v->body.call.cred.flavor;
        put_piece(figures + 9, src, v->body.call.cred.body);
        figures[11] = v->body.call.verf.flavor;
        put_piece(figures + 12, src, v->body.call.verf.body);
        break;
    case YUGERZAT_TAG_ACCEPTED:
        figures[4] = v->body.accepted.verf.flavor;
        put_piece(figures + 5, src, v->body.accepted.verf.body);
        figures[7] = v->body.accepted.stat;
        figures[8] = v->body.accepted.mismatch.low;
        figures[9] = v->body.accepted.mismatch.high;
        break;
    case YUGERZAT_TAG_DENIED_VERSION:
        figures[4] = v->body.denied_version.low;
        figures[5] = v->body.denied_version.high;
        break;
    case YUGERZAT_TAG_DENIED_AUTH: figures[4] = v->body.denied_auth; break;
    }
}

static void auth_unix_figures(const struct yugerzat_auth_unix *v, const uint8_t *src, uint64_t *figures)
{
    figures[2] = v->stamp;
    put_piece(figures + 3, src, v->machinename);
    figures[5] = v->uid;
    figures[6] = v->gid;
    put_words(figures + 7, src, v->gids);
}

static void fattr3_figures(const struct yugerzat_fattr3 *v, uint64_t *figures)
{
    const uint64_t due[] = {(uint64_t)v->type, v->mode, v->nlink, v->uid, v->gid, v->size, v->used, v->rdev.specdata1,
        v->rdev.specdata2, v->fsid, v->fileid, v->atime.seconds, v->atime.nseconds, v->mtime.seconds, v->mtime.nseconds,
        v->ctime.seconds, v->ctime.nseconds};
    memcpy(figures + 2, due, sizeof due);
}

static void sattr3_figures(const struct yugerzat_sattr3 *v, uint64_t *figures)
{
    const uint64_t due[] = {v->set_mode, v->mode, v->set_uid, v->uid, v->set_gid, v->gid, v->set_size, v->size,
        (uint64_t)v->set_atime, v->atime.seconds, v->atime.nseconds, (uint64_t)v->set_mtime, v->mtime.seconds,
        v->mtime.nseconds};
    memcpy(figures + 2, due, sizeof due);
}

static void diropargs3_figures(const struct yugerzat_diropargs3 *v, const uint8_t *src, uint64_t *figures)
{
    put_piece(figures + 2, src, v->dir);
    put_piece(figures + 4, src, v->name);
}

/* ---- one form for all: read into a struct, tell its figures, and write it */

/* Where a struct of any kind stands. */
union value {
    struct yugerzat_rpc_msg rpc_msg;
    struct yugerzat_auth_unix auth_unix;
    struct yugerzat_fattr3 fattr3;
    struct yugerzat_sattr3 sattr3;
    struct yugerzat_diropargs3 diropargs3;
};

static enum yugerzat_answer get(enum yugerzat_kind kind, const uint8_t *src, size_t count, size_t at, union value *v,
    struct yugerzat_reading *reading)
{
    switch (kind) {
    case YUGERZAT_KIND_RPC_MSG: return yugerzat_get_rpc_msg(src, count, at, &v->rpc_msg, reading);
    case YUGERZAT_KIND_CURRENT_RPC_MSG: return yugerzat_get_current_rpc_msg(src, count, at, &v->rpc_msg, reading);
    case YUGERZAT_KIND_AUTH_UNIX: return yugerzat_get_auth_unix(src, count, at, &v->auth_unix, reading);
    case YUGERZAT_KIND_FATTR3: return yugerzat_get_fattr3(src, count, at, &v->fattr3, reading);
    case YUGERZAT_KIND_SATTR3: return yugerzat_get_sattr3(src, count, at, &v->sattr3, reading);
    default: return yugerzat_get_diropargs3(src, count, at, &v->diropargs3, reading);
    }
}

static enum yugerzat_answer put(enum yugerzat_kind kind, const union value *v, uint8_t *to, size_t room, size_t start,
    struct yugerzat_writing *writing)
{
    switch (kind) {
    case YUGERZAT_KIND_RPC_MSG: return yugerzat_put_rpc_msg(&v->rpc_msg, to, room, start, writing);
    case YUGERZAT_KIND_CURRENT_RPC_MSG: return yugerzat_put_current_rpc_msg(&v->rpc_msg, to, room, start, writing);
    case YUGERZAT_KIND_AUTH_UNIX: return yugerzat_put_auth_unix(&v->auth_unix, to, room, start, writing);
    case YUGERZAT_KIND_FATTR3: return yugerzat_put_fattr3(&v->fattr3, to, room, start, writing);
    case YUGERZAT_KIND_SATTR3: return yugerzat_put_sattr3(&v->sattr3, to, room, start, writing);
    default: return yugerzat_put_diropargs3(&v->diropargs3, to, room, start, writing);
    }
}

static void figures_of(enum yugerzat_kind kind, const union value *v, const uint8_t *src, uint64_t *figures)
{
    switch (kind) {
    case YUGERZAT_KIND_RPC_MSG:
    case YUGERZAT_KIND_CURRENT_RPC_MSG: rpc_msg_figures(&v->rpc_msg, src, figures); break;
    case YUGERZAT_KIND_AUTH_UNIX: auth_unix_figures(&v->auth_unix, src, figures); break;
    case YUGERZAT_KIND_FATTR3: fattr3_figures(&v->fattr3, figures); break;
    case YUGERZAT_KIND_SATTR3: sattr3_figures(&v->sattr3, figures); break;
    default: diropargs3_figures(&v->diropargs3, src, figures); break;
    }
}

/* The size of a kind's struct, of which all is 0 where a reading is refused. */
static size_t size_of(enum yugerzat_kind kind)
{
    union value v;
    switch (kind) {
    case YUGERZAT_KIND_RPC_MSG:
    case YUGERZAT_KIND_CURRENT_RPC_MSG: return sizeof v.rpc_msg;
    case YUGERZAT_KIND_AUTH_UNIX: return sizeof v.auth_unix;
    case YUGERZAT_KIND_FATTR3: return sizeof v.fattr3;
    case YUGERZAT_KIND_SATTR3: return sizeof v.sattr3;
    default: return sizeof v.diropargs3;
    }
}

/* The same by the library's own functions, which have lists. Figures that a reader does not have are 0. */
static enum yugerzat_answer list_read(
    enum yugerzat_kind kind, const uint8_t *src, size_t count, size_t at, uint64_t *figures)
{
    switch (kind) {
    case YUGERZAT_KIND_RPC_MSG: return yugerzat_read_rpc_msg(src, count, at, figures, FIGURES);
    case YUGERZAT_KIND_CURRENT_RPC_MSG: return yugerzat_read_current_rpc_msg(src, count, at, figures, FIGURES);
    case YUGERZAT_KIND_AUTH_UNIX: return yugerzat_read_auth_unix(src, count, at, count - at, figures, FIGURES);
    case YUGERZAT_KIND_FATTR3: return yugerzat_read_fattr3(src, count, at, figures, FIGURES);
    case YUGERZAT_KIND_SATTR3: return yugerzat_read_sattr3(src, count, at, figures, FIGURES);
    default: return yugerzat_read_diropargs3(src, count, at, figures, FIGURES);
    }
}

/* Writes from the figures of a reader; all pieces lie in src. */
static enum yugerzat_answer list_write(enum yugerzat_kind kind, const uint8_t *src, size_t count,
    const uint64_t *figures, uint8_t *to, size_t room, size_t start, uint64_t *told)
{
    const uint64_t *fields = figures + YUGERZAT_FIGURE_FIELDS;
    uint64_t call[11];
    switch (kind) {
    case YUGERZAT_KIND_RPC_MSG:
    case YUGERZAT_KIND_CURRENT_RPC_MSG:
        if (figures[YUGERZAT_FIGURE_RPC_MSG_TAG] != YUGERZAT_TAG_CALL)
            return (kind == YUGERZAT_KIND_RPC_MSG ? yugerzat_write_reply : yugerzat_write_current_reply)(
                src, count, fields, 8, to, room, start, told, 1);
        call[0] = figures[2];
        memcpy(call + 1, figures + 4, 10 * sizeof *call);
        return yugerzat_write_call(src, count, src, count, call, 11, to, room, start, told, 1);
    case YUGERZAT_KIND_AUTH_UNIX:
        return yugerzat_write_auth_unix(src, count, src, count, fields, 7, to, room, start, told, 1);
    case YUGERZAT_KIND_FATTR3: return yugerzat_write_fattr3(fields, 17, to, room, start, told, 1);
    case YUGERZAT_KIND_SATTR3: return yugerzat_write_sattr3(fields, 14, to, room, start, told, 1);
    default: return yugerzat_write_diropargs3(src, count, src, count, fields, 4, to, room, start, told, 1);
    }
}

/* ---- readings */

/* Reads into a struct and into a list, and holds the struct to the list and to what judging the kind says. */
static enum yugerzat_answer ask(enum yugerzat_kind kind, const uint8_t *src, size_t count, size_t at, union value *v)
{
    struct yugerzat_reading reading;
    uint64_t judged[3] = {0}, listed[FIGURES] = {0}, told[FIGURES] = {0};
    enum yugerzat_answer answer = yugerzat_judge(kind, src, count, at, judged, 3);
    memset(v, 0xEE, sizeof *v);
    memset(&reading, 0xEE, sizeof reading);
    CHECK(get(kind, src, count, at, v, &reading) == answer && reading_of(&reading, answer, judged));
    if (answer != YUGERZAT_DONE) {
        /* Every member is 0, and no piece is left. */
        figures_of(kind, v, src, told);
        CHECK(memcmp(told, listed, sizeof told) == 0);
        if (kind != YUGERZAT_KIND_FATTR3 && kind != YUGERZAT_KIND_SATTR3) {
            static const uint8_t zeros[sizeof(union value)] = {0};
            CHECK(memcmp(v, zeros, size_of(kind)) == 0);
        }
        return answer;
    }
    CHECK(list_read(kind, src, count, at, listed) == YUGERZAT_DONE && listed[0] == judged[0] && listed[1] == judged[1]);
    told[0] = reading.next;
    told[1] = reading.plain;
    figures_of(kind, v, src, told);
    CHECK(memcmp(told, listed, sizeof told) == 0);
    return answer;
}

/* ---- writings */

/* Writes a struct that was read from a message, and the list that was, into the same room, and compares. */
static void write_both(
    enum yugerzat_kind kind, const union value *v, const uint8_t *src, size_t count, size_t room, size_t start)
{
    struct yugerzat_writing writing;
    uint64_t listed[FIGURES] = {0};
    uint8_t written[BUFFER];
    enum yugerzat_answer answer;
    memset(&writing, 0xEE, sizeof writing);
    memset(written, 0xEE, sizeof written);
    fresh();
    info[0] = 0;
    figures_of(kind, v, src, listed);
    answer = list_write(kind, src, count, listed, out, room, start, info);
    CHECK(put(kind, v, written, room, start, &writing) == answer);
    CHECK(writing_is(&writing, answer, answer == YUGERZAT_DONE ? (size_t)info[0] : 0,
        answer == YUGERZAT_NO_ROOM ? (size_t)info[0] : 0));
    CHECK(memcmp(written, out, sizeof written) == 0);
}

/* Every room that is too small, and places to start from. */
static void write_everywhere(enum yugerzat_kind kind, const union value *v, const uint8_t *src, size_t count)
{
    size_t room;
    for (room = 0; room < 100; room++)
        write_both(kind, v, src, count, room, 0);
    write_both(kind, v, src, count, BUFFER, 0);
    write_both(kind, v, src, count, BUFFER, 7);
    write_both(kind, v, src, count, 20, 7);
    write_both(kind, v, src, count, 20, 20);
    write_both(kind, v, src, count, 20, 21);
    write_both(kind, v, src, count, BUFFER, SIZE_MAX);
}

/* ---- all kinds that have a struct */

static void try_message(enum yugerzat_kind kind, const char *message)
{
    static const uint8_t odd[] = {0x00, 0x01, 0x02, 0x03, 0x04, 0x05, 0x07, 0x08, 0x80, 0xFF};
    struct bytes b = hex(message), later = behind_five(&b), edited;
    struct yugerzat_rewriting rewriting;
    struct yugerzat_writing writing;
    union value v;
    size_t i, k;
    of = message;
    /* what it is, where it stands, and cut at every place */
    if (ask(kind, b.at, b.count, 0, &v) == YUGERZAT_DONE) {
        write_everywhere(kind, &v, b.at, b.count);
        /* what is written is the rewriting */
        fresh();
        CHECK(yugerzat_rewrite_kind(kind, b.at, b.count, 0, out, BUFFER, &rewriting) == YUGERZAT_DONE);
        edited = b;
        memset(edited.at, 0xEE, sizeof edited.at);
        CHECK(put(kind, &v, edited.at, sizeof edited.at, 0, &writing) == YUGERZAT_DONE &&
              writing.after == rewriting.size);
        CHECK(memcmp(edited.at, out, sizeof edited.at) == 0);
    }
    for (i = 0; i <= b.count; i++) {
        ask(kind, b.at, i, 0, &v);
        ask(kind, later.at, i + 5, 5, &v);
        ask(kind, b.at, b.count, i, &v);
    }
    ask(kind, NULL, 0, 0, &v);
    ask(kind, NULL, 0, 1, &v);
    ask(kind, b.at, b.count, b.count + 1, &v);
    ask(kind, b.at, b.count, SIZE_MAX, &v);
    memcpy(long_message, b.at, b.count);
    ask(kind, long_message, YUGERZAT_LIMIT_BYTES, 0, &v);
    ask(kind, long_message, YUGERZAT_LIMIT_BYTES + 1, 0, &v);
    ask(kind, long_message, YUGERZAT_LIMIT_BYTES + 1, SIZE_MAX, &v);
    /* every byte another one */
    for (i = 0; i < b.count; i++) {
        for (k = 0; k < sizeof odd; k++) {
            edited = b;
            edited.at[i] = odd[k];
            if (ask(kind, edited.at, edited.count, 0, &v) == YUGERZAT_DONE)
                write_both(kind, &v, edited.at, edited.count, BUFFER, 3);
        }
    }
    of = "";
}

static void test_values(void)
{
    static const enum yugerzat_kind kinds[] = {YUGERZAT_KIND_RPC_MSG, YUGERZAT_KIND_CURRENT_RPC_MSG,
        YUGERZAT_KIND_AUTH_UNIX, YUGERZAT_KIND_FATTR3, YUGERZAT_KIND_SATTR3, YUGERZAT_KIND_DIROPARGS3};
    size_t i;
    for (i = 0; i < sizeof kinds / sizeof *kinds; i++)
        try_message(kinds[i], samples[kinds[i]].message);
    for (i = 0; i < sizeof more / sizeof *more; i++) {
        try_message(more[i].kind, more[i].message);
        if (more[i].kind == YUGERZAT_KIND_RPC_MSG) {
            in = "the current reading";
            try_message(YUGERZAT_KIND_CURRENT_RPC_MSG, more[i].message);
            in = "";
        }
    }
}

/* ---- values that were never read */

static void test_any_values(void)
{
    union value v, back;
    struct yugerzat_writing writing;
    struct yugerzat_reading reading;
    uint64_t one[FIGURES], other[FIGURES];
    int n;
    for (n = 0; n < 500; n++) {
        memset(&v, 0, sizeof v);
        v.fattr3.type = (enum yugerzat_ftype3)(any_number() % 9);
        v.fattr3.mode = (uint32_t)any_number();
        v.fattr3.nlink = (uint32_t)any_number();
        v.fattr3.uid = (uint32_t)any_number();
        v.fattr3.gid = (uint32_t)any_number();
        v.fattr3.size = any_number() * any_number();
        v.fattr3.used = any_number() * any_number();
        v.fattr3.rdev.specdata1 = (uint32_t)any_number();
        v.fattr3.rdev.specdata2 = (uint32_t)any_number();
        v.fattr3.fsid = any_number() * any_number();
        v.fattr3.fileid = any_number() * any_number();
        v.fattr3.atime = any_time();
        v.fattr3.mtime = any_time();
        v.fattr3.ctime = any_time();
        write_both(YUGERZAT_KIND_FATTR3, &v, NULL, 0, BUFFER, 0);
        write_both(YUGERZAT_KIND_FATTR3, &v, NULL, 0, YUGERZAT_FATTR3_BYTES - 1, 0);
        if (yugerzat_put_fattr3(&v.fattr3, out, BUFFER, 0, &writing) == YUGERZAT_DONE) {
            CHECK(writing.after == YUGERZAT_FATTR3_BYTES);
            CHECK(yugerzat_get_fattr3(out, writing.after, 0, &back.fattr3, &reading) == YUGERZAT_DONE && reading.plain);
            memset(one, 0, sizeof one);
            memset(other, 0, sizeof other);
            fattr3_figures(&v.fattr3, one);
            fattr3_figures(&back.fattr3, other);
            CHECK(memcmp(one, other, sizeof one) == 0);
        } else {
            CHECK(v.fattr3.type < YUGERZAT_NF3REG || v.fattr3.type > YUGERZAT_NF3FIFO);
            CHECK(writing_is(&writing, YUGERZAT_WIDE_NUMBER, 0, 0));
        }

        memset(&v, 0, sizeof v);
        v.sattr3.set_mode = any_number() % 2 != 0;
        v.sattr3.set_uid = any_number() % 2 != 0;
        v.sattr3.set_gid = any_number() % 2 != 0;
        v.sattr3.set_size = any_number() % 2 != 0;
        v.sattr3.set_atime = (enum yugerzat_time_how)(any_number() % 4);
        v.sattr3.set_mtime = (enum yugerzat_time_how)(any_number() % 4);
        v.sattr3.mode = (uint32_t)any_number();
        v.sattr3.uid = (uint32_t)any_number();
        v.sattr3.gid = (uint32_t)any_number();
        v.sattr3.size = any_number() * any_number();
        v.sattr3.atime = any_time();
        v.sattr3.mtime = any_time();
        write_both(YUGERZAT_KIND_SATTR3, &v, NULL, 0, BUFFER, 0);
        write_both(YUGERZAT_KIND_SATTR3, &v, NULL, 0, 23, 0);
        if (yugerzat_put_sattr3(&v.sattr3, out, BUFFER, 0, &writing) == YUGERZAT_DONE) {
            CHECK(writing.after <= YUGERZAT_SATTR3_MOST_BYTES);
            CHECK(yugerzat_get_sattr3(out, writing.after, 0, &back.sattr3, &reading) == YUGERZAT_DONE && reading.plain);
            CHECK(back.sattr3.set_size == v.sattr3.set_size &&
                  back.sattr3.size == (v.sattr3.set_size ? v.sattr3.size : 0));
        } else {
            CHECK(v.sattr3.set_atime > YUGERZAT_SET_TO_CLIENT_TIME || v.sattr3.set_mtime > YUGERZAT_SET_TO_CLIENT_TIME);
            CHECK(writing_is(&writing, YUGERZAT_WIDE_NUMBER, 0, 0));
        }
    }
    memset(&v, 0, sizeof v);
    v.sattr3.set_mode = v.sattr3.set_uid = v.sattr3.set_gid = v.sattr3.set_size = true;
    v.sattr3.set_atime = v.sattr3.set_mtime = YUGERZAT_SET_TO_CLIENT_TIME;
    CHECK(yugerzat_put_sattr3(&v.sattr3, out, BUFFER, 0, &writing) == YUGERZAT_DONE &&
          writing.after == YUGERZAT_SATTR3_MOST_BYTES);
}

/* ---- calls and replies from parts that lie in different buffers */

static struct yugerzat_piece piece_of(const struct bytes *b)
{
    struct yugerzat_piece piece;
    piece.bytes = b->at;
    piece.count = b->count;
    return piece;
}

/* The two readings of replies. */
static const struct replies {
    const char *name;
    bool current;
    enum yugerzat_answer (*get)(const uint8_t *, size_t, size_t, struct yugerzat_rpc_msg *, struct yugerzat_reading *);
    enum yugerzat_answer (*put)(const struct yugerzat_rpc_msg *, uint8_t *, size_t, size_t, struct yugerzat_writing *);
    enum yugerzat_answer (*choose)(const uint8_t *, size_t, bool, uint8_t *, size_t, struct yugerzat_chosen *);
    enum yugerzat_answer (*choose_list)(const uint8_t *, size_t, uint32_t, uint8_t *, size_t, uint64_t *, size_t);
    const char *mismatch; /* what xid 42 gets where the RPC version is not 2 */
} readings[] = {
    {"nfsserve's reading", false, yugerzat_get_rpc_msg, yugerzat_put_rpc_msg, yugerzat_choose_program, yugerzat_choose,
        "0000002A 00000001 00000001 00000000 00000000 00000000"},
    {"the current reading", true, yugerzat_get_current_rpc_msg, yugerzat_put_current_rpc_msg,
        yugerzat_choose_current_program, yugerzat_current_choose,
        "0000002A 00000001 00000001 00000000 00000002 00000002"},
};

/* The one that is tested. */
static const struct replies *replies = readings;

/* Whether an rpc_msg is written as these bytes, and nothing else of out is touched. */
static bool put_as(const struct yugerzat_rpc_msg *v, const char *due)
{
    struct yugerzat_writing writing;
    struct bytes b = hex(due);
    fresh();
    return replies->put(v, out, BUFFER, 3, &writing) == YUGERZAT_DONE &&
           writing_is(&writing, YUGERZAT_DONE, b.count + 3, 0) && out_untouched_before(3) && out_is(3, due) &&
           out_untouched_from(b.count + 3);
}

/* Whether it is refused with an answer that has no place and needs nothing. */
static bool put_refused(const struct yugerzat_rpc_msg *v, enum yugerzat_answer answer)
{
    struct yugerzat_writing writing;
    fresh();
    memset(&writing, 0xEE, sizeof writing);
    return replies->put(v, out, BUFFER, 0, &writing) == answer && writing_is(&writing, answer, 0, 0) &&
           out_untouched_from(0);
}

static void test_rpc_parts(void)
{
    struct bytes cred = hex("AABBCC"), verf = hex("1122334455");
    struct yugerzat_rpc_msg v;
    memset(&v, 0, sizeof v);
    v.xid = 42;
    v.tag = YUGERZAT_TAG_CALL;
    v.body.call.rpcvers = 2;
    v.body.call.prog = 100003;
    v.body.call.vers = 3;
    v.body.call.proc = 1;
    CHECK(put_as(&v, "0000002A 00000000 00000002 000186A3 00000003 00000001 00000000 00000000 00000000 00000000"));
    v.body.call.cred.flavor = YUGERZAT_AUTH_UNIX;
    v.body.call.cred.body = piece_of(&cred);
    v.body.call.verf.flavor = YUGERZAT_AUTH_DES;
    v.body.call.verf.body = piece_of(&verf);
    CHECK(put_as(&v, "0000002A 00000000 00000002 000186A3 00000003 00000001 00000001 00000003 AABBCC00"
                     "00000003 00000005 11223344 55000000"));
    v.body.call.verf.flavor = (enum yugerzat_auth_flavor)4;
    CHECK(put_refused(&v, YUGERZAT_WIDE_NUMBER));
    v.body.call.verf.flavor = YUGERZAT_AUTH_NULL;
    v.body.call.cred.flavor = (enum yugerzat_auth_flavor)0xFFFFFFFF;
    CHECK(put_refused(&v, YUGERZAT_WIDE_NUMBER));
    v.body.call.cred.flavor = YUGERZAT_AUTH_UNIX;
    v.body.call.cred.body.bytes = long_message;
    v.body.call.cred.body.count = YUGERZAT_LIMIT_BYTES + 1;
    CHECK(put_refused(&v, YUGERZAT_TOO_LONG));
    v.body.call.cred.body.count = YUGERZAT_LIMIT_BYTES;
    CHECK(put_refused(&v, YUGERZAT_TOO_LONG));
    v.body.call.cred.body = piece_of(&cred);
    v.body.call.verf.body.bytes = long_message;
    v.body.call.verf.body.count = YUGERZAT_LIMIT_BYTES + 1;
    CHECK(put_refused(&v, YUGERZAT_TOO_LONG));

    /* every arm of a reply */
    memset(&v, 0, sizeof v);
    v.xid = 42;
    v.tag = YUGERZAT_TAG_ACCEPTED;
    v.body.accepted.verf.flavor = YUGERZAT_AUTH_SHORT;
    v.body.accepted.verf.body = piece_of(&cred);
    v.body.accepted.mismatch.low = 7;
    v.body.accepted.mismatch.high = 8;
    v.body.accepted.stat = YUGERZAT_SUCCESS;
    CHECK(put_as(&v, "0000002A 00000001 00000000 00000002 00000003 AABBCC00 00000000"));
    v.body.accepted.stat = YUGERZAT_PROG_UNAVAIL;
    CHECK(put_as(&v, "0000002A 00000001 00000000 00000002 00000003 AABBCC00 00000001"));
    v.body.accepted.stat = YUGERZAT_PROG_MISMATCH;
    CHECK(put_as(&v, "0000002A 00000001 00000000 00000002 00000003 AABBCC00 00000002 00000007 00000008"));
    v.body.accepted.stat = YUGERZAT_PROC_UNAVAIL;
    CHECK(put_as(&v, "0000002A 00000001 00000000 00000002 00000003 AABBCC00 00000003"));
    v.body.accepted.stat = YUGERZAT_GARBAGE_ARGS;
    CHECK(put_as(&v, "0000002A 00000001 00000000 00000002 00000003 AABBCC00 00000004"));
    v.body.accepted.stat = (enum yugerzat_accept_stat)6;
    CHECK(put_refused(&v, YUGERZAT_WIDE_NUMBER));
    v.body.accepted.stat = YUGERZAT_SUCCESS;
    v.body.accepted.verf.flavor = (enum yugerzat_auth_flavor)4;
    CHECK(put_refused(&v, YUGERZAT_WIDE_NUMBER));
    v.body.accepted.verf.flavor = YUGERZAT_AUTH_NULL;
    v.body.accepted.verf.body.bytes = long_message;
    v.body.accepted.verf.body.count = YUGERZAT_LIMIT_BYTES + 1;
    CHECK(put_refused(&v, YUGERZAT_TOO_LONG));
    memset(&v, 0, sizeof v);
    v.xid = 42;
    v.tag = YUGERZAT_TAG_DENIED_VERSION;
    v.body.denied_version.low = 2;
    v.body.denied_version.high = 3;
    CHECK(put_as(&v, "0000002A 00000001 00000001 00000000 00000002 00000003"));
    memset(&v, 0, sizeof v);
    v.xid = 42;
    v.tag = YUGERZAT_TAG_DENIED_AUTH;
    v.body.denied_auth = YUGERZAT_AUTH_BADCRED;
    CHECK(put_as(&v, "0000002A 00000001 00000001 00000001 00000001"));
    v.body.denied_auth = YUGERZAT_AUTH_TOOWEAK;
    CHECK(put_as(&v, "0000002A 00000001 00000001 00000001 00000005"));
    v.body.denied_auth = (enum yugerzat_auth_stat)15;
    CHECK(put_refused(&v, YUGERZAT_WIDE_NUMBER));
    v.tag = (enum yugerzat_tag)4;
    CHECK(put_refused(&v, YUGERZAT_WIDE_NUMBER));
}

/* ---- the numbers of replies, in both readings */

/* Those of RFC 5531, and whether nfsserve's reading declares them too. */
static const struct {
    enum yugerzat_accept_stat stat;
    uint32_t number;
    bool crate;
} accept_stats[] = {
    {YUGERZAT_SUCCESS, 0, true},
    {YUGERZAT_PROG_UNAVAIL, 1, true},
    {YUGERZAT_PROG_MISMATCH, 2, true},
    {YUGERZAT_PROC_UNAVAIL, 3, true},
    {YUGERZAT_GARBAGE_ARGS, 4, true},
    {YUGERZAT_SYSTEM_ERR, 5, false},
};

static const struct {
    enum yugerzat_auth_stat stat;
    uint32_t number;
    bool crate;
} auth_stats[] = {
    {YUGERZAT_AUTH_OK, 0, false},
    {YUGERZAT_AUTH_BADCRED, 1, true},
    {YUGERZAT_AUTH_REJECTEDCRED, 2, true},
    {YUGERZAT_AUTH_BADVERF, 3, true},
    {YUGERZAT_AUTH_REJECTEDVERF, 4, true},
    {YUGERZAT_AUTH_TOOWEAK, 5, true},
    {YUGERZAT_AUTH_INVALIDRESP, 6, false},
    {YUGERZAT_AUTH_FAILED, 7, false},
    {YUGERZAT_AUTH_KERB_GENERIC, 8, false},
    {YUGERZAT_AUTH_TIMEEXPIRE, 9, false},
    {YUGERZAT_AUTH_TKT_FILE, 10, false},
    {YUGERZAT_AUTH_DECODE, 11, false},
    {YUGERZAT_AUTH_NET_ADDR, 12, false},
    {YUGERZAT_RPCSEC_GSS_CREDPROBLEM, 13, false},
    {YUGERZAT_RPCSEC_GSS_CTXPROBLEM, 14, false},
};

#define ACCEPT_STATS (sizeof accept_stats / sizeof *accept_stats)
#define AUTH_STATS (sizeof auth_stats / sizeof *auth_stats)

/* Whether a reply is taken to its end, or refused at its auth_stat, and what is told besides the value fits that. */
static bool got(const char *message, enum yugerzat_answer answer, bool plain, struct yugerzat_rpc_msg *v)
{
    struct yugerzat_reading reading;
    struct bytes b = hex(message);
    uint64_t told[2] = {0, 0};
    memset(v, 0xEE, sizeof *v);
    memset(&reading, 0xEE, sizeof reading);
    told[0] = answer == YUGERZAT_DONE ? b.count : 16;
    told[1] = plain;
    return replies->get(b.at, b.count, 0, v, &reading) == answer && reading_of(&reading, answer, told);
}

static void test_accept_stat(uint32_t number)
{
    bool declared = number < ACCEPT_STATS && (replies->current || accept_stats[number].crate);
    uint32_t low = number == 2 ? 7 : 0, high = number == 2 ? 8 : 0;
    struct yugerzat_rpc_msg v;
    char message[100];
    snprintf(message, sizeof message, "0000002A 00000001 00000000 00000000 00000000 %08lX%s", (unsigned long)number,
        number == 2 ? " 00000007 00000008" : "");
    of = message;
    CHECK(got(message, YUGERZAT_DONE, declared, &v) && v.xid == 42 && v.tag == YUGERZAT_TAG_ACCEPTED);
    CHECK(v.body.accepted.stat == (declared ? accept_stats[number].stat : YUGERZAT_GARBAGE_ARGS));
    CHECK(v.body.accepted.mismatch.low == low && v.body.accepted.mismatch.high == high);
    CHECK(v.body.accepted.verf.flavor == YUGERZAT_AUTH_NULL && v.body.accepted.verf.body.count == 0);
    CHECK(put_as(&v, declared ? message : "0000002A 00000001 00000000 00000000 00000000 00000004"));
    v.body.accepted.stat = (enum yugerzat_accept_stat)number;
    CHECK(declared ? put_as(&v, message) : put_refused(&v, YUGERZAT_WIDE_NUMBER));
    of = "";
}

static void test_auth_stat(uint32_t number)
{
    bool declared = number < AUTH_STATS && (replies->current || auth_stats[number].crate);
    struct yugerzat_rpc_msg v;
    char message[100];
    snprintf(message, sizeof message, "0000002A 00000001 00000001 00000001 %08lX", (unsigned long)number);
    of = message;
    if (declared) {
        CHECK(got(message, YUGERZAT_DONE, true, &v) && v.xid == 42 && v.tag == YUGERZAT_TAG_DENIED_AUTH);
        CHECK(v.body.denied_auth == auth_stats[number].stat);
        CHECK(put_as(&v, message));
    } else {
        CHECK(got(message, YUGERZAT_UNDECLARED, false, &v) && v.xid == 0 && v.tag == YUGERZAT_TAG_CALL);
        CHECK(v.body.denied_auth == (enum yugerzat_auth_stat)0);
    }
    memset(&v, 0, sizeof v);
    v.xid = 42;
    v.tag = YUGERZAT_TAG_DENIED_AUTH;
    v.body.denied_auth = (enum yugerzat_auth_stat)number;
    CHECK(declared ? put_as(&v, message) : put_refused(&v, YUGERZAT_WIDE_NUMBER));
    of = "";
}

static void test_reply_numbers(void)
{
    uint32_t number;
    for (number = 0; number < ACCEPT_STATS; number++)
        CHECK(accept_stats[number].number == number && (uint32_t)accept_stats[number].stat == number);
    for (number = 0; number < AUTH_STATS; number++)
        CHECK(auth_stats[number].number == number && (uint32_t)auth_stats[number].stat == number);
    for (number = 0; number <= 8; number++)
        test_accept_stat(number);
    test_accept_stat(0xFFFFFFFF);
    for (number = 0; number <= 16; number++)
        test_auth_stat(number);
    test_auth_stat(0xFFFFFFFF);
}

/* ---- auth_unix and diropargs3 from parts */

static void test_parts(void)
{
    struct bytes cred = hex("AABBCC"), name = hex("616263"), gids = hex("00000004 00000005");
    struct yugerzat_auth_unix unix_value;
    struct yugerzat_diropargs3 place;
    struct yugerzat_writing writing;
    uint8_t wire[8];

    /* an auth_unix from a name and words; words are as on the wire */
    memset(&unix_value, 0, sizeof unix_value);
    yugerzat_set_word(wire, 0, 4);
    yugerzat_set_word(wire, 1, 0xFEDCBA98);
    CHECK(memcmp(wire, bytes_of("00000004 FEDCBA98"), 8) == 0);
    unix_value.gids.bytes = wire;
    unix_value.gids.count = 2;
    CHECK(yugerzat_word_at(&unix_value.gids, 0) == 4 && yugerzat_word_at(&unix_value.gids, 1) == 0xFEDCBA98);
    unix_value.stamp = 1;
    unix_value.machinename = piece_of(&name);
    unix_value.uid = 2;
    unix_value.gid = 3;
    unix_value.gids.bytes = gids.at;
    fresh();
    CHECK(yugerzat_put_auth_unix(&unix_value, out, BUFFER, 0, &writing) == YUGERZAT_DONE &&
          writing_is(&writing, YUGERZAT_DONE, 32, 0));
    CHECK(out_is(0, samples[YUGERZAT_KIND_AUTH_UNIX].message) && out_untouched_from(32));
    fresh();
    CHECK(yugerzat_put_auth_unix(&unix_value, out, 31, 0, &writing) == YUGERZAT_NO_ROOM &&
          writing_is(&writing, YUGERZAT_NO_ROOM, 0, 32));
    CHECK(out_untouched_from(0));
    {
        static const size_t counts[] = {YUGERZAT_LIMIT_BYTES / 4 - 4, YUGERZAT_LIMIT_BYTES / 4 + 1, SIZE_MAX / 4,
            SIZE_MAX / 4 + 1, SIZE_MAX / 2, SIZE_MAX};
        size_t i;
        for (i = 0; i < sizeof counts / sizeof *counts; i++) {
            unix_value.gids.bytes = long_message;
            unix_value.gids.count = counts[i];
            fresh();
            CHECK(yugerzat_put_auth_unix(&unix_value, out, BUFFER, 0, &writing) == YUGERZAT_TOO_LONG);
            CHECK(writing_is(&writing, YUGERZAT_TOO_LONG, 0, 0) && out_untouched_from(0));
        }
    }
    unix_value.gids.count = 0;
    unix_value.machinename.bytes = long_message;
    unix_value.machinename.count = YUGERZAT_LIMIT_BYTES + 1;
    CHECK(yugerzat_put_auth_unix(&unix_value, out, BUFFER, 0, &writing) == YUGERZAT_TOO_LONG && out_untouched_from(0));

    /* a diropargs3 from a handle and a name */
    place.dir = piece_of(&cred);
    place.name = piece_of(&name);
    fresh();
    CHECK(yugerzat_put_diropargs3(&place, out, BUFFER, 0, &writing) == YUGERZAT_DONE &&
          writing_is(&writing, YUGERZAT_DONE, 16, 0));
    CHECK(out_is(0, "00000003 AABBCC00 00000003 61626300") && out_untouched_from(16));
    place.name.bytes = long_message;
    place.name.count = YUGERZAT_LIMIT_BYTES + 1;
    fresh();
    CHECK(yugerzat_put_diropargs3(&place, out, BUFFER, 0, &writing) == YUGERZAT_TOO_LONG && out_untouched_from(0));
    place.dir = place.name;
    place.name = piece_of(&name);
    CHECK(yugerzat_put_diropargs3(&place, out, BUFFER, 0, &writing) == YUGERZAT_TOO_LONG && out_untouched_from(0));
}

/* The credential of a call that was read is lent as a message of its own, and its end is the end of the reading. */
static void test_credential(void)
{
    struct bytes b = hex(
        "0000002A 00000000 00000002 000186A0 00000002 00000003 00000001 0000001D 00000001 00000003 61626300 00000002"
        "00000003 00000001 00000004 EE 000000 00000000 00000000 11223344");
    struct yugerzat_rpc_msg v;
    struct yugerzat_auth_unix caller;
    struct yugerzat_reading reading;
    const struct yugerzat_piece *body = &v.body.call.cred.body;
    CHECK(yugerzat_get_rpc_msg(b.at, b.count, 0, &v, &reading) == YUGERZAT_DONE && reading.plain && reading.next == 72);
    CHECK(v.tag == YUGERZAT_TAG_CALL && v.body.call.cred.flavor == YUGERZAT_AUTH_UNIX && body->bytes == b.at + 32 &&
          body->count == 29);
    CHECK(yugerzat_get_auth_unix(body->bytes, body->count, 0, &caller, &reading) == YUGERZAT_DONE && reading.plain &&
          reading.next == 28);
    CHECK(caller.stamp == 1 && caller.uid == 2 && caller.gid == 3 && caller.machinename.count == 3);
    CHECK(caller.machinename.bytes == b.at + 40 && caller.gids.bytes == b.at + 56 && caller.gids.count == 1);
    CHECK(yugerzat_word_at(&caller.gids, 0) == 4);
    CHECK(yugerzat_get_auth_unix(body->bytes, 27, 0, &caller, &reading) == YUGERZAT_ENDS);
    CHECK(refusal_is(&reading.refusal, YUGERZAT_ENDS, 20, 1, 0) && !caller.gids.bytes && !caller.machinename.bytes);
    /* what is odd in the body is seen here, and not in the header */
    b.at[43] = 0x77;
    CHECK(yugerzat_get_rpc_msg(b.at, b.count, 0, &v, &reading) == YUGERZAT_DONE && reading.plain);
    CHECK(yugerzat_get_auth_unix(body->bytes, body->count, 0, &caller, &reading) == YUGERZAT_DONE && !reading.plain);
}

/* ---- records */

static bool same_state(const struct yugerzat_state *state, const uint64_t *listed)
{
    return state->capacity == listed[0] && state->placed == listed[1] && state->header_count == listed[2] &&
           state->header_value == listed[3] && state->left == listed[4] && state->last == listed[5] &&
           state->stopped == listed[6];
}

/* Feeds a stream in runs of a length to both, up to a refusal; returns how many records were complete. */
static unsigned feed_both(const struct bytes *stream, size_t run, size_t capacity, enum yugerzat_answer *last)
{
    struct yugerzat_state state = yugerzat_fresh_state(capacity);
    uint64_t listed[7] = {0}, told[2];
    uint8_t record[BUFFER];
    size_t at = 0;
    unsigned records = 0;
    listed[0] = capacity;
    memset(record, 0xEE, sizeof record);
    fresh();
    CHECK(same_state(&state, listed) && !yugerzat_inside_record(&state));
    *last = YUGERZAT_MORE;
    while (at < stream->count) {
        size_t count = stream->count - at < run ? stream->count - at : run;
        struct yugerzat_fed fed;
        memset(&fed, 0xEE, sizeof fed);
        *last = yugerzat_feed(listed, 7, stream->at + at, count, out, capacity, told, 2);
        CHECK(yugerzat_feed_run(&state, stream->at + at, count, record, capacity, &fed) == *last);
        CHECK(fed.used == told[0] && fed.length == told[1] && same_state(&state, listed) &&
              memcmp(record, out, sizeof out) == 0);
        CHECK(yugerzat_inside_record(&state) == (listed[1] || listed[2] || listed[4] || listed[6]));
        CHECK(fed.used > 0);
        if (fed.used == 0 || (*last != YUGERZAT_MORE && *last != YUGERZAT_COMPLETE))
            break;
        if (*last == YUGERZAT_COMPLETE) {
            records++;
            CHECK(!yugerzat_inside_record(&state));
        }
        at += fed.used;
    }
    return records;
}

static void test_records(void)
{
    struct bytes stream = hex("00000002 ABCD 80000001 EF 80000000 00000000 80000004 11223344 80000003 010203");
    struct bytes too_long = hex("80000001 AA 00000002 BBCC 80000003 DDEEFF");
    struct bytes cut_short = hex("80000002 AA");
    struct yugerzat_state state;
    struct yugerzat_fed fed;
    struct yugerzat_writing writing;
    enum yugerzat_answer last;
    size_t run, room, start;
    for (run = 1; run <= stream.count; run++) {
        CHECK(feed_both(&stream, run, 4, &last) == 4 && last == YUGERZAT_COMPLETE);
        CHECK(feed_both(&stream, run, BUFFER, &last) == 4 && last == YUGERZAT_COMPLETE);
        CHECK(feed_both(&too_long, run, 4, &last) == 1 && last == YUGERZAT_FRAGMENT_TOO_LONG);
        CHECK(feed_both(&cut_short, run, 4, &last) == 0 && last == YUGERZAT_MORE);
    }
    /* what each of them says, in figures */
    state = yugerzat_fresh_state(4);
    CHECK(yugerzat_feed_run(&state, stream.at, 3, out, 4, &fed) == YUGERZAT_MORE && fed.used == 3 && fed.length == 0);
    CHECK(state.header_count == 3 && yugerzat_inside_record(&state));
    CHECK(yugerzat_feed_run(&state, stream.at + 3, stream.count - 3, out, 4, &fed) == YUGERZAT_COMPLETE);
    CHECK(fed.used == 8 && fed.length == 3 && out_is(0, "ABCDEF") && !yugerzat_inside_record(&state));
    /* a buffer that is not the state's, and a state that was stopped */
    CHECK(yugerzat_feed_run(&state, stream.at, 4, out, 5, &fed) == YUGERZAT_STATE_DOES_NOT_FIT && fed.used == 0 &&
          fed.length == 0);
    CHECK(yugerzat_feed_run(&state, bytes_of("80000005"), 4, out, 4, &fed) == YUGERZAT_FRAGMENT_TOO_LONG &&
          fed.used == 4);
    CHECK(state.stopped == 1 && state.capacity == 4);
    CHECK(yugerzat_feed_run(&state, stream.at, 4, out, 4, &fed) == YUGERZAT_FRAGMENT_TOO_LONG && fed.used == 0);
    state = yugerzat_fresh_state(YUGERZAT_LIMIT_BYTES + 1);
    CHECK(yugerzat_feed_run(&state, stream.at, 4, long_out, YUGERZAT_LIMIT_BYTES + 1, &fed) ==
          YUGERZAT_STATE_DOES_NOT_FIT);

    /* a message as a record */
    for (room = 0; room < 20; room++) {
        for (start = 0; start < 21; start++) {
            uint8_t written[BUFFER];
            enum yugerzat_answer answer;
            memset(written, 0xEE, sizeof written);
            memset(&writing, 0xEE, sizeof writing);
            fresh();
            answer = yugerzat_fragment(stream.at, 5, out, room, start, info, 1);
            CHECK(yugerzat_put_fragment(stream.at, 5, written, room, start, &writing) == answer);
            CHECK(memcmp(written, out, sizeof out) == 0);
            CHECK(writing_is(
                &writing, answer, answer == YUGERZAT_DONE ? start + 9 : 0, answer == YUGERZAT_NO_ROOM ? 9 : 0));
        }
    }
    CHECK(yugerzat_put_fragment(NULL, 0, out, YUGERZAT_FRAGMENT_HEADER_BYTES, 0, &writing) == YUGERZAT_DONE);
    CHECK(writing_is(&writing, YUGERZAT_DONE, YUGERZAT_FRAGMENT_HEADER_BYTES, 0) && out_is(0, "80000000"));
    CHECK(yugerzat_put_fragment(long_message, YUGERZAT_LIMIT_BYTES + 1, long_out, sizeof long_out, 0, &writing) ==
          YUGERZAT_TOO_LONG);
    CHECK(writing_is(&writing, YUGERZAT_TOO_LONG, 0, 0));
}

/* ---- a stream, however it is cut */

#define CAPACITY 5
#define LENT (CAPACITY + 3) /* the library is not told of the last three bytes */
#define RECORDS 5

#define WHOLE_RECORDS                        \
    "00000002 ABCD 00000000 80000003 EF0123" \
    "80000000"                               \
    "00000000 00000000 80000004 80000001"    \
    "00000001 55 00000003 667788 80000000"   \
    "00000000 80000000"

/* Streams, and what is due at their end: the bytes used, the state, the record buffer, and how many records. */
static const struct {
    const char *name;
    const char *stream;
    size_t total;
    struct yugerzat_state state;
    const char *held;
    size_t records;
} streams[] = {
    {"whole records", WHOLE_RECORDS, 61, {CAPACITY, 0, 0, 0, 0, 0, 0}, "5566778823", RECORDS},
    {"an end inside a header", WHOLE_RECORDS "00000002 0102 800001", 70, {CAPACITY, 2, 3, 0x800001, 0, 0, 0},
        "0102778823", RECORDS},
    {"an end inside a fragment", WHOLE_RECORDS "00000004 0102", 67, {CAPACITY, 2, 0, 0, 2, 0, 0}, "0102778823",
        RECORDS},
    {"an end inside a last fragment", WHOLE_RECORDS "00000001 01 80000004 0203", 72, {CAPACITY, 3, 0, 0, 2, 1, 0},
        "0102038823", RECORDS},
    {"a stop", WHOLE_RECORDS "00000002 0102 80000004 03040506 80000001 77", 71, {CAPACITY, 2, 0, 0, 0, 0, 1},
        "0102778823", RECORDS},
    {"a stop at once", "7FFFFFFF 80000001 77", 4, {CAPACITY, 0, 0, 0, 0, 0, 1}, "EEEEEEEEEE", 0},
};

static const char *const stream_records[RECORDS] = {"ABCDEF0123", "", "80000001", "55667788", ""};

/* What was heard of a stream so far. */
struct heard {
    size_t total; /* bytes used */
    struct yugerzat_state state;
    uint8_t held[LENT]; /* the buffer that was lent last */
    size_t records;     /* how many were complete .. */
    size_t lengths[RECORDS];
    uint8_t bytes[RECORDS][CAPACITY]; /* .. and their bytes, as they were then */
};

static struct heard unheard(void)
{
    struct heard h;
    memset(&h, 0, sizeof h);
    h.state = yugerzat_fresh_state(CAPACITY);
    memset(h.held, 0xEE, sizeof h.held);
    return h;
}

static struct heard due_of(size_t stream)
{
    struct heard h = unheard();
    h.total = streams[stream].total;
    h.state = streams[stream].state;
    memcpy(h.held, bytes_of(streams[stream].held), CAPACITY);
    for (; h.records < streams[stream].records; h.records++) {
        struct bytes b = hex(stream_records[h.records]);
        h.lengths[h.records] = b.count;
        memcpy(h.bytes[h.records], b.at, b.count);
    }
    return h;
}

/* Feeds a run, and says whether what is told goes together. A byte is used where there is one, unless it is stopped. */
static bool hear(struct heard *h, const uint8_t *run, size_t count, uint8_t *buf)
{
    bool stopped = h->state.stopped != 0;
    struct yugerzat_fed fed = {SIZE_MAX, SIZE_MAX};
    enum yugerzat_answer answer = yugerzat_feed_run(&h->state, count ? run : NULL, count, buf, CAPACITY, &fed);
    if (fed.used > count || fed.length > CAPACITY || (fed.used > 0) != (count > 0 && !stopped))
        return false;
    h->total += fed.used;
    memcpy(h->held, buf, LENT);
    switch (answer) {
    case YUGERZAT_MORE: return fed.used == count && fed.length == 0 && h->state.stopped == 0;
    case YUGERZAT_FRAGMENT_TOO_LONG: return fed.length == 0 && h->state.stopped == 1;
    case YUGERZAT_COMPLETE:
        if (h->records == RECORDS)
            return false;
        memcpy(h->bytes[h->records], buf, fed.length);
        h->lengths[h->records++] = fed.length;
        return h->state.stopped == 0;
    default: return false;
    }
}

static bool same_records(const struct heard *h, const struct heard *due)
{
    return h->records == due->records && memcmp(h->lengths, due->lengths, sizeof h->lengths) == 0 &&
           memcmp(h->bytes, due->bytes, sizeof h->bytes) == 0;
}

/* All seven members. */
static bool same_end(const struct heard *h, const struct heard *due)
{
    return memcmp(&h->state, &due->state, sizeof h->state) == 0;
}

/* One buffer throughout; another for each record; or another for each feed, where what is placed is copied over. */
enum lending { ONE_BUFFER, FOR_EACH_RECORD, FOR_EACH_FEED };

/* One buffer holds the same from end to end; others hold the record so far. */
static bool same_held(const struct heard *h, const struct heard *due, enum lending lending)
{
    return memcmp(h->held, due->held, lending == ONE_BUFFER ? LENT : (size_t)due->state.placed) == 0;
}

static size_t any_run(void)
{
    uint64_t most = any_number() % 16 + 1;
    return (size_t)(any_number() % most);
}

/* What is heard after each byte, when the bytes of a stream come one by one. */
static struct heard moments[sizeof(((struct bytes *)0)->at) + 1];

static void hear_bytes(const struct bytes *stream)
{
    uint8_t buf[LENT];
    size_t at;
    memset(moments, 0, sizeof moments);
    memset(buf, 0xEE, sizeof buf);
    moments[0] = unheard();
    for (at = 0; at < stream->count && !moments[at].state.stopped; at++) {
        moments[at + 1] = moments[at];
        CHECK(hear(moments + at + 1, stream->at + at, 1, buf));
    }
}

/*
 * Feeds a stream that is cut at place `first`, and from there on at every so many bytes, or at any places where that
 * is 0. What was not used of a run is fed again. Only how many bytes were used may matter.
 */
static void hear_cut(
    const struct bytes *stream, size_t first, size_t others, enum lending lending, const struct heard *due)
{
    static uint8_t lent[RECORDS + 1][LENT];
    struct heard h = unheard();
    uint8_t *buf = lent[0];
    size_t feeds, i;
    bool good = true;
    memset(lent, 0xEE, sizeof lent);
    for (feeds = 0; good && h.total < stream->count && !h.state.stopped; feeds++) {
        size_t run = h.total < first ? first - h.total : others ? others - (h.total - first) % others : any_run();
        if (run > stream->count - h.total)
            run = stream->count - h.total;
        if (lending == FOR_EACH_RECORD)
            buf = lent[h.records];
        if (lending == FOR_EACH_FEED) {
            buf = lent[feeds % 2];
            memset(buf, (int)(any_number() % 256), LENT);
            memcpy(buf, h.held, (size_t)h.state.placed);
        }
        good = hear(&h, stream->at + h.total, run, buf) && same_records(&h, moments + h.total) &&
               same_end(&h, moments + h.total) && same_held(&h, moments + h.total, lending);
        CHECK(good);
    }
    if (!good)
        return;
    /* a stopped state uses nothing of the rest, and an empty run changes nothing */
    CHECK(hear(&h, stream->at + h.total, stream->count - h.total, buf));
    CHECK(hear(&h, stream->at + h.total, 0, buf));
    CHECK(same_records(&h, due));
    CHECK(h.total == due->total);
    CHECK(same_end(&h, due));
    CHECK(same_held(&h, due, lending));
    /* records that have a buffer each are still there, and nothing behind them was touched */
    for (i = 0; lending == FOR_EACH_RECORD && i < h.records; i++) {
        CHECK(memcmp(lent[i], due->bytes[i], due->lengths[i]) == 0);
        CHECK(memcmp(lent[i] + due->lengths[i], "\xEE\xEE\xEE\xEE\xEE\xEE\xEE\xEE", LENT - due->lengths[i]) == 0);
    }
}

static void test_cuts(void)
{
    static const enum lending lendings[] = {ONE_BUFFER, FOR_EACH_RECORD, FOR_EACH_FEED};
    char what[80];
    size_t i, j, n;
    for (i = 0; i < sizeof streams / sizeof *streams; i++) {
        struct bytes stream = hex(streams[i].stream);
        struct heard due = due_of(i);
        of = streams[i].name;
        hear_bytes(&stream);
        CHECK(same_records(moments + due.total, &due) && same_end(moments + due.total, &due));
        of = what;
        for (j = 0; j < sizeof lendings / sizeof *lendings; j++) {
            for (n = 1; n <= stream.count; n++) {
                snprintf(what, sizeof what, "%s, runs of %u", streams[i].name, (unsigned)n);
                hear_cut(&stream, 0, n, lendings[j], &due);
            }
            for (n = 0; n <= stream.count; n++) {
                snprintf(what, sizeof what, "%s, cut at %u", streams[i].name, (unsigned)n);
                hear_cut(&stream, n, stream.count, lendings[j], &due);
            }
            for (n = 0; n < 100; n++) {
                snprintf(what, sizeof what, "%s, any runs, no. %u", streams[i].name, (unsigned)n);
                hear_cut(&stream, 0, 0, lendings[j], &due);
            }
        }
        of = "";
    }
}

/* ---- the choice of program */

static enum yugerzat_answer choose_both(const uint8_t *message, size_t count, bool seen, size_t room)
{
    struct yugerzat_chosen chosen;
    uint64_t told[12] = {0};
    uint8_t written[BUFFER];
    enum yugerzat_answer answer;
    fresh();
    memset(&chosen, 0xEE, sizeof chosen);
    memset(written, 0xEE, sizeof written);
    answer = replies->choose_list(message, count, seen ? 0xFFFFFFFF : 0, out, room, info, FIGURES);
    CHECK(replies->choose(message, count, seen, written, room, &chosen) == answer);
    CHECK(memcmp(written, out, sizeof written) == 0);
    /* the figures of a hand-over, or of a reply; both have none of the other's */
    told[0] = answer == YUGERZAT_REPLY ? chosen.reply_length : chosen.prog;
    CHECK(answer == YUGERZAT_REPLY ? !chosen.prog : !chosen.reply_length);
    told[1] = chosen.vers;
    told[2] = chosen.proc;
    told[3] = chosen.arguments;
    told[4] = chosen.has_auth_unix;
    told[5] = chosen.auth_unix.stamp;
    put_piece(told + 6, message, chosen.auth_unix.machinename);
    told[8] = chosen.auth_unix.uid;
    told[9] = chosen.auth_unix.gid;
    put_words(told + 10, message, chosen.auth_unix.gids);
    CHECK(!chosen.auth_unix.gids.bytes == !chosen.has_auth_unix &&
          !chosen.auth_unix.machinename.bytes == !chosen.has_auth_unix);
    if (answer == YUGERZAT_ENDS || answer == YUGERZAT_UNDECLARED) {
        static const uint64_t zeros[12] = {0};
        CHECK(memcmp(told, zeros, sizeof told) == 0 && refusal_of(&chosen.refusal, answer, info));
        return answer;
    }
    CHECK(memcmp(told, info, sizeof told) == 0);
    CHECK(refusal_is(
        &chosen.refusal, answer, YUGERZAT_NO_PLACE, 0, answer == YUGERZAT_NO_ROOM ? YUGERZAT_REPLY_BYTES : 0));
    return answer;
}

static void test_choice(void)
{
    static const struct {
        const char *message;
        enum yugerzat_answer answer;
    } cases[] = {
        {"0000002A 00000000 00000002 000186A3 00000003 00000006 00000000 00000000 00000000 00000000 11223344",
            YUGERZAT_HAND_OVER},
        {"0000002A 00000000 00000002 000186A0 00000002 00000003 00000001 0000001D 00000001 00000003 61626300 00000002"
         "00000003 00000001 00000004 EE 000000 00000000 00000000 11223344",
            YUGERZAT_HAND_OVER},
        {"0000002A 00000000 00000002 000186A5 00000003 00000001 00000001 00000014 00000001 00000000 00000002 00000003 "
         "00000000"
         "00000000 00000000",
            YUGERZAT_HAND_OVER},
        {"0000002A 00000002", YUGERZAT_REPLY},
        {"0000002A 00000000 00000002 00000007 00000003 00000006 00000000 00000000 00000000 00000000", YUGERZAT_REPLY},
        {"0000002A 00000001 00000000 00000000 00000000 00000000", YUGERZAT_REPLY_CAME},
        {"0000002A 00000001 00000000 00000000 00000000 00000005", YUGERZAT_REPLY_CAME},
        {"0000002A 00000001 00000001 00000001 0000000F", YUGERZAT_UNDECLARED},
        {"0000002A 00000000 00000002 000186A3 00000003 00000006 00000004 00000000 00000000 00000000",
            YUGERZAT_UNDECLARED},
        {"0000002A 00000000 00000002 000186A3 00000003 00000006 00000001 00000003 00000000 00000000 00000000",
            YUGERZAT_ENDS},
    };
    size_t i, n;
    for (i = 0; i < sizeof cases / sizeof *cases; i++) {
        struct bytes b = hex(cases[i].message);
        enum yugerzat_answer again = cases[i].answer;
        of = cases[i].message;
        if (again == YUGERZAT_HAND_OVER || i == 4)
            again = YUGERZAT_SILENCE;
        CHECK(choose_both(b.at, b.count, false, BUFFER) == cases[i].answer);
        CHECK(choose_both(b.at, b.count, true, BUFFER) == again);
        for (n = 0; n <= YUGERZAT_REPLY_BYTES; n++)
            CHECK(choose_both(b.at, b.count, false, n) ==
                  (cases[i].answer == YUGERZAT_REPLY && n < YUGERZAT_REPLY_BYTES ? YUGERZAT_NO_ROOM : cases[i].answer));
        for (n = 0; n < b.count; n++)
            choose_both(b.at, n, false, BUFFER);
        of = "";
    }
    CHECK(choose_both(NULL, 0, false, 0) == YUGERZAT_ENDS);
    CHECK(choose_both(long_message, YUGERZAT_LIMIT_BYTES + 1, false, BUFFER) == YUGERZAT_TOO_LONG);
    /* what is sent where the RPC version is not 2 */
    CHECK(choose_both(bytes_of("0000002A 00000002"), 8, true, BUFFER) == YUGERZAT_REPLY);
    CHECK(out_is(0, replies->mismatch) && out_untouched_from(YUGERZAT_REPLY_BYTES));
    /* a reply with the auth_stat RPCSEC_GSS_CREDPROBLEM */
    CHECK(choose_both(bytes_of("0000002A 00000001 00000001 00000001 0000000D"), 20, false, BUFFER) ==
          (replies->current ? YUGERZAT_REPLY_CAME : YUGERZAT_UNDECLARED));
}

static void test_replies(void)
{
    size_t i;
    for (i = 0; i < sizeof readings / sizeof *readings; i++) {
        replies = readings + i;
        in = replies->name;
        test_rpc_parts();
        test_reply_numbers();
        test_choice();
        in = "";
    }
}

int main(void)
{
    memset(long_message, 0, sizeof long_message);
    test_names();
    test_any_kind();
    test_values();
    test_any_values();
    test_parts();
    test_credential();
    test_records();
    test_cuts();
    test_replies();
    return total();
}
