/*
 * Holds the structs and functions of include/yugerzat_mount.h to three things: to the library, whose own functions are
 * asked the same; to the layouts of RFC 1813 (appendix I) and RFC 1057 (appendix A), which are written down here once
 * more; and to the order of refusals. What the library's own functions say is tested by tests.c.
 */
#include "testing.h"

#define COUNT(list) (sizeof(list) / sizeof *(list))

/* ---- one form for all */

static const enum yugerzat_kind kinds[] = {
    YUGERZAT_KIND_DIRPATH, YUGERZAT_KIND_MOUNTRES3, YUGERZAT_KIND_EXPORTS, YUGERZAT_KIND_MAPPING};

/* Where a value of any kind stands. */
union value {
    struct yugerzat_piece dirpath;
    struct yugerzat_mountres3 mountres3;
    struct yugerzat_exports exports;
    struct yugerzat_mapping mapping;
};

static enum yugerzat_answer get(enum yugerzat_kind kind, const uint8_t *src, size_t count, size_t at, union value *v,
    struct yugerzat_reading *reading)
{
    switch (kind) {
    case YUGERZAT_KIND_DIRPATH: return yugerzat_get_dirpath(src, count, at, &v->dirpath, reading);
    case YUGERZAT_KIND_MOUNTRES3: return yugerzat_get_mountres3(src, count, at, &v->mountres3, reading);
    case YUGERZAT_KIND_EXPORTS: return yugerzat_get_exports(src, count, at, &v->exports, reading);
    default: return yugerzat_get_mapping(src, count, at, &v->mapping, reading);
    }
}

static enum yugerzat_answer put(enum yugerzat_kind kind, const union value *v, uint8_t *to, size_t room, size_t start,
    struct yugerzat_writing *writing)
{
    switch (kind) {
    case YUGERZAT_KIND_DIRPATH: return yugerzat_put_dirpath(&v->dirpath, to, room, start, writing);
    case YUGERZAT_KIND_MOUNTRES3: return yugerzat_put_mountres3(&v->mountres3, to, room, start, writing);
    case YUGERZAT_KIND_EXPORTS: return yugerzat_put_exports(&v->exports, to, room, start, writing);
    default: return yugerzat_put_mapping(&v->mapping, to, room, start, writing);
    }
}

/* The size of a kind's struct, of which all is 0 where a reading is refused. */
static size_t size_of(enum yugerzat_kind kind)
{
    union value v;
    switch (kind) {
    case YUGERZAT_KIND_DIRPATH: return sizeof v.dirpath;
    case YUGERZAT_KIND_MOUNTRES3: return sizeof v.mountres3;
    case YUGERZAT_KIND_EXPORTS: return sizeof v.exports;
    default: return sizeof v.mapping;
    }
}

/* ---- readings */

/*
 * Reads into a struct. What is told is what judging the kind says. Where it is refused, all of the struct is 0; else it
 * is written as the library rewrites the message.
 */
static enum yugerzat_answer ask(enum yugerzat_kind kind, const uint8_t *src, size_t count, size_t at, union value *v)
{
    static const uint8_t zeros[sizeof(union value)] = {0};
    static uint8_t written[BUFFER];
    struct yugerzat_reading reading;
    struct yugerzat_rewriting rewriting;
    struct yugerzat_writing writing;
    uint64_t judged[3] = {0};
    enum yugerzat_answer answer = yugerzat_judge(kind, src, count, at, judged, 3);
    memset(v, 0xEE, sizeof *v);
    memset(&reading, 0xEE, sizeof reading);
    CHECK(get(kind, src, count, at, v, &reading) == answer && reading_of(&reading, answer, judged));
    if (answer != YUGERZAT_DONE) {
        CHECK(memcmp(v, zeros, size_of(kind)) == 0);
        return answer;
    }
    fresh();
    memset(written, 0xEE, sizeof written);
    CHECK(yugerzat_rewrite_kind(kind, src, count, at, written, BUFFER, &rewriting) == YUGERZAT_DONE);
    CHECK(put(kind, v, out, BUFFER, 0, &writing) == YUGERZAT_DONE);
    CHECK(writing_is(&writing, YUGERZAT_DONE, rewriting.size, 0) && memcmp(out, written, sizeof written) == 0);
    return answer;
}

/* Cut at every place, at every place of it, and where the message or the place is too large; every byte another one. */
static void ask_everywhere(enum yugerzat_kind kind, const struct bytes *b)
{
    static const uint8_t others[] = {0x00, 0x01, 0x02, 0x03, 0x04, 0x08, 0x80, 0xFF};
    struct bytes later = behind_five(b), edited;
    union value v;
    size_t n, k;
    for (n = 0; n < b->count; n++) {
        CHECK(ask(kind, b->at, n, 0, &v) == YUGERZAT_ENDS);
        CHECK(ask(kind, later.at, n + 5, 5, &v) == YUGERZAT_ENDS);
        ask(kind, b->at, b->count, n, &v);
        for (k = 0; k < sizeof others; k++) {
            edited = *b;
            edited.at[n] = others[k];
            ask(kind, edited.at, edited.count, 0, &v);
        }
    }
    CHECK(ask(kind, b->at, b->count, 0, &v) == YUGERZAT_DONE);
    CHECK(ask(kind, later.at, later.count, 5, &v) == YUGERZAT_DONE);
    CHECK(ask(kind, NULL, 0, 0, &v) == YUGERZAT_ENDS);
    CHECK(ask(kind, NULL, 0, 1, &v) == YUGERZAT_PAST_END);
    CHECK(ask(kind, b->at, b->count, b->count + 1, &v) == YUGERZAT_PAST_END);
    CHECK(ask(kind, b->at, b->count, SIZE_MAX, &v) == YUGERZAT_PAST_END);
    memcpy(long_message, b->at, b->count);
    CHECK(ask(kind, long_message, YUGERZAT_LIMIT_BYTES, 0, &v) == YUGERZAT_DONE);
    CHECK(ask(kind, long_message, YUGERZAT_LIMIT_BYTES + 1, 0, &v) == YUGERZAT_TOO_LONG);
    CHECK(ask(kind, long_message, YUGERZAT_LIMIT_BYTES + 1, SIZE_MAX, &v) == YUGERZAT_TOO_LONG);
}

/* Two entries, the first of them with two names. */
#define LIST                                                                                             \
    "00000001 00000005 2F657870 6F000000 00000001 00000002 61620000 00000001 00000005 68656C6C 6F000000" \
    "00000000 00000001 00000001 2F000000 00000000 00000000"

/* Messages that are taken, and the same in published form. */
static const struct {
    enum yugerzat_kind kind;
    const char *message, *clean;
} messages[] = {
    {YUGERZAT_KIND_DIRPATH, "00000005 2F657870 6F000000", "00000005 2F657870 6F000000"},
    {YUGERZAT_KIND_DIRPATH, "00000000", "00000000"},
    {YUGERZAT_KIND_DIRPATH, "00000005 2F657870 6F00FF01", "00000005 2F657870 6F000000"},
    {YUGERZAT_KIND_MOUNTRES3, "00000000 00000002 0A0B0000 00000002 00000001 FFFFFFFF",
        "00000000 00000002 0A0B0000 00000002 00000001 FFFFFFFF"},
    {YUGERZAT_KIND_MOUNTRES3, "00000000 00000002 0A0BEE00 00000000", "00000000 00000002 0A0B0000 00000000"},
    {YUGERZAT_KIND_MOUNTRES3, "0000000D", "0000000D"},
    {YUGERZAT_KIND_EXPORTS, LIST, LIST},
    {YUGERZAT_KIND_EXPORTS, "00000000", "00000000"},
    {YUGERZAT_KIND_EXPORTS,
        "000000FF 00000005 2F657870 6FFFFFFF 80000000 00000002 6162FFFF FFFFFFFF 00000005 68656C6C 6FFFFFFF 00000000"
        "01000000 00000001 2F010203 00000000 00000000",
        LIST},
    {YUGERZAT_KIND_MAPPING, "000186A5 00000003 00000006 00000801", "000186A5 00000003 00000006 00000801"},
};

static void test_messages(void)
{
    size_t i;
    for (i = 0; i < COUNT(messages); i++) {
        enum yugerzat_kind kind = messages[i].kind;
        struct bytes b = hex(messages[i].message), clean = hex(messages[i].clean);
        bool plain = b.count == clean.count && memcmp(b.at, clean.at, b.count) == 0;
        struct yugerzat_reading reading;
        struct yugerzat_writing writing;
        union value v;
        of = messages[i].message;
        CHECK(get(kind, b.at, b.count, 0, &v, &reading) == YUGERZAT_DONE);
        CHECK(reading.plain == plain && reading.next == b.count);
        fresh();
        CHECK(put(kind, &v, out, BUFFER, 3, &writing) == YUGERZAT_DONE);
        CHECK(writing_is(&writing, YUGERZAT_DONE, clean.count + 3, 0) && memcmp(out + 3, clean.at, clean.count) == 0);
        CHECK(out_untouched_before(3) && out_untouched_from(clean.count + 3));
        ask_everywhere(kind, &b);
        of = "";
    }
    for (i = 0; i < COUNT(kinds); i++) {
        struct bytes b = hex(samples[kinds[i]].message);
        of = samples[kinds[i]].name;
        ask_everywhere(kinds[i], &b);
        of = "";
    }
}

/* A piece lies in its message, at a place. */
static bool lies(struct yugerzat_piece piece, const struct bytes *b, size_t place, size_t count)
{
    return piece.bytes == b->at + place && piece.count == count;
}

/* What the members are, of messages whose fields are known. */
static void test_members(void)
{
    struct yugerzat_reading reading;
    struct yugerzat_exportnode node;
    struct yugerzat_piece name;
    union value v;
    struct bytes b = hex("EEEEEEEE 00000005 2F657870 6F0000FF");
    CHECK(yugerzat_get_dirpath(b.at, b.count, 4, &v.dirpath, &reading) == YUGERZAT_DONE && !reading.plain);
    CHECK(lies(v.dirpath, &b, 8, 5));

    b = hex("00000000 00000002 0A0B0000 00000002 00000001 FFFFFFFF");
    CHECK(yugerzat_get_mountres3(b.at, b.count, 0, &v.mountres3, &reading) == YUGERZAT_DONE && reading.plain);
    CHECK(v.mountres3.fhs_status == YUGERZAT_MNT3_OK && lies(v.mountres3.fhandle, &b, 8, 2));
    CHECK(v.mountres3.auth_flavors.bytes == b.at + 16 && v.mountres3.auth_flavors.count == 2);
    CHECK(yugerzat_word_at(&v.mountres3.auth_flavors, 0) == 1 &&
          yugerzat_word_at(&v.mountres3.auth_flavors, 1) == 0xFFFFFFFF);
    b = hex("0000003F 00000002 0A0B0000 00000000");
    CHECK(yugerzat_get_mountres3(b.at, b.count, 0, &v.mountres3, &reading) == YUGERZAT_DONE && reading.next == 4);
    CHECK(v.mountres3.fhs_status == YUGERZAT_MNT3ERR_NAMETOOLONG && !v.mountres3.fhandle.bytes &&
          !v.mountres3.fhandle.count && !v.mountres3.auth_flavors.bytes && !v.mountres3.auth_flavors.count);

    b = hex("000186A5 00000003 00000011 FFFFFFFF");
    CHECK(yugerzat_get_mapping(b.at, b.count, 0, &v.mapping, &reading) == YUGERZAT_DONE && reading.plain);
    CHECK(v.mapping.prog == 100005 && v.mapping.vers == 3 && v.mapping.prot == YUGERZAT_IPPROTO_UDP &&
          v.mapping.port == 0xFFFFFFFF && reading.next == YUGERZAT_MAPPING_BYTES);
    CHECK(YUGERZAT_IPPROTO_TCP == 6 && YUGERZAT_IPPROTO_UDP == 17 && YUGERZAT_MNTPATHLEN == 1024);

    /* a list, walked to its end */
    b = hex("EEEEEEEE" LIST "EEEE");
    CHECK(yugerzat_get_exports(b.at, b.count, 4, &v.exports, &reading) == YUGERZAT_DONE && reading.plain);
    CHECK(v.exports.bytes == b.at + 4 && v.exports.length == 68 && v.exports.count == 2 && reading.next == 72);
    CHECK(yugerzat_take_export(&v.exports, &node) && lies(node.ex_dir, &b, 12, 5));
    CHECK(node.ex_groups.bytes == b.at + 20 && node.ex_groups.length == 32 && node.ex_groups.count == 2);
    CHECK(v.exports.bytes == b.at + 52 && v.exports.length == 20 && v.exports.count == 1);
    CHECK(yugerzat_take_group(&node.ex_groups, &name) && lies(name, &b, 28, 2));
    CHECK(node.ex_groups.bytes == b.at + 32 && node.ex_groups.length == 20 && node.ex_groups.count == 1);
    CHECK(yugerzat_take_group(&node.ex_groups, &name) && lies(name, &b, 40, 5));
    CHECK(node.ex_groups.bytes == b.at + 48 && node.ex_groups.length == 4 && node.ex_groups.count == 0);
    CHECK(!yugerzat_take_group(&node.ex_groups, &name) && !name.bytes && !name.count);
    CHECK(node.ex_groups.bytes == b.at + 48 && node.ex_groups.length == 4 && node.ex_groups.count == 0);
    CHECK(yugerzat_take_export(&v.exports, &node) && lies(node.ex_dir, &b, 60, 1) && node.ex_groups.count == 0);
    CHECK(!yugerzat_take_group(&node.ex_groups, &name));
    CHECK(v.exports.bytes == b.at + 68 && v.exports.length == 4 && v.exports.count == 0);
    CHECK(!yugerzat_take_export(&v.exports, &node) && !node.ex_dir.bytes && !node.ex_groups.bytes);
    CHECK(v.exports.bytes == b.at + 68 && v.exports.length == 4 && v.exports.count == 0);
}

/* ---- statuses */

/* RFC 1813, section 5.1.5, and the names in the same order. */
static const uint32_t statuses[] = {0, 1, 2, 5, 13, 20, 22, 63, 10004, 10006};

static const enum yugerzat_mountstat3 status_names[] = {YUGERZAT_MNT3_OK, YUGERZAT_MNT3ERR_PERM, YUGERZAT_MNT3ERR_NOENT,
    YUGERZAT_MNT3ERR_IO, YUGERZAT_MNT3ERR_ACCES, YUGERZAT_MNT3ERR_NOTDIR, YUGERZAT_MNT3ERR_INVAL,
    YUGERZAT_MNT3ERR_NAMETOOLONG, YUGERZAT_MNT3ERR_NOTSUPP, YUGERZAT_MNT3ERR_SERVERFAULT};

static bool is_status(uint32_t number)
{
    size_t i;
    for (i = 0; i < COUNT(statuses); i++)
        if (statuses[i] == number)
            return true;
    return false;
}

/* A result of a status: a failure has nothing behind it, and what stands in the struct beside it is not looked at. */
static void test_status(uint32_t number)
{
    struct bytes handle = hex("0A0B0C"), flavors = hex("00000006 00000001"), b;
    struct yugerzat_mountres3 value, back;
    struct yugerzat_reading reading;
    struct yugerzat_writing writing;
    size_t room;
    char text[100];
    snprintf(text, sizeof text, "%08lX%s", (unsigned long)number,
        number ? "" : " 00000003 0A0B0C00 00000002 00000006 00000001");
    of = text;
    b = hex(text);
    value.fhs_status = (enum yugerzat_mountstat3)number;
    value.fhandle.bytes = handle.at;
    value.fhandle.count = handle.count;
    value.auth_flavors.bytes = flavors.at;
    value.auth_flavors.count = 2;
    if (number) {
        memset(&value.fhandle, 0xEE, sizeof value.fhandle);
        memset(&value.auth_flavors, 0xEE, sizeof value.auth_flavors);
    }
    fresh();
    if (!is_status(number)) {
        /* before all else */
        for (room = 0; room < 8; room++) {
            CHECK(yugerzat_put_mountres3(&value, out, room, room % 2 ? room + 1 : 0, &writing) == YUGERZAT_WIDE_NUMBER);
            CHECK(writing_is(&writing, YUGERZAT_WIDE_NUMBER, 0, 0) && out_untouched_from(0));
        }
        CHECK(yugerzat_get_mountres3(b.at, b.count, 0, &back, &reading) == YUGERZAT_UNDECLARED);
        CHECK(refusal_is(&reading.refusal, YUGERZAT_UNDECLARED, 0, 0, 0));
        of = "";
        return;
    }
    CHECK(yugerzat_put_mountres3(&value, out, BUFFER, 1, &writing) == YUGERZAT_DONE);
    CHECK(writing_is(&writing, YUGERZAT_DONE, b.count + 1, 0) && memcmp(out + 1, b.at, b.count) == 0);
    CHECK(out_untouched_before(1) && out_untouched_from(b.count + 1));
    CHECK(yugerzat_get_mountres3(b.at, b.count, 0, &back, &reading) == YUGERZAT_DONE && reading.plain);
    CHECK(reading.next == b.count && (uint32_t)back.fhs_status == number);
    CHECK(back.fhandle.count == (number ? 0u : 3u) && back.auth_flavors.count == (number ? 0u : 2u));
    ask_everywhere(YUGERZAT_KIND_MOUNTRES3, &b);
    of = "";
}

static void test_statuses(void)
{
    static const uint32_t far[] = {
        10000, 10001, 10003, 10005, 10007, 10008, 0x7FFFFFFF, 0x80000000, 0xFFFFFFFF, 0x01000000, 0x00010000};
    uint32_t number;
    size_t i;
    CHECK(COUNT(statuses) == 10 && COUNT(status_names) == 10);
    for (i = 0; i < COUNT(statuses); i++) {
        CHECK((uint32_t)status_names[i] == statuses[i]);
        test_status(statuses[i]);
    }
    for (number = 0; number < 100; number++)
        if (!is_status(number))
            test_status(number);
    for (i = 0; i < COUNT(far); i++)
        test_status(far[i]);
}

/* ---- any values, written and read back */

static struct yugerzat_piece any_piece(size_t most)
{
    static uint8_t source[2048];
    struct yugerzat_piece piece;
    size_t i;
    for (i = 0; i < 4; i++)
        source[any_number() % sizeof source] = (uint8_t)any_number();
    piece.bytes = source + any_number() % (sizeof source - most);
    piece.count = any_number() % (most + 1);
    return piece;
}

static bool same_piece(struct yugerzat_piece one, struct yugerzat_piece other)
{
    return one.count == other.count && (one.count == 0 || memcmp(one.bytes, other.bytes, one.count) == 0);
}

/* What is laid by hand. If `odd` says so, true flags are other numbers at times, and padding is not zero: `loose`. */
static uint8_t laid[BUFFER];
static size_t laid_count;
static bool odd, loose;

static void lay_word(uint32_t word)
{
    yugerzat_set_word(laid + laid_count, 0, word);
    laid_count += 4;
}

static void lay_flag(bool flag)
{
    bool other = flag && odd && any_number() % 2;
    loose = loose || other;
    lay_word(other ? 2 + (uint32_t)any_number() % 0xFFFFFFF0 : flag);
}

static void lay_opaque(struct yugerzat_piece piece)
{
    size_t i;
    lay_word((uint32_t)piece.count);
    for (i = 0; i < piece.count; i++)
        laid[laid_count++] = piece.bytes[i];
    for (; i % 4; i++) {
        uint8_t pad = odd ? (uint8_t)(any_number() % 3) : 0;
        loose = loose || pad;
        laid[laid_count++] = pad;
    }
}

#define MOST_ENTRIES 5
#define MOST_NAMES 4

static void lay_entries(const struct yugerzat_export_entry *entries, size_t count, bool be_odd)
{
    size_t i, k;
    laid_count = 0;
    loose = false;
    odd = be_odd;
    for (i = 0; i < count; i++) {
        lay_flag(true);
        lay_opaque(entries[i].ex_dir);
        for (k = 0; k < entries[i].ex_groups_count; k++) {
            lay_flag(true);
            lay_opaque(entries[i].ex_groups[k]);
        }
        lay_flag(false);
    }
    lay_flag(false);
}

/* Whether a list has just these entries. */
static bool has_entries(struct yugerzat_exports left, const struct yugerzat_export_entry *entries, size_t count)
{
    struct yugerzat_exportnode node;
    struct yugerzat_piece name;
    size_t i, k;
    for (i = 0; yugerzat_take_export(&left, &node); i++) {
        if (i == count || !same_piece(node.ex_dir, entries[i].ex_dir) || left.count != count - i - 1 ||
            node.ex_groups.count != entries[i].ex_groups_count)
            return false;
        for (k = 0; yugerzat_take_group(&node.ex_groups, &name); k++)
            if (k == entries[i].ex_groups_count || !same_piece(name, entries[i].ex_groups[k]))
                return false;
        if (k != entries[i].ex_groups_count || node.ex_groups.length != 4)
            return false;
    }
    return i == count && left.length == 4;
}

static bool compared(const struct yugerzat_exports *one, const struct yugerzat_exports *other, bool due)
{
    bool same = !due, back = !due;
    return yugerzat_compare_exports(one, other, &same) == YUGERZAT_DONE && same == due &&
           yugerzat_compare_exports(other, one, &back) == YUGERZAT_DONE && back == due;
}

/* Entries are written as the RFC lays them out, and read back; and so they are from bytes that are odd. */
static void any_list(void)
{
    static uint8_t clean[BUFFER];
    struct yugerzat_piece names[MOST_ENTRIES][MOST_NAMES];
    struct yugerzat_export_entry entries[MOST_ENTRIES];
    struct yugerzat_exports list, other;
    struct yugerzat_reading reading;
    struct yugerzat_writing writing;
    size_t count = any_number() % (MOST_ENTRIES + 1), start = any_number() % 9, clean_count, i, k;
    for (i = 0; i < MOST_ENTRIES; i++) {
        entries[i].ex_dir = any_piece(30);
        entries[i].ex_groups_count = any_number() % (MOST_NAMES + 1);
        for (k = 0; k < MOST_NAMES; k++)
            names[i][k] = any_piece(20);
        entries[i].ex_groups = entries[i].ex_groups_count ? names[i] : NULL;
    }
    lay_entries(entries, count, false);
    clean_count = laid_count;
    memcpy(clean, laid, laid_count);
    fresh();
    CHECK(yugerzat_put_export_entries(count ? entries : NULL, count, out, BUFFER, start, &writing) == YUGERZAT_DONE);
    CHECK(writing_is(&writing, YUGERZAT_DONE, start + clean_count, 0) && memcmp(out + start, clean, clean_count) == 0);
    CHECK(out_untouched_before(start) && out_untouched_from(start + clean_count));
    CHECK(yugerzat_get_exports(clean, clean_count, 0, &list, &reading) == YUGERZAT_DONE && reading.plain);
    CHECK(reading.next == clean_count && list.count == count && list.length == clean_count && list.bytes == clean);
    CHECK(has_entries(list, entries, count));

    lay_entries(entries, count, true);
    CHECK(yugerzat_get_exports(laid, laid_count, 0, &other, &reading) == YUGERZAT_DONE && reading.plain == !loose);
    CHECK(other.count == count && other.length == laid_count && has_entries(other, entries, count));
    CHECK(compared(&list, &other, true));
    fresh();
    CHECK(yugerzat_put_exports(&other, out, BUFFER, start, &writing) == YUGERZAT_DONE);
    CHECK(writing_is(&writing, YUGERZAT_DONE, start + clean_count, 0) && memcmp(out + start, clean, clean_count) == 0);
    CHECK(out_untouched_before(start) && out_untouched_from(start + clean_count));

    /* one entry less, and one that is another */
    if (count > 0) {
        lay_entries(entries, count - 1, true);
        CHECK(yugerzat_get_exports(laid, laid_count, 0, &other, &reading) == YUGERZAT_DONE);
        CHECK(compared(&list, &other, false) && !has_entries(other, entries, count));
        i = any_number() % count;
        entries[i].ex_dir.count++;
        lay_entries(entries, count, true);
        CHECK(yugerzat_get_exports(laid, laid_count, 0, &other, &reading) == YUGERZAT_DONE);
        CHECK(compared(&list, &other, false) && has_entries(other, entries, count));
    }
}

static void any_result(void)
{
    struct yugerzat_mountres3 value, back;
    struct yugerzat_reading reading;
    struct yugerzat_writing writing;
    size_t i, start = any_number() % 9;
    value.fhs_status = YUGERZAT_MNT3_OK;
    value.fhandle = any_piece(70);
    value.auth_flavors.count = any_number() % 9;
    value.auth_flavors.bytes = any_piece(40).bytes;
    laid_count = 0;
    loose = false;
    odd = true;
    lay_word(0);
    lay_opaque(value.fhandle);
    lay_word((uint32_t)value.auth_flavors.count);
    for (i = 0; i < value.auth_flavors.count; i++)
        lay_word(yugerzat_word_at(&value.auth_flavors, i));
    CHECK(yugerzat_get_mountres3(laid, laid_count, 0, &back, &reading) == YUGERZAT_DONE && reading.plain == !loose);
    CHECK(reading.next == laid_count && back.fhs_status == YUGERZAT_MNT3_OK && same_piece(back.fhandle, value.fhandle));
    CHECK(back.auth_flavors.count == value.auth_flavors.count);
    for (i = 0; i < back.auth_flavors.count; i++)
        CHECK(yugerzat_word_at(&back.auth_flavors, i) == yugerzat_word_at(&value.auth_flavors, i));
    fresh();
    CHECK(yugerzat_put_mountres3(&value, out, BUFFER, start, &writing) == YUGERZAT_DONE);
    CHECK(writing_is(&writing, YUGERZAT_DONE, start + laid_count, 0));
    CHECK(out_untouched_before(start) && out_untouched_from(start + laid_count));
    /* all but the padding is as it was laid */
    for (i = 0; i < (4 - value.fhandle.count % 4) % 4; i++)
        laid[8 + value.fhandle.count + i] = 0;
    CHECK(memcmp(out + start, laid, laid_count) == 0);
}

static void any_mapping(void)
{
    struct yugerzat_mapping value, back;
    struct yugerzat_reading reading;
    struct yugerzat_writing writing;
    value.prog = (uint32_t)any_number();
    value.vers = (uint32_t)any_number();
    value.prot = (uint32_t)any_number();
    value.port = (uint32_t)any_number();
    laid_count = 0;
    lay_word(value.prog);
    lay_word(value.vers);
    lay_word(value.prot);
    lay_word(value.port);
    fresh();
    CHECK(yugerzat_put_mapping(&value, out, 23, 7, &writing) == YUGERZAT_DONE && memcmp(out + 7, laid, 16) == 0);
    CHECK(writing_is(&writing, YUGERZAT_DONE, 23, 0) && out_untouched_before(7) && out_untouched_from(23));
    CHECK(yugerzat_get_mapping(laid, 16, 0, &back, &reading) == YUGERZAT_DONE && reading.plain && reading.next == 16);
    CHECK(memcmp(&value, &back, sizeof value) == 0);
}

static void test_any_values(void)
{
    int n;
    for (n = 0; n < 2000; n++) {
        any_list();
        any_result();
        any_mapping();
    }
}

/* ---- refusals of a writing, in their order */

static bool put_refused(
    enum yugerzat_kind kind, const union value *v, size_t room, size_t start, enum yugerzat_answer due, size_t needed)
{
    struct yugerzat_writing writing;
    fresh();
    memset(&writing, 0xEE, sizeof writing);
    return put(kind, v, room ? out : NULL, room, start, &writing) == due && writing_is(&writing, due, 0, needed) &&
           out_untouched_from(0);
}

/* Every room that is too small; starts that are past the end. */
static void test_rooms(void)
{
    size_t i, room;
    for (i = 0; i < COUNT(messages); i++) {
        enum yugerzat_kind kind = messages[i].kind;
        struct bytes b = hex(messages[i].message);
        struct yugerzat_reading reading;
        struct yugerzat_writing writing;
        union value v;
        of = messages[i].message;
        CHECK(get(kind, b.at, b.count, 0, &v, &reading) == YUGERZAT_DONE);
        for (room = 0; room < b.count; room++) {
            CHECK(put_refused(kind, &v, room, 0, YUGERZAT_NO_ROOM, b.count));
            CHECK(put_refused(kind, &v, room + 7, 7, YUGERZAT_NO_ROOM, b.count));
            CHECK(put_refused(kind, &v, room, room + 1, YUGERZAT_PAST_END, 0));
        }
        CHECK(put_refused(kind, &v, 20, 20, YUGERZAT_NO_ROOM, b.count));
        CHECK(put_refused(kind, &v, BUFFER, SIZE_MAX, YUGERZAT_PAST_END, 0));
        fresh();
        CHECK(put(kind, &v, out, b.count + 7, 7, &writing) == YUGERZAT_DONE);
        CHECK(writing_is(&writing, YUGERZAT_DONE, b.count + 7, 0));
        CHECK(out_untouched_before(7) && out_untouched_from(b.count + 7));
        of = "";
    }
}

/* Pieces that are too long, and what is as long as may be. */
static void test_put_limits(void)
{
    static const size_t far[] = {YUGERZAT_LIMIT_BYTES, YUGERZAT_LIMIT_BYTES + 1, SIZE_MAX / 4, SIZE_MAX - 3, SIZE_MAX};
    struct yugerzat_writing writing;
    union value v;
    size_t i;
    memset(&v, 0, sizeof v);
    v.mountres3.fhandle.bytes = long_message;
    for (i = 0; i < COUNT(far); i++) {
        v.mountres3.fhandle.count = far[i];
        CHECK(put_refused(YUGERZAT_KIND_MOUNTRES3, &v, BUFFER, 0, YUGERZAT_TOO_LONG, 0));
        CHECK(put_refused(YUGERZAT_KIND_MOUNTRES3, &v, 0, 0, YUGERZAT_TOO_LONG, 0));
        CHECK(put_refused(YUGERZAT_KIND_MOUNTRES3, &v, 20, 21, YUGERZAT_PAST_END, 0));
    }
    v.mountres3.fhandle.count = YUGERZAT_LIMIT_BYTES - 12;
    CHECK(put_refused(YUGERZAT_KIND_MOUNTRES3, &v, BUFFER, 0, YUGERZAT_NO_ROOM, YUGERZAT_LIMIT_BYTES));
    memset(long_out, 0xEE, sizeof long_out);
    CHECK(yugerzat_put_mountres3(&v.mountres3, long_out, sizeof long_out, 1, &writing) == YUGERZAT_DONE);
    CHECK(writing_is(&writing, YUGERZAT_DONE, YUGERZAT_LIMIT_BYTES + 1, 0));
    CHECK(long_out[0] == 0xEE && long_out[YUGERZAT_LIMIT_BYTES + 1] == 0xEE);
    v.mountres3.fhandle.count++;
    memset(long_out, 0xEE, sizeof long_out);
    CHECK(yugerzat_put_mountres3(&v.mountres3, long_out, sizeof long_out, 1, &writing) == YUGERZAT_TOO_LONG);
    CHECK(writing_is(&writing, YUGERZAT_TOO_LONG, 0, 0) && long_out_untouched());

    v.mountres3.fhandle.count = 0;
    v.mountres3.auth_flavors.bytes = long_message;
    for (i = 0; i < COUNT(far); i++) {
        v.mountres3.auth_flavors.count = i ? far[i] : YUGERZAT_LIMIT_BYTES / 4 - 2;
        CHECK(put_refused(YUGERZAT_KIND_MOUNTRES3, &v, BUFFER, 0, YUGERZAT_TOO_LONG, 0));
        CHECK(put_refused(YUGERZAT_KIND_MOUNTRES3, &v, 20, 21, YUGERZAT_PAST_END, 0));
    }
    v.mountres3.auth_flavors.count = YUGERZAT_LIMIT_BYTES / 4 - 3;
    CHECK(put_refused(YUGERZAT_KIND_MOUNTRES3, &v, BUFFER, 0, YUGERZAT_NO_ROOM, YUGERZAT_LIMIT_BYTES));
    CHECK(yugerzat_put_mountres3(&v.mountres3, long_out, sizeof long_out, 0, &writing) == YUGERZAT_DONE);
    CHECK(writing_is(&writing, YUGERZAT_DONE, YUGERZAT_LIMIT_BYTES, 0));

    /* a path: as a source, and then by its bound */
    memset(&v, 0, sizeof v);
    v.dirpath.bytes = long_message;
    v.dirpath.count = YUGERZAT_MNTPATHLEN;
    CHECK(put_refused(YUGERZAT_KIND_DIRPATH, &v, 1027, 0, YUGERZAT_NO_ROOM, 1028));
    fresh();
    CHECK(yugerzat_put_dirpath(&v.dirpath, out, BUFFER, 5, &writing) == YUGERZAT_DONE && writing.after == 1033);
    for (i = 1; i <= 5; i++) {
        v.dirpath.count = i < 5 ? YUGERZAT_MNTPATHLEN + i : YUGERZAT_LIMIT_BYTES;
        CHECK(put_refused(YUGERZAT_KIND_DIRPATH, &v, BUFFER, 0, YUGERZAT_LONG_PATH, 0));
        CHECK(put_refused(YUGERZAT_KIND_DIRPATH, &v, 0, 0, YUGERZAT_LONG_PATH, 0));
        CHECK(put_refused(YUGERZAT_KIND_DIRPATH, &v, 0, 1, YUGERZAT_PAST_END, 0));
    }
    v.dirpath.count = YUGERZAT_LIMIT_BYTES + 1;
    CHECK(put_refused(YUGERZAT_KIND_DIRPATH, &v, BUFFER, 0, YUGERZAT_TOO_LONG, 0));
    CHECK(put_refused(YUGERZAT_KIND_DIRPATH, &v, 0, 1, YUGERZAT_PAST_END, 0));
}

/* ---- paths that are too long, in lists that are made and read */

static bool entries_refused(const struct yugerzat_export_entry *entries, size_t count, size_t room, size_t start,
    enum yugerzat_answer due, size_t needed)
{
    struct yugerzat_writing writing;
    fresh();
    memset(&writing, 0xEE, sizeof writing);
    return yugerzat_put_export_entries(entries, count, room ? out : NULL, room, start, &writing) == due &&
           writing_is(&writing, due, 0, needed) && out_untouched_from(0);
}

static void test_long_paths(void)
{
    struct yugerzat_piece names[2];
    struct yugerzat_export_entry entries[2];
    struct yugerzat_writing writing;
    struct yugerzat_reading reading;
    struct yugerzat_exports list, same_list;
    union value v;
    const uint8_t *bytes;
    size_t count, room;
    bool same = true;
    memset(names, 0, sizeof names);
    memset(entries, 0, sizeof entries);
    memset(long_message, 'p', sizeof long_message);
    names[1].bytes = entries[1].ex_dir.bytes = long_message;
    names[1].count = 2000;
    entries[1].ex_dir.count = YUGERZAT_MNTPATHLEN;
    entries[1].ex_groups = names;
    entries[1].ex_groups_count = 2;
    /* 12 bytes, and 4 + 1028 + 8 + 2008 + 4, and 4 */
    for (room = 0; room < 3068; room += 13)
        CHECK(entries_refused(entries, 2, room, room / 2, YUGERZAT_NO_ROOM, 3068));
    fresh();
    CHECK(yugerzat_put_export_entries(entries, 2, out, BUFFER, 0, &writing) == YUGERZAT_DONE && writing.after == 3068);
    CHECK(out_untouched_from(3068) && yugerzat_get_exports(out, 3068, 0, &list, &reading) == YUGERZAT_DONE);
    CHECK(reading.plain && has_entries(list, entries, 2));

    /* a byte more: before what would be written, after what is too long by itself */
    entries[1].ex_dir.count++;
    CHECK(entries_refused(entries, 2, BUFFER, 0, YUGERZAT_LONG_PATH, 0));
    CHECK(entries_refused(entries, 2, 0, 0, YUGERZAT_LONG_PATH, 0));
    CHECK(entries_refused(entries, 2, 9, 10, YUGERZAT_PAST_END, 0));
    names[0].bytes = long_message;
    names[0].count = YUGERZAT_LIMIT_BYTES;
    CHECK(entries_refused(entries, 2, BUFFER, 0, YUGERZAT_LONG_PATH, 0));
    names[0].count++;
    CHECK(entries_refused(entries, 2, BUFFER, 0, YUGERZAT_TOO_LONG, 0));
    CHECK(entries_refused(entries, 2, 9, 10, YUGERZAT_PAST_END, 0));
    entries[1].ex_dir.count--;
    CHECK(entries_refused(entries, 2, BUFFER, 0, YUGERZAT_TOO_LONG, 0));
    names[0].count = YUGERZAT_LIMIT_BYTES;
    CHECK(entries_refused(entries, 2, BUFFER, 0, YUGERZAT_TOO_LONG, 0));
    names[0].count = YUGERZAT_LIMIT_BYTES - 3068;
    CHECK(entries_refused(entries, 2, BUFFER, 0, YUGERZAT_NO_ROOM, YUGERZAT_LIMIT_BYTES));
    CHECK(yugerzat_put_export_entries(entries, 2, long_out, YUGERZAT_LIMIT_BYTES, 0, &writing) == YUGERZAT_DONE);
    CHECK(writing_is(&writing, YUGERZAT_DONE, YUGERZAT_LIMIT_BYTES, 0));
    names[0].count++;
    CHECK(entries_refused(entries, 2, BUFFER, 0, YUGERZAT_TOO_LONG, 0));
    entries[1].ex_dir.count = SIZE_MAX;
    CHECK(entries_refused(entries, 2, BUFFER, 0, YUGERZAT_TOO_LONG, 0));

    /* read: the place is that of the length word; a list that was not read is none */
    bytes = around_path("EEEEEEEE", 1024, "", &count);
    CHECK(ask(YUGERZAT_KIND_DIRPATH, bytes, count, 4, &v) == YUGERZAT_DONE && v.dirpath.count == 1024);
    bytes = around_path("EEEEEEEE", 1025, "", &count);
    CHECK(ask(YUGERZAT_KIND_DIRPATH, bytes, count, 4, &v) == YUGERZAT_LONG_PATH);
    CHECK(yugerzat_get_dirpath(bytes, count, 4, &v.dirpath, &reading) == YUGERZAT_LONG_PATH);
    CHECK(refusal_is(&reading.refusal, YUGERZAT_LONG_PATH, 4, 0, 0));
    bytes = around_path("00000001 00000000 00000000 00000001", 1025, "00000000 00000000", &count);
    CHECK(ask(YUGERZAT_KIND_EXPORTS, bytes, count, 0, &v) == YUGERZAT_LONG_PATH);
    CHECK(yugerzat_get_exports(bytes, count, 0, &list, &reading) == YUGERZAT_LONG_PATH);
    CHECK(refusal_is(&reading.refusal, YUGERZAT_LONG_PATH, 16, 0, 0) && !list.bytes && !list.length && !list.count);
    CHECK(ask(YUGERZAT_KIND_EXPORTS, bytes, count - 1, 0, &v) == YUGERZAT_ENDS);

    /* lists that nobody read: walking ends, writing and comparing are refused */
    list.bytes = bytes;
    list.length = count;
    list.count = 2;
    v.exports = list;
    CHECK(put_refused(YUGERZAT_KIND_EXPORTS, &v, BUFFER, 0, YUGERZAT_LONG_PATH, 0));
    CHECK(yugerzat_compare_exports(&list, &list, &same) == YUGERZAT_LONG_PATH && !same);
    {
        struct yugerzat_exportnode node;
        CHECK(yugerzat_take_export(&list, &node) && list.count == 1);
        CHECK(!yugerzat_take_export(&list, &node) && list.count == 1 && !node.ex_dir.bytes);
    }
    v.exports.count = 3;
    CHECK(put_refused(YUGERZAT_KIND_EXPORTS, &v, BUFFER, 0, YUGERZAT_OUTSIDE, 0));
    v.exports.count = 2;
    v.exports.length = count - 1;
    CHECK(put_refused(YUGERZAT_KIND_EXPORTS, &v, BUFFER, 0, YUGERZAT_OUTSIDE, 0));
    v.exports.length = YUGERZAT_LIMIT_BYTES + 1;
    v.exports.bytes = long_message;
    CHECK(put_refused(YUGERZAT_KIND_EXPORTS, &v, BUFFER, 0, YUGERZAT_TOO_LONG, 0));
    CHECK(put_refused(YUGERZAT_KIND_EXPORTS, &v, 3, 4, YUGERZAT_PAST_END, 0));
    memset(&v, 0, sizeof v);
    CHECK(put_refused(YUGERZAT_KIND_EXPORTS, &v, BUFFER, 0, YUGERZAT_OUTSIDE, 0));
    same = true;
    same_list.bytes = bytes + count - 4;
    same_list.length = 4;
    same_list.count = 0;
    CHECK(yugerzat_compare_exports(&v.exports, &same_list, &same) == YUGERZAT_OUTSIDE && !same);
    same = true;
    CHECK(yugerzat_compare_exports(&same_list, &v.exports, &same) == YUGERZAT_OUTSIDE && !same);
    CHECK(yugerzat_compare_exports(&same_list, &same_list, &same) == YUGERZAT_DONE && same);
    /* a count that is larger than the list is long */
    same_list.count = 7;
    {
        struct yugerzat_exportnode node;
        struct yugerzat_groups groups;
        struct yugerzat_piece name;
        CHECK(!yugerzat_take_export(&same_list, &node) && same_list.count == 7);
        groups.bytes = same_list.bytes;
        groups.length = same_list.length;
        groups.count = 7;
        CHECK(!yugerzat_take_group(&groups, &name) && groups.count == 7);
        groups.length = 3;
        CHECK(!yugerzat_take_group(&groups, &name) && groups.count == 7 && !name.bytes);
        /* .. and one that is less */
        same_list.bytes = groups.bytes = bytes;
        same_list.length = groups.length = count;
        same_list.count = groups.count = 0;
        CHECK(!yugerzat_take_export(&same_list, &node) && same_list.bytes == bytes && same_list.count == 0);
        CHECK(!yugerzat_take_group(&groups, &name) && groups.bytes == bytes && groups.count == 0);
    }
}

/* ---- what is asked */

/* The members as numbers: pieces by their place, or 0 where there is none, and their count. */
struct flat {
    uint64_t at[24];
};

static uint64_t place_of(const uint8_t *bytes, const uint8_t *message)
{
    return bytes ? (uint64_t)(bytes - message) : 0;
}

static struct flat flat_of(const struct yugerzat_asked *asked, const uint8_t *message)
{
    const uint64_t all[] = {asked->xid, asked->has_auth_unix, asked->auth_unix.stamp,
        place_of(asked->auth_unix.machinename.bytes, message), asked->auth_unix.machinename.count, asked->auth_unix.uid,
        asked->auth_unix.gid, place_of(asked->auth_unix.gids.bytes, message), asked->auth_unix.gids.count,
        place_of(asked->path.bytes, message), asked->path.count, asked->mapping.prog, asked->mapping.vers,
        asked->mapping.prot, asked->mapping.port, asked->next, asked->prog, asked->vers, asked->proc, asked->arguments,
        asked->reply_length};
    struct flat f;
    memset(&f, 0, sizeof f);
    memcpy(f.at, all, sizeof all);
    return f;
}

/* What they have to be, by the figures of the library's own function. */
static struct flat due_of(enum yugerzat_answer answer, uint32_t xid, const uint64_t *figures)
{
    struct flat f;
    memset(&f, 0, sizeof f);
    switch (answer) {
    case YUGERZAT_MNT:
    case YUGERZAT_UMNT: memcpy(f.at + 9, figures, 2 * sizeof *figures); break;
    case YUGERZAT_EXPORT: break;
    case YUGERZAT_GETPORT: memcpy(f.at + 11, figures, 4 * sizeof *figures); break;
    case YUGERZAT_HAND_OVER: memcpy(f.at + 16, figures, 4 * sizeof *figures); break;
    case YUGERZAT_REPLY: f.at[20] = figures[0]; return f;
    default: return f;
    }
    f.at[0] = xid;
    f.at[15] = figures[4];
    memcpy(f.at + 1, figures + 5, 8 * sizeof *figures);
    return f;
}

static enum yugerzat_answer ask_both(const uint8_t *message, size_t count, bool seen, size_t room)
{
    static uint8_t written[BUFFER];
    struct yugerzat_asked asked;
    struct flat told, due;
    enum yugerzat_answer answer;
    bool call;
    fresh();
    memset(&asked, 0xEE, sizeof asked);
    memset(written, 0xEE, sizeof written);
    answer = yugerzat_ask(message, count, seen ? 0xFFFFFFFF : 0, out, room, info, FIGURES);
    CHECK(yugerzat_ask_program(message, count, seen, written, room, &asked) == answer);
    CHECK(memcmp(written, out, sizeof written) == 0);
    told = flat_of(&asked, message);
    due = due_of(answer, 42, info);
    CHECK(memcmp(&told, &due, sizeof told) == 0);
    call = answer == YUGERZAT_MNT || answer == YUGERZAT_UMNT || answer == YUGERZAT_EXPORT ||
           answer == YUGERZAT_GETPORT || answer == YUGERZAT_HAND_OVER;
    CHECK((asked.path.bytes != NULL) == (answer == YUGERZAT_MNT || answer == YUGERZAT_UMNT));
    CHECK(!asked.has_auth_unix || call);
    CHECK((asked.auth_unix.machinename.bytes != NULL) == asked.has_auth_unix &&
          (asked.auth_unix.gids.bytes != NULL) == asked.has_auth_unix);
    if (answer == YUGERZAT_NO_ROOM)
        CHECK(refusal_is(&asked.refusal, answer, YUGERZAT_NO_PLACE, 0, YUGERZAT_LONGEST_REPLY_BYTES));
    else
        CHECK(refusal_of(&asked.refusal, answer, info));
    return answer;
}

#define NULL_AUTH "00000000 00000000 00000000 00000000"
#define UNIX_AUTH                                                                                        \
    "00000001 00000020 00000001 00000003 61626300 00000002 00000003 00000002 00000004 00000005 00000000" \
    "00000000"
#define CALL "0000002A 00000000 00000002 "
#define MOUNT CALL "000186A5 00000003 "
#define PORTMAP CALL "000186A0 00000002 "

static void test_asked(void)
{
    static const struct {
        const char *message;
        enum yugerzat_answer answer;
        size_t reply; /* how many bytes it has */
    } cases[] = {
        {MOUNT "00000001" NULL_AUTH "00000005 2F657870 6F0000FF 11223344", YUGERZAT_MNT, 0},
        {MOUNT "00000001" UNIX_AUTH "00000005 2F657870 6F000000", YUGERZAT_MNT, 0},
        {MOUNT "00000001" UNIX_AUTH "00000000", YUGERZAT_MNT, 0},
        {MOUNT "00000003" NULL_AUTH "00000005 2F657870 6F000000", YUGERZAT_UMNT, 0},
        {MOUNT "00000003" UNIX_AUTH "00000005 2F657870 6F000000", YUGERZAT_UMNT, 0},
        {MOUNT "00000005" NULL_AUTH, YUGERZAT_EXPORT, 0},
        {MOUNT "00000005" UNIX_AUTH "11223344", YUGERZAT_EXPORT, 0},
        {PORTMAP "00000003" NULL_AUTH "000186A3 00000003 00000006 FFFFFFFF", YUGERZAT_GETPORT, 0},
        {PORTMAP "00000003" UNIX_AUTH "000186A3 00000003 00000006 00000000 11", YUGERZAT_GETPORT, 0},
        {CALL "000186A3 00000003 00000006" NULL_AUTH "11223344", YUGERZAT_HAND_OVER, 0},
        {CALL "000186A3 00000004 00000000" UNIX_AUTH, YUGERZAT_HAND_OVER, 0},
        {MOUNT "00000000" NULL_AUTH, YUGERZAT_REPLY, 24},
        {MOUNT "00000002" UNIX_AUTH, YUGERZAT_REPLY, 24},
        {PORTMAP "00000004" NULL_AUTH, YUGERZAT_REPLY, 24},
        {CALL "000186A5 00000001 00000000" NULL_AUTH, YUGERZAT_REPLY, 32},
        {CALL "000186A0 00000004 00000003" UNIX_AUTH, YUGERZAT_REPLY, 32},
        {CALL "00000007 00000003 00000006" NULL_AUTH, YUGERZAT_REPLY, 24},
        {"0000002A 00000002", YUGERZAT_REPLY, 24},
        {"0000002A 00000001 00000000 00000000 00000000 00000000", YUGERZAT_REPLY_CAME, 0},
        {MOUNT "00000001 00000004 00000000 00000000 00000000", YUGERZAT_UNDECLARED, 0},
        {MOUNT "00000001 00000001 00000003 00000000 00000000 00000000", YUGERZAT_ENDS, 0},
    };
    const uint8_t *message;
    struct yugerzat_asked asked;
    size_t i, n, count;
    for (i = 0; i < COUNT(cases); i++) {
        struct bytes b = hex(cases[i].message);
        of = cases[i].message;
        CHECK(ask_both(b.at, b.count, false, BUFFER) == cases[i].answer);
        for (n = 0; n <= 33; n++)
            CHECK(ask_both(b.at, b.count, false, n) == (n < cases[i].reply ? YUGERZAT_NO_ROOM : cases[i].answer));
        ask_both(b.at, b.count, true, BUFFER);
        for (n = 0; n < b.count; n++)
            ask_both(b.at, n, false, BUFFER);
        of = "";
    }
    CHECK(ask_both(NULL, 0, false, 0) == YUGERZAT_ENDS);
    memset(long_message, 0, sizeof long_message);
    CHECK(ask_both(long_message, YUGERZAT_LIMIT_BYTES + 1, false, BUFFER) == YUGERZAT_TOO_LONG);

    /* the xid, and an address for a path that is empty */
    {
        struct bytes b = hex("FEDCBA98 00000000 00000002 000186A5 00000003 00000001" NULL_AUTH "00000000");
        CHECK(yugerzat_ask_program(b.at, b.count, false, out, BUFFER, &asked) == YUGERZAT_MNT);
        CHECK(asked.xid == 0xFEDCBA98 && lies(asked.path, &b, 44, 0) && asked.next == 44);
        CHECK(asked.refusal.answer == YUGERZAT_MNT && asked.refusal.place == YUGERZAT_NO_PLACE);
    }
    /* what the caller is, in words */
    {
        struct bytes b = hex(MOUNT "00000003" UNIX_AUTH "00000005 2F657870 6F000000");
        CHECK(yugerzat_ask_program(b.at, b.count, false, out, BUFFER, &asked) == YUGERZAT_UMNT);
        CHECK(asked.xid == 42 && lies(asked.path, &b, 76, 5) && asked.next == 84 && asked.has_auth_unix);
        CHECK(asked.auth_unix.stamp == 1 && lies(asked.auth_unix.machinename, &b, 40, 3) && asked.auth_unix.uid == 2 &&
              asked.auth_unix.gid == 3 && asked.auth_unix.gids.count == 2);
        CHECK(yugerzat_word_at(&asked.auth_unix.gids, 0) == 4 && yugerzat_word_at(&asked.auth_unix.gids, 1) == 5);
    }
    message = around_path(MOUNT "00000001" NULL_AUTH, 1024, "", &count);
    CHECK(ask_both(message, count, false, 0) == YUGERZAT_MNT);
    message = around_path(MOUNT "00000003" NULL_AUTH, 1025, "", &count);
    CHECK(ask_both(message, count, false, 0) == YUGERZAT_LONG_PATH);
    CHECK(yugerzat_ask_program(message, count, false, out, BUFFER, &asked) == YUGERZAT_LONG_PATH);
    CHECK(refusal_is(&asked.refusal, YUGERZAT_LONG_PATH, 40, 0, 0));
    CHECK(ask_both(message, count - 1, false, 0) == YUGERZAT_ENDS);
}

int main(void)
{
    memset(long_message, 0, sizeof long_message);
    test_messages();
    test_members();
    test_statuses();
    test_any_values();
    test_rooms();
    test_put_limits();
    test_long_paths();
    test_asked();
    return total();
}
