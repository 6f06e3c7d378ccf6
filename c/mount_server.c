/*
 * One box that answers for mounts and ports, in small: `answer` is what stands in a server's loop, message in, reply
 * out. It exports /theatre to two machines, and serves everything on port 2049. A client asks for the port, mounts,
 * lists what is exported, and prints what it hears.
 */
#include <stdio.h>

#include "yugerzat.h"

#define PORT 2049

static struct yugerzat_piece piece(const char *text)
{
    struct yugerzat_piece it;
    it.bytes = (const uint8_t *)text;
    it.count = strlen(text);
    return it;
}

/* ------------------------------------------------------------------ the server */

/* Of a directory that is exported, its handle and the flavor AUTH_UNIX; else that there is none. */
static struct yugerzat_mountres3 mount(struct yugerzat_piece path)
{
    static const uint8_t flavors[4] = {0, 0, 0, YUGERZAT_AUTH_UNIX};
    struct yugerzat_mountres3 result;
    memset(&result, 0, sizeof result);
    result.fhs_status = YUGERZAT_MNT3ERR_NOENT;
    if (path.count == 8 && memcmp(path.bytes, "/theatre", 8) == 0) {
        result.fhs_status = YUGERZAT_MNT3_OK;
        result.fhandle = piece("seat");
        result.auth_flavors.bytes = flavors;
        result.auth_flavors.count = 1;
    }
    return result;
}

static enum yugerzat_answer put_exports(uint8_t *out, size_t room, size_t start, struct yugerzat_writing *writing)
{
    struct yugerzat_piece machines[2];
    struct yugerzat_export_entry theatre;
    machines[0] = piece("stage");
    machines[1] = piece("lobby");
    theatre.ex_dir = piece("/theatre");
    theatre.ex_groups = machines;
    theatre.ex_groups_count = 2;
    return yugerzat_put_export_entries(&theatre, 1, out, room, start, writing);
}

/* Answers a message: the length of the reply in out, or 0 where there is none. */
static size_t answer(const uint8_t *message, size_t length, uint8_t *out, size_t room)
{
    struct yugerzat_asked asked;
    struct yugerzat_mountres3 result;
    struct yugerzat_rpc_msg header;
    struct yugerzat_writing writing;
    enum yugerzat_answer done, what = yugerzat_ask_program(message, length, false, out, room, &asked);
    switch (what) {
    case YUGERZAT_MNT:
    case YUGERZAT_UMNT:
    case YUGERZAT_EXPORT:
    case YUGERZAT_GETPORT: break;
    case YUGERZAT_REPLY: return asked.reply_length;
    default: /* refused; or YUGERZAT_HAND_OVER, which is for NFS, and that is not served here */
        printf("no reply: %s\n", yugerzat_strerror(what));
        return 0;
    }

    /* The results go behind the header of a reply. All zeros are SUCCESS, and no verifier. */
    memset(&header, 0, sizeof header);
    header.xid = asked.xid;
    header.tag = YUGERZAT_TAG_ACCEPTED;
    done = yugerzat_put_rpc_msg(&header, out, room, 0, &writing);
    if (done == YUGERZAT_DONE && what == YUGERZAT_MNT) {
        result = mount(asked.path);
        done = yugerzat_put_mountres3(&result, out, room, writing.after, &writing);
    } else if (done == YUGERZAT_DONE && what == YUGERZAT_EXPORT) {
        done = put_exports(out, room, writing.after, &writing);
    } else if (done == YUGERZAT_DONE && what == YUGERZAT_GETPORT) {
        if (room - writing.after < 4)
            return 0;
        yugerzat_set_word(out + writing.after, 0, asked.mapping.prot == YUGERZAT_IPPROTO_TCP ? PORT : 0);
        writing.after += 4;
    }
    return done == YUGERZAT_DONE ? writing.after : 0;
}

/* ------------------------------------------------------------------ a client */

static uint8_t call[256], reply[256];

/* Begins a call; its arguments go behind it. */
static size_t begin(uint32_t prog, uint32_t vers, uint32_t proc)
{
    struct yugerzat_rpc_msg header;
    struct yugerzat_writing writing;
    memset(&header, 0, sizeof header);
    header.xid = 42;
    header.tag = YUGERZAT_TAG_CALL;
    header.body.call.rpcvers = 2;
    header.body.call.prog = prog;
    header.body.call.vers = vers;
    header.body.call.proc = proc;
    return yugerzat_put_rpc_msg(&header, call, sizeof call, 0, &writing) == YUGERZAT_DONE ? writing.after : 0;
}

/* Has the server answer, and says where the results begin and end. False where there are none. */
static bool results(size_t length, size_t *at, size_t *end)
{
    struct yugerzat_rpc_msg header;
    struct yugerzat_reading reading;
    *end = answer(call, length, reply, sizeof reply);
    if (*end == 0 || yugerzat_get_rpc_msg(reply, *end, 0, &header, &reading) != YUGERZAT_DONE || header.xid != 42)
        return false;
    *at = reading.next;
    if (header.tag == YUGERZAT_TAG_ACCEPTED && header.body.accepted.stat == YUGERZAT_PROG_MISMATCH)
        printf("version %lu is served\n", (unsigned long)header.body.accepted.mismatch.high);
    return header.tag == YUGERZAT_TAG_ACCEPTED && header.body.accepted.stat == YUGERZAT_SUCCESS;
}

static void mount_it(const char *path)
{
    struct yugerzat_piece dirpath = piece(path);
    struct yugerzat_mountres3 result;
    struct yugerzat_reading reading;
    struct yugerzat_writing writing;
    size_t at, end;
    if (yugerzat_put_dirpath(&dirpath, call, sizeof call, begin(100005, 3, 1), &writing) != YUGERZAT_DONE ||
        !results(writing.after, &at, &end) ||
        yugerzat_get_mountres3(reply, end, at, &result, &reading) != YUGERZAT_DONE)
        return;
    if (result.fhs_status == YUGERZAT_MNT3_OK)
        printf("%s: its handle is \"%.*s\"\n", path, (int)result.fhandle.count, (const char *)result.fhandle.bytes);
    else
        printf("%s: status %lu\n", path, (unsigned long)result.fhs_status);
}

int main(void)
{
    struct yugerzat_mapping mapping = {100005, 3, YUGERZAT_IPPROTO_TCP, 0};
    struct yugerzat_exports list;
    struct yugerzat_exportnode node;
    struct yugerzat_piece name;
    struct yugerzat_reading reading;
    struct yugerzat_writing writing;
    size_t at, end;
    if (yugerzat_put_mapping(&mapping, call, sizeof call, begin(100000, 2, 3), &writing) == YUGERZAT_DONE &&
        results(writing.after, &at, &end) && end - at == 4) {
        struct yugerzat_words word = {reply + at, 1};
        printf("mount is on port %lu\n", (unsigned long)yugerzat_word_at(&word, 0));
    }
    mount_it("/theatre");
    mount_it("/vault");
    if (results(begin(100005, 3, 5), &at, &end) &&
        yugerzat_get_exports(reply, end, at, &list, &reading) == YUGERZAT_DONE) {
        while (yugerzat_take_export(&list, &node)) {
            printf("exported: %.*s to", (int)node.ex_dir.count, (const char *)node.ex_dir.bytes);
            while (yugerzat_take_group(&node.ex_groups, &name))
                printf(" %.*s", (int)name.count, (const char *)name.bytes);
            printf("\n");
        }
    }
    /* what the library answers by itself: procedure 0, another version, and a path that ends too soon */
    if (results(begin(100005, 3, 0), &at, &end))
        printf("mount is there\n");
    if (!results(begin(100005, 1, 1), &at, &end) && !results(begin(100005, 3, 3), &at, &end))
        return 0;
    return 1;
}
