/*
 * A relay between an old client and a strict server, in small: a SETATTR call comes in whose size flag is FFFFFFFF, and
 * whose credential has rubbish in the padding behind the machine's name. It is taken as meant, reported as loose (not
 * in published form), and passed on clean. The server's disk fails, and the cause is told from its reply.
 */
#include <stdio.h>

#include "yugerzat.h"

static const uint8_t call[] = {
    0x00, 0x00, 0x00, 0x2A, 0x00, 0x00, 0x00, 0x00, /* xid 42, CALL */
    0x00, 0x00, 0x00, 0x02, 0x00, 0x01, 0x86, 0xA3, /* RPC version 2, program 100003: NFS */
    0x00, 0x00, 0x00, 0x03, 0x00, 0x00, 0x00, 0x02, /* version 3, procedure 2: SETATTR */
    0x00, 0x00, 0x00, 0x01, 0x00, 0x00, 0x00, 0x18, /* the credential: AUTH_UNIX, 24 bytes */
    0x00, 0x00, 0x00, 0x07, 0x00, 0x00, 0x00, 0x03, /* stamp 7; a name of 3 bytes, */
    0x6F, 0x6C, 0x64, 0xFF, 0x00, 0x00, 0x03, 0xE8, /* "old", behind which is rubbish; uid 1000 */
    0x00, 0x00, 0x00, 0x64, 0x00, 0x00, 0x00, 0x00, /* gid 100, no other gids */
    0x00, 0x00, 0x00, 0x00, 0x00, 0x00, 0x00, 0x00, /* no verifier */
    0x00, 0x00, 0x00, 0x04, 0x0A, 0x0B, 0x0C, 0x0D, /* the file's handle */
    0x00, 0x00, 0x00, 0x00, 0x00, 0x00, 0x00, 0x00, /* mode, uid: not set */
    0x00, 0x00, 0x00, 0x00, 0xFF, 0xFF, 0xFF, 0xFF, /* gid: not set; size: set, by an odd flag */
    0x00, 0x00, 0x00, 0x00, 0x00, 0x00, 0x00, 0x00, /* to 0 */
    0x00, 0x00, 0x00, 0x00, 0x00, 0x00, 0x00, 0x00, /* times: not set */
    0x00, 0x00, 0x00, 0x00,                         /* no guard */
};

static const uint8_t reply[] = {
    0x00, 0x00, 0x00, 0x2A, 0x00, 0x00, 0x00, 0x01, /* xid 42, REPLY */
    0x00, 0x00, 0x00, 0x00, 0x00, 0x00, 0x00, 0x00, /* accepted; no verifier */
    0x00, 0x00, 0x00, 0x00, 0x00, 0x00, 0x00, 0x05, /* the accept_stat: SYSTEM_ERR */
};

/* The clean credential, and the clean call. Neither is longer than it came. */
static uint8_t credential[sizeof call];
static uint8_t out[sizeof call];

static int refused(const char *what, const struct yugerzat_refusal *refusal)
{
    fprintf(stderr, "%s: %s", what, yugerzat_strerror(refusal->answer));
    if (refusal->place != YUGERZAT_NO_PLACE)
        fprintf(stderr, ", at place %zu", refusal->place);
    fprintf(stderr, "\n");
    return 1;
}

static const char *form(const struct yugerzat_reading *reading)
{
    return reading->plain ? "plain" : "loose";
}

static void print(const char *title, const uint8_t *bytes, size_t count)
{
    size_t i;
    printf("%s", title);
    for (i = 0; i < count; i++)
        printf("%s%02x", i % 32 ? i % 4 ? "" : " " : "\n    ", bytes[i]);
    printf("\n");
}

int main(void)
{
    struct yugerzat_rpc_msg header;
    struct yugerzat_opaque_auth *cred = &header.body.call.cred;
    struct yugerzat_auth_unix caller;
    struct yugerzat_setattr3args arguments;
    struct yugerzat_reading reading;
    struct yugerzat_writing writing;
    size_t at;

    /* The header. The arguments begin where it ends. */
    if (yugerzat_get_rpc_msg(call, sizeof call, 0, &header, &reading) != YUGERZAT_DONE)
        return refused("header", &reading.refusal);
    if (header.tag != YUGERZAT_TAG_CALL || header.body.call.prog != 100003 || header.body.call.vers != 3 ||
        header.body.call.proc != YUGERZAT_PROCEDURE_SETATTR)
        return 1;
    printf("call %lu: SETATTR, its header is %s\n", (unsigned long)header.xid, form(&reading));
    at = reading.next;

    /* The credential. Its body is opaque in the header, so it is read and cleaned by itself, and put back. */
    if (cred->flavor == YUGERZAT_AUTH_UNIX) {
        if (yugerzat_get_auth_unix(cred->body.bytes, cred->body.count, 0, &caller, &reading) != YUGERZAT_DONE)
            return refused("credential", &reading.refusal);
        printf("by uid %lu on %.*s, the credential is %s\n", (unsigned long)caller.uid, (int)caller.machinename.count,
            (const char *)caller.machinename.bytes, form(&reading));
        if (yugerzat_put_auth_unix(&caller, credential, sizeof credential, 0, &writing) != YUGERZAT_DONE)
            return refused("credential, written", &writing.refusal);
        cred->body.bytes = credential;
        cred->body.count = writing.after;
    }

    /* The arguments. */
    if (yugerzat_get_setattr3args(call, sizeof call, at, &arguments, &reading) != YUGERZAT_DONE)
        return refused("arguments", &reading.refusal);
    if (arguments.new_attributes.set_size)
        printf("set the size to %llu, ", (unsigned long long)arguments.new_attributes.size);
    printf("the arguments are %s\n", form(&reading));

    /* The call as it leaves: the header, and the arguments behind it. */
    if (yugerzat_put_rpc_msg(&header, out, sizeof out, 0, &writing) != YUGERZAT_DONE)
        return refused("header, written", &writing.refusal);
    if (yugerzat_put_setattr3args(&arguments, out, sizeof out, writing.after, &writing) != YUGERZAT_DONE)
        return refused("arguments, written", &writing.refusal);
    print("as it came:", call, sizeof call);
    print("as it leaves:", out, writing.after);

    /* The reply. In nfsserve's reading its status is that of a bad call; the current reading tells the cause. */
    if (yugerzat_get_rpc_msg(reply, sizeof reply, 0, &header, &reading) != YUGERZAT_DONE)
        return refused("reply", &reading.refusal);
    if (header.tag == YUGERZAT_TAG_ACCEPTED && header.body.accepted.stat == YUGERZAT_GARBAGE_ARGS)
        printf("the reply as nfsserve reads it: GARBAGE_ARGS, %s\n", form(&reading));
    if (yugerzat_get_current_rpc_msg(reply, sizeof reply, 0, &header, &reading) != YUGERZAT_DONE)
        return refused("reply", &reading.refusal);
    if (header.tag == YUGERZAT_TAG_ACCEPTED && header.body.accepted.stat == YUGERZAT_SYSTEM_ERR)
        printf("the reply in the current reading: SYSTEM_ERR, %s\n", form(&reading));
    return 0;
}
