/*
 * filter: cleans the headers of a stream of RPC calls.
 *
 *     filter <in >out
 *
 * It reads calls as records of a stream (RFC 5531, section 11) from standard input, and writes each as a record of
 * one fragment to standard output, with its header in published form: padding zero, tags declared. The arguments are
 * passed on as they are. A call whose header was loose (taken as meant, but not in published form) is named on
 * standard error. So is a record that is refused, which is not passed on. Ends with 0 if all was passed on, and else
 * with 1.
 */
#include <stdio.h>

#include "yugerzat.h"

static uint8_t record[YUGERZAT_LIMIT_BYTES];
static uint8_t message[YUGERZAT_LIMIT_BYTES + 40]; /* a header of 8 bytes may be rewritten as one of 40 */
static uint8_t out[YUGERZAT_LIMIT_BYTES + YUGERZAT_FRAGMENT_HEADER_BYTES];

static int refused(unsigned long number, enum yugerzat_answer answer)
{
    fprintf(stderr, "record %lu: refused: %s\n", number, yugerzat_strerror(answer));
    return 1;
}

static int pass_on(unsigned long number, size_t length)
{
    struct yugerzat_rpc_msg header;
    struct yugerzat_reading reading;
    struct yugerzat_writing writing;
    size_t arguments;
    if (yugerzat_get_rpc_msg(record, length, 0, &header, &reading) != YUGERZAT_DONE)
        return refused(number, reading.refusal.answer);
    if (header.tag != YUGERZAT_TAG_CALL)
        return refused(number, YUGERZAT_REPLY_CAME);
    if (yugerzat_put_rpc_msg(&header, message, sizeof message, 0, &writing) != YUGERZAT_DONE)
        return refused(number, writing.refusal.answer);
    arguments = length - reading.next;
    memcpy(message + writing.after, record + reading.next, arguments);
    if (yugerzat_put_fragment(message, writing.after + arguments, out, sizeof out, 0, &writing) != YUGERZAT_DONE)
        return refused(number, writing.refusal.answer);
    if (!reading.plain)
        fprintf(stderr, "record %lu: loose\n", number);
    return fwrite(out, 1, writing.after, stdout) != writing.after;
}

int main(void)
{
    struct yugerzat_state state = yugerzat_fresh_state(sizeof record);
    struct yugerzat_fed fed;
    uint8_t run[4096];
    size_t count, used;
    unsigned long number = 0;
    int status = 0;
    while (!state.stopped && (count = fread(run, 1, sizeof run, stdin)) > 0) {
        for (used = 0; used < count && !state.stopped; used += fed.used) {
            enum yugerzat_answer answer =
                yugerzat_feed_run(&state, run + used, count - used, record, sizeof record, &fed);
            if (answer == YUGERZAT_COMPLETE)
                status |= pass_on(++number, fed.length);
            else if (answer != YUGERZAT_MORE)
                status = refused(++number, answer);
        }
    }
    if (!state.stopped && yugerzat_inside_record(&state))
        status = refused(++number, YUGERZAT_ENDS);
    if (ferror(stdin) || fflush(stdout) || ferror(stdout)) {
        perror("filter");
        status = 1;
    }
    return status;
}
