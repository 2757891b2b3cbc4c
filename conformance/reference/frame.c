/*
 * The program of RULES 9: a request on standard input, planes or a refusal on standard output. Both streams are binary
 * (RULES 9.3), as they are on POSIX systems. The rules leave the exit status free: here it is 0 where a reply was written, a
 * refusal too.
 */
#include "request.h"

#include <stdio.h>
#include <stdlib.h>

static struct reference_tables tables;
static uint8_t request[REQUEST_BYTES];
static uint8_t reply[REQUEST_REPLY_BYTES];

/* RULES 9.1: reads standard input to its end and counts all of it; what no request can hold is counted only. */
static uint64_t read_request(void)
{
    uint64_t length = fread(request, 1, sizeof request, stdin);
    size_t more;

    do {
        static uint8_t surplus[4096];

        more = fread(surplus, 1, sizeof surplus, stdin);
        length += more;
    } while (more > 0);
    return length;
}

/* RULES 9.1 to 9.3: one request, one reply. */
int main(void)
{
    uint64_t length = read_request();

    if (ferror(stdin)) {
        fputs("frame: standard input cannot be read\n", stderr);
        return EXIT_FAILURE;
    }
    if (length >= REQUEST_HEAD_BYTES && request[REQUEST_HEAD_BYTES - 1] < REFERENCE_TRANSFERS) {
        reference_make_pair(&tables, REFERENCE_TRUNCATED, request[REQUEST_HEAD_BYTES - 1]); /* those that the request asks for */
    }
    fwrite(reply, 1, request_reply(&tables, request, length, reply), stdout);
    if (fflush(stdout) != 0 || ferror(stdout)) {
        fputs("frame: standard output cannot be written\n", stderr);
        return EXIT_FAILURE;
    }
    return EXIT_SUCCESS;
}
