/*
 * The program of RULES 9.4: two codes on standard input, the count of each luma or a refusal on standard output. Both streams
 * are binary (RULES 9.3), as they are on POSIX systems. The exit status is 0 where a reply was written, a refusal too.
 */
#include "reference.h"

#include <stdio.h>
#include <stdlib.h>

/* RULES 9.4: a request has two bytes; one byte more is enough to see that an input is too long. */
enum { REQUEST_BYTES = 2 };

/* RULES 9.4: 1, and no other condition: a matrix that is Custom has no code here. */
static int is_request(const uint8_t *request, size_t length)
{
    return length == REQUEST_BYTES && request[0] < REFERENCE_RANGES && request[1] < REFERENCE_CUSTOM;
}

/* RULES 9.4: a line for each luma. */
static void reply(const uint8_t *request)
{
    uint32_t numbers[REQUEST_BYTES];
    uint32_t counts[REFERENCE_LUMAS];
    uint32_t y;

    numbers[0] = request[0];
    numbers[1] = request[1];
    reference_luma_counts(numbers, REQUEST_BYTES, 0, 0, counts);
    for (y = 0; y < REFERENCE_LUMAS; y++) {
        printf("%lu %lu\n", (unsigned long)y, (unsigned long)counts[y]);
    }
}

/* RULES 9.4: one request, one reply. */
int main(void)
{
    uint8_t request[REQUEST_BYTES + 1];
    size_t length = fread(request, 1, sizeof request, stdin);

    if (ferror(stdin)) {
        fputs("luma_counts: standard input cannot be read\n", stderr);
        return EXIT_FAILURE;
    }
    if (is_request(request, length)) {
        reply(request);
    } else {
        printf("refused %lu\n", (unsigned long)REFERENCE_BAD_CODE);
    }
    if (fflush(stdout) != 0 || ferror(stdout)) {
        fputs("luma_counts: standard output cannot be written\n", stderr);
        return EXIT_FAILURE;
    }
    return EXIT_SUCCESS;
}
