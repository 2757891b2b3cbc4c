/*
 * What the floating-point mode costs a call: ns a call of an opening that is refused (width 0), by the header's function and by the exported
 * one alone. Each figure is the least of 25 turns of a million calls; the two take turns.
 *
 *     gcc -std=gnu99 -O2 -Iinclude bench/mode.c target/staticlib/libsegvartin.a -o target/mode && target/mode
 */
#include <stdio.h>
#include <stdlib.h>
#include <time.h>

#include "segvartin.h"

enum { TURNS = 25, CALLS = 1000000 };

static double now(void) {
    struct timespec t;
    clock_gettime(CLOCK_MONOTONIC, &t);
    return t.tv_sec * 1e9 + t.tv_nsec;
}

static void in_default_mode(void) {
    uint32_t done;
    size_t expected, received;
    if (segvartin_open(0, 1, 0, 0, 0, 0, 0, 0, 0, 1, 1, 1, &done, &expected, &received) != SEGVARTIN_ZERO_BASE_SIZE) exit(1);
}

static void exported(void) {
    const uint32_t numbers[10] = {0, 1, 0, 0, 0, 0, 0, 1, 1, 1};
    const float custom[2] = {0, 0};
    size_t told[3];
    if (segvartin_call_open(numbers, 10, custom, told) != SEGVARTIN_ZERO_BASE_SIZE) exit(1);
}

int main(void) {
    void (*const calls[2])(void) = {in_default_mode, exported};
    double least[2] = {1e9, 1e9};
    for (int turn = 0; turn < TURNS; turn++)
        for (int i = 0; i < 2; i++) {
            double start = now(), each;
            for (int n = 0; n < CALLS; n++) calls[i]();
            each = (now() - start) / CALLS;
            if (each < least[i]) least[i] = each;
        }
    printf("in the default mode %.1f ns a call, exported function alone %.1f\n", least[0], least[1]);
    return 0;
}
