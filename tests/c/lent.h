/*
 * Buffers for the tests: each ends, or begins, at a page that cannot be touched, so that a byte read or written outside stops the test. A
 * sanitizer does not see into the library, which it did not compile; these pages do.
 */
#ifndef LENT_H
#define LENT_H

#define _DEFAULT_SOURCE
#include <stdint.h>
#include <stdio.h>
#include <stdlib.h>
#include <string.h>
#include <sys/mman.h>
#include <unistd.h>

#include "expect.h"

typedef struct lent {
    uint8_t *at;
    size_t len;
    uint8_t *map;
    size_t mapped;
} lent;

/* 1: the page before the buffer is closed; 0: the page behind it. */
static int closed_before;

static size_t pages(size_t len) {
    size_t page = (size_t)sysconf(_SC_PAGESIZE);
    return (len / page + 1) * page;
}

/* len bytes of a pattern. */
static lent lend(size_t len) {
    size_t page = (size_t)sysconf(_SC_PAGESIZE), body = pages(len);
    lent b;
    b.mapped = body + 2 * page;
    b.map = mmap(NULL, b.mapped, PROT_NONE, MAP_PRIVATE | MAP_ANONYMOUS, -1, 0);
    if (b.map == MAP_FAILED || mprotect(b.map + page, body, PROT_READ | PROT_WRITE) != 0) {
        perror("mmap");
        exit(2);
    }
    b.at = closed_before ? b.map + page : b.map + page + body - len;
    b.len = len;
    for (size_t i = 0; i < len; i++) b.at[i] = (uint8_t)(0xa5 ^ i);
    return b;
}

static void give_back(lent *b) { munmap(b->map, b->mapped); }

/* Whether the buffer still has the pattern. */
static inline int untouched(const lent *b) {
    for (size_t i = 0; i < b->len; i++)
        if (b->at[i] != (uint8_t)(0xa5 ^ i)) return 0;
    return 1;
}

#endif
