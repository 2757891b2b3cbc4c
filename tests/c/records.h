/* Records and shift files of the tests' own making, in buffers against closed pages; and the answers that are expected of all tests on them. */
#ifndef RECORDS_H
#define RECORDS_H

#include "lent.h"

#include "segvartin.h"

enum { COUNT = 4, PAIR = 12, HEADER = 8, MOST = SEGVARTIN_MAX_RECORDS };

/* The records of a list: how they are made is the test's own. */
typedef struct item {
    uint32_t crossing, w, h;
} item;

static inline size_t luma_len(const item *i) { return (size_t)i->w * i->h; }

static inline size_t chroma_len(const item *i) { return (size_t)((i->w + 1) / 2) * ((i->h + 1) / 2); }

static inline size_t record_len(const item *i) { return HEADER + luma_len(i) + 2 * chroma_len(i); }

static inline size_t file_len(const item *items, size_t n) {
    size_t len = COUNT + PAIR * n;
    for (size_t k = 0; k < n; k++) len += record_len(items + k);
    return len;
}

static inline void put(uint8_t *at, int bytes, uint64_t value) {
    for (int i = 0; i < bytes; i++) at[i] = (uint8_t)(value >> 8 * i);
}

static inline void put_header(uint8_t *at, const item *i) {
    put(at, 4, i->crossing);
    put(at + 4, 2, i->w);
    put(at + 6, 2, i->h);
}

static inline void put_record(uint8_t *at, const item *i) {
    put_header(at, i);
    for (size_t b = HEADER; b < record_len(i); b++) at[b] = (uint8_t)(i->crossing + 13 * b + b / 251);
}

/* The records one behind the other. */
static inline void put_records(uint8_t *at, const item *items, size_t n) {
    for (size_t k = 0; k < n; k++) {
        put_record(at, items + k);
        at += record_len(items + k);
    }
}

/* Count and pairs. */
static inline void put_pairs(uint8_t *at, const item *items, size_t n) {
    uint64_t offset = COUNT + PAIR * (uint64_t)n;
    put(at, 4, n);
    for (size_t k = 0; k < n; k++) {
        put(at + COUNT + PAIR * k, 8, offset);
        put(at + COUNT + PAIR * k + 8, 4, record_len(items + k));
        offset += record_len(items + k);
    }
}

static inline void put_file(uint8_t *at, const item *items, size_t n) {
    put_pairs(at, items, n);
    put_records(at + COUNT + PAIR * n, items, n);
}

static inline segvartin_bytes read_of(const lent *b) {
    segvartin_bytes bytes = {b->at, b->len};
    return bytes;
}

static inline segvartin_bytes_mut all(const lent *b) {
    segvartin_bytes_mut bytes = {b->at, b->len};
    return bytes;
}

static inline int is(segvartin_answer a, uint32_t number, size_t expected, size_t received) {
    return a.number == number && a.expected == expected && a.received == received;
}

static inline int finished(segvartin_answer a) { return is(a, SEGVARTIN_FINISHED, 0, 0); }

static inline int broken(segvartin_answer a) { return is(a, SEGVARTIN_MALFORMED_SHIFT_FILE, 0, 0); }

/* Whether the bytes of a buffer from this one on are still those of the pattern. */
static inline int untouched_from(const lent *b, size_t from) {
    for (size_t i = from; i < b->len; i++)
        if (b->at[i] != (uint8_t)(0xa5 ^ i)) return 0;
    return 1;
}

#endif
