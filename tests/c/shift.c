/*
 * Shift files: the file of RULES 11.1; every bit of it changed, every cut; every part of the records asked for; planes that cannot be touched while a
 * file is read; records written to outputs of every length; records from planes with padding; each refusal with its numbers, and nothing written then;
 * frames converted, put in a file and read back. All buffers are against closed pages.
 *
 *     shift          these
 *     shift large    files that pass 4 GiB: a sparse one on a memory map, read; and one written
 */
#define _GNU_SOURCE
#include "records.h"

static int short_output(segvartin_answer a) { return is(a, SEGVARTIN_OUTPUT_TOO_SHORT, 0, 0); }

/* What is read of record k of the list, which starts there. */
static void expect_record(segvartin_bytes file, const segvartin_shift_record *r, const item *i, uint64_t offset) {
    size_t luma = luma_len(i), chroma = chroma_len(i);
    EXPECT(r->crossing == i->crossing && r->width == i->w && r->height == i->h);
    EXPECT(r->offset == offset && r->length == record_len(i));
    EXPECT(r->y_offset == offset + HEADER && r->y_length == luma);
    EXPECT(r->u_offset == offset + HEADER + luma && r->u_length == chroma);
    EXPECT(r->v_offset == offset + HEADER + luma + chroma && r->v_length == chroma);
    EXPECT(segvartin_shift_whole(file, r).at == file.at + offset && segvartin_shift_whole(file, r).len == record_len(i));
    EXPECT(segvartin_shift_y(file, r).at == file.at + r->y_offset && segvartin_shift_y(file, r).len == luma);
    EXPECT(segvartin_shift_u(file, r).at == file.at + r->u_offset && segvartin_shift_u(file, r).len == chroma);
    EXPECT(segvartin_shift_v(file, r).at == file.at + r->v_offset && segvartin_shift_v(file, r).len == chroma);
}

/* A good file is read from a record on, with room for so many. */
static void reads(segvartin_bytes file, const item *items, size_t n, size_t first, size_t room) {
    lent records = lend(room * sizeof(segvartin_shift_record));
    segvartin_shift_record *r = (segvartin_shift_record *)(void *)records.at;
    size_t count = 99, read = 99, left = first < n ? n - first : 0, told = left < room ? left : room;
    uint64_t offset = COUNT + PAIR * (uint64_t)n;
    EXPECT(finished(segvartin_read_shift_file(file, first, r, room, &count, &read)));
    EXPECT(count == n && read == told);
    for (size_t k = 0; k < first + told && k < n; k++) {
        if (k >= first) expect_record(file, r + (k - first), items + k, offset);
        offset += record_len(items + k);
    }
    EXPECT(untouched_from(&records, told * sizeof *r));
    give_back(&records);
}

/* These bytes are no file: 15, and no record is written. */
static void refuses(segvartin_bytes file) {
    lent records = lend(2 * sizeof(segvartin_shift_record));
    size_t count = 99, read = 99;
    EXPECT(broken(segvartin_read_shift_file(file, 0, (segvartin_shift_record *)(void *)records.at, 2, &count, &read)));
    EXPECT(count == 0 && read == 0 && untouched(&records));
    give_back(&records);
}

/* RULES 11.1, 11.2 */
static const uint8_t worked[57] = {
    2,    0,    0, 0,                                                                            /* count */
    28,   0,    0, 0, 0, 0, 0, 0, 18,   0,    0,    0,                                           /* pair 0 */
    46,   0,    0, 0, 0, 0, 0, 0, 11,   0,    0,    0,                                           /* pair 1 */
    0x78, 0x05, 0, 0, 3, 0, 2, 0, 0x10, 0x11, 0x12, 0x20, 0x21, 0x22, 0x30, 0x31, 0x40, 0x41, /* record 0 */
    0x70, 0x11, 1, 0, 1, 0, 1, 0, 0x50, 0x60, 0x70,                                              /* record 1 */
};

static lent lend_worked(void) {
    lent b = lend(sizeof worked);
    memcpy(b.at, worked, sizeof worked);
    return b;
}

static void worked_file(void) {
    static const item items[2] = {{1400, 3, 2}, {70000, 1, 1}};
    static const uint8_t y[8] = {0x10, 0x11, 0x12, 0x99, 0x20, 0x21, 0x22, 0x99}, u[3] = {0x30, 0x31, 0x99}, v[2] = {0x40, 0x41};
    lent file = lend_worked(), output = lend(sizeof worked + 3), record = lend(20);
    segvartin_bytes records = {worked + 28, sizeof worked - 28}, y_plane = {y, sizeof y}, u_plane = {u, sizeof u}, v_plane = {v, sizeof v};
    segvartin_description d = {0};
    size_t size = 0;
    EXPECT(sizeof(segvartin_shift_record) == 11 * sizeof(uint64_t));
    for (size_t first = 0; first < 4; first++)
        for (size_t room = 0; room < 4; room++) reads(read_of(&file), items, 2, first, room);
    reads(read_of(&file), items, 2, SIZE_MAX, 2);
    reads(read_of(&file), items, 2, SIZE_MAX / 11 + 1, 2);
    reads(read_of(&file), items, 2, (size_t)1 << 32, 2);
    reads(read_of(&file), items, 2, ((size_t)1 << 32) + 1, 2);
    EXPECT(finished(segvartin_write_shift_file(records, all(&output), &size)));
    EXPECT(size == sizeof worked && memcmp(output.at, worked, sizeof worked) == 0 && untouched_from(&output, size));
    d.width = 3, d.height = 2;
    d.y_stride = 4, d.u_stride = 3, d.v_stride = 2;
    EXPECT(finished(segvartin_write_shift_record(1400, &d, y_plane, u_plane, v_plane, all(&record), &size)));
    EXPECT(size == 18 && memcmp(record.at, worked + 28, 18) == 0 && untouched_from(&record, size));
    EXPECT(memcmp(file.at, worked, sizeof worked) == 0);
    give_back(&record);
    give_back(&output);
    give_back(&file);
}

/* Crossings and planes are free; of the other bits none may be another. */
static void every_bit(void) {
    static const size_t free_bytes[3][2] = {{28, 32}, {36, 50}, {54, 57}};
    lent file = lend_worked();
    for (size_t at = 0; at < sizeof worked; at++) {
        int is_free = 0;
        for (int i = 0; i < 3; i++) is_free |= at >= free_bytes[i][0] && at < free_bytes[i][1];
        for (int bit = 0; bit < 8; bit++) {
            size_t count, read;
            segvartin_shift_record r;
            file.at[at] ^= (uint8_t)(1 << bit);
            if (is_free) {
                EXPECT(finished(segvartin_read_shift_file(read_of(&file), 0, &r, 1, &count, &read)));
                EXPECT(count == 2 && read == 1);
            } else
                refuses(read_of(&file));
            file.at[at] ^= (uint8_t)(1 << bit);
        }
    }
    EXPECT(memcmp(file.at, worked, sizeof worked) == 0);
    give_back(&file);
}

/* A file that ends early has closed pages where it would go on, and one that goes on has other bytes there. */
static void every_cut(void) {
    for (size_t len = 0; len < sizeof worked; len++) {
        lent file = lend(len);
        memcpy(file.at, worked, len);
        refuses(read_of(&file));
        give_back(&file);
    }
    for (size_t more = 1; more < 30; more++) {
        lent file = lend(sizeof worked + more);
        memcpy(file.at, worked, sizeof worked);
        refuses(read_of(&file));
        give_back(&file);
    }
}

/* The numbers of a hostile file, each in the place of the right one. */
static void hostile_numbers(void) {
    static const uint64_t offsets[] = {0,          4,          27,         29,         UINT64_MAX, UINT64_MAX - 7, UINT64_MAX - 17, 1ull << 63,
                                       1ull << 32, (1ull << 32) + 28, (1ull << 32) + 46, 0xffffffff, 57, 56};
    static const uint64_t lengths[] = {0, 8, 10, 12, 17, 19, 0xffffffff, 0x80000000, 0x10000};
    static const uint64_t counts[] = {0, 1, 3, 4, 4095, 4096, 4097, 0x10002, 0x80000000, 0xffffffff};
    static const uint64_t sides[] = {0, 4, 16384, 16385, 0x8000, 0xffff};
    static const size_t places[4] = {32, 34, 50, 52};
    lent file = lend_worked();
    for (int k = 0; k < 2; k++) {
        for (size_t i = 0; i < sizeof offsets / sizeof *offsets; i++) {
            put(file.at + 4 + 12 * k, 8, offsets[i]);
            refuses(read_of(&file));
        }
        memcpy(file.at, worked, sizeof worked);
        for (size_t i = 0; i < sizeof lengths / sizeof *lengths; i++) {
            put(file.at + 12 + 12 * k, 4, lengths[i]);
            refuses(read_of(&file));
        }
        memcpy(file.at, worked, sizeof worked);
    }
    for (size_t i = 0; i < sizeof counts / sizeof *counts; i++) {
        put(file.at, 4, counts[i]);
        refuses(read_of(&file));
    }
    memcpy(file.at, worked, sizeof worked);
    for (int k = 0; k < 4; k++) {
        for (size_t i = 0; i < sizeof sides / sizeof *sides; i++) {
            put(file.at + places[k], 2, sides[i]);
            refuses(read_of(&file));
        }
        memcpy(file.at, worked, sizeof worked);
    }
    /* an offset and a length whose sum comes round to where record 1 starts */
    put(file.at + 4, 8, 46 - 0xffffffffull);
    put(file.at + 12, 4, 0xffffffff);
    refuses(read_of(&file));
    memcpy(file.at, worked, sizeof worked);
    /* the pairs exchanged; the same pair twice */
    memcpy(file.at + 4, worked + 16, 12);
    memcpy(file.at + 16, worked + 4, 12);
    refuses(read_of(&file));
    memcpy(file.at + 4, worked + 16, 12);
    refuses(read_of(&file));
    give_back(&file);
}

/* Layouts that are consistent in themselves and break one rule. */
static void consistent_but(void) {
    static const item small = {7, 1, 1}, wide = {7, 16385, 1}, high = {7, 1, 16385}, none_wide = {7, 0, 3}, none_high = {7, 3, 0};
    static const item *const sized[4] = {&wide, &high, &none_wide, &none_high};
    static item many[MOST + 1];
    for (int i = 0; i < 4; i++) {
        lent file = lend(file_len(sized[i], 1)), records = lend(record_len(sized[i])), output = lend(file.len);
        size_t size = 99;
        put_file(file.at, sized[i], 1);
        refuses(read_of(&file));
        put_records(records.at, sized[i], 1);
        EXPECT(broken(segvartin_write_shift_file(read_of(&records), all(&output), &size)) && size == 0 && untouched(&output));
        give_back(&output);
        give_back(&records);
        give_back(&file);
    }
    for (size_t k = 0; k <= MOST; k++) many[k] = small;
    for (size_t n = MOST - 1; n <= MOST + 1; n++) {
        lent file = lend(file_len(many, n)), records = lend(n * record_len(&small)), output = lend(file.len);
        size_t size = 99;
        put_file(file.at, many, n);
        put_records(records.at, many, n);
        if (n <= MOST) {
            reads(read_of(&file), many, n, n - 3, 5);
            EXPECT(finished(segvartin_write_shift_file(read_of(&records), all(&output), &size)));
            EXPECT(size == file.len && memcmp(output.at, file.at, size) == 0);
        } else {
            refuses(read_of(&file));
            EXPECT(broken(segvartin_write_shift_file(read_of(&records), all(&output), &size)) && size == 0 && untouched(&output));
        }
        give_back(&output);
        give_back(&records);
        give_back(&file);
    }
    /* a gap behind the pairs and one between the records, all offsets as the records stand */
    for (size_t gap = 1; gap < 20; gap++)
        for (int between = 0; between < 2; between++) {
            lent file = lend(sizeof worked + gap);
            size_t at = between ? 46 : 28;
            memcpy(file.at, worked, at);
            memcpy(file.at + at + gap, worked + at, sizeof worked - at);
            if (!between) put(file.at + 4, 8, 28 + gap);
            put(file.at + 16, 8, 46 + gap);
            refuses(read_of(&file));
            give_back(&file);
        }
    /* records that overlap: the second is a part of the first, and the file ends with the first */
    {
        static const item large = {1, 5, 5};
        lent file = lend(COUNT + 2 * PAIR + record_len(&large));
        put(file.at, 4, 2);
        put(file.at + 4, 8, 28);
        put(file.at + 12, 4, record_len(&large));
        put(file.at + 16, 8, file.len - record_len(&small));
        put(file.at + 24, 4, record_len(&small));
        put_record(file.at + 28, &large);
        put_record(file.at + file.len - record_len(&small), &small);
        refuses(read_of(&file));
        give_back(&file);
    }
}

static void no_records(void) {
    lent file = lend(4);
    memset(file.at, 0, 4);
    reads(read_of(&file), NULL, 0, 0, 0);
    reads(read_of(&file), NULL, 0, 0, 2);
    reads(read_of(&file), NULL, 0, 7, 2);
    give_back(&file);
    for (size_t len = 0; len < 7; len++) {
        lent nothing = lend(0), output = lend(len);
        size_t size = 99;
        segvartin_answer a = segvartin_write_shift_file(read_of(&nothing), all(&output), &size);
        EXPECT(size == 4);
        if (len < 4)
            EXPECT(short_output(a) && untouched(&output));
        else {
            static const uint8_t zeros[4];
            EXPECT(finished(a) && memcmp(output.at, zeros, 4) == 0 && untouched_from(&output, 4));
        }
        give_back(&output);
        give_back(&nothing);
    }
}

static const item several[] = {{0, 1, 1}, {UINT32_MAX, 2, 1}, {7, 1, 2}, {7, 3, 3}, {1400, 4, 4}, {5, 17, 9}, {6, 64, 48}, {9, 1, 300}};

enum { SEVERAL = sizeof several / sizeof *several };

/* Every number of them, from every record on, with room for few and many. */
static void some_files(void) {
    for (size_t n = 0; n <= SEVERAL; n++) {
        lent file = lend(file_len(several, n));
        put_file(file.at, several, n);
        for (size_t first = 0; first <= n + 1; first++)
            for (size_t room = 0; room <= n + 2; room++) reads(read_of(&file), several, n, first, room);
        give_back(&file);
    }
}

/* The exported function fills whole elevens of the numbers that it is lent, and no other number. */
static void numbers_lent(void) {
    lent file = lend(file_len(several, 3));
    put_file(file.at, several, 3);
    for (size_t lent_numbers = 0; lent_numbers < 40; lent_numbers++) {
        lent entries = lend(lent_numbers * sizeof(uint64_t)), told = lend(2 * sizeof(size_t));
        size_t *two = (size_t *)(void *)told.at, whole = lent_numbers / 11 < 3 ? lent_numbers / 11 : 3;
        uint64_t *numbers = (uint64_t *)(void *)entries.at;
        EXPECT(segvartin_call_shift_records(file.at, file.len, 0, numbers, lent_numbers, two) == 0);
        EXPECT(two[0] == 3 && two[1] == whole && untouched_from(&entries, 11 * whole * sizeof(uint64_t)));
        if (whole == 3) EXPECT(numbers[22] == 7 && numbers[23] == 1 && numbers[24] == 2 && numbers[32] == 1);
        file.at[0]++;
        EXPECT(segvartin_call_shift_records(file.at, file.len, 0, numbers, lent_numbers, two) == SEGVARTIN_MALFORMED_SHIFT_FILE);
        EXPECT(two[0] == 0 && two[1] == 0 && untouched_from(&entries, 11 * whole * sizeof(uint64_t)));
        file.at[0]--;
        give_back(&told);
        give_back(&entries);
    }
    give_back(&file);
}

/* Of a file only the pages with pairs or first bytes of records can be touched. */
static void planes_are_not_read(void) {
    static const item large[3] = {{1, 16384, 3}, {2, 100, 900}, {3, 16384, 16384}};
    size_t page = (size_t)sysconf(_SC_PAGESIZE), len = file_len(large, 3), offset = COUNT + PAIR * 3, start;
    uint8_t *map = mmap(NULL, len + page, PROT_NONE, MAP_PRIVATE | MAP_ANONYMOUS | MAP_NORESERVE, -1, 0), *file;
    segvartin_bytes bytes;
    if (map == MAP_FAILED) {
        perror("mmap");
        exit(2);
    }
    file = map + (closed_before ? 0 : page - len % page);
    for (int k = -1; k < 3; k++) {
        size_t from = k < 0 ? 0 : offset, size = k < 0 ? COUNT + PAIR * 3 : HEADER;
        uint8_t *at = file + from;
        start = (size_t)(at - map) % page;
        if (mprotect(at - start, start + size, PROT_READ | PROT_WRITE) != 0) {
            perror("mprotect");
            exit(2);
        }
        if (k < 0)
            put_pairs(at, large, 3);
        else {
            put_header(at, large + k);
            offset += record_len(large + k);
        }
    }
    EXPECT(offset == len);
    bytes.at = file;
    bytes.len = len;
    reads(bytes, large, 3, 0, 3);
    bytes.len = len - 1;
    refuses(bytes);
    munmap(map, len + page);
}

/* Records are written to an output of every length near that of the file, and of some others. */
static void some_writes(void) {
    for (size_t n = 0; n <= SEVERAL; n++) {
        size_t len = file_len(several, n);
        lent file = lend(len), records = lend(len - COUNT - PAIR * n), kept = lend(records.len);
        put_file(file.at, several, n);
        put_records(records.at, several, n);
        memcpy(kept.at, records.at, kept.len);
        for (size_t output_len = len < 40 ? 0 : len - 40; output_len < len + 40; output_len++) {
            lent output = lend(output_len);
            size_t size = 99;
            segvartin_answer a = segvartin_write_shift_file(read_of(&records), all(&output), &size);
            EXPECT(size == len);
            if (output_len < len)
                EXPECT(short_output(a) && untouched(&output));
            else
                EXPECT(finished(a) && memcmp(output.at, file.at, len) == 0 && untouched_from(&output, len));
            give_back(&output);
        }
        EXPECT(memcmp(records.at, kept.at, kept.len) == 0);
        give_back(&kept);
        give_back(&records);
        give_back(&file);
    }
}

/* Records that end early, at every byte, or have more behind them. */
static void broken_records(void) {
    static const item two[2] = {{1400, 3, 2}, {70000, 2, 1}};
    lent whole = lend(record_len(two) + record_len(two + 1));
    put_records(whole.at, two, 2);
    for (size_t len = 0; len <= whole.len + 12; len++) {
        lent records = lend(len), output = lend(100);
        segvartin_bytes_mut nothing = {output.at, 0};
        size_t size = 99;
        segvartin_answer a;
        memcpy(records.at, whole.at, len < whole.len ? len : whole.len);
        for (size_t i = whole.len; i < len; i++) records.at[i] = 1; /* not enough for another: 257 by 257 pixels */
        a = segvartin_write_shift_file(read_of(&records), all(&output), &size);
        if (len == 0 || len == record_len(two) || len == whole.len)
            EXPECT(finished(a) && size == len + COUNT + PAIR * (len == 0 ? 0 : len == whole.len ? 2 : 1));
        else {
            EXPECT(broken(a) && size == 0 && untouched(&output));
            EXPECT(broken(segvartin_write_shift_file(read_of(&records), nothing, &size)) && size == 0); /* 15 before 16 */
        }
        give_back(&output);
        give_back(&records);
    }
    give_back(&whole);
}

typedef struct planes {
    lent y, u, v;
} planes;

static planes lend_planes(const segvartin_description *d) {
    size_t rows = d->height / 2 + d->height % 2;
    planes p = {lend(d->y_stride * (size_t)d->height), lend(d->u_stride * rows), lend(d->v_stride * rows)};
    return p;
}

static void give_back_planes(planes *p) {
    give_back(&p->y);
    give_back(&p->u);
    give_back(&p->v);
}

/* Whether a plane of a record has the first bytes of each row of a lent plane. */
static int same_rows(segvartin_bytes plane, const lent *b, uint32_t row, uint32_t stride) {
    if (plane.len / row * stride != b->len) return 0;
    for (size_t r = 0; r * row < plane.len; r++)
        if (memcmp(plane.at + r * row, b->at + r * stride, row) != 0) return 0;
    return 1;
}

static segvartin_answer make(const segvartin_description *d, const planes *p, lent *record, size_t *size) {
    return segvartin_write_shift_record(0x89abcdef, d, read_of(&p->y), read_of(&p->u), read_of(&p->v), all(record), size);
}

/* A record of planes with these paddings, for outputs around its length. */
static void one_record(uint32_t w, uint32_t h, uint32_t y_padding, uint32_t u_padding, uint32_t v_padding) {
    segvartin_description d = {0};
    item i = {0x89abcdef, w, h};
    size_t len = record_len(&i);
    planes p;
    d.width = w, d.height = h;
    d.y_stride = w + y_padding, d.u_stride = (w + 1) / 2 + u_padding, d.v_stride = (w + 1) / 2 + v_padding;
    p = lend_planes(&d);
    for (size_t output_len = len < 3 ? 0 : len - 3; output_len < len + 4; output_len++) {
        lent record = lend(output_len);
        size_t size = 99;
        segvartin_answer a = make(&d, &p, &record, &size);
        EXPECT(size == len);
        if (output_len < len)
            EXPECT(short_output(a) && untouched(&record));
        else {
            uint8_t header[HEADER];
            segvartin_bytes y = {record.at + HEADER, luma_len(&i)}, u = {y.at + y.len, chroma_len(&i)}, v = {u.at + u.len, u.len};
            put_header(header, &i);
            EXPECT(finished(a) && memcmp(record.at, header, HEADER) == 0 && untouched_from(&record, len));
            EXPECT(same_rows(y, &p.y, w, d.y_stride) && same_rows(u, &p.u, (w + 1) / 2, d.u_stride) && same_rows(v, &p.v, (w + 1) / 2, d.v_stride));
        }
        give_back(&record);
    }
    EXPECT(untouched(&p.y) && untouched(&p.u) && untouched(&p.v));
    give_back_planes(&p);
}

static void records_from_planes(void) {
    for (uint32_t w = 1; w < 10; w++)
        for (uint32_t h = 1; h < 6; h++) one_record(w, h, w % 3, h % 4, (w + h) % 3);
    one_record(640, 480, 0, 0, 0);
    one_record(640, 481, 64, 1, 0);
    one_record(16384, 2, 0, 0, 3);
    one_record(1, 16384, 1, 0, 0);
    one_record(33, 16384, 0, 31, 31);
}

/* Planes of 5 by 3 with strides 8, 4, 5, one number changed; refused whatever the output is. */
static void refused_planes(void) {
    static const struct {
        uint32_t w, h, y_stride, u_stride, v_stride;
        size_t y_len, u_len, v_len;
        uint32_t number;
        size_t expected, received;
    } cases[] = {
        {0, 3, 8, 4, 5, 24, 8, 10, 15, 0, 0},
        {5, 0, 8, 4, 5, 24, 8, 10, 15, 0, 0},
        {16385, 3, 8, 4, 5, 24, 8, 10, 15, 0, 0},
        {5, 16385, 8, 4, 5, 24, 8, 10, 15, 0, 0},
        {65541, 3, 8, 4, 5, 24, 8, 10, 15, 0, 0}, /* 5 in 16 bits */
        {5, 65539, 8, 4, 5, 24, 8, 10, 15, 0, 0},
        {UINT32_MAX, UINT32_MAX, 8, 4, 5, 24, 8, 10, 15, 0, 0},
        {0, 3, 0, 0, 0, 0, 0, 0, 15, 0, 0},
        {5, 3, 4, 4, 5, 24, 8, 10, 8, 15, 12},
        {5, 3, 0, 0, 0, 0, 0, 0, 8, 15, 0},
        {5, 3, 8, 4, 5, 20, 8, 10, 9, 21, 20},
        {5, 3, 8, 2, 2, 20, 0, 0, 9, 21, 20},
        {5, 3, UINT32_MAX, 4, 5, 24, 8, 10, 9, 2 * (size_t)UINT32_MAX + 5, 24},
        {5, 3, 8, 2, 5, 24, 8, 10, 10, 6, 4},
        {5, 3, 8, 4, 5, 24, 6, 10, 10, 7, 6},
        {5, 3, 8, 4, 2, 25, 9, 10, 11, 6, 4},
        {5, 3, 8, 4, 5, 24, 8, 7, 11, 8, 7},
        {5, 3, 8, 4, 5, 21, 7, 8, 12, 24, 21},
        {5, 3, 8, 4, 5, 25, 8, 10, 12, 24, 25},
        {5, 3, 8, 4, 5, 24, 12, 10, 12, 8, 12},
        {5, 3, 8, 4, 5, 24, 8, 8, 12, 10, 8},
        {5, 3, 8, 4, 5, 24, 8, 15, 12, 10, 15},
    };
    static const size_t outputs[4] = {0, 34, 35, 100};
    for (size_t c = 0; c < sizeof cases / sizeof *cases; c++)
        for (int o = 0; o < 4; o++) {
            segvartin_description d = {0};
            planes p = {lend(cases[c].y_len), lend(cases[c].u_len), lend(cases[c].v_len)};
            lent record = lend(outputs[o]);
            size_t size = 99;
            d.width = cases[c].w, d.height = cases[c].h;
            d.y_stride = cases[c].y_stride, d.u_stride = cases[c].u_stride, d.v_stride = cases[c].v_stride;
            EXPECT(is(make(&d, &p, &record, &size), cases[c].number, cases[c].expected, cases[c].received));
            EXPECT(size == 0 && untouched(&record));
            give_back(&record);
            give_back_planes(&p);
        }
    one_record(5, 3, 3, 1, 2);
}

/* Frames of several sizes converted, each into a record behind the one before; one file of them. */
static void frames_to_a_file(void) {
    static const uint32_t sizes[4][2] = {{5, 3}, {1, 1}, {16, 9}, {40, 2}};
    lent records = lend(4000), file = lend(5000);
    segvartin_shift_record read_records[4];
    segvartin_description d[4];
    segvartin_bytes bytes;
    planes p[4];
    size_t used = 0, size, count, read;
    for (uint32_t k = 0; k < 4; k++) {
        uint32_t w = sizes[k][0], h = sizes[k][1];
        lent source = lend(3 * (size_t)w * h);
        segvartin_bytes_mut rest = {records.at + used, records.len - used};
        memset(d + k, 0, sizeof *d);
        d[k].width = w, d[k].height = h;
        d[k].y_stride = w + k, d[k].u_stride = (w + 1) / 2 + 1, d[k].v_stride = (w + 1) / 2 + k;
        p[k] = lend_planes(d + k);
        EXPECT(finished(segvartin_convert_frame(d + k, read_of(&source), 3 * w, all(&p[k].y), all(&p[k].u), all(&p[k].v))));
        EXPECT(finished(segvartin_write_shift_record(1400 + k, d + k, segvartin_read_only(all(&p[k].y)), segvartin_read_only(all(&p[k].u)),
                                                     segvartin_read_only(all(&p[k].v)), rest, &size)));
        used += size;
        give_back(&source);
    }
    bytes.at = records.at;
    bytes.len = used;
    EXPECT(finished(segvartin_write_shift_file(bytes, all(&file), &size)) && size == used + COUNT + 4 * PAIR);
    bytes.at = file.at;
    bytes.len = size;
    EXPECT(finished(segvartin_read_shift_file(bytes, 0, read_records, 4, &count, &read)) && count == 4 && read == 4);
    for (uint32_t k = 0; k < 4; k++) {
        const segvartin_shift_record *r = read_records + k;
        uint32_t chroma = (d[k].width + 1) / 2;
        EXPECT(r->crossing == 1400 + k && r->width == d[k].width && r->height == d[k].height);
        EXPECT(same_rows(segvartin_shift_y(bytes, r), &p[k].y, d[k].width, d[k].y_stride));
        EXPECT(same_rows(segvartin_shift_u(bytes, r), &p[k].u, chroma, d[k].u_stride));
        EXPECT(same_rows(segvartin_shift_v(bytes, r), &p[k].v, chroma, d[k].v_stride));
        give_back_planes(p + k);
    }
    give_back(&file);
    give_back(&records);
}

/* 12 records of the largest size: 4,831,838,452 bytes. */
enum { LARGE = 12 };

static void *or_exit(void *map) {
    if (map == MAP_FAILED) {
        perror("mmap");
        exit(2);
    }
    return map;
}

/* A sparse file, of which the pairs and the first bytes of each record are written, on a memory map. */
static void large_file(const item *items) {
    size_t len = file_len(items, LARGE), offset = COUNT + PAIR * LARGE, mapped = len + ((size_t)1 << 32);
    uint8_t start[COUNT + PAIR * LARGE], header[HEADER];
    FILE *sparse = tmpfile();
    segvartin_bytes file;
    EXPECT(len > 1ull << 32);
    if (sparse == NULL || ftruncate(fileno(sparse), (off_t)mapped) != 0) {
        perror("a sparse file");
        exit(2);
    }
    put_pairs(start, items, LARGE);
    if (pwrite(fileno(sparse), start, sizeof start, 0) != sizeof start) exit(2);
    for (int k = 0; k < LARGE; k++) {
        put_header(header, items + k);
        if (pwrite(fileno(sparse), header, HEADER, (off_t)offset) != HEADER) exit(2);
        offset += record_len(items + k);
    }
    file.at = or_exit(mmap(NULL, mapped, PROT_READ | PROT_WRITE, MAP_PRIVATE | MAP_NORESERVE, fileno(sparse), 0));
    file.len = len;
    reads(file, items, LARGE, 0, LARGE);
    reads(file, items, LARGE, LARGE - 1, 1);
    file.len = len + 1;
    refuses(file);
    file.len = len - 1;
    refuses(file);
    file.len = len & 0xffffffff;
    refuses(file);
    file.len = mapped; /* the same in 32 bits */
    refuses(file);
    file.len = len;
    /* the last offset in 32 bits, and one record further on */
    for (int i = 0; i < 2; i++) {
        uint8_t *last = (uint8_t *)(uintptr_t)(file.at + COUNT + PAIR * (LARGE - 1));
        uint64_t right = len - record_len(items);
        put(last, 8, i == 0 ? right & 0xffffffff : right + (1ull << 32));
        refuses(file);
        put(last, 8, right);
    }
    reads(file, items, LARGE, 0, 1);
    munmap((void *)(uintptr_t)file.at, mapped);
    fclose(sparse);
}

/*
 * A file of as many bytes, written. The records are pages of zeros but for their first bytes. Of the output the pages with pairs and with first bytes
 * of records are memory of their own; all others are the same few pages again and again.
 */
static void large_write(const item *items) {
    size_t page = (size_t)sysconf(_SC_PAGESIZE), len = file_len(items, LARGE), body = len - COUNT - PAIR * LARGE, offset = 0, size = 99;
    size_t tile = 1 << 24, mapped = (len / tile + 2) * tile;
    uint8_t *records = or_exit(mmap(NULL, body, PROT_READ | PROT_WRITE, MAP_PRIVATE | MAP_ANONYMOUS | MAP_NORESERVE, -1, 0));
    uint8_t *output = or_exit(mmap(NULL, mapped, PROT_NONE, MAP_PRIVATE | MAP_ANONYMOUS | MAP_NORESERVE, -1, 0)), start[COUNT + PAIR * LARGE];
    segvartin_bytes from = {records, body};
    segvartin_bytes_mut to = {output, len};
    FILE *few = tmpfile();
    if (few == NULL || ftruncate(fileno(few), (off_t)tile) != 0) {
        perror("a file");
        exit(2);
    }
    for (size_t at = 0; at < mapped; at += tile)
        or_exit(mmap(output + at, tile, PROT_READ | PROT_WRITE, MAP_SHARED | MAP_FIXED, fileno(few), 0));
    or_exit(mmap(output, page, PROT_READ | PROT_WRITE, MAP_PRIVATE | MAP_ANONYMOUS | MAP_FIXED, -1, 0));
    for (int k = 0; k < LARGE; k++) {
        size_t at = offset + sizeof start;
        put_header(records + offset, items + k);
        if (at >= page) or_exit(mmap(output + at / page * page, 2 * page, PROT_READ | PROT_WRITE, MAP_PRIVATE | MAP_ANONYMOUS | MAP_FIXED, -1, 0));
        offset += record_len(items + k);
    }
    to.len = len - 1;
    EXPECT(short_output(segvartin_write_shift_file(from, to, &size)) && size == len && output[0] == 0);
    to.len = len & 0xffffffff;
    EXPECT(short_output(segvartin_write_shift_file(from, to, &size)) && size == len && output[0] == 0);
    to.len = len;
    EXPECT(finished(segvartin_write_shift_file(from, to, &size)) && size == len);
    put_pairs(start, items, LARGE);
    EXPECT(memcmp(output, start, sizeof start) == 0);
    reads(segvartin_read_only(to), items, LARGE, 0, LARGE);
    from.len = body - 1;
    EXPECT(broken(segvartin_write_shift_file(from, to, &size)) && size == 0);
    fclose(few);
    munmap(output, mapped);
    munmap(records, body);
}

static void large(void) {
    item items[LARGE];
    for (uint32_t k = 0; k < LARGE; k++) {
        items[k].crossing = 4000000000u + k;
        items[k].w = items[k].h = 16384;
    }
    large_file(items);
    large_write(items);
}

int main(int argc, char **argv) {
    if (argc > 1 && strcmp(argv[1], "large") == 0) {
        large();
        return finish("shift files past 4 GiB");
    }
    for (closed_before = 0; closed_before < 2; closed_before++) {
        worked_file();
        every_bit();
        every_cut();
        hostile_numbers();
        consistent_but();
        no_records();
        some_files();
        numbers_lent();
        planes_are_not_read();
        some_writes();
        broken_records();
        records_from_planes();
        refused_planes();
        frames_to_a_file();
    }
    return finish("shift");
}
