/*
 * Shift files with settings: the file of RULES 11.7; every bit of it changed, every cut; every byte in each of the four places of settings, read, written,
 * moved, summed up and paired; files of either form read, and the reader of the form without settings; planes that cannot be touched while a file is read;
 * records written, and files moved forward and back, into outputs of every length; records from planes in both samplings, each refusal with its numbers;
 * frames converted, recorded with their own settings and read back; summaries of files with settings; pairs of files of either form. All buffers are
 * against closed pages.
 *
 *     settings          these
 *     settings large    files that pass 4 GiB: a sparse one on a memory map, read; and one moved forward and back
 */
#define _GNU_SOURCE
#include "records.h"

enum { START = 8, SET_HEADER = 12, ENTRY = SEGVARTIN_SUMMARY_ENTRY, NONE = SEGVARTIN_NOT_RECORDED };

static int short_output(segvartin_answer a) { return is(a, SEGVARTIN_OUTPUT_TOO_SHORT, 0, 0); }

static int recorded(segvartin_answer a) { return is(a, SEGVARTIN_SETTINGS_RECORDED, 0, 0); }

/* A record with settings: how its planes are made is the test's own. */
typedef struct set {
    uint32_t crossing, w, h;
    uint8_t four[4];
} set;

static size_t set_luma(const set *s) { return (size_t)s->w * s->h; }

static size_t set_chroma(const set *s) { return (size_t)((s->w + 1) / 2) * (s->four[0] == SEGVARTIN_YUV422 ? s->h : (s->h + 1) / 2); }

static size_t set_len(const set *s) { return SET_HEADER + set_luma(s) + 2 * set_chroma(s); }

static size_t set_file_len(const set *sets, size_t n) {
    size_t len = START + PAIR * n;
    for (size_t k = 0; k < n; k++) len += set_len(sets + k);
    return len;
}

static void put_set_header(uint8_t *at, const set *s) {
    put(at, 4, s->crossing);
    put(at + 4, 2, s->w);
    put(at + 6, 2, s->h);
    memcpy(at + 8, s->four, 4);
}

static void put_set(uint8_t *at, const set *s) {
    put_set_header(at, s);
    for (size_t b = SET_HEADER; b < set_len(s); b++) at[b] = (uint8_t)(s->crossing + 13 * b + b / 251);
}

static void put_sets(uint8_t *at, const set *sets, size_t n) {
    for (size_t k = 0; k < n; k++) {
        put_set(at, sets + k);
        at += set_len(sets + k);
    }
}

/* The first number, count and pairs. */
static void put_set_pairs(uint8_t *at, const set *sets, size_t n) {
    uint64_t offset = START + PAIR * (uint64_t)n;
    put(at, 4, 0xffffffff);
    put(at + 4, 4, n);
    for (size_t k = 0; k < n; k++) {
        put(at + START + PAIR * k, 8, offset);
        put(at + START + PAIR * k + 8, 4, set_len(sets + k));
        offset += set_len(sets + k);
    }
}

static void put_set_file(uint8_t *at, const set *sets, size_t n) {
    put_set_pairs(at, sets, n);
    put_sets(at + START + PAIR * n, sets, n);
}

static lent lend_copy(const uint8_t *bytes, size_t len) {
    lent b = lend(len);
    memcpy(b.at, bytes, len);
    return b;
}

static lent lend_set_file(const set *sets, size_t n) {
    lent b = lend(set_file_len(sets, n));
    put_set_file(b.at, sets, n);
    return b;
}

static lent lend_file(const item *items, size_t n) {
    lent b = lend(file_len(items, n));
    put_file(b.at, items, n);
    return b;
}

/* RULES 11.7: whether a record may have this byte there. */
static int is_code(int place, uint32_t code) {
    static const uint32_t last[4] = {1, 1, 6, 3};
    return code <= last[place] || (place > 0 && code == NONE);
}

/* What is read of a record that starts there. */
static void expect_set(segvartin_bytes file, const segvartin_settings_record *r, const set *s, uint64_t offset, size_t header) {
    const segvartin_shift_record *p = &r->shift;
    size_t luma = set_luma(s), chroma = set_chroma(s);
    EXPECT(p->crossing == s->crossing && p->width == s->w && p->height == s->h);
    EXPECT(p->offset == offset && p->length == header + luma + 2 * chroma);
    EXPECT(p->y_offset == offset + header && p->y_length == luma);
    EXPECT(p->u_offset == offset + header + luma && p->u_length == chroma);
    EXPECT(p->v_offset == offset + header + luma + chroma && p->v_length == chroma);
    EXPECT(r->sampling == s->four[0] && r->range == s->four[1] && r->matrix == s->four[2] && r->transfer == s->four[3]);
    EXPECT(segvartin_shift_whole(file, p).at == file.at + offset && segvartin_shift_whole(file, p).len == p->length);
    EXPECT(segvartin_shift_v(file, p).at == file.at + p->v_offset && segvartin_shift_v(file, p).len == chroma);
}

/* A good file is read from a record on, with room for so many; one without settings has sets whose settings are those of 11.8. */
static void reads(segvartin_bytes file, const set *sets, size_t n, size_t first, size_t room, int form) {
    lent records = lend(room * sizeof(segvartin_settings_record));
    segvartin_settings_record *r = (segvartin_settings_record *)(void *)records.at;
    size_t count = 99, read = 99, left = first < n ? n - first : 0, told = left < room ? left : room;
    size_t header = form == SEGVARTIN_WITH_SETTINGS ? SET_HEADER : HEADER;
    uint64_t offset = (form == SEGVARTIN_WITH_SETTINGS ? START : COUNT) + PAIR * (uint64_t)n;
    int is_form = 99;
    EXPECT(finished(segvartin_read_any_shift_file(file, first, r, room, &count, &read, &is_form)));
    EXPECT(count == n && read == told && is_form == form);
    for (size_t k = 0; k < first + told && k < n; k++) {
        if (k >= first) expect_set(file, r + (k - first), sets + k, offset, header);
        offset += header + set_luma(sets + k) + 2 * set_chroma(sets + k);
    }
    EXPECT(untouched_from(&records, told * sizeof *r));
    give_back(&records);
}

/* The reader of the form without settings: 15, and no record is written. */
static void refuses_as_old(segvartin_bytes file) {
    lent records = lend(2 * sizeof(segvartin_shift_record));
    size_t count = 99, read = 99;
    EXPECT(broken(segvartin_read_shift_file(file, 0, (segvartin_shift_record *)(void *)records.at, 2, &count, &read)));
    EXPECT(count == 0 && read == 0 && untouched(&records));
    give_back(&records);
}

/* These bytes are a file of neither form: 15, and no record is written. */
static void refuses(segvartin_bytes file) {
    lent records = lend(2 * sizeof(segvartin_settings_record));
    size_t count = 99, read = 99;
    int form = 99;
    EXPECT(broken(segvartin_read_any_shift_file(file, 0, (segvartin_settings_record *)(void *)records.at, 2, &count, &read, &form)));
    EXPECT(count == 0 && read == 0 && form == SEGVARTIN_WITHOUT_SETTINGS && untouched(&records));
    give_back(&records);
    refuses_as_old(file);
}

/* RULES 11.7 */
static const uint8_t worked[74] = {
    255,  255,  255, 255,                                                                                     /* the first number */
    2,    0,    0,   0,                                                                                       /* count */
    32,   0,    0,   0, 0, 0, 0, 0, 22, 0,    0,    0,                                                        /* pair 0 */
    54,   0,    0,   0, 0, 0, 0, 0, 20, 0,    0,    0,                                                        /* pair 1 */
    0x78, 0x05, 0,   0, 3, 0, 2, 0, 0,  NONE, NONE, NONE, 0x10, 0x11, 0x12, 0x20, 0x21, 0x22, 0x30, 0x31, 0x40, 0x41, /* record 0 */
    0x70, 0x11, 1,   0, 2, 0, 2, 0, 1,  1,    6,    3,    0x50, 0x51, 0x52, 0x53, 0x60, 0x61, 0x70, 0x71,     /* record 1 */
};

static const set worked_sets[2] = {{1400, 3, 2, {0, NONE, NONE, NONE}}, {70000, 2, 2, {1, 1, 6, 3}}};

/* RULES 11.1, and 11.8: that file moved forward */
static const uint8_t old[57] = {
    2,    0,    0, 0,                                                                            /* count */
    28,   0,    0, 0, 0, 0, 0, 0, 18,   0,    0,    0,                                           /* pair 0 */
    46,   0,    0, 0, 0, 0, 0, 0, 11,   0,    0,    0,                                           /* pair 1 */
    0x78, 0x05, 0, 0, 3, 0, 2, 0, 0x10, 0x11, 0x12, 0x20, 0x21, 0x22, 0x30, 0x31, 0x40, 0x41, /* record 0 */
    0x70, 0x11, 1, 0, 1, 0, 1, 0, 0x50, 0x60, 0x70,                                              /* record 1 */
};
static const uint8_t moved[69] = {
    255,  255,  255, 255,                                                                                     /* the first number */
    2,    0,    0,   0,                                                                                       /* count */
    32,   0,    0,   0, 0, 0, 0, 0, 22, 0,    0,    0,                                                        /* pair 0 */
    54,   0,    0,   0, 0, 0, 0, 0, 15, 0,    0,    0,                                                        /* pair 1 */
    0x78, 0x05, 0,   0, 3, 0, 2, 0, 0,  NONE, NONE, NONE, 0x10, 0x11, 0x12, 0x20, 0x21, 0x22, 0x30, 0x31, 0x40, 0x41, /* record 0 */
    0x70, 0x11, 1,   0, 1, 0, 1, 0, 0,  NONE, NONE, NONE, 0x50, 0x60, 0x70,                                   /* record 1 */
};

static void worked_file(void) {
    static const set old_sets[2] = {{1400, 3, 2, {0, NONE, NONE, NONE}}, {70000, 1, 1, {0, NONE, NONE, NONE}}};
    static const uint8_t y[6] = {0x50, 0x51, 0x99, 0x52, 0x53, 0x99}, u[2] = {0x60, 0x61}, v[4] = {0x70, 0x99, 0x71, 0x99};
    lent file = lend_copy(worked, sizeof worked), without = lend_copy(old, sizeof old), output = lend(sizeof worked + 3), record = lend(23);
    segvartin_bytes records = {worked + 32, sizeof worked - 32}, y_plane = {y, sizeof y}, u_plane = {u, sizeof u}, v_plane = {v, sizeof v};
    segvartin_description d = {0};
    size_t size = 0;
    EXPECT(sizeof(segvartin_settings_record) == 15 * sizeof(uint64_t));
    for (size_t first = 0; first < 4; first++)
        for (size_t room = 0; room < 4; room++) {
            reads(read_of(&file), worked_sets, 2, first, room, SEGVARTIN_WITH_SETTINGS);
            reads(read_of(&without), old_sets, 2, first, room, SEGVARTIN_WITHOUT_SETTINGS);
        }
    reads(read_of(&file), worked_sets, 2, SIZE_MAX, 2, SEGVARTIN_WITH_SETTINGS);
    reads(read_of(&file), worked_sets, 2, SIZE_MAX / 15 + 1, 2, SEGVARTIN_WITH_SETTINGS);
    reads(read_of(&file), worked_sets, 2, (size_t)1 << 32, 2, SEGVARTIN_WITH_SETTINGS);
    refuses_as_old(read_of(&file));
    EXPECT(finished(segvartin_write_settings_file(records, all(&output), &size)));
    EXPECT(size == sizeof worked && memcmp(output.at, worked, sizeof worked) == 0 && untouched_from(&output, size));
    d.width = 2, d.height = 2;
    d.sampling = SEGVARTIN_YUV422, d.range = SEGVARTIN_FULL, d.matrix = SEGVARTIN_CUSTOM, d.transfer = SEGVARTIN_GAMMA2P8;
    d.kr = 7, d.kb = -1; /* not looked at, and not recorded */
    d.y_stride = 3, d.u_stride = 1, d.v_stride = 2;
    EXPECT(finished(segvartin_write_settings_record(70000, &d, y_plane, u_plane, v_plane, all(&record), &size)));
    EXPECT(size == 20 && memcmp(record.at, worked + 54, 20) == 0 && untouched_from(&record, size));
    EXPECT(memcmp(file.at, worked, sizeof worked) == 0);
    give_back(&record);
    give_back(&output);
    give_back(&without);
    give_back(&file);
}

/* Crossings and planes are free, and of the settings what is a code; of the other bits none may be another. */
static void every_bit(void) {
    static const size_t free_bytes[4][2] = {{32, 36}, {44, 58}, {66, 74}, {74, 74}};
    lent file = lend_copy(worked, sizeof worked);
    for (size_t at = 0; at < sizeof worked; at++) {
        int is_free = 0;
        for (int i = 0; i < 4; i++) is_free |= at >= free_bytes[i][0] && at < free_bytes[i][1];
        for (int bit = 0; bit < 8; bit++) {
            size_t count, read;
            int form, place = at >= 40 && at < 44 ? (int)at - 40 : at >= 62 && at < 66 ? (int)at - 62 : -1;
            segvartin_settings_record r;
            file.at[at] ^= (uint8_t)(1 << bit);
            /* another sampling makes either record another length */
            if (is_free || (place > 0 && is_code(place, file.at[at]))) {
                EXPECT(finished(segvartin_read_any_shift_file(read_of(&file), 0, &r, 1, &count, &read, &form)));
                EXPECT(count == 2 && read == 1 && form == SEGVARTIN_WITH_SETTINGS);
                refuses_as_old(read_of(&file));
            } else
                refuses(read_of(&file));
            file.at[at] ^= (uint8_t)(1 << bit);
        }
    }
    EXPECT(memcmp(file.at, worked, sizeof worked) == 0);
    give_back(&file);
}

static void every_cut(void) {
    for (size_t len = 0; len < sizeof worked; len++) {
        lent file = lend_copy(worked, len), output = lend(100);
        size_t size = 99;
        refuses(read_of(&file));
        EXPECT(broken(segvartin_move_back(read_of(&file), all(&output), &size)) && size == 0 && untouched(&output));
        EXPECT(broken(segvartin_move_forward(read_of(&file), all(&output), &size)) && size == 0 && untouched(&output));
        give_back(&output);
        give_back(&file);
    }
    for (size_t more = 1; more < 30; more++) {
        lent file = lend(sizeof worked + more);
        memcpy(file.at, worked, sizeof worked);
        refuses(read_of(&file));
        give_back(&file);
    }
}

/* Numbers of a hostile file, each in the place of the right one; and records of one form in a file of the other. */
static void hostile_numbers(void) {
    static const struct {
        size_t at;
        int bytes;
        uint64_t values[8];
    } places[] = {
        {0, 4, {0, 1, 2, 4096, 4097, 0xfffffffe, 0x7fffffff, 0xffffff}},
        {4, 4, {0, 1, 3, 4096, 4097, 0x10002, 0x80000000, 0xffffffff}},
        {8, 8, {0, 4, 28, 31, 33, (1ull << 32) + 32, UINT64_MAX, 1ull << 63}},
        {20, 8, {0, 32, 50, 53, 55, (1ull << 32) + 54, UINT64_MAX, UINT64_MAX - 19}},
        {16, 4, {0, 18, 21, 23, 26, 0x10016, 0x80000000, 0xffffffff}},
        {28, 4, {0, 16, 18, 19, 21, 0x10014, 0x80000000, 0xffffffff}},
        {36, 2, {0, 1, 2, 4, 16384, 16385, 0x8000, 0xffff}},
        {60, 2, {0, 1, 3, 4, 16384, 16385, 0x8000, 0xffff}},
    };
    static const item items[2] = {{1400, 3, 2}, {70000, 1, 1}};
    lent file = lend_copy(worked, sizeof worked), other;
    for (size_t p = 0; p < sizeof places / sizeof *places; p++)
        for (int i = 0; i < 8; i++) {
            put(file.at + places[p].at, places[p].bytes, places[p].values[i]);
            refuses(read_of(&file));
            memcpy(file.at, worked, sizeof worked);
        }
    give_back(&file);
    /* records without settings behind the first number, offsets to match */
    other = lend(4 + file_len(items, 2));
    put(other.at, 4, 0xffffffff);
    put_file(other.at + 4, items, 2);
    refuses(read_of(&other));
    for (int k = 0; k < 2; k++) put(other.at + START + PAIR * k, 8, k == 0 ? 32 : 50);
    refuses(read_of(&other));
    give_back(&other);
    /* records with settings without the first number, offsets to match */
    other = lend(sizeof worked - 4);
    memcpy(other.at, worked + 4, sizeof worked - 4);
    refuses(read_of(&other));
    for (int k = 0; k < 2; k++) put(other.at + COUNT + PAIR * k, 8, k == 0 ? 28 : 50);
    refuses(read_of(&other));
    give_back(&other);
}

/* A file of one record of 1 x 1, which is as long in either sampling, with every byte in each of the four places. */
static void every_setting(void) {
    for (int place = 0; place < 4; place++)
        for (uint32_t value = 0; value < 256; value++) {
            set one = {1400, 1, 1, {0, NONE, NONE, NONE}}, good = {1400, 1, 1, {0, NONE, NONE, NONE}};
            lent file, records = lend(15), output = lend(40), summary = lend(ENTRY), like = lend_set_file(&good, 1), report = lend(18 * 8);
            size_t size = 99;
            int known = is_code(place, value), broken_file = 99;
            segvartin_answer a;
            one.four[place] = (uint8_t)value;
            file = lend_set_file(&one, 1);
            put_set(records.at, &one);
            if (known)
                reads(read_of(&file), &one, 1, 0, 1, SEGVARTIN_WITH_SETTINGS);
            else
                refuses(read_of(&file));
            a = segvartin_write_settings_file(read_of(&records), all(&output), &size);
            if (known)
                EXPECT(finished(a) && size == 35 && memcmp(output.at, file.at, 35) == 0 && untouched_from(&output, 35));
            else
                EXPECT(broken(a) && size == 0 && untouched(&output));
            give_back(&output);
            /* 15 before 20 before 16 */
            for (size_t room = 26; room <= 27; room++) {
                int unsaid = place == 0 ? value == 0 : value == NONE;
                output = lend(room);
                a = segvartin_move_back(read_of(&file), all(&output), &size);
                if (!known)
                    EXPECT(broken(a) && size == 0 && untouched(&output));
                else if (!unsaid)
                    EXPECT(recorded(a) && size == 0 && untouched(&output));
                else if (room < 27)
                    EXPECT(short_output(a) && size == 27 && untouched(&output));
                else
                    EXPECT(finished(a) && size == 27);
                give_back(&output);
            }
            a = segvartin_build_summary(read_of(&file), all(&summary));
            EXPECT(known ? finished(a) && summary.at[4] == 20 : broken(a) && untouched(&summary));
            a = segvartin_pair_shift_files(read_of(&like), read_of(&file), (segvartin_pair_report *)(void *)report.at, &broken_file);
            if (known) {
                const segvartin_pair_report *r = (const segvartin_pair_report *)(const void *)report.at;
                uint64_t unlike = place == 0 && value == 1;
                EXPECT(finished(a) && broken_file == SEGVARTIN_NEITHER && r->equal == 1 - unlike && r->differing == unlike);
                EXPECT(r->difference == (unlike ? SEGVARTIN_SIZES_DIFFER : SEGVARTIN_NO_DIFFERENCE) && r->our_sampling == 0 && r->their_sampling == unlike);
                EXPECT(r->our_width == unlike && r->our_height == unlike && r->their_width == unlike && r->their_height == unlike && r->zero == 0);
            } else
                EXPECT(broken(a) && broken_file == SEGVARTIN_THEIRS && untouched(&report));
            give_back(&report);
            give_back(&like);
            give_back(&summary);
            give_back(&records);
            give_back(&file);
        }
}

static void no_records(void) {
    static const uint8_t nothing[8] = {255, 255, 255, 255};
    lent file = lend_copy(nothing, 8), none = lend(0);
    reads(read_of(&file), NULL, 0, 0, 0, SEGVARTIN_WITH_SETTINGS);
    reads(read_of(&file), NULL, 0, 7, 2, SEGVARTIN_WITH_SETTINGS);
    refuses_as_old(read_of(&file));
    for (size_t len = 0; len < 12; len++) {
        lent output = lend(len), back = lend(len), forward = lend(len), old_file = lend(4);
        size_t size = 99;
        segvartin_answer a = segvartin_write_settings_file(read_of(&none), all(&output), &size);
        memset(old_file.at, 0, 4);
        EXPECT(size == 8);
        EXPECT(len < 8 ? short_output(a) && untouched(&output) : finished(a) && memcmp(output.at, nothing, 8) == 0 && untouched_from(&output, 8));
        a = segvartin_move_forward(read_of(&old_file), all(&forward), &size);
        EXPECT(size == 8);
        EXPECT(len < 8 ? short_output(a) && untouched(&forward) : finished(a) && memcmp(forward.at, nothing, 8) == 0 && untouched_from(&forward, 8));
        a = segvartin_move_back(read_of(&file), all(&back), &size);
        EXPECT(size == 4);
        EXPECT(len < 4 ? short_output(a) && untouched(&back) : finished(a) && memcmp(back.at, old_file.at, 4) == 0 && untouched_from(&back, 4));
        give_back(&old_file);
        give_back(&forward);
        give_back(&back);
        give_back(&output);
    }
    give_back(&none);
    give_back(&file);
}

static const set several[] = {{0, 1, 1, {1, 0, 0, 0}},  {UINT32_MAX, 2, 1, {0, 1, 6, 3}},   {7, 1, 2, {1, NONE, NONE, NONE}}, {7, 3, 3, {1, 1, 5, 2}},
                              {1400, 4, 4, {0, NONE, 4, 0}}, {5, 17, 9, {1, 0, NONE, 1}}, {6, 64, 48, {0, 1, 3, NONE}},     {9, 1, 300, {1, NONE, 2, 3}}};

enum { SEVERAL = sizeof several / sizeof *several };

static void some_files(void) {
    for (size_t n = 0; n <= SEVERAL; n++) {
        lent file = lend_set_file(several, n);
        for (size_t first = 0; first <= n + 1; first++)
            for (size_t room = 0; room <= n + 2; room++) reads(read_of(&file), several, n, first, room, SEGVARTIN_WITH_SETTINGS);
        refuses_as_old(read_of(&file));
        give_back(&file);
    }
}

/* The exported function fills whole fifteens of the numbers that it is lent, and no other number. */
static void numbers_lent(void) {
    lent file = lend_set_file(several, 3);
    for (size_t lent_numbers = 0; lent_numbers < 50; lent_numbers++) {
        lent entries = lend(lent_numbers * sizeof(uint64_t)), told = lend(3 * sizeof(size_t));
        size_t *three = (size_t *)(void *)told.at, whole = lent_numbers / 15 < 3 ? lent_numbers / 15 : 3;
        uint64_t *numbers = (uint64_t *)(void *)entries.at;
        EXPECT(segvartin_call_shift_records_any(file.at, file.len, 0, numbers, lent_numbers, three) == 0);
        EXPECT(three[0] == 3 && three[1] == whole && three[2] == 1 && untouched_from(&entries, 15 * whole * sizeof(uint64_t)));
        if (whole == 3) EXPECT(numbers[30] == 7 && numbers[31] == 1 && numbers[32] == 2 && numbers[41] == 1 && numbers[42] == NONE && numbers[44] == NONE);
        file.at[4]++;
        EXPECT(segvartin_call_shift_records_any(file.at, file.len, 0, numbers, lent_numbers, three) == SEGVARTIN_MALFORMED_SHIFT_FILE);
        EXPECT(three[0] == 0 && three[1] == 0 && three[2] == 0 && untouched_from(&entries, 15 * whole * sizeof(uint64_t)));
        file.at[4]--;
        give_back(&told);
        give_back(&entries);
    }
    give_back(&file);
}

/* Of a file only the pages with pairs or first bytes of records can be touched. */
static void planes_are_not_read(void) {
    static const set large[3] = {{1, 16384, 3, {1, 0, 0, 0}}, {2, 100, 900, {0, 1, 1, 1}}, {3, 16384, 16384, {1, NONE, 6, NONE}}};
    size_t page = (size_t)sysconf(_SC_PAGESIZE), len = set_file_len(large, 3), offset = START + PAIR * 3;
    uint8_t *map = mmap(NULL, len + page, PROT_NONE, MAP_PRIVATE | MAP_ANONYMOUS | MAP_NORESERVE, -1, 0), *file;
    segvartin_bytes bytes;
    if (map == MAP_FAILED) {
        perror("mmap");
        exit(2);
    }
    file = map + (closed_before ? 0 : page - len % page);
    for (int k = -1; k < 3; k++) {
        size_t from = k < 0 ? 0 : offset, size = k < 0 ? START + PAIR * 3 : SET_HEADER, start;
        uint8_t *at = file + from;
        start = (size_t)(at - map) % page;
        if (mprotect(at - start, start + size, PROT_READ | PROT_WRITE) != 0) {
            perror("mprotect");
            exit(2);
        }
        if (k < 0)
            put_set_pairs(at, large, 3);
        else {
            put_set_header(at, large + k);
            offset += set_len(large + k);
        }
    }
    EXPECT(offset == len);
    bytes.at = file;
    bytes.len = len;
    reads(bytes, large, 3, 0, 3, SEGVARTIN_WITH_SETTINGS);
    bytes.len = len - 1;
    refuses(bytes);
    munmap(map, len + page);
}

/* Records are written to an output of every length near that of the file. */
static void some_writes(void) {
    for (size_t n = 0; n <= SEVERAL; n++) {
        lent file = lend_set_file(several, n), records;
        size_t len = file.len;
        records = lend(len - START - PAIR * n);
        put_sets(records.at, several, n);
        for (size_t output_len = len < 40 ? 0 : len - 40; output_len < len + 40; output_len++) {
            lent output = lend(output_len);
            size_t size = 99;
            segvartin_answer a = segvartin_write_settings_file(read_of(&records), all(&output), &size);
            EXPECT(size == len);
            if (output_len < len)
                EXPECT(short_output(a) && untouched(&output));
            else
                EXPECT(finished(a) && memcmp(output.at, file.at, len) == 0 && untouched_from(&output, len));
            give_back(&output);
        }
        give_back(&records);
        give_back(&file);
    }
}

/* Records that end early, at every byte; those of one form for the writer of the other. */
static void broken_records(void) {
    static const set two[2] = {{1400, 3, 2, {1, 0, 1, 0}}, {70000, 2, 1, {0, NONE, NONE, NONE}}};
    static const item plain[2] = {{1400, 3, 2}, {70000, 2, 1}};
    lent whole = lend(set_len(two) + set_len(two + 1)), without = lend(record_len(plain) + record_len(plain + 1)), output = lend(100);
    size_t size = 99;
    put_sets(whole.at, two, 2);
    put_records(without.at, plain, 2);
    for (size_t len = 0; len <= whole.len + 12; len++) {
        lent records = lend(len), room = lend(100);
        segvartin_bytes_mut nothing = {room.at, 0};
        segvartin_answer a;
        memcpy(records.at, whole.at, len < whole.len ? len : whole.len);
        for (size_t i = whole.len; i < len; i++) records.at[i] = 1;
        a = segvartin_write_settings_file(read_of(&records), all(&room), &size);
        if (len == 0 || len == set_len(two) || len == whole.len)
            EXPECT(finished(a) && size == len + START + PAIR * (len == 0 ? 0 : len == whole.len ? 2 : 1));
        else {
            EXPECT(broken(a) && size == 0 && untouched(&room));
            EXPECT(broken(segvartin_write_settings_file(read_of(&records), nothing, &size)) && size == 0); /* 15 before 16 */
        }
        give_back(&room);
        give_back(&records);
    }
    EXPECT(broken(segvartin_write_settings_file(read_of(&without), all(&output), &size)) && size == 0 && untouched(&output));
    EXPECT(broken(segvartin_write_shift_file(read_of(&whole), all(&output), &size)) && size == 0 && untouched(&output));
    give_back(&output);
    give_back(&without);
    give_back(&whole);
}

/* The file of RULES 11.1 forward, that of 11.8 back, and files of several records there and back, into outputs of every length. */
static void moves(void) {
    static const item items[5] = {{0, 1, 1}, {7, 3, 2}, {UINT32_MAX, 2, 5}, {7, 40, 3}, {1400, 1, 33}};
    for (size_t n = 0; n <= 6; n++) {
        lent from = n == 6 ? lend_copy(old, sizeof old) : lend_file(items, n), to;
        set sets[5];
        for (size_t k = 0; k < 5; k++) {
            const set one = {items[k].crossing, items[k].w, items[k].h, {0, NONE, NONE, NONE}};
            sets[k] = one;
        }
        to = n == 6 ? lend_copy(moved, sizeof moved) : lend(set_file_len(sets, n));
        if (n < 6) {
            put_set_pairs(to.at, sets, n);
            for (size_t k = 0, at = START + PAIR * n, was = COUNT + PAIR * n; k < n; at += set_len(sets + k), was += record_len(items + k), k++) {
                put_set_header(to.at + at, sets + k);
                memcpy(to.at + at + SET_HEADER, from.at + was + HEADER, record_len(items + k) - HEADER);
            }
        }
        for (int forward = 0; forward < 2; forward++) {
            const lent *file = forward ? &from : &to, *result = forward ? &to : &from;
            lent kept = lend_copy(file->at, file->len);
            for (size_t len = 0; len < result->len + 20; len++) {
                lent output = lend(len);
                size_t size = 99;
                segvartin_answer a =
                    forward ? segvartin_move_forward(read_of(file), all(&output), &size) : segvartin_move_back(read_of(file), all(&output), &size);
                EXPECT(size == result->len);
                if (len < result->len)
                    EXPECT(short_output(a) && untouched(&output));
                else
                    EXPECT(finished(a) && memcmp(output.at, result->at, result->len) == 0 && untouched_from(&output, result->len));
                /* the other call does not take this form, whatever the output is */
                memset(output.at, 0, len);
                size = 99;
                a = forward ? segvartin_move_back(read_of(file), all(&output), &size) : segvartin_move_forward(read_of(file), all(&output), &size);
                EXPECT(broken(a) && size == 0);
                for (size_t i = 0; i < len; i++)
                    if (output.at[i] != 0) EXPECT(0);
                give_back(&output);
            }
            EXPECT(memcmp(file->at, kept.at, kept.len) == 0);
            give_back(&kept);
        }
        give_back(&to);
        give_back(&from);
    }
}

/* 20 of each record and each setting, whatever the output is; and not where the file is broken. */
static void not_moved_back(void) {
    for (size_t k = 0; k < SEVERAL; k++)
        for (int place = 0; place < 4; place++) {
            set sets[SEVERAL];
            lent file;
            memcpy(sets, several, sizeof sets);
            for (size_t i = 0; i < SEVERAL; i++) sets[i].four[0] = 0, sets[i].four[1] = sets[i].four[2] = sets[i].four[3] = NONE;
            sets[k].four[place] = place == 0;
            file = lend_set_file(sets, SEVERAL);
            for (int room = 0; room < 3; room++) {
                lent output = lend(room == 0 ? 0 : room == 1 ? 30 : file.len);
                size_t size = 99;
                EXPECT(recorded(segvartin_move_back(read_of(&file), all(&output), &size)) && size == 0 && untouched(&output));
                file.len--;
                EXPECT(broken(segvartin_move_back(read_of(&file), all(&output), &size)) && size == 0 && untouched(&output));
                file.len++;
                give_back(&output);
            }
            give_back(&file);
        }
}

/* As many records as there may be, and one more. */
static void full_files(void) {
    static set sets[MOST + 1];
    static item items[MOST + 1];
    for (uint32_t k = 0; k <= MOST; k++) {
        const set one = {k * 2654435761u, 1, 1, {0, NONE, NONE, NONE}};
        const item plain = {one.crossing, 1, 1};
        sets[k] = one;
        items[k] = plain;
    }
    for (size_t n = MOST - 1; n <= MOST + 1; n++) {
        lent file = lend_set_file(sets, n), without = lend_file(items, n), output = lend(file.len), back = lend(without.len), records = lend(15 * n);
        size_t size = 99;
        put_sets(records.at, sets, n);
        if (n <= MOST) {
            reads(read_of(&file), sets, n, n - 2, 2, SEGVARTIN_WITH_SETTINGS);
            EXPECT(finished(segvartin_write_settings_file(read_of(&records), all(&output), &size)) && size == file.len);
            EXPECT(memcmp(output.at, file.at, size) == 0);
            EXPECT(finished(segvartin_move_forward(read_of(&without), all(&output), &size)) && size == file.len);
            EXPECT(finished(segvartin_move_back(read_of(&output), all(&back), &size)) && size == without.len);
            EXPECT(memcmp(back.at, without.at, size) == 0);
        } else {
            refuses(read_of(&file));
            EXPECT(broken(segvartin_write_settings_file(read_of(&records), all(&output), &size)) && size == 0 && untouched(&output));
            EXPECT(broken(segvartin_move_forward(read_of(&without), all(&output), &size)) && size == 0 && untouched(&output));
            EXPECT(broken(segvartin_move_back(read_of(&file), all(&output), &size)) && size == 0 && untouched(&output));
        }
        give_back(&records);
        give_back(&back);
        give_back(&output);
        give_back(&without);
        give_back(&file);
    }
}

typedef struct planes {
    lent y, u, v;
} planes;

static size_t chroma_rows(const segvartin_description *d) { return d->sampling == SEGVARTIN_YUV422 ? d->height : d->height / 2 + d->height % 2; }

static planes lend_planes(const segvartin_description *d) {
    planes p = {lend(d->y_stride * (size_t)d->height), lend(d->u_stride * chroma_rows(d)), lend(d->v_stride * chroma_rows(d))};
    return p;
}

static void give_back_planes(planes *p) {
    give_back(&p->y);
    give_back(&p->u);
    give_back(&p->v);
}

static int same_rows(segvartin_bytes plane, const lent *b, uint32_t row, uint32_t stride) {
    if (plane.len / row * stride != b->len) return 0;
    for (size_t r = 0; r * row < plane.len; r++)
        if (memcmp(plane.at + r * row, b->at + r * stride, row) != 0) return 0;
    return 1;
}

static segvartin_answer make(const segvartin_description *d, const planes *p, lent *record, size_t *size) {
    return segvartin_write_settings_record(0x89abcdef, d, read_of(&p->y), read_of(&p->u), read_of(&p->v), all(record), size);
}

/* A record of planes with these settings, for outputs around its length. */
static void one_record(uint32_t w, uint32_t h, const uint8_t four[4], uint32_t padding) {
    segvartin_description d = {0};
    set s = {0x89abcdef, w, h, {four[0], four[1], four[2], four[3]}};
    size_t len = set_len(&s);
    planes p;
    d.width = w, d.height = h;
    d.sampling = four[0], d.range = four[1], d.matrix = four[2], d.transfer = four[3];
    d.y_stride = w + padding, d.u_stride = (w + 1) / 2 + padding % 3, d.v_stride = (w + 1) / 2 + padding % 2;
    p = lend_planes(&d);
    for (size_t output_len = len - 3; output_len < len + 4; output_len++) {
        lent record = lend(output_len);
        size_t size = 99;
        segvartin_answer a = make(&d, &p, &record, &size);
        EXPECT(size == len);
        if (output_len < len)
            EXPECT(short_output(a) && untouched(&record));
        else {
            uint8_t header[SET_HEADER];
            segvartin_bytes y = {record.at + SET_HEADER, set_luma(&s)}, u = {y.at + y.len, set_chroma(&s)}, v = {u.at + u.len, u.len};
            put_set_header(header, &s);
            EXPECT(finished(a) && memcmp(record.at, header, SET_HEADER) == 0 && untouched_from(&record, len));
            EXPECT(same_rows(y, &p.y, w, d.y_stride) && same_rows(u, &p.u, (w + 1) / 2, d.u_stride) && same_rows(v, &p.v, (w + 1) / 2, d.v_stride));
        }
        give_back(&record);
    }
    EXPECT(untouched(&p.y) && untouched(&p.u) && untouched(&p.v));
    give_back_planes(&p);
}

static void records_from_planes(void) {
    for (uint32_t w = 1; w < 10; w++)
        for (uint32_t h = 1; h < 6; h++)
            for (uint8_t sampling = 0; sampling < 2; sampling++) {
                const uint8_t four[4] = {sampling, (uint8_t)(w % 2), (uint8_t)((w + h) % 7), (uint8_t)(h % 4)};
                one_record(w, h, four, (w + h) % 5);
            }
    one_record(640, 480, several[5].four, 0);
    one_record(641, 481, several[2].four, 64);
    one_record(16384, 2, several[0].four, 3);
    one_record(1, 16384, several[7].four, 1);
}

/* Every number to 300 in each of the four places, and large ones; planes of 5 by 3 in 4:2:2. */
static void every_code(void) {
    static const uint32_t large[] = {511, 512, 65535, 65536, 65791, 0x80000000, 0xffffff00, UINT32_MAX};
    for (int place = 0; place < 4; place++)
        for (uint32_t i = 0; i < 300 + sizeof large / sizeof *large; i++) {
            uint32_t value = i < 300 ? i : large[i - 300];
            segvartin_description d = {0};
            uint32_t *const fields[4] = {&d.sampling, &d.range, &d.matrix, &d.transfer};
            lent record = lend(45);
            planes p;
            size_t size = 99;
            segvartin_answer a;
            d.width = 5, d.height = 3, d.y_stride = 5, d.u_stride = d.v_stride = 3;
            d.sampling = SEGVARTIN_YUV422;
            p = lend_planes(&d);
            *fields[place] = value;
            a = make(&d, &p, &record, &size);
            if (!is_code(place, value))
                EXPECT(broken(a) && size == 0 && untouched(&record));
            else if (place == 0 && value == 0)
                EXPECT(is(a, SEGVARTIN_WHOLE_ROWS_MISMATCH, 6, 9) && size == 0 && untouched(&record)); /* U has the rows of 4:2:2 */
            else
                EXPECT(finished(a) && size == 45 && record.at[8 + place] == value);
            give_back_planes(&p);
            give_back(&record);
        }
}

/* Planes of 5 by 3 in 4:2:2 with strides 8, 4, 5, one number changed; refused whatever the output is. */
static void refused_planes(void) {
    static const struct {
        uint32_t w, h, sampling, matrix, y_stride, u_stride, v_stride;
        size_t y_len, u_len, v_len;
        uint32_t number;
        size_t expected, received;
    } cases[] = {
        {0, 3, 1, 0, 8, 4, 5, 24, 12, 15, 15, 0, 0},
        {5, 16385, 1, 0, 8, 4, 5, 24, 12, 15, 15, 0, 0},
        {65541, 3, 1, 0, 8, 4, 5, 24, 12, 15, 15, 0, 0}, /* 5 in 16 bits */
        {5, 3, 2, 0, 8, 4, 5, 24, 12, 15, 15, 0, 0},
        {5, 3, 1, 7, 8, 4, 5, 24, 12, 15, 15, 0, 0},
        {5, 3, 1, 7, 0, 0, 0, 0, 0, 0, 15, 0, 0},
        {5, 3, 256, 0, 8, 4, 5, 24, 8, 10, 15, 0, 0}, /* 4:2:0 in 8 bits */
        {5, 3, 1, 6, 4, 4, 5, 24, 12, 15, 8, 15, 12},
        {5, 3, 1, 6, 8, 4, 5, 20, 12, 15, 9, 21, 20},
        {5, 3, 1, 6, UINT32_MAX, 4, 5, 24, 12, 15, 9, 2 * (size_t)UINT32_MAX + 5, 24},
        {5, 3, 1, 6, 8, 2, 5, 24, 12, 15, 10, 9, 6},
        {5, 3, 1, 6, 8, 4, 5, 24, 8, 10, 10, 11, 8}, /* the rows of 4:2:0 */
        {5, 3, 1, 6, 8, 4, 2, 24, 12, 15, 11, 9, 6},
        {5, 3, 1, 6, 8, 4, 5, 24, 12, 10, 11, 13, 10},
        {5, 3, 1, 6, 8, 4, 5, 21, 12, 15, 12, 24, 21},
        {5, 3, 1, 6, 8, 4, 5, 24, 16, 15, 12, 12, 16},
        {5, 3, 1, 6, 8, 4, 5, 24, 12, 20, 12, 15, 20},
        {5, 3, 0, 6, 8, 4, 5, 24, 12, 15, 12, 8, 12}, /* the rows of 4:2:2 */
    };
    static const size_t outputs[4] = {0, 44, 45, 100};
    for (size_t c = 0; c < sizeof cases / sizeof *cases; c++)
        for (int o = 0; o < 4; o++) {
            segvartin_description d = {0};
            planes p = {lend(cases[c].y_len), lend(cases[c].u_len), lend(cases[c].v_len)};
            lent record = lend(outputs[o]);
            size_t size = 99;
            d.width = cases[c].w, d.height = cases[c].h, d.sampling = cases[c].sampling, d.matrix = cases[c].matrix;
            d.y_stride = cases[c].y_stride, d.u_stride = cases[c].u_stride, d.v_stride = cases[c].v_stride;
            EXPECT(is(make(&d, &p, &record, &size), cases[c].number, cases[c].expected, cases[c].received));
            EXPECT(size == 0 && untouched(&record));
            give_back(&record);
            give_back_planes(&p);
        }
}

/* Frames in both samplings and every range, matrix and transfer converted, each recorded with its own settings; one file of them. */
static void frames_to_a_file(void) {
    enum { FRAMES = 2 * 2 * 7 * 4, W = 5, H = 3, LEN = 12 + W * H + 2 * 3 * H };
    static segvartin_settings_record read_records[FRAMES];
    static segvartin_description d[FRAMES];
    static planes p[FRAMES];
    lent records = lend(FRAMES * LEN), file = lend(8 + FRAMES * (12 + LEN)), source = lend(3 * W * H);
    segvartin_bytes bytes;
    size_t used = 0, size, count, read;
    int form;
    for (uint32_t k = 0; k < FRAMES; k++) {
        segvartin_bytes_mut rest = {records.at + used, records.len - used};
        memset(d + k, 0, sizeof *d);
        d[k].width = W, d[k].height = H, d[k].kr = 0.25f, d[k].kb = 0.125f;
        d[k].sampling = k % 2, d[k].range = k / 2 % 2, d[k].matrix = k / 4 % 7, d[k].transfer = k / 28;
        d[k].y_stride = W + k % 3, d[k].u_stride = 3 + k % 2, d[k].v_stride = 3 + k % 5;
        p[k] = lend_planes(d + k);
        EXPECT(finished(segvartin_convert_frame(d + k, read_of(&source), 3 * W, all(&p[k].y), all(&p[k].u), all(&p[k].v))));
        EXPECT(finished(segvartin_write_settings_record(1400 + k, d + k, read_of(&p[k].y), read_of(&p[k].u), read_of(&p[k].v), rest, &size)));
        used += size;
    }
    bytes.at = records.at;
    bytes.len = used;
    EXPECT(finished(segvartin_write_settings_file(bytes, all(&file), &size)) && size == used + START + FRAMES * PAIR);
    bytes.at = file.at;
    bytes.len = size;
    EXPECT(finished(segvartin_read_any_shift_file(bytes, 0, read_records, FRAMES, &count, &read, &form)));
    EXPECT(count == FRAMES && read == FRAMES && form == SEGVARTIN_WITH_SETTINGS);
    for (uint32_t k = 0; k < FRAMES; k++) {
        const segvartin_settings_record *r = read_records + k;
        EXPECT(r->shift.crossing == 1400 + k && r->shift.width == W && r->shift.height == H);
        EXPECT(r->sampling == d[k].sampling && r->range == d[k].range && r->matrix == d[k].matrix && r->transfer == d[k].transfer);
        EXPECT(same_rows(segvartin_shift_y(bytes, &r->shift), &p[k].y, W, d[k].y_stride));
        EXPECT(same_rows(segvartin_shift_u(bytes, &r->shift), &p[k].u, 3, d[k].u_stride));
        EXPECT(same_rows(segvartin_shift_v(bytes, &r->shift), &p[k].v, 3, d[k].v_stride));
        give_back_planes(p + k);
    }
    give_back(&source);
    give_back(&file);
    give_back(&records);
}

/* The entry of each record, by the test's own sum, in the order of crossings, and of the file where these are equal. */
static void put_summary(uint8_t *at, const uint8_t *file, const set *sets, size_t n) {
    size_t offsets[16], done[16] = {0};
    for (size_t k = 0, offset = START + PAIR * n; k < n; offset += set_len(sets + k++)) offsets[k] = offset;
    for (size_t i = 0; i < n; i++, at += ENTRY) {
        size_t least = n;
        uint64_t sum = 0;
        for (size_t k = 0; k < n; k++)
            if (!done[k] && (least == n || sets[k].crossing < sets[least].crossing)) least = k;
        done[least] = 1;
        for (size_t b = 0; b < set_luma(sets + least); b++) sum += file[offsets[least] + SET_HEADER + b];
        put(at, 4, sets[least].crossing);
        put(at + 4, 8, offsets[least]);
        at[12] = (uint8_t)(sum / set_luma(sets + least));
    }
}

/* Summaries of files with settings: built, checked, looked up, updated with a record of either form. */
static void summaries(void) {
    for (size_t n = 0; n < SEVERAL; n++) {
        lent file = lend_set_file(several, n), grown = lend_set_file(several, n + 1), record = lend(set_len(several + n)), plain = lend(11);
        static const item one = {7, 1, 1};
        uint8_t should[ENTRY * SEVERAL], after[ENTRY * SEVERAL];
        put_set(record.at, several + n);
        put_record(plain.at, &one);
        put_summary(should, file.at, several, n);
        put_summary(after, grown.at, several, n + 1);
        for (size_t len = 0; len < ENTRY * (n + 1) + 3; len++) {
            lent summary = lend(len), kept;
            int yes = 7, found = 7;
            segvartin_settings_record any;
            segvartin_shift_record r;
            segvartin_answer a = segvartin_build_summary(read_of(&file), all(&summary));
            if (len < ENTRY * n) {
                EXPECT(is(a, SEGVARTIN_SUMMARY_MISMATCH, 0, 0) && untouched(&summary));
                give_back(&summary);
                continue;
            }
            EXPECT(finished(a) && memcmp(summary.at, should, ENTRY * n) == 0 && untouched_from(&summary, ENTRY * n));
            EXPECT(finished(segvartin_check_summary(read_of(&file), read_of(&summary), &yes)) && yes == 1);
            for (size_t k = 0; k < n; k++) {
                size_t first = 0, offset = START + PAIR * n;
                while (several[first].crossing != several[k].crossing) offset += set_len(several + first++);
                EXPECT(finished(segvartin_find_any_record(read_of(&file), read_of(&summary), several[k].crossing, &any, &found)) && found == 1);
                expect_set(read_of(&file), &any, several + first, offset, SET_HEADER);
                EXPECT(finished(segvartin_find_record(read_of(&file), read_of(&summary), several[k].crossing, &r, &found)) && found == 1);
                EXPECT(memcmp(&r, &any.shift, sizeof r) == 0);
            }
            EXPECT(finished(segvartin_find_any_record(read_of(&file), read_of(&summary), 8, &any, &found)) && found == 0);
            kept = lend_copy(summary.at, len);
            /* a record of the form without settings is none here */
            EXPECT(broken(segvartin_update_summary(read_of(&file), read_of(&plain), all(&summary))) && memcmp(summary.at, kept.at, len) == 0);
            a = segvartin_update_summary(read_of(&file), read_of(&record), all(&summary));
            if (len < ENTRY * (n + 1))
                EXPECT(is(a, SEGVARTIN_SUMMARY_MISMATCH, 0, 0) && memcmp(summary.at, kept.at, len) == 0);
            else
                EXPECT(finished(a) && memcmp(summary.at, after, ENTRY * (n + 1)) == 0 && untouched_from(&summary, ENTRY * (n + 1)));
            give_back(&kept);
            give_back(&summary);
        }
        give_back(&plain);
        give_back(&record);
        give_back(&grown);
        give_back(&file);
    }
}

/* A file without settings does not take a record with settings, nor the summary of the same records with settings. */
static void summaries_of_the_other_form(void) {
    static const set one = {7, 1, 1, {0, NONE, NONE, NONE}};
    lent without = lend_copy(old, sizeof old), with = lend_copy(moved, sizeof moved), summary = lend(3 * ENTRY), other = lend(3 * ENTRY), record = lend(15);
    int yes = 7;
    put_set(record.at, &one);
    EXPECT(finished(segvartin_build_summary(read_of(&without), all(&summary))) && finished(segvartin_build_summary(read_of(&with), all(&other))));
    EXPECT(summary.at[4] == 28 && summary.at[ENTRY + 4] == 46 && other.at[4] == 32 && other.at[ENTRY + 4] == 54);
    EXPECT(finished(segvartin_check_summary(read_of(&without), read_of(&other), &yes)) && yes == 0);
    EXPECT(finished(segvartin_check_summary(read_of(&with), read_of(&summary), &yes)) && yes == 0);
    EXPECT(broken(segvartin_update_summary(read_of(&without), read_of(&record), all(&summary))));
    EXPECT(is(segvartin_update_summary(read_of(&with), read_of(&record), all(&summary)), SEGVARTIN_SUMMARY_MISMATCH, 0, 0));
    EXPECT(finished(segvartin_update_summary(read_of(&with), read_of(&record), all(&other))) && other.at[4] == 69 + 12);
    give_back(&record);
    give_back(&other);
    give_back(&summary);
    give_back(&with);
    give_back(&without);
}

/* The report of two files, each of either form, against a closed page. */
static segvartin_pair_report paired(const lent *ours, const lent *theirs) {
    lent room = lend(sizeof(segvartin_pair_report));
    segvartin_pair_report r;
    int which = 7;
    EXPECT(finished(segvartin_pair_shift_files(read_of(ours), read_of(theirs), (segvartin_pair_report *)(void *)room.at, &which)));
    EXPECT(which == SEGVARTIN_NEITHER);
    memcpy(&r, room.at, sizeof r);
    give_back(&room);
    return r;
}

/* Frames of each width without settings against the same with settings, and with settings in 4:2:2: every byte of the planes changed. */
static void mixed_pairs(void) {
    for (uint32_t w = 1; w <= 20; w++)
        for (uint32_t h = 1; h <= 3; h++) {
            const item one = {1400, w, h};
            const set same = {1400, w, h, {0, 1, 6, NONE}}, tall = {1400, w, h, {1, NONE, 0, 3}};
            lent plain = lend_file(&one, 1), with = lend_set_file(&same, 1), ours = lend_set_file(&tall, 1), theirs = lend_set_file(&tall, 1);
            segvartin_pair_report r;
            memcpy(with.at + START + PAIR + SET_HEADER, plain.at + COUNT + PAIR + HEADER, record_len(&one) - HEADER);
            r = paired(&plain, &with);
            EXPECT(r.equal == 1 && r.differing == 0 && r.difference == SEGVARTIN_NO_DIFFERENCE && r.our_sampling == 0 && r.their_sampling == 0);
            r = paired(&plain, &ours);
            EXPECT(r.equal == 0 && r.differing == 1 && r.difference == SEGVARTIN_SIZES_DIFFER && r.our_sampling == 0 && r.their_sampling == 1);
            EXPECT(r.our_width == w && r.our_height == h && r.their_width == w && r.their_height == h && r.plane == 0 && r.row == 0 && r.column == 0);
            r = paired(&ours, &with);
            EXPECT(r.equal == 0 && r.differing == 1 && r.difference == SEGVARTIN_SIZES_DIFFER && r.our_sampling == 1 && r.their_sampling == 0);
            EXPECT(paired(&ours, &theirs).equal == 1);
            for (int form = 0; form < 2; form++) {
                size_t luma = (size_t)w * h, cw = (w + 1) / 2, chroma = form ? cw * h : cw * ((h + 1) / 2), first = START + PAIR + SET_HEADER;
                lent *other = form ? &theirs : &with;
                for (size_t k = 0; k < luma + 2 * chroma; k++) {
                    size_t plane = k < luma ? 0 : k < luma + chroma ? 1 : 2, width = plane ? cw : w, at = plane == 0 ? k : (k - luma) % chroma;
                    other->at[first + k] ^= (uint8_t)(1 << k % 8);
                    r = paired(form ? &ours : &plain, other);
                    EXPECT(r.equal == 0 && r.differing == 1 && r.difference == SEGVARTIN_BYTES_DIFFER && r.our_sampling == 0 && r.their_sampling == 0);
                    EXPECT(r.plane == plane && r.row == at / width && r.column == at % width && r.crossing == 1400);
                    other->at[first + k] ^= (uint8_t)(1 << k % 8);
                }
            }
            give_back(&theirs);
            give_back(&ours);
            give_back(&with);
            give_back(&plain);
        }
}

static void *or_exit(void *map) {
    if (map == MAP_FAILED) {
        perror("mmap");
        exit(2);
    }
    return map;
}

/* 9 records of the largest size in 4:2:2: 4,831,838,432 bytes; and 12 in 4:2:0, as large without settings. */
enum { LARGE = 9, LARGE_OLD = 12 };

/* A sparse file, of which the pairs and the first bytes of each record are written, on a memory map. */
static void large_file(void) {
    set sets[LARGE];
    uint8_t start[START + PAIR * LARGE], header[SET_HEADER];
    size_t len, offset = sizeof start, size = 99;
    FILE *sparse = tmpfile();
    segvartin_bytes file;
    for (uint32_t k = 0; k < LARGE; k++) {
        const set one = {4000000000u + k, 16384, 16384, {1, NONE, NONE, NONE}};
        sets[k] = one;
    }
    len = set_file_len(sets, LARGE);
    EXPECT(len > 1ull << 32);
    if (sparse == NULL || ftruncate(fileno(sparse), (off_t)(len + 1)) != 0) {
        perror("a sparse file");
        exit(2);
    }
    put_set_pairs(start, sets, LARGE);
    if (pwrite(fileno(sparse), start, sizeof start, 0) != sizeof start) exit(2);
    for (int k = 0; k < LARGE; k++) {
        put_set_header(header, sets + k);
        if (pwrite(fileno(sparse), header, SET_HEADER, (off_t)offset) != SET_HEADER) exit(2);
        offset += set_len(sets + k);
    }
    file.at = or_exit(mmap(NULL, len + 1, PROT_READ | PROT_WRITE, MAP_PRIVATE | MAP_NORESERVE, fileno(sparse), 0));
    file.len = len;
    reads(file, sets, LARGE, 0, LARGE, SEGVARTIN_WITH_SETTINGS);
    reads(file, sets, LARGE, LARGE - 1, 1, SEGVARTIN_WITH_SETTINGS);
    {
        segvartin_bytes_mut nothing = {start, 0};
        EXPECT(recorded(segvartin_move_back(file, nothing, &size)) && size == 0);
    }
    for (int i = 0; i < 3; i++) {
        file.len = i == 0 ? len + 1 : i == 1 ? len - 1 : len & 0xffffffff;
        refuses(file);
    }
    file.len = len;
    /* the last offset in 32 bits */
    put((uint8_t *)(uintptr_t)(file.at + START + PAIR * (LARGE - 1)), 8, (len - set_len(sets)) & 0xffffffff);
    refuses(file);
    munmap((void *)(uintptr_t)file.at, len + 1);
    fclose(sparse);
}

/* Room for a file of this length whose pages are the same few again and again, but for those that are lent of their own. */
static uint8_t *tiled(size_t len, FILE *few, size_t tile) {
    size_t mapped = (len / tile + 2) * tile;
    uint8_t *output = or_exit(mmap(NULL, mapped, PROT_NONE, MAP_PRIVATE | MAP_ANONYMOUS | MAP_NORESERVE, -1, 0));
    for (size_t at = 0; at < mapped; at += tile) or_exit(mmap(output + at, tile, PROT_READ | PROT_WRITE, MAP_SHARED | MAP_FIXED, fileno(few), 0));
    return output;
}

static void own_pages(uint8_t *output, size_t at) {
    size_t page = (size_t)sysconf(_SC_PAGESIZE);
    or_exit(mmap(output + at / page * page, 2 * page, PROT_READ | PROT_WRITE, MAP_PRIVATE | MAP_ANONYMOUS | MAP_FIXED, -1, 0));
}

/* A file past 4 GiB moved forward, and that back. The file is pages of zeros but for its pairs and the first bytes of its records. */
static void large_move(void) {
    item items[LARGE_OLD];
    set sets[LARGE_OLD];
    size_t len, new_len, size = 99, tile = 1 << 24;
    uint8_t *from, *forward, *back, pairs[START + PAIR * LARGE_OLD], header[SET_HEADER];
    FILE *few = tmpfile();
    segvartin_bytes file;
    segvartin_bytes_mut output;
    for (uint32_t k = 0; k < LARGE_OLD; k++) {
        const set one = {4000000000u + k, 16384, 16384, {0, NONE, NONE, NONE}};
        const item plain = {one.crossing, one.w, one.h};
        sets[k] = one;
        items[k] = plain;
    }
    len = file_len(items, LARGE_OLD), new_len = set_file_len(sets, LARGE_OLD);
    EXPECT(len > 1ull << 32 && new_len == len + 4 + 4 * LARGE_OLD);
    if (few == NULL || ftruncate(fileno(few), (off_t)tile) != 0) {
        perror("a file");
        exit(2);
    }
    from = or_exit(mmap(NULL, len, PROT_READ | PROT_WRITE, MAP_PRIVATE | MAP_ANONYMOUS | MAP_NORESERVE, -1, 0));
    forward = tiled(new_len, few, tile);
    back = tiled(len, few, tile);
    own_pages(forward, 0);
    own_pages(back, 0);
    put_pairs(from, items, LARGE_OLD);
    for (size_t k = 0, at = COUNT + PAIR * LARGE_OLD, to = START + PAIR * LARGE_OLD; k < LARGE_OLD; at += record_len(items + k), to += set_len(sets + k), k++) {
        put_header(from + at, items + k);
        if (k > 0) {
            own_pages(forward, to);
            own_pages(back, at);
        }
    }
    file.at = from, file.len = len;
    output.at = forward;
    output.len = new_len - 1;
    EXPECT(short_output(segvartin_move_forward(file, output, &size)) && size == new_len && forward[0] == 0);
    output.len = new_len & 0xffffffff;
    EXPECT(short_output(segvartin_move_forward(file, output, &size)) && size == new_len && forward[0] == 0);
    output.len = new_len;
    EXPECT(finished(segvartin_move_forward(file, output, &size)) && size == new_len);
    put_set_pairs(pairs, sets, LARGE_OLD);
    EXPECT(memcmp(forward, pairs, sizeof pairs) == 0);
    for (size_t k = 0, to = START + PAIR * LARGE_OLD; k < LARGE_OLD; to += set_len(sets + k++)) {
        put_set_header(header, sets + k);
        EXPECT(memcmp(forward + to, header, SET_HEADER) == 0);
    }
    file.at = forward, file.len = new_len;
    output.at = back;
    output.len = len - 1;
    EXPECT(short_output(segvartin_move_back(file, output, &size)) && size == len && back[0] == 0);
    output.len = len;
    EXPECT(finished(segvartin_move_back(file, output, &size)) && size == len);
    EXPECT(memcmp(back, from, COUNT + PAIR * LARGE_OLD) == 0);
    for (size_t k = 0, at = COUNT + PAIR * LARGE_OLD; k < LARGE_OLD; at += record_len(items + k++)) EXPECT(memcmp(back + at, from + at, HEADER) == 0);
    munmap(from, len);
    munmap(forward, (new_len / tile + 2) * tile);
    munmap(back, (len / tile + 2) * tile);
    fclose(few);
}

int main(int argc, char **argv) {
    if (argc > 1 && strcmp(argv[1], "large") == 0) {
        large_file();
        large_move();
        return finish("files with settings past 4 GiB");
    }
    for (closed_before = 0; closed_before < 2; closed_before++) {
        worked_file();
        every_bit();
        every_cut();
        hostile_numbers();
        every_setting();
        no_records();
        some_files();
        numbers_lent();
        planes_are_not_read();
        some_writes();
        broken_records();
        moves();
        not_moved_back();
        full_files();
        records_from_planes();
        every_code();
        refused_planes();
        frames_to_a_file();
        summaries();
        summaries_of_the_other_form();
        mixed_pairs();
    }
    return finish("settings");
}
