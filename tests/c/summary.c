/*
 * Summaries of shift files: those of RULES 12.1 to 12.3; every bit of one changed, every length of buffer; every order of the entries of small files, with
 * every pattern of crossings; entries doubled; means of every sum; lookups of each crossing and of others; updates into buffers of every length, with bad
 * records, and held against the grown file; files that are broken, and full ones. All buffers are against closed pages.
 *
 *     summary          these
 *     summary large    a luma plane of 16384 x 16384 bytes of 255, and offsets that pass 4 GiB
 */
#define _GNU_SOURCE
#include "records.h"

enum { ENTRY = SEGVARTIN_SUMMARY_ENTRY, SMALL = 4 };

static int mismatch(segvartin_answer a) { return is(a, SEGVARTIN_SUMMARY_MISMATCH, 0, 0); }

/* RULES 12.1 */
static const uint8_t worked[81] = {
    3,    0,    0, 0,                                                                            /* count */
    40,   0,    0, 0, 0, 0, 0, 0, 11,   0,    0,    0,                                           /* pair 0 */
    51,   0,    0, 0, 0, 0, 0, 0, 18,   0,    0,    0,                                           /* pair 1 */
    69,   0,    0, 0, 0, 0, 0, 0, 12,   0,    0,    0,                                           /* pair 2 */
    0x70, 0x11, 1, 0, 1, 0, 1, 0, 0x50, 0x60, 0x70,                                              /* record 0 */
    0x78, 0x05, 0, 0, 3, 0, 2, 0, 0x10, 0x11, 0x12, 0x20, 0x21, 0x22, 0x30, 0x31, 0x40, 0x41, /* record 1 */
    0x70, 0x11, 1, 0, 2, 0, 1, 0, 0x80, 0x83, 0x60, 0x70,                                        /* record 2 */
};
static const uint8_t entry_0[ENTRY] = {0x70, 0x11, 1, 0, 40, 0, 0, 0, 0, 0, 0, 0, 80};
static const uint8_t entry_1[ENTRY] = {0x78, 0x05, 0, 0, 51, 0, 0, 0, 0, 0, 0, 0, 25};
static const uint8_t entry_2[ENTRY] = {0x70, 0x11, 1, 0, 69, 0, 0, 0, 0, 0, 0, 0, 129};

static lent lend_copy(const uint8_t *bytes, size_t len) {
    lent b = lend(len);
    memcpy(b.at, bytes, len);
    return b;
}

/* So many entries of these, one behind the other. */
static void put_entries(uint8_t *at, const uint8_t *a, const uint8_t *b, const uint8_t *c) {
    memcpy(at, a, ENTRY);
    memcpy(at + ENTRY, b, ENTRY);
    memcpy(at + 2 * ENTRY, c, ENTRY);
}

static uint32_t crossing_of(const uint8_t *entry) {
    return entry[0] | (uint32_t)entry[1] << 8 | (uint32_t)entry[2] << 16 | (uint32_t)entry[3] << 24;
}

/* The entries of a file's records, in the order of the file, by the test's own sum. */
static void put_file_entries(uint8_t *entries, const uint8_t *file, const item *items, size_t n) {
    size_t offset = COUNT + PAIR * n;
    for (size_t k = 0; k < n; k++) {
        size_t luma = luma_len(items + k);
        uint64_t sum = 0;
        for (size_t i = 0; i < luma; i++) sum += file[offset + HEADER + i];
        put(entries + ENTRY * k, 4, items[k].crossing);
        put(entries + ENTRY * k + 4, 8, offset);
        entries[ENTRY * k + 12] = (uint8_t)(sum / luma);
        offset += record_len(items + k);
    }
}

static uint64_t offset_of(const uint8_t *entry) {
    uint64_t offset = 0;
    for (int i = 7; i >= 0; i--) offset = offset << 8 | entry[4 + i];
    return offset;
}

/* RULES 12.3: whether these are all n entries, by crossing, and by offset where that is equal. */
static int are_summary(const uint8_t *is, const uint8_t *entries, size_t n) {
    for (size_t i = 0; i + 1 < n; i++) {
        const uint8_t *one = is + ENTRY * i, *next = one + ENTRY;
        if (crossing_of(one) > crossing_of(next)) return 0;
        if (crossing_of(one) == crossing_of(next) && offset_of(one) >= offset_of(next)) return 0;
    }
    for (size_t k = 0; k < n; k++) {
        size_t times = 0;
        for (size_t i = 0; i < n; i++) times += memcmp(is + ENTRY * i, entries + ENTRY * k, ENTRY) == 0;
        if (times != 1) return 0;
    }
    return 1;
}

/* What the three calls that check a summary answer where they take it, or where they do not. */
static void taken(segvartin_bytes file, const lent *summary, size_t n, int good) {
    static const uint8_t record[11] = {9, 0, 0, 0, 1, 0, 1, 0, 1, 2, 3};
    segvartin_bytes added = {record, sizeof record};
    lent room = lend(summary->len), found_at = lend(sizeof(segvartin_shift_record));
    segvartin_shift_record *r = (segvartin_shift_record *)(void *)found_at.at;
    int yes = 7, found = 7;
    segvartin_answer a;
    EXPECT(finished(segvartin_check_summary(file, read_of(summary), &yes)) && yes == good);
    a = segvartin_find_record(file, read_of(summary), 0x89abcdef, r, &found);
    EXPECT((good ? finished(a) : mismatch(a)) && found == 0 && untouched(&found_at));
    memcpy(room.at, summary->at, summary->len);
    a = segvartin_update_summary(file, added, all(&room));
    if (good && room.len >= ENTRY * (n + 1))
        EXPECT(finished(a));
    else
        EXPECT(mismatch(a) && memcmp(room.at, summary->at, room.len) == 0);
    give_back(&found_at);
    give_back(&room);
}

static void worked_summary(void) {
    lent file = lend_copy(worked, sizeof worked);
    const uint8_t *const entries[3] = {entry_0, entry_1, entry_2};
    uint8_t all_entries[3 * ENTRY];
    put_entries(all_entries, entry_0, entry_1, entry_2);
    for (size_t len = 0; len < 3 * ENTRY + 16; len++) {
        lent summary = lend(len);
        segvartin_answer a = segvartin_build_summary(read_of(&file), all(&summary));
        if (len < 3 * ENTRY)
            EXPECT(mismatch(a) && untouched(&summary));
        else {
            EXPECT(finished(a) && are_summary(summary.at, all_entries, 3) && untouched_from(&summary, 3 * ENTRY));
            EXPECT(memcmp(summary.at, entry_1, ENTRY) == 0);
        }
        give_back(&summary);
    }
    /* every list of three of its entries, in buffers too short, exact and too long */
    for (int i = 0; i < 27; i++)
        for (size_t len = 0; len < 4 * ENTRY + 3; len++) {
            uint8_t bytes[4 * ENTRY + 3];
            lent summary;
            int good;
            memset(bytes, 0xee, sizeof bytes);
            put_entries(bytes, entries[i % 3], entries[i / 3 % 3], entries[i / 9]);
            good = len >= 3 * ENTRY && are_summary(bytes, all_entries, 3);
            summary = lend_copy(bytes, len);
            taken(read_of(&file), &summary, 3, good);
            give_back(&summary);
        }
    EXPECT(memcmp(file.at, worked, sizeof worked) == 0);
    give_back(&file);
}

/* No bit of a summary may be another; behind it all may. */
static void every_bit(void) {
    lent file = lend_copy(worked, sizeof worked), summary = lend(4 * ENTRY + 1);
    put_entries(summary.at, entry_1, entry_0, entry_2);
    taken(read_of(&file), &summary, 3, 1);
    for (size_t at = 0; at < summary.len; at++)
        for (int bit = 0; bit < 8; bit++) {
            summary.at[at] ^= (uint8_t)(1 << bit);
            taken(read_of(&file), &summary, 3, at >= 3 * ENTRY);
            summary.at[at] ^= (uint8_t)(1 << bit);
        }
    give_back(&summary);
    give_back(&file);
}

/* A luma byte less or more moves a mean where it passes a whole number; chroma does not. */
static void planes_changed(void) {
    lent file = lend_copy(worked, sizeof worked), summary = lend(3 * ENTRY);
    put_entries(summary.at, entry_1, entry_0, entry_2);
    for (size_t at = 40 + HEADER; at < sizeof worked; at++) {
        int luma = at == 48 || (at >= 59 && at < 65) || at == 77 || at == 78, chroma = at == 49 || at == 50 || (at >= 65 && at < 69) || at >= 79;
        if (!luma && !chroma) continue;
        file.at[at]++;
        /* (128 + 132) / 2 and (129 + 131) / 2 are 130, 81 is not 80, and 151 / 6 is 25 */
        taken(read_of(&file), &summary, 3, chroma || (at >= 59 && at < 65));
        file.at[at] -= 2;
        /* (127 + 131) / 2 is 129, 79 is not 80, and 149 / 6 is 24 */
        taken(read_of(&file), &summary, 3, chroma || at == 77 || at == 78);
        file.at[at]++;
    }
    give_back(&summary);
    give_back(&file);
}

/* 15 comes before 17, whatever the summary is: broken files with no summary, with their own, and longer. */
static void broken_files(void) {
    static const size_t lengths[4] = {0, 3 * ENTRY - 1, 3 * ENTRY, 5 * ENTRY};
    static const uint8_t record[11] = {9, 0, 0, 0, 1, 0, 1, 0, 1, 2, 3};
    segvartin_bytes added = {record, sizeof record};
    for (size_t len = 0; len <= sizeof worked + 1; len++) {
        lent file = lend(len);
        if (len == sizeof worked) continue;
        memcpy(file.at, worked, len < sizeof worked ? len : sizeof worked);
        for (int i = 0; i < 4; i++) {
            lent summary = lend(lengths[i]), kept, found_at = lend(sizeof(segvartin_shift_record));
            int yes = 7, found = 7;
            if (lengths[i] >= 3 * ENTRY) put_entries(summary.at, entry_1, entry_0, entry_2);
            kept = lend_copy(summary.at, summary.len);
            EXPECT(broken(segvartin_build_summary(read_of(&file), all(&summary))));
            EXPECT(broken(segvartin_check_summary(read_of(&file), read_of(&summary), &yes)) && yes == 0);
            EXPECT(broken(segvartin_find_record(read_of(&file), read_of(&summary), 1400, (segvartin_shift_record *)(void *)found_at.at, &found)));
            EXPECT(found == 0 && untouched(&found_at));
            EXPECT(broken(segvartin_update_summary(read_of(&file), added, all(&summary))));
            EXPECT(memcmp(summary.at, kept.at, summary.len) == 0);
            give_back(&found_at);
            give_back(&kept);
            give_back(&summary);
        }
        give_back(&file);
    }
}

/* Each crossing of a file, and numbers beside it. */
static void finds(segvartin_bytes file, segvartin_bytes summary, const item *items, size_t n) {
    for (size_t k = 0; k < n; k++)
        for (uint32_t d = 0; d < 4; d++) {
            static const uint32_t beside[4] = {0, 1, 0xffffffff, 0x100};
            uint32_t crossing = d == 3 ? items[k].crossing ^ beside[d] : items[k].crossing + beside[d];
            lent found_at = lend(sizeof(segvartin_shift_record));
            segvartin_shift_record *r = (segvartin_shift_record *)(void *)found_at.at, read_back;
            uint64_t offset = COUNT + PAIR * (uint64_t)n;
            size_t first = 0, count, read;
            int found = 7;
            while (first < n && items[first].crossing != crossing) offset += record_len(items + first++);
            EXPECT(finished(segvartin_find_record(file, summary, crossing, r, &found)) && found == (first < n));
            if (first < n) {
                EXPECT(r->crossing == crossing && r->offset == offset && r->length == record_len(items + first));
                EXPECT(r->width == items[first].w && r->height == items[first].h && r->y_offset == offset + HEADER);
                segvartin_read_shift_file(file, first, &read_back, 1, &count, &read);
                EXPECT(read == 1 && memcmp(r, &read_back, sizeof read_back) == 0);
                EXPECT(segvartin_shift_whole(file, r).at == file.at + offset);
            } else
                EXPECT(untouched(&found_at));
            give_back(&found_at);
        }
}

/* A summary is updated with a record; what it becomes is, byte for byte, the summary of the file with the record. */
static void updates(const lent *file, const lent *summary, const item *items, size_t n, const item *added) {
    lent record = lend(record_len(added)), records = lend(file->len - COUNT - PAIR * n + record.len), grown = lend(file->len + PAIR + record.len);
    lent entries = lend(ENTRY * (n + 1)), grown_items = lend((n + 1) * sizeof(item));
    size_t size;
    put_record(record.at, added);
    memcpy(records.at, file->at + COUNT + PAIR * n, records.len - record.len);
    memcpy(records.at + records.len - record.len, record.at, record.len);
    EXPECT(finished(segvartin_write_shift_file(read_of(&records), all(&grown), &size)) && size == grown.len);
    if (n > 0) memcpy(grown_items.at, items, n * sizeof(item));
    memcpy(grown_items.at + n * sizeof(item), added, sizeof *added);
    put_file_entries(entries.at, grown.at, (const item *)(const void *)grown_items.at, n + 1);
    for (size_t more = 0; more <= ENTRY + 4; more++) {
        lent room = lend(ENTRY * n + more);
        segvartin_answer a;
        memcpy(room.at, summary->at, ENTRY * n);
        a = segvartin_update_summary(read_of(file), read_of(&record), all(&room));
        if (more < ENTRY)
            EXPECT(mismatch(a) && memcmp(room.at, summary->at, ENTRY * n) == 0 && untouched_from(&room, ENTRY * n));
        else {
            lent built = lend(entries.len);
            int yes = 0;
            EXPECT(finished(a) && are_summary(room.at, entries.at, n + 1) && untouched_from(&room, ENTRY * (n + 1)));
            EXPECT(finished(segvartin_check_summary(read_of(&grown), read_of(&room), &yes)) && yes == 1);
            EXPECT(finished(segvartin_build_summary(read_of(&grown), all(&built))) && memcmp(built.at, room.at, built.len) == 0);
            give_back(&built);
        }
        give_back(&room);
    }
    give_back(&grown_items);
    give_back(&entries);
    give_back(&grown);
    give_back(&records);
    give_back(&record);
}

/* Every pattern of crossings in four records, and of each every order of its entries. */
static void every_order(void) {
    static const uint32_t crossings[3] = {0x7fffffff, 0x80000000, 0x000000ff};
    static const item added[3] = {{0x7fffffff, 3, 1}, {0x80000000, 1, 2}, {0, 2, 2}};
    for (int pattern = 0; pattern < 81; pattern++) {
        item items[SMALL];
        lent file, entries = lend(SMALL * ENTRY), built = lend(SMALL * ENTRY);
        for (int k = 0, p = pattern; k < SMALL; k++, p /= 3) {
            items[k].crossing = crossings[p % 3];
            items[k].w = 1 + (uint32_t)k;
            items[k].h = 5 - (uint32_t)k;
        }
        file = lend(file_len(items, SMALL));
        put_file(file.at, items, SMALL);
        put_file_entries(entries.at, file.at, items, SMALL);
        EXPECT(finished(segvartin_build_summary(read_of(&file), all(&built))) && are_summary(built.at, entries.at, SMALL));
        finds(read_of(&file), read_of(&built), items, SMALL);
        for (int order = 0; order < 256; order++) {
            lent summary = lend(SMALL * ENTRY);
            int yes = 7, good;
            for (int k = 0, o = order; k < SMALL; k++, o /= 4) memcpy(summary.at + ENTRY * k, entries.at + ENTRY * (o % 4), ENTRY);
            good = are_summary(summary.at, entries.at, SMALL);
            EXPECT(finished(segvartin_check_summary(read_of(&file), read_of(&summary), &yes)) && yes == good);
            if (good) {
                finds(read_of(&file), read_of(&summary), items, SMALL);
                updates(&file, &summary, items, SMALL, added + (pattern + order) % 3);
            }
            give_back(&summary);
        }
        give_back(&built);
        give_back(&entries);
        give_back(&file);
    }
}

/* Means of every sum of five bytes, and of planes whose sum passes 16 and 32 bits. */
static void means(void) {
    static const item row = {1, 5, 1}, wide = {2, 300, 300}, large_luma = {3, 16384, 1040};
    static const item *const flat[2] = {&wide, &large_luma};
    lent file = lend(file_len(&row, 1)), summary = lend(ENTRY);
    put_file(file.at, &row, 1);
    for (unsigned sum = 0; sum <= 5 * 255; sum++) {
        for (unsigned i = 0, rest = sum; i < 5; i++) {
            unsigned byte = rest > 255 ? 255 : rest;
            file.at[COUNT + PAIR + HEADER + (i + sum) % 5] = (uint8_t)byte;
            rest -= byte;
        }
        EXPECT(finished(segvartin_build_summary(read_of(&file), all(&summary))) && summary.at[12] == sum / 5);
        EXPECT(crossing_of(summary.at) == 1 && summary.at[4] == COUNT + PAIR);
    }
    give_back(&summary);
    give_back(&file);
    for (int i = 0; i < 2; i++) {
        int yes = 0;
        file = lend(file_len(flat[i], 1));
        summary = lend(ENTRY);
        put_file(file.at, flat[i], 1);
        memset(file.at + COUNT + PAIR + HEADER, 255, luma_len(flat[i]));
        EXPECT(finished(segvartin_build_summary(read_of(&file), all(&summary))) && summary.at[12] == 255);
        EXPECT(finished(segvartin_check_summary(read_of(&file), read_of(&summary), &yes)) && yes == 1);
        file.at[COUNT + PAIR + HEADER + luma_len(flat[i]) - 1] = 254;
        EXPECT(finished(segvartin_check_summary(read_of(&file), read_of(&summary), &yes)) && yes == 0);
        EXPECT(finished(segvartin_build_summary(read_of(&file), all(&summary))) && summary.at[12] == 254);
        give_back(&summary);
        give_back(&file);
    }
}

/* Bytes that are not one record: 15, before a summary that is too short or wrong. */
static void bad_records(void) {
    lent file = lend_copy(worked, sizeof worked);
    uint8_t good[3 * ENTRY];
    put_entries(good, entry_1, entry_0, entry_2);
    for (size_t len = 0; len < 18 + 11 + 12 + 1; len++) {
        /* the records of the file from its second on are two, and cut or longer they are none, one or two */
        lent record = lend(len), summary = lend(4 * ENTRY), none = lend(0);
        segvartin_answer a;
        memcpy(record.at, worked + 51, len < 30 ? len : 30);
        memcpy(summary.at, good, sizeof good);
        a = segvartin_update_summary(read_of(&file), read_of(&record), all(&summary));
        EXPECT(len == 18 ? finished(a) : broken(a) && memcmp(summary.at, good, sizeof good) == 0 && untouched_from(&summary, sizeof good));
        a = segvartin_update_summary(read_of(&file), read_of(&record), all(&none));
        EXPECT(len == 18 ? mismatch(a) : broken(a));
        give_back(&none);
        give_back(&summary);
        give_back(&record);
    }
    for (int side = 4; side <= 6; side += 2)
        for (int i = 0; i < 4; i++) {
            static const unsigned sides[4] = {0, 16385, 0x8001, 0xffff};
            lent record = lend_copy(worked + 51, 18), summary = lend(4 * ENTRY);
            memcpy(summary.at, good, sizeof good);
            put(record.at + side, 2, sides[i]);
            EXPECT(broken(segvartin_update_summary(read_of(&file), read_of(&record), all(&summary))) && memcmp(summary.at, good, sizeof good) == 0);
            give_back(&summary);
            give_back(&record);
        }
    EXPECT(memcmp(file.at, worked, sizeof worked) == 0);
    give_back(&file);
}

/* An empty file has the summary of no bytes, and grows. */
static void no_records(void) {
    static const item one = {0xffffffff, 2, 3};
    lent file = lend(4), none = lend(0), some = lend(20);
    segvartin_shift_record r;
    int yes = 0, found = 7;
    memset(file.at, 0, 4);
    EXPECT(finished(segvartin_build_summary(read_of(&file), all(&none))));
    EXPECT(finished(segvartin_build_summary(read_of(&file), all(&some))) && untouched(&some));
    EXPECT(finished(segvartin_check_summary(read_of(&file), read_of(&none), &yes)) && yes == 1);
    EXPECT(finished(segvartin_check_summary(read_of(&file), read_of(&some), &yes)) && yes == 1);
    EXPECT(finished(segvartin_find_record(read_of(&file), read_of(&none), 0, &r, &found)) && found == 0);
    updates(&file, &none, NULL, 0, &one);
    give_back(&some);
    give_back(&none);
    give_back(&file);
}

/* As many records as there may be: built, found, and not to be made more; of one fewer one more. */
static void full_files(void) {
    static item many[MOST];
    static const item added = {5000, 1, 1};
    for (int equal = 0; equal < 2; equal++)
        for (size_t n = MOST - 1; n <= MOST; n++) {
            lent file, entries = lend(ENTRY * n), summary = lend(ENTRY * (n + 1)), kept, record = lend(record_len(&added));
            segvartin_answer a;
            int yes = 0, found = 0, ordered = 1;
            size_t first = 0, offset = COUNT + PAIR * n;
            segvartin_shift_record r;
            for (size_t k = 0; k < n; k++) {
                many[k].crossing = equal ? (uint32_t)(k % 3) : (uint32_t)(k * 2654435761u);
                many[k].w = 1 + (uint32_t)(k % 3);
                many[k].h = 1;
            }
            file = lend(file_len(many, n));
            put_file(file.at, many, n);
            put_file_entries(entries.at, file.at, many, n);
            EXPECT(finished(segvartin_build_summary(read_of(&file), all(&summary))) && untouched_from(&summary, ENTRY * n));
            for (size_t k = 0; k + 1 < n; k++) ordered &= crossing_of(summary.at + ENTRY * k) <= crossing_of(summary.at + ENTRY * (k + 1));
            EXPECT(ordered);
            EXPECT(finished(segvartin_check_summary(read_of(&file), read_of(&summary), &yes)) && yes == 1);
            EXPECT(finished(segvartin_find_record(read_of(&file), read_of(&summary), many[n - 1].crossing, &r, &found)) && found == 1);
            while (many[first].crossing != many[n - 1].crossing) offset += record_len(many + first++);
            EXPECT(r.crossing == many[n - 1].crossing && r.offset == offset && (equal ? first < 3 : first == n - 1));
            kept = lend_copy(summary.at, summary.len);
            put_record(record.at, &added);
            a = segvartin_update_summary(read_of(&file), read_of(&record), all(&summary));
            if (n < MOST)
                EXPECT(finished(a) && memcmp(summary.at, kept.at, summary.len) != 0);
            else
                EXPECT(broken(a) && memcmp(summary.at, kept.at, summary.len) == 0);
            summary.len = 0;
            a = segvartin_update_summary(read_of(&file), read_of(&record), all(&summary));
            EXPECT(n < MOST ? mismatch(a) : broken(a));
            summary.len = kept.len;
            /* the last entry twice, the one before it missing */
            memcpy(summary.at, kept.at, kept.len);
            memcpy(summary.at + ENTRY * (n - 2), summary.at + ENTRY * (n - 1), ENTRY);
            EXPECT(finished(segvartin_check_summary(read_of(&file), read_of(&summary), &yes)) && yes == 0);
            give_back(&record);
            give_back(&kept);
            give_back(&summary);
            give_back(&entries);
            give_back(&file);
        }
}

static uint8_t *or_exit(void *map) {
    if (map == MAP_FAILED) {
        perror("mmap");
        exit(2);
    }
    return map;
}

/*
 * One record of the largest size, all luma 255; and eleven of them with a small one behind, which starts past 2 ^ 32. Pages of zeros take no memory, and
 * large ones less time.
 */
static void large(void) {
    static item items[12];
    size_t len = file_len((items[0].w = items[0].h = 16384, items), 1), past;
    uint8_t *at = or_exit(mmap(NULL, len, PROT_READ | PROT_WRITE, MAP_PRIVATE | MAP_ANONYMOUS, -1, 0));
    segvartin_bytes file = {at, len};
    lent summary = lend(ENTRY), longer = lend(13 * ENTRY), record = lend(11);
    static const item added = {7, 1, 1};
    segvartin_shift_record r;
    int yes = 0, found = 0;
    put_pairs(at, items, 1);
    put_header(at + COUNT + PAIR, items);
    memset(at + COUNT + PAIR + HEADER, 255, luma_len(items));
    EXPECT(finished(segvartin_build_summary(file, all(&summary))) && summary.at[12] == 255);
    at[COUNT + PAIR + HEADER + luma_len(items) - 1] = 254;
    EXPECT(finished(segvartin_check_summary(file, read_of(&summary), &yes)) && yes == 0);
    EXPECT(finished(segvartin_build_summary(file, all(&summary))) && summary.at[12] == 254);
    munmap(at, len);
    for (int k = 0; k < 12; k++) items[k].crossing = 40 - (uint32_t)k, items[k].w = items[k].h = k < 11 ? 16384 : 3;
    len = file_len(items, 12);
    past = len - record_len(items + 11);
    EXPECT(past > 1ull << 32);
    at = or_exit(mmap(NULL, len, PROT_READ | PROT_WRITE, MAP_PRIVATE | MAP_ANONYMOUS | MAP_NORESERVE, -1, 0));
    (void)madvise(at, len, MADV_HUGEPAGE);
    file.at = at, file.len = len;
    put_pairs(at, items, 12);
    for (size_t k = 0, offset = COUNT + 12 * PAIR; k < 12; offset += record_len(items + k++)) put_header(at + offset, items + k);
    memset(at + past + HEADER, 100, 9);
    longer.len = 12 * ENTRY;
    EXPECT(finished(segvartin_build_summary(file, all(&longer))) && crossing_of(longer.at) == 29 && longer.at[12] == 100 && longer.at[25] == 0);
    for (int i = 0; i < 8; i++) EXPECT(longer.at[4 + i] == (uint8_t)((uint64_t)past >> 8 * i));
    EXPECT(finished(segvartin_find_record(file, read_of(&longer), 29, &r, &found)) && found == 1 && r.offset == past && r.y_offset == past + HEADER);
    longer.at[8] = 0; /* its offset in 32 bits */
    EXPECT(finished(segvartin_check_summary(file, read_of(&longer), &yes)) && yes == 0);
    longer.at[8] = 1;
    longer.len = 13 * ENTRY;
    put_record(record.at, &added);
    EXPECT(finished(segvartin_update_summary(file, read_of(&record), all(&longer))) && crossing_of(longer.at) == 7);
    for (int i = 0; i < 8; i++) {
        EXPECT(longer.at[4 + i] == (uint8_t)(((uint64_t)len + PAIR) >> 8 * i));
        EXPECT(longer.at[ENTRY + 4 + i] == (uint8_t)(((uint64_t)past + PAIR) >> 8 * i));
    }
    munmap(at, len);
    give_back(&record);
    give_back(&longer);
    give_back(&summary);
}

int main(int argc, char **argv) {
    if (argc > 1 && strcmp(argv[1], "large") == 0) {
        large();
        return finish("summaries of large files");
    }
    for (closed_before = 0; closed_before < 2; closed_before++) {
        worked_summary();
        every_bit();
        planes_changed();
        broken_files();
        every_order();
        means();
        bad_records();
        no_records();
        full_files();
    }
    return finish("summary");
}
