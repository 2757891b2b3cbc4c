/*
 * Two shift files paired: those of RULES 13.1, with the eighteen numbers of RULES 10.7; every cut of either file, and every bit of its count and pairs;
 * every byte of frames of each width to 40 changed, and every bit of the planes of a small file; every list of up to three records against every other,
 * with equal crossings and other sizes; one file as both; full files, in the same order and the opposite one. All files and reports are against closed
 * pages.
 *
 *     pairs          these
 *     pairs large    records that begin past 4 GiB, the last byte of the largest frame another
 */
#define _GNU_SOURCE
#include "records.h"

enum { NUMBERS = 18, SMALL = 4 };

/* RULES 13.1 */
static const uint8_t worked_ours[126] = {
    5,    0,    0, 0,                                                                         /* count */
    64,   0,    0, 0, 0, 0, 0, 0, 11,   0,    0,    0,                                        /* pair 0 */
    75,   0,    0, 0, 0, 0, 0, 0, 18,   0,    0,    0,                                        /* pair 1 */
    93,   0,    0, 0, 0, 0, 0, 0, 11,   0,    0,    0,                                        /* pair 2 */
    104,  0,    0, 0, 0, 0, 0, 0, 11,   0,    0,    0,                                        /* pair 3 */
    115,  0,    0, 0, 0, 0, 0, 0, 11,   0,    0,    0,                                        /* pair 4 */
    0x70, 0x11, 1, 0, 1, 0, 1, 0, 0x50, 0x60, 0x70,                                           /* record 0 */
    0x78, 0x05, 0, 0, 3, 0, 2, 0, 0x10, 0x11, 0x12, 0x20, 0x21, 0x22, 0x30, 0x31, 0x40, 0x41, /* record 1 */
    0x09, 0x00, 0, 0, 1, 0, 1, 0, 0x11, 0x60, 0x70,                                           /* record 2 */
    0x70, 0x11, 1, 0, 1, 0, 1, 0, 0x51, 0x60, 0x70,                                           /* record 3 */
    0x1e, 0x00, 0, 0, 1, 0, 1, 0, 0x22, 0x60, 0x70,                                           /* record 4 */
};
static const uint8_t worked_theirs[133] = {
    5,    0,    0, 0,                                                                         /* count */
    64,   0,    0, 0, 0, 0, 0, 0, 18,   0,    0,    0,                                        /* pair 0 */
    82,   0,    0, 0, 0, 0, 0, 0, 11,   0,    0,    0,                                        /* pair 1 */
    93,   0,    0, 0, 0, 0, 0, 0, 11,   0,    0,    0,                                        /* pair 2 */
    104,  0,    0, 0, 0, 0, 0, 0, 18,   0,    0,    0,                                        /* pair 3 */
    122,  0,    0, 0, 0, 0, 0, 0, 11,   0,    0,    0,                                        /* pair 4 */
    0x78, 0x05, 0, 0, 3, 0, 2, 0, 0x10, 0x11, 0x12, 0x20, 0x21, 0x22, 0x30, 0x31, 0x40, 0x42, /* record 0 */
    0x08, 0x00, 0, 0, 1, 0, 1, 0, 0x33, 0x60, 0x70,                                           /* record 1 */
    0x70, 0x11, 1, 0, 1, 0, 1, 0, 0x51, 0x60, 0x70,                                           /* record 2 */
    0x78, 0x05, 0, 0, 3, 0, 2, 0, 0x10, 0x11, 0x12, 0x20, 0x21, 0x22, 0x30, 0x31, 0x40, 0x41, /* record 3 */
    0x1e, 0x00, 0, 0, 1, 0, 1, 0, 0x22, 0x60, 0x70,                                           /* record 4 */
};

static lent lend_copy(const uint8_t *bytes, size_t len) {
    lent b = lend(len);
    memcpy(b.at, bytes, len);
    return b;
}

static lent lend_file(const item *items, size_t n) {
    lent b = lend(file_len(items, n));
    put_file(b.at, items, n);
    return b;
}

/* A call with the report against a closed page, whichever: the eighteen numbers, and which file is none. */
static segvartin_answer paired(const lent *ours, const lent *theirs, segvartin_pair_report *report, int *broken) {
    lent room = lend(sizeof *report);
    segvartin_answer a;
    int which = 7;
    a = segvartin_pair_shift_files(read_of(ours), read_of(theirs), (segvartin_pair_report *)(void *)room.at, &which);
    memcpy(report, room.at, sizeof *report);
    if (a.number != SEGVARTIN_FINISHED) EXPECT(untouched(&room));
    *broken = which;
    give_back(&room);
    return a;
}

/* Whether the report of two files is these eighteen numbers. */
static int reports(const lent *ours, const lent *theirs, const uint64_t *numbers) {
    segvartin_pair_report r;
    int which;
    segvartin_answer a = paired(ours, theirs, &r, &which);
    return finished(a) && which == SEGVARTIN_NEITHER && memcmp(&r, numbers, sizeof r) == 0;
}

/* Whether the pairing is refused with this file. */
static int refuses(const lent *ours, const lent *theirs, int file) {
    segvartin_pair_report r;
    int which;
    return broken(paired(ours, theirs, &r, &which)) && which == file;
}

static void worked_files(void) {
    /* RULES 10.7 */
    static const uint64_t both[NUMBERS] = {1, 2, 2, 2, 2, 1400, 1, 0, 0, 0, 0, 0, 2, 0, 1, 0};
    static const uint64_t exchanged[NUMBERS] = {1, 2, 2, 2, 2, 1400, 0, 1, 0, 0, 0, 0, 2, 0, 1, 0};
    static const uint64_t sizes[NUMBERS] = {1, 2, 2, 2, 1, 1400, 1, 0, 3, 2, 2, 3, 0, 0, 0, 0};
    static const uint64_t same[NUMBERS] = {5};
    lent ours = lend_copy(worked_ours, sizeof worked_ours), theirs = lend_copy(worked_theirs, sizeof worked_theirs);
    segvartin_pair_report r;
    int which;
    EXPECT(reports(&ours, &theirs, both));
    EXPECT(reports(&theirs, &ours, exchanged));
    EXPECT(reports(&ours, &ours, same)); /* the same bytes */
    EXPECT(finished(paired(&ours, &theirs, &r, &which)) && r.equal == 1 && r.differing == 2 && r.only_ours == 2 && r.only_theirs == 2);
    EXPECT(r.difference == SEGVARTIN_BYTES_DIFFER && r.crossing == 1400 && r.our_record == 1 && r.their_record == 0);
    EXPECT(r.plane == 2 && r.row == 0 && r.column == 1 && r.our_width == 0 && r.their_height == 0 && r.our_sampling == 0 && r.their_sampling == 0 && r.zero == 0);
    theirs.at[68] = 2, theirs.at[70] = 3;
    EXPECT(reports(&ours, &theirs, sizes));
    EXPECT(finished(paired(&ours, &theirs, &r, &which)) && r.difference == SEGVARTIN_SIZES_DIFFER && r.our_width == 3 && r.our_height == 2);
    EXPECT(r.their_width == 2 && r.their_height == 3 && r.plane == 0 && r.row == 0 && r.column == 0);
    give_back(&theirs);
    give_back(&ours);
}

/* Every cut of either file, a byte behind it, and every bit of what says where its records are; that both are broken says ours. */
static void broken_files(void) {
    lent ours = lend_copy(worked_ours, sizeof worked_ours), theirs = lend_copy(worked_theirs, sizeof worked_theirs);
    uint8_t longer[sizeof worked_ours + 1] = {0};
    lent cut;
    for (size_t len = 0; len < sizeof worked_ours; len++) {
        cut = lend_copy(worked_ours, len);
        EXPECT(refuses(&cut, &theirs, SEGVARTIN_OURS));
        EXPECT(refuses(&theirs, &cut, SEGVARTIN_THEIRS));
        EXPECT(refuses(&cut, &cut, SEGVARTIN_OURS));
        give_back(&cut);
    }
    memcpy(longer, worked_ours, sizeof worked_ours);
    cut = lend_copy(longer, sizeof longer);
    EXPECT(refuses(&cut, &theirs, SEGVARTIN_OURS) && refuses(&theirs, &cut, SEGVARTIN_THEIRS));
    give_back(&cut);
    for (size_t bit = 0; bit < 8 * 64; bit++) {
        ours.at[bit / 8] ^= (uint8_t)(1 << bit % 8);
        EXPECT(refuses(&ours, &theirs, SEGVARTIN_OURS));
        EXPECT(refuses(&theirs, &ours, SEGVARTIN_THEIRS));
        ours.at[bit / 8] ^= (uint8_t)(1 << bit % 8);
    }
    give_back(&theirs);
    give_back(&ours);
}

/* Frames of every width: a bit of each byte of the planes changed; and all bytes behind it too, which the place does not depend on. */
static void every_byte(void) {
    for (uint32_t w = 1; w <= 40; w++)
        for (uint32_t h = 1; h <= 3; h++) {
            const item one = {1400, w, h};
            lent ours = lend_file(&one, 1), theirs = lend_file(&one, 1);
            size_t first = COUNT + PAIR + HEADER, luma = luma_len(&one), chroma = chroma_len(&one), cw = (w + 1) / 2;
            uint64_t same[NUMBERS] = {1};
            EXPECT(reports(&ours, &theirs, same));
            for (size_t k = 0; k < luma + 2 * chroma; k++) {
                size_t plane = k < luma ? 0 : k < luma + chroma ? 1 : 2, width = plane ? cw : w;
                size_t at = plane == 0 ? k : plane == 1 ? k - luma : k - luma - chroma;
                uint64_t place[NUMBERS] = {0, 1, 0, 0, 2, 1400, 0, 0, 0, 0, 0, 0, plane, at / width, at % width, 0};
                theirs.at[first + k] ^= (uint8_t)(1 << k % 8);
                EXPECT(reports(&ours, &theirs, place));
                EXPECT(reports(&theirs, &ours, place));
                theirs.at[first + k] ^= (uint8_t)(1 << k % 8);
                if (k % 5 == 0) {
                    for (size_t i = first + k; i < theirs.len; i++) theirs.at[i] ^= 0xff;
                    EXPECT(reports(&ours, &theirs, place));
                    for (size_t i = first + k; i < theirs.len; i++) theirs.at[i] ^= 0xff;
                }
            }
            give_back(&theirs);
            give_back(&ours);
        }
}

/* Every bit of the planes of a small file's records, whichever record. */
static void every_bit(void) {
    const item items[3] = {{9, 9, 2}, {7, 3, 3}, {9, 1, 1}};
    lent ours = lend_file(items, 3), theirs = lend_file(items, 3);
    size_t offset = COUNT + 3 * PAIR;
    for (size_t k = 0; k < 3; offset += record_len(items + k++))
        for (size_t bit = 0; bit < 8 * (record_len(items + k) - HEADER); bit++) {
            segvartin_pair_report r;
            int which;
            theirs.at[offset + HEADER + bit / 8] ^= (uint8_t)(1 << bit % 8);
            EXPECT(finished(paired(&ours, &theirs, &r, &which)) && r.equal == 2 && r.differing == 1 && r.only_ours == 0 && r.only_theirs == 0);
            EXPECT(r.crossing == items[k].crossing && r.our_record == k && r.their_record == k && r.difference == SEGVARTIN_BYTES_DIFFER);
            theirs.at[offset + HEADER + bit / 8] ^= (uint8_t)(1 << bit % 8);
        }
    give_back(&theirs);
    give_back(&ours);
}

/* The report by the test's own way: for each record of ours, in every crossing's order, that of theirs with as many of its crossing before it. */
static void counted(const item *ours, size_t n, const item *theirs, size_t m, uint64_t *numbers) {
    size_t pairs = 0;
    memset(numbers, 0, NUMBERS * sizeof *numbers);
    for (uint32_t crossing = 0; crossing < SMALL; crossing++)
        for (size_t i = 0; i < n; i++) {
            size_t before = 0, j = 0;
            if (ours[i].crossing != crossing) continue;
            for (size_t k = 0; k < i; k++) before += ours[k].crossing == crossing;
            while (j < m && (theirs[j].crossing != crossing || before-- != 0)) j++;
            if (j == m) continue;
            pairs++;
            if (ours[i].w == theirs[j].w)
                numbers[0]++;
            else if (numbers[1]++ == 0) {
                numbers[4] = 1, numbers[5] = crossing, numbers[6] = i, numbers[7] = j;
                numbers[8] = ours[i].w, numbers[9] = ours[i].h, numbers[10] = theirs[j].w, numbers[11] = theirs[j].h;
            }
        }
    numbers[2] = n - pairs, numbers[3] = m - pairs;
}

/* Every list of up to three records of three crossings and two sizes against every other: a record's bytes are those of its crossing and size. */
static void every_pattern(void) {
    enum { KINDS = 6, LISTS = 1 + KINDS + KINDS * KINDS + KINDS * KINDS * KINDS };
    static item items[LISTS][3];
    static size_t counts[LISTS];
    static lent files[LISTS];
    size_t lists = 0;
    for (size_t n = 0, of_n = 1; n <= 3; n++, of_n *= KINDS)
        for (size_t list = 0; list < of_n; list++, lists++) {
            for (size_t k = 0, rest = list; k < n; k++, rest /= KINDS) {
                const item one = {(uint32_t)(rest % 3), rest % KINDS < 3 ? 1 : 2, 1};
                items[lists][k] = one;
            }
            counts[lists] = n;
            files[lists] = lend_file(items[lists], n);
        }
    EXPECT(lists == LISTS);
    for (size_t i = 0; i < LISTS; i++)
        for (size_t j = 0; j < LISTS; j++) {
            uint64_t numbers[NUMBERS];
            counted(items[i], counts[i], items[j], counts[j], numbers);
            EXPECT(numbers[0] + numbers[1] + numbers[2] == counts[i] && numbers[0] + numbers[1] + numbers[3] == counts[j]);
            EXPECT(reports(files + i, files + j, numbers));
        }
    for (size_t i = 0; i < LISTS; i++) give_back(files + i);
}

/* As many records as there may be: all crossings unlike, three of them, one; theirs in the opposite order, or the same. */
static void full_files(void) {
    static item ours[MOST], theirs[MOST];
    for (uint32_t crossings = 1; crossings <= 5; crossings += 2) {
        lent a, b;
        uint64_t same[NUMBERS] = {MOST}, place[NUMBERS] = {MOST - 1, 1, 0, 0, 2, 0, 0, 0, 0, 0, 0, 0, 2, 0, 0, 0};
        segvartin_pair_report r;
        int which;
        for (uint32_t k = 0; k < MOST; k++) {
            const item one = {crossings == 5 ? k * 2654435761u : k % crossings, 1, 1};
            ours[k] = theirs[MOST - 1 - k] = one;
        }
        a = lend_file(ours, MOST), b = lend_file(theirs, MOST);
        EXPECT(reports(&a, &b, same)); /* of one crossing and size all have the same bytes */
        b.at[b.len - 1] ^= 1;
        place[5] = theirs[MOST - 1].crossing, place[6] = crossings == 5 ? 0 : MOST - 1, place[7] = MOST - 1;
        if (crossings == 3) place[6] = MOST - 1 - (MOST - 1 - theirs[MOST - 1].crossing) % 3;
        EXPECT(reports(&a, &b, place));
        give_back(&b);
        b = lend_file(theirs, MOST - 1);
        EXPECT(finished(paired(&a, &b, &r, &which)) && r.equal == MOST - 1 && r.differing == 0 && r.only_ours == 1 && r.only_theirs == 0);
        give_back(&b);
        give_back(&a);
    }
}

static uint8_t *or_exit(void *at) {
    if (at == MAP_FAILED) {
        perror("mmap");
        exit(2);
    }
    return at;
}

/* Eleven of the largest frames and a small one: the last of them past 4 GiB. Memory that is not written is 0, and is not taken. */
static void large(void) {
    item items[12];
    size_t len, past, last;
    uint8_t *at[2];
    segvartin_bytes files[2];
    segvartin_pair_report r;
    int which;
    for (uint32_t k = 0; k < 12; k++) items[k].crossing = 40 - k, items[k].w = items[k].h = k < 11 ? 16384 : 3;
    len = file_len(items, 12);
    past = len - record_len(items + 11);
    last = past - 1;
    EXPECT(past > 1ull << 32);
    for (int f = 0; f < 2; f++) {
        at[f] = or_exit(mmap(NULL, len, PROT_READ | PROT_WRITE, MAP_PRIVATE | MAP_ANONYMOUS | MAP_NORESERVE, -1, 0));
        files[f].at = at[f], files[f].len = len;
        put_pairs(at[f], items, 12);
        for (size_t k = 0, offset = COUNT + 12 * PAIR; k < 12; offset += record_len(items + k++)) put_header(at[f] + offset, items + k);
    }
    EXPECT(finished(segvartin_pair_shift_files(files[0], files[1], &r, &which)) && r.equal == 12 && r.differing == 0 && r.difference == 0);
    at[1][last] = 1; /* the last byte of V of the largest frame, crossing 30 */
    EXPECT(finished(segvartin_pair_shift_files(files[0], files[1], &r, &which)) && r.equal == 11 && r.differing == 1 && r.difference == 2);
    EXPECT(r.crossing == 30 && r.our_record == 10 && r.their_record == 10 && r.plane == 2 && r.row == 8191 && r.column == 8191);
    at[1][past + HEADER + 4] = 1; /* the middle of Y of the small one, crossing 29, which comes before */
    EXPECT(finished(segvartin_pair_shift_files(files[0], files[1], &r, &which)) && r.equal == 10 && r.differing == 2 && r.difference == 2);
    EXPECT(r.crossing == 29 && r.our_record == 11 && r.their_record == 11 && r.plane == 0 && r.row == 1 && r.column == 1);
    munmap(at[0], len);
    munmap(at[1], len);
}

int main(int argc, char **argv) {
    if (argc > 1 && strcmp(argv[1], "large") == 0) {
        large();
        return finish("large files paired");
    }
    for (closed_before = 0; closed_before < 2; closed_before++) {
        worked_files();
        broken_files();
        every_byte();
        every_bit();
        every_pattern();
        full_files();
    }
    return finish("pairs");
}
