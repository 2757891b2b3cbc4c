/*
 * Lists a shift file, makes one of records (RULES 11.1, 11.2, 11.7), moves one from one form to the other (RULES 11.8), or finds the record of a crossing
 * by the file's summary (RULES 12.1 to 12.7).
 *
 *     shift list FILE                  a line for each record: its number, crossing, size, where it and its Y, U and V start, its length, and with
 *                                      settings how its planes were made
 *     shift pack RECORDS FILE          RECORDS has records, one behind the other: FILE becomes the shift file of them
 *     shift pack-settings RECORDS FILE the same of records with settings
 *     shift forward FILE MOVED         MOVED becomes the file with settings of the records of FILE, which has none
 *     shift back FILE MOVED            MOVED becomes the file without settings of the records of FILE, in which nothing is recorded
 *     shift sum FILE SUMMARY           SUMMARY becomes the summary of FILE
 *     shift find FILE SUMMARY NUMBER   the record of this crossing, the first if several; or "none"
 *     shift add FILE SUMMARY RECORD    SUMMARY becomes the summary of FILE with RECORD at its end; FILE is not changed
 *
 * The file is read on a memory map, so it may be larger than memory. To list it nothing is read of its planes, and for the means of its summary the Y
 * planes are.
 */
#define _DEFAULT_SOURCE
#include "segvartin.h"

#include <errno.h>
#include <fcntl.h>
#include <inttypes.h>
#include <stdio.h>
#include <stdlib.h>
#include <string.h>
#include <sys/mman.h>
#include <sys/stat.h>
#include <unistd.h>

static int fail(const char *what) {
    fprintf(stderr, "shift: %s\n", what);
    return 1;
}

static int refused(segvartin_answer a) {
    printf("refused %" PRIu32 "\n", a.number);
    return 1;
}

/* The bytes of a file, or at is NULL. A map has a byte or more, so nothing is mapped of an empty file. */
static segvartin_bytes mapped(const char *name) {
    static const uint8_t nothing[1];
    segvartin_bytes bytes = {NULL, 0};
    struct stat status;
    int file = open(name, O_RDONLY);
    if (file < 0 || fstat(file, &status) != 0) return bytes;
    bytes.len = (size_t)status.st_size;
    bytes.at = nothing;
    if (bytes.len > 0) bytes.at = mmap(NULL, bytes.len, PROT_READ, MAP_SHARED, file, 0);
    if (bytes.at == MAP_FAILED) bytes.at = NULL;
    close(file);
    return bytes;
}

/* The name of a code, of which there are so many. */
static const char *name_of(const char *const *names, size_t count, uint64_t code) { return code < count ? names[code] : "not recorded"; }

static void print_record(const segvartin_settings_record *any, int form) {
    static const char *const samplings[] = {"4:2:0", "4:2:2"}, *const ranges[] = {"Limited", "Full"};
    static const char *const matrices[] = {"Bt601", "Bt709", "Bt2020", "Smpte240", "Bt470_6", "Fcc", "Custom"};
    static const char *const transfers[] = {"Srgb", "Rec709", "Gamma2p2", "Gamma2p8"};
    const segvartin_shift_record *r = &any->shift;
    printf("crossing %" PRIu64 ", %" PRIu64 " x %" PRIu64 ", at %" PRIu64 ", Y %" PRIu64 ", U %" PRIu64 ", V %" PRIu64 ", %" PRIu64 " bytes", r->crossing,
           r->width, r->height, r->offset, r->y_offset, r->u_offset, r->v_offset, r->length);
    if (form == SEGVARTIN_WITH_SETTINGS)
        printf(", %s, range %s, matrix %s, transfer %s", name_of(samplings, 2, any->sampling), name_of(ranges, 2, any->range),
               name_of(matrices, 7, any->matrix), name_of(transfers, 4, any->transfer));
    printf("\n");
}

static int list(segvartin_bytes file) {
    static segvartin_settings_record records[SEGVARTIN_MAX_RECORDS]; /* all of a file at once */
    size_t count, read;
    int form;
    segvartin_answer a = segvartin_read_any_shift_file(file, 0, records, SEGVARTIN_MAX_RECORDS, &count, &read, &form);
    if (a.number != SEGVARTIN_FINISHED) return refused(a);
    for (size_t k = 0; k < read; k++) {
        printf("%zu: ", k);
        print_record(records + k, form);
    }
    return 0;
}

/* The file that one of these makes of other bytes: segvartin_write_shift_file, segvartin_write_settings_file, segvartin_move_forward, segvartin_move_back. */
static int make(segvartin_answer (*call)(segvartin_bytes, segvartin_bytes_mut, size_t *), segvartin_bytes from, const char *name) {
    uint8_t none;
    segvartin_bytes_mut file = {&none, 0}; /* nothing is lent: the call only tells how many bytes are needed */
    size_t size;
    segvartin_answer a = call(from, file, &size);
    if (a.number != SEGVARTIN_OUTPUT_TOO_SHORT) return refused(a);
    int out = open(name, O_RDWR | O_CREAT | O_EXCL, 0666);
    if (out < 0 || ftruncate(out, (off_t)size) != 0) return fail("cannot write the file");
    file.at = mmap(NULL, size, PROT_READ | PROT_WRITE, MAP_SHARED, out, 0);
    if (file.at == MAP_FAILED) return fail("cannot map the file");
    file.len = size;
    a = call(from, file, &size);
    if (close(out) != 0 || munmap(file.at, file.len) != 0) return fail("cannot write the file");
    return a.number == SEGVARTIN_FINISHED ? 0 : refused(a);
}

/* Room for the summary of any file, and so many bytes of it. */
static uint8_t summary_bytes[SEGVARTIN_SUMMARY_ENTRY * SEGVARTIN_MAX_RECORDS];

static int write_summary(const char *name, size_t count) {
    FILE *out = fopen(name, "wb");
    size_t size = SEGVARTIN_SUMMARY_ENTRY * count;
    if (out == NULL || fwrite(summary_bytes, 1, size, out) != size || fclose(out) != 0) return fail("cannot write the summary");
    return 0;
}

static int sum(segvartin_bytes file, const char *name) {
    segvartin_bytes_mut summary = {summary_bytes, sizeof summary_bytes};
    segvartin_settings_record none;
    size_t count, read;
    int form;
    segvartin_answer a = segvartin_build_summary(file, summary);
    if (a.number != SEGVARTIN_FINISHED) return refused(a);
    segvartin_read_any_shift_file(file, 0, &none, 0, &count, &read, &form);
    return write_summary(name, count);
}

static int find(segvartin_bytes file, segvartin_bytes summary, const char *number) {
    segvartin_settings_record r, none;
    size_t count, read;
    int found, form;
    char *end;
    errno = 0;
    unsigned long long crossing = strtoull(number, &end, 10);
    if (*number < '0' || *number > '9' || *end != 0 || errno != 0 || crossing > UINT32_MAX) {
        return fail("a crossing is a number from 0 to 4294967295");
    }
    segvartin_answer a = segvartin_find_any_record(file, summary, (uint32_t)crossing, &r, &found);
    if (a.number != SEGVARTIN_FINISHED) return refused(a);
    segvartin_read_any_shift_file(file, 0, &none, 0, &count, &read, &form);
    if (found)
        print_record(&r, form);
    else
        printf("none\n");
    return 0;
}

static int add(segvartin_bytes file, segvartin_bytes summary, segvartin_bytes record, const char *name) {
    segvartin_bytes_mut room = {summary_bytes, summary.len + SEGVARTIN_SUMMARY_ENTRY};
    segvartin_answer a;
    if (room.len > sizeof summary_bytes) room.len = sizeof summary_bytes;
    memcpy(summary_bytes, summary.at, summary.len < room.len ? summary.len : room.len);
    a = segvartin_update_summary(file, record, room);
    return a.number == SEGVARTIN_FINISHED ? write_summary(name, room.len / SEGVARTIN_SUMMARY_ENTRY) : refused(a);
}

int main(int argc, char **argv) {
    static const char *const words[8] = {"list", "pack", "pack-settings", "forward", "back", "sum", "find", "add"};
    static const int counts[8] = {3, 4, 4, 4, 4, 4, 5, 5};
    segvartin_bytes first, second;
    int word = 0;
    while (word < 8 && (argc != counts[word] || strcmp(argv[1], words[word]) != 0)) word++;
    if (word == 8)
        return fail("usage: shift list FILE, pack RECORDS FILE, pack-settings RECORDS FILE, forward FILE MOVED, back FILE MOVED, sum FILE SUMMARY, "
                    "find FILE SUMMARY NUMBER or add FILE SUMMARY RECORD");
    first = mapped(argv[2]);
    if (first.at == NULL) return fail("cannot read the file");
    if (word == 0) return list(first);
    if (word == 1) return make(segvartin_write_shift_file, first, argv[3]);
    if (word == 2) return make(segvartin_write_settings_file, first, argv[3]);
    if (word == 3) return make(segvartin_move_forward, first, argv[3]);
    if (word == 4) return make(segvartin_move_back, first, argv[3]);
    if (word == 5) return sum(first, argv[3]);
    second = mapped(argv[3]);
    if (second.at == NULL) return fail("cannot read the summary");
    if (word == 6) return find(first, second, argv[4]);
    segvartin_bytes record = mapped(argv[4]);
    if (record.at == NULL) return fail("cannot read the record");
    return add(first, second, record, argv[3]);
}
