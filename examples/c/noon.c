/*
 * Holds two shift files of one day against each other, ours and the other side's (RULES 13.1 to 13.4), and prints what a dispatcher reads at noon.
 *
 *     noon OURS THEIRS
 *
 * It prints five lines: how many frames are the same in both, how many differ, how many are only in ours, how many only in theirs; and the first that
 * differs, or that none does. Exit status 0: both files have the same frames. 1: they have not. 2: a file cannot be read, or is no shift file, or the
 * lines cannot be written.
 *
 * Each file may have settings or not; frames of unlike samplings differ in size. The files are read on memory maps, so they may be larger than
 * memory. A pipe, which has no map, cannot be read.
 */
#define _DEFAULT_SOURCE
#include "segvartin.h"

#include <fcntl.h>
#include <inttypes.h>
#include <stdio.h>
#include <sys/mman.h>
#include <sys/stat.h>
#include <unistd.h>

/* The bytes of a regular file, or at is NULL. A map has a byte or more, so nothing is mapped of an empty file. */
static segvartin_bytes mapped(const char *name) {
    static const uint8_t nothing[1];
    segvartin_bytes bytes = {NULL, 0};
    struct stat status;
    /* O_NONBLOCK: a pipe that nothing writes to is opened at once, and passed over below. */
    int file = open(name, O_RDONLY | O_NONBLOCK);
    if (file < 0) return bytes;
    if (fstat(file, &status) == 0 && S_ISREG(status.st_mode)) {
        bytes.len = (size_t)status.st_size;
        bytes.at = nothing;
        if (bytes.len > 0) bytes.at = mmap(NULL, bytes.len, PROT_READ, MAP_SHARED, file, 0);
        if (bytes.at == MAP_FAILED) bytes.at = NULL;
    }
    close(file);
    return bytes;
}

static void print_first(const segvartin_pair_report *r) {
    static const char planes[] = "YUV", *const samplings[] = {"4:2:0", "4:2:2"};
    if (r->difference == SEGVARTIN_NO_DIFFERENCE) {
        printf("first difference: none\n");
        return;
    }
    printf("first difference: crossing %" PRIu64 " (record %" PRIu64 " of ours, record %" PRIu64 " of theirs): ",
           r->crossing, r->our_record, r->their_record);
    if (r->difference == SEGVARTIN_SIZES_DIFFER && r->our_sampling != r->their_sampling)
        printf("%" PRIu64 " x %" PRIu64 " of %s in ours, %" PRIu64 " x %" PRIu64 " of %s in theirs\n", r->our_width, r->our_height,
               samplings[r->our_sampling], r->their_width, r->their_height, samplings[r->their_sampling]);
    else if (r->difference == SEGVARTIN_SIZES_DIFFER)
        printf("%" PRIu64 " x %" PRIu64 " in ours, %" PRIu64 " x %" PRIu64 " in theirs\n",
               r->our_width, r->our_height, r->their_width, r->their_height);
    else
        printf("plane %c, row %" PRIu64 ", column %" PRIu64 "\n", planes[r->plane], r->row, r->column);
}

int main(int argc, char **argv) {
    segvartin_bytes files[2];
    segvartin_pair_report r;
    int broken;
    if (argc != 3) {
        fprintf(stderr, "usage: noon OURS THEIRS\n");
        return 2;
    }
    for (int k = 0; k < 2; k++) {
        files[k] = mapped(argv[1 + k]);
        if (files[k].at == NULL) {
            fprintf(stderr, "noon: cannot read %s\n", argv[1 + k]);
            return 2;
        }
    }
    if (segvartin_pair_shift_files(files[0], files[1], &r, &broken).number != SEGVARTIN_FINISHED) {
        fprintf(stderr, "noon: %s is no shift file\n", argv[broken]);
        return 2;
    }
    printf("the same in both: %" PRIu64 "\n", r.equal);
    printf("different:        %" PRIu64 "\n", r.differing);
    printf("only in ours:     %" PRIu64 "\n", r.only_ours);
    printf("only in theirs:   %" PRIu64 "\n", r.only_theirs);
    print_first(&r);
    if (fflush(stdout) != 0) {
        fprintf(stderr, "noon: cannot write\n");
        return 2;
    }
    return r.differing + r.only_ours + r.only_theirs == 0 ? 0 : 1;
}
