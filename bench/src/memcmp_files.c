/*
 * Maps two files and holds them against each other by one memcmp: the measure for `segvartin compare` (bench/compare_files.py).
 *
 *     memcmp_files [--again] OURS THEIRS
 *
 * Exit status 0: the same bytes. 1: other ones. 2: a file cannot be mapped. With --again memcmp is called a second time, over maps that are touched
 * already, and the seconds that this call takes are printed.
 */
#define _DEFAULT_SOURCE
#include <fcntl.h>
#include <stdio.h>
#include <string.h>
#include <sys/mman.h>
#include <sys/stat.h>
#include <time.h>
#include <unistd.h>

static const void *mapped(const char *name, size_t *length) {
    struct stat status;
    void *at;
    int file = open(name, O_RDONLY);
    if (file < 0 || fstat(file, &status) != 0 || !S_ISREG(status.st_mode) || status.st_size == 0) return NULL;
    *length = (size_t)status.st_size;
    at = mmap(NULL, *length, PROT_READ, MAP_SHARED, file, 0);
    close(file);
    return at == MAP_FAILED ? NULL : at;
}

static double seconds(void) {
    struct timespec now;
    clock_gettime(CLOCK_MONOTONIC, &now);
    return (double)now.tv_sec + (double)now.tv_nsec / 1e9;
}

int main(int argc, char **argv) {
    int again = argc == 4 && strcmp(argv[1], "--again") == 0;
    size_t lengths[2];
    const void *at[2];
    if (argc != 3 + again) {
        fprintf(stderr, "usage: memcmp_files [--again] OURS THEIRS\n");
        return 2;
    }
    for (int k = 0; k < 2; k++) {
        at[k] = mapped(argv[1 + again + k], &lengths[k]);
        if (at[k] == NULL) {
            fprintf(stderr, "memcmp_files: cannot map %s\n", argv[1 + again + k]);
            return 2;
        }
    }
    if (lengths[0] != lengths[1]) return 1;
    int unlike = memcmp(at[0], at[1], lengths[0]) != 0;
    if (again) {
        double start = seconds();
        int same = memcmp(at[0], at[1], lengths[0]) == 0;
        printf("%.6f\n", seconds() - start);
        if (same == unlike) return 2;
    }
    return unlike;
}
