/*
 * Makes Y4M files (YUV4MPEG2, RULES 14.1 to 14.7), which players and encoders take, of PPM pictures, of a record of a shift file, or of planes; and
 * lists one, or takes its planes out.
 *
 *     y4m ppm OUT.y4m 420|422 IN.ppm..            a picture for each PPM (P6, 255 levels, all of one size): BT.601, limited range, sRGB
 *     y4m record OUT.y4m FILE.shift PLACE         the record at this place of a shift file of either form, from 0
 *     y4m pack OUT.y4m 420|422 W H PLANES.yuv     PLANES.yuv has Y, U, V of each picture without padding, all back to back
 *     y4m list FILE.y4m                           the size, the sampling, and a line for each picture: its number, and where its Y, U and V start
 *     y4m planes FILE.y4m OUT.yuv                 Y, U, V of each picture, all back to back
 *
 * Of PPMs no more than one is in memory. The other files are read on a memory map, so they may be larger than memory.
 */
#define _DEFAULT_SOURCE
#include "segvartin.h"

#include <errno.h>
#include <fcntl.h>
#include <inttypes.h>
#include <stdio.h>
#include <stdlib.h>
#include <string.h>
#include <sys/mman.h>
#include <sys/stat.h>
#include <unistd.h>

static int fail(const char *what) {
    fprintf(stderr, "y4m: %s\n", what);
    return 1;
}

static int refused(segvartin_answer a) {
    printf("refused %" PRIu32 "\n", a.number);
    return 1;
}

/* The bytes of a file, or at is NULL. A map has a byte or more, so nothing is mapped of an empty file. */
static segvartin_bytes mapped(const char *name) {
    static const uint8_t nothing[1];
    segvartin_bytes bytes = {NULL, 0};
    struct stat status;
    int file = open(name, O_RDONLY);
    if (file < 0 || fstat(file, &status) != 0) return bytes;
    bytes.len = (size_t)status.st_size;
    bytes.at = nothing;
    if (bytes.len > 0) bytes.at = mmap(NULL, bytes.len, PROT_READ, MAP_SHARED, file, 0);
    if (bytes.at == MAP_FAILED) bytes.at = NULL;
    close(file);
    return bytes;
}

/* A decimal up to a limit, or -1. */
static long number(const char *text, unsigned long most) {
    char *end;
    errno = 0;
    unsigned long n = strtoul(text, &end, 10);
    return *text >= '0' && *text <= '9' && *end == 0 && errno == 0 && n <= most ? (long)n : -1;
}

/* 420 or 422, or -1. */
static int sampling_of(const char *text) {
    return strcmp(text, "420") == 0 ? SEGVARTIN_YUV420 : strcmp(text, "422") == 0 ? SEGVARTIN_YUV422 : -1;
}

/* Rows without padding. */
static segvartin_description described(uint32_t width, uint32_t height, uint32_t code) {
    segvartin_description d = {0};
    d.width = width;
    d.height = height;
    d.channels = SEGVARTIN_RGB;
    d.sampling = code;
    d.range = SEGVARTIN_LIMITED;
    d.matrix = SEGVARTIN_BT601;
    d.transfer = SEGVARTIN_SRGB;
    d.y_stride = width;
    d.u_stride = d.v_stride = width / 2 + width % 2;
    return d;
}

static size_t luma_size(const segvartin_description *d) { return (size_t)d->y_stride * d->height; }

static size_t chroma_size(const segvartin_description *d) {
    return (size_t)d->u_stride * (d->sampling == SEGVARTIN_YUV420 ? d->height / 2 + d->height % 2 : d->height);
}

/* ---- a file that is made: its line first, then a picture at a time */

typedef struct making {
    segvartin_description d;
    FILE *out;
    segvartin_bytes_mut picture; /* room for one */
} making;

/* What was refused, or could not be written, is said. */
static int start(making *m, const char *name) {
    uint8_t line[256];
    segvartin_bytes nothing = {line, 0};
    segvartin_bytes_mut room = {line, sizeof line};
    size_t size;
    segvartin_answer a = segvartin_y4m_write(&m->d, nothing, room, &size); /* the file of no picture */
    if (a.number != SEGVARTIN_FINISHED) return refused(a);
    m->picture.len = 6 + luma_size(&m->d) + 2 * chroma_size(&m->d);
    m->picture.at = malloc(m->picture.len);
    if (m->picture.at == NULL) return fail("no memory");
    m->out = fopen(name, "wb");
    return m->out != NULL && fwrite(line, 1, size, m->out) == size ? 0 : fail("cannot write the file");
}

static int add(making *m, segvartin_bytes y, segvartin_bytes u, segvartin_bytes v) {
    size_t size;
    segvartin_answer a = segvartin_y4m_write_picture(&m->d, y, u, v, m->picture, &size);
    if (a.number != SEGVARTIN_FINISHED) return refused(a);
    return fwrite(m->picture.at, 1, size, m->out) == size ? 0 : fail("cannot write the file");
}

/* A file that was not finished is taken away. */
static int end(making *m, const char *name, int failed) {
    if (m->out != NULL && fclose(m->out) != 0 && !failed) failed = fail("cannot write the file");
    if (m->out != NULL && failed) remove(name);
    free(m->picture.at);
    return failed;
}

/* ---- of PPM pictures */

/* The next number of a PPM's header, after blanks and comments; 0 where there is none. */
static unsigned long header_number(FILE *in) {
    int ch = getc(in);
    while (ch == ' ' || ch == '\t' || ch == '\r' || ch == '\n' || ch == '#') {
        if (ch == '#')
            while (ch != '\n' && ch != EOF) ch = getc(in);
        ch = getc(in);
    }
    unsigned long n = 0;
    for (; ch >= '0' && ch <= '9' && n < 100000000; ch = getc(in)) n = 10 * n + (unsigned long)(ch - '0');
    return n;
}

/* Up to the pixels of a PPM; NULL where it is none. */
static FILE *open_ppm(const char *name, unsigned long *width, unsigned long *height) {
    FILE *in = fopen(name, "rb");
    if (in == NULL) return NULL;
    if (getc(in) == 'P' && getc(in) == '6') {
        *width = header_number(in);
        *height = header_number(in);
        if (*width >= 1 && *width <= SEGVARTIN_MAX_SIDE && *height >= 1 && *height <= SEGVARTIN_MAX_SIDE && header_number(in) == 255) return in;
    }
    fclose(in);
    return NULL;
}

/* One of them converted, and put behind the file. */
static int add_ppm(making *m, const char *name, segvartin_bytes_mut source, segvartin_bytes_mut planes) {
    size_t luma = luma_size(&m->d), chroma = chroma_size(&m->d);
    segvartin_bytes_mut y = {planes.at, luma}, u = {planes.at + luma, chroma}, v = {planes.at + luma + chroma, chroma};
    unsigned long width, height;
    FILE *in = open_ppm(name, &width, &height);
    if (in == NULL) return fail("not a P6 PPM of 255 levels with sides from 1 to 16384");
    int whole = width == m->d.width && height == m->d.height && fread(source.at, 1, source.len, in) == source.len;
    fclose(in);
    if (!whole) return fail("a picture ends early, or has another size than the first");
    segvartin_answer a = segvartin_convert_frame(&m->d, segvartin_read_only(source), 3 * m->d.width, y, u, v);
    if (a.number != SEGVARTIN_FINISHED) return refused(a);
    return add(m, segvartin_read_only(y), segvartin_read_only(u), segvartin_read_only(v));
}

static int of_ppms(const char *name, int code, char **names, int count) {
    unsigned long width = 0, height = 0;
    FILE *first = open_ppm(names[0], &width, &height);
    if (first == NULL) return fail("not a P6 PPM of 255 levels with sides from 1 to 16384");
    fclose(first);
    making m = {described((uint32_t)width, (uint32_t)height, (uint32_t)code), NULL, {NULL, 0}};
    segvartin_bytes_mut source = {NULL, 3 * (size_t)width * height}, planes = {NULL, luma_size(&m.d) + 2 * chroma_size(&m.d)};
    source.at = malloc(source.len);
    planes.at = malloc(planes.len);
    int failed = source.at == NULL || planes.at == NULL ? fail("no memory") : start(&m, name);
    for (int k = 0; k < count && !failed; k++) failed = add_ppm(&m, names[k], source, planes);
    free(source.at);
    free(planes.at);
    return end(&m, name, failed);
}

/* ---- of a record of a shift file, and of planes */

static int of_record(const char *name, segvartin_bytes file, const char *place) {
    segvartin_settings_record r;
    size_t count, read;
    int form;
    long k = number(place, SEGVARTIN_MAX_RECORDS);
    if (k < 0) return fail("a place is a number from 0 to 4095");
    segvartin_answer a = segvartin_read_any_shift_file(file, (size_t)k, &r, 1, &count, &read, &form);
    if (a.number != SEGVARTIN_FINISHED) return refused(a);
    if (read == 0) return fail("the shift file has no record at this place");
    making m = {described((uint32_t)r.shift.width, (uint32_t)r.shift.height, (uint32_t)r.sampling), NULL, {NULL, 0}};
    int failed = start(&m, name);
    if (!failed) failed = add(&m, segvartin_shift_y(file, &r.shift), segvartin_shift_u(file, &r.shift), segvartin_shift_v(file, &r.shift));
    return end(&m, name, failed);
}

/* All at once, on a memory map of the file that is made. */
static int of_planes(const char *name, int code, long width, long height, segvartin_bytes planes) {
    segvartin_description d = described((uint32_t)width, (uint32_t)height, (uint32_t)code);
    uint8_t none;
    segvartin_bytes_mut file = {&none, 0}; /* nothing is lent: the call only tells how many bytes are needed */
    size_t size;
    segvartin_answer a = segvartin_y4m_write(&d, planes, file, &size);
    if (a.number != SEGVARTIN_OUTPUT_TOO_SHORT) return refused(a);
    int out = open(name, O_RDWR | O_CREAT | O_TRUNC, 0666);
    if (out < 0 || ftruncate(out, (off_t)size) != 0) return fail("cannot write the file");
    file.at = mmap(NULL, size, PROT_READ | PROT_WRITE, MAP_SHARED, out, 0);
    if (file.at == MAP_FAILED) return fail("cannot map the file");
    file.len = size;
    a = segvartin_y4m_write(&d, planes, file, &size);
    if (close(out) != 0 || munmap(file.at, file.len) != 0) return fail("cannot write the file");
    return a.number == SEGVARTIN_FINISHED ? 0 : refused(a);
}

/* ---- a file that is read, many pictures at a time: each call goes through the whole file */

enum { AT_ONCE = 4096 };

static int each_picture(segvartin_bytes file, int (*said)(segvartin_bytes, size_t, const segvartin_y4m_picture *, FILE *), FILE *out) {
    static segvartin_y4m_picture pictures[AT_ONCE];
    segvartin_y4m_file told;
    size_t k = 0, read;
    do {
        segvartin_y4m_read(file, k, pictures, AT_ONCE, &told, &read);
        for (size_t i = 0; i < read; i++)
            if (!said(file, k + i, pictures + i, out)) return fail("cannot write");
        k += read;
    } while (read > 0);
    return 0;
}

static int print_picture(segvartin_bytes file, size_t k, const segvartin_y4m_picture *p, FILE *out) {
    (void)file;
    return fprintf(out, "%zu: Y %" PRIu64 ", U %" PRIu64 ", V %" PRIu64 "\n", k, p->y_offset, p->u_offset, p->v_offset) > 0;
}

static int put_planes(segvartin_bytes file, size_t k, const segvartin_y4m_picture *p, FILE *out) {
    segvartin_bytes y = segvartin_y4m_y(file, p), u = segvartin_y4m_u(file, p), v = segvartin_y4m_v(file, p);
    (void)k;
    return fwrite(y.at, 1, y.len, out) == y.len && fwrite(u.at, 1, u.len, out) == u.len && fwrite(v.at, 1, v.len, out) == v.len;
}

static int list(segvartin_bytes file) {
    segvartin_y4m_picture none;
    segvartin_y4m_file told;
    size_t read;
    segvartin_answer a = segvartin_y4m_read(file, 0, &none, 0, &told, &read);
    if (a.number != SEGVARTIN_FINISHED) return refused(a);
    const char *sampling = told.sampling == SEGVARTIN_YUV420 ? "4:2:0" : "4:2:2";
    printf("%" PRIu32 " x %" PRIu32 ", %s, %zu pictures\n", told.width, told.height, sampling, told.count);
    return each_picture(file, print_picture, stdout);
}

static int take_out(segvartin_bytes file, const char *name) {
    segvartin_y4m_picture none;
    segvartin_y4m_file told;
    size_t read;
    segvartin_answer a = segvartin_y4m_read(file, 0, &none, 0, &told, &read);
    if (a.number != SEGVARTIN_FINISHED) return refused(a);
    FILE *out = fopen(name, "wb");
    if (out == NULL) return fail("cannot write the planes");
    int failed = each_picture(file, put_planes, out);
    return fclose(out) == 0 || failed ? failed : fail("cannot write the planes");
}

int main(int argc, char **argv) {
    const char *word = argc > 1 ? argv[1] : "";
    segvartin_bytes file;
    if (argc > 4 && strcmp(word, "ppm") == 0) {
        int code = sampling_of(argv[3]);
        return code < 0 ? fail("a sampling is 420 or 422") : of_ppms(argv[2], code, argv + 4, argc - 4);
    }
    if (argc == 5 && strcmp(word, "record") == 0) {
        file = mapped(argv[3]);
        return file.at == NULL ? fail("cannot read the shift file") : of_record(argv[2], file, argv[4]);
    }
    if (argc == 7 && strcmp(word, "pack") == 0) {
        int code = sampling_of(argv[3]);
        long width = number(argv[4], UINT32_MAX), height = number(argv[5], UINT32_MAX);
        if (code < 0 || width < 0 || height < 0) return fail("a sampling is 420 or 422, a side a number");
        file = mapped(argv[6]);
        return file.at == NULL ? fail("cannot read the planes") : of_planes(argv[2], code, width, height, file);
    }
    if ((argc == 3 && strcmp(word, "list") == 0) || (argc == 4 && strcmp(word, "planes") == 0)) {
        file = mapped(argv[2]);
        if (file.at == NULL) return fail("cannot read the file");
        return argc == 3 ? list(file) : take_out(file, argv[3]);
    }
    return fail("usage: y4m ppm OUT.y4m 420|422 IN.ppm.., record OUT.y4m FILE.shift PLACE, pack OUT.y4m 420|422 W H PLANES.yuv, list FILE.y4m or "
                "planes FILE.y4m OUT.yuv");
}
