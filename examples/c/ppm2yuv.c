/*
 * Converts a PPM picture (P6, 255 levels) to Y, U and V planes without padding, one after another in one file: BT.601, limited range, sRGB.
 *
 *     ppm2yuv IN.ppm OUT.yuv [420 or 422] [ROWS]
 *
 * With ROWS the picture is read and converted in bands of so many rows, as from a camera: it is never whole in memory. The planes are the same.
 */
#include "segvartin.h"

#include <stdio.h>
#include <stdlib.h>
#include <string.h>

static int fail(const char *what) {
    fprintf(stderr, "ppm2yuv: %s\n", what);
    return 1;
}

static int refused(segvartin_answer a) {
    fprintf(stderr, "ppm2yuv: refused %u (expected %zu, received %zu)\n", a.number, a.expected, a.received);
    return 1;
}

/* The next number of the header, after blanks and comments; 0 where there is none. */
static unsigned long header_number(FILE *in) {
    int ch = getc(in);
    while (ch == ' ' || ch == '\t' || ch == '\r' || ch == '\n' || ch == '#') {
        if (ch == '#')
            while (ch != '\n' && ch != EOF) ch = getc(in);
        ch = getc(in);
    }
    unsigned long n = 0;
    for (; ch >= '0' && ch <= '9' && n < 100000000; ch = getc(in)) n = 10 * n + (unsigned long)(ch - '0');
    return n;
}

int main(int argc, char **argv) {
    if (argc < 3 || argc > 5) return fail("usage: ppm2yuv IN.ppm OUT.yuv [420 or 422] [ROWS]");
    uint32_t sampling = argc > 3 && strcmp(argv[3], "422") == 0 ? SEGVARTIN_YUV422 : SEGVARTIN_YUV420;
    FILE *in = fopen(argv[1], "rb");
    if (in == NULL) return fail("cannot open the picture");
    if (getc(in) != 'P' || getc(in) != '6') return fail("the picture is not a P6 PPM");
    unsigned long width = header_number(in), height = header_number(in), levels = header_number(in);
    if (width < 1 || width > SEGVARTIN_MAX_SIDE || height < 1 || height > SEGVARTIN_MAX_SIDE) return fail("a side is not from 1 to 16384");
    if (levels != 255) return fail("the picture does not have 255 levels");
    unsigned long rows = argc > 4 ? strtoul(argv[4], NULL, 10) : height;
    if (rows < 1 || rows > height) return fail("ROWS is not from 1 to the height");

    segvartin_description d = {0};
    d.width = (uint32_t)width;
    d.height = (uint32_t)height;
    d.channels = SEGVARTIN_RGB;
    d.sampling = sampling;
    d.range = SEGVARTIN_LIMITED;
    d.matrix = SEGVARTIN_BT601;
    d.transfer = SEGVARTIN_SRGB;
    d.y_stride = d.width;
    d.u_stride = d.v_stride = d.width / 2 + d.width % 2;

    size_t chroma_height = sampling == SEGVARTIN_YUV420 ? height / 2 + height % 2 : height;
    size_t luma = (size_t)d.y_stride * height, chroma = d.u_stride * chroma_height;
    uint32_t stride = 3 * d.width;
    uint8_t *planes = malloc(luma + 2 * chroma), *band = malloc((size_t)stride * rows), *row = malloc(stride);
    if (planes == NULL || band == NULL || row == NULL) return fail("no memory");
    segvartin_bytes_mut y = {planes, luma}, u = {planes + luma, chroma}, v = {planes + luma + chroma, chroma}, carried = {row, stride};

    segvartin_state state;
    segvartin_answer a = segvartin_open_frame(&state, &d);
    if (a.number != SEGVARTIN_FINISHED) return refused(a);
    while (state.done < d.height) {
        uint32_t next = d.height - state.done < rows ? d.height - state.done : (uint32_t)rows;
        segvartin_bytes source = {band, (size_t)stride * next};
        if (fread(band, 1, source.len, in) != source.len) return fail("the picture ends early");
        a = next == d.height ? segvartin_convert_frame(&d, source, stride, y, u, v)
                             : segvartin_convert_band(&state, next, source, stride, y, u, v, carried);
        if (a.number != SEGVARTIN_FINISHED) return refused(a);
        if (next == d.height) break;
    }

    FILE *out = fopen(argv[2], "wb");
    if (out == NULL || fwrite(planes, 1, luma + 2 * chroma, out) != luma + 2 * chroma || fclose(out) != 0) return fail("cannot write the planes");
    printf("%s: %lu x %lu, Y %zu bytes, U %zu, V %zu\n", argv[2], width, height, luma, chroma, chroma);
    free(planes);
    free(band);
    free(row);
    fclose(in);
    return 0;
}
