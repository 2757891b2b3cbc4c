/*
 * Frame calls: worked lines of docs/RULES.md, both roundings of the tables, each refusal with its numbers, padding and refused buffers left as
 * they were.
 */
#include "lent.h"

#include "segvartin.h"

#include <math.h>

static const uint32_t pixel_bytes[4] = {3, 4, 4, 3};

/* A frame and its buffers: source, Y, U, V. */
typedef struct request {
    segvartin_description d;
    uint32_t stride;
    lent source, y, u, v;
} request;

static uint32_t chroma_rows(const segvartin_description *d) {
    return d->sampling == SEGVARTIN_YUV420 ? d->height / 2 + d->height % 2 : d->height;
}

/* An accepted frame with so much padding in each row. */
static request accepted(uint32_t width, uint32_t height, uint32_t channels, uint32_t sampling, uint32_t range, uint32_t padding) {
    request r;
    uint32_t chroma_width = width / 2 + width % 2;
    memset(&r.d, 0, sizeof r.d);
    r.d.width = width;
    r.d.height = height;
    r.d.channels = channels;
    r.d.sampling = sampling;
    r.d.range = range;
    r.d.matrix = SEGVARTIN_BT601;
    r.d.transfer = SEGVARTIN_SRGB;
    r.d.y_stride = width + padding;
    r.d.u_stride = chroma_width + padding;
    r.d.v_stride = chroma_width + padding;
    r.stride = width * pixel_bytes[channels] + padding;
    r.source = lend((size_t)r.stride * height);
    r.y = lend((size_t)r.d.y_stride * height);
    r.u = lend((size_t)r.d.u_stride * chroma_rows(&r.d));
    r.v = lend((size_t)r.d.v_stride * chroma_rows(&r.d));
    return r;
}

static void discard(request *r) {
    give_back(&r->source);
    give_back(&r->y);
    give_back(&r->u);
    give_back(&r->v);
}

/* How a call is made: without options, or with this code of the rounding. */
#define WITHOUT_OPTIONS (-1)
static int64_t rounding = WITHOUT_OPTIONS;

static segvartin_answer call(const request *r) {
    segvartin_bytes source = {r->source.at, r->source.len};
    segvartin_bytes_mut y = {r->y.at, r->y.len}, u = {r->u.at, r->u.len}, v = {r->v.at, r->v.len};
    segvartin_options o = segvartin_options_of(&r->d);
    if (rounding == WITHOUT_OPTIONS) return segvartin_convert_frame(&r->d, source, r->stride, y, u, v);
    o.rounding = (uint32_t)rounding;
    return segvartin_convert_frame_with(&r->d, &o, source, r->stride, y, u, v);
}

/* Every pixel of the source is r, g, b; alpha and padding keep their pattern. */
static void paint(request *r, uint8_t red, uint8_t green, uint8_t blue) {
    uint32_t c = pixel_bytes[r->d.channels];
    int swapped = r->d.channels == SEGVARTIN_BGR || r->d.channels == SEGVARTIN_BGRA;
    for (uint32_t row = 0; row < r->d.height; row++)
        for (uint32_t x = 0; x < r->d.width; x++) {
            uint8_t *pixel = r->source.at + (size_t)row * r->stride + (size_t)x * c;
            pixel[0] = swapped ? blue : red;
            pixel[1] = green;
            pixel[2] = swapped ? red : blue;
        }
}

/* Whether the first n bytes of each row are this byte, and all others the pattern. */
static int rows_are(const lent *plane, uint32_t stride, uint32_t n, uint8_t byte) {
    for (size_t i = 0; i < plane->len; i++)
        if (plane->at[i] != (i % stride < n ? byte : (uint8_t)(0xa5 ^ i))) return 0;
    return 1;
}

static void one_colour(request r, uint8_t red, uint8_t green, uint8_t blue, uint8_t y, uint8_t u, uint8_t v) {
    paint(&r, red, green, blue);
    segvartin_answer a = call(&r);
    uint32_t chroma_width = r.d.width / 2 + r.d.width % 2;
    EXPECT(a.number == SEGVARTIN_FINISHED && a.expected == 0 && a.received == 0);
    EXPECT(rows_are(&r.y, r.d.y_stride, r.d.width, y));
    EXPECT(rows_are(&r.u, r.d.u_stride, chroma_width, u));
    EXPECT(rows_are(&r.v, r.d.v_stride, chroma_width, v));
    discard(&r);
}

static void worked_lines(void) {
    for (uint32_t channels = 0; channels < 4; channels++)
        for (uint32_t sampling = 0; sampling < 2; sampling++)
            for (uint32_t transfer = 0; transfer < 4; transfer++)
                for (uint32_t padding = 0; padding < 3; padding += 2) {
                    request r = accepted(1, 1, channels, sampling, SEGVARTIN_FULL, padding);
                    r.d.transfer = transfer;
                    one_colour(r, 255, 0, 0, 76, 85, 255);
                    for (uint32_t side = 1; side < 6; side++) {
                        r = accepted(side, 6 - side, channels, sampling, SEGVARTIN_LIMITED, padding);
                        r.d.transfer = transfer;
                        one_colour(r, 0, 0, 0, 16, 128, 128);
                        r = accepted(side, 6 - side, channels, sampling, SEGVARTIN_LIMITED, padding);
                        r.d.transfer = transfer;
                        one_colour(r, 255, 255, 255, 235, 128, 128);
                    }
                    r = accepted(1, 1, channels, SEGVARTIN_YUV422, SEGVARTIN_LIMITED, padding);
                    r.d.transfer = transfer;
                    one_colour(r, 0, 255, 0, 145, 54, 34);
                }
}

/*
 * sRGB's 10 is linear 198 and comes back as 9; with nearest entries it is linear 199 and comes back as 10, and so with the other transfers. In
 * an even width every chroma place has its sum, 16 times the same entry. Bt601 Full by RULES 5.2: 9 * 4096 and 10 * 4096, with 128 * 8192 and
 * 4095 added and divided by 8192, are 132 and 133.
 */
static void flat_tens(void) {
    uint8_t tens = rounding == SEGVARTIN_NEAREST ? 133 : 132;
    for (uint32_t channels = 0; channels < 4; channels++)
        for (uint32_t sampling = 0; sampling < 2; sampling++)
            for (uint32_t transfer = 0; transfer < 4; transfer++)
                for (uint32_t height = 1; height < 4; height++) {
                    request r = accepted(2, height, channels, sampling, SEGVARTIN_FULL, 1);
                    r.d.transfer = transfer;
                    one_colour(r, 10, 0, 0, 3, 126, tens);
                    r = accepted(4, height, channels, sampling, SEGVARTIN_FULL, 0);
                    r.d.transfer = transfer;
                    one_colour(r, 0, 0, 10, 1, tens, 127);
                }
}

/*
 * 2 x 2 colours, Bt601 Full, sRGB, whose chroma bytes all differ between the roundings. They were worked out by RULES 6.2 to 6.4 and 5.2 with the
 * entries of both tables as exact fractions; G of 4:2:0 is linear 13650 in both, and from there 125 truncated and 126 nearest.
 */
static void four_colours(void) {
    static const uint8_t source[12] = {190, 50, 50, 30, 210, 60, 100, 80, 170, 0, 240, 170}, luma[4] = {92, 139, 96, 160};
    /* by rounding; of 4:2:0 one place, then of 4:2:2 two */
    static const uint8_t cb[2][3] = {{110, 86, 150}, {111, 87, 151}}, cr[2][3] = {{144, 157, 98}, {143, 158, 97}};
    int nearest = rounding == SEGVARTIN_NEAREST;
    for (uint32_t sampling = 0; sampling < 2; sampling++) {
        request r = accepted(2, 2, SEGVARTIN_RGB, sampling, SEGVARTIN_FULL, 0);
        memcpy(r.source.at, source, sizeof source);
        EXPECT(call(&r).number == SEGVARTIN_FINISHED && memcmp(r.y.at, luma, r.y.len) == 0);
        EXPECT(memcmp(r.u.at, cb[nearest] + sampling, r.u.len) == 0 && memcmp(r.v.at, cr[nearest] + sampling, r.v.len) == 0);
        discard(&r);
    }
}

/* With nearest entries every byte of sRGB and of Rec709 comes back as it is: a flat colour has the chroma of its pixel, which 4:2:2 gives alone. */
static void flat_colours_stay(void) {
    for (uint32_t transfer = SEGVARTIN_SRGB; transfer <= SEGVARTIN_REC709; transfer++)
        for (uint32_t value = 0; value < 256; value++) {
            uint8_t red = (uint8_t)value, green = (uint8_t)(value * 7), blue = (uint8_t)(value * 29 + 50);
            request pixel = accepted(1, 1, SEGVARTIN_RGB, SEGVARTIN_YUV422, SEGVARTIN_FULL, 0);
            request flat = accepted(4, 3, SEGVARTIN_RGB, SEGVARTIN_YUV420, SEGVARTIN_FULL, 0);
            pixel.d.transfer = flat.d.transfer = transfer;
            paint(&pixel, red, green, blue);
            EXPECT(call(&pixel).number == SEGVARTIN_FINISHED);
            one_colour(flat, red, green, blue, pixel.y.at[0], pixel.u.at[0], pixel.v.at[0]);
            discard(&pixel);
        }
}

/* A refusal with its numbers; no byte is written. Gives the buffers back. */
static void refused(request r, uint32_t number, size_t expected, size_t received, int line) {
    segvartin_answer a = call(&r);
    int holds = a.number == number && a.expected == expected && a.received == received;
    if (!holds) fprintf(stderr, "answered %u %zu %zu\n", a.number, a.expected, a.received);
    expect(holds, "number, expected, received of the refusal", line);
    expect(untouched(&r.source) && untouched(&r.y) && untouched(&r.u) && untouched(&r.v), "a refusal writes no byte", line);
    discard(&r);
}

#define REFUSED(change, number, expected, received)                  \
    do {                                                             \
        request r = accepted(5, 3, SEGVARTIN_RGBA, sampling, 1, 2);  \
        change;                                                      \
        refused(r, number, expected, received, __LINE__);            \
    } while (0)

static void shorter(lent *b, size_t len) {
    give_back(b);
    *b = lend(len);
}

static void refusals(uint32_t sampling) {
    uint32_t rows = sampling == SEGVARTIN_YUV420 ? 2 : 3;
    uint32_t codes[] = {4, 2, 2, 7, 4};
    for (int i = 0; i < 5; i++)
        for (int far = 0; far < 3; far++) {
            uint32_t code = far == 0 ? codes[i] : far == 1 ? 256 : UINT32_MAX;
            REFUSED(r.d.channels = i == 0 ? code : r.d.channels; r.d.sampling = i == 1 ? code : r.d.sampling;
                    r.d.range = i == 2 ? code : r.d.range; r.d.matrix = i == 3 ? code : r.d.matrix;
                    r.d.transfer = i == 4 ? code : r.d.transfer, 1, 0, 0);
            /* 1 is the first */
            REFUSED(r.d.matrix = i == 3 ? code : 7; r.d.width = 0; r.d.y_stride = 0, 1, 0, 0);
        }
    REFUSED(r.d.width = 0, 2, 0, 0);
    REFUSED(r.d.height = 0, 2, 0, 0);
    REFUSED(r.d.height = 0; r.d.width = UINT32_MAX, 2, 0, 0);
    REFUSED(r.d.width = 16385, 3, 0, 0);
    REFUSED(r.d.height = UINT32_MAX, 3, 0, 0);
    REFUSED(r.d.matrix = SEGVARTIN_CUSTOM; r.d.kr = nextafterf(0.5f, 1), 4, 0, 0);
    REFUSED(r.d.matrix = SEGVARTIN_CUSTOM; r.d.kb = nextafterf(0.5f, 1), 4, 0, 0);
    REFUSED(r.d.matrix = SEGVARTIN_CUSTOM; r.d.kr = nextafterf(0, -1), 4, 0, 0);
    REFUSED(r.d.matrix = SEGVARTIN_CUSTOM; r.d.kb = NAN, 4, 0, 0);
    REFUSED(r.d.matrix = SEGVARTIN_CUSTOM; r.d.kr = INFINITY, 4, 0, 0);
    /* 5 × 3 pixels of 4 bytes, strides 22, 7, 5, 5 */
    REFUSED(shorter(&r.source, 22 * 2 + 20 - 1), 6, 64, 63);
    REFUSED(shorter(&r.source, 0), 6, 64, 0);
    REFUSED(r.stride = UINT32_MAX, 6, (size_t)UINT32_MAX * 2 + 20, 66);
    REFUSED(r.stride = 19, 7, 20, 19);
    REFUSED(r.stride = 0, 7, 20, 0);
    REFUSED(r.d.y_stride = 4, 8, 15, 12);
    REFUSED(shorter(&r.y, 7 * 2 + 5 - 1), 9, 19, 18);
    REFUSED(r.d.y_stride = UINT32_MAX, 9, (size_t)UINT32_MAX * 2 + 5, 21);
    REFUSED(r.d.u_stride = 2, 10, 3 * rows, 2 * rows);
    REFUSED(shorter(&r.u, 5 * (rows - 1) + 3 - 1), 10, 5 * (rows - 1) + 3, 5 * (rows - 1) + 2);
    REFUSED(r.d.v_stride = 0, 11, 3 * rows, 0);
    REFUSED(shorter(&r.v, 5 * (rows - 1) + 3 - 1), 11, 5 * (rows - 1) + 3, 5 * (rows - 1) + 2);
    REFUSED(shorter(&r.source, 22 * 2 + 20), 12, 66, 64);
    REFUSED(shorter(&r.source, 67), 12, 66, 67);
    REFUSED(shorter(&r.y, 7 * 2 + 5), 12, 21, 19);
    REFUSED(shorter(&r.u, 5 * rows + 1), 12, 5 * rows, 5 * rows + 1);
    REFUSED(shorter(&r.v, 5 * rows + 5), 12, 5 * rows, 5 * rows + 5);
    /* the first of several */
    REFUSED(shorter(&r.v, 0); shorter(&r.y, 0); r.stride = 19, 7, 20, 19);
    REFUSED(shorter(&r.v, 0); shorter(&r.y, 22), 11, 5 * (rows - 1) + 3, 0);
}

/* Accepted at the limits: a side of 16384; kr and kb of 0.5, 0 and -0.0. */
static void limits(void) {
    one_colour(accepted(16384, 1, SEGVARTIN_BGRA, SEGVARTIN_YUV420, SEGVARTIN_LIMITED, 1), 255, 255, 255, 235, 128, 128);
    one_colour(accepted(1, 16384, SEGVARTIN_RGB, SEGVARTIN_YUV422, SEGVARTIN_LIMITED, 1), 0, 0, 0, 16, 128, 128);
    float ks[] = {0.0f, -0.0f, 0.5f};
    for (int i = 0; i < 3; i++)
        for (int j = 0; j < 3; j++) {
            request r = accepted(2, 2, SEGVARTIN_RGB, SEGVARTIN_YUV420, SEGVARTIN_FULL, 0);
            r.d.matrix = SEGVARTIN_CUSTOM;
            r.d.kr = ks[i];
            r.d.kb = ks[j];
            one_colour(r, 0, 0, 0, 0, 128, 128);
        }
    /* a named matrix does not look at kr and kb */
    request r = accepted(1, 1, SEGVARTIN_RGB, SEGVARTIN_YUV420, SEGVARTIN_FULL, 0);
    r.d.kr = NAN;
    r.d.kb = 7;
    one_colour(r, 255, 0, 0, 76, 85, 255);
}

/* A code of the rounding that has no meaning, before everything else that is wrong. */
static void refused_roundings(uint32_t sampling) {
    static const uint32_t codes[4] = {2, 256, 0x80000001, UINT32_MAX};
    for (int i = 0; i < 4; i++) {
        rounding = codes[i];
        REFUSED(, 1, 0, 0);
        REFUSED(r.d.width = 0; r.d.y_stride = 0; shorter(&r.source, 0), 1, 0, 0);
    }
    rounding = WITHOUT_OPTIONS;
}

/*
 * The exported function answers 1 to every count of numbers but its own three, 11, 12 and 16, whatever the numbers are; no byte is written. The
 * numbers have a closed page behind them too: of 11 no twelfth is read. The window of 16 is the whole source.
 */
static void counts(void) {
    static const uint32_t numbers[20] = {6, 2, 1, 0, 0, 1, 0, 0, 2, 1, 1, SEGVARTIN_NEAREST, 0, 0, 2, 1};
    const float custom[2] = {0, 0};
    for (size_t count = 0; count <= 20; count++) {
        request r = accepted(2, 1, SEGVARTIN_RGB, SEGVARTIN_YUV420, SEGVARTIN_FULL, 0);
        lent given = lend(count * sizeof *numbers);
        size_t told[2] = {99, 99};
        int finished = count == 11 || count == 12 || count == 16;
        memcpy(given.at, numbers, given.len);
        paint(&r, 10, 0, 0);
        uint32_t number = segvartin_call_frame((const uint32_t *)(const void *)given.at, count, custom, r.source.at, r.source.len, r.y.at, r.y.len,
                                               r.u.at, r.u.len, r.v.at, r.v.len, told);
        EXPECT(number == (finished ? SEGVARTIN_FINISHED : SEGVARTIN_MALFORMED_REQUEST) && told[0] == 0 && told[1] == 0);
        if (finished)
            EXPECT(r.v.at[0] == (count == 11 ? 132 : 133));
        else
            EXPECT(untouched(&r.y) && untouched(&r.u) && untouched(&r.v));
        give_back(&given);
        discard(&r);
    }
}

int main(void) {
    for (closed_before = 0; closed_before < 2; closed_before++) {
        for (rounding = WITHOUT_OPTIONS; rounding <= SEGVARTIN_NEAREST; rounding++) {
            worked_lines();
            flat_tens();
            four_colours();
            if (rounding == SEGVARTIN_NEAREST) flat_colours_stay();
            refusals(SEGVARTIN_YUV420);
            refusals(SEGVARTIN_YUV422);
            limits();
        }
        refused_roundings(SEGVARTIN_YUV420);
        refused_roundings(SEGVARTIN_YUV422);
        counts();
    }
    return finish("frames");
}
