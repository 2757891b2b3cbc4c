/*
 * Windows: a frame that is a rectangle inside a larger source leaves what the rectangle copied out leaves, in frame calls and in every cut into
 * bands, and nothing outside it is looked at; refusal 14, and those that take the large size.
 */
#include "lent.h"

#include "segvartin.h"

#include <math.h>

static const uint32_t pixel_bytes[4] = {3, 4, 4, 3};

typedef struct planes {
    lent y, u, v;
} planes;

/* Ranges, matrices and transfers take turns. */
static segvartin_description description(uint32_t width, uint32_t height, uint32_t channels, uint32_t sampling) {
    static uint32_t turn;
    segvartin_description d = {0};
    d.width = width;
    d.height = height;
    d.channels = channels;
    d.sampling = sampling;
    d.range = turn % 2;
    d.matrix = turn % 7;
    d.transfer = turn / 2 % 4;
    d.kr = 0.25f;
    d.kb = 0.0625f;
    d.y_stride = width + 1;
    d.u_stride = width / 2 + width % 2 + 2;
    d.v_stride = width / 2 + width % 2;
    turn++;
    return d;
}

static segvartin_options window(const segvartin_description *d, uint32_t left, uint32_t top, uint32_t source_width, uint32_t source_height) {
    segvartin_options o = segvartin_options_of(d);
    EXPECT(o.rounding == SEGVARTIN_TRUNCATED && o.left == 0 && o.top == 0 && o.source_width == d->width && o.source_height == d->height);
    o.left = left;
    o.top = top;
    o.source_width = source_width;
    o.source_height = source_height;
    return o;
}

static planes lend_planes(const segvartin_description *d) {
    size_t rows = d->sampling == SEGVARTIN_YUV420 ? d->height / 2 + d->height % 2 : d->height;
    planes p = {lend(d->y_stride * (size_t)d->height), lend(d->u_stride * rows), lend(d->v_stride * rows)};
    return p;
}

static void give_back_planes(planes *p) {
    give_back(&p->y);
    give_back(&p->u);
    give_back(&p->v);
}

static int same(const lent *a, const lent *b) { return a->len == b->len && memcmp(a->at, b->at, a->len) == 0; }

static int same_planes(const planes *p, const planes *q) { return same(&p->y, &q->y) && same(&p->u, &q->u) && same(&p->v, &q->v); }

static segvartin_bytes_mut all(const lent *b) {
    segvartin_bytes_mut bytes = {b->at, b->len};
    return bytes;
}

static int finished(segvartin_answer a) { return a.number == SEGVARTIN_FINISHED && a.expected == 0 && a.received == 0; }

static uint8_t random_byte(void) {
    static uint32_t state = 12345;
    state = state * 1664525 + 1013904223;
    return (uint8_t)(state >> 24);
}

/* The first byte of the rectangle's row r, where the source's row `top` is row `first` of these rows. */
static uint8_t *row_of(uint8_t *rows, uint32_t stride, uint32_t first, uint32_t r, const segvartin_description *d, const segvartin_options *o) {
    return rows + (size_t)(first + r) * stride + (size_t)o->left * pixel_bytes[d->channels];
}

/* What a call without a window leaves of the rectangle copied out. */
static planes copied_out(const segvartin_description *d, const segvartin_options *o, uint8_t *source, uint32_t stride) {
    uint32_t size = d->width * pixel_bytes[d->channels];
    lent rectangle = lend((size_t)size * d->height);
    segvartin_bytes from = {rectangle.at, rectangle.len};
    segvartin_options whole = segvartin_options_of(d);
    planes p = lend_planes(d);
    for (uint32_t r = 0; r < d->height; r++) memcpy(rectangle.at + (size_t)r * size, row_of(source, stride, o->top, r, d, o), size);
    whole.rounding = o->rounding;
    if (o->rounding == SEGVARTIN_TRUNCATED)
        EXPECT(finished(segvartin_convert_frame(d, from, size, all(&p.y), all(&p.u), all(&p.v))));
    else
        EXPECT(finished(segvartin_convert_frame_with(d, &whole, from, size, all(&p.y), all(&p.u), all(&p.v))));
    give_back(&rectangle);
    return p;
}

static void by_frame(const segvartin_description *d, const segvartin_options *o, const uint8_t *source, uint32_t stride, const planes *expected) {
    segvartin_bytes from = {source, (size_t)stride * o->source_height};
    planes p = lend_planes(d);
    EXPECT(finished(segvartin_convert_frame_with(d, o, from, stride, all(&p.y), all(&p.u), all(&p.v))));
    EXPECT(same_planes(&p, expected));
    give_back_planes(&p);
}

/* A frame in bands, and what it is converted into. */
typedef struct bands {
    segvartin_state_with state;
    planes p;
    lent carried;
} bands;

static bands opened(const segvartin_description *d, const segvartin_options *o) {
    bands b;
    b.p = lend_planes(d);
    b.carried = lend(3 * (size_t)d->width);
    b.state.done = 99;
    EXPECT(finished(segvartin_open_frame_with(&b.state, d, o)) && b.state.done == 0);
    return b;
}

static void convert(bands *b, uint32_t rows, const uint8_t *source, uint32_t stride) {
    segvartin_bytes from = {source, (size_t)stride * rows};
    uint32_t end = b->state.done + rows;
    EXPECT(finished(segvartin_convert_band_with(&b->state, rows, from, stride, all(&b->p.y), all(&b->p.u), all(&b->p.v), all(&b->carried))));
    EXPECT(b->state.done == end);
}

static void close_bands(bands *b) {
    give_back(&b->carried);
    give_back_planes(&b->p);
}

/* The next rows of the rectangle in a buffer of their own, with other bytes around them. */
static lent rows_apart(const segvartin_description *d, const segvartin_options *o, uint8_t *source, uint32_t stride, uint32_t done, uint32_t rows) {
    lent band = lend((size_t)stride * rows);
    for (size_t i = 0; i < band.len; i++) band.at[i] = random_byte();
    for (uint32_t r = 0; r < rows; r++)
        memcpy(row_of(band.at, stride, 0, r, d, o), row_of(source, stride, o->top, done + r, d, o), d->width * pixel_bytes[d->channels]);
    return band;
}

/*
 * Every cut, the bands in buffers of their own or in place. Beside it goes the same cut of the rectangle copied out: after each band planes and
 * carried row are the same.
 */
static void by_bands(const segvartin_description *d, const segvartin_options *o, uint8_t *source, uint32_t stride, int apart,
                     const planes *expected) {
    uint32_t size = d->width * pixel_bytes[d->channels];
    segvartin_options whole = segvartin_options_of(d);
    whole.rounding = o->rounding;
    /* bit r set: a band ends after row r */
    for (uint32_t cuts = 0; cuts < 1u << (d->height - 1); cuts++) {
        bands b = opened(d, o), copied = opened(d, &whole);
        for (uint32_t end = 1; end <= d->height; end++) {
            if (end < d->height && !(cuts >> (end - 1) & 1)) continue;
            uint32_t done = b.state.done, rows = end - done;
            lent rectangle = lend((size_t)size * rows);
            for (uint32_t r = 0; r < rows; r++) memcpy(rectangle.at + (size_t)r * size, row_of(source, stride, o->top, done + r, d, o), size);
            convert(&copied, rows, rectangle.at, size);
            if (apart) {
                lent band = rows_apart(d, o, source, stride, done, rows);
                convert(&b, rows, band.at, stride);
                give_back(&band);
            } else
                convert(&b, rows, source + (size_t)(o->top + done) * stride, stride);
            EXPECT(memcmp(&b.state.options, o, sizeof *o) == 0 && memcmp(&b.state.frame, d, sizeof *d) == 0);
            EXPECT(same_planes(&b.p, &copied.p) && same(&b.carried, &copied.carried));
            give_back(&rectangle);
        }
        EXPECT(same_planes(&b.p, expected));
        if (d->sampling == SEGVARTIN_YUV422) EXPECT(untouched(&b.carried));
        close_bands(&b);
        close_bands(&copied);
    }
}

/* One window of a source whose rows have so much padding. */
static void one_window(const segvartin_description *d, const segvartin_options *o, uint32_t padding) {
    uint32_t size = d->width * pixel_bytes[d->channels], stride = o->source_width * pixel_bytes[d->channels] + padding;
    lent source = lend((size_t)stride * o->source_height), kept = lend((size_t)size * d->height);
    for (size_t i = 0; i < source.len; i++) source.at[i] = random_byte();
    for (uint32_t r = 0; r < d->height; r++) memcpy(kept.at + (size_t)r * size, row_of(source.at, stride, o->top, r, d, o), size);
    planes expected = copied_out(d, o, source.at, stride);
    by_frame(d, o, source.at, stride, &expected);
    /* the same with every byte outside the rectangle changed */
    for (size_t i = 0; i < source.len; i++) source.at[i] ^= (uint8_t)(random_byte() | 1);
    for (uint32_t r = 0; r < d->height; r++) memcpy(row_of(source.at, stride, o->top, r, d, o), kept.at + (size_t)r * size, size);
    by_frame(d, o, source.at, stride, &expected);
    by_bands(d, o, source.at, stride, 1, &expected);
    give_back_planes(&expected);
    give_back(&kept);
    give_back(&source);
}

/* Every window of a small source, the whole of it among them. */
static void every_window(uint32_t channels, uint32_t sampling, uint32_t rounding) {
    enum { W = 5, H = 4 };
    for (uint32_t left = 0; left < W; left++)
        for (uint32_t top = 0; top < H; top++)
            for (uint32_t width = 1; left + width <= W; width++)
                for (uint32_t height = 1; top + height <= H; height++) {
                    segvartin_description d = description(width, height, channels, sampling);
                    segvartin_options o = window(&d, left, top, W, H);
                    o.rounding = rounding;
                    one_window(&d, &o, (left + top + width + height) % 3);
                }
}

/* Of the source only the pages that hold bytes of the rectangle can be touched. */
static void among_closed_pages(const segvartin_description *d, const segvartin_options *o) {
    size_t page = (size_t)sysconf(_SC_PAGESIZE), size = (size_t)d->width * pixel_bytes[d->channels];
    uint32_t stride = o->source_width * pixel_bytes[d->channels];
    size_t len = (size_t)stride * o->source_height;
    uint8_t *source = mmap(NULL, len + page, PROT_NONE, MAP_PRIVATE | MAP_ANONYMOUS | MAP_NORESERVE, -1, 0);
    if (source == MAP_FAILED) {
        perror("mmap");
        exit(2);
    }
    for (uint32_t r = 0; r < d->height; r++) {
        uint8_t *row = row_of(source, stride, o->top, r, d, o);
        size_t before = (size_t)(row - source) % page;
        if (mprotect(row - before, before + size, PROT_READ | PROT_WRITE) != 0) {
            perror("mprotect");
            exit(2);
        }
        for (size_t i = 0; i < size; i++) row[i] = random_byte();
    }
    planes expected = copied_out(d, o, source, stride);
    by_frame(d, o, source, stride, &expected);
    by_bands(d, o, source, stride, 0, &expected);
    give_back_planes(&expected);
    munmap(source, len + page);
}

/*
 * A source of five rows, each of three tiles of whole pages. The rectangle is the middle tile of three rows, or a pixel less at one side: the pages
 * before and behind each of its rows are closed, and so are the rows above and below.
 */
static void middle_tiles(uint32_t channels, uint32_t sampling) {
    uint32_t page = (uint32_t)sysconf(_SC_PAGESIZE), tile = pixel_bytes[channels] == 4 ? page / 4 : page;
    for (uint32_t less = 0; less < 3; less++) {
        segvartin_description d = description(tile - (less > 0), 3, channels, sampling);
        segvartin_options o = window(&d, tile + (less == 1), 1, 3 * tile, 5);
        o.rounding = less % 2;
        among_closed_pages(&d, &o);
    }
}

/* The largest source, and rectangles in its corners. */
static void largest_source(uint32_t channels, uint32_t sampling) {
    for (uint32_t side = 1; side <= 3; side++)
        for (uint32_t corner = 0; corner < 4; corner++) {
            segvartin_description d = description(side, 4 - side, channels, sampling);
            uint32_t left = corner % 2 ? SEGVARTIN_MAX_SIDE - d.width : 0, top = corner / 2 ? SEGVARTIN_MAX_SIDE - d.height : 0;
            segvartin_options o = window(&d, left, top, SEGVARTIN_MAX_SIDE, SEGVARTIN_MAX_SIDE);
            among_closed_pages(&d, &o);
        }
    segvartin_description d = description(1, 1, channels, sampling);
    segvartin_options o = window(&d, SEGVARTIN_MAX_SIDE - 1, SEGVARTIN_MAX_SIDE - 1, SEGVARTIN_MAX_SIDE, SEGVARTIN_MAX_SIDE);
    among_closed_pages(&d, &o);
}

/* One call: 3 x 2 pixels of 4 bytes at the far corner of a source of 5 x 4, stride 21. A band is the second row. */
typedef struct request {
    segvartin_description d;
    segvartin_options o;
    uint32_t done, rows, stride;
    size_t source_len, carried_len;
} request;

enum { FRAME, OPENING, BAND, CALLS };

static request accepted(int call, uint32_t sampling) {
    request r;
    memset(&r, 0, sizeof r);
    r.d = description(3, 2, SEGVARTIN_BGRA, sampling);
    r.d.matrix = SEGVARTIN_CUSTOM;
    r.o = window(&r.d, 2, 2, 5, 4);
    r.o.rounding = SEGVARTIN_NEAREST;
    r.done = 1;
    r.rows = 1;
    r.stride = 21;
    r.source_len = call == BAND ? 21 : 21 * 4;
    r.carried_len = 9;
    return r;
}

/* The answer with its numbers. A refusal writes no byte and leaves the state; after an opening no row is done. */
static void answered(int call, request r, uint32_t number, size_t expected, size_t received, int line) {
    segvartin_description d = accepted(call, r.d.sampling).d;
    planes p = lend_planes(&d);
    lent source = lend(r.source_len), carried = lend(r.carried_len);
    segvartin_bytes from = {source.at, source.len};
    segvartin_state_with state = {r.d, r.o, r.done}, before = state;
    segvartin_answer a;
    if (call == FRAME)
        a = segvartin_convert_frame_with(&r.d, &r.o, from, r.stride, all(&p.y), all(&p.u), all(&p.v));
    else if (call == OPENING)
        a = segvartin_open_frame_with(&state, &r.d, &r.o);
    else
        a = segvartin_convert_band_with(&state, r.rows, from, r.stride, all(&p.y), all(&p.u), all(&p.v), all(&carried));
    int holds = a.number == number && a.expected == expected && a.received == received;
    if (!holds) fprintf(stderr, "call %d answered %u %zu %zu\n", call, a.number, a.expected, a.received);
    expect(holds, "number, expected, received", line);
    before.done = call == OPENING ? 0 : call == BAND && number == SEGVARTIN_FINISHED ? r.done + r.rows : r.done;
    expect(memcmp(&state, &before, sizeof state) == 0, "what the state is afterwards", line);
    int nothing = untouched(&p.y) && untouched(&p.u) && untouched(&p.v) && untouched(&carried);
    expect(untouched(&source) && nothing == (number != SEGVARTIN_FINISHED || call == OPENING), "what is written", line);
    give_back(&source);
    give_back(&carried);
    give_back_planes(&p);
}

#define ANSWERED(call, change, number, expected, received)       \
    do {                                                         \
        request r = accepted(call, sampling);                    \
        change;                                                  \
        answered(call, r, number, expected, received, __LINE__); \
    } while (0)

#define ALL_ANSWERED(change, number)                                                       \
    do {                                                                                   \
        for (int call = FRAME; call < CALLS; call++) ANSWERED(call, change, number, 0, 0); \
    } while (0)

/* Refusals that openings have too: none names numbers. */
static void early_refusals(uint32_t sampling) {
    ALL_ANSWERED(, 0);
    /* past the source, by one pixel or by all; the sums do not wrap */
    ALL_ANSWERED(r.o.left = 3, 14);
    ALL_ANSWERED(r.o.top = 3, 14);
    ALL_ANSWERED(r.o.left = 5, 14);
    ALL_ANSWERED(r.o.top = 4, 14);
    ALL_ANSWERED(r.o.left = UINT32_MAX, 14);
    ALL_ANSWERED(r.o.top = UINT32_MAX, 14);
    ALL_ANSWERED(r.o.left = UINT32_MAX - 2, 14);
    ALL_ANSWERED(r.o.top = UINT32_MAX - 1, 14);
    ALL_ANSWERED(r.o.left = r.o.top = UINT32_MAX, 14);
    ALL_ANSWERED(r.o.left = 0x80000000, 14);
    ALL_ANSWERED(r.o.source_width = 4, 14);
    ALL_ANSWERED(r.o.source_height = 3, 14);
    ALL_ANSWERED(r.o.left = r.o.top = 0; r.o.source_width = 2, 14);
    ALL_ANSWERED(r.o.left = r.o.top = 0; r.o.source_height = 1, 14);
    ALL_ANSWERED(r.o.source_width = 0, 14);
    ALL_ANSWERED(r.o.source_height = 0, 14);
    ALL_ANSWERED(r.o.left = r.o.top = r.o.source_width = r.o.source_height = 0, 14);
    ALL_ANSWERED(r.d.width = 4, 14);
    ALL_ANSWERED(r.d.height = 3, 14);
    ALL_ANSWERED(r.d.width = r.d.height = 16384, 14);
    /* a source too large */
    ALL_ANSWERED(r.o.source_width = 16385, 3);
    ALL_ANSWERED(r.o.source_height = 16385, 3);
    ALL_ANSWERED(r.o.source_width = UINT32_MAX, 3);
    ALL_ANSWERED(r.o.source_height = UINT32_MAX, 3);
    /* in this order: 1, 2, 3, 4, 14 */
    ALL_ANSWERED(r.o.rounding = 2; r.o.source_width = 16385, 1);
    ALL_ANSWERED(r.d.transfer = 4; r.o.left = UINT32_MAX, 1);
    ALL_ANSWERED(r.d.width = 0; r.o.source_height = 16385, 2);
    ALL_ANSWERED(r.d.height = 0; r.o.left = 6, 2);
    ALL_ANSWERED(r.d.width = 0; r.o.source_width = 0, 2);
    ALL_ANSWERED(r.o.source_width = 16385; r.d.kr = NAN, 3);
    ALL_ANSWERED(r.o.source_height = 16385; r.o.left = UINT32_MAX, 3);
    ALL_ANSWERED(r.o.source_width = 16385; r.o.source_height = 0, 3);
    ALL_ANSWERED(r.d.width = 16385; r.o.top = 9, 3);
    ALL_ANSWERED(r.d.kb = 0.75f; r.o.left = 3, 4);
    ALL_ANSWERED(r.d.kr = NAN; r.o.source_width = 0, 4);
}

/* 14 before 5 and all others; 6, 7 and 12 by the large width and the large rows, or the band's; 8 to 11 and 13 by the rectangle. */
static void late_refusals(uint32_t sampling) {
    size_t rows = sampling == SEGVARTIN_YUV420 ? 1 : 2;
    ANSWERED(BAND, r.o.left = 3; r.rows = 0, 14, 0, 0);
    ANSWERED(BAND, r.o.top = 3; r.done = 2, 14, 0, 0);
    ANSWERED(BAND, r.o.source_height = 0; r.done = UINT32_MAX; r.source_len = r.carried_len = 0, 14, 0, 0);
    ANSWERED(FRAME, r.o.left = 3; r.source_len = 0; r.stride = 0; r.d.y_stride = 0, 14, 0, 0);
    /* a band's rows are the rectangle's: of 4 large rows it has 2 */
    ANSWERED(BAND, r.rows = 2; r.source_len = 42, 5, 0, 0);
    ANSWERED(BAND, r.done = 2, 5, 0, 0);
    ANSWERED(BAND, r.done = 0; r.rows = 3; r.source_len = 63, 5, 0, 0);
    ANSWERED(FRAME, r.source_len = 21 * 3 + 20 - 1, 6, 83, 82);
    ANSWERED(FRAME, r.source_len = 21 * 2, 6, 83, 42);
    ANSWERED(FRAME, r.stride = UINT32_MAX, 6, (size_t)UINT32_MAX * 3 + 20, 84);
    ANSWERED(BAND, r.source_len = 19, 6, 20, 19);
    ANSWERED(BAND, r.source_len = 12; r.stride = 12, 6, 20, 12);
    ANSWERED(BAND, r.done = 0; r.rows = 2; r.source_len = 40, 6, 41, 40);
    ANSWERED(FRAME, r.stride = 19, 7, 20, 19);
    ANSWERED(FRAME, r.stride = 12, 7, 20, 12);
    ANSWERED(BAND, r.stride = 19, 7, 20, 19);
    for (int call = FRAME; call <= BAND; call += BAND) {
        ANSWERED(call, r.d.y_stride = 2, 8, 6, 4);
        ANSWERED(call, r.d.u_stride = 1, 10, 2 * rows, rows);
        ANSWERED(call, r.d.v_stride = 0, 11, 2 * rows, 0);
        ANSWERED(call, r.d.y_stride = 3, 12, 6, 8);
    }
    ANSWERED(FRAME, r.source_len = 83, 12, 84, 83);
    ANSWERED(FRAME, r.source_len = 85, 12, 84, 85);
    ANSWERED(FRAME, r.source_len = 21 * 5, 12, 84, 105);
    ANSWERED(BAND, r.source_len = 20, 12, 21, 20);
    ANSWERED(BAND, r.source_len = 84, 12, 21, 84);
    ANSWERED(BAND, r.carried_len = 8, 13, 9, 8);
    ANSWERED(BAND, r.carried_len = 0, 13, 9, 0);
}

int main(void) {
    for (closed_before = 0; closed_before < 2; closed_before++)
        for (uint32_t sampling = 0; sampling < 2; sampling++) {
            early_refusals(sampling);
            late_refusals(sampling);
            for (uint32_t channels = 0; channels < 4; channels++) {
                middle_tiles(channels, sampling);
                largest_source(channels, sampling);
                /* against pages closed before the buffers, one rounding of each order */
                every_window(channels, sampling, channels % 2);
                if (!closed_before) every_window(channels, sampling, 1 - channels % 2);
            }
        }
    return finish("windows");
}
