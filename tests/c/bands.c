/*
 * Band calls: every cut of a small frame leaves what one frame call leaves, whatever is refused between the bands. All of it without options, and
 * with both roundings of the tables.
 */
#include "lent.h"

#include "segvartin.h"

#define WIDTH 5
#define MOST_ROWS 7

static const uint32_t pixel_bytes[4] = {3, 4, 4, 3};

typedef struct planes {
    lent y, u, v;
} planes;

static segvartin_description description(uint32_t channels, uint32_t sampling, uint32_t height) {
    segvartin_description d = {0};
    d.width = WIDTH;
    d.height = height;
    d.channels = channels;
    d.sampling = sampling;
    d.range = SEGVARTIN_LIMITED;
    d.matrix = SEGVARTIN_CUSTOM;
    d.kr = 0.25f;
    d.kb = 0.0625f;
    d.transfer = SEGVARTIN_REC709;
    d.y_stride = 6;
    d.u_stride = 4;
    d.v_stride = 3;
    return d;
}

static planes lend_planes(const segvartin_description *d) {
    size_t rows = d->sampling == SEGVARTIN_YUV420 ? d->height / 2 + d->height % 2 : d->height;
    planes p = {lend(d->y_stride * (size_t)d->height), lend(d->u_stride * rows), lend(d->v_stride * rows)};
    return p;
}

static void give_back_planes(planes *p) {
    give_back(&p->y);
    give_back(&p->u);
    give_back(&p->v);
}

static segvartin_bytes_mut all(const lent *b) {
    segvartin_bytes_mut bytes = {b->at, b->len};
    return bytes;
}

/* The calls without options, or those with this rounding. A state with options stands for both. */
#define WITHOUT_OPTIONS (-1)
static int rounding = WITHOUT_OPTIONS;

static segvartin_options options(const segvartin_description *d) {
    segvartin_options o = segvartin_options_of(d);
    EXPECT(o.rounding == SEGVARTIN_TRUNCATED);
    if (rounding != WITHOUT_OPTIONS) o.rounding = (uint32_t)rounding;
    return o;
}

static segvartin_answer convert_frame(const segvartin_description *d, segvartin_bytes source, uint32_t stride, planes *p) {
    segvartin_options o = options(d);
    if (rounding == WITHOUT_OPTIONS) return segvartin_convert_frame(d, source, stride, all(&p->y), all(&p->u), all(&p->v));
    return segvartin_convert_frame_with(d, &o, source, stride, all(&p->y), all(&p->u), all(&p->v));
}

static segvartin_answer open_frame(segvartin_state_with *state, const segvartin_description *d) {
    segvartin_options o = options(d);
    segvartin_state old;
    segvartin_answer a;
    if (rounding != WITHOUT_OPTIONS) return segvartin_open_frame_with(state, d, &o);
    old.done = 99;
    a = segvartin_open_frame(&old, d);
    state->frame = old.frame;
    state->options = o;
    state->done = old.done;
    return a;
}

static segvartin_answer convert_band(segvartin_state_with *state, uint32_t rows, segvartin_bytes source, uint32_t stride, planes *p,
                                     segvartin_bytes_mut carried) {
    segvartin_state old = {state->frame, state->done};
    segvartin_answer a;
    if (rounding != WITHOUT_OPTIONS) return segvartin_convert_band_with(state, rows, source, stride, all(&p->y), all(&p->u), all(&p->v), carried);
    a = segvartin_convert_band(&old, rows, source, stride, all(&p->y), all(&p->u), all(&p->v), carried);
    state->done = old.done;
    return a;
}

static int same(const lent *a, const lent *b) { return a->len == b->len && memcmp(a->at, b->at, a->len) == 0; }

/* Pixel bytes of row r, different in each place. */
static void paint_row(uint8_t *row, uint32_t r, uint32_t size) {
    for (uint32_t i = 0; i < size; i++) row[i] = (uint8_t)(r * r * 41 + i * i * 13 + i * 7);
}

static lent source_rows(uint32_t first, uint32_t rows, uint32_t size, uint32_t stride) {
    lent source = lend((size_t)stride * rows);
    for (uint32_t r = 0; r < rows; r++) paint_row(source.at + (size_t)r * stride, first + r, size);
    return source;
}

/* A refusal with its numbers; state, planes and carried row are as they were. */
static void refused(segvartin_state_with state, uint32_t rows, size_t source_len, uint32_t stride, planes *p, lent *carried, size_t carried_len,
                    uint32_t number, size_t expected, size_t received, int line) {
    lent source = lend(source_len);
    lent before[4] = {lend(p->y.len), lend(p->u.len), lend(p->v.len), lend(carried->len)};
    const lent *now[4] = {&p->y, &p->u, &p->v, carried};
    for (int i = 0; i < 4; i++) memcpy(before[i].at, now[i]->at, now[i]->len);
    segvartin_state_with after = state;
    segvartin_bytes from = {source.at, source.len};
    segvartin_bytes_mut row = {carried->at, carried_len};
    segvartin_answer a = convert_band(&after, rows, from, stride, p, row);
    int holds = a.number == number && a.expected == expected && a.received == received;
    if (!holds) fprintf(stderr, "answered %u %zu %zu\n", a.number, a.expected, a.received);
    expect(holds, "number, expected, received of the refusal", line);
    expect(memcmp(&after, &state, sizeof state) == 0, "a refusal leaves the state", line);
    for (int i = 0; i < 4; i++) {
        expect(same(&before[i], now[i]), "a refusal writes no byte", line);
        give_back(&before[i]);
    }
    give_back(&source);
}

static void refusals(segvartin_state_with state, planes *p, lent *carried) {
    uint32_t size = WIDTH * pixel_bytes[state.frame.channels], remain = state.frame.height - state.done;
    segvartin_state_with other = state;
    if (rounding != WITHOUT_OPTIONS) {
        other.options.rounding = 2;
        refused(other, 1, size, size, p, carried, carried->len, 1, 0, 0, __LINE__);
        other.options.rounding = UINT32_MAX;
        other.frame.height = 0;
        refused(other, 0, 0, 0, p, carried, 0, 1, 0, 0, __LINE__);
        other = state;
    }
    other.frame.transfer = 4;
    refused(other, 1, size, size, p, carried, carried->len, 1, 0, 0, __LINE__);
    other = state;
    other.frame.height = 0;
    refused(other, 1, size, size, p, carried, carried->len, 2, 0, 0, __LINE__);
    other = state;
    other.frame.width = 16385;
    refused(other, 1, size, size, p, carried, carried->len, 3, 0, 0, __LINE__);
    other = state;
    other.frame.kb = 0.75f;
    refused(other, 0, size, size, p, carried, carried->len, 4, 0, 0, __LINE__);
    refused(state, 0, 0, size, p, carried, carried->len, 5, 0, 0, __LINE__);
    refused(state, remain + 1, size, size, p, carried, carried->len, 5, 0, 0, __LINE__);
    other = state;
    other.done = state.frame.height;
    refused(other, 1, size, size, p, carried, carried->len, 5, 0, 0, __LINE__);
    other.done = UINT32_MAX;
    refused(other, 1, size, size, p, carried, carried->len, 5, 0, 0, __LINE__);
    if (remain == 0) return;
    refused(state, 1, size - 1, size, p, carried, carried->len, 6, size, size - 1, __LINE__);
    refused(state, 1, size, size - 1, p, carried, carried->len, 7, size, size - 1, __LINE__);
    other = state;
    other.frame.y_stride = 4;
    refused(other, 1, size, size, p, carried, carried->len, 8, WIDTH * (size_t)state.frame.height, 4 * (size_t)state.frame.height, __LINE__);
    refused(state, 1, size + 1, size, p, carried, carried->len, 12, size, size + 1, __LINE__);
    refused(state, 1, size, size, p, carried, 3 * WIDTH - 1, 13, 3 * WIDTH, 3 * WIDTH - 1, __LINE__);
    refused(state, 1, size, size, p, carried, 0, 13, 3 * WIDTH, 0, __LINE__);
}

static void every_cut(uint32_t channels, uint32_t sampling, uint32_t height) {
    segvartin_description d = description(channels, sampling, height);
    uint32_t size = WIDTH * pixel_bytes[channels];
    planes whole = lend_planes(&d);
    lent source = source_rows(0, height, size, size);
    segvartin_bytes from = {source.at, source.len};
    EXPECT(convert_frame(&d, from, size, &whole).number == SEGVARTIN_FINISHED);
    /* truncated is the call without options; with nearest tables the luma is the same, and in frames of some rows the chroma is not */
    planes old = lend_planes(&d);
    EXPECT(segvartin_convert_frame(&d, from, size, all(&old.y), all(&old.u), all(&old.v)).number == SEGVARTIN_FINISHED);
    EXPECT(same(&old.y, &whole.y));
    if (rounding != SEGVARTIN_NEAREST || height > 4) EXPECT((same(&old.u, &whole.u) && same(&old.v, &whole.v)) == (rounding != SEGVARTIN_NEAREST));
    give_back_planes(&old);
    /* bit r set: a band ends after row r */
    for (uint32_t cuts = 0; cuts < 1u << (height - 1); cuts++) {
        planes p = lend_planes(&d);
        lent carried = lend(3 * WIDTH);
        segvartin_state_with state;
        state.done = 99;
        EXPECT(open_frame(&state, &d).number == SEGVARTIN_FINISHED && state.done == 0);
        for (uint32_t end = 1; end <= height; end++) {
            if (end < height && !(cuts >> (end - 1) & 1)) continue;
            if (cuts % 7 == 0) refusals(state, &p, &carried);
            uint32_t first = state.done, stride = size + first % 3;
            lent band = source_rows(first, end - first, size, stride);
            segvartin_bytes rows = {band.at, band.len};
            segvartin_answer a = convert_band(&state, end - first, rows, stride, &p, all(&carried));
            EXPECT(a.number == SEGVARTIN_FINISHED && a.expected == 0 && a.received == 0 && state.done == end);
            EXPECT(state.options.rounding == options(&d).rounding && memcmp(&state.frame, &d, sizeof d) == 0);
            give_back(&band);
        }
        refusals(state, &p, &carried);
        EXPECT(same(&p.y, &whole.y) && same(&p.u, &whole.u) && same(&p.v, &whole.v));
        if (sampling == SEGVARTIN_YUV422) EXPECT(untouched(&carried));
        give_back(&carried);
        give_back_planes(&p);
    }
    give_back(&source);
    give_back_planes(&whole);
}

/* What a refused opening leaves has no row done either. */
static void refused_opening(segvartin_description d, uint32_t number) {
    segvartin_state_with state;
    segvartin_answer a = open_frame(&state, &d);
    EXPECT(a.number == number && a.expected == 0 && a.received == 0 && state.done == 0);
    EXPECT(state.options.rounding == options(&d).rounding);
}

static void openings(void) {
    segvartin_description d = description(SEGVARTIN_RGB, SEGVARTIN_YUV420, 3), e;
    e = d, e.channels = 4, e.width = 0, refused_opening(e, 1);
    e = d, e.sampling = 2, refused_opening(e, 1);
    e = d, e.range = UINT32_MAX, refused_opening(e, 1);
    e = d, e.matrix = 7, refused_opening(e, 1);
    e = d, e.transfer = 4, refused_opening(e, 1);
    e = d, e.width = 0, refused_opening(e, 2);
    e = d, e.height = 16385, refused_opening(e, 3);
    e = d, e.kr = -0.25f, refused_opening(e, 4);
    /* an opening says nothing of plane strides */
    e = d, e.y_stride = 0, e.u_stride = UINT32_MAX, refused_opening(e, 0);
}

/* An opening with a code of the rounding that has no meaning, also where the size is refused. */
static void refused_roundings(void) {
    static const uint32_t codes[4] = {2, 256, 0x80000001, UINT32_MAX};
    segvartin_description d = description(SEGVARTIN_RGB, SEGVARTIN_YUV420, 3);
    for (uint32_t i = 0; i < 8; i++) {
        segvartin_options o = segvartin_options_of(&d);
        segvartin_state_with state;
        segvartin_answer a;
        o.rounding = codes[i / 2];
        d.width = i % 2 ? 0 : WIDTH;
        a = segvartin_open_frame_with(&state, &d, &o);
        EXPECT(a.number == SEGVARTIN_MALFORMED_REQUEST && a.expected == 0 && a.received == 0 && state.done == 0);
    }
}

/* Two rows of flat blue 10 in two bands: the state alone says the rounding (tests/c/frames.c works out the two bytes). */
static void states_keep_rounding(void) {
    static uint8_t row[12] = {0, 0, 10, 0, 0, 10, 0, 0, 10, 0, 0, 10};
    uint8_t luma[8], cb[2], cr[2], kept[12];
    segvartin_bytes from = {row, sizeof row};
    segvartin_bytes_mut y = {luma, sizeof luma}, u = {cb, sizeof cb}, v = {cr, sizeof cr}, carried = {kept, sizeof kept};
    segvartin_description d = {0};
    d.width = d.y_stride = 4;
    d.height = d.u_stride = d.v_stride = 2;
    d.range = SEGVARTIN_FULL;
    for (uint32_t code = SEGVARTIN_TRUNCATED; code <= SEGVARTIN_NEAREST; code++) {
        segvartin_options o = segvartin_options_of(&d);
        segvartin_state_with state;
        segvartin_state old;
        o.rounding = code;
        EXPECT(segvartin_open_frame_with(&state, &d, &o).number == SEGVARTIN_FINISHED);
        o.rounding = UINT32_MAX;
        EXPECT(segvartin_convert_band_with(&state, 1, from, 12, y, u, v, carried).number == SEGVARTIN_FINISHED);
        EXPECT(segvartin_convert_band_with(&state, 1, from, 12, y, u, v, carried).number == SEGVARTIN_FINISHED);
        EXPECT(state.options.rounding == code && state.done == 2);
        EXPECT(cb[0] == (code == SEGVARTIN_NEAREST ? 133 : 132) && cb[1] == cb[0] && cr[0] == 127 && cr[1] == 127);
        EXPECT(segvartin_open_frame(&old, &d).number == SEGVARTIN_FINISHED);
        EXPECT(segvartin_convert_band(&old, 1, from, 12, y, u, v, carried).number == SEGVARTIN_FINISHED);
        EXPECT(segvartin_convert_band(&old, 1, from, 12, y, u, v, carried).number == SEGVARTIN_FINISHED);
        EXPECT(cb[0] == 132 && cb[1] == 132 && cr[0] == 127 && cr[1] == 127);
    }
}

/* The first numbers of a list, against a closed page where that is the one behind. */
static lent lend_numbers(const uint32_t *numbers, size_t count) {
    lent given = lend(count * sizeof *numbers);
    memcpy(given.at, numbers, given.len);
    return given;
}

/*
 * The exported functions answer 1 to every count of numbers but their own three, without options, with the rounding, and with a window too, here the
 * whole source; no byte is written, and the rows done are told as they were given. Of a band the numbers are one row done, one row, stride 15.
 */
static void counts(void) {
    segvartin_description d = description(SEGVARTIN_RGB, SEGVARTIN_YUV420, 3);
    const uint32_t numbers[25] = {1, 1, 15, 5, 3, 0, 0, 0, 0, 0, 6, 4, 3, SEGVARTIN_NEAREST, 0, 0, 5, 3};
    const float custom[2] = {0, 0};
    for (size_t count = 0; count <= 22; count++) {
        planes p = lend_planes(&d);
        lent source = lend(15), carried = lend(3 * WIDTH), given = lend_numbers(numbers + 3, count);
        size_t told[3] = {99, 99, 99};
        int finished = count == 10 || count == 11 || count == 15;
        uint32_t number = segvartin_call_open((const uint32_t *)(const void *)given.at, count, custom, told);
        EXPECT(number == (finished ? SEGVARTIN_FINISHED : SEGVARTIN_MALFORMED_REQUEST));
        EXPECT(told[0] == 0 && told[1] == 0 && told[2] == 0);
        give_back(&given);
        given = lend_numbers(numbers, count);
        finished = count == 13 || count == 14 || count == 18;
        told[0] = told[1] = told[2] = 99;
        number = segvartin_call_band((const uint32_t *)(const void *)given.at, count, custom, source.at, source.len, p.y.at, p.y.len, p.u.at, p.u.len,
                                     p.v.at, p.v.len, carried.at, carried.len, told);
        EXPECT(number == (finished ? SEGVARTIN_FINISHED : SEGVARTIN_MALFORMED_REQUEST));
        EXPECT(told[0] == 0 && told[1] == 0 && told[2] == (count == 0 ? 0 : finished ? 2 : 1));
        EXPECT(!finished == (untouched(&p.y) && untouched(&p.u) && untouched(&p.v)) && untouched(&carried));
        give_back(&given);
        give_back(&source);
        give_back(&carried);
        give_back_planes(&p);
    }
}

int main(void) {
    refused_roundings();
    states_keep_rounding();
    for (closed_before = 0; closed_before < 2; closed_before++) {
        counts();
        for (rounding = WITHOUT_OPTIONS; rounding <= SEGVARTIN_NEAREST; rounding++) {
            openings();
            for (uint32_t channels = 0; channels < 4; channels += 1)
                for (uint32_t sampling = 0; sampling < 2; sampling++)
                    for (uint32_t height = 1; height <= MOST_ROWS; height += 2 - height % 2) every_cut(channels, sampling, height);
        }
    }
    return finish("bands");
}
