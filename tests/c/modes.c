/*
 * The calls in every floating-point mode that a caller may be in: answers and bytes are those of the default mode, and the caller's mode and
 * exception flags are as they were afterwards. The bare segvartin_call_ functions, in another mode, are shown to go wrong: where they no longer
 * do, the mode need not be set around them.
 *
 * Not run under valgrind: its processor knows the rounding modes, and neither the two modes of denormals nor exceptions.
 */
#define _GNU_SOURCE
#include "expect.h"
#include "segvartin.h"

#include <fenv.h>
#include <signal.h>
#include <stdlib.h>
#include <string.h>
#include <sys/wait.h>
#include <unistd.h>
#include <xmmintrin.h>

/* Bits of MXCSR. */
enum { DENORMALS_ARE_ZERO = 0x40, FLUSH_TO_ZERO = 0x8000, DENORMAL_MASK = 0x100, FLAGS = 0x3f, DEFAULT = 0x1f80 };

static const int roundings[4] = {FE_TONEAREST, FE_DOWNWARD, FE_UPWARD, FE_TOWARDZERO};

/* rounding of 4, denormals of 4, trapped or not, flags set or not */
enum { MODES = 4 * 4 * 2 * 2 };

/* Between enter and leave nothing here computes with floats. FE_ALL_EXCEPT lacks the exception of a denormal operand. */
static void enter(int mode) {
    fesetround(roundings[mode % 4]);
    if (mode / 4 % 2) _mm_setcsr(_mm_getcsr() | DENORMALS_ARE_ZERO);
    if (mode / 8 % 2) _mm_setcsr(_mm_getcsr() | FLUSH_TO_ZERO);
    if (mode / 32) _mm_setcsr(_mm_getcsr() | FLAGS);
    if (mode / 16 % 2) {
        feenableexcept(FE_ALL_EXCEPT);
        _mm_setcsr(_mm_getcsr() & ~(unsigned)DENORMAL_MASK);
    }
}

static void leave(void) {
    fesetenv(FE_DFL_ENV);
    _mm_setcsr(DEFAULT);
}

static float of_bits(uint32_t bits) {
    float x;
    memcpy(&x, &bits, sizeof x);
    return x;
}

enum { W = 5, H = 3, CW = 3, STRIDE = 3 * W, RECORD = 8 + W * H + 2 * CW * 2, SET_RECORD = 12 + W * H + 2 * CW * H };

/* A Y4M file of that frame in 4:2:2: its line, YUV4MPEG2 W5 H3 F25:1 Ip C422, and a picture. */
enum { Y4M_LINE = 30, Y4M_PICTURE = 6 + W * H + 2 * CW * H };

static uint8_t source[STRIDE * H];

/* All that a call leaves; memory for it is cleared first, so that two can be compared as bytes. */
typedef struct outcome {
    size_t expected, received;
    uint32_t number, done;
    uint32_t counts[256];
    uint8_t y[W * H], u[CW * H], v[CW * H], carried[3 * W];
    uint8_t record[RECORD], file[16 + RECORD];
    segvartin_shift_record read, found;
    uint8_t summary[2 * SEGVARTIN_SUMMARY_ENTRY];
    int yes, is_found;
    segvartin_pair_report report;
    int broken;
    uint8_t set_record[SET_RECORD], set_file[20 + SET_RECORD], forward[24 + RECORD], back[16 + RECORD];
    segvartin_settings_record any;
    uint8_t y4m[Y4M_LINE + Y4M_PICTURE], y4m_whole[Y4M_LINE + Y4M_PICTURE];
    segvartin_y4m_picture picture;
    segvartin_y4m_file y4m_told;
    uint8_t convoy_y[2 * W * H], convoy_u[2 * CW * H], convoy_v[2 * CW * H];
    size_t frames;
    segvartin_desk desk;
    uint8_t desk_carried[2 * 3 * W];
    uint32_t cameras;
} outcome;

typedef void call(const segvartin_description *d, outcome *o);

static void told(outcome *o, segvartin_answer a) {
    o->number = a.number;
    o->expected = a.expected;
    o->received = a.received;
}

static segvartin_bytes_mut plane(uint8_t *at, const segvartin_description *d) {
    segvartin_bytes_mut p = {at, d->u_stride * (size_t)(d->sampling == SEGVARTIN_YUV420 ? (d->height + 1) / 2 : d->height)};
    return p;
}

static segvartin_bytes rows(const segvartin_description *d, uint32_t first, uint32_t count) {
    segvartin_bytes part = {source + (size_t)first * 3 * d->width, (size_t)count * 3 * d->width};
    return part;
}

static void frame(const segvartin_description *d, outcome *o) {
    segvartin_bytes_mut y = {o->y, (size_t)d->y_stride * d->height};
    told(o, segvartin_convert_frame(d, rows(d, 0, d->height), 3 * d->width, y, plane(o->u, d), plane(o->v, d)));
}

static void opening(const segvartin_description *d, outcome *o) {
    segvartin_state state;
    told(o, segvartin_open_frame(&state, d));
    o->done = state.done;
}

/* The frame in bands of one row, until one is refused. The opening is not asked: a band call judges the matrix itself. */
static void bands(const segvartin_description *d, outcome *o) {
    segvartin_state state;
    segvartin_bytes_mut y = {o->y, (size_t)d->y_stride * d->height}, carried = {o->carried, 3 * (size_t)d->width};
    state.frame = *d;
    state.done = 0;
    do {
        segvartin_bytes row = rows(d, state.done, 1);
        told(o, segvartin_convert_band(&state, 1, row, 3 * d->width, y, plane(o->u, d), plane(o->v, d), carried));
    } while (o->number == SEGVARTIN_FINISHED && state.done < d->height);
    o->done = state.done;
}

static segvartin_options nearest(const segvartin_description *d) {
    segvartin_options o = segvartin_options_of(d);
    o.rounding = SEGVARTIN_NEAREST;
    return o;
}

/* The three with nearest tables. */
static void frame_with(const segvartin_description *d, outcome *o) {
    segvartin_options options = nearest(d);
    segvartin_bytes_mut y = {o->y, (size_t)d->y_stride * d->height};
    told(o, segvartin_convert_frame_with(d, &options, rows(d, 0, d->height), 3 * d->width, y, plane(o->u, d), plane(o->v, d)));
}

static void opening_with(const segvartin_description *d, outcome *o) {
    segvartin_options options = nearest(d);
    segvartin_state_with state;
    told(o, segvartin_open_frame_with(&state, d, &options));
    o->done = state.done;
}

static void bands_with(const segvartin_description *d, outcome *o) {
    segvartin_options options = nearest(d);
    segvartin_state_with state;
    segvartin_bytes_mut y = {o->y, (size_t)d->y_stride * d->height}, carried = {o->carried, 3 * (size_t)d->width};
    segvartin_open_frame_with(&state, d, &options);
    do {
        segvartin_bytes row = rows(d, state.done, 1);
        told(o, segvartin_convert_band_with(&state, 1, row, 3 * d->width, y, plane(o->u, d), plane(o->v, d), carried));
    } while (o->number == SEGVARTIN_FINISHED && state.done < d->height);
    o->done = state.done;
}

/*
 * The three with nearest tables, the frame a window onto a larger source: of the row above, of the pixels around it and of the row below every byte
 * is 99. They leave what those without a window leave.
 */
enum { LEFT = 2, TOP = 1, LARGE_W = W + 3, LARGE_H = H + 2, LARGE_STRIDE = 3 * LARGE_W };

static uint8_t large[LARGE_STRIDE * LARGE_H];

static segvartin_options window(const segvartin_description *d) {
    segvartin_options o = nearest(d);
    o.left = LEFT;
    o.top = TOP;
    o.source_width = LARGE_W;
    o.source_height = LARGE_H;
    memset(large, 99, sizeof large);
    for (uint32_t row = 0; row < d->height; row++) memcpy(large + (TOP + row) * LARGE_STRIDE + 3 * LEFT, rows(d, row, 1).at, 3 * d->width);
    return o;
}

static void frame_in_window(const segvartin_description *d, outcome *o) {
    segvartin_options options = window(d);
    segvartin_bytes from = {large, sizeof large};
    segvartin_bytes_mut y = {o->y, (size_t)d->y_stride * d->height};
    told(o, segvartin_convert_frame_with(d, &options, from, LARGE_STRIDE, y, plane(o->u, d), plane(o->v, d)));
}

static void opening_of_window(const segvartin_description *d, outcome *o) {
    segvartin_options options = window(d);
    segvartin_state_with state;
    told(o, segvartin_open_frame_with(&state, d, &options));
    o->done = state.done;
}

static void bands_in_window(const segvartin_description *d, outcome *o) {
    segvartin_options options = window(d);
    segvartin_state_with state;
    segvartin_bytes_mut y = {o->y, (size_t)d->y_stride * d->height}, carried = {o->carried, 3 * (size_t)d->width};
    segvartin_open_frame_with(&state, d, &options);
    do {
        segvartin_bytes row = {large + (TOP + state.done) * LARGE_STRIDE, LARGE_STRIDE};
        told(o, segvartin_convert_band_with(&state, 1, row, LARGE_STRIDE, y, plane(o->u, d), plane(o->v, d), carried));
    } while (o->number == SEGVARTIN_FINISHED && state.done < d->height);
    o->done = state.done;
}

/* Two frames of the description in one call, the second with nearest tables: the planes of the first stand behind those of the second. */
static void two_frames(const segvartin_description *d, segvartin_convoy_frame frames[2]) {
    for (size_t k = 0; k < 2; k++) {
        segvartin_convoy_frame *f = &frames[k];
        *f = segvartin_convoy_frame_of(d);
        if (k == 1) f->options = nearest(d);
        f->stride = 3 * d->width;
        f->source.length = rows(d, 0, d->height).len;
        f->y.length = (size_t)d->y_stride * d->height;
        f->u.length = f->v.length = plane(NULL, d).len;
        f->y.offset = (1 - k) * f->y.length;
        f->u.offset = f->v.offset = (1 - k) * f->u.length;
    }
}

static void convoy(const segvartin_description *d, outcome *o) {
    segvartin_convoy_frame frames[2];
    segvartin_bytes_mut y = {o->convoy_y, sizeof o->convoy_y}, u = {o->convoy_u, sizeof o->convoy_u}, v = {o->convoy_v, sizeof o->convoy_v};
    two_frames(d, frames);
    told(o, segvartin_convert_convoy(frames, 2, rows(d, 0, d->height), y, u, v, &o->frames));
}

/*
 * The same two frames at a desk, of cameras 30 and 2: the planes are those of the convoy, above. Bytes that stay 0 there are so here.
 */
enum { FIRST = 30, SECOND = 2, HELD = 7 };

static uint32_t open_at(const segvartin_description *d, outcome *o, uint32_t k) {
    const size_t luma = (size_t)d->y_stride * d->height, chroma = plane(NULL, d).len;
    const segvartin_desk_lengths lengths = {sizeof o->convoy_y, sizeof o->convoy_u, sizeof o->convoy_v, sizeof o->desk_carried};
    const segvartin_options options = k == 1 ? nearest(d) : segvartin_options_of(d);
    segvartin_desk_parts parts;
    parts.y.length = luma, parts.u.length = parts.v.length = chroma, parts.carried.length = 3 * W;
    parts.y.offset = (1 - k) * luma, parts.u.offset = parts.v.offset = (1 - k) * chroma, parts.carried.offset = k * 3 * W;
    told(o, segvartin_desk_open(&o->desk, k == 1 ? SECOND : FIRST, d, &options, &parts, &lengths));
    return o->number;
}

static void desk_opening(const segvartin_description *d, outcome *o) { open_at(d, o, 1); }

/* Opens a frame of the matrix Bt601, and puts the description's own into the desk by hand: a step judges the matrix itself. */
static void open_unasked(const segvartin_description *d, outcome *o, uint32_t k) {
    segvartin_description named = *d;
    const uint32_t camera = k == 1 ? SECOND : FIRST;
    named.matrix = SEGVARTIN_BT601;
    open_at(&named, o, k);
    o->desk.numbers[19 * camera + 9] = d->matrix;
    memcpy(o->desk.customs + 2 * camera, &d->kr, 4);
    memcpy(o->desk.customs + 2 * camera + 1, &d->kb, 4);
}

static segvartin_desk_answer step(const segvartin_description *d, outcome *o) {
    segvartin_bytes_mut y = {o->convoy_y, sizeof o->convoy_y}, u = {o->convoy_u, sizeof o->convoy_u}, v = {o->convoy_v, sizeof o->convoy_v};
    segvartin_bytes_mut lent_rows = {o->desk_carried, sizeof o->desk_carried};
    return segvartin_desk_step(&o->desk, rows(d, 0, d->height), y, u, v, lent_rows);
}

/* Both frames in bands of one row, until one is refused. A third camera has a band that waits at each offer, with a kr that signals. */
static void desk_bands(const segvartin_description *d, outcome *o) {
    static const uint32_t signals = 0x7f800001, denormal = 0x00000001;
    const size_t len = rows(d, 0, d->height).len;
    segvartin_part none = {0, 0};
    segvartin_desk_answer a;
    uint32_t row = 0;
    open_unasked(d, o, 0);
    open_unasked(d, o, 1);
    o->desk.numbers[19 * HELD] = 1;
    o->desk.numbers[19 * HELD + 5] = 1;
    o->desk.numbers[19 * HELD + 9] = SEGVARTIN_CUSTOM;
    memcpy(o->desk.customs + 2 * HELD, &signals, 4);
    memcpy(o->desk.customs + 2 * HELD + 1, &denormal, 4);
    told(o, segvartin_desk_offer(&o->desk, HELD, 1, 1, none, len));
    o->cameras = segvartin_desk_offer(&o->desk, HELD, 1, 1, none, len).number;
    step(d, o); /* refused: it has no width */
    for (; row < d->height && o->number == SEGVARTIN_FINISHED; row++)
        for (int k = 0; k < 2 && o->number == SEGVARTIN_FINISHED; k++) {
            segvartin_part band;
            band.offset = (size_t)row * 3 * d->width, band.length = 3 * d->width;
            told(o, segvartin_desk_offer(&o->desk, k == 0 ? FIRST : SECOND, 1, 3 * d->width, band, len));
            if (o->number != SEGVARTIN_FINISHED) continue;
            a = step(d, o);
            o->number = a.number, o->expected = a.expected, o->received = a.received;
            o->cameras = (100 * o->cameras + a.camera) % 10000; /* the last two */
        }
    o->done = row;
}

/* How many colours share a luma, by the range and the matrix of the description alone. */
static void colours(const segvartin_description *d, outcome *o) {
    o->number = segvartin_luma_counts(d->range, d->matrix, d->kr, d->kb, o->counts);
}

/* A record of planes, a file of it, and what is read there: the last answer of the three, or the first that is a refusal. */
static void shift_file(const segvartin_description *d, outcome *o) {
    segvartin_bytes y = {source, (size_t)d->y_stride * d->height}, u = {source + y.len, d->u_stride * (size_t)((d->height + 1) / 2)};
    segvartin_bytes v = {u.at + u.len, u.len};
    segvartin_bytes_mut record = {o->record, sizeof o->record}, file = {o->file, sizeof o->file};
    size_t size, count, read;
    told(o, segvartin_write_shift_record(1400, d, y, u, v, record, &size));
    if (o->number == SEGVARTIN_FINISHED) told(o, segvartin_write_shift_file(segvartin_read_only(record), file, &size));
    if (o->number == SEGVARTIN_FINISHED) told(o, segvartin_read_shift_file(segvartin_read_only(file), 0, &o->read, 1, &count, &read));
}

/* Of that file, by all four calls. */
static void summary(const segvartin_description *d, outcome *o) {
    segvartin_bytes_mut file = {o->file, sizeof o->file}, lent = {o->summary, sizeof o->summary}, record = {o->record, sizeof o->record};
    shift_file(d, o);
    if (o->number == SEGVARTIN_FINISHED) told(o, segvartin_build_summary(segvartin_read_only(file), lent));
    if (o->number == SEGVARTIN_FINISHED) told(o, segvartin_check_summary(segvartin_read_only(file), segvartin_read_only(lent), &o->yes));
    if (o->number == SEGVARTIN_FINISHED)
        told(o, segvartin_find_record(segvartin_read_only(file), segvartin_read_only(lent), 1400, &o->found, &o->is_found));
    if (o->number == SEGVARTIN_FINISHED) told(o, segvartin_update_summary(segvartin_read_only(file), segvartin_read_only(record), lent));
}

/* That file against itself with the last byte of V another. */
static void pairs(const segvartin_description *d, outcome *o) {
    static uint8_t bytes[sizeof o->file];
    segvartin_bytes ours = {o->file, sizeof o->file}, theirs = {bytes, sizeof bytes};
    shift_file(d, o);
    memcpy(bytes, o->file, sizeof bytes);
    bytes[sizeof bytes - 1] ^= 1;
    if (o->number == SEGVARTIN_FINISHED) told(o, segvartin_pair_shift_files(ours, theirs, &o->report, &o->broken));
}

/* A record with the settings of the description, in 4:2:2, a file of it, and what is read there; the file without settings moved forward and back. */
static void settings(const segvartin_description *d, outcome *o) {
    segvartin_description tall = *d;
    segvartin_bytes y = {source, (size_t)d->y_stride * d->height}, u = {source + y.len, d->u_stride * (size_t)d->height}, v = {u.at + 1, u.len};
    segvartin_bytes_mut record = {o->set_record, sizeof o->set_record}, file = {o->set_file, sizeof o->set_file};
    segvartin_bytes_mut forward = {o->forward, sizeof o->forward}, back = {o->back, sizeof o->back};
    segvartin_bytes old = {o->file, sizeof o->file};
    size_t size, count, read;
    int form;
    tall.sampling = SEGVARTIN_YUV422;
    shift_file(d, o);
    if (o->number == SEGVARTIN_FINISHED) told(o, segvartin_write_settings_record(1400, &tall, y, u, v, record, &size));
    if (o->number == SEGVARTIN_FINISHED) told(o, segvartin_write_settings_file(segvartin_read_only(record), file, &size));
    if (o->number == SEGVARTIN_FINISHED) told(o, segvartin_read_any_shift_file(segvartin_read_only(file), 0, &o->any, 1, &count, &read, &form));
    if (o->number == SEGVARTIN_FINISHED) told(o, segvartin_move_forward(old, forward, &size));
    if (o->number == SEGVARTIN_FINISHED) told(o, segvartin_move_back(segvartin_read_only(forward), back, &size));
    if (o->number == SEGVARTIN_FINISHED) told(o, segvartin_pair_shift_files(old, segvartin_read_only(file), &o->report, &o->broken));
}

/* A Y4M file of one picture in 4:2:2, made of its planes, and what is read there; and the same of all planes at once. */
static void y4m(const segvartin_description *d, outcome *o) {
    segvartin_description tall = *d;
    segvartin_bytes y = {source, (size_t)d->y_stride * d->height}, u = {source + y.len, d->u_stride * (size_t)d->height}, v = {u.at + u.len, u.len};
    segvartin_bytes planes = {source, y.len + u.len + v.len}, none = {source, 0};
    segvartin_bytes_mut line = {o->y4m, Y4M_LINE}, picture = {o->y4m + Y4M_LINE, Y4M_PICTURE}, file = {o->y4m, sizeof o->y4m};
    segvartin_bytes_mut whole = {o->y4m_whole, sizeof o->y4m_whole};
    size_t size, read;
    tall.sampling = SEGVARTIN_YUV422;
    told(o, segvartin_y4m_write(&tall, none, line, &size));
    if (o->number == SEGVARTIN_FINISHED) told(o, segvartin_y4m_write_picture(&tall, y, u, v, picture, &size));
    if (o->number == SEGVARTIN_FINISHED) told(o, segvartin_y4m_read(segvartin_read_only(file), 0, &o->picture, 1, &o->y4m_told, &read));
    if (o->number == SEGVARTIN_FINISHED) told(o, segvartin_y4m_write(&tall, planes, whole, &size));
}

/* As colours, by the exported function alone. */
static void bare_colours(const segvartin_description *d, outcome *o) {
    const uint32_t numbers[2] = {d->range, d->matrix};
    const float custom[2] = {d->kr, d->kb};
    size_t sizes[2];
    o->number = segvartin_call_luma_counts(numbers, 2, custom, o->counts, sizes);
    o->expected = sizes[0];
    o->received = sizes[1];
}

/* As frame, by the exported function alone. */
static void bare(const segvartin_description *d, outcome *o) {
    const uint32_t numbers[11] = {3 * d->width, d->width,    d->height,   d->channels, d->sampling, d->range,
                                  d->matrix,    d->transfer, d->y_stride, d->u_stride, d->v_stride};
    const float custom[2] = {d->kr, d->kb};
    size_t sizes[2];
    segvartin_bytes from = rows(d, 0, d->height);
    segvartin_bytes_mut u = plane(o->u, d), v = plane(o->v, d);
    o->number = segvartin_call_frame(numbers, 11, custom, from.at, from.len, o->y, (size_t)d->y_stride * d->height, u.at, u.len, v.at, v.len, sizes);
    o->expected = sizes[0];
    o->received = sizes[1];
}

/* As convoy, by the exported function alone: the frame once. */
static void bare_convoy(const segvartin_description *d, outcome *o) {
    const float customs[2] = {d->kr, d->kb};
    segvartin_convoy_frame frames[2];
    segvartin_bytes from = rows(d, 0, d->height);
    uint32_t numbers[16];
    uint64_t parts[8];
    size_t sizes[3];
    two_frames(d, frames);
    numbers[0] = frames[1].stride;
    segvartin_put_numbers(numbers + 1, d, &frames[1].options);
    segvartin_put_part(parts, frames[1].source);
    segvartin_put_part(parts + 2, frames[1].y);
    segvartin_put_part(parts + 4, frames[1].u);
    segvartin_put_part(parts + 6, frames[1].v);
    o->number = segvartin_call_convoy(1, numbers, 16, customs, 2, parts, 8, from.at, from.len, o->convoy_y, sizeof o->convoy_y, o->convoy_u,
                                      sizeof o->convoy_u, o->convoy_v, sizeof o->convoy_v, sizes);
    o->expected = sizes[0];
    o->received = sizes[1];
    o->frames = sizes[2];
}

/* As desk_opening, by the exported function alone: the frame has no bytes. */
static void bare_desk_opening(const segvartin_description *d, outcome *o) {
    static const uint64_t none[8], lengths[4];
    const float custom[2] = {d->kr, d->kb};
    const segvartin_options options = nearest(d);
    uint32_t numbers[15];
    size_t sizes[2];
    segvartin_put_numbers(numbers, d, &options);
    o->number = segvartin_call_desk_open(SECOND, numbers, 15, custom, none, lengths, o->desk.numbers, o->desk.customs, o->desk.parts, sizes);
    o->expected = sizes[0];
    o->received = sizes[1];
}

/* A band of the whole frame served, its step by the exported function alone. */
static void bare_desk_step(const segvartin_description *d, outcome *o) {
    segvartin_bytes from = rows(d, 0, d->height);
    segvartin_part all;
    size_t sizes[4];
    all.offset = 0, all.length = from.len;
    open_unasked(d, o, 1);
    segvartin_desk_offer(&o->desk, SECOND, d->height, 3 * d->width, all, from.len);
    o->number = segvartin_call_desk_step(from.at, from.len, o->convoy_y, sizeof o->convoy_y, o->convoy_u, sizeof o->convoy_u, o->convoy_v,
                                         sizeof o->convoy_v, o->desk_carried, sizeof o->desk_carried, o->desk.numbers, o->desk.customs,
                                         o->desk.parts, sizes);
    o->expected = sizes[0];
    o->received = sizes[1];
    o->cameras = (uint32_t)sizes[3];
}

/* Makes the call in the mode, and answers MXCSR before and after it. */
static void in_mode(int mode, call *made, const segvartin_description *d, outcome *o, unsigned mxcsr[2]) {
    memset(o, 0, sizeof *o);
    enter(mode);
    mxcsr[0] = _mm_getcsr();
    made(d, o);
    mxcsr[1] = _mm_getcsr();
    leave();
}

static int differ(const outcome *a, const outcome *b) { return memcmp(a, b, sizeof *a); }

static segvartin_description description(uint32_t width, uint32_t height, uint32_t sampling, uint32_t range, uint32_t matrix) {
    segvartin_description d;
    memset(&d, 0, sizeof d);
    d.width = d.y_stride = width;
    d.height = height;
    d.u_stride = d.v_stride = width / 2 + width % 2;
    d.sampling = sampling;
    d.range = range;
    d.matrix = matrix;
    return d;
}

/* The call leaves in each mode what it left in the default mode. */
static void as_usual(call *made, const segvartin_description *d, const outcome *usual) {
    for (int mode = 0; mode < MODES; mode++) {
        outcome o;
        unsigned mxcsr[2];
        in_mode(mode, made, d, &o, mxcsr);
        EXPECT(!differ(&o, usual));
        EXPECT(mxcsr[1] == mxcsr[0]);
    }
}

/* Two frames in one call: each is what its own call leaves, in each mode. */
static void several_in_every_mode(const segvartin_description *d, uint32_t number) {
    outcome both, one, other;
    unsigned mxcsr[2];
    size_t luma = (size_t)d->y_stride * d->height, chroma = plane(NULL, d).len;
    in_mode(0, convoy, d, &both, mxcsr);
    in_mode(0, frame, d, &one, mxcsr);
    in_mode(0, frame_with, d, &other, mxcsr);
    EXPECT(both.number == number && both.expected == 0 && both.received == 0 && both.frames == (number == SEGVARTIN_FINISHED ? 2 : 0));
    EXPECT(memcmp(both.convoy_y, other.y, luma) == 0 && memcmp(both.convoy_y + luma, one.y, luma) == 0);
    EXPECT(memcmp(both.convoy_u, other.u, chroma) == 0 && memcmp(both.convoy_u + chroma, one.u, chroma) == 0);
    EXPECT(memcmp(both.convoy_v, other.v, chroma) == 0 && memcmp(both.convoy_v + chroma, one.v, chroma) == 0);
    as_usual(convoy, d, &both);
}

/* At a desk they are the same: an opening judges the matrix, and so does each step. */
static void desk_in_every_mode(const segvartin_description *d, uint32_t number) {
    outcome both, usual;
    unsigned mxcsr[2];
    in_mode(0, convoy, d, &both, mxcsr);
    in_mode(0, desk_opening, d, &usual, mxcsr);
    EXPECT(usual.number == number && usual.desk.numbers[19 * SECOND] == (number == SEGVARTIN_FINISHED));
    as_usual(desk_opening, d, &usual);
    in_mode(0, desk_bands, d, &usual, mxcsr);
    EXPECT(usual.number == number && usual.expected == 0 && usual.received == 0 && usual.done == (number == SEGVARTIN_FINISHED ? d->height : 1));
    EXPECT(usual.cameras == (number == SEGVARTIN_FINISHED ? 100 * FIRST + SECOND : 100 * SEGVARTIN_BAND_STILL_WAITING + FIRST));
    EXPECT(usual.desk.numbers[19 * HELD] == 1 && usual.desk.numbers[608] == (number == SEGVARTIN_FINISHED ? SECOND : FIRST) + 1);
    EXPECT(memcmp(usual.convoy_y, both.convoy_y, sizeof both.convoy_y) == 0 && memcmp(usual.convoy_u, both.convoy_u, sizeof both.convoy_u) == 0);
    EXPECT(memcmp(usual.convoy_v, both.convoy_v, sizeof both.convoy_v) == 0);
    as_usual(desk_bands, d, &usual);
}

/* The calls, in each mode: answered with this number, and the same bytes as in the default mode. */
static void in_every_mode(const segvartin_description *d, uint32_t number) {
    static call *const calls[9] = {frame, opening, bands, frame_with, opening_with, bands_with, frame_in_window, opening_of_window, bands_in_window};
    for (int i = 0; i < 9; i++) {
        outcome usual, o;
        unsigned mxcsr[2];
        in_mode(0, calls[i], d, &usual, mxcsr);
        if (i >= 6) {
            in_mode(0, calls[i - 3], d, &o, mxcsr);
            EXPECT(!differ(&o, &usual));
        }
        EXPECT(usual.number == number && usual.expected == 0 && usual.received == 0);
        EXPECT(usual.done == (i % 3 == 2 && number == SEGVARTIN_FINISHED ? d->height : 0));
        as_usual(calls[i], d, &usual);
    }
    several_in_every_mode(d, number);
    desk_in_every_mode(d, number);
}

/* Refusal 4 and its limits, by the bits of kr or of kb. */
static const struct limit {
    uint32_t bits, number;
} limits[] = {
    {0x80000001, SEGVARTIN_MATRIX_NOT_ACCEPTED}, /* the negative nearest to 0 */
    {0x807fffff, SEGVARTIN_MATRIX_NOT_ACCEPTED}, /* the largest negative denormal */
    {0x7fc00000, SEGVARTIN_MATRIX_NOT_ACCEPTED}, /* NaN */
    {0x7f800001, SEGVARTIN_MATRIX_NOT_ACCEPTED}, /* NaN that signals */
    {0x3f000001, SEGVARTIN_MATRIX_NOT_ACCEPTED}, /* next above 0.5 */
    {0x80000000, SEGVARTIN_FINISHED},            /* -0.0 */
    {0x00000001, SEGVARTIN_FINISHED},            /* next above 0 */
    {0x3f000000, SEGVARTIN_FINISHED},            /* 0.5 */
    {0x3d656042, SEGVARTIN_FINISHED},            /* 0.056 */
};

static void matrices(void) {
    for (uint32_t sampling = 0; sampling < 2; sampling++)
        for (uint32_t range = 0; range < 2; range++) {
            segvartin_description d = description(W, H, sampling, range, SEGVARTIN_BT601);
            in_every_mode(&d, SEGVARTIN_FINISHED);
            d.matrix = SEGVARTIN_FCC;
            in_every_mode(&d, SEGVARTIN_FINISHED);
            d.matrix = SEGVARTIN_CUSTOM;
            for (size_t i = 0; i < sizeof limits / sizeof *limits; i++) {
                d.kr = of_bits(limits[i].bits), d.kb = 0.257f;
                in_every_mode(&d, limits[i].number);
                d.kr = 0.257f, d.kb = of_bits(limits[i].bits);
                in_every_mode(&d, limits[i].number);
            }
        }
}

/* One green pixel whose V is 46, and 47 where the weights are computed in another rounding mode. */
static void another_rounding(void) {
    segvartin_description d = description(1, 1, SEGVARTIN_YUV422, SEGVARTIN_LIMITED, SEGVARTIN_CUSTOM);
    d.kr = 0.056f, d.kb = 0.257f;
    source[0] = 0, source[1] = 255, source[2] = 0;
    for (int mode = 0; mode < 4; mode++) {
        outcome o;
        unsigned mxcsr[2];
        in_mode(mode, frame, &d, &o, mxcsr);
        EXPECT(o.number == SEGVARTIN_FINISHED && o.v[0] == 46);
        in_mode(mode, bands, &d, &o, mxcsr);
        EXPECT(o.number == SEGVARTIN_FINISHED && o.v[0] == 46);
        in_mode(mode, frame_with, &d, &o, mxcsr);
        EXPECT(o.number == SEGVARTIN_FINISHED && o.v[0] == 46);
        in_mode(mode, bands_with, &d, &o, mxcsr);
        EXPECT(o.number == SEGVARTIN_FINISHED && o.v[0] == 46);
        in_mode(mode, frame_in_window, &d, &o, mxcsr);
        EXPECT(o.number == SEGVARTIN_FINISHED && o.v[0] == 46);
        in_mode(mode, bands_in_window, &d, &o, mxcsr);
        EXPECT(o.number == SEGVARTIN_FINISHED && o.v[0] == 46);
        in_mode(mode, convoy, &d, &o, mxcsr);
        EXPECT(o.number == SEGVARTIN_FINISHED && o.frames == 2 && o.convoy_v[0] == 46 && o.convoy_v[1] == 46);
        in_mode(mode, desk_bands, &d, &o, mxcsr);
        EXPECT(o.number == SEGVARTIN_FINISHED && o.done == 1 && o.convoy_v[0] == 46 && o.convoy_v[1] == 46);
        in_mode(mode, bare, &d, &o, mxcsr);
        EXPECT(o.number == SEGVARTIN_FINISHED && o.v[0] == (mode == 0 ? 46 : 47));
        in_mode(mode, bare_convoy, &d, &o, mxcsr);
        EXPECT(o.number == SEGVARTIN_FINISHED && o.frames == 1 && o.convoy_v[0] == (mode == 0 ? 46 : 47));
        in_mode(mode, bare_desk_step, &d, &o, mxcsr);
        EXPECT(o.number == SEGVARTIN_FINISHED && o.cameras == SECOND && o.convoy_v[0] == (mode == 0 ? 46 : 47));
    }
}

/*
 * Counts in each mode: of Fcc, of every limit that is refused, and of a Custom matrix whose weights are 101, 6782, 152 by RULES 4.4 and 4.5. Computed in
 * another rounding mode yr is 100 or yb 153, and the counts are others. Each accepted call goes through all colours, so there are no more of them.
 */
static void counts_of_colours(void) {
    segvartin_description d = description(W, H, SEGVARTIN_YUV420, SEGVARTIN_LIMITED, SEGVARTIN_FCC);
    outcome usual, o;
    unsigned mxcsr[2];
    in_mode(0, colours, &d, &usual, mxcsr);
    EXPECT(usual.number == SEGVARTIN_FINISHED && usual.counts[16] > 0 && usual.counts[235] > 0);
    as_usual(colours, &d, &usual);
    d.matrix = SEGVARTIN_CUSTOM;
    for (size_t i = 0; i < sizeof limits / sizeof *limits; i++)
        for (int other = 0; other < 2; other++) {
            if (limits[i].number == SEGVARTIN_FINISHED) continue;
            d.kr = other ? 0.257f : of_bits(limits[i].bits), d.kb = other ? of_bits(limits[i].bits) : 0.257f;
            memset(&usual, 0, sizeof usual);
            usual.number = SEGVARTIN_MATRIX_NOT_ACCEPTED;
            as_usual(colours, &d, &usual);
        }
    d.kr = of_bits(0x3c6a0a85), d.kb = of_bits(0x3cb19188);
    in_mode(0, colours, &d, &usual, mxcsr);
    EXPECT(usual.number == SEGVARTIN_FINISHED);
    as_usual(colours, &d, &usual);
    for (int mode = 0; mode < 4; mode++) {
        in_mode(mode, bare_colours, &d, &o, mxcsr);
        EXPECT(o.number == SEGVARTIN_FINISHED && (differ(&o, &usual) != 0) == (mode != 0));
    }
}

/* Shift files, with settings and moved too, summaries, pairs and Y4M files are made of whole numbers: no mode is set for them, none matters. */
static void files(void) {
    segvartin_description d = description(W, H, SEGVARTIN_YUV420, SEGVARTIN_LIMITED, SEGVARTIN_FCC);
    outcome usual;
    unsigned mxcsr[2];
    in_mode(0, shift_file, &d, &usual, mxcsr);
    EXPECT(usual.number == SEGVARTIN_FINISHED && usual.file[0] == 1 && usual.read.crossing == 1400 && usual.read.v_offset == 16 + RECORD - 2 * CW);
    as_usual(shift_file, &d, &usual);
    in_mode(0, summary, &d, &usual, mxcsr);
    EXPECT(usual.number == SEGVARTIN_FINISHED && usual.yes == 1 && usual.is_found == 1 && usual.found.offset == 16);
    EXPECT(usual.summary[4] + usual.summary[SEGVARTIN_SUMMARY_ENTRY + 4] == 28 + (28 + RECORD) && usual.summary[12] != 0);
    as_usual(summary, &d, &usual);
    in_mode(0, pairs, &d, &usual, mxcsr);
    EXPECT(usual.number == SEGVARTIN_FINISHED && usual.report.differing == 1 && usual.report.plane == 2 && usual.report.column == CW - 1);
    as_usual(pairs, &d, &usual);
    in_mode(0, settings, &d, &usual, mxcsr);
    EXPECT(usual.number == SEGVARTIN_FINISHED && usual.set_file[0] == 255 && usual.any.sampling == SEGVARTIN_YUV422 && usual.any.matrix == SEGVARTIN_FCC);
    EXPECT(memcmp(usual.back, usual.file, sizeof usual.file) == 0 && usual.report.their_sampling == SEGVARTIN_YUV422 && usual.report.differing == 1);
    as_usual(settings, &d, &usual);
    in_mode(0, y4m, &d, &usual, mxcsr);
    EXPECT(usual.number == SEGVARTIN_FINISHED && usual.y4m_told.count == 1 && usual.y4m_told.sampling == SEGVARTIN_YUV422);
    EXPECT(usual.picture.v_offset == sizeof usual.y4m - CW * H && memcmp(usual.y4m, usual.y4m_whole, sizeof usual.y4m) == 0);
    as_usual(y4m, &d, &usual);
    d.width = 0;
    in_mode(0, y4m, &d, &usual, mxcsr);
    EXPECT(usual.number == SEGVARTIN_MALFORMED_Y4M && usual.y4m[0] == 0);
    as_usual(y4m, &d, &usual);
    in_mode(0, shift_file, &d, &usual, mxcsr);
    EXPECT(usual.number == SEGVARTIN_MALFORMED_SHIFT_FILE && usual.record[0] == 0);
    as_usual(shift_file, &d, &usual);
}

/* A negative kr that counts as 0 where denormals do. */
static void another_answer(void) {
    segvartin_description d = description(W, H, SEGVARTIN_YUV420, SEGVARTIN_FULL, SEGVARTIN_CUSTOM);
    d.kr = of_bits(0x80000001);
    for (int mode = 0; mode < 8; mode += 4) {
        outcome o;
        unsigned mxcsr[2];
        in_mode(mode, frame, &d, &o, mxcsr);
        EXPECT(o.number == SEGVARTIN_MATRIX_NOT_ACCEPTED);
        in_mode(mode, frame_with, &d, &o, mxcsr);
        EXPECT(o.number == SEGVARTIN_MATRIX_NOT_ACCEPTED);
        in_mode(mode, convoy, &d, &o, mxcsr);
        EXPECT(o.number == SEGVARTIN_MATRIX_NOT_ACCEPTED && o.frames == 0);
        in_mode(mode, bare, &d, &o, mxcsr);
        EXPECT(o.number == (mode == 0 ? SEGVARTIN_MATRIX_NOT_ACCEPTED : SEGVARTIN_FINISHED));
        in_mode(mode, desk_opening, &d, &o, mxcsr);
        EXPECT(o.number == SEGVARTIN_MATRIX_NOT_ACCEPTED && o.desk.numbers[19 * SECOND] == 0);
        in_mode(mode, bare_convoy, &d, &o, mxcsr);
        EXPECT(o.number == (mode == 0 ? SEGVARTIN_MATRIX_NOT_ACCEPTED : SEGVARTIN_FINISHED));
        in_mode(mode, bare_desk_opening, &d, &o, mxcsr);
        EXPECT(o.number == (mode == 0 ? SEGVARTIN_MATRIX_NOT_ACCEPTED : SEGVARTIN_FINISHED));
        in_mode(mode, bare_desk_step, &d, &o, mxcsr);
        EXPECT(o.number == (mode == 0 ? SEGVARTIN_MATRIX_NOT_ACCEPTED : SEGVARTIN_FINISHED));
        in_mode(mode, bare_colours, &d, &o, mxcsr);
        EXPECT(o.number == (mode == 0 ? SEGVARTIN_MATRIX_NOT_ACCEPTED : SEGVARTIN_FINISHED));
    }
}

/* Whether the call, where exceptions are trapped, ends the program with SIGFPE. */
static int ends(call *made, const segvartin_description *d) {
    int status = 0;
    pid_t child = fork();
    if (child == 0) {
        outcome o;
        unsigned mxcsr[2];
        signal(SIGFPE, SIG_DFL);
        in_mode(16, made, d, &o, mxcsr);
        _exit(0);
    }
    if (child < 0 || waitpid(child, &status, 0) != child) {
        perror("fork");
        exit(2);
    }
    return WIFSIGNALED(status) && WTERMSIG(status) == SIGFPE;
}

static void another_end(void) {
    segvartin_description d = description(W, H, SEGVARTIN_YUV420, SEGVARTIN_FULL, SEGVARTIN_FCC);
    EXPECT(!ends(frame, &d) && !ends(bands, &d) && !ends(frame_with, &d) && !ends(bands_with, &d) && ends(bare, &d));
    EXPECT(!ends(frame_in_window, &d) && !ends(bands_in_window, &d) && !ends(convoy, &d) && ends(bare_convoy, &d));
    EXPECT(!ends(desk_opening, &d) && !ends(desk_bands, &d) && ends(bare_desk_step, &d));
    EXPECT(!ends(colours, &d) && ends(bare_colours, &d) && !ends(summary, &d) && !ends(pairs, &d) && !ends(settings, &d) && !ends(y4m, &d));
    d.matrix = SEGVARTIN_BT709;
    EXPECT(!ends(bare, &d) && !ends(bare_colours, &d));
}

int main(void) {
    unsigned start = _mm_getcsr();
    leave();
#ifdef __FAST_MATH__
    EXPECT((start & (DENORMALS_ARE_ZERO | FLUSH_TO_ZERO)) == (DENORMALS_ARE_ZERO | FLUSH_TO_ZERO));
#else
    EXPECT(start == DEFAULT);
#endif
    for (size_t i = 0; i < sizeof source; i++) source[i] = (uint8_t)(i * i * 31 + i * 7);
    matrices();
    another_rounding();
    counts_of_colours();
    files();
    another_answer();
    another_end();
    return finish("modes");
}
