/*
 * A shift at the desk of a crossing (RULES 16.1 to 16.6): 31 cameras deliver frames in bands, each at its own rate and with its own settings, and one
 * thread serves them, a band a step. Nine of them are faulty. At step 150 trucks come on all lanes, and every camera has a band at once.
 *
 *     desk             what each step served or refused, what openings and offers were refused, and a summary
 *     desk timeline    a line for each camera number, with a character for each step: see below; tools/desk_picture.py draws it
 *
 * Every finished frame is held against one call with all its rows, and every wait against 32 steps; the exit status is 0 where all hold.
 */
#include "segvartin.h"

#include <inttypes.h>
#include <stdio.h>
#include <stdlib.h>
#include <string.h>

enum { CAMERAS = 31, STEPS = 300, RUSH = 150, MOST_W = 96, MOST_H = 64, BAND = 4 * MOST_W * MOST_H, LUMA = MOST_W * MOST_H, CARRIED = 3 * MOST_W };

/* What is wrong with a camera. */
enum fault { NONE, BAD_STRIDE, CUT_SHORT, TOO_MANY_ROWS, SHORT_PLANE, IMPATIENT, OPENS_TWICE, OFFERS_FIRST, TAKES_ANOTHERS_PARTS, WRONG_NUMBER };

static const struct {
    uint32_t camera;
    enum fault fault;
    const char *said;
} faulty[] = {
    {2, BAD_STRIDE, "its stride is a byte short"},        {5, CUT_SHORT, "its band ends too early"},
    {9, TOO_MANY_ROWS, "more rows than remain"},          {13, SHORT_PLANE, "its U is too short, for ever"},
    {16, IMPATIENT, "offers while its band waits"},       {19, OPENS_TWICE, "opens while it is open"},
    {22, OFFERS_FIRST, "offers before it opens"},         {26, TAKES_ANOTHERS_PARTS, "opens on its neighbour's parts"},
    {29, WRONG_NUMBER, "says it is camera 61"},
};

/* Characters of the timeline: no frame, a frame is open, its band waits, served, served to its last row, refused at its step, a call refused. */
enum { FREE = ' ', OPEN = '.', WAITS = 'w', SERVED = 's', FINISHED = 'f', REFUSED = 'r', CALL_REFUSED = 'x' };

typedef struct camera {
    segvartin_description frame;
    segvartin_options options;
    segvartin_desk_parts parts;
    enum fault fault;
    uint32_t stride, rows, every;         /* rows of its bands, and steps between them */
    uint32_t next;                        /* the step at which it delivers again */
    uint32_t frames, bands, done, sent;   /* frames finished, bands offered; of the open frame the rows done, and those of the band that waits */
    int open, waits, called_in_vain;
    uint32_t served, refused, calls_refused, waited, longest;
} camera;

static camera cameras[CAMERAS];
static segvartin_desk desk; /* all zeros: no frame is open */
static uint8_t source_bytes[CAMERAS * BAND], y_bytes[CAMERAS * LUMA], u_bytes[CAMERAS * LUMA], v_bytes[CAMERAS * LUMA];
static uint8_t carried_bytes[CAMERAS * CARRIED];
static char timeline[SEGVARTIN_CAMERAS][STEPS + 1];
static int quiet, failed;

static uint32_t pixel_bytes(const camera *c) { return c->frame.channels == SEGVARTIN_RGB || c->frame.channels == SEGVARTIN_BGR ? 3 : 4; }

static uint32_t chroma_rows(const camera *c) { return c->frame.sampling == SEGVARTIN_YUV420 ? (c->frame.height + 1) / 2 : c->frame.height; }

static segvartin_part part(size_t k, size_t each, size_t length) {
    segvartin_part p;
    p.offset = k * each;
    p.length = length;
    return p;
}

/* Sizes, settings, bands and rates, each camera its own. */
static void set_up(uint32_t k) {
    static const uint32_t sizes[4][2] = {{96, 64}, {80, 60}, {64, 48}, {33, 25}};
    camera *c = &cameras[k];
    segvartin_description *d = &c->frame;
    d->width = sizes[k % 4][0];
    d->height = sizes[k % 4][1];
    d->channels = k / 4 % 4;
    d->sampling = k / 2 % 2;
    d->range = k % 2;
    d->matrix = k % SEGVARTIN_CUSTOM;
    d->transfer = k / 3 % 4;
    d->y_stride = d->width;
    d->u_stride = d->v_stride = (d->width + 1) / 2;
    c->options = segvartin_options_of(d);
    c->options.rounding = k % 3 == 0 ? SEGVARTIN_NEAREST : SEGVARTIN_TRUNCATED;
    c->stride = d->width * pixel_bytes(c);
    c->parts.y = part(k, LUMA, (size_t)d->y_stride * d->height);
    c->parts.u = part(k, LUMA, (size_t)d->u_stride * chroma_rows(c));
    c->parts.v = part(k, LUMA, (size_t)d->v_stride * chroma_rows(c));
    c->parts.carried = part(k, CARRIED, 3 * (size_t)d->width);
    c->rows = 9 + k * 5 % 14;
    c->every = 22 + k * 7 % 31;
    c->next = k * 5 % 23;
    for (size_t i = 0; i < sizeof faulty / sizeof *faulty; i++)
        if (faulty[i].camera == k) c->fault = faulty[i].fault;
    if (c->fault == SHORT_PLANE) c->parts.u.length -= d->u_stride;
}

/* What the camera sees: rows of its frame of this number. */
static void see(const camera *c, uint32_t number, uint32_t first, uint32_t rows, uint8_t *to) {
    const uint32_t bytes = pixel_bytes(c);
    for (uint32_t r = 0; r < rows; r++)
        for (uint32_t x = 0; x < c->frame.width; x++)
            for (uint32_t b = 0; b < bytes; b++)
                *to++ = (uint8_t)((x * 5 + (first + r) * (3 + b) + number * 37 + (uint32_t)(c - cameras) * 11) ^ (x * (first + r) >> 3));
}

/* A camera's call was refused. */
static void say(uint32_t step, camera *c, const char *call, uint32_t number, segvartin_answer a) {
    if (a.number == SEGVARTIN_FINISHED) return;
    c->calls_refused++;
    c->called_in_vain = 1;
    if (!quiet)
        printf("step %3" PRIu32 ", before it: %s of camera %" PRIu32 " refused %" PRIu32 ", expected %zu, received %zu\n", step, call, number,
               a.number, a.expected, a.received);
}

static segvartin_answer open_frame(uint32_t step, camera *c, uint32_t number, const segvartin_desk_parts *parts) {
    static const segvartin_desk_lengths lengths = {sizeof y_bytes, sizeof u_bytes, sizeof v_bytes, sizeof carried_bytes};
    segvartin_answer a = segvartin_desk_open(&desk, number, &c->frame, &c->options, parts, &lengths);
    say(step, c, "opening", number, a);
    return a;
}

/* Puts the next rows into the camera's slot of the source, where no band of it waits, and offers them. */
static void offer_band(uint32_t step, camera *c, uint32_t number) {
    const uint32_t left = c->frame.height - c->done;
    uint32_t rows = c->rows < left ? c->rows : left, stride = c->stride;
    const size_t k = (size_t)(c - cameras);
    segvartin_part band = part(k, BAND, (size_t)stride * rows);
    segvartin_answer a;
    if (!c->waits) see(c, c->frames, c->done, rows, source_bytes + band.offset);
    if (c->fault == BAD_STRIDE && c->bands % 3 == 1) stride--;
    if (c->fault == CUT_SHORT && c->bands % 4 == 2) band.length--;
    if (c->fault == TOO_MANY_ROWS && rows == left && c->bands % 2 == 0) rows++;
    a = segvartin_desk_offer(&desk, number, rows, stride, band, sizeof source_bytes);
    say(step, c, "offer", number, a);
    if (a.number != SEGVARTIN_FINISHED) return;
    c->bands++;
    c->sent = rows;
    c->waits = 1;
    c->waited = 0;
}

/* A camera whose time has come opens a frame where none is open, and delivers a band; one whose band waits holds the next back. */
static void deliver(uint32_t step, uint32_t k) {
    camera *c = &cameras[k];
    if (c->waits && c->fault == IMPATIENT && step % 8 == 0) offer_band(step, c, k);
    if (step < c->next || c->waits) return;
    if (c->fault == OFFERS_FIRST && !c->open) offer_band(step, c, k);
    if (c->fault == WRONG_NUMBER && c->bands % 3 == 0) offer_band(step, c, k + SEGVARTIN_CAMERAS);
    if (c->fault == TAKES_ANOTHERS_PARTS && !c->open) open_frame(step, c, k, &cameras[k - 1].parts);
    if (!c->open) {
        if (open_frame(step, c, k, &c->parts).number != SEGVARTIN_FINISHED) return;
        c->open = 1;
        c->done = 0;
    }
    if (c->fault == OPENS_TWICE && c->bands % 4 == 1) open_frame(step, c, k, &c->parts);
    offer_band(step, c, k);
    c->next = step + c->every;
}

/* The planes of the frame that was just finished, against one call with all its rows. */
static int as_one_call(const camera *c) {
    static uint8_t rows[BAND], planes[3][LUMA];
    const size_t k = (size_t)(c - cameras);
    segvartin_bytes source;
    segvartin_bytes_mut y, u, v;
    segvartin_answer a;
    source.at = rows, source.len = (size_t)c->stride * c->frame.height;
    y.at = planes[0], y.len = c->parts.y.length;
    u.at = planes[1], u.len = c->parts.u.length;
    v.at = planes[2], v.len = c->parts.v.length;
    see(c, c->frames, 0, c->frame.height, rows);
    a = segvartin_convert_frame_with(&c->frame, &c->options, source, c->stride, y, u, v);
    return a.number == SEGVARTIN_FINISHED && memcmp(y.at, y_bytes + k * LUMA, y.len) == 0 && memcmp(u.at, u_bytes + k * LUMA, u.len) == 0 &&
           memcmp(v.at, v_bytes + k * LUMA, v.len) == 0;
}

/* What became of the camera's band. */
static int served(uint32_t step, const segvartin_desk_answer *a) {
    camera *c = &cameras[a->camera];
    c->waits = 0;
    if (c->waited > c->longest) c->longest = c->waited;
    if (a->number != SEGVARTIN_FINISHED) {
        c->refused++;
        if (!quiet)
            printf("step %3" PRIu32 ": camera %2" PRIu32 " refused %" PRIu32 ", expected %zu, received %zu\n", step, a->camera, a->number,
                   a->expected, a->received);
        return REFUSED;
    }
    c->served++;
    if (!quiet) printf("step %3" PRIu32 ": camera %2" PRIu32 ", rows %" PRIu32 " to %" PRIu32, step, a->camera, c->done, c->done + c->sent - 1);
    c->done += c->sent;
    if (c->done < c->frame.height) {
        if (!quiet) printf("\n");
        return SERVED;
    }
    if (!as_one_call(c)) {
        failed = 1;
        fprintf(stderr, "desk: camera %" PRIu32 ": the planes of frame %" PRIu32 " are not those of one call\n", a->camera, c->frames);
    }
    if (!quiet) printf(", and its frame %" PRIu32 " is finished\n", c->frames);
    c->frames++;
    c->open = 0;
    return FINISHED;
}

static void step_once(uint32_t step) {
    segvartin_bytes source;
    segvartin_bytes_mut y, u, v, carried;
    segvartin_desk_answer a;
    source.at = source_bytes, source.len = sizeof source_bytes;
    y.at = y_bytes, y.len = sizeof y_bytes;
    u.at = u_bytes, u.len = sizeof u_bytes;
    v.at = v_bytes, v.len = sizeof v_bytes;
    carried.at = carried_bytes, carried.len = sizeof carried_bytes;
    for (uint32_t k = 0; k < CAMERAS; k++) {
        camera *c = &cameras[k];
        if (c->waits) c->waited++;
        timeline[k][step] = c->called_in_vain ? CALL_REFUSED : c->waits ? WAITS : c->open ? OPEN : FREE;
        c->called_in_vain = 0;
    }
    timeline[CAMERAS][step] = FREE;
    a = segvartin_desk_step(&desk, source, y, u, v, carried);
    if (a.served)
        timeline[a.camera][step] = (char)served(step, &a);
    else if (!quiet)
        printf("step %3" PRIu32 ": no band waits\n", step);
}

static void summary(void) {
    uint32_t frames = 0, bands = 0, refused = 0, longest = 0;
    printf("\ncamera   size   chroma  rows a band  every  frames  bands  refused at steps  other calls refused  longest wait\n");
    for (uint32_t k = 0; k < CAMERAS; k++) {
        const camera *c = &cameras[k];
        const char *said = "";
        for (size_t i = 0; i < sizeof faulty / sizeof *faulty; i++)
            if (faulty[i].camera == k) said = faulty[i].said;
        printf("%6" PRIu32 "%5" PRIu32 " x %2" PRIu32 "   4:2:%s%12" PRIu32 "%7" PRIu32, k, c->frame.width, c->frame.height,
               c->frame.sampling == SEGVARTIN_YUV420 ? "0" : "2", c->rows, c->every);
        printf("%8" PRIu32 "%7" PRIu32 "%18" PRIu32 "%21" PRIu32 "%14" PRIu32 "%s%s\n", c->frames, c->served, c->refused, c->calls_refused,
               c->longest, *said ? "   " : "", said);
        frames += c->frames;
        bands += c->served;
        refused += c->refused;
        if (c->longest > longest) longest = c->longest;
    }
    printf("%d steps: %" PRIu32 " frames finished, each as one call converts it; %" PRIu32 " bands converted, %" PRIu32
           " refused; the longest wait is %" PRIu32 " steps\n",
           STEPS, frames, bands, refused, longest);
}

int main(int argc, char **argv) {
    quiet = argc == 2 && strcmp(argv[1], "timeline") == 0;
    if (argc > 1 && !quiet) {
        fprintf(stderr, "usage: desk [timeline]\n");
        return 2;
    }
    for (uint32_t k = 0; k < CAMERAS; k++) set_up(k);
    for (uint32_t step = 0; step < STEPS; step++) {
        for (uint32_t k = 0; k < CAMERAS; k++) {
            if (step == RUSH) cameras[k].next = step; /* trucks on all lanes */
            deliver(step, k);
        }
        step_once(step);
    }
    for (uint32_t k = 0; k < CAMERAS; k++)
        if (cameras[k].longest > SEGVARTIN_CAMERAS || cameras[k].waited > SEGVARTIN_CAMERAS) {
            failed = 1;
            fprintf(stderr, "desk: camera %" PRIu32 " waits longer than %d steps\n", k, SEGVARTIN_CAMERAS);
        }
    for (uint32_t k = 0; quiet && k < SEGVARTIN_CAMERAS; k++) printf("%s\n", timeline[k]);
    if (!quiet) summary();
    return failed;
}
