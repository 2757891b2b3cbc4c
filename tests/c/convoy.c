/*
 * Convoys: several frames in one call leave what single calls in order leave, byte for byte of all four buffers, up to the first that is refused. 18
 * is expected by the numbers of each part's bytes, one by one. Every count of frames; every refusal at the first place, in the middle and at the
 * last; parts that touch, that are empty, that stand twice, and whose end is past 2^64; and the exported call with fewer numbers than its frames
 * need.
 */
#include "lent.h"

#include "segvartin.h"

#include <math.h>

__extension__ typedef unsigned __int128 wide;

enum { MOST = SEGVARTIN_MAX_CONVOY, BUFFERS = 4, REFUSALS = 24 };

static const uint32_t pixel_bytes[4] = {3, 4, 4, 3};

/* Frames, and the lengths of the buffers that their parts are of: source, y, u, v. */
typedef struct convoy {
    segvartin_convoy_frame frames[MOST + 1];
    size_t count;
    size_t len[BUFFERS];
} convoy;

/* How often each number was answered. */
static unsigned long answered[REFUSALS];

static uint32_t random_number(void) {
    static uint64_t state = 88172645463325252u;
    state ^= state << 13;
    state ^= state >> 7;
    state ^= state << 17;
    return (uint32_t)(state >> 32);
}

static uint32_t below(uint32_t n) { return random_number() % n; }

static segvartin_part *part_of(segvartin_convoy_frame *f, int buffer) {
    segvartin_part *parts[BUFFERS];
    parts[0] = &f->source;
    parts[1] = &f->y;
    parts[2] = &f->u;
    parts[3] = &f->v;
    return parts[buffer];
}

/* A small frame of any settings, with a window or without; its parts have their lengths, and stand nowhere yet. */
static segvartin_convoy_frame some_frame(void) {
    segvartin_description d = {0};
    segvartin_convoy_frame f;
    uint32_t rows;
    d.width = 1 + below(6);
    d.height = 1 + below(5);
    d.channels = below(4);
    d.sampling = below(2);
    d.range = below(2);
    d.matrix = below(7);
    d.transfer = below(4);
    d.kr = 0.25f;
    d.kb = 0.0625f;
    d.y_stride = d.width + below(3);
    d.u_stride = (d.width + 1) / 2 + below(3);
    d.v_stride = (d.width + 1) / 2 + below(3);
    f = segvartin_convoy_frame_of(&d);
    EXPECT(f.stride == 0 && f.source.offset == 0 && f.source.length == 0 && f.v.offset == 0 && f.v.length == 0 && f.options.source_width == d.width);
    f.options.rounding = below(2);
    if (below(2)) {
        f.options.left = below(3);
        f.options.top = below(3);
        f.options.source_width = f.options.left + d.width + below(3);
        f.options.source_height = f.options.top + d.height + below(3);
    }
    f.stride = f.options.source_width * pixel_bytes[d.channels] + below(3);
    rows = d.sampling == SEGVARTIN_YUV420 ? (d.height + 1) / 2 : d.height;
    f.source.length = (size_t)f.stride * f.options.source_height;
    f.y.length = (size_t)d.y_stride * d.height;
    f.u.length = (size_t)d.u_stride * rows;
    f.v.length = (size_t)d.v_stride * rows;
    return f;
}

/* The parts of all frames in each buffer, in an order of its own, with gaps of up to `gap` bytes. Sources may be moved onto one another. */
static void place(convoy *c, uint32_t gap, int share) {
    for (int b = 0; b < BUFFERS; b++) {
        size_t order[MOST + 1], at = below(gap + 1);
        for (size_t k = 0; k < c->count; k++) {
            size_t j = below((uint32_t)k + 1);
            order[k] = order[j];
            order[j] = k;
        }
        for (size_t k = 0; k < c->count; k++) {
            segvartin_part *p = part_of(&c->frames[order[k]], b);
            p->offset = at;
            at += p->length + below(gap + 1);
        }
        c->len[b] = at;
    }
    if (share)
        for (size_t k = 0; k < c->count; k++) c->frames[k].source.offset = below((uint32_t)(c->len[0] - c->frames[k].source.length + 1));
}

static convoy some_convoy(size_t count, uint32_t gap, int share) {
    convoy c;
    c.count = count;
    for (size_t k = 0; k < count; k++) c.frames[k] = some_frame();
    place(&c, gap, share);
    return c;
}

/* 18, byte by byte. */
static int is_broken(convoy *c) {
    int broken = c->count > MOST;
    for (size_t k = 0; k < c->count && !broken; k++)
        for (int b = 0; b < BUFFERS; b++) {
            const segvartin_part *p = part_of(&c->frames[k], b);
            if ((wide)p->offset + p->length > c->len[b]) broken = 1;
        }
    for (int b = 1; b < BUFFERS && !broken; b++) {
        uint8_t *owned = calloc(c->len[b] + 1, 1);
        for (size_t k = 0; k < c->count; k++) {
            const segvartin_part *p = part_of(&c->frames[k], b);
            for (size_t i = 0; i < p->length; i++) {
                if (owned[p->offset + i]) broken = 1;
                owned[p->offset + i] = 1;
            }
        }
        free(owned);
    }
    return broken;
}

static segvartin_bytes_mut cut(uint8_t *buffer, segvartin_part part) {
    segvartin_bytes_mut bytes = {buffer + part.offset, part.length};
    return bytes;
}

/* Single calls in order, on these bytes. */
static segvartin_answer one_by_one(convoy *c, uint8_t *const bytes[BUFFERS], size_t *done) {
    segvartin_answer a = {SEGVARTIN_PARTS_MISMATCH, 0, 0};
    *done = 0;
    if (is_broken(c)) return a;
    a.number = SEGVARTIN_FINISHED;
    for (size_t k = 0; k < c->count; k++) {
        const segvartin_convoy_frame *f = &c->frames[k];
        segvartin_bytes source = {bytes[0] + f->source.offset, f->source.length};
        a = segvartin_convert_frame_with(&f->frame, &f->options, source, f->stride, cut(bytes[1], f->y), cut(bytes[2], f->u), cut(bytes[3], f->v));
        if (a.number != SEGVARTIN_FINISHED) break;
        ++*done;
    }
    return a;
}

static segvartin_bytes_mut all(const lent *b) {
    segvartin_bytes_mut bytes = {b->at, b->len};
    return bytes;
}

/* The call, in buffers against closed pages, held to single calls. Tells its answer. */
static segvartin_answer held(convoy *c, size_t *done) {
    lent lent_bytes[BUFFERS];
    uint8_t *expected[BUFFERS];
    segvartin_bytes source;
    segvartin_answer a, e;
    size_t expected_done;
    for (int b = 0; b < BUFFERS; b++) {
        lent_bytes[b] = lend(c->len[b]);
        if (b == 0)
            for (size_t i = 0; i < c->len[0]; i++) lent_bytes[0].at[i] = (uint8_t)random_number();
        expected[b] = malloc(c->len[b] + 1);
        memcpy(expected[b], lent_bytes[b].at, c->len[b]);
    }
    e = one_by_one(c, expected, &expected_done);
    source.at = lent_bytes[0].at;
    source.len = lent_bytes[0].len;
    *done = 99;
    a = segvartin_convert_convoy(c->frames, c->count, source, all(&lent_bytes[1]), all(&lent_bytes[2]), all(&lent_bytes[3]), done);
    EXPECT(a.number == e.number && a.expected == e.expected && a.received == e.received && *done == expected_done);
    for (int b = 0; b < BUFFERS; b++) {
        EXPECT(memcmp(lent_bytes[b].at, expected[b], c->len[b]) == 0);
        if (b > 0 && *done == 0) EXPECT(untouched(&lent_bytes[b]));
        give_back(&lent_bytes[b]);
        free(expected[b]);
    }
    answered[a.number]++;
    return a;
}

/* Makes of a frame one that is refused with this number, whatever its settings are; its parts keep their places and lengths, or get shorter. */
static void spoil(segvartin_convoy_frame *f, uint32_t number) {
    segvartin_description *d = &f->frame;
    switch (number) {
    case 1: d->transfer = 4; break;
    case 2: d->width = 0; break;
    case 3: f->options.source_height = SEGVARTIN_MAX_SIDE + 1; break;
    case 4: d->matrix = SEGVARTIN_CUSTOM, d->kr = below(2) ? NAN : 0.75f; break;
    case 14: f->options.left = 4294967295u; break;
    case 6: f->source.length = f->options.source_width * pixel_bytes[d->channels] - 1; break;
    case 7: f->stride = f->options.source_width * pixel_bytes[d->channels] - 1; break;
    case 8: d->y_stride = d->width - 1; break;
    case 9: f->y.length = d->width - 1; break;
    case 10:
        if (below(2))
            d->u_stride = (d->width + 1) / 2 - 1;
        else
            f->u.length = 0;
        break;
    case 11:
        if (below(2))
            d->v_stride = (d->width + 1) / 2 - 1;
        else
            f->v.length = 0;
        break;
    }
}

/* Each refusal at the first place, in the middle and at the last; the frames behind it are refused too, each with 2, and stay unasked. */
static void places(void) {
    static const uint32_t refusals[] = {1, 2, 3, 4, 14, 6, 7, 8, 9, 10, 11, 12};
    static const size_t at[] = {0, 1, 31, 62, 63};
    for (size_t i = 0; i < sizeof refusals / sizeof *refusals; i++)
        for (size_t j = 0; j < sizeof at / sizeof *at; j++) {
            convoy c = some_convoy(MOST, 2, (int)below(2));
            segvartin_convoy_frame *f = &c.frames[at[j]];
            size_t done;
            segvartin_answer a;
            if (refusals[i] == 12) { /* a last row of V without its padding */
                f->frame.v_stride++;
                f->v.length = (size_t)f->frame.v_stride * (f->frame.sampling == SEGVARTIN_YUV420 ? (f->frame.height + 1) / 2 : f->frame.height);
                place(&c, 2, 0);
                f->v.length--;
            } else {
                spoil(f, refusals[i]);
            }
            for (size_t k = at[j] + 1; k < MOST; k++) c.frames[k].frame.height = 0;
            a = held(&c, &done);
            EXPECT(a.number == refusals[i] && done == at[j]);
        }
}

/* Every count of frames up to 64 is finished; 65 and more are 18, whatever the frames are, and only 64 of them are looked at. */
static void counts(void) {
    convoy c;
    size_t done;
    for (size_t count = 0; count <= MOST; count++) {
        c = some_convoy(count, 2, count % 2);
        EXPECT(held(&c, &done).number == SEGVARTIN_FINISHED && done == count);
    }
    c = some_convoy(MOST + 1, 2, 0);
    EXPECT(held(&c, &done).number == SEGVARTIN_PARTS_MISMATCH && done == 0);
    c = some_convoy(MOST, 2, 0);
    for (int far = 0; far < 3; far++) {
        static const size_t counts[3] = {MOST + 1, 4294967296u, SIZE_MAX};
        segvartin_bytes source = {(const uint8_t *)&c, 0};
        uint8_t plane = 7;
        segvartin_bytes_mut none = {&plane, 0};
        segvartin_answer a;
        done = 99;
        a = segvartin_convert_convoy(c.frames, counts[far], source, none, none, none, &done);
        EXPECT(a.number == SEGVARTIN_PARTS_MISMATCH && a.expected == 0 && a.received == 0 && done == 0 && plane == 7);
    }
}

/* The parts of one frame of three in one buffer changed, at each place and in each buffer. */
static void parts(void) {
    for (size_t k = 0; k < 3; k++)
        for (int b = 0; b < BUFFERS; b++) {
            size_t done, other = (k + 1) % 3;
            convoy c = some_convoy(3, 0, 0), changed;
            segvartin_part *p, whole;
            EXPECT(held(&c, &done).number == SEGVARTIN_FINISHED && done == 3); /* they touch, and the last ends with its buffer */
            changed = c;
            p = part_of(&changed.frames[k], b);
            whole = *part_of(&c.frames[other], b);
            *p = whole; /* the same part twice; of the source that may be, and the frame goes by its own length */
            if (b > 0)
                EXPECT(held(&changed, &done).number == SEGVARTIN_PARTS_MISMATCH && done == 0);
            else
                held(&changed, &done);
            p->length = 0; /* no bytes, within another's: not 18, and too short for its frame */
            EXPECT(held(&changed, &done).number == (b == 0 ? 6u : b == 1 ? 9u : b == 2 ? 10u : 11u) && done == k);
            p->offset = c.len[b];
            EXPECT(held(&changed, &done).number == (b == 0 ? 6u : b == 1 ? 9u : b == 2 ? 10u : 11u) && done == k);
            p->offset = c.len[b] + 1; /* no bytes, past the end */
            EXPECT(held(&changed, &done).number == SEGVARTIN_PARTS_MISMATCH && done == 0);
            p->offset = SIZE_MAX;
            EXPECT(held(&changed, &done).number == SEGVARTIN_PARTS_MISMATCH && done == 0);
            p->length = 2; /* ends at 1, were the sum wrapped */
            EXPECT(held(&changed, &done).number == SEGVARTIN_PARTS_MISMATCH && done == 0);
            p->offset = whole.offset;
            p->length = SIZE_MAX;
            EXPECT(held(&changed, &done).number == SEGVARTIN_PARTS_MISMATCH && done == 0);
            p->offset = 1;
            p->length = SIZE_MAX; /* ends at 0, were the sum wrapped */
            EXPECT(held(&changed, &done).number == SEGVARTIN_PARTS_MISMATCH && done == 0);
            *p = *part_of(&c.frames[k], b);
            changed.len[b]--; /* the buffer one byte shorter: the last part reaches outside */
            EXPECT(held(&changed, &done).number == SEGVARTIN_PARTS_MISMATCH && done == 0);
            changed.len[b]++;
            if (p->offset > 0) { /* one byte into the part before */
                p->offset--;
                EXPECT(held(&changed, &done).number == (b == 0 ? 0u : 18u) && done == (b == 0 ? 3u : 0u));
            }
        }
}

/* Frames onto one source, each with its own window and settings. */
static void one_source(void) {
    convoy c = some_convoy(MOST, 1, 0);
    size_t done;
    for (size_t k = 0; k < MOST; k++) {
        segvartin_convoy_frame *f = &c.frames[k];
        f->options.left = below(12 - f->frame.width);
        f->options.top = below(9 - f->frame.height);
        f->options.source_width = 12;
        f->options.source_height = 9;
        f->stride = 12 * pixel_bytes[f->frame.channels];
        f->source.offset = 0;
        f->source.length = (size_t)9 * f->stride;
    }
    c.len[0] = 9 * 12 * 4;
    EXPECT(held(&c, &done).number == SEGVARTIN_FINISHED && done == MOST);
}

/* Convoys of any kind, good and spoilt. */
static void at_random(int many) {
    static const uint32_t refusals[] = {1, 2, 3, 4, 14, 6, 7, 8, 9, 10, 11};
    for (int i = 0; i < many; i++) {
        convoy c = some_convoy(below(16) == 0 ? below(MOST + 1) : below(7), below(3), (int)below(2));
        size_t done;
        for (uint32_t wrong = below(4); wrong > 1 && c.count > 0; wrong--) {
            segvartin_convoy_frame *f = &c.frames[below((uint32_t)c.count)];
            segvartin_part *p = part_of(f, (int)below(BUFFERS));
            switch (below(8)) {
            case 0: p->offset += below(3); break;
            case 1: p->offset -= below(3); break; /* may wrap */
            case 2: p->length += below(3); break;
            case 3: p->length -= below(3); break;
            case 4: p->length = 0, p->offset = below(40); break;
            default: spoil(f, refusals[below(sizeof refusals / sizeof *refusals)]);
            }
        }
        held(&c, &done);
    }
}

/* The exported call, with less in its lists than its frames need (RULES 10.9): three pixels, the planes of frame k at byte 2 - k. */
static void fewer_numbers(void) {
    static const uint8_t source[9] = {255, 0, 0, 0, 255, 0, 255, 255, 255};
    static const uint32_t one[16] = {3, 1, 1, 0, 0, 1, 0, 0, 1, 1, 1, 0, 0, 0, 1, 1};
    static const struct {
        size_t count, numbers, customs, parts;
        uint32_t matrix; /* of frame 1 */
        uint32_t number;
        size_t expected, received, done;
    } calls[] = {
        {3, 48, 0, 24, 0, 0, 0, 0, 3},  {2, 48, 0, 24, 0, 0, 0, 0, 2},   {0, 48, 0, 24, 0, 0, 0, 0, 0},  {3, 47, 0, 24, 0, 1, 0, 0, 2},
        {3, 33, 0, 24, 0, 1, 0, 0, 2},  {3, 32, 0, 24, 0, 1, 0, 0, 2},   {3, 31, 0, 24, 0, 1, 0, 0, 1},  {3, 0, 0, 24, 0, 1, 0, 0, 0},
        {3, 48, 0, 24, 7, 1, 0, 0, 1},  {3, 48, 0, 24, 6, 4, 0, 0, 1},   {3, 48, 3, 24, 6, 4, 0, 0, 1},  {3, 48, 4, 24, 6, 0, 0, 0, 3},
        {3, 48, 0, 23, 0, 11, 1, 0, 2}, {3, 48, 0, 22, 0, 11, 1, 0, 2},  {3, 48, 0, 21, 0, 10, 1, 0, 2}, {3, 48, 0, 18, 0, 9, 1, 0, 2},
        {3, 48, 0, 16, 0, 6, 3, 0, 2},  {3, 48, 0, 0, 0, 6, 3, 0, 0},    {4, 48, 6, 24, 0, 1, 0, 0, 3},  {64, 48, 6, 24, 0, 1, 0, 0, 3},
        {65, 48, 6, 24, 0, 18, 0, 0, 0}, {SIZE_MAX, 0, 0, 0, 0, 18, 0, 0, 0},
    };
    static const uint8_t left[3][3] = {{0x4c, 0x55, 0xff}, {0x96, 0x2c, 0x15}, {0xff, 0x80, 0x80}}, custom[3] = {0x7f, 0x2b, 0x2b};
    for (size_t i = 0; i < sizeof calls / sizeof *calls; i++) {
        /* Each list ends at a closed page. */
        lent numbers = lend(4 * calls[i].numbers), customs = lend(4 * calls[i].customs), parts = lend(8 * calls[i].parts), planes[3];
        size_t told[3] = {9, 9, 9};
        uint32_t number;
        for (size_t n = 0; n < calls[i].numbers; n++) {
            uint32_t value = n == 16 + 6 ? calls[i].matrix : one[n % 16];
            memcpy(numbers.at + 4 * n, &value, 4);
        }
        for (size_t n = 0; n < calls[i].customs; n++) memcpy(customs.at + 4 * n, &(float){0.25f}, 4);
        for (size_t n = 0; n < calls[i].parts; n++) {
            uint64_t k = n / 8, value = n % 8 == 0 ? 3 * k : n % 8 == 1 ? 3 : n % 2 == 0 ? 2 - k : 1;
            memcpy(parts.at + 8 * n, &value, 8);
        }
        for (int p = 0; p < 3; p++) planes[p] = lend(3);
        number = segvartin_convoy_in_default_mode(calls[i].count, (const uint32_t *)(const void *)numbers.at, calls[i].numbers,
                                                  (const float *)(const void *)customs.at, calls[i].customs, (const uint64_t *)(const void *)parts.at,
                                                  calls[i].parts, source, sizeof source, planes[0].at, 3, planes[1].at, 3, planes[2].at, 3, told);
        EXPECT(number == calls[i].number && told[0] == calls[i].expected && told[1] == calls[i].received && told[2] == calls[i].done);
        for (size_t k = 0; k < 3; k++)
            for (int p = 0; p < 3; p++) {
                const uint8_t *finished = k == 1 && calls[i].matrix == SEGVARTIN_CUSTOM ? custom : left[k];
                EXPECT(planes[p].at[2 - k] == (k < calls[i].done ? finished[p] : (uint8_t)(0xa5 ^ (2 - k))));
            }
        answered[number]++;
        give_back(&numbers);
        give_back(&customs);
        give_back(&parts);
        for (int p = 0; p < 3; p++) give_back(&planes[p]);
    }
}

int main(void) {
    static const uint32_t numbers[] = {0, 1, 2, 3, 4, 14, 6, 7, 8, 9, 10, 11, 12, 18};
    for (closed_before = 0; closed_before < 2; closed_before++) {
        counts();
        places();
        parts();
        one_source();
        at_random(1500);
    }
    closed_before = 0;
    fewer_numbers();
    for (size_t i = 0; i < sizeof numbers / sizeof *numbers; i++) EXPECT(answered[numbers[i]] >= 10);
    return finish("convoy");
}
