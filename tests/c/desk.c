/*
 * A desk for 32 cameras. Each call is held to a plain re-statement of RULES 10.10 and 16.1 to 16.4 over places and the single band call: its answer,
 * every number of the desk, every byte of all five buffers; and each finished frame to one frame call. Every refusal in its order with all later ones
 * true too; the round from every camera; waiting for exactly 32 steps; refused bands; numbers opened again before the next step; parts that touch,
 * overlap, have no bytes or end past 2^64; buffers that are shorter, longer or elsewhere at a later step; desks that no call wrote; and histories at
 * random.
 */
#include "lent.h"

#include "segvartin.h"

__extension__ typedef unsigned __int128 wide;

enum { CAMERAS = SEGVARTIN_CAMERAS, SOURCE = 0, Y, U, V, CARRIED, BUFFERS, ROOM = 4096, REFUSALS = 24, SIDE = 12 };

/* What stands first among the numbers of a camera. */
enum { FREE = 0, OPEN = 1, WAITING = 2 };

static const uint32_t pixel_bytes[4] = {3, 4, 4, 3};

/* How often each number was answered: by an opening, an offer, a step. */
static unsigned long answered[3][REFUSALS];

/* What histories came across. */
static unsigned long finished_frames, reopened, waited_longest, elsewhere, nobody;

static uint32_t random_number(void) {
    static uint64_t state = 88172645463325252u;
    state ^= state << 13;
    state ^= state >> 7;
    state ^= state << 17;
    return (uint32_t)(state >> 32);
}

static uint32_t below(uint32_t n) { return random_number() % n; }

/* ---- the re-statement: what stands at a camera's number (RULES 10.10) */

typedef struct place {
    uint32_t kind, done, rows, stride;
    segvartin_description frame;
    segvartin_options options;
    segvartin_part band;
    segvartin_part parts[BUFFERS]; /* of y, u, v and carried rows; that of the source is not used */
} place;

/* A code, or 0 where it has no meaning. */
static uint32_t code(uint32_t number, uint32_t count) { return number < count ? number : 0; }

static segvartin_part part_at(const uint64_t *numbers) {
    segvartin_part part = {(size_t)numbers[0], (size_t)numbers[1]};
    return part;
}

static place read_place(const segvartin_desk *desk, uint32_t camera) {
    const uint32_t *n = desk->numbers + 19 * camera;
    const uint64_t *parts = desk->parts + 10 * camera;
    place p;
    memset(&p, 0, sizeof p);
    if (n[0] != OPEN && n[0] != WAITING) return p;
    p.kind = n[0];
    p.done = n[1];
    p.frame.width = n[4];
    p.frame.height = n[5];
    p.frame.channels = code(n[6], 4);
    p.frame.sampling = code(n[7], 2);
    p.frame.range = code(n[8], 2);
    p.frame.matrix = code(n[9], 7);
    p.frame.transfer = code(n[10], 4);
    p.frame.y_stride = n[11];
    p.frame.u_stride = n[12];
    p.frame.v_stride = n[13];
    p.options.rounding = code(n[14], 2);
    p.options.left = n[15];
    p.options.top = n[16];
    p.options.source_width = n[17];
    p.options.source_height = n[18];
    if (p.frame.matrix == SEGVARTIN_CUSTOM) {
        memcpy(&p.frame.kr, desk->customs + 2 * camera, 4);
        memcpy(&p.frame.kb, desk->customs + 2 * camera + 1, 4);
    }
    for (int b = Y; b < BUFFERS; b++) p.parts[b] = part_at(parts + 2 * b);
    if (p.kind == WAITING) p.rows = n[2], p.stride = n[3], p.band = part_at(parts);
    return p;
}

static void put_place(segvartin_desk *desk, uint32_t camera, const place *p) {
    const uint32_t numbers[19] = {p->kind,
                                  p->done,
                                  p->rows,
                                  p->stride,
                                  p->frame.width,
                                  p->frame.height,
                                  p->frame.channels,
                                  p->frame.sampling,
                                  p->frame.range,
                                  p->frame.matrix,
                                  p->frame.transfer,
                                  p->frame.y_stride,
                                  p->frame.u_stride,
                                  p->frame.v_stride,
                                  p->options.rounding,
                                  p->options.left,
                                  p->options.top,
                                  p->options.source_width,
                                  p->options.source_height};
    memcpy(desk->numbers + 19 * camera, numbers, sizeof numbers);
    memcpy(desk->customs + 2 * camera, &p->frame.kr, 4);
    memcpy(desk->customs + 2 * camera + 1, &p->frame.kb, 4);
    for (int b = SOURCE; b < BUFFERS; b++) {
        const segvartin_part *part = b == SOURCE ? &p->band : &p->parts[b];
        desk->parts[10 * camera + 2 * (uint32_t)b] = part->offset;
        desk->parts[10 * camera + 2 * (uint32_t)b + 1] = part->length;
    }
}

static int is_nan(const float *x) {
    uint32_t bits;
    memcpy(&bits, x, 4);
    return (bits & 0x7fffffff) > 0x7f800000;
}

/* Number for number; a NaN may be another. */
static int same_desk(const segvartin_desk *a, const segvartin_desk *b) {
    for (size_t i = 0; i < 2 * CAMERAS; i++)
        if (memcmp(a->customs + i, b->customs + i, 4) != 0 && !(is_nan(a->customs + i) && is_nan(b->customs + i))) return 0;
    return memcmp(a->numbers, b->numbers, sizeof a->numbers) == 0 && memcmp(a->parts, b->parts, sizeof a->parts) == 0;
}

/* ---- a desk, its buffers, and what its cameras were given so far */

typedef struct scene {
    segvartin_desk desk;
    uint8_t bytes[BUFFERS][ROOM];
    size_t len[BUFFERS];
    uint8_t rows_of[CAMERAS][SIDE * SIDE * 4]; /* the source of the frame of each camera, as far as its bands were accepted */
    unsigned steps_waited[CAMERAS];
    int handed_on; /* begun with all zeros, and each call had it as the call before left it */
} scene;

/* Memory for each buffer that ends, or begins, at a closed page, however much of it is lent; and for the desk, as a struct and as three arrays. */
static lent room[BUFFERS], desk_room, array_rooms[3];

static uint8_t *at_edge(const lent *b, size_t len) { return closed_before ? b->at : b->at + b->len - len; }

static void make_rooms(void) {
    for (int b = 0; b < BUFFERS; b++) room[b] = lend(ROOM);
    desk_room = lend(sizeof(segvartin_desk));
    array_rooms[0] = lend(4 * 609);
    array_rooms[1] = lend(4 * 64);
    array_rooms[2] = lend(8 * 320);
}

static void give_rooms_back(void) {
    for (int b = 0; b < BUFFERS; b++) give_back(&room[b]);
    give_back(&desk_room);
    for (int i = 0; i < 3; i++) give_back(&array_rooms[i]);
}

/* The desk into three arrays of their own, and back. */
static void apart(const segvartin_desk *desk) {
    memcpy(array_rooms[0].at, desk->numbers, sizeof desk->numbers);
    memcpy(array_rooms[1].at, desk->customs, sizeof desk->customs);
    memcpy(array_rooms[2].at, desk->parts, sizeof desk->parts);
}

static void together(segvartin_desk *desk) {
    memcpy(desk->numbers, array_rooms[0].at, sizeof desk->numbers);
    memcpy(desk->customs, array_rooms[1].at, sizeof desk->customs);
    memcpy(desk->parts, array_rooms[2].at, sizeof desk->parts);
}

static uint32_t *numbers_apart(void) { return (uint32_t *)(void *)array_rooms[0].at; }
static float *customs_apart(void) { return (float *)(void *)array_rooms[1].at; }
static uint64_t *parts_apart(void) { return (uint64_t *)(void *)array_rooms[2].at; }

/* By turns the struct and the arrays. */
static int by_arrays(void) {
    static unsigned long calls;
    return ++calls % 2 == 0;
}

static int is_outside(segvartin_part part, size_t len) { return (wide)part.offset + part.length > len; }

/* Whether some byte is in both. */
static int overlap(segvartin_part a, segvartin_part b) {
    wide end_a = (wide)a.offset + a.length, end_b = (wide)b.offset + b.length;
    return (a.offset > b.offset ? a.offset : b.offset) < (end_a < end_b ? end_a : end_b);
}

/* What an opening is given. */
typedef struct opening {
    segvartin_description frame;
    segvartin_options options;
    segvartin_part parts[BUFFERS];
} opening;

static int has_meaning(const opening *o) {
    const segvartin_description *d = &o->frame;
    return d->channels < 4 && d->sampling < 2 && d->range < 2 && d->matrix < 7 && d->transfer < 4 && o->options.rounding < 2;
}

static uint32_t expected_opening(segvartin_desk *desk, uint32_t camera, const opening *o, const size_t len[BUFFERS]) {
    segvartin_state_with state;
    segvartin_answer a;
    place p;
    if (camera >= CAMERAS) return 21;
    if (read_place(desk, camera).kind != FREE) return 23;
    for (int b = Y; b < BUFFERS; b++) {
        if (is_outside(o->parts[b], len[b])) return 18;
        for (uint32_t other = 0; other < CAMERAS; other++) {
            place q = read_place(desk, other);
            if (q.kind != FREE && overlap(o->parts[b], q.parts[b])) return 18;
        }
    }
    if (!has_meaning(o)) return 1;
    a = segvartin_open_frame_with(&state, &o->frame, &o->options);
    EXPECT(a.expected == 0 && a.received == 0);
    if (a.number != 0) return a.number;
    memset(&p, 0, sizeof p);
    p.kind = OPEN;
    p.frame = o->frame;
    p.options = o->options;
    if (p.frame.matrix != SEGVARTIN_CUSTOM) p.frame.kr = p.frame.kb = 0;
    memcpy(p.parts, o->parts, sizeof p.parts);
    put_place(desk, camera, &p);
    return 0;
}

/* An opening, held to the re-statement. Tells its answer. */
static uint32_t opens(scene *s, uint32_t camera, const opening *o) {
    segvartin_desk expected = s->desk;
    const uint32_t number = expected_opening(&expected, camera, o, s->len);
    const segvartin_desk_parts parts = {o->parts[Y], o->parts[U], o->parts[V], o->parts[CARRIED]};
    const segvartin_desk_lengths lengths = {s->len[Y], s->len[U], s->len[V], s->len[CARRIED]};
    segvartin_answer a = {99, 99, 99};
    if (by_arrays()) {
        const float custom[2] = {o->frame.kr, o->frame.kb};
        const uint64_t lens[4] = {lengths.y, lengths.u, lengths.v, lengths.carried};
        lent described = lend(15 * 4);
        uint8_t *at;
        uint32_t numbers[15];
        uint64_t frame_parts[8];
        size_t told[2] = {99, 99}, count = 15;
        segvartin_put_numbers(numbers, &o->frame, &o->options);
        /* where the description says no more than its first numbers, these may be all */
        if (numbers[11] == 0 && numbers[12] == 0 && numbers[13] == numbers[0] && numbers[14] == numbers[1])
            count = numbers[10] == 0 && below(2) ? 10 : 11;
        at = at_edge(&described, 4 * count);
        memcpy(at, numbers, 4 * count);
        for (int b = Y; b < BUFFERS; b++) segvartin_put_part(frame_parts + 2 * (b - Y), o->parts[b]);
        apart(&s->desk);
        a.number = segvartin_desk_open_in_default_mode(camera, (const uint32_t *)(const void *)at, count, custom, frame_parts, lens, numbers_apart(),
                                                       customs_apart(), parts_apart(), told);
        a.expected = told[0];
        a.received = told[1];
        together(&s->desk);
        give_back(&described);
    } else {
        segvartin_desk *desk = (segvartin_desk *)(void *)desk_room.at;
        *desk = s->desk;
        a = segvartin_desk_open(desk, camera, &o->frame, &o->options, &parts, &lengths);
        s->desk = *desk;
    }
    EXPECT(a.number == number && a.expected == 0 && a.received == 0 && same_desk(&s->desk, &expected));
    if (a.number == 0) memset(s->rows_of[camera], 0x11, sizeof s->rows_of[camera]);
    answered[0][a.number]++;
    return a.number;
}

static uint32_t expected_offer(segvartin_desk *desk, uint32_t camera, uint32_t rows, uint32_t stride, segvartin_part band, size_t len) {
    place p;
    if (camera >= CAMERAS) return 21;
    p = read_place(desk, camera);
    if (p.kind == FREE) return 21;
    if (p.kind == WAITING) return 22;
    if (is_outside(band, len)) return 18;
    p.kind = WAITING;
    p.rows = rows;
    p.stride = stride;
    p.band = band;
    put_place(desk, camera, &p);
    return 0;
}

static uint32_t offers(scene *s, uint32_t camera, uint32_t rows, uint32_t stride, segvartin_part band) {
    segvartin_desk expected = s->desk;
    const uint32_t number = expected_offer(&expected, camera, rows, stride, band, s->len[SOURCE]);
    segvartin_answer a = {99, 0, 0};
    if (by_arrays()) {
        const uint32_t numbers[2] = {rows, stride};
        const uint64_t at[3] = {band.offset, band.length, s->len[SOURCE]};
        apart(&s->desk);
        a.number = segvartin_call_desk_offer(camera, numbers, at, numbers_apart(), customs_apart(), parts_apart());
        together(&s->desk);
    } else {
        segvartin_desk *desk = (segvartin_desk *)(void *)desk_room.at;
        *desk = s->desk;
        a = segvartin_desk_offer(desk, camera, rows, stride, band, s->len[SOURCE]);
        s->desk = *desk;
    }
    EXPECT(a.number == number && a.expected == 0 && a.received == 0 && same_desk(&s->desk, &expected));
    if (a.number == 0) s->steps_waited[camera] = 0;
    answered[1][a.number]++;
    return a.number;
}

/* The camera whose turn it is, or CAMERAS. */
static uint32_t next_camera(const segvartin_desk *desk) {
    for (uint32_t asked = 0; asked < CAMERAS; asked++) {
        uint32_t camera = (desk->numbers[608] % CAMERAS + asked) % CAMERAS;
        if (read_place(desk, camera).kind == WAITING) return camera;
    }
    return CAMERAS;
}

/* The band call, on copies of the parts: a call of its own, that sees no shared buffer. */
static segvartin_answer band_alone(place *p, uint8_t bytes[BUFFERS][ROOM], const size_t len[BUFFERS]) {
    static uint8_t copies[BUFFERS][ROOM];
    segvartin_answer a = {18, 0, 0};
    segvartin_bytes_mut lent_bytes[BUFFERS];
    segvartin_state_with state;
    if (is_outside(p->band, len[SOURCE])) return a;
    for (int b = Y; b < BUFFERS; b++)
        if (is_outside(p->parts[b], len[b])) return a;
    p->parts[SOURCE] = p->band;
    for (int b = SOURCE; b < BUFFERS; b++) {
        memcpy(copies[b], bytes[b] + p->parts[b].offset, p->parts[b].length);
        lent_bytes[b].at = copies[b];
        lent_bytes[b].len = p->parts[b].length;
    }
    memset(&state, 0, sizeof state);
    state.frame = p->frame;
    state.options = p->options;
    state.done = p->done;
    a = segvartin_convert_band_with(&state, p->rows, segvartin_read_only(lent_bytes[SOURCE]), p->stride, lent_bytes[Y], lent_bytes[U], lent_bytes[V],
                                    lent_bytes[CARRIED]);
    p->done = state.done;
    for (int b = Y; b < BUFFERS && a.number == 0; b++) memcpy(bytes[b] + p->parts[b].offset, copies[b], p->parts[b].length);
    return a;
}

/* Puts the rows of an accepted band where they stand in the source of its frame. */
static void put_rows(scene *s, uint32_t camera, const place *p) {
    const size_t row = (size_t)p->options.source_width * pixel_bytes[p->frame.channels];
    for (uint32_t r = 0; r < p->rows; r++)
        memcpy(s->rows_of[camera] + (p->options.top + p->done + r) * row, s->bytes[SOURCE] + p->band.offset + (size_t)r * p->stride, row);
}

/* The planes of a finished frame are those of one frame call on the rows of its accepted bands. */
static void as_one_frame(const scene *s, uint32_t camera, const place *p) {
    static uint8_t planes[3][ROOM];
    const uint32_t row = p->options.source_width * pixel_bytes[p->frame.channels];
    const uint32_t widths[3] = {p->frame.width, (p->frame.width + 1) / 2, (p->frame.width + 1) / 2};
    const uint32_t strides[3] = {p->frame.y_stride, p->frame.u_stride, p->frame.v_stride};
    segvartin_bytes source = {s->rows_of[camera], (size_t)row * p->options.source_height};
    segvartin_bytes_mut lent_planes[3];
    segvartin_answer a;
    for (int i = 0; i < 3; i++) {
        lent_planes[i].at = planes[i];
        lent_planes[i].len = p->parts[Y + i].length;
    }
    a = segvartin_convert_frame_with(&p->frame, &p->options, source, row, lent_planes[0], lent_planes[1], lent_planes[2]);
    EXPECT(a.number == 0);
    for (int i = 0; i < 3; i++)
        for (size_t at = 0; at < p->parts[Y + i].length; at += strides[i])
            EXPECT(memcmp(planes[i] + at, s->bytes[Y + i] + p->parts[Y + i].offset + at, widths[i]) == 0);
    finished_frames++;
}

static segvartin_bytes_mut lent_part(int b, size_t len) {
    segvartin_bytes_mut bytes = {at_edge(&room[b], len), len};
    return bytes;
}

/* A step, with buffers of these lengths lent, held to the re-statement. Tells its answer. */
static segvartin_desk_answer steps(scene *s, const size_t len[BUFFERS]) {
    static uint8_t bytes[BUFFERS][ROOM];
    segvartin_desk expected = s->desk;
    segvartin_desk_answer a = {99, 99, 99, 99, 99};
    segvartin_answer e = {0, 0, 0};
    segvartin_bytes_mut l[BUFFERS];
    const uint32_t camera = next_camera(&expected);
    place p, before;
    memset(&before, 0, sizeof before);
    memcpy(bytes, s->bytes, sizeof bytes);
    if (camera < CAMERAS) {
        before = p = read_place(&expected, camera);
        e = band_alone(&p, bytes, len);
        p.kind = OPEN;
        p.rows = p.stride = 0;
        p.band.offset = p.band.length = 0;
        if (p.done >= p.frame.height) memset(&p, 0, sizeof p);
        put_place(&expected, camera, &p);
        expected.numbers[608] = (camera + 1) % CAMERAS;
        for (uint32_t c = 0; c < CAMERAS; c++)
            if (read_place(&s->desk, c).kind == WAITING) s->steps_waited[c]++;
    }
    for (int b = 0; b < BUFFERS; b++) {
        l[b] = lent_part(b, len[b]);
        memcpy(l[b].at, s->bytes[b], len[b]);
    }
    if (by_arrays()) {
        size_t told[4] = {99, 99, 99, 99};
        apart(&s->desk);
        a.number = segvartin_desk_step_in_default_mode(l[SOURCE].at, len[SOURCE], l[Y].at, len[Y], l[U].at, len[U], l[V].at, len[V], l[CARRIED].at,
                                                       len[CARRIED], numbers_apart(), customs_apart(), parts_apart(), told);
        a.expected = told[0];
        a.received = told[1];
        a.served = (int)told[2];
        a.camera = (uint32_t)told[3];
        together(&s->desk);
    } else {
        segvartin_desk *desk = (segvartin_desk *)(void *)desk_room.at;
        *desk = s->desk;
        a = segvartin_desk_step(desk, segvartin_read_only(l[SOURCE]), l[Y], l[U], l[V], l[CARRIED]);
        s->desk = *desk;
    }
    EXPECT(a.number == e.number && a.expected == e.expected && a.received == e.received);
    EXPECT(a.served == (camera < CAMERAS) && a.camera == (camera < CAMERAS ? camera : 0));
    EXPECT(same_desk(&s->desk, &expected));
    for (int b = 0; b < BUFFERS; b++) EXPECT(memcmp(l[b].at, bytes[b], len[b]) == 0);
    memcpy(s->bytes, bytes, sizeof bytes);
    answered[2][a.number]++;
    if (camera == CAMERAS) {
        nobody++;
        return a;
    }
    if (s->handed_on) {
        EXPECT(s->steps_waited[camera] <= CAMERAS);
        waited_longest += s->steps_waited[camera] == CAMERAS;
        if (a.number == 0) {
            put_rows(s, camera, &before);
            if (read_place(&s->desk, camera).kind == FREE) as_one_frame(s, camera, &before);
        }
    }
    return a;
}

/* ---- frames and scenes */

/* A small frame of any settings, with a window or without; its parts have their lengths, and stand nowhere yet. */
static opening some_frame(void) {
    opening o;
    segvartin_description *d = &o.frame;
    uint32_t rows;
    memset(&o, 0, sizeof o);
    d->width = 1 + below(6);
    d->height = 1 + below(5);
    d->channels = below(4);
    d->sampling = below(2);
    d->range = below(2);
    d->matrix = below(7);
    d->transfer = below(4);
    d->kr = 0.25f;
    d->kb = 0.0625f;
    d->y_stride = d->width + below(3);
    d->u_stride = (d->width + 1) / 2 + below(3);
    d->v_stride = (d->width + 1) / 2 + below(3);
    o.options = segvartin_options_of(d);
    o.options.rounding = below(2);
    if (below(2)) {
        o.options.left = below(3);
        o.options.top = below(3);
        o.options.source_width = o.options.left + d->width + below(3);
        o.options.source_height = o.options.top + d->height + below(3);
    }
    rows = d->sampling == SEGVARTIN_YUV420 ? (d->height + 1) / 2 : d->height;
    o.parts[Y].length = (size_t)d->y_stride * d->height;
    o.parts[U].length = (size_t)d->u_stride * rows;
    o.parts[V].length = (size_t)d->v_stride * rows;
    o.parts[CARRIED].length = 3 * (size_t)d->width + below(3);
    return o;
}

static void begin(scene *s, size_t len) {
    memset(s, 0, sizeof *s);
    for (int b = 0; b < BUFFERS; b++) {
        s->len[b] = len;
        for (size_t i = 0; i < ROOM; i++) s->bytes[b][i] = (uint8_t)random_number();
    }
    s->handed_on = 1;
}

/* The frame in a slot of its own in each buffer: that of camera k of so many bytes. */
static opening in_slot(opening o, uint32_t k) {
    for (int b = Y; b < BUFFERS; b++) o.parts[b].offset = (size_t)k * (ROOM / CAMERAS);
    return o;
}

static uint32_t least_stride(const place *p) { return p->options.source_width * pixel_bytes[p->frame.channels]; }

/* Offers the next rows of the camera's frame, as many as these or as remain, anywhere in the source. */
static uint32_t offer_rows(scene *s, uint32_t camera, uint32_t rows) {
    place p = read_place(&s->desk, camera);
    uint32_t left = p.frame.height - p.done, stride = least_stride(&p) + below(3);
    segvartin_part band;
    if (rows > left) rows = left;
    band.length = (size_t)rows * stride;
    band.offset = below((uint32_t)(s->len[SOURCE] - band.length + 1));
    return offers(s, camera, rows, stride, band);
}

/* ---- what each call refuses, in its order */

/* Opening by opening one more is put right, from the first refusal of the order on; all behind it hold still. */
static void refused_openings(void) {
    static const uint32_t order[] = {21, 23, 18, 1, 2, 3, 4, 14, 0};
    static const uint32_t above[] = {32, 33, 63, 64, 0x80000000u, 4294967295u};
    for (uint32_t camera = 0; camera < CAMERAS; camera++)
        for (int b = Y; b < BUFFERS; b++) {
            scene s;
            begin(&s, ROOM);
            EXPECT(opens(&s, camera, &(opening){.frame = {.width = 1, .height = 1}, .options = {.source_width = 1, .source_height = 1}}) == 0);
            for (size_t right = 0; right < sizeof order / sizeof *order; right++) {
                opening o = in_slot(some_frame(), 0);
                if (right < 8) o.options.left = SEGVARTIN_MAX_SIDE + 9;
                if (right < 7) o.frame.matrix = SEGVARTIN_CUSTOM, o.frame.kb = -0.25f;
                if (right < 6) o.options.source_height = SEGVARTIN_MAX_SIDE + 1;
                if (right < 5) *(below(2) ? &o.frame.width : &o.frame.height) = 0;
                if (right < 4) *(below(2) ? &o.frame.transfer : &o.options.rounding) = 4 + below(2);
                if (right < 3) o.parts[b].length = ROOM + 1;
                EXPECT(opens(&s, right == 0 ? above[below(6)] : right == 1 ? camera : (camera + 1 + below(31)) % CAMERAS, &o) == order[right]);
            }
        }
    /* counts of numbers that no description has */
    for (size_t count = 0; count <= 20; count++) {
        static const uint32_t numbers[20] = {1, 1, 0, 0, 0, 0, 0, 1, 1, 1, 0, 0, 0, 1, 1};
        static const uint64_t frame_parts[8], lens[4];
        const float custom[2] = {0, 0};
        size_t told[2] = {9, 9};
        segvartin_desk desk = {{0}, {0}, {0}}, before = desk;
        uint32_t number =
            segvartin_desk_open_in_default_mode(7, numbers, count, custom, frame_parts, lens, desk.numbers, desk.customs, desk.parts, told);
        EXPECT(number == (count == 10 || count == 11 || count == 15 ? 0 : 1) && told[0] == 0 && told[1] == 0);
        EXPECT(same_desk(&desk, &before) == (number != 0));
        answered[0][number]++;
    }
}

static void refused_offers(void) {
    const segvartin_part outside = {ROOM, 1}, inside = {ROOM, 0};
    for (uint32_t camera = 0; camera < CAMERAS; camera++) {
        opening o = in_slot(some_frame(), camera);
        scene s;
        begin(&s, ROOM);
        for (uint32_t c = 0; c < CAMERAS; c++) EXPECT(offers(&s, c, 0, 0, outside) == 21);
        EXPECT(opens(&s, camera, &o) == 0);
        EXPECT(offers(&s, camera + CAMERAS, 0, 0, outside) == 21 && offers(&s, 4294967295u, 0, 0, inside) == 21);
        EXPECT(offers(&s, (camera + 1) % CAMERAS, 0, 0, outside) == 21);
        EXPECT(offers(&s, camera, 0, 0, outside) == 18);
        EXPECT(offers(&s, camera, 0, 0, inside) == 0); /* its rows and its stride are its step's to ask */
        EXPECT(offers(&s, camera, 0, 0, outside) == 22 && offers(&s, camera, 1, 1, inside) == 22);
        EXPECT(offers(&s, camera + CAMERAS, 0, 0, outside) == 21 && offers(&s, camera + 2 * CAMERAS, 1, 1, inside) == 21);
        EXPECT(opens(&s, camera, &o) == 23);
        EXPECT(steps(&s, s.len).number == 5);
        EXPECT(offer_rows(&s, camera, 5) == 0 && steps(&s, s.len).number == 0);
        EXPECT(offers(&s, camera, 0, 0, outside) == 21); /* behind its last row */
    }
}

/* As for openings. 2, 3, 4 and 14 can hold at a step only in a desk that no call wrote. */
static void refused_bands(void) {
    static const uint32_t order[] = {18, 2, 3, 4, 14, 5, 6, 7, 8, 9, 10, 11, 12, 13, 0};
    for (int turn = 0; turn < 64; turn++)
        for (size_t right = 0; right < sizeof order / sizeof *order; right++) {
            const uint32_t camera = below(CAMERAS), sampling = below(2);
            opening o = some_frame();
            scene s;
            place p;
            segvartin_desk_answer a;
            uint32_t rows;
            begin(&s, ROOM);
            s.handed_on = 0;
            memset(&p, 0, sizeof p);
            p.kind = WAITING;
            p.frame = o.frame;
            p.options = o.options;
            memcpy(p.parts, o.parts, sizeof p.parts);
            p.frame.width = 4, p.frame.height = 4, p.frame.sampling = sampling;
            p.frame.y_stride = 4, p.frame.u_stride = p.frame.v_stride = 2;
            p.options = segvartin_options_of(&p.frame);
            rows = sampling == SEGVARTIN_YUV420 ? 2 : 4;
            p.done = below(3), p.rows = 2, p.stride = least_stride(&p);
            p.band.length = 2 * (size_t)p.stride;
            p.parts[Y].length = 16, p.parts[U].length = p.parts[V].length = 2 * rows, p.parts[CARRIED].length = 12;
            for (int b = Y; b < BUFFERS; b++) p.parts[b].offset = below(100);
            if (right < 14) p.parts[CARRIED].length = 11;
            if (right < 13) p.parts[V].length++;
            if (right < 12) p.parts[V].length = 2 * rows - 1;
            if (right < 11) p.parts[U].length = 2 * rows - 1;
            if (right < 10) p.parts[Y].length = 15;
            if (right < 9) p.frame.y_stride = 3;
            if (right < 8) p.stride--, p.band.length = 2 * (size_t)p.stride + 1;
            if (right < 7) p.band.length = p.stride;
            if (right < 6) p.rows = below(2) ? 0 : 5 - p.done;
            if (right < 5) p.options.top = 1;
            if (right < 4) p.frame.matrix = SEGVARTIN_CUSTOM, p.frame.kr = 0.75f;
            if (right < 3) p.options.source_width = SEGVARTIN_MAX_SIDE + 1;
            if (right < 2) p.frame.width = 0;
            if (right < 1) p.parts[Y + below(4)].offset = ROOM;
            if (p.frame.matrix != SEGVARTIN_CUSTOM) p.frame.kr = p.frame.kb = 0;
            put_place(&s.desk, camera, &p);
            s.desk.numbers[608] = random_number();
            a = steps(&s, s.len);
            EXPECT(a.number == order[right] && a.served == 1 && a.camera == camera);
            EXPECT((a.expected != 0 || a.received != 0) == (a.number >= 6 && a.number <= 13));
            EXPECT(steps(&s, s.len).served == 0);
        }
}

/* ---- turns */

/* All 32 cameras, each with a frame of so many rows. */
static void all_open(scene *s, uint32_t height) {
    begin(s, ROOM);
    for (uint32_t c = 0; c < CAMERAS; c++) {
        opening o = some_frame();
        o.frame.height = height;
        o.options = segvartin_options_of(&o.frame);
        o.parts[Y].length = (size_t)o.frame.y_stride * height;
        o.parts[U].length = (size_t)o.frame.u_stride * (o.frame.sampling == SEGVARTIN_YUV420 ? (height + 1) / 2 : height);
        o.parts[V].length = (size_t)o.frame.v_stride * (o.frame.sampling == SEGVARTIN_YUV420 ? (height + 1) / 2 : height);
        o = in_slot(o, c);
        EXPECT(opens(s, c, &o) == 0);
    }
}

/* The first round goes from 0 on, whoever offered first; later ones from behind the camera last served. */
static void rounds(void) {
    for (uint32_t last = 0; last < CAMERAS; last++) {
        scene s;
        segvartin_desk_answer a;
        all_open(&s, 3);
        for (uint32_t c = CAMERAS; c-- > 0;) EXPECT(offer_rows(&s, c, 1) == 0);
        for (uint32_t c = 0; c < CAMERAS; c++) {
            a = steps(&s, s.len);
            EXPECT(a.number == 0 && a.served == 1 && a.camera == c);
        }
        EXPECT(steps(&s, s.len).served == 0);
        EXPECT(offer_rows(&s, last, 1) == 0);
        a = steps(&s, s.len);
        EXPECT(a.served == 1 && a.camera == last);
        EXPECT(steps(&s, s.len).served == 0); /* nobody waits, and nobody else is asked first for it */
        for (uint32_t c = 0; c < CAMERAS; c++) EXPECT(offer_rows(&s, c, 1) == 0);
        for (uint32_t c = 1; c <= CAMERAS; c++) {
            a = steps(&s, s.len);
            EXPECT(a.number == 0 && a.served == 1 && a.camera == (last + c) % CAMERAS);
        }
        EXPECT(steps(&s, s.len).served == 0);
    }
}

/* A camera that offers right behind its step, while all others wait and offer again as soon as they may, is served at the 32nd step and no sooner. */
static void exactly_32_steps(void) {
    for (uint32_t camera = 0; camera < CAMERAS; camera++) {
        scene s;
        uint32_t waited = 0;
        all_open(&s, 5);
        for (uint32_t c = 0; c < CAMERAS; c++) EXPECT(offer_rows(&s, c, 1) == 0);
        while (steps(&s, s.len).camera != camera) {}
        for (uint32_t c = 0; c < CAMERAS; c++)
            if (read_place(&s.desk, c).kind == OPEN) EXPECT(offer_rows(&s, c, 1) == 0);
        for (;;) {
            segvartin_desk_answer a = steps(&s, s.len);
            waited++;
            EXPECT(a.served == 1);
            if (a.camera == camera) break;
            EXPECT(offer_rows(&s, a.camera, 1) == 0);
        }
        EXPECT(waited == 32);
    }
}

/* A band refused at its step uses the step and is dropped, and the next camera is asked; its frame goes on where it was. */
static void refused_at_its_step(void) {
    static const uint32_t numbers[] = {5, 6, 7, 18};
    for (uint32_t first = 0; first < CAMERAS; first++)
        for (size_t i = 0; i < sizeof numbers / sizeof *numbers; i++) {
            const uint32_t cameras[3] = {first, (first + 1 + below(10)) % CAMERAS, (first + 11 + below(20)) % CAMERAS};
            const segvartin_part some = {3, 64}, none = {0, 0};
            scene s;
            segvartin_desk_answer a;
            size_t shorter[BUFFERS];
            all_open(&s, 4);
            s.desk.numbers[608] = first;
            memcpy(shorter, s.len, sizeof shorter);
            for (int c = 0; c < 3; c++) EXPECT(offer_rows(&s, cameras[c], 1) == 0);
            a = steps(&s, s.len);
            EXPECT(a.number == 0 && a.camera == cameras[0]);
            a = steps(&s, s.len);
            EXPECT(a.number == 0 && a.camera == cameras[1]);
            if (numbers[i] == 18) shorter[SOURCE] = 66;
            EXPECT(offers(&s, cameras[1], numbers[i] == 5 ? 4 : 1, 1, numbers[i] == 6 ? none : some) == 0);
            a = steps(&s, s.len);
            EXPECT(a.number == 0 && a.camera == cameras[2]);
            EXPECT(offer_rows(&s, cameras[0], 1) == 0 && offer_rows(&s, cameras[2], 1) == 0);
            a = steps(&s, s.len);
            EXPECT(a.number == 0 && a.camera == cameras[0]);
            a = steps(&s, shorter);
            EXPECT(a.number == numbers[i] && a.served == 1 && a.camera == cameras[1]);
            EXPECT(offer_rows(&s, cameras[1], 1) == 0); /* the last one waits no more */
            a = steps(&s, s.len);
            EXPECT(a.number == 0 && a.camera == cameras[2]);
            a = steps(&s, s.len);
            EXPECT(a.number == 0 && a.camera == cameras[1]);
            EXPECT(read_place(&s.desk, cameras[1]).done == 2 && steps(&s, s.len).served == 0);
        }
}

/* The number of a finished frame is opened again before the next step, on the same parts too, and by another camera. */
static void freed_numbers(void) {
    for (uint32_t camera = 0; camera < CAMERAS; camera++) {
        scene s;
        opening o = in_slot(some_frame(), 3), p;
        const uint32_t other = (camera + 1 + below(31)) % CAMERAS;
        begin(&s, ROOM);
        for (uint32_t again = 0; again < 3; again++) {
            EXPECT(opens(&s, camera, &o) == 0);
            EXPECT(opens(&s, camera, &o) == 23 && opens(&s, other, &o) == 18);
            for (uint32_t row = 0; row < o.frame.height; row++) {
                EXPECT(offer_rows(&s, camera, 1) == 0);
                EXPECT(opens(&s, camera, &o) == 23 && opens(&s, other, &o) == 18);
                EXPECT(steps(&s, s.len).number == 0);
            }
            EXPECT(read_place(&s.desk, camera).kind == FREE && s.desk.numbers[608] == (camera + 1) % CAMERAS);
        }
        EXPECT(opens(&s, other, &o) == 0);
        p = in_slot(some_frame(), 9);
        EXPECT(opens(&s, camera, &o) == 18 && opens(&s, camera, &p) == 0);
    }
}

/* ---- parts */

/* The parts of one frame of three in one buffer changed, at each number and in each buffer. */
static void parts(void) {
    for (uint32_t k = 0; k < 3; k++)
        for (int b = Y; b < BUFFERS; b++) {
            static const uint32_t cameras[3] = {0, 17, 31};
            const size_t each = ROOM / 4;
            scene empty, s;
            opening o[3];
            segvartin_part *p, other;
            begin(&empty, 3 * each);
            for (uint32_t i = 0; i < 3; i++) {
                o[i] = some_frame();
                for (int c = Y; c < BUFFERS; c++) o[i].parts[c].offset = i * each, o[i].parts[c].length = each;
            }
            for (uint32_t i = 0; i < 3; i++)
                if (i != k) EXPECT(opens(&empty, cameras[i], &o[i]) == 0);
            p = &o[k].parts[b];
            other = o[(k + 1) % 3].parts[b];
            s = empty; /* they touch, and the last ends with its buffer */
            EXPECT(opens(&s, cameras[k], &o[k]) == 0);
            s = empty, *p = other; /* the same part twice */
            EXPECT(opens(&s, cameras[k], &o[k]) == 18);
            p->length = 1; /* its first byte */
            EXPECT(opens(&s, cameras[k], &o[k]) == 18);
            p->offset += each - 1; /* its last byte */
            EXPECT(opens(&s, cameras[k], &o[k]) == 18);
            p->offset = other.offset + 9, p->length = 0; /* no bytes, within another's */
            EXPECT(opens(&s, cameras[k], &o[k]) == 0);
            s = empty, p->offset = 3 * each; /* no bytes, at the end */
            EXPECT(opens(&s, cameras[k], &o[k]) == 0);
            s = empty, p->offset = 3 * each + 1; /* and past it */
            EXPECT(opens(&s, cameras[k], &o[k]) == 18);
            p->offset = SIZE_MAX;
            EXPECT(opens(&s, cameras[k], &o[k]) == 18);
            p->length = 2; /* ends at 1, were the sum wrapped */
            EXPECT(opens(&s, cameras[k], &o[k]) == 18);
            p->offset = 1, p->length = SIZE_MAX; /* ends at 0, were the sum wrapped */
            EXPECT(opens(&s, cameras[k], &o[k]) == 18);
            p->offset = k * each, p->length = each + 1; /* one byte into the next part, or past the end */
            EXPECT(opens(&s, cameras[k], &o[k]) == 18);
            p->length = each;
            if (k > 0) { /* one byte into the part before */
                p->offset--;
                EXPECT(opens(&s, cameras[k], &o[k]) == 18);
                p->offset++;
            }
            s.len[b] = (k + 1) * each - 1; /* a buffer that ends one byte before it */
            EXPECT(opens(&s, cameras[k], &o[k]) == 18);
            s.len[b] = (k + 1) * each; /* the other frames' parts may be outside */
            EXPECT(opens(&s, cameras[k], &o[k]) == 0);
            s = empty, s.len[b] = SIZE_MAX; /* an end of 2^64, which is no length */
            p->offset = SIZE_MAX - 4, p->length = 5;
            EXPECT(opens(&s, cameras[k], &o[k]) == 18);
            p->length = 4;
            EXPECT(opens(&s, cameras[k], &o[k]) == 0);
        }
    /* parts of different buffers are not held against each other, neither within a frame nor between two */
    for (int b = Y; b < BUFFERS; b++) {
        scene s;
        opening one = some_frame(), two = some_frame();
        begin(&s, ROOM);
        for (int c = Y; c < BUFFERS; c++) {
            one.parts[c].offset = c == b ? 0 : 100, one.parts[c].length = 100;
            two.parts[c].offset = c == b ? 100 : 0, two.parts[c].length = 100;
        }
        EXPECT(opens(&s, 5, &one) == 0 && opens(&s, 4, &two) == 0);
    }
}

/* The part of a band, at its offer and at its step. */
static void bands_of_source(void) {
    static const struct {
        size_t offset, length;
        uint32_t number;
    } offered[] = {
        {0, ROOM, 0},     {ROOM, 0, 0},        {ROOM + 1, 0, 18},     {ROOM, 1, 18},         {1, ROOM, 18},
        {SIZE_MAX, 2, 18}, {SIZE_MAX, 0, 18}, {1, SIZE_MAX, 18}, {0, SIZE_MAX, 18}, {SIZE_MAX, SIZE_MAX, 18},
    };
    for (size_t i = 0; i < sizeof offered / sizeof *offered; i++) {
        scene s;
        segvartin_part band = {offered[i].offset, offered[i].length};
        opening o = in_slot(some_frame(), 1);
        begin(&s, ROOM);
        EXPECT(opens(&s, 1, &o) == 0);
        EXPECT(offers(&s, 1, 1, 1, band) == offered[i].number);
        steps(&s, s.len);
        band.length = 1, band.offset = 0;
        s.len[SOURCE] = SIZE_MAX; /* said, and not lent */
        EXPECT(offers(&s, 1, 1, 1, band) == 0);
    }
}

/* Each buffer one byte shorter at a step than the part needs; then as long as it needs. */
static void shorter_buffers(void) {
    for (uint32_t camera = 0; camera < CAMERAS; camera++)
        for (int b = SOURCE; b < BUFFERS; b++) {
            scene s;
            size_t len[BUFFERS];
            opening o = in_slot(some_frame(), camera);
            place p;
            begin(&s, ROOM);
            EXPECT(opens(&s, camera, &o) == 0);
            for (int longer = 0; longer < 2; longer++) {
                EXPECT(offer_rows(&s, camera, 1) == 0);
                p = read_place(&s.desk, camera);
                p.parts[SOURCE] = p.band;
                for (int c = SOURCE; c < BUFFERS; c++) len[c] = p.parts[c].offset + p.parts[c].length;
                if (!longer) len[b]--;
                EXPECT(steps(&s, len).number == (longer ? 0 : 18));
                EXPECT(read_place(&s.desk, camera).done == (longer && p.frame.height > 1));
                if (!longer) EXPECT(s.desk.numbers[608] == (camera + 1) % CAMERAS);
            }
        }
}

/* ---- histories */

/* Bytes that no open frame and no waiting band has may be anything at the next call. */
static void change_what_is_free(scene *s) {
    static uint8_t kept[BUFFERS][ROOM];
    memset(kept, 0, sizeof kept);
    for (uint32_t c = 0; c < CAMERAS; c++) {
        place p = read_place(&s->desk, c);
        p.parts[SOURCE] = p.band;
        for (int b = SOURCE; b < BUFFERS; b++)
            for (size_t i = 0; i < p.parts[b].length && p.parts[b].offset + i < ROOM; i++) kept[b][p.parts[b].offset + i] = 1;
    }
    for (int b = SOURCE; b < BUFFERS; b++)
        for (size_t i = below(5); i < ROOM; i += 1 + below(5))
            if (!kept[b][i]) s->bytes[b][i] = (uint8_t)random_number();
}

/* A place for each part that overlaps no open frame's, if one is found; or any place. */
static void find_places(const scene *s, opening *o) {
    for (int b = Y; b < BUFFERS; b++)
        for (int tries = 0, taken = 1; tries < 20 && taken; tries++) {
            o->parts[b].offset = below((uint32_t)(s->len[b] - o->parts[b].length + 1));
            taken = 0;
            for (uint32_t c = 0; c < CAMERAS; c++) {
                place q = read_place(&s->desk, c);
                if (q.kind != FREE && overlap(o->parts[b], q.parts[b])) taken = 1;
            }
        }
}

static void spoil_opening(opening *o) {
    segvartin_part *p = &o->parts[Y + below(4)];
    switch (below(9)) {
    case 0: p->offset = random_number(); break;
    case 1: p->offset -= below(ROOM); break; /* may wrap */
    case 2: p->length -= below(4); break;
    case 3: o->frame.matrix = 6 + below(2), o->frame.kr = 0.5f + (float)below(2); break;
    case 4: o->frame.width = below(2) * (SEGVARTIN_MAX_SIDE + 1); break;
    case 5: o->options.left += below(4); break;
    case 6: o->frame.y_stride -= 1 + below(3); break;
    case 7: o->frame.u_stride--; break;
    case 8: p->length = 0; break;
    }
}

/* Offers a band of the camera's frame, good or bad. */
static void offer_something(scene *s, uint32_t camera) {
    place p = read_place(&s->desk, camera % CAMERAS);
    uint32_t rows = 1 + below(3), stride = least_stride(&p) + below(3);
    segvartin_part band;
    if (p.frame.height - p.done < rows && below(8)) rows = p.frame.height - p.done;
    band.length = (size_t)rows * stride;
    band.offset = below((uint32_t)(s->len[SOURCE] - band.length % ROOM + 1));
    switch (below(24)) {
    case 0: rows = 0; break;
    case 1: stride -= 1 + below(3); break;
    case 2: band.length += 1 + below(3); break;
    case 3: band.length -= below(3); break;
    case 4: band.offset = s->len[SOURCE] - below(8); break;
    }
    offers(s, camera, rows, stride, band);
}

static void history(int calls, uint32_t cameras) {
    scene s;
    size_t len[BUFFERS];
    uint32_t just_freed = CAMERAS;
    begin(&s, ROOM - below(64));
    for (int i = 0; i < calls; i++) {
        const uint32_t kind = below(16), camera = below(64) == 0 ? 32 + random_number() % 64 : below(cameras);
        if (kind < 4) {
            opening o = some_frame();
            find_places(&s, &o);
            if (below(5) == 0) spoil_opening(&o);
            if (opens(&s, camera, &o) == 0 && camera == just_freed) reopened++;
        } else if (kind < 9) {
            offer_something(&s, camera);
        } else {
            segvartin_desk_answer a;
            memcpy(len, s.len, sizeof len);
            if (below(24) == 0) len[below(BUFFERS)] -= 1 + below(ROOM - 64);
            if (below(24) == 0) len[below(BUFFERS)] = ROOM, elsewhere++;
            a = steps(&s, len);
            just_freed = a.served && a.number == 0 && read_place(&s.desk, a.camera).kind == FREE ? a.camera : CAMERAS;
        }
        if (below(4) == 0) change_what_is_free(&s);
    }
}

/* ---- desks that no call wrote */

static uint32_t some_number(void) {
    switch (below(6)) {
    case 0: return random_number();
    case 1: return 16380 + below(10);
    default: return below(9);
    }
}

static uint64_t some_offset(void) {
    switch (below(8)) {
    case 0: return (uint64_t)random_number() << 32 | random_number();
    case 1: return 0 - (uint64_t)below(40);
    default: return below(ROOM / 4);
    }
}

/* Three lists of any numbers, some of them near what a frame has. */
static void any_desk(int i) {
    scene s;
    begin(&s, ROOM);
    s.handed_on = 0;
    for (size_t n = 0; n < 609; n++) s.desk.numbers[n] = i % 2 ? random_number() : some_number();
    for (size_t n = 0; n < 64; n++) {
        const uint32_t bits = below(4) ? 0x3e800000 + below(0x800000) : random_number();
        memcpy(s.desk.customs + n, &bits, 4);
    }
    for (size_t n = 0; n < 320; n++) s.desk.parts[n] = some_offset();
    for (uint32_t c = 0; c < CAMERAS; c++) {
        uint32_t *n = s.desk.numbers + 19 * c;
        n[0] = below(8) ? below(3) : random_number();
        if (below(2)) { /* a frame whose band may be accepted, on whatever parts, some of them of other frames */
            opening o = some_frame();
            place p;
            memset(&p, 0, sizeof p);
            p.kind = 1 + below(2);
            p.frame = o.frame;
            p.options = o.options;
            memcpy(p.parts, o.parts, sizeof p.parts);
            for (int b = Y; b < BUFFERS; b++) p.parts[b].offset = below(below(4) ? ROOM - 256 : 16);
            p.done = below(o.frame.height + (below(4) == 0 ? 4 : 0));
            p.rows = 1 + below(2);
            p.stride = least_stride(&p);
            p.band.length = (size_t)p.rows * p.stride;
            p.band.offset = below(ROOM - 512);
            put_place(&s.desk, c, &p);
            if (below(4) == 0) n[6 + below(5)] += 8 * below(5); /* a code without a meaning */
            if (below(4) == 0) n[14] = random_number();
        }
    }
    for (int call = 0; call < 48; call++) {
        opening o = some_frame();
        find_places(&s, &o);
        switch (below(4)) {
        case 0: opens(&s, below(34), &o); break;
        case 1: offer_something(&s, below(34)); break;
        default: steps(&s, s.len);
        }
    }
}

int main(int argc, char **argv) {
    /* What each call answers; the least that a run must have of each. */
    static const uint32_t opening_numbers[] = {0, 21, 23, 18, 1, 2, 3, 4, 14}, offer_numbers[] = {0, 21, 22, 18};
    static const uint32_t step_numbers[] = {0, 18, 2, 3, 4, 14, 5, 6, 7, 8, 9, 10, 11, 12, 13};
    const int many = argc > 1 ? atoi(argv[1]) : 2000;
    for (closed_before = 0; closed_before < 2; closed_before++) {
        make_rooms();
        refused_openings();
        refused_offers();
        refused_bands();
        rounds();
        exactly_32_steps();
        refused_at_its_step();
        freed_numbers();
        parts();
        bands_of_source();
        shorter_buffers();
        for (int i = 0; i < many; i++) history(i % 4 ? 60 : 200, i % 4 ? 4 : CAMERAS);
        for (int i = 0; i < many / 4; i++) any_desk(i);
        give_rooms_back();
    }
    for (size_t i = 0; i < sizeof opening_numbers / sizeof *opening_numbers; i++) EXPECT(answered[0][opening_numbers[i]] >= 50);
    for (size_t i = 0; i < sizeof offer_numbers / sizeof *offer_numbers; i++) EXPECT(answered[1][offer_numbers[i]] >= 50);
    for (size_t i = 0; i < sizeof step_numbers / sizeof *step_numbers; i++) EXPECT(answered[2][step_numbers[i]] >= 50);
    EXPECT(finished_frames >= 1000 && reopened >= 50 && waited_longest >= 50 && elsewhere >= 50 && nobody >= 50);
    return finish("desk");
}
