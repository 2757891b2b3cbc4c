/*
 * The stack that a call takes, for every setting, without options and with: nearest tables, and a window onto a larger source; that of a count of
 * colours, for every range and matrix; that of the calls on shift files, with settings and moved too; that of the calls on summaries, of a file with
 * as many records as there may be; that of the calls on Y4M files; that of as many frames in one call as there may be; that of each call of a desk
 * with a frame for every camera, for every setting; and that of pairing two shift files. Each call runs on a thread whose stack is filled with one
 * byte first; from where the call is made down to the lowest byte that changed is what it took. Bytes that a call reserves and never writes are not
 * seen.
 */
#include <pthread.h>
#include <stdint.h>
#include <stdio.h>
#include <stdlib.h>
#include <string.h>

#include "segvartin.h"

/* What is PROMISED segvartin.h says. The frame is odd both ways, and given in bands of one row. With options its source is twice as large. */
enum { STACK = 1 << 20, FILL = 0xA5, PROMISED = 96 << 10, PROMISED_OF_LARGE = 128 << 10, W = 17, H = 5, CW = 9 };

static uint8_t source_bytes[4 * 2 * W * 2 * H], y_bytes[W * H], u_bytes[CW * H], v_bytes[CW * H], carried_bytes[3 * W];
static segvartin_description description;
static int with_options;
static segvartin_bytes_mut y = {y_bytes, sizeof y_bytes}, carried = {carried_bytes, sizeof carried_bytes};
static const uint8_t *called_from;

static uint32_t stride(void) {
    uint32_t width = with_options ? 2 * W : W;
    return description.channels == SEGVARTIN_RGBA || description.channels == SEGVARTIN_BGRA ? 4 * width : 3 * width;
}

static segvartin_bytes_mut chroma(uint8_t *at) {
    segvartin_bytes_mut plane = {at, description.sampling == SEGVARTIN_YUV420 ? CW * ((H + 1) / 2) : CW * H};
    return plane;
}

static segvartin_bytes rows(uint32_t from, uint32_t count) {
    segvartin_bytes part = {source_bytes + stride() * from, (size_t)stride() * count};
    return part;
}

static segvartin_options options(void) {
    segvartin_options o = segvartin_options_of(&description);
    o.rounding = SEGVARTIN_NEAREST;
    o.left = W;
    o.top = H;
    o.source_width = 2 * W;
    o.source_height = 2 * H;
    return o;
}

static void *frame(void *unused) {
    segvartin_options o = options();
    segvartin_answer a;
    called_from = __builtin_frame_address(0);
    a = with_options ? segvartin_convert_frame_with(&description, &o, rows(0, 2 * H), stride(), y, chroma(u_bytes), chroma(v_bytes))
                     : segvartin_convert_frame(&description, rows(0, H), stride(), y, chroma(u_bytes), chroma(v_bytes));
    return a.number == SEGVARTIN_FINISHED ? unused : &description;
}

static void *bands(void *unused) {
    segvartin_options o = options();
    segvartin_state old;
    segvartin_state_with state;
    segvartin_answer a = segvartin_open_frame(&old, &description);
    uint32_t row;
    if (a.number == SEGVARTIN_FINISHED) a = segvartin_open_frame_with(&state, &description, &o);
    called_from = __builtin_frame_address(0);
    for (row = 0; row < H && a.number == SEGVARTIN_FINISHED; row++)
        a = with_options ? segvartin_convert_band_with(&state, 1, rows(row, 1), stride(), y, chroma(u_bytes), chroma(v_bytes), carried)
                         : segvartin_convert_band(&old, 1, rows(row, 1), stride(), y, chroma(u_bytes), chroma(v_bytes), carried);
    return a.number == SEGVARTIN_FINISHED ? unused : &description;
}

static void *colours(void *unused) {
    static uint32_t counts[256];
    uint32_t number;
    called_from = __builtin_frame_address(0);
    number = segvartin_luma_counts(description.range, description.matrix, description.kr, description.kb, counts);
    return number == SEGVARTIN_FINISHED ? unused : &description;
}

/* A record of planes, a file of SEVERAL of them, and what is read of it. */
static void *shift_files(void *unused) {
    enum { SEVERAL = 3, RECORD = 8 + W * H + 2 * CW * ((H + 1) / 2) };
    static uint8_t record_bytes[SEVERAL * RECORD], file_bytes[4 + SEVERAL * (12 + RECORD)];
    static segvartin_shift_record records[SEVERAL];
    static size_t size, count, read;
    segvartin_bytes_mut file = {file_bytes, sizeof file_bytes};
    segvartin_bytes from = {record_bytes, sizeof record_bytes}, y_plane = {y_bytes, sizeof y_bytes}, u_plane = {u_bytes, CW * ((H + 1) / 2)};
    segvartin_bytes v_plane = {v_bytes, u_plane.len};
    segvartin_answer a;
    uint32_t k;
    called_from = __builtin_frame_address(0);
    for (k = 0; k < SEVERAL; k++) {
        segvartin_bytes_mut record = {record_bytes + k * RECORD, RECORD};
        a = segvartin_write_shift_record(k, &description, y_plane, u_plane, v_plane, record, &size);
        if (a.number != SEGVARTIN_FINISHED) return &description;
    }
    a = segvartin_write_shift_file(from, file, &size);
    if (a.number == SEGVARTIN_FINISHED) a = segvartin_read_shift_file(segvartin_read_only(file), 0, records, SEVERAL, &count, &read);
    return a.number == SEGVARTIN_FINISHED && read == SEVERAL ? unused : &description;
}

/* A record with settings of 4:2:2, a file of SEVERAL of them, and what is read of it; a file of them in 4:2:0 moved back and forward. */
static void *settings(void *unused) {
    enum { SEVERAL = 3, RECORD = 12 + W * H + 2 * CW * H };
    static uint8_t record_bytes[SEVERAL * RECORD], file_bytes[8 + SEVERAL * (12 + RECORD)], moved_bytes[sizeof file_bytes];
    static segvartin_settings_record records[SEVERAL];
    static size_t size, count, read;
    static int form;
    segvartin_description d = description;
    segvartin_bytes_mut file = {file_bytes, sizeof file_bytes}, moved = {moved_bytes, sizeof moved_bytes};
    segvartin_bytes from = {record_bytes, 0}, y_plane = {y_bytes, sizeof y_bytes};
    segvartin_answer a;
    uint32_t k, unsaid;
    called_from = __builtin_frame_address(0);
    for (unsaid = 0; unsaid < 2; unsaid++) {
        size_t chroma = CW * (unsaid ? (H + 1) / 2 : H);
        segvartin_bytes u_plane = {u_bytes, chroma}, v_plane = {v_bytes, chroma};
        d.sampling = unsaid ? SEGVARTIN_YUV420 : SEGVARTIN_YUV422;
        if (unsaid) d.range = d.matrix = d.transfer = SEGVARTIN_NOT_RECORDED;
        from.len = 0;
        for (k = 0; k < SEVERAL; k++) {
            segvartin_bytes_mut record = {record_bytes + from.len, sizeof record_bytes - from.len};
            a = segvartin_write_settings_record(k, &d, y_plane, u_plane, v_plane, record, &size);
            if (a.number != SEGVARTIN_FINISHED) return &description;
            from.len += size;
        }
        file.len = sizeof file_bytes;
        a = segvartin_write_settings_file(from, file, &size);
        file.len = size;
        if (a.number == SEGVARTIN_FINISHED) a = segvartin_read_any_shift_file(segvartin_read_only(file), 0, records, SEVERAL, &count, &read, &form);
        if (a.number != SEGVARTIN_FINISHED || read != SEVERAL) return &description;
    }
    a = segvartin_move_back(segvartin_read_only(file), moved, &size);
    moved.len = size;
    if (a.number == SEGVARTIN_FINISHED) a = segvartin_move_forward(segvartin_read_only(moved), file, &size);
    return a.number == SEGVARTIN_FINISHED && size == file.len ? unused : &description;
}

/* All four calls on the summary of a file of MANY records; the update is with one fewer. */
static void *summaries(void *unused) {
    enum { MANY = SEGVARTIN_MAX_RECORDS, RECORD = 11 };
    static uint8_t record_bytes[MANY * RECORD], file_bytes[4 + MANY * (12 + RECORD)], summary_bytes[MANY * SEGVARTIN_SUMMARY_ENTRY];
    static segvartin_shift_record found_record;
    static size_t size;
    static int yes, found;
    segvartin_bytes from = {record_bytes, sizeof record_bytes}, one = {record_bytes, RECORD};
    segvartin_bytes_mut file = {file_bytes, sizeof file_bytes}, summary = {summary_bytes, sizeof summary_bytes};
    segvartin_answer a;
    uint32_t k;
    for (k = 0; k < MANY; k++) {
        uint8_t *record = record_bytes + k * RECORD;
        uint32_t crossing = k * 2654435761u;
        record[0] = (uint8_t)crossing, record[1] = (uint8_t)(crossing >> 8), record[2] = (uint8_t)(crossing >> 16), record[3] = (uint8_t)(crossing >> 24);
        record[4] = record[6] = 1;
    }
    called_from = __builtin_frame_address(0);
    a = segvartin_write_shift_file(from, file, &size);
    if (a.number == SEGVARTIN_FINISHED) a = segvartin_build_summary(segvartin_read_only(file), summary);
    if (a.number == SEGVARTIN_FINISHED) a = segvartin_check_summary(segvartin_read_only(file), segvartin_read_only(summary), &yes);
    if (a.number == SEGVARTIN_FINISHED)
        a = segvartin_find_record(segvartin_read_only(file), segvartin_read_only(summary), 2654435761u, &found_record, &found);
    if (a.number != SEGVARTIN_FINISHED || !yes || !found) return &description;
    from.len -= RECORD;
    a = segvartin_write_shift_file(from, file, &size);
    file.len = size;
    if (a.number == SEGVARTIN_FINISHED) a = segvartin_build_summary(segvartin_read_only(file), summary);
    if (a.number == SEGVARTIN_FINISHED) a = segvartin_update_summary(segvartin_read_only(file), one, summary);
    return a.number == SEGVARTIN_FINISHED ? unused : &description;
}

/* Two files of MANY records, the one in the opposite order of the other. */
static void *pairs(void *unused) {
    enum { MANY = SEGVARTIN_MAX_RECORDS, RECORD = 11 };
    static uint8_t record_bytes[2][MANY * RECORD], file_bytes[2][4 + MANY * (12 + RECORD)];
    static segvartin_pair_report report;
    static size_t size;
    static int broken;
    segvartin_bytes files[2];
    segvartin_answer a;
    uint32_t k, f;
    for (f = 0; f < 2; f++) {
        segvartin_bytes from = {record_bytes[f], sizeof record_bytes[f]};
        segvartin_bytes_mut file = {file_bytes[f], sizeof file_bytes[f]};
        for (k = 0; k < MANY; k++) {
            uint8_t *record = record_bytes[f] + k * RECORD;
            uint32_t crossing = (f ? MANY - 1 - k : k) * 2654435761u;
            record[0] = (uint8_t)crossing, record[1] = (uint8_t)(crossing >> 8), record[2] = (uint8_t)(crossing >> 16), record[3] = (uint8_t)(crossing >> 24);
            record[4] = record[6] = 1;
        }
        a = segvartin_write_shift_file(from, file, &size);
        if (a.number != SEGVARTIN_FINISHED) return &description;
        files[f] = segvartin_read_only(file);
    }
    called_from = __builtin_frame_address(0);
    a = segvartin_pair_shift_files(files[0], files[1], &report, &broken);
    return a.number == SEGVARTIN_FINISHED && report.equal == MANY ? unused : &description;
}

/* A Y4M file of SEVERAL pictures, made picture by picture and at once, and what is read of it. */
static void *y4m(void *unused) {
    enum { SEVERAL = 3, PLANES = W * H + 2 * CW * H, LINE = 31 };
    static uint8_t plane_bytes[SEVERAL * PLANES], file_bytes[LINE + SEVERAL * (6 + PLANES)];
    static segvartin_y4m_picture pictures[SEVERAL];
    static segvartin_y4m_file told;
    static size_t size, used, read;
    segvartin_description d = description;
    segvartin_bytes from = {plane_bytes, 0}, y_plane = {y_bytes, sizeof y_bytes};
    segvartin_bytes u_plane = {u_bytes, sizeof u_bytes}, v_plane = {v_bytes, sizeof v_bytes};
    segvartin_bytes_mut file = {file_bytes, sizeof file_bytes};
    segvartin_answer a;
    uint32_t k;
    d.sampling = SEGVARTIN_YUV422;
    called_from = __builtin_frame_address(0);
    a = segvartin_y4m_write(&d, from, file, &used);
    for (k = 0; k < SEVERAL && a.number == SEGVARTIN_FINISHED; k++) {
        segvartin_bytes_mut rest = {file_bytes + used, sizeof file_bytes - used};
        a = segvartin_y4m_write_picture(&d, y_plane, u_plane, v_plane, rest, &size);
        used += size;
    }
    if (a.number == SEGVARTIN_FINISHED) a = segvartin_y4m_read(segvartin_read_only(file), 0, pictures, SEVERAL, &told, &read);
    if (a.number != SEGVARTIN_FINISHED || read != SEVERAL) return &description;
    from.len = sizeof plane_bytes;
    a = segvartin_y4m_write(&d, from, file, &size);
    return a.number == SEGVARTIN_FINISHED && size == sizeof file_bytes ? unused : &description;
}

/* MANY frames of any settings in one call, all from one source. */
static void *convoy(void *unused) {
    enum { MANY = SEGVARTIN_MAX_CONVOY };
    static segvartin_convoy_frame frames[MANY];
    static uint8_t y_buffer[MANY * W * H], u_buffer[MANY * CW * H], v_buffer[MANY * CW * H];
    static size_t done;
    segvartin_bytes from = {source_bytes, sizeof source_bytes};
    segvartin_bytes_mut y_lent = {y_buffer, sizeof y_buffer}, u_lent = {u_buffer, sizeof u_buffer}, v_lent = {v_buffer, sizeof v_buffer};
    segvartin_answer a;
    uint32_t k;
    for (k = 0; k < MANY; k++) {
        segvartin_convoy_frame *f = &frames[k];
        description.channels = k % 4;
        description.sampling = k / 4 % 2;
        description.range = k / 8 % 2;
        description.matrix = k % 7;
        description.transfer = k / 16;
        with_options = k / 2 % 2;
        *f = segvartin_convoy_frame_of(&description);
        if (with_options) f->options = options();
        f->stride = stride();
        f->source.length = (size_t)stride() * f->options.source_height;
        f->y.offset = k * sizeof y_bytes;
        f->y.length = sizeof y_bytes;
        f->u.offset = f->v.offset = k * sizeof u_bytes;
        f->u.length = f->v.length = chroma(u_bytes).len;
    }
    called_from = __builtin_frame_address(0);
    a = segvartin_convert_convoy(frames, MANY, from, y_lent, u_lent, v_lent, &done);
    return a.number == SEGVARTIN_FINISHED && done == MANY ? unused : &description;
}

/* A desk with a frame for every camera but the last, each with a band of one row that waits but for that of the last but one. */
static segvartin_desk desk;

enum { CAMERAS = SEGVARTIN_CAMERAS };

static uint8_t desk_y[CAMERAS * W * H], desk_u[CAMERAS * CW * H], desk_v[CAMERAS * CW * H], desk_carried[CAMERAS * 3 * W];

static segvartin_answer open_camera(uint32_t camera) {
    static const segvartin_desk_lengths lengths = {sizeof desk_y, sizeof desk_u, sizeof desk_v, sizeof desk_carried};
    segvartin_options o = with_options ? options() : segvartin_options_of(&description);
    segvartin_desk_parts parts;
    parts.y.offset = camera * sizeof y_bytes, parts.y.length = sizeof y_bytes;
    parts.u.offset = parts.v.offset = camera * sizeof u_bytes, parts.u.length = parts.v.length = chroma(u_bytes).len;
    parts.carried.offset = camera * sizeof carried_bytes, parts.carried.length = sizeof carried_bytes;
    return segvartin_desk_open(&desk, camera, &description, &o, &parts, &lengths);
}

static segvartin_answer offer_row(uint32_t camera) {
    segvartin_part row;
    row.offset = 0, row.length = stride();
    return segvartin_desk_offer(&desk, camera, 1, stride(), row, sizeof source_bytes);
}

static int fill_desk(void) {
    static const segvartin_desk none;
    uint32_t camera;
    desk = none;
    for (camera = 0; camera < CAMERAS - 1; camera++)
        if (open_camera(camera).number != SEGVARTIN_FINISHED || (camera < CAMERAS - 2 && offer_row(camera).number != SEGVARTIN_FINISHED)) return 0;
    return 1;
}

static void *desk_open(void *unused) {
    called_from = __builtin_frame_address(0);
    return open_camera(CAMERAS - 1).number == SEGVARTIN_FINISHED ? unused : &description;
}

static void *desk_offer(void *unused) {
    called_from = __builtin_frame_address(0);
    return offer_row(CAMERAS - 2).number == SEGVARTIN_FINISHED ? unused : &description;
}

static void *desk_step(void *unused) {
    segvartin_bytes from = {source_bytes, sizeof source_bytes};
    segvartin_bytes_mut ys = {desk_y, sizeof desk_y}, us = {desk_u, sizeof desk_u}, vs = {desk_v, sizeof desk_v};
    segvartin_bytes_mut lent_rows = {desk_carried, sizeof desk_carried};
    segvartin_desk_answer a;
    called_from = __builtin_frame_address(0);
    a = segvartin_desk_step(&desk, from, ys, us, vs, lent_rows);
    return a.number == SEGVARTIN_FINISHED && a.served ? unused : &description;
}

static size_t taken(void *(*call)(void *)) {
    pthread_attr_t attributes;
    pthread_t thread;
    uint8_t *stack;
    void *failed = NULL;
    size_t low = 0, bytes;
    if (posix_memalign((void **)&stack, 4096, STACK) != 0) exit(2);
    memset(stack, FILL, STACK);
    if (pthread_attr_init(&attributes) != 0 || pthread_attr_setstack(&attributes, stack, STACK) != 0) exit(2);
    if (pthread_create(&thread, &attributes, call, NULL) != 0 || pthread_join(thread, &failed) != 0) exit(2);
    if (failed != NULL) {
        fprintf(stderr, "stack: a call was refused\n");
        exit(1);
    }
    while (low < STACK && stack[low] == FILL) low++;
    bytes = (size_t)(called_from - (stack + low));
    free(stack);
    return bytes;
}

int main(void) {
    static void *(*const desk_calls[3])(void *) = {desk_open, desk_offer, desk_step};
    size_t most[9] = {0, 0, 0, 0, 0, 0, 0, 0, 0}, of_desk[3] = {0, 0, 0};
    uint32_t code;
    description.width = W, description.height = H, description.kr = 0.25f, description.kb = 0.125f;
    description.y_stride = W, description.u_stride = description.v_stride = CW;
    for (code = 0; code < 4 * 2 * 2 * 7 * 4 * 2; code++) {
        size_t f, b, i;
        description.channels = code % 4;
        description.sampling = code / 4 % 2;
        description.range = code / 8 % 2;
        description.matrix = code / 16 % 7;
        description.transfer = code / 112 % 4;
        with_options = code / 448;
        f = taken(frame);
        b = taken(bands);
        if (f > most[0]) most[0] = f;
        if (b > most[1]) most[1] = b;
        if (!fill_desk()) return 1;
        for (i = 0; i < 3; i++) {
            size_t d = taken(desk_calls[i]);
            if (d > of_desk[i]) of_desk[i] = d;
        }
    }
    for (code = 0; code < 2 * 7; code++) {
        size_t c;
        description.range = code % 2;
        description.matrix = code / 2;
        c = taken(colours);
        if (c > most[2]) most[2] = c;
    }
    most[3] = taken(shift_files);
    most[4] = taken(settings);
    most[5] = taken(summaries);
    most[6] = taken(y4m);
    most[7] = taken(convoy);
    most[8] = taken(pairs);
    printf("stack, at most: a frame call %zu bytes, a band call %zu, a count of colours %zu, shift files %zu, with settings and moved %zu, "
           "summaries %zu, Y4M files %zu, %d frames in one call %zu, two files paired %zu; of a desk an opening %zu, an offer %zu, a step %zu\n",
           most[0], most[1], most[2], most[3], most[4], most[5], most[6], SEGVARTIN_MAX_CONVOY, most[7], most[8], of_desk[0], of_desk[1], of_desk[2]);
    for (code = 0; code < 7; code++)
        if (most[code] >= PROMISED) return 1;
    if (of_desk[0] >= PROMISED || of_desk[1] >= PROMISED || of_desk[2] >= PROMISED_OF_LARGE) return 1;
    return most[7] < PROMISED_OF_LARGE && most[8] < PROMISED_OF_LARGE ? 0 : 1;
}
