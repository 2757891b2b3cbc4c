/*
 * The calls of reference/reference.h, made by the proved library: with reference/lines.c and reference/request.c it is a program
 * that takes calls in lines and answers them by libsegvartin.a. The library has its tables inside, so none are made here.
 */
#include "reference/reference.h"
#include "../include/segvartin.h"

#include <stdlib.h>
#include <string.h>

uint32_t reference_pixel_bytes(uint32_t channel_order)
{
    return channel_order == SEGVARTIN_RGB || channel_order == SEGVARTIN_BGR ? 3 : 4;
}

uint32_t reference_chroma_width(uint32_t width)
{
    return width / 2 + width % 2;
}

uint32_t reference_chroma_height(uint32_t height, uint32_t sampling)
{
    return sampling == SEGVARTIN_YUV422 ? height : height / 2 + height % 2;
}

void reference_whole_source(struct reference_description *frame)
{
    frame->left = 0;
    frame->top = 0;
    frame->source_width = frame->width;
    frame->source_height = frame->height;
}

void reference_make_tables(struct reference_tables *tables)
{
    (void)tables;
}

static struct reference_answer answer(uint32_t number, uint64_t expected, uint64_t received)
{
    struct reference_answer result;

    result.number = number;
    result.expected = expected;
    result.received = received;
    return result;
}

/* kr and kb by their bits. */
static void put_custom(float custom[2], uint32_t kr_bits, uint32_t kb_bits)
{
    memcpy(&custom[0], &kr_bits, sizeof custom[0]);
    memcpy(&custom[1], &kb_bits, sizeof custom[1]);
}

/* RULES 10.1: the fifteen numbers of a description. */
static void put_description(uint32_t *numbers, const struct reference_description *frame)
{
    numbers[0] = frame->width;
    numbers[1] = frame->height;
    numbers[2] = frame->channel_order;
    numbers[3] = frame->sampling;
    numbers[4] = frame->range;
    numbers[5] = frame->matrix;
    numbers[6] = frame->transfer;
    numbers[7] = frame->y_stride;
    numbers[8] = frame->u_stride;
    numbers[9] = frame->v_stride;
    numbers[10] = frame->rounding;
    numbers[11] = frame->left;
    numbers[12] = frame->top;
    numbers[13] = frame->source_width;
    numbers[14] = frame->source_height;
}

struct reference_answer reference_frame(const struct reference_tables *tables, const struct reference_description *frame,
                                        const struct reference_source *source, const struct reference_planes *planes)
{
    uint32_t numbers[16];
    float custom[2];
    size_t told[2];
    uint32_t number;

    (void)tables;
    numbers[0] = source->stride;
    put_description(numbers + 1, frame);
    put_custom(custom, frame->kr_bits, frame->kb_bits);
    number = segvartin_call_frame(numbers, 16, custom, source->bytes, source->length, planes->y.bytes, planes->y.length,
                                  planes->u.bytes, planes->u.length, planes->v.bytes, planes->v.length, told);
    return answer(number, told[0], told[1]);
}

struct reference_answer reference_open(const struct reference_description *frame, struct reference_state *state)
{
    uint32_t numbers[15];
    float custom[2];
    size_t told[3];
    uint32_t number;

    put_description(numbers, frame);
    put_custom(custom, frame->kr_bits, frame->kb_bits);
    number = segvartin_call_open(numbers, 15, custom, told);
    state->frame = *frame;
    state->rows_done = (uint32_t)told[2];
    return answer(number, told[0], told[1]);
}

struct reference_answer reference_band(const struct reference_tables *tables, struct reference_state *state, uint32_t rows,
                                       const struct reference_source *source, const struct reference_planes *planes,
                                       const struct reference_buffer *carried)
{
    uint32_t numbers[18];
    float custom[2];
    size_t told[3];
    uint32_t number;

    (void)tables;
    numbers[0] = state->rows_done;
    numbers[1] = rows;
    numbers[2] = source->stride;
    put_description(numbers + 3, &state->frame);
    put_custom(custom, state->frame.kr_bits, state->frame.kb_bits);
    number = segvartin_call_band(numbers, 18, custom, source->bytes, source->length, planes->y.bytes, planes->y.length,
                                 planes->u.bytes, planes->u.length, planes->v.bytes, planes->v.length, carried->bytes,
                                 carried->length, told);
    state->rows_done = (uint32_t)told[2];
    return answer(number, told[0], told[1]);
}

struct reference_answer reference_luma_counts(const uint32_t *numbers, uint64_t given, uint32_t kr_bits, uint32_t kb_bits,
                                              uint32_t *counts)
{
    float custom[2];
    size_t told[2];
    uint32_t number;

    put_custom(custom, kr_bits, kb_bits);
    number = segvartin_call_luma_counts(numbers, given, custom, counts, told);
    return answer(number, told[0], told[1]);
}

struct reference_answer reference_shift_records(const struct reference_bytes *file, uint64_t first, uint64_t *numbers,
                                                uint64_t given, uint64_t *records, uint64_t *entries)
{
    size_t told[2];
    uint32_t number = segvartin_call_shift_records(file->bytes, file->length, first, numbers, given, told);

    *records = told[0];
    *entries = told[1];
    return answer(number, 0, 0);
}

struct reference_answer reference_shift_records_any(const struct reference_bytes *file, uint64_t first, uint64_t *numbers,
                                                    uint64_t given, uint64_t *records, uint64_t *entries, uint64_t *form)
{
    size_t told[3];
    uint32_t number = segvartin_call_shift_records_any(file->bytes, file->length, first, numbers, given, told);

    *records = told[0];
    *entries = told[1];
    *form = told[2];
    return answer(number, 0, 0);
}

struct reference_answer reference_shift_write(uint32_t form, const struct reference_bytes *records,
                                              const struct reference_buffer *output, uint64_t *size)
{
    size_t told[1];
    uint32_t number;

    if (form == SEGVARTIN_WITH_SETTINGS) {
        number = segvartin_call_shift_write_settings(records->bytes, records->length, output->bytes, output->length, told);
    } else {
        number = segvartin_call_shift_write(records->bytes, records->length, output->bytes, output->length, told);
    }
    *size = told[0];
    return answer(number, 0, 0);
}

struct reference_answer reference_shift_record(uint32_t crossing, uint32_t width, uint32_t height, const uint32_t *settings,
                                               const struct reference_plane *planes, const struct reference_buffer *output,
                                               uint64_t *size)
{
    uint32_t numbers[10] = {crossing, width, height, planes[0].stride, planes[1].stride, planes[2].stride};
    size_t told[3];
    uint32_t number;

    if (settings != NULL) {
        memcpy(numbers + 6, settings, 4 * sizeof numbers[0]);
        number = segvartin_call_shift_record_settings(numbers, planes[0].bytes, planes[0].length, planes[1].bytes,
                                                      planes[1].length, planes[2].bytes, planes[2].length, output->bytes,
                                                      output->length, told);
    } else {
        number = segvartin_call_shift_record(numbers, planes[0].bytes, planes[0].length, planes[1].bytes, planes[1].length,
                                             planes[2].bytes, planes[2].length, output->bytes, output->length, told);
    }
    *size = told[2];
    return answer(number, told[0], told[1]);
}

struct reference_answer reference_shift_move(uint32_t to, const struct reference_bytes *file, const struct reference_buffer *output,
                                             uint64_t *size)
{
    size_t told[1];
    uint32_t number;

    if (to == SEGVARTIN_WITH_SETTINGS) {
        number = segvartin_call_shift_forward(file->bytes, file->length, output->bytes, output->length, told);
    } else {
        number = segvartin_call_shift_back(file->bytes, file->length, output->bytes, output->length, told);
    }
    *size = told[0];
    return answer(number, 0, 0);
}

struct reference_answer reference_summary_build(const struct reference_bytes *file, const struct reference_buffer *summary)
{
    return answer(segvartin_call_summary_build(file->bytes, file->length, summary->bytes, summary->length), 0, 0);
}

struct reference_answer reference_summary_check(const struct reference_bytes *file, const struct reference_bytes *summary,
                                                uint64_t *yes)
{
    size_t told[1];
    uint32_t number = segvartin_call_summary_check(file->bytes, file->length, summary->bytes, summary->length, told);

    *yes = told[0];
    return answer(number, 0, 0);
}

struct reference_answer reference_summary_find(const struct reference_bytes *file, const struct reference_bytes *summary,
                                               uint32_t crossing, uint64_t *found, uint64_t *record)
{
    size_t told[2];
    uint32_t number = segvartin_call_summary_find(file->bytes, file->length, summary->bytes, summary->length, crossing, told);

    *found = told[0];
    *record = told[1];
    return answer(number, 0, 0);
}

struct reference_answer reference_summary_update(const struct reference_bytes *file, const struct reference_bytes *record,
                                                 const struct reference_buffer *summary)
{
    return answer(segvartin_call_summary_update(file->bytes, file->length, record->bytes, record->length, summary->bytes,
                                                summary->length),
                  0, 0);
}

struct reference_answer reference_shift_pairs(const struct reference_bytes *ours, const struct reference_bytes *theirs,
                                              uint64_t *report, uint64_t *none)
{
    size_t told[1];
    uint32_t number = segvartin_call_shift_pairs(ours->bytes, ours->length, theirs->bytes, theirs->length, report, told);

    *none = told[0];
    return answer(number, 0, 0);
}

struct reference_answer reference_y4m_pictures(const struct reference_bytes *file, uint64_t first, uint64_t *numbers,
                                               uint64_t given, struct reference_y4m *told)
{
    size_t five[5];
    uint32_t number = segvartin_call_y4m_pictures(file->bytes, file->length, first, numbers, given, five);

    told->width = five[0];
    told->height = five[1];
    told->sampling = five[2];
    told->pictures = five[3];
    told->entries = five[4];
    return answer(number, 0, 0);
}

struct reference_answer reference_y4m_write(uint32_t width, uint32_t height, uint32_t sampling,
                                            const struct reference_bytes *pictures, const struct reference_buffer *output,
                                            uint64_t *size)
{
    uint32_t numbers[3] = {width, height, sampling};
    size_t told[1];
    uint32_t number = segvartin_call_y4m_write(numbers, pictures->bytes, pictures->length, output->bytes, output->length, told);

    *size = told[0];
    return answer(number, 0, 0);
}

struct reference_answer reference_y4m_picture(uint32_t width, uint32_t height, uint32_t sampling,
                                              const struct reference_plane *planes, const struct reference_buffer *output,
                                              uint64_t *size)
{
    uint32_t numbers[6] = {width, height, sampling, planes[0].stride, planes[1].stride, planes[2].stride};
    size_t told[1];
    uint32_t number = segvartin_call_y4m_picture(numbers, planes[0].bytes, planes[0].length, planes[1].bytes, planes[1].length,
                                                 planes[2].bytes, planes[2].length, output->bytes, output->length, told);

    *size = told[0];
    return answer(number, 0, 0);
}

/* RULES 10.9: offset and length of a part. */
static void put_part(uint64_t *numbers, struct reference_part part)
{
    numbers[0] = part.offset;
    numbers[1] = part.length;
}

struct reference_answer reference_convoy(const struct reference_tables *tables, const struct reference_convoy_frame *frames,
                                         uint64_t count, const struct reference_bytes *source,
                                         const struct reference_planes *planes, uint64_t *done)
{
    uint32_t *numbers = calloc(count + 1, 16 * sizeof *numbers);
    float *customs = calloc(count + 1, 2 * sizeof *customs);
    uint64_t *parts = calloc(count + 1, 8 * sizeof *parts);
    size_t told[3];
    uint32_t number;
    uint64_t place;

    (void)tables;
    if (numbers == NULL || customs == NULL || parts == NULL) {
        abort();
    }
    for (place = 0; place < count; place++) {
        const struct reference_convoy_frame *frame = &frames[place];

        numbers[16 * place] = frame->stride;
        put_description(numbers + 16 * place + 1, &frame->frame);
        put_custom(customs + 2 * place, frame->frame.kr_bits, frame->frame.kb_bits);
        put_part(parts + 8 * place, frame->source);
        put_part(parts + 8 * place + 2, frame->y);
        put_part(parts + 8 * place + 4, frame->u);
        put_part(parts + 8 * place + 6, frame->v);
    }
    number = segvartin_call_convoy(count, numbers, 16 * count, customs, 2 * count, parts, 8 * count, source->bytes, source->length,
                                   planes->y.bytes, planes->y.length, planes->u.bytes, planes->u.length, planes->v.bytes,
                                   planes->v.length, told);
    *done = told[2];
    free(numbers);
    free(customs);
    free(parts);
    return answer(number, told[0], told[1]);
}
