#include "request.h"

#include <stdio.h>

/* RULES 9.2: 1, 2, 3, 6, 12, in this order. The description is filled where the answer is not 1. */
static uint32_t check_request(const uint8_t *request, uint64_t length, struct reference_description *frame)
{
    uint64_t whole;

    if (length < REQUEST_HEAD_BYTES) {
        return REFERENCE_BAD_CODE;
    }
    frame->width = request[0] + request[1] * 256u;
    frame->height = request[2] + request[3] * 256u;
    frame->channel_order = request[4];
    frame->sampling = request[5];
    frame->range = request[6];
    frame->matrix = request[7];
    frame->kr_bits = 0;
    frame->kb_bits = 0;
    frame->transfer = request[8];
    frame->rounding = REFERENCE_TRUNCATED; /* RULES 9.1: a request has no code of it, and no window */
    reference_whole_source(frame);
    if (frame->channel_order >= REFERENCE_CHANNEL_ORDERS || frame->sampling >= REFERENCE_SAMPLINGS ||
        frame->range >= REFERENCE_RANGES || frame->matrix >= REFERENCE_CUSTOM || frame->transfer >= REFERENCE_TRANSFERS) {
        return REFERENCE_BAD_CODE;
    }
    if (frame->width == 0 || frame->height == 0) {
        return REFERENCE_EMPTY;
    }
    if (frame->width > REFERENCE_LARGEST_SIDE || frame->height > REFERENCE_LARGEST_SIDE ||
        (uint64_t)frame->width * frame->height > REQUEST_PIXELS) {
        return REFERENCE_TOO_LARGE;
    }
    whole = (uint64_t)frame->width * frame->height * reference_pixel_bytes(frame->channel_order);
    if (length - REQUEST_HEAD_BYTES < whole) {
        return REFERENCE_SOURCE_LENGTH;
    }
    if (length - REQUEST_HEAD_BYTES > whole) {
        return REFERENCE_NOT_WHOLE;
    }
    return REFERENCE_ACCEPTED;
}

/* RULES 9.3: converts an accepted request to Y, U, V without padding. Gives the answer's number. */
static uint32_t convert(const struct reference_tables *tables, const uint8_t *request, uint64_t length,
                        struct reference_description *frame, uint8_t *reply, uint32_t *reply_length)
{
    struct reference_source source;
    struct reference_planes planes;
    uint32_t columns = reference_chroma_width(frame->width);
    uint32_t luma_bytes = frame->width * frame->height;
    uint32_t chroma_bytes = columns * reference_chroma_height(frame->height, frame->sampling);

    frame->y_stride = frame->width;
    frame->u_stride = columns;
    frame->v_stride = columns;
    source.bytes = request + REQUEST_HEAD_BYTES;
    source.length = length - REQUEST_HEAD_BYTES;
    source.stride = frame->width * reference_pixel_bytes(frame->channel_order);
    planes.y.bytes = reply;
    planes.y.length = luma_bytes;
    planes.u.bytes = reply + luma_bytes;
    planes.u.length = chroma_bytes;
    planes.v.bytes = reply + luma_bytes + chroma_bytes;
    planes.v.length = chroma_bytes;
    *reply_length = luma_bytes + 2 * chroma_bytes;
    return reference_frame(tables, frame, &source, &planes).number;
}

/* RULES 9.1 to 9.3: one request, one reply. */
uint32_t request_reply(const struct reference_tables *tables, const uint8_t *request, uint64_t length, uint8_t *reply)
{
    struct reference_description frame;
    uint32_t reply_length = 0;
    uint32_t number = check_request(request, length, &frame);

    if (number == REFERENCE_ACCEPTED) {
        number = convert(tables, request, length, &frame, reply, &reply_length);
    }
    if (number != REFERENCE_ACCEPTED) {
        reply_length = (uint32_t)sprintf((char *)reply, "refused %lu\n", (unsigned long)number); /* RULES 9.3 */
    }
    return reply_length;
}
