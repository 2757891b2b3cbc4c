/* A request of RULES 9 as bytes, and the reply to it: what the program `frame` reads and writes. */
#ifndef REQUEST_H
#define REQUEST_H

#include "reference.h"

/* RULES 9.1, 9.2: the request before its pixels, and the largest frame. */
enum {
    REQUEST_HEAD_BYTES = 9,
    REQUEST_PIXELS = 16384,
    REQUEST_BYTES = REQUEST_HEAD_BYTES + REQUEST_PIXELS * 4
};

/* RULES 9.3: the longest reply is planes of 4:2:2 one pixel wide. */
#define REQUEST_REPLY_BYTES (3u * REQUEST_PIXELS)

/*
 * RULES 9.1 to 9.3: the reply to a request of this length, and how many bytes it has. Of a request that is longer than
 * REQUEST_BYTES no more than these need be there: it is refused by its length. The reply has room for REQUEST_REPLY_BYTES.
 */
uint32_t request_reply(const struct reference_tables *tables, const uint8_t *request, uint64_t length, uint8_t *reply);

#endif
