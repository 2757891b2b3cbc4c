#include "digest.h"

/* RULES, appendix B: reflected polynomial EDB88320, all ones at the start, inverted at the end. */
uint32_t digest(const uint8_t *bytes, size_t length)
{
    uint32_t rest = 0xFFFFFFFFu;
    size_t place;
    unsigned bit;

    for (place = 0; place < length; place++) {
        rest ^= bytes[place];
        for (bit = 0; bit < 8; bit++) {
            rest = (rest >> 1) ^ ((rest & 1u) != 0 ? 0xEDB88320u : 0u);
        }
    }
    return rest ^ 0xFFFFFFFFu;
}
