/* The sum of the bytes of a plane, as who does not call the library would write it. */
#include <stddef.h>
#include <stdint.h>

uint64_t byte_sum(const uint8_t *bytes, size_t len) {
    uint64_t sum = 0;
    for (size_t i = 0; i < len; i++) sum += bytes[i];
    return sum;
}
