/* How many colours have each luma, as who does not call the library would write it. */
#include <stdint.h>
#include <string.h>

void triple_loop(uint32_t yr, uint32_t yg, uint32_t yb, uint32_t bias_y, uint32_t counts[256]) {
    memset(counts, 0, 256 * sizeof *counts);
    for (uint32_t r = 0; r < 256; r++)
        for (uint32_t g = 0; g < 256; g++)
            for (uint32_t b = 0; b < 256; b++) counts[(r * yr + g * yg + b * yb + bias_y * 8192 + 4095) / 8192]++;
}
