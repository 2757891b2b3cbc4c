/*
 * The lines of C that README.md shows, one block after another, on a frame of flat green 10 with the rear of a truck in it, flat white. tests/run
 * takes them out of it. The last call but one is that with nearest tables: V of green is 124, and 125 by truncated ones (RULES 5.2, Bt601 Limited:
 * of green 10 and of green 9). The last is the window onto the rear, which is white alone; behind its planes there is still what the call before
 * left. The six frames in one call show the truck's white from the third on. Behind the frames come the counts of colours, the rear twice at a desk,
 * the shift file of the rear, its summary, which at the end is that of the file with its record twice, the file held against itself, the same with
 * settings, and the first moved forward; last the Y4M file of the rear.
 */
#include "expect.h"

#include "segvartin.h"

#include <string.h>

enum { WIDTH = 1920, HEIGHT = 1080 };

static uint8_t pixels[3 * WIDTH * HEIGHT], luma[WIDTH * HEIGHT], cb[WIDTH * HEIGHT / 4], cr[WIDTH * HEIGHT / 4];

static int all_are(const uint8_t *plane, size_t from, size_t to, uint8_t byte) {
    for (size_t i = from; i < to; i++)
        if (plane[i] != byte) return 0;
    return 1;
}

int main(void) {
    segvartin_bytes source = {pixels, sizeof pixels};
    segvartin_bytes_mut y = {luma, sizeof luma}, u = {cb, sizeof cb}, v = {cr, sizeof cr};
    for (size_t i = 1; i < sizeof pixels; i += 3) pixels[i] = 10;
    for (size_t row = 300; row < 780; row++) memset(pixels + 3 * (row * WIDTH + 1200), 255, 3 * 640);
#include "readme.inc"
    EXPECT(done == PLATES);
    for (size_t k = 0; k < PLATES; k++) {
        EXPECT(all_are(plates_y, k * PLATE_Y, (k + 1) * PLATE_Y, k < 2 ? 21 : 235));
        EXPECT(all_are(plates_u, k * PLATE_UV, (k + 1) * PLATE_UV, k < 2 ? 125 : 128));
        EXPECT(all_are(plates_v, k * PLATE_UV, (k + 1) * PLATE_UV, k < 2 ? 125 : 128));
    }
    for (uint32_t k = 0; k < LANES; k++) {
        EXPECT(all_are(lanes_y, k * LANE_Y, (k + 1) * LANE_Y, 235) && desk.numbers[19 * k] == 0);
        EXPECT(all_are(lanes_u, k * LANE_UV, (k + 1) * LANE_UV, 128) && all_are(lanes_v, k * LANE_UV, (k + 1) * LANE_UV, 128));
    }
    EXPECT(desk.numbers[608] == LANES); /* the last that was served is the second */
    EXPECT(counts[0] == 7 && counts[128] == 111638 && counts[255] == 7);
    EXPECT(count == 1 && read == 1 && r.crossing == 1400 && r.width == 640 && r.height == 480 && size == sizeof file_bytes);
    EXPECT(plane.at == file_bytes + 24 && plane.len == 640 * 480 && all_are(file_bytes, 24, 24 + 640 * 480, 235));
    EXPECT(all_are(file_bytes, 24 + 640 * 480, sizeof file_bytes, 128) && r.v_offset + r.v_length == sizeof file_bytes);
    EXPECT(found == 1 && truck.crossing == 1400 && truck.offset == 16 && truck.length == sizeof record_bytes);
    EXPECT(summary_bytes[12] == 235 && summary_bytes[25] == 235 && memcmp(summary_bytes, summary_bytes + 13, 4) == 0);
    EXPECT(report.equal == 1 && report.differing == 0 && report.only_ours == 0 && report.only_theirs == 0 && report.difference == 0 && broken == 0);
    EXPECT(form == SEGVARTIN_WITH_SETTINGS && any.sampling == 0 && any.range == 0 && any.matrix == 0 && any.transfer == 0 && any.shift.y_offset == 32);
    EXPECT(set_size == sizeof moved_bytes && memcmp(moved_bytes + 28, "\0\377\377\377", 4) == 0 && memcmp(set_file_bytes + 28, "\0\0\0\0", 4) == 0);
    EXPECT(memcmp(moved_bytes, set_file_bytes, 28) == 0 && memcmp(moved_bytes + 32, set_file_bytes + 32, sizeof moved_bytes - 32) == 0);
    EXPECT(memcmp(y4m_bytes, "YUV4MPEG2 W640 H480 F25:1 Ip C420jpeg\nFRAME\n", 44) == 0 && line_size == 38);
    EXPECT(y4m_read.len == 44 + 640 * 480 + 2 * 320 * 240 && all_are(y4m_bytes, 44, 44 + 640 * 480, 235));
    EXPECT(all_are(y4m_bytes, 44 + 640 * 480, y4m_read.len, 128) && shown_luma.at == y4m_bytes + 44 && shown_luma.len == 640 * 480);
    EXPECT(of_file.width == 640 && of_file.height == 480 && of_file.sampling == SEGVARTIN_YUV420 && of_file.count == 1 && pictures_read == 1);
    EXPECT(a.number == SEGVARTIN_FINISHED);
    EXPECT(all_are(luma, 0, y.len, 235) && all_are(cb, 0, u.len, 128) && all_are(cr, 0, v.len, 128));
    EXPECT(y.len == 640 * 480 && u.len == 320 * 240 && v.len == u.len);
    /* the rows below the truck */
    EXPECT(all_are(luma, 780 * WIDTH, sizeof luma, 21));
    EXPECT(all_are(cb, 390 * WIDTH / 2, sizeof cb, 125) && all_are(cr, 390 * WIDTH / 2, sizeof cr, 124));
    return finish("readme");
}
