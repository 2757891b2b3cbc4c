/*
 * Y4M files: the line of the request and lines that keep or break each rule; every byte in each place of a file's lines, bytes put in, taken out and
 * exchanged, and every cut; every part of the pictures asked for; planes that cannot be touched while a file is read; files written to outputs of
 * every length; pictures from planes with padding; each refusal, and nothing written then; files made picture by picture, of frames converted too,
 * and read back. All buffers are against closed pages.
 *
 *     y4m          these
 *     y4m large    files that pass 4 GiB: a sparse one on a memory map, read; and one written
 */
#define _GNU_SOURCE
#include "records.h"

static int not_y4m(segvartin_answer a) { return is(a, SEGVARTIN_MALFORMED_Y4M, 0, 0); }

static int short_output(segvartin_answer a) { return is(a, SEGVARTIN_OUTPUT_TOO_SHORT, 0, 0); }

enum { LINE = 256, FRAME_LINE = 6 };

/* ---- what the test itself makes of bytes: it splits each line at its spaces */

typedef struct shape {
    uint32_t w, h, sampling; /* no file: all 0 */
} shape;

static size_t luma_of(shape s) { return (size_t)s.w * s.h; }

static size_t chroma_of(shape s) { return (size_t)((s.w + 1) / 2) * (s.sampling == SEGVARTIN_YUV422 ? s.h : (s.h + 1) / 2); }

static size_t planes_of(shape s) { return luma_of(s) + 2 * chroma_of(s); }

/* The bytes of a line, its newline counted; or 0. */
static size_t line_of(segvartin_bytes b) {
    const uint8_t *end = memchr(b.at, '\n', b.len < LINE ? b.len : LINE);
    return end == NULL ? 0 : (size_t)(end - b.at) + 1;
}

/* A side is what is printed of it again. */
static uint32_t side_of(const uint8_t *text, size_t len) {
    char digits[6] = {0}, again[24];
    unsigned long n;
    if (len > 5) return 0;
    memcpy(digits, text, len);
    n = strtoul(digits, NULL, 10);
    if (snprintf(again, sizeof again, "%lu", n) != (int)len || memcmp(again, digits, len) != 0 || n > 16384) return 0;
    return (uint32_t)n;
}

static int is_text(const uint8_t *at, size_t len, const char *text) { return len == strlen(text) && memcmp(at, text, len) == 0; }

/* Whether a line is this word and tags, and what the tags say of the pictures. */
static int tags_of(const uint8_t *line, size_t len, const char *word, shape *s) {
    size_t at = strlen(word), end;
    int ws = 0, hs = 0, cs = 0, known = 1;
    memset(s, 0, sizeof *s);
    if (len < at || memcmp(line, word, at) != 0) return 0;
    for (; at < len; at = end) {
        if (line[at] != ' ') return 0;
        end = ++at;
        while (end < len && line[end] != ' ') end++;
        if (end == at) return 0;
        if (line[at] == 'W') ws++, s->w = side_of(line + at + 1, end - at - 1);
        if (line[at] == 'H') hs++, s->h = side_of(line + at + 1, end - at - 1);
        if (line[at] == 'C') {
            cs++;
            if (is_text(line + at, end - at, "C422"))
                s->sampling = SEGVARTIN_YUV422;
            else if (!is_text(line + at, end - at, "C420") && !is_text(line + at, end - at, "C420jpeg") && !is_text(line + at, end - at, "C420mpeg2"))
                known = 0;
        }
    }
    if (ws != 1 || hs != 1 || cs > 1 || s->w == 0 || s->h == 0 || !known) memset(s, 0, sizeof *s);
    return 1;
}

/* The pictures that the test finds, as many as there is room for; their number, or -1 where the bytes are no file. */
static long pictures_of(segvartin_bytes b, shape *s, segvartin_y4m_picture *found, size_t room) {
    size_t line = line_of(b), at = line;
    long count = 0;
    shape none;
    memset(s, 0, sizeof *s);
    if (line == 0 || !tags_of(b.at, line - 1, "YUV4MPEG2", s) || s->w == 0) return memset(s, 0, sizeof *s), -1;
    for (; at < b.len; count++) {
        segvartin_bytes rest = {b.at + at, b.len - at};
        line = line_of(rest);
        if (line == 0 || !tags_of(rest.at, line - 1, "FRAME", &none) || rest.len - line < planes_of(*s)) return memset(s, 0, sizeof *s), -1;
        at += line;
        if ((size_t)count < room) {
            segvartin_y4m_picture p = {at, luma_of(*s), at + luma_of(*s), chroma_of(*s), at + luma_of(*s) + chroma_of(*s), chroma_of(*s)};
            found[count] = p;
        }
        at += planes_of(*s);
    }
    return count;
}

/* The library says of these bytes what the test does; the number of pictures, or -1. */
static long agrees(segvartin_bytes file) {
    enum { ROOM = 3 };
    segvartin_y4m_picture found[ROOM];
    segvartin_y4m_file told = {9, 9, 9, 9};
    lent pictures = lend(ROOM * sizeof *found);
    shape s;
    long count = pictures_of(file, &s, found, ROOM);
    size_t read = 99, few = count < 0 ? 0 : count < ROOM ? (size_t)count : ROOM;
    segvartin_answer a = segvartin_y4m_read(file, 0, (segvartin_y4m_picture *)(void *)pictures.at, ROOM, &told, &read);
    EXPECT(count < 0 ? not_y4m(a) : finished(a));
    EXPECT(told.width == s.w && told.height == s.h && told.sampling == s.sampling && told.count == (count < 0 ? 0 : (size_t)count) && read == few);
    EXPECT(memcmp(pictures.at, found, few * sizeof *found) == 0 && untouched_from(&pictures, few * sizeof *found));
    give_back(&pictures);
    return count;
}

/* ---- files of the test's own making */

/* The line that is written; its length. */
static size_t put_line(uint8_t *at, shape s) {
    char line[LINE];
    int len = snprintf(line, sizeof line, "YUV4MPEG2 W%u H%u F25:1 Ip C%s\n", (unsigned)s.w, (unsigned)s.h, s.sampling ? "422" : "420jpeg");
    if (at != NULL) memcpy(at, line, (size_t)len);
    return (size_t)len;
}

static size_t file_size(shape s, size_t n) { return put_line(NULL, s) + n * (FRAME_LINE + planes_of(s)); }

static void put_planes(uint8_t *at, size_t len, size_t k) {
    for (size_t i = 0; i < len; i++) at[i] = (uint8_t)(7 * k + 13 * i + i / 251);
}

/* The planes of n pictures back to back, and the file of them. */
static lent lend_pictures(shape s, size_t n) {
    lent b = lend(n * planes_of(s));
    for (size_t k = 0; k < n; k++) put_planes(b.at + k * planes_of(s), planes_of(s), k);
    return b;
}

static lent lend_file(shape s, size_t n) {
    lent b = lend(file_size(s, n));
    uint8_t *at = b.at + put_line(b.at, s);
    for (size_t k = 0; k < n; k++) {
        memcpy(at, "FRAME\n", FRAME_LINE);
        put_planes(at + FRAME_LINE, planes_of(s), k);
        at += FRAME_LINE + planes_of(s);
    }
    return b;
}

static segvartin_description describe(shape s) {
    segvartin_description d = {0};
    d.width = s.w, d.height = s.h, d.sampling = s.sampling;
    d.y_stride = s.w, d.u_stride = d.v_stride = (s.w + 1) / 2;
    return d;
}

/* ---- reading */

/* A file without other tags is read from a picture on, with room for so many. */
static void reads(segvartin_bytes file, shape s, size_t n, size_t first, size_t room) {
    lent pictures = lend(room * sizeof(segvartin_y4m_picture));
    const segvartin_y4m_picture *p = (segvartin_y4m_picture *)(void *)pictures.at;
    segvartin_y4m_file told = {9, 9, 9, 9};
    size_t read = 99, left = first < n ? n - first : 0, few = left < room ? left : room;
    EXPECT(finished(segvartin_y4m_read(file, first, (segvartin_y4m_picture *)(void *)pictures.at, room, &told, &read)));
    EXPECT(told.width == s.w && told.height == s.h && told.sampling == s.sampling && told.count == n && read == few);
    for (size_t k = 0; k < few; k++) {
        size_t y = put_line(NULL, s) + (first + k) * (FRAME_LINE + planes_of(s)) + FRAME_LINE, u = y + luma_of(s), v = u + chroma_of(s);
        EXPECT(p[k].y_offset == y && p[k].y_length == luma_of(s));
        EXPECT(p[k].u_offset == u && p[k].u_length == chroma_of(s));
        EXPECT(p[k].v_offset == v && p[k].v_length == chroma_of(s));
        EXPECT(segvartin_y4m_y(file, p + k).at == file.at + y && segvartin_y4m_y(file, p + k).len == luma_of(s));
        EXPECT(segvartin_y4m_u(file, p + k).at == file.at + u && segvartin_y4m_u(file, p + k).len == chroma_of(s));
        EXPECT(segvartin_y4m_v(file, p + k).at == file.at + v && segvartin_y4m_v(file, p + k).len == chroma_of(s));
    }
    EXPECT(untouched_from(&pictures, few * sizeof *p));
    give_back(&pictures);
}

/* The request's own line, byte for byte, and two pictures. */
static void worked_file(void) {
    static const char text[] = "YUV4MPEG2 W4 H2 F25:1 Ip C420jpeg\nFRAME\nabcdefghijklFRAME\nABCDEFGHIJKL";
    static const uint8_t y[13] = "abcd..efgh..", u[7] = "ij.....", v[3] = "kl";
    const shape s = {4, 2, SEGVARTIN_YUV420};
    segvartin_description d = describe(s);
    segvartin_bytes pictures = {(const uint8_t *)"abcdefghijklABCDEFGHIJKL", 24}, none = {(const uint8_t *)"", 0};
    segvartin_bytes y_plane = {y, 12}, u_plane = {u, 7}, v_plane = {v, 2};
    lent file = lend(sizeof text - 1), output = lend(sizeof text + 3);
    segvartin_bytes_mut rest = {output.at + 34, output.len - 34};
    size_t size = 99;
    memcpy(file.at, text, file.len);
    EXPECT(sizeof(segvartin_y4m_picture) == 6 * sizeof(uint64_t));
    for (size_t first = 0; first < 4; first++)
        for (size_t room = 0; room < 4; room++) reads(read_of(&file), s, 2, first, room);
    reads(read_of(&file), s, 2, SIZE_MAX, 2);
    reads(read_of(&file), s, 2, SIZE_MAX / 6 + 1, 2);
    reads(read_of(&file), s, 2, (size_t)1 << 32, 2);
    reads(read_of(&file), s, 2, ((size_t)1 << 32) + 1, 2);
    EXPECT(finished(segvartin_y4m_write(&d, pictures, all(&output), &size)));
    EXPECT(size == file.len && memcmp(output.at, text, file.len) == 0 && untouched_from(&output, file.len));
    give_back(&output);
    output = lend(sizeof text + 3);
    rest.at = output.at + 34;
    EXPECT(finished(segvartin_y4m_write(&d, none, all(&output), &size)));
    EXPECT(size == 34 && memcmp(output.at, text, 34) == 0 && untouched_from(&output, 34));
    d.y_stride = 6, d.u_stride = 7, d.v_stride = 2;
    EXPECT(finished(segvartin_y4m_write_picture(&d, y_plane, u_plane, v_plane, rest, &size)));
    EXPECT(size == 18 && memcmp(output.at, text, 34 + 18) == 0 && untouched_from(&output, 34 + 18));
    give_back(&output);
    give_back(&file);
}

/* What a line says where pictures follow of the shape that it has, or of 4 by 2 in 4:2:0 where it has none. */
static void line_says(const char *line, size_t len, shape says) {
    const shape usual = {4, 2, SEGVARTIN_YUV420};
    size_t planes = planes_of(says.w ? says : usual);
    for (size_t n = 0; n < 3; n++) {
        lent file = lend(len + n * (FRAME_LINE + planes));
        memcpy(file.at, line, len);
        for (size_t k = 0; k < n; k++) memcpy(file.at + len + k * (FRAME_LINE + planes), "FRAME\n", FRAME_LINE);
        EXPECT(agrees(read_of(&file)) == (says.w ? (long)n : -1));
        if (says.w) {
            segvartin_y4m_picture none;
            segvartin_y4m_file told;
            size_t read;
            EXPECT(finished(segvartin_y4m_read(read_of(&file), 0, &none, 0, &told, &read)));
            EXPECT(told.width == says.w && told.height == says.h && told.sampling == says.sampling && told.count == n);
        }
        give_back(&file);
    }
}

/* Lines and what they say. */
static void lines(void) {
    static const struct {
        const char *line;
        shape says;
    } good[] = {
        {"YUV4MPEG2 W4 H2 F25:1 Ip C420jpeg\n", {4, 2, 0}},
        {"YUV4MPEG2 W4 H2\n", {4, 2, 0}},
        {"YUV4MPEG2 H2 W4\n", {4, 2, 0}},
        {"YUV4MPEG2 C422 Ip H2 F25:1 W4\n", {4, 2, 1}},
        {"YUV4MPEG2 W4 H2 C420\n", {4, 2, 0}},
        {"YUV4MPEG2 W4 H2 C420mpeg2\n", {4, 2, 0}},
        {"YUV4MPEG2 W4 H2 C422\n", {4, 2, 1}},
        {"YUV4MPEG2 W5 H3 C422\n", {5, 3, 1}},
        {"YUV4MPEG2 W5 H3 C420\n", {5, 3, 0}},
        {"YUV4MPEG2 W1 H1\n", {1, 1, 0}},
        {"YUV4MPEG2 W16384 H1\n", {16384, 1, 0}},
        {"YUV4MPEG2 W1 H16384 C422\n", {1, 16384, 1}},
        {"YUV4MPEG2 W4 H2 F30000:1001 It A10:11 C420jpeg XYSCSS=420JPEG XCOLORRANGE=LIMITED\n", {4, 2, 0}},
        {"YUV4MPEG2 W4 H2 X X X\n", {4, 2, 0}},
        {"YUV4MPEG2 W4 H2 A A0:0 I? Im F0:0 F Q 9 w\n", {4, 2, 0}},
        {"YUV4MPEG2 W4 H2 XW9 XH9 XC444 w9 h9 c9\n", {4, 2, 0}},
        {"YUV4MPEG2 W4 H2 XFRAME YUV4MPEG2\n", {4, 2, 0}},
        {"YUV4MPEG2 W4 H2 \t\n", {4, 2, 0}}, /* a tab is a tag like others */
        {"YUV4MPEG2 W4 H2 Ip\r\n", {4, 2, 0}},
    };
    static const char *const refused[] = {
        "YUV4MPEG2 W4 H2 A A0:0 I? Im F0:0 F Q 9 W\n", /* W twice */
        "YUV4MPEG2 W4 H2 C420\r\n", "YUV4MPEG2 W4 H2\r\n", "YUV4MPEG2 H2 W4\r\n", "YUV4MPEG2\n", "YUV4MPEG2 W4\n", "YUV4MPEG2 H2\n",
        "YUV4MPEG2  W4 H2\n", "YUV4MPEG2 W4  H2\n", "YUV4MPEG2 W4 H2 \n", "YUV4MPEG2 W4 H2  \n", "YUV4MPEG2 W4 H2 F25:1  C420\n",
        "YUV4MPEG2\tW4 H2\n", "YUV4MPEG2 W4\tH2\n", "YUV4MPEG2W4 H2\n", "YUV4MPEG W4 H2\n", "YUV4MPEG22 W4 H2\n", "yuv4mpeg2 W4 H2\n",
        " YUV4MPEG2 W4 H2\n", "\nYUV4MPEG2 W4 H2\n", "W4 H2 YUV4MPEG2\n", "\n", "YUV4MPEG2 W04 H2\n", "YUV4MPEG2 W4 H02\n",
        "YUV4MPEG2 W0 H2\n", "YUV4MPEG2 W4 H0\n", "YUV4MPEG2 W00 H2\n", "YUV4MPEG2 W H2\n", "YUV4MPEG2 W4 H\n", "YUV4MPEG2 W+4 H2\n",
        "YUV4MPEG2 W-4 H2\n", "YUV4MPEG2 W4 H2.0\n", "YUV4MPEG2 W4x H2\n", "YUV4MPEG2 Wx4 H2\n", "YUV4MPEG2 W=4 H2\n",
        "YUV4MPEG2 W4/ H2\n", /* the bytes on either side of the digits */
        "YUV4MPEG2 W4: H2\n", "YUV4MPEG2 W0x4 H2\n", "YUV4MPEG2 W16385 H2\n", "YUV4MPEG2 W4 H16385\n", "YUV4MPEG2 W65540 H2\n", /* 4 in 16 bits */
        "YUV4MPEG2 W4294967300 H2\n", /* in 32 */
        "YUV4MPEG2 W4 H18446744073709551618\n", /* 2 in 64 */
        "YUV4MPEG2 W340282366920938463463374607431768211460 H2\n", /* 4 in 128 */
        "YUV4MPEG2 W99999 H99999\n", "YUV4MPEG2 W4 H2 W4\n", "YUV4MPEG2 W4 H2 H2\n", "YUV4MPEG2 W4 W4 H2\n", "YUV4MPEG2 W4 H2 Wide\n",
        "YUV4MPEG2 W4 H2 C420 C420\n", "YUV4MPEG2 C422 W4 H2 C420jpeg\n", "YUV4MPEG2 W4 H2 C\n", "YUV4MPEG2 W4 H2 C42\n",
        "YUV4MPEG2 W4 H2 C421\n", "YUV4MPEG2 W4 H2 C420j\n", "YUV4MPEG2 W4 H2 C420jpe\n", "YUV4MPEG2 W4 H2 C420jpegs\n",
        "YUV4MPEG2 W4 H2 C420JPEG\n", "YUV4MPEG2 W4 H2 C420mpeg\n", "YUV4MPEG2 W4 H2 C420mpeg3\n", "YUV4MPEG2 W4 H2 C420mpeg22\n",
        "YUV4MPEG2 W4 H2 C420paldv\n", "YUV4MPEG2 W4 H2 C422jpeg\n", "YUV4MPEG2 W4 H2 C420p10\n", "YUV4MPEG2 W4 H2 C422p10\n",
        "YUV4MPEG2 W4 H2 C411\n", "YUV4MPEG2 W4 H2 C444\n", "YUV4MPEG2 W4 H2 C444alpha\n", "YUV4MPEG2 W4 H2 Cmono\n",
        "YUV4MPEG2 W4 H2 F25:1 Ip C420jpeg", /* no newline */
    };
    static const char with_nul[] = "YUV4MPEG2 W4 H2 X\0 \0\n", nul_in_side[] = "YUV4MPEG2 W4\0 H2\n";
    static const shape usual = {4, 2, 0}, none = {0, 0, 0};
    for (size_t i = 0; i < sizeof good / sizeof *good; i++) line_says(good[i].line, strlen(good[i].line), good[i].says);
    for (size_t i = 0; i < sizeof refused / sizeof *refused; i++) line_says(refused[i], strlen(refused[i]), none);
    line_says(with_nul, sizeof with_nul - 1, usual);
    line_says(nul_in_side, sizeof nul_in_side - 1, none);
}

/* A tag that fills the line up to so many bytes, of the file's line and of a picture's; 200 digits. */
static void long_lines(void) {
    static const shape usual = {4, 2, 0}, none = {0, 0, 0};
    for (size_t len = LINE - 3; len <= LINE + 3; len++) {
        char line[LINE + 4];
        lent file;
        uint8_t *at;
        memset(line, 'x', len);
        memcpy(line, "YUV4MPEG2 W4 H2 X", 17);
        line[len - 1] = '\n';
        line_says(line, len, len <= LINE ? usual : none);
        memset(line + 17, ' ', len - 18);
        line_says(line, len, none);
        file = lend(16 + len + 12);
        memset(file.at, 0, file.len);
        memcpy(file.at, "YUV4MPEG2 W4 H2\n", 16);
        at = file.at + 16;
        memset(at, 'x', len);
        memcpy(at, "FRAME X", 7);
        at[len - 1] = '\n';
        EXPECT(agrees(read_of(&file)) == (len <= LINE ? 1 : -1));
        give_back(&file);
    }
    for (int digit = 0; digit < 10; digit++) {
        char line[LINE];
        memcpy(line, "YUV4MPEG2 W", 11);
        memset(line + 11, '0' + digit, 200);
        memcpy(line + 211, " H2\n", 4);
        line_says(line, 215, none);
    }
}

/* Lines before the planes of a picture. */
static void frame_lines(void) {
    static const struct {
        const char *line;
        int good;
    } cases[] = {
        {"FRAME\n", 1},        {"FRAME Ixyz\n", 1},
        {"FRAME X\n", 1},      {"FRAME W9 H9 C444\n", 1},
        {"FRAME W W W\n", 1},  {"FRAME \r\n", 1},
        {"FRAME \t\n", 1},     {"FRAME FRAME\n", 1},
        {"FRAME \n", 0},       {"FRAME  X\n", 0},
        {"FRAME X \n", 0},     {"FRAME X  Y\n", 0},
        {"FRAMEX\n", 0},       {"FRAMES\n", 0},
        {"FRAM\n", 0},         {"frame\n", 0},
        {" FRAME\n", 0},       {"\n", 0},
        {"\nFRAME\n", 0},      {"FRAME\r\n", 0},
        {"FRAME\tX\n", 0},     {"YUV4MPEG2 W4 H2\n", 0},
        {"XFRAME\n", 0},       {"FRAME", 0},
        {"FRAME\nFRAME\n", 0}, {"", 0},
    };
    for (size_t i = 0; i < sizeof cases / sizeof *cases; i++)
        for (int which = 0; which < 3; which++) { /* the line of the first of three pictures, of the second, of the third */
            size_t len = strlen(cases[i].line), at = 16;
            lent file = lend(16 + len + 2 * FRAME_LINE + 3 * 12);
            memcpy(file.at, "YUV4MPEG2 W4 H2\n", 16);
            for (int k = 0; k < 3; k++) {
                const char *line = k == which ? cases[i].line : "FRAME\n";
                memcpy(file.at + at, line, strlen(line));
                memset(file.at + at + strlen(line), '\n', 12);
                at += strlen(line) + 12;
            }
            EXPECT(at == file.len && agrees(read_of(&file)) == (cases[i].good ? 3 : -1));
            give_back(&file);
        }
}

/* A small file with tags, of two pictures. */
static const char tagged[] = "YUV4MPEG2 H1 W3 Ip C422 X\nFRAME Xa\nabcdefgFRAME\nABCDEFG";

enum { TAGGED = sizeof tagged - 1 };

/* Every byte in each place; it is a plane's, or the two sides say the same of it. */
static void every_byte(void) {
    lent file = lend(TAGGED);
    memcpy(file.at, tagged, TAGGED);
    EXPECT(agrees(read_of(&file)) == 2);
    for (size_t at = 0; at < TAGGED; at++) {
        int plane = (at >= 35 && at < 42) || at >= 48;
        for (int byte = 0; byte < 256; byte++) {
            long count;
            file.at[at] = (uint8_t)byte;
            count = agrees(read_of(&file));
            EXPECT(!plane || count == 2);
        }
        file.at[at] = (uint8_t)tagged[at];
    }
    EXPECT(memcmp(file.at, tagged, TAGGED) == 0);
    give_back(&file);
}

/* A byte put in, taken out, or exchanged with the next one. */
static void bytes_moved(void) {
    static const char put_in[] = " \n0123456789WHCFRAMEIpX\r\t\0\377";
    for (size_t at = 0; at <= TAGGED; at++)
        for (size_t i = 0; i < sizeof put_in - 1; i++) {
            lent file = lend(TAGGED + 1);
            memcpy(file.at, tagged, at);
            file.at[at] = (uint8_t)put_in[i];
            memcpy(file.at + at + 1, tagged + at, TAGGED - at);
            agrees(read_of(&file));
            give_back(&file);
        }
    for (size_t at = 0; at < TAGGED; at++) {
        lent file = lend(TAGGED - 1);
        memcpy(file.at, tagged, at);
        memcpy(file.at + at, tagged + at + 1, TAGGED - at - 1);
        agrees(read_of(&file));
        give_back(&file);
    }
    for (size_t at = 0; at + 1 < TAGGED; at++) {
        lent file = lend(TAGGED);
        memcpy(file.at, tagged, TAGGED);
        file.at[at] = (uint8_t)tagged[at + 1];
        file.at[at + 1] = (uint8_t)tagged[at];
        agrees(read_of(&file));
        give_back(&file);
    }
}

/* A file that ends early has closed pages where it would go on; it is one behind its line and behind each picture. */
static void every_cut(void) {
    for (size_t len = 0; len <= TAGGED; len++) {
        lent file = lend(len);
        memcpy(file.at, tagged, len);
        EXPECT(agrees(read_of(&file)) == (len == 26 ? 0 : len == 42 ? 1 : len == TAGGED ? 2 : -1));
        give_back(&file);
    }
    for (size_t more = 1; more < 30; more++) {
        lent file = lend(TAGGED + more);
        memcpy(file.at, tagged, TAGGED);
        EXPECT(agrees(read_of(&file)) == -1);
        give_back(&file);
    }
}

static const shape several[] = {{1, 1, 0}, {1, 1, 1},  {2, 1, 0},   {1, 2, 0},     {3, 3, 0},    {3, 3, 1},
                                {4, 4, 1}, {17, 9, 0}, {64, 48, 1}, {16384, 1, 0}, {1, 16384, 1}};

enum { SEVERAL = sizeof several / sizeof *several };

/* Every number of pictures to four, from every one on, with room for few and many. */
static void some_files(void) {
    for (size_t i = 0; i < SEVERAL; i++)
        for (size_t n = 0; n <= 4; n++) {
            lent file = lend_file(several[i], n);
            for (size_t first = 0; first <= n + 1; first++)
                for (size_t room = 0; room <= n + 2; room++) reads(read_of(&file), several[i], n, first, room);
            give_back(&file);
        }
}

/* The exported function fills whole sixes of the numbers that it is lent, and no other number. */
static void numbers_lent(void) {
    const shape s = {3, 3, 0};
    lent file = lend_file(s, 3);
    for (size_t lent_numbers = 0; lent_numbers < 25; lent_numbers++) {
        lent entries = lend(lent_numbers * sizeof(uint64_t)), told = lend(5 * sizeof(size_t));
        size_t *five = (size_t *)(void *)told.at, whole = lent_numbers / 6 < 3 ? lent_numbers / 6 : 3;
        uint64_t *numbers = (uint64_t *)(void *)entries.at;
        EXPECT(segvartin_call_y4m_pictures(file.at, file.len, 0, numbers, lent_numbers, five) == 0);
        EXPECT(five[0] == 3 && five[1] == 3 && five[2] == 0 && five[3] == 3 && five[4] == whole);
        EXPECT(untouched_from(&entries, 6 * whole * sizeof(uint64_t)));
        if (whole == 3) EXPECT(numbers[12] == 34 + 2 * 23 + 6 && numbers[13] == 9 && numbers[16] == numbers[12] + 13 && numbers[17] == 4);
        file.at[0]++;
        EXPECT(segvartin_call_y4m_pictures(file.at, file.len, 0, numbers, lent_numbers, five) == SEGVARTIN_MALFORMED_Y4M);
        EXPECT(five[0] == 0 && five[1] == 0 && five[2] == 0 && five[3] == 0 && five[4] == 0);
        EXPECT(untouched_from(&entries, 6 * whole * sizeof(uint64_t)));
        file.at[0]--;
        give_back(&told);
        give_back(&entries);
    }
    give_back(&file);
}

static void *or_exit(void *map) {
    if (map == MAP_FAILED) {
        perror("mmap");
        exit(2);
    }
    return map;
}

/* Of a file only the pages with lines can be touched. */
static void planes_are_not_read(void) {
    static const shape large = {16384, 1001, SEGVARTIN_YUV422};
    size_t page = (size_t)sysconf(_SC_PAGESIZE), n = 5, len = file_size(large, n);
    uint8_t *map = or_exit(mmap(NULL, len + page, PROT_NONE, MAP_PRIVATE | MAP_ANONYMOUS | MAP_NORESERVE, -1, 0)), *file;
    segvartin_bytes bytes;
    file = map + (closed_before ? 0 : page - len % page);
    for (size_t k = 0; k <= n; k++) {
        size_t from = k == 0 ? 0 : put_line(NULL, large) + (k - 1) * (FRAME_LINE + planes_of(large)), start;
        size_t size = k == 0 ? put_line(NULL, large) : FRAME_LINE;
        uint8_t *at = file + from;
        start = (size_t)(at - map) % page;
        if (mprotect(at - start, start + size, PROT_READ | PROT_WRITE) != 0) {
            perror("mprotect");
            exit(2);
        }
        if (k == 0)
            put_line(at, large);
        else
            memcpy(at, "FRAME\n", FRAME_LINE);
    }
    bytes.at = file;
    bytes.len = len;
    reads(bytes, large, n, 0, n);
    reads(bytes, large, n, n - 1, 1);
    bytes.len = len - 1;
    EXPECT(agrees(bytes) == -1);
    munmap(map, len + page);
}

/* ---- writing */

/* Pictures are written to an output of every length near that of the file, and read back. */
static void some_writes(void) {
    for (size_t i = 0; i < SEVERAL; i++)
        for (size_t n = 0; n <= 3; n++) {
            shape s = several[i];
            segvartin_description d = describe(s);
            lent file = lend_file(s, n), pictures = lend_pictures(s, n), kept = lend_pictures(s, n);
            for (size_t len = file.len < 45 ? 0 : file.len - 45; len<file.len + 20; len += file.len> 1000 && len + 5 < file.len ? 7 : 1) {
                lent output = lend(len);
                size_t size = 99;
                segvartin_answer a = segvartin_y4m_write(&d, read_of(&pictures), all(&output), &size);
                EXPECT(size == file.len);
                if (len < file.len)
                    EXPECT(short_output(a) && untouched(&output));
                else {
                    segvartin_bytes written = {output.at, size};
                    EXPECT(finished(a) && memcmp(output.at, file.at, size) == 0 && untouched_from(&output, size));
                    reads(written, s, n, 0, n);
                }
                give_back(&output);
            }
            EXPECT(memcmp(pictures.at, kept.at, kept.len) == 0);
            give_back(&kept);
            give_back(&pictures);
            give_back(&file);
        }
}

/* Sides and codes that are refused, whatever the pictures and the output are; strides and other settings are not looked at. */
static void refused_shapes(void) {
    static const shape cases[] = {
        {0, 2, 0},          {4, 0, 0}, {0, 0, 0}, {16385, 2, 0}, {4, 16385, 0},      {65540, 2, 0}, {4, 65538, 1},   {UINT32_MAX, UINT32_MAX, 0},
        {UINT32_MAX, 2, 1}, {4, 2, 2}, {4, 2, 3}, {4, 2, 255},   {4, 2, UINT32_MAX}, {4, 2, 256},   {4, 2, 0x10000}, {0x80000004, 2, 0},
    };
    static const size_t lens[4] = {0, 12, 16, 24}, outputs[3] = {0, 20, 200};
    for (size_t c = 0; c < sizeof cases / sizeof *cases; c++)
        for (int l = 0; l < 4; l++)
            for (int o = 0; o < 3; o++) {
                lent pictures = lend(lens[l]), output = lend(outputs[o]), y = lend(8), u = lend(2), v = lend(2);
                segvartin_description d = describe(cases[c]);
                size_t size = 99;
                EXPECT(not_y4m(segvartin_y4m_write(&d, read_of(&pictures), all(&output), &size)) && size == 0 && untouched(&output));
                size = 99;
                EXPECT(not_y4m(segvartin_y4m_write_picture(&d, read_of(&y), read_of(&u), read_of(&v), all(&output), &size)));
                EXPECT(size == 0 && untouched(&output));
                d.y_stride = 4, d.u_stride = d.v_stride = 2;
                EXPECT(not_y4m(segvartin_y4m_write_picture(&d, read_of(&y), read_of(&u), read_of(&v), all(&output), &size)) && size == 0);
                give_back(&v);
                give_back(&u);
                give_back(&y);
                give_back(&output);
                give_back(&pictures);
            }
    {
        const shape s = {4, 2, 0};
        segvartin_description d = describe(s);
        lent pictures = lend_pictures(s, 1), output = lend(file_size(s, 1)), file = lend_file(s, 1);
        size_t size = 99;
        d.y_stride = 0, d.u_stride = 77, d.v_stride = UINT32_MAX, d.channels = 99, d.range = 99, d.matrix = 99, d.transfer = 99;
        d.kr = d.kb = 9;
        EXPECT(finished(segvartin_y4m_write(&d, read_of(&pictures), all(&output), &size)) && size == file.len);
        EXPECT(memcmp(output.at, file.at, size) == 0);
        give_back(&file);
        give_back(&output);
        give_back(&pictures);
    }
}

/* Pictures that end early, at every byte, or have more behind them: 19, also where the output is too short. */
static void broken_pictures(void) {
    static const shape shapes[3] = {{3, 3, 0}, {3, 3, 1}, {1, 1, 0}};
    for (int i = 0; i < 3; i++) {
        segvartin_description d = describe(shapes[i]);
        size_t planes = planes_of(shapes[i]);
        for (size_t len = 0; len <= 3 * planes + 2; len++) {
            lent pictures = lend(len), output = lend(200);
            segvartin_bytes_mut nothing = {output.at, 0};
            size_t size = 99;
            segvartin_answer a = segvartin_y4m_write(&d, read_of(&pictures), all(&output), &size);
            if (len % planes == 0) {
                EXPECT(finished(a) && size == file_size(shapes[i], len / planes));
                EXPECT(short_output(segvartin_y4m_write(&d, read_of(&pictures), nothing, &size)) && size == file_size(shapes[i], len / planes));
            } else {
                EXPECT(not_y4m(a) && size == 0 && untouched(&output));
                EXPECT(not_y4m(segvartin_y4m_write(&d, read_of(&pictures), nothing, &size)) && size == 0);
            }
            give_back(&output);
            give_back(&pictures);
        }
    }
}

/* ---- pictures from planes */

typedef struct planes {
    lent y, u, v;
} planes;

static planes lend_planes(const segvartin_description *d) {
    size_t rows = d->sampling == SEGVARTIN_YUV422 ? d->height : d->height / 2 + d->height % 2;
    planes p = {lend(d->y_stride * (size_t)d->height), lend(d->u_stride * rows), lend(d->v_stride * rows)};
    return p;
}

static void give_back_planes(planes *p) {
    give_back(&p->y);
    give_back(&p->u);
    give_back(&p->v);
}

/* Whether a plane has the first bytes of each row of a lent plane. */
static int same_rows(segvartin_bytes plane, const lent *b, uint32_t row, uint32_t stride) {
    if (plane.len / row * stride != b->len) return 0;
    for (size_t r = 0; r * row < plane.len; r++)
        if (memcmp(plane.at + r * row, b->at + r * stride, row) != 0) return 0;
    return 1;
}

static segvartin_answer make(const segvartin_description *d, const planes *p, lent *picture, size_t *size) {
    return segvartin_y4m_write_picture(d, read_of(&p->y), read_of(&p->u), read_of(&p->v), all(picture), size);
}

/* A picture of planes with these paddings, for outputs around its length. */
static void one_picture(shape s, uint32_t y_padding, uint32_t u_padding, uint32_t v_padding) {
    segvartin_description d = describe(s);
    size_t len = FRAME_LINE + planes_of(s);
    uint32_t chroma = (s.w + 1) / 2;
    planes p;
    d.y_stride += y_padding, d.u_stride += u_padding, d.v_stride += v_padding;
    p = lend_planes(&d);
    for (size_t output_len = len < 12 ? 0 : len - 12; output_len < len + 4; output_len++) {
        lent picture = lend(output_len);
        size_t size = 99;
        segvartin_answer a = make(&d, &p, &picture, &size);
        EXPECT(size == len);
        if (output_len < len)
            EXPECT(short_output(a) && untouched(&picture));
        else {
            segvartin_bytes y = {picture.at + FRAME_LINE, luma_of(s)}, u = {y.at + y.len, chroma_of(s)}, v = {u.at + u.len, u.len};
            EXPECT(finished(a) && memcmp(picture.at, "FRAME\n", FRAME_LINE) == 0 && untouched_from(&picture, len));
            EXPECT(same_rows(y, &p.y, s.w, d.y_stride) && same_rows(u, &p.u, chroma, d.u_stride) && same_rows(v, &p.v, chroma, d.v_stride));
        }
        give_back(&picture);
    }
    EXPECT(untouched(&p.y) && untouched(&p.u) && untouched(&p.v));
    give_back_planes(&p);
}

static void pictures_from_planes(void) {
    static const shape large[] = {{640, 480, 0}, {640, 481, 1}, {16384, 2, 0}, {1, 16384, 1}, {33, 16384, 0}};
    for (uint32_t w = 1; w < 10; w++)
        for (uint32_t h = 1; h < 6; h++)
            for (uint32_t sampling = 0; sampling < 2; sampling++) {
                shape s = {w, h, sampling};
                one_picture(s, w % 3, h % 4, (w + h) % 3);
                one_picture(s, 0, 0, 0);
            }
    for (uint32_t i = 0; i < sizeof large / sizeof *large; i++) one_picture(large[i], 64 * (i % 2), i % 3, 31 * (i % 4 / 2));
}

/* Planes of 5 by 3 with strides 8, 4, 5, one number changed; refused whatever the output is. */
static void refused_planes(void) {
    static const struct {
        uint32_t sampling, y_stride, u_stride, v_stride;
        size_t y_len, u_len, v_len;
    } cases[] = {
        {0, 4, 4, 5, 12, 8, 10},          {0, 4, 4, 5, 24, 8, 10},
        {0, 0, 4, 5, 0, 8, 10},           {0, 0, 0, 0, 0, 0, 0},
        {0, 8, 4, 5, 23, 8, 10},          {0, 8, 4, 5, 25, 8, 10},
        {0, 8, 4, 5, 21, 8, 10},          {0, 8, 4, 5, 0, 8, 10},
        {0, 8, 4, 5, 16, 8, 10},          {0, 8, 4, 5, 32, 8, 10},
        {0, 8, 2, 5, 24, 4, 10},          {0, 8, 2, 5, 24, 8, 10},
        {0, 8, 0, 5, 24, 0, 10},          {0, 8, 4, 5, 24, 7, 10},
        {0, 8, 4, 5, 24, 9, 10},          {0, 8, 4, 5, 24, 4, 10},
        {0, 8, 4, 5, 24, 12, 10},         {0, 8, 4, 2, 24, 8, 4},
        {0, 8, 4, 2, 24, 8, 10},          {0, 8, 4, 0, 24, 8, 0},
        {0, 8, 4, 5, 24, 8, 9},           {0, 8, 4, 5, 24, 8, 11},
        {0, 8, 4, 5, 24, 8, 5},           {0, 8, 4, 5, 24, 8, 15},
        {1, 8, 4, 5, 24, 8, 15},          {1, 8, 4, 5, 24, 12, 10},
        {1, 8, 4, 5, 24, 8, 10},          {1, 8, 2, 5, 24, 6, 15},
        {1, 8, 4, 2, 24, 12, 6},          {1, 4, 4, 5, 12, 12, 15},
        {0, UINT32_MAX, 4, 5, 24, 8, 10}, {0, 8, UINT32_MAX, 5, 24, 8, 10},
        {0, 8, 4, UINT32_MAX, 24, 8, 10}, {1, 0x80000008, 4, 5, 24, 12, 15},
        {0, 8, 0x80000004, 5, 24, 8, 10}, /* times 2, in 32 bits */
    };
    static const size_t outputs[4] = {0, 32, 33, 100};
    const shape s = {5, 3, 0}, t = {5, 3, 1};
    for (size_t c = 0; c < sizeof cases / sizeof *cases; c++)
        for (int o = 0; o < 4; o++) {
            segvartin_description d = describe(cases[c].sampling ? t : s);
            planes p = {lend(cases[c].y_len), lend(cases[c].u_len), lend(cases[c].v_len)};
            lent picture = lend(outputs[o]);
            size_t size = 99;
            d.y_stride = cases[c].y_stride, d.u_stride = cases[c].u_stride, d.v_stride = cases[c].v_stride;
            EXPECT(not_y4m(make(&d, &p, &picture, &size)) && size == 0 && untouched(&picture));
            give_back(&picture);
            give_back_planes(&p);
        }
    one_picture(s, 3, 1, 2);
    one_picture(t, 3, 1, 2);
}

/* A file made picture by picture is that of all planes at once, after each picture. */
static void picture_by_picture(void) {
    for (size_t i = 0; i < SEVERAL; i++) {
        shape s = several[i];
        segvartin_description d = describe(s);
        lent pictures = lend_pictures(s, 3), output = lend(file_size(s, 3)), whole = lend(file_size(s, 3));
        segvartin_bytes none = {pictures.at, 0};
        size_t used = 0, size = 99;
        EXPECT(finished(segvartin_y4m_write(&d, none, all(&output), &used)));
        for (size_t k = 0; k < 3; k++) {
            const uint8_t *at = pictures.at + k * planes_of(s);
            segvartin_bytes y = {at, luma_of(s)}, u = {at + y.len, chroma_of(s)}, v = {u.at + u.len, u.len};
            segvartin_bytes so_far = {pictures.at, (k + 1) * planes_of(s)};
            segvartin_bytes_mut rest = {output.at + used, output.len - used};
            EXPECT(finished(segvartin_y4m_write_picture(&d, y, u, v, rest, &size)));
            used += size;
            EXPECT(finished(segvartin_y4m_write(&d, so_far, all(&whole), &size)));
            EXPECT(size == used && memcmp(output.at, whole.at, used) == 0);
        }
        EXPECT(used == output.len);
        give_back(&whole);
        give_back(&output);
        give_back(&pictures);
    }
}

/* Frames converted, each a picture behind the one before, and read back; in both samplings, with padding. */
static void frames_to_a_file(void) {
    for (uint32_t sampling = 0; sampling < 2; sampling++) {
        const shape s = {13, 7, sampling};
        segvartin_description d = describe(s);
        segvartin_y4m_picture found[3];
        segvartin_y4m_file told;
        segvartin_bytes bytes, none = {(const uint8_t *)"", 0};
        lent output = lend(file_size(s, 3));
        planes p[3];
        size_t used, size, read;
        d.y_stride += 3, d.u_stride += 1, d.v_stride += 2;
        EXPECT(finished(segvartin_y4m_write(&d, none, all(&output), &used)));
        for (uint32_t k = 0; k < 3; k++) {
            lent source = lend(3 * luma_of(s));
            segvartin_bytes_mut rest = {output.at + used, output.len - used};
            for (size_t i = 0; i < source.len; i++) source.at[i] = (uint8_t)(source.at[i] * (k + 1));
            p[k] = lend_planes(&d);
            EXPECT(finished(segvartin_convert_frame(&d, read_of(&source), 3 * s.w, all(&p[k].y), all(&p[k].u), all(&p[k].v))));
            EXPECT(finished(segvartin_y4m_write_picture(&d, segvartin_read_only(all(&p[k].y)), segvartin_read_only(all(&p[k].u)),
                                                        segvartin_read_only(all(&p[k].v)), rest, &size)));
            used += size;
            give_back(&source);
        }
        bytes.at = output.at;
        bytes.len = used;
        EXPECT(finished(segvartin_y4m_read(bytes, 0, found, 3, &told, &read)) && told.count == 3 && read == 3 && told.sampling == sampling);
        for (uint32_t k = 0; k < 3; k++) {
            EXPECT(same_rows(segvartin_y4m_y(bytes, found + k), &p[k].y, s.w, d.y_stride));
            EXPECT(same_rows(segvartin_y4m_u(bytes, found + k), &p[k].u, 7, d.u_stride));
            EXPECT(same_rows(segvartin_y4m_v(bytes, found + k), &p[k].v, 7, d.v_stride));
            give_back_planes(p + k);
        }
        give_back(&output);
    }
}

/* ---- 12 pictures of the largest size: 4,831,838,323 bytes */

static const shape largest = {16384, 16384, SEGVARTIN_YUV420};

enum { LARGE = 12 };

/* A sparse file, of which the lines are written, on a memory map. */
static void large_file(void) {
    size_t len = file_size(largest, LARGE), mapped = len + ((size_t)1 << 32);
    uint8_t line[LINE];
    size_t start = put_line(line, largest);
    FILE *sparse = tmpfile();
    segvartin_bytes file;
    EXPECT(len > 1ull << 32);
    if (sparse == NULL || ftruncate(fileno(sparse), (off_t)mapped) != 0) {
        perror("a sparse file");
        exit(2);
    }
    if (pwrite(fileno(sparse), line, start, 0) != (ssize_t)start) exit(2);
    for (size_t k = 0; k < LARGE; k++)
        if (pwrite(fileno(sparse), "FRAME\n", FRAME_LINE, (off_t)(start + k * (FRAME_LINE + planes_of(largest)))) != FRAME_LINE) exit(2);
    file.at = or_exit(mmap(NULL, mapped, PROT_READ, MAP_PRIVATE | MAP_NORESERVE, fileno(sparse), 0));
    file.len = len;
    reads(file, largest, LARGE, 0, LARGE);
    reads(file, largest, LARGE, LARGE - 1, 1);
    file.len = len + 1;
    EXPECT(agrees(file) == -1);
    file.len = len - 1;
    EXPECT(agrees(file) == -1);
    file.len = len & 0xffffffff;
    EXPECT(agrees(file) == -1);
    file.len = mapped; /* the same in 32 bits */
    EXPECT(agrees(file) == -1);
    munmap((void *)(uintptr_t)file.at, mapped);
    fclose(sparse);
}

/*
 * A file of as many bytes, written. The pictures are pages of zeros. Of the output the pages with lines are memory of their own; all others are the
 * same few pages again and again.
 */
static void large_write(void) {
    size_t page = (size_t)sysconf(_SC_PAGESIZE), len = file_size(largest, LARGE), body = LARGE * planes_of(largest), size = 99;
    size_t tile = 1 << 24, mapped = (len / tile + 2) * tile, start = put_line(NULL, largest);
    uint8_t *pictures = or_exit(mmap(NULL, body, PROT_READ, MAP_PRIVATE | MAP_ANONYMOUS | MAP_NORESERVE, -1, 0));
    uint8_t *output = or_exit(mmap(NULL, mapped, PROT_NONE, MAP_PRIVATE | MAP_ANONYMOUS | MAP_NORESERVE, -1, 0)), line[LINE];
    segvartin_description d = describe(largest);
    segvartin_bytes from = {pictures, body};
    segvartin_bytes_mut to = {output, len};
    FILE *few = tmpfile();
    if (few == NULL || ftruncate(fileno(few), (off_t)tile) != 0) {
        perror("a file");
        exit(2);
    }
    for (size_t at = 0; at < mapped; at += tile) or_exit(mmap(output + at, tile, PROT_READ | PROT_WRITE, MAP_SHARED | MAP_FIXED, fileno(few), 0));
    for (size_t k = 0; k < LARGE; k++) {
        size_t at = start + k * (FRAME_LINE + planes_of(largest));
        or_exit(mmap(output + at / page * page, 2 * page, PROT_READ | PROT_WRITE, MAP_PRIVATE | MAP_ANONYMOUS | MAP_FIXED, -1, 0));
    }
    to.len = len - 1;
    EXPECT(short_output(segvartin_y4m_write(&d, from, to, &size)) && size == len && output[0] == 0);
    to.len = len & 0xffffffff;
    EXPECT(short_output(segvartin_y4m_write(&d, from, to, &size)) && size == len && output[0] == 0);
    to.len = len;
    EXPECT(finished(segvartin_y4m_write(&d, from, to, &size)) && size == len);
    put_line(line, largest);
    EXPECT(memcmp(output, line, start) == 0);
    reads(segvartin_read_only(to), largest, LARGE, 0, LARGE);
    from.len = body - 1;
    EXPECT(not_y4m(segvartin_y4m_write(&d, from, to, &size)) && size == 0);
    fclose(few);
    munmap(output, mapped);
    munmap(pictures, body);
}

int main(int argc, char **argv) {
    if (argc > 1 && strcmp(argv[1], "large") == 0) {
        large_file();
        large_write();
        return finish("Y4M files past 4 GiB");
    }
    for (closed_before = 0; closed_before < 2; closed_before++) {
        worked_file();
        lines();
        long_lines();
        frame_lines();
        every_byte();
        bytes_moved();
        every_cut();
        some_files();
        numbers_lent();
        planes_are_not_read();
        some_writes();
        refused_shapes();
        broken_pictures();
        pictures_from_planes();
        refused_planes();
        picture_by_picture();
        frames_to_a_file();
    }
    return finish("y4m");
}
