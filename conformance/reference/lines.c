/*
 * Calls in lines: a call on each line of standard input, its answer as a line of standard output, both as conformance/README.md
 * describes them: LINES in the comments below. It makes its calls by reference.h, and so drives whatever is linked behind that.
 */
#include "reference.h"
#include "request.h"

#include <stdio.h>
#include <stdlib.h>
#include <string.h>

static struct reference_tables tables;

/* LINES: the line that is read, and the place in it from which the next word is taken. */
static char *line;
static size_t line_room;
static char *next_word;

/* LINES: the words of the answer so far are counted, so that a space stands between two. */
static unsigned words_written;

/* Ends the program: a line is not of the form, or there is no memory. */
static void fail(const char *why)
{
    fflush(stdout);
    fprintf(stderr, "lines: %s\n", why);
    exit(EXIT_FAILURE);
}

/* LINES: reads a line of any length; 0 at the end of the input. */
static int read_line(void)
{
    size_t length = 0;

    for (;;) {
        if (line_room - length < 2) {
            line_room = line_room == 0 ? 65536 : 2 * line_room;
            line = realloc(line, line_room);
            if (line == NULL) {
                fail("no memory");
            }
        }
        line[length] = '\0';
        if (fgets(line + length, line_room - length > 1048576 ? 1048576 : (int)(line_room - length), stdin) == NULL) {
            return length > 0;
        }
        length += strlen(line + length);
        if (line[length - 1] == '\n') {
            line[length - 1] = '\0';
            return 1;
        }
    }
}

/* LINES: the next word of the line. */
static char *read_word(void)
{
    char *word = next_word;
    char *space = strchr(word, ' ');

    if (*word == '\0') {
        fail("a line ends early");
    }
    next_word = space == NULL ? word + strlen(word) : space + 1;
    if (space != NULL) {
        *space = '\0';
    }
    return word;
}

/* LINES: a number in decimal digits, of up to 64 bits. */
static uint64_t read_number(void)
{
    const char *word = read_word();
    uint64_t number = 0;

    for (; *word != '\0'; word++) {
        uint64_t digit = (uint64_t)(*word - '0');

        if (*word < '0' || *word > '9' || number > (UINT64_MAX - digit) / 10) {
            fail("a word is no number");
        }
        number = 10 * number + digit;
    }
    return number;
}

/* LINES: a number of up to 32 bits. */
static uint32_t read_number32(void)
{
    uint64_t number = read_number();

    if (number > UINT32_MAX) {
        fail("a number has more than 32 bits");
    }
    return (uint32_t)number;
}

static unsigned digit_of(char digit)
{
    if (digit >= '0' && digit <= '9') {
        return (unsigned)(digit - '0');
    }
    if (digit < 'a' || digit > 'f') {
        fail("a word is not hexadecimal");
    }
    return (unsigned)(digit - 'a') + 10;
}

/* LINES: the bits of a binary32 number, eight hexadecimal digits. */
static uint32_t read_bits(void)
{
    const char *word = read_word();
    uint32_t bits = 0;

    if (strlen(word) != 8) {
        fail("bits are not eight digits");
    }
    for (; *word != '\0'; word++) {
        bits = bits << 4 | digit_of(*word);
    }
    return bits;
}

/* LINES: bytes in hexadecimal, `-` for none. They are put where their digits stand, which nobody needs any more. */
static struct reference_buffer read_buffer(void)
{
    char *word = read_word();
    struct reference_buffer buffer;
    size_t place = 0;

    buffer.bytes = (uint8_t *)word;
    buffer.length = 0;
    if (strcmp(word, "-") == 0) {
        return buffer;
    }
    for (; word[place] != '\0'; place += 2) {
        unsigned upper = digit_of(word[place]);

        buffer.bytes[place / 2] = (uint8_t)(upper << 4 | digit_of(word[place + 1]));
    }
    buffer.length = place / 2;
    return buffer;
}

/* LINES: bytes that are only read. */
static struct reference_bytes read_bytes(void)
{
    struct reference_buffer buffer = read_buffer();
    struct reference_bytes bytes;

    bytes.bytes = buffer.bytes;
    bytes.length = buffer.length;
    return bytes;
}

/* LINES: a description. */
static void read_description(struct reference_description *frame)
{
    frame->width = read_number32();
    frame->height = read_number32();
    frame->channel_order = read_number32();
    frame->sampling = read_number32();
    frame->range = read_number32();
    frame->matrix = read_number32();
    frame->kr_bits = read_bits();
    frame->kb_bits = read_bits();
    frame->transfer = read_number32();
    frame->y_stride = read_number32();
    frame->u_stride = read_number32();
    frame->v_stride = read_number32();
    frame->rounding = read_number32();
    frame->left = read_number32();
    frame->top = read_number32();
    frame->source_width = read_number32();
    frame->source_height = read_number32();
}

/* LINES: a source, its stride and its bytes. */
static struct reference_source read_source(void)
{
    struct reference_source source;
    struct reference_bytes bytes;

    source.stride = read_number32();
    bytes = read_bytes();
    source.bytes = bytes.bytes;
    source.length = bytes.length;
    return source;
}

/* LINES: Y, U and V. */
static struct reference_planes read_planes(void)
{
    struct reference_planes planes;

    planes.y = read_buffer();
    planes.u = read_buffer();
    planes.v = read_buffer();
    return planes;
}

static void write_space(void)
{
    if (words_written > 0) {
        putchar(' ');
    }
    words_written++;
}

static void write_number(uint64_t number)
{
    write_space();
    printf("%llu", (unsigned long long)number);
}

static void write_bytes(const uint8_t *bytes, uint64_t length)
{
    static const char digits[] = "0123456789abcdef";
    char text[4096];
    size_t filled = 0;
    size_t place;

    write_space();
    if (length == 0) {
        putchar('-');
    }
    for (place = 0; place < length; place++) {
        text[filled] = digits[bytes[place] >> 4];
        text[filled + 1] = digits[bytes[place] & 15];
        filled += 2;
        if (filled == sizeof text) {
            fwrite(text, 1, filled, stdout);
            filled = 0;
        }
    }
    fwrite(text, 1, filled, stdout);
}

static void write_buffer(const struct reference_buffer *buffer)
{
    write_bytes(buffer->bytes, buffer->length);
}

/* RULES 7.1: number, expected, received. */
static void write_answer(const struct reference_answer *answer)
{
    write_number(answer->number);
    write_number(answer->expected);
    write_number(answer->received);
}

static void write_planes(const struct reference_planes *planes)
{
    write_buffer(&planes->y);
    write_buffer(&planes->u);
    write_buffer(&planes->v);
}

/* RULES 9.1 to 9.3. */
static void call_request(void)
{
    static uint8_t reply[REQUEST_REPLY_BYTES];
    struct reference_bytes request = read_bytes();

    write_bytes(reply, request_reply(&tables, request.bytes, request.length, reply));
}

/* RULES 7.8. */
static void call_frame(void)
{
    struct reference_description frame;
    struct reference_source source;
    struct reference_planes planes;
    struct reference_answer answer;

    read_description(&frame);
    source = read_source();
    planes = read_planes();
    answer = reference_frame(&tables, &frame, &source, &planes);
    write_answer(&answer);
    write_planes(&planes);
}

/* RULES 8.1. */
static void call_open(void)
{
    struct reference_description frame;
    struct reference_state state;
    struct reference_answer answer;

    read_description(&frame);
    answer = reference_open(&frame, &state);
    write_answer(&answer);
    write_number(state.rows_done);
}

/* RULES 8.2: the call on a state, which is left as the call leaves it. */
static void make_band(struct reference_state *state, const struct reference_planes *planes, const struct reference_buffer *carried,
                      uint32_t rows, const struct reference_source *source)
{
    struct reference_answer answer = reference_band(&tables, state, rows, source, planes, carried);

    write_answer(&answer);
    write_number(state->rows_done);
    write_planes(planes);
    write_buffer(carried);
}

/* RULES 8.2: on any state. */
static void call_band(void)
{
    struct reference_state state;
    struct reference_source source;
    struct reference_planes planes;
    struct reference_buffer carried;
    uint32_t rows;

    read_description(&state.frame);
    state.rows_done = read_number32();
    rows = read_number32();
    source = read_source();
    planes = read_planes();
    carried = read_buffer();
    make_band(&state, &planes, &carried, rows, &source);
}

/* RULES 8.9: an opening, and band calls that are each given what the one before left. */
static void call_bands(void)
{
    struct reference_description frame;
    struct reference_state state;
    struct reference_planes planes;
    struct reference_buffer carried;
    struct reference_answer answer;
    uint32_t calls;

    read_description(&frame);
    planes = read_planes();
    carried = read_buffer();
    answer = reference_open(&frame, &state);
    write_answer(&answer);
    write_number(state.rows_done);
    for (calls = read_number32(); calls > 0; calls--) {
        uint32_t rows = read_number32();
        struct reference_source source = read_source();

        make_band(&state, &planes, &carried, rows, &source);
    }
}

/* RULES 5.3. */
static void call_counts(void)
{
    uint32_t numbers[2];
    uint32_t counts[REFERENCE_LUMAS];
    struct reference_answer answer;
    uint32_t kr;
    unsigned y;

    numbers[0] = read_number32();
    numbers[1] = read_number32();
    kr = read_bits();
    answer = reference_luma_counts(numbers, 2, kr, read_bits(), counts);
    write_answer(&answer);
    for (y = 0; answer.number == REFERENCE_ACCEPTED && y < REFERENCE_LUMAS; y++) {
        write_number(counts[y]);
    }
}

#ifndef WITHOUT_TABLES
/* RULES 3.4. */
static void call_linear(void)
{
    uint32_t transfer = read_number32();
    uint32_t rounding = read_number32();
    unsigned v;

    for (v = 0; v < 256; v++) {
        write_number(tables.linear[rounding][transfer][v]);
    }
}

/* RULES 3.5. */
static void call_gamma(void)
{
    uint32_t transfer = read_number32();
    uint32_t rounding = read_number32();
    uint32_t i;

    for (i = 0; i < 65536; i++) {
        write_number(tables.gamma[rounding][transfer][i]);
    }
}
#endif

/* RULES 11.4: the room is in entries; those that were written are told. */
static void read_shift_file(int any)
{
    uint64_t first = read_number();
    uint32_t room = read_number32();
    struct reference_bytes file = read_bytes();
    uint64_t width = any ? REFERENCE_ANY_ENTRY_NUMBERS : REFERENCE_ENTRY_NUMBERS;
    uint64_t *numbers = calloc((size_t)room + 1, (size_t)width * sizeof *numbers);
    struct reference_answer answer;
    uint64_t records;
    uint64_t entries;
    uint64_t form = 0;
    uint64_t number;

    if (numbers == NULL) {
        fail("no memory");
    }
    if (any) {
        answer = reference_shift_records_any(&file, first, numbers, room * width, &records, &entries, &form);
    } else {
        answer = reference_shift_records(&file, first, numbers, room * width, &records, &entries);
    }
    write_answer(&answer);
    write_number(records);
    write_number(entries);
    if (any) {
        write_number(form);
    }
    for (number = 0; number < entries * width; number++) {
        write_number(numbers[(size_t)number]);
    }
    free(numbers);
}

static void call_read(void)
{
    read_shift_file(0);
}

static void call_read_any(void)
{
    read_shift_file(1);
}

/* RULES 11.5, 11.6, 11.8: the answer, the size that is told, and the output. */
static void write_output(const struct reference_answer *answer, uint64_t size, const struct reference_buffer *output)
{
    write_answer(answer);
    write_number(size);
    write_buffer(output);
}

/* RULES 11.5. */
static void call_write(void)
{
    uint32_t form = read_number32();
    struct reference_bytes records = read_bytes();
    struct reference_buffer output = read_buffer();
    uint64_t size;
    struct reference_answer answer = reference_shift_write(form, &records, &output, &size);

    write_output(&answer, size, &output);
}

static void read_strides(struct reference_plane *planes)
{
    unsigned place;

    for (place = 0; place < REFERENCE_PLANES; place++) {
        planes[place].stride = read_number32();
    }
}

static void read_plane_bytes(struct reference_plane *planes)
{
    unsigned place;

    for (place = 0; place < REFERENCE_PLANES; place++) {
        struct reference_bytes bytes = read_bytes();

        planes[place].bytes = bytes.bytes;
        planes[place].length = bytes.length;
    }
}

/* RULES 11.6: without settings, or with the four numbers behind the strides. */
static void make_record(int with_settings)
{
    uint32_t crossing = read_number32();
    uint32_t width = read_number32();
    uint32_t height = read_number32();
    uint32_t settings[REFERENCE_SETTINGS];
    struct reference_plane planes[REFERENCE_PLANES];
    struct reference_buffer output;
    struct reference_answer answer;
    uint64_t size;
    unsigned place;

    read_strides(planes);
    for (place = 0; with_settings && place < REFERENCE_SETTINGS; place++) {
        settings[place] = read_number32();
    }
    read_plane_bytes(planes);
    output = read_buffer();
    answer = reference_shift_record(crossing, width, height, with_settings ? settings : NULL, planes, &output, &size);
    write_output(&answer, size, &output);
}

static void call_record(void)
{
    make_record(0);
}

static void call_record_settings(void)
{
    make_record(1);
}

/* RULES 11.8: to the form that is named. */
static void call_move(void)
{
    uint32_t to = read_number32();
    struct reference_bytes file = read_bytes();
    struct reference_buffer output = read_buffer();
    uint64_t size;
    struct reference_answer answer = reference_shift_move(to, &file, &output, &size);

    write_output(&answer, size, &output);
}

/* RULES 12.4. */
static void call_build(void)
{
    struct reference_bytes file = read_bytes();
    struct reference_buffer summary = read_buffer();
    struct reference_answer answer = reference_summary_build(&file, &summary);

    write_answer(&answer);
    write_buffer(&summary);
}

/* RULES 12.5. */
static void call_check(void)
{
    struct reference_bytes file = read_bytes();
    struct reference_bytes summary = read_bytes();
    uint64_t yes;
    struct reference_answer answer = reference_summary_check(&file, &summary, &yes);

    write_answer(&answer);
    write_number(yes);
}

/* RULES 12.6. */
static void call_find(void)
{
    uint32_t crossing = read_number32();
    struct reference_bytes file = read_bytes();
    struct reference_bytes summary = read_bytes();
    uint64_t found;
    uint64_t record;
    struct reference_answer answer = reference_summary_find(&file, &summary, crossing, &found, &record);

    write_answer(&answer);
    write_number(found);
    write_number(record);
}

/* RULES 12.7. */
static void call_update(void)
{
    struct reference_bytes file = read_bytes();
    struct reference_bytes record = read_bytes();
    struct reference_buffer summary = read_buffer();
    struct reference_answer answer = reference_summary_update(&file, &record, &summary);

    write_answer(&answer);
    write_buffer(&summary);
}

/* RULES 13.4. */
static void call_pair(void)
{
    struct reference_bytes ours = read_bytes();
    struct reference_bytes theirs = read_bytes();
    uint64_t report[REFERENCE_REPORT_NUMBERS];
    uint64_t none;
    struct reference_answer answer = reference_shift_pairs(&ours, &theirs, report, &none);
    unsigned number;

    write_answer(&answer);
    write_number(none);
    for (number = 0; answer.number == REFERENCE_ACCEPTED && number < REFERENCE_REPORT_NUMBERS; number++) {
        write_number(report[number]);
    }
}

/* RULES 14.5: the room is in entries; those that were written are told. */
static void call_y4m_read(void)
{
    uint64_t first = read_number();
    uint32_t room = read_number32();
    struct reference_bytes file = read_bytes();
    uint64_t *numbers = calloc((size_t)room + 1, REFERENCE_Y4M_NUMBERS * sizeof *numbers);
    struct reference_y4m told;
    struct reference_answer answer;
    uint64_t number;

    if (numbers == NULL) {
        fail("no memory");
    }
    answer = reference_y4m_pictures(&file, first, numbers, (uint64_t)room * REFERENCE_Y4M_NUMBERS, &told);
    write_answer(&answer);
    write_number(told.width);
    write_number(told.height);
    write_number(told.sampling);
    write_number(told.pictures);
    write_number(told.entries);
    for (number = 0; number < told.entries * REFERENCE_Y4M_NUMBERS; number++) {
        write_number(numbers[(size_t)number]);
    }
    free(numbers);
}

/* RULES 14.6. */
static void call_y4m_write(void)
{
    uint32_t width = read_number32();
    uint32_t height = read_number32();
    uint32_t sampling = read_number32();
    struct reference_bytes pictures = read_bytes();
    struct reference_buffer output = read_buffer();
    uint64_t size;
    struct reference_answer answer = reference_y4m_write(width, height, sampling, &pictures, &output, &size);

    write_output(&answer, size, &output);
}

/* RULES 14.7. */
static void call_y4m_picture(void)
{
    uint32_t width = read_number32();
    uint32_t height = read_number32();
    uint32_t sampling = read_number32();
    struct reference_plane planes[REFERENCE_PLANES];
    struct reference_buffer output;
    struct reference_answer answer;
    uint64_t size;

    read_strides(planes);
    read_plane_bytes(planes);
    output = read_buffer();
    answer = reference_y4m_picture(width, height, sampling, planes, &output, &size);
    write_output(&answer, size, &output);
}

static struct reference_part read_part(void)
{
    struct reference_part part;

    part.offset = read_number();
    part.length = read_number();
    return part;
}

/* RULES 15.3. */
static void call_convoy(void)
{
    struct reference_bytes source = read_bytes();
    struct reference_planes planes = read_planes();
    uint32_t count = read_number32();
    struct reference_convoy_frame *frames = calloc((size_t)count + 1, sizeof *frames);
    struct reference_answer answer;
    uint64_t done;
    uint32_t place;

    if (frames == NULL) {
        fail("no memory");
    }
    for (place = 0; place < count; place++) {
        read_description(&frames[place].frame);
        frames[place].stride = read_number32();
        frames[place].source = read_part();
        frames[place].y = read_part();
        frames[place].u = read_part();
        frames[place].v = read_part();
    }
    answer = reference_convoy(&tables, frames, count, &source, &planes, &done);
    write_answer(&answer);
    write_number(done);
    write_planes(&planes);
    free(frames);
}

struct offer {
    const char *word;
    void (*call)(void);
};

static const struct offer offers[] = {
    {"request", call_request},
    {"frame", call_frame},
    {"open", call_open},
    {"band", call_band},
    {"bands", call_bands},
    {"counts", call_counts},
#ifndef WITHOUT_TABLES
    {"linear", call_linear},
    {"gamma", call_gamma},
#endif
    {"read", call_read},
    {"read-any", call_read_any},
    {"write", call_write},
    {"record", call_record},
    {"record-settings", call_record_settings},
    {"move", call_move},
    {"build", call_build},
    {"check", call_check},
    {"find", call_find},
    {"update", call_update},
    {"pair", call_pair},
    {"y4m-read", call_y4m_read},
    {"y4m-write", call_y4m_write},
    {"y4m-picture", call_y4m_picture},
    {"convoy", call_convoy},
};

/* LINES: the call of a line by its first word, and its answer. */
static void answer_line(void)
{
    const char *word;
    size_t offer = 0;

    next_word = line;
    words_written = 0;
    word = read_word();
    while (offer < sizeof offers / sizeof offers[0] && strcmp(word, offers[offer].word) != 0) {
        offer++;
    }
    if (offer == sizeof offers / sizeof offers[0]) {
        fputs("not offered", stdout);
    } else {
        offers[offer].call();
        if (*next_word != '\0') {
            fail("a line has more words than its call");
        }
    }
    putchar('\n');
}

/* LINES: an answer for each line. */
int main(void)
{
    reference_make_tables(&tables);
    while (read_line()) {
        answer_line();
    }
    if (ferror(stdin)) {
        fail("standard input cannot be read");
    }
    if (fflush(stdout) != 0 || ferror(stdout)) {
        fail("standard output cannot be written");
    }
    return EXIT_SUCCESS;
}
