/*
 * Replays a stored list of calls: `replay frames`, `replay bands`, `replay shift`, `replay summary`, `replay pairs` or `replay y4m`,
 * the list on standard input, a line for each call on standard output, both as vectors/README.md describes them: LISTS in the
 * comments below.
 */
#include "digest.h"
#include "reference.h"

#include <stdio.h>
#include <stdlib.h>
#include <string.h>

/* LISTS: the planes and the carried row of a sequence. */
enum { KEPT_BYTES = 256 };

/* LISTS: the most numbers that are lent to a reading, and what each is before the call; those of a report too. */
enum { MOST_LENT = 44, LENT = 9 };

static struct reference_tables tables;

/* Ends the program: the list is not of the form, or there is no memory for it. */
static void fail(const char *why)
{
    fflush(stdout);
    fprintf(stderr, "replay: %s\n", why);
    exit(EXIT_FAILURE);
}

/* A block of bytes that is always a valid address, also for length 0. */
static uint8_t *allocate(uint32_t length)
{
    uint8_t *bytes = malloc(length > 0 ? length : 1);

    if (bytes == NULL) {
        fail("no memory");
    }
    return bytes;
}

/* LISTS: the next bytes of the list. */
static void read_bytes(uint8_t *bytes, uint32_t length)
{
    if (fread(bytes, 1, length, stdin) != length) {
        fail("the list ends early");
    }
}

/* LISTS: a number of four bytes, low byte first. */
static uint32_t read_number(void)
{
    uint8_t bytes[4];

    read_bytes(bytes, 4);
    return bytes[0] | (uint32_t)bytes[1] << 8 | (uint32_t)bytes[2] << 16 | (uint32_t)bytes[3] << 24;
}

/* LISTS: a description; its numbers stand in this order. */
static void read_description(struct reference_description *frame)
{
    frame->width = read_number();
    frame->height = read_number();
    frame->channel_order = read_number();
    frame->sampling = read_number();
    frame->range = read_number();
    frame->matrix = read_number();
    frame->kr_bits = read_number();
    frame->kb_bits = read_number();
    frame->transfer = read_number();
    frame->y_stride = read_number();
    frame->u_stride = read_number();
    frame->v_stride = read_number();
    frame->rounding = read_number();
    frame->left = read_number();
    frame->top = read_number();
    frame->source_width = read_number();
    frame->source_height = read_number();
}

/* LISTS: fills a buffer from the next block; byte i is byte i mod n of the block, which is empty for an empty buffer only. */
static void read_block(uint8_t *buffer, uint32_t length)
{
    uint32_t n = read_number();
    uint8_t *block = allocate(n);
    uint32_t i;

    read_bytes(block, n);
    if (n == 0 && length > 0) {
        fail("an empty block for a buffer that has bytes");
    }
    for (i = 0; i < length; i++) {
        buffer[i] = block[i % n];
    }
    free(block);
}

/* LISTS: a writable buffer of the given length, filled from the next block. */
static struct reference_buffer read_buffer(uint32_t length)
{
    struct reference_buffer buffer;

    buffer.bytes = allocate(length);
    buffer.length = length;
    read_block(buffer.bytes, length);
    return buffer;
}

/* LISTS: number, expected and received of a call. */
static void print_answer(const struct reference_answer *answer)
{
    printf(" %llu %llu %llu", (unsigned long long)answer->number, (unsigned long long)answer->expected,
           (unsigned long long)answer->received);
}

/* LISTS: the digest of a buffer, padding included. */
static void print_digest(const char *name, const uint8_t *bytes, uint64_t length)
{
    printf(" %s=%08lx", name, (unsigned long)digest(bytes, (size_t)length));
}

/* LISTS: a frame call and its line (RULES 7.8). */
static void replay_frame(uint32_t line)
{
    uint32_t lengths[4];
    struct reference_description frame;
    struct reference_source source;
    struct reference_buffer source_buffer;
    struct reference_planes planes;
    struct reference_answer answer;
    unsigned buffer;

    for (buffer = 0; buffer < 4; buffer++) {
        lengths[buffer] = read_number();
    }
    read_description(&frame);
    source.stride = read_number();
    source_buffer = read_buffer(lengths[0]);
    source.bytes = source_buffer.bytes;
    source.length = source_buffer.length;
    planes.y = read_buffer(lengths[1]);
    planes.u = read_buffer(lengths[2]);
    planes.v = read_buffer(lengths[3]);
    answer = reference_frame(&tables, &frame, &source, &planes);
    printf("%lu", (unsigned long)line);
    print_answer(&answer);
    print_digest("y", planes.y.bytes, planes.y.length);
    print_digest("u", planes.u.bytes, planes.u.length);
    print_digest("v", planes.v.bytes, planes.v.length);
    printf("\n");
    free(source_buffer.bytes);
    free(planes.y.bytes);
    free(planes.u.bytes);
    free(planes.v.bytes);
}

/* LISTS: a buffer that lends its first bytes to a call, at most all of them. */
static struct reference_buffer lend(uint8_t *kept, uint32_t length)
{
    struct reference_buffer buffer;

    if (length > KEPT_BYTES) {
        fail("a call is lent more bytes than there are");
    }
    buffer.bytes = kept;
    buffer.length = length;
    return buffer;
}

/* LISTS: a band call and its line (RULES 8.2). The state stands in the list and not in the call before. */
static void replay_band(uint32_t line, uint32_t call, uint8_t kept[4][KEPT_BYTES])
{
    uint32_t source_length = read_number();
    struct reference_state state;
    struct reference_source source;
    struct reference_buffer source_buffer;
    struct reference_planes planes;
    struct reference_buffer carried;
    struct reference_answer answer;
    uint32_t rows;

    read_description(&state.frame);
    state.rows_done = read_number();
    rows = read_number();
    source.stride = read_number();
    planes.y = lend(kept[0], read_number());
    planes.u = lend(kept[1], read_number());
    planes.v = lend(kept[2], read_number());
    carried = lend(kept[3], read_number());
    source_buffer = read_buffer(source_length);
    source.bytes = source_buffer.bytes;
    source.length = source_buffer.length;
    answer = reference_band(&tables, &state, rows, &source, &planes, &carried);
    printf("%lu.%lu", (unsigned long)line, (unsigned long)call);
    print_answer(&answer);
    printf(" done=%lu", (unsigned long)state.rows_done);
    print_digest("y", kept[0], KEPT_BYTES);
    print_digest("u", kept[1], KEPT_BYTES);
    print_digest("v", kept[2], KEPT_BYTES);
    print_digest("carried", kept[3], KEPT_BYTES);
    printf("\n");
    free(source_buffer.bytes);
}

/* LISTS: a sequence, its opening (RULES 8.1) and its band calls. */
static void replay_sequence(uint32_t line)
{
    struct reference_description frame;
    struct reference_state state;
    struct reference_answer answer;
    uint8_t kept[4][KEPT_BYTES];
    uint32_t calls;
    uint32_t call;
    unsigned buffer;

    read_description(&frame);
    for (buffer = 0; buffer < 4; buffer++) {
        read_block(kept[buffer], KEPT_BYTES);
    }
    calls = read_number();
    answer = reference_open(&frame, &state);
    printf("%lu", (unsigned long)line);
    print_answer(&answer);
    printf(" done=%lu\n", (unsigned long)state.rows_done); /* RULES 8.1: 0, also where it is refused */
    for (call = 1; call <= calls; call++) {
        replay_band(line, call, kept);
    }
}

/* LISTS: a reading of a shift file without settings, or of either form, and its line (RULES 11.4). */
static void replay_reading(int any)
{
    uint32_t length = read_number();
    uint64_t first = read_number();
    uint64_t numbers[MOST_LENT];
    struct reference_buffer buffer;
    struct reference_bytes file;
    struct reference_answer answer;
    uint64_t records;
    uint64_t entries;
    uint64_t form;
    uint32_t given;
    uint32_t place;

    first |= (uint64_t)read_number() << 32;
    given = read_number();
    if (given > MOST_LENT) {
        fail("a call is lent more numbers than there are");
    }
    for (place = 0; place < MOST_LENT; place++) {
        numbers[place] = LENT;
    }
    buffer = read_buffer(length);
    file.bytes = buffer.bytes;
    file.length = buffer.length;
    if (any) {
        answer = reference_shift_records_any(&file, first, numbers, given, &records, &entries, &form);
    } else {
        answer = reference_shift_records(&file, first, numbers, given, &records, &entries);
    }
    print_answer(&answer);
    printf(" count=%llu told=%llu", (unsigned long long)records, (unsigned long long)entries);
    if (any) {
        printf(" form=%llu", (unsigned long long)form);
    }
    printf(" entries");
    for (place = 0; place < given; place++) {
        printf(" %llu", (unsigned long long)numbers[place]);
    }
    free(buffer.bytes);
}

/* LISTS: the size that a call tells, and the digest of the whole output. */
static void print_output(uint64_t size, const struct reference_buffer *output)
{
    printf(" size=%llu", (unsigned long long)size);
    print_digest("output", output->bytes, output->length);
}

/* LISTS: a writing of a shift file of a form and its line (RULES 11.5). */
static void replay_writing(uint32_t form)
{
    uint32_t length = read_number();
    uint32_t output_length = read_number();
    struct reference_buffer buffer = read_buffer(length);
    struct reference_buffer output = read_buffer(output_length);
    struct reference_bytes records;
    struct reference_answer answer;
    uint64_t size;

    records.bytes = buffer.bytes;
    records.length = buffer.length;
    answer = reference_shift_write(form, &records, &output, &size);
    print_answer(&answer);
    print_output(size, &output);
    free(buffer.bytes);
    free(output.bytes);
}

/* LISTS: a file moved to a form and its line (RULES 11.8). */
static void replay_move(uint32_t to)
{
    uint32_t length = read_number();
    uint32_t output_length = read_number();
    struct reference_buffer buffer = read_buffer(length);
    struct reference_buffer output = read_buffer(output_length);
    struct reference_bytes file;
    struct reference_answer answer;
    uint64_t size;

    file.bytes = buffer.bytes;
    file.length = buffer.length;
    answer = reference_shift_move(to, &file, &output, &size);
    print_answer(&answer);
    print_output(size, &output);
    free(buffer.bytes);
    free(output.bytes);
}

/* LISTS: a record of a form from planes and its line (RULES 11.6). */
static void replay_record(uint32_t form)
{
    uint32_t lengths[4];
    uint32_t settings[REFERENCE_SETTINGS];
    uint32_t crossing;
    uint32_t width;
    uint32_t height;
    struct reference_plane planes[REFERENCE_PLANES];
    struct reference_buffer buffers[REFERENCE_PLANES];
    struct reference_buffer output;
    struct reference_answer answer;
    uint64_t size;
    unsigned plane;

    for (plane = 0; plane < 4; plane++) {
        lengths[plane] = read_number();
    }
    crossing = read_number();
    width = read_number();
    height = read_number();
    for (plane = 0; plane < REFERENCE_PLANES; plane++) {
        planes[plane].stride = read_number();
    }
    for (plane = 0; form == REFERENCE_WITH_SETTINGS && plane < REFERENCE_SETTINGS; plane++) {
        settings[plane] = read_number();
    }
    for (plane = 0; plane < REFERENCE_PLANES; plane++) {
        buffers[plane] = read_buffer(lengths[plane]);
        planes[plane].bytes = buffers[plane].bytes;
        planes[plane].length = buffers[plane].length;
    }
    output = read_buffer(lengths[REFERENCE_PLANES]);
    answer = reference_shift_record(crossing, width, height, form == REFERENCE_WITH_SETTINGS ? settings : NULL, planes, &output, &size);
    print_answer(&answer);
    print_output(size, &output);
    for (plane = 0; plane < REFERENCE_PLANES; plane++) {
        free(buffers[plane].bytes);
    }
    free(output.bytes);
}

/* LISTS: a call on a shift file; its first number says which. */
static void replay_shift(uint32_t line)
{
    uint32_t call = read_number();

    printf("%lu", (unsigned long)line);
    switch (call) {
    case 0:
    case 3:
        replay_reading(call == 3);
        break;
    case 1:
    case 4:
        replay_writing(call == 1 ? REFERENCE_WITHOUT_SETTINGS : REFERENCE_WITH_SETTINGS);
        break;
    case 2:
    case 5:
        replay_record(call == 2 ? REFERENCE_WITHOUT_SETTINGS : REFERENCE_WITH_SETTINGS);
        break;
    case 6:
    case 7:
        replay_move(call == 6 ? REFERENCE_WITH_SETTINGS : REFERENCE_WITHOUT_SETTINGS);
        break;
    default:
        fail("a call on a shift file that is none of the eight");
    }
    printf("\n");
}

/* LISTS: a building of a summary and its line (RULES 12.4). */
static void replay_building(const struct reference_bytes *file, uint32_t length)
{
    struct reference_buffer summary = read_buffer(length);
    struct reference_answer answer = reference_summary_build(file, &summary);

    print_answer(&answer);
    print_digest("summary", summary.bytes, summary.length);
    free(summary.bytes);
}

/* LISTS: a check of a summary and its line (RULES 12.5). */
static void replay_check(const struct reference_bytes *file, uint32_t length)
{
    struct reference_buffer buffer = read_buffer(length);
    struct reference_bytes summary;
    struct reference_answer answer;
    uint64_t yes;

    summary.bytes = buffer.bytes;
    summary.length = buffer.length;
    answer = reference_summary_check(file, &summary, &yes);
    print_answer(&answer);
    printf(" yes=%llu", (unsigned long long)yes);
    free(buffer.bytes);
}

/* LISTS: a lookup and its line (RULES 12.6). */
static void replay_lookup(const struct reference_bytes *file, uint32_t length, uint32_t crossing)
{
    struct reference_buffer buffer = read_buffer(length);
    struct reference_bytes summary;
    struct reference_answer answer;
    uint64_t found;
    uint64_t record;

    summary.bytes = buffer.bytes;
    summary.length = buffer.length;
    answer = reference_summary_find(file, &summary, crossing, &found, &record);
    print_answer(&answer);
    printf(" found=%llu record=%llu", (unsigned long long)found, (unsigned long long)record);
    free(buffer.bytes);
}

/* LISTS: an update of a summary and its line (RULES 12.7). */
static void replay_update(const struct reference_bytes *file, uint32_t record_length, uint32_t length)
{
    struct reference_buffer buffer = read_buffer(record_length);
    struct reference_buffer summary = read_buffer(length);
    struct reference_bytes record;
    struct reference_answer answer;

    record.bytes = buffer.bytes;
    record.length = buffer.length;
    answer = reference_summary_update(file, &record, &summary);
    print_answer(&answer);
    print_digest("summary", summary.bytes, summary.length);
    free(buffer.bytes);
    free(summary.bytes);
}

/* LISTS: a call on a summary; its first number says which, and the file is the first block of each. */
static void replay_summary(uint32_t line)
{
    uint32_t call = read_number();
    uint32_t file_length = read_number();
    uint32_t record_length = call == 3 ? read_number() : 0;
    uint32_t length = read_number();
    uint32_t crossing = call == 2 ? read_number() : 0;
    struct reference_buffer buffer = read_buffer(file_length);
    struct reference_bytes file;

    file.bytes = buffer.bytes;
    file.length = buffer.length;
    printf("%lu", (unsigned long)line);
    if (call == 0) {
        replay_building(&file, length);
    } else if (call == 1) {
        replay_check(&file, length);
    } else if (call == 2) {
        replay_lookup(&file, length, crossing);
    } else if (call == 3) {
        replay_update(&file, record_length, length);
    } else {
        fail("a call on a summary that is none of the four");
    }
    printf("\n");
    free(buffer.bytes);
}

/* LISTS: a pairing of two shift files and its line (RULES 10.7, 13.4); the report before the call. */
static void replay_pairing(uint32_t line)
{
    uint32_t our_length = read_number();
    uint32_t their_length = read_number();
    struct reference_buffer our_buffer = read_buffer(our_length);
    struct reference_buffer their_buffer = read_buffer(their_length);
    uint64_t report[REFERENCE_REPORT_NUMBERS];
    struct reference_bytes ours;
    struct reference_bytes theirs;
    struct reference_answer answer;
    uint64_t none;
    unsigned number;

    for (number = 0; number < REFERENCE_REPORT_NUMBERS; number++) {
        report[number] = LENT;
    }
    ours.bytes = our_buffer.bytes;
    ours.length = our_buffer.length;
    theirs.bytes = their_buffer.bytes;
    theirs.length = their_buffer.length;
    answer = reference_shift_pairs(&ours, &theirs, report, &none);
    printf("%lu", (unsigned long)line);
    print_answer(&answer);
    printf(" broken=%llu report", (unsigned long long)none);
    for (number = 0; number < REFERENCE_REPORT_NUMBERS; number++) {
        printf(" %llu", (unsigned long long)report[number]);
    }
    printf("\n");
    free(our_buffer.bytes);
    free(their_buffer.bytes);
}

/* LISTS: a reading of a Y4M file and its line (RULES 14.5). */
static void replay_y4m_reading(void)
{
    uint32_t length = read_number();
    uint64_t first = read_number();
    uint64_t numbers[MOST_LENT];
    struct reference_buffer buffer;
    struct reference_bytes file;
    struct reference_answer answer;
    struct reference_y4m told;
    uint32_t given;
    uint32_t place;

    first |= (uint64_t)read_number() << 32;
    given = read_number();
    if (given > MOST_LENT) {
        fail("a call is lent more numbers than there are");
    }
    for (place = 0; place < MOST_LENT; place++) {
        numbers[place] = LENT;
    }
    buffer = read_buffer(length);
    file.bytes = buffer.bytes;
    file.length = buffer.length;
    answer = reference_y4m_pictures(&file, first, numbers, given, &told);
    print_answer(&answer);
    printf(" width=%llu height=%llu", (unsigned long long)told.width, (unsigned long long)told.height);
    printf(" sampling=%llu count=%llu", (unsigned long long)told.sampling, (unsigned long long)told.pictures);
    printf(" told=%llu entries", (unsigned long long)told.entries);
    for (place = 0; place < given; place++) {
        printf(" %llu", (unsigned long long)numbers[place]);
    }
    free(buffer.bytes);
}

/* LISTS: a writing of a Y4M file and its line (RULES 14.6). */
static void replay_y4m_writing(void)
{
    uint32_t length = read_number();
    uint32_t output_length = read_number();
    uint32_t width = read_number();
    uint32_t height = read_number();
    uint32_t sampling = read_number();
    struct reference_buffer buffer = read_buffer(length);
    struct reference_buffer output = read_buffer(output_length);
    struct reference_bytes pictures;
    struct reference_answer answer;
    uint64_t size;

    pictures.bytes = buffer.bytes;
    pictures.length = buffer.length;
    answer = reference_y4m_write(width, height, sampling, &pictures, &output, &size);
    print_answer(&answer);
    print_output(size, &output);
    free(buffer.bytes);
    free(output.bytes);
}

/* LISTS: a picture of a Y4M file from planes and its line (RULES 14.7). */
static void replay_y4m_picture(void)
{
    uint32_t lengths[4];
    uint32_t width;
    uint32_t height;
    uint32_t sampling;
    struct reference_plane planes[REFERENCE_PLANES];
    struct reference_buffer buffers[REFERENCE_PLANES];
    struct reference_buffer output;
    struct reference_answer answer;
    uint64_t size;
    unsigned plane;

    for (plane = 0; plane < 4; plane++) {
        lengths[plane] = read_number();
    }
    width = read_number();
    height = read_number();
    sampling = read_number();
    for (plane = 0; plane < REFERENCE_PLANES; plane++) {
        planes[plane].stride = read_number();
    }
    for (plane = 0; plane < REFERENCE_PLANES; plane++) {
        buffers[plane] = read_buffer(lengths[plane]);
        planes[plane].bytes = buffers[plane].bytes;
        planes[plane].length = buffers[plane].length;
    }
    output = read_buffer(lengths[REFERENCE_PLANES]);
    answer = reference_y4m_picture(width, height, sampling, planes, &output, &size);
    print_answer(&answer);
    print_output(size, &output);
    for (plane = 0; plane < REFERENCE_PLANES; plane++) {
        free(buffers[plane].bytes);
    }
    free(output.bytes);
}

/* LISTS: a call on a Y4M file; its first number says which. */
static void replay_y4m(uint32_t line)
{
    uint32_t call = read_number();

    printf("%lu", (unsigned long)line);
    switch (call) {
    case 0:
        replay_y4m_reading();
        break;
    case 1:
        replay_y4m_writing();
        break;
    case 2:
        replay_y4m_picture();
        break;
    default:
        fail("a call on a Y4M file that is none of the three");
    }
    printf("\n");
}

/* LISTS: how many calls or sequences there are, and these; lines count from 1. */
int main(int count, char **arguments)
{
    enum { LISTS = 6 };
    static const char *const names[LISTS] = {"frames", "bands", "shift", "summary", "pairs", "y4m"};
    static void (*const replays[LISTS])(uint32_t) = {replay_frame,   replay_sequence, replay_shift,
                                                     replay_summary, replay_pairing,  replay_y4m};
    unsigned list = 0;
    uint32_t calls;
    uint32_t line;

    while (list < LISTS && (count != 2 || strcmp(arguments[1], names[list]) != 0)) {
        list++;
    }
    if (list == LISTS) {
        fputs("usage: replay frames|bands|shift|summary|pairs|y4m < list\n", stderr);
        return EXIT_FAILURE;
    }
    reference_make_tables(&tables);
    calls = read_number();
    for (line = 1; line <= calls; line++) {
        replays[list](line);
    }
    if (fgetc(stdin) != EOF) {
        fail("bytes follow the list");
    }
    if (fflush(stdout) != 0 || ferror(stdout)) {
        fail("standard output cannot be written");
    }
    return EXIT_SUCCESS;
}
