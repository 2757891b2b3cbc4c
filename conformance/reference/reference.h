/*
 * Conversion of 8-bit RGB frames to Y, U and V planes, the shift file that holds such planes, its summary, two such files paired,
 * and the Y4M file that viewers take, as docs/RULES.md states them.
 *
 * Whole numbers only: kr and kb are handed over by their bits, and no floating-point type is used. Nothing is allocated and
 * nothing is kept between calls: the caller owns the tables, the buffers and the state of a frame that comes in bands.
 */
#ifndef REFERENCE_H
#define REFERENCE_H

#include <stdint.h>

/* RULES 1.2: codes of the settings. */
enum {
    REFERENCE_RGB = 0,
    REFERENCE_RGBA = 1,
    REFERENCE_BGRA = 2,
    REFERENCE_BGR = 3,
    REFERENCE_CHANNEL_ORDERS = 4
};

enum {
    REFERENCE_420 = 0,
    REFERENCE_422 = 1,
    REFERENCE_SAMPLINGS = 2
};

enum {
    REFERENCE_LIMITED = 0,
    REFERENCE_FULL = 1,
    REFERENCE_RANGES = 2
};

enum {
    REFERENCE_BT601 = 0,
    REFERENCE_BT709 = 1,
    REFERENCE_BT2020 = 2,
    REFERENCE_SMPTE240 = 3,
    REFERENCE_BT470_6 = 4,
    REFERENCE_FCC = 5,
    REFERENCE_CUSTOM = 6,
    REFERENCE_MATRICES = 7
};

enum {
    REFERENCE_SRGB = 0,
    REFERENCE_REC709 = 1,
    REFERENCE_GAMMA2P2 = 2,
    REFERENCE_GAMMA2P8 = 3,
    REFERENCE_TRANSFERS = 4
};

enum {
    REFERENCE_TRUNCATED = 0,
    REFERENCE_NEAREST = 1,
    REFERENCE_ROUNDINGS = 2
};

/* RULES 7.1: numbers of an answer, in the order in which they are asked. */
enum {
    REFERENCE_ACCEPTED = 0,
    REFERENCE_BAD_LAYOUT = 15,    /* RULES 11.3, 11.6, 12.7, 13.4 */
    REFERENCE_BAD_SUMMARY = 17,   /* RULES 12.4, 12.6, 12.7 */
    REFERENCE_BAD_Y4M = 19,       /* RULES 14.4, 14.6, 14.7 */
    REFERENCE_BAD_CONVOY = 18,    /* RULES 15.2 */
    REFERENCE_BAD_CODE = 1,       /* RULES 9.2, 9.4, 10.2, 10.4, 15.3 */
    REFERENCE_EMPTY = 2,          /* RULES 7.3 */
    REFERENCE_TOO_LARGE = 3,      /* RULES 7.3 */
    REFERENCE_BAD_MATRIX = 4,     /* RULES 7.4 */
    REFERENCE_BAD_WINDOW = 14,    /* RULES 7.9 */
    REFERENCE_BAD_ROWS = 5,       /* RULES 8.3 */
    REFERENCE_SOURCE_LENGTH = 6,  /* RULES 7.5 */
    REFERENCE_SOURCE_STRIDE = 7,  /* RULES 7.5 */
    REFERENCE_Y_STRIDE = 8,       /* RULES 7.6 */
    REFERENCE_Y_LENGTH = 9,       /* RULES 7.6 */
    REFERENCE_BAD_U = 10,         /* RULES 7.6 */
    REFERENCE_BAD_V = 11,         /* RULES 7.6 */
    REFERENCE_NOT_WHOLE = 12,     /* RULES 7.7 */
    REFERENCE_SHORT_CARRIED = 13, /* RULES 8.4 */
    REFERENCE_RECORDED = 20,      /* RULES 11.8 */
    REFERENCE_SHORT_OUTPUT = 16   /* RULES 11.5, 11.6, 11.8, 14.6, 14.7 */
};

/* RULES 7.3: largest width and height, of a frame and of its source. */
#define REFERENCE_LARGEST_SIDE 16384u

/* RULES 5.3: all colours of three bytes, and all luma. */
#define REFERENCE_COLOURS 16777216u
#define REFERENCE_LUMAS 256u

/* RULES 11.1: most records of a shift file. RULES 11.4: numbers of an entry of the first call, and of the second. */
#define REFERENCE_MOST_RECORDS 4096u
#define REFERENCE_ENTRY_NUMBERS 11u
#define REFERENCE_ANY_ENTRY_NUMBERS 15u

/* RULES 10.5, 11.1: forms of a shift file and of a record. */
enum {
    REFERENCE_WITHOUT_SETTINGS = 0,
    REFERENCE_WITH_SETTINGS = 1
};

/* RULES 11.7: how many settings a record has, and what stands in the place of one that is not recorded. */
#define REFERENCE_SETTINGS 4u
#define REFERENCE_NOT_RECORDED 255u

/* RULES 14.5: numbers of an entry. */
#define REFERENCE_Y4M_NUMBERS 6u

/* RULES 15.2: most frames of a convoy. */
#define REFERENCE_MOST_FRAMES 64u

/* RULES 10.7: numbers of a report; kinds of its first difference; which file is none. */
#define REFERENCE_REPORT_NUMBERS 18u

enum {
    REFERENCE_NO_DIFFERENCE = 0,
    REFERENCE_SIZES = 1,
    REFERENCE_PLACE = 2
};

enum {
    REFERENCE_NEITHER = 0,
    REFERENCE_OURS = 1,
    REFERENCE_THEIRS = 2
};

/* RULES 2.1: Y, U and V. */
#define REFERENCE_PLANES 3u

/* RULES 3.4, 3.5: both tables of each rounding and transfer, by their codes. */
struct reference_tables {
    uint16_t linear[REFERENCE_ROUNDINGS][REFERENCE_TRANSFERS][256];
    uint8_t gamma[REFERENCE_ROUNDINGS][REFERENCE_TRANSFERS][65536];
};

/* RULES 2.1, 10.1: all that is known of a frame before its pixels. */
struct reference_description {
    uint32_t width;
    uint32_t height;
    uint32_t channel_order;
    uint32_t sampling;
    uint32_t range;
    uint32_t matrix;
    uint32_t kr_bits; /* binary32 bits; looked at where the matrix is Custom only */
    uint32_t kb_bits;
    uint32_t transfer;
    uint32_t y_stride;
    uint32_t u_stride;
    uint32_t v_stride;
    uint32_t rounding;
    uint32_t left; /* RULES 2.6: the window, in pixels */
    uint32_t top;
    uint32_t source_width;
    uint32_t source_height;
};

/* RULES 2.1: rows of pixels, which are only read: all rows of the source, or those of a band (RULES 8.2). */
struct reference_source {
    const uint8_t *bytes;
    uint64_t length;
    uint32_t stride;
};

/* RULES 2.1, 8.2: a buffer that a call may write. It must not overlap another buffer of the call: the rules say nothing of those. */
struct reference_buffer {
    uint8_t *bytes;
    uint64_t length;
};

/* RULES 2.1: planes of the whole frame; their strides stand in the description. */
struct reference_planes {
    struct reference_buffer y;
    struct reference_buffer u;
    struct reference_buffer v;
};

/* RULES 11.3, 12.5, 14.5: bytes that are only read: those of a shift file, records, a summary, a Y4M file, or its pictures. */
struct reference_bytes {
    const uint8_t *bytes;
    uint64_t length;
};

/* RULES 11.6, 14.7: a plane that is only read. */
struct reference_plane {
    const uint8_t *bytes;
    uint64_t length;
    uint32_t stride;
};

/* RULES 8.1: what goes from one band call to the next. */
struct reference_state {
    struct reference_description frame;
    uint32_t rows_done;
};

/* RULES 7.1: number 0 is finished work, any other a refusal. */
struct reference_answer {
    uint32_t number;
    uint64_t expected;
    uint64_t received;
};

/* RULES 4.1: weights in units of 1 / 8,192; red, green, blue of each. */
struct reference_weights {
    int32_t luma[3];
    int32_t cb[3];
    int32_t cr[3];
};

/* RULES 1.3: bytes of a pixel, for a code that has a value. */
uint32_t reference_pixel_bytes(uint32_t channel_order);

/* RULES 1.5: size of a chroma plane. */
uint32_t reference_chroma_width(uint32_t width);
uint32_t reference_chroma_height(uint32_t height, uint32_t sampling);

/* RULES 2.6: makes the whole source the window of a frame whose width and height are set. */
void reference_whole_source(struct reference_description *frame);

/* RULES 3.4, 3.5: makes all tables, or both of a rounding and a transfer. Once, before the first frame or band call that needs them. */
void reference_make_tables(struct reference_tables *tables);
void reference_make_pair(struct reference_tables *tables, uint32_t rounding, uint32_t transfer);

/* RULES 4.1 to 4.5: weights of an accepted matrix and range. */
void reference_make_weights(const struct reference_description *frame, struct reference_weights *weights);

/*
 * RULES 4.4, 4.5: the nine weights of a pair by the machine's own binary32 numbers. It stands in floats.c, and is called where
 * reference.c is compiled with REFERENCE_FLOATS; without, no floating-point type is used.
 */
void reference_work_out(uint32_t kr_bits, uint32_t kb_bits, uint32_t range, struct reference_weights *weights);

/*
 * RULES 5.3, 10.4: counts the colours of each luma; count y of REFERENCE_LUMAS is that of luma y. The numbers are the codes of
 * range and matrix, `given` is how many there are. It asks 1 and 4; refused, the counts are as they were.
 */
struct reference_answer reference_luma_counts(const uint32_t *numbers, uint64_t given, uint32_t kr_bits, uint32_t kb_bits,
                                              uint32_t *counts);

/* RULES 7.8: converts a whole frame. Settings are numbers here, so it asks 1 first, as the two below do (RULES 7.1, 10.2). */
struct reference_answer reference_frame(const struct reference_tables *tables, const struct reference_description *frame,
                                        const struct reference_source *source, const struct reference_planes *planes);

/* RULES 8.1: starts a frame that comes in bands. Accepted or refused, the state has the description and 0 rows done. */
struct reference_answer reference_open(const struct reference_description *frame, struct reference_state *state);

/* RULES 8.2, 8.5: converts one band. A refusal leaves the state, the planes and the carried row as they were. */
struct reference_answer reference_band(const struct reference_tables *tables, struct reference_state *state, uint32_t rows,
                                       const struct reference_source *source, const struct reference_planes *planes,
                                       const struct reference_buffer *carried);

/* RULES 11.3: whether bytes are a shift file of a form, and whether they are records of a form back to back; then also how many. */
int reference_is_file(uint32_t form, const struct reference_bytes *file, uint64_t *records);
int reference_are_records(uint32_t form, const struct reference_bytes *bytes, uint64_t *records);

/*
 * RULES 10.5, 11.4: reads a shift file without settings. An entry is REFERENCE_ENTRY_NUMBERS of the caller's numbers, of which
 * `given` are lent. It asks 15, and tells how many records there are and how many entries it wrote.
 */
struct reference_answer reference_shift_records(const struct reference_bytes *file, uint64_t first, uint64_t *numbers,
                                                uint64_t given, uint64_t *records, uint64_t *entries);

/* The same of either form: an entry is REFERENCE_ANY_ENTRY_NUMBERS numbers, and the form is told too, 0 where it is refused. */
struct reference_answer reference_shift_records_any(const struct reference_bytes *file, uint64_t first, uint64_t *numbers,
                                                    uint64_t given, uint64_t *records, uint64_t *entries, uint64_t *form);

/* RULES 11.5: writes a shift file of a form. It asks 15, 16, and tells the size of the file. */
struct reference_answer reference_shift_write(uint32_t form, const struct reference_bytes *records,
                                              const struct reference_buffer *output, uint64_t *size);

/*
 * RULES 11.6: makes a record from REFERENCE_PLANES planes; with these REFERENCE_SETTINGS settings, or without, where they are
 * NULL. It asks 15, 8 to 12, 16, and tells the size of the record.
 */
struct reference_answer reference_shift_record(uint32_t crossing, uint32_t width, uint32_t height, const uint32_t *settings,
                                               const struct reference_plane *planes, const struct reference_buffer *output,
                                               uint64_t *size);

/* RULES 11.8: moves a shift file of the other form to this one: forward, or back. It asks 15, 20, 16, and tells the size. */
struct reference_answer reference_shift_move(uint32_t to, const struct reference_bytes *file, const struct reference_buffer *output,
                                             uint64_t *size);

/* RULES 10.6, 12.4: builds the summary of a shift file. It asks 15, 17. */
struct reference_answer reference_summary_build(const struct reference_bytes *file, const struct reference_buffer *summary);

/* RULES 10.6, 12.5: whether a buffer starts with the summary of a shift file, 1 or 0. It asks 15. */
struct reference_answer reference_summary_check(const struct reference_bytes *file, const struct reference_bytes *summary,
                                                uint64_t *yes);

/* RULES 10.6, 12.6: looks a crossing number up. It asks 15, 17, and tells whether there is a record, 1 or 0, and its number or 0. */
struct reference_answer reference_summary_find(const struct reference_bytes *file, const struct reference_bytes *summary,
                                               uint32_t crossing, uint64_t *found, uint64_t *record);

/* RULES 10.6, 12.7: updates a summary for a file that grows by one record at its end. It asks 15, 17; the file itself stays. */
struct reference_answer reference_summary_update(const struct reference_bytes *file, const struct reference_bytes *record,
                                                 const struct reference_buffer *summary);

/*
 * RULES 10.7, 13.4: pairs two shift files and writes their report, REFERENCE_REPORT_NUMBERS of the caller's numbers. It asks 15
 * and tells which file is none. The same bytes may be lent as both.
 */
struct reference_answer reference_shift_pairs(const struct reference_bytes *ours, const struct reference_bytes *theirs,
                                              uint64_t *report, uint64_t *none);

/* RULES 14.5: what reading a Y4M file tells; all 0 where it is refused. */
struct reference_y4m {
    uint64_t width;
    uint64_t height;
    uint64_t sampling;
    uint64_t pictures;
    uint64_t entries;
};

/* RULES 10.8, 14.5: reads a Y4M file. An entry is REFERENCE_Y4M_NUMBERS of the caller's numbers; `given` are lent. It asks 19. */
struct reference_answer reference_y4m_pictures(const struct reference_bytes *file, uint64_t first, uint64_t *numbers,
                                               uint64_t given, struct reference_y4m *told);

/* RULES 10.8, 14.6: writes a Y4M file of pictures. It asks 19, 16, and tells the size of the file. */
struct reference_answer reference_y4m_write(uint32_t width, uint32_t height, uint32_t sampling,
                                            const struct reference_bytes *pictures, const struct reference_buffer *output,
                                            uint64_t *size);

/* RULES 10.8, 14.7: makes a picture of REFERENCE_PLANES planes. It asks 19, 16, and tells the size of the picture. */
struct reference_answer reference_y4m_picture(uint32_t width, uint32_t height, uint32_t sampling,
                                              const struct reference_plane *planes, const struct reference_buffer *output,
                                              uint64_t *size);

/* RULES 15.1: a part of a buffer. */
struct reference_part {
    uint64_t offset;
    uint64_t length;
};

/* RULES 15.2: a frame of a convoy. Codes of its description that have no meaning are refused at its turn. */
struct reference_convoy_frame {
    struct reference_description frame;
    uint32_t stride;
    struct reference_part source;
    struct reference_part y;
    struct reference_part u;
    struct reference_part v;
};

/* RULES 15.3: converts a convoy. It asks 18, then what each frame call asks, and tells how many frames are finished. */
struct reference_answer reference_convoy(const struct reference_tables *tables, const struct reference_convoy_frame *frames,
                                         uint64_t count, const struct reference_bytes *source,
                                         const struct reference_planes *planes, uint64_t *done);

#endif
