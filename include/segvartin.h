/*
 * Segvartin: strided 8-bit RGB frames to planar YUV 4:2:0 and 4:2:2 ("sharp YUV", chroma interpolated over linear light), and files which hold the
 * planes of many frames: shift files, and Y4M files, which players and encoders take.
 *
 * Link libsegvartin.a (x86-64, System V ABI). It has no state, no heap, no threads, no input and no output, and of libc it calls memset and memcpy
 * alone; calls on separate buffers may run on separate threads. A call takes less than 96 KiB of stack, segvartin_convert_convoy,
 * segvartin_desk_step and segvartin_pair_shift_files less than 128.
 *
 * Call segvartin_frame, segvartin_open and segvartin_band, or the same calls with their numbers in structs: segvartin_convert_frame,
 * segvartin_open_frame and segvartin_convert_band. With choices that these do not have, which today are the rounding of the curve tables and a
 * window (the frame is a rectangle inside a larger source): segvartin_convert_frame_with, segvartin_open_frame_with and segvartin_convert_band_with.
 * Several frames in one call, as parts of shared buffers: segvartin_convert_convoy. Bands of up to 32 cameras as they come, one served at a time:
 * segvartin_desk_open, segvartin_desk_offer and segvartin_desk_step. How many colours share a luma, in a matrix and range: segvartin_luma_counts. A
 * record of a shift file from planes: segvartin_write_shift_record; a file from records: segvartin_write_shift_file; its records where they stand in
 * it: segvartin_read_shift_file. The same with records that say how their planes were made: segvartin_write_settings_record,
 * segvartin_write_settings_file, and for files of either form segvartin_read_any_shift_file; from one form to the other: segvartin_move_forward,
 * segvartin_move_back. The summary of a file, by which the record of a crossing is found: segvartin_build_summary, segvartin_check_summary,
 * segvartin_find_record, segvartin_find_any_record, segvartin_update_summary. Two files of one day held against each other:
 * segvartin_pair_shift_files. A Y4M file from planes: segvartin_y4m_write, or picture by picture segvartin_y4m_write_picture; its pictures where
 * they stand in it: segvartin_y4m_read. All only pass numbers on to the library's segvartin_call_ functions below.
 *
 * docs/RULES.md has the rules that fix each byte and each answer; RULES 7.1 below names one of them. The library's twenty-four functions are the
 * calls of its chapter 10.
 *
 * Every function answers finished work (0) or the number of one refusal, and a refusal writes no byte of a plane, of the carried row, of a record,
 * of a picture, of a file or of a summary, no entry, no count of colours and no report; of several frames in one call, the refused one and those
 * behind it write none. This holds for all values of all numbers: sizes, strides, lengths, offsets, codes, kr, kb, those of a desk, and all bytes of
 * a file and of a summary. What no function can check, and the caller must see to:
 *   - a pointer is not NULL, also where its length is 0, and points to as many bytes as the length beside it says; counts to 256 numbers; frames to
 *     count of them, or to 64 where count is more;
 *   - of what a call is lent (frames, source, y, u, v, carried, counts, done, expected, received; desk; records, file, output, size, count, read,
 *     form; summary, record, yes, found; report, broken; pictures, told) nothing that it may write overlaps anything else. What is only read may
 *     overlap: one file may be ours and theirs.
 *
 * The caller's floating-point mode (rounding, denormals, trapped exceptions) does not matter: each call is made in the default mode, and the
 * caller's mode and exception flags are put back as they were. Only SEGVARTIN_FCC and SEGVARTIN_CUSTOM use floats at all; the calls on files
 * and summaries, and segvartin_desk_offer, take the mode as it is.
 *
 * Write w, h for width and height; W, H for those of the source, which are w, h where no window says otherwise; c for the bytes of a pixel,
 * 3 (RGB, BGR) or 4; cw for w / 2 rounded up; ch for h in 4:2:2, and for h / 2 rounded up in 4:2:0. Strides are in bytes, from the start of a
 * row to the start of the next. Of a row only its first w (Y) or cw (U, V) bytes are written; what follows up to the stride is left as it is.
 * Alpha, the source's padding and its pixels outside the window are never looked at.
 */
#ifndef SEGVARTIN_H
#define SEGVARTIN_H

#if !defined(__GNUC__) || !defined(__x86_64__) || defined(__ILP32__)
#error "segvartin.h: the library is x86-64 code, and its floating-point mode is set by the assembler statements of GCC and clang"
#endif

#include <stddef.h>
#include <stdint.h>

#ifdef __cplusplus
extern "C" {
#endif

/* Order of the bytes of a pixel (RULES 1.3). Codes are those of RULES 1.2. */
enum { SEGVARTIN_RGB = 0, SEGVARTIN_RGBA = 1, SEGVARTIN_BGRA = 2, SEGVARTIN_BGR = 3 };

/* Chroma sampling (RULES 1.5). */
enum { SEGVARTIN_YUV420 = 0, SEGVARTIN_YUV422 = 1 };

/* Limited: Y 16 to 235, U and V 16 to 240. Full: 0 to 255. (RULES 1.4) */
enum { SEGVARTIN_LIMITED = 0, SEGVARTIN_FULL = 1 };

/* Matrix (RULES 4.1, 4.3). SEGVARTIN_CUSTOM takes kr and kb, each from 0 to 0.5; the others do not look at them. */
enum {
    SEGVARTIN_BT601 = 0,
    SEGVARTIN_BT709 = 1,
    SEGVARTIN_BT2020 = 2,
    SEGVARTIN_SMPTE240 = 3,
    SEGVARTIN_BT470_6 = 4,
    SEGVARTIN_FCC = 5,
    SEGVARTIN_CUSTOM = 6
};

/* Transfer: the curve between stored and linear values (RULES 3.1). */
enum { SEGVARTIN_SRGB = 0, SEGVARTIN_REC709 = 1, SEGVARTIN_GAMMA2P2 = 2, SEGVARTIN_GAMMA2P8 = 3 };

/*
 * Rounding of both curve tables (RULES 1.2, 3.4, 3.5): each entry down, or to the nearest with halves upward. One of segvartin_options; a call
 * without them is SEGVARTIN_TRUNCATED.
 */
enum { SEGVARTIN_TRUNCATED = 0, SEGVARTIN_NEAREST = 1 };

/*
 * What a call answers (RULES 7.1). Where several conditions hold, the first in the order below is answered: 15, 17, 19, 21, 22, 23, 18, 1 to 4, 14,
 * 5 to 13, 20, 16. In parentheses: what *expected and *received get; where nothing stands there, and after finished work, both get 0.
 */
enum {
    SEGVARTIN_FINISHED = 0,
    /* shift files and summaries only: a file, or what is to be written, breaks their layout, or has the form that the call does not take; w or h of
     * a record to be made is not from 1 to 16384, or a setting of it is no code; a summary is to be updated with what is not one record of the
     * file's form, or for a file that has 4096 */
    SEGVARTIN_MALFORMED_SHIFT_FILE = 15,
    /* summaries only: the summary lent is too short; in a lookup or an update also: it is not the file's */
    SEGVARTIN_SUMMARY_MISMATCH = 17,
    /* Y4M files only: the text or the planes of a file break their rules; of what is to be written, w or h is not from 1 to 16384, the sampling is no
     * code, the bytes are not whole pictures, a stride is below its row, or a plane is not exactly its stride times its rows long */
    SEGVARTIN_MALFORMED_Y4M = 19,
    /* a desk only: a camera number above 31; or a band is offered for a number without an open frame */
    SEGVARTIN_CAMERA_MISMATCH = 21,
    /* a desk only: a band is offered while that camera's last one waits */
    SEGVARTIN_BAND_STILL_WAITING = 22,
    /* a desk only: a frame is open at that camera number */
    SEGVARTIN_CAMERA_IN_USE = 23,
    /* several frames in one call, before any is begun: there are more than 64, a part reaches outside its buffer, or parts of two frames in y, in u
     * or in v share a byte. A desk: a part of a frame to be opened reaches outside its buffer, or shares a byte with an open frame's; an offered
     * band reaches outside the source; or, at its step, a part of the band or of its frame reaches outside the buffers that are lent then */
    SEGVARTIN_PARTS_MISMATCH = 18,
    /* a code of channels, sampling, range, matrix, transfer or rounding without a meaning; of segvartin_call_ also another count of numbers */
    SEGVARTIN_MALFORMED_REQUEST = 1,
    /* w or h is 0 */
    SEGVARTIN_ZERO_BASE_SIZE = 2,
    /* w, h, W or H is above 16384 */
    SEGVARTIN_SIZE_TOO_LARGE = 3,
    /* kr or kb of SEGVARTIN_CUSTOM is not from 0 to 0.5, or is no number; -0.0 is 0 */
    SEGVARTIN_MATRIX_NOT_ACCEPTED = 4,
    /* with options only: left + w is above W, or top + h above H, the sums not wrapped; so where W or H is 0 */
    SEGVARTIN_WINDOW_OUTSIDE_SOURCE = 14,
    /* band calls only: a band of 0 rows, or of more than remain */
    SEGVARTIN_BAND_ROWS_MISMATCH = 5,
    /* source shorter than stride * (its rows - 1) + W * c (that, its length); its rows: H, in a band call the band's */
    SEGVARTIN_SOURCE_SIZE_MISMATCH = 6,
    /* source stride below W * c (W * c, stride) */
    SEGVARTIN_SOURCE_STRIDE_MISMATCH = 7,
    /* y_stride below w (w * h, y_stride * h) */
    SEGVARTIN_Y_STRIDE_MISMATCH = 8,
    /* y shorter than y_stride * (h - 1) + w (that, its length) */
    SEGVARTIN_Y_SIZE_MISMATCH = 9,
    /* u_stride below cw (cw * ch, u_stride * ch); or u shorter than u_stride * (ch - 1) + cw (that, its length) */
    SEGVARTIN_U_MISMATCH = 10,
    /* the same of v */
    SEGVARTIN_V_MISMATCH = 11,
    /* source, y, u or v, the first in this order, is not exactly its stride times its rows long (that, its length) */
    SEGVARTIN_WHOLE_ROWS_MISMATCH = 12,
    /* band calls only: the carried row is shorter than 3 * w (3 * w, its length) */
    SEGVARTIN_CARRIED_ROW_MISMATCH = 13,
    /* moving a shift file back only: a record has 4:2:2, or a range, matrix or transfer that is recorded */
    SEGVARTIN_SETTINGS_RECORDED = 20,
    /* files only: the memory lent for a file, a record or a picture is too short; the call tells its size beside */
    SEGVARTIN_OUTPUT_TOO_SHORT = 16
};

#define SEGVARTIN_MAX_SIDE 16384

/* Frames of one call of segvartin_convert_convoy, at most (RULES 15.2). */
#define SEGVARTIN_MAX_CONVOY 64

/* Cameras of a desk, by numbers from 0 on (RULES 16.1). */
#define SEGVARTIN_CAMERAS 32

/* Records of a shift file, at most (RULES 11.1). */
#define SEGVARTIN_MAX_RECORDS 4096

/* Bytes of an entry of a summary (RULES 12.1). */
#define SEGVARTIN_SUMMARY_ENTRY 13

/*
 * What the library exports. A program has no need of these: they are what the functions below call. They need the default floating-point
 * mode, MXCSR 0x1f80 but for its exception flags: in another, Fcc and Custom may give other bytes and Custom other answers, and a trapped
 * exception ends the program.
 *
 *   numbers          frame: stride, description. open: description. band: done, rows, stride, description. The description is ten numbers:
 *                    width, height, channels, sampling, range, matrix, transfer, y_stride, u_stride, v_stride; or eleven, the last of them
 *                    rounding; or fifteen, the last four of them left, top, source_width, source_height. Where it is not given, rounding is
 *                    SEGVARTIN_TRUNCATED, and where they are not, these four are 0, 0, width, height. luma_counts: range, matrix. Any other
 *                    count is refusal 1. A later version may take further numbers; a call that does not give them stays the call that it is
 *                    today
 *                    convoy: sixteen for each frame, its stride and a description of fifteen. Where fewer are left for a frame, that frame is
 *                    refused with 1. No answer turns on what stands behind those of the last frame, here and in customs and parts
 *                    desk_open, desk_offer, desk_step: those of segvartin_desk, and so are customs and parts
 *                    shift_record: crossing, width, height, y_stride, u_stride, v_stride. shift_record_settings: these, and sampling, range, matrix,
 *                    transfer, the last three 255 where they are not recorded. y4m_write: width, height, sampling. y4m_picture: these, and y_stride,
 *                    u_stride, v_stride
 *   custom           kr, kb
 *   count            how many frames there are. It is not held against the lengths of numbers, customs and parts
 *   customs          kr, kb of each frame; one that is not there is no number, and refused with 4 where it is looked at
 *   parts            of each frame eight: offset and length in source, in y, in u and in v; one that is not there is 0
 *   described        desk_open: a description of ten, eleven or fifteen numbers, as above
 *   frame_parts      desk_open: offset and length in y, in u, in v and in the carried rows
 *   lengths          desk_open: of the buffers of y, u, v and carried rows
 *   band, place      desk_offer: rows and stride; offset and length in the source, and how long the source is
 *   first, entries   the record to begin with, and eleven numbers for each record from there on, as many as there are and as whole elevens fit:
 *                    the fields of segvartin_shift_record, in their order. shift_records_any: fifteen, those of segvartin_settings_record.
 *                    y4m_pictures: six for each picture, those of segvartin_y4m_picture
 *   told             gets expected, received, and in open and band the rows done: 0, and what they are after the band. convoy: expected,
 *                    received, and how many frames are finished, the place of the refused one. desk_open: expected, received. desk_step: these, 1
 *                    where a camera was served or refused and else 0, and its number, or 0. shift_records: how many records the file has,
 *                    and how many entries were written; shift_records_any: then its form too, 1 with settings, else 0. shift_write,
 *                    shift_write_settings, shift_forward, shift_back: the size of the file that is written. shift_record,
 *                    shift_record_settings: expected, received, the record's size. summary_check: 1 for yes, 0 for no. summary_find: 1 and the
 *                    record's number, from 0; or 0 and 0. shift_pairs: the file that is none, 1 for ours and 2 for theirs; or 0. y4m_pictures:
 *                    width, height, sampling, how many pictures the file has, and how many entries were written. y4m_write, y4m_picture: the
 *                    size of the file or of the picture
 *   report           the fields of segvartin_pair_report, in their order
 *   the others       as below; numbers, custom, customs, parts, described, frame_parts, lengths, band, place, entries, report and told overlap
 *                    nothing either. The nine shift_ calls, the four summary_ calls, the three y4m_ calls and desk_offer need no mode
 */
/* Made by tools/declarations.py from the library's source: change that, and run it. */
uint32_t segvartin_call_frame(const uint32_t *numbers, size_t numbers_len, const float custom[2], const uint8_t *source, size_t source_len,
                              uint8_t *y, size_t y_len, uint8_t *u, size_t u_len, uint8_t *v, size_t v_len, size_t told[2]);

uint32_t segvartin_call_convoy(size_t count, const uint32_t *numbers, size_t numbers_len, const float *customs, size_t customs_len,
                               const uint64_t *parts, size_t parts_len, const uint8_t *source, size_t source_len, uint8_t *y, size_t y_len,
                               uint8_t *u, size_t u_len, uint8_t *v, size_t v_len, size_t told[3]);

uint32_t segvartin_call_desk_open(uint32_t camera, const uint32_t *described, size_t described_len, const float custom[2],
                                  const uint64_t frame_parts[8], const uint64_t lengths[4], uint32_t numbers[609], float customs[64],
                                  uint64_t parts[320], size_t told[2]);

uint32_t segvartin_call_desk_offer(uint32_t camera, const uint32_t band[2], const uint64_t place[3], uint32_t numbers[609],
                                   float customs[64], uint64_t parts[320]);

uint32_t segvartin_call_desk_step(const uint8_t *source, size_t source_len, uint8_t *y, size_t y_len, uint8_t *u, size_t u_len, uint8_t *v,
                                  size_t v_len, uint8_t *carried, size_t carried_len, uint32_t numbers[609], float customs[64],
                                  uint64_t parts[320], size_t told[4]);

uint32_t segvartin_call_open(const uint32_t *numbers, size_t numbers_len, const float custom[2], size_t told[3]);

uint32_t segvartin_call_band(const uint32_t *numbers, size_t numbers_len, const float custom[2], const uint8_t *source, size_t source_len,
                             uint8_t *y, size_t y_len, uint8_t *u, size_t u_len, uint8_t *v, size_t v_len, uint8_t *carried,
                             size_t carried_len, size_t told[3]);

uint32_t segvartin_call_luma_counts(const uint32_t *numbers, size_t numbers_len, const float custom[2], uint32_t counts[256],
                                    size_t told[2]);

uint32_t segvartin_call_shift_records(const uint8_t *file, size_t file_len, size_t first, uint64_t *entries, size_t entries_len,
                                      size_t told[2]);

uint32_t segvartin_call_shift_records_any(const uint8_t *file, size_t file_len, size_t first, uint64_t *entries, size_t entries_len,
                                          size_t told[3]);

uint32_t segvartin_call_shift_write(const uint8_t *records, size_t records_len, uint8_t *file, size_t file_len, size_t told[1]);

uint32_t segvartin_call_shift_write_settings(const uint8_t *records, size_t records_len, uint8_t *file, size_t file_len, size_t told[1]);

uint32_t segvartin_call_shift_forward(const uint8_t *file, size_t file_len, uint8_t *output, size_t output_len, size_t told[1]);

uint32_t segvartin_call_shift_back(const uint8_t *file, size_t file_len, uint8_t *output, size_t output_len, size_t told[1]);

uint32_t segvartin_call_shift_record(const uint32_t numbers[6], const uint8_t *y, size_t y_len, const uint8_t *u, size_t u_len,
                                     const uint8_t *v, size_t v_len, uint8_t *record, size_t record_len, size_t told[3]);

uint32_t segvartin_call_shift_record_settings(const uint32_t numbers[10], const uint8_t *y, size_t y_len, const uint8_t *u, size_t u_len,
                                              const uint8_t *v, size_t v_len, uint8_t *record, size_t record_len, size_t told[3]);

uint32_t segvartin_call_summary_build(const uint8_t *file, size_t file_len, uint8_t *summary, size_t summary_len);

uint32_t segvartin_call_summary_check(const uint8_t *file, size_t file_len, const uint8_t *summary, size_t summary_len, size_t told[1]);

uint32_t segvartin_call_summary_find(const uint8_t *file, size_t file_len, const uint8_t *summary, size_t summary_len, uint32_t crossing,
                                     size_t told[2]);

uint32_t segvartin_call_summary_update(const uint8_t *file, size_t file_len, const uint8_t *added, size_t added_len, uint8_t *summary,
                                       size_t summary_len);

uint32_t segvartin_call_shift_pairs(const uint8_t *ours, size_t ours_len, const uint8_t *theirs, size_t theirs_len, uint64_t report[18],
                                    size_t told[1]);

uint32_t segvartin_call_y4m_pictures(const uint8_t *file, size_t file_len, size_t first, uint64_t *entries, size_t entries_len,
                                     size_t told[5]);

uint32_t segvartin_call_y4m_write(const uint32_t numbers[3], const uint8_t *pictures, size_t pictures_len, uint8_t *output,
                                  size_t output_len, size_t told[1]);

uint32_t segvartin_call_y4m_picture(const uint32_t numbers[6], const uint8_t *y, size_t y_len, const uint8_t *u, size_t u_len,
                                    const uint8_t *v, size_t v_len, uint8_t *output, size_t output_len, size_t told[1]);
/* End of what tools/declarations.py makes. */

/* MXCSR: the floating-point mode and the exception flags. */
static inline uint32_t segvartin_get_mode(void) {
    uint32_t mode;
    __asm__ __volatile__("stmxcsr %0" : "=m"(mode) : : "memory");
    return mode;
}

static inline void segvartin_set_mode(uint32_t mode) { __asm__ __volatile__("ldmxcsr %0" : : "m"(mode) : "memory"); }

#define SEGVARTIN_DEFAULT_MODE 0x1f80u

/* Where the mode changes nothing is inlined, so that no floating-point operation of the caller's is moved to where the mode is not its own. */
#define SEGVARTIN_APART static __attribute__((noinline, unused))

/* The library's calls in the default mode, with the parameters that they have above. All functions below make their calls by these. */
SEGVARTIN_APART uint32_t segvartin_frame_in_default_mode(const uint32_t *numbers, size_t numbers_len, const float custom[2],
                                                         const uint8_t *source, size_t source_len, uint8_t *y, size_t y_len, uint8_t *u,
                                                         size_t u_len, uint8_t *v, size_t v_len, size_t told[2]) {
    const uint32_t mode = segvartin_get_mode();
    uint32_t number;
    segvartin_set_mode(SEGVARTIN_DEFAULT_MODE);
    number = segvartin_call_frame(numbers, numbers_len, custom, source, source_len, y, y_len, u, u_len, v, v_len, told);
    segvartin_set_mode(mode);
    return number;
}

SEGVARTIN_APART uint32_t segvartin_open_in_default_mode(const uint32_t *numbers, size_t numbers_len, const float custom[2], size_t told[3]) {
    const uint32_t mode = segvartin_get_mode();
    uint32_t number;
    segvartin_set_mode(SEGVARTIN_DEFAULT_MODE);
    number = segvartin_call_open(numbers, numbers_len, custom, told);
    segvartin_set_mode(mode);
    return number;
}

SEGVARTIN_APART uint32_t segvartin_band_in_default_mode(const uint32_t *numbers, size_t numbers_len, const float custom[2],
                                                        const uint8_t *source, size_t source_len, uint8_t *y, size_t y_len, uint8_t *u,
                                                        size_t u_len, uint8_t *v, size_t v_len, uint8_t *carried, size_t carried_len,
                                                        size_t told[3]) {
    const uint32_t mode = segvartin_get_mode();
    uint32_t number;
    segvartin_set_mode(SEGVARTIN_DEFAULT_MODE);
    number = segvartin_call_band(numbers, numbers_len, custom, source, source_len, y, y_len, u, u_len, v, v_len, carried, carried_len, told);
    segvartin_set_mode(mode);
    return number;
}

SEGVARTIN_APART uint32_t segvartin_convoy_in_default_mode(size_t count, const uint32_t *numbers, size_t numbers_len, const float *customs,
                                                          size_t customs_len, const uint64_t *parts, size_t parts_len,
                                                          const uint8_t *source, size_t source_len, uint8_t *y, size_t y_len, uint8_t *u,
                                                          size_t u_len, uint8_t *v, size_t v_len, size_t told[3]) {
    const uint32_t mode = segvartin_get_mode();
    uint32_t number;
    segvartin_set_mode(SEGVARTIN_DEFAULT_MODE);
    number = segvartin_call_convoy(count, numbers, numbers_len, customs, customs_len, parts, parts_len, source, source_len, y, y_len, u, u_len, v,
                                   v_len, told);
    segvartin_set_mode(mode);
    return number;
}

SEGVARTIN_APART uint32_t segvartin_desk_open_in_default_mode(uint32_t camera, const uint32_t *described, size_t described_len,
                                                             const float custom[2], const uint64_t frame_parts[8], const uint64_t lengths[4],
                                                             uint32_t numbers[609], float customs[64], uint64_t parts[320], size_t told[2]) {
    const uint32_t mode = segvartin_get_mode();
    uint32_t number;
    segvartin_set_mode(SEGVARTIN_DEFAULT_MODE);
    number = segvartin_call_desk_open(camera, described, described_len, custom, frame_parts, lengths, numbers, customs, parts, told);
    segvartin_set_mode(mode);
    return number;
}

SEGVARTIN_APART uint32_t segvartin_desk_step_in_default_mode(const uint8_t *source, size_t source_len, uint8_t *y, size_t y_len, uint8_t *u,
                                                             size_t u_len, uint8_t *v, size_t v_len, uint8_t *carried, size_t carried_len,
                                                             uint32_t numbers[609], float customs[64], uint64_t parts[320], size_t told[4]) {
    const uint32_t mode = segvartin_get_mode();
    uint32_t number;
    segvartin_set_mode(SEGVARTIN_DEFAULT_MODE);
    number = segvartin_call_desk_step(source, source_len, y, y_len, u, u_len, v, v_len, carried, carried_len, numbers, customs, parts, told);
    segvartin_set_mode(mode);
    return number;
}

SEGVARTIN_APART uint32_t segvartin_luma_counts_in_default_mode(const uint32_t *numbers, size_t numbers_len, const float custom[2],
                                                               uint32_t counts[256], size_t told[2]) {
    const uint32_t mode = segvartin_get_mode();
    uint32_t number;
    segvartin_set_mode(SEGVARTIN_DEFAULT_MODE);
    number = segvartin_call_luma_counts(numbers, numbers_len, custom, counts, told);
    segvartin_set_mode(mode);
    return number;
}

/*
 * Converts a whole frame (RULES 7.8). Answers 0, or a refusal: 1 to 4, 6 to 12.
 *
 *   width, height    1 to 16384
 *   channels .. transfer    the codes above; kr and kb are looked at where matrix is SEGVARTIN_CUSTOM
 *   source           h rows of w * c bytes: stride at least w * c, source_len exactly stride * h
 *   y                h rows of w bytes: y_stride at least w, y_len exactly y_stride * h
 *   u, v             ch rows of cw bytes: u_stride at least cw, u_len exactly u_stride * ch; so for v
 *   expected, received    always written
 */
static inline uint32_t segvartin_frame(uint32_t width, uint32_t height, uint32_t channels, uint32_t sampling, uint32_t range, uint32_t matrix,
                                       float kr, float kb, uint32_t transfer, const uint8_t *source, size_t source_len, uint32_t stride,
                                       uint8_t *y, size_t y_len, uint32_t y_stride, uint8_t *u, size_t u_len, uint32_t u_stride, uint8_t *v,
                                       size_t v_len, uint32_t v_stride, size_t *expected, size_t *received) {
    const uint32_t numbers[11] = {stride, width, height, channels, sampling, range, matrix, transfer, y_stride, u_stride, v_stride};
    const float custom[2] = {kr, kb};
    size_t told[2];
    const uint32_t number = segvartin_frame_in_default_mode(numbers, 11, custom, source, source_len, y, y_len, u, u_len, v, v_len, told);
    *expected = told[0];
    *received = told[1];
    return number;
}

/*
 * Opens a frame that comes in bands of rows (RULES 8.1). Answers 0, or a refusal: 1 to 4. Of plane strides it says nothing; the first band
 * call does.
 *
 *   done             gets 0, the rows done so far, also after a refusal
 *   the others       as in segvartin_frame
 */
static inline uint32_t segvartin_open(uint32_t width, uint32_t height, uint32_t channels, uint32_t sampling, uint32_t range, uint32_t matrix,
                                      float kr, float kb, uint32_t transfer, uint32_t y_stride, uint32_t u_stride, uint32_t v_stride,
                                      uint32_t *done, size_t *expected, size_t *received) {
    const uint32_t numbers[10] = {width, height, channels, sampling, range, matrix, transfer, y_stride, u_stride, v_stride};
    const float custom[2] = {kr, kb};
    size_t told[3];
    const uint32_t number = segvartin_open_in_default_mode(numbers, 10, custom, told);
    *expected = told[0];
    *received = told[1];
    *done = told[2] & 0xffffffffu; /* the rows done are 32 bits */
    return number;
}

/*
 * Converts the next rows of a frame (RULES 8.2, 8.9). Answers 0, or a refusal: 1 to 13; a refusal leaves *done as it is.
 *
 * The frame's numbers are those of its opening by segvartin_open; its tables are truncated, as in every call without options. *done, the planes
 * and the carried row are those that the last accepted call left: then the rows finished are those of segvartin_frame on the same rows, byte
 * for byte. After n rows these are n rows of Y; n rows of U and V in 4:2:2, n / 2 rounded down in 4:2:0, and all once n is h. No other byte of a
 * plane is written.
 *
 *   rows             1 to the rows that remain, h - *done; none remain where *done is h or more
 *   source           the band's rows of w * c bytes: stride at least w * c, source_len exactly stride * rows; stride may change between bands
 *   y, u, v          the whole planes, as in segvartin_frame
 *   carried          at least 3 * w bytes, in either sampling: in 4:2:0 a band that ends between two rows that share a chroma row leaves its
 *                    last row here for the next call
 *   done             in: the rows done; out: the rows done, this band's among them
 */
static inline uint32_t segvartin_band(uint32_t width, uint32_t height, uint32_t channels, uint32_t sampling, uint32_t range, uint32_t matrix,
                                      float kr, float kb, uint32_t transfer, uint32_t rows, const uint8_t *source, size_t source_len,
                                      uint32_t stride, uint8_t *y, size_t y_len, uint32_t y_stride, uint8_t *u, size_t u_len,
                                      uint32_t u_stride, uint8_t *v, size_t v_len, uint32_t v_stride, uint8_t *carried, size_t carried_len,
                                      uint32_t *done, size_t *expected, size_t *received) {
    const uint32_t numbers[13] = {*done, rows,   stride,   width,    height,   channels, sampling,
                                  range, matrix, transfer, y_stride, u_stride, v_stride};
    const float custom[2] = {kr, kb};
    size_t told[3];
    const uint32_t number =
        segvartin_band_in_default_mode(numbers, 13, custom, source, source_len, y, y_len, u, u_len, v, v_len, carried, carried_len, told);
    *expected = told[0];
    *received = told[1];
    *done = told[2] & 0xffffffffu; /* the rows done are 32 bits */
    return number;
}

/*
 * The same calls with their numbers in structs: they only pass each field on.
 */

/* A frame's size, settings and plane strides, by the rules above. */
typedef struct segvartin_description {
    uint32_t width, height;
    uint32_t channels, sampling, range, matrix;
    float kr, kb;
    uint32_t transfer;
    uint32_t y_stride, u_stride, v_stride;
} segvartin_description;

/* Bytes that the library reads, and bytes that it may write. */
typedef struct segvartin_bytes {
    const uint8_t *at;
    size_t len;
} segvartin_bytes;

typedef struct segvartin_bytes_mut {
    uint8_t *at;
    size_t len;
} segvartin_bytes_mut;

typedef struct segvartin_answer {
    uint32_t number;
    size_t expected, received;
} segvartin_answer;

/* A frame in bands: what its opening fixed, and the rows done. */
typedef struct segvartin_state {
    segvartin_description frame;
    uint32_t done;
} segvartin_state;

static inline segvartin_answer segvartin_convert_frame(const segvartin_description *d, segvartin_bytes source, uint32_t stride,
                                                       segvartin_bytes_mut y, segvartin_bytes_mut u, segvartin_bytes_mut v) {
    segvartin_answer a;
    a.number = segvartin_frame(d->width, d->height, d->channels, d->sampling, d->range, d->matrix, d->kr, d->kb, d->transfer, source.at,
                               source.len, stride, y.at, y.len, d->y_stride, u.at, u.len, d->u_stride, v.at, v.len, d->v_stride, &a.expected,
                               &a.received);
    return a;
}

static inline segvartin_answer segvartin_open_frame(segvartin_state *state, const segvartin_description *d) {
    segvartin_answer a;
    state->frame = *d;
    a.number = segvartin_open(d->width, d->height, d->channels, d->sampling, d->range, d->matrix, d->kr, d->kb, d->transfer, d->y_stride,
                              d->u_stride, d->v_stride, &state->done, &a.expected, &a.received);
    return a;
}

static inline segvartin_answer segvartin_convert_band(segvartin_state *state, uint32_t rows, segvartin_bytes source, uint32_t stride,
                                                      segvartin_bytes_mut y, segvartin_bytes_mut u, segvartin_bytes_mut v,
                                                      segvartin_bytes_mut carried) {
    const segvartin_description *d = &state->frame;
    segvartin_answer a;
    a.number = segvartin_band(d->width, d->height, d->channels, d->sampling, d->range, d->matrix, d->kr, d->kb, d->transfer, rows, source.at,
                              source.len, stride, y.at, y.len, d->y_stride, u.at, u.len, d->u_stride, v.at, v.len, d->v_stride, carried.at,
                              carried.len, &state->done, &a.expected, &a.received);
    return a;
}

/*
 * The calls with options.
 */

/*
 * What a call may choose beyond its description. A later version may have further fields. So it must be made by segvartin_options_of, which
 * gives every choice the meaning that it has in a call without options, and fields are then set by name.
 *
 *   rounding         SEGVARTIN_TRUNCATED or SEGVARTIN_NEAREST
 *   left, top        where the frame begins in the source: pixel x of its row r is pixel left + x of row top + r there. left + w at most W, top + h
 *                    at most H. In band calls the source is the band's rows: left is applied in each, and top in none
 *   source_width, source_height    W, H: the size of the source, 1 to 16384
 */
typedef struct segvartin_options {
    uint32_t rounding;
    uint32_t left, top, source_width, source_height;
} segvartin_options;

/*
 * The choices that a call without options makes: truncated tables, and the whole source as window. d is the description of the call, its size
 * already set: W and H are taken from it here, so where the size of d changes later, make the options anew.
 */
static inline segvartin_options segvartin_options_of(const segvartin_description *d) {
    segvartin_options o;
    o.rounding = SEGVARTIN_TRUNCATED;
    o.left = o.top = 0;
    o.source_width = d->width;
    o.source_height = d->height;
    return o;
}

/* A frame in bands: what its opening fixed, and the rows done. It must be made by segvartin_open_frame_with: it may have further fields too. */
typedef struct segvartin_state_with {
    segvartin_description frame;
    segvartin_options options;
    uint32_t done;
} segvartin_state_with;

/* The numbers of a description with options. */
static inline void segvartin_put_numbers(uint32_t numbers[15], const segvartin_description *d, const segvartin_options *o) {
    numbers[0] = d->width;
    numbers[1] = d->height;
    numbers[2] = d->channels;
    numbers[3] = d->sampling;
    numbers[4] = d->range;
    numbers[5] = d->matrix;
    numbers[6] = d->transfer;
    numbers[7] = d->y_stride;
    numbers[8] = d->u_stride;
    numbers[9] = d->v_stride;
    numbers[10] = o->rounding;
    numbers[11] = o->left;
    numbers[12] = o->top;
    numbers[13] = o->source_width;
    numbers[14] = o->source_height;
}

/*
 * Converts a whole frame (RULES 7.8). Answers 0, or a refusal: 1 to 4, 14, 6 to 12. With o as segvartin_options_of makes it, it is
 * segvartin_convert_frame. With a window the planes are those of the rectangle copied out: no pixel outside it is looked at, also where w is odd or
 * in the last row.
 *
 *   d                size, settings and plane strides by the rules of segvartin_frame
 *   o                the choices of the call; a code without a meaning is refusal 1
 *   source           H rows of W * c bytes: stride at least W * c, its length exactly stride * H
 *   y, u, v          as in segvartin_frame
 */
static inline segvartin_answer segvartin_convert_frame_with(const segvartin_description *d, const segvartin_options *o, segvartin_bytes source,
                                                            uint32_t stride, segvartin_bytes_mut y, segvartin_bytes_mut u,
                                                            segvartin_bytes_mut v) {
    const float custom[2] = {d->kr, d->kb};
    uint32_t numbers[16];
    size_t told[2];
    segvartin_answer a;
    numbers[0] = stride;
    segvartin_put_numbers(numbers + 1, d, o);
    a.number = segvartin_frame_in_default_mode(numbers, 16, custom, source.at, source.len, y.at, y.len, u.at, u.len, v.at, v.len, told);
    a.expected = told[0];
    a.received = told[1];
    return a;
}

/*
 * Opens a frame that comes in bands of rows (RULES 8.1). Answers 0, or a refusal: 1 to 4, 14. Of plane strides it says nothing; the first band
 * call does.
 *
 *   state            gets the description, the options and 0 rows done, also after a refusal. The options hold for all bands of the frame
 *   d, o             as in segvartin_convert_frame_with
 */
static inline segvartin_answer segvartin_open_frame_with(segvartin_state_with *state, const segvartin_description *d,
                                                         const segvartin_options *o) {
    const float custom[2] = {d->kr, d->kb};
    uint32_t numbers[15];
    size_t told[3];
    segvartin_answer a;
    state->frame = *d;
    state->options = *o;
    segvartin_put_numbers(numbers, d, o);
    a.number = segvartin_open_in_default_mode(numbers, 15, custom, told);
    a.expected = told[0];
    a.received = told[1];
    state->done = told[2] & 0xffffffffu; /* the rows done are 32 bits */
    return a;
}

/*
 * Converts the next rows of a frame (RULES 8.2, 8.9). Answers 0, or a refusal: 1 to 14; a refusal leaves *state as it is.
 *
 * State, planes and carried row are those that the last accepted call left: then the rows finished are those of segvartin_convert_frame_with
 * on the same rows with the opening's options, byte for byte.
 *
 *   state            in: as the opening or the band before left it; out: this band's rows are done too
 *   source           the next rows of the source that have the frame in them, whole: W * c bytes each, from column 0 on. The call itself goes
 *                    to pixel left of each; the caller adds no left to the pointer. Where the source stands in memory whole, the band starts
 *                    at byte (top + state->done) * stride of it. stride at least W * c, its length exactly stride * rows; stride may change
 *                    between bands
 *   rows, y, u, v, carried    as in segvartin_band
 */
static inline segvartin_answer segvartin_convert_band_with(segvartin_state_with *state, uint32_t rows, segvartin_bytes source, uint32_t stride,
                                                           segvartin_bytes_mut y, segvartin_bytes_mut u, segvartin_bytes_mut v,
                                                           segvartin_bytes_mut carried) {
    const float custom[2] = {state->frame.kr, state->frame.kb};
    uint32_t numbers[18];
    size_t told[3];
    segvartin_answer a;
    numbers[0] = state->done;
    numbers[1] = rows;
    numbers[2] = stride;
    segvartin_put_numbers(numbers + 3, &state->frame, &state->options);
    a.number = segvartin_band_in_default_mode(numbers, 18, custom, source.at, source.len, y.at, y.len, u.at, u.len, v.at, v.len, carried.at,
                                              carried.len, told);
    a.expected = told[0];
    a.received = told[1];
    state->done = told[2] & 0xffffffffu; /* the rows done are 32 bits */
    return a;
}

/*
 * Several frames in one call (RULES 15.1 to 15.4), each with its own description, over one source buffer and one buffer for each plane.
 */

/* A part of a buffer: length bytes from byte offset on. */
typedef struct segvartin_part {
    size_t offset, length;
} segvartin_part;

/*
 * A frame of a convoy. A later version may have further fields: it must be made by segvartin_convoy_frame_of, and fields are then set by name.
 *
 *   frame            size, settings and plane strides by the rules of segvartin_frame
 *   options          as in segvartin_convert_frame_with
 *   stride           that of the source
 *   source           where the frame's source stands in the source buffer: exactly stride * H bytes, H by the options. Several frames may have the
 *                    same bytes, and other windows onto them
 *   y, u, v          where its planes stand in the three buffers: exactly y_stride * h, u_stride * ch and v_stride * ch bytes
 */
typedef struct segvartin_convoy_frame {
    segvartin_description frame;
    segvartin_options options;
    uint32_t stride;
    segvartin_part source, y, u, v;
} segvartin_convoy_frame;

/* The frame that d describes, its size already set, with the choices of segvartin_options_of; its stride is 0, and its parts have no bytes. */
static inline segvartin_convoy_frame segvartin_convoy_frame_of(const segvartin_description *d) {
    static const segvartin_part none = {0, 0};
    segvartin_convoy_frame f;
    f.frame = *d;
    f.options = segvartin_options_of(d);
    f.stride = 0;
    f.source = f.y = f.u = f.v = none;
    return f;
}

/* Puts an offset and a length behind each other. */
static inline void segvartin_put_part(uint64_t parts[2], segvartin_part part) {
    parts[0] = part.offset;
    parts[1] = part.length;
}

/*
 * Converts frames in order, each as segvartin_convert_frame_with on its parts would (RULES 15.3). The first that is refused ends the call with its
 * refusal, 1 to 4, 14 or 6 to 12: the frames before it stand, and it and those behind it write no byte. 18 is answered before any frame is begun, and
 * then no byte is written. No byte outside the parts of finished frames is written. Answers 0, or a refusal.
 *
 *   frames           their parts lie inside the buffers, offset + length not wrapped, and of two frames the parts in y share no byte, nor those in u,
 *                    nor those in v; else 18. Parts in source may. A part of no bytes shares none, and is outside where its offset is above the
 *                    buffer's length. A frame with a code without a meaning is refused with 1 at its turn
 *   count            how many frames there are: 0 is finished work, above SEGVARTIN_MAX_CONVOY is 18
 *   source, y, u, v  the buffers, of any lengths
 *   done             gets how many frames are finished, count after 0. Where a frame is refused that is its place, from 0; with 18 it is 0
 */
static inline segvartin_answer segvartin_convert_convoy(const segvartin_convoy_frame *frames, size_t count, segvartin_bytes source,
                                                        segvartin_bytes_mut y, segvartin_bytes_mut u, segvartin_bytes_mut v, size_t *done) {
    const size_t packed = count < SEGVARTIN_MAX_CONVOY ? count : SEGVARTIN_MAX_CONVOY; /* the library looks at no more */
    uint32_t numbers[16 * SEGVARTIN_MAX_CONVOY];
    float customs[2 * SEGVARTIN_MAX_CONVOY];
    uint64_t parts[8 * SEGVARTIN_MAX_CONVOY];
    size_t told[3], k;
    segvartin_answer a;
    for (k = 0; k < packed; k++) {
        const segvartin_convoy_frame *f = frames + k;
        numbers[16 * k] = f->stride;
        segvartin_put_numbers(numbers + 16 * k + 1, &f->frame, &f->options);
        customs[2 * k] = f->frame.kr;
        customs[2 * k + 1] = f->frame.kb;
        segvartin_put_part(parts + 8 * k, f->source);
        segvartin_put_part(parts + 8 * k + 2, f->y);
        segvartin_put_part(parts + 8 * k + 4, f->u);
        segvartin_put_part(parts + 8 * k + 6, f->v);
    }
    a.number = segvartin_convoy_in_default_mode(count, numbers, 16 * packed, customs, 2 * packed, parts, 8 * packed, source.at, source.len, y.at,
                                                y.len, u.at, u.len, v.at, v.len, told);
    a.expected = told[0];
    a.received = told[1];
    *done = told[2];
    return a;
}

/*
 * A desk for 32 cameras (RULES 16.1 to 16.6), which deliver bands when they can and share one converter. A camera opens a frame at its number,
 * offers its bands one at a time, and a step serves one band: that of the next camera with a band waiting, by number, going round. All cameras share
 * a source buffer, one buffer for each plane and one for carried rows; a frame's planes, its carried row and its bands are parts of them.
 *
 *   - A band that is refused at its step uses that step: it is dropped, no byte is written, the frame stays open with the rows that it had, and the
 *     next camera is asked first. The band may be offered again.
 *   - A number is free again with the step that does the last row of its frame, and so are the frame's parts: another frame can be opened there
 *     before the next step. A band offered behind the last row is 21.
 *   - There is no call that gives a frame up. One whose bands can only be refused, since a plane's part is too short for it, say, keeps its number
 *     and its parts as long as the desk is used. Who wants them back begins a new desk, all zeros, and opens the frames of the others anew.
 *
 * The desk is the caller's, and is handed on: it began as all zeros, and each call gets it as the call before left it. Then a camera with a band
 * waiting is served within 32 steps, whatever the others open and offer. And where the bytes of planes, carried rows and waiting bands come back as
 * they were left, in the same places of the buffers lent to the next step, the planes of each camera are, up to the step of its last row, those of
 * its own accepted bands converted alone: of segvartin_convert_frame_with on the same rows, byte for byte. Nothing else of a buffer need stay, and
 * buffers may move and be of other lengths from call to call. A desk that no call wrote is answered too, and nothing outside the buffers is touched.
 */

/*
 * A desk (RULES 10.10). All zeros is one with no frame open: segvartin_desk desk = {{0}, {0}, {0}}. It has no pointers, so it may be copied and kept.
 *
 *   numbers          of camera c nineteen from 19 * c on: 0 no frame, 1 an open frame, 2 one with a band that waits; the rows done; the band's rows
 *                    and stride; the fifteen of its description, as for segvartin_call_open. The last is the camera that is asked first at the next
 *                    step. At a number that is free, and of a band where none waits, all are 0
 *   customs          kr and kb of camera c at 2 * c and 2 * c + 1
 *   parts            of camera c ten from 10 * c on: offset and length of its band in the source, then of its parts of y, u, v and of the carried
 *                    rows
 */
typedef struct segvartin_desk {
    uint32_t numbers[19 * SEGVARTIN_CAMERAS + 1];
    float customs[2 * SEGVARTIN_CAMERAS];
    uint64_t parts[10 * SEGVARTIN_CAMERAS];
} segvartin_desk;

/*
 * Where a frame at a desk stands in the buffers. The calls ask these lengths at each step: y exactly y_stride * h, u and v exactly u_stride * ch and
 * v_stride * ch, carried at least 3 * w bytes.
 */
typedef struct segvartin_desk_parts {
    segvartin_part y, u, v, carried;
} segvartin_desk_parts;

/* How long the buffers are. */
typedef struct segvartin_desk_lengths {
    size_t y, u, v, carried;
} segvartin_desk_lengths;

/* What a step answers. */
typedef struct segvartin_desk_answer {
    uint32_t number; /* 0, also where no band waited; or the refusal of the band that was served */
    size_t expected, received;
    int served;      /* 1 where a band was served, converted or refused; 0 where none waited */
    uint32_t camera; /* whose; 0 where none waited */
} segvartin_desk_answer;

/*
 * Opens a frame for a camera (RULES 16.2). Answers 0, or a refusal: 21, 23, 18, 1 to 4, 14; none carries expected and received. A refusal leaves the
 * desk as it is. Of strides and of the lengths of parts it asks nothing; each step does.
 *
 *   desk             gets the frame at the camera's number, with no row done and no band
 *   camera           0 to 31, else 21; 23 where a frame is open there
 *   d, o             as in segvartin_convert_frame_with; they hold for all bands of the frame
 *   parts            inside the buffers, offset + length not wrapped, and no byte of them in an open frame's part of the same buffer; else 18. A part
 *                    of no bytes shares none, and is outside where its offset is above the buffer's length
 *   lengths          of the buffers, as they will be lent to steps
 */
static inline segvartin_answer segvartin_desk_open(segvartin_desk *desk, uint32_t camera, const segvartin_description *d, const segvartin_options *o,
                                                   const segvartin_desk_parts *parts, const segvartin_desk_lengths *lengths) {
    const float custom[2] = {d->kr, d->kb};
    uint32_t described[15];
    uint64_t frame_parts[8], lens[4];
    size_t told[2];
    segvartin_answer a;
    segvartin_put_numbers(described, d, o);
    segvartin_put_part(frame_parts, parts->y);
    segvartin_put_part(frame_parts + 2, parts->u);
    segvartin_put_part(frame_parts + 4, parts->v);
    segvartin_put_part(frame_parts + 6, parts->carried);
    lens[0] = lengths->y;
    lens[1] = lengths->u;
    lens[2] = lengths->v;
    lens[3] = lengths->carried;
    a.number = segvartin_desk_open_in_default_mode(camera, described, 15, custom, frame_parts, lens, desk->numbers, desk->customs, desk->parts, told);
    a.expected = told[0];
    a.received = told[1];
    return a;
}

/*
 * Offers the next band of a camera's frame, which then waits for its step (RULES 16.3). Answers 0, or a refusal: 21, 22, 18; none carries expected
 * and received. A refusal leaves the desk as it is. Neither the rows nor the stride are asked here, and no byte is looked at: the step does both.
 *
 *   camera           21 where it is above 31 or has no open frame; 22 where a band of it waits
 *   rows, stride     as in segvartin_convert_band_with: 1 to the rows that remain; stride at least W * c
 *   source           where the band stands in the source buffer, exactly stride * rows bytes; 18 where it reaches outside. Bands may share bytes
 *   source_len       how long the source buffer is
 */
static inline segvartin_answer segvartin_desk_offer(segvartin_desk *desk, uint32_t camera, uint32_t rows, uint32_t stride, segvartin_part source,
                                                    size_t source_len) {
    const uint32_t band[2] = {rows, stride};
    uint64_t place[3];
    segvartin_answer a;
    segvartin_put_part(place, source);
    place[2] = source_len;
    a.number = segvartin_call_desk_offer(camera, band, place, desk->numbers, desk->customs, desk->parts);
    a.expected = a.received = 0;
    return a;
}

/*
 * Serves one band (RULES 16.4): that of the first camera with a band waiting, from the one behind the camera last served, going round; at first from
 * camera 0. Where none waits it does nothing. The band is converted as by segvartin_convert_band_with on the frame's parts, or refused: 18 where a
 * part of it or of its frame is outside the buffers as they are lent now, else 2, 3, 4, 14, 5 to 13. Either way it waits no more. No byte outside
 * the parts of the camera's frame is written, and with a refusal none.
 *
 *   desk             gets the camera's place anew: the rows done, or a free number where the last is done; and who is asked first at the next step
 *   source           has the waiting bands in their places; it is only read
 *   y, u, v, carried    have the parts of open frames as the step before left them
 */
static inline segvartin_desk_answer segvartin_desk_step(segvartin_desk *desk, segvartin_bytes source, segvartin_bytes_mut y, segvartin_bytes_mut u,
                                                        segvartin_bytes_mut v, segvartin_bytes_mut carried) {
    size_t told[4];
    segvartin_desk_answer a;
    a.number = segvartin_desk_step_in_default_mode(source.at, source.len, y.at, y.len, u.at, u.len, v.at, v.len, carried.at, carried.len,
                                                   desk->numbers, desk->customs, desk->parts, told);
    a.expected = told[0];
    a.received = told[1];
    a.served = told[2] != 0;
    a.camera = told[3] & 0xffffffffu; /* 0 to 31 */
    return a;
}

/*
 * Counts how many of the 16777216 colours R, G, B have each luma (RULES 5.3, 10.4). Answers 0, or a refusal: 1, 4. Neither carries expected and
 * received, so they are not told. The call goes through all colours, which takes about ten milliseconds.
 *
 *   range, matrix    the codes above; luma depends on no other setting
 *   kr, kb           each from 0 to 0.5; looked at where matrix is SEGVARTIN_CUSTOM
 *   counts           256 numbers: counts[y] gets how many colours have luma y. They add to 16777216; in SEGVARTIN_LIMITED those below 16 and above
 *                    235 are 0
 */
static inline uint32_t segvartin_luma_counts(uint32_t range, uint32_t matrix, float kr, float kb, uint32_t counts[256]) {
    const uint32_t numbers[2] = {range, matrix};
    const float custom[2] = {kr, kb};
    size_t told[2];
    return segvartin_luma_counts_in_default_mode(numbers, 2, custom, counts, told);
}

/*
 * Shift files (RULES 11.1 to 11.6): the planes of up to 4096 frames of 4:2:0 in one file, a record for each. Every number in it stands low byte
 * first. A file is a count (4 bytes), for each record its offset (8) and length (4), and the records without a gap. A record is a crossing number
 * (4 bytes), w (2), h (2), then Y, U and V without padding: 8 + w * h + 2 * cw * ch bytes. So a file is 4 bytes, 12 more for each record, and the
 * records. This is the form without settings; that with settings stands further below.
 */

/* The bytes of a buffer that may be written, to be read. */
static inline segvartin_bytes segvartin_read_only(segvartin_bytes_mut b) {
    segvartin_bytes bytes;
    bytes.at = b.at;
    bytes.len = b.len;
    return bytes;
}

/* A record of a file that was read: its numbers, and where it and its planes stand. Offsets are in bytes from the start of the file. */
typedef struct segvartin_shift_record {
    uint64_t crossing, width, height;
    uint64_t offset, length;
    uint64_t y_offset, y_length;
    uint64_t u_offset, u_length;
    uint64_t v_offset, v_length;
} segvartin_shift_record;

/*
 * Reads a shift file without settings (RULES 11.4). Answers 0, or a refusal: 15, exactly where the bytes are no such file, so for every file with
 * settings too; then no record is written. Its time is that of the pairs and of the first bytes of each record: planes are not looked at.
 *
 *   file             the whole file, and nothing behind it
 *   first            the record to begin with; they count from 0. At or past the last there is none to tell of
 *   records          gets records first, first + 1 and so on, as many as there are and as room allows; those behind stay as they are
 *   room             how many records it has room for. 0 where only the count is wanted
 *   count            gets how many records the file has, 0 after a refusal
 *   read             gets how many records were written, 0 after a refusal
 *
 * Each call checks the whole file, so it is asked for many records at once.
 */
static inline segvartin_answer segvartin_read_shift_file(segvartin_bytes file, size_t first, segvartin_shift_record *records, size_t room,
                                                         size_t *count, size_t *read) {
    size_t told[2];
    segvartin_answer a;
    a.number = segvartin_call_shift_records(file.at, file.len, first, (uint64_t *)(void *)records, 11 * room, told); /* eleven numbers each */
    a.expected = a.received = 0;
    *count = told[0];
    *read = told[1];
    return a;
}

/* Bytes of a file, where they stand in it. offset and length are those of a record or a picture that a call told of this file. */
static inline segvartin_bytes segvartin_shift_part(segvartin_bytes file, uint64_t offset, uint64_t length) {
    segvartin_bytes part;
    part.at = file.at + offset;
    part.len = length;
    return part;
}

/* The planes of a record: h rows of w bytes, and twice ch rows of cw bytes. */
static inline segvartin_bytes segvartin_shift_y(segvartin_bytes file, const segvartin_shift_record *r) {
    return segvartin_shift_part(file, r->y_offset, r->y_length);
}

static inline segvartin_bytes segvartin_shift_u(segvartin_bytes file, const segvartin_shift_record *r) {
    return segvartin_shift_part(file, r->u_offset, r->u_length);
}

static inline segvartin_bytes segvartin_shift_v(segvartin_bytes file, const segvartin_shift_record *r) {
    return segvartin_shift_part(file, r->v_offset, r->v_length);
}

/* The whole record, as segvartin_write_shift_file takes it. */
static inline segvartin_bytes segvartin_shift_whole(segvartin_bytes file, const segvartin_shift_record *r) {
    return segvartin_shift_part(file, r->offset, r->length);
}

/*
 * Writes a shift file without settings (RULES 11.5). Answers 0, or a refusal: 15, 16.
 *
 *   records          up to 4096 records, one behind the other and nothing between; no bytes for a file without records. Where they stand so in a
 *                    file, from the first record's offset to the end, that is what is meant
 *   file             gets the file at its start; what lies past it is left as it is. 16 where the file does not fit, and then no byte is written
 *   size             gets the file's size, also after 16; 0 after 15
 */
static inline segvartin_answer segvartin_write_shift_file(segvartin_bytes records, segvartin_bytes_mut file, size_t *size) {
    size_t told[1];
    segvartin_answer a;
    a.number = segvartin_call_shift_write(records.at, records.len, file.at, file.len, told);
    a.expected = a.received = 0;
    *size = told[0];
    return a;
}

/*
 * Makes a record without settings of planes (RULES 11.6), as a frame call or the bands of a frame left them in 4:2:0. Answers 0, or a refusal: 15,
 * 8 to 12, 16.
 *
 *   crossing         any number
 *   d                its width, height, y_stride, u_stride and v_stride are looked at, no setting. 15 where w or h is not from 1 to 16384
 *   y, u, v          as in segvartin_frame with SEGVARTIN_YUV420: of each row its first w or cw bytes are taken. They are only read:
 *                    segvartin_read_only makes them of what a frame call took
 *   record           gets the record at its start; what lies past it is left as it is. 16 where the record does not fit
 *   size             gets the record's size, also after 16; 0 after another refusal. The next record of a file starts so many bytes on
 */
static inline segvartin_answer segvartin_write_shift_record(uint32_t crossing, const segvartin_description *d, segvartin_bytes y,
                                                            segvartin_bytes u, segvartin_bytes v, segvartin_bytes_mut record, size_t *size) {
    const uint32_t numbers[6] = {crossing, d->width, d->height, d->y_stride, d->u_stride, d->v_stride};
    size_t told[3];
    segvartin_answer a;
    a.number = segvartin_call_shift_record(numbers, y.at, y.len, u.at, u.len, v.at, v.len, record.at, record.len, told);
    a.expected = told[0];
    a.received = told[1];
    *size = told[2];
    return a;
}

/*
 * Shift files with settings (RULES 11.4 to 11.8): the second form of the file, whose records say how their planes were made. It starts with four
 * bytes of 255; then come count, pairs and records as in the first form. A record has four bytes more, after h: sampling, range, matrix and
 * transfer, by the codes above, and SEGVARTIN_NOT_RECORDED in any of the last three that is not known. Its planes have the size of its own sampling,
 * so that it is 12 + w * h + 2 * cw * ch bytes; a file is 8 bytes, 12 more for each record, and the records.
 *
 * Of a custom matrix a record says that it is one: kr and kb do not travel with it, and neither does the rounding of the curve tables. Who is to
 * make the same planes again must have them from elsewhere.
 *
 * No bytes are a file of both forms. The functions above take the first form alone, and answer 15 to the second; those on summaries and pairs take
 * both.
 */

/* In the place of a range, a matrix or a transfer that is not recorded (RULES 11.7). A sampling always is. */
#define SEGVARTIN_NOT_RECORDED 255

/* The form of a file (RULES 10.5). */
#define SEGVARTIN_WITHOUT_SETTINGS 0
#define SEGVARTIN_WITH_SETTINGS 1

/* A record of a file of either form. One without settings is SEGVARTIN_YUV420, and nothing else of it is recorded. */
typedef struct segvartin_settings_record {
    segvartin_shift_record shift;     /* its numbers, and where it and its planes stand: for segvartin_shift_y and the others */
    uint64_t sampling;                /* SEGVARTIN_YUV420 or SEGVARTIN_YUV422: by it U and V have their rows */
    uint64_t range, matrix, transfer; /* the codes above, or SEGVARTIN_NOT_RECORDED */
} segvartin_settings_record;

/*
 * Reads a shift file of either form (RULES 11.4). Answers 0, or a refusal: 15, exactly where the bytes are a file of neither. Its time is that of
 * segvartin_read_shift_file.
 *
 *   records          as there, with the settings of each
 *   form             gets the form of the file; SEGVARTIN_WITHOUT_SETTINGS after a refusal
 *   the others       as there
 */
static inline segvartin_answer segvartin_read_any_shift_file(segvartin_bytes file, size_t first, segvartin_settings_record *records, size_t room,
                                                             size_t *count, size_t *read, int *form) {
    size_t told[3];
    segvartin_answer a;
    a.number = segvartin_call_shift_records_any(file.at, file.len, first, (uint64_t *)(void *)records, 15 * room, told); /* fifteen numbers each */
    a.expected = a.received = 0;
    *count = told[0];
    *read = told[1];
    *form = (int)told[2];
    return a;
}

/*
 * Writes a shift file with settings (RULES 11.5). Answers 0, or a refusal: 15, 16.
 *
 *   records          up to 4096 records with settings, as in segvartin_write_shift_file. 15 where a byte of settings is no code
 *   file, size       as there
 */
static inline segvartin_answer segvartin_write_settings_file(segvartin_bytes records, segvartin_bytes_mut file, size_t *size) {
    size_t told[1];
    segvartin_answer a;
    a.number = segvartin_call_shift_write_settings(records.at, records.len, file.at, file.len, told);
    a.expected = a.received = 0;
    *size = told[0];
    return a;
}

/*
 * Makes a record with settings of planes (RULES 11.6), as a frame call or the bands of a frame left them in either sampling. Answers 0, or a refusal:
 * 15, 8 to 12, 16.
 *
 *   crossing         any number
 *   d                that of the frame call: width, height, y_stride, u_stride and v_stride are looked at, and sampling, range, matrix and transfer
 *                    are recorded, SEGVARTIN_CUSTOM as 6. kr, kb and channels are not recorded, and no options are. Where one of range, matrix and
 *                    transfer is not known, set it to SEGVARTIN_NOT_RECORDED. 15 where w or h is not from 1 to 16384 or one of the four is no code
 *   y, u, v          as in segvartin_frame with that sampling: of each row its first w or cw bytes are taken. They are only read
 *   record, size     as in segvartin_write_shift_record
 */
static inline segvartin_answer segvartin_write_settings_record(uint32_t crossing, const segvartin_description *d, segvartin_bytes y,
                                                               segvartin_bytes u, segvartin_bytes v, segvartin_bytes_mut record, size_t *size) {
    const uint32_t numbers[10] = {crossing,    d->width,    d->height, d->y_stride, d->u_stride,
                                  d->v_stride, d->sampling, d->range,  d->matrix,   d->transfer};
    size_t told[3];
    segvartin_answer a;
    a.number = segvartin_call_shift_record_settings(numbers, y.at, y.len, u.at, u.len, v.at, v.len, record.at, record.len, told);
    a.expected = told[0];
    a.received = told[1];
    *size = told[2];
    return a;
}

/*
 * Makes of a file without settings the file with settings of the same records (RULES 11.8), each with SEGVARTIN_YUV420 and nothing else recorded.
 * Answers 0, or a refusal: 15, exactly where the bytes are no file without settings; 16.
 *
 *   file             the whole file, and nothing behind it
 *   output           gets the moved file at its start, 4 bytes and 4 for each record longer than the file; what lies past it is left as it is. 16
 *                    where it does not fit, and then no byte is written
 *   size             gets the size of the moved file, also after 16; 0 after 15
 */
static inline segvartin_answer segvartin_move_forward(segvartin_bytes file, segvartin_bytes_mut output, size_t *size) {
    size_t told[1];
    segvartin_answer a;
    a.number = segvartin_call_shift_forward(file.at, file.len, output.at, output.len, told);
    a.expected = a.received = 0;
    *size = told[0];
    return a;
}

/*
 * Makes of a file with settings the file without settings of the same records (RULES 11.8), where that loses nothing: of a file moved forward, the
 * same bytes as before. Answers 0, or a refusal: 15, exactly where the bytes are no file with settings; 20, where a record has SEGVARTIN_YUV422 or a
 * range, matrix or transfer that is recorded; 16.
 *
 *   file, output     as in segvartin_move_forward; here the moved file is so much shorter
 *   size             gets the size of the moved file, also after 16; 0 after 15 and 20
 */
static inline segvartin_answer segvartin_move_back(segvartin_bytes file, segvartin_bytes_mut output, size_t *size) {
    size_t told[1];
    segvartin_answer a;
    a.number = segvartin_call_shift_back(file.at, file.len, output.at, output.len, told);
    a.expected = a.received = 0;
    *size = told[0];
    return a;
}

/*
 * Summaries of shift files, of either form (RULES 12.1 to 12.7). A summary has an entry of SEGVARTIN_SUMMARY_ENTRY bytes for each record of its file:
 * crossing number (4 bytes), offset of the record in the file (8), the mean of its Y rounded down (1), each low byte first. They stand by ascending
 * crossing number, and those of one crossing by ascending offset. So a file of n records has one summary, of 13 * n bytes. Where a call is lent more,
 * the bytes behind these are not looked at.
 *
 * Each of the calls goes through the Y planes of the file's records, for their means; a check only as far as the first entry that is not the file's.
 */

/*
 * Builds the summary of a shift file (RULES 12.4). Answers 0, or a refusal: 15, 17.
 *
 *   file             the whole file, and nothing behind it
 *   summary          gets the summary at its start, 13 bytes a record; what lies past it is left as it is. 17 where it does not fit
 */
static inline segvartin_answer segvartin_build_summary(segvartin_bytes file, segvartin_bytes_mut summary) {
    segvartin_answer a;
    a.number = segvartin_call_summary_build(file.at, file.len, summary.at, summary.len);
    a.expected = a.received = 0;
    return a;
}

/*
 * Checks a summary (RULES 12.5). Answers 0, or a refusal: 15.
 *
 *   file             the whole file, and nothing behind it
 *   summary          what may be its summary, at its start
 *   yes              gets 1 where it is, exactly; else 0, so where it is too short, and after a refusal
 */
static inline segvartin_answer segvartin_check_summary(segvartin_bytes file, segvartin_bytes summary, int *yes) {
    size_t told[1];
    segvartin_answer a;
    a.number = segvartin_call_summary_check(file.at, file.len, summary.at, summary.len, told);
    a.expected = a.received = 0;
    *yes = told[0] != 0;
    return a;
}

/*
 * Finds the record of a crossing, the first in the file where there are several (RULES 12.6). Answers 0, or a refusal: 15, 17. The summary is checked
 * first.
 *
 *   file             the whole file, and nothing behind it
 *   summary          its summary; 17 where the check above would not say yes
 *   crossing         any number
 *   record           gets the record, as segvartin_read_any_shift_file tells it: segvartin_shift_y and the others cut its planes out of the file.
 *                    Where none is found it is left as it is
 *   found            gets 1 where a record has the number; else 0, and after a refusal
 */
static inline segvartin_answer segvartin_find_any_record(segvartin_bytes file, segvartin_bytes summary, uint32_t crossing,
                                                         segvartin_settings_record *record, int *found) {
    size_t told[2], count, read;
    int form;
    segvartin_answer a;
    a.number = segvartin_call_summary_find(file.at, file.len, summary.at, summary.len, crossing, told);
    a.expected = a.received = 0;
    *found = told[0] != 0;
    if (*found) segvartin_read_any_shift_file(file, told[1], record, 1, &count, &read, &form);
    return a;
}

/*
 * The same without the settings, of a file of either form: U and V have as many bytes as the record says, in either sampling. It is not inlined, since
 * gcc would warn, where a caller knows that the record is there, that it may not have been set.
 */
SEGVARTIN_APART segvartin_answer segvartin_find_record(segvartin_bytes file, segvartin_bytes summary, uint32_t crossing,
                                                       segvartin_shift_record *record, int *found) {
    segvartin_settings_record any;
    segvartin_answer a = segvartin_find_any_record(file, summary, crossing, &any, found);
    if (*found) *record = any.shift;
    return a;
}

/*
 * Makes of a file's summary that of the file with one record more at its end (RULES 12.7), which is then to be written by
 * segvartin_write_shift_file or segvartin_write_settings_file: byte for byte what segvartin_build_summary makes of that. Answers 0, or a refusal: 15,
 * 17. The summary is checked first.
 *
 *   file             the file as it is, without the record; it is not changed
 *   record           one whole record of the file's form. 15 where it is none, or more, or of the other form; and where the file has 4096 already
 *   summary          the file's summary, and room for 13 bytes more: for n records n + 1 entries are written at its start, the offsets of the old
 *                    ones being those of the file with the record. What lies past them is left as it is. 17 where they do not fit
 */
static inline segvartin_answer segvartin_update_summary(segvartin_bytes file, segvartin_bytes record, segvartin_bytes_mut summary) {
    segvartin_answer a;
    a.number = segvartin_call_summary_update(file.at, file.len, record.at, record.len, summary.at, summary.len);
    a.expected = a.received = 0;
    return a;
}

/* Which of two files is no shift file (RULES 10.7). */
#define SEGVARTIN_NEITHER 0
#define SEGVARTIN_OURS 1
#define SEGVARTIN_THEIRS 2

/* How the records of a pair differ (RULES 10.7). */
#define SEGVARTIN_NO_DIFFERENCE 0
#define SEGVARTIN_SIZES_DIFFER 1
#define SEGVARTIN_BYTES_DIFFER 2

/*
 * The report of two files (RULES 13.2, 13.3). equal + differing + only_ours is the number of records of ours, equal + differing + only_theirs that
 * of theirs. A later version may give the last number a meaning.
 */
typedef struct segvartin_pair_report {
    uint64_t equal;                                            /* pairs of the same size and sampling with the same bytes in all planes */
    uint64_t differing;                                        /* the other pairs */
    uint64_t only_ours, only_theirs;                           /* records without a pair */
    uint64_t difference;                                       /* that of the first differing pair, by crossing and then by offset. 0: none differs */
    uint64_t crossing, our_record, their_record;               /* its crossing; the numbers of its records in ours and in theirs, from 0 */
    uint64_t our_width, our_height, their_width, their_height; /* SEGVARTIN_SIZES_DIFFER: both sizes; else 0 */
    uint64_t plane, row, column;                               /* SEGVARTIN_BYTES_DIFFER: the first unequal byte; plane 0 Y, 1 U, 2 V; else 0 */
    uint64_t our_sampling, their_sampling;                     /* SEGVARTIN_SIZES_DIFFER: both samplings, which may be all that differs; else 0 */
    uint64_t zero;
} segvartin_pair_report;

/*
 * Pairs two shift files (RULES 13.4), the k-th record of a crossing in ours with the k-th in theirs, by offset; and reports how many pairs are equal,
 * and how the first differs that is not. Unequal samplings count as unequal sizes; ranges, matrices and transfers are not looked at. Answers 0, or a
 * refusal: 15, exactly where one of them is no shift file. No summary is needed. Its time is that of the planes of both files, each pair's up to the
 * row of its first unequal byte, and of sorting the records.
 *
 *   ours, theirs     two whole files, and nothing behind them; each has its own form
 *   report           gets the report. After a refusal it is left as it is
 *   broken           gets which is no shift file: SEGVARTIN_OURS, where both are too; SEGVARTIN_THEIRS; SEGVARTIN_NEITHER where 0 is answered
 */
static inline segvartin_answer segvartin_pair_shift_files(segvartin_bytes ours, segvartin_bytes theirs, segvartin_pair_report *report, int *broken) {
    size_t told[1];
    segvartin_answer a;
    a.number = segvartin_call_shift_pairs(ours.at, ours.len, theirs.at, theirs.len, (uint64_t *)(void *)report, told); /* eighteen numbers */
    a.expected = a.received = 0;
    *broken = (int)told[0];
    return a;
}

/*
 * Y4M files (RULES 14.1 to 14.7): YUV4MPEG2, which players and encoders take, ffmpeg and mjpegtools among them. A file is a line of text, then for
 * each picture a line FRAME and its Y, U and V without padding. The line that is written has the size and the sampling,
 *
 *     YUV4MPEG2 W1920 H1080 F25:1 Ip C420jpeg
 *
 * or C422 in 4:2:2. Of a line that is read the tags may stand in any order, each after one space: W and H once each, decimals from 1 to 16384 without
 * a leading zero; C at most once, C420, C420jpeg, C420mpeg2 or C422, and 4:2:0 where it is missing; any others are passed over, as are those behind
 * FRAME. No line is longer than 256 bytes, its newline counted. A file may have no picture.
 *
 * U and V of an odd side are rounded up, as everywhere here and in ffmpeg. The programs of mjpegtools round down, and do not read a file of such
 * pictures: for them let the width be even, and in 4:2:0 the height too.
 *
 * A file says nothing of range, matrix and transfer. The page of the format has its planes as CCIR 601: SEGVARTIN_LIMITED and SEGVARTIN_BT601.
 */

/* A picture of a file that was read: where its planes stand. Offsets are in bytes from the start of the file. */
typedef struct segvartin_y4m_picture {
    uint64_t y_offset, y_length;
    uint64_t u_offset, u_length;
    uint64_t v_offset, v_length;
} segvartin_y4m_picture;

/* What is told of a file that was read. */
typedef struct segvartin_y4m_file {
    uint32_t width, height; /* of each picture */
    uint32_t sampling;      /* SEGVARTIN_YUV420 or SEGVARTIN_YUV422: by it U and V have their rows */
    size_t count;           /* how many pictures it has */
} segvartin_y4m_file;

/*
 * Reads a Y4M file (RULES 14.5). Answers 0, or a refusal: 19, exactly where the bytes are no such file; then no picture is written. Its time is that
 * of the lines: planes are not looked at.
 *
 *   file             the whole file, and nothing behind it
 *   first            the picture to begin with; they count from 0. At or past the last there is none to tell of
 *   pictures         gets pictures first, first + 1 and so on, as many as there are and as room allows; those behind stay as they are
 *   room             how many pictures it has room for. 0 where only the size, the sampling and the count are wanted
 *   told             gets these; all 0 after a refusal
 *   read             gets how many pictures were written, 0 after a refusal
 *
 * Each call goes through the whole file, so it is asked for many pictures at once.
 */
static inline segvartin_answer segvartin_y4m_read(segvartin_bytes file, size_t first, segvartin_y4m_picture *pictures, size_t room,
                                                  segvartin_y4m_file *told, size_t *read) {
    size_t numbers[5];
    segvartin_answer a;
    a.number = segvartin_call_y4m_pictures(file.at, file.len, first, (uint64_t *)(void *)pictures, 6 * room, numbers); /* six numbers each */
    a.expected = a.received = 0;
    told->width = (uint32_t)numbers[0];
    told->height = (uint32_t)numbers[1];
    told->sampling = (uint32_t)numbers[2];
    told->count = numbers[3];
    *read = numbers[4];
    return a;
}

/* The planes of a picture that segvartin_y4m_read told of this file: h rows of w bytes, and twice ch rows of cw bytes. */
static inline segvartin_bytes segvartin_y4m_y(segvartin_bytes file, const segvartin_y4m_picture *p) {
    return segvartin_shift_part(file, p->y_offset, p->y_length);
}

static inline segvartin_bytes segvartin_y4m_u(segvartin_bytes file, const segvartin_y4m_picture *p) {
    return segvartin_shift_part(file, p->u_offset, p->u_length);
}

static inline segvartin_bytes segvartin_y4m_v(segvartin_bytes file, const segvartin_y4m_picture *p) {
    return segvartin_shift_part(file, p->v_offset, p->v_length);
}

/*
 * Writes a Y4M file (RULES 14.6). Answers 0, or a refusal: 19, 16.
 *
 *   d                its width, height and sampling are looked at. 19 where w or h is not from 1 to 16384 or the sampling is no code
 *   pictures         Y, U and V of each picture without padding, all back to back: w * h + 2 * cw * ch bytes for each. 19 where these are not whole
 *                    pictures. No bytes for a file without pictures, the line alone: segvartin_y4m_write_picture makes what comes behind it
 *   output           gets the file at its start; what lies past it is left as it is. 16 where the file does not fit, and then no byte is written
 *   size             gets the file's size, also after 16; 0 after 19, and where it is no number of 64 bits
 */
static inline segvartin_answer segvartin_y4m_write(const segvartin_description *d, segvartin_bytes pictures, segvartin_bytes_mut output,
                                                   size_t *size) {
    const uint32_t numbers[3] = {d->width, d->height, d->sampling};
    size_t told[1];
    segvartin_answer a;
    a.number = segvartin_call_y4m_write(numbers, pictures.at, pictures.len, output.at, output.len, told);
    a.expected = a.received = 0;
    *size = told[0];
    return a;
}

/*
 * Makes one picture of a Y4M file of planes (RULES 14.7), as a frame call or the bands of a frame left them: FRAME, a newline, Y, U, V. Answers 0, or
 * a refusal: 19, 16. Put behind a file of segvartin_y4m_write of the same width, height and sampling, it makes the file with this picture at its end,
 * byte for byte what that call makes of all planes. So a file of any length is made with the memory of one picture.
 *
 *   d                that of the frame call: width, height, sampling, y_stride, u_stride and v_stride are looked at. 19 where w or h is not from 1 to
 *                    16384 or the sampling is no code
 *   y, u, v          as in segvartin_frame: of each row its first w or cw bytes are taken. 19 where a stride is below its row, or a plane is not
 *                    exactly its stride times its rows long. They are only read: segvartin_read_only makes them of what a frame call took
 *   output           gets the picture at its start; what lies past it is left as it is. 16 where it does not fit, and then no byte is written
 *   size             gets the picture's size, 6 + w * h + 2 * cw * ch, also after 16; 0 after 19
 */
static inline segvartin_answer segvartin_y4m_write_picture(const segvartin_description *d, segvartin_bytes y, segvartin_bytes u, segvartin_bytes v,
                                                           segvartin_bytes_mut output, size_t *size) {
    const uint32_t numbers[6] = {d->width, d->height, d->sampling, d->y_stride, d->u_stride, d->v_stride};
    size_t told[1];
    segvartin_answer a;
    a.number = segvartin_call_y4m_picture(numbers, y.at, y.len, u.at, u.len, v.at, v.len, output.at, output.len, told);
    a.expected = a.received = 0;
    *size = told[0];
    return a;
}

#ifdef __cplusplus
}
#endif

#endif
