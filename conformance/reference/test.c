/*
 * Worked examples of docs/RULES.md, held against the converter. The converter's source is included, so that single steps can be
 * asked too. Prints each example that differs, and ends with a count.
 */
#include "reference.c"

#include "digest.h"

#include <stdio.h>
#include <stdlib.h>
#include <string.h>

static struct reference_tables tables;
static unsigned long asked;
static unsigned long differing;

/* Counts one comparison and prints it where it differs. */
static void expect(const char *rule, long place, long long wanted, long long got)
{
    asked++;
    if (wanted != got) {
        differing++;
        printf("RULES %s, %ld: expected %lld, got %lld\n", rule, place, wanted, got);
    }
}

/* Compares bytes one by one. */
static void expect_bytes(const char *rule, const uint8_t *wanted, const uint8_t *got, size_t length)
{
    size_t place;

    for (place = 0; place < length; place++) {
        expect(rule, (long)place, wanted[place], got[place]);
    }
}

/* Compares an answer. */
static void expect_answer(const char *rule, long place, uint32_t number, uint64_t expected, uint64_t received,
                          struct reference_answer got)
{
    expect(rule, place, number, got.number);
    expect(rule, place, (long long)expected, (long long)got.expected);
    expect(rule, place, (long long)received, (long long)got.received);
}

/* A description without Custom and with plane strides; Truncated, the window the whole source. */
static struct reference_description describe(uint32_t width, uint32_t height, uint32_t order, uint32_t sampling, uint32_t range,
                                             uint32_t matrix, uint32_t transfer, const uint32_t *strides)
{
    struct reference_description frame;

    frame.width = width;
    frame.height = height;
    frame.channel_order = order;
    frame.sampling = sampling;
    frame.range = range;
    frame.matrix = matrix;
    frame.kr_bits = 0;
    frame.kb_bits = 0;
    frame.transfer = transfer;
    frame.y_stride = strides[0];
    frame.u_stride = strides[1];
    frame.v_stride = strides[2];
    frame.rounding = REFERENCE_TRUNCATED;
    reference_whole_source(&frame);
    return frame;
}

/* RULES 2.6: gives a frame another window: left, top, width and height of the source. */
static void set_window(struct reference_description *frame, const uint32_t *window)
{
    frame->left = window[0];
    frame->top = window[1];
    frame->source_width = window[2];
    frame->source_height = window[3];
}

/* Leading digits and count of digits of a big number, as the examples of 3.4 and 3.5 print them. */
static void expect_digits(const char *rule, long place, const char *leading, size_t count, struct big number)
{
    char digits[400];
    size_t length = 0;
    int rest_is_zero = 0;
    size_t i;

    while (!rest_is_zero) {
        uint32_t rest = 0;

        rest_is_zero = 1;
        for (i = BIG_LIMBS; i > 0; i--) {
            uint32_t part = rest * 65536u + number.limbs[i - 1];

            number.limbs[i - 1] = (uint16_t)(part / 10u);
            rest = part % 10u;
            if (number.limbs[i - 1] != 0) {
                rest_is_zero = 0;
            }
        }
        digits[length] = (char)('0' + (int)rest);
        length++;
    }
    expect(rule, place, (long long)count, (long long)length);
    for (i = 0; i < strlen(leading); i++) {
        expect(rule, place, leading[i], digits[length - 1 - i]);
    }
}

/* RULES 1.1, 1.5. */
static void test_numbers(void)
{
    expect("1.1", 1, 0, floor_8192(8191));
    expect("1.1", 2, 1, floor_8192(8192));
    expect("1.1", 3, -1, floor_8192(-1));
    expect("1.1", 4, -1, floor_8192(-8192));
    expect("1.1", 5, -2, floor_8192(-8193));
    expect("1.1", 6, -128, floor_8192(-1044480));
    expect("1.5", 1, 960, reference_chroma_width(1920));
    expect("1.5", 1, 540, reference_chroma_height(1080, REFERENCE_420));
    expect("1.5", 1, 1080, reference_chroma_height(1080, REFERENCE_422));
    expect("1.5", 2, 2, reference_chroma_width(3));
    expect("1.5", 2, 2, reference_chroma_height(3, REFERENCE_420));
    expect("1.5", 2, 3, reference_chroma_height(3, REFERENCE_422));
    expect("1.5", 3, 1, reference_chroma_width(1));
    expect("1.5", 3, 1, reference_chroma_height(1, REFERENCE_420));
    expect("1.5", 4, 8192, reference_chroma_height(16383, REFERENCE_420));
}

/* RULES 3.4, 3.5: a curved entry, and the leading digits of what is compared for it and for the next number. */
struct curved {
    unsigned transfer;
    unsigned rounding;
    unsigned index;
    unsigned entry;
    size_t digits;
    const char *left;
    const char *left_next;
    const char *right;
};

/* RULES 3.4, 3.5: a straight entry. */
struct straight {
    unsigned transfer;
    unsigned rounding;
    unsigned index;
    unsigned entry;
};

/* RULES 3.2 to 3.5: tests of the straight parts, sides of comparisons, entries. */
static void test_curves(void)
{
    static const struct curved linear[] = {
        {REFERENCE_SRGB, REFERENCE_TRUNCATED, 42, 1517, 227, "369523882854", "370743432562", "370129015667"},
        {REFERENCE_SRGB, REFERENCE_NEAREST, 42, 1517, 227, "368915312692", "370133255880", "370129015667"},
        {REFERENCE_REC709, REFERENCE_TRUNCATED, 228, 52327, 395, "135177865932", "135201117672", "135189502389"},
        {REFERENCE_REC709, REFERENCE_NEAREST, 228, 52328, 395, "135189491358", "135212744875", "135189502389"},
        {REFERENCE_SRGB, REFERENCE_TRUNCATED, 160, 23037, 233, "298431196622", "298495974394", "298495687380"},
        {REFERENCE_GAMMA2P2, REFERENCE_TRUNCATED, 254, 64970, 218, "109813642414", "109822093778", "109821502207"},
        {REFERENCE_GAMMA2P8, REFERENCE_TRUNCATED, 205, 35568, 268, "895384828075", "895510704590", "895510230995"},
    };
    static const struct curved gamma[] = {
        {REFERENCE_SRGB, REFERENCE_TRUNCATED, 200, 10, 225, "183349659157", "299078156011", "188397248940"},
        {REFERENCE_SRGB, REFERENCE_TRUNCATED, 36863, 197, 236, "386189869127", "408731880804", "400754086628"},
        {REFERENCE_GAMMA2P2, REFERENCE_TRUNCATED, 22231, 155, 217, "307146203103", "329660606298", "329660513248"},
        {REFERENCE_SRGB, REFERENCE_TRUNCATED, 16525, 137, 234, "697279536530", "754745116551", "725490816240"},
        {REFERENCE_SRGB, REFERENCE_NEAREST, 16525, 137, 234, "670077030308", "725490931203", "725490816240"},
        {REFERENCE_GAMMA2P8, REFERENCE_TRUNCATED, 5248, 103, 267, "299576404433", "342967689975", "320591200074"},
        {REFERENCE_GAMMA2P8, REFERENCE_NEAREST, 5248, 104, 267, "320591021443", "366787498097", "320591200074"},
    };
    static const struct straight straight_linear[] = {
        {REFERENCE_SRGB, REFERENCE_TRUNCATED, 1, 19},
        {REFERENCE_SRGB, REFERENCE_NEAREST, 1, 20},
        {REFERENCE_SRGB, REFERENCE_TRUNCATED, 10, 198},
        {REFERENCE_SRGB, REFERENCE_NEAREST, 10, 199},
        {REFERENCE_REC709, REFERENCE_TRUNCATED, 20, 1142},
        {REFERENCE_REC709, REFERENCE_NEAREST, 20, 1142},
    };
    static const struct straight straight_gamma[] = {
        {REFERENCE_SRGB, REFERENCE_TRUNCATED, 198, 9},
        {REFERENCE_SRGB, REFERENCE_TRUNCATED, 199, 10},
        {REFERENCE_REC709, REFERENCE_TRUNCATED, 514, 9},
        {REFERENCE_REC709, REFERENCE_TRUNCATED, 1142, 19},
        {REFERENCE_REC709, REFERENCE_TRUNCATED, 1183, 20},
        {REFERENCE_SRGB, REFERENCE_NEAREST, 198, 10},
        {REFERENCE_SRGB, REFERENCE_NEAREST, 199, 10},
        {REFERENCE_REC709, REFERENCE_NEAREST, 257, 5},
        {REFERENCE_REC709, REFERENCE_NEAREST, 771, 14},
    };
    unsigned place;
    unsigned v;

    expect("3.2", 10, 1, byte_is_straight(&transfers[REFERENCE_SRGB], 10));
    expect("3.2", 11, 0, byte_is_straight(&transfers[REFERENCE_SRGB], 11));
    expect("3.2", 20, 1, byte_is_straight(&transfers[REFERENCE_REC709], 20));
    expect("3.2", 21, 0, byte_is_straight(&transfers[REFERENCE_REC709], 21));
    for (v = 1; v < 255; v++) {
        expect("3.2", (long)v, 0, byte_is_straight(&transfers[REFERENCE_GAMMA2P2], v));
        expect("3.2", (long)v, 0, byte_is_straight(&transfers[REFERENCE_GAMMA2P8], v));
    }
    expect("3.3", 199, 1, linear_is_straight(&transfers[REFERENCE_SRGB], 199));
    expect("3.3", 200, 0, linear_is_straight(&transfers[REFERENCE_SRGB], 200));
    expect("3.3", 1183, 1, linear_is_straight(&transfers[REFERENCE_REC709], 1183));
    expect("3.3", 1184, 0, linear_is_straight(&transfers[REFERENCE_REC709], 1184));

    for (place = 0; place < sizeof straight_linear / sizeof straight_linear[0]; place++) {
        const struct straight *wanted = &straight_linear[place];

        expect("3.4", (long)place, wanted->entry, tables.linear[wanted->rounding][wanted->transfer][wanted->index]);
    }
    for (place = 0; place < sizeof linear / sizeof linear[0]; place++) {
        const struct curved *wanted = &linear[place];
        const struct transfer *transfer = &transfers[wanted->transfer];
        struct big scale = scale_power(transfer, &of_linear_table);
        uint64_t numerator = doubled(wanted->entry, halves[wanted->rounding]);

        expect_digits("3.4", (long)place, wanted->left, wanted->digits, linear_power(transfer, &scale, numerator));
        expect_digits("3.4", (long)place, wanted->left_next, wanted->digits, linear_power(transfer, &scale, numerator + 2));
        expect_digits("3.4", (long)place, wanted->right, wanted->digits,
                      stored_power(transfer, &of_linear_table, wanted->index));
        expect("3.4", (long)place, wanted->entry, tables.linear[wanted->rounding][wanted->transfer][wanted->index]);
    }
    for (place = 0; place < sizeof straight_gamma / sizeof straight_gamma[0]; place++) {
        const struct straight *wanted = &straight_gamma[place];

        expect("3.5", (long)place, wanted->entry, tables.gamma[wanted->rounding][wanted->transfer][wanted->index]);
    }
    for (place = 0; place < sizeof gamma / sizeof gamma[0]; place++) {
        const struct curved *wanted = &gamma[place];
        const struct transfer *transfer = &transfers[wanted->transfer];
        struct big scale = scale_power(transfer, &of_gamma_table);
        uint64_t numerator = doubled(wanted->entry, halves[wanted->rounding]);

        expect_digits("3.5", (long)place, wanted->left, wanted->digits, stored_power(transfer, &of_gamma_table, numerator));
        expect_digits("3.5", (long)place, wanted->left_next, wanted->digits,
                      stored_power(transfer, &of_gamma_table, numerator + 2));
        expect_digits("3.5", (long)place, wanted->right, wanted->digits, linear_power(transfer, &scale, wanted->index));
        expect("3.5", (long)place, wanted->entry, tables.gamma[wanted->rounding][wanted->transfer][wanted->index]);
    }
}

/* RULES 3.4, 3.5: the longest numbers have 1,313 and 1,324 bits, so the carry out of the highest limb is always 0. */
static void test_longest(void)
{
    const struct transfer *transfer = &transfers[REFERENCE_REC709];
    struct big scale = scale_power(transfer, &of_linear_table);
    struct big sides[2];
    unsigned place;

    sides[0] = linear_power(transfer, &scale, 2 * 65535);
    sides[1] = stored_power(transfer, &of_linear_table, 255);
    for (place = 0; place < 2; place++) {
        expect("3.4", 82, 1, sides[place].limbs[82] == 1);
    }
    scale = scale_power(transfer, &of_gamma_table);
    sides[0] = linear_power(transfer, &scale, 65535);
    sides[1] = stored_power(transfer, &of_gamma_table, 2 * 255);
    for (place = 0; place < 2; place++) {
        expect("3.5", 82, 1, sides[place].limbs[82] >= 0x800u && sides[place].limbs[82] < 0x1000u);
    }
}

/* RULES 3.4, 3.5: at 1 the sides of the curved part are equal where o is 0, so 65,535 and 255 are what it gives too. */
static void test_equal_at_1(void)
{
    unsigned code;

    for (code = 0; code < REFERENCE_TRANSFERS; code++) {
        const struct transfer *transfer = &transfers[code];
        struct big scale = scale_power(transfer, &of_linear_table);
        struct big linear = linear_power(transfer, &scale, 2 * 65535);
        struct big stored = stored_power(transfer, &of_linear_table, 255);

        expect("3.4", (long)code, 0, memcmp(&linear, &stored, sizeof linear));
        scale = scale_power(transfer, &of_gamma_table);
        linear = linear_power(transfer, &scale, 65535);
        stored = stored_power(transfer, &of_gamma_table, 2 * 255);
        expect("3.5", (long)code, 0, memcmp(&linear, &stored, sizeof linear));
    }
}

/* RULES 3.5 by the letter, of one rounding and transfer: each entry is the largest m that is 0 or passes. How many are not. */
static unsigned long wrong_gamma_entries(unsigned rounding, unsigned code)
{
    const struct transfer *transfer = &transfers[code];
    struct big scale = scale_power(transfer, &of_gamma_table);
    unsigned last = 256;
    struct big passes = big_one();
    struct big fails = big_one();
    unsigned long wrong = 0;
    uint32_t i;

    for (i = 1; i < 65535; i++) {
        unsigned m = tables.gamma[rounding][code][i];
        struct big limit;

        if (linear_is_straight(transfer, i)) {
            continue;
        }
        if (m != last) {
            if (m > 0) {
                passes = stored_power(transfer, &of_gamma_table, doubled(m, halves[rounding]));
            }
            fails = stored_power(transfer, &of_gamma_table, doubled(m + 1, halves[rounding]));
            last = m;
        }
        limit = linear_power(transfer, &scale, i);
        if ((m > 0 && !big_not_above(&passes, &limit)) || (m < 255 && big_not_above(&fails, &limit))) {
            wrong++;
        }
    }
    return wrong;
}

/* RULES 3.5: every entry of every gamma table. */
static void test_every_gamma_entry(void)
{
    unsigned rounding;
    unsigned code;

    for (rounding = 0; rounding < REFERENCE_ROUNDINGS; rounding++) {
        for (code = 0; code < REFERENCE_TRANSFERS; code++) {
            expect("3.5", (long)code, 0, (long long)wrong_gamma_entries(rounding, code));
        }
    }
}

/* RULES 3.5, after the example: how many bytes come back through both tables. */
static void test_bytes_that_come_back(void)
{
    static const unsigned long wanted[REFERENCE_ROUNDINGS][REFERENCE_TRANSFERS] = {{2, 4, 2, 2}, {256, 256, 255, 252}};
    unsigned rounding;
    unsigned code;
    unsigned v;

    for (rounding = 0; rounding < REFERENCE_ROUNDINGS; rounding++) {
        for (code = 0; code < REFERENCE_TRANSFERS; code++) {
            unsigned long count = 0;

            for (v = 0; v < 256; v++) {
                count += tables.gamma[rounding][code][tables.linear[rounding][code][v]] == v;
            }
            expect("3.5.1", (long)code, (long long)wanted[rounding][code], (long long)count);
        }
    }
}

/* RULES, appendix B: checksums and sums of entries. */
static void test_checksums(void)
{
    static const struct {
        uint32_t linear;
        uint32_t linear_sum;
        uint32_t gamma;
        uint32_t gamma_sum;
    } wanted[REFERENCE_ROUNDINGS][REFERENCE_TRANSFERS] = {
        {
            {0xb51f1991u, 5217780, 0xdc6b2382u, 11493646},
            {0xcc349c26u, 5729320, 0xefcb4552u, 10982108},
            {0x83015d1du, 5254997, 0x64eb4ae6u, 11456429},
            {0x9b0396aeu, 4430439, 0xa3929a3fu, 12280987},
        },
        {
            {0xd9e77279u, 5217922, 0xe93bf7b3u, 11526471},
            {0x66a9a019u, 5729450, 0xb5b7b637u, 11014932},
            {0x63bfd72eu, 5255141, 0x842fd231u, 11489255},
            {0x3c8d6213u, 4430570, 0x570321cau, 12313835},
        },
    };
    unsigned table;
    uint32_t entry;

    for (table = 0; table < REFERENCE_ROUNDINGS * REFERENCE_TRANSFERS; table++) {
        unsigned rounding = table / REFERENCE_TRANSFERS;
        unsigned code = table % REFERENCE_TRANSFERS;
        uint8_t bytes[512];
        uint32_t linear_sum = 0;
        uint32_t gamma_sum = 0;

        for (entry = 0; entry < 256; entry++) {
            uint16_t value = tables.linear[rounding][code][entry];

            bytes[2 * entry] = (uint8_t)(value & 0xFFu);
            bytes[2 * entry + 1] = (uint8_t)(value >> 8);
            linear_sum += value;
        }
        for (entry = 0; entry < 65536; entry++) {
            gamma_sum += tables.gamma[rounding][code][entry];
        }
        expect("B.0 linear", (long)table, wanted[rounding][code].linear, digest(bytes, sizeof bytes));
        expect("B.0 linear sum", (long)table, wanted[rounding][code].linear_sum, linear_sum);
        expect("B.0 gamma", (long)table, wanted[rounding][code].gamma, digest(tables.gamma[rounding][code], 65536));
        expect("B.0 gamma sum", (long)table, wanted[rounding][code].gamma_sum, gamma_sum);
    }
}

/* RULES 4.4: each step that the example prints. */
static const struct {
    char operation;
    uint32_t a;
    uint32_t b;
    uint32_t result;
} steps[] = {
    {'-', 0x3F800000u, 0x3E99999Au, 0x3F333333u},
    {'-', 0x3F333333u, 0x3DE147AEu, 0x3F170A3Du},
    {'*', 0x3E99999Au, 0x435B0000u, 0x42836667u},
    {'/', 0x42836667u, 0x437F0000u, 0x3E83EA51u},
    {'*', 0x3F170A3Du, 0x435B0000u, 0x430135C2u},
    {'/', 0x430135C2u, 0x437F0000u, 0x3F01B779u},
    {'*', 0x3DE147AEu, 0x435B0000u, 0x41C0B852u},
    {'/', 0x41C0B852u, 0x437F0000u, 0x3DC179CCu},
    {'*', 0xBF000000u, 0x3E99999Au, 0xBE19999Au},
    {'-', 0x3F800000u, 0x3DE147AEu, 0x3F63D70Au},
    {'/', 0xBE19999Au, 0x3F63D70Au, 0xBE2C9593u},
    {'*', 0xBE2C9593u, 0x43600000u, 0xC21702E1u},
    {'/', 0xC21702E1u, 0x437F0000u, 0xBE179A7Bu},
    {'*', 0xBF000000u, 0x3F170A3Du, 0xBE970A3Du},
    {'-', 0x3F800000u, 0x3DE147AEu, 0x3F63D70Au},
    {'/', 0xBE970A3Du, 0x3F63D70Au, 0xBEA9B536u},
    {'*', 0xBEA9B536u, 0x43600000u, 0xC2947E8Fu},
    {'/', 0xC2947E8Fu, 0x437F0000u, 0xBE9513A3u},
    {'*', 0x3F000000u, 0x43600000u, 0x42E00000u},
    {'/', 0x42E00000u, 0x437F0000u, 0x3EE0E0E1u},
    {'*', 0x3F000000u, 0x43600000u, 0x42E00000u},
    {'/', 0x42E00000u, 0x437F0000u, 0x3EE0E0E1u},
    {'*', 0xBF000000u, 0x3F170A3Du, 0xBE970A3Du},
    {'-', 0x3F800000u, 0x3E99999Au, 0x3F333333u},
    {'/', 0xBE970A3Du, 0x3F333333u, 0xBED7C57Cu},
    {'*', 0xBED7C57Cu, 0x43600000u, 0xC2BCCCCCu},
    {'/', 0xC2BCCCCCu, 0x437F0000u, 0xBEBD8A56u},
    {'*', 0xBF000000u, 0x3DE147AEu, 0xBD6147AEu},
    {'-', 0x3F800000u, 0x3E99999Au, 0x3F333333u},
    {'/', 0xBD6147AEu, 0x3F333333u, 0xBDA0EA0Fu},
    {'*', 0xBDA0EA0Fu, 0x43600000u, 0xC18CCCCDu},
    {'/', 0xC18CCCCDu, 0x437F0000u, 0xBD8D5A27u},
    {'-', 0x3F800000u, 0x3C75C28Fu, 0x3F7C28F6u},
    {'-', 0x3F7C28F6u, 0x3ECED917u, 0x3F14BC6Au},
    {'*', 0xBF000000u, 0x3F14BC6Au, 0xBE94BC6Au},
    {'-', 0x3F800000u, 0x3ECED917u, 0x3F189374u},
    {'/', 0xBE94BC6Au, 0x3F189374u, 0xBEF98E9Bu},
    {'*', 0xBEF98E9Bu, 0x43600000u, 0xC2DA5CC8u},
    {'/', 0xC2DA5CC8u, 0x437F0000u, 0xBEDB3800u},
};

/* RULES 4.5: coefficient, its product with 8,192, and the weight. */
static const struct {
    uint32_t coefficient;
    uint32_t product;
    int32_t weight;
} wholes[] = {
    {0x3E83EA51u, 0x4503EA51u, 2111},
    {0x3F01B779u, 0x4581B779u, 4151},
    {0x3DC179CCu, 0x444179CCu, 774},
    {0xBE179A7Bu, 0xC4979A7Bu, -1213},
    {0xBE9513A3u, 0xC51513A3u, -2385},
    {0x3EE0E0E1u, 0x4560E0E1u, 3598},
    {0x3EE0E0E1u, 0x4560E0E1u, 3598},
    {0xBEBD8A56u, 0xC53D8A56u, -3033},
    {0xBD8D5A27u, 0xC40D5A27u, -565},
    {0x3F000000u, 0x45800000u, 4096},
    {0x3EFFF800u, 0x457FF800u, 4096},
    {0x38800000u, 0x3F000000u, 1},
    {0xBE800200u, 0xC5000200u, -2048},
    {0xBE7FFC00u, 0xC4FFFC00u, -2048},
    {0x3F000000u, 0x45800000u, 4096},
    {0x3F000000u, 0x45800000u, 4096},
    {0xBEFFF800u, 0xC57FF800u, -4096},
    {0xB8800000u, 0xBF000000u, -1},
    {0x3C28DA01u, 0x42A8DA01u, 84},
    {0x3EFCD66Fu, 0x457CD66Fu, 4045},
    {0x3EB59A77u, 0x45359A77u, 2906},
    {0xBC131C0Cu, 0xC2931C0Cu, -74},
    {0xBEDC4800u, 0xC55C4800u, -3525},
    {0x3EE0E0E1u, 0x4560E0E1u, 3598},
    {0x3EE0E0E1u, 0x4560E0E1u, 3598},
    {0xBE82E028u, 0xC502E028u, -2094},
    {0xBE3C0172u, 0xC4BC0172u, -1504},
};

/* RULES 4.2 to 4.5. */
static void test_steps(void)
{
    size_t place;

    for (place = 0; place < sizeof steps / sizeof steps[0]; place++) {
        uint32_t got = steps[place].operation == '-' ? subtract(steps[place].a, steps[place].b)
                       : steps[place].operation == '*' ? multiply(steps[place].a, steps[place].b)
                                                       : divide(steps[place].a, steps[place].b);

        expect("4.4", (long)place, steps[place].result, got);
    }
    for (place = 0; place < sizeof wholes / sizeof wholes[0]; place++) {
        expect("4.5", (long)place, wholes[place].product, multiply(wholes[place].coefficient, bits_8192));
        expect("4.5", (long)place, wholes[place].weight, weight(wholes[place].coefficient));
    }
    /* RULES 4.2: denormal numbers count in full; ties go to even. */
    expect("4.2", 1, 0x00000000, multiply(0x00000001u, bits_half));
    expect("4.2", 2, 0x00000002, multiply(0x00000003u, bits_half));
    expect("4.2", 3, 0x00400000, multiply(0x00800000u, bits_half));
    expect("4.2", 4, 0x3F7FFFFF, subtract(bits_1, 0x33800000u));
    expect("4.2", 5, 0x3F800000, subtract(bits_1, 0x33000000u));
    expect("4.2", 6, 0x3F7FFFFF, subtract(bits_1, 0x33000001u));
    expect("4.2", 7, 0x3F800000, subtract(bits_1, 0x00000001u));
    expect("4.2", 8, 0x00000000, subtract(bits_half, bits_half));
    expect("4.2", 9, 0x00000001, divide(0x000000FFu, bits_255));
    /* RULES 4.5: the number just below 0.5 gives 0, and halves go away from zero. */
    expect("4.5", 100, 0, nearest_whole(0x3EFFFFFFu));
    expect("4.5", 101, 3, nearest_whole(0x40200000u));
    expect("4.5", 102, -3, nearest_whole(0xC0200000u));
}

/* RULES 4.2, 4.3, 4.5: weights of whole matrices. */
static void test_weights(void)
{
    static const struct {
        uint32_t range;
        uint32_t matrix;
        uint32_t kr;
        uint32_t kb;
        int32_t weights[9];
    } wanted[] = {
        {REFERENCE_FULL, REFERENCE_FCC, 0, 0, {2458, 4833, 901, -1381, -2715, 4096, 4096, -3452, -644}},
        {REFERENCE_LIMITED, REFERENCE_FCC, 0, 0, {2111, 4151, 774, -1213, -2385, 3598, 3598, -3033, -565}},
        {REFERENCE_LIMITED, REFERENCE_CUSTOM, 0x3E991687u, 0x3DE978D5u, {2104, 4130, 802, -1214, -2384, 3598, 3598, -3013, -585}},
        {REFERENCE_FULL, REFERENCE_CUSTOM, 0x3E991687u, 0x3DE978D5u, {2449, 4809, 934, -1382, -2714, 4096, 4096, -3430, -666}},
        {REFERENCE_FULL, REFERENCE_CUSTOM, 0x3F000000u, 0x38800000u, {4096, 4096, 1, -2048, -2048, 4096, 4096, -4096, -1}},
        {REFERENCE_LIMITED, REFERENCE_CUSTOM, 0x3C449BA6u, 0x3ED374BCu, {84, 4045, 2906, -74, -3525, 3598, 3598, -2094, -1504}},
        {REFERENCE_FULL, REFERENCE_CUSTOM, 0x80000000u, 0x80000000u, {0, 8192, 0, 0, -4096, 4096, 4096, -4096, 0}},
        {REFERENCE_FULL, REFERENCE_CUSTOM, 0x3F000000u, 0x3F000000u, {4096, 0, 4096, -4096, 0, 4096, 4096, 0, -4096}},
    };
    static const uint32_t strides[3] = {1, 1, 1};
    struct reference_description frame = describe(1, 1, REFERENCE_RGB, REFERENCE_420, 0, 0, REFERENCE_SRGB, strides);
    struct reference_weights got;
    size_t place;
    unsigned channel;

    for (place = 0; place < sizeof wanted / sizeof wanted[0]; place++) {
        frame.range = wanted[place].range;
        frame.matrix = wanted[place].matrix;
        frame.kr_bits = wanted[place].kr;
        frame.kb_bits = wanted[place].kb;
        reference_make_weights(&frame, &got);
        for (channel = 0; channel < 3; channel++) {
            expect("4.3", (long)place, wanted[place].weights[channel], got.luma[channel]);
            expect("4.3", (long)place, wanted[place].weights[3 + channel], got.cb[channel]);
            expect("4.3", (long)place, wanted[place].weights[6 + channel], got.cr[channel]);
        }
    }
    frame.range = REFERENCE_LIMITED;
    frame.matrix = REFERENCE_CUSTOM;
    frame.kr_bits = 0x3BE56042u;
    frame.kb_bits = 0x3E9F3B64u;
    reference_make_weights(&frame, &got);
    expect("4.2", 20, -3561, got.cb[1]);
    frame.kr_bits = 0x3C75C28Fu;
    frame.kb_bits = 0x3ECED917u;
    reference_make_weights(&frame, &got);
    expect("4.2", 21, -3508, got.cb[1]);
    frame.kr_bits = 0x3E40EA16u;
    frame.kb_bits = 0x3E03A7ADu;
    reference_make_weights(&frame, &got);
    expect("4.2", 22, 4805, got.luma[1]);
}

/* RULES 4.1: sums of the stored weights, luma of each, in the order of the table. */
static void test_stored_weights(void)
{
    static const int32_t sums[10] = {7036, 8192, 7036, 8192, 7035, 8192, 7036, 8193, 7036, 8192};
    unsigned matrix;
    unsigned range;

    for (matrix = 0; matrix < REFERENCE_FCC; matrix++) {
        for (range = 0; range < REFERENCE_RANGES; range++) {
            const struct reference_weights *w = &stored_weights[matrix][range];

            expect("4.1", (long)matrix, sums[2 * matrix + range], w->luma[0] + w->luma[1] + w->luma[2]);
            expect("4.1", (long)matrix, 0, w->cb[0] + w->cb[1] + w->cb[2]);
            expect("4.1", (long)matrix, 0, w->cr[0] + w->cr[1] + w->cr[2]);
        }
    }
}

/* RULES 5.1, 5.2: a colour and what it gives. */
static void test_colours(void)
{
    static const struct {
        unsigned matrix;
        unsigned range;
        unsigned kind; /* 0 luma, 1 Cb, 2 Cr */
        uint8_t colour[3];
        int32_t sum;
        uint8_t value;
    } wanted[] = {
        {REFERENCE_BT601, REFERENCE_FULL, 0, {255, 0, 0}, 628590, 76},
        {REFERENCE_BT601, REFERENCE_LIMITED, 0, {0, 255, 0}, 1188317, 145},
        {REFERENCE_BT601, REFERENCE_LIMITED, 0, {0, 0, 0}, 135167, 16},
        {REFERENCE_BT601, REFERENCE_LIMITED, 0, {255, 255, 255}, 1929347, 235},
        {REFERENCE_SMPTE240, REFERENCE_FULL, 0, {255, 255, 255}, 2093310, 255},
        {REFERENCE_BT601, REFERENCE_FULL, 0, {0, 18, 245}, 319487, 38},
        {REFERENCE_BT601, REFERENCE_FULL, 1, {255, 0, 0}, 700261, 85},
        {REFERENCE_BT601, REFERENCE_FULL, 2, {255, 0, 0}, 2097151, 255},
        {REFERENCE_BT601, REFERENCE_LIMITED, 1, {0, 255, 0}, 444751, 54},
        {REFERENCE_BT601, REFERENCE_LIMITED, 2, {0, 255, 0}, 284356, 34},
        {REFERENCE_BT601, REFERENCE_LIMITED, 1, {200, 200, 200}, 1052671, 128},
        {REFERENCE_BT601, REFERENCE_LIMITED, 2, {200, 200, 200}, 1052671, 128},
    };
    size_t place;

    for (place = 0; place < sizeof wanted / sizeof wanted[0]; place++) {
        const struct reference_weights *w = &stored_weights[wanted[place].matrix][wanted[place].range];
        const struct range *range = &ranges[wanted[place].range];
        const int32_t *weights = wanted[place].kind == 0 ? w->luma : wanted[place].kind == 1 ? w->cb : w->cr;
        int32_t offset = wanted[place].kind == 0 ? range->luma_offset : 128;
        uint8_t value = wanted[place].kind == 0 ? luma(weights, range, wanted[place].colour)
                                                : chroma(weights, range, wanted[place].colour);

        expect("5", (long)place, wanted[place].sum, weighted(weights, wanted[place].colour, offset));
        expect("5", (long)place, wanted[place].value, value);
    }
}

/* RULES 9.4: length and digest of the text that counts make. */
static void expect_text(long place, size_t length, uint32_t crc, const uint32_t *counts)
{
    char text[4096];
    size_t written = 0;
    unsigned y;

    for (y = 0; y < REFERENCE_LUMAS; y++) {
        written += (size_t)sprintf(text + written, "%u %lu\n", y, (unsigned long)counts[y]);
    }
    expect("9.4 length", place, (long long)length, (long long)written);
    expect("9.4", place, crc, digest((const uint8_t *)text, written));
}

/* RULES 5.3: what 256 counts add to. */
static long long sum_of(const uint32_t *counts)
{
    long long sum = 0;
    unsigned y;

    for (y = 0; y < REFERENCE_LUMAS; y++) {
        sum += counts[y];
    }
    return sum;
}

/* RULES 5.3, 9.4: counts of every range and matrix that has a code in a program, and of Custom. */
static void test_counts(void)
{
    static const struct {
        size_t length;
        uint32_t digest;
    } texts[REFERENCE_RANGES][REFERENCE_CUSTOM] = {
        {{2353, 0x41982605u}, {2386, 0x146018f7u}, {2376, 0x7664b7a3u},
         {2382, 0xb177f958u}, {2384, 0x24df32b3u}, {2353, 0x5474d245u}},
        {{2480, 0x5ba8b9abu}, {2408, 0x0398b62au}, {2408, 0xd94d3b3au},
         {2404, 0x695ca4ffu}, {2408, 0x86aa0adcu}, {2480, 0xa17c5515u}},
    };
    static const struct {
        uint32_t numbers[2];
        uint32_t kr;
        uint32_t kb;
        uint32_t lumas[9];
        uint32_t counts[9];
    } wanted[] = {
        {{1, 0}, 0, 0, {0, 1, 38, 76, 254, 255}, {7, 59, 34875, 90308, 59, 7}},
        {{0, 0}, 0, 0, {0, 15, 16, 17, 126, 234, 235, 236, 255}, {0, 0, 9, 83, 129994, 83, 11, 0, 0}},
        {{0, 2}, 0, 0, {0, 15, 16, 17, 126, 234, 235, 236, 255}, {0, 0, 17, 159, 112522, 154, 17, 0, 0}},
        {{1, 3}, 0, 0, {0, 1, 127, 254, 255}, {11, 89, 93488, 91, 13}},
        {{1, 5}, 0, 0, {0, 1, 127, 254, 255}, {7, 59, 111083, 59, 7}},
        {{1, 6}, 0, 0, {0, 1, 127, 254, 255}, {65536, 65536, 65536, 65536, 65536}},
        {{1, 6}, 0x3F000000u, 0x38800000u, {0, 1, 127, 254, 255}, {258, 1282, 130306, 1790, 766}},
    };
    uint32_t counts[REFERENCE_LUMAS];
    uint32_t numbers[2];
    size_t place;
    size_t asked_luma;

    for (numbers[0] = 0; numbers[0] < REFERENCE_RANGES; numbers[0]++) {
        for (numbers[1] = 0; numbers[1] < REFERENCE_CUSTOM; numbers[1]++) {
            long code = (long)(numbers[0] * 10 + numbers[1]);

            expect_answer("5.3", code, 0, 0, 0, reference_luma_counts(numbers, 2, 0, 0, counts));
            expect("5.3", code, 16777216, sum_of(counts));
            expect_text(code, texts[numbers[0]][numbers[1]].length, texts[numbers[0]][numbers[1]].digest, counts);
        }
    }
    for (place = 0; place < sizeof wanted / sizeof wanted[0]; place++) {
        expect_answer("5.3", (long)place, 0, 0, 0,
                      reference_luma_counts(wanted[place].numbers, 2, wanted[place].kr, wanted[place].kb, counts));
        expect("5.3", (long)place, 16777216, sum_of(counts));
        for (asked_luma = 0; asked_luma == 0 || (asked_luma < 9 && wanted[place].lumas[asked_luma] != 0); asked_luma++) {
            expect("5.3", (long)place, wanted[place].counts[asked_luma], counts[wanted[place].lumas[asked_luma]]);
        }
    }
}

/* RULES 5.3: the colours of the darkest and the brightest luma of Bt601 Full, seven each. */
static void test_first_and_last_colours(void)
{
    static const uint8_t colours[2][7][3] = {
        {{0, 0, 0}, {0, 0, 1}, {0, 0, 2}, {0, 0, 3}, {0, 0, 4}, {1, 0, 0}, {1, 0, 1}},
        {{254, 255, 254}, {254, 255, 255}, {255, 255, 251}, {255, 255, 252}, {255, 255, 253}, {255, 255, 254}, {255, 255, 255}},
    };
    const struct reference_weights *w = &stored_weights[REFERENCE_BT601][REFERENCE_FULL];
    unsigned place;

    for (place = 0; place < 14; place++) {
        expect("5.3", (long)place, place / 7 * 255, luma(w->luma, &ranges[REFERENCE_FULL], colours[place / 7][place % 7]));
    }
}

/* RULES 10.4: 1 and 4, which leave the counts as they were. */
static void test_count_refusals(void)
{
    static const struct {
        uint32_t numbers[3];
        uint64_t given;
        uint32_t kr;
        uint32_t kb;
        uint32_t number;
    } wanted[] = {
        {{1, 6, 0}, 2, 0x3F000001u, 0, 4},
        {{0, 6, 0}, 2, 0, 0x7FC00000u, 4},
        {{1, 6, 0}, 2, 0x80000001u, 0, 4},
        {{1, 6, 0}, 2, 0x40000000u, 0xBF000000u, 4},
        {{1, 7, 0}, 2, 0, 0, 1},
        {{2, 0, 0}, 2, 0, 0, 1},
        {{2, 6, 0}, 2, 0x40000000u, 0x40000000u, 1},
        {{1, 4294967295u, 0}, 2, 0, 0, 1},
        {{4294967295u, 0, 0}, 2, 0, 0, 1},
        {{1, 0, 0}, 1, 0, 0, 1},
        {{1, 0, 0}, 3, 0, 0, 1},
        {{1, 0, 0}, 0, 0, 0, 1},
    };
    static const uint32_t fit[2] = {1, 0};
    uint32_t counts[REFERENCE_LUMAS];
    size_t place;
    unsigned y;

    for (place = 0; place < sizeof wanted / sizeof wanted[0]; place++) {
        for (y = 0; y < REFERENCE_LUMAS; y++) {
            counts[y] = 9;
        }
        expect_answer("10.4", (long)place, wanted[place].number, 0, 0,
                      reference_luma_counts(wanted[place].numbers, wanted[place].given, wanted[place].kr, wanted[place].kb,
                                            counts));
        for (y = 0; y < REFERENCE_LUMAS; y++) {
            expect("10.4", (long)place, 9, counts[y]);
        }
    }
    /* kr and kb that would be refused are not looked at where the matrix is not Custom */
    expect_answer("10.4", 100, 0, 0, 0, reference_luma_counts(fit, 2, 0x40000000u, 0x40000000u, counts));
    expect("10.4", 100, 7, counts[0]);
    expect("10.4", 100, 111644, counts[108]);
    expect("10.4", 100, 7, counts[255]);
}

/* RULES 6.2 to 6.4: chroma colours. */
static void test_chroma_colours(void)
{
    static const uint8_t six[18] = {10, 0, 255, 20, 0, 0, 255, 255, 0, 30, 0, 0, 40, 255, 0, 0, 0, 255};
    static const uint8_t three[9] = {10, 0, 255, 20, 0, 0, 10, 99, 1};
    static const uint8_t one[3] = {10, 10, 10};
    static const uint8_t wanted_420[2][3] = {{19, 70, 197}, {224, 224, 136}};
    static const uint8_t wanted_422[2][3] = {{12, 0, 224}, {10, 99, 1}};
    static const uint32_t sums[2] = {9 * 65535, 12 * 65535};
    static const uint8_t wanted_of_sums[REFERENCE_ROUNDINGS][3] = {{197, 224, 9}, {198, 225, 10}};
    static const uint32_t strides[3] = {3, 2, 2};
    struct reference_description frame =
        describe(3, 2, REFERENCE_RGB, REFERENCE_420, REFERENCE_FULL, REFERENCE_BT601, REFERENCE_SRGB, strides);
    struct job job;
    struct row rows[2];
    unsigned channel;
    unsigned j;
    unsigned rounding;

    memset(&job, 0, sizeof job);
    job.frame = &frame;
    job.order = &channel_orders[REFERENCE_RGB];
    job.linear = tables.linear[REFERENCE_TRUNCATED][REFERENCE_SRGB];
    job.gamma = tables.gamma[REFERENCE_TRUNCATED][REFERENCE_SRGB];
    rows[0].bytes = six;
    rows[0].pixel_bytes = 3;
    rows[1].bytes = six + 9;
    rows[1].pixel_bytes = 3;
    for (j = 0; j < 2; j++) {
        for (channel = 0; channel < 3; channel++) {
            expect("6.3", (long)j, wanted_420[j][channel], chroma_channel(&job, rows[0], rows[1], j, channel));
        }
    }
    frame.width = 1;
    frame.height = 1;
    rows[0].bytes = one;
    expect("6.3", 2, 9, chroma_channel(&job, rows[0], rows[0], 0, 0));
    frame.width = 3;
    frame.sampling = REFERENCE_422;
    rows[0].bytes = three;
    for (j = 0; j < 2; j++) {
        for (channel = 0; channel < 3; channel++) {
            expect("6.4", (long)j, wanted_422[j][channel], chroma_channel(&job, rows[0], rows[0], j, channel));
        }
    }
    for (rounding = 0; rounding < REFERENCE_ROUNDINGS; rounding++) {
        for (j = 0; j < 3; j++) {
            uint32_t sum = j < 2 ? sums[j] : 16u * tables.linear[rounding][REFERENCE_SRGB][10];

            expect("6.2", (long)j, wanted_of_sums[rounding][j], tables.gamma[rounding][REFERENCE_SRGB][(sum + 8) / 16]);
        }
    }
}

static uint8_t source_bytes[256];
static uint8_t plane_bytes[3][64];

/* RULES 7.8: a frame call on these buffers, of which the given lengths are lent. */
static struct reference_answer call_frame(const struct reference_description *frame, uint32_t source_stride,
                                          const uint64_t *lengths)
{
    struct reference_source source;
    struct reference_planes planes;

    source.bytes = source_bytes;
    source.length = lengths[0];
    source.stride = source_stride;
    planes.y.bytes = plane_bytes[0];
    planes.y.length = lengths[1];
    planes.u.bytes = plane_bytes[1];
    planes.u.length = lengths[2];
    planes.v.bytes = plane_bytes[2];
    planes.v.length = lengths[3];
    memset(plane_bytes, 0xEE, sizeof plane_bytes);
    return reference_frame(&tables, frame, &source, &planes);
}

/* RULES 2.3 to 2.5, 6.3, 7.2, 7.8, 8.7, A: frames and the bytes of their planes. */
static void test_frames(void)
{
    static const struct {
        uint32_t width;
        uint32_t height;
        uint32_t settings[6]; /* order, sampling, range, matrix, transfer, rounding */
        uint32_t source_stride;
        uint32_t strides[3];
        size_t source_length;
        uint8_t source[39];
        uint8_t y[12];
        uint8_t u[9];
        uint8_t v[9];
    } wanted[] = {
        {1, 1, {1, 0, 0, 0, 0, 0}, 5, {1, 1, 1}, 5, {200, 100, 50, 0, 0}, {123}, {91}, {175}},
        {1, 1, {1, 0, 0, 0, 0, 0}, 5, {1, 1, 1}, 5, {200, 100, 50, 255, 9}, {123}, {91}, {175}},
        {3, 1, {0, 0, 0, 0, 0, 0}, 9, {5, 3, 4}, 9, {255, 0, 0, 255, 0, 0, 255, 0, 0}, {0x51, 0x51, 0x51, 0xEE, 0xEE},
         {0x5A, 0x5A, 0xEE}, {0xF0, 0xF0, 0xEE, 0xEE}},
        {3, 1, {0, 1, 1, 0, 0, 0}, 9, {3, 2, 2}, 9, {255, 0, 0, 0, 255, 0, 0, 0, 255}, {76, 150, 29}, {45, 255}, {183, 107}},
        {1, 1, {0, 0, 1, 0, 0, 0}, 3, {1, 1, 1}, 3, {255, 0, 0}, {76}, {85}, {255}},
        {1, 1, {0, 1, 1, 0, 0, 0}, 3, {1, 1, 1}, 3, {255, 0, 0}, {76}, {85}, {255}},
        {1, 1, {0, 1, 0, 0, 0, 0}, 3, {1, 1, 1}, 3, {0, 255, 0}, {145}, {54}, {34}},
        {1, 1, {0, 0, 0, 0, 0, 0}, 3, {1, 1, 1}, 3, {0, 0, 0}, {16}, {128}, {128}},
        {1, 1, {0, 0, 0, 0, 0, 0}, 3, {1, 1, 1}, 3, {255, 255, 255}, {235}, {128}, {128}},
        {1, 1, {0, 0, 1, 0, 0, 0}, 3, {1, 1, 1}, 3, {10, 0, 0}, {3}, {126}, {132}},
        {1, 1, {0, 0, 1, 0, 0, 1}, 3, {1, 1, 1}, 3, {10, 0, 0}, {3}, {126}, {133}},
        {2, 3, {0, 0, 1, 0, 0, 0}, 6, {2, 1, 1}, 18, {255, 0, 0, 0, 255, 0, 0, 0, 255, 255, 255, 255, 9, 120, 60, 200, 10, 77},
         {0x4C, 0x96, 0x1D, 0xFF, 0x50, 0x4A}, {0x74, 0x6B}, {0xA3, 0x84}},
        {2, 3, {0, 0, 1, 0, 0, 1}, 6, {2, 1, 1}, 18, {255, 0, 0, 0, 255, 0, 0, 0, 255, 255, 255, 255, 9, 120, 60, 200, 10, 77},
         {0x4C, 0x96, 0x1D, 0xFF, 0x50, 0x4A}, {0x74, 0x6C}, {0xA3, 0x84}},
        {3, 3, {2, 0, 0, 1, 0, 0}, 13, {4, 3, 3}, 39,
         {0x07, 0x80, 0xFA, 0x00, 0xFF, 0xC8, 0x0C, 0x01, 0x40, 0x40, 0x40, 0x02, 0xAA, 0x1B, 0x09, 0x03, 0x10, 0xFF, 0xFF, 0xFF,
          0x11, 0x5A, 0x1E, 0xB4, 0x12, 0xAA, 0x00, 0x00, 0x00, 0x20, 0x01, 0xFA, 0x63, 0x21, 0x84, 0x42, 0x21, 0x22, 0xAA},
         {0x8D, 0x9D, 0x47, 0xEE, 0x18, 0xEB, 0x49, 0xEE, 0x10, 0xBC, 0x47, 0xEE},
         {0x76, 0x81, 0xEE, 0x4E, 0xA0, 0xEE},
         {0x99, 0x96, 0xEE, 0x60, 0x6F, 0xEE}},
        {3, 3, {2, 1, 0, 1, 0, 0}, 13, {4, 3, 3}, 39,
         {0x07, 0x80, 0xFA, 0x00, 0xFF, 0xC8, 0x0C, 0x01, 0x40, 0x40, 0x40, 0x02, 0xAA, 0x1B, 0x09, 0x03, 0x10, 0xFF, 0xFF, 0xFF,
          0x11, 0x5A, 0x1E, 0xB4, 0x12, 0xAA, 0x00, 0x00, 0x00, 0x20, 0x01, 0xFA, 0x63, 0x21, 0x84, 0x42, 0x21, 0x22, 0xAA},
         {0x8D, 0x9D, 0x47, 0xEE, 0x18, 0xEB, 0x49, 0xEE, 0x10, 0xBC, 0x47, 0xEE},
         {0x73, 0x80, 0xEE, 0x81, 0x8B, 0xEE, 0x4E, 0xA0, 0xEE},
         {0x9F, 0x80, 0xEE, 0x80, 0xBF, 0xEE, 0x60, 0x6F, 0xEE}},
    };
    size_t place;

    for (place = 0; place < sizeof wanted / sizeof wanted[0]; place++) {
        const uint32_t *settings = wanted[place].settings;
        struct reference_description frame = describe(wanted[place].width, wanted[place].height, settings[0], settings[1],
                                                      settings[2], settings[3], settings[4], wanted[place].strides);
        uint32_t chroma_rows = reference_chroma_height(frame.height, frame.sampling);
        uint64_t lengths[4];

        frame.rounding = settings[5];
        lengths[0] = wanted[place].source_length;
        lengths[1] = (uint64_t)frame.y_stride * frame.height;
        lengths[2] = (uint64_t)frame.u_stride * chroma_rows;
        lengths[3] = (uint64_t)frame.v_stride * chroma_rows;
        memcpy(source_bytes, wanted[place].source, wanted[place].source_length);
        expect_answer("7.8", (long)place, 0, 0, 0, call_frame(&frame, wanted[place].source_stride, lengths));
        expect_bytes("2.4 Y", wanted[place].y, plane_bytes[0], (size_t)lengths[1]);
        expect_bytes("2.4 U", wanted[place].u, plane_bytes[1], (size_t)lengths[2]);
        expect_bytes("2.4 V", wanted[place].v, plane_bytes[2], (size_t)lengths[3]);
    }
}

/* RULES 7.1 to 7.7: refusals of a frame call. */
static void test_refusals(void)
{
    static const struct {
        uint32_t width;
        uint32_t height;
        uint32_t strides[4]; /* source, Y, U, V */
        uint64_t lengths[4];
        uint32_t number;
        uint64_t expected;
        uint64_t received;
    } wanted[] = {
        {0, 3, {0, 0, 0, 0}, {0, 0, 0, 0}, 2, 0, 0},
        {3, 3, {0, 0, 0, 0}, {0, 0, 0, 0}, 6, 9, 0},
        {3, 3, {0, 0, 0, 0}, {64, 64, 64, 64}, 7, 9, 0},
        {1, 1, {3, 1, 1, 1}, {3, 2, 1, 1}, 12, 1, 2},
        {0, 1, {0, 0, 0, 0}, {0, 0, 0, 0}, 2, 0, 0},
        {0, 16385, {0, 0, 0, 0}, {0, 0, 0, 0}, 2, 0, 0},
        {16384, 1, {0, 0, 0, 0}, {0, 0, 0, 0}, 6, 49152, 0},
        {16385, 1, {0, 0, 0, 0}, {0, 0, 0, 0}, 3, 0, 0},
        {1, 4294967295u, {0, 0, 0, 0}, {0, 0, 0, 0}, 3, 0, 0},
        {4, 2, {16, 4, 2, 2}, {27, 8, 2, 2}, 6, 28, 27},
        {4, 2, {11, 4, 2, 2}, {23, 8, 2, 2}, 7, 12, 11},
        {4, 2, {11, 4, 2, 2}, {22, 8, 2, 2}, 6, 23, 22},
        {4, 2, {16, 4, 2, 2}, {32, 8, 2, 2}, 0, 0, 0},
        {5, 3, {15, 4, 3, 3}, {45, 15, 6, 6}, 8, 15, 12},
        {5, 3, {15, 8, 3, 3}, {45, 20, 6, 6}, 9, 21, 20},
        {5, 3, {15, 5, 2, 3}, {45, 15, 6, 6}, 10, 6, 4},
        {5, 3, {15, 5, 4, 3}, {45, 15, 6, 6}, 10, 7, 6},
        {5, 3, {15, 5, 2, 3}, {45, 15, 0, 6}, 10, 6, 4},
        {5, 3, {15, 5, 3, 2}, {45, 15, 6, 6}, 11, 6, 4},
        {5, 3, {15, 5, 3, 4}, {45, 15, 6, 6}, 11, 7, 6},
        {5, 3, {15, 5, 3, 3}, {45, 15, 6, 6}, 0, 0, 0},
        {5, 3, {15, 8, 3, 3}, {45, 21, 6, 6}, 12, 24, 21},
        {5, 3, {15, 8, 3, 3}, {45, 24, 6, 6}, 0, 0, 0},
        {5, 3, {15, 8, 3, 3}, {45, 32, 6, 6}, 12, 24, 32},
        {5, 3, {15, 8, 3, 3}, {46, 24, 6, 7}, 12, 45, 46},
        {5, 3, {15, 8, 3, 3}, {45, 24, 6, 7}, 12, 6, 7},
    };
    static const struct {
        uint32_t kr;
        uint32_t number;
    } matrices[] = {
        {0x00000000u, 0}, {0x80000000u, 0}, {0x3F000000u, 0}, {0x3F000001u, 4}, {0x00000001u, 0},
        {0x80000001u, 4}, {0x7FC00000u, 4}, {0x7F800000u, 4}, {0xBF000000u, 4},
    };
    static const uint32_t strides[3] = {1, 1, 1};
    static const uint64_t lengths[4] = {3, 1, 1, 1};
    struct reference_description frame;
    size_t place;
    size_t byte;

    memset(source_bytes, 0x55, sizeof source_bytes);
    for (place = 0; place < sizeof wanted / sizeof wanted[0]; place++) {
        frame = describe(wanted[place].width, wanted[place].height, REFERENCE_RGB, REFERENCE_420, REFERENCE_LIMITED,
                         REFERENCE_BT601, REFERENCE_SRGB, wanted[place].strides + 1);
        expect_answer("7", (long)place, wanted[place].number, wanted[place].expected, wanted[place].received,
                      call_frame(&frame, wanted[place].strides[0], wanted[place].lengths));
        if (wanted[place].number != 0) {
            for (byte = 0; byte < sizeof plane_bytes; byte++) {
                expect("7.2", (long)place, 0xEE, plane_bytes[byte / 64][byte % 64]);
            }
        }
    }
    for (place = 0; place < sizeof matrices / sizeof matrices[0]; place++) {
        frame = describe(1, 1, REFERENCE_RGB, REFERENCE_420, REFERENCE_LIMITED, REFERENCE_CUSTOM, REFERENCE_SRGB, strides);
        frame.kr_bits = matrices[place].kr;
        expect_answer("7.4", (long)place, matrices[place].number, 0, 0, call_frame(&frame, 3, lengths));
        frame.kr_bits = 0;
        frame.kb_bits = matrices[place].kr;
        expect_answer("7.4", (long)place, matrices[place].number, 0, 0, call_frame(&frame, 3, lengths));
    }
    frame = describe(1, 1, REFERENCE_RGB, REFERENCE_420, REFERENCE_LIMITED, REFERENCE_BT601, REFERENCE_SRGB, strides);
    frame.rounding = REFERENCE_ROUNDINGS;
    expect_answer("10.2", 2, 1, 0, 0, call_frame(&frame, 3, lengths));
    frame = describe(1, 16384, REFERENCE_RGB, REFERENCE_420, REFERENCE_LIMITED, REFERENCE_BT601, REFERENCE_SRGB, strides);
    frame.y_stride = 4294967295u;
    expect("7.6", 0, 70368744161280, (long long)((uint64_t)frame.y_stride * frame.height));
}

/* RULES 8.1 to 8.5: refusals of openings and band calls. */
static void test_band_refusals(void)
{
    static const struct {
        uint32_t width;
        uint32_t height;
        uint32_t strides[3];
        uint32_t number;
    } openings[] = {
        {4, 5, {4, 2, 2}, 0}, {4, 5, {0, 0, 0}, 0}, {0, 5, {4, 2, 2}, 2}, {4, 16385, {4, 2, 2}, 3},
    };
    static const struct {
        uint32_t done;
        uint32_t rows;
        uint32_t stride;
        uint64_t length;
        uint64_t carried;
        uint32_t number;
        uint64_t expected;
        uint64_t received;
    } bands[] = {
        {0, 2, 12, 24, 12, 0, 0, 0},          {2, 2, 16, 32, 12, 0, 0, 0},  {4, 1, 12, 12, 12, 0, 0, 0},
        {2, 2, 12, 60, 12, 12, 24, 60},       {0, 2, 12, 23, 12, 6, 24, 23}, {0, 0, 12, 0, 12, 5, 0, 0},
        {0, 5, 12, 60, 12, 0, 0, 0},          {0, 6, 12, 72, 12, 5, 0, 0},  {3, 2, 12, 24, 12, 0, 0, 0},
        {3, 3, 12, 36, 12, 5, 0, 0},          {5, 1, 12, 12, 12, 5, 0, 0},  {4294967295u, 1, 12, 12, 12, 5, 0, 0},
        {0, 1, 12, 12, 11, 13, 12, 11},       {0, 1, 12, 12, 13, 0, 0, 0},
    };
    static const uint32_t strides[3] = {4, 2, 2};
    struct reference_state state;
    struct reference_source source;
    struct reference_planes planes;
    struct reference_buffer carried;
    uint8_t carried_bytes[16];
    size_t place;
    uint32_t sampling;

    memset(carried_bytes, 0xCC, sizeof carried_bytes);
    for (place = 0; place < sizeof openings / sizeof openings[0]; place++) {
        struct reference_description frame =
            describe(openings[place].width, openings[place].height, REFERENCE_RGB, REFERENCE_420, REFERENCE_FULL,
                     REFERENCE_BT601, REFERENCE_SRGB, openings[place].strides);

        state.rows_done = 9;
        expect_answer("8.1", (long)place, openings[place].number, 0, 0, reference_open(&frame, &state));
        expect("8.1", (long)place, 0, state.rows_done);
    }
    for (sampling = 0; sampling < REFERENCE_SAMPLINGS; sampling++) {
        for (place = 0; place < sizeof bands / sizeof bands[0]; place++) {
            state.frame = describe(4, 5, REFERENCE_RGB, sampling, REFERENCE_FULL, REFERENCE_BT601, REFERENCE_SRGB, strides);
            state.rows_done = bands[place].done;
            source.bytes = source_bytes;
            source.length = bands[place].length;
            source.stride = bands[place].stride;
            planes.y.bytes = plane_bytes[0];
            planes.y.length = 20;
            planes.u.bytes = plane_bytes[1];
            planes.u.length = sampling == REFERENCE_420 ? 6 : 10;
            planes.v.bytes = plane_bytes[2];
            planes.v.length = planes.u.length;
            carried.bytes = carried_bytes;
            carried.length = bands[place].carried;
            expect_answer("8", (long)place, bands[place].number, bands[place].expected, bands[place].received,
                          reference_band(&tables, &state, bands[place].rows, &source, &planes, &carried));
            expect("8.5", (long)place, bands[place].done + (bands[place].number == 0 ? bands[place].rows : 0u), state.rows_done);
        }
    }
}

/* RULES 8.6. */
static void test_finished(void)
{
    static const uint32_t wanted[4][6] = {{0, 0, 1, 1, 2, 0}, {0, 1, 2, 3, 4, 0}, {0, 0, 1, 1, 2, 3}, {0, 1, 2, 3, 4, 5}};
    static const uint32_t strides[3] = {1, 1, 1};
    unsigned line;
    uint32_t n;

    for (line = 0; line < 4; line++) {
        struct reference_description frame =
            describe(1, 4 + line / 2, REFERENCE_RGB, line % 2, REFERENCE_FULL, REFERENCE_BT601, REFERENCE_SRGB, strides);

        for (n = 0; n <= frame.height; n++) {
            expect("8.6", (long)line, wanted[line][n], finished_chroma_rows(&frame, n));
        }
    }
}

/* RULES 8.7, 8.8: bands of the frame of 8.7, and what they leave. */
static void test_bands(void)
{
    static const uint8_t pixels[18] = {255, 0, 0, 0, 255, 0, 0, 0, 255, 255, 255, 255, 9, 120, 60, 200, 10, 77};
    static const uint8_t bgra[8] = {0x00, 0x00, 0xFF, 0xAA, 0x00, 0xFF, 0x00, 0xAA};
    static const uint8_t after_first[6] = {0x4C, 0x96, 0xEE, 0xEE, 0xEE, 0xEE};
    static const uint8_t untouched[6] = {0xEE, 0xEE, 0xEE, 0xEE, 0xEE, 0xEE};
    static const uint8_t kept_rgb[7] = {0xFF, 0x00, 0x00, 0x00, 0xFF, 0x00, 0xCC};
    static const uint8_t kept_bgra[7] = {0x00, 0x00, 0xFF, 0x00, 0xFF, 0x00, 0xCC};
    static const uint8_t kept_none[7] = {0xCC, 0xCC, 0xCC, 0xCC, 0xCC, 0xCC, 0xCC};
    static const uint8_t y[6] = {0x4C, 0x96, 0x1D, 0xFF, 0x50, 0x4A};
    static const uint8_t u[2] = {0x74, 0x6B};
    static const uint8_t v[2] = {0xA3, 0x84};
    static const uint32_t strides[3] = {2, 1, 1};
    struct reference_description frame =
        describe(2, 3, REFERENCE_RGB, REFERENCE_420, REFERENCE_FULL, REFERENCE_BT601, REFERENCE_SRGB, strides);
    struct reference_state state;
    struct reference_source source;
    struct reference_planes planes;
    struct reference_buffer carried;
    uint8_t carried_bytes[7];
    uint8_t wide[14];
    uint32_t rows;

    planes.y.bytes = plane_bytes[0];
    planes.y.length = 6;
    planes.u.bytes = plane_bytes[1];
    planes.u.length = 2;
    planes.v.bytes = plane_bytes[2];
    planes.v.length = 2;
    carried.bytes = carried_bytes;
    carried.length = 7;
    memset(plane_bytes, 0xEE, sizeof plane_bytes);
    memset(carried_bytes, 0xCC, sizeof carried_bytes);
    expect_answer("8.7", 0, 0, 0, 0, reference_open(&frame, &state));
    source.bytes = pixels;
    source.length = 6;
    source.stride = 6;
    expect_answer("8.7", 1, 0, 0, 0, reference_band(&tables, &state, 1, &source, &planes, &carried));
    expect_bytes("8.7 Y", after_first, plane_bytes[0], 6);
    expect_bytes("8.7 U", untouched, plane_bytes[1], 2);
    expect_bytes("8.7 V", untouched, plane_bytes[2], 2);
    expect_bytes("8.8", kept_rgb, carried_bytes, 7);
    source.length = 18; /* RULES 8.9: refused calls in between */
    expect_answer("8.9", 1, 5, 0, 0, reference_band(&tables, &state, 3, &source, &planes, &carried));
    source.length = 5;
    expect_answer("8.9", 2, 6, 6, 5, reference_band(&tables, &state, 1, &source, &planes, &carried));
    expect("8.9", 2, 1, state.rows_done);
    expect_bytes("8.9 Y", after_first, plane_bytes[0], 6);
    memset(wide, 0x99, sizeof wide);
    memcpy(wide, pixels + 6, 6);
    memcpy(wide + 7, pixels + 12, 6);
    source.bytes = wide;
    source.length = 14;
    source.stride = 7;
    expect_answer("8.7", 2, 0, 0, 0, reference_band(&tables, &state, 2, &source, &planes, &carried));
    expect("8.7", 2, 3, state.rows_done);
    expect_bytes("8.7 Y", y, plane_bytes[0], 6);
    expect_bytes("8.7 U", u, plane_bytes[1], 2);
    expect_bytes("8.7 V", v, plane_bytes[2], 2);
    expect_bytes("8.8", kept_rgb, carried_bytes, 7);
    source.length = 7;
    expect_answer("8.9", 3, 5, 0, 0, reference_band(&tables, &state, 1, &source, &planes, &carried));
    expect("8.9", 3, 3, state.rows_done);

    for (rows = 2; rows <= 3; rows++) {
        memset(carried_bytes, 0xCC, sizeof carried_bytes);
        reference_open(&frame, &state);
        source.bytes = pixels;
        source.length = (uint64_t)rows * 6;
        source.stride = 6;
        expect_answer("8.8", (long)rows, 0, 0, 0, reference_band(&tables, &state, rows, &source, &planes, &carried));
        expect_bytes("8.8", kept_none, carried_bytes, 7);
    }
    frame.channel_order = REFERENCE_BGRA;
    reference_open(&frame, &state);
    source.bytes = bgra;
    source.length = 8;
    source.stride = 8;
    expect_answer("8.8", 4, 0, 0, 0, reference_band(&tables, &state, 1, &source, &planes, &carried));
    expect_bytes("8.8", kept_bgra, carried_bytes, 7);
    frame.channel_order = REFERENCE_RGB;
    frame.sampling = REFERENCE_422;
    planes.u.length = 3;
    planes.v.length = 3;
    memset(carried_bytes, 0xCC, sizeof carried_bytes);
    reference_open(&frame, &state);
    source.bytes = pixels;
    source.length = 6;
    source.stride = 6;
    expect_answer("8.8", 5, 0, 0, 0, reference_band(&tables, &state, 1, &source, &planes, &carried));
    expect_bytes("8.8", kept_none, carried_bytes, 7);
}

/* RULES 8.9: every split of a small frame into bands gives the bytes of the frame call, in all orders and samplings. */
static void test_every_split(uint32_t rounding)
{
    enum { WIDTH = 5, HEIGHT = 5, ROW = WIDTH * 4 };
    static const uint32_t strides[3] = {6, 4, 5};
    uint64_t lengths[4];
    uint8_t whole[3][64];
    uint8_t carried_bytes[64]; /* the first WIDTH * 3 are lent */
    uint32_t order;
    uint32_t sampling;
    unsigned cuts;
    size_t byte;
    uint32_t noise = 1;

    for (byte = 0; byte < sizeof source_bytes; byte++) {
        noise = noise * 1664525u + 1013904223u;
        source_bytes[byte] = (uint8_t)(noise >> 24);
    }
    for (order = 0; order < REFERENCE_CHANNEL_ORDERS; order++) {
        for (sampling = 0; sampling < REFERENCE_SAMPLINGS; sampling++) {
            struct reference_description frame =
                describe(WIDTH, HEIGHT, order, sampling, REFERENCE_LIMITED, REFERENCE_FCC, REFERENCE_REC709, strides);
            uint32_t chroma_rows = reference_chroma_height(HEIGHT, sampling);

            frame.rounding = rounding;
            lengths[0] = ROW * HEIGHT;
            lengths[1] = (uint64_t)strides[0] * HEIGHT;
            lengths[2] = (uint64_t)strides[1] * chroma_rows;
            lengths[3] = (uint64_t)strides[2] * chroma_rows;
            expect_answer("8.9", 0, 0, 0, 0, call_frame(&frame, ROW, lengths));
            memcpy(whole, plane_bytes, sizeof whole);
            for (cuts = 0; cuts < 1u << (HEIGHT - 1); cuts++) {
                struct reference_state state;
                struct reference_source source;
                struct reference_planes planes;
                struct reference_buffer carried;
                uint32_t first = 0;
                uint32_t r;

                planes.y.bytes = plane_bytes[0];
                planes.y.length = lengths[1];
                planes.u.bytes = plane_bytes[1];
                planes.u.length = lengths[2];
                planes.v.bytes = plane_bytes[2];
                planes.v.length = lengths[3];
                carried.bytes = carried_bytes;
                carried.length = WIDTH * 3;
                memset(plane_bytes, 0xEE, sizeof plane_bytes);
                memset(carried_bytes, 0xCC, sizeof carried_bytes);
                reference_open(&frame, &state);
                for (r = 0; r < HEIGHT; r++) {
                    if (r == HEIGHT - 1 || (cuts >> r & 1u) != 0) {
                        source.bytes = source_bytes + (size_t)first * ROW;
                        source.length = (uint64_t)(r + 1 - first) * ROW;
                        source.stride = ROW;
                        expect_answer("8.9", (long)cuts, 0, 0, 0,
                                      reference_band(&tables, &state, r + 1 - first, &source, &planes, &carried));
                        first = r + 1;
                    }
                }
                expect("8.9", (long)cuts, HEIGHT, state.rows_done);
                expect("8.9 planes", (long)cuts, 0, memcmp(whole, plane_bytes, sizeof whole));
                for (byte = WIDTH * 3; byte < sizeof carried_bytes; byte++) {
                    expect("8.8", (long)cuts, 0xCC, carried_bytes[byte]);
                }
            }
        }
    }
}

/* RULES 8: a frame that comes in bands, with buffers of its own. */
struct banded {
    struct reference_state state;
    uint8_t planes[3][64];
    uint8_t carried[16];
};

/* RULES 8.1: opens a frame over planes of EE and a carried row of CC. */
static struct reference_answer open_banded(struct banded *banded, const struct reference_description *frame)
{
    memset(banded->planes, 0xEE, sizeof banded->planes);
    memset(banded->carried, 0xCC, sizeof banded->carried);
    return reference_open(frame, &banded->state);
}

/* RULES 8.2: a band call; the planes have whole rows, and of the carried row no more is lent than the frame needs. */
static struct reference_answer call_band(struct banded *banded, uint32_t rows, const uint8_t *bytes, uint64_t length,
                                         uint32_t stride)
{
    const struct reference_description *frame = &banded->state.frame;
    uint32_t chroma_rows = reference_chroma_height(frame->height, frame->sampling);
    struct reference_source source;
    struct reference_planes planes;
    struct reference_buffer carried;

    source.bytes = bytes;
    source.length = length;
    source.stride = stride;
    planes.y.bytes = banded->planes[0];
    planes.y.length = (uint64_t)frame->y_stride * frame->height;
    planes.u.bytes = banded->planes[1];
    planes.u.length = (uint64_t)frame->u_stride * chroma_rows;
    planes.v.bytes = banded->planes[2];
    planes.v.length = (uint64_t)frame->v_stride * chroma_rows;
    carried.bytes = banded->carried;
    carried.length = (uint64_t)frame->width * 3;
    return reference_band(&tables, &banded->state, rows, &source, &planes, &carried);
}

/* RULES 7.1, 7.3, 7.9, 8.1: what a description with a window decides, in each of the three calls. */
static void test_windows(void)
{
    static const struct {
        uint32_t width;
        uint32_t height;
        uint32_t window[4];
        uint32_t number;
    } wanted[] = {
        {1, 1, {0, 0, 16384, 16384}, 0},
        {1, 1, {0, 0, 16385, 1}, 3},
        {1, 1, {0, 0, 1, 4294967295u}, 3},
        {0, 1, {0, 0, 0, 1}, 2},
        {1, 1, {0, 0, 0, 1}, 14},
        {3, 2, {2, 2, 5, 4}, 0},
        {3, 2, {3, 2, 5, 4}, 14},
        {3, 2, {2, 3, 5, 4}, 14},
        {16384, 16384, {0, 0, 16384, 16384}, 0},
        {1, 1, {16384, 0, 16384, 1}, 14},
        {1, 1, {4294967295u, 0, 16384, 1}, 14},
        {1, 1, {0, 4294967295u, 1, 16384}, 14},
        {1, 1, {0, 0, 1, 0}, 14},
        {0, 1, {4294967295u, 0, 0, 1}, 2},
        {1, 1, {1, 0, 16384, 16385}, 3},
        {4, 5, {1, 2, 6, 8}, 0},
        {4, 5, {3, 2, 6, 8}, 14},
        {4, 5, {1, 2, 6, 16385}, 3},
        {3, 3, {1, 0, 3, 3}, 14},
    };
    static const uint32_t strides[3] = {0, 0, 0};
    static const uint64_t lengths[4] = {0, 0, 0, 0};
    struct banded banded;
    size_t place;

    for (place = 0; place < sizeof wanted / sizeof wanted[0]; place++) {
        struct reference_description frame = describe(wanted[place].width, wanted[place].height, REFERENCE_RGB, REFERENCE_420,
                                                      REFERENCE_LIMITED, REFERENCE_BT601, REFERENCE_SRGB, strides);

        set_window(&frame, wanted[place].window);
        expect_answer("8.1", (long)place, wanted[place].number, 0, 0, open_banded(&banded, &frame));
        expect("8.1", (long)place, 0, banded.state.rows_done);
        expect("8.1", (long)place, frame.left, banded.state.frame.left);
        expect("8.1", (long)place, frame.top, banded.state.frame.top);
        expect("8.1", (long)place, frame.source_width, banded.state.frame.source_width);
        expect("8.1", (long)place, frame.source_height, banded.state.frame.source_height);
        /* a band of no rows: 5 where the state is fit, and not before 14 */
        expect_answer("7.1", (long)place, wanted[place].number == 0 ? 5 : wanted[place].number, 0, 0,
                      call_band(&banded, 0, source_bytes, 0, 0));
        if (wanted[place].number != 0) {
            expect_answer("7.9", (long)place, wanted[place].number, 0, 0, call_frame(&frame, 0, lengths));
            frame.matrix = REFERENCE_CUSTOM; /* 4 comes before 14, and after 2 and 3 */
            frame.kr_bits = 0x3F800000u;
            expect_answer("7.1", (long)place, wanted[place].number == 14 ? 4 : wanted[place].number, 0, 0,
                          call_frame(&frame, 0, lengths));
            frame.rounding = REFERENCE_ROUNDINGS; /* and 1 before all */
            expect_answer("7.1", (long)place, 1, 0, 0, call_frame(&frame, 0, lengths));
        }
    }
}

/* RULES 7.5, 7.7, 8.2: lengths and strides of a source that is larger than the frame. */
static void test_window_lengths(void)
{
    static const struct {
        uint32_t width;
        uint32_t height;
        uint32_t window[4];
        uint32_t strides[4]; /* source, Y, U, V */
        uint64_t lengths[4];
        uint32_t number;
        uint64_t expected;
        uint64_t received;
    } frames[] = {
        {4, 2, {1, 2, 6, 5}, {20, 4, 2, 2}, {97, 8, 2, 2}, 6, 98, 97},
        {4, 2, {1, 2, 6, 5}, {17, 4, 2, 2}, {86, 8, 2, 2}, 7, 18, 17},
        {4, 2, {1, 2, 6, 5}, {17, 4, 2, 2}, {85, 8, 2, 2}, 6, 86, 85},
        {4, 2, {1, 2, 6, 5}, {20, 4, 2, 2}, {100, 8, 2, 2}, 0, 0, 0},
        {5, 3, {0, 1, 6, 4}, {20, 5, 3, 3}, {78, 15, 6, 6}, 12, 80, 78},
        {5, 3, {0, 1, 6, 4}, {20, 5, 3, 3}, {80, 15, 6, 6}, 0, 0, 0},
    };
    static const struct {
        uint32_t done;
        uint32_t rows;
        uint32_t stride;
        uint64_t length;
        uint32_t number;
        uint64_t expected;
        uint64_t received;
    } bands[] = {
        {0, 2, 18, 36, 0, 0, 0},   {0, 2, 18, 35, 6, 36, 35},  {0, 2, 12, 24, 6, 30, 24},
        {2, 2, 17, 35, 7, 18, 17}, {2, 2, 18, 54, 12, 36, 54}, {4, 1, 20, 20, 0, 0, 0},
    };
    static const uint32_t strides[3] = {4, 2, 2};
    static const uint32_t window[4] = {1, 2, 6, 8};
    struct reference_description frame;
    struct banded banded;
    size_t place;

    for (place = 0; place < sizeof frames / sizeof frames[0]; place++) {
        frame = describe(frames[place].width, frames[place].height, REFERENCE_RGB, REFERENCE_420, REFERENCE_LIMITED,
                         REFERENCE_BT601, REFERENCE_SRGB, frames[place].strides + 1);
        set_window(&frame, frames[place].window);
        expect_answer("7.5", (long)place, frames[place].number, frames[place].expected, frames[place].received,
                      call_frame(&frame, frames[place].strides[0], frames[place].lengths));
    }
    frame = describe(4, 5, REFERENCE_RGB, REFERENCE_420, REFERENCE_FULL, REFERENCE_BT601, REFERENCE_SRGB, strides);
    set_window(&frame, window);
    for (place = 0; place < sizeof bands / sizeof bands[0]; place++) {
        open_banded(&banded, &frame);
        banded.state.rows_done = bands[place].done;
        expect_answer("8.2", (long)place, bands[place].number, bands[place].expected, bands[place].received,
                      call_band(&banded, bands[place].rows, source_bytes, bands[place].length, bands[place].stride));
    }
}

/* RULES 2.6: an odd rectangle, from an odd column and row on, in red and in green surroundings. */
static void test_odd_window(void)
{
    enum { SIDE = 3, LARGE_SIDE = 5, ROW = LARGE_SIDE * 3 };
    static const uint8_t pixels[SIDE][SIDE * 3] = {
        {10, 0, 255, 20, 0, 0, 255, 255, 0},
        {30, 0, 0, 40, 255, 0, 0, 0, 255},
        {9, 120, 60, 200, 10, 77, 50, 60, 70},
    };
    static const uint8_t y[9] = {0x20, 0x06, 0xE2, 0x09, 0xA2, 0x1D, 0x50, 0x4A, 0x3A};
    static const uint8_t u[REFERENCE_SAMPLINGS][6] = {{0xC8, 0x54, 0x6B, 0x87}, {0xEE, 0x00, 0x4E, 0xFF, 0x6B, 0x87}};
    static const uint8_t v[REFERENCE_SAMPLINGS][6] = {{0x5C, 0x87, 0x84, 0x7A}, {0x74, 0x95, 0x57, 0x6B, 0x84, 0x7A}};
    static const uint32_t strides[3] = {3, 2, 2};
    static const uint32_t window[4] = {1, 1, LARGE_SIDE, LARGE_SIDE};
    uint32_t sampling;
    unsigned surroundings;
    size_t place;

    for (sampling = 0; sampling < REFERENCE_SAMPLINGS; sampling++) {
        for (surroundings = 0; surroundings < 2; surroundings++) {
            struct reference_description frame =
                describe(SIDE, SIDE, REFERENCE_RGB, sampling, REFERENCE_FULL, REFERENCE_BT601, REFERENCE_SRGB, strides);
            uint64_t lengths[4] = {ROW * LARGE_SIDE, 9, 0, 0};

            lengths[2] = 2 * (uint64_t)reference_chroma_height(SIDE, sampling);
            lengths[3] = lengths[2];
            for (place = 0; place < ROW * LARGE_SIDE; place++) {
                source_bytes[place] = place % 3 == surroundings ? 255 : 0;
            }
            for (place = 0; place < SIDE; place++) {
                memcpy(source_bytes + (place + 1) * ROW + 3, pixels[place], sizeof pixels[place]);
            }
            set_window(&frame, window);
            expect_answer("2.6", (long)sampling, 0, 0, 0, call_frame(&frame, ROW, lengths));
            expect_bytes("2.6 Y", y, plane_bytes[0], (size_t)lengths[1]);
            expect_bytes("2.6 U", u[sampling], plane_bytes[1], (size_t)lengths[2]);
            expect_bytes("2.6 V", v[sampling], plane_bytes[2], (size_t)lengths[3]);
        }
    }
}

/* RULES 8.7, 8.8: the frame of 8.7 in a window, in two bands. */
static void test_window_bands(void)
{
    static const uint8_t rows[3][12] = {
        {0x77, 0x77, 0x77, 0xFF, 0x00, 0x00, 0x00, 0xFF, 0x00, 0x77, 0x77, 0x77},
        {0x77, 0x77, 0x77, 0x00, 0x00, 0xFF, 0xFF, 0xFF, 0xFF, 0x77, 0x77, 0x77},
        {0x77, 0x77, 0x77, 0x09, 0x78, 0x3C, 0xC8, 0x0A, 0x4D, 0x77, 0x77, 0x77},
    };
    static const uint8_t y[2][6] = {{0x4C, 0x96, 0xEE, 0xEE, 0xEE, 0xEE}, {0x4C, 0x96, 0x1D, 0xFF, 0x50, 0x4A}};
    static const uint8_t u[2][2] = {{0xEE, 0xEE}, {0x74, 0x6B}};
    static const uint8_t v[2][2] = {{0xEE, 0xEE}, {0xA3, 0x84}};
    static const uint8_t carried[7] = {0xFF, 0x00, 0x00, 0x00, 0xFF, 0x00, 0xCC};
    static const uint32_t strides[3] = {2, 1, 1};
    static const uint32_t window[4] = {1, 3, 4, 7};
    struct reference_description frame =
        describe(2, 3, REFERENCE_RGB, REFERENCE_420, REFERENCE_FULL, REFERENCE_BT601, REFERENCE_SRGB, strides);
    struct banded banded;
    uint32_t band;

    set_window(&frame, window);
    expect_answer("8.7", 0, 0, 0, 0, open_banded(&banded, &frame));
    for (band = 0; band < 2; band++) {
        expect_answer("8.7", (long)band, 0, 0, 0, call_band(&banded, band + 1, rows[band], (band + 1) * sizeof rows[0], 12));
        expect_bytes("8.7 Y", y[band], banded.planes[0], sizeof y[band]);
        expect_bytes("8.7 U", u[band], banded.planes[1], sizeof u[band]);
        expect_bytes("8.7 V", v[band], banded.planes[2], sizeof v[band]);
        expect_bytes("8.8", carried, banded.carried, sizeof carried);
    }
}

/* RULES 2.6: a source of 5 × 5 pixels, each row with a byte of padding. */
enum { LARGE_WIDTH = 5, LARGE_HEIGHT = 5, LARGE_STRIDE = LARGE_WIDTH * 4 + 1, LARGE_BYTES = LARGE_STRIDE * LARGE_HEIGHT };

/* RULES 2.3: whether a byte of that source enters a formula. */
static int is_looked_at(const struct reference_description *frame, uint32_t byte)
{
    uint32_t pixel_bytes = reference_pixel_bytes(frame->channel_order);
    uint32_t row = byte / LARGE_STRIDE;
    uint32_t column = byte % LARGE_STRIDE / pixel_bytes;

    return row >= frame->top && row < frame->top + frame->height && column >= frame->left &&
           column < frame->left + frame->width && byte % LARGE_STRIDE % pixel_bytes < 3;
}

/* RULES 2.3, 2.6, 8.9: one window: frame call and every split into bands do what they do on the rectangle copied out. */
static void test_window(const struct reference_description *frame)
{
    uint32_t row = frame->width * reference_pixel_bytes(frame->channel_order);
    uint32_t chroma_rows = reference_chroma_height(frame->height, frame->sampling);
    struct reference_description copied = *frame;
    uint8_t large[2][LARGE_BYTES]; /* the second differs in every byte that is not looked at */
    uint8_t copy[LARGE_BYTES];
    uint8_t whole[3][64];
    uint64_t lengths[4];
    uint32_t noise = 1;
    uint32_t byte;
    uint32_t r;
    unsigned source;
    unsigned cuts;

    reference_whole_source(&copied);
    for (byte = 0; byte < LARGE_BYTES; byte++) {
        noise = noise * 1664525u + 1013904223u;
        large[0][byte] = (uint8_t)(noise >> 24);
        large[1][byte] = (uint8_t)(is_looked_at(frame, byte) ? large[0][byte] : large[0][byte] ^ 0xFFu);
    }
    for (r = 0; r < frame->height; r++) {
        memcpy(copy + (size_t)r * row,
               large[0] + (size_t)(frame->top + r) * LARGE_STRIDE + (size_t)frame->left * (row / frame->width), row);
    }
    lengths[0] = (uint64_t)row * frame->height;
    lengths[1] = (uint64_t)frame->y_stride * frame->height;
    lengths[2] = (uint64_t)frame->u_stride * chroma_rows;
    lengths[3] = (uint64_t)frame->v_stride * chroma_rows;
    memcpy(source_bytes, copy, (size_t)lengths[0]);
    expect_answer("2.6", 0, 0, 0, 0, call_frame(&copied, row, lengths));
    memcpy(whole, plane_bytes, sizeof whole);
    lengths[0] = LARGE_BYTES;
    for (source = 0; source < 2; source++) {
        memcpy(source_bytes, large[source], LARGE_BYTES);
        expect_answer("2.6", (long)source, 0, 0, 0, call_frame(frame, LARGE_STRIDE, lengths));
        expect("2.6 planes", (long)source, 0, memcmp(whole, plane_bytes, sizeof whole));
    }
    for (cuts = 0; cuts < 1u << (frame->height - 1); cuts++) {
        struct banded of_copy;
        struct banded of_large[2];
        uint32_t first = 0;

        expect_answer("8.1", (long)cuts, 0, 0, 0, open_banded(&of_copy, &copied));
        for (source = 0; source < 2; source++) {
            expect_answer("8.1", (long)cuts, 0, 0, 0, open_banded(&of_large[source], frame));
        }
        for (r = 0; r < frame->height; r++) {
            uint32_t rows = r + 1 - first;

            if (r < frame->height - 1 && (cuts >> r & 1u) == 0) {
                continue;
            }
            expect_answer("8.2", (long)cuts, 0, 0, 0,
                          call_band(&of_copy, rows, copy + (size_t)first * row, (uint64_t)rows * row, row));
            for (source = 0; source < 2; source++) {
                expect_answer("8.2", (long)cuts, 0, 0, 0,
                              call_band(&of_large[source], rows, large[source] + (size_t)(frame->top + first) * LARGE_STRIDE,
                                        (uint64_t)rows * LARGE_STRIDE, LARGE_STRIDE));
                expect("8.5", (long)cuts, r + 1, of_large[source].state.rows_done);
                expect("8.7", (long)cuts, 0, memcmp(of_copy.planes, of_large[source].planes, sizeof of_copy.planes));
                expect("8.8", (long)cuts, 0, memcmp(of_copy.carried, of_large[source].carried, sizeof of_copy.carried));
            }
            first = r + 1;
        }
        expect("8.9", (long)cuts, 0, memcmp(whole, of_copy.planes, sizeof whole));
    }
}

/* RULES 2.6, 7.9: every window of that source and those that reach past it by a pixel or two, in all orders and samplings. */
static void test_every_window(void)
{
    static const uint32_t strides[3] = {6, 4, 5};
    struct banded banded;
    uint32_t order;
    uint32_t sampling;
    uint32_t left;
    uint32_t top;
    uint32_t width;
    uint32_t height;

    for (left = 0; left <= LARGE_WIDTH + 1; left++) {
        for (top = 0; top <= LARGE_HEIGHT + 1; top++) {
            for (width = 1; width <= LARGE_WIDTH + 1; width++) {
                for (height = 1; height <= LARGE_HEIGHT + 1; height++) {
                    struct reference_description frame =
                        describe(width, height, REFERENCE_RGB, REFERENCE_420, REFERENCE_LIMITED, REFERENCE_BT709,
                                 REFERENCE_SRGB, strides);
                    uint32_t window[4] = {0, 0, LARGE_WIDTH, LARGE_HEIGHT};
                    int inside = left + width <= LARGE_WIDTH && top + height <= LARGE_HEIGHT;

                    window[0] = left;
                    window[1] = top;
                    set_window(&frame, window);
                    expect_answer("7.9", (long)left, inside ? 0 : 14, 0, 0, open_banded(&banded, &frame));
                    for (order = 0; inside && order < REFERENCE_CHANNEL_ORDERS; order++) {
                        for (sampling = 0; sampling < REFERENCE_SAMPLINGS; sampling++) {
                            frame.channel_order = order;
                            frame.sampling = sampling;
                            test_window(&frame);
                        }
                    }
                }
            }
        }
    }
}

/* RULES 6.5, 11 to 14: numbers below a bound of at most 2^24, without order but the same in each run. */
static uint32_t below(uint32_t bound)
{
    static uint32_t state = 1;

    state = state * 1664525u + 1013904223u;
    return (uint32_t)(((uint64_t)(state >> 8) * bound) >> 24);
}

/* RULES 7.4: bits of a kr or kb that is accepted: an edge, a half of 4.5 or next to it, a decimal, any number, any bits. */
static uint32_t accepted_bits(void)
{
    static const uint32_t edges[] = {0, 0x80000000u, 1, 0x007FFFFFu, 0x00800000u, 0x3EFFFFFFu, 0x3F000000u};
    uint32_t bits;

    switch (below(5)) {
    case 0:
        return edges[below(sizeof edges / sizeof edges[0])];
    case 1: /* an odd number of 16,384ths, whose luma weight of full range is a half before it is rounded */
        return round_to_binary32(0, 2 * (uint64_t)below(4096) + 1, -14) + below(3) - 1;
    case 2:
        return divide(round_to_binary32(0, below(501), 0), round_to_binary32(0, 1000, 0));
    case 3:
        return round_to_binary32(0, below(0x1000000u), -25);
    default:
        bits = below(0x3F01u) << 16 | below(0x10000u);
        return bits > bits_half ? bits_half : bits;
    }
}

/* RULES 6.5: of an accepted pair, what its weights add to, and chroma and luma of every grey. */
static void test_grey_weights(void)
{
    static const int32_t luma_sums[REFERENCE_RANGES][2] = {{7034, 7036}, {8191, 8193}};
    static const uint32_t strides[3] = {1, 1, 1};
    struct reference_description frame =
        describe(1, 1, REFERENCE_RGB, REFERENCE_420, 0, REFERENCE_CUSTOM, REFERENCE_SRGB, strides);
    long place;

    for (place = 0; place < 20000; place++) {
        frame.kr_bits = accepted_bits();
        frame.kb_bits = accepted_bits();
        for (frame.range = 0; frame.range < REFERENCE_RANGES; frame.range++) {
            const struct range *range = &ranges[frame.range];
            struct reference_weights w;
            int32_t luma_sum;
            int32_t cb_sum;
            int32_t cr_sum;
            long wrong = 0;
            unsigned grey;

            reference_make_weights(&frame, &w);
            luma_sum = w.luma[0] + w.luma[1] + w.luma[2];
            cb_sum = w.cb[0] + w.cb[1] + w.cb[2];
            cr_sum = w.cr[0] + w.cr[1] + w.cr[2];
            expect("6.5 luma sum", place, 1, luma_sum >= luma_sums[frame.range][0] && luma_sum <= luma_sums[frame.range][1]);
            expect("6.5 cb sum", place, 1, cb_sum >= -1 && cb_sum <= 1);
            expect("6.5 cr sum", place, 1, cr_sum >= -1 && cr_sum <= 1);
            for (grey = 0; grey < 256; grey++) {
                uint8_t colour[3];

                memset(colour, (int)grey, sizeof colour);
                wrong += chroma(w.cb, range, colour) != 128 || chroma(w.cr, range, colour) != 128 ||
                         (frame.range == REFERENCE_FULL && luma(w.luma, range, colour) != grey) ||
                         (frame.range == REFERENCE_LIMITED && grey == 0 && luma(w.luma, range, colour) != 16) ||
                         (frame.range == REFERENCE_LIMITED && grey == 255 && luma(w.luma, range, colour) != 235);
            }
            expect("6.5 greys", place, 0, wrong);
        }
    }
}

/* RULES 6.5: the greys of a frame, by row and column. */
enum { GREY_SIDE = 5 };

/* RULES 6.5, 8.6: the rows of the planes that are finished after n grey rows. */
static void expect_grey(long place, const struct reference_description *frame, uint32_t n, uint8_t greys[GREY_SIDE][GREY_SIDE],
                        uint8_t planes[3][64])
{
    uint32_t columns = reference_chroma_width(frame->width);
    uint32_t chroma_rows = finished_chroma_rows(frame, n);
    uint32_t r;
    uint32_t x;

    for (r = 0; r < n; r++) {
        for (x = 0; x < frame->width; x++) {
            uint8_t grey = greys[r][x];
            uint8_t y = planes[0][r * frame->y_stride + x];

            if (frame->range == REFERENCE_FULL) {
                expect("6.5 Y", place, grey, y);
            } else if (grey == 0 || grey == 255) {
                expect("6.5 Y", place, grey == 0 ? 16 : 235, y);
            }
        }
    }
    for (r = 0; r < chroma_rows; r++) {
        for (x = 0; x < columns; x++) {
            expect("6.5 U", place, 128, planes[1][r * frame->u_stride + x]);
            expect("6.5 V", place, 128, planes[2][r * frame->v_stride + x]);
        }
    }
}

/* RULES 6.5: any pixel of one grey in a buffer, by its first byte: the three colour bytes in every channel order. */
static uint8_t paint_grey(uint8_t *pixel)
{
    uint32_t choice = below(4);
    uint8_t grey = (uint8_t)(choice == 0 ? 0u : choice == 1 ? 255u : below(256));

    memset(pixel, grey, 3);
    return grey;
}

/*
 * RULES 6.5: a frame of greys in a source of other colours, in one call, and in bands whose rows are coloured from some row on.
 * Sizes, strides, window, greys and cuts are any; so are kr and kb.
 */
static void test_grey_frame(long place, struct reference_description *frame)
{
    uint32_t pixel_bytes = reference_pixel_bytes(frame->channel_order);
    uint32_t source_stride;
    uint32_t chroma_rows;
    uint32_t grey_rows;
    uint8_t greys[GREY_SIDE][GREY_SIDE];
    struct banded banded;
    uint64_t lengths[4];
    uint32_t r;
    uint32_t x;

    frame->width = 1 + below(GREY_SIDE);
    frame->height = 1 + below(GREY_SIDE);
    frame->left = below(2);
    frame->top = below(2);
    frame->source_width = frame->left + frame->width + below(2);
    frame->source_height = frame->top + frame->height + below(2);
    frame->y_stride = frame->width + below(3);
    frame->u_stride = reference_chroma_width(frame->width) + below(3);
    frame->v_stride = reference_chroma_width(frame->width) + below(3);
    frame->kr_bits = accepted_bits();
    frame->kb_bits = accepted_bits();
    chroma_rows = reference_chroma_height(frame->height, frame->sampling);
    source_stride = frame->source_width * pixel_bytes + below(2);
    lengths[0] = (uint64_t)source_stride * frame->source_height;
    lengths[1] = (uint64_t)frame->y_stride * frame->height;
    lengths[2] = (uint64_t)frame->u_stride * chroma_rows;
    lengths[3] = (uint64_t)frame->v_stride * chroma_rows;
    for (x = 0; x < sizeof source_bytes; x++) {
        source_bytes[x] = (uint8_t)below(256);
    }
    for (r = 0; r < frame->height; r++) {
        for (x = 0; x < frame->width; x++) {
            greys[r][x] = paint_grey(source_bytes + (size_t)(frame->top + r) * source_stride +
                                     (size_t)(frame->left + x) * pixel_bytes);
        }
    }
    expect_answer("6.5", place, 0, 0, 0, call_frame(frame, source_stride, lengths));
    expect_grey(place, frame, frame->height, greys, plane_bytes);

    grey_rows = below(frame->height + 1);
    for (x = (frame->top + grey_rows) * source_stride; x < sizeof source_bytes; x++) {
        source_bytes[x] = (uint8_t)below(256);
    }
    expect_answer("6.5", place, 0, 0, 0, open_banded(&banded, frame));
    while (banded.state.rows_done < frame->height) {
        uint32_t done = banded.state.rows_done;
        uint32_t rows = 1 + below(frame->height - done);

        expect_answer("6.5", place, 0, 0, 0,
                      call_band(&banded, rows, source_bytes + (size_t)(frame->top + done) * source_stride,
                                (uint64_t)rows * source_stride, source_stride));
        expect_grey(place, frame, done + rows < grey_rows ? done + rows : grey_rows, greys, banded.planes);
    }
}

/* RULES 6.5: such frames in every combination of settings. */
static void test_grey_frames(void)
{
    enum { EACH = 5 };
    static const uint32_t strides[3] = {1, 1, 1};
    uint32_t settings;
    uint32_t again;

    for (settings = 0; settings < 4u * 2 * 2 * 7 * 4 * 2; settings++) {
        struct reference_description frame =
            describe(1, 1, settings % 4, settings / 4 % 2, settings / 8 % 2, settings / 16 % 7, settings / 112 % 4, strides);

        frame.rounding = settings / 448;
        for (again = 0; again < EACH; again++) {
            test_grey_frame((long)settings, &frame);
        }
    }
}

/* RULES 6.5: the worked frames; planes without padding. */
static void test_worked_greys(void)
{
    static const uint8_t greys[9] = {0, 255, 255, 255, 0, 0, 0, 255, 0};
    static const uint8_t y[9] = {0x10, 0xEB, 0xEB, 0xEB, 0x10, 0x10, 0x10, 0xEB, 0x10};
    static const uint8_t row[4] = {0, 10, 128, 255};
    static const uint8_t limited[4] = {0x10, 0x19, 0x7E, 0xEB};
    static const uint8_t no_tint[6] = {0x80, 0x80, 0x80, 0x80, 0x80, 0x80};
    static const uint8_t grey_and_red[6] = {128, 128, 128, 255, 0, 0};
    static const struct {
        uint32_t matrix;
        uint32_t range;
        uint32_t kr;
        uint32_t kb;
        int32_t sums[3];
    } wanted[] = {
        {REFERENCE_BT601, REFERENCE_FULL, 0, 0, {8192, 0, 0}},
        {REFERENCE_SMPTE240, REFERENCE_FULL, 0, 0, {8193, 0, 0}},
        {REFERENCE_CUSTOM, REFERENCE_FULL, 0x3F000000u, 0x38800000u, {8193, 0, -1}},
        {REFERENCE_BT2020, REFERENCE_LIMITED, 0, 0, {7035, 0, 0}},
        {REFERENCE_CUSTOM, REFERENCE_LIMITED, 0x3C656042u, 0x3C656042u, {7034, 0, 0}},
        {REFERENCE_CUSTOM, REFERENCE_LIMITED, 0x3A83126Fu, 0x3EE56042u, {7036, -1, -1}},
    };
    static const uint32_t strides_of_3[3] = {3, 2, 2};
    static const uint32_t strides_of_4[3] = {4, 2, 2};
    static const uint32_t strides_of_1[3] = {1, 1, 1};
    static const uint32_t window[4] = {0, 0, 2, 1};
    uint64_t lengths[4] = {27, 9, 4, 4};
    struct reference_description frame;
    size_t place;
    uint32_t sampling;

    for (sampling = 0; sampling < REFERENCE_SAMPLINGS; sampling++) {
        frame = describe(3, 3, REFERENCE_RGB, sampling, REFERENCE_LIMITED, REFERENCE_BT601, REFERENCE_SRGB, strides_of_3);
        for (place = 0; place < sizeof greys; place++) {
            memset(source_bytes + 3 * place, greys[place], 3);
        }
        lengths[2] = 2 * (uint64_t)reference_chroma_height(3, sampling);
        lengths[3] = lengths[2];
        expect_answer("6.5", (long)sampling, 0, 0, 0, call_frame(&frame, 9, lengths));
        expect_bytes("6.5 Y", y, plane_bytes[0], sizeof y);
        expect_bytes("6.5 U", no_tint, plane_bytes[1], (size_t)lengths[2]);
        expect_bytes("6.5 V", no_tint, plane_bytes[2], (size_t)lengths[3]);
    }
    for (place = 0; place < sizeof row; place++) {
        memset(source_bytes + 3 * place, row[place], 3);
    }
    lengths[0] = 12;
    lengths[1] = 4;
    lengths[2] = 2;
    lengths[3] = 2;
    for (place = 0; place < sizeof wanted / sizeof wanted[0]; place++) {
        struct reference_weights w;

        frame = describe(4, 1, REFERENCE_RGB, REFERENCE_420, wanted[place].range, wanted[place].matrix, REFERENCE_SRGB,
                         strides_of_4);
        frame.kr_bits = wanted[place].kr;
        frame.kb_bits = wanted[place].kb;
        reference_make_weights(&frame, &w);
        expect("6.5 luma sum", (long)place, wanted[place].sums[0], w.luma[0] + w.luma[1] + w.luma[2]);
        expect("6.5 cb sum", (long)place, wanted[place].sums[1], w.cb[0] + w.cb[1] + w.cb[2]);
        expect("6.5 cr sum", (long)place, wanted[place].sums[2], w.cr[0] + w.cr[1] + w.cr[2]);
        expect_answer("6.5", (long)place, 0, 0, 0, call_frame(&frame, 12, lengths));
        expect_bytes("6.5 Y", frame.range == REFERENCE_FULL ? row : limited, plane_bytes[0], sizeof row);
        expect_bytes("6.5 U", no_tint, plane_bytes[1], 2);
        expect_bytes("6.5 V", no_tint, plane_bytes[2], 2);
    }
    frame = describe(1, 1, REFERENCE_RGB, REFERENCE_420, REFERENCE_FULL, REFERENCE_BT601, REFERENCE_SRGB, strides_of_1);
    set_window(&frame, window);
    memcpy(source_bytes, grey_and_red, sizeof grey_and_red);
    lengths[0] = 6;
    lengths[1] = 1;
    lengths[2] = 1;
    lengths[3] = 1;
    expect_answer("6.5", 10, 0, 0, 0, call_frame(&frame, 6, lengths));
    expect_bytes("6.5 Y", no_tint, plane_bytes[0], 1);
    expect_bytes("6.5 U", no_tint, plane_bytes[1], 1);
    expect_bytes("6.5 V", no_tint, plane_bytes[2], 1);
}

/* RULES 11.1, 11.2: the two records of the examples, and the file of them. */
enum { RECORDS_BYTES = 29, FILE_BYTES = 57, FIRST_BYTES = 18, SECOND_BYTES = 11 };

static const uint8_t worked_file[FILE_BYTES] = {
    0x02, 0x00, 0x00, 0x00,
    0x1C, 0x00, 0x00, 0x00, 0x00, 0x00, 0x00, 0x00, 0x12, 0x00, 0x00, 0x00,
    0x2E, 0x00, 0x00, 0x00, 0x00, 0x00, 0x00, 0x00, 0x0B, 0x00, 0x00, 0x00,
    0x78, 0x05, 0x00, 0x00, 0x03, 0x00, 0x02, 0x00, 0x10, 0x11, 0x12, 0x20, 0x21, 0x22, 0x30, 0x31, 0x40, 0x41,
    0x70, 0x11, 0x01, 0x00, 0x01, 0x00, 0x01, 0x00, 0x50, 0x60, 0x70,
};
static const uint8_t *const worked_records = worked_file + (FILE_BYTES - RECORDS_BYTES);
static const uint8_t *const second_record = worked_file + (FILE_BYTES - SECOND_BYTES);

/* Bytes of this length on their own, so that a sanitizer finds an access past them. */
static uint8_t *own_bytes(size_t length)
{
    uint8_t *bytes = malloc(length > 0 ? length : 1);

    if (bytes == NULL) {
        fputs("test: no memory\n", stderr);
        exit(EXIT_FAILURE);
    }
    return bytes;
}

/* RULES 10.5: the most numbers lent to a reading here, and what each is before it. */
enum { MOST_LENT = 44, LENT = 9 };

static uint64_t lent[MOST_LENT];

/* RULES 10.5, 11.4: a reading of a copy of these bytes. */
static struct reference_answer call_reading(const uint8_t *bytes, size_t length, uint64_t first, uint64_t given, uint64_t *records,
                                            uint64_t *entries)
{
    uint8_t *own = own_bytes(length);
    struct reference_bytes file;
    struct reference_answer result;
    size_t place;

    for (place = 0; place < MOST_LENT; place++) {
        lent[place] = LENT;
    }
    memcpy(own, bytes, length);
    file.bytes = own;
    file.length = length;
    result = reference_shift_records(&file, first, lent, given, records, entries);
    free(own);
    return result;
}

/* RULES 11.3: whether 15 holds of these bytes as a file; then nothing is told and no entry is written (RULES 11.4). */
static void expect_file(const char *rule, long place, const uint8_t *bytes, size_t length, int is_file, uint64_t count)
{
    uint64_t records;
    uint64_t entries;
    size_t number;

    expect_answer(rule, place, is_file ? 0 : 15, 0, 0, call_reading(bytes, length, 0, MOST_LENT, &records, &entries));
    expect(rule, place, is_file ? (long long)count : 0, (long long)records);
    for (number = 0; !is_file && number < MOST_LENT; number++) {
        expect(rule, place, LENT, (long long)lent[number]);
    }
    if (!is_file) {
        expect(rule, place, 0, (long long)entries);
    }
}

/* RULES 11.3: whether 15 holds of these bytes as records. */
static void expect_records(long place, const uint8_t *bytes, size_t length, int are_records, uint64_t count)
{
    uint8_t *own = own_bytes(length);
    struct reference_bytes records;
    uint64_t found = 0;

    memcpy(own, bytes, length);
    records.bytes = own;
    records.length = length;
    expect("11.3", place, are_records, reference_are_records(REFERENCE_WITHOUT_SETTINGS, &records, &found));
    expect("11.3", place, (long long)count, (long long)found);
    free(own);
}

/* RULES 11.1 to 11.3, 11.7: lengths, and which bytes are a file. */
static void test_layout(void)
{
    static const struct {
        unsigned at;
        unsigned bytes;
        uint64_t number;
        int is_file;
    } changes[] = {
        {0, 4, 2, 1},
        {0, 4, 1, 0},
        {0, 4, 3, 0},
        {0, 4, 4097, 0},
        {0, 4, 4294967295u, 0},
        {4, 8, 27, 0},
        {4, 8, UINT64_C(4294967324), 0},
        {16, 8, 45, 0},
        {16, 8, UINT64_MAX, 0},
        {12, 4, 17, 0},
        {32, 2, 0, 0},
        {32, 2, 16385, 0},
        {32, 2, 4, 0},
        {32, 4, 0x00030002, 1}, /* w 2, h 3 */
        {46, 4, 1400, 1},
        {56, 1, 0xFF, 1},
    };
    static const struct {
        uint32_t side[2];
        long long length;
    } sizes[] = {
        {{3, 2}, 18}, {{1, 1}, 11}, {{2, 2}, 14}, {{3, 3}, 25}, {{1920, 1080}, 3110408}, {{16384, 16384}, 402653192},
    };
    static const uint8_t zeros[5] = {0};
    static uint8_t bytes[4097 * SECOND_BYTES];
    size_t place;

    for (place = 0; place < sizeof sizes / sizeof sizes[0]; place++) {
        expect("11.2", (long)place, sizes[place].length, (long long)extent(0, 0, sizes[place].side[0], sizes[place].side[1]).length);
    }
    expect("11.1", 0, 1649267523588, (long long)(table_bytes(0, 4096) + 4096 * extent(0, 0, 16384, 16384).length));
    expect("11.4", 0, 1648864870396, (long long)(table_bytes(0, 4096) + 4095 * extent(0, 0, 16384, 16384).length));
    for (place = 0; place < sizeof changes / sizeof changes[0]; place++) {
        memcpy(bytes, worked_file, FILE_BYTES);
        put_number(bytes + changes[place].at, changes[place].number, changes[place].bytes);
        expect_file("11.3", (long)place, bytes, FILE_BYTES, changes[place].is_file, 2);
    }
    memcpy(bytes, worked_file, FILE_BYTES);
    memcpy(bytes + 4, worked_file + 16, 12);
    memcpy(bytes + 16, worked_file + 4, 12);
    expect_file("11.3 pairs", 0, bytes, FILE_BYTES, 0, 0);
    memcpy(bytes, worked_file, FILE_BYTES);
    bytes[FILE_BYTES] = 0;
    expect_file("11.3 behind", 0, bytes, FILE_BYTES + 1, 0, 0);
    for (place = 0; place <= sizeof zeros; place++) {
        expect_file("11.3 zeros", (long)place, zeros, place, place == 4, 0);
    }
    memset(bytes, 0xFF, 4);
    memset(bytes + 4, 0, 4);
    expect_file("11.7", 4, bytes, 4, 0, 0);
    expect_file("11.7", 8, bytes, 8, 0, 0);
    memcpy(bytes + 4, worked_file, FILE_BYTES);
    expect_file("11.7", 61, bytes, 4 + FILE_BYTES, 0, 0);

    expect_records(0, worked_records, 0, 1, 0);
    expect_records(1, worked_records, RECORDS_BYTES, 1, 2);
    expect_records(2, worked_records, RECORDS_BYTES - 1, 0, 0);
    memcpy(bytes, worked_records, RECORDS_BYTES);
    memcpy(bytes + RECORDS_BYTES, second_record, 7);
    expect_records(3, bytes, RECORDS_BYTES + 7, 0, 0);
    expect_records(4, worked_file, FILE_BYTES, 0, 0);
    for (place = 0; place < 4097; place++) {
        memcpy(bytes + place * SECOND_BYTES, second_record, SECOND_BYTES);
    }
    expect_records(5, bytes, 4096 * SECOND_BYTES, 1, 4096);
    expect_records(6, bytes, 4097 * SECOND_BYTES, 0, 0);
}

/* RULES 10.5, 11.4: readings of the file of the examples. */
static void test_reading(void)
{
    static const uint64_t wanted_entries[2 * REFERENCE_ENTRY_NUMBERS] = {
        1400, 3, 2, 28, 18, 36, 6, 42, 2, 44, 2, 70000, 1, 1, 46, 11, 54, 1, 55, 1, 56, 1,
    };
    static const struct {
        size_t length;
        uint64_t first;
        uint64_t given;
        uint32_t number;
        uint64_t records;
        uint64_t entries;
    } wanted[] = {
        {FILE_BYTES, 0, 22, 0, 2, 2},
        {FILE_BYTES, 0, 21, 0, 2, 1},
        {FILE_BYTES, 1, 40, 0, 2, 1},
        {FILE_BYTES, 2, 22, 0, 2, 0},
        {FILE_BYTES, UINT64_MAX, 22, 0, 2, 0},
        {FILE_BYTES - 1, 0, 22, 15, 0, 0},
        {FILE_BYTES, 0, 11, 0, 2, 1},
        {FILE_BYTES, 1, 11, 0, 2, 1},
        {FILE_BYTES, 0, 10, 0, 2, 0},
        {FILE_BYTES, 0, 0, 0, 2, 0},
        {FILE_BYTES, 0, MOST_LENT, 0, 2, 2},
        {FILE_BYTES, UINT64_C(4294967296), MOST_LENT, 0, 2, 0},
        {FILE_BYTES - 1, UINT64_MAX, MOST_LENT, 15, 0, 0},
    };
    size_t place;
    size_t number;

    for (place = 0; place < sizeof wanted / sizeof wanted[0]; place++) {
        size_t written = (size_t)wanted[place].entries * REFERENCE_ENTRY_NUMBERS;
        uint64_t records = 77;
        uint64_t entries = 77;

        expect_answer("11.4", (long)place, wanted[place].number, 0, 0,
                      call_reading(worked_file, wanted[place].length, wanted[place].first, wanted[place].given, &records,
                                   &entries));
        expect("11.4 records", (long)place, (long long)wanted[place].records, (long long)records);
        expect("11.4 entries", (long)place, (long long)wanted[place].entries, (long long)entries);
        for (number = 0; number < MOST_LENT; number++) {
            uint64_t entry = number < written ? wanted_entries[number + (size_t)wanted[place].first * REFERENCE_ENTRY_NUMBERS]
                                              : LENT;

            expect("11.4 number", (long)place, (long long)entry, (long long)lent[number]);
        }
    }
}

/* RULES 11.1, 11.4: a file of this many records, all of them the second of the examples, and an entry of its last one. */
static void test_many(uint64_t count)
{
    static uint8_t bytes[4 + 4097 * (12 + SECOND_BYTES)];
    uint64_t offset = 4 + 12 * count;
    uint64_t records;
    uint64_t entries;
    uint64_t record;

    put_number(bytes, count, 4);
    for (record = 0; record < count; record++) {
        put_number(bytes + 4 + 12 * record, offset, 8);
        put_number(bytes + 12 + 12 * record, SECOND_BYTES, 4);
        memcpy(bytes + offset, second_record, SECOND_BYTES);
        offset += SECOND_BYTES;
    }
    expect_file("11.1", (long)count, bytes, (size_t)offset, count <= 4096, count);
    if (count <= 4096) {
        expect_answer("11.4", (long)count, 0, 0, 0,
                      call_reading(bytes, (size_t)offset, count - 1, MOST_LENT, &records, &entries));
        expect("11.4 entries", (long)count, 1, (long long)entries);
        expect("11.4 offset", (long)count, (long long)(offset - SECOND_BYTES), (long long)lent[3]);
        expect("11.4 V", (long)count, (long long)(offset - 1), (long long)lent[9]);
    }
}

/* RULES 11.5: a writing; all bytes of the output EE before it. The output stays for the caller to free. */
static struct reference_answer call_writing(const uint8_t *bytes, size_t length, struct reference_buffer *output,
                                            size_t output_length, uint64_t *size)
{
    uint8_t *own = own_bytes(length);
    struct reference_bytes records;
    struct reference_answer result;

    memcpy(own, bytes, length);
    records.bytes = own;
    records.length = length;
    output->bytes = own_bytes(output_length);
    output->length = output_length;
    memset(output->bytes, 0xEE, output_length);
    result = reference_shift_write(REFERENCE_WITHOUT_SETTINGS, &records, output, size);
    free(own);
    return result;
}

/*
 * RULES 11.3, 11.5: the file of the examples cut at each byte, and with each of its bits changed. Crossing numbers and bytes of
 * planes are free; no other bit is, and no bit of w or h leaves its record as long. Bytes are a file exactly where they are
 * written of what follows the pairs.
 */
static void test_every_bit(void)
{
    uint8_t bytes[FILE_BYTES];
    size_t place;
    unsigned bit;

    for (place = 0; place < FILE_BYTES; place++) {
        expect_file("11.3 cut", (long)place, worked_file, place, 0, 0);
    }
    for (place = 0; place < FILE_BYTES; place++) {
        int is_free = (place >= 28 && place < 32) || (place >= 36 && place < 50) || place >= 54;

        for (bit = 0; bit < 8; bit++) {
            struct reference_buffer output;
            struct reference_answer written;
            uint64_t size;

            memcpy(bytes, worked_file, FILE_BYTES);
            bytes[place] = (uint8_t)(bytes[place] ^ 1u << bit);
            expect_file("11.3 bit", (long)(8 * place + bit), bytes, FILE_BYTES, is_free, 2);
            written = call_writing(bytes + (FILE_BYTES - RECORDS_BYTES), RECORDS_BYTES, &output, FILE_BYTES, &size);
            expect("11.5 bit", (long)(8 * place + bit), is_free,
                   written.number == 0 && size == FILE_BYTES && memcmp(output.bytes, bytes, FILE_BYTES) == 0);
            free(output.bytes);
        }
    }
}

/* RULES 10.5, 11.5: writings, accepted and refused. */
static void test_writing(void)
{
    static const uint8_t one[27] = {
        0x01, 0x00, 0x00, 0x00, 0x10, 0x00, 0x00, 0x00, 0x00, 0x00, 0x00, 0x00, 0x0B, 0x00,
        0x00, 0x00, 0x70, 0x11, 0x01, 0x00, 0x01, 0x00, 0x01, 0x00, 0x50, 0x60, 0x70,
    };
    static const uint8_t none[4] = {0};
    const struct {
        const uint8_t *records;
        size_t length;
        size_t output_length;
        uint32_t number;
        uint64_t size;
        const uint8_t *file;
    } wanted[] = {
        {second_record, SECOND_BYTES, 30, 0, 27, one},
        {second_record, SECOND_BYTES, 27, 0, 27, one},
        {second_record, SECOND_BYTES, 26, 16, 27, NULL},
        {second_record, 0, 5, 0, 4, none},
        {second_record, 0, 4, 0, 4, none},
        {second_record, 0, 3, 16, 4, NULL},
        {second_record, 0, 0, 16, 4, NULL},
        {second_record, SECOND_BYTES - 1, 0, 15, 0, NULL},
        {second_record, SECOND_BYTES - 1, 60, 15, 0, NULL},
        {worked_records, RECORDS_BYTES, 57, 0, 57, worked_file},
        {worked_records, RECORDS_BYTES, 56, 16, 57, NULL},
        {worked_records, RECORDS_BYTES, 28, 16, 57, NULL},
        {worked_file, FILE_BYTES, 200, 15, 0, NULL},
    };
    size_t place;
    size_t byte;

    for (place = 0; place < sizeof wanted / sizeof wanted[0]; place++) {
        size_t written = wanted[place].number == 0 ? (size_t)wanted[place].size : 0;
        struct reference_buffer output;
        uint64_t size = 77;

        expect_answer("11.5", (long)place, wanted[place].number, 0, 0,
                      call_writing(wanted[place].records, wanted[place].length, &output, wanted[place].output_length, &size));
        expect("11.5 size", (long)place, (long long)wanted[place].size, (long long)size);
        for (byte = 0; byte < wanted[place].output_length; byte++) {
            expect("11.5 output", (long)place, byte < written ? wanted[place].file[byte] : 0xEE, output.bytes[byte]);
        }
        free(output.bytes);
    }
}

/* RULES 11.6: planes of these lengths and strides, each a buffer of its own. */
static void make_planes(struct reference_plane *planes, uint8_t **bytes, const uint32_t *strides, const uint64_t *lengths)
{
    unsigned plane;

    for (plane = 0; plane < REFERENCE_PLANES; plane++) {
        bytes[plane] = own_bytes((size_t)lengths[plane]);
        memset(bytes[plane], 0x99, (size_t)lengths[plane]);
        planes[plane].bytes = bytes[plane];
        planes[plane].length = lengths[plane];
        planes[plane].stride = strides[plane];
    }
}

/* RULES 11.6: compares one call, whose planes are filled, with its answer, its size and the output, EE before it. */
static void expect_record(long place, const uint32_t *size, const struct reference_plane *planes, size_t output_length,
                          uint32_t number, uint64_t expected, uint64_t received, uint64_t told, const uint8_t *record)
{
    struct reference_buffer output;
    uint64_t got = 77;
    size_t byte;

    output.bytes = own_bytes(output_length);
    output.length = output_length;
    memset(output.bytes, 0xEE, output_length);
    expect_answer("11.6", place, number, expected, received, reference_shift_record(1400, size[0], size[1], NULL, planes, &output, &got));
    expect("11.6 size", place, (long long)told, (long long)got);
    for (byte = 0; byte < output_length; byte++) {
        expect("11.6 output", place, number == 0 && byte < told ? record[byte] : 0xEE, output.bytes[byte]);
    }
    free(output.bytes);
}

/* RULES 10.5, 11.6: records from planes of 3 × 2, and refusals. */
static void test_record(void)
{
    static const uint8_t filled[REFERENCE_PLANES][8] = {
        {0x10, 0x11, 0x12, 0x99, 0x20, 0x21, 0x22, 0x99}, {0x30, 0x31, 0x99}, {0x40, 0x41},
    };
    static const struct {
        uint32_t size[2];
        uint32_t strides[3];
        uint64_t lengths[3];
        size_t output_length;
        uint32_t number;
        uint64_t expected;
        uint64_t received;
        uint64_t told;
    } wanted[] = {
        {{3, 2}, {4, 3, 2}, {8, 3, 2}, 20, 0, 0, 0, 18},
        {{3, 2}, {4, 3, 2}, {8, 3, 2}, 18, 0, 0, 0, 18},
        {{3, 2}, {4, 3, 2}, {8, 3, 2}, 17, 16, 0, 0, 18},
        {{3, 2}, {2, 3, 2}, {8, 3, 2}, 17, 8, 6, 4, 0},
        {{3, 2}, {2, 3, 2}, {8, 3, 2}, 0, 8, 6, 4, 0},
        {{3, 2}, {4, 3, 2}, {6, 3, 2}, 18, 9, 7, 6, 0},
        {{3, 2}, {4, 1, 2}, {8, 3, 2}, 18, 10, 2, 1, 0},
        {{3, 2}, {4, 3, 2}, {8, 1, 2}, 18, 10, 2, 1, 0},
        {{3, 2}, {4, 3, 1}, {8, 3, 2}, 18, 11, 2, 1, 0},
        {{3, 2}, {4, 3, 2}, {8, 3, 1}, 18, 11, 2, 1, 0},
        {{3, 2}, {4, 3, 2}, {7, 3, 2}, 18, 12, 8, 7, 0},
        {{3, 2}, {4, 3, 2}, {8, 2, 3}, 18, 12, 3, 2, 0},
        {{3, 2}, {4, 3, 2}, {8, 3, 3}, 18, 12, 2, 3, 0},
        {{0, 0}, {0, 0, 0}, {0, 0, 0}, 0, 15, 0, 0, 0},
        {{0, 2}, {0, 0, 0}, {0, 0, 0}, 0, 15, 0, 0, 0},
        {{3, 0}, {4, 3, 2}, {8, 3, 2}, 18, 15, 0, 0, 0},
        {{16385, 2}, {16385, 8193, 8193}, {32770, 8193, 8193}, 60, 15, 0, 0, 0},
        {{3, 4294967295u}, {4, 3, 2}, {8, 3, 2}, 60, 15, 0, 0, 0},
        {{65539, 2}, {4, 3, 2}, {8, 3, 2}, 60, 15, 0, 0, 0},
        {{3, 16384}, {4294967295u, 3, 2}, {8, 3, 2}, 60, 9, UINT64_C(70364449193988), 8, 0},
    };
    size_t place;
    unsigned plane;

    for (place = 0; place < sizeof wanted / sizeof wanted[0]; place++) {
        struct reference_plane planes[REFERENCE_PLANES];
        uint8_t *bytes[REFERENCE_PLANES];

        make_planes(planes, bytes, wanted[place].strides, wanted[place].lengths);
        for (plane = 0; plane < REFERENCE_PLANES; plane++) {
            size_t length = (size_t)wanted[place].lengths[plane];

            memcpy(bytes[plane], filled[plane], length < 8 ? length : 8);
        }
        expect_record((long)place, wanted[place].size, planes, wanted[place].output_length, wanted[place].number,
                      wanted[place].expected, wanted[place].received, wanted[place].told, worked_records);
        for (plane = 0; plane < REFERENCE_PLANES; plane++) {
            free(bytes[plane]);
        }
    }
}

/* RULES 7.1, 11.6: every combination of its conditions, of which the first in order is answered; 5 × 3, so 3 × 2 of chroma. */
static void test_record_order(void)
{
    enum { CONDITIONS = 7 };
    static const uint32_t numbers[CONDITIONS] = {15, 8, 9, 10, 11, 12, 16};
    static const uint64_t expected[CONDITIONS] = {0, 15, 17, 6, 7, 8, 0};
    static const uint64_t received[CONDITIONS] = {0, 12, 16, 4, 0, 9, 0};
    unsigned faults;
    unsigned plane;

    for (faults = 1; faults < 1u << CONDITIONS; faults++) {
        uint32_t size[2] = {5, 3};
        uint32_t strides[3] = {6, 4, 4};
        uint64_t lengths[3] = {18, 8, 8};
        size_t output_length = (faults & 64u) != 0 ? 34 : 35;
        struct reference_plane planes[REFERENCE_PLANES];
        uint8_t *bytes[REFERENCE_PLANES];
        unsigned first = 0;

        size[0] = (faults & 1u) != 0 ? 0 : 5;
        strides[0] = (faults & 2u) != 0 ? 4 : 6;
        lengths[0] = (faults & 4u) != 0 ? 16 : 18;
        strides[1] = (faults & 8u) != 0 ? 2 : 4;
        lengths[2] = (faults & 32u) != 0 ? 9 : 8;
        lengths[2] = (faults & 16u) != 0 ? 0 : lengths[2];
        while ((faults >> first & 1u) == 0) {
            first++;
        }
        make_planes(planes, bytes, strides, lengths);
        expect_record((long)faults, size, planes, output_length, numbers[first], expected[first], received[first],
                      numbers[first] == 16 ? 35 : 0, NULL);
        for (plane = 0; plane < REFERENCE_PLANES; plane++) {
            free(bytes[plane]);
        }
    }
}

/*
 * RULES 11.2 to 11.6: a list of records of any small size. Each is made from planes with padding; the file that is written of
 * them is read, by entries that fit all at once and one by one; each plane is found where its entry says; what follows the pairs
 * of the file are the records again.
 */
static void test_list(long place)
{
    enum { MOST = 4, MOST_BYTES = MOST * (8 + 81 + 50) };
    static uint8_t list[MOST_BYTES];
    uint32_t crossings[MOST];
    uint32_t sides[MOST][2];
    uint8_t *kept[MOST][REFERENCE_PLANES];
    struct reference_plane planes[MOST][REFERENCE_PLANES];
    struct reference_buffer file;
    uint64_t length = 0;
    uint64_t size;
    uint64_t records;
    uint64_t entries;
    uint64_t numbers[MOST_LENT];
    uint32_t count = below(MOST + 1);
    uint32_t record;
    unsigned plane;
    size_t byte;

    for (record = 0; record < count; record++) {
        uint32_t strides[REFERENCE_PLANES];
        uint64_t lengths[REFERENCE_PLANES];
        struct reference_buffer output;

        crossings[record] = below(65536) << 16 | below(65536);
        sides[record][0] = 1 + below(9);
        sides[record][1] = 1 + below(9);
        for (plane = 0; plane < REFERENCE_PLANES; plane++) {
            uint32_t half = plane == 0 ? 1 : 2;

            strides[plane] = (sides[record][0] + half - 1) / half + below(3);
            lengths[plane] = strides[plane] * (uint64_t)((sides[record][1] + half - 1) / half);
        }
        make_planes(planes[record], kept[record], strides, lengths);
        for (plane = 0; plane < REFERENCE_PLANES; plane++) {
            for (byte = 0; byte < lengths[plane]; byte++) {
                kept[record][plane][byte] = (uint8_t)below(256);
            }
        }
        output.bytes = list + (size_t)length;
        output.length = MOST_BYTES - length;
        expect_answer("11.6 list", place, 0, 0, 0,
                      reference_shift_record(crossings[record], sides[record][0], sides[record][1], NULL, planes[record], &output,
                                             &size));
        length += size;
    }
    expect_answer("11.5 list", place, 0, 0, 0,
                  call_writing(list, (size_t)length, &file, 4 + 12 * (size_t)count + (size_t)length, &size));
    expect("11.5 list", place, (long long)file.length, (long long)size);
    expect_bytes("11.5 list", list, file.bytes + 4 + 12 * count, (size_t)length);
    expect_answer("11.4 list", place, 0, 0, 0, call_reading(file.bytes, (size_t)size, 0, MOST_LENT, &records, &entries));
    expect("11.4 list", place, count, (long long)records);
    expect("11.4 list", place, count, (long long)entries);
    memcpy(numbers, lent, sizeof numbers);
    length = 4 + 12 * (uint64_t)count;
    for (record = 0; record < count; record++) {
        const uint64_t *entry = numbers + record * REFERENCE_ENTRY_NUMBERS;

        expect("11.4 crossing", place, crossings[record], (long long)entry[0]);
        expect("11.4 w", place, sides[record][0], (long long)entry[1]);
        expect("11.4 h", place, sides[record][1], (long long)entry[2]);
        expect("11.4 offset", place, (long long)length, (long long)entry[3]);
        expect("11.4 length", place, (long long)(8 + entry[6] + entry[8] + entry[10]), (long long)entry[4]);
        length += entry[4];
        for (plane = 0; plane < REFERENCE_PLANES; plane++) {
            uint32_t half = plane == 0 ? 1 : 2;
            uint32_t columns = (sides[record][0] + half - 1) / half;
            uint32_t rows = (sides[record][1] + half - 1) / half;

            expect("11.4 plane", place, (long long)columns * rows, (long long)entry[6 + 2 * plane]);
            for (byte = 0; byte < columns * (size_t)rows; byte++) {
                expect("11.6 plane", place, kept[record][plane][byte / columns * planes[record][plane].stride + byte % columns],
                       file.bytes[(size_t)entry[5 + 2 * plane] + byte]);
            }
        }
        expect_answer("11.4 one", place, 0, 0, 0,
                      call_reading(file.bytes, (size_t)size, record, REFERENCE_ENTRY_NUMBERS, &records, &entries));
        expect("11.4 one", place, 1, (long long)entries);
        for (byte = 0; byte < REFERENCE_ENTRY_NUMBERS; byte++) {
            expect("11.4 one", place, (long long)entry[byte], (long long)lent[byte]);
        }
        for (plane = 0; plane < REFERENCE_PLANES; plane++) {
            free(kept[record][plane]);
        }
    }
    expect("11.1 end", place, (long long)size, (long long)length);
    free(file.bytes);
}

/* RULES 2.4, 11.6: a frame's planes with padding make the record of its planes without. */
static void test_frame_record(void)
{
    static const uint32_t padded[3] = {6, 4, 5};
    static const uint32_t bare[3] = {5, 3, 3};
    static const uint64_t padded_lengths[4] = {45, 18, 8, 10};
    static const uint64_t bare_lengths[4] = {45, 15, 6, 6};
    struct reference_description frame;
    struct reference_plane planes[REFERENCE_PLANES];
    struct reference_buffer output;
    uint8_t record[35];
    uint64_t size;
    size_t byte;
    unsigned plane;

    for (byte = 0; byte < 45; byte++) {
        source_bytes[byte] = (uint8_t)below(256);
    }
    frame = describe(5, 3, REFERENCE_RGB, REFERENCE_420, REFERENCE_LIMITED, REFERENCE_BT601, REFERENCE_SRGB, padded);
    expect_answer("11.6 frame", 0, 0, 0, 0, call_frame(&frame, 15, padded_lengths));
    for (plane = 0; plane < REFERENCE_PLANES; plane++) {
        planes[plane].bytes = plane_bytes[plane];
        planes[plane].length = padded_lengths[plane + 1];
        planes[plane].stride = padded[plane];
    }
    output.bytes = record;
    output.length = sizeof record;
    expect_answer("11.6 frame", 1, 0, 0, 0, reference_shift_record(4294967295u, 5, 3, NULL, planes, &output, &size));
    expect("11.6 frame", 2, sizeof record, (long long)size);
    expect("11.6 frame", 3, 4294967295, (long long)number_at(record, 4));
    frame = describe(5, 3, REFERENCE_RGB, REFERENCE_420, REFERENCE_LIMITED, REFERENCE_BT601, REFERENCE_SRGB, bare);
    expect_answer("11.6 frame", 4, 0, 0, 0, call_frame(&frame, 15, bare_lengths));
    expect_bytes("11.6 frame", plane_bytes[0], record + 8, 15);
    expect_bytes("11.6 frame", plane_bytes[1], record + 23, 6);
    expect_bytes("11.6 frame", plane_bytes[2], record + 29, 6);
}

/* RULES 11: lists of records by chance. */
static void test_lists(void)
{
    enum { LISTS = 300 };
    long list;

    for (list = 0; list < LISTS; list++) {
        test_list(list);
    }
}

/* RULES 12.1: the file of the examples, its records and their entries. */
enum { THREE_BYTES = 81, THREE_TABLE = 40, THIRD_BYTES = 12, ENTRY_BYTES = 13, THREE_SUMMARY = 3 * ENTRY_BYTES, MOST_FULL = 4096 };

static const uint8_t three_file[THREE_BYTES] = {
    0x03, 0x00, 0x00, 0x00,
    0x28, 0x00, 0x00, 0x00, 0x00, 0x00, 0x00, 0x00, 0x0B, 0x00, 0x00, 0x00,
    0x33, 0x00, 0x00, 0x00, 0x00, 0x00, 0x00, 0x00, 0x12, 0x00, 0x00, 0x00,
    0x45, 0x00, 0x00, 0x00, 0x00, 0x00, 0x00, 0x00, 0x0C, 0x00, 0x00, 0x00,
    0x70, 0x11, 0x01, 0x00, 0x01, 0x00, 0x01, 0x00, 0x50, 0x60, 0x70,
    0x78, 0x05, 0x00, 0x00, 0x03, 0x00, 0x02, 0x00, 0x10, 0x11, 0x12, 0x20, 0x21, 0x22, 0x30, 0x31, 0x40, 0x41,
    0x70, 0x11, 0x01, 0x00, 0x02, 0x00, 0x01, 0x00, 0x80, 0x83, 0x60, 0x70,
};
static const uint8_t *const three_records = three_file + THREE_TABLE;
static const uint8_t *const third_record = three_file + (THREE_BYTES - THIRD_BYTES);
static const uint8_t three_entries[3][ENTRY_BYTES] = {
    {0x70, 0x11, 0x01, 0x00, 0x28, 0x00, 0x00, 0x00, 0x00, 0x00, 0x00, 0x00, 0x50},
    {0x78, 0x05, 0x00, 0x00, 0x33, 0x00, 0x00, 0x00, 0x00, 0x00, 0x00, 0x00, 0x19},
    {0x70, 0x11, 0x01, 0x00, 0x45, 0x00, 0x00, 0x00, 0x00, 0x00, 0x00, 0x00, 0x81},
};

/* RULES 12.4: its summary. RULES 12.4, 12.7: those of its first two records, and of them and one more of crossing 5. */
static const uint8_t three_summary[THREE_SUMMARY] = {
    0x78, 0x05, 0x00, 0x00, 0x33, 0x00, 0x00, 0x00, 0x00, 0x00, 0x00, 0x00, 0x19,
    0x70, 0x11, 0x01, 0x00, 0x28, 0x00, 0x00, 0x00, 0x00, 0x00, 0x00, 0x00, 0x50,
    0x70, 0x11, 0x01, 0x00, 0x45, 0x00, 0x00, 0x00, 0x00, 0x00, 0x00, 0x00, 0x81,
};
static const uint8_t two_summary[2 * ENTRY_BYTES] = {
    0x78, 0x05, 0x00, 0x00, 0x27, 0x00, 0x00, 0x00, 0x00, 0x00, 0x00, 0x00, 0x19,
    0x70, 0x11, 0x01, 0x00, 0x1C, 0x00, 0x00, 0x00, 0x00, 0x00, 0x00, 0x00, 0x50,
};
static const uint8_t grown_summary[THREE_SUMMARY] = {
    0x05, 0x00, 0x00, 0x00, 0x45, 0x00, 0x00, 0x00, 0x00, 0x00, 0x00, 0x00, 0x19,
    0x78, 0x05, 0x00, 0x00, 0x33, 0x00, 0x00, 0x00, 0x00, 0x00, 0x00, 0x00, 0x19,
    0x70, 0x11, 0x01, 0x00, 0x28, 0x00, 0x00, 0x00, 0x00, 0x00, 0x00, 0x00, 0x50,
};

/* A copy of these bytes in a buffer of its own, with bytes EE behind them as far as its length, which the caller frees. */
static struct reference_buffer own_buffer(const uint8_t *bytes, size_t length, size_t buffer_length)
{
    struct reference_buffer buffer;

    buffer.bytes = own_bytes(buffer_length);
    buffer.length = buffer_length;
    memset(buffer.bytes, 0xEE, buffer_length);
    if (length > 0) {
        memcpy(buffer.bytes, bytes, length < buffer_length ? length : buffer_length);
    }
    return buffer;
}

/* A buffer that is only read. */
static struct reference_bytes only_read(const struct reference_buffer *buffer)
{
    struct reference_bytes bytes;

    bytes.bytes = buffer->bytes;
    bytes.length = buffer->length;
    return bytes;
}

/* RULES 11.5: the file of these records, which the caller frees. */
static struct reference_buffer file_of(const uint8_t *records, size_t length, size_t count)
{
    struct reference_buffer file;
    uint64_t size;

    expect_answer("11.5 file", (long)count, 0, 0, 0, call_writing(records, length, &file, 4 + 12 * count + length, &size));
    expect("11.5 file", (long)count, (long long)file.length, (long long)size);
    return file;
}

/* RULES 12.2: the mean again, as the largest number that the luma bytes hold so often. */
static uint8_t mean_of(const uint8_t *luma, uint64_t bytes)
{
    uint64_t sum = 0;
    uint64_t byte;
    uint64_t mean = 0;

    for (byte = 0; byte < bytes; byte++) {
        sum += luma[byte];
    }
    while ((mean + 1) * bytes <= sum) {
        mean++;
    }
    return (uint8_t)mean;
}

/* RULES 12.3: what a record's entry is sorted by, crossing number before offset, and its mean. */
struct listed {
    uint64_t key[2];
    uint64_t mean;
};

static int compare_listed(const void *a, const void *b)
{
    const uint64_t *left = ((const struct listed *)a)->key;
    const uint64_t *right = ((const struct listed *)b)->key;
    int number = left[0] == right[0];

    return left[number] < right[number] ? -1 : left[number] > right[number];
}

/* RULES 12.3: the summary of a file again, from the entries of a reading (RULES 11.4), which are sorted. Gives its length. */
static uint8_t wanted_summary[(MOST_FULL + 1) * ENTRY_BYTES];

static size_t make_wanted(const struct reference_buffer *buffer)
{
    static uint64_t numbers[MOST_FULL * REFERENCE_ENTRY_NUMBERS];
    static struct listed list[MOST_FULL];
    struct reference_bytes file = only_read(buffer);
    uint8_t *next = wanted_summary;
    uint64_t records;
    uint64_t entries;
    size_t record;

    expect_answer("12.3 file", 0, 0, 0, 0,
                  reference_shift_records(&file, 0, numbers, MOST_FULL * REFERENCE_ENTRY_NUMBERS, &records, &entries));
    for (record = 0; record < entries; record++) {
        const uint64_t *entry = numbers + record * REFERENCE_ENTRY_NUMBERS;

        list[record].key[0] = entry[0];
        list[record].key[1] = entry[3];
        list[record].mean = mean_of(file.bytes + entry[5], entry[6]);
    }
    qsort(list, (size_t)entries, sizeof list[0], compare_listed);
    for (record = 0; record < entries; record++) {
        next = put_number(next, list[record].key[0], 4);
        next = put_number(next, list[record].key[1], 8);
        next = put_number(next, list[record].mean, 1);
    }
    return (size_t)(next - wanted_summary);
}

/* RULES 12.4: a building into a buffer of this length, all EE before; what it leaves is the summary, and EE behind it. */
static void expect_building(const char *rule, long place, const struct reference_buffer *file, size_t length, uint32_t number,
                            const uint8_t *wanted, size_t wanted_length)
{
    struct reference_buffer summary = own_buffer(wanted, 0, length);
    struct reference_buffer left = own_buffer(wanted, number == 0 ? wanted_length : 0, length);
    struct reference_bytes bytes = only_read(file);

    expect_answer(rule, place, number, 0, 0, reference_summary_build(&bytes, &summary));
    expect_bytes(rule, left.bytes, summary.bytes, length);
    free(summary.bytes);
    free(left.bytes);
}

/* RULES 12.5: a check of a buffer. */
static void expect_check(const char *rule, long place, const struct reference_buffer *file, const struct reference_buffer *buffer,
                         uint32_t number, long long yes)
{
    struct reference_bytes bytes = only_read(file);
    struct reference_bytes summary = only_read(buffer);
    uint64_t told = 77;

    expect_answer(rule, place, number, 0, 0, reference_summary_check(&bytes, &summary, &told));
    expect(rule, place, yes, (long long)told);
}

/* RULES 12.6: a lookup; no record is -1. */
static void expect_lookup(const char *rule, long place, const struct reference_buffer *file, const struct reference_buffer *buffer,
                          uint32_t crossing, uint32_t number, long long record)
{
    struct reference_bytes bytes = only_read(file);
    struct reference_bytes summary = only_read(buffer);
    uint64_t found = 77;
    uint64_t told = 77;

    expect_answer(rule, place, number, 0, 0, reference_summary_find(&bytes, &summary, crossing, &found, &told));
    expect(rule, place, record >= 0, (long long)found);
    expect(rule, place, record >= 0 ? record : 0, (long long)told);
}

/* RULES 12.7: an update of a copy of a buffer; what it leaves is this summary and the rest of the buffer, refused the buffer. */
static void expect_update(const char *rule, long place, const struct reference_buffer *file, const uint8_t *record,
                          size_t record_length, const struct reference_buffer *buffer, uint32_t number, const uint8_t *wanted,
                          size_t wanted_length)
{
    struct reference_buffer own = own_buffer(record, record_length, record_length);
    struct reference_buffer summary = own_buffer(buffer->bytes, (size_t)buffer->length, (size_t)buffer->length);
    struct reference_buffer left = own_buffer(buffer->bytes, (size_t)buffer->length, (size_t)buffer->length);
    struct reference_bytes bytes = only_read(file);
    struct reference_bytes given = only_read(&own);

    if (number == 0) {
        memcpy(left.bytes, wanted, wanted_length);
    }
    expect_answer(rule, place, number, 0, 0, reference_summary_update(&bytes, &given, &summary));
    expect_bytes(rule, left.bytes, summary.bytes, (size_t)left.length);
    free(own.bytes);
    free(summary.bytes);
    free(left.bytes);
}

/* RULES 12.2: means, the largest frame's too. */
static void test_means(void)
{
    static const struct {
        uint32_t side[2];
        uint8_t luma[6];
        long long mean;
    } wanted[] = {
        {{1, 1}, {80}, 80}, {{3, 2}, {16, 17, 18, 32, 33, 34}, 25}, {{2, 1}, {128, 131}, 129},
        {{2, 2}, {0, 0, 0, 3}, 0}, {{2, 2}, {255, 255, 255, 254}, 254}, {{1, 1}, {0}, 0}, {{1, 1}, {255}, 255},
        {{1, 3}, {0, 0, 2}, 0}, {{3, 1}, {0, 0, 3}, 1}, {{1, 2}, {254, 255}, 254},
    };
    const uint64_t largest = 16384 * (uint64_t)16384;
    uint8_t *record = own_bytes((size_t)(8 + largest));
    size_t place;

    for (place = 0; place < sizeof wanted / sizeof wanted[0]; place++) {
        put_number(record, 1400, 4);
        put_number(record + 4, wanted[place].side[0], 2);
        put_number(record + 6, wanted[place].side[1], 2);
        memcpy(record + 8, wanted[place].luma, sizeof wanted[place].luma);
        expect("12.2", (long)place, wanted[place].mean, mean_luma(0, record));
    }
    expect("12.2 sum", 0, 68451041280, (long long)(255 * largest));
    memset(record, 255, (size_t)(8 + largest));
    put_number(record + 4, 16384, 2);
    put_number(record + 6, 16384, 2);
    expect("12.2 largest", 0, 255, mean_luma(0, record));
    record[7 + largest] = 254;
    expect("12.2 largest", 1, 254, mean_luma(0, record));
    free(record);
}

/* RULES 12.1: an entry of each record of the examples. */
static void test_entries(void)
{
    static const unsigned offsets[3] = {40, 51, 69};
    uint8_t entry[ENTRY_BYTES];
    unsigned record;

    for (record = 0; record < 3; record++) {
        put_summary_entry(0, entry, three_file + offsets[record], offsets[record]);
        expect_bytes("12.1", three_entries[record], entry, ENTRY_BYTES);
    }
}

/* RULES 12.3, 12.5: which bytes are the summary of the file of the examples. */
static void test_which_summary(void)
{
    static const struct {
        unsigned count;
        unsigned entries[3];
        long long yes;
    } orders[] = {
        {3, {1, 0, 2}, 1}, {3, {1, 2, 0}, 0}, {3, {0, 1, 2}, 0}, {3, {0, 2, 1}, 0}, {3, {2, 0, 1}, 0}, {3, {2, 1, 0}, 0},
        {3, {1, 0, 0}, 0}, {3, {1, 2, 2}, 0}, {3, {1, 1, 2}, 0}, {3, {0, 0, 2}, 0}, {2, {1, 0, 0}, 0}, {0, {0, 0, 0}, 0},
    };
    static const struct {
        unsigned at;
        unsigned change;
    } changes[] = {{38, 0x82 ^ 0x81}, {17, 0x28 ^ 0x1C}, {0, 1}, {11, 1}, {24, 0x80}, {37, 0xFF}};
    struct reference_buffer file = own_buffer(three_file, THREE_BYTES, THREE_BYTES);
    struct reference_buffer none = own_buffer(three_file, 0, 4);
    struct reference_buffer buffer;
    size_t place;
    unsigned entry;

    for (place = 0; place < sizeof orders / sizeof orders[0]; place++) {
        buffer = own_buffer(three_file, 0, orders[place].count * (size_t)ENTRY_BYTES);
        for (entry = 0; entry < orders[place].count; entry++) {
            memcpy(buffer.bytes + entry * ENTRY_BYTES, three_entries[orders[place].entries[entry]], ENTRY_BYTES);
        }
        expect_check("12.3 order", (long)place, &file, &buffer, 0, orders[place].yes);
        free(buffer.bytes);
    }
    for (place = 0; place < sizeof changes / sizeof changes[0]; place++) {
        buffer = own_buffer(three_summary, THREE_SUMMARY, THREE_SUMMARY + 13);
        expect_check("12.3 behind", (long)place, &file, &buffer, 0, 1);
        buffer.bytes[changes[place].at] = (uint8_t)(buffer.bytes[changes[place].at] ^ changes[place].change);
        expect_check("12.3 change", (long)place, &file, &buffer, 0, 0);
        free(buffer.bytes);
    }
    memset(none.bytes, 0, 4);
    buffer = own_buffer(three_file, 0, 0);
    expect_check("12.3 none", 0, &none, &buffer, 0, 1);
    free(buffer.bytes);
    free(none.bytes);
    free(file.bytes);
}

/* RULES 10.6, 12.4: buildings, into buffers of every length. */
static void test_building(void)
{
    struct reference_buffer files[3];
    struct reference_buffer cut = own_buffer(three_file, THREE_BYTES - 1, THREE_BYTES - 1);
    const uint8_t *wanted[3] = {three_summary, two_summary, three_summary};
    const size_t lengths[3] = {0, sizeof two_summary, THREE_SUMMARY};
    unsigned file;
    size_t length;

    files[0] = file_of(three_records, 0, 0);
    files[1] = file_of(three_records, SECOND_BYTES + FIRST_BYTES, 2);
    files[2] = file_of(three_records, THREE_BYTES - THREE_TABLE, 3);
    expect_bytes("12.1 file", three_file, files[2].bytes, THREE_BYTES);
    for (file = 0; file < 3; file++) {
        for (length = 0; length <= lengths[file] + ENTRY_BYTES + 1; length++) {
            expect_building("12.4", (long)length, &files[file], length, length < lengths[file] ? 17 : 0, wanted[file],
                            lengths[file]);
        }
        free(files[file].bytes);
    }
    for (length = 0; length <= THREE_SUMMARY + 1; length++) {
        expect_building("12.4 cut", (long)length, &cut, length, 15, NULL, 0);
    }
    free(cut.bytes);
}

/* RULES 10.6, 12.5: checks. */
static void test_checking(void)
{
    struct reference_buffer file = own_buffer(three_file, THREE_BYTES, THREE_BYTES);
    struct reference_buffer cut = own_buffer(three_file, THREE_BYTES - 1, THREE_BYTES - 1);
    struct reference_buffer none = file_of(three_records, 0, 0);
    struct reference_buffer buffer = own_buffer(three_summary, THREE_SUMMARY, THREE_SUMMARY);
    struct reference_buffer other;

    expect_check("12.5", 0, &file, &buffer, 0, 1);
    expect_check("12.5", 1, &cut, &buffer, 15, 0);
    file.bytes[THREE_BYTES - 1] ^= 0xFF;
    expect_check("12.5", 2, &file, &buffer, 0, 1);
    file.bytes[THREE_BYTES - 1] ^= 0xFF;
    file.bytes[THREE_BYTES - 3] = 0x80;
    expect_check("12.5", 3, &file, &buffer, 0, 0);
    file.bytes[THREE_BYTES - 3] = 0x82;
    expect_check("12.5", 4, &file, &buffer, 0, 1); /* 258, of which half is 129 as before */
    file.bytes[THREE_BYTES - 3] = 0x83;
    buffer.bytes[THREE_SUMMARY - 1] = 0x80;
    expect_check("12.5", 5, &file, &buffer, 0, 0);
    memcpy(buffer.bytes + ENTRY_BYTES, three_entries[2], ENTRY_BYTES);
    memcpy(buffer.bytes + 2 * ENTRY_BYTES, three_entries[0], ENTRY_BYTES);
    expect_check("12.5", 6, &file, &buffer, 0, 0);
    other = own_buffer(three_summary, THREE_SUMMARY, THREE_SUMMARY + 1);
    expect_check("12.5", 7, &file, &other, 0, 1);
    free(other.bytes);
    other = own_buffer(three_summary, THREE_SUMMARY - 1, THREE_SUMMARY - 1);
    expect_check("12.5", 8, &file, &other, 0, 0);
    free(other.bytes);
    other = own_buffer(two_summary, sizeof two_summary, sizeof two_summary);
    expect_check("12.5", 9, &file, &other, 0, 0);
    free(other.bytes);
    other = own_buffer(three_summary, 0, 0);
    expect_check("12.5", 10, &none, &other, 0, 1);
    expect_check("12.5", 11, &cut, &other, 15, 0);
    expect_check("12.5", 12, &file, &other, 0, 0);
    free(other.bytes);
    free(buffer.bytes);
    free(none.bytes);
    free(cut.bytes);
    free(file.bytes);
}

/* RULES 10.6, 12.6: lookups. */
static void test_lookup(void)
{
    static const struct {
        uint32_t crossing;
        long long record;
    } wanted[] = {
        {1400, 1}, {70000, 0}, {0, -1}, {4294967295u, -1}, {7, -1}, {1401, -1}, {4464, -1}, {1399, -1}, {70001, -1},
        {0x78050000u, -1}, /* 1400 with its bytes in the opposite order */
    };
    struct reference_buffer file = own_buffer(three_file, THREE_BYTES, THREE_BYTES);
    struct reference_buffer cut = own_buffer(three_file, THREE_BYTES - 1, THREE_BYTES - 1);
    struct reference_buffer none = file_of(three_records, 0, 0);
    struct reference_buffer buffer = own_buffer(three_summary, THREE_SUMMARY, THREE_SUMMARY + 5);
    struct reference_buffer shorter = own_buffer(three_summary, THREE_SUMMARY - 1, THREE_SUMMARY - 1);
    struct reference_buffer empty = own_buffer(three_summary, 0, 0);
    size_t place;

    for (place = 0; place < sizeof wanted / sizeof wanted[0]; place++) {
        expect_lookup("12.6", (long)place, &file, &buffer, wanted[place].crossing, 0, wanted[place].record);
        expect_lookup("12.6 none", (long)place, &none, &empty, wanted[place].crossing, 0, -1);
        expect_lookup("12.6 short", (long)place, &file, &shorter, wanted[place].crossing, 17, -1);
        expect_lookup("12.6 empty", (long)place, &file, &empty, wanted[place].crossing, 17, -1);
        expect_lookup("12.6 cut", (long)place, &cut, &buffer, wanted[place].crossing, 15, -1);
        expect_lookup("12.6 both", (long)place, &cut, &shorter, wanted[place].crossing, 15, -1);
        expect_lookup("12.6 both", (long)place, &cut, &empty, wanted[place].crossing, 15, -1);
    }
    memcpy(buffer.bytes, three_entries[0], ENTRY_BYTES);
    memcpy(buffer.bytes + ENTRY_BYTES, three_entries[1], ENTRY_BYTES);
    for (place = 0; place < sizeof wanted / sizeof wanted[0]; place++) {
        expect_lookup("12.6 exchanged", (long)place, &file, &buffer, wanted[place].crossing, 17, -1);
    }
    free(empty.bytes);
    free(shorter.bytes);
    free(buffer.bytes);
    free(none.bytes);
    free(cut.bytes);
    free(file.bytes);
}

/* RULES 10.6, 12.7: updates, into buffers of every length. */
static void test_update(void)
{
    uint8_t fifth[FIRST_BYTES];
    struct reference_buffer two = file_of(three_records, SECOND_BYTES + FIRST_BYTES, 2);
    struct reference_buffer three = own_buffer(three_file, THREE_BYTES, THREE_BYTES);
    struct reference_buffer cut = own_buffer(three_file, THREE_BYTES - 1, THREE_BYTES - 1);
    struct reference_buffer grown;
    struct reference_buffer buffer;
    uint8_t four[THREE_BYTES - THREE_TABLE + FIRST_BYTES];
    size_t grown_length;
    size_t length;

    memcpy(fifth, worked_records, FIRST_BYTES);
    put_number(fifth, 5, 4);
    for (length = 0; length <= 60; length++) {
        int fits = length >= THREE_SUMMARY;

        buffer = own_buffer(two_summary, sizeof two_summary, length);
        expect_update("12.7", (long)length, &two, fifth, FIRST_BYTES, &buffer, fits ? 0 : 17, grown_summary, THREE_SUMMARY);
        expect_update("12.7", (long)length, &two, third_record, THIRD_BYTES, &buffer, fits ? 0 : 17, three_summary, THREE_SUMMARY);
        expect_update("12.7 cut", (long)length, &two, fifth, FIRST_BYTES - 1, &buffer, 15, NULL, 0);
        expect_update("12.7 none", (long)length, &two, fifth, 0, &buffer, 15, NULL, 0);
        expect_update("12.7 head", (long)length, &two, fifth, 8, &buffer, 15, NULL, 0);
        expect_update("12.7 two", (long)length, &two, worked_records, RECORDS_BYTES, &buffer, 15, NULL, 0);
        expect_update("12.7 behind", (long)length, &two, worked_records, FIRST_BYTES + 1, &buffer, 15, NULL, 0);
        expect_update("12.7 no file", (long)length, &cut, fifth, FIRST_BYTES, &buffer, 15, NULL, 0);
        expect_update("12.7 a file", (long)length, &two, three_file, THREE_BYTES, &buffer, 15, NULL, 0);
        if (length >= sizeof two_summary) {
            buffer.bytes[sizeof two_summary - 1] ^= 1;
            expect_update("12.7 wrong", (long)length, &two, fifth, FIRST_BYTES, &buffer, 17, NULL, 0);
            expect_update("12.7 wrong", (long)length, &two, fifth, FIRST_BYTES - 1, &buffer, 15, NULL, 0);
        }
        free(buffer.bytes);
    }
    memcpy(four, three_records, THREE_BYTES - THREE_TABLE);
    memcpy(four + (THREE_BYTES - THREE_TABLE), worked_records, FIRST_BYTES);
    grown = file_of(four, sizeof four, 4);
    grown_length = make_wanted(&grown);
    for (length = 50; length < 54; length++) {
        buffer = own_buffer(three_summary, THREE_SUMMARY, length);
        expect_update("10.6", (long)length, &three, worked_records, FIRST_BYTES, &buffer, length < 52 ? 17 : 0, wanted_summary,
                      grown_length);
        memset(buffer.bytes, 0xEE, length);
        expect_update("10.6 EE", (long)length, &three, worked_records, FIRST_BYTES, &buffer, 17, NULL, 0);
        free(buffer.bytes);
    }
    free(grown.bytes);
    free(cut.bytes);
    free(three.bytes);
    free(two.bytes);
}

/*
 * RULES 12.3 to 12.6: the summary of the examples cut at each byte and with each bit changed, which leaves none; their file cut
 * at each byte, which leaves no file, and with each bit changed: of what is still a file, bytes of U and V do not matter, bytes
 * of Y where they change the mean, and crossing numbers always.
 */
static void test_every_summary_bit(void)
{
    struct reference_buffer file = own_buffer(three_file, THREE_BYTES, THREE_BYTES);
    struct reference_buffer buffer = own_buffer(three_summary, THREE_SUMMARY, THREE_SUMMARY);
    struct reference_buffer longer = own_buffer(three_summary, THREE_SUMMARY, THREE_SUMMARY + ENTRY_BYTES);
    struct reference_buffer shorter;
    size_t length;
    size_t place;
    unsigned bit;

    for (place = 0; place < THREE_SUMMARY; place++) {
        shorter = own_buffer(three_summary, place, place);
        expect_check("12.5 cut", (long)place, &file, &shorter, 0, 0);
        expect_lookup("12.6 cut", (long)place, &file, &shorter, 1400, 17, -1);
        expect_update("12.7 cut", (long)place, &file, third_record, THIRD_BYTES, &shorter, 17, NULL, 0);
        free(shorter.bytes);
    }
    for (place = 0; place < THREE_SUMMARY + ENTRY_BYTES; place++) {
        int is_meant = place < THREE_SUMMARY;

        for (bit = 0; bit < 8; bit++) {
            longer.bytes[place] = (uint8_t)(longer.bytes[place] ^ 1u << bit);
            expect_check("12.5 bit", (long)(8 * place + bit), &file, &longer, 0, !is_meant);
            expect_lookup("12.6 bit", (long)(8 * place + bit), &file, &longer, 1400, is_meant ? 17 : 0, is_meant ? -1 : 1);
            if (is_meant) {
                expect_update("12.7 bit", (long)(8 * place + bit), &file, third_record, THIRD_BYTES, &longer, 17, NULL, 0);
            }
            longer.bytes[place] = (uint8_t)(longer.bytes[place] ^ 1u << bit);
        }
    }
    for (place = 0; place < THREE_BYTES; place++) {
        shorter = own_buffer(three_file, place, place);
        expect_building("12.4 file cut", (long)place, &shorter, THREE_SUMMARY, 15, NULL, 0);
        expect_check("12.5 file cut", (long)place, &shorter, &buffer, 15, 0);
        expect_lookup("12.6 file cut", (long)place, &shorter, &buffer, 1400, 15, -1);
        expect_update("12.7 file cut", (long)place, &shorter, third_record, THIRD_BYTES, &longer, 15, NULL, 0);
        free(shorter.bytes);
    }
    for (place = 0; place < THREE_BYTES; place++) {
        int is_crossing = (place >= 40 && place < 44) || (place >= 51 && place < 55) || (place >= 69 && place < 73);
        int is_plane = (place >= 48 && place < 51) || (place >= 59 && place < 69) || place >= 77;

        for (bit = 0; bit < 8; bit++) {
            uint32_t number = is_crossing || is_plane ? 0 : 15;
            long long yes = 0;

            file.bytes[place] = (uint8_t)(file.bytes[place] ^ 1u << bit);
            if (is_plane) {
                yes = mean_of(file.bytes + 48, 1) == 80 && mean_of(file.bytes + 59, 6) == 25 && mean_of(file.bytes + 77, 2) == 129;
            }
            expect_check("12.5 file bit", (long)(8 * place + bit), &file, &buffer, number, yes);
            expect_lookup("12.6 file bit", (long)(8 * place + bit), &file, &buffer, 1400, number != 0 ? 15 : yes ? 0 : 17,
                          yes ? 1 : -1);
            length = number == 0 ? make_wanted(&file) : 0;
            expect_building("12.4 file bit", (long)(8 * place + bit), &file, THREE_SUMMARY, number, wanted_summary, length);
            file.bytes[place] = (uint8_t)(file.bytes[place] ^ 1u << bit);
        }
    }
    free(longer.bytes);
    free(buffer.bytes);
    free(file.bytes);
}

/* RULES 12.3, 12.5: every order of the entries of a summary, of which the one that ascends is the summary. */
static void expect_orders(long place, const struct reference_buffer *file, struct reference_buffer *buffer, size_t fixed,
                          size_t count, const uint8_t *summary)
{
    uint8_t kept[ENTRY_BYTES];
    size_t other;

    if (fixed == count) {
        expect_check("12.3 orders", place, file, buffer, 0, memcmp(buffer->bytes, summary, count * ENTRY_BYTES) == 0);
        return;
    }
    for (other = fixed; other < count; other++) {
        uint8_t *a = buffer->bytes + fixed * ENTRY_BYTES;
        uint8_t *b = buffer->bytes + other * ENTRY_BYTES;

        memcpy(kept, a, ENTRY_BYTES);
        memmove(a, b, ENTRY_BYTES);
        memcpy(b, kept, ENTRY_BYTES);
        expect_orders(place, file, buffer, fixed + 1, count, summary);
        memcpy(kept, a, ENTRY_BYTES);
        memmove(a, b, ENTRY_BYTES);
        memcpy(b, kept, ENTRY_BYTES);
    }
}

/* RULES 11.2: writes a record of any small size, its planes by chance, and gives its length. */
static size_t put_record(uint8_t *record, uint32_t crossing, uint32_t width, uint32_t height)
{
    size_t length = (size_t)extent(0, 0, width, height).length;
    size_t byte;

    put_number(record, crossing, 4);
    put_number(record + 4, width, 2);
    put_number(record + 6, height, 2);
    for (byte = 8; byte < length; byte++) {
        record[byte] = (uint8_t)below(256);
    }
    return length;
}

/*
 * RULES 12.3 to 12.7: the file of these records, whose crossing numbers are given. It is built and checked; each of its crossing
 * numbers, and some more, is looked up; the summary of its records but the last is updated by the last.
 */
static void test_summary_of(long place, const uint8_t *records, const size_t *lengths, const uint32_t *crossings, size_t count)
{
    static const uint32_t more[] = {0, 1, 2, 255, 256, 65536, 0x7FFFFFFFu, 0x80000000u, 0xFFFFFFFEu, 0xFFFFFFFFu};
    size_t length = 0;
    size_t record;
    size_t size;
    size_t sought;
    struct reference_buffer file;
    struct reference_buffer buffer;

    for (record = 0; record < count; record++) {
        length += lengths[record];
    }
    file = file_of(records, length, count);
    size = make_wanted(&file);
    expect("12.3 size", place, (long long)count * ENTRY_BYTES, (long long)size);
    expect_building("12.4 list", place, &file, size, 0, wanted_summary, size);
    expect_building("12.4 list", place, &file, size + 3, 0, wanted_summary, size);
    if (count > 0) {
        expect_building("12.4 list", place, &file, size - 1, 17, NULL, 0);
    }
    buffer = own_buffer(wanted_summary, size, size + below(3));
    expect_check("12.5 list", place, &file, &buffer, 0, 1);
    if (count <= 4) {
        uint8_t summary[4 * ENTRY_BYTES];

        memcpy(summary, wanted_summary, size);
        expect_orders(place, &file, &buffer, 0, count, summary);
    }
    for (sought = 0; sought < count + sizeof more / sizeof more[0]; sought++) {
        uint32_t crossing = sought < count ? crossings[sought] : more[sought - count];
        long long found = -1;

        for (record = count; record > 0; record--) {
            if (crossings[record - 1] == crossing) {
                found = (long long)record - 1;
            }
        }
        expect_lookup("12.6 list", place, &file, &buffer, crossing, 0, found);
    }
    free(buffer.bytes);
    if (count > 0) {
        size_t last = lengths[count - 1];
        struct reference_buffer before = file_of(records, length - last, count - 1);
        uint8_t *summary = own_bytes(size);

        memcpy(summary, wanted_summary, size);
        buffer = own_buffer(wanted_summary, make_wanted(&before), size + below(3));
        expect_update("12.7 list", place, &before, records + (length - last), last, &buffer, 0, summary, size);
        free(buffer.bytes);
        buffer = own_buffer(wanted_summary, make_wanted(&before), size - 1);
        expect_update("12.7 list", place, &before, records + (length - last), last, &buffer, 17, NULL, 0);
        free(buffer.bytes);
        free(summary);
        free(before.bytes);
    }
    free(file.bytes);
}

/* RULES 12: every list of up to four records whose crossing numbers are of four that a wrong order of bytes or a sign would mix. */
static void test_every_list(void)
{
    enum { MOST = 4, SIDES = 3 };
    static const uint32_t crossings[4] = {0x00000001u, 0x00000100u, 0x7FFFFFFFu, 0xFFFFFFFFu};
    uint8_t records[MOST * (8 + 9 + 8)];
    uint32_t chosen[MOST];
    size_t lengths[MOST];
    long lists = 0;
    size_t count;
    unsigned list;

    for (count = 0; count <= MOST; count++) {
        for (list = 0; list < 1u << 2 * count; list++) {
            size_t length = 0;
            size_t record;

            for (record = 0; record < count; record++) {
                chosen[record] = crossings[list >> 2 * record & 3u];
                lengths[record] = put_record(records + length, chosen[record], 1 + below(SIDES), 1 + below(SIDES));
                length += lengths[record];
            }
            test_summary_of(lists, records, lengths, chosen, count);
            lists++;
        }
    }
    expect("12 lists", 0, 341, lists);
}

/* RULES 12: lists of up to 12 records by chance, some with many records of one crossing number. */
static void test_any_lists(void)
{
    enum { LISTS = 300, MOST = 12, SIDES = 9 };
    static uint8_t records[MOST * (8 + SIDES * SIDES + 50)];
    uint32_t crossings[MOST];
    size_t lengths[MOST];
    long list;

    for (list = 0; list < LISTS; list++) {
        size_t count = below(MOST + 1);
        uint32_t kinds = 1 + below(6);
        size_t length = 0;
        size_t record;

        for (record = 0; record < count; record++) {
            crossings[record] = list % 3 == 0 ? below(65536) << 16 | below(65536) : below(kinds);
            lengths[record] = put_record(records + length, crossings[record], 1 + below(SIDES), 1 + below(SIDES));
            length += lengths[record];
        }
        test_summary_of(list, records, lengths, crossings, count);
    }
}

/* RULES 12.7: a file of 4,096 records of 1 × 1, by crossing numbers that descend, are one, ascend in turns or are by chance. */
static void test_full(unsigned kind)
{
    static uint8_t records[(MOST_FULL + 1) * SECOND_BYTES];
    static const size_t last = (MOST_FULL - 1) * SECOND_BYTES;
    static uint8_t summary[MOST_FULL * ENTRY_BYTES];
    struct reference_buffer full;
    struct reference_buffer before;
    struct reference_buffer buffer;
    uint32_t record;

    for (record = 0; record <= MOST_FULL; record++) {
        uint32_t crossings[4];

        crossings[0] = 0xFFFFFFFFu - record;
        crossings[1] = 70000;
        crossings[2] = record % 7;
        crossings[3] = below(65536) << 16 | below(65536);
        put_record(records + record * (size_t)SECOND_BYTES, crossings[kind], 1, 1);
    }
    full = file_of(records, MOST_FULL * (size_t)SECOND_BYTES, MOST_FULL);
    before = file_of(records, last, MOST_FULL - 1);
    expect("12.3 full", kind, sizeof summary, (long long)make_wanted(&full));
    memcpy(summary, wanted_summary, sizeof summary);
    expect_building("12.4 full", kind, &full, sizeof summary, 0, summary, sizeof summary);
    expect_building("12.4 full", kind, &full, sizeof summary - 1, 17, NULL, 0);
    buffer = own_buffer(summary, sizeof summary, sizeof summary + ENTRY_BYTES);
    expect_check("12.5 full", kind, &full, &buffer, 0, 1);
    expect_lookup("12.6 full", kind, &full, &buffer, (uint32_t)number_at(records + last, 4), 0,
                  kind == 1 ? 0 : kind == 2 ? (MOST_FULL - 1) % 7 : MOST_FULL - 1);
    expect_update("12.7 full", kind, &full, records + last, SECOND_BYTES, &buffer, 15, NULL, 0);
    buffer.bytes[sizeof summary - 1] ^= 1;
    expect_check("12.5 full", kind, &full, &buffer, 0, 0);
    expect_update("12.7 full", kind, &full, records + last, SECOND_BYTES, &buffer, 15, NULL, 0);
    free(buffer.bytes);
    buffer = own_buffer(summary, 0, 0);
    expect_update("12.7 full", kind, &full, records + last, SECOND_BYTES, &buffer, 15, NULL, 0);
    free(buffer.bytes);
    buffer = own_buffer(wanted_summary, make_wanted(&before), sizeof summary);
    expect_update("12.7 full", kind, &before, records + last, SECOND_BYTES, &buffer, 0, summary, sizeof summary);
    free(buffer.bytes);
    free(before.bytes);
    free(full.bytes);
}

/* RULES 7.1, 12.7: every combination of what an update is refused for, of which 15 comes before 17. */
static void test_update_order(void)
{
    unsigned faults;

    for (faults = 0; faults < 16; faults++) {
        size_t file_length = (faults & 1u) != 0 ? THREE_BYTES - 1 : THREE_BYTES;
        size_t record_length = (faults & 2u) != 0 ? THIRD_BYTES - 1 : THIRD_BYTES;
        size_t length = (faults & 4u) != 0 ? 51 : 52;
        struct reference_buffer file = own_buffer(three_file, file_length, file_length);
        struct reference_buffer buffer = own_buffer(three_summary, THREE_SUMMARY, length);
        uint8_t grown[4 * ENTRY_BYTES];
        unsigned entry;

        if ((faults & 8u) != 0) {
            buffer.bytes[0] ^= 1;
        }
        memcpy(grown, three_summary, THREE_SUMMARY);
        for (entry = 0; entry < 3; entry++) {
            grown[entry * ENTRY_BYTES + 4] = (uint8_t)(grown[entry * ENTRY_BYTES + 4] + 12);
        }
        memcpy(grown + THREE_SUMMARY, three_entries[2], ENTRY_BYTES);
        grown[THREE_SUMMARY + 4] = THREE_BYTES + 12;
        expect_update("12.7 order", (long)faults, &file, third_record, record_length, &buffer,
                      (faults & 3u) != 0 ? 15 : faults != 0 ? 17 : 0, grown, sizeof grown);
        free(buffer.bytes);
        free(file.bytes);
    }
}

/* RULES 13.1: the records of the two files of the examples. */
enum { OUR_RECORDS = 62, THEIR_RECORDS = 69, PAIRED = 5, PAIRED_TABLE = 64 };

static const uint8_t our_records[OUR_RECORDS] = {
    0x70, 0x11, 0x01, 0x00, 0x01, 0x00, 0x01, 0x00, 0x50, 0x60, 0x70,
    0x78, 0x05, 0x00, 0x00, 0x03, 0x00, 0x02, 0x00, 0x10, 0x11, 0x12, 0x20, 0x21, 0x22, 0x30, 0x31, 0x40, 0x41,
    0x09, 0x00, 0x00, 0x00, 0x01, 0x00, 0x01, 0x00, 0x11, 0x60, 0x70,
    0x70, 0x11, 0x01, 0x00, 0x01, 0x00, 0x01, 0x00, 0x51, 0x60, 0x70,
    0x1E, 0x00, 0x00, 0x00, 0x01, 0x00, 0x01, 0x00, 0x22, 0x60, 0x70,
};
static const uint8_t their_records[THEIR_RECORDS] = {
    0x78, 0x05, 0x00, 0x00, 0x03, 0x00, 0x02, 0x00, 0x10, 0x11, 0x12, 0x20, 0x21, 0x22, 0x30, 0x31, 0x40, 0x42,
    0x08, 0x00, 0x00, 0x00, 0x01, 0x00, 0x01, 0x00, 0x33, 0x60, 0x70,
    0x70, 0x11, 0x01, 0x00, 0x01, 0x00, 0x01, 0x00, 0x51, 0x60, 0x70,
    0x78, 0x05, 0x00, 0x00, 0x03, 0x00, 0x02, 0x00, 0x10, 0x11, 0x12, 0x20, 0x21, 0x22, 0x30, 0x31, 0x40, 0x41,
    0x1E, 0x00, 0x00, 0x00, 0x01, 0x00, 0x01, 0x00, 0x22, 0x60, 0x70,
};

/* RULES 10.7, 13.4: a pairing, each of the numbers 9 before it; a refused one leaves them. */
static void expect_pairing(const char *rule, long place, const struct reference_buffer *ours, const struct reference_buffer *theirs,
                           uint32_t number, long long none, const uint64_t *wanted)
{
    uint64_t *report = (uint64_t *)(void *)own_bytes(REFERENCE_REPORT_NUMBERS * sizeof(uint64_t));
    struct reference_bytes our_bytes = only_read(ours);
    struct reference_bytes their_bytes = only_read(theirs);
    uint64_t told = 77;
    size_t at;

    for (at = 0; at < REFERENCE_REPORT_NUMBERS; at++) {
        report[at] = LENT;
    }
    expect_answer(rule, place, number, 0, 0, reference_shift_pairs(&our_bytes, &their_bytes, report, &told));
    expect(rule, place, none, (long long)told);
    for (at = 0; at < REFERENCE_REPORT_NUMBERS; at++) {
        expect(rule, place, number == 0 ? (long long)wanted[at] : LENT, (long long)report[at]);
    }
    free(report);
}

/* RULES 11.4: the entries of a file by crossing number and then by place, which is key[1]; what they say stays in numbers. */
struct read_file {
    uint64_t numbers[MOST_FULL * REFERENCE_ENTRY_NUMBERS];
    struct listed list[MOST_FULL];
    uint64_t records;
};

static void read_sorted(const struct reference_buffer *buffer, struct read_file *into)
{
    struct reference_bytes file = only_read(buffer);
    uint64_t entries;
    size_t record;

    expect_answer("13.1 file", 0, 0, 0, 0,
                  reference_shift_records(&file, 0, into->numbers, MOST_FULL * REFERENCE_ENTRY_NUMBERS, &into->records, &entries));
    for (record = 0; record < entries; record++) {
        into->list[record].key[0] = into->numbers[record * REFERENCE_ENTRY_NUMBERS];
        into->list[record].key[1] = record;
    }
    qsort(into->list, (size_t)entries, sizeof into->list[0], compare_listed);
}

/* RULES 13.3: the difference of a pair again, from its entries, plane by plane and row by row; whether there is one. */
static int find_difference(const uint8_t *ours, const uint64_t *our_entry, const uint8_t *theirs, const uint64_t *their_entry,
                           uint64_t *numbers)
{
    uint64_t plane;
    uint64_t row;
    uint64_t column;

    if (our_entry[1] != their_entry[1] || our_entry[2] != their_entry[2]) {
        numbers[4] = 1;
        memcpy(numbers + 8, our_entry + 1, 2 * sizeof numbers[0]);
        memcpy(numbers + 10, their_entry + 1, 2 * sizeof numbers[0]);
        return 1;
    }
    for (plane = 0; plane < 3; plane++) {
        uint64_t half = plane == 0 ? 1 : 2;
        uint64_t columns = (our_entry[1] + half - 1) / half;
        uint64_t rows = (our_entry[2] + half - 1) / half;

        for (row = 0; row < rows; row++) {
            for (column = 0; column < columns; column++) {
                if (ours[our_entry[5 + 2 * plane] + row * columns + column] !=
                    theirs[their_entry[5 + 2 * plane] + row * columns + column]) {
                    numbers[4] = 2;
                    numbers[12] = plane;
                    numbers[13] = row;
                    numbers[14] = column;
                    return 1;
                }
            }
        }
    }
    return 0;
}

/*
 * RULES 10.7, 13.1 to 13.3: the report again. Both files are sorted, and the two lists are gone through side by side: of one
 * crossing number record by record, so that those left over are without a pair.
 */
static void make_report(const struct reference_buffer *ours, const struct reference_buffer *theirs, uint64_t *report)
{
    static struct read_file our_file;
    static struct read_file their_file;
    uint64_t a = 0;
    uint64_t b = 0;

    read_sorted(ours, &our_file);
    read_sorted(theirs, &their_file);
    memset(report, 0, REFERENCE_REPORT_NUMBERS * sizeof report[0]);
    while (a < our_file.records || b < their_file.records) {
        const struct listed *left = our_file.list + a;
        const struct listed *right = their_file.list + b;

        if (b == their_file.records || (a < our_file.records && left->key[0] < right->key[0])) {
            report[2]++;
            a++;
        } else if (a == our_file.records || right->key[0] < left->key[0]) {
            report[3]++;
            b++;
        } else {
            uint64_t numbers[REFERENCE_REPORT_NUMBERS] = {0};
            int differs = find_difference(ours->bytes, our_file.numbers + left->key[1] * REFERENCE_ENTRY_NUMBERS, theirs->bytes,
                                          their_file.numbers + right->key[1] * REFERENCE_ENTRY_NUMBERS, numbers);

            if (differs && report[1] == 0) {
                memcpy(report + 4, numbers + 4, 12 * sizeof numbers[0]);
                report[5] = left->key[0];
                report[6] = left->key[1];
                report[7] = right->key[1];
            }
            report[differs]++;
            a++;
            b++;
        }
    }
}

/* RULES 13.2 to 13.4: two files paired, exchanged, and each with itself. */
static void test_pairing_of(long place, const struct reference_buffer *ours, const struct reference_buffer *theirs)
{
    uint64_t report[REFERENCE_REPORT_NUMBERS];
    uint64_t exchanged[REFERENCE_REPORT_NUMBERS];
    uint64_t same[REFERENCE_REPORT_NUMBERS] = {0};

    make_report(ours, theirs, report);
    expect_pairing("13.4 pairs", place, ours, theirs, 0, 0, report);
    make_report(theirs, ours, exchanged);
    expect_pairing("13.4 exchanged", place, theirs, ours, 0, 0, exchanged);
    same[0] = number_at(ours->bytes, 4);
    expect_pairing("13.4 same", place, ours, ours, 0, 0, same);
    expect("13.2 sum", place, (long long)number_at(ours->bytes, 4), (long long)(report[0] + report[1] + report[2]));
    expect("13.2 sum", place, (long long)number_at(theirs->bytes, 4), (long long)(report[0] + report[1] + report[3]));
    expect("13.2 exchanged", place, (long long)report[0], (long long)exchanged[0]);
    expect("13.2 exchanged", place, (long long)report[1], (long long)exchanged[1]);
    expect("13.2 exchanged", place, (long long)report[2], (long long)exchanged[3]);
}

/* RULES 13.1: the pair of each record of ours; -1 is none. Records are of 1 × 1, their crossing numbers given. */
static void expect_pairs(long place, const struct reference_buffer *ours, const struct reference_buffer *theirs,
                         const long long *wanted)
{
    struct reference_bytes our_bytes = only_read(ours);
    struct reference_bytes their_bytes = only_read(theirs);
    uint64_t records = number_at(ours->bytes, 4);
    uint64_t record;

    for (record = 0; record < records; record++) {
        uint64_t found = 0;
        int is_found = is_paired(&our_bytes, record, &their_bytes, number_at(theirs->bytes, 4), &found);

        expect("13.1", place, wanted[record], is_found ? (long long)found : -1);
    }
}

/* RULES 11.2: a file of records of 1 × 1 of these crossing numbers. */
static struct reference_buffer file_of_crossings(const uint32_t *crossings, size_t count)
{
    uint8_t records[4 * SECOND_BYTES];
    size_t record;

    for (record = 0; record < count; record++) {
        put_record(records + record * SECOND_BYTES, crossings[record], 1, 1);
    }
    return file_of(records, count * SECOND_BYTES, count);
}

/* RULES 13.1: pairs of the examples. */
static void test_pairs(void)
{
    static const long long of_files[PAIRED] = {2, 0, -1, -1, 4};
    static const long long of_files_exchanged[PAIRED] = {1, -1, 0, -1, 4};
    static const struct {
        size_t count[2];
        uint32_t crossings[2][3];
        long long pairs[3];
    } wanted[] = {
        {{3, 2}, {{5, 5, 5}, {5, 5, 0}}, {0, 1, -1}},
        {{2, 3}, {{5, 5, 0}, {5, 5, 5}}, {0, 1, -1}},
        {{2, 2}, {{4294967295u, 0, 0}, {0, 4294967295u, 0}}, {1, 0, -1}},
        {{2, 1}, {{1, 2, 0}, {3, 0, 0}}, {-1, -1, -1}},
        {{3, 3}, {{5, 6, 5}, {6, 5, 5}}, {1, 0, 2}},
        {{3, 0}, {{5, 6, 5}, {0, 0, 0}}, {-1, -1, -1}},
    };
    struct reference_buffer ours = file_of(our_records, OUR_RECORDS, PAIRED);
    struct reference_buffer theirs = file_of(their_records, THEIR_RECORDS, PAIRED);
    size_t place;

    expect("13.1 ours", 0, 126, (long long)ours.length);
    expect("13.1 theirs", 0, 133, (long long)theirs.length);
    expect_pairs(0, &ours, &theirs, of_files);
    expect_pairs(1, &theirs, &ours, of_files_exchanged);
    for (place = 0; place < sizeof wanted / sizeof wanted[0]; place++) {
        struct reference_buffer left = file_of_crossings(wanted[place].crossings[0], wanted[place].count[0]);
        struct reference_buffer right = file_of_crossings(wanted[place].crossings[1], wanted[place].count[1]);

        expect_pairs((long)place + 2, &left, &right, wanted[place].pairs);
        test_pairing_of((long)place, &left, &right);
        free(left.bytes);
        free(right.bytes);
    }
    free(theirs.bytes);
    free(ours.bytes);
}

/* RULES 10.7, 13.2 to 13.4: reports of the examples. */
static void test_reports(void)
{
    static const uint64_t both[REFERENCE_REPORT_NUMBERS] = {1, 2, 2, 2, 2, 1400, 1, 0, 0, 0, 0, 0, 2, 0, 1, 0};
    static const uint64_t exchanged[REFERENCE_REPORT_NUMBERS] = {1, 2, 2, 2, 2, 1400, 0, 1, 0, 0, 0, 0, 2, 0, 1, 0};
    static const uint64_t sizes[REFERENCE_REPORT_NUMBERS] = {1, 2, 2, 2, 1, 1400, 1, 0, 3, 2, 2, 3, 0, 0, 0, 0};
    static const uint64_t last[REFERENCE_REPORT_NUMBERS] = {0, 3, 2, 2, 2, 30, 4, 4, 0, 0, 0, 0, 2, 0, 0, 0};
    static const uint64_t same[REFERENCE_REPORT_NUMBERS] = {5};
    static const uint64_t nothing[REFERENCE_REPORT_NUMBERS] = {0};
    static const uint64_t only_ours[REFERENCE_REPORT_NUMBERS] = {0, 0, 5};
    static const uint64_t only_theirs[REFERENCE_REPORT_NUMBERS] = {0, 0, 0, 5};
    static const uint64_t opposite[REFERENCE_REPORT_NUMBERS] = {3, 2, 0, 0, 2, 70000, 0, 1, 0, 0, 0, 0, 0, 0, 0, 0};
    static const unsigned starts[PAIRED + 1] = {0, 11, 29, 40, 51, 62};
    struct reference_buffer ours = file_of(our_records, OUR_RECORDS, PAIRED);
    struct reference_buffer theirs = file_of(their_records, THEIR_RECORDS, PAIRED);
    struct reference_buffer none = file_of(our_records, 0, 0);
    struct reference_buffer empty = own_buffer(our_records, 0, 0);
    struct reference_buffer our_cut = own_buffer(ours.bytes, (size_t)ours.length - 1, (size_t)ours.length - 1);
    struct reference_buffer their_cut = own_buffer(theirs.bytes, (size_t)theirs.length - 1, (size_t)theirs.length - 1);
    struct reference_buffer turned;
    uint8_t records[OUR_RECORDS];
    size_t length = 0;
    unsigned record;

    expect_pairing("10.7", 0, &ours, &theirs, 0, 0, both);
    expect_pairing("10.7", 1, &theirs, &ours, 0, 0, exchanged);
    expect_pairing("10.7", 2, &ours, &ours, 0, 0, same);
    expect_pairing("10.7", 3, &none, &none, 0, 0, nothing);
    expect_pairing("10.7", 4, &our_cut, &theirs, 15, 1, NULL);
    expect_pairing("10.7", 5, &ours, &their_cut, 15, 2, NULL);
    expect_pairing("10.7", 6, &our_cut, &their_cut, 15, 1, NULL);
    expect_pairing("13.4", 0, &empty, &none, 15, 1, NULL);
    expect_pairing("13.4", 1, &none, &empty, 15, 2, NULL);
    expect_pairing("13.4", 2, &empty, &empty, 15, 1, NULL);
    expect_pairing("13.2", 0, &ours, &none, 0, 0, only_ours);
    expect_pairing("13.2", 1, &none, &ours, 0, 0, only_theirs);
    for (record = PAIRED; record > 0; record--) {
        memcpy(records + length, our_records + starts[record - 1], starts[record] - starts[record - 1]);
        length += starts[record] - starts[record - 1];
    }
    turned = file_of(records, length, PAIRED);
    expect_pairing("13.2", 2, &ours, &turned, 0, 0, opposite);
    free(turned.bytes);
    put_number(theirs.bytes + PAIRED_TABLE + 4, 2, 2);
    put_number(theirs.bytes + PAIRED_TABLE + 6, 3, 2);
    expect_pairing("13.3", 0, &ours, &theirs, 0, 0, sizes);
    put_number(theirs.bytes + PAIRED_TABLE + 4, 3, 2);
    put_number(theirs.bytes + PAIRED_TABLE + 6, 2, 2);
    theirs.bytes[theirs.length - 1] ^= 1;
    expect_pairing("13.3", 1, &ours, &theirs, 0, 0, last);
    free(their_cut.bytes);
    free(our_cut.bytes);
    free(empty.bytes);
    free(none.bytes);
    free(theirs.bytes);
    free(ours.bytes);
}

/* RULES 13.3: the worked record with one or two of its bytes another; the first of them is told. */
static void test_first_difference(void)
{
    static const struct {
        unsigned bytes[2];
        uint64_t place[3];
    } wanted[] = {
        {{8, 8}, {0, 0, 0}}, {{10, 10}, {0, 0, 2}}, {{11, 11}, {0, 1, 0}}, {{13, 13}, {0, 1, 2}}, {{14, 14}, {1, 0, 0}},
        {{15, 15}, {1, 0, 1}}, {{16, 16}, {2, 0, 0}}, {{17, 17}, {2, 0, 1}}, {{17, 14}, {1, 0, 0}}, {{16, 13}, {0, 1, 2}},
        {{12, 10}, {0, 0, 2}},
    };
    static const uint64_t equal[REFERENCE_REPORT_NUMBERS] = {1};
    static const uint64_t unpaired[REFERENCE_REPORT_NUMBERS] = {0, 0, 1, 1};
    enum { TABLE = 16 };
    struct reference_buffer ours = file_of(worked_records, FIRST_BYTES, 1);
    struct reference_buffer theirs = file_of(worked_records, FIRST_BYTES, 1);
    size_t place;

    for (place = 0; place < sizeof wanted / sizeof wanted[0]; place++) {
        uint64_t report[REFERENCE_REPORT_NUMBERS] = {0, 1, 0, 0, 2, 1400};

        memcpy(report + 12, wanted[place].place, sizeof wanted[place].place);
        theirs.bytes[TABLE + wanted[place].bytes[0]] = 0xAA;
        theirs.bytes[TABLE + wanted[place].bytes[1]] = 0x55;
        expect_pairing("13.3 byte", (long)place, &ours, &theirs, 0, 0, report);
        memcpy(theirs.bytes, ours.bytes, (size_t)ours.length);
    }
    expect_pairing("13.3 none", 0, &ours, &theirs, 0, 0, equal);
    theirs.bytes[TABLE] ^= 1;
    expect_pairing("13.3 crossing", 0, &ours, &theirs, 0, 0, unpaired);
    free(theirs.bytes);
    free(ours.bytes);
}

/*
 * RULES 13.2, 13.3: records of every size up to 5 × 5, in the middle of a file, with each bit of their planes changed; with every
 * second bit the byte behind it is changed too, which does not matter.
 */
static void test_every_place(void)
{
    enum { SIDES = 5, MOST_RECORD = 8 + 25 + 18 };
    uint8_t records[SECOND_BYTES + MOST_RECORD + SECOND_BYTES];
    uint32_t width;
    uint32_t height;

    for (width = 1; width <= SIDES; width++) {
        for (height = 1; height <= SIDES; height++) {
            size_t head = put_record(records, 9, 1, 1);
            size_t length = put_record(records + head, 7, width, height);
            size_t end = head + length + put_record(records + head + length, 8, 1, 1);
            struct reference_buffer ours = file_of(records, end, 3);
            struct reference_buffer theirs = file_of(records, end, 3);
            size_t start = (size_t)ours.length - end + head + 8;
            uint32_t plane;
            uint32_t row;
            uint32_t column;

            for (plane = 0; plane < 3; plane++) {
                uint32_t half = plane == 0 ? 1 : 2;

                for (row = 0; row < (height + half - 1) / half; row++) {
                    for (column = 0; column < (width + half - 1) / half; column++) {
                        uint64_t report[REFERENCE_REPORT_NUMBERS] = {2, 1, 0, 0, 2, 7, 1, 1};
                        unsigned bit;

                        report[12] = plane;
                        report[13] = row;
                        report[14] = column;
                        for (bit = 0; bit < 8; bit++) {
                            theirs.bytes[start] = (uint8_t)(theirs.bytes[start] ^ 1u << bit);
                            if (bit % 2 != 0 && start + 1 < theirs.length - SECOND_BYTES) {
                                theirs.bytes[start + 1] ^= 0xFF;
                            }
                            expect_pairing("13.3 bit", (long)(100 * width + height), &ours, &theirs, 0, 0, report);
                            memcpy(theirs.bytes, ours.bytes, (size_t)ours.length);
                        }
                        start++;
                    }
                }
            }
            expect("13.3 end", (long)(100 * width + height), (long long)ours.length - SECOND_BYTES, (long long)start);
            free(theirs.bytes);
            free(ours.bytes);
        }
    }
}

/* RULES 13.2, 13.3: records of all pairs of sizes up to 4 × 4, some of which have as many bytes and the same ones. */
static void test_every_sizes(void)
{
    enum { SIDES = 4, MOST_RECORD = 8 + 16 + 8 };
    uint8_t records[2][MOST_RECORD];
    uint32_t first;
    uint32_t second;

    for (first = 0; first < SIDES * SIDES; first++) {
        for (second = 0; second < SIDES * SIDES; second++) {
            uint64_t report[REFERENCE_REPORT_NUMBERS] = {0, 1, 0, 0, 1, 0xFFFFFFFFu};
            size_t lengths[2];
            struct reference_buffer ours;
            struct reference_buffer theirs;

            report[8] = 1 + first % SIDES;
            report[9] = 1 + first / SIDES;
            report[10] = 1 + second % SIDES;
            report[11] = 1 + second / SIDES;
            lengths[0] = put_record(records[0], 0xFFFFFFFFu, (uint32_t)report[8], (uint32_t)report[9]);
            lengths[1] = put_record(records[1], 0xFFFFFFFFu, (uint32_t)report[10], (uint32_t)report[11]);
            memcpy(records[1] + 8, records[0] + 8, (lengths[0] < lengths[1] ? lengths[0] : lengths[1]) - 8);
            if (first == second) {
                memset(report, 0, sizeof report);
                report[0] = 1;
            }
            ours = file_of(records[0], lengths[0], 1);
            theirs = file_of(records[1], lengths[1], 1);
            expect_pairing("13.3 sizes", (long)(100 * first + second), &ours, &theirs, 0, 0, report);
            free(theirs.bytes);
            free(ours.bytes);
        }
    }
}

/*
 * RULES 13.4: each file of the examples cut at each byte and with each bit changed. Where that bit is of a crossing number or of
 * a plane it is still a file, and else it is none.
 */
static void test_broken_pairs(void)
{
    static const unsigned starts[2][PAIRED] = {{0, 11, 29, 40, 51}, {0, 18, 29, 40, 58}};
    struct reference_buffer files[2];
    struct reference_buffer cut;
    unsigned file;
    unsigned bit;
    size_t place;

    files[0] = file_of(our_records, OUR_RECORDS, PAIRED);
    files[1] = file_of(their_records, THEIR_RECORDS, PAIRED);
    for (file = 0; file < 2; file++) {
        const struct reference_buffer *other = &files[1 - file];

        for (place = 0; place < files[file].length; place++) {
            cut = own_buffer(files[file].bytes, place, place);
            expect_pairing("13.4 cut", (long)place, &cut, other, 15, 1, NULL);
            expect_pairing("13.4 cut", (long)place, other, &cut, 15, 2, NULL);
            expect_pairing("13.4 cut", (long)place, &cut, &cut, 15, 1, NULL);
            free(cut.bytes);
        }
        for (place = 0; place < files[file].length; place++) {
            int is_free = place >= PAIRED_TABLE;
            unsigned record;

            for (record = 0; record < PAIRED; record++) {
                size_t size = PAIRED_TABLE + starts[file][record] + 4;

                is_free = is_free && (place < size || place >= size + 4);
            }
            for (bit = 0; bit < 8; bit++) {
                files[file].bytes[place] = (uint8_t)(files[file].bytes[place] ^ 1u << bit);
                if (is_free) {
                    test_pairing_of((long)(8 * place + bit), &files[file], other);
                } else {
                    expect_pairing("13.4 bit", (long)(8 * place + bit), &files[file], other, 15, 1, NULL);
                    expect_pairing("13.4 bit", (long)(8 * place + bit), other, &files[file], 15, 2, NULL);
                }
                files[file].bytes[place] = (uint8_t)(files[file].bytes[place] ^ 1u << bit);
            }
        }
    }
    free(files[1].bytes);
    free(files[0].bytes);
}

/* RULES 13: a list of records in every order, by exchanging what stands from `fixed` on. */
static void test_orders(long place, const struct reference_buffer *ours, const uint8_t *records, unsigned *order, unsigned fixed,
                        unsigned count)
{
    unsigned other;

    if (fixed == count) {
        uint8_t turned[4 * SECOND_BYTES];
        struct reference_buffer theirs;

        for (other = 0; other < count; other++) {
            memcpy(turned + other * SECOND_BYTES, records + order[other] * SECOND_BYTES, SECOND_BYTES);
        }
        theirs = file_of(turned, count * (size_t)SECOND_BYTES, count);
        test_pairing_of(place, ours, &theirs);
        free(theirs.bytes);
        return;
    }
    for (other = fixed; other < count; other++) {
        unsigned kept = order[fixed];

        order[fixed] = order[other];
        order[other] = kept;
        test_orders(place, ours, records, order, fixed + 1, count);
        order[other] = order[fixed];
        order[fixed] = kept;
    }
}

/* RULES 13: every list of up to four records of three crossing numbers, with each of its orders, and with some of its records. */
static void test_every_pairing(void)
{
    enum { MOST = 4 };
    static const uint32_t crossings[3] = {0x00000100u, 0x7FFFFFFFu, 0x80000001u};
    uint8_t records[MOST * SECOND_BYTES];
    long lists = 0;
    unsigned count;
    unsigned list;
    unsigned all = 1;

    for (count = 0; count <= MOST; count++) {
        for (list = 0; list < all; list++) {
            unsigned order[MOST] = {0, 1, 2, 3};
            unsigned rest = list;
            unsigned record;
            unsigned kept;
            struct reference_buffer ours;

            for (record = 0; record < count; record++) {
                put_record(records + record * SECOND_BYTES, crossings[rest % 3], 1, 1);
                rest /= 3;
            }
            ours = file_of(records, count * (size_t)SECOND_BYTES, count);
            test_orders(lists, &ours, records, order, 0, count);
            for (kept = 0; kept < 1u << count; kept++) {
                uint8_t some[MOST * SECOND_BYTES];
                size_t left = 0;
                struct reference_buffer theirs;

                for (record = 0; record < count; record++) {
                    if ((kept >> record & 1u) != 0) {
                        memcpy(some + left * SECOND_BYTES, records + record * SECOND_BYTES, SECOND_BYTES);
                        left++;
                    }
                }
                theirs = file_of(some, left * SECOND_BYTES, left);
                test_pairing_of(lists, &ours, &theirs);
                free(theirs.bytes);
            }
            free(ours.bytes);
            lists++;
        }
        all *= 3;
    }
    expect("13 lists", 0, 121, lists);
}

/*
 * RULES 13: a file by chance, and another of its records in any order, of which some are left out, some have a bit, their sides
 * or their crossing number changed, and with some more.
 */
static void test_any_pairing(long place)
{
    enum { MOST = 12, SIDES = 9, MOST_RECORD = 8 + SIDES * SIDES + 50 };
    static uint8_t records[MOST][MOST_RECORD];
    static uint8_t list[MOST * MOST_RECORD];
    size_t lengths[MOST];
    size_t count = below(MOST + 1);
    uint32_t kinds = 1 + below(8);
    uint32_t changes = 1 + below(12);
    size_t length = 0;
    size_t left = 0;
    size_t record;
    struct reference_buffer ours;
    struct reference_buffer theirs;

    for (record = 0; record < count; record++) {
        lengths[record] = put_record(records[record], below(kinds) << 29 | below(2), 1 + below(SIDES), 1 + below(SIDES));
        memcpy(list + length, records[record], lengths[record]);
        length += lengths[record];
    }
    ours = file_of(list, length, count);
    length = 0;
    while (count > 0) {
        size_t chosen = below((uint32_t)count);
        uint32_t change = below(4 * changes);
        uint8_t *head = list + length;

        memcpy(head, records[chosen], lengths[chosen]);
        if (change == 1) {
            head[8 + below((uint32_t)lengths[chosen] - 8)] ^= 1;
        } else if (change == 2) {
            memcpy(head + 4, records[chosen] + 6, 2);
            memcpy(head + 6, records[chosen] + 4, 2);
        } else if (change == 3) {
            head[0] ^= 1;
        }
        if (change != 0) {
            length += lengths[chosen];
            left++;
        }
        count--;
        memmove(records[chosen], records[count], lengths[count]);
        lengths[chosen] = lengths[count];
    }
    if (left < MOST && below(2) != 0) {
        length += put_record(list + length, below(kinds) << 29 | below(2), 1 + below(SIDES), 1 + below(SIDES));
        left++;
    }
    theirs = file_of(list, length, left);
    test_pairing_of(place, &ours, &theirs);
    free(theirs.bytes);
    free(ours.bytes);
}

/* RULES 13: pairings by chance. */
static void test_any_pairings(void)
{
    enum { PAIRINGS = 2000 };
    long pairing;

    for (pairing = 0; pairing < PAIRINGS; pairing++) {
        test_any_pairing(pairing);
    }
}

/* RULES 13: two files of 4,096 records of 1 × 1, theirs in the opposite order, of one crossing number or of 4,096. */
static void test_full_pairing(uint32_t kinds)
{
    static uint8_t records[2][MOST_FULL * SECOND_BYTES];
    struct reference_buffer ours;
    struct reference_buffer theirs;
    size_t record;

    for (record = 0; record < MOST_FULL; record++) {
        uint8_t *here = records[0] + record * SECOND_BYTES;

        put_record(here, 0xFFFFFFFFu - (uint32_t)record % kinds, 1, 1);
        memcpy(records[1] + (MOST_FULL - 1 - record) * SECOND_BYTES, here, SECOND_BYTES);
    }
    ours = file_of(records[0], sizeof records[0], MOST_FULL);
    theirs = file_of(records[1], sizeof records[1], MOST_FULL);
    test_pairing_of((long)kinds, &ours, &theirs);
    theirs.bytes[theirs.length - 1] ^= 1;
    theirs.bytes[theirs.length - SECOND_BYTES - 2] ^= 1;
    test_pairing_of((long)kinds, &ours, &theirs);
    free(theirs.bytes);
    free(ours.bytes);
}

/* RULES 11.7: the file of two records with settings; and RULES 11.8: that of 11.1 moved forward. */
enum { SET_FILE_BYTES = 74, SET_FIRST = 32, SET_SECOND = 54, MOVED_BYTES = 69 };

static const uint8_t set_file[SET_FILE_BYTES] = {
    0xFF, 0xFF, 0xFF, 0xFF, 0x02, 0x00, 0x00, 0x00,
    0x20, 0x00, 0x00, 0x00, 0x00, 0x00, 0x00, 0x00, 0x16, 0x00, 0x00, 0x00,
    0x36, 0x00, 0x00, 0x00, 0x00, 0x00, 0x00, 0x00, 0x14, 0x00, 0x00, 0x00,
    0x78, 0x05, 0x00, 0x00, 0x03, 0x00, 0x02, 0x00, 0x00, 0xFF, 0xFF, 0xFF,
    0x10, 0x11, 0x12, 0x20, 0x21, 0x22, 0x30, 0x31, 0x40, 0x41,
    0x70, 0x11, 0x01, 0x00, 0x02, 0x00, 0x02, 0x00, 0x01, 0x01, 0x06, 0x03,
    0x50, 0x51, 0x52, 0x53, 0x60, 0x61, 0x70, 0x71,
};
static const uint8_t moved_file[MOVED_BYTES] = {
    0xFF, 0xFF, 0xFF, 0xFF, 0x02, 0x00, 0x00, 0x00,
    0x20, 0x00, 0x00, 0x00, 0x00, 0x00, 0x00, 0x00, 0x16, 0x00, 0x00, 0x00,
    0x36, 0x00, 0x00, 0x00, 0x00, 0x00, 0x00, 0x00, 0x0F, 0x00, 0x00, 0x00,
    0x78, 0x05, 0x00, 0x00, 0x03, 0x00, 0x02, 0x00, 0x00, 0xFF, 0xFF, 0xFF,
    0x10, 0x11, 0x12, 0x20, 0x21, 0x22, 0x30, 0x31, 0x40, 0x41,
    0x70, 0x11, 0x01, 0x00, 0x01, 0x00, 0x01, 0x00, 0x00, 0xFF, 0xFF, 0xFF, 0x50, 0x60, 0x70,
};

/* RULES 11.7: whether a record may have this byte as one of its settings. */
static int is_setting(unsigned setting, unsigned byte)
{
    static const unsigned last[4] = {1, 1, 6, 3};

    return byte <= last[setting] || (setting > 0 && byte == 255);
}

/* RULES 11.4: a reading of either form of a copy of these bytes; and the reading of the form without settings, which is as said. */
static void expect_any(const char *rule, long place, const uint8_t *bytes, size_t length, uint32_t number, uint64_t count, uint64_t form,
                       uint32_t first_number)
{
    uint8_t *own = own_bytes(length);
    struct reference_bytes file;
    uint64_t records = 77;
    uint64_t entries = 77;
    uint64_t told = 77;

    memcpy(own, bytes, length);
    file.bytes = own;
    file.length = length;
    memset(lent, 0, sizeof lent);
    expect_answer(rule, place, number, 0, 0, reference_shift_records_any(&file, 0, lent, MOST_LENT, &records, &entries, &told));
    expect(rule, place, (long long)count, (long long)records);
    expect(rule, place, (long long)form, (long long)told);
    expect_answer(rule, place, first_number, 0, 0, reference_shift_records(&file, 0, lent, 0, &records, &entries));
    free(own);
}

/* RULES 11.3, 11.4, 11.7: lengths, and which bytes are a file with settings. */
static void test_settings_layout(void)
{
    static const struct {
        uint32_t sampling;
        uint32_t side[2];
        long long length;
    } sizes[] = {
        {0, {1, 1}, 15}, {1, {1, 1}, 15}, {0, {3, 3}, 29}, {1, {3, 3}, 33}, {1, {1920, 1080}, 4147212}, {1, {16384, 16384}, 536870924},
    };
    static const struct {
        unsigned at;
        unsigned bytes;
        uint64_t number;
    } changes[] = {
        {0, 4, 4294967294u}, {4, 4, 1}, {8, 8, 28}, {20, 8, 50}, {16, 4, 18}, {28, 4, 16}, {36, 2, 0}, {58, 2, 16385}, {60, 2, 3},
    };
    static const long long entry[2][15] = {
        {1400, 3, 2, 32, 22, 44, 6, 50, 2, 52, 2, 0, 255, 255, 255},
        {70000, 2, 2, 54, 20, 66, 4, 70, 2, 72, 2, 1, 1, 6, 3},
    };
    static uint8_t bytes[4 + FILE_BYTES + SET_FILE_BYTES];
    struct reference_bytes file;
    uint64_t records;
    uint64_t entries;
    uint64_t form;
    unsigned place;
    unsigned number;
    uint64_t first;

    for (place = 0; place < sizeof sizes / sizeof sizes[0]; place++) {
        expect("11.7", (long)place, sizes[place].length,
               (long long)extent(1, sizes[place].sampling, sizes[place].side[0], sizes[place].side[1]).length);
    }
    expect("11.7", 0, 2199023353864, (long long)(table_bytes(1, 4096) + 4096 * extent(1, 1, 16384, 16384).length));
    expect_any("11.7", 0, set_file, SET_FILE_BYTES, 0, 2, 1, 15);
    expect_any("11.4 either", 0, worked_file, FILE_BYTES, 0, 2, 0, 0);
    for (place = 0; place < SET_FILE_BYTES; place++) {
        expect_any("11.7 cut", (long)place, set_file, place, 15, 0, 0, 15);
    }
    for (place = 0; place < sizeof changes / sizeof changes[0]; place++) {
        memcpy(bytes, set_file, SET_FILE_BYTES);
        put_number(bytes + changes[place].at, changes[place].number, changes[place].bytes);
        expect_any("11.7 number", (long)place, bytes, SET_FILE_BYTES, 15, 0, 0, 15);
    }
    memset(bytes, 0xFF, 4);
    memset(bytes + 4, 0, 8);
    for (place = 4; place < 12; place++) {
        expect_any("11.7 none", (long)place, bytes, place, place == 8 ? 0 : 15, 0, place == 8, 15);
    }
    memcpy(bytes + 4, worked_file, FILE_BYTES);
    expect_any("11.7 behind", 0, bytes, 4 + FILE_BYTES, 15, 0, 0, 15);
    for (place = 0; place < 8 * SET_FILE_BYTES; place++) {
        unsigned at = place / 8;
        int is_free = (at >= 32 && at < 36) || (at >= 44 && at < 58) || at >= 66;

        memcpy(bytes, set_file, SET_FILE_BYTES);
        bytes[at] = (uint8_t)(bytes[at] ^ 1u << place % 8);
        /* another sampling makes either record another length */
        if ((at > 40 && at < 44) || (at > 62 && at < 66)) {
            is_free = is_setting(at > 62 ? at - 62 : at - 40, bytes[at]);
        }
        expect_any("11.7 bit", (long)place, bytes, SET_FILE_BYTES, is_free ? 0 : 15, is_free ? 2 : 0, (uint64_t)is_free, 15);
    }
    file.bytes = set_file;
    file.length = SET_FILE_BYTES;
    for (first = 0; first < 4; first++) {
        for (place = 0; place <= MOST_LENT; place++) {
            uint64_t left = first < 2 ? 2 - first : 0;
            uint64_t told = place / 15 < left ? place / 15 : left;

            for (number = 0; number < MOST_LENT; number++) {
                lent[number] = LENT;
            }
            expect_answer("11.4 either", (long)place, 0, 0, 0,
                          reference_shift_records_any(&file, first, lent, place, &records, &entries, &form));
            expect("11.4 either", (long)place, 2, (long long)records);
            expect("11.4 either", (long)place, (long long)told, (long long)entries);
            for (number = 0; number < MOST_LENT; number++) {
                expect("11.4 number", (long)place, number < 15 * told ? entry[first + number / 15][number % 15] : LENT,
                       (long long)lent[number]);
            }
        }
    }
}

/* RULES 11.5, 11.6, 11.8: a call that makes a file or a record of these bytes; all bytes of the output EE before it. */
static void expect_moved(const char *rule, long place, uint32_t to, const uint8_t *bytes, size_t length, size_t room, uint32_t number,
                         uint64_t told, const uint8_t *made)
{
    uint8_t *own = own_bytes(length);
    struct reference_bytes file;
    struct reference_buffer output;
    uint64_t size = 77;
    size_t byte;

    memcpy(own, bytes, length);
    file.bytes = own;
    file.length = length;
    output.bytes = own_bytes(room);
    output.length = room;
    memset(output.bytes, 0xEE, room);
    expect_answer(rule, place, number, 0, 0, reference_shift_move(to, &file, &output, &size));
    expect(rule, place, (long long)told, (long long)size);
    for (byte = 0; byte < room; byte++) {
        expect(rule, place, number == 0 && byte < told ? made[byte] : 0xEE, output.bytes[byte]);
    }
    free(output.bytes);
    free(own);
}

/* RULES 11.8: files moved into every output; each byte in the place of each setting; 15, 20, 16 in this order. */
static void test_moving(void)
{
    static const uint8_t no_records[8] = {0xFF, 0xFF, 0xFF, 0xFF};
    static uint8_t bytes[SET_FILE_BYTES];
    unsigned setting;
    size_t room;

    for (room = 0; room < MOVED_BYTES + 3; room++) {
        expect_moved("11.8 forward", (long)room, 1, worked_file, FILE_BYTES, room, room < MOVED_BYTES ? 16 : 0, MOVED_BYTES, moved_file);
        expect_moved("11.8 back", (long)room, 0, moved_file, MOVED_BYTES, room, room < FILE_BYTES ? 16 : 0, FILE_BYTES, worked_file);
        expect_moved("11.8 form", (long)room, 0, worked_file, FILE_BYTES, room, 15, 0, NULL);
        expect_moved("11.8 form", (long)room, 1, moved_file, MOVED_BYTES, room, 15, 0, NULL);
        expect_moved("11.8 recorded", (long)room, 0, set_file, SET_FILE_BYTES, room, 20, 0, NULL);
        expect_moved("11.8 none", (long)room, 1, no_records + 4, 4, room, room < 8 ? 16 : 0, 8, no_records);
        expect_moved("11.8 none", (long)room, 0, no_records, 8, room, room < 4 ? 16 : 0, 4, no_records + 4);
    }
    for (room = 0; room < MOVED_BYTES; room++) {
        expect_moved("11.8 cut", (long)room, 0, moved_file, room, 10, 15, 0, NULL);
        expect_moved("11.8 cut", (long)room, 0, set_file, room, 0, 15, 0, NULL);
        expect_moved("11.8 cut", (long)room, 1, worked_file, room % FILE_BYTES, 10, 15, 0, NULL);
    }
    for (setting = 0; setting < 4; setting++) {
        unsigned byte;

        for (byte = 0; byte < 256; byte++) {
            int is_unsaid = byte == (setting == 0 ? 0u : 255u);
            uint32_t number = !is_setting(setting, byte) ? 15 : is_unsaid ? 0 : 20;

            memcpy(bytes, moved_file, MOVED_BYTES);
            bytes[SET_SECOND + 8 + setting] = (uint8_t)byte;
            expect_moved("11.8 setting", (long)byte, 0, bytes, MOVED_BYTES, 60, number, number == 0 ? FILE_BYTES : 0, worked_file);
            expect_moved("11.8 setting", (long)byte, 0, bytes, MOVED_BYTES, 0, number == 0 ? 16 : number, number == 0 ? FILE_BYTES : 0,
                         NULL);
            expect_any("11.7 setting", (long)byte, bytes, MOVED_BYTES, number == 15 ? 15 : 0, number == 15 ? 0 : 2, number != 15, 15);
        }
    }
}

/* RULES 11.5, 11.6: records with settings written, and made from planes of 3 × 2 in 4:2:2 with strides 3, 3, 2. */
static void test_settings_records(void)
{
    static const struct {
        uint32_t settings[4];
        uint64_t lengths[3];
        uint64_t room;
        uint32_t number;
        uint64_t expected;
        uint64_t received;
        uint64_t size;
    } wanted[] = {
        {{1, 0, 1, 255}, {6, 6, 4}, 27, 0, 0, 0, 26},   {{1, 0, 1, 255}, {6, 6, 4}, 25, 16, 0, 0, 26},
        {{1, 0, 1, 255}, {6, 3, 2}, 26, 10, 5, 3, 0},   {{0, 0, 1, 255}, {6, 6, 4}, 26, 12, 3, 6, 0},
        {{2, 0, 1, 255}, {0, 0, 0}, 0, 15, 0, 0, 0},    {{255, 0, 1, 255}, {6, 6, 4}, 26, 15, 0, 0, 0},
        {{1, 254, 1, 255}, {6, 6, 4}, 26, 15, 0, 0, 0}, {{1, 0, 7, 255}, {6, 6, 4}, 26, 15, 0, 0, 0},
        {{1, 0, 1, 4}, {6, 6, 4}, 26, 15, 0, 0, 0},     {{1, 256, 1, 255}, {6, 6, 4}, 26, 15, 0, 0, 0},
    };
    static const uint8_t made[26] = {
        0x78, 0x05, 0x00, 0x00, 0x03, 0x00, 0x02, 0x00, 0x01, 0x00, 0x01, 0xFF, 0x10,
        0x11, 0x12, 0x20, 0x21, 0x22, 0x30, 0x31, 0x32, 0x33, 0x40, 0x41, 0x42, 0x43,
    };
    static const uint8_t y[6] = {0x10, 0x11, 0x12, 0x20, 0x21, 0x22};
    static const uint8_t u[6] = {0x30, 0x31, 0x99, 0x32, 0x33, 0x99};
    static const uint8_t v[4] = {0x40, 0x41, 0x42, 0x43};
    const uint8_t *const plane_bytes_of[3] = {y, u, v};
    struct reference_bytes records;
    struct reference_buffer output;
    uint8_t room[100];
    uint64_t size;
    size_t place;
    size_t byte;

    output.bytes = room;
    for (place = 0; place < sizeof wanted / sizeof wanted[0]; place++) {
        static const uint32_t strides[3] = {3, 3, 2};
        struct reference_plane planes[3];
        unsigned plane;

        for (plane = 0; plane < 3; plane++) {
            planes[plane].bytes = plane_bytes_of[plane];
            planes[plane].length = wanted[place].lengths[plane];
            planes[plane].stride = strides[plane];
        }
        memset(room, 0xEE, sizeof room);
        output.length = wanted[place].room;
        expect_answer("11.6 settings", (long)place, wanted[place].number, wanted[place].expected, wanted[place].received,
                      reference_shift_record(1400, 3, 2, wanted[place].settings, planes, &output, &size));
        expect("11.6 settings", (long)place, (long long)wanted[place].size, (long long)size);
        for (byte = 0; byte < sizeof room; byte++) {
            expect("11.6 output", (long)place, wanted[place].number == 0 && byte < 26 ? made[byte] : 0xEE, room[byte]);
        }
    }
    records.bytes = set_file + SET_FIRST;
    for (place = 0; place < sizeof room; place++) {
        memset(room, 0xEE, sizeof room);
        records.length = SET_FILE_BYTES - SET_FIRST;
        output.length = place;
        expect_answer("11.5 settings", (long)place, place < SET_FILE_BYTES ? 16 : 0, 0, 0,
                      reference_shift_write(REFERENCE_WITH_SETTINGS, &records, &output, &size));
        expect("11.5 settings", (long)place, SET_FILE_BYTES, (long long)size);
        for (byte = 0; byte < sizeof room; byte++) {
            expect("11.5 output", (long)place, place >= SET_FILE_BYTES && byte < SET_FILE_BYTES ? set_file[byte] : 0xEE, room[byte]);
        }
        expect_answer("11.5 form", (long)place, 15, 0, 0,
                      reference_shift_write(REFERENCE_WITHOUT_SETTINGS, &records, &output, &size));
        records.length = place % (SET_FILE_BYTES - SET_FIRST);
        if (records.length != 0 && records.length != 22) {
            expect_answer("11.5 cut", (long)place, 15, 0, 0, reference_shift_write(REFERENCE_WITH_SETTINGS, &records, &output, &size));
        }
    }
}

/* RULES 12.1, 12.4 to 12.7, 13.2 to 13.4: the summary of the file of 11.7, and pairs of files of either form. */
static void test_either_form(void)
{
    static const uint8_t summary[26] = {
        0x78, 0x05, 0x00, 0x00, 0x20, 0x00, 0x00, 0x00, 0x00, 0x00, 0x00, 0x00, 0x19,
        0x70, 0x11, 0x01, 0x00, 0x36, 0x00, 0x00, 0x00, 0x00, 0x00, 0x00, 0x00, 0x51,
    };
    static const uint64_t equal[18] = {2};
    static const uint64_t samplings[18] = {1, 1, 0, 0, 1, 70000, 1, 1, 1, 1, 1, 1, 0, 0, 0, 0, 1, 0};
    static const uint64_t exchanged[18] = {1, 1, 0, 0, 1, 70000, 1, 1, 1, 1, 1, 1, 0, 0, 0, 1, 0, 0};
    static const uint64_t sizes[18] = {1, 1, 0, 0, 1, 70000, 1, 1, 1, 1, 2, 2, 0, 0, 0, 0, 1, 0};
    static const uint64_t byte_of_v[18] = {1, 1, 0, 0, 2, 70000, 1, 1, 0, 0, 0, 0, 2, 1, 0, 0, 0, 0};
    uint8_t tall[MOVED_BYTES];
    uint8_t other[SET_FILE_BYTES];
    uint8_t room[39];
    uint64_t report[18];
    struct reference_bytes files[5];
    struct reference_bytes record;
    struct reference_bytes checked;
    struct reference_buffer buffer;
    uint64_t told[2];
    const struct {
        unsigned ours;
        unsigned theirs;
        const uint64_t *report;
    } wanted[] = {
        {0, 0, equal}, {0, 1, equal}, {1, 0, equal}, {1, 1, equal}, {0, 2, samplings}, {1, 2, samplings}, {2, 0, exchanged},
        {2, 1, exchanged}, {2, 2, equal}, {0, 3, sizes}, {1, 3, sizes}, {3, 3, equal}, {3, 4, byte_of_v}, {4, 3, byte_of_v},
    };
    size_t place;
    unsigned number;

    memcpy(tall, moved_file, MOVED_BYTES);
    tall[SET_SECOND + 8] = 1;
    memcpy(other, set_file, SET_FILE_BYTES);
    other[SET_FILE_BYTES - 1] ^= 1; /* the last byte of V, which has two rows */
    other[SET_SECOND + 9] = 255;    /* and a range that is not recorded, which does not matter */
    files[0].bytes = worked_file, files[0].length = FILE_BYTES;
    files[1].bytes = moved_file, files[1].length = MOVED_BYTES;
    files[2].bytes = tall, files[2].length = MOVED_BYTES;
    files[3].bytes = set_file, files[3].length = SET_FILE_BYTES;
    files[4].bytes = other, files[4].length = SET_FILE_BYTES;
    for (place = 0; place < sizeof wanted / sizeof wanted[0]; place++) {
        uint64_t none = 77;

        expect_answer("13.4 either", (long)place, 0, 0, 0,
                      reference_shift_pairs(&files[wanted[place].ours], &files[wanted[place].theirs], report, &none));
        expect("13.4 either", (long)place, 0, (long long)none);
        for (number = 0; number < 18; number++) {
            expect("10.7 either", (long)place, (long long)wanted[place].report[number], (long long)report[number]);
        }
    }
    buffer.bytes = room;
    for (place = 0; place <= sizeof room; place++) {
        memset(room, 0xEE, sizeof room);
        buffer.length = place;
        expect_answer("12.4 settings", (long)place, place < 26 ? 17 : 0, 0, 0, reference_summary_build(&files[3], &buffer));
        for (number = 0; number < sizeof room; number++) {
            expect("12.4 settings", (long)number, place >= 26 && number < 26 ? summary[number] : 0xEE, room[number]);
        }
    }
    checked.bytes = room;
    checked.length = sizeof room;
    expect_answer("12.5 settings", 0, 0, 0, 0, reference_summary_check(&files[3], &checked, &told[0]));
    expect("12.5 settings", 0, 1, (long long)told[0]);
    expect_answer("12.6 settings", 0, 0, 0, 0, reference_summary_find(&files[3], &checked, 70000, &told[0], &told[1]));
    expect("12.6 settings", 0, 1, (long long)told[0]);
    expect("12.6 settings", 1, 1, (long long)told[1]);
    expect_answer("12.6 settings", 2, 17, 0, 0, reference_summary_find(&files[1], &checked, 70000, &told[0], &told[1]));
    record.bytes = second_record;
    record.length = SECOND_BYTES;
    buffer.length = sizeof room;
    expect_answer("12.7 settings", 0, 15, 0, 0, reference_summary_update(&files[3], &record, &buffer));
    record.bytes = set_file + SET_FIRST;
    record.length = SET_SECOND - SET_FIRST;
    expect_answer("12.7 settings", 1, 15, 0, 0, reference_summary_update(&files[0], &record, &buffer));
    expect_answer("12.7 settings", 2, 0, 0, 0, reference_summary_update(&files[3], &record, &buffer));
    expect("12.7 settings", 3, 0x2C, room[4]);
    expect("12.7 settings", 4, SET_FILE_BYTES + 12, room[17]);
    expect("12.7 settings", 5, 0x42, room[30]);
}

/* A text with its length, since it may have bytes 0. */
#define TEXT(text) text, sizeof(text) - 1

/* RULES 14.3: the parts of the file of two pictures. */
#define HEADER "YUV4MPEG2 W3 H2 F25:1 Ip C420jpeg\n"
#define FIRST_LINE "FRAME\n"
#define FIRST_PLANES "\020\021\022\040\041\042\060\061\100\101"
#define FIRST FIRST_LINE FIRST_PLANES
#define SECOND_LINE "FRAME Ip W9\n"
#define SECOND_PLANES "\nFRAME\n\n  "
#define SECOND SECOND_LINE SECOND_PLANES

enum { Y4M_BYTES = 72, Y4M_HEADER = 34, Y4M_PICTURE = 16, Y4M_PLANES = 10 };

static const char y4m_file[Y4M_BYTES + 1] = HEADER FIRST SECOND;

/* A text of a start, a byte several times, and an end; gives its length. */
static size_t stretch(char *text, const char *start, char byte, size_t times, const char *end)
{
    size_t length = strlen(start);

    memcpy(text, start, length);
    memset(text + length, byte, times);
    length += times;
    memcpy(text + length, end, strlen(end));
    return length + strlen(end);
}

/* RULES 14.1: whether a copy of these bytes, all of them, is a line of this word, and of how many tags; their lengths. */
static void expect_line(long place, const void *text, size_t length, const char *word, int is_line, size_t tags, const size_t *lengths)
{
    uint8_t *own = own_bytes(length);
    struct reference_bytes bytes;
    size_t at = strlen(word);
    size_t tag = 0;

    memcpy(own, text, length);
    bytes.bytes = own;
    bytes.length = length;
    expect("14.1", place, is_line, length > 0 && line_bytes(&bytes, 0, word) == length);
    while (is_line && own[at] == SPACE) {
        size_t count = (size_t)tag_bytes(own + at + 1, length - at - 1);

        expect("14.1 tag", place, tag < tags ? (long long)lengths[tag] : -1, (long long)count);
        at += 1 + count;
        tag++;
    }
    if (is_line) {
        expect("14.1 tags", place, (long long)tags, (long long)tag);
        expect("14.1 end", place, (long long)length, (long long)at + 1);
    }
    free(own);
}

/* RULES 14.1: lines, and what is none; and any byte as the tag, in it, and in the places of a space and of the newline. */
static void test_y4m_lines(void)
{
    static const uint8_t of_line[9] = {0x46, 0x52, 0x41, 0x4D, 0x45, 0x20, 0x49, 0x70, 0x0A};
    static const uint8_t of_header[Y4M_HEADER] = {
        0x59, 0x55, 0x56, 0x34, 0x4D, 0x50, 0x45, 0x47, 0x32, 0x20, 0x57, 0x34, 0x20, 0x48, 0x32, 0x20, 0x46,
        0x32, 0x35, 0x3A, 0x31, 0x20, 0x49, 0x70, 0x20, 0x43, 0x34, 0x32, 0x30, 0x6A, 0x70, 0x65, 0x67, 0x0A,
    };
    static const struct {
        const char *text;
        size_t length;
        const char *word; /* NULL: no line */
        size_t tags;
        size_t lengths[4];
    } wanted[] = {
        {TEXT("FRAME\n"), picture_word, 0, {0}},
        {TEXT("YUV4MPEG2\n"), header_word, 0, {0}},
        {TEXT("FRAME Ip\n"), picture_word, 1, {2}},
        {TEXT("FRAME Ip Ip XA=1 :\n"), picture_word, 4, {2, 2, 4, 1}},
        {TEXT("FRAME X\015\n"), picture_word, 1, {2}},
        {TEXT("FRAME \000\011\377\n"), picture_word, 1, {3}},
        {TEXT("FRAME FRAME\n"), picture_word, 1, {5}},
        {TEXT("FRAME YUV4MPEG2\n"), picture_word, 1, {9}},
        {TEXT("YUV4MPEG2 FRAME\n"), header_word, 1, {5}},
        {TEXT("FRAME  Ip\n"), NULL, 0, {0}},
        {TEXT("FRAME Ip  Ip\n"), NULL, 0, {0}},
        {TEXT("FRAME Ip \n"), NULL, 0, {0}},
        {TEXT("FRAME \n"), NULL, 0, {0}},
        {TEXT(" FRAME\n"), NULL, 0, {0}},
        {TEXT("FRAME\015\n"), NULL, 0, {0}},
        {TEXT("FRAME\011Ip\n"), NULL, 0, {0}},
        {TEXT("frame\n"), NULL, 0, {0}},
        {TEXT("FRAMES\n"), NULL, 0, {0}},
        {TEXT("FRAM\n"), NULL, 0, {0}},
        {TEXT("YUV4MPEG\n"), NULL, 0, {0}},
        {TEXT("YUV4MPEG21\n"), NULL, 0, {0}},
        {TEXT("FRAME"), NULL, 0, {0}},
        {TEXT("FRAME Ip"), NULL, 0, {0}},
        {TEXT("\n"), NULL, 0, {0}},
        {TEXT(""), NULL, 0, {0}},
        {TEXT("FRAME\n\n"), NULL, 0, {0}},
        {TEXT("FRAME Ip\nIp\n"), NULL, 0, {0}},
    };
    static const size_t longest[2] = {249, 245}; /* bytes of one tag in a line of 256 bytes */
    static const char *const words[2] = {picture_word, header_word};
    char text[400];
    size_t place;
    unsigned word;
    unsigned byte;

    expect_bytes("14.1 bytes", of_line, (const uint8_t *)"FRAME Ip\n", sizeof of_line);
    expect_bytes("14.1 bytes", of_line, (const uint8_t *)picture_word, 5);
    expect_bytes("14.1 bytes", of_header, (const uint8_t *)"YUV4MPEG2 W4 H2 F25:1 Ip C420jpeg\n", sizeof of_header);
    expect_bytes("14.1 bytes", of_header, (const uint8_t *)header_word, 9);
    for (place = 0; place < sizeof wanted / sizeof wanted[0]; place++) {
        for (word = 0; word < 2; word++) {
            expect_line((long)place, wanted[place].text, wanted[place].length, words[word], wanted[place].word == words[word],
                        wanted[place].tags, wanted[place].lengths);
        }
    }
    for (word = 0; word < 2; word++) {
        size_t start = strlen(words[word]);
        size_t two[2] = {1, 0};

        for (place = 1; place < 300; place++) {
            size_t length = stretch(text, word == 0 ? "FRAME " : "YUV4MPEG2 ", 'X', place, "\n");

            expect("14.1 long", (long)place, length <= 256, place <= longest[word]);
            expect_line((long)place, text, length, words[word], place <= longest[word], 1, &place);
            expect_line((long)place, text, length - 1, words[word], 0, 0, NULL);
            text[start + 2] = ' '; /* the second byte of the tag, or the newline */
            two[1] = place - 2;
            expect_line((long)place, text, length, words[word], place > 2 && place <= longest[word], 2, two);
        }
        for (byte = 0; byte < 256; byte++) {
            int is_free = byte != SPACE && byte != NEWLINE;
            size_t one = 1;
            size_t three = 3;

            stretch(text, words[word], ' ', 1, "a\n");
            text[start + 1] = (char)byte;
            expect_line((long)byte, text, start + 3, words[word], is_free, 1, &one);
            stretch(text, words[word], ' ', 1, "aaa\n");
            text[start + 2] = (char)byte;
            two[1] = 1;
            expect_line((long)byte, text, start + 5, words[word], byte != NEWLINE, is_free ? 1 : 2, is_free ? &three : two);
            stretch(text, words[word], (char)byte, 1, "aaa\n");
            expect_line((long)byte, text, start + 5, words[word], byte == SPACE, 1, &three);
            stretch(text, words[word], ' ', 1, "aaa\n");
            text[start + 4] = (char)byte;
            expect_line((long)byte, text, start + 5, words[word], byte == NEWLINE, 1, &three);
        }
    }
}

/* RULES 14.2: whether a copy of these bytes, all of them, is a header, and then what it says; w is 0 where it is none. */
static void expect_header(const char *rule, long place, const char *text, size_t length, uint32_t width, uint32_t height, uint32_t sampling)
{
    uint8_t *own = own_bytes(length);
    struct reference_bytes bytes;
    struct header header = {0, 0, 0, 0};
    int found;

    memcpy(own, text, length);
    bytes.bytes = own;
    bytes.length = length;
    found = is_header(&bytes, &header) && header.length == length;
    expect(rule, place, width != 0, found);
    if (found) {
        expect(rule, place, width, header.width);
        expect(rule, place, height, header.height);
        expect(rule, place, sampling, header.sampling);
    }
    free(own);
}

/* RULES 14.2: headers, and what is none. */
static void test_y4m_headers(void)
{
    static const struct {
        const char *text;
        size_t length;
        uint32_t width;
        uint32_t height;
        uint32_t sampling;
    } wanted[] = {
        {TEXT("YUV4MPEG2 W4 H2 F25:1 Ip C420jpeg\n"), 4, 2, REFERENCE_420},
        {TEXT("YUV4MPEG2 W4 H2\n"), 4, 2, REFERENCE_420},
        {TEXT("YUV4MPEG2 H2 W4\n"), 4, 2, REFERENCE_420},
        {TEXT("YUV4MPEG2 C422 XW5 H2 A1:1 W4\n"), 4, 2, REFERENCE_422},
        {TEXT("YUV4MPEG2 W4 H2 C420\n"), 4, 2, REFERENCE_420},
        {TEXT("YUV4MPEG2 W4 H2 C420mpeg2\n"), 4, 2, REFERENCE_420},
        {TEXT("YUV4MPEG2 W4 H2 C422\n"), 4, 2, REFERENCE_422},
        {TEXT("YUV4MPEG2 W1 H16384\n"), 1, 16384, REFERENCE_420},
        {TEXT("YUV4MPEG2 W4 H2 F25:1 F30:1 F F\n"), 4, 2, REFERENCE_420},
        {TEXT("YUV4MPEG2 W4 H2 w5 h6 c444\n"), 4, 2, REFERENCE_420},
        {TEXT("YUV4MPEG2 W4 H2 X\015\n"), 4, 2, REFERENCE_420},
        {TEXT("YUV4MPEG2 W4 H2 \000\n"), 4, 2, REFERENCE_420},
        {TEXT("YUV4MPEG2 W4 H2 W\n"), 0, 0, 0},
        {TEXT("YUV4MPEG2 W4 H2 H2\n"), 0, 0, 0},
        {TEXT("YUV4MPEG2 W4 W4 H2\n"), 0, 0, 0},
        {TEXT("YUV4MPEG2 W4\n"), 0, 0, 0},
        {TEXT("YUV4MPEG2 H2\n"), 0, 0, 0},
        {TEXT("YUV4MPEG2\n"), 0, 0, 0},
        {TEXT("YUV4MPEG2 W H2\n"), 0, 0, 0},
        {TEXT("YUV4MPEG2 W04 H2\n"), 0, 0, 0},
        {TEXT("YUV4MPEG2 W0 H2\n"), 0, 0, 0},
        {TEXT("YUV4MPEG2 W+4 H2\n"), 0, 0, 0},
        {TEXT("YUV4MPEG2 W-4 H2\n"), 0, 0, 0},
        {TEXT("YUV4MPEG2 W4. H2\n"), 0, 0, 0},
        {TEXT("YUV4MPEG2 W0x4 H2\n"), 0, 0, 0},
        {TEXT("YUV4MPEG2 W4a H2\n"), 0, 0, 0},
        {TEXT("YUV4MPEG2 W4\015 H2\n"), 0, 0, 0},
        {TEXT("YUV4MPEG2 W4 H2\015\n"), 0, 0, 0},
        {TEXT("YUV4MPEG2 W16385 H2\n"), 0, 0, 0},
        {TEXT("YUV4MPEG2 W65540 H2\n"), 0, 0, 0},
        {TEXT("YUV4MPEG2 W4294967300 H2\n"), 0, 0, 0},
        {TEXT("YUV4MPEG2 W18446744073709551620 H2\n"), 0, 0, 0},
        {TEXT("YUV4MPEG2 Wide4 W4 H2\n"), 0, 0, 0},
        {TEXT("YUV4MPEG2 W4 H2 Hello\n"), 0, 0, 0},
        {TEXT("YUV4MPEG2 W4 H2 C\n"), 0, 0, 0},
        {TEXT("YUV4MPEG2 W4 H2 C420 C420\n"), 0, 0, 0},
        {TEXT("YUV4MPEG2 W4 H2 C420 Cx\n"), 0, 0, 0},
        {TEXT("YUV4MPEG2 W4 H2 C420paldv\n"), 0, 0, 0},
        {TEXT("YUV4MPEG2 W4 H2 C420jpe\n"), 0, 0, 0},
        {TEXT("YUV4MPEG2 W4 H2 C420jpegs\n"), 0, 0, 0},
        {TEXT("YUV4MPEG2 W4 H2 C420p10\n"), 0, 0, 0},
        {TEXT("YUV4MPEG2 W4 H2 C422p10\n"), 0, 0, 0},
        {TEXT("YUV4MPEG2 W4 H2 C444\n"), 0, 0, 0},
        {TEXT("YUV4MPEG2 W4 H2 C411\n"), 0, 0, 0},
        {TEXT("YUV4MPEG2 W4 H2 Cmono\n"), 0, 0, 0},
        {TEXT("YUV4MPEG2 W4 H2 c420 C422\n"), 4, 2, REFERENCE_422},
        {TEXT("YUV4MPEG2 W4 H2 C0420\n"), 0, 0, 0},
        {TEXT("YUV4MPEG2 W4 H2 C420\015\n"), 0, 0, 0},
        {TEXT("YUV4MPEG2 W4 H2 X C422\n"), 4, 2, REFERENCE_422},
        {TEXT("YUV4MPEG2 W4,H2\n"), 0, 0, 0},
        {TEXT("YUV4MPEG2 W4\011H2\n"), 0, 0, 0},
        {TEXT("YUV4MPEG2 W4  H2\n"), 0, 0, 0},
        {TEXT("YUV4MPEG2 W4 H2 \n"), 0, 0, 0},
        {TEXT("FRAME W4 H2\n"), 0, 0, 0},
    };
    char text[300];
    size_t place;
    size_t length;

    for (place = 0; place < sizeof wanted / sizeof wanted[0]; place++) {
        expect_header("14.2", (long)place, wanted[place].text, wanted[place].length, wanted[place].width, wanted[place].height,
                      wanted[place].sampling);
    }
    length = stretch(text, "YUV4MPEG2 W1", '0', 240, " H2\n");
    expect("14.2 digits", 0, 256, (long long)length);
    expect_header("14.2 digits", 1, text, length, 0, 0, 0);
    length = stretch(text, "YUV4MPEG2 W4 H2 ", 'X', 239, "\n");
    expect("14.2 long", 0, 256, (long long)length);
    expect_header("14.2 long", 1, text, length, 4, 2, REFERENCE_420);
    length = stretch(text, "YUV4MPEG2 W4 H2 ", 'X', 240, "\n");
    expect("14.2 long", 2, 257, (long long)length);
    expect_header("14.2 long", 3, text, length, 0, 0, 0);
}

/*
 * RULES 14.2: every number up to 20,000 as w and as h, with and without a 0 before it; all digits alike, of each count that a line
 * has room for; a decimal with any byte in it.
 */
static void test_y4m_decimals(void)
{
    char text[300];
    uint32_t number;
    size_t stretched;
    size_t count;
    unsigned byte;
    int length;

    for (number = 0; number <= 20000; number++) {
        uint32_t side = number >= 1 && number <= 16384 ? number : 0;

        length = sprintf(text, "YUV4MPEG2 W%lu H7\n", (unsigned long)number);
        expect_header("14.2 w", (long)number, text, (size_t)length, side, 7, REFERENCE_420);
        length = sprintf(text, "YUV4MPEG2 C422 H%lu W7\n", (unsigned long)number);
        expect_header("14.2 h", (long)number, text, (size_t)length, side == 0 ? 0 : 7, side, REFERENCE_422);
        length = sprintf(text, "YUV4MPEG2 W0%lu H7\n", (unsigned long)number);
        expect_header("14.2 w", (long)number, text, (size_t)length, 0, 0, 0);
    }
    for (byte = '0'; byte <= '9'; byte++) {
        for (count = 1; count <= 241; count++) {
            static const uint32_t ones[6] = {0, 1, 11, 111, 1111, 11111};

            number = count <= 5 ? (uint32_t)(byte - '0') * ones[count] : 0;
            stretched = stretch(text, "YUV4MPEG2 W", (char)byte, count, " H2\n");
            expect_header("14.2 digits", (long)count, text, stretched, number <= 16384 ? number : 0, 2, REFERENCE_420);
        }
    }
    for (byte = 0; byte < 256; byte++) {
        int is_digit = byte >= '0' && byte <= '9';
        uint32_t digit = is_digit ? (uint32_t)(byte - '0') : 0;

        for (count = 0; count < 3; count++) {
            static const uint32_t units[3] = {100, 10, 1};
            uint32_t side = 123 - (uint32_t)(count + 1) * units[count] + digit * units[count];

            stretch(text, "YUV4MPEG2 H5 W", ' ', 0, "123\n");
            text[14 + count] = (char)byte;
            if (!is_digit || (count == 0 && byte == '0')) {
                side = 0;
            }
            if (byte == SPACE) { /* W and a tag, W1 and a tag, W12 and an empty one */
                side = count == 1 ? 1 : 0;
            }
            expect_header("14.2 byte", (long)byte, text, 18, side, 5, REFERENCE_420);
        }
    }
}

/* RULES 10.8, 14.5: a reading of a copy of these bytes. */
static struct reference_answer call_y4m(const void *bytes, size_t length, uint64_t first, uint64_t given, struct reference_y4m *told)
{
    uint8_t *own = own_bytes(length);
    struct reference_bytes file;
    struct reference_answer result;
    size_t place;

    for (place = 0; place < MOST_LENT; place++) {
        lent[place] = LENT;
    }
    memset(told, 0x77, sizeof *told);
    memcpy(own, bytes, length);
    file.bytes = own;
    file.length = length;
    result = reference_y4m_pictures(&file, first, lent, given, told);
    free(own);
    return result;
}

/* RULES 10.8, 14.5: the five numbers that a reading tells. */
static void expect_told(const char *rule, long place, const uint64_t *wanted, const struct reference_y4m *told)
{
    expect(rule, place, (long long)wanted[0], (long long)told->width);
    expect(rule, place, (long long)wanted[1], (long long)told->height);
    expect(rule, place, (long long)wanted[2], (long long)told->sampling);
    expect(rule, place, (long long)wanted[3], (long long)told->pictures);
    expect(rule, place, (long long)wanted[4], (long long)told->entries);
}

/* RULES 14.4: whether 19 holds of these bytes; then nothing is told and no entry is written (RULES 14.5). Else how many pictures. */
static void expect_y4m(const char *rule, long place, const void *bytes, size_t length, int is_file, uint64_t pictures)
{
    static const uint64_t nothing[5] = {0};
    struct reference_y4m told;
    size_t number;

    expect_answer(rule, place, is_file ? 0 : 19, 0, 0, call_y4m(bytes, length, 0, MOST_LENT, &told));
    if (is_file) {
        expect(rule, place, (long long)pictures, (long long)told.pictures);
    } else {
        expect_told(rule, place, nothing, &told);
    }
    for (number = 0; !is_file && number < MOST_LENT; number++) {
        expect(rule, place, LENT, (long long)lent[number]);
    }
}

/* RULES 14.3: the file of the examples, and the bytes of planes. */
static void test_y4m_layout(void)
{
    static const uint8_t file[Y4M_BYTES] = {
        0x59, 0x55, 0x56, 0x34, 0x4D, 0x50, 0x45, 0x47, 0x32, 0x20, 0x57, 0x33, 0x20, 0x48, 0x32, 0x20, 0x46,
        0x32, 0x35, 0x3A, 0x31, 0x20, 0x49, 0x70, 0x20, 0x43, 0x34, 0x32, 0x30, 0x6A, 0x70, 0x65, 0x67, 0x0A,
        0x46, 0x52, 0x41, 0x4D, 0x45, 0x0A,
        0x10, 0x11, 0x12, 0x20, 0x21, 0x22, 0x30, 0x31, 0x40, 0x41,
        0x46, 0x52, 0x41, 0x4D, 0x45, 0x20, 0x49, 0x70, 0x20, 0x57, 0x39, 0x0A,
        0x0A, 0x46, 0x52, 0x41, 0x4D, 0x45, 0x0A, 0x0A, 0x20, 0x20,
    };
    static const struct {
        uint32_t side[2];
        uint32_t sampling;
        long long luma;
        long long chroma;
        long long planes;
    } sizes[] = {
        {{1, 1}, REFERENCE_420, 1, 1, 3},
        {{1, 1}, REFERENCE_422, 1, 1, 3},
        {{3, 2}, REFERENCE_420, 6, 2, 10},
        {{3, 2}, REFERENCE_422, 6, 4, 14},
        {{3, 3}, REFERENCE_420, 9, 4, 17},
        {{3, 3}, REFERENCE_422, 9, 6, 21},
        {{1920, 1080}, REFERENCE_420, 2073600, 518400, 3110400},
        {{16384, 16384}, REFERENCE_420, 268435456, 67108864, 402653184},
        {{16384, 16384}, REFERENCE_422, 268435456, 134217728, 536870912},
    };
    size_t place;

    expect_bytes("14.3", file, (const uint8_t *)y4m_file, Y4M_BYTES);
    expect_y4m("14.3", 0, file, Y4M_BYTES, 1, 2);
    expect_y4m("14.3", 1, file, Y4M_HEADER, 1, 0);
    for (place = 0; place < sizeof sizes / sizeof sizes[0]; place++) {
        struct picture picture = picture_of(sizes[place].side[0], sizes[place].side[1], sizes[place].sampling);

        expect("14.3 Y", (long)place, sizes[place].luma, (long long)picture.luma);
        expect("14.3 U", (long)place, sizes[place].chroma, (long long)picture.chroma);
        expect("14.3 planes", (long)place, sizes[place].planes, (long long)picture.planes);
    }
}

/* RULES 14.4: which bytes are a file, and of how many pictures. */
static void test_y4m_changes(void)
{
    static const struct {
        const char *text;
        size_t length;
        int is_file;
        uint64_t pictures;
    } wanted[] = {
        {TEXT(HEADER FIRST SECOND), 1, 2},
        {y4m_file, Y4M_BYTES - 1, 0, 0},
        {TEXT(HEADER FIRST SECOND "\000"), 0, 0},
        {TEXT(HEADER FIRST SECOND "\n"), 0, 0},
        {TEXT(HEADER FIRST SECOND "FRAME\n"), 0, 0},
        {TEXT(HEADER FIRST SECOND "FRAME\n" "123456789"), 0, 0},
        {TEXT(HEADER FIRST SECOND "FRAME\n" "1234567890"), 1, 3},
        {TEXT(HEADER FIRST), 1, 1},
        {TEXT(HEADER SECOND), 1, 1},
        {TEXT(HEADER SECOND FIRST), 1, 2},
        {TEXT(HEADER), 1, 0},
        {TEXT(FIRST SECOND), 0, 0},
        {TEXT(HEADER HEADER FIRST SECOND), 0, 0},
        {TEXT("\n" HEADER FIRST SECOND), 0, 0},
        {TEXT(HEADER "\n" FIRST SECOND), 0, 0},
        {TEXT(HEADER FIRST "\n" SECOND), 0, 0},
        {TEXT(HEADER FIRST_PLANES SECOND), 0, 0},
        {TEXT(HEADER FIRST_LINE "\020\021\022\040\041" "\060\061\100\101" SECOND), 0, 0},
        {TEXT(HEADER FIRST_LINE "\020\021\022\040\041\042\060\061\100" SECOND), 0, 0},
        {TEXT(HEADER FIRST "\000" SECOND), 0, 0},
        {TEXT(HEADER FIRST_LINE "\n\021\022\040\041\042\060\061\100\101" SECOND), 1, 2},
        {TEXT(HEADER FIRST SECOND_LINE "\nFRAME\n\n \n"), 1, 2},
        {TEXT(HEADER FIRST_LINE "\n\n\n\n\n\n\n\n\n\n" SECOND_LINE "\n\n\n\n\n\n\n\n\n\n"), 1, 2},
        /* another line for the header */
        {TEXT("YUV4MPEG2 W3 H2\n" FIRST SECOND), 1, 2},
        {TEXT("YUV4MPEG2 H2 W3\n" FIRST SECOND), 1, 2},
        {TEXT("YUV4MPEG2 H2 W3 C420mpeg2\n" FIRST SECOND), 1, 2},
        {TEXT("YUV4MPEG2 W2 H3\n" FIRST SECOND), 1, 2},
        {TEXT("YUV4MPEG2 W4 H2\n" FIRST SECOND), 0, 0},
        {TEXT("YUV4MPEG2 W3 H2 C422\n" FIRST SECOND), 0, 0},
        {TEXT("YUV4MPEG2 W10 H1\n" FIRST SECOND), 0, 0},
        {TEXT("YUV4MPEG2 W3 H2 C420jpeg\015\n" FIRST SECOND), 0, 0},
        {TEXT("YUV4MPEG2 W3 H2 C420jpeg X\015\n" FIRST SECOND), 1, 2},
        {TEXT("YUV4MPEG W3 H2\n" FIRST SECOND), 0, 0},
        {TEXT("FRAME\n" FIRST SECOND), 0, 0},
        /* another line for the first FRAME */
        {TEXT(HEADER "FRAME Ip\n" FIRST_PLANES SECOND), 1, 2},
        {TEXT(HEADER "FRAME X=1 X=1\n" FIRST_PLANES SECOND), 1, 2},
        {TEXT(HEADER "FRAME W4\n" FIRST_PLANES SECOND), 1, 2},
        {TEXT(HEADER "FRAME W\n" FIRST_PLANES SECOND), 1, 2},
        {TEXT(HEADER "FRAME W4 W5 H0 C444\n" FIRST_PLANES SECOND), 1, 2},
        {TEXT(HEADER "FRAME X\015\n" FIRST_PLANES SECOND), 1, 2},
        {TEXT(HEADER "FRAME \n" FIRST_PLANES SECOND), 0, 0},
        {TEXT(HEADER "FRAME  Ip\n" FIRST_PLANES SECOND), 0, 0},
        {TEXT(HEADER "FRAME Ip \n" FIRST_PLANES SECOND), 0, 0},
        {TEXT(HEADER "FRAME\015\n" FIRST_PLANES SECOND), 0, 0},
        {TEXT(HEADER "FRAMEIp\n" FIRST_PLANES SECOND), 0, 0},
        {TEXT(HEADER "FRAME\011Ip\n" FIRST_PLANES SECOND), 0, 0},
        {TEXT(HEADER "frame\n" FIRST_PLANES SECOND), 0, 0},
        {TEXT(HEADER "FRAME" FIRST_PLANES SECOND), 0, 0},
        {TEXT(HEADER "\n" FIRST_PLANES SECOND), 0, 0},
        {TEXT(HEADER " FRAME\n" FIRST_PLANES SECOND), 0, 0},
        {TEXT(HEADER "FRAME\n\n" FIRST_PLANES SECOND), 0, 0},
        {TEXT(HEADER "YUV4MPEG2 W3 H2\n" FIRST_PLANES SECOND), 0, 0},
        {TEXT(HEADER "FRAME Ip" FIRST_PLANES SECOND), 1, 1}, /* it ends with the newline of the next one */
        /* other bytes */
        {TEXT(""), 0, 0},
        {TEXT("\n"), 0, 0},
        {TEXT("YUV4MPEG2"), 0, 0},
        {TEXT("YUV4MPEG2\n"), 0, 0},
        {TEXT("YUV4MPEG2 W3 H2"), 0, 0},
        {TEXT("YUV4MPEG2 W3 H2\n"), 1, 0},
        {TEXT("YUV4MPEG2 W1 H1\nFRAME\n123"), 1, 1},
        {TEXT("YUV4MPEG2 W1 H1\nFRAME\n12"), 0, 0},
        {TEXT("YUV4MPEG2 W1 H1\nFRAME\n1234"), 0, 0},
        {TEXT("YUV4MPEG2 W1 H1\nFRAME\n123FRAME\n456"), 1, 2},
        {TEXT("YUV4MPEG2 W1 H1\nFRAME\n123FRAME"), 0, 0},
        {TEXT("YUV4MPEG2 W1 H1\nFRAME\n123\nFRAME\n456"), 0, 0},
        {TEXT("YUV4MPEG2 W16384 H16384\nFRAME\n"), 0, 0},
        {TEXT("YUV4MPEG2 W16385 H1\n"), 0, 0},
        {TEXT("YUV4MPEG2 W1 H1 C422\nFRAME\n123"), 1, 1},
        {TEXT("yuv4mpeg2 W1 H1\n"), 0, 0},
    };
    char text[400];
    size_t place;
    size_t length;

    for (place = 0; place < sizeof wanted / sizeof wanted[0]; place++) {
        expect_y4m("14.4", (long)place, wanted[place].text, wanted[place].length, wanted[place].is_file, wanted[place].pictures);
    }
    for (place = 240; place < 260; place++) {
        length = stretch(text, HEADER "FRAME ", 'X', place, "\n" FIRST_PLANES SECOND);
        expect_y4m("14.4 long", (long)place, text, length, place <= 249, 2);
        length = stretch(text, HEADER FIRST "FRAME ", 'X', place, "\n" SECOND_PLANES);
        expect_y4m("14.4 long", (long)place, text, length, place <= 249, 2);
        length = stretch(text, "YUV4MPEG2 W3 H2 ", 'X', place, "\n" FIRST SECOND);
        expect_y4m("14.4 long", (long)place, text, length, 0, 0);
        length = stretch(text, "YUV4MPEG2 W3 H2 ", 'X', place - 10, "\n" FIRST SECOND);
        expect_y4m("14.4 long", (long)place, text, length, place - 10 <= 239, 2);
    }
}

/* RULES 10.8, 14.5: readings of the file of the examples, and of others. */
static void test_y4m_reading(void)
{
    static const uint64_t entries[2 * REFERENCE_Y4M_NUMBERS] = {40, 6, 46, 2, 48, 2, 62, 6, 68, 2, 70, 2};
    static const uint64_t of_422[REFERENCE_Y4M_NUMBERS] = {27, 6, 33, 4, 37, 4};
    static const struct {
        const char *text;
        size_t length;
        uint64_t first;
        uint64_t given;
        uint32_t number;
        uint64_t told[5];
        const uint64_t *entries;
    } wanted[] = {
        {y4m_file, Y4M_BYTES, 0, 12, 0, {3, 2, 0, 2, 2}, entries},
        {y4m_file, Y4M_BYTES, 0, 11, 0, {3, 2, 0, 2, 1}, entries},
        {y4m_file, Y4M_BYTES, 0, 6, 0, {3, 2, 0, 2, 1}, entries},
        {y4m_file, Y4M_BYTES, 0, 5, 0, {3, 2, 0, 2, 0}, entries},
        {y4m_file, Y4M_BYTES, 0, 0, 0, {3, 2, 0, 2, 0}, entries},
        {y4m_file, Y4M_BYTES, 0, MOST_LENT, 0, {3, 2, 0, 2, 2}, entries},
        {y4m_file, Y4M_BYTES, 1, 30, 0, {3, 2, 0, 2, 1}, entries + 6},
        {y4m_file, Y4M_BYTES, 1, 40, 0, {3, 2, 0, 2, 1}, entries + 6},
        {y4m_file, Y4M_BYTES, 1, 6, 0, {3, 2, 0, 2, 1}, entries + 6},
        {y4m_file, Y4M_BYTES, 2, 30, 0, {3, 2, 0, 2, 0}, entries},
        {y4m_file, Y4M_BYTES, 2, 12, 0, {3, 2, 0, 2, 0}, entries},
        {y4m_file, Y4M_BYTES, UINT64_MAX, 30, 0, {3, 2, 0, 2, 0}, entries},
        {y4m_file, Y4M_BYTES, UINT64_MAX, 12, 0, {3, 2, 0, 2, 0}, entries},
        {y4m_file, Y4M_BYTES, UINT64_C(4294967296), 12, 0, {3, 2, 0, 2, 0}, entries},
        {TEXT("YUV4MPEG2 C422 H2 W3\nFRAME\n" "12345678901234"), 0, 12, 0, {3, 2, 1, 1, 1}, of_422},
        {TEXT("YUV4MPEG2 C422 H2 W3\n"), 0, 12, 0, {3, 2, 1, 0, 0}, entries},
        {TEXT("YUV4MPEG2 W3 H2\n"), 0, 12, 0, {3, 2, 0, 0, 0}, entries},
        {TEXT(HEADER FIRST SECOND "\000"), 0, 12, 19, {0, 0, 0, 0, 0}, entries},
        {TEXT(""), 0, 12, 19, {0, 0, 0, 0, 0}, entries},
        {y4m_file, Y4M_BYTES - 1, 0, 12, 19, {0, 0, 0, 0, 0}, entries},
        {y4m_file, Y4M_BYTES - 1, UINT64_MAX, 0, 19, {0, 0, 0, 0, 0}, entries},
    };
    uint8_t header[42];
    size_t place;
    size_t number;

    for (place = 0; place < sizeof wanted / sizeof wanted[0]; place++) {
        size_t written = (size_t)wanted[place].told[4] * REFERENCE_Y4M_NUMBERS;
        struct reference_y4m told;

        expect_answer("14.5", (long)place, wanted[place].number, 0, 0,
                      call_y4m(wanted[place].text, wanted[place].length, wanted[place].first, wanted[place].given, &told));
        expect_told("14.5 told", (long)place, wanted[place].told, &told);
        for (number = 0; number < MOST_LENT; number++) {
            expect("14.5 number", (long)place, (long long)(number < written ? wanted[place].entries[number] : LENT),
                   (long long)lent[number]);
        }
    }
    expect("14.5 far", 0, 4429185138, (put_header(header, 16384, 16384, REFERENCE_420) - header) +
                                          11 * (long long)(PICTURE_LINE + picture_of(16384, 16384, REFERENCE_420).planes) + PICTURE_LINE);
}

/* RULES 10.8, 14.6: a writing; all bytes of the output EE before it. The output stays for the caller to free. */
static struct reference_answer call_y4m_write(const uint32_t *numbers, const void *bytes, size_t length, struct reference_buffer *output,
                                              size_t output_length, uint64_t *size)
{
    uint8_t *own = own_bytes(length);
    struct reference_bytes pictures;
    struct reference_answer result;

    memcpy(own, bytes, length);
    pictures.bytes = own;
    pictures.length = length;
    output->bytes = own_bytes(output_length);
    output->length = output_length;
    memset(output->bytes, 0xEE, output_length);
    *size = 77;
    result = reference_y4m_write(numbers[0], numbers[1], numbers[2], &pictures, output, size);
    free(own);
    return result;
}

/* RULES 10.8, 14.6: writings, accepted and refused; into every length of output; sizes about 2^64. */
static void test_y4m_writing(void)
{
    static const struct {
        uint32_t numbers[3];
        const char *text;
        size_t length;
    } headers[] = {
        {{4, 2, REFERENCE_420}, TEXT("YUV4MPEG2 W4 H2 F25:1 Ip C420jpeg\n")},
        {{4, 2, REFERENCE_422}, TEXT("YUV4MPEG2 W4 H2 F25:1 Ip C422\n")},
        {{1, 1, REFERENCE_422}, TEXT("YUV4MPEG2 W1 H1 F25:1 Ip C422\n")},
        {{16384, 16384, REFERENCE_420}, TEXT("YUV4MPEG2 W16384 H16384 F25:1 Ip C420jpeg\n")},
    };
    static const char pictures[] = FIRST_PLANES SECOND_PLANES "12345678";
    static const char of_422[] = "YUV4MPEG2 W3 H2 F25:1 Ip C422\n" "FRAME\n" FIRST_PLANES "\nFRA" "FRAME\n" "ME\n\n  12345678";
    static const char small[] = "YUV4MPEG2 W1 H1 F25:1 Ip C422\n" "FRAME\n" "\020\021\022";
    static const char wide[] = "YUV4MPEG2 W16384 H1 F25:1 Ip C420jpeg\n";
    static const struct {
        uint32_t numbers[3];
        size_t length;
        size_t output_length;
        uint32_t number;
        uint64_t size;
        const char *file;
    } wanted[] = {
        {{3, 2, 0}, 10, 52, 0, 50, HEADER FIRST},
        {{3, 2, 0}, 20, 66, 0, 66, HEADER FIRST FIRST_LINE SECOND_PLANES},
        {{3, 2, 0}, 20, 65, 16, 66, NULL},
        {{3, 2, 0}, 10, 50, 0, 50, HEADER FIRST},
        {{3, 2, 0}, 10, 49, 16, 50, NULL},
        {{3, 2, 0}, 10, 0, 16, 50, NULL},
        {{3, 2, 0}, 0, 36, 0, 34, HEADER},
        {{3, 2, 0}, 0, 34, 0, 34, HEADER},
        {{3, 2, 0}, 0, 33, 16, 34, NULL},
        {{3, 2, 0}, 9, 0, 19, 0, NULL},
        {{3, 2, 0}, 11, 100, 19, 0, NULL},
        {{3, 2, 0}, 21, 100, 19, 0, NULL},
        {{3, 2, 1}, 10, 100, 19, 0, NULL},
        {{3, 2, 1}, 14, 50, 0, 50, of_422},
        {{3, 2, 1}, 14, 49, 16, 50, NULL},
        {{3, 2, 1}, 28, 70, 0, 70, of_422},
        {{1, 1, 1}, 3, 39, 0, 39, small},
        {{3, 2, 2}, 0, 100, 19, 0, NULL},
        {{3, 2, 2}, 20, 100, 19, 0, NULL},
        {{3, 2, 4294967295u}, 0, 100, 19, 0, NULL},
        {{0, 2, 0}, 0, 100, 19, 0, NULL},
        {{3, 0, 0}, 0, 100, 19, 0, NULL},
        {{16384, 1, 0}, 0, 100, 0, 38, wide},
        {{16385, 1, 0}, 0, 100, 19, 0, NULL},
        {{3, 16385, 0}, 0, 100, 19, 0, NULL},
        {{1, 4294967295u, 0}, 0, 0, 19, 0, NULL},
        {{4294967295u, 4294967295u, 4294967295u}, 0, 0, 19, 0, NULL},
    };
    static const struct {
        uint64_t length;
        uint64_t output_length;
        uint32_t number;
        uint64_t size;
    } far[] = {
        {UINT64_C(6148914691236517191), 0, 16, UINT64_C(18446744073709551607)},
        {UINT64_C(6148914691236517191), UINT64_C(18446744073709551606), 16, UINT64_C(18446744073709551607)},
        {UINT64_C(6148914691236517194), 0, 16, 0},
        {UINT64_C(6148914691236517194), UINT64_MAX, 16, 0},
        {UINT64_C(6148914691236517195), UINT64_MAX, 19, 0},
        {UINT64_MAX, UINT64_MAX, 16, 0},
        {UINT64_MAX - 1, UINT64_MAX, 19, 0},
    };
    static const uint32_t one[3] = {1, 1, 0};
    struct reference_buffer output;
    struct reference_bytes many;
    uint64_t size;
    uint8_t header[42];
    size_t place;
    size_t byte;

    for (place = 0; place < sizeof headers / sizeof headers[0]; place++) {
        const uint32_t *numbers = headers[place].numbers;

        expect("14.6 header", (long)place, (long long)headers[place].length, put_header(header, numbers[0], numbers[1], numbers[2]) - header);
        expect_bytes("14.6 header", (const uint8_t *)headers[place].text, header, headers[place].length);
    }
    for (place = 0; place < sizeof wanted / sizeof wanted[0]; place++) {
        size_t written = wanted[place].number == 0 ? (size_t)wanted[place].size : 0;

        expect_answer("14.6", (long)place, wanted[place].number, 0, 0,
                      call_y4m_write(wanted[place].numbers, pictures, wanted[place].length, &output, wanted[place].output_length, &size));
        expect("14.6 size", (long)place, (long long)wanted[place].size, (long long)size);
        for (byte = 0; byte < wanted[place].output_length; byte++) {
            expect("14.6 output", (long)place, byte < written ? (uint8_t)wanted[place].file[byte] : 0xEE, output.bytes[byte]);
        }
        if (place == 1) { /* what is written is read back */
            static const uint64_t entries[2 * REFERENCE_Y4M_NUMBERS] = {40, 6, 46, 2, 48, 2, 56, 6, 62, 2, 64, 2};
            static const uint64_t numbers[5] = {3, 2, 0, 2, 2};
            struct reference_y4m told;

            expect_answer("14.6 read", 0, 0, 0, 0, call_y4m(output.bytes, output.length, 0, MOST_LENT, &told));
            expect_told("14.6 read", 0, numbers, &told);
            for (byte = 0; byte < 2 * REFERENCE_Y4M_NUMBERS; byte++) {
                expect("14.6 read", (long)byte, (long long)entries[byte], (long long)lent[byte]);
            }
        }
        free(output.bytes);
    }
    for (place = 0; place < 60; place++) {
        expect_answer("14.6 room", (long)place, place < 50 ? 16 : 0, 0, 0,
                      call_y4m_write(wanted[0].numbers, pictures, Y4M_PLANES, &output, place, &size));
        expect("14.6 room", (long)place, 50, (long long)size);
        for (byte = 0; byte < place; byte++) {
            expect("14.6 room", (long)place, place >= 50 && byte < 50 ? (uint8_t)wanted[0].file[byte] : 0xEE, output.bytes[byte]);
        }
        free(output.bytes);
    }
    for (place = 0; place < sizeof far / sizeof far[0]; place++) { /* none of their bytes is looked at */
        many.bytes = header;
        many.length = far[place].length;
        output.bytes = header;
        output.length = far[place].output_length;
        size = 77;
        expect_answer("14.6 far", (long)place, far[place].number, 0, 0, reference_y4m_write(one[0], one[1], one[2], &many, &output, &size));
        expect("14.6 far", (long)place, (long long)far[place].size, (long long)size);
    }
}

/* RULES 14.7: compares one call, whose planes are filled, with its answer, its size and the output, EE before it. */
static void expect_picture(const char *rule, long place, const uint32_t *numbers, const struct reference_plane *planes, size_t output_length,
                           uint32_t number, uint64_t told, const char *picture)
{
    struct reference_buffer output;
    uint64_t got = 77;
    size_t byte;

    output.bytes = own_bytes(output_length);
    output.length = output_length;
    memset(output.bytes, 0xEE, output_length);
    expect_answer(rule, place, number, 0, 0, reference_y4m_picture(numbers[0], numbers[1], numbers[2], planes, &output, &got));
    expect(rule, place, (long long)told, (long long)got);
    for (byte = 0; byte < output_length; byte++) {
        expect(rule, place, number == 0 && byte < told ? (uint8_t)picture[byte] : 0xEE, output.bytes[byte]);
    }
    free(output.bytes);
}

/* RULES 10.8, 14.7: pictures from planes, and refusals. */
static void test_y4m_picture(void)
{
    static const char padded[REFERENCE_PLANES][9] = {"\020\021\022\231\040\041\042\231", "\060\061\231", "\100\101"};
    static const char of_422[REFERENCE_PLANES][9] = {"\020\021\022\040\041\042", "\060\061\231\062\063\231", "\100\101\102\103"};
    static const char both[REFERENCE_PLANES][9] = {"\020\021\022\231\040\041\042\231", "\060\061\231\062\063\231", "\100\101\102\103"};
    static const char tall[] = "FRAME\n" "\020\021\022\040\041\042\060\061\062\063\100\101\102\103";
    static const char flat[] = "FRAME\n" "\020\021\022\060\061\100\101";
    static const struct {
        uint32_t numbers[6];
        uint64_t lengths[3];
        size_t output_length;
        uint32_t number;
        uint64_t told;
        const char (*filled)[9];
        const char *picture;
    } wanted[] = {
        {{3, 2, 0, 4, 3, 2}, {8, 3, 2}, 18, 0, 16, padded, FIRST},
        {{3, 2, 1, 3, 3, 2}, {6, 6, 4}, 20, 0, 20, of_422, tall},
        {{3, 2, 0, 4, 3, 2}, {8, 3, 2}, 16, 0, 16, padded, FIRST},
        {{3, 2, 0, 4, 3, 2}, {8, 3, 2}, 15, 16, 16, padded, NULL},
        {{3, 2, 0, 4, 3, 2}, {8, 3, 2}, 0, 16, 16, padded, NULL},
        {{3, 2, 0, 2, 3, 2}, {4, 3, 2}, 16, 19, 0, padded, NULL},
        {{3, 2, 0, 4, 1, 2}, {8, 1, 2}, 16, 19, 0, padded, NULL},
        {{3, 2, 0, 4, 3, 1}, {8, 3, 1}, 16, 19, 0, padded, NULL},
        {{3, 2, 0, 4, 3, 2}, {7, 3, 2}, 16, 19, 0, padded, NULL},
        {{3, 2, 0, 4, 3, 2}, {9, 3, 2}, 16, 19, 0, padded, NULL},
        {{3, 2, 0, 4, 3, 2}, {12, 3, 2}, 16, 19, 0, padded, NULL},
        {{3, 2, 0, 4, 3, 2}, {8, 2, 2}, 16, 19, 0, padded, NULL},
        {{3, 2, 0, 4, 3, 2}, {8, 3, 3}, 16, 19, 0, padded, NULL},
        {{3, 2, 0, 4, 3, 2}, {8, 3, 0}, 16, 19, 0, padded, NULL},
        {{3, 2, 1, 4, 3, 2}, {8, 3, 2}, 20, 19, 0, padded, NULL},
        {{3, 2, 0, 4, 3, 2}, {8, 6, 4}, 20, 19, 0, padded, NULL},
        {{3, 1, 0, 3, 2, 2}, {3, 2, 2}, 13, 0, 13, padded, flat},
        {{3, 1, 1, 3, 2, 2}, {3, 2, 2}, 13, 0, 13, padded, flat},
        {{3, 2, 2, 4, 3, 2}, {8, 3, 2}, 16, 19, 0, padded, NULL},
        {{0, 0, 0, 0, 0, 0}, {0, 0, 0}, 0, 19, 0, padded, NULL},
        {{16385, 1, 0, 16385, 8193, 8193}, {16385, 8193, 8193}, 0, 19, 0, padded, NULL},
        {{1, 1, 0, 4294967295u, 4294967295u, 4294967295u}, {1, 1, 1}, 9, 19, 0, padded, NULL},
        {{3, 2, 0, 2, 3, 2}, {4, 3, 2}, 0, 19, 0, padded, NULL},
        {{3, 2, 1, 4, 3, 2}, {8, 6, 4}, 20, 0, 20, both, tall},
        {{3, 2, 1, 4, 3, 2}, {8, 6, 4}, 19, 16, 20, both, NULL},
    };
    static const uint32_t numbers[3] = {3, 2, 0};
    struct reference_buffer output;
    uint64_t size;
    size_t place;
    unsigned plane;

    for (place = 0; place < sizeof wanted / sizeof wanted[0]; place++) {
        struct reference_plane planes[REFERENCE_PLANES];
        uint8_t *bytes[REFERENCE_PLANES];

        make_planes(planes, bytes, wanted[place].numbers + 3, wanted[place].lengths);
        for (plane = 0; plane < REFERENCE_PLANES; plane++) {
            size_t length = (size_t)wanted[place].lengths[plane];

            memcpy(bytes[plane], wanted[place].filled[plane], length < 8 ? length : 8);
        }
        expect_picture("14.7", (long)place, wanted[place].numbers, planes, wanted[place].output_length, wanted[place].number,
                       wanted[place].told, wanted[place].picture);
        for (plane = 0; plane < REFERENCE_PLANES; plane++) {
            free(bytes[plane]);
        }
    }
    /* The file of no pictures with the picture behind it is the file of the picture. */
    call_y4m_write(numbers, "", 0, &output, Y4M_HEADER + Y4M_PICTURE, &size);
    memcpy(output.bytes + size, FIRST, Y4M_PICTURE);
    expect_bytes("14.7 behind", (const uint8_t *)HEADER FIRST, output.bytes, Y4M_HEADER + Y4M_PICTURE);
    free(output.bytes);
    call_y4m_write(numbers, FIRST_PLANES, Y4M_PLANES, &output, Y4M_HEADER + Y4M_PICTURE, &size);
    expect("14.7 behind", 0, Y4M_HEADER + Y4M_PICTURE, (long long)size);
    expect_bytes("14.7 behind", (const uint8_t *)HEADER FIRST, output.bytes, Y4M_HEADER + Y4M_PICTURE);
    free(output.bytes);
}

/* RULES 14.7: every combination of what makes 19, and of 16; 5 × 3, so 3 × 2 of chroma in 4:2:0 and 3 × 3 in 4:2:2. */
static void test_y4m_order(void)
{
    enum { FAULTS = 10, OF_OUTPUT = 1u << 9 };
    unsigned faults;
    unsigned plane;

    for (faults = 0; faults < 2u << FAULTS; faults++) {
        uint32_t sampling = faults >> FAULTS;
        uint32_t numbers[3] = {5, 3, 0};
        uint32_t strides[3] = {6, 4, 4};
        uint64_t lengths[3] = {18, 8, 8};
        uint64_t size = sampling == REFERENCE_420 ? 6 + 15 + 2 * 6 : 6 + 15 + 2 * 9;
        uint32_t number = (faults & (OF_OUTPUT - 1)) != 0 ? 19 : (faults & OF_OUTPUT) != 0 ? 16 : 0;
        struct reference_plane planes[REFERENCE_PLANES];
        uint8_t *bytes[REFERENCE_PLANES];
        char picture[64];

        numbers[0] = (faults & 1u) != 0 ? 0 : 5;
        numbers[1] = (faults & 2u) != 0 ? 16385 : 3;
        numbers[2] = (faults & 4u) != 0 ? 2 : sampling;
        for (plane = 0; plane < REFERENCE_PLANES; plane++) {
            uint64_t rows = plane == 0 || sampling == REFERENCE_422 ? 3 : 2;

            if ((faults >> (3 + 2 * plane) & 1u) != 0) {
                strides[plane] = plane == 0 ? 4 : 2;
            }
            lengths[plane] = strides[plane] * rows + (faults >> (4 + 2 * plane) & 1u);
        }
        make_planes(planes, bytes, strides, lengths);
        stretch(picture, "FRAME\n", '\231', (size_t)size - 6, "");
        expect_picture("14.7 order", (long)faults, numbers, planes, (size_t)size - ((faults & OF_OUTPUT) != 0), number,
                       number == 19 ? 0 : size, picture);
        for (plane = 0; plane < REFERENCE_PLANES; plane++) {
            free(bytes[plane]);
        }
    }
}

/* RULES 14.4: the parts of the line at the start of these bytes, by the first two steps: how many there are, or 0. Its newline too. */
enum { MOST_PARTS = 256 };

struct part {
    const uint8_t *bytes;
    size_t length;
};

static size_t cut_line(const uint8_t *bytes, size_t left, const char *word, struct part *parts, size_t *newline)
{
    size_t count = 0;
    size_t start = 0;
    size_t at;
    const uint8_t *found = memchr(bytes, 10, left < 256 ? left : 256);

    if (found == NULL) {
        return 0;
    }
    *newline = (size_t)(found - bytes);
    for (at = 0; at <= *newline; at++) {
        if (at == *newline || bytes[at] == 32) {
            parts[count].bytes = bytes + start;
            parts[count].length = at - start;
            if (count > 0 && at == start) {
                return 0;
            }
            count++;
            start = at + 1;
        }
    }
    return parts[0].length == strlen(word) && memcmp(parts[0].bytes, word, parts[0].length) == 0 ? count : 0;
}

/* RULES 14.2: the side that the one tag of these that begins with this byte says, 0 where there is none or it is wrong. */
static uint64_t side_said(const struct part *parts, size_t count, uint8_t begin)
{
    uint64_t side = 0;
    unsigned tags = 0;
    size_t part;

    for (part = 1; part < count; part++) {
        char digits[8];
        char again[24];

        if (parts[part].bytes[0] != begin) {
            continue;
        }
        tags++;
        if (parts[part].length < 2 || parts[part].length > 6) { /* 16,384 has five digits, and the first is not 0 */
            return 0;
        }
        memcpy(digits, parts[part].bytes + 1, parts[part].length - 1);
        digits[parts[part].length - 1] = '\0';
        side = strtoul(digits, NULL, 10);
        sprintf(again, "%lu", (unsigned long)side);
        if (strlen(again) != parts[part].length - 1 || memcmp(again, parts[part].bytes + 1, strlen(again)) != 0 || side > 16384) {
            return 0;
        }
    }
    return tags == 1 ? side : 0;
}

/* RULES 14.4: decides by the steps whether bytes are a file: what a reading tells of one, and where its first Y's start. */
static int decide(const uint8_t *bytes, size_t length, uint64_t *told, uint64_t *first_y)
{
    static const char *const tags[2][3] = {{"C420", "C420jpeg", "C420mpeg2"}, {"C422", "C422", "C422"}};
    struct part parts[MOST_PARTS];
    size_t newline;
    size_t count = cut_line(bytes, length, "YUV4MPEG2", parts, &newline);
    size_t chroma;
    size_t at;
    size_t part;
    unsigned samplings = 0;

    told[0] = side_said(parts, count, 'W');
    told[1] = side_said(parts, count, 'H');
    told[2] = 0;
    told[3] = 0;
    for (part = 1; part < count; part++) {
        if (parts[part].bytes[0] == 'C') {
            unsigned tag = 0;

            samplings++;
            while (tag < 6 && (parts[part].length != strlen(tags[tag / 3][tag % 3]) ||
                               memcmp(parts[part].bytes, tags[tag / 3][tag % 3], parts[part].length) != 0)) {
                tag++;
            }
            samplings += tag == 6; /* as good as a second one */
            told[2] = tag / 3;
        }
    }
    if (told[0] == 0 || told[1] == 0 || samplings > 1) {
        return 0;
    }
    chroma = (size_t)((told[0] + 1) / 2 * (told[2] == 1 ? told[1] : (told[1] + 1) / 2));
    at = newline + 1;
    while (at < length) {
        size_t left = length - at;
        size_t planes = (size_t)(told[0] * told[1]) + 2 * chroma;

        if (cut_line(bytes + at, left, "FRAME", parts, &newline) == 0 || left - newline - 1 < planes) {
            return 0;
        }
        if (told[3] < MOST_LENT / REFERENCE_Y4M_NUMBERS) {
            first_y[told[3]] = at + newline + 1;
        }
        at += newline + 1 + planes;
        told[3]++;
    }
    return 1;
}

/* RULES 14.4, 14.5: a reading of these bytes against the steps, which ask the first newline first; gives whether they are a file. */
static int expect_decided(const char *rule, long place, const void *bytes, size_t length)
{
    enum { ROOM = MOST_LENT / REFERENCE_Y4M_NUMBERS };
    struct reference_y4m told;
    uint64_t first_y[ROOM];
    uint64_t wanted[5] = {0};
    uint64_t decided[4];
    int is_file = decide(bytes, length, decided, first_y);
    size_t number;

    if (is_file) {
        memcpy(wanted, decided, sizeof decided);
        wanted[4] = decided[3] < ROOM ? decided[3] : ROOM;
    }
    expect_answer(rule, place, is_file ? 0 : 19, 0, 0, call_y4m(bytes, length, 0, MOST_LENT, &told));
    expect_told(rule, place, wanted, &told);
    for (number = 0; number < MOST_LENT; number++) {
        uint64_t luma = wanted[0] * wanted[1];
        uint64_t chroma = (wanted[0] + 1) / 2 * (wanted[2] == 1 ? wanted[1] : (wanted[1] + 1) / 2);
        uint64_t which = number / REFERENCE_Y4M_NUMBERS;
        uint64_t entry[REFERENCE_Y4M_NUMBERS];

        entry[0] = which < wanted[4] ? first_y[which] : 0;
        entry[1] = luma;
        entry[2] = entry[0] + luma;
        entry[3] = chroma;
        entry[4] = entry[2] + chroma;
        entry[5] = chroma;
        expect(rule, place, which < wanted[4] ? (long long)entry[number % REFERENCE_Y4M_NUMBERS] : LENT, (long long)lent[number]);
    }
    return is_file;
}

/*
 * RULES 14.4: the file of the examples, and a short one of 4:2:2, cut at each byte, with each bit changed, with each byte left out,
 * twice, exchanged with the next, and with each of a few bytes in its place and before it.
 */
static void test_every_y4m_byte(void)
{
    static const struct {
        const char *text;
        size_t length;
    } files[2] = {{HEADER FIRST SECOND, Y4M_BYTES}, {TEXT("YUV4MPEG2 H1 C422 W2\nFRAME\n1234FRAME X\n5678FRAME\n\n\n\n\n")}};
    static const char others[] = " \nWHCFR0129\r\t";
    uint8_t bytes[Y4M_BYTES + 1];
    size_t place;
    size_t other;
    unsigned file;
    unsigned bit;

    for (place = 0; place <= Y4M_BYTES; place++) {
        expect_y4m("14.4 cut", (long)place, y4m_file, place, place == 34 || place == 50 || place == 72, place == 34 ? 0 : place == 50 ? 1 : 2);
    }
    for (file = 0; file < 2; file++) {
        const char *text = files[file].text;
        size_t length = files[file].length;

        expect("14.4 whole", file, 1, expect_decided("14.4 whole", file, text, length));
        for (place = 0; place < length; place++) {
            expect_decided("14.4 cut", (long)place, text, place);
            for (bit = 0; bit < 8; bit++) {
                memcpy(bytes, text, length);
                bytes[place] = (uint8_t)(bytes[place] ^ 1u << bit);
                expect_decided("14.4 bit", (long)(8 * place + bit), bytes, length);
            }
            memcpy(bytes, text, place);
            memcpy(bytes + place, text + place + 1, length - place - 1);
            expect_decided("14.4 left out", (long)place, bytes, length - 1);
            memcpy(bytes, text, place + 1);
            memcpy(bytes + place + 1, text + place, length - place);
            expect_decided("14.4 twice", (long)place, bytes, length + 1);
            if (place + 1 < length) {
                memcpy(bytes, text, length);
                bytes[place] = (uint8_t)text[place + 1];
                bytes[place + 1] = (uint8_t)text[place];
                expect_decided("14.4 exchanged", (long)place, bytes, length);
            }
            for (other = 0; other < sizeof others; other++) { /* its last byte 0 too */
                memcpy(bytes, text, length);
                bytes[place] = (uint8_t)others[other];
                expect_decided("14.4 other", (long)place, bytes, length);
                memcpy(bytes + place + 1, text + place, length - place);
                expect_decided("14.4 before", (long)place, bytes, length + 1);
            }
        }
    }
}

/* Puts a text behind another, with room for both, of which this many bytes are there; gives the bytes of both. */
static size_t add_text(char *text, size_t length, const char *more)
{
    memcpy(text + length, more, strlen(more));
    return length + strlen(more);
}

/* Puts a tag of a side behind a text: with this side, or with what may be none. */
static size_t add_side(char *text, size_t length, const char *tag, uint32_t side, int as_said)
{
    static const char *const sides[] = {"1", "2", "3", "0", "02", "16384", "16385", "", "2x", "4294967297", "18446744073709551617", "-1"};
    char digits[12];

    length = add_text(text, length, tag);
    sprintf(digits, "%lu", (unsigned long)side);
    return add_text(text, length, as_said ? digits : sides[below(sizeof sides / sizeof sides[0])]);
}

/* Puts a tag that is passed over behind a text. */
static size_t add_other(char *text, size_t length)
{
    static const char *const others[] = {" F25:1", " Ip", " A1:1", " XYSCSS=420JPEG", " X\r", " w3", " h3", " c422",
                                         " :",     " \t", " FRAME", " YUV4MPEG2",     " \377"};

    return add_text(text, length, others[below(sizeof others / sizeof others[0])]);
}

/* How often a part is as it ought to be: in every third file always. */
static int ought(uint32_t faults)
{
    return faults == 0 || below(12) != 0;
}

/* RULES 14.4: files of parts by chance, against the steps; both kinds come. */
static void test_any_y4m(void)
{
    enum { FILES = 6000 };
    static const char *const words[2][4] = {{"YUV4MPEG2", "YUV4MPEG", "FRAME", "yuv4mpeg2"}, {"FRAME", "FRAMES", "YUV4MPEG2", " FRAME"}};
    static const char *const samplings[] = {"",       " C420", " C420jpeg", " C420mpeg2", " C422",
                                            " C422", " C444", " C",        " C420paldv", " C4222"};
    static const char *const ends[] = {"\n", "\r\n", " \n", "\n\n", ""};
    static char text[1024];
    long file;
    long files = 0;

    for (file = 0; file < FILES; file++) {
        uint32_t wide = 1 + below(4);
        uint32_t high = 1 + below(4);
        uint32_t faults = below(3);
        uint32_t sampling = below(6);
        uint32_t order = below(6);
        uint32_t pictures = below(4);
        size_t planes = wide * high + 2 * ((wide + 1) / 2) * (sampling > 3 ? high : (high + 1) / 2);
        size_t length = add_text(text, 0, words[0][ought(faults) ? 0 : below(4)]);
        uint32_t tag;

        for (tag = 0; tag < 3; tag++) { /* W, H and C in each order */
            uint32_t which = order % 2 == 0 ? (order + tag) % 3 : (order + 3 - tag) % 3;

            if (below(3) == 0) {
                length = add_other(text, length);
            }
            if (!ought(faults)) {
                which = below(3);
            }
            if (which < 2) {
                length = add_side(text, length, which == 0 ? " W" : " H", which == 0 ? wide : high, ought(faults));
            } else {
                length = add_text(text, length, samplings[ought(faults) ? sampling : below(10)]);
            }
        }
        length = add_text(text, length, ends[ought(faults) ? 0 : below(5)]);
        for (; pictures > 0; pictures--) {
            size_t left = planes - (ought(faults) ? 0 : below(3));

            length = add_text(text, length, words[1][ought(faults) ? 0 : below(4)]);
            for (tag = below(3); tag > 0; tag--) {
                length = add_text(text, length, ought(faults) ? "" : " ");
                length = add_other(text, length);
            }
            length = add_text(text, length, ends[ought(faults) ? 0 : below(5)]);
            for (; left > 0; left--) {
                text[length] = (char)(below(4) == 0 ? NEWLINE : below(256));
                length++;
            }
        }
        files += expect_decided("14.4 any", file, text, length);
    }
    expect("14.4 any", FILES, 1, files > FILES / 4 && files < FILES - FILES / 4);
}

/*
 * RULES 14.3 to 14.7: this many pictures of a size, made one by one from planes with padding and put behind the file of none. That
 * is the file written of all their planes; read, each plane is where its entry says.
 */
enum { MOST_SIDE = 7, MOST_PICTURES = 4 };

static void test_y4m_list(const uint32_t *numbers, uint32_t count)
{
    enum { MOST = MOST_PICTURES, MOST_PLANES = 3 * MOST_SIDE * MOST_SIDE, MOST_FILE = 42 + MOST * (6 + MOST_PLANES) };
    long place = (long)(1000 * numbers[0] + 100 * numbers[1] + 10 * numbers[2] + count);
    uint8_t planes_given[MOST * MOST_PLANES];
    uint8_t joined[MOST_FILE];
    struct reference_buffer output;
    struct reference_y4m told;
    uint64_t size;
    uint64_t length;
    size_t given = 0;
    uint32_t picture;
    unsigned plane;
    size_t byte;

    expect_answer("14.6 none", place, 0, 0, 0, call_y4m_write(numbers, "", 0, &output, MOST_FILE, &length));
    memcpy(joined, output.bytes, MOST_FILE);
    free(output.bytes);
    for (picture = 0; picture < count; picture++) {
        uint32_t strides[REFERENCE_PLANES];
        uint64_t lengths[REFERENCE_PLANES];
        struct reference_plane planes[REFERENCE_PLANES];
        uint8_t *bytes[REFERENCE_PLANES];
        uint32_t columns[REFERENCE_PLANES];

        for (plane = 0; plane < REFERENCE_PLANES; plane++) {
            uint32_t rows = plane == 0 || numbers[2] == 1 ? numbers[1] : (numbers[1] + 1) / 2;

            columns[plane] = plane == 0 ? numbers[0] : (numbers[0] + 1) / 2;
            strides[plane] = columns[plane] + below(3);
            lengths[plane] = strides[plane] * (uint64_t)rows;
        }
        make_planes(planes, bytes, strides, lengths);
        for (plane = 0; plane < REFERENCE_PLANES; plane++) {
            for (byte = 0; byte < lengths[plane]; byte++) {
                bytes[plane][byte] = (uint8_t)(below(3) == 0 ? 10 : below(256));
                if (byte % strides[plane] < columns[plane]) {
                    planes_given[given] = bytes[plane][byte];
                    given++;
                }
            }
        }
        output.bytes = joined + (size_t)length;
        output.length = MOST_FILE - length;
        expect_answer("14.7 list", place, 0, 0, 0, reference_y4m_picture(numbers[0], numbers[1], numbers[2], planes, &output, &size));
        length += size;
        for (plane = 0; plane < REFERENCE_PLANES; plane++) {
            free(bytes[plane]);
        }
    }
    expect_answer("14.6 list", place, 0, 0, 0, call_y4m_write(numbers, planes_given, given, &output, MOST_FILE, &size));
    expect("14.6 list", place, (long long)length, (long long)size);
    expect_bytes("14.6 list", joined, output.bytes, MOST_FILE);
    free(output.bytes);
    if (count > 0) {
        expect_answer("14.6 short", place, 19, 0, 0, call_y4m_write(numbers, planes_given, given - 1, &output, MOST_FILE, &size));
        expect("14.6 short", place, 0, (long long)size);
        free(output.bytes);
    }
    expect_decided("14.5 list", place, joined, (size_t)length);
    expect_answer("14.5 list", place, 0, 0, 0, call_y4m(joined, (size_t)length, 0, MOST_LENT, &told));
    expect("14.5 list", place, count, (long long)told.entries);
    given = 0;
    for (picture = 0; picture < count; picture++) {
        for (plane = 0; plane < REFERENCE_PLANES; plane++) {
            const uint64_t *pair = lent + REFERENCE_Y4M_NUMBERS * picture + 2 * plane;

            expect_bytes("14.5 plane", planes_given + given, joined + (size_t)pair[0], (size_t)pair[1]);
            given += (size_t)pair[1];
        }
    }
}

/* RULES 14.2, 14.6: each side that a file can have is written and read back, in both samplings. */
static void test_every_side(void)
{
    uint8_t header[42];
    uint32_t side;

    for (side = 1; side <= REFERENCE_LARGEST_SIDE; side++) {
        uint32_t sampling = side % 3 == 0 ? REFERENCE_422 : REFERENCE_420;
        uint32_t other = REFERENCE_LARGEST_SIDE + 1 - side;
        size_t length = (size_t)(put_header(header, side, other, sampling) - header);

        expect_header("14.6 side", (long)side, (const char *)header, length, side, other, sampling);
    }
}

/* RULES 14: up to four pictures of each size up to 7 × 7; a file of 1,000 pictures, read from each of them on. */
static void test_y4m_lists(void)
{
    enum { MANY = 1000 };
    static uint8_t planes[3 * MANY];
    uint32_t numbers[3];
    struct reference_buffer output;
    uint64_t size;
    uint32_t count;
    long list;

    for (numbers[0] = 1; numbers[0] <= MOST_SIDE; numbers[0]++) {
        for (numbers[1] = 1; numbers[1] <= MOST_SIDE; numbers[1]++) {
            for (numbers[2] = 0; numbers[2] < REFERENCE_SAMPLINGS; numbers[2]++) {
                for (count = 0; count <= MOST_PICTURES; count++) {
                    test_y4m_list(numbers, count);
                }
            }
        }
    }
    numbers[0] = 1;
    numbers[1] = 1;
    numbers[2] = REFERENCE_422;
    memset(planes, NEWLINE, sizeof planes);
    expect_answer("14.6 many", 0, 0, 0, 0, call_y4m_write(numbers, planes, sizeof planes, &output, 30 + 9 * MANY, &size));
    expect("14.6 many", 0, 30 + 9 * MANY, (long long)size);
    for (list = 0; list <= MANY; list++) {
        struct reference_y4m told;
        uint64_t wanted[5] = {1, 1, 1, MANY, 0};

        wanted[4] = list + 7 <= MANY ? 7 : (uint64_t)(MANY - list);
        expect_answer("14.5 many", list, 0, 0, 0, call_y4m(output.bytes, (size_t)size, (uint64_t)list, MOST_LENT, &told));
        expect_told("14.5 many", list, wanted, &told);
        expect("14.5 many", list, list < MANY ? 36 + 9 * list : LENT, (long long)lent[0]);
        expect("14.5 many", list, list + 7 <= MANY ? 36 + 9 * (list + 6) + 2 : LENT, (long long)lent[40]);
        expect("14.5 many", list, LENT, (long long)lent[42]);
    }
    free(output.bytes);
}

/* All examples, one chapter after the other. */
int main(void)
{
    reference_make_tables(&tables);
    test_numbers();
    test_curves();
    test_longest();
    test_equal_at_1();
    test_every_gamma_entry();
    test_bytes_that_come_back();
    test_checksums();
    test_steps();
    test_weights();
    test_stored_weights();
    test_colours();
    test_counts();
    test_first_and_last_colours();
    test_count_refusals();
    test_chroma_colours();
    test_frames();
    test_refusals();
    test_band_refusals();
    test_finished();
    test_bands();
    test_every_split(REFERENCE_TRUNCATED);
    test_every_split(REFERENCE_NEAREST);
    test_windows();
    test_window_lengths();
    test_odd_window();
    test_window_bands();
    test_every_window();
    test_worked_greys();
    test_grey_weights();
    test_grey_frames();
    test_layout();
    test_reading();
    test_many(1);
    test_many(4095);
    test_many(4096);
    test_many(4097);
    test_every_bit();
    test_writing();
    test_record();
    test_record_order();
    test_lists();
    test_frame_record();
    test_settings_layout();
    test_settings_records();
    test_moving();
    test_entries();
    test_means();
    test_which_summary();
    test_building();
    test_checking();
    test_lookup();
    test_update();
    test_update_order();
    test_every_summary_bit();
    test_every_list();
    test_any_lists();
    test_full(0);
    test_full(1);
    test_full(2);
    test_full(3);
    test_pairs();
    test_reports();
    test_first_difference();
    test_every_place();
    test_every_sizes();
    test_broken_pairs();
    test_every_pairing();
    test_any_pairings();
    test_full_pairing(1);
    test_full_pairing(7);
    test_full_pairing(MOST_FULL);
    test_either_form();
    test_y4m_lines();
    test_y4m_headers();
    test_y4m_layout();
    test_y4m_changes();
    test_y4m_reading();
    test_y4m_writing();
    test_y4m_picture();
    test_y4m_decimals();
    test_every_side();
    test_y4m_order();
    test_every_y4m_byte();
    test_any_y4m();
    test_y4m_lists();
    printf("%lu comparisons, %lu differ\n", asked, differing);
    return differing == 0 ? EXIT_SUCCESS : EXIT_FAILURE;
}
