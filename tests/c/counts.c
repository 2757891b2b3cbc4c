/*
 * How many colours share a luma: every count of every range and matrix, against another way of counting and against the luma that frame calls give
 * all colours; refusals 1 and 4, which leave every count as it was; counts against closed pages, and at addresses that are multiples of 4 alone.
 */
#include "lent.h"

#include "segvartin.h"

#include <math.h>

enum { COLOURS = 16777216, MATRICES = 6 };

/* RULES 4.1, and of Fcc 4.3: yr, yg, yb by matrix and range, Limited first. */
static const uint32_t named[MATRICES][2][3] = {
    {{2104, 4130, 802}, {2449, 4809, 934}},
    {{1496, 5032, 508}, {1742, 5859, 591}},
    {{1848, 4770, 417}, {2152, 5554, 486}},
    {{612, 4932, 1492}, {713, 5743, 1737}},
    {{1562, 4972, 502}, {1819, 5789, 584}},
    {{2111, 4151, 774}, {2458, 4833, 901}},
};

/* Custom pairs with the weights that RULES 4.4 and 4.5 make of them. */
static const struct custom {
    float kr, kb;
    uint32_t range, weights[3];
} customs[] = {
    {0.299f, 0.114f, SEGVARTIN_LIMITED, {2104, 4130, 802}}, /* Bt601's */
    {0.299f, 0.114f, SEGVARTIN_FULL, {2449, 4809, 934}},
    {0.3f, 0.11f, SEGVARTIN_LIMITED, {2111, 4151, 774}}, /* Fcc's */
    {0.3f, 0.11f, SEGVARTIN_FULL, {2458, 4833, 901}},
    {0, 0, SEGVARTIN_FULL, {0, 8192, 0}},
    {-0.0f, 0.5f, SEGVARTIN_FULL, {0, 4096, 4096}},
    {0.5f, 0.5f, SEGVARTIN_FULL, {4096, 0, 4096}},
    {0.5f, 0x1p-14f, SEGVARTIN_FULL, {4096, 4096, 1}}, /* they add to 8193 */
    /* The order of the three weights does not matter to a count, but kg does: it is 4806 where kr and kb are exchanged. */
    {0x1.81d42cp-3f, 0x1.074f5ap-3f, SEGVARTIN_LIMITED, {1325, 4805, 905}},
    {0x1.074f5ap-3f, 0x1.81d42cp-3f, SEGVARTIN_LIMITED, {905, 4806, 1325}},
    {0x1.d4150ap-7f, 0x1.63231p-6f, SEGVARTIN_LIMITED, {101, 6782, 152}},
};

/*
 * The counts by RULES 5.1: how many R and G have a sum up to each number, then for each B how many colours stay below the next luma. Of an accepted
 * matrix no luma is above the range, so nothing is cut off.
 */
static void count(const uint32_t weights[3], uint32_t range, uint32_t counts[256]) {
    static uint32_t up_to[255 * 8193 + 1];
    uint32_t start = (range == SEGVARTIN_LIMITED ? 16 * 8192 : 0) + 4095, most = 255 * (weights[0] + weights[1]), before = 0;
    memset(up_to, 0, sizeof up_to);
    for (uint32_t r = 0; r < 256; r++)
        for (uint32_t g = 0; g < 256; g++) up_to[r * weights[0] + g * weights[1]]++;
    for (uint32_t sum = 1; sum <= most; sum++) up_to[sum] += up_to[sum - 1];
    for (uint32_t y = 0; y < 256; y++) {
        uint32_t colours = 0;
        for (uint32_t b = 0; b < 256; b++) {
            int64_t left = (int64_t)(y + 1) * 8192 - 1 - start - b * weights[2];
            if (left >= 0) colours += up_to[left < most ? left : most];
        }
        counts[y] = colours - before;
        before = colours;
    }
}

/* The counts as frame calls have it: a frame for each R, G by rows and B by columns, and the bytes of its luma. */
static void count_frames(uint32_t range, uint32_t matrix, float kr, float kb, uint32_t counts[256]) {
    static uint8_t pixels[256 * 256 * 3], luma[256 * 256], cb[128 * 128], cr[128 * 128];
    segvartin_bytes source = {pixels, sizeof pixels};
    segvartin_bytes_mut y = {luma, sizeof luma}, u = {cb, sizeof cb}, v = {cr, sizeof cr};
    segvartin_description d = {0};
    d.width = d.height = d.y_stride = 256;
    d.u_stride = d.v_stride = 128;
    d.range = range, d.matrix = matrix, d.kr = kr, d.kb = kb;
    memset(counts, 0, 256 * sizeof *counts);
    for (uint32_t r = 0; r < 256; r++) {
        for (uint32_t i = 0; i < 256 * 256; i++) {
            pixels[3 * i] = (uint8_t)r;
            pixels[3 * i + 1] = (uint8_t)(i >> 8);
            pixels[3 * i + 2] = (uint8_t)i;
        }
        EXPECT(segvartin_convert_frame(&d, source, 3 * 256, y, u, v).number == SEGVARTIN_FINISHED);
        for (uint32_t i = 0; i < 256 * 256; i++) counts[luma[i]]++;
    }
}

static uint32_t *numbers_of(const lent *b) { return (uint32_t *)(void *)b->at; }

/* One accepted call on lent counts: these weights' counts, and all colours. */
static void counted(uint32_t range, uint32_t matrix, float kr, float kb, const uint32_t weights[3]) {
    lent lent_counts = lend(256 * sizeof(uint32_t));
    uint32_t expected[256], total = 0, *counts = numbers_of(&lent_counts);
    count(weights, range, expected);
    EXPECT(segvartin_luma_counts(range, matrix, kr, kb, counts) == SEGVARTIN_FINISHED);
    EXPECT(memcmp(counts, expected, sizeof expected) == 0);
    for (int y = 0; y < 256; y++) {
        total += counts[y];
        if (range == SEGVARTIN_LIMITED && (y < 16 || y > 235)) EXPECT(counts[y] == 0);
    }
    EXPECT(total == COLOURS);
    give_back(&lent_counts);
}

/* The twelve pairs. A named matrix does not look at kr and kb. */
static void named_matrices(void) {
    for (uint32_t range = 0; range < 2; range++)
        for (uint32_t matrix = 0; matrix < MATRICES; matrix++) counted(range, matrix, NAN, 7, named[matrix][range]);
}

static void custom_matrices(void) {
    for (size_t i = 0; i < sizeof customs / sizeof *customs; i++)
        counted(customs[i].range, SEGVARTIN_CUSTOM, customs[i].kr, customs[i].kb, customs[i].weights);
}

static void as_frames_have_it(uint32_t range, uint32_t matrix, float kr, float kb) {
    uint32_t counts[256], frames[256];
    count_frames(range, matrix, kr, kb, frames);
    EXPECT(segvartin_luma_counts(range, matrix, kr, kb, counts) == SEGVARTIN_FINISHED);
    EXPECT(memcmp(counts, frames, sizeof counts) == 0);
}

/* Bt601 Full: 7 colours at either end. By the weights 0, 8192, 0 luma is green itself, 65536 colours each. */
static void worked_counts(void) {
    uint32_t counts[256];
    EXPECT(segvartin_luma_counts(SEGVARTIN_FULL, SEGVARTIN_BT601, 0, 0, counts) == SEGVARTIN_FINISHED);
    EXPECT(counts[0] == 7 && counts[255] == 7);
    EXPECT(segvartin_luma_counts(SEGVARTIN_FULL, SEGVARTIN_CUSTOM, 0, 0, counts) == SEGVARTIN_FINISHED);
    for (int y = 0; y < 256; y++) EXPECT(counts[y] == 65536);
}

static void refused(uint32_t range, uint32_t matrix, float kr, float kb, uint32_t number) {
    lent counts = lend(256 * sizeof(uint32_t));
    EXPECT(segvartin_luma_counts(range, matrix, kr, kb, numbers_of(&counts)) == number);
    EXPECT(untouched(&counts));
    give_back(&counts);
}

static void refusals(void) {
    static const uint32_t far[4] = {256, 65536, 0x80000000, UINT32_MAX};
    const float not_accepted[] = {0.6f, NAN, -0.1f, nextafterf(0.5f, 1), nextafterf(0, -1), INFINITY, -INFINITY, 1};
    for (uint32_t range = 0; range < 2; range++) {
        refused(range, 7, 0.25f, 0.25f, SEGVARTIN_MALFORMED_REQUEST);
        for (int i = 0; i < 4; i++) refused(range, far[i], 0.25f, 0.25f, SEGVARTIN_MALFORMED_REQUEST);
        for (size_t i = 0; i < sizeof not_accepted / sizeof *not_accepted; i++) {
            refused(range, SEGVARTIN_CUSTOM, not_accepted[i], 0.25f, SEGVARTIN_MATRIX_NOT_ACCEPTED);
            refused(range, SEGVARTIN_CUSTOM, 0.25f, not_accepted[i], SEGVARTIN_MATRIX_NOT_ACCEPTED);
        }
    }
    for (uint32_t matrix = 0; matrix <= SEGVARTIN_CUSTOM; matrix++) {
        refused(2, matrix, 0.25f, 0.25f, SEGVARTIN_MALFORMED_REQUEST);
        for (int i = 0; i < 4; i++) refused(far[i], matrix, 0.25f, 0.25f, SEGVARTIN_MALFORMED_REQUEST);
        /* 1 before 4 */
        refused(2, matrix, NAN, 0.6f, SEGVARTIN_MALFORMED_REQUEST);
    }
}

/*
 * The exported function answers 1 to every count of numbers but two, whatever they are, and writes no count. Numbers, kr with kb, and what is told have
 * closed pages at them too.
 */
static void counts_of_numbers(void) {
    static const uint32_t numbers[4] = {SEGVARTIN_LIMITED, SEGVARTIN_CUSTOM, SEGVARTIN_FULL, SEGVARTIN_BT601};
    static const float pair[2] = {0.299f, 0.114f};
    for (size_t given = 0; given <= 4; given++) {
        lent from = lend(given * sizeof *numbers), custom = lend(sizeof pair), told = lend(2 * sizeof(size_t)), counts = lend(256 * sizeof(uint32_t));
        static const size_t nothing[2] = {0, 0};
        memcpy(from.at, numbers, from.len);
        memcpy(custom.at, pair, custom.len);
        uint32_t number = segvartin_luma_counts_in_default_mode(numbers_of(&from), given, (const float *)(const void *)custom.at,
                                                                numbers_of(&counts), (size_t *)(void *)told.at);
        EXPECT(number == (given == 2 ? SEGVARTIN_FINISHED : SEGVARTIN_MALFORMED_REQUEST));
        EXPECT(memcmp(told.at, nothing, sizeof nothing) == 0);
        if (given == 2) {
            uint32_t expected[256];
            count(named[SEGVARTIN_BT601][SEGVARTIN_LIMITED], SEGVARTIN_LIMITED, expected);
            EXPECT(memcmp(counts.at, expected, sizeof expected) == 0);
        } else
            EXPECT(untouched(&counts));
        give_back(&from);
        give_back(&custom);
        give_back(&told);
        give_back(&counts);
    }
}

/* Counts that stand 4, 8, 12 and 60 bytes past a multiple of 64, between numbers that stay as they are; also where the call is refused. */
static void among_numbers(void) {
    static const size_t places[4] = {1, 2, 3, 15};
    closed_before = 1; /* lent from the start of a page on */
    for (int i = 0; i < 4; i++) {
        uint32_t expected[256];
        lent around = lend((places[i] + 256 + 16) * sizeof(uint32_t)), kept = lend(around.len);
        uint32_t *counts = numbers_of(&around) + places[i];
        EXPECT((uintptr_t)counts % 64 == 4 * places[i]);
        EXPECT(segvartin_luma_counts(SEGVARTIN_FULL, SEGVARTIN_CUSTOM, 0.6f, 0, counts) == SEGVARTIN_MATRIX_NOT_ACCEPTED);
        EXPECT(segvartin_luma_counts(2, SEGVARTIN_BT601, 0, 0, counts) == SEGVARTIN_MALFORMED_REQUEST);
        EXPECT(untouched(&around));
        count(named[SEGVARTIN_SMPTE240][SEGVARTIN_FULL], SEGVARTIN_FULL, expected);
        memcpy(numbers_of(&kept) + places[i], expected, sizeof expected);
        EXPECT(segvartin_luma_counts(SEGVARTIN_FULL, SEGVARTIN_SMPTE240, 0, 0, counts) == SEGVARTIN_FINISHED);
        EXPECT(memcmp(around.at, kept.at, kept.len) == 0);
        give_back(&around);
        give_back(&kept);
    }
}

int main(void) {
    for (closed_before = 0; closed_before < 2; closed_before++) {
        named_matrices();
        refusals();
        counts_of_numbers();
    }
    custom_matrices();
    worked_counts();
    among_numbers();
    for (uint32_t range = 0; range < 2; range++) {
        for (uint32_t matrix = 0; matrix < MATRICES; matrix++) as_frames_have_it(range, matrix, 0, 0);
        as_frames_have_it(range, SEGVARTIN_CUSTOM, 0.25f, 0.0625f);
    }
    return finish("counts");
}
