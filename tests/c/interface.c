/* Tests of every call of include/vektrid.h: each refusal under its number, what a refused call leaves as it was, and the known points, the
 * example listing and the sheet of the requirements. C99, C11 and C++17 compile it; tests/c/run does, and runs it.
 *
 * What is expected comes from the requirements: their examples, or their definitions written out again here (column_of, flipped, x_of).
 */
#include <stdio.h>
#include <string.h>

#include "vektrid.h"

#define LAST 0xFFFFFFFFu
#define KEPT 0xA5A5A5A5u /* what stands in lent words before a call that must not write them */
#define BYTE_KEPT 0xA5u

static unsigned checks, failures;
static unsigned refused[19]; /* how often each refusal was given where it is due */

static int check(int holds, const char *claim, const char *file, int line) {
    checks++;
    if (!holds) {
        failures++;
        printf("%s:%d: not so: %s\n", file, line, claim);
    }
    return holds;
}

#define CHECK(claim) ((void)check((claim) ? 1 : 0, #claim, __FILE__, __LINE__))

/* The call is refused under that number. */
#define REFUSES(number, call) \
    ((void)(refused[number] += (unsigned)check((call) == (uint32_t)(number), #call " is refused under " #number, __FILE__, __LINE__)))

/* ---- pairs and points by their definitions */

static uint32_t standard[64], identities[64], zeros[64];

/* Column c of X or Y of the standard pair: Y has a one in row r where "c over r" is odd, which is where the bits of r are bits of c. */
static uint32_t column_of(int axis, uint32_t c) {
    uint32_t word = 0;
    for (uint32_t r = 0; r < 32; r++)
        if (axis == 0 ? r == c : (r & c) == r)
            word |= 1u << (31 - r);
    return word;
}

static void make_pairs(void) {
    for (uint32_t c = 0; c < 32; c++) {
        standard[c] = identities[c] = identities[32 + c] = column_of(0, c);
        standard[32 + c] = column_of(1, c);
        zeros[c] = zeros[32 + c] = 0;
    }
}

/* The exclusive or of the columns whose index bit is set. */
static uint32_t product_of(const uint32_t *columns, uint32_t index) {
    uint32_t word = 0;
    for (int bit = 0; bit < 32; bit++)
        if (index >> bit & 1u)
            word ^= columns[bit];
    return word;
}

/* The top bits of a word; none of the bits means 0. */
static uint32_t top(uint32_t word, uint32_t bits) { return bits == 0 ? 0 : word >> (32 - bits); }

/* Flip bit n, numbered from the lowest bit of byte 0. */
static uint32_t flip_bit(const uint8_t *flips, uint32_t n) { return (uint32_t)flips[n / 8] >> n % 8 & 1u; }

/* Bit t from the top, t from 0 to 7, is flipped where flip bit 2^t - 1 + p is set, p being the t leading bits before any flip. */
static uint32_t flipped(uint32_t product, const uint8_t *flips) {
    uint32_t word = product;
    for (uint32_t t = 0; t < 8; t++)
        word ^= flip_bit(flips, (1u << t) - 1 + top(product, t)) << (31 - t);
    return word;
}

/* A scramble as the calls take it, and the coordinates of a visit under it: the product, its flips, and then the shift. */
struct scramble {
    uint32_t shift_x, shift_y;
    uint8_t flips_x[32], flips_y[32];
};

#define SCRAMBLE(by) (by)->shift_x, (by)->shift_y, (by)->flips_x, 32, (by)->flips_y, 32
#define NO_FLIPS vektrid_no_flips, 32, vektrid_no_flips, 32

static uint32_t x_of(const uint32_t *pair, const struct scramble *by, uint32_t index) {
    return flipped(product_of(pair, index), by->flips_x) ^ by->shift_x;
}

static uint32_t y_of(const uint32_t *pair, const struct scramble *by, uint32_t index) {
    return flipped(product_of(pair + 32, index), by->flips_y) ^ by->shift_y;
}

/* Numbers that look random: the next one after this. */
static uint32_t next_word(uint32_t word) { return word * 1664525u + 1013904223u; }

/* Any bytes, but for flip bit 255. */
static void put_any_flips(uint8_t *flips, uint32_t *word) {
    for (int i = 0; i < 32; i++) {
        *word = next_word(*word);
        flips[i] = (uint8_t)(*word >> 24);
    }
    flips[31] &= 0x7F;
}

/* Nothing; shifts; flips of x alone, of y alone, and all that may be set; flips with a shift. */
enum { NOTHING, SHIFTED, FAR, X_FLIPPED, Y_FLIPPED, ALL_FLIPPED, FLIPPED, SCRAMBLED, SCRAMBLES };

static struct scramble scrambles[SCRAMBLES];

static void make_scrambles(struct scramble *made) {
    uint32_t word = 1;
    memset(made, 0, SCRAMBLES * sizeof made[0]);
    made[SHIFTED].shift_x = made[SCRAMBLED].shift_x = 0x12345678u;
    made[SHIFTED].shift_y = made[SCRAMBLED].shift_y = 0x9ABCDEF0u;
    made[FAR].shift_x = LAST;
    made[FAR].shift_y = 1;
    put_any_flips(made[X_FLIPPED].flips_x, &word);
    put_any_flips(made[Y_FLIPPED].flips_y, &word);
    memset(made[ALL_FLIPPED].flips_x, 0xFF, 32);
    made[ALL_FLIPPED].flips_x[31] = 0x7F;
    memcpy(made[ALL_FLIPPED].flips_y, made[ALL_FLIPPED].flips_x, 32);
    for (int i = FLIPPED; i <= SCRAMBLED; i++) {
        put_any_flips(made[i].flips_x, &word);
        put_any_flips(made[i].flips_y, &word);
    }
}

/* Flips that are refused: other numbers of bytes for one axis and for both, some with flip bit 255 set where it can be, so that 18 is due too;
 * and flip bit 255 of one axis and of both. */
static uint8_t zero_bytes[64], set_bytes[64], bit_255[32];

static const struct {
    uint32_t number;
    const uint8_t *x;
    size_t x_count;
    const uint8_t *y;
    size_t y_count;
} bad_flips[] = {
    {17, zero_bytes, 0, zero_bytes, 32},  {17, zero_bytes, 31, zero_bytes, 32}, {17, zero_bytes, 33, zero_bytes, 32},
    {17, zero_bytes, 64, zero_bytes, 32}, {17, zero_bytes, 32, zero_bytes, 0},  {17, zero_bytes, 32, zero_bytes, 31},
    {17, zero_bytes, 32, zero_bytes, 33}, {17, zero_bytes, 32, zero_bytes, 64}, {17, zero_bytes, 0, zero_bytes, 0},
    {17, zero_bytes, 31, zero_bytes, 33}, {17, zero_bytes, 64, zero_bytes, 0},  {17, bit_255, 32, zero_bytes, 31},
    {17, bit_255, 32, zero_bytes, 33},    {17, zero_bytes, 0, bit_255, 32},     {17, set_bytes, 33, bit_255, 32},
    {17, set_bytes, 64, set_bytes, 64},   {18, bit_255, 32, zero_bytes, 32},    {18, zero_bytes, 32, bit_255, 32},
    {18, bit_255, 32, bit_255, 32},       {18, set_bytes, 32, zero_bytes, 32},  {18, zero_bytes, 32, set_bytes, 32},
};

enum { BAD_FLIPS = sizeof bad_flips / sizeof bad_flips[0] };

#define BAD(i) bad_flips[i].x, bad_flips[i].x_count, bad_flips[i].y, bad_flips[i].y_count

static void make_bad_flips(void) {
    memset(set_bytes, 0xFF, sizeof set_bytes);
    bit_255[31] = 0x80;
}

static uint32_t bits_of(float number) {
    uint32_t bits;
    memcpy(&bits, &number, sizeof bits);
    return bits;
}

static int all_kept(const uint32_t *words, size_t count) {
    for (size_t i = 0; i < count; i++)
        if (words[i] != KEPT)
            return 0;
    return 1;
}

static void keep(uint32_t *words, size_t count) {
    for (size_t i = 0; i < count; i++)
        words[i] = KEPT;
}

/* ---- the interface */

static void interface_number(void) { CHECK(vektrid_abi() == VEKTRID_ABI); }

/* ---- pairs */

static void standard_pairs(void) {
    uint32_t words[66];
    keep(words, 66);
    REFUSES(1, vektrid_standard_pair(words, 63));
    REFUSES(1, vektrid_standard_pair(words, 65));
    REFUSES(1, vektrid_standard_pair(words, 0));
    CHECK(all_kept(words, 66));
    CHECK(vektrid_standard_pair(words, 64) == VEKTRID_ACCEPTED);
    CHECK(memcmp(words, standard, sizeof standard) == 0);
    CHECK(all_kept(words + 64, 2));
    CHECK(words[32] == 0x80000000u && words[33] == 0xC0000000u && words[34] == 0xA0000000u && words[35] == 0xF0000000u);
}

static void checked_pairs(void) {
    uint32_t out[3]; /* m, a, j */
    keep(out, 3);
    REFUSES(1, vektrid_check(standard, 63, 2, &out[0], &out[1], &out[2]));
    REFUSES(1, vektrid_check(identities, 0, 33, &out[0], &out[1], &out[2]));
    REFUSES(2, vektrid_check(standard, 64, 33, &out[0], &out[1], &out[2]));
    REFUSES(2, vektrid_check(identities, 64, 0, &out[0], &out[1], &out[2]));
    REFUSES(2, vektrid_check(identities, 64, LAST, &out[0], &out[1], &out[2]));
    CHECK(vektrid_check(standard, 64, 32, &out[0], &out[1], &out[2]) == 0);
    CHECK(vektrid_check(standard, 64, 1, &out[0], &out[1], &out[2]) == 0);
    CHECK(vektrid_check(identities, 64, 1, &out[0], &out[1], &out[2]) == 0);
    CHECK(all_kept(out, 3));
    REFUSES(3, vektrid_check(identities, 64, 2, &out[0], &out[1], &out[2]));
    CHECK(out[0] == 2 && out[1] == 1 && out[2] == 2);
    REFUSES(3, vektrid_check(zeros, 64, 1, &out[0], &out[1], &out[2]));
    CHECK(out[0] == 1 && out[1] == 0 && out[2] == 1);
}

/* Only long strips are bad here: X lacks its column 1, and every square shape of level 2 is sound. */
static void checked_strips(void) {
    uint32_t words[64], m, a, j;
    memcpy(words, standard, sizeof words);
    words[1] = 0;
    REFUSES(3, vektrid_check(words, 64, 2, &m, &a, &j));
    CHECK(m == 2 && a == 2 && j == 2);
}

/* ---- points */

static void known_points(void) {
    static const uint32_t known[5][3] = {{0, 0, 0},
                                         {1, 0x80000000u, 0x80000000u},
                                         {2, 0x40000000u, 0xC0000000u},
                                         {3, 0xC0000000u, 0x40000000u},
                                         {5, 0xA0000000u, 0x20000000u}};
    for (int i = 0; i < 5; i++) {
        uint32_t x = KEPT, y = KEPT;
        CHECK(vektrid_point(standard, 64, 0, 0, NO_FLIPS, known[i][0], &x, &y) == 0);
        CHECK(x == known[i][1] && y == known[i][2]);
        x = y = KEPT;
        CHECK(vektrid_standard_point(0, 0, NO_FLIPS, known[i][0], &x, &y) == 0);
        CHECK(x == known[i][1] && y == known[i][2]);
    }
}

/* In x the second bit is flipped behind a 1; in y it is flipped behind a 0, and the third bit behind 11. The shift turns the first bit of x, and
 * the product's own bit counts. */
static void known_points_under_flips(void) {
    static const uint32_t known[4][2] = {
        {0x80000001u, 0x40000010u}, {0x40000001u, 0x80000010u}, {0xC0000001u, 0xE0000010u}, {0x00000001u, 0x00000010u}};
    struct scramble by = {0x80000001u, 0x00000010u, {1 << 2}, {1 << 1 | 1 << 6}};
    for (uint32_t index = 0; index < 4; index++) {
        uint32_t x = KEPT, y = KEPT;
        CHECK(vektrid_point(standard, 64, SCRAMBLE(&by), index, &x, &y) == 0);
        CHECK(x == known[index][0] && y == known[index][1]);
        x = y = KEPT;
        CHECK(vektrid_standard_point(SCRAMBLE(&by), index, &x, &y) == 0);
        CHECK(x == known[index][0] && y == known[index][1]);
    }
}

/* The point of an index by every call that gives it; a pair that is no net has points all the same. */
static void point(const struct scramble *by, uint32_t index) {
    uint32_t x = KEPT, y = KEPT;
    float x_single = 7.0f, y_single = 7.0f;
    CHECK(vektrid_point(standard, 64, SCRAMBLE(by), index, &x, &y) == 0);
    CHECK(x == x_of(standard, by, index) && y == y_of(standard, by, index));
    CHECK(vektrid_point_singles(standard, 64, SCRAMBLE(by), index, &x_single, &y_single) == 0);
    CHECK(bits_of(x_single) == bits_of(vektrid_single(x)) && bits_of(y_single) == bits_of(vektrid_single(y)));
    x = y = KEPT;
    CHECK(vektrid_standard_point(SCRAMBLE(by), index, &x, &y) == 0);
    CHECK(x == x_of(standard, by, index) && y == y_of(standard, by, index));
    CHECK(vektrid_point(identities, 64, SCRAMBLE(by), index, &x, &y) == 0);
    CHECK(x == x_of(identities, by, index) && y == y_of(identities, by, index));
}

static void points(void) {
    uint32_t index = 0, word = 7;
    for (int i = 0; i < 200; i++, index = next_word(index)) {
        struct scramble by = {index * 5, ~index, {0}, {0}};
        point(&by, index);
        put_any_flips(by.flips_x, &word);
        put_any_flips(by.flips_y, &word);
        point(&by, index);
        for (int s = 0; s < SCRAMBLES; s++)
            point(&scrambles[s], index);
    }
}

/* Flip bit 2^t - 1 + p alone turns bit t of the coordinates that begin with p, and no other. The products of the first 256 indexes begin with
 * all 256 words of eight bits. */
static void single_flip_bit(uint32_t t, uint32_t p) {
    struct scramble by = {0, 0, {0}, {0}};
    uint32_t n = (1u << t) - 1 + p;
    by.flips_x[n / 8] = by.flips_y[n / 8] = (uint8_t)(1u << n % 8);
    for (uint32_t index = 0; index < 256; index++) {
        uint32_t x = KEPT, y = KEPT, plain_x = product_of(standard, index), plain_y = product_of(standard + 32, index);
        CHECK(vektrid_standard_point(SCRAMBLE(&by), index, &x, &y) == 0);
        CHECK((x ^ plain_x) == (top(plain_x, t) == p ? 1u << (31 - t) : 0));
        CHECK((y ^ plain_y) == (top(plain_y, t) == p ? 1u << (31 - t) : 0));
    }
}

static void single_flip_bits(void) {
    for (uint32_t t = 0; t < 8; t++)
        for (uint32_t p = 0; p < 1u << t; p++)
            single_flip_bit(t, p);
}

/* Bytes need no alignment, and one buffer may serve both axes. */
static void flips_anywhere(void) {
    for (size_t place = 0; place < 16; place++) {
        uint8_t bytes[48];
        uint32_t x = KEPT, y = KEPT;
        struct scramble by = scrambles[FLIPPED];
        memcpy(by.flips_y, by.flips_x, 32);
        memset(bytes, 0xFF, sizeof bytes);
        memcpy(bytes + place, by.flips_x, 32);
        CHECK(vektrid_point(standard, 64, 0, 0, bytes + place, 32, bytes + place, 32, 77, &x, &y) == 0);
        CHECK(x == x_of(standard, &by, 77) && y == y_of(standard, &by, 77));
    }
}

static void refused_points(void) {
    uint32_t out[2];
    float singles[2] = {7.0f, 7.0f};
    keep(out, 2);
    REFUSES(1, vektrid_point(standard, 63, 0, 0, NO_FLIPS, 1, &out[0], &out[1]));
    REFUSES(1, vektrid_point(standard, 0, 0, 0, NO_FLIPS, 1, &out[0], &out[1]));
    CHECK(all_kept(out, 2));
    REFUSES(1, vektrid_point_singles(standard, 63, 0, 0, NO_FLIPS, 1, &singles[0], &singles[1]));
    CHECK(bits_of(singles[0]) == bits_of(7.0f) && bits_of(singles[1]) == bits_of(7.0f));
}

/* 17 and 18, and 1 before them. */
static void points_with_bad_flips(void) {
    for (int i = 0; i < BAD_FLIPS; i++) {
        uint32_t out[2], number = bad_flips[i].number;
        float singles[2] = {7.0f, 7.0f};
        keep(out, 2);
        REFUSES(number, vektrid_point(standard, 64, 0, 0, BAD(i), 1, &out[0], &out[1]));
        REFUSES(1, vektrid_point(standard, 63, 0, 0, BAD(i), 1, &out[0], &out[1]));
        REFUSES(number, vektrid_standard_point(0, 0, BAD(i), 1, &out[0], &out[1]));
        CHECK(all_kept(out, 2));
        REFUSES(number, vektrid_point_singles(standard, 64, 0, 0, BAD(i), 1, &singles[0], &singles[1]));
        REFUSES(1, vektrid_point_singles(standard, 65, 0, 0, BAD(i), 1, &singles[0], &singles[1]));
        CHECK(bits_of(singles[0]) == bits_of(7.0f) && bits_of(singles[1]) == bits_of(7.0f));
    }
}

static void fill(const struct scramble *by, uint32_t start, size_t count) {
    uint32_t xs[300], ys[300];
    keep(xs, 300);
    keep(ys, 300);
    CHECK(vektrid_fill(standard, 64, SCRAMBLE(by), start, xs, count, ys, count) == 0);
    for (size_t i = 0; i < count; i++) {
        uint32_t index = start + (uint32_t)i;
        CHECK(xs[i] == x_of(standard, by, index) && ys[i] == y_of(standard, by, index));
    }
    CHECK(all_kept(xs + count, 300 - count) && all_kept(ys + count, 300 - count));
}

static void fills(uint32_t start, size_t count) {
    for (int s = 0; s < SCRAMBLES; s++)
        fill(&scrambles[s], start, count);
}

static void all_fills(void) {
    static const size_t counts[8] = {0, 1, 2, 3, 17, 33, 64, 200};
    for (int i = 0; i < 8; i++) {
        fills(0, counts[i]);
        fills(7, counts[i]);
        fills(65535, counts[i]);
        if (counts[i] > 0)
            fills(LAST - (uint32_t)(counts[i] - 1), counts[i]); /* the last index is reached */
    }
    fills(LAST, 0);
}

static void refused_fills(void) {
    uint32_t xs[8], ys[8];
    keep(xs, 8);
    keep(ys, 8);
    REFUSES(8, vektrid_fill(standard, 64, 0, 0, NO_FLIPS, 0, xs, 4, ys, 5));
    REFUSES(8, vektrid_fill(standard, 64, 0, 0, NO_FLIPS, LAST, xs, 5, ys, 4)); /* and 9 is due too */
    REFUSES(9, vektrid_fill(standard, 64, 0, 0, NO_FLIPS, LAST, xs, 2, ys, 2));
    REFUSES(9, vektrid_fill(standard, 64, 0, 0, NO_FLIPS, LAST - 6, xs, 8, ys, 8));
    REFUSES(1, vektrid_fill(standard, 63, 0, 0, NO_FLIPS, LAST, xs, 4, ys, 5)); /* and 8 and 9 are due too */
    CHECK(all_kept(xs, 8) && all_kept(ys, 8));
}

/* 17 and 18 come before 8 and 9, and 1 before them. */
static void fills_with_bad_flips(void) {
    for (int i = 0; i < BAD_FLIPS; i++) {
        uint32_t xs[8], ys[8], number = bad_flips[i].number;
        keep(xs, 8);
        keep(ys, 8);
        REFUSES(number, vektrid_fill(standard, 64, 0, 0, BAD(i), 0, xs, 8, ys, 8));
        REFUSES(number, vektrid_fill(standard, 64, 0, 0, BAD(i), 0, xs, 0, ys, 0));
        REFUSES(number, vektrid_fill(standard, 64, 0, 0, BAD(i), LAST, xs, 8, ys, 8));
        REFUSES(number, vektrid_fill(standard, 64, 0, 0, BAD(i), LAST, xs, 4, ys, 5));
        REFUSES(1, vektrid_fill(standard, 63, 0, 0, BAD(i), LAST, xs, 4, ys, 5));
        CHECK(all_kept(xs, 8) && all_kept(ys, 8));
    }
}

/* ---- walks */

static void opened_walks(void) {
    uint32_t next = KEPT;
    uint64_t left = KEPT;
    REFUSES(9, vektrid_walk_open(LAST, 2, &next, &left));
    REFUSES(9, vektrid_walk_open(0, 0x100000001u, &next, &left));
    REFUSES(9, vektrid_walk_open(1, UINT64_MAX, &next, &left));
    CHECK(next == KEPT && left == KEPT);
    CHECK(vektrid_walk_open(LAST, 1, &next, &left) == 0);
    CHECK(next == LAST && left == 1);
    CHECK(vektrid_walk_open(0, 0x100000000u, &next, &left) == 0);
    CHECK(next == 0 && left == 0x100000000u);
    CHECK(vektrid_walk_open(5, 0, &next, &left) == 0);
    CHECK(next == 5 && left == 0);
}

/* A walk of 3 visits and three steps more: the visits in order, and then the end, which changes nothing. */
static void stepped_walk(const struct scramble *by) {
    uint32_t next = 6, given, index = KEPT, x = KEPT, y = KEPT;
    uint64_t left = 3;
    for (uint32_t n = 0; n < 6; n++) {
        given = KEPT;
        CHECK(vektrid_walk_step(standard, 64, SCRAMBLE(by), &next, &left, &given, &index, &x, &y) == 0);
        CHECK(given == (n < 3 ? 1u : 0u));
        CHECK(next == (n < 3 ? 7 + n : 9) && left == (n < 3 ? 2 - n : 0));
        uint32_t last = n < 3 ? 6 + n : 8; /* the visit given last, which a step at the end leaves there */
        CHECK(index == last && x == x_of(standard, by, last) && y == y_of(standard, by, last));
    }
}

static void walk_of_singles(const struct scramble *by) {
    uint32_t next = 6, given, index = KEPT;
    uint64_t left = 2;
    float x = 7.0f, y = 7.0f;
    for (uint32_t n = 0; n < 4; n++) {
        CHECK(vektrid_walk_step_singles(standard, 64, SCRAMBLE(by), &next, &left, &given, &index, &x, &y) == 0);
        CHECK(given == (n < 2 ? 1u : 0u) && next == (n < 2 ? 7 + n : 8) && left == (n < 2 ? 1 - n : 0));
        uint32_t last = n < 2 ? 6 + n : 7;
        CHECK(index == last && bits_of(x) == bits_of(vektrid_single(x_of(standard, by, last))));
        CHECK(bits_of(y) == bits_of(vektrid_single(y_of(standard, by, last))));
    }
}

static void walks(void) {
    for (int s = 0; s < SCRAMBLES; s++) {
        stepped_walk(&scrambles[s]);
        walk_of_singles(&scrambles[s]);
    }
}

/* With visits left at the last index, a step gives that visit, leaves none, and the index stays. */
static void walk_at_the_last_index(void) {
    uint32_t next = LAST, given = KEPT, index = KEPT, x = KEPT, y = KEPT;
    uint64_t left = 5; /* no walk that was opened has more than 1 left there */
    CHECK(vektrid_walk_step(standard, 64, 0, 0, NO_FLIPS, &next, &left, &given, &index, &x, &y) == 0);
    CHECK(given == 1 && index == LAST && next == LAST && left == 0);
    CHECK(x == product_of(standard, LAST) && y == product_of(standard + 32, LAST));
    CHECK(vektrid_walk_step(standard, 64, 0, 0, NO_FLIPS, &next, &left, &given, &index, &x, &y) == 0);
    CHECK(given == 0 && next == LAST && left == 0);
}

static void refused_steps(void) {
    uint32_t out[5]; /* next, given, index, x, y */
    uint64_t left = KEPT;
    float singles[2] = {7.0f, 7.0f};
    keep(out, 5);
    REFUSES(1, vektrid_walk_step(standard, 65, 0, 0, NO_FLIPS, &out[0], &left, &out[1], &out[2], &out[3], &out[4]));
    REFUSES(1, vektrid_walk_step_singles(standard, 63, 0, 0, NO_FLIPS, &out[0], &left, &out[1], &out[2], &singles[0], &singles[1]));
    CHECK(all_kept(out, 5) && left == KEPT);
    CHECK(bits_of(singles[0]) == bits_of(7.0f) && bits_of(singles[1]) == bits_of(7.0f));
}

/* A walk with visits left, and one that has ended; 1 comes before 17 and 18. */
static void steps_with_bad_flips(void) {
    for (int i = 0; i < 2 * BAD_FLIPS; i++) {
        uint32_t out[5], number = bad_flips[i / 2].number; /* next, given, index, x, y */
        uint64_t left = i % 2 ? KEPT : 0, before = left;
        float singles[2] = {7.0f, 7.0f};
        keep(out, 5);
        REFUSES(number, vektrid_walk_step(standard, 64, 0, 0, BAD(i / 2), &out[0], &left, &out[1], &out[2], &out[3], &out[4]));
        REFUSES(1, vektrid_walk_step(standard, 63, 0, 0, BAD(i / 2), &out[0], &left, &out[1], &out[2], &out[3], &out[4]));
        REFUSES(number, vektrid_walk_step_singles(standard, 64, 0, 0, BAD(i / 2), &out[0], &left, &out[1], &out[2], &singles[0], &singles[1]));
        REFUSES(1, vektrid_walk_step_singles(standard, 63, 0, 0, BAD(i / 2), &out[0], &left, &out[1], &out[2], &singles[0], &singles[1]));
        CHECK(all_kept(out, 5) && left == before);
        CHECK(bits_of(singles[0]) == bits_of(7.0f) && bits_of(singles[1]) == bits_of(7.0f));
    }
}

/* Lent NaNs keep their bits, sign and payload too, where a point is refused and where a walk has ended. Only bits are compared and copied: a
 * NaN that is passed as a float may come out quiet, and none is equal to itself. */
static void kept_nans(void) {
    static const uint32_t patterns[][2] = {
        {0x7FC00000u, 0xFFC00000u}, /* quiet, without payload, of both signs */
        {0x7FC12345u, 0xFFEDCBA9u}, /* quiet, with payload */
        {0x7F800001u, 0xFF800001u}, /* signalling, the least payload */
        {0x7FA54321u, 0xFFBFFFFFu}, /* signalling, more payload */
    };
    for (size_t i = 0; i < sizeof patterns / sizeof patterns[0]; i++) {
        uint32_t next = 7, given = KEPT, index = KEPT, bits[2];
        uint64_t left = 0;
        float singles[2];
        memcpy(singles, patterns[i], sizeof singles);
        REFUSES(1, vektrid_point_singles(standard, 63, 5, 9, NO_FLIPS, 1, &singles[0], &singles[1]));
        REFUSES(18, vektrid_point_singles(standard, 64, 5, 9, bit_255, 32, bit_255, 32, 1, &singles[0], &singles[1]));
        memcpy(bits, singles, sizeof bits);
        CHECK(bits[0] == patterns[i][0] && bits[1] == patterns[i][1]);
        memcpy(singles, patterns[i], sizeof singles);
        CHECK(vektrid_walk_step_singles(standard, 64, 5, 9, NO_FLIPS, &next, &left, &given, &index, &singles[0], &singles[1]) == 0);
        CHECK(given == 0 && next == 7 && left == 0 && index == KEPT);
        memcpy(bits, singles, sizeof bits);
        CHECK(bits[0] == patterns[i][0] && bits[1] == patterns[i][1]);
    }
}

/* ---- cells */

static void known_queries(void) {
    uint32_t index = KEPT, j = KEPT;
    CHECK(vektrid_query(standard, 64, 0, 0, NO_FLIPS, 32, 2, 1, 1, 0, 0, &index, &j) == 0 && index == 3);
    CHECK(vektrid_query(standard, 64, 0, 0, NO_FLIPS, 32, 2, 1, 1, 0, 1, &index, &j) == 0 && index == 5);
    CHECK(vektrid_query(standard, 64, 0x80000000u, 0, NO_FLIPS, 32, 2, 1, 1, 0, 0, &index, &j) == 0 && index == 0);
    CHECK(vektrid_query(standard, 64, 0, 0, NO_FLIPS, 1, 0, 0, 0, 0, LAST, &index, &j) == 0 && index == LAST);
    CHECK(vektrid_query(standard, 64, 0, 0, NO_FLIPS, 32, 4, 2, 0, 0, 268435455u, &index, &j) == 0 && index >> 4 == 268435455u);
    CHECK(j == KEPT);
}

static void refused_queries(void) {
    uint32_t out[2]; /* index, j */
    keep(out, 2);
    REFUSES(2, vektrid_query(standard, 64, 0, 0, NO_FLIPS, 33, 2, 1, 1, 0, 0, &out[0], &out[1]));
    REFUSES(4, vektrid_query(standard, 64, 0, 0, NO_FLIPS, 2, 3, 1, 0, 0, 0, &out[0], &out[1]));
    REFUSES(5, vektrid_query(standard, 64, 0, 0, NO_FLIPS, 32, 2, 3, 0, 0, 0, &out[0], &out[1]));
    REFUSES(6, vektrid_query(standard, 64, 0, 0, NO_FLIPS, 32, 2, 1, 2, 0, 0, &out[0], &out[1]));
    REFUSES(6, vektrid_query(standard, 64, 0, 0, NO_FLIPS, 32, 2, 1, 0, 2, 0, &out[0], &out[1]));
    REFUSES(7, vektrid_query(standard, 64, 0, 0, NO_FLIPS, 32, 4, 2, 0, 0, 268435456u, &out[0], &out[1]));
    REFUSES(7, vektrid_query(standard, 64, 0, 0, NO_FLIPS, 32, 32, 2, 0, 0, 1, &out[0], &out[1]));
    /* from here each line makes one thing more wrong, and the first in the call's order is given */
    REFUSES(7, vektrid_query(identities, 64, 0, 0, NO_FLIPS, 32, 4, 2, 0, 0, LAST, &out[0], &out[1]));
    REFUSES(6, vektrid_query(identities, 64, 0, 0, NO_FLIPS, 32, 4, 2, 4, 0, LAST, &out[0], &out[1]));
    REFUSES(5, vektrid_query(identities, 64, 0, 0, NO_FLIPS, 32, 4, 5, LAST, LAST, LAST, &out[0], &out[1]));
    REFUSES(4, vektrid_query(identities, 64, 0, 0, NO_FLIPS, 3, 4, 5, LAST, LAST, LAST, &out[0], &out[1]));
    REFUSES(2, vektrid_query(identities, 64, 0, 0, NO_FLIPS, 0, LAST, LAST, LAST, LAST, LAST, &out[0], &out[1]));
    REFUSES(1, vektrid_query(identities, 63, 0, 0, NO_FLIPS, 0, LAST, LAST, LAST, LAST, LAST, &out[0], &out[1]));
    CHECK(all_kept(out, 2));
    REFUSES(3, vektrid_query(identities, 64, 8, 9, NO_FLIPS, 32, 2, 1, 1, 0, 0, &out[0], &out[1]));
    CHECK(out[0] == KEPT && out[1] == 2);
}

/* 17 and 18 come between 2 and 4. The pair is no net, and cell and block are out of range too. */
static void queries_with_bad_flips(void) {
    for (int i = 0; i < BAD_FLIPS; i++) {
        uint32_t out[2], number = bad_flips[i].number; /* index, j */
        keep(out, 2);
        REFUSES(number, vektrid_query(standard, 64, 0, 0, BAD(i), 32, 2, 1, 1, 0, 0, &out[0], &out[1]));
        REFUSES(number, vektrid_query(identities, 64, 0, 0, BAD(i), 32, 2, 1, 1, 0, 0, &out[0], &out[1]));
        REFUSES(number, vektrid_query(identities, 64, 0, 0, BAD(i), 1, LAST, LAST, LAST, LAST, LAST, &out[0], &out[1]));
        REFUSES(2, vektrid_query(identities, 64, 0, 0, BAD(i), 33, LAST, LAST, LAST, LAST, LAST, &out[0], &out[1]));
        REFUSES(1, vektrid_query(identities, 65, 0, 0, BAD(i), 33, LAST, LAST, LAST, LAST, LAST, &out[0], &out[1]));
        CHECK(all_kept(out, 2));
    }
}

/* Refusal 3 is about the pair alone: with any flips it names the same j. */
static void not_nets_under_flips(void) {
    for (int s = 0; s < SCRAMBLES; s++) {
        uint32_t index = KEPT, j = KEPT;
        REFUSES(3, vektrid_query(identities, 64, SCRAMBLE(&scrambles[s]), 32, 2, 1, 1, 0, 0, &index, &j));
        CHECK(index == KEPT && j == 2);
    }
}

/* Every cell of one shape and block: the index named lies in the block and in the cell, so that no two cells have the same. */
static void cells(uint32_t m, uint32_t a, uint32_t block, const struct scramble *by) {
    for (uint32_t column = 0; column < 1u << a; column++)
        for (uint32_t row = 0; row < 1u << (m - a); row++) {
            uint32_t index = KEPT, j = KEPT;
            CHECK(vektrid_query(standard, 64, SCRAMBLE(by), 9, m, a, column, row, block, &index, &j) == 0);
            CHECK(index >> m == block);
            CHECK(top(x_of(standard, by, index), a) == column);
            CHECK(top(y_of(standard, by, index), m - a) == row);
        }
}

static void cells_of_shape(uint32_t m, uint32_t a) {
    for (int s = 0; s < SCRAMBLES; s++) {
        cells(m, a, 0, &scrambles[s]);
        cells(m, a, 5, &scrambles[s]);
        cells(m, a, LAST >> m, &scrambles[s]);
    }
}

/* Strips of nine bits go deeper than flips do. */
static void all_small_cells(void) {
    for (uint32_t m = 0; m <= 5; m++)
        for (uint32_t a = 0; a <= m; a++)
            cells_of_shape(m, a);
    cells_of_shape(9, 0);
    cells_of_shape(9, 9);
}

/* ---- many cells at once: the answers stand in the middle of a longer buffer, whose other words must stay */

enum { BEFORE = 4, ROOM = 320 };

static int kept_around(const uint32_t *answers, size_t count) {
    return all_kept(answers, BEFORE) && all_kept(answers + BEFORE + count, ROOM - BEFORE - count);
}

/* Block 0 of the shape (4, 2) row by row, as the README draws it; cells that repeat; one buffer for columns and rows; one cell; and none. */
static void known_overviews(void) {
    static const uint32_t drawn[16] = {0, 10, 5, 15, 12, 6, 9, 3, 4, 14, 1, 11, 8, 2, 13, 7};
    static const uint32_t diagonal[5] = {0, 1, 2, 3, 1}, there[5] = {0, 6, 1, 7, 6};
    uint32_t columns[16], rows[16], answers[ROOM], j = KEPT;
    for (uint32_t i = 0; i < 16; i++) {
        columns[i] = i % 4;
        rows[i] = i / 4;
    }
    keep(answers, ROOM);
    CHECK(vektrid_overview(standard, 64, 0, 0, NO_FLIPS, 4, 4, 2, 0, columns, 16, rows, 16, answers + BEFORE, 16, &j) == 0);
    CHECK(memcmp(answers + BEFORE, drawn, sizeof drawn) == 0 && kept_around(answers, 16));
    keep(answers, ROOM);
    CHECK(vektrid_overview(standard, 64, 0, 0, NO_FLIPS, 4, 4, 2, 0, diagonal, 5, diagonal, 5, answers + BEFORE, 5, &j) == 0);
    CHECK(memcmp(answers + BEFORE, there, sizeof there) == 0 && kept_around(answers, 5));
    keep(answers, ROOM);
    CHECK(vektrid_overview(zeros, 64, 0, 0, NO_FLIPS, 1, 0, 0, LAST, columns, 1, rows, 1, answers + BEFORE, 1, &j) == 0);
    CHECK(answers[BEFORE] == LAST && kept_around(answers, 1));
    keep(answers, ROOM);
    CHECK(vektrid_overview(standard, 64, 0, 0, NO_FLIPS, 32, 32, 9, 0, columns, 0, rows, 0, answers + BEFORE, 0, &j) == 0);
    CHECK(kept_around(answers, 0) && j == KEPT);
}

/* Each answer lies in the block and in its cell. */
static void overview(uint32_t m, uint32_t a, uint32_t block, const struct scramble *by, const uint32_t *columns, const uint32_t *rows,
                     size_t count) {
    uint32_t answers[ROOM], j = KEPT;
    keep(answers, ROOM);
    CHECK(vektrid_overview(standard, 64, SCRAMBLE(by), 32, m, a, block, columns, count, rows, count, answers + BEFORE, count, &j) == 0);
    for (size_t i = 0; i < count; i++) {
        uint32_t index = answers[BEFORE + i];
        CHECK(top(index, 32 - m) == block);
        CHECK(top(x_of(standard, by, index), a) == columns[i]);
        CHECK(top(y_of(standard, by, index), m - a) == rows[i]);
    }
    CHECK(kept_around(answers, count) && j == KEPT);
}

/* Every cell of every small shape; columns and rows are only read. */
static void all_small_overviews(void) {
    for (uint32_t m = 0; m <= 6; m++)
        for (uint32_t a = 0; a <= m; a++) {
            uint32_t cells_of[2][64], before[2][64], count = 1u << m;
            for (uint32_t i = 0; i < 64; i++) {
                cells_of[0][i] = i >> (m - a);
                cells_of[1][i] = i & ((1u << (m - a)) - 1);
            }
            memcpy(before, cells_of, sizeof before);
            for (int s = 0; s < SCRAMBLES; s++) {
                overview(m, a, 0, &scrambles[s], cells_of[0], cells_of[1], count);
                overview(m, a, 5, &scrambles[s], cells_of[0], cells_of[1], count);
                overview(m, a, LAST >> m, &scrambles[s], cells_of[0], cells_of[1], count);
            }
            CHECK(memcmp(cells_of, before, sizeof before) == 0);
        }
}

/* Hundreds of cells of large shapes. */
static void long_overviews(void) {
    static const uint32_t shapes[6][2] = {{17, 8}, {31, 0}, {31, 31}, {32, 0}, {32, 16}, {32, 32}};
    uint32_t word = 1;
    for (int n = 0; n < 6; n++) {
        uint32_t columns[300], rows[300];
        for (int i = 0; i < 300; i++, word = next_word(word)) {
            columns[i] = top(word, shapes[n][1]);
            rows[i] = top(~word * 5, shapes[n][0] - shapes[n][1]);
        }
        for (int s = 0; s < SCRAMBLES; s++)
            overview(shapes[n][0], shapes[n][1], top(word, 32 - shapes[n][0]), &scrambles[s], columns, rows, 300);
    }
}

static void refused_overviews(void) {
    static const uint32_t columns[5] = {0, 3, 1, 0, 2}, rows[5] = {0, 3, 2, 1, 0}, far[2] = {LAST, LAST};
    uint32_t answers[ROOM], j = KEPT, *to = answers + BEFORE;
    keep(answers, ROOM);
    REFUSES(8, vektrid_overview(standard, 64, 0, 0, NO_FLIPS, 32, 4, 2, 0, columns, 4, rows, 5, to, 5, &j));
    REFUSES(8, vektrid_overview(standard, 64, 0, 0, NO_FLIPS, 32, 4, 2, 0, columns, 5, rows, 4, to, 5, &j));
    REFUSES(8, vektrid_overview(standard, 64, 0, 0, NO_FLIPS, 32, 4, 2, 0, columns, 5, rows, 5, to, 4, &j));
    REFUSES(8, vektrid_overview(standard, 64, 0, 0, NO_FLIPS, 32, 4, 2, 0, columns, 3, rows, 4, to, 5, &j));
    REFUSES(8, vektrid_overview(standard, 64, 0, 0, NO_FLIPS, 32, 4, 2, 0, columns, 0, rows, 0, to, 1, &j));
    REFUSES(2, vektrid_overview(standard, 64, 0, 0, NO_FLIPS, 33, 4, 2, 0, columns, 5, rows, 5, to, 5, &j));
    REFUSES(4, vektrid_overview(standard, 64, 0, 0, NO_FLIPS, 3, 4, 2, 0, columns, 5, rows, 5, to, 5, &j));
    REFUSES(5, vektrid_overview(standard, 64, 0, 0, NO_FLIPS, 32, 4, 5, 0, columns, 5, rows, 5, to, 5, &j));
    REFUSES(7, vektrid_overview(standard, 64, 0, 0, NO_FLIPS, 32, 4, 2, 268435456u, columns, 5, rows, 5, to, 5, &j));
    /* without cells */
    REFUSES(2, vektrid_overview(standard, 64, 0, 0, NO_FLIPS, 0, 4, 2, 0, columns, 0, rows, 0, to, 0, &j));
    REFUSES(4, vektrid_overview(standard, 64, 0, 0, NO_FLIPS, 3, 4, 2, 0, columns, 0, rows, 0, to, 0, &j));
    REFUSES(5, vektrid_overview(standard, 64, 0, 0, NO_FLIPS, 32, 4, 5, 0, columns, 0, rows, 0, to, 0, &j));
    REFUSES(7, vektrid_overview(identities, 64, 0, 0, NO_FLIPS, 32, 4, 2, LAST, columns, 0, rows, 0, to, 0, &j));
    /* from here each line makes one thing more wrong, and the first in the call's order is given */
    REFUSES(7, vektrid_overview(identities, 64, 0, 0, NO_FLIPS, 32, 4, 2, LAST, columns, 2, rows, 2, to, 2, &j));
    REFUSES(6, vektrid_overview(identities, 64, 0, 0, NO_FLIPS, 32, 4, 2, LAST, far, 2, far, 2, to, 2, &j));
    REFUSES(5, vektrid_overview(identities, 64, 0, 0, NO_FLIPS, 32, 4, 5, LAST, far, 2, far, 2, to, 2, &j));
    REFUSES(4, vektrid_overview(identities, 64, 0, 0, NO_FLIPS, 3, 4, 5, LAST, far, 2, far, 2, to, 2, &j));
    REFUSES(2, vektrid_overview(identities, 64, 0, 0, NO_FLIPS, 0, LAST, LAST, LAST, far, 2, far, 2, to, 2, &j));
    REFUSES(8, vektrid_overview(identities, 64, 0, 0, NO_FLIPS, 0, LAST, LAST, LAST, far, 2, far, 2, to, 1, &j));
    REFUSES(1, vektrid_overview(identities, 63, 0, 0, NO_FLIPS, 0, LAST, LAST, LAST, far, 2, far, 2, to, 1, &j));
    CHECK(all_kept(answers, ROOM) && j == KEPT);
    REFUSES(3, vektrid_overview(identities, 64, 8, 9, NO_FLIPS, 32, 2, 1, 0, columns, 1, rows, 1, to, 1, &j));
    CHECK(all_kept(answers, ROOM) && j == 2);
    j = KEPT;
    REFUSES(3, vektrid_overview(identities, 64, 8, 9, NO_FLIPS, 32, 2, 1, 0, columns, 0, rows, 0, to, 0, &j));
    CHECK(all_kept(answers, ROOM) && j == 2);
}

/* 8 and 2 come before 17 and 18, and 4 behind them, with cells and without. */
static void overviews_with_bad_flips(void) {
    static const uint32_t near[2] = {0, 1}, far[2] = {LAST, LAST};
    for (int i = 0; i < BAD_FLIPS; i++) {
        uint32_t answers[ROOM], j = KEPT, *to = answers + BEFORE, number = bad_flips[i].number;
        keep(answers, ROOM);
        REFUSES(number, vektrid_overview(standard, 64, 0, 0, BAD(i), 32, 4, 2, 0, near, 2, near, 2, to, 2, &j));
        REFUSES(number, vektrid_overview(identities, 64, 0, 0, BAD(i), 1, LAST, LAST, LAST, far, 2, far, 2, to, 2, &j));
        REFUSES(number, vektrid_overview(standard, 64, 0, 0, BAD(i), 32, 4, 2, 0, near, 0, near, 0, to, 0, &j));
        REFUSES(number, vektrid_overview(identities, 64, 0, 0, BAD(i), 1, LAST, LAST, LAST, near, 0, near, 0, to, 0, &j));
        REFUSES(2, vektrid_overview(identities, 64, 0, 0, BAD(i), 33, LAST, LAST, LAST, far, 2, far, 2, to, 2, &j));
        REFUSES(2, vektrid_overview(identities, 64, 0, 0, BAD(i), 0, LAST, LAST, LAST, near, 0, near, 0, to, 0, &j));
        REFUSES(8, vektrid_overview(identities, 64, 0, 0, BAD(i), 1, LAST, LAST, LAST, far, 2, far, 2, to, 1, &j));
        REFUSES(1, vektrid_overview(identities, 63, 0, 0, BAD(i), 1, LAST, LAST, LAST, far, 2, far, 2, to, 1, &j));
        CHECK(all_kept(answers, ROOM) && j == KEPT);
    }
}

/* One cell outside the shape, at each place: the first cell is judged before the block and the pair, the others after them. */
static void overviews_with_a_cell_outside(void) {
    static const uint32_t inside[6] = {0, 3, 1, 0, 2, 3};
    for (uint32_t place = 0; place < 6; place++) {
        uint32_t outside[6], answers[ROOM], j = KEPT, *to = answers + BEFORE;
        keep(answers, ROOM);
        memcpy(outside, inside, sizeof outside);
        outside[place] = 4;
        REFUSES(6, vektrid_overview(standard, 64, 0, 0, NO_FLIPS, 32, 4, 2, 0, outside, 6, inside, 6, to, 6, &j));
        REFUSES(6, vektrid_overview(standard, 64, 0, 0, NO_FLIPS, 32, 4, 2, 0, inside, 6, outside, 6, to, 6, &j));
        REFUSES(place == 0 ? 6 : 7, vektrid_overview(standard, 64, 0, 0, NO_FLIPS, 32, 4, 2, LAST, outside, 6, inside, 6, to, 6, &j));
        REFUSES(place == 0 ? 6 : 7, vektrid_overview(identities, 64, 0, 0, NO_FLIPS, 32, 4, 2, LAST, inside, 6, outside, 6, to, 6, &j));
        CHECK(j == KEPT);
        REFUSES(place == 0 ? 6 : 3, vektrid_overview(identities, 64, 0, 0, NO_FLIPS, 32, 4, 2, 0, outside, 6, inside, 6, to, 6, &j));
        CHECK(all_kept(answers, ROOM) && j == (place == 0 ? KEPT : 4));
    }
}

/* ---- unit numbers and the stage */

static void unit_numbers(void) {
    CHECK(bits_of(vektrid_single(0)) == 0);
    CHECK(bits_of(vektrid_single(1)) == 0x2F800000u);
    CHECK(bits_of(vektrid_single(LAST)) == 0x3F7FFFFFu);
    CHECK(bits_of(vektrid_single(0x7FFFFFFFu)) == 0x3EFFFFFFu); /* and not one half */
    CHECK(bits_of(vektrid_single(0x80000000u)) == 0x3F000000u);
    for (uint32_t word = 0, n = 0; n < 100; n++, word = next_word(word)) {
        CHECK(vektrid_double(word) * 4294967296.0 == (double)word); /* both are exact */
        CHECK((double)vektrid_single(word) <= vektrid_double(word));
    }
}

static void refused_positions(void) {
    int32_t x = 77, y = 77;
    REFUSES(10, vektrid_position(0, 0, 0, 800, 0, 0, 1, 1, &x, &y));
    REFUSES(10, vektrid_position(0, 0, 1000, 0, 0, 0, 1, 1, &x, &y));
    REFUSES(10, vektrid_position(0, 0, 1000001u, 1, 0, 0, 1, 1, &x, &y));
    REFUSES(10, vektrid_position(0, 0, 1, LAST, 0, 0, 1, 1, &x, &y));
    REFUSES(10, vektrid_position(-1000001, 0, 1, 1, 0, 0, 1, 1, &x, &y));
    REFUSES(10, vektrid_position(0, INT32_MIN, 1, 1, 0, 0, 1, 1, &x, &y));
    REFUSES(10, vektrid_position(0, 1000001, 1, 1, 0, 0, 1, 1, &x, &y));
    REFUSES(16, vektrid_position(0, 0, 1000, 800, 1001, 800, 1, 1, &x, &y));
    REFUSES(16, vektrid_position(0, 0, 1000, 800, 1000, 801, 1, 1, &x, &y));
    REFUSES(16, vektrid_position(0, 0, 1000, 800, 0, 801, 1, 1, &x, &y));
    REFUSES(16, vektrid_position(0, 0, 1000, 800, 1001, 0, 0, 0, &x, &y));
    REFUSES(16, vektrid_position(0, 0, 1, 1, 2, 1, LAST, LAST, &x, &y));
    /* extent - F + 1 does not wrap */
    REFUSES(16, vektrid_position(0, 0, 1000000, 1000000, LAST, 1, 1, 1, &x, &y));
    REFUSES(16, vektrid_position(0, 0, 1000000, 1000000, 1, LAST, 1, 1, &x, &y));
    REFUSES(16, vektrid_position(0, 0, 1, 1, LAST, LAST, LAST, LAST, &x, &y));
    /* the field is too large as well, and the region is judged first */
    REFUSES(10, vektrid_position(0, 0, 0, 800, 1, 801, 1, 1, &x, &y));
    REFUSES(10, vektrid_position(1000001, 0, 1000, 800, LAST, LAST, 1, 1, &x, &y));
    REFUSES(10, vektrid_position(0, 0, 1000001, 800, 1000002, 801, 1, 1, &x, &y));
    CHECK(x == 77 && y == 77);
}

static void known_positions(void) {
    int32_t x = 77, y = 77;
    CHECK(vektrid_position(-500, 0, 1000, 800, 0, 0, 0x40000000u, 0xC0000000u, &x, &y) == 0 && x == -250 && y == 600);
    CHECK(vektrid_position(-1, 0, 3, 1, 0, 0, 0x40000000u, LAST, &x, &y) == 0 && x == -1 && y == 0); /* the floor, and not cut toward zero */
    CHECK(vektrid_position(1000000, -1000000, 1000000, 1000000, 0, 0, LAST, LAST, &x, &y) == 0 && x == 1999999 && y == -1);
    /* the example of C-12: 600 right of the edge */
    CHECK(vektrid_position(-500, 0, 1000, 800, 200, 100, 0xC0000000u, 0xC0000000u, &x, &y) == 0 && x == 100 && y == 525);
    /* a field as large as the region has one place, the edge; one smaller has two */
    CHECK(vektrid_position(1000000, -1000000, 1000000, 1000000, 1000000, 1000000, LAST, LAST, &x, &y) == 0 && x == 1000000 && y == -1000000);
    CHECK(vektrid_position(1000000, -1000000, 1000000, 1000000, 999999, 999999, LAST, LAST, &x, &y) == 0 && x == 1000001 && y == -999999);
    CHECK(vektrid_position(1000000, -1000000, 1000000, 1000000, 999999, 999999, 0x7FFFFFFFu, 0x80000000u, &x, &y) == 0);
    CHECK(x == 1000000 && y == -999999);
    CHECK(vektrid_position(-7, 9, 1, 1, 0, 1, LAST, LAST, &x, &y) == 0 && x == -7 && y == 9);
}

/* The position on one axis by its definition. */
static int32_t place_of(int32_t edge, uint32_t extent, uint32_t field, uint32_t word) {
    uint32_t places = extent - (field == 0 ? 1 : field) + 1;
    return edge + (int32_t)((uint64_t)word * places >> 32);
}

/* Fields of every size in regions of every size: where the field fits, its corner is by the definition and the whole field lies inside; where it
 * does not, nothing is written. */
static void fields(void) {
    static const uint32_t sizes[12] = {0, 1, 2, 3, 199, 200, 201, 65535, 65536, 999999, 1000000, LAST};
    static const uint32_t words[6] = {0, 1, 0x7FFFFFFFu, 0x80000000u, 0xC0000000u, LAST};
    for (int e = 1; e < 11; e++)
        for (int f = 0; f < 12; f++)
            for (int w = 0; w < 6; w++) {
                uint32_t width = sizes[e], height = sizes[11 - e], field_width = sizes[f], field_height = sizes[11 - f];
                int fits = field_width <= width && field_height <= height;
                int32_t x = 77, y = 77;
                uint32_t answer = vektrid_position(-900, 123, width, height, field_width, field_height, words[w], words[5 - w], &x, &y);
                CHECK(answer == (fits ? 0u : 16u));
                CHECK(x == (fits ? place_of(-900, width, field_width, words[w]) : 77));
                CHECK(y == (fits ? place_of(123, height, field_height, words[5 - w]) : 77));
                CHECK(!fits || (x >= -900 && (int64_t)x + (field_width == 0 ? 1 : field_width) <= -900 + (int64_t)width));
                CHECK(!fits || (y >= 123 && (int64_t)y + (field_height == 0 ? 1 : field_height) <= 123 + (int64_t)height));
            }
}

/* ---- region files */

static uint8_t file[65568];

static void put(size_t at, uint32_t value) {
    for (int i = 0; i < 4; i++)
        file[at + (size_t)i] = (uint8_t)(value >> 8 * i);
}

/* The example of the requirements: first record 1, level 2, and record 1 = 0, -500, 0, 1000, 800, 0, 0, 4. */
static void put_example(void) {
    static const uint32_t fields[8] = {0, (uint32_t)-500, 0, 1000, 800, 0, 0, 4};
    memset(file, 0, sizeof file);
    put(0, 1);
    put(4, 2);
    for (size_t i = 0; i < 8; i++)
        put(32 + 4 * i, fields[i]);
}

static const char *const example_listing = "record visit x y\n1 0 -500 0\n1 1 0 400\n1 2 -250 600\n1 3 250 200\n";

/* The example with one field changed, its answer, and for a refusal the link at which the judgement stops. */
struct change {
    size_t at;
    uint32_t value;
    size_t size;
    uint32_t answer, holder, named;
};

static const struct change changes[] = {
    {0, 1, 64, 0, KEPT, KEPT},              /* the example itself */
    {0, 0, 64, 0, KEPT, KEPT},              /* a chain without records */
    {0, 0, 65536, 0, KEPT, KEPT},           /* the longest file */
    {4, 32, 64, 0, KEPT, KEPT},             /* the largest level */
    {36, 1000000, 64, 0, KEPT, KEPT},       /* the furthest left edge */
    {60, 4096, 64, 0, KEPT, KEPT},          /* the most visits */
    {8, 1000, 64, 0, KEPT, KEPT},           /* a field as wide as the region */
    {12, 800, 64, 0, KEPT, KEPT},           /* a field as high */
    {0, 1, 40, 11, 0, 0},                   /* not whole records */
    {0, 1, 0, 11, 0, 0},                    /* empty */
    {0, 0, 65568, 11, 0, 0},                /* a record too long */
    {4, 33, 64, 2, 0, 0},                   /* level */
    {4, 0, 64, 2, 0, 0},                    /* level */
    {16, 1, 64, 12, 0, 0},                  /* byte 16 */
    {28, 0x01000000, 64, 12, 0, 0},         /* byte 31 */
    {32, 5, 64, 13, 1, 5},                  /* next record */
    {32, LAST, 64, 13, 1, LAST},            /* next record */
    {0, 2, 64, 13, 0, 2},                   /* first record */
    {32, 1, 64, 14, 1, 1},                  /* next record */
    {44, 0, 64, 10, 0, 1},                  /* width */
    {48, 1000001, 64, 10, 0, 1},            /* height */
    {36, 1000001, 64, 10, 0, 1},            /* left */
    {40, (uint32_t)-1000001, 64, 10, 0, 1}, /* top */
    {60, 4097, 64, 15, 0, 1},               /* visits */
    {60, LAST, 64, 15, 0, 1},               /* visits */
    {8, 1001, 64, 16, 0, 1},                /* the width of the field */
    {8, LAST, 64, 16, 0, 1},                /* the width of the field */
    {12, 801, 64, 16, 0, 1},                /* its height */
    {12, LAST, 64, 16, 0, 1},               /* its height */
};

/* An accepted file leaves both words of the link as they were, and a refused one leaves the words of the walk so. */
static void files(void) {
    for (size_t i = 0; i < sizeof changes / sizeof changes[0]; i++) {
        vektrid_file_walk walk;
        uint32_t answer = changes[i].answer, holder = KEPT, named = KEPT;
        keep(walk.words, 11);
        put_example();
        put(changes[i].at, changes[i].value);
        refused[answer] += (unsigned)check(vektrid_judge(file, changes[i].size) == answer, "the file gets its answer", __FILE__, __LINE__);
        CHECK(vektrid_judge_link(file, changes[i].size, &holder, &named) == answer);
        CHECK(holder == changes[i].holder && named == changes[i].named);
        CHECK(vektrid_file_walk_open(file, changes[i].size, &walk) == answer);
        CHECK(answer == 0 || all_kept(walk.words, 11));
    }
}

/* Several things wrong: 11, 2, 12, then at each link 13, 14, 10, 16, 15. */
static void order_of_files(void) {
    put_example();
    put(60, 4097);
    REFUSES(15, vektrid_judge(file, 64));
    put(8, 1001);
    REFUSES(16, vektrid_judge(file, 64));
    put(44, 0);
    REFUSES(10, vektrid_judge(file, 64));
    put(32, 1);
    REFUSES(10, vektrid_judge(file, 64)); /* record 1 is judged at the link of record 0, before its own link */
    put(0, 7);
    REFUSES(13, vektrid_judge(file, 64));
    put(16, 1);
    REFUSES(12, vektrid_judge(file, 64));
    put(4, 0);
    REFUSES(2, vektrid_judge(file, 64));
    REFUSES(11, vektrid_judge(file, 63));
}

/* A chain through record 3, then 1, then 2, with one number of record 2 changed: its answer and the link. The reader's field is 200 by 100. */
static void links_of_files(void) {
    static const struct change last[] = {
        {64, 0, 128, 0, KEPT, KEPT},   /* the end of the chain */
        {64, 9, 128, 13, 2, 9},        /* a record that is not there */
        {64, 4, 128, 13, 2, 4},        /* the first number without a record */
        {64, 3, 128, 14, 2, 3},        /* back to the first record of the chain */
        {64, 2, 128, 14, 2, 2},        /* back to itself */
        {76, 0, 128, 10, 1, 2},        /* its width */
        {92, 4097, 128, 15, 1, 2},     /* its visits */
        {76, 200, 128, 0, KEPT, KEPT}, /* as wide as the reader's field */
        {76, 199, 128, 16, 1, 2},      /* less wide */
        {80, 99, 128, 16, 1, 2},       /* less high */
    };
    for (size_t i = 0; i < sizeof last / sizeof last[0]; i++) {
        uint32_t holder = KEPT, named = KEPT;
        put_example();
        memcpy(file + 64, file + 32, 32);
        memcpy(file + 96, file + 32, 32);
        put(0, 3);
        put(8, 200);
        put(12, 100);
        put(96, 1);
        put(32, 2);
        put(last[i].at, last[i].value);
        CHECK(vektrid_judge_link(file, last[i].size, &holder, &named) == last[i].answer);
        CHECK(holder == last[i].holder && named == last[i].named);
    }
}

/* The visits of the example with a field in record 0. */
static void visits(uint32_t field_width, uint32_t field_height, const int32_t at[4][2]) {
    vektrid_file_walk walk;
    uint32_t given = KEPT, record = KEPT, index = KEPT;
    int32_t x = 77, y = 77;
    put_example();
    put(8, field_width);
    put(12, field_height);
    CHECK(vektrid_file_walk_open(file, 64, &walk) == 0);
    for (uint32_t n = 0; n < 7; n++) {
        uint32_t last = n < 4 ? n : 3; /* the visit given last, which a step at the end leaves there */
        vektrid_file_walk copy = walk;    /* a copy goes on as the walk itself */
        vektrid_file_walk_step(file, 64, &walk, &given, &record, &index, &x, &y);
        CHECK(given == (n < 4 ? 1u : 0u) && record == 1 && index == last && x == at[last][0] && y == at[last][1]);
        vektrid_file_walk_step(file, 64, &copy, &given, &record, &index, &x, &y);
        CHECK(given == (n < 4 ? 1u : 0u) && record == 1 && index == last && x == at[last][0] && y == at[last][1]);
    }
}

static void visits_of_fields(void) {
    static const int32_t without[4][2] = {{-500, 0}, {0, 400}, {-250, 600}, {250, 200}};
    static const int32_t with[4][2] = {{-500, 0}, {-100, 350}, {-300, 525}, {100, 175}};
    static const int32_t at_the_edge[4][2] = {{-500, 0}, {-500, 0}, {-500, 0}, {-500, 0}};
    visits(0, 0, without);
    visits(1, 0, without);
    visits(0, 1, without);
    visits(1, 1, without);
    visits(200, 100, with);
    visits(1000, 800, at_the_edge);
}

/* The largest words, which the shift gives: the field ends where the region does, and 0 counts as 1. */
static void visits_at_the_last_place(void) {
    static const uint32_t fields_of[6][2] = {{0, 0}, {1, 0}, {0, 1}, {1, 1}, {200, 100}, {1000, 800}};
    static const int32_t at[6][2] = {{499, 799}, {499, 799}, {499, 799}, {499, 799}, {300, 700}, {-500, 0}};
    for (int i = 0; i < 6; i++) {
        vektrid_file_walk walk;
        uint32_t given = KEPT, record = KEPT, index = KEPT;
        int32_t x = 77, y = 77;
        put_example();
        put(8, fields_of[i][0]);
        put(12, fields_of[i][1]);
        put(52, LAST);
        put(56, LAST);
        CHECK(vektrid_file_walk_open(file, 64, &walk) == 0);
        vektrid_file_walk_step(file, 64, &walk, &given, &record, &index, &x, &y);
        CHECK(given == 1 && record == 1 && index == 0 && x == at[i][0] && y == at[i][1]);
    }
}

/* A chain without records is accepted whatever the field is, and a record off the chain is not judged. */
static void visits_of_none(void) {
    vektrid_file_walk walk;
    uint32_t out[3]; /* given, record, index */
    int32_t x = 77, y = 77;
    keep(out, 3);
    put_example();
    put(0, 0); /* a chain without records */
    put(8, LAST);
    put(12, LAST);
    CHECK(vektrid_file_walk_open(file, 64, &walk) == 0);
    vektrid_file_walk_step(file, 64, &walk, &out[0], &out[1], &out[2], &x, &y);
    CHECK(out[0] == 0 && all_kept(out + 1, 2) && x == 77 && y == 77);
}

/* The two texts of a file. Both are opened and written piece by piece alike, each with a cursor of its own. */
enum text { LISTING, SHEET };

struct cursors {
    vektrid_cursor listing;
    vektrid_sheet_cursor sheet;
};

static void open_text(enum text of, size_t size, struct cursors *cursors) {
    if (of == LISTING)
        vektrid_listing_open(file, size, &cursors->listing);
    else
        vektrid_sheet_open(file, size, &cursors->sheet);
}

static size_t next_piece(enum text of, size_t size, struct cursors *cursors, uint8_t *out, size_t room) {
    return of == LISTING ? vektrid_listing_piece(file, size, &cursors->listing, out, room)
                         : vektrid_sheet_piece(file, size, &cursors->sheet, out, room);
}

/* The whole text in pieces of some room: each piece within its room, whole lines, and nothing written past them. */
static size_t whole(enum text of, size_t size, size_t room, char *text, size_t text_room) {
    uint8_t piece[128];
    struct cursors cursors;
    size_t length = 0;
    open_text(of, size, &cursors);
    for (;;) {
        memset(piece, BYTE_KEPT, sizeof piece);
        size_t written = next_piece(of, size, &cursors, piece, room);
        CHECK(written <= room && length + written < text_room);
        if (written > room || length + written >= text_room)
            break;
        for (size_t i = written; i < sizeof piece; i++)
            CHECK(piece[i] == BYTE_KEPT);
        if (written == 0)
            break;
        CHECK(piece[written - 1] == '\n');
        memcpy(text + length, piece, written);
        length += written;
    }
    text[length] = 0;
    return length;
}

/* The text of the example, of a file without visits, and of every refused file. */
static void texts(enum text of, const char *of_example, const char *of_none) {
    char text[2048], expected[24];
    for (size_t room = 46; room <= 128; room++) {
        put_example();
        CHECK(whole(of, 64, room, text, sizeof text) == strlen(of_example) && strcmp(text, of_example) == 0);
    }
    for (size_t i = 0; i < sizeof changes / sizeof changes[0]; i++) {
        if (changes[i].answer == 0)
            continue;
        put_example();
        put(changes[i].at, changes[i].value);
        snprintf(expected, sizeof expected, "refused %u\n", (unsigned)changes[i].answer);
        whole(of, changes[i].size, 46, text, sizeof text);
        CHECK(strcmp(text, expected) == 0);
    }
    put_example();
    put(0, 0);
    whole(of, 64, 46, text, sizeof text);
    CHECK(strcmp(text, of_none) == 0);
}

/* Less room than the longest line: nothing is written, and the text can go on with more. */
static void text_without_room(enum text of, const char *first_line) {
    uint8_t piece[64];
    struct cursors cursors;
    put_example();
    open_text(of, 64, &cursors);
    memset(piece, BYTE_KEPT, sizeof piece);
    CHECK(next_piece(of, 64, &cursors, piece, 45) == 0);
    CHECK(next_piece(of, 64, &cursors, piece, 0) == 0);
    for (size_t i = 0; i < sizeof piece; i++)
        CHECK(piece[i] == BYTE_KEPT);
    CHECK(next_piece(of, 64, &cursors, piece, 46) > 0 && memcmp(piece, first_line, strlen(first_line)) == 0);
}

static void listings(void) {
    texts(LISTING, example_listing, "record visit x y\n");
    text_without_room(LISTING, "record visit x y\n");
}

/* Two records under one field: the second is as high as the field, and its first visit is as far right as the field can go. */
static void listing_with_a_field(void) {
    static const uint32_t second[8] = {0, 2000, (uint32_t)-75, 640, 100, LAST, 0, 2};
    static const char *const expected = "record visit x y\n1 0 -500 0\n1 1 -100 350\n1 2 -300 525\n1 3 100 175\n2 0 2440 -75\n2 1 2220 -75\n";
    char text[2048];
    put_example();
    put(8, 200);
    put(12, 100);
    put(32, 2);
    for (size_t i = 0; i < 8; i++)
        put(64 + 4 * i, second[i]);
    for (size_t room = 46; room <= 128; room++)
        CHECK(whole(LISTING, 96, room, text, sizeof text) == strlen(expected) && strcmp(text, expected) == 0);
}

/* ---- sheets: lines of 27 columns and a line feed, 50 of them a page */

enum { LINE = 28, PAGE_LINES = 50, PAGE = LINE * PAGE_LINES };

static const char *const heading = " rec  vis        x        y\n";

/* A page with these lines for visits, blank ones behind them, and its number; and where it ends. */
static char *put_page(char *at, const char *lines, int number) {
    size_t length = strlen(lines);
    memcpy(at, heading, LINE);
    memcpy(at + LINE, lines, length);
    for (size_t line = 1 + length / LINE; line < PAGE_LINES - 1; line++)
        snprintf(at + line * LINE, LINE + 1, "%27s\n", "");
    snprintf(at + PAGE - LINE, LINE + 1, "%27d\n", number);
    return at + PAGE;
}

/* All visits of the example, as lines of 27 columns. */
static const char *const example_lines = "   1    0     -500        0\n"
                                         "   1    1        0      400\n"
                                         "   1    2     -250      600\n"
                                         "   1    3      250      200\n";

static void sheets(void) {
    char of_example[PAGE + 1], of_none[PAGE + 1];
    put_page(of_example, example_lines, 1);
    put_page(of_none, "", 1);
    texts(SHEET, of_example, of_none);
    text_without_room(SHEET, heading);
}

/* 48 visits fill a page, and one more begins another. The lines are made of the visits that a walk gives. */
static void sheet_of_many_visits(uint32_t count) {
    static char text[4 * PAGE], expected[4 * PAGE], lines[PAGE];
    char *end = expected;
    int page = 0;
    vektrid_file_walk walk;
    uint32_t given, record, index;
    int32_t x, y;
    put_example();
    put(60, count);
    CHECK(vektrid_file_walk_open(file, 64, &walk) == 0);
    vektrid_file_walk_step(file, 64, &walk, &given, &record, &index, &x, &y);
    do {
        size_t length = 0;
        for (; given && length < 48 * LINE; length += LINE) {
            snprintf(lines + length, LINE + 1, "%4u %4u %8d %8d\n", (unsigned)record, (unsigned)index, (int)x, (int)y);
            vektrid_file_walk_step(file, 64, &walk, &given, &record, &index, &x, &y);
        }
        lines[length] = 0;
        end = put_page(end, lines, ++page);
    } while (given);
    CHECK(page == (count <= 48 ? 1 : count <= 96 ? 2 : 3));
    for (size_t room = 46; room <= 128; room += 41) {
        CHECK(whole(SHEET, 64, room, text, sizeof text) == (size_t)(end - expected));
        CHECK(strcmp(text, expected) == 0);
    }
}

static void sheets_of_many_visits(void) {
    static const uint32_t counts[7] = {0, 1, 47, 48, 49, 96, 97};
    for (int i = 0; i < 7; i++)
        sheet_of_many_visits(counts[i]);
}

/* A cursor that is copied after any line goes on as the cursor itself, and at the end it stays. */
static void copied_sheet_cursor(void) {
    char expected[PAGE + 1];
    vektrid_sheet_cursor cursor, copy;
    put_example();
    put_page(expected, example_lines, 1);
    vektrid_sheet_open(file, 64, &cursor);
    for (size_t line = 0; line < PAGE_LINES + 2; line++) {
        uint8_t piece[64], again[64];
        size_t length = line < PAGE_LINES ? LINE : 0;
        copy = cursor;
        CHECK(vektrid_sheet_piece(file, 64, &cursor, piece, 46) == length);
        CHECK(vektrid_sheet_piece(file, 64, &copy, again, 46) == length);
        CHECK(length == 0 || (memcmp(piece, expected + line * LINE, length) == 0 && memcmp(again, piece, length) == 0));
    }
}

/* The words of a cursor as crates/cursor_words/specs/SheetCursors.antt reads them: the kind of the place, the number of a refusal or of lines,
 * the page, and a walk, which has ended where its words are 0. Only the first line is looked at. */
static void words_of_sheet_cursors(void) {
    static const struct {
        uint32_t words[3];
        const char *line;
    } places[8] = {
        {{0, 7, 3}, ""},                                  /* the end */
        {{1, 7, 3}, " rec  vis        x        y\n"},     /* the heading of a page */
        {{2, 1, 3}, "                           \n"},     /* a line for a visit, of which none is to come */
        {{2, 0, 3}, "                          3\n"},     /* the number of the page */
        {{2, 0, LAST}, "                 4294967295\n"},  /* the largest number of a page */
        {{3, 7, 3}, "refused 7\n"},                       /* the line of a refused file */
        {{3, LAST, 3}, "refused 4294967295\n"},           /* with a number that no refusal has */
        {{LAST, 7, 3}, "refused 7\n"},                    /* every kind above 2 is that of a refusal */
    };
    put_example();
    for (int n = 0; n < 8; n++) {
        uint8_t piece[46];
        size_t length = strlen(places[n].line);
        vektrid_sheet_cursor cursor = {{0}};
        memcpy(cursor.words, places[n].words, sizeof places[n].words);
        CHECK(vektrid_sheet_piece(file, 64, &cursor, piece, sizeof piece) == length && memcmp(piece, places[n].line, length) == 0);
    }
}

/* The header says how many words each cursor has, and a cursor is these words alone. */
static void sizes(void) {
    CHECK(sizeof(vektrid_file_walk) == 11 * 4);
    CHECK(sizeof(vektrid_cursor) == 13 * 4);
    CHECK(sizeof(vektrid_sheet_cursor) == 14 * 4);
}

/* File walks and cursors of any content are answered: no step writes past its words, no piece past its room. */
static void any_content(void) {
    static const uint32_t contents[4] = {0, 1, KEPT, LAST};
    put_example();
    for (int n = 0; n < 4; n++) {
        uint8_t piece[64];
        uint32_t given = KEPT, record, index;
        int32_t x, y;
        vektrid_file_walk walk;
        struct cursors cursors;
        for (int i = 0; i < 11; i++)
            walk.words[i] = contents[n];
        for (int i = 0; i < 13; i++)
            cursors.listing.words[i] = contents[n];
        for (int i = 0; i < 14; i++)
            cursors.sheet.words[i] = contents[n];
        vektrid_file_walk_step(file, 64, &walk, &given, &record, &index, &x, &y);
        CHECK(given == 0 || given == 1);
        for (int of = LISTING; of <= SHEET; of++) {
            memset(piece, BYTE_KEPT, sizeof piece);
            size_t written = next_piece((enum text)of, 64, &cursors, piece, 50);
            CHECK(written <= 50);
            for (size_t i = written; i < sizeof piece; i++)
                CHECK(piece[i] == BYTE_KEPT);
        }
    }
}

/* The flips that were lent are what they were. */
static void lent_flips(void) {
    struct scramble made[SCRAMBLES];
    make_scrambles(made);
    CHECK(memcmp(scrambles, made, sizeof made) == 0);
    for (uint32_t n = 0; n < 512; n++)
        CHECK(!flip_bit(zero_bytes, n) && flip_bit(set_bytes, n) && (n > 255 || flip_bit(bit_255, n) == (n == 255)));
    for (int i = 0; i < 32; i++)
        CHECK(vektrid_no_flips[i] == 0);
}

int main(void) {
    make_pairs();
    make_scrambles(scrambles);
    make_bad_flips();
    interface_number();
    standard_pairs();
    checked_pairs();
    checked_strips();
    known_points();
    known_points_under_flips();
    points();
    single_flip_bits();
    flips_anywhere();
    refused_points();
    points_with_bad_flips();
    all_fills();
    refused_fills();
    fills_with_bad_flips();
    opened_walks();
    walks();
    walk_at_the_last_index();
    refused_steps();
    steps_with_bad_flips();
    kept_nans();
    known_queries();
    refused_queries();
    queries_with_bad_flips();
    not_nets_under_flips();
    all_small_cells();
    known_overviews();
    all_small_overviews();
    long_overviews();
    refused_overviews();
    overviews_with_bad_flips();
    overviews_with_a_cell_outside();
    unit_numbers();
    refused_positions();
    known_positions();
    fields();
    files();
    order_of_files();
    links_of_files();
    visits_of_fields();
    visits_at_the_last_place();
    visits_of_none();
    listings();
    listing_with_a_field();
    sheets();
    sheets_of_many_visits();
    copied_sheet_cursor();
    words_of_sheet_cursors();
    sizes();
    any_content();
    lent_flips();
    for (int number = 1; number <= 18; number++)
        CHECK(refused[number] > 0);
    printf("interface.c: %u checks, %u failed\n", checks, failures);
    return failures == 0 ? 0 : 1;
}
