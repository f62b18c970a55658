/* The expander, by hand bit by bit: 6 and 8 bits from the rows of Tables 23 and 24 of data sheet 001, as the tables
 * draw them, the others likewise from document 02, P4; and beside plain C (host/plain), which has the rules. */
#include "check.h"

/* the component's bit that stands at each of the ten places, from place 9 down to place 0 */
static const unsigned char rows[][10] = {
    {3, 2, 1, 0, 3, 2, 1, 0, 3, 2}, /* 4 bits */
    {4, 3, 2, 1, 0, 4, 3, 2, 1, 0}, /* 5 bits */
    {5, 4, 3, 2, 1, 0, 5, 4, 3, 2}, /* "6 Bit" */
    {6, 5, 4, 3, 2, 1, 0, 6, 5, 4}, /* 7 bits */
    {7, 6, 5, 4, 3, 2, 1, 0, 7, 6}, /* "8 Bit" */
};
/* how many values each width holds */
static const uint32_t values[] = {16, 32, 64, 128, 256};

static unsigned drawn(const unsigned char *row, uint32_t value) {
    unsigned ten = 0;
    for (int i = 0; i < 10; i++) ten = ten << 1 | (value >> row[i] & 1);
    return ten;
}

static void compare(uint32_t width, uint32_t value) {
    uint64_t answer = zk_expand(width, value), plain = plain_expand(width, value);
    int held = width >= 4 && width <= 8 && value < values[width - 4];
    unsigned refusal = held ? 0 : ZK_OUT_OF_RANGE, ten = held ? drawn(rows[width - 4], value) : 0;
    CHECK(answer == (refusal | (uint64_t)ten << 16), "width %lu, value %lu: answer 0x%016llx, not %u, value %u",
          (unsigned long)width, (unsigned long)value, (unsigned long long)answer, refusal, ten);
    CHECK(answer == plain, "width %lu, value %lu: answer 0x%016llx, plain C 0x%016llx", (unsigned long)width,
          (unsigned long)value, (unsigned long long)answer, (unsigned long long)plain);
}

/* each power of two and its neighbours, random numbers, the largest */
static void far_values(uint32_t width) {
    for (int bit = 0; bit < 32; bit++)
        for (int off = -1; off <= 1; off++) compare(width, ((uint32_t)1 << bit) + (uint32_t)off);
    for (int i = 0; i < 1000; i++) compare(width, (uint32_t)random_bits());
    compare(width, UINT32_MAX);
}

/* every value of the width, the first thousands beyond it, and far ones */
static void each_width_as_drawn(void) {
    for (uint32_t width = 4; width <= 8; width++) {
        for (uint32_t v = 0; v < 70000; v++) compare(width, v);
        far_values(width);
    }
}

/* widths beside 4 to 8; those of which 32 or 256 more, or less, or the low bits, would be one of them; any */
static void other_widths(void) {
    for (uint32_t width = 0; width < 600; width++) {
        for (uint32_t v = 0; v < 300; v++) compare(width, v);
        far_values(width);
    }
    for (int bit = 9; bit < 32; bit++)
        for (uint32_t low = 0; low < 16; low++) {
            compare(((uint32_t)1 << bit) + low, 1);
            compare((uint32_t)0 - ((uint32_t)1 << bit) + low, 0);
        }
    for (int i = 0; i < 100000; i++) compare((uint32_t)random_bits(), (uint32_t)random_bits() & 511);
    far_values(UINT32_MAX);
}

/* document 01's and 02's examples and edges, in their numbers */
static void numbers_of_the_documents(void) {
    static const struct {
        uint32_t width, value;
        unsigned ten;
    } row[] = {{8, 63, 252}, {8, 64, 257}, {8, 128, 514}, {8, 255, 1023}, {6, 4, 65},   {6, 63, 1023},
               {4, 0, 0},    {4, 3, 204},  {4, 4, 273},   {4, 15, 1023},  {5, 1, 33},   {5, 31, 1023},
               {7, 15, 120}, {7, 16, 129}, {7, 127, 1023}};
    for (size_t i = 0; i < sizeof row / sizeof row[0]; i++) {
        uint64_t answer = zk_expand(row[i].width, row[i].value);
        CHECK(answer == (uint64_t)row[i].ten << 16, "width %u, value %u: answer 0x%llx, not %u", (unsigned)row[i].width,
              (unsigned)row[i].value, (unsigned long long)answer, row[i].ten);
    }
}

int main(void) {
    check_start();
    RUN(each_width_as_drawn);
    RUN(other_widths);
    RUN(numbers_of_the_documents);
    FINISH();
}
