/* Chip A: each call of the library beside the same call of plain C (host/plain), which is written from document 01 and
 * requests P3 and P5: every select, pointer, blink clock and mask, states in and out of range, tables of wrong lengths.
 * Every field and every lent byte is compared.
 *
 * By hand, apart from that model: accesses in a row, masks, blink times and the order of the refusals, from data sheet
 * 003 and document 01; every place of a look and what a look must not move, from P5; captions whose number is masked or
 * blinks, from P3. */
#include "check.h"

/* both tables as lent */
struct tables {
    uint8_t *colours, *overlays;
    size_t colour_bytes, overlay_bytes;
};
#define LENT(t) (t)->colours, (t)->colour_bytes, (t)->overlays, (t)->overlay_bytes

static const char *const names[] = {"address",   "pointer", "red",    "green",    "readmask",
                                    "blinkmask", "control", "timing", "position", NULL};
static struct call writes = {"write, lengths %lu %lu, to select %lx: %lx", names, "0139", {0}},
                   reads = {"read, lengths %lu %lu, of select %lx", names, "0139", {0}},
                   looks = {"look, lengths %lu %lu, at %lx", names, "0139", {0}},
                   pixels = {"pixel, lengths %lu %lu: %lx %lx %lx", names, "019", {0}},
                   resets = {"reset", names, "0", {0}}, ticks = {"tick", names, "09", {0}};

/* ---- inputs */

static const size_t colour_sizes[] = {768, 0, 1, 767, 769, 1024}, overlay_sizes[] = {12, 0, 11, 13, 768};

/* a lent pair of tables for each pair of sizes; good is the pair of the right ones */
static struct tables lent[COUNT(colour_sizes)][COUNT(overlay_sizes)];
static const struct tables *const good = &lent[0][0];

static struct tables new_tables(size_t colour_bytes, size_t overlay_bytes) {
    struct tables t = {check_guarded(colour_bytes), check_guarded(overlay_bytes), colour_bytes, overlay_bytes};
    for (size_t k = 0; k < colour_bytes; k++) t.colours[k] = (uint8_t)random_bits();
    for (size_t k = 0; k < overlay_bytes; k++) t.overlays[k] = (uint8_t)random_bits();
    return t;
}

static void make_tables(void) {
    for (size_t i = 0; i < COUNT(colour_sizes); i++)
        for (size_t j = 0; j < COUNT(overlay_sizes); j++) lent[i][j] = new_tables(colour_sizes[i], overlay_sizes[j]);
}

/* tables whose entries can be told apart: every colour has its number three times, no overlay has three equal bytes */
static struct tables numbered_tables(void) {
    struct tables t = new_tables(768, 12);
    for (int i = 0; i < 768; i++) t.colours[i] = (uint8_t)(i / 3);
    for (int i = 0; i < 12; i++) t.overlays[i] = (uint8_t)(i % 3 ? i / 3 : 0xff);
    return t;
}

/* a good state with up to two fields that hold anything, just over the edge or far from it */
static zk_a_state any_state(void) {
    zk_a_state s = good_a();
    for (int i = (int)below(3); i > 0; i--) {
        uint8_t far = (uint8_t)random_bits(), edge = (uint8_t)below(2);
        switch (below(6)) {
        case 0: s.pointer = edge ? 3 : far; break;
        case 1: s.red = edge ? 16 : far; break;
        case 2: s.green = edge ? 16 : far; break;
        case 3: s.control = edge ? (uint8_t)(s.control | 16) : far; break;
        case 4: s.clock.position = edge ? (uint8_t)period(s.clock.timing) : far; break;
        default: s.clock.timing = far;
        }
    }
    return s;
}

/* a good state with one field just out of its range, each in turn; the last stays good */
enum { SPOILT = 7 };
static zk_a_state spoilt(int field) {
    zk_a_state s = good_a();
    switch (field) {
    case 0: s.pointer = 3; break;
    case 1: s.red = 16; break;
    case 2: s.green = 16; break;
    case 3: s.control |= 0x10; break;
    case 4: s.control |= 0x20; break;
    case 5: s.control |= 0x80; break;
    case 6: s.clock.position = (uint8_t)period(s.clock.timing); break;
    }
    return s;
}

static uint32_t any_place(void) {
    static const uint32_t firsts[] = {0, ZK_A_LOOK_OVERLAYS, ZK_A_LOOK_COLOURS}, lengths[] = {9, 12, 768};
    uint32_t block = below(3);
    return some_place(firsts[block], lengths[block]);
}

/* ---- a call of the library and of plain C, compared */

static uint8_t plain_colours[1024], plain_overlays[1024];
static struct tables plain = {plain_colours, plain_overlays, 0, 0}; /* as lent, then as plain C leaves them */

static void copy_tables(const struct tables *t) {
    memcpy(plain.colours, t->colours, plain.colour_bytes = t->colour_bytes);
    memcpy(plain.overlays, t->overlays, plain.overlay_bytes = t->overlay_bytes);
}

static struct flat row(zk_a_state s) {
    zk_a_answer a = {0, 0, s};
    return flat_a(a);
}

static void compare(struct call *call, zk_a_state s, unsigned long x, unsigned long y, unsigned long z,
                    const struct tables *t, struct flat got, struct flat want) {
    const unsigned long numbers[5] = {t->colour_bytes, t->overlay_bytes, x, y, z};
    check_same(call, numbers, row(s), got, want);
    check_lent(call, "colours", t->colours, plain.colours, t->colour_bytes);
    check_lent(call, "overlays", t->overlays, plain.overlays, t->overlay_bytes);
}

static zk_a_state one_write(zk_a_state s, int select, int byte, const struct tables *t) {
    copy_tables(t);
    zk_a_answer want = plain_a_write(s, (uint8_t)select, (uint8_t)byte, LENT(&plain));
    zk_a_answer got = zk_a_write(s, (uint8_t)select, (uint8_t)byte, LENT(t));
    compare(&writes, s, (unsigned)select, (unsigned)byte, 0, t, flat_a(got), flat_a(want));
    return got.state;
}

static zk_a_state one_read(zk_a_state s, int select, const struct tables *t) {
    copy_tables(t);
    zk_a_answer want = plain_a_read(s, (uint8_t)select, LENT(&plain)), got = zk_a_read(s, (uint8_t)select, LENT(t));
    compare(&reads, s, (unsigned)select, 0, 0, t, flat_a(got), flat_a(want));
    return got.state;
}

static void one_look(zk_a_state s, uint32_t place, const struct tables *t) {
    copy_tables(t);
    zk_looked want = plain_a_look(s, place, LENT(&plain)), got = zk_a_look(s, place, LENT(t));
    compare(&looks, s, place, 0, 0, t, flat_look(got), flat_look(want));
}

static void one_pixel(zk_a_state s, int enable, int number, int byte, const struct tables *t) {
    uint8_t e = (uint8_t)enable, n = (uint8_t)number, b = (uint8_t)byte;
    copy_tables(t);
    zk_a_shown want = plain_a_pixel(s, e, n, b, LENT(&plain)), got = zk_a_pixel(s, e, n, b, LENT(t));
    compare(&pixels, s, e, n, b, t, flat_shown_a(got), flat_shown_a(want));
    int refusal = zk_a_pixel_refusal(s, e, n, b, LENT(t)), plain_refusal = plain_a_pixel_refusal(s, e, n, b, LENT(t));
    CHECK(refusal == plain_refusal && refusal == got.refusal, "pixel %d %d %d: refusals %d, %d, plain C %d", enable,
          number, byte, refusal, got.refusal, plain_refusal);
}

/* ---- every call beside plain C */

static void every_select_and_pointer(void) {
    for (int select = 0; select < 256; select++)
        for (int pointer = 0; pointer < 5; pointer++)
            for (int i = 0; i < 60; i++) {
                zk_a_state s = good_a();
                s.pointer = (uint8_t)pointer;
                one_write(s, select, (int)below(256), good);
                one_read(s, select, good);
            }
}

static void any_state_and_length(void) {
    for (int i = 0; i < 60000; i++) {
        size_t c = below(3) ? 0 : below(COUNT(colour_sizes)), o = below(3) ? 0 : below(COUNT(overlay_sizes));
        const struct tables *t = &lent[c][o];
        int select = (int)(below(2) ? below(9) : below(256));
        one_write(any_state(), select, (int)below(256), t);
        one_read(any_state(), select, t);
        one_look(any_state(), any_place(), t);
        one_pixel(any_state(), (int)below(4), (int)below(6), (int)below(256), t);
    }
}

/* every address and pointer of both tables, written and read */
static void every_entry(void) {
    for (int address = 0; address < 256; address++)
        for (int pointer = 0; pointer < 3; pointer++)
            for (int select = 1; select <= 3; select += 2) {
                zk_a_state s = good_a();
                s.address = (uint8_t)address, s.pointer = (uint8_t)pointer;
                one_write(s, select, (int)below(256), good);
                one_read(s, select, good);
            }
}

/* long runs of calls, each on the state that the one before left */
static void runs_of_calls(void) {
    for (int run = 0; run < 200; run++) {
        zk_a_state s = zk_a_reset(any_state()).state;
        for (int i = 0; i < 300; i++) {
            int select = (int)below(9);
            if (below(4) != 0) select = below(4) ? 1 : 3;
            s = below(4) ? one_write(s, select, (int)below(256), good) : one_read(s, select, good);
            CHECK(standing_a(s, 768, 12) == 0, "a run left its ranges");
            one_look(s, any_place(), good);
        }
    }
}

/* all 65,536 clocks, by value and lent */
static void every_clock(void) {
    static const unsigned long none[5];
    zk_a_clock *clock = check_guarded(sizeof *clock);
    for (int timing = 0; timing < 256; timing++)
        for (int position = 0; position < 256; position++) {
            zk_a_state s = {0, 0, 0, 0, 0, 0, 0, {(uint8_t)timing, (uint8_t)position}};
            zk_a_clock_answer want = plain_a_step(s.clock), tick, plain_tick = {0, s.clock};
            check_same(&ticks, none, row(s), flat_clock(zk_a_step(s.clock)), flat_clock(want));
            *clock = s.clock, tick.refusal = zk_a_tick(clock), tick.clock = *clock;
            plain_tick.refusal = plain_a_tick(&plain_tick.clock);
            check_same(&ticks, none, row(s), flat_clock(tick), flat_clock(plain_tick));
        }
}

/* every overlay control, enable, number and blink state; every byte through random masks */
static void every_pixel(void) {
    for (int control = 0; control < 256; control++)
        for (int enable = 0; enable < 3; enable++)
            for (int number = 0; number < 6; number++)
                for (int i = 0; i < 8; i++) {
                    zk_a_state s = good_a();
                    s.control = (uint8_t)control;
                    one_pixel(s, enable, number, (int)below(256), good);
                }
    for (int byte = 0; byte < 256; byte++)
        for (int i = 0; i < 40; i++) one_pixel(good_a(), (int)below(2), (int)below(4), byte, good);
}

/* plain C's, and, by hand, zero */
static void reset_from_any_state(void) {
    static const unsigned long none[5];
    static const struct flat zero;
    for (int i = 0; i < 100000; i++) {
        zk_a_state s;
        for (size_t k = 0; k < sizeof s; k++) ((uint8_t *)&s)[k] = (uint8_t)random_bits();
        struct flat got = flat_a(zk_a_reset(s));
        check_same(&resets, none, row(s), got, flat_a(plain_a_reset(s)));
        CHECK(memcmp(&got, &zero, sizeof zero) == 0, "reset: not zero");
    }
}

/* ---- by hand: accesses */

static struct tables hand;
static zk_a_state chip;

static struct flat make_step(const struct step *step) {
    chip = step->access == 'w' ? one_write(chip, step->select, step->byte, &hand) : one_read(chip, step->select, &hand);
    return last;
}

/* each line: access, select, byte; refusal, value; address, pointer, red, green */
static const struct step steps[] = {
    /* reads step through an entry and from the last to the first; bytes as they stand */
    {'w', 0, 0xff, {0}, {0xff, 0}}, {'r', 1, 0, {0, 0xe1}, {0xff, 1}}, {'r', 1, 0, {0, 0xe2}, {0xff, 2}},
    {'r', 1, 0, {0, 0xe3}, {0, 0}}, {'r', 1, 0, {0, 0xd1}, {0, 1}},
    /* four bits are latched; an address read answers all eight bits and moves the pointer to red */
    {'w', 0, 0x90, {0}, {0x90, 0}}, {'w', 1, 0xf3, {0}, {0x90, 1, 3}}, {'r', 0, 0, {0, 0x90}, {0x90, 0, 3}},
    /* reads and writes share the pointer; an address write keeps the latches */
    {'r', 1, 0, {0, 0xc1}, {0x90, 1, 3}}, {'w', 1, 0xf7, {0}, {0x90, 2, 3, 7}},
    {'r', 1, 0, {0, 0xc3}, {0x91, 0, 3, 7}}, {'w', 0, 0xff, {0}, {0xff, 0, 3, 7}},
    /* both tables share the latches; blue stores at the select that it is written to */
    {'w', 1, 0x1c, {0}, {0xff, 1, 12, 7}}, {'w', 3, 0x25, {0}, {0xff, 2, 12, 5}}, {'w', 1, 0x36, {0}, {0, 0, 12, 5}},
    /* overlay 3 by the address's low two bits, which alone step */
    {'w', 0, 0xf7, {0}, {0xf7, 0, 12, 5}}, {'w', 3, 0x01, {0}, {0xf7, 1, 1, 5}},
    {'w', 3, 0x02, {0}, {0xf7, 2, 1, 2}}, {'w', 3, 0x13, {0}, {0xf4, 0, 1, 2}},
    {'r', 3, 0, {0, 0xb1}, {0xf4, 1, 1, 2}}, {'r', 3, 0, {0, 0xb2}, {0xf4, 2, 1, 2}},
    {'r', 3, 0, {0, 0xb3}, {0xf5, 0, 1, 2}},
    /* selects that are not there */
    {'w', 2, 0x10, {3}, {0xf5, 0, 1, 2}}, {'r', 2, 0, {3}, {0xf5, 0, 1, 2}}, {'w', 8, 0x10, {3}, {0xf5, 0, 1, 2}},
    {'r', 8, 0, {3}, {0xf5, 0, 1, 2}}, {'w', 255, 0x10, {3}, {0xf5, 0, 1, 2}}, {'r', 255, 0, {3}, {0xf5, 0, 1, 2}},
    /* the registers; the overlay control has five bits */
    {'w', 4, 0xa5, {0}, {0xf5, 0, 1, 2}}, {'r', 4, 0, {0, 0xa5}, {0xf5, 0, 1, 2}},
    {'w', 5, 0x5a, {0}, {0xf5, 0, 1, 2}}, {'r', 5, 0, {0, 0x5a}, {0xf5, 0, 1, 2}},
    {'w', 6, 0xff, {0}, {0xf5, 0, 1, 2}}, {'r', 6, 0, {0, 0x4f}, {0xf5, 0, 1, 2}},
    {'w', 7, 0x31, {0}, {0xf5, 0, 1, 2}}, {'r', 7, 0, {0, 0x31}, {0xf5, 0, 1, 2}},
};

static void accesses_by_hand(void) {
    static const uint8_t stored[3] = {12, 5, 6}, stored_overlay[3] = {1, 2, 3};
    uint8_t colours[768], overlays[12];
    hand = new_tables(768, 12);
    chip = zk_a_reset(good_a()).state, chip.clock.timing = 0x31, chip.clock.position = 9;
    memcpy(hand.colours, "\xd1\xd2\xd3", 3), memcpy(hand.colours + 3 * 0x90, "\xc1\xc2\xc3", 3);
    memcpy(hand.colours + 3 * 0xff, "\xe1\xe2\xe3", 3), memcpy(hand.overlays, "\xb1\xb2\xb3", 3);
    memcpy(colours, hand.colours, 768), memcpy(overlays, hand.overlays, 12);
    check_steps(steps, COUNT(steps), make_step);
    memcpy(colours + 765, stored, 3), memcpy(overlays + 9, stored_overlay, 3);
    CHECK(memcmp(hand.colours, colours, 768) == 0, "the colours but for entry ff, or entry ff");
    CHECK(memcmp(hand.overlays, overlays, 12) == 0, "the overlays but for entry 3, or entry 3");
    CHECK(chip.readmask == 0xa5 && chip.blinkmask == 0x5a && chip.control == 0x4f, "the registers");
    CHECK(chip.clock.timing == 0x31 && chip.clock.position == 0, "an equal timing did not restart the blink clock");
}

/* 1 before 9 before 3, and of a pixel's arguments 9: tables of all lengths, states in range and out of it, and of four
 * selects, places and pixels that are there, then four that are not */
static void the_order_of_refusals(void) {
    static const int selects[8] = {0, 1, 3, 7, 2, 8, 9, 255}, enables[8] = {0, 1, 0, 1, 2, 0, 255, 1},
                     numbers[8] = {0, 0, 3, 3, 0, 4, 3, 255};
    static const uint32_t places[8] = {0, 8, 0x10b, 0x1000, 9, 0x10c, 0x1300, 0xffffffff};
    for (size_t i = 0; i < COUNT(colour_sizes); i++)
        for (size_t j = 0; j < COUNT(overlay_sizes); j++)
            for (int field = 0; field <= SPOILT; field++)
                for (int k = 0; k < 8; k++) {
                    const struct tables *t = &lent[i][j];
                    zk_a_state s = spoilt(field);
                    int due = i + j > 0 ? 1 : field < SPOILT ? 9 : 0, then = due || k < 4 ? due : 3;
                    one_write(s, selects[k], (int)below(256), t);
                    check_refusal(&writes, (unsigned)selects[k], field, then);
                    one_read(s, selects[k], t);
                    check_refusal(&reads, (unsigned)selects[k], field, then);
                    one_look(s, places[k], t);
                    check_refusal(&looks, places[k], field, then);
                    CHECK(last.told[1] <= 0xff, "a look of more than a byte");
                    one_pixel(s, enables[k], numbers[k], (int)below(256), t);
                    check_refusal(&pixels, (unsigned)enables[k], field, then == 3 ? 9 : then);
                }
}

/* ---- by hand: pixels */

/* which colour a byte shows, without enable, at timing 31 */
static const struct mask {
    uint8_t readmask, blinkmask, position, byte, entry;
} masks[] = {
    {0x00, 0xff, 7, 0xa5, 0xa5}, {0x00, 0xff, 8, 0xa5, 0xa5}, {0xf0, 0xff, 7, 0xa5, 0x05}, {0xf0, 0xff, 8, 0xa5, 0x05},
    {0x00, 0x0f, 7, 0xa5, 0xa5}, {0x00, 0x0f, 8, 0xa5, 0x05}, {0x01, 0xf0, 7, 0xa5, 0xa4}, {0x01, 0xf0, 8, 0xa5, 0xa0},
    {0xff, 0xff, 7, 0xa5, 0x00}, {0x00, 0x00, 23, 0xa5, 0x00}, {0x00, 0x00, 0, 0xa5, 0xa5},
};

static void masked_bytes(void) {
    struct tables t = numbered_tables();
    for (size_t i = 0; i < COUNT(masks); i++) {
        zk_a_state s = zk_a_reset(good_a()).state;
        s.readmask = masks[i].readmask, s.blinkmask = masks[i].blinkmask;
        s.clock.timing = 0x31, s.clock.position = masks[i].position;
        one_pixel(s, 0, 0, masks[i].byte, &t);
        CHECK(last.told[0] == 0 && last.told[3] == masks[i].entry && last.told[4] == masks[i].entry
                  && last.told[5] == masks[i].entry,
              "masks %02x %02x, position %u: entry %02x, not %02x", masks[i].readmask, masks[i].blinkmask,
              masks[i].position, last.told[3], masks[i].entry);
    }
}

/* a timing's on and off time, in ticks; a byte whose lines all blink shows entry 0 in the off time */
static const struct blink {
    uint8_t timing, on, off;
} blinks[] = {{0x00, 4, 4}, {0x0f, 64, 4}, {0xf0, 4, 64}, {0xff, 64, 64}, {0x31, 8, 16}, {0x13, 16, 8}};

static void blink_times(void) {
    struct tables t = numbered_tables();
    for (size_t i = 0; i < COUNT(blinks); i++)
        for (int position = 0; position < 256; position++) {
            zk_a_state s = zk_a_reset(good_a()).state;
            int end = blinks[i].on + blinks[i].off, good_clock = position < end;
            s.clock.timing = blinks[i].timing, s.clock.position = (uint8_t)position;
            zk_a_clock_answer tick = zk_a_step(s.clock);
            one_pixel(s, 0, 0, 0x10, &t);
            CHECK(tick.refusal == (good_clock ? 0 : 9) && last.told[0] == tick.refusal, "timing %02x, position %d",
                  blinks[i].timing, position);
            CHECK(tick.clock.position == (good_clock ? (position + 1) % end : position), "timing %02x, tick after %d",
                  blinks[i].timing, position);
            CHECK(last.told[3] == (position < blinks[i].on ? 0x10 : 0), "timing %02x, shown at %d", blinks[i].timing,
                  position);
        }
}

/* P3: what a caption shows, an overlay entry or the picture, at timing 31, on for 8 ticks and off for 16; the picture
 * is what the same pixel shows without enable */
enum { PICTURE = 4 };
static const struct caption {
    uint8_t control, position, number, shows;
} captions[] = {
    /* both lines blink */
    {0x40, 7, 1, 1}, {0x40, 8, 1, PICTURE}, {0x40, 23, 1, PICTURE}, {0x40, 0, 1, 1},
    {0x40, 7, 2, 2}, {0x40, 8, 2, PICTURE}, {0x40, 7, 3, 3}, {0x40, 8, 3, PICTURE},
    /* none, line 1 alone, line 0 alone */
    {0x4c, 8, 1, 1}, {0x4c, 8, 2, 2}, {0x4c, 8, 3, 3},
    {0x44, 8, 1, 1}, {0x44, 8, 2, PICTURE}, {0x44, 8, 3, 1},
    {0x48, 8, 1, PICTURE}, {0x48, 8, 2, 2}, {0x48, 8, 3, 2},
    /* line 0 masked, line 1, both, none of them blinking */
    {0x4d, 7, 1, PICTURE}, {0x4d, 8, 1, PICTURE}, {0x4d, 7, 2, 2}, {0x4d, 8, 3, 2},
    {0x4e, 7, 2, PICTURE}, {0x4e, 8, 2, PICTURE}, {0x4e, 7, 1, 1}, {0x4e, 8, 3, 1},
    {0x4f, 7, 3, PICTURE}, {0x4f, 8, 3, PICTURE},
    /* one line masked, the other blinking */
    {0x41, 7, 3, 2}, {0x41, 8, 3, PICTURE}, {0x42, 7, 3, 1}, {0x42, 8, 3, PICTURE},
    /* number 0; bit 6 clear */
    {0x40, 7, 0, PICTURE}, {0x4c, 8, 0, PICTURE},
    {0x00, 7, 1, 1}, {0x00, 8, 1, 0}, {0x0d, 7, 1, 0}, {0x0c, 8, 0, 0},
};

static void captions_leave_no_patch(void) {
    struct tables t = numbered_tables();
    for (size_t i = 0; i < COUNT(captions); i++)
        for (int byte = 0; byte < 256; byte++) {
            const struct caption *p = &captions[i];
            zk_a_state s = good_a();
            s.control = p->control, s.clock.timing = 0x31, s.clock.position = p->position;
            zk_a_shown got = zk_a_pixel(s, 1, p->number, (uint8_t)byte, LENT(&t));
            zk_a_shown picture = zk_a_pixel(s, 0, p->number, (uint8_t)byte, LENT(&t));
            const uint8_t *want = p->shows == PICTURE ? &picture.red : t.overlays + 3 * p->shows;
            CHECK(got.refusal == 0 && memcmp(&got.red, want, 3) == 0,
                  "control %02x, position %u, number %u, byte %02x: %02x %02x %02x, not %02x %02x %02x", p->control,
                  p->position, p->number, (unsigned)byte, got.red, got.green, got.blue, want[0], want[1], want[2]);
            one_pixel(s, 1, p->number, byte, &t);
        }
}

/* ---- by hand: looks */

static uint32_t look_at(zk_a_state s, uint32_t place, const struct tables *t) {
    return as_number(zk_a_look(s, place, LENT(t)));
}
static uint32_t good_look(uint32_t place) { return look_at(good_a(), place, good); }

/* a state of nine different numbers, and tables whose bytes hold their own places, the low byte first and then the
 * high one: no two bytes are alike in both rounds */
static void every_place_of_a_look(void) {
    static const zk_a_state s = {0x91, 2, 13, 7, 0xa5, 0x3c, 0x4a, {0xe4, 0x35}};
    static const uint32_t numbers[9] = {0x91, 2, 13, 7, 0xa5, 0x3c, 0x4a, 0xe4, 0x35};
    struct tables t = new_tables(768, 12);
    for (int shift = 0; shift <= 8; shift += 8) {
        for (uint32_t i = 0; i < 12; i++) t.overlays[i] = (uint8_t)((0x100 + i) >> shift);
        for (uint32_t i = 0; i < 768; i++) t.colours[i] = (uint8_t)((0x1000 + i) >> shift);
        for (uint32_t place = 0; place < 0x1400; place++) {
            int there = (place >= 0x100 && place <= 0x10b) || (place >= 0x1000 && place <= 0x12ff);
            uint32_t want = place <= 8 ? numbers[place] : there ? place >> shift & 0xff : REFUSED(3);
            CHECK(look_at(s, place, &t) == want, "place %04x: %06x, not %06x", (unsigned)place,
                  (unsigned)look_at(s, place, &t), (unsigned)want);
            one_look(s, place, &t);
        }
    }
}

/* the header's names, in the order of the places */
static void names_of_the_places(void) {
    static const int places[9] = {ZK_A_LOOK_ADDRESS, ZK_A_LOOK_POINTER,  ZK_A_LOOK_RED,
                                  ZK_A_LOOK_GREEN,   ZK_A_LOOK_READMASK, ZK_A_LOOK_BLINKMASK,
                                  ZK_A_LOOK_CONTROL, ZK_A_LOOK_TIMING,   ZK_A_LOOK_POSITION};
    for (int i = 0; i < 9; i++) CHECK(places[i] == i, "the name of place %d is %d", i, places[i]);
    CHECK(ZK_A_LOOK_OVERLAYS == 0x100 && ZK_A_LOOK_COLOURS == 0x1000, "the names of the tables");
}

static void places_that_are_not_there(void) {
    static const uint32_t there[] = {0, 8, 0x100, 0x10b, 0x1000, 0x12ff};
    static const uint32_t edges[] = {9, 0xff, 0x10c, 0xfff, 0x1300, 0xffff, 0x10000, 0x10100, 0x11000, 0xffffffff};
    check_places(good_look, there, COUNT(there), edges, COUNT(edges), 13);
}

/* The entry of address 0x10 after red 3, the address read by a look or by select 0, green 7 and blue 2; and after one
 * more write, the next colour's red 1. */
static void a_colour(int by_look, const uint8_t entry[3], const uint8_t one_more[3]) {
    struct tables t = new_tables(768, 12);
    zk_a_state s = zk_a_reset(good_a()).state;
    memset(t.colours, 0, t.colour_bytes);
    s = one_write(s, 0, 0x10, &t), s = one_write(s, 1, 0x03, &t);
    CHECK(look_at(s, ZK_A_LOOK_ADDRESS, &t) == 0x10 && look_at(s, ZK_A_LOOK_POINTER, &t) == 1, "0x10, green next");
    if (by_look)
        one_look(s, ZK_A_LOOK_ADDRESS, &t);
    else
        s = one_read(s, 0, &t);
    s = one_write(s, 1, 0x07, &t), s = one_write(s, 1, 0x02, &t);
    CHECK(memcmp(t.colours + 0x30, entry, 3) == 0, "entry 0x10 is %u, %u, %u, not %u, %u, %u", t.colours[0x30],
          t.colours[0x31], t.colours[0x32], entry[0], entry[1], entry[2]);
    for (uint32_t i = 0; i < 3; i++)
        CHECK(look_at(s, ZK_A_LOOK_COLOURS + 0x30 + i, &t) == entry[i], "a look at byte %u of it", (unsigned)i);
    one_write(s, 1, 0x01, &t);
    CHECK(memcmp(t.colours + 0x30, one_more, 3) == 0, "entry 0x10 then, by %s", by_look ? "look" : "select 0");
}

/* document 01's edge among them: after the address read the entry is 7, 2, 1 */
static void a_look_tears_no_colour(void) {
    static const uint8_t black[3] = {0, 0, 0}, colour[3] = {3, 7, 2}, torn[3] = {7, 2, 1};
    a_colour(1, colour, colour);
    a_colour(0, black, torn);
}

static void refusals_met(void) {
    check_met(&writes, 1000), check_met(&reads, 1000), check_met(&looks, 1000), check_met(&pixels, 1000);
    check_met(&resets, 1000), check_met(&ticks, 1000);
}

int main(void) {
    check_start();
    make_tables();
    RUN(every_select_and_pointer);
    RUN(any_state_and_length);
    RUN(every_entry);
    RUN(runs_of_calls);
    RUN(every_clock);
    RUN(every_pixel);
    RUN(reset_from_any_state);
    RUN(accesses_by_hand);
    RUN(the_order_of_refusals);
    RUN(masked_bytes);
    RUN(blink_times);
    RUN(captions_leave_no_patch);
    RUN(every_place_of_a_look);
    RUN(names_of_the_places);
    RUN(places_that_are_not_there);
    RUN(a_look_tears_no_colour);
    RUN(refusals_met);
    FINISH();
}
