/* The works, of one prefix: compiled with PREFIX zk, plain and bare. */
#include "works.h"

#include <string.h>

/* an answer: the call is counted; of its numbers the refusal alone, or all where that is asked for */
#define SEE(row_of, answer)                                             \
    do {                                                                \
        seen->calls++;                                                  \
        seen->number += (answer).refusal;                               \
        if (seen->all) {                                                \
            struct flat row = row_of(answer);                           \
            seen->number = checksum(seen->number, &row, sizeof row);    \
        }                                                               \
    } while (0)
static void see_look(struct seen *seen, zk_looked l) { SEE(flat_look, l); }
/* chip B's, with the waiting entries */
static inline void see_b(const struct lent *lent, struct seen *seen, zk_b_answer a) {
    SEE(flat_b, a);
    if (seen->all) {
        struct waits waits = flat_waits(a.state.fifo, lent->queue);
        seen->number = checksum(seen->number, &waits, sizeof waits);
    }
}
static void see_number(struct seen *seen, uint64_t answer) {
    seen->calls++;
    seen->number += zk_refusal(answer);
    if (seen->all) seen->number = checksum(seen->number, &answer, sizeof answer);
}
#define TABLES lent->colours, sizeof lent->colours, lent->overlays, sizeof lent->overlays
#define QUEUE lent->queue, ZK_B_PLACES
#define MAP lent->map, sizeof lent->map
#define TABLE lent->table, ZK_C_TABLE

/* ---- chip A */
static void write_a(struct lent *lent, struct seen *seen, uint8_t select, unsigned bytes) {
    zk_a_state s = {0};
    zk_a_answer a = CALL(a_write)(s, 0, 0, TABLES);
    SEE(flat_a, a);
    for (unsigned i = 0; i < bytes; i++) {
        a = CALL(a_write)(a.state, select, (uint8_t)(7 * i), TABLES);
        SEE(flat_a, a);
    }
}
static void a_write_colours(struct lent *lent, struct seen *seen) { write_a(lent, seen, 1, 768); }
static void a_write_overlays(struct lent *lent, struct seen *seen) { write_a(lent, seen, 3, 12); }

static void read_a(struct lent *lent, struct seen *seen, uint8_t select, unsigned bytes) {
    zk_a_state s = {0};
    zk_a_answer a = CALL(a_read)(s, 0, TABLES);
    SEE(flat_a, a);
    for (unsigned i = 0; i < bytes; i++) {
        a = CALL(a_read)(a.state, select, TABLES);
        SEE(flat_a, a);
    }
}
static void a_read_colours(struct lent *lent, struct seen *seen) { read_a(lent, seen, 1, 768); }
static void a_read_overlays(struct lent *lent, struct seen *seen) { read_a(lent, seen, 3, 12); }

static void a_registers(struct lent *lent, struct seen *seen) {
    zk_a_answer a = {0};
    for (uint8_t select = 4; select < 8; select++) {
        a = CALL(a_write)(a.state, select, 0xa5, TABLES);
        SEE(flat_a, a);
        a = CALL(a_read)(a.state, select, TABLES);
        SEE(flat_a, a);
    }
}

static const zk_a_state look_a = {16, 1, 2, 3, 4, 5, 6, {7, 8}};

static void a_read_registers(struct lent *lent, struct seen *seen) {
    static const uint8_t selects[5] = {0, 4, 5, 6, 7};
    zk_a_answer a = {0, 0, look_a};
    for (unsigned i = 0; i < 160; i++) {
        a = CALL(a_read)(a.state, selects[i % 5], TABLES);
        SEE(flat_a, a);
    }
}

static void a_look_state(struct lent *lent, struct seen *seen) {
    for (uint32_t i = 0; i < 180; i++) see_look(seen, CALL(a_look)(look_a, i % 9, TABLES));
}
static void a_look_tables(struct lent *lent, struct seen *seen) {
    for (uint32_t i = 0; i < ZK_A_OVERLAYS; i++) see_look(seen, CALL(a_look)(look_a, ZK_A_LOOK_OVERLAYS + i, TABLES));
    for (uint32_t i = 0; i < ZK_A_COLOURS; i++) see_look(seen, CALL(a_look)(look_a, ZK_A_LOOK_COLOURS + i, TABLES));
}

static void a_tick(struct lent *lent, struct seen *seen) {
    zk_a_clock k = {0xff, 0};
    (void)lent;
    for (unsigned i = 0; i < 130; i++) {
        zk_a_clock_answer a;
        a.refusal = CALL(a_tick)(&k);
        a.clock = k;
        SEE(flat_clock, a);
    }
}

static void pixel_a(struct lent *lent, struct seen *seen, uint8_t enable, uint8_t control) {
    zk_a_state s = {0, 0, 0, 0, 0x80, 0x7e, control, {0x31, 9}};
    for (unsigned i = 0; i < 256; i++) {
        zk_a_shown a = CALL(a_pixel)(s, enable, i & 3, (uint8_t)i, TABLES);
        SEE(flat_shown_a, a);
    }
}
static void a_pixel_colour(struct lent *lent, struct seen *seen) { pixel_a(lent, seen, 0, 0x08); }
static void a_pixel_overlay(struct lent *lent, struct seen *seen) { pixel_a(lent, seen, 1, 0x08); }
static void a_pixel_caption(struct lent *lent, struct seen *seen) { pixel_a(lent, seen, 1, 0x4c); }
static void a_pixel_blinked(struct lent *lent, struct seen *seen) { pixel_a(lent, seen, 1, 0x40); }

/* ---- chip B */
/* so many wait from a first position on, up to the places' end and then from place 0 on */
static zk_b_state with_ring(struct lent *lent, unsigned first, unsigned waiting) {
    zk_b_state s = {{64, 0, 1, 2}, {3, 0}, {3, 5}, {(uint8_t)first, (uint8_t)waiting}};
    unsigned room = ZK_B_PLACES - first, older = waiting < room ? waiting : room;
    memcpy(lent->queue + first, lent->entries, older * sizeof *lent->queue);
    memcpy(lent->queue, lent->entries + older, (waiting - older) * sizeof *lent->queue);
    return s;
}
static zk_b_state with_waiting(struct lent *lent, unsigned waiting) { return with_ring(lent, 0, waiting); }

static void write_b(struct lent *lent, struct seen *seen, unsigned first, unsigned waiting, unsigned calls) {
    zk_b_answer a = {0, 0, 0, with_ring(lent, first, waiting)};
    for (unsigned i = 0; i < calls; i++) {
        a = CALL(b_write)(a.state, 2, (uint8_t)i, QUEUE, MAP);
        see_b(lent, seen, a);
    }
}
static void b_write_filling(struct lent *lent, struct seen *seen) { write_b(lent, seen, 0, 0, 192); }
static void b_write_full(struct lent *lent, struct seen *seen) { write_b(lent, seen, 0, 64, 192); }
static void b_write_forced(struct lent *lent, struct seen *seen) { write_b(lent, seen, 0, 64, 1); }
static void b_write_round(struct lent *lent, struct seen *seen) { write_b(lent, seen, 32, 0, 192); }

static void b_write_address(struct lent *lent, struct seen *seen) {
    zk_b_answer a = {0, 0, 0, with_waiting(lent, 0)};
    for (unsigned i = 0; i < 192; i++) {
        a = CALL(b_write)(a.state, i & 1, (uint8_t)i, QUEUE, MAP);
        see_b(lent, seen, a);
    }
}

static void blank_b(struct lent *lent, struct seen *seen, zk_b_state s, uint32_t slots, unsigned calls) {
    zk_b_answer a = {0, 0, 0, s};
    for (unsigned i = 0; i < calls; i++) {
        a = CALL(b_blank)(a.state, slots, QUEUE, MAP);
        see_b(lent, seen, a);
    }
}
static void b_blank_all(struct lent *lent, struct seen *seen) {
    blank_b(lent, seen, with_waiting(lent, 64), 64, 1);
}
static void b_blank_one(struct lent *lent, struct seen *seen) {
    blank_b(lent, seen, with_waiting(lent, 64), 1, 64);
}
static void b_blank_full(struct lent *lent, struct seen *seen) {
    blank_b(lent, seen, with_waiting(lent, 64), 1, 1);
}
static void b_blank_round(struct lent *lent, struct seen *seen) {
    blank_b(lent, seen, with_ring(lent, 32, 64), 1, 64);
}
static void b_blank_none(struct lent *lent, struct seen *seen) {
    blank_b(lent, seen, with_waiting(lent, 0), 64, 64);
}

static void b_read_map(struct lent *lent, struct seen *seen) {
    zk_b_answer a = {0, 0, 0, with_waiting(lent, 0)};
    a.state.control.readmode = 1;
    for (unsigned i = 0; i < 768; i++) {
        a = CALL(b_read)(a.state, 2, QUEUE, MAP);
        SEE(flat_b, a);
    }
}

static void read_status(struct lent *lent, struct seen *seen, unsigned first, unsigned waiting) {
    zk_b_answer a = {0, 0, 0, with_ring(lent, first, waiting)};
    for (unsigned i = 0; i < 192; i++) {
        a = CALL(b_read)(a.state, 4, QUEUE, MAP);
        SEE(flat_b, a);
    }
}
static void b_read_status(struct lent *lent, struct seen *seen) { read_status(lent, seen, 0, 33); }
static void b_read_status_full(struct lent *lent, struct seen *seen) { read_status(lent, seen, 0, 64); }
static void b_read_status_round(struct lent *lent, struct seen *seen) { read_status(lent, seen, 48, 33); }

static void b_read_registers(struct lent *lent, struct seen *seen) {
    static const uint8_t selects[4] = {0, 1, 3, 6};
    zk_b_answer a = {0, 0, 0, with_waiting(lent, 0)};
    for (unsigned i = 0; i < 192; i++) {
        a = CALL(b_read)(a.state, selects[i % 4], QUEUE, MAP);
        SEE(flat_b, a);
    }
}

static void b_look_state(struct lent *lent, struct seen *seen) {
    zk_b_state s = with_waiting(lent, 0);
    for (uint32_t i = 0; i < 180; i++) see_look(seen, CALL(b_look)(s, i % 9, QUEUE, MAP));
}
static void look_map(struct lent *lent, struct seen *seen, unsigned waiting) {
    zk_b_state s = with_waiting(lent, waiting);
    for (uint32_t i = 0; i < 768; i++) see_look(seen, CALL(b_look)(s, ZK_B_LOOK_MAP + 32 * i + i % 32, QUEUE, MAP));
}
static void b_look_map(struct lent *lent, struct seen *seen) { look_map(lent, seen, 0); }
static void b_look_map_waiting(struct lent *lent, struct seen *seen) { look_map(lent, seen, 33); }

static void pixel_b(struct lent *lent, struct seen *seen, zk_b_state s, uint8_t mode) {
    for (uint32_t i = 0; i < 256; i++) {
        zk_b_shown a = CALL(b_pixel)(s, mode, 0x010305 * i & 0xffffff, QUEUE, MAP);
        SEE(flat_shown_b, a);
    }
}
static void b_pixel_0(struct lent *lent, struct seen *seen) { pixel_b(lent, seen, with_waiting(lent, 0), 0); }
static void b_pixel_0_waiting(struct lent *lent, struct seen *seen) {
    pixel_b(lent, seen, with_waiting(lent, 33), 0);
}
static void b_pixel_0_full(struct lent *lent, struct seen *seen) { pixel_b(lent, seen, with_waiting(lent, 64), 0); }
static void b_pixel_0_round(struct lent *lent, struct seen *seen) { pixel_b(lent, seen, with_ring(lent, 48, 33), 0); }
static void b_pixel_123(struct lent *lent, struct seen *seen) {
    for (uint8_t mode = 1; mode < 4; mode++) pixel_b(lent, seen, with_waiting(lent, 0), mode);
}

static void b_sync(struct lent *lent, struct seen *seen) {
    zk_b_state s = with_waiting(lent, 0);
    for (uint8_t i = 0; i < 16; i++) {
        zk_b_answer a = CALL(b_sync)(s, i, QUEUE);
        SEE(flat_b, a);
    }
}

static void b_reset(struct lent *lent, struct seen *seen) {
    zk_b_state s = with_waiting(lent, 64);
    for (unsigned i = 0; i < 64; i++) {
        zk_b_answer a = CALL(b_reset)(s, QUEUE);
        SEE(flat_b, a);
    }
}

/* ---- chip C and the expander */
static zk_c_answer index_c(struct lent *lent, struct seen *seen, uint8_t high) {
    zk_c_state s = {0};
    zk_c_answer a = CALL(c_write)(s, 4, 0, TABLE);
    SEE(flat_c, a);
    a = CALL(c_write)(a.state, 5, high, TABLE);
    SEE(flat_c, a);
    return a;
}

static void c_write_table(struct lent *lent, struct seen *seen) {
    zk_c_answer a = index_c(lent, seen, 0x40);
    for (unsigned i = 0; i < ZK_C_TABLE; i++) {
        a = CALL(c_write)(a.state, 6, (uint8_t)(5 * i), TABLE);
        SEE(flat_c, a);
    }
}

static void c_read_table(struct lent *lent, struct seen *seen) {
    zk_c_answer a = index_c(lent, seen, 0x80);
    for (unsigned i = 0; i < ZK_C_TABLE; i++) {
        a = CALL(c_read)(a.state, 6, TABLE);
        SEE(flat_c, a);
    }
}

static const zk_c_state look_c = {0x8005, 1001, 502, {303, 104, 905}, 0, 6};

static void c_read_index(struct lent *lent, struct seen *seen) {
    zk_c_answer a = {0, 0, look_c};
    for (unsigned i = 0; i < 192; i++) {
        a = CALL(c_read)(a.state, 4 + i % 2, TABLE);
        SEE(flat_c, a);
    }
}

static void c_look_state(struct lent *lent, struct seen *seen) {
    for (uint32_t i = 0; i < 160; i++) see_look(seen, CALL(c_look)(look_c, i % 8, TABLE));
}
static void c_look_table(struct lent *lent, struct seen *seen) {
    for (uint32_t i = 0; i < ZK_C_TABLE; i++) see_look(seen, CALL(c_look)(look_c, ZK_C_LOOK_TABLE + i, TABLE));
}

#define EXPANDS(width)                                                                                                 \
    static void expand_##width(struct lent *lent, struct seen *seen) {                                                 \
        (void)lent;                                                                                                    \
        for (uint32_t i = 0; i < (uint32_t)1 << width; i++) see_number(seen, CALL(expand)(width, i));                  \
    }
EXPANDS(4)
EXPANDS(5)
EXPANDS(6)
EXPANDS(7)
EXPANDS(8)

/* ---- sheets */
static void to_calls(struct lent *lent, struct seen *seen, const uint8_t *text, size_t length) {
    for (unsigned i = 0; i < 16; i++)
        see_number(seen, CALL(sheet_to_calls)(text, length, lent->calls, sizeof lent->calls));
}

static void sheet_whole(struct lent *lent, struct seen *seen) { to_calls(lent, seen, lent->whole, ZK_SHEET_BYTES); }
static void sheet_damaged(struct lent *lent, struct seen *seen) { to_calls(lent, seen, lent->damaged, ZK_SHEET_BYTES); }
static void sheet_short(struct lent *lent, struct seen *seen) {
    static const char nine[] = "chip=153108\nreadmask=00\nblinkmask=ff\noverlay=40\ntiming=31\n"
                               "o1=f00\nc10=0a5\nc11=fff\nc20=123\n";
    to_calls(lent, seen, (const uint8_t *)nine, sizeof nine - 1);
}

static void sheet_writer(struct lent *lent, struct seen *seen) {
    zk_a_state s = {0};
    for (unsigned i = 0; i < 16; i++)
        see_number(seen, CALL(sheet_write)(s, TABLES, lent->sheet, sizeof lent->sheet));
}

/* ---- single calls, in states that accept every read; on B none waits, on C port 6 is register 0x000E */
static void single(struct lent *lent, struct seen *seen, struct single call) {
    zk_b_state b = with_waiting(lent, 0);
    zk_c_state c = look_c;
    b.control.readmode = 1;
    c.index = 0x000e;
    if (call.chip == 'a' && call.look) {
        see_look(seen, CALL(a_look)(look_a, call.at, TABLES));
    } else if (call.chip == 'a') {
        zk_a_answer a = CALL(a_read)(look_a, (uint8_t)call.at, TABLES);
        SEE(flat_a, a);
    } else if (call.chip == 'b' && call.look) {
        see_look(seen, CALL(b_look)(b, call.at, QUEUE, MAP));
    } else if (call.chip == 'b') {
        zk_b_answer a = CALL(b_read)(b, (uint8_t)call.at, QUEUE, MAP);
        SEE(flat_b, a);
    } else if (call.look) {
        see_look(seen, CALL(c_look)(c, call.at, TABLE));
    } else {
        zk_c_answer a = CALL(c_read)(c, (uint8_t)call.at, TABLE);
        SEE(flat_c, a);
    }
}
run_single *const CALL(single) = single;

#define A_TESTS "2 lengths, 5 ranges of the state"
#define B_TESTS "2 lengths, 8 ranges of the state, the waiting places of the queue"
#define C_TESTS "the length, 6 ranges of the state"
#define EXPAND_TESTS "the width, the value"
const struct work CALL(works)[WORKS] = {
    {"A write, 256 colours", a_write_colours, 1, A_TESTS},
    {"A write, 4 overlays", a_write_overlays, 1, A_TESTS},
    {"A read, 256 colours", a_read_colours, 1, A_TESTS},
    {"A read, 4 overlays", a_read_overlays, 1, A_TESTS},
    {"A read, registers", a_read_registers, 1, A_TESTS},
    {"A look, state", a_look_state, 1, A_TESTS},
    {"A look, tables", a_look_tables, 1, A_TESTS},
    {"A write and read, registers", a_registers, 1, A_TESTS},
    {"A tick, lent clock", a_tick, 1, "1 range of the clock"},
    {"A pixel, colour", a_pixel_colour, 1, A_TESTS ", 2 of the pixel"},
    {"A pixel, overlay", a_pixel_overlay, 1, A_TESTS ", 2 of the pixel"},
    {"A pixel, overlay, bit 6", a_pixel_caption, 1, A_TESTS ", 2 of the pixel"},
    {"A pixel, overlay blinked off", a_pixel_blinked, 1, A_TESTS ", 2 of the pixel"},
    {"B write colours, queue filling", b_write_filling, 1, B_TESTS},
    {"B write colours, queue full", b_write_full, 1, B_TESTS},
    {"B write, 64 waiting", b_write_forced, 1, B_TESTS},
    {"B write colours, round the end", b_write_round, 1, B_TESTS},
    {"B write address, queue empty", b_write_address, 1, B_TESTS},
    {"B blank, 64 slots, 64 waiting", b_blank_all, 1, B_TESTS ", the slots"},
    {"B blank, 1 slot, 64 to 1 waiting", b_blank_one, 1, B_TESTS ", the slots"},
    {"B blank, 1 slot, 64 waiting", b_blank_full, 1, B_TESTS ", the slots"},
    {"B blank, 1 slot, round the end", b_blank_round, 1, B_TESTS ", the slots"},
    {"B blank, none waiting", b_blank_none, 1, B_TESTS ", the slots"},
    {"B read, map", b_read_map, 1, B_TESTS},
    {"B read, status, 33 waiting", b_read_status, 1, B_TESTS},
    {"B read, status, round the end", b_read_status_round, 1, B_TESTS},
    {"B read, status, 64 waiting", b_read_status_full, 1, B_TESTS},
    {"B read, registers", b_read_registers, 1, B_TESTS},
    {"B look, state", b_look_state, 1, B_TESTS},
    {"B look, map", b_look_map, 1, B_TESTS},
    {"B look, map, 33 waiting", b_look_map_waiting, 1, B_TESTS},
    {"B pixel, mode 0", b_pixel_0, 1, B_TESTS ", mode and word"},
    {"B pixel, mode 0, 33 waiting", b_pixel_0_waiting, 1, B_TESTS ", mode and word"},
    {"B pixel, mode 0, round the end", b_pixel_0_round, 1, B_TESTS ", mode and word"},
    {"B pixel, mode 0, 64 waiting", b_pixel_0_full, 1, B_TESTS ", mode and word"},
    {"B pixel, modes 1 to 3", b_pixel_123, 1, B_TESTS ", mode and word"},
    {"B timing signals", b_sync, 1, "1 length, 8 ranges of the state, the waiting places of the queue, the signals"},
    {"B reset, 64 waiting", b_reset, 1, "1 length, 2 ranges of the state"},
    {"C write, 1,024 colours", c_write_table, 1, C_TESTS},
    {"C read, 1,024 colours", c_read_table, 1, C_TESTS},
    {"C read, index", c_read_index, 1, C_TESTS},
    {"C look, state", c_look_state, 1, C_TESTS},
    {"C look, table", c_look_table, 1, C_TESTS},
    {"expand, 4 bits", expand_4, 1, EXPAND_TESTS},
    {"expand, 5 bits", expand_5, 1, EXPAND_TESTS},
    {"expand, 6 bits", expand_6, 1, EXPAND_TESTS},
    {"expand, 7 bits", expand_7, 1, EXPAND_TESTS},
    {"expand, 8 bits", expand_8, 1, EXPAND_TESTS},
    {"sheet to calls, 265 lines", sheet_whole, 0, "every byte of the text, the buffer's length"},
    {"sheet to calls, 9 lines", sheet_short, 0, "every byte of the text, the buffer's length"},
    {"sheet to calls, line 265 bad", sheet_damaged, 0, "every byte of the text up to the bad line"},
    {"sheet writer", sheet_writer, 1, A_TESTS ", 780 bytes of the tables, the buffer's length"},
};
