/* Calls of one prefix on any input: random states, tables, lengths and sheets, good and bad, so that the library and
 * plain C are seen to refuse alike. Compiled with PREFIX zk and plain. */
#include "random.h"
#include "works.h"

#include <string.h>

/* mostly below n, now and then n, or any number of so many bits */
static uint32_t near(uint32_t n, unsigned bits) {
    if (below(40) != 0) return below(n);
    return below(2) ? n : below((uint32_t)1 << bits);
}
static size_t length(size_t n) { return below(40) ? n : below((uint32_t)n); }

static void see(struct seen *seen, const void *answer, size_t n) {
    seen->calls++;
    seen->number = checksum(seen->number, answer, n);
}
static void see_row(struct seen *seen, struct flat row) { see(seen, &row, sizeof row); }
static void see_number(struct seen *seen, uint64_t answer) { see(seen, &answer, sizeof answer); }

/* a place of the state, which has so many, or of a block; now and then one to either side of it, or any number */
static uint32_t look_at(uint32_t numbers, uint32_t first, uint32_t length) {
    if (below(3) == 0) return near(numbers, 31);
    return below(10) ? first + near(length, 31) : first - 1 + (length + 1) * below(2);
}

static zk_a_state state_a(void) {
    zk_a_state s = {0};
    s.address = below(256);
    s.pointer = near(3, 8);
    s.red = near(16, 8);
    s.green = near(16, 8);
    s.readmask = below(256);
    s.blinkmask = below(256);
    s.control = below(256) & (below(20) ? 0x4f : 0xff);
    s.clock.timing = below(256);
    s.clock.position = near(8, 8);
    return s;
}

static void any_a(struct lent *l, struct seen *seen) {
    zk_a_state s = state_a();
    uint8_t select = near(8, 8), byte = below(256), enable = near(2, 8), number = near(4, 8);
    uint8_t *c = l->colours, *o = l->overlays;
    size_t m = length(sizeof l->colours), n = length(sizeof l->overlays), size = length(sizeof l->sheet);
    uint32_t place = below(4) ? look_at(9, ZK_A_LOOK_COLOURS, 768) : look_at(9, ZK_A_LOOK_OVERLAYS, 12);
    c[below(768)] = below(100) ? 3 : 16;
    switch (below(8)) {
    case 0: see_row(seen, flat_a(CALL(a_write)(s, select, byte, c, m, o, n))); break;
    case 1: see_row(seen, flat_a(CALL(a_read)(s, select, c, m, o, n))); break;
    case 2: see_row(seen, flat_shown_a(CALL(a_pixel)(s, enable, number, byte, c, m, o, n))); break;
    case 3: see_row(seen, flat_clock(CALL(a_step)(s.clock))); break;
    case 4: see_row(seen, flat_a(CALL(a_reset)(s))); break;
    case 5: see_row(seen, flat_look(CALL(a_look)(s, place, c, m, o, n))); break;
    case 6: see_number(seen, CALL(a_pixel_refusal)(s, enable, number, byte, c, m, o, n)); break;
    default: see_number(seen, CALL(sheet_write)(s, c, m, o, n, l->sheet, size));
    }
    for (unsigned i = 0; i < 768; i++) c[i] &= 15;
}

static zk_b_state state_b(void) {
    zk_b_state s = {0};
    s.port.address = near(8192, 16);
    s.port.counter = near(3, 8);
    s.port.red = below(256);
    s.port.green = below(256);
    s.control.command = near(32, 8);
    s.control.readmode = near(2, 8);
    s.ident.revision = near(8, 8);
    s.ident.board = near(16, 8);
    s.fifo.first = near(64, 8);
    s.fifo.waiting = below(3) ? near(65, 8) : 64 * below(2);
    return s;
}

/* a write's answer, and the queue after it: the waiting entries, or every place where it is refused */
static void see_written(struct seen *seen, zk_b_answer a, const uint64_t *queue) {
    struct waits waits = flat_waits(a.state.fifo, queue);
    see_row(seen, flat_b(a));
    if (a.refusal == 0) see(seen, &waits, sizeof waits);
    else see(seen, queue, ZK_B_PLACES * sizeof *queue);
}

static void any_b(struct lent *l, struct seen *seen) {
    zk_b_state s = state_b();
    uint8_t select = near(8, 8), byte = below(256), mode = near(4, 8), signals = near(16, 8), *m = l->map;
    uint32_t slots = below(2) ? below(70) : near(65536, 17), word = near(1 << 24, 30);
    uint32_t place = look_at(13, ZK_B_LOOK_MAP, ZK_B_MAP);
    size_t places = length(ZK_B_PLACES), bytes = length(sizeof l->map);
    for (unsigned i = 0; i < ZK_B_PLACES; i++)
        l->queue[(s.fifo.first + i) % ZK_B_PLACES] = random_bits() & (i < s.fifo.waiting ? 0x1fffffffff : UINT64_MAX);
    if (below(20) == 0) l->queue[below(ZK_B_PLACES)] = (uint64_t)1 << below(64);
    switch (below(7)) {
    case 0: see_written(seen, CALL(b_write)(s, select, byte, l->queue, places, m, bytes), l->queue); return;
    case 1: see_row(seen, flat_b(CALL(b_read)(s, select, l->queue, places, m, bytes))); break;
    case 2: see_row(seen, flat_b(CALL(b_blank)(s, slots, l->queue, places, m, bytes))); break;
    case 3: see_row(seen, flat_shown_b(CALL(b_pixel)(s, mode, word, l->queue, places, m, bytes))); break;
    case 4: see_row(seen, flat_b(CALL(b_sync)(s, signals, l->queue, places))); break;
    case 5: see_row(seen, flat_look(CALL(b_look)(s, place, l->queue, places, m, bytes))); break;
    default: see_row(seen, flat_b(CALL(b_reset)(s, l->queue, places)));
    }
    see(seen, l->queue, sizeof l->queue);
}

static zk_c_state state_c(void) {
    static const uint16_t starts[4] = {0x000e, 0x4000, 0x8000, 0};
    zk_c_state s = {0};
    s.index = starts[below(4)];
    s.index = (uint16_t)(s.index + (below(4) ? below(1030) : 0));
    s.red = near(1024, 16);
    s.green = near(1024, 16);
    s.fetched.red = near(1024, 16);
    s.fetched.green = near(1024, 16);
    s.fetched.blue = near(1024, 16);
    s.place = near(3, 8);
    s.update = below(256);
    return s;
}

static void any_c(struct lent *l, struct seen *seen) {
    zk_c_state s = state_c();
    uint8_t port = (uint8_t)(4 + near(3, 8)), byte = below(256);
    uint32_t width = 4 + near(5, 8), value = near((uint32_t)1 << (width < 9 ? width : 9), 30);
    size_t n = length(ZK_C_TABLE);
    switch (below(5)) {
    case 0: see_row(seen, flat_c(CALL(c_write)(s, port, byte, l->table, n))); break;
    case 1: see_row(seen, flat_c(CALL(c_read)(s, port, l->table, n))); break;
    case 2: see_row(seen, flat_c(CALL(c_reset)(s))); break;
    case 3: see_row(seen, flat_look(CALL(c_look)(s, look_at(8, ZK_C_LOOK_TABLE, ZK_C_TABLE), l->table, n))); break;
    default: see_number(seen, CALL(expand)(width, value));
    }
}

/* the whole sheet with lines left out, a byte changed, or its end cut */
static void any_sheet(struct lent *l, struct seen *seen) {
    static const char bytes[] = "\n=0fgFoc \r";
    uint8_t text[ZK_SHEET_BYTES];
    size_t n = 0;
    uint32_t keep = 1 + below(8);
    for (const uint8_t *line = l->whole, *end = line + ZK_SHEET_BYTES; line < end;) {
        size_t size = (size_t)((const uint8_t *)memchr(line, '\n', (size_t)(end - line)) + 1 - line);
        if (line < l->whole + 58 ? below(60) != 0 : below(8) < keep) memcpy(text + n, line, size), n += size;
        line += size;
    }
    if (n > 0 && below(3) == 0) {
        uint32_t at = below(n > 58 && below(2) ? 58 : (uint32_t)n);
        text[at] = (uint8_t)bytes[below(sizeof bytes - 1)];
    }
    if (n > 0 && below(8) == 0) n = below((uint32_t)n);
    uint64_t answer = CALL(sheet_to_calls)(text, n, l->calls, sizeof l->calls);
    see_number(seen, answer);
    /* and with a buffer that just holds the list, or is short by one */
    size_t room = 2 * zk_count(answer);
    see_number(seen, CALL(sheet_to_calls)(text, n, l->calls, room - (room > 0 && below(2))));
    see(seen, l->calls, sizeof l->calls);
}

void CALL(any)(struct lent *lent, struct seen *seen) {
    random_seed = 622424;
    for (unsigned i = 0; i < 20000; i++) any_a(lent, seen), any_b(lent, seen), any_c(lent, seen);
    for (unsigned i = 0; i < 4000; i++) any_sheet(lent, seen);
}
