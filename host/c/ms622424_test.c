/* Chip B, the MS622424: each call of the library beside the same call of plain C (host/plain), which is written from
 * document 01 and requests P5 and P7: every field of every answer, the waiting entries and every byte of the map, on
 * good and bad states, lengths and arguments. The first position is anywhere, and places in which no entry waits hold
 * anything; a refusal, and every call but a write, leaves all places as they were.
 *
 * By hand, apart from that model, from data sheet 004 and document 01: accesses in a row, the status, the forced
 * transfer, pixels, timing signals, the order of the refusals; from P7 the ring; from P5 every place of a look, with
 * entries waiting and in read mode. */
#include "check.h"

/* the tables that are lent, and plain C's, with room for one element too many; held: the lent places before a call */
static uint64_t *queue, plain_queue[ZK_B_PLACES + 1], held[ZK_B_PLACES + 1];
static uint8_t *map, plain_map[ZK_B_MAP + 1];
static size_t places, bytes;
#define LENT queue, places, map, bytes
#define PLAIN plain_queue, places, plain_map, bytes

static const char *const names[] = {"address",  "counter", "red",     "green", "command", "readmode",
                                    "revision", "board",   "waiting", "first", NULL};
static struct call writes = {"write, lengths %lu %lu, to select %lx: %lx", names, "01359", {0}},
                   reads = {"read, lengths %lu %lu, of select %lx", names, "013569", {0}},
                   blanks = {"blank, lengths %lu %lu: %lx slots", names, "019", {0}},
                   syncs = {"sync, lengths %lu %lu: %lx", names, "019", {0}},
                   resets = {"reset, lengths %lu %lu", names, "019", {0}},
                   looks = {"look, lengths %lu %lu, at %lx", names, "0139", {0}},
                   pixels = {"pixel, lengths %lu %lu: mode %lx, word %lx", names, "019", {0}};

/* from here on tables of these lengths are lent, each ending at a page that can't be touched */
static void lend(size_t p, size_t b) {
    places = p;
    bytes = b;
    queue = check_guarded(p * sizeof *queue);
    map = check_guarded(b);
    memcpy(queue, plain_queue, p * sizeof *queue);
    memcpy(held, queue, p * sizeof *queue);
    memcpy(map, plain_map, b);
}

/* ---- a call of the library and of plain C, compared */

static void compare(struct call *call, zk_b_state s, unsigned long x, unsigned long y, struct flat got,
                    struct flat want) {
    const unsigned long numbers[5] = {places, bytes, x, y, 0};
    zk_b_answer given = {0, 0, 0, s};
    check_same(call, numbers, flat_b(given), got, want);
    check_lent(call, "map", map, plain_map, bytes);
    if (call != &writes || got.told[0] != 0)
        CHECK(memcmp(queue, held, places * sizeof *queue) == 0, "a %.*s changes a place", CALL_NAME(call));
    memcpy(held, queue, places * sizeof *queue);
}

/* the answer of a call that may change the state, and the waiting entries after it */
static zk_b_state after(struct call *call, zk_b_state s, unsigned long x, unsigned long y, zk_b_answer got,
                        zk_b_answer want) {
    compare(call, s, x, y, flat_b(got), flat_b(want));
    if (want.refusal == 0) {
        struct waits ours = flat_waits(got.state.fifo, queue), theirs = flat_waits(want.state.fifo, plain_queue);
        check_lent(call, "waiting entries", &ours, &theirs, sizeof ours);
    }
    return got.state;
}

static zk_b_state try_write(zk_b_state s, int select, int byte) {
    return after(&writes, s, (unsigned)select, (unsigned)byte, zk_b_write(s, (uint8_t)select, (uint8_t)byte, LENT),
                 plain_b_write(s, (uint8_t)select, (uint8_t)byte, PLAIN));
}
static zk_b_state try_read(zk_b_state s, int select) {
    return after(&reads, s, (unsigned)select, 0, zk_b_read(s, (uint8_t)select, LENT),
                 plain_b_read(s, (uint8_t)select, PLAIN));
}
static zk_b_state try_blank(zk_b_state s, uint32_t slots) {
    return after(&blanks, s, slots, 0, zk_b_blank(s, slots, LENT), plain_b_blank(s, slots, PLAIN));
}
static zk_b_state try_sync(zk_b_state s, int signals) {
    return after(&syncs, s, (unsigned)signals, 0, zk_b_sync(s, (uint8_t)signals, queue, places),
                 plain_b_sync(s, (uint8_t)signals, plain_queue, places));
}
static zk_b_state try_reset(zk_b_state s) {
    return after(&resets, s, 0, 0, zk_b_reset(s, queue, places), plain_b_reset(s, plain_queue, places));
}
static void try_look(zk_b_state s, uint32_t place) {
    compare(&looks, s, place, 0, flat_look(zk_b_look(s, place, LENT)), flat_look(plain_b_look(s, place, PLAIN)));
}
static void try_pixel(zk_b_state s, int mode, uint32_t word) {
    compare(&pixels, s, (unsigned)mode, word, flat_shown_b(zk_b_pixel(s, (uint8_t)mode, word, LENT)),
            flat_shown_b(plain_b_pixel(s, (uint8_t)mode, word, PLAIN)));
}

/* ---- inputs */

static void put_place(int i, uint64_t e) {
    plain_queue[i] = e;
    if ((size_t)i < places) queue[i] = held[i] = e;
}

/* The place of a waiting entry, the oldest of which is number 0, and what is put there. */
static int place_of(zk_b_state s, int i) { return (s.fifo.first + i) % 64; }
static void put_entry(zk_b_state s, int i, uint64_t e) { put_place(place_of(s, i), e); }

/* the state with so many random entries waiting from a first position on; the other places hold anything */
static zk_b_state queued(zk_b_state s, int first, int waiting) {
    s.fifo.first = (uint8_t)first;
    s.fifo.waiting = (uint8_t)waiting;
    for (int i = 0; i < waiting; i++) put_entry(s, i, random_bits() & 0x1fffffffff);
    for (int i = waiting; i < 64; i++) put_entry(s, i, below(2) ? UINT64_MAX : random_bits());
    return s;
}

static int some_first(void) {
    static const int edges[] = {0, 1, 31, 32, 60, 61, 62, 63};
    return below(2) ? edges[below(8)] : (int)below(64);
}

/* a random state in its ranges, with so many waiting */
static zk_b_state good_state(int waiting) {
    zk_b_state s;
    s.port.address = (uint16_t)(below(4) ? below(8192) : 8191);
    s.port.counter = (uint8_t)below(3);
    s.port.red = (uint8_t)random_bits();
    s.port.green = (uint8_t)random_bits();
    s.control.command = (uint8_t)below(32);
    s.control.readmode = (uint8_t)below(2);
    s.ident.revision = (uint8_t)below(8);
    s.ident.board = (uint8_t)below(16);
    return queued(s, some_first(), waiting);
}

static int some_waiting(void) {
    static const int edges[] = {0, 1, 3, 4, 5, 31, 32, 55, 56, 60, 63, 64};
    return below(2) ? edges[below(12)] : (int)below(65);
}

/* One thing put out of its range, of each kind in turn: just over the edge, or any way. With a bad number or first
 * position every place holds an entry, so that nothing else is wrong. */
enum { SPOILT = 11 };
static zk_b_state spoilt(zk_b_state s, int kind, int edge) {
    int w = s.fifo.waiting;
#define OVER(least, all) ((least) + (edge ? 0 : below((all) - (least))))
    switch (kind) {
    case 0: s.port.address = (uint16_t)OVER(8192, 65536); break;
    case 1: s.port.counter = (uint8_t)OVER(3, 256); break;
    case 2: s.control.command = (uint8_t)OVER(32, 256); break;
    case 3: s.control.readmode = (uint8_t)OVER(2, 256); break;
    case 4: s.ident.revision = (uint8_t)OVER(8, 256); break;
    case 5: s.ident.board = (uint8_t)OVER(16, 256); break;
    case 6: s = queued(s, s.fifo.first, 64), s.fifo.waiting = (uint8_t)OVER(65, 256); break;
    case 7: s = queued(s, 0, 64), s.fifo.waiting = (uint8_t)w, s.fifo.first = (uint8_t)OVER(64, 256); break;
    case 8: if (w > 0) put_entry(s, (int)below((uint32_t)w), (uint64_t)OVER(8192, 65536) << 24 | below(1 << 24)); break;
    case 9: if (w > 0) put_entry(s, w - 1, (edge ? 0 : random_bits()) | (uint64_t)1 << OVER(37, 64)); break;
    default: /* the youngest, behind the places' end */
        if (w > 1) s = queued(s, 65 - w, w), put_place(0, (uint64_t)OVER(8192, 65536) << 24);
        break;
    }
    return s;
}

static uint32_t any_place(void) { return below(2) ? some_place(0, 13) : some_place(ZK_B_LOOK_MAP, ZK_B_MAP); }

static void fill_map(unsigned (*byte)(unsigned)) {
    for (unsigned i = 0; i < ZK_B_MAP; i++) map[i] = plain_map[i] = (uint8_t)byte(i);
}
static unsigned low_byte(unsigned i) { return i & 0xff; }
static unsigned high_byte(unsigned i) { return i >> 8; }
static unsigned any_byte(unsigned i) { return (void)i, below(256); }

/* every call once on a state; those that change the tables last */
static void try_all(zk_b_state s) {
    int select = below(4) ? (int)below(9) : (int)below(256);
    try_read(s, select);
    try_look(s, any_place());
    try_sync(s, (int)below(20));
    try_pixel(s, (int)below(5), (uint32_t)random_bits() & (below(8) ? 0xffffff : 0x1ffffff));
    switch (below(3)) {
    case 0: try_write(s, below(3) ? 2 : select, (int)below(256)); break;
    case 1: try_blank(s, below(8) ? below(70) : (uint32_t)random_bits() >> below(24)); break;
    default: try_reset(s); break;
    }
}

/* ---- every call beside plain C */

/* the state in parts: where each stands, with a byte between port and control that means nothing */
static void the_layout(void) {
    CHECK(offsetof(zk_b_state, control) == 6 && offsetof(zk_b_state, ident) == 8 && offsetof(zk_b_state, fifo) == 10,
          "the parts at %zu, %zu, %zu", offsetof(zk_b_state, control), offsetof(zk_b_state, ident),
          offsetof(zk_b_state, fifo));
    CHECK(offsetof(zk_b_fifo, first) == 0 && offsetof(zk_b_fifo, waiting) == 1, "waiting at %zu of fifo",
          offsetof(zk_b_fifo, waiting));
    CHECK(sizeof(zk_b_state) == 12 && sizeof(zk_b_answer) == 16 && offsetof(zk_b_answer, state) == 4,
          "a state of %zu bytes, an answer of %zu", sizeof(zk_b_state), sizeof(zk_b_answer));
    CHECK(sizeof(zk_looked) == 4 && offsetof(zk_looked, value) == 2, "a look's answer of %zu bytes, its value at %zu",
          sizeof(zk_looked), offsetof(zk_looked, value));
}

static void every_select_and_counter(void) {
    static const int waiting[] = {0, 1, 31, 32, 55, 56, 63, 64};
    for (int select = 0; select < 256; select++)
        for (int counter = 0; counter < 3; counter++)
            for (int mode = 0; mode < 2; mode++)
                for (int w = 0; w < 8; w++) {
                    if (select > 9 && select < 255 && w % 4) continue;
                    zk_b_state s = good_state(waiting[w]);
                    s.port.counter = (uint8_t)counter;
                    s.control.readmode = (uint8_t)mode;
                    try_read(s, select);
                    try_write(s, select, (int)below(256));
                }
}

static void random_good_states(void) {
    for (int i = 0; i < 6000; i++) try_all(good_state(some_waiting()));
}

static void bad_states_of_every_kind(void) {
    for (int i = 0; i < 6500; i++) try_all(spoilt(good_state(some_waiting()), i % SPOILT, i % 2));
}

static void every_waiting_and_slots(void) {
    for (int w = 0; w <= 64; w++)
        for (uint32_t slots = 0; slots <= 66; slots += w % 8 ? 11 : 1) try_blank(good_state(w), slots);
    for (int w = 0; w <= 64; w += 16) {
        try_blank(good_state(w), 65535);
        try_blank(good_state(w), 65536);
        try_blank(good_state(w), UINT32_MAX);
    }
}

/* the last are the right ones */
static const size_t queue_sizes[] = {0, 63, 65, 64}, map_sizes[] = {0, 24575, 24577, 24576};

static void wrong_lengths(void) {
    for (int i = 0; i < 4; i++)
        for (int j = 0; j < 4; j++) {
            lend(queue_sizes[i], map_sizes[j]);
            for (int n = 0; n < 200; n++) {
                zk_b_state s = good_state(some_waiting());
                try_all(n % 4 == 3 ? spoilt(s, n % SPOILT, (int)below(2)) : s);
            }
        }
}

static void every_pixel_entry(void) {
    zk_b_state s = good_state(3);
    for (uint32_t n = 0; n < 8192; n++) try_pixel(s, 0, n | below(2048) << 13);
    for (int mode = 1; mode < 4; mode++)
        for (uint32_t n = 0; n < 256; n++) try_pixel(s, mode, n | below(256) << 8 | (255 - n) << 16);
    for (int mode = 0; mode < 256; mode++) try_pixel(s, mode, (uint32_t)random_bits() & 0xffffff);
    for (int bit = 0; bit < 32; bit++) try_pixel(s, 0, (uint32_t)1 << bit);
}

static void every_signal(void) {
    for (int command = 0; command < 256; command++)
        for (int signals = 0; signals < 256; signals += command < 32 ? 1 : 15) {
            zk_b_state s = good_state(0);
            s.control.command = (uint8_t)command;
            try_sync(s, signals);
        }
}

/* a long run on one chip, each call on the state that the last one left, with fewer slots than colours and then with
 * more: the ring goes round its places, full and not */
static void a_run(void) {
    zk_b_state s = try_reset(good_state(0));
    int wrapped = 0, full_and_wrapped = 0;
    for (int i = 0; i < 20000; i++) {
        uint32_t n = below(100);
        wrapped += s.fifo.first + s.fifo.waiting > 64;
        full_and_wrapped += s.fifo.first > 0 && s.fifo.waiting == 64;
        if (n < 70) s = try_write(s, 2, (int)below(256));
        else if (n < 74) s = try_write(s, (int)below(8), (int)below(256));
        else if (n < 84) s = try_read(s, (int)below(8));
        else if (n < 86) s = try_read(s, 7);
        else if (n < 88) try_pixel(s, (int)below(4), (uint32_t)random_bits() & 0xffffff);
        else if (n < 90) try_look(s, any_place());
        else if (n < 99) s = try_blank(s, below(i / 2000 % 2 ? 8 : 4));
        else if (below(20) == 0) s = try_reset(s);
    }
    CHECK(wrapped > 1000 && full_and_wrapped > 20, "%d wrapped, %d of them full", wrapped, full_and_wrapped);
}

/* ---- by hand: accesses */

static zk_b_state chip;

/* 'b' is a blanking period of so many slots */
static struct flat make_step(const struct step *step) {
    chip = step->access == 'w'   ? try_write(chip, step->select, step->byte)
           : step->access == 'r' ? try_read(chip, step->select)
                                 : try_blank(chip, step->byte);
    return last;
}

/* each line: access, select, byte; refusal, value, count; address, counter, red, green */
static const struct step steps[] = {
    /* the address has thirteen bits; its writes restart at red, its reads move nothing */
    {'w', 0, 0xff, {0}, {0x00ff}}, {'w', 2, 0x77, {0}, {0x00ff, 1, 0x77}}, {'w', 1, 0xff, {0}, {0x1fff, 0, 0x77}},
    {'w', 2, 0x11, {0}, {0x1fff, 1, 0x11}}, {'r', 0, 0, {0, 0xff}, {0x1fff, 1, 0x11}},
    {'r', 1, 0, {0, 0x1f}, {0x1fff, 1, 0x11}},
    /* the buffer's green moves nothing; at blue it is refused; blue completes, and the address goes from 8,191 to 0 */
    {'w', 2, 0x22, {0}, {0x1fff, 2, 0x11, 0x22}}, {'r', 5, 0, {3}, {0x1fff, 2, 0x11, 0x22}},
    {'r', 4, 0, {0, 0x1a}, {0x1fff, 2, 0x11, 0x22}}, {'w', 2, 0x33, {0}, {0, 0, 0x11, 0x22}},
    {'r', 5, 0, {0, 0x11}, {0, 1, 0x11, 0x22}}, {'r', 5, 0, {0, 0x22}, {0, 1, 0x11, 0x22}},
    {'r', 5, 0, {0, 0x22}, {0, 1, 0x11, 0x22}}, {'r', 4, 0, {0, 0x1d}, {0, 1, 0x11, 0x22}},
    {'w', 0, 0x00, {0}, {0, 0, 0x11, 0x22}},
    /* read mode: on by any byte; a map read waits for the queue */
    {'r', 2, 0, {5}, {0, 0, 0x11, 0x22}}, {'w', 7, 0x00, {0}, {0, 0, 0x11, 0x22}},
    {'r', 2, 0, {6}, {0, 0, 0x11, 0x22}}, {'w', 2, 0x44, {5}, {0, 0, 0x11, 0x22}},
    {'b', 0, 0, {0}, {0, 0, 0x11, 0x22}}, {'b', 0, 9, {0, 0, 1}, {0, 0, 0x11, 0x22}},
    {'b', 0, 9, {0}, {0, 0, 0x11, 0x22}}, {'r', 2, 0, {0, 0xd1}, {0, 1, 0x11, 0x22}},
    {'r', 2, 0, {0, 0xd2}, {0, 2, 0x11, 0x22}}, {'r', 2, 0, {0, 0xd3}, {1, 0, 0x11, 0x22}},
    {'w', 0, 0xff, {0}, {0xff, 0, 0x11, 0x22}}, {'w', 1, 0x1f, {0}, {0x1fff, 0, 0x11, 0x22}},
    {'r', 2, 0, {0, 0x11}, {0x1fff, 1, 0x11, 0x22}}, {'r', 2, 0, {0, 0x22}, {0x1fff, 2, 0x11, 0x22}},
    {'r', 2, 0, {0, 0x33}, {0, 0, 0x11, 0x22}}, {'r', 7, 0, {0, 0}, {0, 0, 0x11, 0x22}},
    {'r', 2, 0, {5}, {0, 0, 0x11, 0x22}},
    /* the command has five bits; board 13, revision 6; what is not there */
    {'w', 3, 0xff, {0}, {0, 0, 0x11, 0x22}}, {'r', 3, 0, {0, 0x1f}, {0, 0, 0x11, 0x22}},
    {'r', 6, 0, {0, 0xd6}, {0, 0, 0x11, 0x22}}, {'w', 4, 0, {3}, {0, 0, 0x11, 0x22}},
    {'w', 5, 0, {3}, {0, 0, 0x11, 0x22}}, {'w', 6, 0, {3}, {0, 0, 0x11, 0x22}}, {'w', 8, 0, {3}, {0, 0, 0x11, 0x22}},
    {'r', 8, 0, {3}, {0, 0, 0x11, 0x22}}, {'r', 255, 0, {3}, {0, 0, 0x11, 0x22}},
};

static void accesses_by_hand(void) {
    static const uint8_t first[3] = {0xd1, 0xd2, 0xd3}, stored[3] = {0x11, 0x22, 0x33};
    static uint8_t before[ZK_B_MAP];
    chip = good_state(some_waiting()), chip.ident.revision = 6, chip.ident.board = 13;
    memcpy(map, first, 3), memcpy(plain_map, first, 3), memcpy(before, map, ZK_B_MAP);
    chip = try_reset(chip);
    CHECK(chip.control.command == 3 && chip.control.readmode == 0 && chip.fifo.first == 0 && chip.fifo.waiting == 0,
          "what a reset leaves");
    check_steps(steps, COUNT(steps), make_step);
    memcpy(before + 24573, stored, 3);
    CHECK(memcmp(map, before, ZK_B_MAP) == 0, "the map but for entry 8,191, or that entry");
}

/* document 01's edges, and with a counter */
static const struct status {
    uint8_t command, counter, waiting, status;
} statuses[] = {
    {0x03, 0, 0, 0x18},  {0x03, 0, 1, 0x1c},  {0x0f, 0, 31, 0x1c}, {0x0f, 0, 32, 0x14}, {0x00, 0, 63, 0x14},
    {0x00, 0, 64, 0x04}, {0x10, 0, 55, 0x1c}, {0x10, 0, 56, 0x14}, {0x1f, 0, 64, 0x04}, {0x03, 2, 0, 0x1a},
    {0x10, 1, 56, 0x15},
};

static void every_edge_of_the_status(void) {
    for (size_t i = 0; i < COUNT(statuses); i++) {
        zk_b_state s = good_state(statuses[i].waiting);
        s.control.command = statuses[i].command, s.port.counter = statuses[i].counter;
        try_read(s, 4);
        CHECK(last.told[0] == 0 && last.told[1] == statuses[i].status, "command %02x, %u waiting: %02x, not %02x",
              statuses[i].command, statuses[i].waiting, last.told[1], statuses[i].status);
    }
}

/* document 01's own run */
static void a_full_queue(void) {
    zk_b_state s = try_reset(good_state(0));
    try_read(s, 4);
    CHECK(last.told[1] == 0x18, "fresh status %02x", last.told[1]);
    for (int i = 0; i < 3 * 64; i++) s = try_write(s, 2, i / 3);
    try_read(s, 4);
    CHECK(last.told[1] == 0x04, "status %02x with 64 waiting", last.told[1]);
    s = try_write(s, 2, 0xaa);
    CHECK(last.told[0] == 0 && last.told[2] == 4 && s.fifo.waiting == 60 && s.fifo.first == 4,
          "a red write with 64 waiting");
}

/* an entry for address 100 + i */
static uint64_t numbered(int i) { return zk_b_entry((uint16_t)(100 + i), (uint8_t)i, 1, 2); }

/* a palette write that finds 64 waiting moves the four oldest first, whatever component it is; no other write does */
static void the_forced_transfer(void) {
    for (int counter = 0; counter < 3; counter++)
        for (int waiting = 63; waiting <= 64; waiting++)
            for (int select = 0; select < 4; select++) {
                zk_b_state s = good_state(waiting);
                int moved = waiting == 64 && select == 2 ? 4 : 0, complete = select == 2 && counter == 2;
                s.port.counter = (uint8_t)counter, s.control.readmode = 0;
                for (int i = 0; i < waiting; i++) put_entry(s, i, numbered(i));
                memset(map + 300, 0xee, 15), memset(plain_map + 300, 0xee, 15);
                int first = s.fifo.first;
                s = try_write(s, select, 0x55);
                CHECK(last.told[0] == 0 && last.told[2] == moved, "write %d with %d waiting: %u moved", select,
                      waiting, last.told[2]);
                CHECK(s.fifo.waiting == waiting - moved + complete, "%u wait after it", s.fifo.waiting);
                CHECK(s.fifo.first == (first + moved) % 64, "from place %d on, then from %u", first, s.fifo.first);
                CHECK(queue[place_of(s, 0)] == numbered(moved), "the oldest then");
                for (int i = 0; i < 5; i++)
                    CHECK(map[300 + 3 * i] == (i < moved ? i : 0xee) && map[301 + 3 * i] == (i < moved ? 1 : 0xee)
                              && map[302 + 3 * i] == (i < moved ? 2 : 0xee),
                          "map entry %d", 100 + i);
            }
}

/* ---- by hand: the ring */

/* component k of colour i */
static uint8_t part_of(int i, int k) { return (uint8_t)(0x10 * k + i); }

/* Colours completed from place 62 on wait in 62, 63, 0, 1 and 2. Two slots take those before the places' end, two more
 * those behind it. */
static void colours_round_the_end(void) {
    static const int at[5] = {62, 63, 0, 1, 2};
    zk_b_state s = queued(try_reset(good_state(0)), 62, 0);
    memset(map + 0x300, 0xee, 15), memset(plain_map + 0x300, 0xee, 15);
    s = try_write(s, 1, 1);
    for (int i = 0; i < 15; i++) s = try_write(s, 2, part_of(i / 3, i % 3));
    CHECK(s.fifo.first == 62 && s.fifo.waiting == 5, "%u wait from %u on", s.fifo.waiting, s.fifo.first);
    for (int i = 0; i < 5; i++)
        CHECK(queue[at[i]] == zk_b_entry((uint16_t)(0x100 + i), part_of(i, 0), part_of(i, 1), part_of(i, 2)),
              "place %d holds %llx", at[i], (unsigned long long)queue[at[i]]);
    for (int moved = 2; moved <= 4; moved += 2) {
        s = try_blank(s, 2);
        CHECK(last.told[2] == 2 && s.fifo.first == (62 + moved) % 64 && s.fifo.waiting == 5 - moved,
              "%u wait from %u on after %d slots", s.fifo.waiting, s.fifo.first, moved);
        for (int i = 0; i < 15; i++)
            CHECK(map[0x300 + i] == (i < 3 * moved ? part_of(i / 3, i % 3) : 0xee), "byte %d after %d slots", i, moved);
    }
}

/* entries for one address, wherever they stand: after each slot the map has the youngest of those moved */
static void the_oldest_first(void) {
    for (int first = 0; first < 64; first++) {
        zk_b_state s = queued(good_state(0), first, 64);
        for (int i = 0; i < 64; i++) put_entry(s, i, zk_b_entry(8191, (uint8_t)(0x40 + i), (uint8_t)i, 0x99));
        for (int i = 0; i < 64; i++) {
            s = try_blank(s, 1);
            CHECK(last.told[2] == 1 && s.fifo.first == (first + i + 1) % 64 && s.fifo.waiting == 63 - i,
                  "%u wait from %u on, slot %d from %d", s.fifo.waiting, s.fifo.first, i, first);
            CHECK(map[24573] == 0x40 + i && map[24574] == i && map[24575] == 0x99, "slot %d from place %d", i, first);
        }
        s = try_blank(s, 1);
        CHECK(last.told[2] == 0 && s.fifo.first == first && s.fifo.waiting == 0, "a slot more, from place %d", first);
    }
}

/* an address of 8,192 is refused in each place in which an entry waits, and in no other */
static void waiting_places_alone_are_read(void) {
    static const int firsts[] = {0, 1, 17, 32, 62, 63}, waits[] = {0, 1, 2, 31, 32, 33, 47, 48, 63, 64};
    for (size_t f = 0; f < COUNT(firsts); f++)
        for (size_t w = 0; w < COUNT(waits); w++)
            for (int i = 0; i < 64; i++) {
                zk_b_state s = queued(good_state(0), firsts[f], waits[w]);
                put_entry(s, i, zk_b_entry(8192, 0, 0, 0));
                try_sync(s, 0);
                CHECK(last.told[0] == (i < waits[w] ? 9 : 0), "place %d, %d wait from %d on: %u", place_of(s, i),
                      waits[w], firsts[f], last.told[0]);
            }
}

/* no call minds what stands in the other places, with none waiting up to 63 */
static void the_other_places_hold_anything(void) {
    for (int w = 0; w < 64; w++) {
        zk_b_state s = good_state(w);
        for (int i = w; i < 64; i++) put_entry(s, i, UINT64_MAX);
        s.control.readmode = 0;
        try_read(s, 4), check_refusal(&reads, 4, w, 0);
        try_look(s, ZK_B_LOOK_FIRST), check_refusal(&looks, ZK_B_LOOK_FIRST, w, 0);
        try_pixel(s, 0, 0), check_refusal(&pixels, 0, w, 0);
        try_sync(s, 0), check_refusal(&syncs, 0, w, 0);
        s = try_write(s, 2, 0), check_refusal(&writes, 2, w, 0);
        s = try_blank(s, 1), check_refusal(&blanks, 1, w, 0);
        s = try_reset(s), check_refusal(&resets, 0, w, 0);
        CHECK(s.fifo.first == 0 && s.fifo.waiting == 0, "%u wait from %u on after a reset", s.fifo.waiting,
              s.fifo.first);
    }
}

/* a reset takes any first position and number, and any places */
static void a_reset_of_any_queue(void) {
    for (int n = 0; n < 256; n++) {
        zk_b_state s = good_state(some_waiting());
        s.fifo.first = (uint8_t)n, s.fifo.waiting = (uint8_t)(255 - n);
        for (int i = 0; i < 64; i++) put_place(i, n % 2 ? UINT64_MAX : random_bits());
        s = try_reset(s);
        CHECK(last.told[0] == 0 && s.fifo.first == 0 && s.fifo.waiting == 0, "%d wait from %d on", 255 - n, n);
        try_read(s, 4);
        CHECK(last.told[0] == 0 && last.told[1] == 0x18, "status %02x after it", last.told[1]);
    }
}

/* ---- by hand: pixels and signals */

/* which bytes of the map a pixel shows */
static const struct pixel {
    int mode;
    uint32_t word;
    unsigned red, green, blue;
} shows[] = {
    {0, 0xffe001, 3, 4, 5},
    {0, 0x000000, 0, 1, 2},
    {0, 0xffffff, 24573, 24574, 24575},
    {1, 0x030201, 3 * 7425, 3 * 7426 + 1, 3 * 7427 + 2},
    {2, 0x030201, 3 * 7681, 3 * 7682 + 1, 3 * 7683 + 2},
    {3, 0xff8000, 3 * 7936, 3 * 8064 + 1, 3 * 8191 + 2},
};

/* a map whose bytes hold their own numbers, the low byte and then the high one */
static void pixels_by_hand(void) {
    unsigned (*const rounds[2])(unsigned) = {low_byte, high_byte};
    for (int round = 0; round < 2; round++) {
        fill_map(rounds[round]);
        for (size_t i = 0; i < COUNT(shows); i++) {
            try_pixel(good_state(some_waiting()), shows[i].mode, shows[i].word);
            CHECK(last.told[0] == 0 && last.told[3] == rounds[round](shows[i].red)
                      && last.told[4] == rounds[round](shows[i].green) && last.told[5] == rounds[round](shows[i].blue),
                  "mode %d, word %06lx: %02x %02x %02x", shows[i].mode, (unsigned long)shows[i].word, last.told[3],
                  last.told[4], last.told[5]);
        }
    }
    fill_map(any_byte);
    CHECK(ZK_B_RGB1_ENTRY == 7424 && ZK_B_RGB2_ENTRY == 7680 && ZK_B_RGB3_ENTRY == 7936, "the header's first entries");
}

/* command, signals in, signals out: two are ANDed with the command's bits, two ORed */
static void signals_by_hand(void) {
    static const uint8_t signals[][3] = {{0x0, 0x0, 0x0}, {0x0, 0x3, 0x0}, {0x1, 0x3, 0x1}, {0x2, 0x3, 0x2},
                                         {0x3, 0x3, 0x3}, {0x3, 0x0, 0x0}, {0x4, 0x0, 0x4}, {0x8, 0x0, 0x8},
                                         {0x0, 0x4, 0x4}, {0x0, 0x8, 0x8}, {0x0, 0xf, 0xc}, {0xf, 0x0, 0xc},
                                         {0x3, 0xf, 0xf}, {0x10, 0xf, 0xc}};
    for (size_t i = 0; i < COUNT(signals); i++) {
        zk_b_state s = good_state(some_waiting());
        s.control.command = signals[i][0];
        try_sync(s, signals[i][1]);
        CHECK(last.told[0] == 0 && last.told[1] == signals[i][2], "command %x, signals %x: %x", signals[i][0],
              signals[i][1], last.told[1]);
    }
}

/* ---- by hand: the order of the refusals */

/* 1 or 9, where one is due, before all others; else 3, 5 or 6, with 33 waiting and green next */
static void refused_accesses(zk_b_state s, int refusal, int kind) {
    static const struct {
        int select, readmode, write, read;
    } accesses[] = {{0, 0, 0, 0}, {1, 1, 0, 0}, {2, 0, 0, 5}, {2, 1, 5, 6}, {3, 1, 0, 0}, {4, 0, 3, 0},
                    {5, 1, 3, 0}, {6, 0, 3, 0}, {7, 1, 0, 0}, {8, 0, 3, 3}, {255, 1, 3, 3}};
    for (size_t i = 0; i < COUNT(accesses); i++) {
        int select = accesses[i].select;
        if (kind != 3) s.control.readmode = (uint8_t)accesses[i].readmode;
        if (kind != 1) s.port.counter = 1;
        try_read(s, select);
        check_refusal(&reads, (unsigned)select, kind, refusal ? refusal : accesses[i].read);
        try_write(s, select, 0);
        check_refusal(&writes, (unsigned)select, kind, refusal ? refusal : accesses[i].write);
    }
}

/* 1, then 9, for the state, just over each edge, and for arguments, then what the access brings */
static void the_order_of_refusals(void) {
    static const uint32_t at[9] = {0, 8, 12, 0x10000, 0x15fff, 9, 0xffff, 0x16000, UINT32_MAX};
    for (int n = 0; n < 16; n++) {
        lend(queue_sizes[n / 4], map_sizes[n % 4]);
        for (int kind = -1; kind < SPOILT; kind++) {
            int length = n < 15 ? 1 : 0, range = kind >= 0 ? 9 : 0, first = length ? length : range;
            int queue_alone = n / 4 < 3 ? 1 : 0, ident = kind == 4 || kind == 5 ? 9 : 0;
            zk_b_state s = good_state(33); /* some wait: each kind spoils it */
            if (kind >= 0) s = spoilt(s, kind, 1);
            refused_accesses(s, first, kind);
            for (int k = 0; k < 9; k++)
                try_look(s, at[k]), check_refusal(&looks, at[k], kind, first || k < 5 ? first : 3);
            try_pixel(s, 0, 0xffffff), check_refusal(&pixels, 0, kind, first);
            try_pixel(s, 4, 0), check_refusal(&pixels, 4, kind, length ? length : 9);
            try_pixel(s, 3, 0x1000000), check_refusal(&pixels, 3, kind, length ? length : 9);
            try_sync(s, 15), check_refusal(&syncs, 15, kind, queue_alone ? 1 : range);
            try_sync(s, 16), check_refusal(&syncs, 16, kind, queue_alone ? 1 : 9);
            try_blank(s, 65536), check_refusal(&blanks, 65536, kind, length ? length : 9);
            try_blank(s, 0), check_refusal(&blanks, 0, kind, first);
            try_reset(s), check_refusal(&resets, 0, kind, queue_alone ? 1 : ident);
        }
    }
}

/* ---- by hand: looks */

static uint32_t look_at(zk_b_state s, uint32_t place) { return as_number(zk_b_look(s, place, LENT)); }
static uint32_t good_look(uint32_t place) { return look_at(good_state(some_waiting()), place); }

/* A state of ten different numbers, in read mode, with entries waiting whose colours differ from what the map has at
 * their addresses; and a map whose bytes hold their own numbers, the low byte first and then the high one: no two bytes
 * are alike in both rounds. */
static void every_place_of_a_look(void) {
    static const zk_b_state s = {{0x1234, 2, 0x91, 0x7e}, {0x1b, 1}, {6, 13}, {50, 33}};
    static const uint32_t numbers[13] = {0x1234, 2,  0x91,       0x7e,       0x1b,       1, 6,
                                         13,     33, REFUSED(3), REFUSED(3), REFUSED(3), 50};
    unsigned (*const rounds[2])(unsigned) = {low_byte, high_byte};
    for (int round = 0; round < 2; round++) {
        fill_map(rounds[round]);
        for (unsigned i = 0; i < 64; i++) {
            unsigned address = 0x1ff * i % 8192, first = 3 * address;
            uint64_t e = zk_b_entry((uint16_t)address, (uint8_t)~map[first], (uint8_t)~map[first + 1],
                                    (uint8_t)~map[first + 2]);
            put_entry(s, (int)i, i < 33 ? e : UINT64_MAX);
        }
        for (uint32_t place = 0; place < 13; place++)
            CHECK(look_at(s, place) == numbers[place], "place %u: %06x", (unsigned)place, (unsigned)look_at(s, place));
        for (unsigned i = 0; i < ZK_B_MAP; i++)
            CHECK(look_at(s, ZK_B_LOOK_MAP + i) == rounds[round](i), "map byte %u: %06x", i,
                  (unsigned)look_at(s, ZK_B_LOOK_MAP + i));
        for (uint32_t place = 0; place < 0x20000; place += 1 + below(80)) try_look(s, place);
    }
    fill_map(any_byte);
}

/* the header's names, in the order of the places */
static void names_of_the_places(void) {
    static const int in_order[9] = {ZK_B_LOOK_ADDRESS,  ZK_B_LOOK_COUNTER, ZK_B_LOOK_RED,
                                    ZK_B_LOOK_GREEN,    ZK_B_LOOK_COMMAND, ZK_B_LOOK_READMODE,
                                    ZK_B_LOOK_REVISION, ZK_B_LOOK_BOARD,   ZK_B_LOOK_WAITING};
    for (int i = 0; i < 9; i++) CHECK(in_order[i] == i, "the name of place %d is %d", i, in_order[i]);
    CHECK(ZK_B_LOOK_FIRST == 12 && ZK_B_LOOK_MAP == 0x10000, "the names of the first position and of the map");
}

static void places_that_are_not_there(void) {
    static const uint32_t there[] = {0, 8, 12, 0x10000, 0x15fff};
    static const uint32_t edges[] = {9,      10,     11,              13,      14,      15,        0xff, 0x100,
                                     0x1000, 0xffff, 0x10000 + 24576, 0x1ffff, 0x20000, 0xffffffff};
    check_places(good_look, there, COUNT(there), edges, COUNT(edges), 17);
}

/* the map's byte before the colour that waits is moved, and after; in read mode and out of it */
static void a_look_at_a_waiting_colour(void) {
    zk_b_state s = try_reset(good_state(0));
    uint8_t before[3];
    memcpy(before, map + 3 * 0x305, 3);
    s = try_write(s, 0, 0x05), s = try_write(s, 1, 0x03);
    for (int i = 0; i < 3; i++) s = try_write(s, 2, before[i] ^ 0xff);
    for (int mode = 0; mode < 2; mode++) {
        if (mode) s = try_write(s, 7, 0);
        CHECK(look_at(s, ZK_B_LOOK_WAITING) == 1 && look_at(s, ZK_B_LOOK_READMODE) == (uint32_t)mode, "one waits");
        CHECK(look_at(s, ZK_B_LOOK_ADDRESS) == 0x306 && look_at(s, ZK_B_LOOK_COUNTER) == 0, "the next address");
        CHECK(look_at(s, ZK_B_LOOK_RED) == (before[0] ^ 0xffu) && look_at(s, ZK_B_LOOK_GREEN) == (before[1] ^ 0xffu),
              "the buffer");
        for (uint32_t i = 0; i < 3; i++)
            CHECK(look_at(s, ZK_B_LOOK_MAP + 3 * 0x305 + i) == before[i], "byte %u as stored", (unsigned)i);
    }
    s = try_blank(s, 1);
    CHECK(look_at(s, ZK_B_LOOK_WAITING) == 0 && look_at(s, ZK_B_LOOK_FIRST) == 1, "none waits, and the first is past");
    for (uint32_t i = 0; i < 3; i++)
        CHECK(look_at(s, ZK_B_LOOK_MAP + 3 * 0x305 + i) == (before[i] ^ 0xffu), "byte %u as moved", (unsigned)i);
}

static void refusals_met(void) {
    check_met(&writes, 100), check_met(&reads, 100), check_met(&blanks, 100), check_met(&syncs, 100);
    check_met(&resets, 100), check_met(&looks, 100), check_met(&pixels, 100);
}

int main(void) {
    check_start();
    for (int i = 0; i <= ZK_B_MAP; i++) plain_map[i] = (uint8_t)random_bits();
    lend(ZK_B_PLACES, ZK_B_MAP);
    RUN(the_layout);
    RUN(every_select_and_counter);
    RUN(random_good_states);
    RUN(bad_states_of_every_kind);
    RUN(every_waiting_and_slots);
    RUN(wrong_lengths);
    RUN(every_pixel_entry);
    RUN(every_signal);
    RUN(a_run);
    RUN(accesses_by_hand);
    RUN(every_edge_of_the_status);
    RUN(a_full_queue);
    RUN(the_forced_transfer);
    RUN(colours_round_the_end);
    RUN(the_oldest_first);
    RUN(waiting_places_alone_are_read);
    RUN(the_other_places_hold_anything);
    RUN(a_reset_of_any_queue);
    RUN(pixels_by_hand);
    RUN(signals_by_hand);
    RUN(the_order_of_refusals);
    RUN(every_place_of_a_look);
    RUN(names_of_the_places);
    RUN(places_that_are_not_there);
    RUN(a_look_at_a_waiting_colour);
    RUN(refusals_met);
    FINISH();
}
