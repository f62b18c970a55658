/* Chip C: each call of the library beside the same call of plain C (host/plain), which is written from document 01,
 * "Chip C", and request P5. Every field of every answer and every number of the table is compared after each call.
 *
 * By hand, apart from that model: accesses in a row and the order of the refusals, from data sheet 001 (9.1, 9.3,
 * 9.4.1, 10.15, Tables 23 to 26) and document 01; that what is written reads back; and from P5 every place of a look,
 * numbers as lent. */
#include "check.h"

enum { SLACK = 4, WRITE_SPACE = 0x4000, READ_SPACE = 0x8000 };

static const char *const names[] = {"index",       "place",         "red",          "green",  "fetched red",
                                    "fetched green", "fetched blue", "update", NULL};
static struct call writes = {"write, length %lu, to port %lx: %lx", names, "01349", {0}},
                   reads = {"read, length %lu, of port %lx", names, "01349", {0}},
                   looks = {"look, length %lu, at %lx", names, "0139", {0}}, resets = {"reset", names, "0", {0}};

/* ---- a call of the library and of plain C, compared; chip is the state, before it and after */

static zk_c_state chip;
static size_t length;
static uint16_t *table, plain_table[ZK_C_TABLE + SLACK];

/* from here on a table of this length is lent, of any numbers or of ten bits */
static void lend(size_t n, int any_number) {
    static uint16_t *tables[ZK_C_TABLE + SLACK + 1]; /* a guarded buffer of each length that is used */
    if (tables[n] == NULL) tables[n] = check_guarded(n * sizeof *table);
    length = n;
    table = tables[n];
    for (size_t i = 0; i < n; i++) table[i] = plain_table[i] = (uint16_t)below(any_number ? 65536 : 1024);
}

static void compare(struct call *call, unsigned long x, unsigned long y, struct flat got, struct flat want) {
    const unsigned long numbers[5] = {length, x, y, 0, 0};
    zk_c_answer given = {0, 0, chip};
    check_same(call, numbers, flat_c(given), got, want);
    check_lent(call, "table", table, plain_table, length * sizeof *table);
}

static void do_write(unsigned port, unsigned byte) {
    zk_c_answer got = zk_c_write(chip, (uint8_t)port, (uint8_t)byte, table, length);
    compare(&writes, port, byte, flat_c(got),
            flat_c(plain_c_write(chip, (uint8_t)port, (uint8_t)byte, plain_table, length)));
    chip = got.state;
}

static void do_read(unsigned port) {
    zk_c_answer got = zk_c_read(chip, (uint8_t)port, table, length);
    compare(&reads, port, 0, flat_c(got), flat_c(plain_c_read(chip, (uint8_t)port, plain_table, length)));
    chip = got.state;
}

static void do_look(uint32_t place) {
    compare(&looks, place, 0, flat_look(zk_c_look(chip, place, table, length)),
            flat_look(plain_c_look(chip, place, plain_table, length)));
}

static void do_reset(void) {
    zk_c_answer got = zk_c_reset(chip);
    compare(&resets, 0, 0, flat_c(got), flat_c(plain_c_reset(chip)));
    chip = got.state;
}

/* ---- inputs */

static uint16_t component(int good) { return (uint16_t)(good ? below(1024) : random_bits() & 0xffff); }

/* an index near an edge of a space, or any */
static uint16_t some_index(void) {
    static const uint16_t edges[] = {0x000e, 0x4000, 0x4400, 0x8000, 0x8400, 0x43ff, 0x83ff, 0x0000};
    uint32_t kind = below(8);
    if (kind == 0) return (uint16_t)random_bits();
    if (kind <= 2) return (uint16_t)(edges[below(8)] + below(3) - 1);
    if (kind <= 5) return (uint16_t)(WRITE_SPACE + (kind % 2) * (READ_SPACE - WRITE_SPACE) + below(ZK_C_ENTRIES));
    return 0x000e;
}

static zk_c_state some_state(int good) {
    zk_c_state s;
    s.index = some_index();
    s.place = (uint8_t)(good ? below(3) : below(6));
    s.update = (uint8_t)random_bits();
    s.red = component(good);
    s.green = component(good);
    s.fetched.red = component(good);
    s.fetched.green = component(good);
    s.fetched.blue = component(good);
    return s;
}

/* a good state with one field out of its range, each in turn; the last stays good */
enum { SPOILT = 6 };
static zk_c_state spoilt(int field, uint16_t wrong) {
    zk_c_state s = some_state(1);
    switch (field) {
    case 0: s.place = (uint8_t)(wrong % 253 + 3); break;
    case 1: s.red = wrong; break;
    case 2: s.green = wrong; break;
    case 3: s.fetched.red = wrong; break;
    case 4: s.fetched.green = wrong; break;
    case 5: s.fetched.blue = wrong; break;
    }
    return s;
}

static unsigned some_port(void) { return below(8) == 0 ? below(256) : 4 + below(3); }
static uint32_t any_place(void) { return below(2) ? some_place(0, 8) : some_place(ZK_C_LOOK_TABLE, ZK_C_TABLE); }

/* ---- every call beside plain C */

static void every_index_and_place(void) {
    lend(ZK_C_TABLE, 1);
    for (unsigned index = 0; index < 0x10000; index++)
        for (unsigned place = 0; place < 4; place++) {
            zk_c_state s = some_state(1);
            s.index = (uint16_t)index;
            s.place = (uint8_t)place;
            chip = s;
            do_write(6, below(256));
            chip = s;
            do_read(6);
        }
}

static void every_port_and_byte(void) {
    lend(ZK_C_TABLE, 1);
    for (unsigned port = 0; port < 256; port++)
        for (unsigned byte = 0; byte < 256; byte++) {
            chip = some_state(1);
            do_write(port, byte);
            do_read(port);
        }
}

static void one_field_out_of_range(void) {
    static const uint16_t wrong[] = {1024, 1025, 2047, 4096, 32768, 65535};
    lend(ZK_C_TABLE, 1);
    for (int field = 0; field < SPOILT; field++)
        for (unsigned i = 0; i < 6; i++)
            for (unsigned round = 0; round < 60; round++) {
                chip = spoilt(field, wrong[i]);
                do_write(some_port(), below(256));
                do_read(some_port());
                do_look(any_place());
            }
}

static void other_lengths(void) {
    static const size_t lengths[] = {0, 1, 2, 3, 1024, 3069, 3070, 3071, 3073, 3074, 3075, 3076};
    for (unsigned i = 0; i < COUNT(lengths); i++) {
        lend(lengths[i], 1);
        for (unsigned round = 0; round < 500; round++) {
            chip = some_state(below(2) == 0);
            do_write(some_port(), below(256));
            chip = some_state(below(2) == 0);
            do_read(some_port());
            chip = some_state(below(2) == 0);
            do_look(any_place());
        }
    }
}

static void runs_of_calls(void) {
    for (unsigned run = 0; run < 300; run++) {
        lend(ZK_C_TABLE, run % 2 == 0);
        chip = some_state(1);
        for (unsigned step = 0; step < 1000; step++) {
            uint32_t kind = below(16);
            int reading = chip.index >= READ_SPACE && chip.index < READ_SPACE + ZK_C_ENTRIES;
            if (kind == 0) do_write(4, below(256));
            if (kind == 1) do_write(5, below(2) == 0 ? 0x40 + below(5) : 0x80 + below(5));
            if (kind == 2) do_write(some_port(), below(256));
            if (kind == 3) do_read(some_port());
            if (kind == 4) chip.index = some_index();
            if (kind > 4 && reading) do_read(6);
            if (kind > 4 && !reading) do_write(6, below(256));
            if (kind < 8) do_look(any_place());
        }
    }
}

/* plain C's, and, by hand, zero */
static void every_reset(void) {
    static const struct flat zero;
    for (unsigned round = 0; round < 100000; round++) {
        chip = some_state(below(2) == 0);
        do_reset();
        CHECK(memcmp(&last, &zero, sizeof zero) == 0, "reset: not zero");
    }
}

/* ---- by hand: accesses */

static void point(unsigned index) {
    do_write(4, index & 0xff);
    do_write(5, index >> 8);
}

static void reads_back(void) {
    lend(ZK_C_TABLE, 1);
    for (unsigned entry = 0; entry < ZK_C_ENTRIES; entry++)
        for (unsigned round = 0; round < 8; round++) {
            unsigned bytes[3];
            chip = some_state(1);
            point(WRITE_SPACE + entry);
            for (int i = 0; i < 3; i++) do_write(6, bytes[i] = below(256));
            point(READ_SPACE + entry);
            for (int i = 0; i < 3; i++) {
                do_read(6);
                CHECK(last.told[0] == 0 && last.told[1] == bytes[i], "entry %u, component %d: %02x for %02x", entry, i,
                      last.told[1], bytes[i]);
            }
        }
}

static struct flat make_step(const struct step *step) {
    if (step->access == 'w')
        do_write(step->select, step->byte);
    else
        do_read(step->select);
    return last;
}

/* the entries that are read, and what the steps leave in the table */
static const struct entry {
    unsigned number;
    uint16_t colour[3];
} lent[] = {{0, {0xffff, 0x0405, 0x080a}}, {5, {0x0410, 0x0817, 0x0fff}}, {6, {0x0018, 0x001c, 0x0020}},
            {1023, {0x0100, 0x0200, 0x0300}}},
  stored[] = {{1023, {1023, 514, 0}}, {6, {4, 8, 252}}, {14, {4, 8, 12}}, {0x305, {0, 0, 0}}};

/* each line: access, port, byte; refusal, value; index, place, red, green */
static const struct step steps[] = {
    /* port 5 fetches, port 4 does not; reads of both move nothing; then entry 6 is fetched */
    {'w', 4, 0x00, {0}, {0x0000}}, {'w', 5, 0x80, {0}, {0x8000}}, {'w', 4, 0x05, {0}, {0x8005}},
    {'r', 6, 0, {0, 0xff}, {0x8005, 1}}, {'r', 4, 0, {0, 0x05}, {0x8005, 1}}, {'r', 5, 0, {0, 0x80}, {0x8005, 1}},
    {'r', 6, 0, {0, 0x01}, {0x8005, 2}}, {'r', 6, 0, {0, 0x02}, {0x8006, 0}}, {'r', 6, 0, {0, 0x06}, {0x8006, 1}},
    /* port 4 keeps the place, port 5 restarts at red */
    {'w', 4, 0x05, {0}, {0x8005, 1}}, {'w', 5, 0x80, {0}, {0x8005, 0}},
    /* modulo 1,024, divided by 4; then the next entry, fetched */
    {'r', 6, 0, {0, 0x04}, {0x8005, 1}}, {'r', 6, 0, {0, 0x05}, {0x8005, 2}}, {'r', 6, 0, {0, 0xff}, {0x8006, 0}},
    {'r', 6, 0, {0, 0x06}, {0x8006, 1}},
    /* from the last entry to the first */
    {'w', 4, 0xff, {0}, {0x80ff, 1}}, {'w', 5, 0x83, {0}, {0x83ff, 0}}, {'r', 6, 0, {0, 0x40}, {0x83ff, 1}},
    {'r', 6, 0, {0, 0x80}, {0x83ff, 2}}, {'r', 6, 0, {0, 0xc0}, {0x8000, 0}}, {'r', 6, 0, {0, 0xff}, {0x8000, 1}},
    /* ports that are not there; port 6 against its direction, and past a space */
    {'w', 3, 0, {3}, {0x8000, 1}}, {'r', 3, 0, {3}, {0x8000, 1}}, {'w', 7, 0, {3}, {0x8000, 1}},
    {'r', 7, 0, {3}, {0x8000, 1}}, {'w', 6, 0, {4}, {0x8000, 1}}, {'w', 5, 0x84, {0}, {0x8400, 0}},
    {'r', 6, 0, {4}, {0x8400, 0}}, {'w', 5, 0x40, {0}, {0x4000, 0}}, {'r', 6, 0, {4}, {0x4000, 0}},
    {'w', 5, 0x44, {0}, {0x4400, 0}}, {'w', 6, 0, {4}, {0x4400, 0}},
    /* writes: ten bits are latched; a whole colour is stored, and the offset steps modulo 1,024 */
    {'w', 4, 0xff, {0}, {0x44ff, 0}}, {'w', 5, 0x43, {0}, {0x43ff, 0}}, {'w', 6, 0xff, {0}, {0x43ff, 1, 1023}},
    {'w', 6, 0x80, {0}, {0x43ff, 2, 1023, 514}}, {'w', 6, 0x00, {0}, {0x4000, 0, 1023, 514}},
    /* port 5 keeps the latches; blue goes to the index as it then stands */
    {'w', 6, 0x40, {0}, {0x4000, 1, 257, 514}}, {'w', 5, 0x40, {0}, {0x4000, 0, 257, 514}},
    {'w', 6, 0x01, {0}, {0x4000, 1, 4, 514}}, {'w', 6, 0x02, {0}, {0x4000, 2, 4, 8}},
    {'w', 4, 0x06, {0}, {0x4006, 2, 4, 8}}, {'w', 6, 0x3f, {0}, {0x4007, 0, 4, 8}},
    /* register 0x000E, all eight bits; it moves nothing. Bit 1 stops the step after writes alone */
    {'w', 6, 0x03, {0}, {0x4007, 1, 12, 8}}, {'w', 4, 0x0e, {0}, {0x400e, 1, 12, 8}},
    {'w', 5, 0x00, {0}, {0x000e, 0, 12, 8}}, {'r', 6, 0, {0, 0x00}, {0x000e, 0, 12, 8}},
    {'w', 6, 0xf9, {0}, {0x000e, 0, 12, 8}}, {'r', 6, 0, {0, 0xf9}, {0x000e, 0, 12, 8}},
    {'w', 6, 0x02, {0}, {0x000e, 0, 12, 8}},
    {'w', 5, 0x40, {0}, {0x400e, 0, 12, 8}}, {'w', 6, 0x01, {0}, {0x400e, 1, 4, 8}},
    {'w', 6, 0x02, {0}, {0x400e, 2, 4, 8}}, {'w', 6, 0x03, {0}, {0x400e, 0, 4, 8}},
    {'w', 4, 0x05, {0}, {0x4005, 0, 4, 8}}, {'w', 5, 0x80, {0}, {0x8005, 0, 4, 8}},
    {'r', 6, 0, {0, 0x04}, {0x8005, 1, 4, 8}}, {'r', 6, 0, {0, 0x05}, {0x8005, 2, 4, 8}},
    {'r', 6, 0, {0, 0xff}, {0x8006, 0, 4, 8}},
    /* bit 2 after reads alone: the fetched entry stays */
    {'w', 4, 0x0e, {0}, {0x800e, 0, 4, 8}}, {'w', 5, 0x00, {0}, {0x000e, 0, 4, 8}},
    {'w', 6, 0x04, {0}, {0x000e, 0, 4, 8}}, {'w', 4, 0x05, {0}, {0x0005, 0, 4, 8}},
    {'w', 5, 0x80, {0}, {0x8005, 0, 4, 8}}, {'r', 6, 0, {0, 0x04}, {0x8005, 1, 4, 8}},
    {'r', 6, 0, {0, 0x05}, {0x8005, 2, 4, 8}}, {'r', 6, 0, {0, 0xff}, {0x8005, 0, 4, 8}},
    {'r', 6, 0, {0, 0x04}, {0x8005, 1, 4, 8}}, {'w', 5, 0x43, {0}, {0x4305, 0, 4, 8}},
    {'w', 6, 0x00, {0}, {0x4305, 1, 0, 8}}, {'w', 6, 0x00, {0}, {0x4305, 2, 0, 0}},
    {'w', 6, 0x00, {0}, {0x4306, 0, 0, 0}},
};

static void put_entries(uint16_t *to, const struct entry *entries, size_t n) {
    for (size_t i = 0; i < n; i++) memcpy(to + 3 * entries[i].number, entries[i].colour, sizeof entries[i].colour);
}

static void accesses_by_hand(void) {
    static uint16_t want[ZK_C_TABLE];
    lend(ZK_C_TABLE, 1);
    put_entries(table, lent, COUNT(lent));
    memcpy(plain_table, table, sizeof want), memcpy(want, table, sizeof want);
    put_entries(want, stored, COUNT(stored));
    memset(&chip, 0, sizeof chip);
    check_steps(steps, COUNT(steps), make_step);
    CHECK(memcmp(table, want, sizeof want) == 0, "the table but for four entries, or one of them");
    chip.index = 0x000e, chip.place = 2; /* no run of accesses comes here */
    do_write(6, 0x55), do_read(6);
    CHECK(last.told[1] == 0x55 && chip.place == 2, "register 0x000E moves the order");
}

/* 1 before 9 before 3 before 4: lengths, then each field out of its range, then ports and places that are there and
 * that are not, then indexes */
static void the_order_of_refusals(void) {
    static const size_t lengths[] = {0, 1, 1024, 3071, 3073, ZK_C_TABLE};
    static const uint32_t places[] = {0, 7, 0x10000, 0x10bff, 8, 0xffff, 0x10c00, UINT32_MAX};
    static const struct {
        unsigned port;
        uint16_t index;
        int write, read;
    } at[] = {{4, 0x4400, 0, 0}, {5, 0x7fff, 0, 0}, {6, 0x000e, 0, 0}, {6, 0x4000, 0, 4}, {6, 0x43ff, 0, 4},
              {6, 0x8000, 4, 0}, {6, 0x83ff, 4, 0}, {6, 0x3fff, 4, 4}, {6, 0x4400, 4, 4}, {6, 0x7fff, 4, 4},
              {6, 0x8400, 4, 4}, {6, 0x000d, 4, 4}, {3, 0x000e, 3, 3}, {7, 0x4400, 3, 3}, {255, 0x8000, 3, 3}};
    for (int n = 0; n < 6; n++) {
        lend(lengths[n], 1);
        for (int field = 0; field <= SPOILT; field++) {
            int first = n < 5 ? 1 : field < SPOILT ? 9 : 0;
            chip = spoilt(field, 1024);
            for (int k = 0; k < 8; k++)
                do_look(places[k]), check_refusal(&looks, places[k], field, first || k < 4 ? first : 3);
            for (size_t k = 0; k < COUNT(at); k++) {
                chip = spoilt(field, 1024), chip.index = at[k].index;
                do_write(at[k].port, 0x80);
                check_refusal(&writes, at[k].index, field, first ? first : at[k].write);
                chip = spoilt(field, 1024), chip.index = at[k].index;
                do_read(at[k].port);
                check_refusal(&reads, at[k].index, field, first ? first : at[k].read);
            }
        }
    }
}

/* ---- by hand: looks */

static uint32_t look_at(zk_c_state s, uint32_t place) { return as_number(zk_c_look(s, place, table, length)); }
static uint32_t good_look(uint32_t place) { return look_at(some_state(1), place); }

/* a state of eight different numbers, and a table of 3,072 different ones, most of them over 1,023 */
static void every_place_of_a_look(void) {
    static const zk_c_state s = {0x8123, 1001, 502, {303, 104, 905}, 2, 0xa6};
    static const uint32_t numbers[8] = {0x8123, 2, 1001, 502, 303, 104, 905, 0xa6};
    lend(ZK_C_TABLE, 1);
    for (unsigned i = 0; i < ZK_C_TABLE; i++) table[i] = plain_table[i] = (uint16_t)(65535 - 21 * i);
    for (uint32_t place = 0; place < 8; place++)
        CHECK(look_at(s, place) == numbers[place], "place %u: %06x", (unsigned)place, (unsigned)look_at(s, place));
    for (unsigned i = 0; i < ZK_C_TABLE; i++)
        CHECK(look_at(s, ZK_C_LOOK_TABLE + i) == 65535 - 21 * i, "number %u: %06x", i,
              (unsigned)look_at(s, ZK_C_LOOK_TABLE + i));
    chip = s;
    for (uint32_t place = 0; place < 0x20000; place += place < 0x10 ? 1 : 1 + below(16)) do_look(place);
}

/* the header's names, in the order of the places */
static void names_of_the_places(void) {
    static const int in_order[8] = {ZK_C_LOOK_INDEX,        ZK_C_LOOK_PLACE,       ZK_C_LOOK_RED,
                                    ZK_C_LOOK_GREEN,        ZK_C_LOOK_FETCHED_RED, ZK_C_LOOK_FETCHED_GREEN,
                                    ZK_C_LOOK_FETCHED_BLUE, ZK_C_LOOK_UPDATE};
    for (int i = 0; i < 8; i++) CHECK(in_order[i] == i, "the name of place %d is %d", i, in_order[i]);
    CHECK(ZK_C_LOOK_TABLE == 0x10000, "the name of the table");
}

static void places_that_are_not_there(void) {
    static const uint32_t there[] = {0, 7, 0x10000, 0x10bff};
    static const uint32_t edges[] = {8, 0x0e, 0xff, 0x4000, 0xffff, 0x10000 + 3072, 0x1ffff, 0x20000, 0xffffffff};
    lend(ZK_C_TABLE, 1);
    check_places(good_look, there, COUNT(there), edges, COUNT(edges), 17);
}

/* reads step and fetch; looks before each, at the index, the order, the fetched entry and the lent one, leave it so */
static void a_look_between_reads(void) {
    lend(ZK_C_TABLE, 1);
    memset(&chip, 0, sizeof chip);
    point(READ_SPACE + 5);
    for (unsigned i = 0; i < 9; i++) {
        const uint16_t *entry = table + 15 + 3 * (i / 3);
        CHECK(look_at(chip, ZK_C_LOOK_INDEX) == READ_SPACE + 5 + i / 3, "the index before read %u", i);
        CHECK(look_at(chip, ZK_C_LOOK_PLACE) == i % 3, "the order before read %u", i);
        for (uint32_t gun = 0; gun < 3; gun++) {
            CHECK(look_at(chip, ZK_C_LOOK_FETCHED_RED + gun) == entry[gun] % 1024, "fetched before read %u", i);
            CHECK(look_at(chip, ZK_C_LOOK_TABLE + 15 + i / 3 * 3 + gun) == entry[gun], "lent before read %u", i);
        }
        do_read(6);
        CHECK(last.told[1] == entry[i % 3] % 1024 / 4, "read %u", i);
    }
}

static void refusals_met(void) {
    check_met(&writes, 1000), check_met(&reads, 1000), check_met(&looks, 1000), check_met(&resets, 1000);
}

int main(void) {
    check_start();
    RUN(every_index_and_place);
    RUN(every_port_and_byte);
    RUN(one_field_out_of_range);
    RUN(other_lengths);
    RUN(runs_of_calls);
    RUN(every_reset);
    RUN(reads_back);
    RUN(accesses_by_hand);
    RUN(the_order_of_refusals);
    RUN(every_place_of_a_look);
    RUN(names_of_the_places);
    RUN(places_that_are_not_there);
    RUN(a_look_between_reads);
    RUN(refusals_met);
    FINISH();
}
