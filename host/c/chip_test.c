/* The whole chips of the headers, zk_a_chip, zk_b_chip and zk_c_chip, and chip A's sheets: each inline call beside
 * plain C (host/plain) on the same state and tables, in runs from chips in range and out of it. What a call tells and
 * the whole chip after it are compared, of chip B's queue the waiting entries; chips A and C have no bytes between
 * their parts. By hand: what zeroed chips are. And the version of the library, which is the header's. */
#include "check.h"

/* all of them; the lengths are right, so that refusal 1 can't be */
static struct call calls = {"call", NULL, "023456789", {0}};

/* what a call told, and plain C's answer to it */
static void same(const char *call, struct flat got, struct flat want) {
    calls.met[want.told[0] % 10]++;
    CHECK(memcmp(got.told, want.told, sizeof got.told) == 0, "%s: refusal %u value %x count %u, plain C %u %x %u", call,
          got.told[0], got.told[1], got.told[2], want.told[0], want.told[1], want.told[2]);
}

static struct flat told(unsigned refusal, unsigned value, unsigned count) {
    struct flat flat = {{(uint16_t)refusal, (uint16_t)value, (uint16_t)count}, {0}};
    return flat;
}
static struct flat value(zk_told t) { return told(t.refusal, t.value, 0); }
static struct flat count(zk_moved m) { return told(m.refusal, 0, m.count); }

static uint32_t any_place(void) {
    return below(3) ? some_place(0, 13) : some_place(below(2) ? ZK_A_LOOK_COLOURS : ZK_B_LOOK_MAP, 768);
}

/* ---- chip A */

#define PARTS_A plain->colours, ZK_A_COLOURS, plain->overlays, ZK_A_OVERLAYS

static void step_a(zk_a_chip *chip, zk_a_chip *plain) {
    uint8_t select = (uint8_t)below(9), byte = (uint8_t)below(256), enable = (uint8_t)below(3),
            number = (uint8_t)below(5);
    uint32_t place = any_place(), kind = below(24);
    zk_a_answer a = {0, 0, plain->state};
    if (kind < 12) {
        a = plain_a_write(plain->state, kind < 8 ? 1 : select, byte, PARTS_A);
        same("a write", told(zk_a_chip_write(chip, kind < 8 ? 1 : select, byte), 0, 0), flat_a(a));
    } else if (kind < 16) {
        a = plain_a_read(plain->state, select, PARTS_A);
        same("a read", value(zk_a_chip_read(chip, select)), flat_a(a));
    } else if (kind < 18) {
        same("a look", flat_look(zk_a_chip_look(chip, place)), flat_look(plain_a_look(plain->state, place, PARTS_A)));
    } else if (kind < 20) {
        a.refusal = plain_a_tick(&a.state.clock);
        same("a tick", told(zk_a_chip_tick(chip), 0, 0), flat_a(a));
    } else if (kind < 23) {
        same("a pixel", flat_shown_a(zk_a_chip_pixel(chip, enable, number, byte)),
             flat_shown_a(plain_a_pixel(plain->state, enable, number, byte, PARTS_A)));
    } else {
        zk_a_chip_reset(chip);
        a = plain_a_reset(plain->state);
    }
    plain->state = a.state;
    CHECK(memcmp(chip, plain, sizeof *chip) == 0, "chip A after kind %u", (unsigned)kind);
}

static zk_a_chip some_chip_a(void) {
    zk_a_chip chip;
    chip.state = good_a();
    if (below(8) == 0) chip.state.pointer = 3;
    if (below(8) == 0) chip.state.clock.position = (uint8_t)period(chip.state.clock.timing);
    for (unsigned i = 0; i < ZK_A_COLOURS; i++) chip.colours[i] = (uint8_t)below(16);
    for (unsigned i = 0; i < ZK_A_OVERLAYS; i++) chip.overlays[i] = (uint8_t)below(16);
    return chip;
}

static void runs_on_chip_a(void) {
    for (int run = 0; run < 200; run++) {
        zk_a_chip chip = some_chip_a(), plain = chip;
        for (int i = 0; i < 200; i++) step_a(&chip, &plain);
    }
}

/* a chip's sheet, sometimes damaged, loaded into another chip; 9 before 8 */
static void sheets_of_chip_a(void) {
    for (int round = 0; round < 2000; round++) {
        uint8_t sheet[ZK_SHEET_BYTES + 8], want[ZK_SHEET_BYTES + 8], list[ZK_CALLS_BYTES];
        size_t room = ZK_SHEET_BYTES - 8 + below(16);
        zk_a_chip first = some_chip_a(), chip = some_chip_a(), copy = chip, *plain = &copy;
        if (below(8) == 0) first.colours[below(ZK_A_COLOURS)] = 16;
        memset(sheet, 'x', sizeof sheet), memset(want, 'x', sizeof want);
        uint64_t answer = zk_a_chip_write_sheet(&first, sheet, room), read;
        CHECK(answer == plain_sheet_write(first.state, first.colours, 768, first.overlays, 12, want, room)
                  && memcmp(sheet, want, sizeof sheet) == 0,
              "the chip's sheet: answer 0x%016llx", (unsigned long long)answer);
        calls.met[zk_refusal(answer) % 10]++;
        if (below(2)) sheet[below(ZK_SHEET_BYTES)] = '\r';
        read = plain_sheet_to_calls(sheet, ZK_SHEET_BYTES, list, sizeof list);
        unsigned range = plain_a_look(plain->state, 0, PARTS_A).refusal;
        for (unsigned i = 0; range == 0 && i < zk_count(read); i++)
            plain->state = plain_a_write(plain->state, list[2 * i], list[2 * i + 1], PARTS_A).state;
        answer = zk_a_chip_load_sheet(&chip, sheet, ZK_SHEET_BYTES);
        CHECK(answer == (range ? range : read), "a load: answer 0x%016llx", (unsigned long long)answer);
        CHECK(memcmp(&chip, plain, sizeof chip) == 0, "the chip after a load, answer 0x%016llx",
              (unsigned long long)answer);
        calls.met[zk_refusal(answer) % 10]++;
    }
}

/* ---- chip B */

#define QUEUE_B plain->queue, ZK_B_PLACES
#define PARTS_B QUEUE_B, plain->map, ZK_B_MAP

static unsigned long forced, wrapped; /* writes that moved entries, and calls with entries round the places' end */

/* a call on both; whether it may have changed places of the queue */
static int step_b(zk_b_chip *chip, zk_b_chip *plain) {
    uint8_t select = (uint8_t)below(9), byte = (uint8_t)below(256), mode = (uint8_t)below(5);
    uint32_t place = any_place(), slots = below(20) ? below(5) : 65536, kind = below(400);
    zk_b_answer a = {0, 0, 0, plain->state};
    wrapped += plain->state.fifo.first + plain->state.fifo.waiting > ZK_B_PLACES;
    if (kind < 300) {
        select = kind < 284 ? 2 : kind < 289 ? 7 : select;
        a = plain_b_write(plain->state, select, byte, PARTS_B);
        same("b write", count(zk_b_chip_write(chip, select, byte)), flat_b(a));
        forced += a.count != 0;
    } else if (kind < 350) {
        select = kind < 315 ? 7 : kind < 340 ? 2 : select;
        a = plain_b_read(plain->state, select, PARTS_B);
        same("b read", value(zk_b_chip_read(chip, select)), flat_b(a));
    } else if (kind < 360) {
        same("b look", flat_look(zk_b_chip_look(chip, place)), flat_look(plain_b_look(plain->state, place, PARTS_B)));
    } else if (kind < 379) {
        a = plain_b_blank(plain->state, slots, PARTS_B);
        same("b blank", count(zk_b_chip_blank(chip, slots)), flat_b(a));
    } else if (kind < 389) {
        same("b pixel", flat_shown_b(zk_b_chip_pixel(chip, mode, 0x010203u * byte)),
             flat_shown_b(plain_b_pixel(plain->state, mode, 0x010203u * byte, PARTS_B)));
    } else if (kind < 399) {
        a = plain_b_sync(plain->state, byte % 17, QUEUE_B);
        same("b sync", value(zk_b_chip_sync(chip, byte % 17)), flat_b(a));
    } else {
        a = plain_b_reset(plain->state, QUEUE_B);
        same("b reset", told(zk_b_chip_reset(chip), 0, 0), flat_b(a));
    }
    plain->state = a.state;
    return kind < 300 && a.refusal == 0;
}

/* a chip whose queue is full or empty, from any position on; now and then the revision is out of range */
static void make_chip_b(zk_b_chip *chip) {
    memset(chip, 0, sizeof *chip);
    for (unsigned i = 0; i < ZK_B_MAP; i++) chip->map[i] = (uint8_t)random_bits();
    chip->state.ident.revision = (uint8_t)below(9), chip->state.ident.board = (uint8_t)below(16);
    chip->state.fifo.first = (uint8_t)below(ZK_B_PLACES);
    chip->state.fifo.waiting = below(2) ? ZK_B_PLACES : 0;
    for (unsigned i = 0; i < ZK_B_PLACES; i++)
        chip->queue[i] = chip->state.fifo.waiting ? random_bits() & 0x1fffffffff : UINT64_MAX;
}

/* the state, the waiting entries and the map */
static int same_chip_b(const zk_b_chip *chip, const zk_b_chip *plain) {
    zk_b_answer got = {0, 0, 0, chip->state}, want = {0, 0, 0, plain->state};
    struct flat g = flat_b(got), w = flat_b(want);
    struct waits ours = flat_waits(chip->state.fifo, chip->queue), theirs = flat_waits(want.state.fifo, plain->queue);
    return memcmp(&g, &w, sizeof g) == 0 && memcmp(&ours, &theirs, sizeof ours) == 0
           && memcmp(chip->map, plain->map, sizeof chip->map) == 0;
}

static void runs_on_chip_b(void) {
    static zk_b_chip chip, plain;
    for (int run = 0; run < 300; run++) {
        make_chip_b(&chip);
        plain = chip;
        for (int i = 0; i < 150; i++) {
            uint64_t before[ZK_B_PLACES];
            memcpy(before, chip.queue, sizeof before);
            int written = step_b(&chip, &plain);
            CHECK(same_chip_b(&chip, &plain), "chip B after step %d of run %d", i, run);
            CHECK(written || memcmp(chip.queue, before, sizeof before) == 0, "a place after step %d of run %d", i, run);
        }
    }
}

/* ---- chip C */

static void step_c(zk_c_chip *chip, zk_c_chip *plain) {
    uint8_t port = (uint8_t)(3 + below(5)), byte = (uint8_t)below(256);
    uint32_t place = any_place(), kind = below(32);
    zk_c_answer a = {0, 0, plain->state};
    if (kind < 2) port = 5, byte = (uint8_t)((below(2) ? 0x40 : 0x80) + below(5));
    if (kind < 16) {
        a = plain_c_write(plain->state, port, byte, plain->table, ZK_C_TABLE);
        same("c write", told(zk_c_chip_write(chip, port, byte), 0, 0), flat_c(a));
    } else if (kind < 28) {
        a = plain_c_read(plain->state, kind < 24 ? 6 : port, plain->table, ZK_C_TABLE);
        same("c read", value(zk_c_chip_read(chip, kind < 24 ? 6 : port)), flat_c(a));
    } else if (kind < 31) {
        same("c look", flat_look(zk_c_chip_look(chip, place)),
             flat_look(plain_c_look(plain->state, place, plain->table, ZK_C_TABLE)));
    } else {
        zk_c_chip_reset(chip);
        a = plain_c_reset(plain->state);
    }
    plain->state = a.state;
    CHECK(memcmp(chip, plain, sizeof *chip) == 0, "chip C after kind %u", (unsigned)kind);
}

static void runs_on_chip_c(void) {
    for (int run = 0; run < 200; run++) {
        zk_c_chip chip, plain;
        memset(&chip.state, 0, sizeof chip.state);
        if (below(4) == 0) chip.state.place = 3;
        for (unsigned i = 0; i < ZK_C_TABLE; i++) chip.table[i] = (uint16_t)random_bits();
        plain = chip;
        for (int i = 0; i < 200; i++) step_c(&chip, &plain);
    }
}

/* ---- by hand */

static void zeroed_chips(void) {
    static zk_a_chip a;
    static zk_b_chip b;
    static zk_c_chip c;
    zk_told status = zk_b_chip_read(&b, ZK_B_SELECT_STATUS), command = zk_b_chip_read(&b, ZK_B_SELECT_COMMAND);
    zk_a_shown shown = zk_a_chip_pixel(&a, 0, 0, 0xff);
    zk_told index = zk_c_chip_read(&c, ZK_C_PORT_INDEX_LOW);
    CHECK(shown.refusal == 0 && shown.red == 0 && shown.green == 0 && shown.blue == 0, "a zeroed chip A is black");
    CHECK(status.refusal == 0 && status.value == 0x18 && command.value == 0, "a zeroed chip B is in range");
    CHECK(zk_b_chip_reset(&b) == 0 && zk_b_chip_read(&b, ZK_B_SELECT_COMMAND).value == 0x03, "and its reset");
    CHECK(index.refusal == 0 && index.value == 0, "a zeroed chip C is in range");
}

static void the_version(void) {
    char text[8] = ZK_VERSION_TEXT;
    zk_text version = zk_version_text();
    CHECK(zk_version() == ZK_VERSION, "the library is %lx, the header %lx", (unsigned long)zk_version(),
          (unsigned long)ZK_VERSION);
    CHECK(memcmp(version.text, text, sizeof text) == 0, "the library is %.8s, the header %s", version.text, text);
}

static void refusals_met(void) {
    check_met(&calls, 100);
    CHECK(forced >= 100, "a full queue was met %lu times", forced);
    CHECK(wrapped >= 1000, "a wrapped queue was met %lu times", wrapped);
}

int main(void) {
    check_start();
    RUN(runs_on_chip_a);
    RUN(sheets_of_chip_a);
    RUN(runs_on_chip_b);
    RUN(runs_on_chip_c);
    RUN(zeroed_chips);
    RUN(the_version);
    RUN(refusals_met);
    FINISH();
}
