/* zikombaru_ms622424.h: chip B, the MS622424: 8,192 colours of 24 bits behind a queue of 64 waiting writes, the data
 * sheet's Write FIFO. The conventions of zikombaru.h hold.
 *
 * Mosel Vitelic's data sheet of the MS622424 (004) decides: the truth table the accesses, the internal registers their
 * bits, the pin descriptions pixel, blanking and reset. Not modelled: clocks, pipeline delay, bus timing, the held
 * colour at the outputs.
 *
 * WHAT AN ACCESS DOES. The counter says which component of the entry at the address is next.
 *
 *  select             write                               read
 *  0 ADDRESS_LOW      the address's low 8 bits; the       answers these bits; moves nothing
 *                     counter becomes 0
 *  1 ADDRESS_HIGH     its high 5 bits, of the byte's low  answers these bits; moves nothing
 *                     five; the counter becomes 0
 *  2 PALETTE          a component for the queue, below    a component of the map, in read mode alone, below
 *  3 COMMAND          sets it; bits 5 to 7 are dropped;   answers it; moves nothing
 *                     moves nothing else
 *  4 STATUS           refused                             answers it, below; moves nothing
 *  5 BUFFER           refused                             counter 0: the kept red, and the counter becomes 1;
 *                                                         1: the kept green, and the counter STAYS 1; 2: refused
 *  6 REVISION         refused                             16 * board number + revision; moves nothing
 *  7 READMODE         read mode on, whatever the byte;    READ MODE OFF; answers 0; moves nothing else
 *                     moves nothing else: THE COUNTER
 *                     STAYS, and entered halfway, after
 *                     a red, the first read is green
 *
 * A write to the palette keeps red and green in the Color Buffer Register and moves the counter to 1, to 2; blue puts
 * the address with all three at the queue's end, sets the counter to 0 and steps the address, modulo 8,192. The map
 * stays as it is until the entry is moved. If 64 wait when the write comes, be it red, green or blue, the four oldest
 * are moved into the map first, and the write's count is 4. In read mode a palette write is refused.
 *
 * Blanking moves the oldest entries into the map, in read mode too. So to read the map back: blank until nothing waits
 * (status bit EFB is 0), write READMODE, write the address, read the palette; then read READMODE. A read of the
 * palette answers the component that the counter names and moves the counter as a write does; after blue the address
 * steps. Outside read mode a palette read is refused, and in it while entries wait.
 *
 * Address writes, selects 3 and 7, blanking and palette reads leave the kept red and green as they are. */
#ifndef ZIKOMBARU_MS622424_H
#define ZIKOMBARU_MS622424_H

#include "zikombaru_look.h"

#ifdef __cplusplus
extern "C" {
#endif

/* The two lent tables, in their elements, which are their lengths.
 *
 *  - queue, ZK_B_PLACES numbers: a ring, one number an entry (zk_b_entry). The oldest waiting entry is at the state's
 *    first position, each younger one a place further, place 0 behind place 63; the first position steps by one with
 *    each entry that is moved into the map. The places in which no entry waits may hold anything, before a call and
 *    after it: no call reads them.
 *  - map, ZK_B_MAP bytes: ZK_B_ENTRIES colours, entry e with red at byte 3 * e, green and blue behind it. Any bytes
 *    are allowed.
 *
 * zk_b_write may change both tables, zk_b_blank the map; the others change neither. */
#define ZK_B_PLACES 64
#define ZK_B_ENTRIES 8192
#define ZK_B_MAP (ZK_COMPONENTS * ZK_B_ENTRIES)

enum zk_b_select {
    ZK_B_SELECT_ADDRESS_LOW = 0,
    ZK_B_SELECT_ADDRESS_HIGH = 1,
    ZK_B_SELECT_PALETTE = 2, /* Color Palette Buffer */
    ZK_B_SELECT_COMMAND = 3,
    ZK_B_SELECT_STATUS = 4,
    ZK_B_SELECT_BUFFER = 5, /* Color Buffer Register */
    ZK_B_SELECT_REVISION = 6,
    ZK_B_SELECT_READMODE = 7 /* Color Palette read initialization */
};

/* The bits of the status. The three flags are active low: 0 says that it is so. */
enum zk_b_status {
    ZK_B_STATUS_COUNTER = 0x03, /* these two bits are the counter */
    ZK_B_STATUS_EFB = 0x04,     /* 0: no entry waits */
    ZK_B_STATUS_AFB = 0x08,     /* 0: ZK_B_HALF_FULL or more wait; ZK_B_ALMOST_FULL, with command bit AFB */
    ZK_B_STATUS_FFB = 0x10      /* 0: ZK_B_PLACES wait, and the next palette write moves ZK_B_FORCED of them */
};
#define ZK_B_HALF_FULL 32
#define ZK_B_ALMOST_FULL 56
#define ZK_B_FORCED 4

/* The bits of the command register. A reset leaves PIPE0 and PIPE1 on and all others off, 0x03. */
enum zk_b_command {
    ZK_B_COMMAND_PIPE0 = 0x01,   /* 0: timing signal 0 comes out as 0 (AND) */
    ZK_B_COMMAND_PIPE1 = 0x02,   /* the same of signal 1 */
    ZK_B_COMMAND_PIPE2 = 0x04,   /* 1: timing signal 2 comes out as 1 (OR) */
    ZK_B_COMMAND_PIPE3 = 0x08,   /* the same of signal 3 */
    ZK_B_COMMAND_AFB = 0x10,     /* what status bit AFB tells: 0 half full, 1 almost full */
    ZK_B_COMMAND_RESERVED = 0xe0 /* always 0 */
};

/* How a pixel's 24 bits pick a colour, the data sheet's PIX.RGB. In the color index mode the low 13 bits are the
 * entry, and the others do not count. In an RGB mode each byte, red in the low one, picks its own component out of 256
 * entries from the mode's first on. */
enum zk_b_mode {
    ZK_B_MODE_INDEX = 0,
    ZK_B_MODE_RGB1 = 1,
    ZK_B_MODE_RGB2 = 2,
    ZK_B_MODE_RGB3 = 3
};
#define ZK_B_RGB1_ENTRY 7424
#define ZK_B_RGB2_ENTRY 7680
#define ZK_B_RGB3_ENTRY 7936

/* The state beside the tables, with each field's range. It stands in parts, so that a field that is added later moves
 * its own part alone: code that hands on a part, or names a field by its part, stays as it is. The bytes between the
 * parts mean nothing. */

/* what accesses to the color map move */
typedef struct zk_b_port {
    uint16_t address; /* below 8,192 */
    uint8_t counter;  /* ZK_RED, ZK_GREEN or ZK_BLUE */
    uint8_t red;      /* the Color Buffer Register's red and green, any bytes */
    uint8_t green;
} zk_b_port;

typedef struct zk_b_control {
    uint8_t command;  /* bits 5 to 7 are 0 */
    uint8_t readmode; /* 0 or 1 */
} zk_b_control;

/* the board's: no call changes them, and a reset keeps them */
typedef struct zk_b_ident {
    uint8_t revision; /* 0 to 7 */
    uint8_t board;    /* 0 to 15 */
} zk_b_ident;

/* how the queue stands in its places; version 0.2.0 had no first position, and kept the other places 0 */
typedef struct zk_b_fifo {
    uint8_t first;   /* below 64 */
    uint8_t waiting; /* 0 to 64 */
} zk_b_fifo;

/* Zeroed it is in range, with an empty queue; but a reset leaves 0x03 in the command register. So set revision and
 * board number, and reset. */
typedef struct zk_b_state {
    zk_b_port port;
    zk_b_control control;
    zk_b_ident ident;
    zk_b_fifo fifo;
} zk_b_state;

/* refusal (0 for none), the value read, how many entries were moved into the map, and the state after the call */
typedef struct zk_b_answer {
    uint8_t refusal;
    uint8_t value;
    uint16_t count;
    zk_b_state state;
} zk_b_answer;

/* refusal (0 for none), and the colour that is shown */
typedef struct zk_b_shown {
    uint8_t refusal;
    uint8_t red;
    uint8_t green;
    uint8_t blue;
} zk_b_shown;

/* An entry as a place of the queue holds it: red in the low byte, then green, blue and the address, below 8,192. */
static inline uint64_t zk_b_entry(uint16_t address, uint8_t red, uint8_t green, uint8_t blue) {
    return (uint64_t)address << 24 | (uint64_t)blue << 16 | (uint64_t)green << 8 | red;
}

/* Every call but reset refuses, before all else, with ZK_LENT_LENGTH a table that it is lent without its length, then
 * with ZK_OUT_OF_RANGE a state or a queue out of range: a field, or a waiting address of 8,192 or more. What else it
 * refuses stands beside it, in the order of trying. */

/* A write of a byte to a select. The count is 4 where a full queue made room first, else 0. Then ZK_NO_ACCESS: selects
 * 4, 5, 6 and over 7; ZK_READ_MODE: select 2 in read mode. */
ZK_ANSWER zk_b_answer zk_b_write(zk_b_state state, uint8_t select, uint8_t byte, uint64_t *queue, size_t queue_length,
                                 uint8_t *map, size_t map_length);

/* A read of a select. Then ZK_NO_ACCESS: select 5 at counter 2, and selects over 7; ZK_READ_MODE: select 2 outside
 * read mode; ZK_STILL_WAITING: select 2 while entries wait. */
ZK_ANSWER zk_b_answer zk_b_read(zk_b_state state, uint8_t select, const uint64_t *queue, size_t queue_length,
                                const uint8_t *map, size_t map_length);

/* The places of a look: one number each, but for the map, whose byte i stands at ZK_B_LOOK_MAP + i. The waiting
 * entries are no places; how many wait is one, and the first position. */
enum zk_b_place {
    ZK_B_LOOK_ADDRESS = 0x0,
    ZK_B_LOOK_COUNTER = 0x1,
    ZK_B_LOOK_RED = 0x2,   /* of the Color Buffer Register */
    ZK_B_LOOK_GREEN = 0x3, /* of the Color Buffer Register */
    ZK_B_LOOK_COMMAND = 0x4,
    ZK_B_LOOK_READMODE = 0x5,
    ZK_B_LOOK_REVISION = 0x6,
    ZK_B_LOOK_BOARD = 0x7,
    ZK_B_LOOK_WAITING = 0x8,
    ZK_B_LOOK_FIRST = 0xc,  /* the queue's first position; 0x9, 0xa and 0xb are not there */
    ZK_B_LOOK_MAP = 0x10000 /* the map's first byte, of ZK_B_MAP */
};

/* A look at a place, which moves nothing. It answers from the map as stored, whatever waits, in read mode or not. Then
 * ZK_NO_ACCESS: no such place. */
ZK_ANSWER zk_looked zk_b_look(zk_b_state state, uint32_t place, const uint64_t *queue, size_t queue_length,
                              const uint8_t *map, size_t map_length);

/* A blanking period of 0 to 65,535 slots, each of which moves the oldest entry, if one waits, into the map: the count
 * is the smaller of slots and waiting. More slots are ZK_OUT_OF_RANGE. */
ZK_ANSWER zk_b_answer zk_b_blank(zk_b_state state, uint32_t slots, const uint64_t *queue, size_t queue_length,
                                 uint8_t *map, size_t map_length);

/* The colour of a pixel of 24 bits, in a mode of zk_b_mode, from the map as stored. A mode over 3 and a word of 2^24
 * or more are ZK_OUT_OF_RANGE. */
ZK_ANSWER zk_b_shown zk_b_pixel(zk_b_state state, uint8_t mode, uint32_t word, const uint64_t *queue,
                                size_t queue_length, const uint8_t *map, size_t map_length);

/* The four timing signals, bits 0 to 3 (PIPE.IN0 to 3), as the command register passes them on: the answer's value. It
 * is lent no map. Signals over 15 are ZK_OUT_OF_RANGE. */
ZK_ANSWER zk_b_answer zk_b_sync(zk_b_state state, uint8_t signals, const uint64_t *queue, size_t queue_length);

/* A reset: none wait, and the first position is 0; address, counter, kept red and green become 0, the command register
 * 0x03, read mode off; revision and board number are kept, and so is the map, which it is not lent. It reads no place
 * of the queue, and accepts every other state. Refusals, in this order: ZK_LENT_LENGTH, the queue; ZK_OUT_OF_RANGE, a
 * revision over 7 or a board number over 15. */
ZK_ANSWER zk_b_answer zk_b_reset(zk_b_state state, const uint64_t *queue, size_t queue_length);

/* A whole chip: the state and its tables, some 25,000 bytes, so that ZK_LENT_LENGTH can't be. Zeroed it is in range,
 * with a black map; a reset should follow, as for the state. The calls are those above on its parts, and keep the
 * state; a refused one leaves the chip as it was. */
typedef struct zk_b_chip {
    zk_b_state state;
    uint64_t queue[ZK_B_PLACES];
    uint8_t map[ZK_B_MAP];
} zk_b_chip;

static inline ZK_ANSWER zk_moved zk_b_chip_write(zk_b_chip *chip, uint8_t select, uint8_t byte) {
    zk_b_answer answer = zk_b_write(chip->state, select, byte, chip->queue, ZK_B_PLACES, chip->map, ZK_B_MAP);
    zk_moved moved = {answer.refusal, answer.count};
    chip->state = answer.state;
    return moved;
}

static inline ZK_ANSWER zk_told zk_b_chip_read(zk_b_chip *chip, uint8_t select) {
    zk_b_answer answer = zk_b_read(chip->state, select, chip->queue, ZK_B_PLACES, chip->map, ZK_B_MAP);
    zk_told told = {answer.refusal, answer.value};
    chip->state = answer.state;
    return told;
}

static inline ZK_ANSWER zk_looked zk_b_chip_look(const zk_b_chip *chip, uint32_t place) {
    return zk_b_look(chip->state, place, chip->queue, ZK_B_PLACES, chip->map, ZK_B_MAP);
}

static inline ZK_ANSWER zk_moved zk_b_chip_blank(zk_b_chip *chip, uint32_t slots) {
    zk_b_answer answer = zk_b_blank(chip->state, slots, chip->queue, ZK_B_PLACES, chip->map, ZK_B_MAP);
    zk_moved moved = {answer.refusal, answer.count};
    chip->state = answer.state;
    return moved;
}

static inline ZK_ANSWER zk_b_shown zk_b_chip_pixel(const zk_b_chip *chip, uint8_t mode, uint32_t word) {
    return zk_b_pixel(chip->state, mode, word, chip->queue, ZK_B_PLACES, chip->map, ZK_B_MAP);
}

static inline ZK_ANSWER zk_told zk_b_chip_sync(const zk_b_chip *chip, uint8_t signals) {
    zk_b_answer answer = zk_b_sync(chip->state, signals, chip->queue, ZK_B_PLACES);
    zk_told told = {answer.refusal, answer.value};
    return told;
}

static inline ZK_ANSWER uint8_t zk_b_chip_reset(zk_b_chip *chip) {
    zk_b_answer answer = zk_b_reset(chip->state, chip->queue, ZK_B_PLACES);
    chip->state = answer.state;
    return answer.refusal;
}

#ifdef __cplusplus
}
#endif

#endif
