/* zikombaru_rgb640.h: chip C, the palette port of the RGB640: 1,024 colours of three components, ten bits each. The
 * conventions of zikombaru.h hold.
 *
 * IBM's data sheet of the RGB640 (001) decides: sections 9.1, 9.3, 9.4.1, 9.6 and 10.15. Not modelled: the chip's
 * other ports and indexes, its cursor, windows and YUV, the palette by ten bits, clocks and bus timing.
 *
 * WHAT AN ACCESS DOES. The place in the order says which component of a colour is next.
 *
 *  port               write                               read
 *  4 INDEX_LOW        the index's low byte, and nothing   answers this byte; moves nothing
 *                     else moves
 *  5 INDEX_HIGH       its high byte; the order restarts   answers this byte; moves nothing
 *                     at red, the latches stay; and if
 *                     the index then lies in the read
 *                     space, ITS ENTRY IS FETCHED
 *  6 DATA             by the index, below                 by the index, below
 *
 *  index              write to port 6                     read of port 6
 *  0x000E UPDATE      sets the register, all eight bits;  answers the register; moves nothing
 *                     moves nothing else
 *  0x4000 to 0x43FF   a component of entry index - 0x4000 refused
 *  0x8000 to 0x83FF   refused                             a component of the FETCHED entry
 *  any other          refused                             refused
 *
 * A component is written as a byte and expanded to ten bits, as zk_expand does at width 8. Red and green are latched,
 * and the order moves on; blue stores all three at the index as it then stands, and the order restarts at red. Then,
 * where register 0x000E enables auto-increment for writes, the offset into the palette steps, modulo 1,024: 0x43FF goes
 * to 0x4000.
 *
 * A component is read as the fetched entry's ten bits divided by 4, floored, and the order moves on. After blue it
 * restarts, and where auto-increment is enabled for reads the offset steps likewise and that entry is fetched; else
 * the index and the fetched entry stay. The fetched entry is a copy: a later store does not change it. So to read an
 * entry write port 4, THEN port 5, then read port 6 three times; port 4 alone moves the index and fetches nothing. */
#ifndef ZIKOMBARU_RGB640_H
#define ZIKOMBARU_RGB640_H

#include "zikombaru_look.h"

#ifdef __cplusplus
extern "C" {
#endif

/* The lent table, in entries and in numbers of 16 bits, which are its length. Entry e has red at number 3 * e, green
 * and blue behind it. Any number may stand in it: it is taken modulo 1,024 when it is fetched, and answered as it
 * stands by a look. A write may change one entry; nothing else changes the table. */
#define ZK_C_ENTRIES 1024
#define ZK_C_TABLE (ZK_COMPONENTS * ZK_C_ENTRIES)

enum zk_c_port { ZK_C_PORT_INDEX_LOW = 4, ZK_C_PORT_INDEX_HIGH = 5, ZK_C_PORT_DATA = 6 };

/* What the index names: a register, and the first index of either space of ZK_C_ENTRIES. */
enum zk_c_index {
    ZK_C_INDEX_UPDATE = 0x000e, /* Update Control */
    ZK_C_INDEX_WRITE = 0x4000,  /* Main Color Palette Write */
    ZK_C_INDEX_READ = 0x8000    /* Main Color Palette Read */
};

/* The bits of register 0x000E. It takes any byte; the other bits are kept and do nothing here. */
enum zk_c_update {
    ZK_C_UPDATE_WRAI = 0x02, /* auto-increment after writes: 0 enables it, 1 disables it */
    ZK_C_UPDATE_RDAI = 0x04  /* the same after reads */
};

typedef struct zk_c_colour {
    uint16_t red, green, blue; /* each below 1,024 */
} zk_c_colour;

typedef struct zk_c_state {
    uint16_t index;      /* ports 4 (low byte) and 5 (high byte); any number */
    uint16_t red, green; /* latched, each below 1,024 */
    zk_c_colour fetched; /* the entry that reads answer from */
    uint8_t place;       /* in the order: ZK_RED, ZK_GREEN or ZK_BLUE */
    uint8_t update;      /* register 0x000E; any byte */
} zk_c_state;            /* zeroed it is what a reset leaves */

typedef struct zk_c_answer {
    uint8_t refusal; /* 0 for none */
    uint8_t value;   /* the byte read; 0 after a write or a reset */
    zk_c_state state;
} zk_c_answer;

/* A byte to a port, and a byte from one. Refusals, in this order: ZK_LENT_LENGTH; ZK_OUT_OF_RANGE, the state;
 * ZK_NO_ACCESS, a port other than 4, 5 and 6; ZK_NO_INDEX, port 6 at an index that the second table above refuses. */
ZK_ANSWER zk_c_answer zk_c_write(zk_c_state state, uint8_t port, uint8_t byte, uint16_t *table, size_t table_length);
ZK_ANSWER zk_c_answer zk_c_read(zk_c_state state, uint8_t port, const uint16_t *table, size_t table_length);

/* The places of a look: one number each, but for the table, whose number i stands at ZK_C_LOOK_TABLE + i. */
enum zk_c_place {
    ZK_C_LOOK_INDEX = 0x0,
    ZK_C_LOOK_PLACE = 0x1, /* in the order */
    ZK_C_LOOK_RED = 0x2,   /* latched */
    ZK_C_LOOK_GREEN = 0x3, /* latched */
    ZK_C_LOOK_FETCHED_RED = 0x4,
    ZK_C_LOOK_FETCHED_GREEN = 0x5,
    ZK_C_LOOK_FETCHED_BLUE = 0x6,
    ZK_C_LOOK_UPDATE = 0x7,   /* register 0x000E */
    ZK_C_LOOK_TABLE = 0x10000 /* the table's first number, of ZK_C_TABLE */
};

/* A look at a place, which moves nothing; a number of the table as lent, over 1,023 too. Refusals, in this order:
 * ZK_LENT_LENGTH, ZK_OUT_OF_RANGE, ZK_NO_ACCESS (no such place). */
ZK_ANSWER zk_looked zk_c_look(zk_c_state state, uint32_t place, const uint16_t *table, size_t table_length);

/* The zero state, whatever the state was; never refused. The table is not lent and stays. */
ZK_ANSWER zk_c_answer zk_c_reset(zk_c_state state);

/* A whole chip: the state and its table, so that ZK_LENT_LENGTH can't be. Zeroed it is a chip after a reset, with a
 * black table. The calls are those above on its parts, and keep the state; a refused one leaves the chip as it was.
 * Reset is never refused, and answers nothing. */
typedef struct zk_c_chip {
    zk_c_state state;
    uint16_t table[ZK_C_TABLE];
} zk_c_chip;

static inline ZK_ANSWER uint8_t zk_c_chip_write(zk_c_chip *chip, uint8_t port, uint8_t byte) {
    zk_c_answer answer = zk_c_write(chip->state, port, byte, chip->table, ZK_C_TABLE);
    chip->state = answer.state;
    return answer.refusal;
}

static inline ZK_ANSWER zk_told zk_c_chip_read(zk_c_chip *chip, uint8_t port) {
    zk_c_answer answer = zk_c_read(chip->state, port, chip->table, ZK_C_TABLE);
    zk_told told = {answer.refusal, answer.value};
    chip->state = answer.state;
    return told;
}

static inline ZK_ANSWER zk_looked zk_c_chip_look(const zk_c_chip *chip, uint32_t place) {
    return zk_c_look(chip->state, place, chip->table, ZK_C_TABLE);
}

static inline void zk_c_chip_reset(zk_c_chip *chip) { chip->state = zk_c_reset(chip->state).state; }

#ifdef __cplusplus
}
#endif

#endif
