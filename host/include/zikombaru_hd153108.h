/* zikombaru_hd153108.h: chip A, the HD153108: 256 colours and 4 overlays of three components, 4 bits each. The
 * conventions of zikombaru.h hold.
 *
 * Hitachi's data sheet of the HD153108 (003) decides: Tables 1.1 to 3 the accesses, Table 4 the pixel, Tables 5.1 and
 * 5.2 the blinking. Not modelled: the converters, BLANK, the dot clock and bus timing.
 *
 * WHAT AN ACCESS DOES. The pointer says which component of the entry at the address is next. One pointer, one address
 * and one pair of latches serve both tables.
 *
 *  select             write                               read
 *  0 ADDRESS          sets the address; the pointer goes  answers the address, all eight bits; the pointer GOES TO
 *                     to red; the latches stay            RED, so that a colour halfway is torn
 *  1 COLOUR           a component of a colour, below      the component under the pointer, as its byte stands; the
 *                                                         pointer and the address move as in a write
 *  2                  refused: reserved                   refused: reserved
 *  3 OVERLAY          a component of an overlay, below    as select 1, of an overlay
 *  4 READMASK         sets it                             answers it, moves nothing
 *  5 BLINKMASK        sets it                             answers it, moves nothing
 *  6 CONTROL          sets it; bits 7, 5, 4 are dropped   answers it, with 0 for these bits; moves nothing
 *  7 TIMING           sets it; the blink position becomes answers it, moves nothing
 *                     0, with an equal value too
 *
 * A component (selects 1 and 3) is a byte's low four bits. Red and green are latched, and the pointer moves to green,
 * to blue. Blue stores latched red, latched green and itself at the entry: three bytes of the table change at once,
 * the pointer goes to red, and the address to the next entry. Colours use the whole address, and it steps modulo 256;
 * overlays use its low two bits, and those alone step, modulo 4. A read leaves latches and tables as they are.
 *
 * After a reset every register is 0: the blink mask too, so that the whole picture blinks until it is set to 0xff. */
#ifndef ZIKOMBARU_HD153108_H
#define ZIKOMBARU_HD153108_H

#include "zikombaru_look.h"

#ifdef __cplusplus
extern "C" {
#endif

/* The two lent tables, in entries and in bytes, which are their lengths. Entry e has red at byte 3 * e, green and blue
 * behind it. Any byte may stand in a table; the chip writes none over 15. */
#define ZK_A_COLOUR_ENTRIES 256
#define ZK_A_OVERLAY_ENTRIES 4
#define ZK_A_COLOURS (ZK_COMPONENTS * ZK_A_COLOUR_ENTRIES)
#define ZK_A_OVERLAYS (ZK_COMPONENTS * ZK_A_OVERLAY_ENTRIES)

enum zk_a_select {
    ZK_A_SELECT_ADDRESS = 0,
    ZK_A_SELECT_COLOUR = 1,  /* Color Lookup Table (CLT) */
    ZK_A_SELECT_OVERLAY = 3, /* Overlay Table (OLT) */
    ZK_A_SELECT_READMASK = 4,
    ZK_A_SELECT_BLINKMASK = 5,
    ZK_A_SELECT_CONTROL = 6, /* overlay control */
    ZK_A_SELECT_TIMING = 7   /* blink timing */
};

/* The bits of the overlay control. OLD0 and OLD1 are bits 0 and 1 of a pixel's overlay number. */
enum zk_a_control {
    ZK_A_CONTROL_OLD0_READMASK = 0x01,  /* 1: this bit of the number reads 0 */
    ZK_A_CONTROL_OLD1_READMASK = 0x02,
    ZK_A_CONTROL_OLD0_BLINKMASK = 0x04, /* 0: it reads 0 in the off time; 1: it does not blink */
    ZK_A_CONTROL_OLD1_BLINKMASK = 0x08,
    ZK_A_CONTROL_CLT_ENABLE = 0x40,     /* 1: a number that reads 0 shows the colour under it; 0: overlay 0 */
    ZK_A_CONTROL_RESERVED = 0xb0        /* always 0 */
};

/* The blink clock: on for 4(n+1) ticks, n the timing's low four bits, then off for 4(m+1), m the high four. The period
 * is the sum of both, 8 to 128 ticks. */
typedef struct zk_a_clock {
    uint8_t timing;
    uint8_t position; /* below the period; in the on time while it is below 4(n+1) */
} zk_a_clock;

typedef struct zk_a_state {
    uint8_t address;
    uint8_t pointer;   /* ZK_RED, ZK_GREEN or ZK_BLUE */
    uint8_t red;       /* latched, 0 to 15 */
    uint8_t green;     /* latched, 0 to 15 */
    uint8_t readmask;
    uint8_t blinkmask;
    uint8_t control;   /* overlay control; bits 7, 5 and 4 are zero */
    zk_a_clock clock;
} zk_a_state;          /* zeroed it is what a reset leaves; a field without a range takes any byte */

typedef struct zk_a_answer {
    uint8_t refusal;   /* 0 for none */
    uint8_t value;     /* what a read answers, else 0 */
    zk_a_state state;
} zk_a_answer;

typedef struct zk_a_clock_answer {
    uint8_t refusal;
    zk_a_clock clock;
} zk_a_clock_answer;

typedef struct zk_a_shown {
    uint8_t refusal;
    uint8_t red, green, blue; /* the entry's bytes as they stand; zeros where refused */
} zk_a_shown;

/* A write to a select, and a read of one. An accepted blue write changes three bytes of its table; no other call of
 * chip A changes a table. Refusals, in this order: ZK_LENT_LENGTH, either table; ZK_OUT_OF_RANGE, the state;
 * ZK_NO_ACCESS, select 2 or a select over 7. */
ZK_ANSWER zk_a_answer zk_a_write(zk_a_state state, uint8_t select, uint8_t byte, uint8_t *colours,
                                 size_t colours_length, uint8_t *overlays, size_t overlays_length);
ZK_ANSWER zk_a_answer zk_a_read(zk_a_state state, uint8_t select, const uint8_t *colours, size_t colours_length,
                                const uint8_t *overlays, size_t overlays_length);

/* The places of a look: one number each, but for the two tables, where byte i stands at the first place plus i. */
enum zk_a_place {
    ZK_A_LOOK_ADDRESS = 0x0,
    ZK_A_LOOK_POINTER = 0x1,
    ZK_A_LOOK_RED = 0x2,        /* latched */
    ZK_A_LOOK_GREEN = 0x3,      /* latched */
    ZK_A_LOOK_READMASK = 0x4,
    ZK_A_LOOK_BLINKMASK = 0x5,
    ZK_A_LOOK_CONTROL = 0x6,    /* overlay control */
    ZK_A_LOOK_TIMING = 0x7,     /* of the blink clock */
    ZK_A_LOOK_POSITION = 0x8,   /* of the blink clock */
    ZK_A_LOOK_OVERLAYS = 0x100, /* the first overlay byte, of ZK_A_OVERLAYS */
    ZK_A_LOOK_COLOURS = 0x1000  /* the first colour byte, of ZK_A_COLOURS */
};

/* A look at a place, which moves nothing: at the address and at data too it leaves the pointer where it stands.
 * Refusals, in this order: ZK_LENT_LENGTH, ZK_OUT_OF_RANGE, ZK_NO_ACCESS (no such place). */
ZK_ANSWER zk_looked zk_a_look(zk_a_state state, uint32_t place, const uint8_t *colours, size_t colours_length,
                              const uint8_t *overlays, size_t overlays_length);

/* A reset, from any state: never refused, the state is zeroed. The tables are not lent, and stay. */
ZK_ANSWER zk_a_answer zk_a_reset(zk_a_state state);

/* A tick of the blink clock: the position steps by 1, modulo the period. By value, or on a clock that is lent, changed
 * in place, and left as it is where the tick is refused; zk_a_tick answers the refusal. ZK_OUT_OF_RANGE, where the
 * clock's position is not below its period, is the only one: the rest of the state is not read. */
ZK_ANSWER zk_a_clock_answer zk_a_step(zk_a_clock clock);
ZK_ANSWER uint8_t zk_a_tick(zk_a_clock *clock);

/* The colour that a pixel shows, of an overlay enable (0 or 1), an overlay number (0 to 3) and a byte; and its refusal
 * alone. Both change nothing. Refusals, in this order: ZK_LENT_LENGTH; ZK_OUT_OF_RANGE, the state, an enable over 1,
 * or an overlay number over 3, with the enable off too.
 *
 * A line whose read mask bit is 1 reads 0, and so does, in the off time, one whose blink mask bit is 0: of the byte by
 * the two mask registers, of the overlay number by bits 0, 1 (read mask) and 2, 3 (blink mask) of the overlay control.
 * Without enable the colour at the byte so masked shows. With enable the overlay at the number so masked does; but
 * where that number is 0 and bit 6 of the overlay control is 1, the colour: a caption that is masked, or blinks off,
 * shows the picture under it. */
ZK_ANSWER zk_a_shown zk_a_pixel(zk_a_state state, uint8_t enable, uint8_t number, uint8_t byte, const uint8_t *colours,
                                size_t colours_length, const uint8_t *overlays, size_t overlays_length);
ZK_ANSWER uint8_t zk_a_pixel_refusal(zk_a_state state, uint8_t enable, uint8_t number, uint8_t byte,
                                     const uint8_t *colours, size_t colours_length, const uint8_t *overlays,
                                     size_t overlays_length);

/* A whole chip: the state and its tables, so that ZK_LENT_LENGTH can't be. Zeroed it is a chip after a reset, with
 * black tables. The calls are those above on its parts, and keep the state; a refused one leaves the chip as it was.
 * Reset is never refused, and answers nothing. */
typedef struct zk_a_chip {
    zk_a_state state;
    uint8_t colours[ZK_A_COLOURS];
    uint8_t overlays[ZK_A_OVERLAYS];
} zk_a_chip;

static inline ZK_ANSWER uint8_t zk_a_chip_write(zk_a_chip *chip, uint8_t select, uint8_t byte) {
    zk_a_answer answer =
        zk_a_write(chip->state, select, byte, chip->colours, ZK_A_COLOURS, chip->overlays, ZK_A_OVERLAYS);
    chip->state = answer.state;
    return answer.refusal;
}

static inline ZK_ANSWER zk_told zk_a_chip_read(zk_a_chip *chip, uint8_t select) {
    zk_a_answer answer = zk_a_read(chip->state, select, chip->colours, ZK_A_COLOURS, chip->overlays, ZK_A_OVERLAYS);
    zk_told told = {answer.refusal, answer.value};
    chip->state = answer.state;
    return told;
}

static inline ZK_ANSWER zk_looked zk_a_chip_look(const zk_a_chip *chip, uint32_t place) {
    return zk_a_look(chip->state, place, chip->colours, ZK_A_COLOURS, chip->overlays, ZK_A_OVERLAYS);
}

static inline void zk_a_chip_reset(zk_a_chip *chip) { chip->state = zk_a_reset(chip->state).state; }

static inline ZK_ANSWER uint8_t zk_a_chip_tick(zk_a_chip *chip) { return zk_a_tick(&chip->state.clock); }

static inline ZK_ANSWER zk_a_shown zk_a_chip_pixel(const zk_a_chip *chip, uint8_t enable, uint8_t number,
                                                   uint8_t byte) {
    return zk_a_pixel(chip->state, enable, number, byte, chip->colours, ZK_A_COLOURS, chip->overlays, ZK_A_OVERLAYS);
}

#ifdef __cplusplus
}
#endif

#endif
