/* zikombaru_sheet.h: sheets of chip A as text, and the calls that load one. The conventions of zikombaru.h hold.
 *
 * A sheet is lines key=value, LF after each, the last one too, lower-case hex, in a fixed order: chip=153108,
 * readmask=, blinkmask=, overlay=, timing= (two digits; overlay, the overlay control, has bits 7, 5 and 4 zero), then
 * any of o0= to o3= (overlays), then any of c00= to cff= (colours), ascending and once each, three digits red, green,
 * blue. An entry that is missing is left as it is by a load. No blank, no comment, no CR.
 *
 * The caller owns sheet, tables and buffers; all are lent for the call. A refused call writes no byte; an accepted one
 * writes from the buffer's start, and the bytes past what it writes keep their values. A sheet has no zero byte behind
 * it, neither in nor out: its length says where it ends. */
#ifndef ZIKOMBARU_SHEET_H
#define ZIKOMBARU_SHEET_H

#include "zikombaru_hd153108.h"

#ifdef __cplusplus
extern "C" {
#endif

/* The longest sheet, which is what the writer writes, and the longest list of calls; and their bytes, the buffer sizes
 * that always suffice. */
#define ZK_SHEET_LINES 265
#define ZK_SHEET_BYTES 2134
#define ZK_CALLS 786
#define ZK_CALLS_BYTES (2 * ZK_CALLS)

/* A sheet's calls, of any number of bytes of text: pairs (select, byte), two bytes of the buffer each, to be written
 * to chip A one after another. zk_count is the number of calls. Refusals, in this order: ZK_MALFORMED, and zk_line is
 * the number, from 1, of the first bad or missing line; ZK_SHORT_BUFFER. */
ZK_ANSWER uint64_t zk_sheet_to_calls(const uint8_t *sheet, size_t sheet_length, uint8_t *calls, size_t calls_length);

/* The sheet of a state and its tables, with all its lines. zk_count is the number of bytes, ZK_SHEET_BYTES. Refusals,
 * in this order: ZK_LENT_LENGTH, ZK_OUT_OF_RANGE, ZK_OVER_FIFTEEN (a byte of either table), ZK_SHORT_BUFFER. */
ZK_ANSWER uint64_t zk_sheet_write(zk_a_state state, const uint8_t *colours, size_t colours_length,
                                  const uint8_t *overlays, size_t overlays_length, uint8_t *sheet,
                                  size_t sheet_length);

/* A sheet loaded into a chip by its calls; zk_count is how many. A refused load leaves the chip as it was: in this
 * order ZK_OUT_OF_RANGE, the chip's state; ZK_MALFORMED, with zk_line. (The look asks for the first; a chip that is in
 * range accepts every call of a list.) */
static inline ZK_ANSWER uint64_t zk_a_chip_load_sheet(zk_a_chip *chip, const uint8_t *sheet, size_t sheet_length) {
    uint8_t calls[ZK_CALLS_BYTES];
    zk_looked look = zk_a_chip_look(chip, ZK_A_LOOK_ADDRESS);
    if (look.refusal != ZK_ACCEPTED) return look.refusal;
    uint64_t answer = zk_sheet_to_calls(sheet, sheet_length, calls, sizeof calls);
    for (unsigned i = 0; i < zk_count(answer); i++)
        chip->state = zk_a_write(chip->state, calls[2 * i], calls[2 * i + 1], chip->colours, ZK_A_COLOURS,
                                 chip->overlays, ZK_A_OVERLAYS)
                          .state;
    return answer;
}

/* The sheet of a chip, as zk_sheet_write. */
static inline ZK_ANSWER uint64_t zk_a_chip_write_sheet(const zk_a_chip *chip, uint8_t *sheet, size_t sheet_length) {
    return zk_sheet_write(chip->state, chip->colours, ZK_A_COLOURS, chip->overlays, ZK_A_OVERLAYS, sheet,
                          sheet_length);
}

#ifdef __cplusplus
}
#endif

#endif
