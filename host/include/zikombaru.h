/* zikombaru.h: the proved stand-in for the HD153108, the MS622424 and the palette port of the RGB640, from C99 or
 * C++11 on. It brings all parts: a header for each chip, for looks, for chip A's sheets, and for what they share.
 *
 * The library, libzikombaru.a, is for x86-64 Linux. It allocates nothing and makes no system call; of the C library it
 * needs memcpy and memset alone.
 *
 * Conventions, for every call of this library:
 *
 *  - Memory. The caller owns every buffer. A call is lent it as a pointer and a length for the time of the call, and
 *    keeps no pointer. LENGTHS ARE IN ELEMENTS, not in bytes: 64 for chip B's queue of 64-bit numbers, 3,072 for
 *    chip C's table of 16-bit numbers. Buffers of one call do not overlap. The pointer of an empty buffer may be
 *    anything but null. The library has no state of its own, so calls on different buffers may run at the same time.
 *  - Any input is allowed. Each call takes every value that its types hold and every length, never fails in another
 *    way than by a refusal, and always comes back. The lengths must be true: that much memory must be there. Selects,
 *    ports, bytes, an enable and an overlay number are 8 bits, as the chips' lines are: C cuts a larger number before
 *    the call sees it, so that 256 comes in as 0 (-Wconversion warns).
 *  - Order of arguments, in every call: the state; then select, port or place, and byte; then the lent tables, each as
 *    pointer and length. Select and byte are both numbers of 8 bits, so that no compiler sees the two exchanged: write
 *    the select by its name.
 *  - Refusals are the numbers of zk_refusal_number, 0 for none; zk_refusal_text has them in words. A refused call
 *    changes no lent byte, hands a state back as it was given, and answers 0 for every value and count; a malformed
 *    sheet's refusal also tells the line. Where two are due, the one that is tried first is given.
 *  - States are plain structs that the caller owns, with each field's range beside it. They go in by value, and a call
 *    that is handed one outside its ranges is ZK_OUT_OF_RANGE. Five differ: zk_a_reset and zk_c_reset take any state,
 *    zk_b_reset reads its ident alone, zk_a_step and zk_a_tick have the clock alone, and the clock of zk_a_tick is
 *    lent and changed in place.
 *  - Keep the state of every answer. It comes back from each call that may change it. Lent tables are changed in
 *    place, so that a state from before the call no longer fits them: chip B then loses waiting entries, or takes what
 *    an unused place still holds for one (examples/lent.c).
 *  - Chips. Who does not want to keep state and tables apart takes a zk_a_chip, zk_b_chip or zk_c_chip, which holds
 *    both, and the calls named after it (zk_a_chip_write and so on): the same calls, that keep the state in the chip.
 *  - Answers. The expander and the calls on sheets answer one number of 64 bits: zk_refusal, zk_value, zk_count,
 *    zk_line read it. The chips' calls answer a struct with the refusal first, or the refusal alone; a look, which
 *    changes nothing, answers a zk_looked on each chip. gcc and clang warn where an answer is dropped (ZK_ANSWER).
 *  - Names. zk_a_ is chip A (zikombaru_hd153108.h), zk_b_ chip B (zikombaru_ms622424.h), zk_c_ chip C
 *    (zikombaru_rgb640.h), zk_sheet_ chip A's sheets (zikombaru_sheet.h).
 *
 * Not modelled: analogue output, clocks, pipeline delay, bus timing. */
#ifndef ZIKOMBARU_H
#define ZIKOMBARU_H

#include "zikombaru_common.h"
#include "zikombaru_hd153108.h"
#include "zikombaru_ms622424.h"
#include "zikombaru_rgb640.h"
#include "zikombaru_sheet.h"

#ifdef __cplusplus
extern "C" {
#endif

/* The version of this header. While the major number is 0, the minor one steps when a caller must change something. */
#define ZK_VERSION_MAJOR 0
#define ZK_VERSION_MINOR 3
#define ZK_VERSION_PATCH 0
#define ZK_VERSION_TEXT "0.3.0"
#define ZK_VERSION (ZK_VERSION_MAJOR * 65536 + ZK_VERSION_MINOR * 256 + ZK_VERSION_PATCH)

/* The version of the library that is linked: the same packed number, and the same text, with zeros behind it. */
typedef struct zk_text {
    char text[8];
} zk_text;

ZK_ANSWER uint32_t zk_version(void);
ZK_ANSWER zk_text zk_version_text(void);

/* A component v of `width` bits, 4 to 8, as ten: its bits from the top, and from the top again until ten are filled
 * (RGB640, Tables 23 to 25). Divisions round down. zk_value reads the ten bits. A width outside 4 to 8, or a value that
 * the width does not hold (2 to the width, or more), is ZK_OUT_OF_RANGE.
 *
 *  width 4   64v + 4v + v/4      width 6   16v + v/4      width 8   4v + v/64
 *  width 5   33v                 width 7   8v + v/16
 *
 * Version 0.1.0 had zk_expand8(v) and zk_expand6(v): they are zk_expand(8, v) and zk_expand(6, v) now. */
ZK_ANSWER uint64_t zk_expand(uint32_t width, uint32_t value);

#ifdef __cplusplus
}
#endif

#endif
