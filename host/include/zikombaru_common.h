/* zikombaru_common.h: what the parts of zikombaru.h share: the warning for a dropped answer, the components of a
 * colour, the nine refusals as numbers and in words, small answers, and how an answer of 64 bits is read. The
 * conventions of zikombaru.h hold. */
#ifndef ZIKOMBARU_COMMON_H
#define ZIKOMBARU_COMMON_H

#include <stddef.h>
#include <stdint.h>

/* Stands before each call whose answer matters, since it has the refusal and often the state after the call: gcc and
 * clang warn where a program drops it (gcc also behind a cast to void). */
#if defined(__GNUC__)
#define ZK_ANSWER __attribute__((warn_unused_result))
#else
#define ZK_ANSWER
#endif

/* The components of a colour, in the order in which every chip takes, answers and keeps them: the values of chip A's
 * pointer, chip B's counter and chip C's place in the order. Entry e of a table has component k at 3 * e + k. */
enum zk_component { ZK_RED = 0, ZK_GREEN = 1, ZK_BLUE = 2 };
#define ZK_COMPONENTS 3

/* The nine refusals, tried in the order 1, 9, 3, 4, 5, 6, 2, 8, 7. Each call's comment says which it gives, and
 * when. */
enum zk_refusal_number {
    ZK_ACCEPTED = 0,
    ZK_LENT_LENGTH = 1,   /* a lent table hasn't its length, shorter or longer */
    ZK_OVER_FIFTEEN = 2,  /* the sheet writer meets a table byte over 15 */
    ZK_NO_ACCESS = 3,     /* no such select or port, an access that it does not have, or no such place of a look */
    ZK_NO_INDEX = 4,      /* RGB640: data access at an index that names nothing, or against its direction */
    ZK_READ_MODE = 5,     /* MS622424: write to 2 in read mode, read of 2 outside it */
    ZK_STILL_WAITING = 6, /* MS622424: read of 2 with entries waiting */
    ZK_SHORT_BUFFER = 7,  /* output buffer shorter than what is to be written */
    ZK_MALFORMED = 8,     /* sheet malformed; the line is told */
    ZK_OUT_OF_RANGE = 9   /* a state or argument outside its range */
};

/* What is wrong, in words, for a message. */
static inline const char *zk_refusal_text(unsigned refusal) {
    switch (refusal) {
    case ZK_ACCEPTED: return "accepted";
    case ZK_LENT_LENGTH: return "a lent table is shorter or longer than the chip's";
    case ZK_OVER_FIFTEEN: return "a table byte is over 15, which a sheet can't hold";
    case ZK_NO_ACCESS: return "no such select, port or place, or not for this access";
    case ZK_NO_INDEX: return "the index names nothing that this access can reach";
    case ZK_READ_MODE: return "the palette is written in read mode, or read outside it";
    case ZK_STILL_WAITING: return "the palette is read while entries wait";
    case ZK_SHORT_BUFFER: return "the output buffer is too short";
    case ZK_MALFORMED: return "the sheet has a bad or missing line";
    case ZK_OUT_OF_RANGE: return "a state or argument is out of range";
    default: return "no such refusal";
    }
}

/* Small answers, of the calls on a zk_a_chip, zk_b_chip or zk_c_chip: the refusal (0 for none), with the byte that a
 * read answers, or with how many entries were moved; 0 where refused. */
typedef struct zk_told {
    uint8_t refusal;
    uint8_t value;
} zk_told;

typedef struct zk_moved {
    uint8_t refusal;
    uint16_t count;
} zk_moved;

/* How a 64-bit answer is read: bits 0 to 7 the refusal, 8 to 15 spare, 16 to 31 the value, 32 to 47 the count, 48 to
 * 63 the line. */
static inline unsigned zk_refusal(uint64_t answer) { return (unsigned)(answer & 0xff); }
static inline unsigned zk_value(uint64_t answer) { return (unsigned)(answer >> 16 & 0xffff); }
static inline unsigned zk_count(uint64_t answer) { return (unsigned)(answer >> 32 & 0xffff); }
static inline unsigned zk_line(uint64_t answer) { return (unsigned)(answer >> 48); }

#endif
