/* flat.h: answers as rows of numbers, for the C tests and the bench, which compare them whole: the bytes between the
 * parts of a struct, which mean nothing, are left out. Numbers that an answer does not have are 0. */
#ifndef FLAT_H
#define FLAT_H

#include "zikombaru.h"

struct flat {
    uint16_t told[6];   /* refusal, value, count, red, green, blue */
    uint16_t state[10]; /* in the order of a look's places */
};

static inline struct flat flat_a(zk_a_answer a) {
    zk_a_state s = a.state;
    struct flat flat = {{a.refusal, a.value},
                        {s.address, s.pointer, s.red, s.green, s.readmask, s.blinkmask, s.control, s.clock.timing,
                         s.clock.position}};
    return flat;
}

static inline struct flat flat_b(zk_b_answer a) {
    zk_b_state s = a.state;
    struct flat flat = {{a.refusal, a.value, a.count},
                        {s.port.address, s.port.counter, s.port.red, s.port.green, s.control.command,
                         s.control.readmode, s.ident.revision, s.ident.board, s.fifo.waiting, s.fifo.first}};
    return flat;
}

/* What a call promises of chip B's queue: the waiting entries, the oldest first, and 0 behind them. A state out of its
 * ranges has none. */
struct waits {
    uint64_t entry[ZK_B_PLACES];
};
static inline struct waits flat_waits(zk_b_fifo fifo, const uint64_t *queue) {
    struct waits waits = {{0}};
    for (unsigned i = 0; i < fifo.waiting && fifo.waiting <= ZK_B_PLACES; i++)
        waits.entry[i] = queue[(fifo.first + i) % ZK_B_PLACES];
    return waits;
}

static inline struct flat flat_c(zk_c_answer a) {
    zk_c_state s = a.state;
    struct flat flat = {{a.refusal, a.value},
                        {s.index, s.place, s.red, s.green, s.fetched.red, s.fetched.green, s.fetched.blue, s.update}};
    return flat;
}

static inline struct flat flat_look(zk_looked l) {
    struct flat flat = {{l.refusal, l.value}, {0}};
    return flat;
}

static inline struct flat flat_clock(zk_a_clock_answer a) {
    struct flat flat = {{a.refusal}, {[ZK_A_LOOK_TIMING] = a.clock.timing, [ZK_A_LOOK_POSITION] = a.clock.position}};
    return flat;
}

static inline struct flat flat_shown(unsigned refusal, unsigned red, unsigned green, unsigned blue) {
    struct flat flat = {{(uint16_t)refusal, 0, 0, (uint16_t)red, (uint16_t)green, (uint16_t)blue}, {0}};
    return flat;
}
static inline struct flat flat_shown_a(zk_a_shown p) { return flat_shown(p.refusal, p.red, p.green, p.blue); }
static inline struct flat flat_shown_b(zk_b_shown p) { return flat_shown(p.refusal, p.red, p.green, p.blue); }

#endif
