/* zikombaru_look.h: what a look at a chip answers. The conventions of zikombaru.h hold.
 *
 * A look, zk_a_look, zk_b_look or zk_c_look, answers the number at a place of its chip: a register, a pointer, a
 * latch, how many wait and from which position on, or a byte or number of a lent table as it stands. It moves nothing:
 * it hands no state back and writes to no table, so that a run of calls with looks put in anywhere answers and leaves
 * what it does without them. The chips themselves had no such access. Each chip's header names its places, and has no
 * others.
 *
 * Refusals, tried in this order: ZK_LENT_LENGTH and ZK_OUT_OF_RANGE, as the chip's read has them; then ZK_NO_ACCESS, a
 * place that is not there. */
#ifndef ZIKOMBARU_LOOK_H
#define ZIKOMBARU_LOOK_H

#include "zikombaru_common.h"

typedef struct zk_looked {
    uint8_t refusal; /* 0 for none */
    uint16_t value;  /* the number at the place; 0 where refused */
} zk_looked;

#endif
