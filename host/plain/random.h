/* random.h: random numbers by splitmix64, for the inputs of the C tests and of the bench: the same each time from the
 * same seed. */
#ifndef RANDOM_H
#define RANDOM_H

#include <stdint.h>

static uint64_t random_seed;

static inline uint64_t random_bits(void) {
    uint64_t z = (random_seed += 0x9e3779b97f4a7c15u);
    z = (z ^ (z >> 30)) * 0xbf58476d1ce4e5b9u;
    z = (z ^ (z >> 27)) * 0x94d049bb133111ebu;
    return z ^ (z >> 31);
}

/* below n */
static inline uint32_t below(uint32_t n) { return (uint32_t)(random_bits() % n); }

#endif
