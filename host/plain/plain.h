/* plain.h: the library's calls in plain C, written from document 01 and document 02's requests, not from the Rattle
 * code. The C tests (host/c) compare the library with these, call by call; host/bench measures it against them.
 *
 * Types, names and order of arguments are those of zikombaru.h. The sources are compiled with CHECKED 1 or 0. With 1
 * the calls are plain_..: the same contract, any input, the refusals in their order. With 0, for the bench alone, they
 * are bare_..: lengths and ranges (refusals 1 and 9, the writer's 2 and 7) are not tested, so that the difference is
 * what validation costs in C. */
#ifndef PLAIN_H
#define PLAIN_H

#include "zikombaru.h"

#define PLAIN_CALLS(p)                                                                                                 \
    uint64_t p##_expand(uint32_t width, uint32_t value);                                                               \
    zk_a_answer p##_a_write(zk_a_state s, uint8_t select, uint8_t byte, uint8_t *colours, size_t colours_length,       \
                            uint8_t *overlays, size_t overlays_length);                                                \
    zk_a_answer p##_a_read(zk_a_state s, uint8_t select, const uint8_t *colours, size_t colours_length,                \
                           const uint8_t *overlays, size_t overlays_length);                                           \
    zk_looked p##_a_look(zk_a_state s, uint32_t place, const uint8_t *colours, size_t colours_length,                  \
                         const uint8_t *overlays, size_t overlays_length);                                             \
    zk_a_answer p##_a_reset(zk_a_state s);                                                                             \
    zk_a_clock_answer p##_a_step(zk_a_clock k);                                                                        \
    uint8_t p##_a_tick(zk_a_clock *k);                                                                                 \
    zk_a_shown p##_a_pixel(zk_a_state s, uint8_t enable, uint8_t number, uint8_t byte, const uint8_t *colours,         \
                           size_t colours_length, const uint8_t *overlays, size_t overlays_length);                    \
    uint8_t p##_a_pixel_refusal(zk_a_state s, uint8_t enable, uint8_t number, uint8_t byte, const uint8_t *colours,    \
                                size_t colours_length, const uint8_t *overlays, size_t overlays_length);               \
    zk_b_answer p##_b_write(zk_b_state s, uint8_t select, uint8_t byte, uint64_t *queue, size_t places, uint8_t *map,  \
                            size_t bytes);                                                                             \
    zk_b_answer p##_b_read(zk_b_state s, uint8_t select, const uint64_t *queue, size_t places, const uint8_t *map,     \
                           size_t bytes);                                                                              \
    zk_looked p##_b_look(zk_b_state s, uint32_t place, const uint64_t *queue, size_t places, const uint8_t *map,       \
                         size_t bytes);                                                                                \
    zk_b_answer p##_b_blank(zk_b_state s, uint32_t slots, const uint64_t *queue, size_t places, uint8_t *map,          \
                            size_t bytes);                                                                             \
    zk_b_shown p##_b_pixel(zk_b_state s, uint8_t mode, uint32_t word, const uint64_t *queue, size_t places,            \
                           const uint8_t *map, size_t bytes);                                                          \
    zk_b_answer p##_b_sync(zk_b_state s, uint8_t signals, const uint64_t *queue, size_t places);                       \
    zk_b_answer p##_b_reset(zk_b_state s, const uint64_t *queue, size_t places);                                       \
    zk_c_answer p##_c_write(zk_c_state s, uint8_t port, uint8_t byte, uint16_t *table, size_t length);                 \
    zk_c_answer p##_c_read(zk_c_state s, uint8_t port, const uint16_t *table, size_t length);                          \
    zk_looked p##_c_look(zk_c_state s, uint32_t place, const uint16_t *table, size_t length);                          \
    zk_c_answer p##_c_reset(zk_c_state s);                                                                             \
    uint64_t p##_sheet_to_calls(const uint8_t *sheet, size_t sheet_length, uint8_t *calls, size_t calls_length);       \
    uint64_t p##_sheet_write(zk_a_state s, const uint8_t *colours, size_t colours_length, const uint8_t *overlays,     \
                             size_t overlays_length, uint8_t *sheet, size_t sheet_length);

PLAIN_CALLS(plain)
PLAIN_CALLS(bare)

/* ---- what two of the sources share */

static inline zk_looked looked(unsigned refusal, unsigned value) {
    zk_looked l = {(uint8_t)refusal, (uint16_t)value};
    return l;
}

/* chip A's blink clock, in ticks */
static inline unsigned on_time(unsigned timing) { return 4 * ((timing & 15) + 1); }
static inline unsigned period(unsigned timing) { return on_time(timing) + 4 * ((timing >> 4) + 1); }

#ifdef CHECKED
#if CHECKED
#define NAME(call) plain_##call
#else
#define NAME(call) bare_##call
#endif

/* refusals 1 and 9 of chip A's calls, the sheet writer's too */
static inline unsigned standing_a(zk_a_state s, size_t colours, size_t overlays) {
    if (!CHECKED) return 0;
    if (colours != ZK_A_COLOURS || overlays != ZK_A_OVERLAYS) return ZK_LENT_LENGTH;
    if (s.pointer > 2 || s.red > 15 || s.green > 15 || (s.control & ZK_A_CONTROL_RESERVED) != 0) return ZK_OUT_OF_RANGE;
    return s.clock.position < period(s.clock.timing) ? 0 : ZK_OUT_OF_RANGE;
}
#endif

#endif
