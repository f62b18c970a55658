/* works.h: the works that are measured, each of them for the proved library (zk), plain C (plain) and plain C that
 * tests nothing (bare). */
#ifndef WORKS_H
#define WORKS_H

#include "flat.h"
#include "plain.h"

/* What the calls are lent; the sheets, and the entries that may wait, made beforehand. */
struct lent {
    uint8_t colours[ZK_A_COLOURS], overlays[ZK_A_OVERLAYS], map[ZK_B_MAP];
    uint64_t queue[ZK_B_PLACES], entries[ZK_B_PLACES];
    uint16_t table[ZK_C_TABLE];
    uint8_t whole[ZK_SHEET_BYTES + 1], damaged[ZK_SHEET_BYTES + 1]; /* sprintf puts a 0 behind */
    uint8_t calls[ZK_CALLS_BYTES], sheet[ZK_SHEET_BYTES];
};

/* What a work has done: how many calls, and a number from their answers: from all that they tell, where all is asked
 * for, else from the refusals alone, so that little but the calls is timed. */
struct seen {
    unsigned long calls;
    uint64_t number;
    int all;
};

/* n bytes more of a number that stands for all that was seen */
static inline uint64_t checksum(uint64_t number, const void *seen, size_t n) {
    const uint8_t *bytes = seen;
    for (size_t i = 0; i < n; i++) number = (number ^ bytes[i]) * 0x100000001b3u;
    return number;
}

/* a call of the prefix that a source is compiled with */
#define JOIN_(a, b) a##_##b
#define JOIN(a, b) JOIN_(a, b)
#define CALL(name) JOIN(PREFIX, name)

struct work {
    const char *name;
    void (*run)(struct lent *, struct seen *);
    int bare;              /* whether it has a variant that tests nothing */
    const char *validates; /* what each call tests */
};

enum { WORKS = 52 };
extern const struct work zk_works[WORKS], plain_works[WORKS], bare_works[WORKS];

/* One accepted call, counted by itself: on chip a, b or c a read of a select or port, or a look at a place. It is run
 * through a pointer, since callgrind takes a function whose name starts in zk_ for a call of the library. */
struct single {
    char chip;
    int look;
    uint32_t at;
};
typedef void run_single(struct lent *, struct seen *, struct single);
extern run_single *const zk_single, *const plain_single, *const bare_single;

/* calls on any input, good and bad: compared, not measured */
void zk_any(struct lent *, struct seen *);
void plain_any(struct lent *, struct seen *);

#endif
