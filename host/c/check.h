/* check.h: what the C tests share: counting, comparing a call of the library with plain C (host/plain), accesses worked
 * out by hand, looks, random states of chip A, and buffers that end at a page that can't be touched.
 *
 * A test is a function of no arguments, run by RUN. Each comparison goes through CHECK, check_same or check_lent; the
 * first that fails is printed with its input, and the test is failed. A test that compared nothing is failed too.
 * FINISH prints the last line, 'N passed, M failed'. */
#ifndef CHECK_H
#define CHECK_H

#include <stdarg.h>
#include <stdio.h>
#include <stdlib.h>
#include <string.h>
#include <sys/mman.h>
#include <unistd.h>

#include "flat.h"
#include "plain.h"
#include "random.h"

#define COUNT(array) (sizeof(array) / sizeof *(array))

static unsigned long check_compared, check_differs;
static unsigned check_passed, check_failed;

static inline void check_differ(const char *file, int line, const char *format, ...) {
    va_list rest;
    if (check_differs++ != 0) return;
    printf("  differs at %s:%d: ", file, line);
    va_start(rest, format);
    vprintf(format, rest);
    va_end(rest);
    printf("\n");
}

/* CHECK(what must hold, a printf format and its arguments that show the input) */
#define CHECK(holds, ...)                                                \
    do {                                                                 \
        check_compared++;                                                \
        if (!(holds)) check_differ(__FILE__, __LINE__, __VA_ARGS__);     \
    } while (0)

static inline void check_run(const char *name, void (*test)(void)) {
    check_compared = check_differs = 0;
    test();
    if (check_differs == 0 && check_compared != 0) {
        printf("ok     %s (%lu comparisons)\n", name, check_compared);
        check_passed++;
    } else {
        printf("FAILED %s (%lu of %lu comparisons differ)\n", name, check_differs, check_compared);
        check_failed++;
    }
    fflush(stdout);
}
#define RUN(test) check_run(#test, test)

static inline int check_finish(void) {
    printf("%u passed, %u failed\n", check_passed, check_failed);
    return check_failed != 0 || check_passed == 0;
}
#define FINISH() return check_finish()

/* The seed of the random inputs is fixed unless ZK_SEED is set. */
static inline void check_start(void) {
    const char *seed = getenv("ZK_SEED");
    random_seed = seed ? strtoull(seed, NULL, 0) : 0x5a696b6f6d626172u;
    printf("seed %llu\n", (unsigned long long)random_seed);
}

/* ---- a call of the library beside the same call of plain C */

/* A call under test. It is told by a printf format for up to five numbers, %lx or %lu: the lengths lent, then its
 * arguments. */
struct call {
    const char *told;
    const char *const *names; /* of the state's numbers, in the order of a look's places, NULL behind the last */
    const char *refusals;     /* those that the call can give, as digits, with 0 for an accepted one */
    unsigned long met[10];    /* how often it gave each */
};
#define CALL_NAME(call) (int)strcspn((call)->told, ", "), (call)->told /* for %.*s: its first word */

static struct flat last; /* the library's answer to the call that was compared last */

static inline void check_tell(const char *const *names, const uint16_t *got, const uint16_t *want, size_t n) {
    for (size_t i = 0; i < n && names[i] != NULL; i++)
        if (got[i] != want[i]) printf(" %s %x for %x", names[i], got[i], want[i]);
}

/* the library's answer, and plain C's, to a call on a state; `state` is an answer's row whose told numbers are 0 */
static inline void check_same(struct call *call, const unsigned long numbers[5], struct flat state, struct flat got,
                              struct flat want) {
    static const char *const told[6] = {"refusal", "value", "count", "red", "green", "blue"};
    last = got;
    check_compared++;
    call->met[want.told[0] % 10]++;
    if (memcmp(&got, &want, sizeof got) == 0 || check_differs++ != 0) return;
    printf("  differs from plain C: ");
    printf(call->told, numbers[0], numbers[1], numbers[2], numbers[3], numbers[4]);
    printf(", on");
    for (size_t i = 0; i < COUNT(state.state) && call->names[i] != NULL; i++)
        printf(" %s %x", call->names[i], state.state[i]);
    printf(":");
    check_tell(told, got.told, want.told, COUNT(told));
    check_tell(call->names, got.state, want.state, COUNT(got.state));
    printf("\n");
}

/* a lent table after a call, as the library and as plain C left it */
static inline void check_lent(const struct call *call, const char *table, const void *got, const void *want, size_t n) {
    const uint8_t *g = got, *w = want;
    size_t i = 0;
    check_compared++;
    if (memcmp(got, want, n) == 0 || check_differs++ != 0) return;
    while (g[i] == w[i]) i++;
    printf("  differs from plain C: %.*s leaves byte %zu of the %s %02x for %02x\n", CALL_NAME(call), i, table, g[i],
           w[i]);
}

/* each refusal that a call can give was met so often, and no other */
static inline void check_met(const struct call *call, unsigned long least) {
    for (int n = 0; n < 10; n++)
        CHECK(strchr(call->refusals, '0' + n) ? call->met[n] >= least : call->met[n] == 0,
              "%.*s met refusal %d %lu times", CALL_NAME(call), n, call->met[n]);
}

/* ---- by hand, apart from any model */

/* An access, 'w', 'r' or another letter that the chip's test knows, of a select or port; what it must answer: refusal,
 * value, count; and the first four numbers of the state that it must leave. */
struct step {
    char access;
    uint8_t select, byte;
    uint16_t told[3], state[4];
};

/* the steps in a row; `make` makes one on the state that the one before left */
static inline void check_steps(const struct step *steps, size_t n, struct flat (*make)(const struct step *)) {
    for (size_t i = 0; i < n; i++) {
        struct flat got = make(&steps[i]);
        CHECK(memcmp(got.told, steps[i].told, sizeof steps[i].told) == 0, "step %zu, %c%x=%02x: answers %x %x %x", i,
              steps[i].access, steps[i].select, steps[i].byte, got.told[0], got.told[1], got.told[2]);
        CHECK(memcmp(got.state, steps[i].state, sizeof steps[i].state) == 0, "step %zu, %c%x=%02x: leaves %x %x %x %x",
              i, steps[i].access, steps[i].select, steps[i].byte, got.state[0], got.state[1], got.state[2],
              got.state[3]);
    }
}

/* the refusal of the call that was compared last, of a select, port or place, on a state spoilt in one way */
static inline void check_refusal(const struct call *call, unsigned long at, int spoilt, int want) {
    CHECK(last.told[0] == want, "%.*s %lx, spoilt %d: refusal %u, not %d", CALL_NAME(call), at, spoilt, last.told[0],
          want);
}

/* ---- looks */

/* what a look answers as one number: the value, and above its 16 bits the refusal */
#define REFUSED(n) ((uint32_t)(n) << 16)
static inline uint32_t as_number(zk_looked l) { return REFUSED(l.refusal) | l.value; }

/* Places that are there, and that are not: those named, and those that are there but for a bit from `bit` up, none of
 * which is dropped. `look` is a look at a good chip. */
static inline void check_places(uint32_t (*look)(uint32_t), const uint32_t *there, size_t n, const uint32_t *not_there,
                                size_t m, int bit) {
    for (size_t i = 0; i < n; i++) {
        CHECK(look(there[i]) < REFUSED(1), "place %lx is there", (unsigned long)there[i]);
        for (int b = bit; b < 32; b++) {
            uint32_t place = there[i] | (uint32_t)1 << b;
            CHECK(look(place) == REFUSED(3), "place %lx is not there", (unsigned long)place);
        }
    }
    for (size_t i = 0; i < m; i++)
        CHECK(look(not_there[i]) == REFUSED(3), "place %lx is not there", (unsigned long)not_there[i]);
}

/* a place of a block, near its start or its end, or any number of 32 bits */
static inline uint32_t some_place(uint32_t first, uint32_t length) {
    uint32_t kind = below(8);
    if (kind == 0) return (uint32_t)random_bits();
    if (kind == 1) return first + below(3) - 1;
    if (kind == 2) return first + length + below(3) - 1;
    return first + below(length);
}

/* ---- inputs */

/* a state of chip A in its ranges */
static inline zk_a_state good_a(void) {
    zk_a_state s;
    s.address = (uint8_t)random_bits(), s.pointer = (uint8_t)below(3);
    s.red = (uint8_t)below(16), s.green = (uint8_t)below(16);
    s.readmask = (uint8_t)random_bits(), s.blinkmask = (uint8_t)random_bits();
    s.control = (uint8_t)(random_bits() & 0x4f), s.clock.timing = (uint8_t)random_bits();
    s.clock.position = (uint8_t)below(period(s.clock.timing));
    return s;
}

/* A buffer of n bytes whose end is a page that can't be touched; never freed. n = 0 gives the end itself. */
static inline void *check_guarded(size_t n) {
    size_t page = (size_t)sysconf(_SC_PAGESIZE), room = (n + page - 1) / page * page;
    char *all = mmap(NULL, room + page, PROT_READ | PROT_WRITE, MAP_PRIVATE | MAP_ANONYMOUS, -1, 0);
    if (all == MAP_FAILED || mprotect(all + room, page, PROT_NONE) != 0) {
        perror("check_guarded");
        exit(1);
    }
    return all + room - n;
}

#endif
