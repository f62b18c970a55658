/* bench check | times | counts | log LINES | looks LINES | program COMMAND..: the measuring program of host/bench.
 *
 * check: every work once for the library, plain C and plain C that tests nothing, and calls on any input for the first
 *   two; all bytes of all answers and tables, of chip B's queue the waiting entries, are compared by a checksum. Exits
 *   1 where one differs.
 * times: a line 'time TAB work TAB who TAB ns a call' each, the best of several runs.
 * counts: every work once, a line 'count TAB work TAB who TAB number TAB what it tests' each, then mark(); callgrind
 *   dumps there. Then every single call, a line 'single TAB chip TAB who TAB read or look TAB select or place' each.
 * log LINES: a port log of mixed lines, without looks. looks LINES: the same, every other line a look.
 * program COMMAND..: the best time of several runs of it, standard input given anew each time, a line 'ns TAB N'. */
#include "random.h"
#include "works.h"

#include <fcntl.h>
#include <inttypes.h>
#include <stdio.h>
#include <stdlib.h>
#include <string.h>
#include <sys/wait.h>
#include <time.h>
#include <unistd.h>

static const struct {
    const char *who;
    const struct work *works;
    run_single *const *single;
} sides[3] = {{"zk", zk_works, &zk_single}, {"plain", plain_works, &plain_single}, {"bare", bare_works, &bare_single}};

/* The single calls: each select or port whose read is accepted, each number of a state, and both ends of the tables, so
 * that the dearest look can be set beside the cheapest read. */
static const struct {
    char chip;
    const char *selects;
    uint32_t numbers, more[6]; /* places 0 to numbers - 1, and these, 0 behind the last */
} chips[3] = {{'a', "0134567", 9, {0x100, 0x10b, 0x1000, 0x12ff}},
              {'b', "01234567", 9, {0xc, 0x10000, 0x12fff, 0x13000, 0x15fff}},
              {'c', "456", 8, {0x10000, 0x105ff, 0x10600, 0x10bff}}};

static void singles(void (*each)(struct single)) {
    for (unsigned k = 0; k < 3; k++) {
        struct single call = {chips[k].chip, 0, 0};
        for (const char *s = chips[k].selects; *s != 0; s++) call.at = (uint32_t)(*s - '0'), each(call);
        call.look = 1;
        for (call.at = 0; call.at < chips[k].numbers; call.at++) each(call);
        for (const uint32_t *p = chips[k].more; *p != 0; p++) call.at = *p, each(call);
    }
}

static struct lent lent;

/* a sheet with all its lines, and the same with a bad digit in its last */
static void fill_sheets(void) {
    char *to = (char *)lent.whole;
    to += sprintf(to, "chip=153108\nreadmask=00\nblinkmask=ff\noverlay=40\ntiming=31\n");
    for (unsigned i = 0; i < 4; i++) to += sprintf(to, "o%u=%03x\n", i, 0x111 * i);
    for (unsigned i = 0; i < 256; i++) to += sprintf(to, "c%02x=%03x\n", i, 15 * i);
    memcpy(lent.damaged, lent.whole, sizeof lent.whole);
    lent.damaged[ZK_SHEET_BYTES - 2] = 'G';
}

static void fill(void) {
    memset(&lent, 0, sizeof lent);
    for (unsigned i = 0; i < sizeof lent.colours; i++) lent.colours[i] = (uint8_t)(7 * i & 15);
    for (unsigned i = 0; i < sizeof lent.overlays; i++) lent.overlays[i] = (uint8_t)(5 * i & 15);
    for (unsigned i = 0; i < sizeof lent.map; i++) lent.map[i] = (uint8_t)(i * 2654435761u >> 13);
    for (unsigned i = 0; i < ZK_C_TABLE; i++) lent.table[i] = (uint16_t)(i * 40503u);
    for (unsigned i = 0; i < ZK_B_PLACES; i++) lent.entries[i] = zk_b_entry((uint16_t)(97 * i), (uint8_t)i, 1, 2);
    fill_sheets();
}

/* the number of all that a run answers and leaves in what it was lent; the waiting entries of chip B's queue, of which
 * no more is promised, are among what was seen */
static uint64_t all_of(void (*run)(struct lent *, struct seen *)) {
    struct seen seen = {0, 0, 1};
    fill();
    run(&lent, &seen);
    memset(lent.queue, 0, sizeof lent.queue);
    return checksum(seen.number, &lent, sizeof lent);
}

/* a single call's answer, of the library and of plain C */
static int differs;
static void check_single(struct single call) {
    struct seen seen[2] = {{0, 0, 1}, {0, 0, 1}};
    for (unsigned k = 0; k < 2; k++) fill(), (*sides[k].single)(&lent, &seen[k], call);
    if (seen[0].number == seen[1].number) return;
    fprintf(stderr, "bench: chip %c, %s %x: the library and plain answer differently\n", call.chip,
            call.look ? "look" : "read", (unsigned)call.at);
    differs = 1;
}

static int check(void) {
    for (unsigned w = 0; w < WORKS; w++)
        for (unsigned k = 1; k < 3; k++) {
            if (k == 2 && !bare_works[w].bare) continue;
            if (all_of(zk_works[w].run) == all_of(sides[k].works[w].run)) continue;
            fprintf(stderr, "bench: %s: the library and %s answer differently\n", zk_works[w].name, sides[k].who);
            differs = 1;
        }
    if (all_of(zk_any) != all_of(plain_any)) {
        fprintf(stderr, "bench: on any input the library and plain answer differently\n");
        differs = 1;
    }
    singles(check_single);
    return differs;
}

static double now(void) {
    struct timespec t;
    clock_gettime(CLOCK_MONOTONIC, &t);
    return (double)t.tv_sec * 1e9 + (double)t.tv_nsec;
}

/* ns a call, the best of several runs of at least a few milliseconds */
static double time_of(const struct work *work) {
    double best = 1e18;
    for (unsigned run = 0; run < 15; run++) {
        struct seen seen = {0, 0, 0};
        double from = now(), took;
        do work->run(&lent, &seen);
        while ((took = now() - from) < 4e6);
        if (took / (double)seen.calls < best) best = took / (double)seen.calls;
    }
    return best;
}

static void times(void) {
    for (unsigned w = 0; w < WORKS; w++)
        for (unsigned k = 0; k < 3; k++) {
            if (k == 2 && !bare_works[w].bare) continue;
            fill();
            printf("time\t%s\t%s\t%.2f\n", zk_works[w].name, sides[k].who, time_of(&sides[k].works[w]));
        }
}

/* callgrind dumps its counts before this */
__attribute__((noinline)) void mark(void) { __asm__ volatile(""); }

/* mark() is not the last call: the compiler would jump to it, which callgrind takes for no call */
static void count_single(struct single call) {
    for (unsigned k = 0; k < 2; k++) {
        struct seen seen = {0, 0, 0};
        fill();
        (*sides[k].single)(&lent, &seen, call);
        mark();
        printf("single\t%c\t%s\t%s\t%x\n", call.chip - 'a' + 'A', sides[k].who, call.look ? "look" : "read",
               (unsigned)call.at);
    }
}

static void counts(void) {
    for (unsigned w = 0; w < WORKS; w++)
        for (unsigned k = 0; k < 3; k++) {
            struct seen seen = {0, 0, 0};
            if (k == 2 && !bare_works[w].bare) continue;
            fill();
            sides[k].works[w].run(&lent, &seen);
            printf("count\t%s\t%s\t%lu\t%s\n", zk_works[w].name, sides[k].who, seen.calls, zk_works[w].validates);
            mark();
        }
    singles(count_single);
}

/* ---- the log, always the same */
static void line_a(void) {
    uint64_t kind = below(100);
    if (kind < 8) printf("w0=%02x\n", (unsigned)below(256));
    else if (kind < 50) printf("w1=%02x\n", (unsigned)below(256));
    else if (kind < 55) printf("w3=%02x\n", (unsigned)below(256));
    else if (kind < 60) printf("w%u=%02x\n", 4 + (unsigned)below(4), (unsigned)below(256));
    else if (kind < 75) printf("r%u\n", (unsigned)below(8));
    else if (kind < 85) printf("tick\n");
    else printf("pixel=%u%u%02x\n", (unsigned)below(2), (unsigned)below(4), (unsigned)below(256));
}

static void line_b(void) {
    uint64_t kind = below(100);
    if (kind < 8) printf("w%u=%02x\n", (unsigned)below(2), (unsigned)below(256));
    else if (kind < 60) printf("w2=%02x\n", (unsigned)below(256));
    else if (kind < 62) printf("w3=%02x\n", (unsigned)below(256));
    else if (kind < 64) printf(below(2) ? "w7=00\n" : "r7\n");
    else if (kind < 80) printf("r%x\n", (unsigned)below(9));
    else if (kind < 85) printf("blank=%08x\n", (unsigned)below(12));
    else if (kind < 87) printf("sync=%x\n", (unsigned)below(16));
    else printf("pixel=%u%08x\n", (unsigned)below(4), (unsigned)below(1 << 24));
}

static void line_c(void) {
    uint64_t kind = below(100);
    if (kind < 4) printf("w4=%02x\n", (unsigned)below(256));
    else if (kind < 8) printf("w5=%02x\n", (unsigned)(below(2) ? 0x40 + below(4) : 0x80 + below(4)));
    else if (kind < 60) printf("w6=%02x\n", (unsigned)below(256));
    else if (kind < 95) printf("r%u\n", 4 + (unsigned)below(3));
    else printf("expand=%u%04x\n", 4 + (unsigned)below(5), (unsigned)below(256));
}

/* a look at the state or the largest table of the chip; now and then at a place that is not there */
static void look_line(unsigned chip, unsigned long n) {
    static const unsigned first[3] = {0x1000, 0x10000, 0x10000}, length[3] = {816, 26112, 3264};
    unsigned spread = (unsigned)(n * 2654435761u >> 8 & 0xffffff);
    printf("look=%05x\n", n % 2 ? spread % 9 : first[chip] + spread % length[chip]);
}

static void log_lines(unsigned long lines, int looks) {
    static const char *const names[3] = {"153108", "622424", "640"};
    unsigned chip = 0;
    random_seed = 640;
    for (unsigned long i = 0; i < lines; i++) {
        if (looks && i % 2 == 1) look_line(chip, i / 2);
        else if (below(50) == 0) printf("chip=%s\n", names[chip = (unsigned)below(3)]);
        else if (below(200) == 0) printf("reset\n");
        else if (below(100) == 0) printf("no such line %u\n", (unsigned)below(1000));
        else if (below(20000) == 0) printf("sheet\n");
        else if (chip == 0) line_a();
        else if (chip == 1) line_b();
        else line_c();
    }
}

static int program(char **command) {
    double best = 1e18;
    for (unsigned run = 0; run < 5; run++) {
        int status;
        double from = now();
        pid_t child = fork();
        if (child == 0) {
            int null = open("/dev/null", O_WRONLY);
            if (lseek(0, 0, SEEK_SET) == 0 && dup2(null, 1) == 1) execv(command[0], command);
            _exit(127);
        }
        if (child < 0 || waitpid(child, &status, 0) != child || status != 0) return 1;
        if (now() - from < best) best = now() - from;
    }
    printf("ns\t%.0f\n", best);
    return 0;
}

int main(int argc, char **argv) {
    const char *what = argc > 1 ? argv[1] : "";
    if (strcmp(what, "check") == 0) return check();
    if (strcmp(what, "times") == 0) return times(), 0;
    if (strcmp(what, "counts") == 0) return counts(), 0;
    if (strcmp(what, "log") == 0 && argc == 3) return log_lines(strtoul(argv[2], NULL, 10), 0), 0;
    if (strcmp(what, "looks") == 0 && argc == 3) return log_lines(strtoul(argv[2], NULL, 10), 1), 0;
    if (strcmp(what, "program") == 0 && argc > 2) return program(argv + 2);
    fprintf(stderr, "usage: bench check | times | counts | log LINES | looks LINES | program COMMAND..\n");
    return 2;
}
