/* `replay` in plain C, from its description: a port log on standard input, one answer a line. With CHECKED 0 the chips'
 * calls test nothing that the board's own states and tables can't break. */
#include "plain.h"

#include <string.h>
#include <unistd.h>

enum { LONGEST = 15 }; /* no line form has more bytes */

static uint8_t colours[ZK_A_COLOURS], overlays[ZK_A_OVERLAYS], map[ZK_B_MAP];
static uint64_t queue[ZK_B_PLACES];
static uint16_t table[ZK_C_TABLE];
static zk_a_state a;
static zk_b_state b = {{0, 0, 0, 0}, {3, 0}, {3, 5}, {0, 0}};
static zk_c_state c;
static unsigned chosen; /* 0 A, 1 B, 2 C */

static uint8_t out[65536];
static size_t waiting;

static void flush(void) {
    for (size_t done = 0; done < waiting;) {
        ssize_t n = write(1, out + done, waiting - done);
        if (n <= 0) _exit(1);
        done += (size_t)n;
    }
    waiting = 0;
}

static void say(const char *text, size_t n) {
    if (sizeof out - waiting < n) flush();
    memcpy(out + waiting, text, n);
    waiting += n;
}
#define SAY(text) say(text, sizeof(text) - 1)

/* a word, n hex digits, LF */
static void say_hex(const char *word, size_t length, uint32_t v, unsigned n) {
    say(word, length);
    if (sizeof out - waiting < n + 1) flush();
    for (unsigned i = n; i-- > 0; v >>= 4) out[waiting + i] = (uint8_t)"0123456789abcdef"[v & 15];
    waiting += n;
    out[waiting++] = '\n';
}
#define SAY_HEX(word, v, n) say_hex(word, sizeof(word) - 1, v, n)

static void say_decimal(const char *word, size_t length, unsigned v) {
    char digits[12], *first = digits + sizeof digits;
    *--first = '\n';
    do *--first = (char)('0' + v % 10);
    while ((v /= 10) != 0);
    say(word, length);
    say(first, (size_t)(digits + sizeof digits - first));
}

static void refused(unsigned n) { say_decimal("refused=", 8, n); }
static void moved(unsigned n) { say_decimal("moved=", 6, n); }
static void value(unsigned v) { SAY_HEX("value=", v, 2); }
static void colour(unsigned r, unsigned g, unsigned b) { SAY_HEX("colour=", r << 16 | g << 8 | b, 6); }
static void ok(void) { SAY("ok\n"); }
static void bad(void) { SAY("bad\n"); }

/* n lower-case hex digits */
static int hex(const uint8_t *t, unsigned n, uint32_t *v) {
    uint32_t all = 0;
    for (unsigned i = 0; i < n; i++) {
        if (t[i] >= '0' && t[i] <= '9') all = all << 4 | (uint32_t)(t[i] - '0');
        else if (t[i] >= 'a' && t[i] <= 'f') all = all << 4 | (uint32_t)(t[i] - 'a' + 10);
        else return 0;
    }
    *v = all;
    return 1;
}

static void write_line(uint8_t select, uint8_t byte) {
    unsigned refusal, count = 0;
    if (chosen == 0) {
        zk_a_answer r = NAME(a_write)(a, select, byte, colours, sizeof colours, overlays, sizeof overlays);
        a = r.state, refusal = r.refusal;
    } else if (chosen == 1) {
        zk_b_answer r = NAME(b_write)(b, select, byte, queue, ZK_B_PLACES, map, sizeof map);
        b = r.state, refusal = r.refusal, count = r.count;
    } else {
        zk_c_answer r = NAME(c_write)(c, select, byte, table, ZK_C_TABLE);
        c = r.state, refusal = r.refusal;
    }
    if (refusal != 0) refused(refusal);
    else if (chosen == 1) moved(count);
    else ok();
}

static void read_line(uint8_t select) {
    unsigned refusal, v;
    if (chosen == 0) {
        zk_a_answer r = NAME(a_read)(a, select, colours, sizeof colours, overlays, sizeof overlays);
        a = r.state, refusal = r.refusal, v = r.value;
    } else if (chosen == 1) {
        zk_b_answer r = NAME(b_read)(b, select, queue, ZK_B_PLACES, map, sizeof map);
        b = r.state, refusal = r.refusal, v = r.value;
    } else {
        zk_c_answer r = NAME(c_read)(c, select, table, ZK_C_TABLE);
        c = r.state, refusal = r.refusal, v = r.value;
    }
    if (refusal != 0) refused(refusal);
    else value(v);
}

static void look_line(uint32_t place) {
    zk_looked r = chosen == 0   ? NAME(a_look)(a, place, colours, sizeof colours, overlays, sizeof overlays)
                  : chosen == 1 ? NAME(b_look)(b, place, queue, ZK_B_PLACES, map, sizeof map)
                                : NAME(c_look)(c, place, table, ZK_C_TABLE);
    if (r.refusal != 0) refused(r.refusal);
    else SAY_HEX("look=", r.value, 4);
}

static void reset_line(void) {
    unsigned refusal = 0;
    if (chosen == 0) {
        a = NAME(a_reset)(a).state;
    } else if (chosen == 1) {
        zk_b_answer r = NAME(b_reset)(b, queue, ZK_B_PLACES);
        b = r.state, refusal = r.refusal;
    } else {
        c = NAME(c_reset)(c).state;
    }
    if (refusal != 0) refused(refusal);
    else ok();
}

static void pixel_a(uint32_t enable, uint32_t number, uint32_t byte) {
    zk_a_shown p;
    if (number > 3) { /* the one argument that a line can bring out of range */
        refused(ZK_OUT_OF_RANGE);
        return;
    }
    p = NAME(a_pixel)(a, (uint8_t)enable, (uint8_t)number, (uint8_t)byte, colours, sizeof colours, overlays,
                      sizeof overlays);
    colour(p.red, p.green, p.blue);
}

static void pixel_b(uint32_t mode, uint32_t word) {
    zk_b_shown p;
    if (mode > 3 || word > 0xffffff) {
        refused(ZK_OUT_OF_RANGE);
        return;
    }
    p = NAME(b_pixel)(b, (uint8_t)mode, word, queue, ZK_B_PLACES, map, sizeof map);
    colour(p.red, p.green, p.blue);
}

static void blank_line(uint32_t slots) {
    zk_b_answer r;
    if (slots > 65535) {
        refused(ZK_OUT_OF_RANGE);
        return;
    }
    r = NAME(b_blank)(b, slots, queue, ZK_B_PLACES, map, sizeof map);
    b = r.state;
    moved(r.count);
}

static void expand_line(uint32_t width, uint32_t v) {
    if (width < 4 || width > 8 || v >= (uint32_t)1 << width) refused(ZK_OUT_OF_RANGE);
    else SAY_HEX("ten=", zk_value(NAME(expand)(width, v)), 3);
}

static void sheet_line(void) {
    static uint8_t text[ZK_SHEET_BYTES];
    uint64_t r = NAME(sheet_write)(a, colours, sizeof colours, overlays, sizeof overlays, text, sizeof text);
    if (zk_refusal(r) != 0) refused(zk_refusal(r));
    else say((const char *)text, sizeof text);
}

static int is(const uint8_t *t, size_t n, const char *word) { return strlen(word) == n && memcmp(t, word, n) == 0; }

/* lines of a fixed text */
static int word_line(const uint8_t *t, size_t n) {
    static const char *const chips[3] = {"chip=153108", "chip=622424", "chip=640"};
    for (unsigned i = 0; t[0] == 'c' && i < 3; i++)
        if (is(t, n, chips[i])) {
            chosen = i;
            ok();
            return 1;
        }
    if (is(t, n, "reset")) return reset_line(), 1;
    if (chosen == 0 && is(t, n, "tick")) return NAME(a_tick)(&a.clock), ok(), 1;
    if (chosen == 0 && is(t, n, "sheet")) return sheet_line(), 1;
    return 0;
}

/* pixel=, blank=, sync=, expand=, look= */
static int number_line(const uint8_t *t, size_t n) {
    uint32_t u, v, w;
    if (n == 10 && chosen == 0 && memcmp(t, "pixel=", 6) == 0) {
        if (!hex(t + 6, 1, &u) || u > 1 || !hex(t + 7, 1, &v) || !hex(t + 8, 2, &w)) return 0;
        return pixel_a(u, v, w), 1;
    }
    if (n == 15 && chosen == 1 && memcmp(t, "pixel=", 6) == 0 && hex(t + 6, 1, &u) && hex(t + 7, 8, &v))
        return pixel_b(u, v), 1;
    if (n == 14 && chosen == 1 && memcmp(t, "blank=", 6) == 0 && hex(t + 6, 8, &u)) return blank_line(u), 1;
    if (n == 6 && chosen == 1 && memcmp(t, "sync=", 5) == 0 && hex(t + 5, 1, &u)) {
        zk_b_answer r = NAME(b_sync)(b, (uint8_t)u, queue, ZK_B_PLACES);
        return SAY_HEX("sync=", r.value, 1), 1;
    }
    if (n == 12 && memcmp(t, "expand=", 7) == 0 && hex(t + 7, 1, &u) && hex(t + 8, 4, &v))
        return expand_line(u, v), 1;
    if (n == 10 && memcmp(t, "look=", 5) == 0 && hex(t + 5, 5, &u)) return look_line(u), 1;
    return 0;
}

static void line(const uint8_t *t, size_t n) {
    uint32_t select, byte;
    if (n == 5 && t[0] == 'w' && t[2] == '=' && hex(t + 1, 1, &select) && hex(t + 3, 2, &byte))
        write_line((uint8_t)select, (uint8_t)byte);
    else if (n == 2 && t[0] == 'r' && hex(t + 1, 1, &select))
        read_line((uint8_t)select);
    else if (n == 0 || n > LONGEST || (!word_line(t, n) && !number_line(t, n)))
        bad();
}

int main(void) {
    static uint8_t chunk[65536], held[LONGEST + 1]; /* held: the start of a line that a chunk did not end */
    size_t holding = 0;
    ssize_t got;
    while ((got = read(0, chunk, sizeof chunk)) > 0) {
        const uint8_t *t = chunk, *end = chunk + got, *lf;
        while ((lf = memchr(t, '\n', (size_t)(end - t))) != NULL || t < end) {
            size_t n = (size_t)((lf ? lf : end) - t), room = sizeof held - holding;
            if (lf && holding == 0) {
                line(t, n);
            } else {
                memcpy(held + holding, t, n < room ? n : room);
                holding += n < room ? n : room;
                if (lf) line(held, holding), holding = 0;
            }
            t = lf ? lf + 1 : end;
        }
    }
    if (holding > 0) line(held, holding);
    flush();
    return 0;
}
