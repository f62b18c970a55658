/* Chip A's sheets in plain C, from document 01, "The sheet and its calls". A text is always tested: that is the work of
 * reading it. CHECKED 0 leaves out the writer's tests alone. */
#include "plain.h"

#include <string.h>

enum { OVERLAYS = ZK_A_OVERLAY_ENTRIES, COLOURS = ZK_A_COLOUR_ENTRIES, MISSING = 0xffff };

static uint64_t packed(unsigned refusal, unsigned count, unsigned line) {
    return refusal | (uint64_t)count << 32 | (uint64_t)line << 48;
}

/* the number that n lower-case hex digits spell, or -1 */
static int number(const uint8_t *t, int n) {
    int v = 0;
    for (; n > 0; n--, t++) {
        if (*t >= '0' && *t <= '9') {
            v = v << 4 | (*t - '0');
        } else if (*t >= 'a' && *t <= 'f') {
            v = v << 4 | (*t - 'a' + 10);
        } else {
            return -1;
        }
    }
    return v;
}

struct sheet {
    uint8_t registers[4];
    uint16_t entries[OVERLAYS + COLOURS];
};

static const struct {
    const char *text;
    size_t length;
} keys[4] = {{"readmask=", 9}, {"blinkmask=", 10}, {"overlay=", 8}, {"timing=", 7}};

/* 0, or the number of the first bad or missing line */
static unsigned read_sheet(const uint8_t *t, size_t length, struct sheet *sheet) {
    const uint8_t *end = t + length;
    unsigned line = 1, due = 0;
    if (length < 12 || memcmp(t, "chip=153108\n", 12) != 0) return line;
    t += 12;
    for (int i = 0; i < 4; i++) {
        size_t n = keys[i].length;
        int v;
        line++;
        if ((size_t)(end - t) < n + 3 || memcmp(t, keys[i].text, n) != 0 || t[n + 2] != '\n') return line;
        v = number(t + n, 2);
        if (v < 0 || (i == 2 && (v & ZK_A_CONTROL_RESERVED) != 0)) return line;
        sheet->registers[i] = (uint8_t)v;
        t += n + 3;
    }
    memset(sheet->entries, 0xff, sizeof sheet->entries);
    while (t < end) {
        int digits = *t == 'o' ? 1 : 2, entry, v;
        line++;
        if ((*t != 'o' && *t != 'c') || end - t < digits + 6) return line;
        if (t[digits + 1] != '=' || t[digits + 5] != '\n') return line;
        entry = number(t + 1, digits);
        v = number(t + digits + 2, 3);
        if (entry < 0 || v < 0) return line;
        if (digits == 2) entry += OVERLAYS;
        if ((unsigned)entry < due || (digits == 1 && entry >= OVERLAYS)) return line;
        sheet->entries[entry] = (uint16_t)v;
        due = (unsigned)entry + 1;
        t += digits + 6;
    }
    return 0;
}

static unsigned count_table(const uint16_t *entries, unsigned n) {
    unsigned count = 0;
    for (unsigned i = 0; i < n; i++)
        if (entries[i] != MISSING) count += i > 0 && entries[i - 1] != MISSING ? 3 : 4;
    return count;
}

static uint8_t *put_call(uint8_t *out, unsigned select, unsigned byte) {
    out[0] = (uint8_t)select;
    out[1] = (uint8_t)byte;
    return out + 2;
}

static uint8_t *put_table(uint8_t *out, unsigned select, const uint16_t *entries, unsigned n) {
    for (unsigned i = 0; i < n; i++) {
        unsigned v = entries[i];
        if (v == MISSING) continue;
        if (i == 0 || entries[i - 1] == MISSING) out = put_call(out, ZK_A_SELECT_ADDRESS, i);
        out = put_call(out, select, v >> 8);
        out = put_call(out, select, v >> 4 & 15);
        out = put_call(out, select, v & 15);
    }
    return out;
}

uint64_t NAME(sheet_to_calls)(const uint8_t *text, size_t text_length, uint8_t *calls, size_t calls_length) {
    struct sheet sheet;
    unsigned bad = read_sheet(text, text_length, &sheet), count;
    if (bad != 0) return packed(ZK_MALFORMED, 0, bad);
    count = 4 + count_table(sheet.entries, OVERLAYS) + count_table(sheet.entries + OVERLAYS, COLOURS);
    if (calls_length < 2 * count) return packed(ZK_SHORT_BUFFER, 0, 0);
    for (unsigned i = 0; i < 4; i++) calls = put_call(calls, ZK_A_SELECT_READMASK + i, sheet.registers[i]);
    calls = put_table(calls, ZK_A_SELECT_OVERLAY, sheet.entries, OVERLAYS);
    put_table(calls, ZK_A_SELECT_COLOUR, sheet.entries + OVERLAYS, COLOURS);
    return packed(0, count, 0);
}

static int over_fifteen(const uint8_t *table, size_t n) {
    unsigned all = 0;
    for (size_t i = 0; i < n; i++) all |= table[i];
    return all > 15;
}

static unsigned refused_write(zk_a_state s, const uint8_t *colours, size_t colours_length, const uint8_t *overlays,
                              size_t overlays_length, size_t sheet_length) {
    unsigned refusal = standing_a(s, colours_length, overlays_length);
    if (!CHECKED || refusal != 0) return refusal;
    if (over_fifteen(colours, ZK_A_COLOURS) || over_fifteen(overlays, ZK_A_OVERLAYS)) return ZK_OVER_FIFTEEN;
    return sheet_length < ZK_SHEET_BYTES ? ZK_SHORT_BUFFER : 0;
}

static const char digit[16] = "0123456789abcdef";

static uint8_t *put_register(uint8_t *out, int i, unsigned v) {
    memcpy(out, keys[i].text, keys[i].length);
    out += keys[i].length;
    *out++ = (uint8_t)digit[v >> 4];
    *out++ = (uint8_t)digit[v & 15];
    *out++ = '\n';
    return out;
}

static uint8_t *put_colour(uint8_t *out, const uint8_t *entry) {
    *out++ = '=';
    for (int i = 0; i < 3; i++) *out++ = (uint8_t)digit[entry[i] & 15];
    *out++ = '\n';
    return out;
}

uint64_t NAME(sheet_write)(zk_a_state s, const uint8_t *colours, size_t colours_length, const uint8_t *overlays,
                           size_t overlays_length, uint8_t *out, size_t sheet_length) {
    const uint8_t registers[4] = {s.readmask, s.blinkmask, s.control, s.clock.timing};
    unsigned refusal = refused_write(s, colours, colours_length, overlays, overlays_length, sheet_length);
    if (refusal != 0) return packed(refusal, 0, 0);
    memcpy(out, "chip=153108\n", 12);
    out += 12;
    for (int i = 0; i < 4; i++) out = put_register(out, i, registers[i]);
    for (unsigned i = 0; i < OVERLAYS; i++) {
        *out++ = 'o';
        *out++ = (uint8_t)digit[i];
        out = put_colour(out, overlays + 3 * i);
    }
    for (unsigned i = 0; i < COLOURS; i++) {
        *out++ = 'c';
        *out++ = (uint8_t)digit[i >> 4];
        *out++ = (uint8_t)digit[i & 15];
        out = put_colour(out, colours + 3 * i);
    }
    return packed(0, ZK_SHEET_BYTES, 0);
}
