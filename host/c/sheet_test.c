/* Sheets and their calls: the library's reader and writer beside plain C's (host/plain), which are written from
 * document 01, on good sheets, damaged ones and any bytes, with buffers of every length; on chips and tables in range
 * and out of it. Every byte of every buffer is compared.
 *
 * By hand, apart from that model: two sheets with their calls, document 01's among them; the line at which damaged
 * sheets are refused; what the writer's sheet says; and that a written sheet, loaded by its calls, gives the chip
 * again. */
#include "check.h"

enum { ENTRIES = 4 + 256, TEXT = 6000, ROOM = 1700 };

static uint8_t *text_end, *calls_end; /* behind both buffers no byte can be touched */
static struct call reader = {"reader", NULL, "078", {0}}, writer = {"writer", NULL, "01279", {0}};

/* one text into a buffer of one length; the library's answer */
static uint64_t compare(const uint8_t *text, size_t n, size_t room) {
    uint8_t want[ROOM], *given = text_end - n, *calls = calls_end - room;
    int shown = (int)(n < 900 ? n : 900);
    memcpy(given, text, n);
    for (size_t i = 0; i < room; i++) want[i] = calls[i] = (uint8_t)random_bits();
    uint64_t answer = zk_sheet_to_calls(given, n, calls, room), plain = plain_sheet_to_calls(text, n, want, room);
    CHECK(answer == plain, "%.*s: room %zu, answer 0x%016llx, plain C 0x%016llx", shown, text, room,
          (unsigned long long)answer, (unsigned long long)plain);
    CHECK(memcmp(calls, want, room) == 0, "%.*s: room %zu, another list, or a byte past it", shown, text, room);
    CHECK(memcmp(given, text, n) == 0, "room %zu: the sheet was written to", room);
    reader.met[zk_refusal(plain) % 10]++;
    return answer;
}

/* ---- texts */

#define HEAD "chip=153108\nreadmask=00\nblinkmask=ff\noverlay=40\ntiming=31\n"
static const char example[] = HEAD "o1=f00\nc10=0a5\nc11=fff\nc20=123\n";

/* a random good sheet; of a hundred entries, `density` are there */
static size_t random_sheet(uint8_t *text, unsigned density) {
    char *t = (char *)text;
    size_t n = (size_t)sprintf(t, "chip=153108\nreadmask=%02x\nblinkmask=%02x\noverlay=%02x\ntiming=%02x\n",
                               below(256), below(256), below(256) & 0x4f, below(256));
    for (unsigned i = 0; i < ENTRIES; i++) {
        if (below(100) >= density) continue;
        if (i < 4) n += (size_t)sprintf(t + n, "o%u=%03x\n", i, below(4096));
        else n += (size_t)sprintf(t + n, "c%02x=%03x\n", i - 4, below(4096));
    }
    return n;
}

/* a small harm to a text: a byte changed, put in or taken out, a line twice or moved, the end cut off */
static size_t harm(uint8_t *text, size_t n) {
    static const char odd[] = "\n\r =0129afgAFGcox\0\377\200";
    size_t at = below((uint32_t)n);
    uint8_t byte = (uint8_t)odd[below(sizeof odd)];
    switch (below(6)) {
    case 0: text[at] = byte; return n;
    case 1: text[at] ^= (uint8_t)(1 << below(8)); return n;
    case 2: memmove(text + at + 1, text + at, n - at); text[at] = byte; return n + 1;
    case 3: memmove(text + at, text + at + 1, n - at - 1); return n - 1;
    case 4: return at;
    default: {
        const uint8_t *lf = memchr(text + at, '\n', n - at);
        size_t from = lf == NULL ? at : (size_t)(lf - text) + 1, length = below(16);
        if (length > n - from) length = n - from;
        memmove(text + from + length, text + from, n - from);
        return n + length;
    }
    }
}

/* ---- the reader beside plain C */

static uint8_t text[TEXT];

static void every_length_of_the_buffer(void) {
    for (int round = 0; round < 14; round++) {
        size_t n = sizeof example - 1;
        if (round == 0) memcpy(text, example, n);
        else n = random_sheet(text, round < 3 ? 100 : below(101));
        size_t needed = 2 * zk_count(compare(text, n, ROOM));
        for (size_t room = 0; room <= needed + 3 && room <= ROOM; room++) compare(text, n, room);
    }
}

static void good_sheets(void) {
    for (int i = 0; i < 20000; i++) compare(text, random_sheet(text, below(101)), below(ROOM));
}

static void harmed_sheets(void) {
    for (int i = 0; i < 60000; i++) {
        size_t n = random_sheet(text, below(30));
        for (unsigned times = 1 + below(2); times > 0 && n > 0; times--) n = harm(text, n);
        compare(text, n, below(2) ? ROOM : below(300));
    }
}

static void other_texts(void) {
    compare(text, 0, 0);
    for (int i = 0; i < 5000; i++) {
        size_t n = below(400);
        for (size_t k = 0; k < n; k++) text[k] = (uint8_t)random_bits();
        compare(text, n, below(64));
    }
    for (int i = 0; i < 200; i++) { /* a full sheet and more, up to some 5,000 bytes */
        size_t n = random_sheet(text, 100), more = below(2900);
        memset(text + n, "\nc0x"[below(4)], more);
        compare(text, n + more, ROOM);
    }
}

/* ---- the reader by hand */

static void calls_are(const char *sheet, const uint8_t *list, size_t bytes) {
    uint64_t answer = compare((const uint8_t *)sheet, strlen(sheet), ROOM);
    CHECK(answer == (uint64_t)(bytes / 2) << 32, "%s: answer 0x%016llx", sheet, (unsigned long long)answer);
    CHECK(memcmp(calls_end - ROOM, list, bytes) == 0, "%s: another list", sheet);
}

/* document 01's, and one whose entries begin, end and break each table */
static void calls_by_hand(void) {
    static const uint8_t list[] = {4, 0x00, 5, 0xff, 6, 0x40, 7, 0x31, 0, 0x01, 3, 0x0f, 3, 0x00, 3, 0x00, 0, 0x10,
                                   1, 0x00, 1, 0x0a, 1, 0x05, 1, 0x0f, 1, 0x0f, 1, 0x0f, 0, 0x20, 1, 0x01, 1, 0x02,
                                   1, 0x03};
    static const uint8_t edges[] = {4, 0x00, 5, 0xff, 6, 0x40, 7, 0x31, 0, 0x00, 3, 0x01, 3, 0x02, 3, 0x03, 0, 0x02,
                                    3, 0x04, 3, 0x05, 3, 0x06, 3, 0x07, 3, 0x08, 3, 0x09, 0, 0x00, 1, 0x0a, 1, 0x0b,
                                    1, 0x0c, 1, 0x00, 1, 0x00, 1, 0x00, 0, 0xff, 1, 0x0d, 1, 0x0e, 1, 0x0f};
    calls_are(example, list, sizeof list);
    calls_are(HEAD "o0=123\no2=456\no3=789\nc00=abc\nc01=000\ncff=def\n", edges, sizeof edges);
    calls_are(HEAD, list, 8);
}

/* damaged sheets and the line that is told, 0 where nothing is wrong */
static const struct {
    const char *sheet;
    unsigned line;
} damaged[] = {
    {"", 1}, {"\n", 1}, {"chip=153108", 1}, {"chip=153108\r\n", 1}, {"\xef\xbb\xbf" HEAD, 1}, {"chip=622424\n", 1},
    {"Chip=153108\n", 1}, {" chip=153108\n", 1}, {"readmask=00\n", 1}, {"chip=153108\n", 2}, {"chip=153108\n\n", 2},
    {"chip=153108\nblinkmask=ff\n", 2}, {"chip=153108\nreadmask=0\n", 2}, {"chip=153108\nreadmask=000\n", 2},
    {"chip=153108\nreadmask=0G\n", 2}, {"chip=153108\nreadmask=0A\n", 2}, {"chip=153108\nreadmask=00", 2},
    {"chip=153108\nreadmask=00\n", 3}, {"chip=153108\nreadmask=00\nblinkmask=ff\noverlay=10\ntiming=31\n", 4},
    {"chip=153108\nreadmask=00\nblinkmask=ff\noverlay=20\ntiming=31\n", 4},
    {"chip=153108\nreadmask=00\nblinkmask=ff\noverlay=80\ntiming=31\n", 4},
    {"chip=153108\nreadmask=00\nblinkmask=ff\noverlay=40\n", 5},
    {"chip=153108\nreadmask=00\nblinkmask=ff\noverlay=40\ntiming=31", 5},
    {"chip=153108\nreadmask=00\nblinkmask=ff\noverlay=40\nc00=000\n", 5}, {HEAD, 0}, {HEAD "\n", 6},
    {HEAD "timing=31\n", 6}, {HEAD "o4=000\n", 6}, {HEAD "o0=00\n", 6}, {HEAD "o0=0000\n", 6}, {HEAD "o00=000\n", 6},
    {HEAD "c0=000\n", 6}, {HEAD "c000=000\n", 6}, {HEAD "c0g=000\n", 6}, {HEAD "cFF=000\n", 6}, {HEAD "C00=000\n", 6},
    {HEAD "c00=0A0\n", 6}, {HEAD "c00 000\n", 6}, {HEAD "c00=000", 6}, {HEAD "o1=000\no0=000\n", 7},
    {HEAD "o1=000\no1=000\n", 7}, {HEAD "c00=000\no3=000\n", 7}, {HEAD "c10=000\nc0f=000\n", 7},
    {HEAD "cff=000\ncff=000\n", 7}, {HEAD "cff=000\nc00=000\n", 7}, {HEAD "o3=000\nc00=000\n\n", 8},
    {HEAD "o3=000\nc00=000\n", 0},
};

static void lines_by_hand(void) {
    for (size_t i = 0; i < COUNT(damaged); i++) {
        const char *sheet = damaged[i].sheet;
        uint64_t answer = compare((const uint8_t *)sheet, strlen(sheet), ROOM);
        unsigned refusal = damaged[i].line ? 8 : 0;
        CHECK(zk_line(answer) == damaged[i].line && zk_refusal(answer) == refusal && zk_value(answer) == 0,
              "%s: answer 0x%016llx, not line %u", sheet, (unsigned long long)answer, damaged[i].line);
        CHECK(zk_refusal(compare((const uint8_t *)sheet, strlen(sheet), 0)) == (refusal ? 8 : 7), "%s: no room", sheet);
    }
}

/* ---- the writer */

/* what is lent to it; tables longer than a chip's, for longer lengths */
static struct {
    zk_a_state state;
    uint8_t colours[1024], overlays[1024];
    size_t colour_bytes, overlay_bytes;
} lent, before;

/* `spoilt`, bit by bit: 1 a length, 2 the state, 4 a byte over 15 */
static void lend(unsigned spoilt) {
    lent.state = good_a();
    lent.colour_bytes = 768, lent.overlay_bytes = 12;
    for (size_t i = 0; i < 1024; i++) lent.colours[i] = (uint8_t)below(16), lent.overlays[i] = (uint8_t)below(16);
    if (spoilt & 1) *(below(2) ? &lent.colour_bytes : &lent.overlay_bytes) = below(1024);
    if (spoilt & 2) ((uint8_t *)&lent.state)[below(sizeof lent.state)] = (uint8_t)random_bits();
    if (spoilt & 4) (below(2) ? lent.colours : lent.overlays)[below(below(2) ? 12 : 768)] = (uint8_t)random_bits();
}
#define LENT lent.colours, lent.colour_bytes, lent.overlays, lent.overlay_bytes

/* what is lent, into a buffer of one length; the library's answer */
static uint64_t written(size_t room) {
    static uint8_t want[ZK_SHEET_BYTES + 64];
    uint8_t *out = text_end - room;
    for (size_t i = 0; i < room; i++) want[i] = out[i] = (uint8_t)random_bits();
    memcpy(&before, &lent, sizeof lent);
    uint64_t answer = zk_sheet_write(lent.state, LENT, out, room);
    uint64_t plain = plain_sheet_write(lent.state, LENT, want, room);
    CHECK(answer == plain, "lengths %zu and %zu, room %zu: answer 0x%016llx, plain C 0x%016llx", lent.colour_bytes,
          lent.overlay_bytes, room, (unsigned long long)answer, (unsigned long long)plain);
    CHECK(memcmp(out, want, room) == 0, "room %zu: another sheet, or a byte past it", room);
    CHECK(memcmp(&before, &lent, sizeof lent) == 0, "room %zu: a table was written to", room);
    writer.met[zk_refusal(plain) % 10]++;
    return answer;
}

/* an accepted sheet's calls, written to a chip that has nothing of it, make the registers and tables that it was of */
static void loads_back(const uint8_t *sheet) {
    uint8_t calls[ZK_CALLS_BYTES], colours[768], overlays[12];
    zk_a_state s = zk_a_reset(good_a()).state, was = lent.state;
    uint64_t answer = zk_sheet_to_calls(sheet, ZK_SHEET_BYTES, calls, sizeof calls);
    memset(colours, 0xee, sizeof colours), memset(overlays, 0xee, sizeof overlays);
    CHECK(answer == (uint64_t)786 << 32, "it does not read back: 0x%016llx", (unsigned long long)answer);
    if (zk_count(answer) != 786) return;
    for (const uint8_t *call = calls; call < calls + sizeof calls; call += 2)
        s = plain_a_write(s, call[0], call[1], colours, 768, overlays, 12).state;
    CHECK(s.readmask == was.readmask && s.blinkmask == was.blinkmask && s.control == was.control
              && s.clock.timing == was.clock.timing && s.clock.position == 0,
          "other registers");
    CHECK(memcmp(colours, lent.colours, 768) == 0 && memcmp(overlays, lent.overlays, 12) == 0, "other tables");
}

static void written_sheets(void) {
    for (int i = 0; i < 24000; i++) {
        unsigned spoilt = i < 4000 ? 0 : below(16);
        size_t room = ZK_SHEET_BYTES + below(64);
        if (spoilt & 8) room = below(2) ? ZK_SHEET_BYTES - 1 - below(3) : below(ZK_SHEET_BYTES + 1);
        lend(spoilt);
        if (zk_refusal(written(room)) == 0) loads_back(text_end - room);
    }
}

/* 1 before 9 before 2 before 7, for either table, one over each edge */
static void the_order_of_refusals(void) {
    for (unsigned spoilt = 0; spoilt < 16; spoilt++) {
        unsigned want = spoilt & 1 ? 1 : spoilt & 2 ? 9 : spoilt & 4 ? 2 : spoilt & 8 ? 7 : 0;
        for (int table = 0; table < 2; table++) {
            lend(0);
            if (spoilt & 1) *(table ? &lent.overlay_bytes : &lent.colour_bytes) -= 1;
            if (spoilt & 2) lent.state.pointer = 3;
            if (spoilt & 4) (table ? lent.overlays + 11 : lent.colours)[0] = 16;
            uint64_t answer = written(spoilt & 8 ? 2133 : 2134);
            CHECK(answer == (want ? want : (uint64_t)2134 << 32), "spoilt %x: answer 0x%016llx", spoilt,
                  (unsigned long long)answer);
        }
    }
}

/* the first lines, and both ends of the colours */
static void a_sheet_by_hand(void) {
    static const char head[] = "chip=153108\nreadmask=0f\nblinkmask=a0\noverlay=4c\ntiming=31\n"
                               "o0=000\no1=f0e\no2=000\no3=123\nc00=abc\nc01=000\n",
                      tail[] = "cfe=000\ncff=d0f\n";
    static const zk_a_state s = {0x12, 2, 3, 4, 0x0f, 0xa0, 0x4c, {0x31, 23}};
    memset(&lent, 0, sizeof lent);
    lent.state = s, lent.colour_bytes = 768, lent.overlay_bytes = 12;
    memcpy(lent.overlays + 3, "\x0f\x00\x0e", 3), memcpy(lent.overlays + 9, "\x01\x02\x03", 3);
    memcpy(lent.colours, "\x0a\x0b\x0c", 3), memcpy(lent.colours + 765, "\x0d\x00\x0f", 3);
    CHECK(written(2134) == (uint64_t)2134 << 32, "refused");
    CHECK(memcmp(text_end - 2134, head, sizeof head - 1) == 0, "%.*s", (int)sizeof head, (char *)text_end - 2134);
    CHECK(memcmp(text_end - (sizeof tail - 1), tail, sizeof tail - 1) == 0, "%.*s", (int)sizeof tail - 1,
          (char *)text_end - (sizeof tail - 1));
}

static void refusals_met(void) { check_met(&reader, 1000), check_met(&writer, 1000); }

int main(void) {
    check_start();
    text_end = (uint8_t *)check_guarded(TEXT) + TEXT;
    calls_end = (uint8_t *)check_guarded(ROOM) + ROOM;
    RUN(every_length_of_the_buffer);
    RUN(good_sheets);
    RUN(harmed_sheets);
    RUN(other_texts);
    RUN(calls_by_hand);
    RUN(lines_by_hand);
    RUN(written_sheets);
    RUN(the_order_of_refusals);
    RUN(a_sheet_by_hand);
    RUN(refusals_met);
    FINISH();
}
