/* Chip C and the expander in plain C, from document 01, "Chip C", and document 02, P4 and P5. The expander is the
 * rules, not a table. */
#include "plain.h"

static uint16_t linear8(unsigned v) { return (uint16_t)(v << 2 | v >> 6); }

/* the value, and so many of its top bits as are missing; at 4 bits the value is too short for that by two */
uint64_t NAME(expand)(uint32_t width, uint32_t value) {
    uint32_t ten;
    if (CHECKED && (width < 4 || width > 8 || value >> width != 0)) return ZK_OUT_OF_RANGE;
    ten = width == 4 ? value << 6 | value << 2 | value >> 2 : value << (10 - width) | value >> (2 * width - 10);
    return (uint64_t)ten << 16;
}

/* refusals 1 and 9 */
static unsigned standing(zk_c_state s, size_t length) {
    if (!CHECKED) return 0;
    if (length != ZK_C_TABLE) return ZK_LENT_LENGTH;
    return s.place > 2 || s.red > 1023 || s.green > 1023 || s.fetched.red > 1023 || s.fetched.green > 1023
                   || s.fetched.blue > 1023
               ? ZK_OUT_OF_RANGE
               : 0;
}

static zk_c_answer answer(unsigned refusal, unsigned value, zk_c_state s) {
    zk_c_answer a = {(uint8_t)refusal, (uint8_t)value, s};
    return a;
}

/* space is the first of its indexes */
static int in_space(unsigned index, unsigned space) { return (index & 0xfc00) == space; }

static zk_c_state prefetch(zk_c_state s, const uint16_t *table) {
    if (in_space(s.index, ZK_C_INDEX_READ)) {
        const uint16_t *entry = table + 3 * (s.index & 0x03ff);
        s.fetched.red = entry[0] & 0x3ff;
        s.fetched.green = entry[1] & 0x3ff;
        s.fetched.blue = entry[2] & 0x3ff;
    }
    return s;
}

/* after the third access; bit is the one of 0x000E that stops auto-increment */
static zk_c_state restart(zk_c_state s, unsigned bit, const uint16_t *table) {
    s.place = 0;
    if ((s.update & bit) != 0) return s;
    s.index = (uint16_t)((s.index & 0xfc00) | ((s.index + 1) & 0x03ff));
    return prefetch(s, table);
}

static zk_c_state palette_write(zk_c_state s, uint8_t byte, uint16_t *table) {
    uint16_t v = linear8(byte), *entry = table + 3 * (s.index & 0x03ff);
    if (s.place == 0) {
        s.red = v;
        s.place = 1;
        return s;
    }
    if (s.place == 1) {
        s.green = v;
        s.place = 2;
        return s;
    }
    entry[0] = s.red;
    entry[1] = s.green;
    entry[2] = v;
    return restart(s, ZK_C_UPDATE_WRAI, table);
}

zk_c_answer NAME(c_write)(zk_c_state s, uint8_t port, uint8_t byte, uint16_t *table, size_t length) {
    unsigned refusal = standing(s, length);
    if (refusal != 0) return answer(refusal, 0, s);
    switch (port) {
    case ZK_C_PORT_INDEX_LOW: s.index = (uint16_t)((s.index & 0xff00) | byte); break;
    case ZK_C_PORT_INDEX_HIGH:
        s.index = (uint16_t)((s.index & 0x00ff) | byte << 8);
        s.place = 0;
        s = prefetch(s, table);
        break;
    case ZK_C_PORT_DATA:
        if (s.index == ZK_C_INDEX_UPDATE) {
            s.update = byte;
        } else if (in_space(s.index, ZK_C_INDEX_WRITE)) {
            s = palette_write(s, byte, table);
        } else {
            return answer(ZK_NO_INDEX, 0, s);
        }
        break;
    default: return answer(ZK_NO_ACCESS, 0, s);
    }
    return answer(0, 0, s);
}

static zk_c_answer palette_read(zk_c_state s, const uint16_t *table) {
    if (s.place == 0) {
        s.place = 1;
        return answer(0, s.fetched.red >> 2, s);
    }
    if (s.place == 1) {
        s.place = 2;
        return answer(0, s.fetched.green >> 2, s);
    }
    return answer(0, s.fetched.blue >> 2, restart(s, ZK_C_UPDATE_RDAI, table));
}

zk_c_answer NAME(c_read)(zk_c_state s, uint8_t port, const uint16_t *table, size_t length) {
    unsigned refusal = standing(s, length);
    if (refusal != 0) return answer(refusal, 0, s);
    switch (port) {
    case ZK_C_PORT_INDEX_LOW: return answer(0, s.index & 0xff, s);
    case ZK_C_PORT_INDEX_HIGH: return answer(0, s.index >> 8, s);
    case ZK_C_PORT_DATA:
        if (s.index == ZK_C_INDEX_UPDATE) return answer(0, s.update, s);
        if (in_space(s.index, ZK_C_INDEX_READ)) return palette_read(s, table);
        return answer(ZK_NO_INDEX, 0, s);
    default: return answer(ZK_NO_ACCESS, 0, s);
    }
}

zk_looked NAME(c_look)(zk_c_state s, uint32_t place, const uint16_t *table, size_t length) {
    unsigned refusal = standing(s, length);
    uint32_t number = place - ZK_C_LOOK_TABLE;
    if (refusal != 0) return looked(refusal, 0);
    if (number < ZK_C_TABLE) return looked(0, table[number]);
    switch (place) {
    case ZK_C_LOOK_INDEX: return looked(0, s.index);
    case ZK_C_LOOK_PLACE: return looked(0, s.place);
    case ZK_C_LOOK_RED: return looked(0, s.red);
    case ZK_C_LOOK_GREEN: return looked(0, s.green);
    case ZK_C_LOOK_FETCHED_RED: return looked(0, s.fetched.red);
    case ZK_C_LOOK_FETCHED_GREEN: return looked(0, s.fetched.green);
    case ZK_C_LOOK_FETCHED_BLUE: return looked(0, s.fetched.blue);
    case ZK_C_LOOK_UPDATE: return looked(0, s.update);
    default: return looked(ZK_NO_ACCESS, 0);
    }
}

zk_c_answer NAME(c_reset)(zk_c_state s) {
    zk_c_state zero = {0};
    (void)s;
    return answer(0, 0, zero);
}
