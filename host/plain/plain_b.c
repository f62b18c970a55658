/* Chip B in plain C, from document 01, "Chip B", and document 02, P5 and P7. */
#include "plain.h"

/* Every waiting entry has an address below 8,192: those up to the places' end, then those from place 0 on. */
static int queue_in_range(const uint64_t *queue, zk_b_fifo fifo) {
    unsigned end = fifo.first + fifo.waiting, split = end < ZK_B_PLACES ? end : ZK_B_PLACES, i;
    uint64_t all = 0;
    for (i = fifo.first; i < split; i++) all |= queue[i];
    for (; i < end; i++) all |= queue[i - ZK_B_PLACES];
    return all < (uint64_t)ZK_B_ENTRIES << 24;
}

/* refusals 1 and 9; a call that is lent no map gives its size as ZK_B_MAP */
static unsigned standing(zk_b_state s, const uint64_t *queue, size_t places, size_t bytes) {
    if (!CHECKED) return 0;
    if (places != ZK_B_PLACES || bytes != ZK_B_MAP) return ZK_LENT_LENGTH;
    if (s.port.address >= ZK_B_ENTRIES || s.port.counter > 2 || (s.control.command & ZK_B_COMMAND_RESERVED) != 0
        || s.control.readmode > 1 || s.ident.revision > 7 || s.ident.board > 15 || s.fifo.first >= ZK_B_PLACES
        || s.fifo.waiting > ZK_B_PLACES)
        return ZK_OUT_OF_RANGE;
    return queue_in_range(queue, s.fifo) ? 0 : ZK_OUT_OF_RANGE;
}

static zk_b_answer answer(unsigned refusal, unsigned value, unsigned count, zk_b_state s) {
    zk_b_answer a = {(uint8_t)refusal, (uint8_t)value, (uint16_t)count, s};
    return a;
}

/* the smaller of slots and waiting entries go into the map, the oldest first */
static unsigned transfer(zk_b_state *s, uint32_t slots, const uint64_t *queue, uint8_t *map) {
    unsigned first = s->fifo.first, waiting = s->fifo.waiting, moved = slots < waiting ? slots : waiting, i;
    for (i = 0; i < moved; i++) {
        uint64_t oldest = queue[(first + i) % ZK_B_PLACES];
        uint8_t *entry = map + 3 * (oldest >> 24);
        entry[0] = (uint8_t)oldest;
        entry[1] = (uint8_t)(oldest >> 8);
        entry[2] = (uint8_t)(oldest >> 16);
    }
    s->fifo.first = (uint8_t)((first + moved) % ZK_B_PLACES);
    s->fifo.waiting = (uint8_t)(waiting - moved);
    return moved;
}

static zk_b_state stepped(zk_b_state s) {
    if (s.port.counter < 2) {
        s.port.counter++;
    } else {
        s.port.counter = 0;
        s.port.address = (uint16_t)((s.port.address + 1) & (ZK_B_ENTRIES - 1));
    }
    return s;
}

static zk_b_answer palette_write(zk_b_state s, uint8_t byte, uint64_t *queue, uint8_t *map) {
    unsigned moved = s.fifo.waiting == ZK_B_PLACES ? transfer(&s, ZK_B_FORCED, queue, map) : 0;
    if (s.port.counter == 0) {
        s.port.red = byte;
    } else if (s.port.counter == 1) {
        s.port.green = byte;
    } else {
        unsigned end = s.fifo.first + s.fifo.waiting++;
        queue[end % ZK_B_PLACES] = zk_b_entry(s.port.address, s.port.red, s.port.green, byte);
    }
    return answer(0, 0, moved, stepped(s));
}

zk_b_answer NAME(b_write)(zk_b_state s, uint8_t select, uint8_t byte, uint64_t *queue, size_t places, uint8_t *map,
                          size_t bytes) {
    unsigned refusal = standing(s, queue, places, bytes);
    if (refusal != 0) return answer(refusal, 0, 0, s);
    switch (select) {
    case ZK_B_SELECT_ADDRESS_LOW:
        s.port.address = (uint16_t)((s.port.address & 0xff00) | byte);
        s.port.counter = 0;
        break;
    case ZK_B_SELECT_ADDRESS_HIGH:
        s.port.address = (uint16_t)((s.port.address & 0x00ff) | (byte & 31) << 8);
        s.port.counter = 0;
        break;
    case ZK_B_SELECT_PALETTE:
        if (s.control.readmode) return answer(ZK_READ_MODE, 0, 0, s);
        return palette_write(s, byte, queue, map);
    case ZK_B_SELECT_COMMAND: s.control.command = (uint8_t)(byte & ~ZK_B_COMMAND_RESERVED); break;
    case ZK_B_SELECT_READMODE: s.control.readmode = 1; break;
    default: return answer(ZK_NO_ACCESS, 0, 0, s);
    }
    return answer(0, 0, 0, s);
}

static unsigned status(zk_b_state s) {
    unsigned waiting = s.fifo.waiting, almost = s.control.command & ZK_B_COMMAND_AFB;
    unsigned mark = almost ? ZK_B_ALMOST_FULL : ZK_B_HALF_FULL;
    return s.port.counter | (waiting != 0 ? ZK_B_STATUS_EFB : 0u) | (waiting < mark ? ZK_B_STATUS_AFB : 0u)
           | (waiting < ZK_B_PLACES ? ZK_B_STATUS_FFB : 0u);
}

zk_b_answer NAME(b_read)(zk_b_state s, uint8_t select, const uint64_t *queue, size_t places, const uint8_t *map,
                         size_t bytes) {
    unsigned refusal = standing(s, queue, places, bytes);
    if (refusal != 0) return answer(refusal, 0, 0, s);
    switch (select) {
    case ZK_B_SELECT_ADDRESS_LOW: return answer(0, s.port.address & 0xff, 0, s);
    case ZK_B_SELECT_ADDRESS_HIGH: return answer(0, s.port.address >> 8, 0, s);
    case ZK_B_SELECT_PALETTE:
        if (!s.control.readmode) return answer(ZK_READ_MODE, 0, 0, s);
        if (s.fifo.waiting != 0) return answer(ZK_STILL_WAITING, 0, 0, s);
        return answer(0, map[3 * s.port.address + s.port.counter], 0, stepped(s));
    case ZK_B_SELECT_COMMAND: return answer(0, s.control.command, 0, s);
    case ZK_B_SELECT_STATUS: return answer(0, status(s), 0, s);
    case ZK_B_SELECT_BUFFER:
        if (s.port.counter == 2) return answer(ZK_NO_ACCESS, 0, 0, s);
        if (s.port.counter == 1) return answer(0, s.port.green, 0, s);
        s.port.counter = 1;
        return answer(0, s.port.red, 0, s);
    case ZK_B_SELECT_REVISION: return answer(0, s.ident.board << 4 | s.ident.revision, 0, s);
    case ZK_B_SELECT_READMODE: s.control.readmode = 0; return answer(0, 0, 0, s);
    default: return answer(ZK_NO_ACCESS, 0, 0, s);
    }
}

/* the map as stored, whatever waits */
zk_looked NAME(b_look)(zk_b_state s, uint32_t place, const uint64_t *queue, size_t places, const uint8_t *map,
                       size_t bytes) {
    unsigned refusal = standing(s, queue, places, bytes);
    uint32_t byte = place - ZK_B_LOOK_MAP;
    if (refusal != 0) return looked(refusal, 0);
    if (byte < ZK_B_MAP) return looked(0, map[byte]);
    switch (place) {
    case ZK_B_LOOK_ADDRESS: return looked(0, s.port.address);
    case ZK_B_LOOK_COUNTER: return looked(0, s.port.counter);
    case ZK_B_LOOK_RED: return looked(0, s.port.red);
    case ZK_B_LOOK_GREEN: return looked(0, s.port.green);
    case ZK_B_LOOK_COMMAND: return looked(0, s.control.command);
    case ZK_B_LOOK_READMODE: return looked(0, s.control.readmode);
    case ZK_B_LOOK_REVISION: return looked(0, s.ident.revision);
    case ZK_B_LOOK_BOARD: return looked(0, s.ident.board);
    case ZK_B_LOOK_WAITING: return looked(0, s.fifo.waiting);
    case ZK_B_LOOK_FIRST: return looked(0, s.fifo.first);
    default: return looked(ZK_NO_ACCESS, 0);
    }
}

zk_b_answer NAME(b_blank)(zk_b_state s, uint32_t slots, const uint64_t *queue, size_t places, uint8_t *map,
                          size_t bytes) {
    unsigned refusal = standing(s, queue, places, bytes), moved;
    if (CHECKED && refusal == 0 && slots > 65535) refusal = ZK_OUT_OF_RANGE;
    if (refusal != 0) return answer(refusal, 0, 0, s);
    moved = transfer(&s, slots, queue, map);
    return answer(0, 0, moved, s);
}

zk_b_shown NAME(b_pixel)(zk_b_state s, uint8_t mode, uint32_t word, const uint64_t *queue, size_t places,
                         const uint8_t *map, size_t bytes) {
    unsigned refusal = standing(s, queue, places, bytes);
    zk_b_shown shown = {(uint8_t)refusal, 0, 0, 0};
    if (CHECKED && refusal == 0 && (mode > 3 || word > 0xffffff)) shown.refusal = ZK_OUT_OF_RANGE;
    if (shown.refusal != 0) return shown;
    if (mode == ZK_B_MODE_INDEX) {
        const uint8_t *entry = map + 3 * (word & (ZK_B_ENTRIES - 1));
        shown.red = entry[0];
        shown.green = entry[1];
        shown.blue = entry[2];
    } else {
        const uint8_t *part = map + 3 * (ZK_B_RGB1_ENTRY + 256 * (mode - ZK_B_MODE_RGB1));
        shown.red = part[3 * (word & 0xff)];
        shown.green = part[3 * (word >> 8 & 0xff) + 1];
        shown.blue = part[3 * (word >> 16) + 2];
    }
    return shown;
}

zk_b_answer NAME(b_sync)(zk_b_state s, uint8_t signals, const uint64_t *queue, size_t places) {
    unsigned refusal = standing(s, queue, places, ZK_B_MAP);
    if (CHECKED && refusal == 0 && signals > 15) refusal = ZK_OUT_OF_RANGE;
    if (refusal != 0) return answer(refusal, 0, 0, s);
    return answer(0, (signals & s.control.command & 3) | ((signals | s.control.command) & 12), 0, s);
}

zk_b_answer NAME(b_reset)(zk_b_state s, const uint64_t *queue, size_t places) {
    zk_b_state fresh = {{0, 0, 0, 0}, {3, 0}, s.ident, {0, 0}};
    (void)queue;
    if (CHECKED && places != ZK_B_PLACES) return answer(ZK_LENT_LENGTH, 0, 0, s);
    if (CHECKED && (s.ident.revision > 7 || s.ident.board > 15)) return answer(ZK_OUT_OF_RANGE, 0, 0, s);
    return answer(0, 0, 0, fresh);
}
