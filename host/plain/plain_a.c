/* Chip A in plain C, from document 01, "Chip A", and document 02, P3 and P5. */
#include "plain.h"

static zk_a_answer answer(unsigned refusal, unsigned value, zk_a_state s) {
    zk_a_answer a = {(uint8_t)refusal, (uint8_t)value, s};
    return a;
}

static uint8_t next_overlay(uint8_t address) { return (uint8_t)((address & 0xfc) | ((address + 1) & 3)); }

/* after is the address that follows blue */
static zk_a_state stepped(zk_a_state s, uint8_t after) {
    if (s.pointer < 2) {
        s.pointer++;
    } else {
        s.pointer = 0;
        s.address = after;
    }
    return s;
}

static zk_a_state data_write(zk_a_state s, uint8_t byte, uint8_t *entry, uint8_t after) {
    byte &= 15;
    if (s.pointer == 0) {
        s.red = byte;
    } else if (s.pointer == 1) {
        s.green = byte;
    } else {
        entry[0] = s.red;
        entry[1] = s.green;
        entry[2] = byte;
    }
    return stepped(s, after);
}

zk_a_answer NAME(a_write)(zk_a_state s, uint8_t select, uint8_t byte, uint8_t *colours, size_t colours_length,
                          uint8_t *overlays, size_t overlays_length) {
    unsigned refusal = standing_a(s, colours_length, overlays_length);
    if (refusal != 0) return answer(refusal, 0, s);
    switch (select) {
    case ZK_A_SELECT_ADDRESS:
        s.address = byte;
        s.pointer = 0;
        break;
    case ZK_A_SELECT_COLOUR: s = data_write(s, byte, colours + 3 * s.address, (uint8_t)(s.address + 1)); break;
    case ZK_A_SELECT_OVERLAY:
        s = data_write(s, byte, overlays + 3 * (s.address & 3), next_overlay(s.address));
        break;
    case ZK_A_SELECT_READMASK: s.readmask = byte; break;
    case ZK_A_SELECT_BLINKMASK: s.blinkmask = byte; break;
    case ZK_A_SELECT_CONTROL: s.control = (uint8_t)(byte & ~ZK_A_CONTROL_RESERVED); break;
    case ZK_A_SELECT_TIMING:
        s.clock.timing = byte;
        s.clock.position = 0;
        break;
    default: return answer(ZK_NO_ACCESS, 0, s);
    }
    return answer(0, 0, s);
}

zk_a_answer NAME(a_read)(zk_a_state s, uint8_t select, const uint8_t *colours, size_t colours_length,
                         const uint8_t *overlays, size_t overlays_length) {
    unsigned refusal = standing_a(s, colours_length, overlays_length);
    if (refusal != 0) return answer(refusal, 0, s);
    switch (select) {
    case ZK_A_SELECT_ADDRESS: s.pointer = 0; return answer(0, s.address, s);
    case ZK_A_SELECT_COLOUR:
        return answer(0, colours[3 * s.address + s.pointer], stepped(s, (uint8_t)(s.address + 1)));
    case ZK_A_SELECT_OVERLAY:
        return answer(0, overlays[3 * (s.address & 3) + s.pointer], stepped(s, next_overlay(s.address)));
    case ZK_A_SELECT_READMASK: return answer(0, s.readmask, s);
    case ZK_A_SELECT_BLINKMASK: return answer(0, s.blinkmask, s);
    case ZK_A_SELECT_CONTROL: return answer(0, s.control, s);
    case ZK_A_SELECT_TIMING: return answer(0, s.clock.timing, s);
    default: return answer(ZK_NO_ACCESS, 0, s);
    }
}

zk_looked NAME(a_look)(zk_a_state s, uint32_t place, const uint8_t *colours, size_t colours_length,
                       const uint8_t *overlays, size_t overlays_length) {
    unsigned refusal = standing_a(s, colours_length, overlays_length);
    uint32_t colour = place - ZK_A_LOOK_COLOURS, overlay = place - ZK_A_LOOK_OVERLAYS;
    if (refusal != 0) return looked(refusal, 0);
    if (colour < ZK_A_COLOURS) return looked(0, colours[colour]);
    if (overlay < ZK_A_OVERLAYS) return looked(0, overlays[overlay]);
    switch (place) {
    case ZK_A_LOOK_ADDRESS: return looked(0, s.address);
    case ZK_A_LOOK_POINTER: return looked(0, s.pointer);
    case ZK_A_LOOK_RED: return looked(0, s.red);
    case ZK_A_LOOK_GREEN: return looked(0, s.green);
    case ZK_A_LOOK_READMASK: return looked(0, s.readmask);
    case ZK_A_LOOK_BLINKMASK: return looked(0, s.blinkmask);
    case ZK_A_LOOK_CONTROL: return looked(0, s.control);
    case ZK_A_LOOK_TIMING: return looked(0, s.clock.timing);
    case ZK_A_LOOK_POSITION: return looked(0, s.clock.position);
    default: return looked(ZK_NO_ACCESS, 0);
    }
}

zk_a_answer NAME(a_reset)(zk_a_state s) {
    zk_a_state zero = {0};
    (void)s;
    return answer(0, 0, zero);
}

static unsigned tick(zk_a_clock *k) {
    unsigned end = period(k->timing), next = k->position + 1u;
    if (CHECKED && k->position >= end) return ZK_OUT_OF_RANGE;
    k->position = (uint8_t)(next == end ? 0 : next);
    return 0;
}

zk_a_clock_answer NAME(a_step)(zk_a_clock k) {
    zk_a_clock_answer a;
    a.refusal = (uint8_t)tick(&k);
    a.clock = k;
    return a;
}

uint8_t NAME(a_tick)(zk_a_clock *k) { return (uint8_t)tick(k); }

static unsigned refused_pixel(zk_a_state s, uint8_t enable, uint8_t number, size_t colours, size_t overlays) {
    unsigned refusal = standing_a(s, colours, overlays);
    return CHECKED && refusal == 0 && (enable > 1 || number > 3) ? ZK_OUT_OF_RANGE : refusal;
}

static zk_a_shown show(unsigned refusal, const uint8_t *entry) {
    zk_a_shown shown = {(uint8_t)refusal, entry[0], entry[1], entry[2]};
    return shown;
}

zk_a_shown NAME(a_pixel)(zk_a_state s, uint8_t enable, uint8_t number, uint8_t byte, const uint8_t *colours,
                         size_t colours_length, const uint8_t *overlays, size_t overlays_length) {
    static const uint8_t none[3];
    unsigned refusal = refused_pixel(s, enable, number, colours_length, overlays_length);
    int off = s.clock.position >= on_time(s.clock.timing);
    if (refusal != 0) return show(refusal, none);
    if (enable) {
        number &= (uint8_t)~s.control;
        if (off) number &= s.control >> 2;
        number &= 3;
        if ((s.control & ZK_A_CONTROL_CLT_ENABLE) == 0 || number != 0) return show(0, overlays + 3 * number);
    }
    byte &= (uint8_t)~s.readmask;
    if (off) byte &= s.blinkmask;
    return show(0, colours + 3 * byte);
}

uint8_t NAME(a_pixel_refusal)(zk_a_state s, uint8_t enable, uint8_t number, uint8_t byte, const uint8_t *colours,
                              size_t colours_length, const uint8_t *overlays, size_t overlays_length) {
    (void)byte, (void)colours, (void)overlays;
    return (uint8_t)refused_pixel(s, enable, number, colours_length, overlays_length);
}
