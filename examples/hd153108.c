/* hd153108: a short story of chip A: colours and an overlay loaded, read back, looked at; a caption that blinks. */
#include <zikombaru.h>

#include <stdio.h>

static zk_a_chip chip; /* zeroed: a chip after a reset, with black tables */

static void put(uint8_t select, uint8_t byte) {
    uint8_t refusal = zk_a_chip_write(&chip, select, byte);
    if (refusal != ZK_ACCEPTED) printf("a write to %u is refused: %s\n", select, zk_refusal_text(refusal));
}

/* red, green and blue, to select 1 or 3; the blue write stores all three and steps the address */
static void put_colour(uint8_t select, uint8_t red, uint8_t green, uint8_t blue) {
    put(select, red);
    put(select, green);
    put(select, blue);
}

/* a read moves the pointer, and after blue the address; at select 0 it sets the pointer to red */
static unsigned get(uint8_t select) {
    zk_told told = zk_a_chip_read(&chip, select);
    if (told.refusal != ZK_ACCEPTED) printf("a read of %u is refused: %s\n", select, zk_refusal_text(told.refusal));
    return told.value;
}

/* a look moves nothing */
static unsigned look(uint32_t place) {
    zk_looked looked = zk_a_chip_look(&chip, place);
    if (looked.refusal != ZK_ACCEPTED) printf("a look at %x is refused: %s\n", place, zk_refusal_text(looked.refusal));
    return looked.value;
}

static void load(void) {
    put(ZK_A_SELECT_BLINKMASK, 0xff); /* no line of the picture blinks */
    put(ZK_A_SELECT_CONTROL, ZK_A_CONTROL_CLT_ENABLE); /* overlays blink, and let the picture through */
    put(ZK_A_SELECT_TIMING, 0x31); /* on for 8 ticks, off for 16 */
    put(ZK_A_SELECT_ADDRESS, 0x10);
    put_colour(ZK_A_SELECT_COLOUR, 0x0, 0xa, 0x5);
    put_colour(ZK_A_SELECT_COLOUR, 0xf, 0xf, 0xf);
    printf("two colours are loaded from 0x10 on; the address has stepped to 0x%02x\n", look(ZK_A_LOOK_ADDRESS));
    put(ZK_A_SELECT_ADDRESS, 1);
    put_colour(ZK_A_SELECT_OVERLAY, 0xf, 0x0, 0x0);
    printf("overlay 1 is loaded; the overlays' bytes 3 to 5 are %x %x %x\n", look(ZK_A_LOOK_OVERLAYS + 3),
           look(ZK_A_LOOK_OVERLAYS + 4), look(ZK_A_LOOK_OVERLAYS + 5));
}

static void read_back(void) {
    put(ZK_A_SELECT_ADDRESS, 0x10);
    printf("read back from 0x10 on:");
    for (int i = 0; i < 2 * ZK_COMPONENTS; i++) printf(" %x", get(ZK_A_SELECT_COLOUR));
    put(ZK_A_SELECT_COLOUR, 0x7); /* red of entry 0x12, and no more */
    printf("\na red is latched: a look finds the pointer at %u,", look(ZK_A_LOOK_POINTER));
    printf(" a read of the address (0x%02x) sets it back,", get(ZK_A_SELECT_ADDRESS));
    printf(" and then it is %u\n", look(ZK_A_LOOK_POINTER));
}

/* overlay 1 over colour 0x10, through a whole blink period: what shows is told when it changes */
static void blink(void) {
    zk_a_shown before = {0, 0, 0, 0};
    for (int tick = 0; tick <= 24; tick++) {
        zk_a_shown now = zk_a_chip_pixel(&chip, 1, 1, 0x10);
        if (tick == 0 || now.red != before.red || now.green != before.green || now.blue != before.blue)
            printf("from tick %2d on the caption's pixel shows %x %x %x\n", tick, now.red, now.green, now.blue);
        before = now;
        if (zk_a_chip_tick(&chip) != ZK_ACCEPTED) printf("the clock is out of range\n");
    }
}

int main(void) {
    load();
    read_back();
    blink();
    put(2, 0x00); /* reserved */
    zk_a_chip_reset(&chip);
    printf("after a reset the timing is %u, and the colours stay: byte 0x31 is %x\n", look(ZK_A_LOOK_TIMING),
           look(ZK_A_LOOK_COLOURS + 0x31));
    return 0;
}
