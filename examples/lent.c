/* lent: chip B with its state and tables kept by hand, without a zk_b_chip, and why the state of every answer is kept:
 * a call changes the lent tables in place, and a state from before it no longer fits them. */
#include <zikombaru.h>

#include <stdio.h>

static zk_b_state state; /* zeroed, it still needs a reset: see main */
static uint64_t queue[ZK_B_PLACES];
static uint8_t map[ZK_B_MAP];

/* the state of every answer is the chip's; a refused call hands back the one that it was given */
static void keep(zk_b_answer answer, const char *what) {
    state = answer.state;
    if (answer.refusal != ZK_ACCEPTED) printf("%s is refused: %s\n", what, zk_refusal_text(answer.refusal));
}

static void put(uint8_t select, uint8_t byte) {
    keep(zk_b_write(state, select, byte, queue, ZK_B_PLACES, map, ZK_B_MAP), "a write");
}

static void put_colour(uint8_t address, uint8_t red, uint8_t green, uint8_t blue) {
    put(ZK_B_SELECT_ADDRESS_LOW, address);
    put(ZK_B_SELECT_PALETTE, red);
    put(ZK_B_SELECT_PALETTE, green);
    put(ZK_B_SELECT_PALETTE, blue);
}

static void blank(uint32_t slots) {
    zk_b_answer answer = zk_b_blank(state, slots, queue, ZK_B_PLACES, map, ZK_B_MAP);
    keep(answer, "blanking");
    printf("slots of blanking: %u; %u moved, %u wait, entry 0 is %02x %02x %02x\n", slots, answer.count,
           state.fifo.waiting, map[0], map[1], map[2]);
}

int main(void) {
    keep(zk_b_reset(state, queue, ZK_B_PLACES), "the reset");
    put_colour(0, 0xff, 0xff, 0xff);
    blank(1);

    zk_b_state none = state; /* a state of which none wait.. */
    put_colour(0, 0x10, 0x20, 0x30);
    unsigned status = zk_b_read(none, ZK_B_SELECT_STATUS, queue, ZK_B_PLACES, map, ZK_B_MAP).value;
    printf("with the state from before a colour the status is 0x%02x, %s: the colour is lost\n", status,
           status & ZK_B_STATUS_EFB ? "some wait" : "none wait");

    zk_b_state one = state; /* ..and one of which one does */
    blank(1);
    put_colour(0, 0x40, 0x50, 0x60);
    blank(1);
    printf("with the state from before these two slots, which says that 1 waits:\n");
    state = one;
    blank(1); /* what its place still holds, of which nothing is promised: here the older colour, over the newer */
    return 0;
}
