/* refusals: each of the nine refusals, by a call that gets it; none of them changes anything. */
#include <zikombaru.h>

#include <stdio.h>

static zk_a_chip a; /* all zeroed */
static zk_b_chip b;
static zk_c_chip c;
static uint8_t text[ZK_SHEET_BYTES];

static int failed;

static void tell(unsigned expected, unsigned refusal, const char *what) {
    printf("%u, %s: %s\n", refusal, what, zk_refusal_text(refusal));
    if (refusal != expected) failed = 1;
}

/* 1: the library measures what it is lent; a zk_a_chip always has its lengths */
static unsigned short_table(void) {
    return zk_a_read(a.state, ZK_A_SELECT_COLOUR, a.colours, ZK_A_COLOURS - 1, a.overlays, ZK_A_OVERLAYS).refusal;
}

/* 2: any byte may stand in a table, but a sheet has one digit for it */
static unsigned over_fifteen(void) {
    static zk_a_chip bright;
    bright.colours[0] = 16;
    return zk_refusal(zk_a_chip_write_sheet(&bright, text, sizeof text));
}

/* 6: a colour waits, and read mode is on */
static unsigned still_waiting(void) {
    static zk_b_chip busy;
    for (int i = 0; i < ZK_COMPONENTS; i++)
        if (zk_b_chip_write(&busy, ZK_B_SELECT_PALETTE, 0).refusal != ZK_ACCEPTED) return 0;
    if (zk_b_chip_write(&busy, ZK_B_SELECT_READMODE, 0).refusal != ZK_ACCEPTED) return 0;
    return zk_b_chip_read(&busy, ZK_B_SELECT_PALETTE).refusal;
}

/* 9: a state that is no chip's */
static unsigned bad_pointer(void) {
    static zk_a_chip odd;
    odd.state.pointer = 3;
    return zk_a_chip_read(&odd, ZK_A_SELECT_ADDRESS).refusal;
}

int main(void) {
    static const uint8_t sheet[] = "chip=153108\nreadmask=0G\n";
    tell(1, short_table(), "chip A read with 767 bytes of colours");
    tell(2, over_fifteen(), "the sheet of a chip with a 16 in its colours");
    tell(3, zk_a_chip_write(&a, 2, 0x00), "a write to chip A's select 2");
    tell(4, zk_c_chip_read(&c, ZK_C_PORT_DATA).refusal, "a read of chip C's port 6 at index 0x0000");
    tell(5, zk_b_chip_read(&b, ZK_B_SELECT_PALETTE).refusal, "a read of chip B's select 2 outside read mode");
    tell(6, still_waiting(), "the same in read mode, while a colour waits");
    tell(7, zk_refusal(zk_a_chip_write_sheet(&a, text, sizeof text - 1)), "a sheet into 2,133 bytes");
    tell(8, zk_refusal(zk_a_chip_load_sheet(&a, sheet, sizeof sheet - 1)), "a sheet with the line readmask=0G");
    tell(9, bad_pointer(), "chip A with its pointer at 3");
    return failed;
}
