/* ms622424: a short story of chip B: the queue filled, its flags, a forced transfer, blanking, the map read back. */
#include <zikombaru.h>

#include <stdio.h>

static zk_b_chip chip; /* zeroed, it still needs a reset: see main */

static zk_moved put(uint8_t select, uint8_t byte) {
    zk_moved moved = zk_b_chip_write(&chip, select, byte);
    if (moved.refusal != ZK_ACCEPTED) printf("a write to %u is refused: %s\n", select, zk_refusal_text(moved.refusal));
    return moved;
}

static unsigned get(uint8_t select) {
    zk_told told = zk_b_chip_read(&chip, select);
    if (told.refusal != ZK_ACCEPTED) printf("a read of %u is refused: %s\n", select, zk_refusal_text(told.refusal));
    return told.value;
}

static void put_address(uint16_t address) {
    put(ZK_B_SELECT_ADDRESS_LOW, (uint8_t)(address & 0xff));
    put(ZK_B_SELECT_ADDRESS_HIGH, (uint8_t)(address >> 8));
}

/* the status register: its three flags are active low */
static void tell_status(void) {
    unsigned status = get(ZK_B_SELECT_STATUS);
    printf("%2u wait, status 0x%02x%s%s%s\n", chip.state.fifo.waiting, status,
           status & ZK_B_STATUS_EFB ? "" : " empty", status & ZK_B_STATUS_AFB ? "" : " half-full",
           status & ZK_B_STATUS_FFB ? "" : " full");
}

/* 64 colours for the entries from 0x100 on; the status is told where a flag changes */
static void fill(void) {
    put_address(0x100);
    for (uint8_t n = 1; n <= ZK_B_PLACES; n++) {
        put(ZK_B_SELECT_PALETTE, n);
        put(ZK_B_SELECT_PALETTE, 0x20);
        put(ZK_B_SELECT_PALETTE, 0x30);
        if (n == 1 || n == ZK_B_HALF_FULL || n == ZK_B_PLACES) tell_status();
    }
}

static void tell_pixel(uint32_t entry) {
    zk_b_shown shown = zk_b_chip_pixel(&chip, ZK_B_MODE_INDEX, entry);
    printf("entry 0x%03x shows %02x %02x %02x\n", entry, shown.red, shown.green, shown.blue);
}

/* the map is read in read mode alone, and not while entries wait */
static void read_back(void) {
    printf("outside read mode "); /* get tells the rest */
    get(ZK_B_SELECT_PALETTE);
    put(ZK_B_SELECT_READMODE, 0);
    printf("in read mode ");
    get(ZK_B_SELECT_PALETTE);
    zk_moved moved = zk_b_chip_blank(&chip, 100);
    printf("blanking, 100 slots: %u entries are moved\n", moved.count);
    tell_status();
    put_address(0x13f);
    printf("read back from 0x13f on:");
    for (int i = 0; i < ZK_COMPONENTS; i++) printf(" %02x", get(ZK_B_SELECT_PALETTE));
    printf("; the address has stepped to 0x%x%02x\n", get(ZK_B_SELECT_ADDRESS_HIGH), get(ZK_B_SELECT_ADDRESS_LOW));
    get(ZK_B_SELECT_READMODE); /* read mode off */
}

int main(void) {
    chip.state.ident.revision = 3; /* the board's, which a reset keeps */
    chip.state.ident.board = 5;
    if (zk_b_chip_reset(&chip) != ZK_ACCEPTED) return 1;
    printf("revision register 0x%02x, command register 0x%02x\n", get(ZK_B_SELECT_REVISION), get(ZK_B_SELECT_COMMAND));
    tell_status();
    fill();
    tell_pixel(0x100);
    printf("a red write to the full queue: %u entries are moved\n", put(ZK_B_SELECT_PALETTE, 0x41).count);
    tell_status();
    tell_pixel(0x100);
    tell_pixel(0x104);
    read_back();
    put(ZK_B_SELECT_COMMAND, ZK_B_COMMAND_PIPE0 | ZK_B_COMMAND_PIPE3);
    printf("timing signals 0x6 come out as 0x%x\n", zk_b_chip_sync(&chip, 0x6).value);
    return 0;
}
