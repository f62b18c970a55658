/* rgb640: a short story of chip C: entries written at 0x4000 and up, fetched at 0x8000 and up, auto-increment. */
#include <zikombaru.h>

#include <stdio.h>

static zk_c_chip chip; /* zeroed: a chip after a reset, with a black table; auto-increment is on */

static void put(uint8_t port, uint8_t byte) {
    uint8_t refusal = zk_c_chip_write(&chip, port, byte);
    if (refusal != ZK_ACCEPTED) printf("a write to %u is refused: %s\n", port, zk_refusal_text(refusal));
}

static unsigned get(uint8_t port) {
    zk_told told = zk_c_chip_read(&chip, port);
    if (told.refusal != ZK_ACCEPTED) printf("a read of %u is refused: %s\n", port, zk_refusal_text(told.refusal));
    return told.value;
}

static unsigned look(uint32_t place) {
    zk_looked looked = zk_c_chip_look(&chip, place);
    if (looked.refusal != ZK_ACCEPTED) printf("a look at %x is refused: %s\n", place, zk_refusal_text(looked.refusal));
    return looked.value;
}

/* low byte first: it is the high byte that fetches an entry of the read space */
static void put_index(unsigned index) {
    put(ZK_C_PORT_INDEX_LOW, (uint8_t)(index & 0xff));
    put(ZK_C_PORT_INDEX_HIGH, (uint8_t)(index >> 8));
}

static void put_colour(uint8_t red, uint8_t green, uint8_t blue) {
    put(ZK_C_PORT_DATA, red);
    put(ZK_C_PORT_DATA, green);
    put(ZK_C_PORT_DATA, blue);
}

static void tell_entry(uint32_t entry) {
    uint32_t first = ZK_C_LOOK_TABLE + ZK_COMPONENTS * entry;
    printf("entry %4u is %4u %4u %4u\n", entry, look(first), look(first + 1), look(first + 2));
}

/* three reads, and where they leave the index */
static void tell_read(const char *what) {
    unsigned red = get(ZK_C_PORT_DATA), green = get(ZK_C_PORT_DATA), blue = get(ZK_C_PORT_DATA);
    printf("%s: %02x %02x %02x; the index is now 0x%04x\n", what, red, green, blue, look(ZK_C_LOOK_INDEX));
}

int main(void) {
    put_index(ZK_C_INDEX_WRITE + 0x3ff);
    put_colour(0xff, 0x80, 0x00);
    printf("written at 0x43ff; the index is now 0x%04x\n", look(ZK_C_LOOK_INDEX));
    put_colour(0x01, 0x02, 0x03);
    tell_entry(0x3ff);
    tell_entry(0);

    put_index(ZK_C_INDEX_READ + 0x3ff);
    tell_read("read at 0x83ff");
    tell_read("read on");
    put_index(ZK_C_INDEX_READ + 0x3ff);
    put(ZK_C_PORT_INDEX_LOW, 0x00); /* port 4 alone fetches nothing */
    tell_read("0x8300 by port 4 alone, still entry 0x3ff");

    put_index(ZK_C_INDEX_UPDATE);
    put(ZK_C_PORT_DATA, ZK_C_UPDATE_RDAI); /* no auto-increment after reads */
    put_index(ZK_C_INDEX_READ);
    tell_read("read at 0x8000, without auto-increment");
    tell_read("read again");

    put_index(ZK_C_INDEX_WRITE);
    printf("at 0x4000, in the write space, ");
    get(ZK_C_PORT_DATA);
    return 0;
}
