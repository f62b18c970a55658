/* torn: a colour on chip A halfway, looked at, and torn by a read of the address. */
#include <zikombaru.h>

#include <stdio.h>

static zk_a_chip chip; /* zeroed: a chip after a reset, with black tables */

int main(void) {
    if (zk_a_chip_write(&chip, ZK_A_SELECT_ADDRESS, 0x10) != ZK_ACCEPTED) return 1;
    if (zk_a_chip_write(&chip, ZK_A_SELECT_COLOUR, 0x03) != ZK_ACCEPTED) return 1; /* red */
    zk_looked look = zk_a_chip_look(&chip, ZK_A_LOOK_ADDRESS);
    printf("the look: %s, value %02x, and the pointer stays %u\n", zk_refusal_text(look.refusal), look.value,
           chip.state.pointer);
    zk_told read = zk_a_chip_read(&chip, ZK_A_SELECT_ADDRESS);
    printf("the read: %s, value %02x, and the pointer becomes %u\n", zk_refusal_text(read.refusal), read.value,
           chip.state.pointer);
    return 0;
}
