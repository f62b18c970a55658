/* sheet [FILE]: loads a sheet, of a file or of standard input, into chip A, and prints the sheet of the chip, all
 * entries listed. Status 0; 1 where the sheet is refused or can't be read, and why; 2 for bad usage. */
#include "load.h"

int main(int argc, char **argv) {
    static zk_a_chip chip; /* zeroed: a chip after a reset, with black tables */
    static uint8_t text[ZK_SHEET_BYTES];
    if (argc > 2 || (argc == 2 && argv[1][0] == '-')) {
        fprintf(stderr, "usage: sheet [FILE]\n");
        return 2;
    }
    if (!load(&chip, argc == 2 ? argv[1] : NULL)) return 1;
    uint64_t written = zk_a_chip_write_sheet(&chip, text, sizeof text);
    if (zk_refusal(written) != ZK_ACCEPTED) {
        fprintf(stderr, "sheet: %s\n", zk_refusal_text(zk_refusal(written)));
        return 1;
    }
    if (fwrite(text, 1, zk_count(written), stdout) != zk_count(written) || fflush(stdout) != 0) {
        perror("standard output");
        return 1;
    }
    return 0;
}
