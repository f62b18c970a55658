/* calls [FILE]: the port calls that load a sheet, of a file or of standard input, into chip A, one a line as loadlist
 * prints them. Status 0; 1 where the sheet is refused or can't be read, and why; 2 for bad usage. */
#include "load.h"

/* on a board: a write cycle of the HD153108, the select on RS2 to RS0 and the byte on D0 to D7 */
static void port_write(uint8_t select, uint8_t byte) { printf("w%u=%02x\n", select, byte); }

int main(int argc, char **argv) {
    static sheet_text sheet;
    static uint8_t calls[ZK_CALLS_BYTES]; /* enough for any sheet */
    if (argc > 2 || (argc == 2 && argv[1][0] == '-')) {
        fprintf(stderr, "usage: calls [FILE]\n");
        return 2;
    }
    const char *name = argc == 2 ? argv[1] : NULL;
    if (!read_sheet(&sheet, name)) return 1;
    uint64_t answer = zk_sheet_to_calls(sheet.text, sheet.length, calls, sizeof calls);
    if (!accepted(answer, name)) return 1; /* no call is made of a sheet that is bad further down */
    for (unsigned i = 0; i < zk_count(answer); i++) port_write(calls[2 * i], calls[2 * i + 1]);
    if (fflush(stdout) != 0) {
        perror("standard output");
        return 1;
    }
    return 0;
}
