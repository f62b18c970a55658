/* panel SHEET OUT.png: what the panel of a sheet shows, as a picture: on the left in the on time of the blink, on the
 * right in the off time. Every point of it is a pixel of chip A.
 *
 * Above, the 256 colours, a square each, sixteen in a row. Below, a picture that has colour x in its column x, and the
 * four overlays as bars over it, overlay 0 on top: a bar that is masked, or blinks off, shows what the overlay control
 * says. Status 0; 1 where the sheet is refused or a file can't be read or written; 2 for bad usage. */
#include "load.h"
#include "png.h"

enum {
    SIDE = 16,   /* of a square, with a line of the ground between two */
    MARGIN = 16, /* around each part; twice that between on and off */
    BAR = 12,    /* the height of a bar, */
    GAP = 6,     /* of the picture above each, */
    INSET = 8,   /* and how far from the picture's sides it ends */
    COLUMNS = 256,
    BARS = GAP + ZK_A_OVERLAY_ENTRIES * (BAR + GAP),
    WIDTH = 2 * (COLUMNS + 2 * MARGIN),
    HEIGHT = 16 * SIDE + BARS + 3 * MARGIN
};

static zk_a_chip chip; /* zeroed: a chip after a reset, with black tables */
static uint8_t rgb[HEIGHT][WIDTH][3];

/* a pixel of the chip as a point; 4 bits times 17 are 8 */
static void point(int x, int y, uint8_t enable, uint8_t number, uint8_t byte) {
    zk_a_shown shown = zk_a_chip_pixel(&chip, enable, number, byte);
    rgb[y][x][0] = (uint8_t)(shown.red * 17);
    rgb[y][x][1] = (uint8_t)(shown.green * 17);
    rgb[y][x][2] = (uint8_t)(shown.blue * 17);
}

static void squares(int left, int top) {
    for (int y = 0; y < 16 * SIDE; y++)
        for (int x = 0; x < 16 * SIDE; x++)
            if (x % SIDE != SIDE - 1 && y % SIDE != SIDE - 1)
                point(left + x, top + y, 0, 0, (uint8_t)(y / SIDE * 16 + x / SIDE));
}

static void bars(int left, int top) {
    for (int y = 0; y < BARS; y++)
        for (int x = 0; x < COLUMNS; x++) {
            int on = y % (BAR + GAP) >= GAP && x >= INSET && x < COLUMNS - INSET;
            point(left + x, top + y, on ? 1 : 0, on ? (uint8_t)(y / (BAR + GAP)) : 0, (uint8_t)x);
        }
}

static void half(int left) {
    squares(left, MARGIN);
    bars(left, MARGIN + 16 * SIDE + MARGIN);
}

int main(int argc, char **argv) {
    if (argc != 3) {
        fprintf(stderr, "usage: panel SHEET OUT.png\n");
        return 2;
    }
    if (!load(&chip, argv[1])) return 1;
    memset(rgb, 0x60, sizeof rgb); /* the ground, grey */
    half(MARGIN);
    for (int ticks = 4 * (chip.state.clock.timing % 16 + 1); ticks > 0; ticks--) /* the on time passes */
        if (zk_a_chip_tick(&chip) != ZK_ACCEPTED) return 1;
    half(MARGIN + COLUMNS + 2 * MARGIN);
    if (!png_write(argv[2], &rgb[0][0][0], WIDTH, HEIGHT)) {
        perror(argv[2]);
        return 1;
    }
    printf("%s: %d by %d points\n", argv[2], WIDTH, HEIGHT);
    return 0;
}
