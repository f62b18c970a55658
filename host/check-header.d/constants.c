/* The headers' constants are the pages' (numbers.h), and hold among themselves: each CHECK that does not hold is
 * printed, and the status is 1. Built and run by host/check-header, without the library. */
#include <zikombaru.h>

#include <stdio.h>
#include <string.h>

static unsigned hold, fail;

static void check(int holds, const char *what) {
    if (holds) hold++;
    else fail++;
    if (!holds) printf("does not hold: %s\n", what);
}
#define CHECK(holds) check(holds, #holds)

static void numbers(void) {
#define NUMBER(name, number) check((name) == (number), #name " == " #number);
#include "numbers.h"
}

static void version(void) {
    char text[32];
    snprintf(text, sizeof text, "%d.%d.%d", ZK_VERSION_MAJOR, ZK_VERSION_MINOR, ZK_VERSION_PATCH);
    CHECK(strcmp(text, ZK_VERSION_TEXT) == 0);
    CHECK(sizeof ZK_VERSION_TEXT <= sizeof((zk_text *)0)->text);
    CHECK(ZK_VERSION >> 16 == ZK_VERSION_MAJOR);
    CHECK((ZK_VERSION >> 8 & 0xff) == ZK_VERSION_MINOR);
    CHECK((ZK_VERSION & 0xff) == ZK_VERSION_PATCH);
}

/* each of the nine in words of its own; no other number has any */
static void refusals(void) {
    CHECK(strcmp(zk_refusal_text(ZK_ACCEPTED), "accepted") == 0);
    for (unsigned i = 0; i <= ZK_OUT_OF_RANGE; i++)
        for (unsigned j = i + 1; j <= ZK_OUT_OF_RANGE + 1; j++)
            CHECK(strcmp(zk_refusal_text(i), zk_refusal_text(j)) != 0);
    CHECK(strcmp(zk_refusal_text(ZK_OUT_OF_RANGE + 1), "no such refusal") == 0);
    CHECK(strcmp(zk_refusal_text((unsigned)-1), "no such refusal") == 0);
}

/* a register's bits do not overlap: with the reserved ones they add up to a byte, or to what the chip answers */
static void bits(void) {
    CHECK(ZK_A_CONTROL_OLD0_READMASK + ZK_A_CONTROL_OLD1_READMASK + ZK_A_CONTROL_OLD0_BLINKMASK +
              ZK_A_CONTROL_OLD1_BLINKMASK + ZK_A_CONTROL_CLT_ENABLE + ZK_A_CONTROL_RESERVED ==
          0xff);
    CHECK(ZK_B_COMMAND_PIPE0 + ZK_B_COMMAND_PIPE1 + ZK_B_COMMAND_PIPE2 + ZK_B_COMMAND_PIPE3 + ZK_B_COMMAND_AFB +
              ZK_B_COMMAND_RESERVED ==
          0xff);
    CHECK(ZK_B_STATUS_COUNTER + ZK_B_STATUS_EFB + ZK_B_STATUS_AFB + ZK_B_STATUS_FFB == 0x1f);
    CHECK((ZK_C_UPDATE_WRAI | ZK_C_UPDATE_RDAI) == 0x06);
}

/* tables, places of a look and spaces: as long as they are said to be, and none reaches into the next */
static void sizes(void) {
    CHECK(sizeof((zk_a_chip *)0)->colours == ZK_A_COLOURS);
    CHECK(sizeof((zk_a_chip *)0)->overlays == ZK_A_OVERLAYS);
    CHECK(sizeof((zk_b_chip *)0)->queue == ZK_B_PLACES * sizeof(uint64_t));
    CHECK(sizeof((zk_b_chip *)0)->map == ZK_B_MAP);
    CHECK(sizeof((zk_c_chip *)0)->table == ZK_C_TABLE * sizeof(uint16_t));
    CHECK(ZK_A_LOOK_POSITION < ZK_A_LOOK_OVERLAYS && ZK_A_LOOK_OVERLAYS + ZK_A_OVERLAYS <= ZK_A_LOOK_COLOURS);
    CHECK(ZK_B_LOOK_WAITING < ZK_B_LOOK_FIRST && ZK_B_LOOK_FIRST < ZK_B_LOOK_MAP);
    CHECK(ZK_C_LOOK_UPDATE < ZK_C_LOOK_TABLE);
    CHECK(ZK_C_INDEX_UPDATE < ZK_C_INDEX_WRITE && ZK_C_INDEX_WRITE + ZK_C_ENTRIES <= ZK_C_INDEX_READ);
    CHECK(ZK_B_RGB1_ENTRY + 256 == ZK_B_RGB2_ENTRY && ZK_B_RGB2_ENTRY + 256 == ZK_B_RGB3_ENTRY);
    CHECK(ZK_B_RGB3_ENTRY + 256 == ZK_B_ENTRIES);
    CHECK(ZK_B_HALF_FULL == ZK_B_PLACES / 2 && ZK_B_ALMOST_FULL == ZK_B_PLACES - 8);
}

/* the longest sheet and list, from the lines and calls that they have */
static void sheet(void) {
    size_t registers = strlen("chip=153108\nreadmask=00\nblinkmask=00\noverlay=00\ntiming=00\n");
    CHECK(ZK_SHEET_LINES == 5 + ZK_A_OVERLAY_ENTRIES + ZK_A_COLOUR_ENTRIES);
    CHECK(ZK_SHEET_BYTES == registers + ZK_A_OVERLAY_ENTRIES * strlen("o0=000\n") +
                                ZK_A_COLOUR_ENTRIES * strlen("c00=000\n"));
    CHECK(ZK_CALLS == 4 + 1 + ZK_A_OVERLAYS + 1 + ZK_A_COLOURS);
}

int main(void) {
    numbers();
    version();
    refusals();
    bits();
    sizes();
    sheet();
    printf("%u constants and texts hold, %u do not\n", hold, fail);
    return fail != 0;
}
