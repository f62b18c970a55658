/* png.h: a picture of red, green and blue bytes as a PNG file, for panel.c.
 *
 * The PNG specification and RFC 1950 and 1951 decide. A row is put down as its difference from the row above, where
 * the two are equal, or from the point on the left, which makes most bytes 0; of a run of equal bytes the first is put
 * down, and the others as copies of it. */
#ifndef PNG_H
#define PNG_H

#include <stdint.h>
#include <stdio.h>
#include <stdlib.h>
#include <string.h>

typedef struct png {
    uint8_t *bytes; /* what is packed so far */
    size_t length;
    unsigned held, count; /* the bits of the next byte, and how many */
    uint32_t low, high;   /* the two sums of the packed data */
} png;

/* numbers go low bit first; codes, below, high bit first */
static inline void png_bit(png *p, unsigned bit) {
    p->held |= bit << p->count++;
    if (p->count < 8) return;
    p->bytes[p->length++] = (uint8_t)p->held;
    p->held = p->count = 0;
}

static inline void png_code(png *p, unsigned code, unsigned bits) {
    while (bits-- > 0) png_bit(p, code >> bits & 1);
}

/* the fixed code of a byte, 0 to 255, of the end, 256, or of a length */
static inline void png_symbol(png *p, unsigned symbol) {
    if (symbol < 144) png_code(p, 0x30 + symbol, 8);
    else if (symbol < 256) png_code(p, 0x190 + symbol - 144, 9);
    else if (symbol < 280) png_code(p, symbol - 256, 7);
    else png_code(p, 0xc0 + symbol - 280, 8);
}

/* a byte some times: once, then copies of 258 or 3 to 10 bytes (symbols 285, 257 to 264) from distance 1 (code 0) */
static inline void png_run(png *p, uint8_t byte, size_t times) {
    for (size_t i = 0; i < times; i++) {
        p->low = (p->low + byte) % 65521;
        p->high = (p->high + p->low) % 65521;
    }
    png_symbol(p, byte);
    for (times--; times >= 3;) {
        unsigned copy = times >= 258 ? 258 : times > 10 ? 10 : (unsigned)times;
        png_symbol(p, copy == 258 ? 285 : copy + 254);
        png_code(p, 0, 5);
        times -= copy;
    }
    while (times-- > 0) png_symbol(p, byte);
}

static inline uint8_t png_difference(const uint8_t *row, int same, size_t at) {
    return same ? 0 : (uint8_t)(row[at] - (at < 3 ? 0 : row[at - 3]));
}

/* a row behind the number of its filter: 2, the difference from the row above, or 1, from the point on the left */
static inline void png_row(png *p, const uint8_t *row, const uint8_t *above, size_t length) {
    int same = above != NULL && memcmp(row, above, length) == 0;
    png_run(p, same ? 2 : 1, 1);
    for (size_t from = 0, to = 0; from < length; from = to) {
        uint8_t byte = png_difference(row, same, from);
        while (to < length && png_difference(row, same, to) == byte) to++;
        png_run(p, byte, to - from);
    }
}

static inline void png_number(uint8_t *at, uint32_t number) {
    for (int i = 0; i < 4; i++) at[i] = (uint8_t)(number >> (24 - 8 * i) & 0xff);
}

static inline uint32_t png_crc(uint32_t crc, const uint8_t *bytes, size_t length) {
    for (size_t i = 0; i < length; i++) {
        crc ^= bytes[i];
        for (int bit = 0; bit < 8; bit++) crc = crc & 1 ? crc >> 1 ^ 0xedb88320u : crc >> 1;
    }
    return crc;
}

static inline void png_chunk(FILE *file, const char *type, const uint8_t *bytes, size_t length) {
    uint8_t head[8], tail[4];
    png_number(head, (uint32_t)length);
    memcpy(head + 4, type, 4);
    png_number(tail, ~png_crc(png_crc(0xffffffffu, head + 4, 4), bytes, length));
    fwrite(head, 1, sizeof head, file);
    fwrite(bytes, 1, length, file);
    fwrite(tail, 1, sizeof tail, file);
}

/* the rows, packed: two bytes of head, one block of fixed codes, the sums */
static inline void png_pack(png *p, const uint8_t *rgb, size_t row, size_t rows) {
    p->bytes[p->length++] = 0x78;
    p->bytes[p->length++] = 0x01;
    png_code(p, 6, 3); /* 1 the last block, 10 fixed codes */
    for (size_t y = 0; y < rows; y++) png_row(p, rgb + y * row, y == 0 ? NULL : rgb + (y - 1) * row, row);
    png_symbol(p, 256);
    while (p->count != 0) png_bit(p, 0);
    png_number(p->bytes + p->length, p->high << 16 | p->low);
    p->length += 4;
}

/* answers 1 where the whole file was written; else errno tells why not */
static inline int png_write(const char *name, const uint8_t *rgb, uint32_t width, uint32_t height) {
    size_t row = 3 * (size_t)width;
    uint8_t head[13] = {0, 0, 0, 0, 0, 0, 0, 0, 8, 2, 0, 0, 0}; /* width, height; 8 bits of red, green, blue */
    png p = {(uint8_t *)malloc((row + 1) * height * 9 / 8 + 16), 0, 0, 0, 1, 0}; /* no byte takes over nine bits */
    FILE *file = p.bytes ? fopen(name, "wb") : NULL;
    int written = 0;
    if (file) {
        png_pack(&p, rgb, row, height);
        png_number(head, width);
        png_number(head + 4, height);
        fwrite("\x89PNG\r\n\x1a\n", 1, 8, file);
        png_chunk(file, "IHDR", head, sizeof head);
        png_chunk(file, "IDAT", p.bytes, p.length);
        png_chunk(file, "IEND", head, 0);
        written = !ferror(file);
        written = fclose(file) == 0 && written;
    }
    free(p.bytes);
    return written;
}

#endif
