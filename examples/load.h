/* load.h: a sheet of a file or of standard input, read, or loaded into chip A, or a message on standard error why not;
 * for sheet.c, panel.c and calls.c. A name may be NULL, for standard input. */
#ifndef LOAD_H
#define LOAD_H

#include <zikombaru.h>

#include <stdio.h>

/* the longest sheet has ZK_SHEET_BYTES; the first bad line of a longer text begins before its next byte */
typedef struct sheet_text {
    uint8_t text[ZK_SHEET_BYTES + 1];
    size_t length;
} sheet_text;

static inline const char *shown(const char *name) { return name ? name : "standard input"; }

/* answers 1 where the text was read */
static inline int read_sheet(sheet_text *sheet, const char *name) {
    FILE *file = name ? fopen(name, "rb") : stdin;
    sheet->length = file ? fread(sheet->text, 1, sizeof sheet->text, file) : 0;
    if (!file || ferror(file)) {
        perror(shown(name));
        return 0;
    }
    if (name) fclose(file);
    return 1;
}

/* answers 1 where a call on the sheet was accepted */
static inline int accepted(uint64_t answer, const char *name) {
    if (zk_refusal(answer) == ZK_ACCEPTED) return 1;
    fprintf(stderr, "%s, line %u: %s; ./zikombaru loadlist says why\n", shown(name), zk_line(answer),
            zk_refusal_text(zk_refusal(answer)));
    return 0;
}

/* answers 1 where the sheet was loaded */
static inline int load(zk_a_chip *chip, const char *name) {
    sheet_text sheet;
    return read_sheet(&sheet, name) && accepted(zk_a_chip_load_sheet(chip, sheet.text, sheet.length), name);
}

#endif
