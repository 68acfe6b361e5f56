/* For clear.c and sizes.c: a text is read from a file, and the refusal or the sheet is printed. */
#ifndef TEXT_H
#define TEXT_H

#include <inttypes.h>
#include <stdio.h>

#include "boccelarch.h"

struct text {
    uint8_t bytes[BOCCELARCH_TEXT_BYTES + 1]; /* one byte more than a text may have, so that a longer one is seen to be too long */
    uint64_t length;
};

/* 0 where the file cannot be read, which standard error then says. */
static int read_text(const char *name, struct text *text)
{
    FILE *file = fopen(name, "rb");
    int failed;

    if (file == NULL) {
        perror(name);
        return 0;
    }
    text->length = fread(text->bytes, 1, sizeof text->bytes, file);
    failed = ferror(file); /* a text cut by a failed read can still be a whole one */
    if (failed)
        perror(name);
    fclose(file);
    return !failed;
}

/* Gives the exit status. */
static int refused(const char *name, const char *what, uint64_t number, uint64_t place)
{
    printf("(refused %" PRIu64 " %" PRIu64 ")\n", number, place);
    fprintf(stderr, "%s: the %s is refused\n", name, what);
    return 1;
}

/* Gives the exit status. */
static int print_sheet(const uint8_t *sheet, uint64_t bytes)
{
    return fwrite(sheet, 1, bytes, stdout) == bytes && fflush(stdout) == 0 ? 0 : 2;
}

#endif
