/* For the tests in C: what is lent to an entry, and that nothing else was touched.
 *
 * Every call is made twice. Once each thing that is lent stands between guard bytes, which are looked at afterwards. Once it fills a block
 * of its own from malloc, so that valgrind sees a read or write beside it. */
#ifndef LENT_H
#define LENT_H

#include <stddef.h>
#include <stdint.h>
#include <stdio.h>
#include <stdlib.h>
#include <string.h>

#include "checks.h"

#define COUNT(array) (sizeof(array) / sizeof((array)[0]))

enum arrangement { GUARDED, EXACT, IN_PLACE }; /* IN_PLACE: not in a block at all, for check_what_follows */

enum { GUARD = 64 };

struct lent {
    uint8_t *block; /* from malloc: guard, what is lent, guard */
    size_t before;  /* length of the guard before, a multiple of 8 so that numbers are aligned */
    uint8_t *bytes; /* what is lent */
    size_t length;
    size_t after;
};

/* What a byte of a block is before a call. Bytes from 128 are in no text, and neighbours differ, so that a byte moved is seen too. */
static uint8_t pattern(size_t place)
{
    return (uint8_t)(128 + place % 127);
}

static struct lent lend(enum arrangement how, size_t length)
{
    struct lent lent;
    size_t place, size;

    /* malloc(0) may give NULL, so an exact length of 0 is lent at the end of a block. */
    lent.before = how == GUARDED ? GUARD : length == 0 ? 8 : 0;
    lent.after = how == GUARDED ? GUARD : 0;
    lent.length = length;
    size = lent.before + length + lent.after;
    lent.block = malloc(size);
    if (lent.block == NULL) {
        fputs("no memory\n", stderr);
        exit(2);
    }
    for (place = 0; place < size; place++)
        lent.block[place] = pattern(place);
    lent.bytes = lent.block + lent.before;
    return lent;
}

static struct lent lend_copy(enum arrangement how, const void *contents, size_t length)
{
    struct lent lent = lend(how, length);

    memcpy(lent.bytes, contents, length);
    return lent;
}

static uint64_t *numbers(struct lent *lent)
{
    return (uint64_t *)(void *)lent->bytes;
}

/* Checks the bytes of a block in [from, to): they are `contents`, or where that is NULL still of the pattern. */
static void expect_bytes(const char *part, const char *what, const struct lent *lent, size_t from, size_t to, const uint8_t *contents)
{
    size_t place;

    if (from == to)
        return;
    for (place = from; place < to; place++) {
        unsigned expected = contents ? contents[place - from] : pattern(place), got = lent->block[place];

        if (got != expected) {
            failed++;
            printf("%s: %s %s, byte %ld: expected 0x%02x, got 0x%02x\n", situation, part, what, (long)place - (long)lent->before, expected,
                   got);
            return;
        }
    }
    passed++;
}

static void release(const char *what, struct lent *lent)
{
    size_t end = lent->before + lent->length;

    expect_bytes("guard before", what, lent, 0, lent->before, NULL);
    expect_bytes("guard after", what, lent, end, end + lent->after, NULL);
    free(lent->block);
}

/* Checks that what was lent begins with `contents` and is for the rest as it was. */
static void take_back(const char *what, struct lent *lent, const void *contents, size_t length)
{
    size_t start = lent->before;

    expect_bytes("contents of", what, lent, start, start + length, contents);
    expect_bytes("rest of", what, lent, start + length, start + lent->length, NULL);
    release(what, lent);
}

static void take_back_number(const char *what, struct lent *lent, uint64_t expected)
{
    uint64_t got;

    memcpy(&got, lent->bytes, sizeof got);
    expect_number(what, expected, got);
    release(what, lent);
}

/* `length` is that of the output or list, 0 where the entry has none. */
static void situate(const char *entry, const char *name, size_t text_length, size_t length, enum arrangement how)
{
    static const char *const arrangements[] = {"guarded", "exact", "in place"};

    snprintf(situation, sizeof situation, "%s, %s, text of %lu, length %lu, %s", entry, name, (unsigned long)text_length,
             (unsigned long)length, arrangements[how]);
}

#endif
