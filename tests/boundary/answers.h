/* For boundary.c and tables.c: what an entry with an output, or one for the award, should answer. */
#ifndef ANSWERS_H
#define ANSWERS_H

#include <stddef.h>
#include <stdint.h>
#include <stdio.h>

#include "boccelarch.h"
#include "cases.h"
#include "checks.h"

struct output {
    uint64_t number, place;
    struct text written;
};

static struct output refused_output(uint64_t number, uint64_t place)
{
    struct output refused = {0, 0, {NULL, 0}};

    refused.number = number;
    refused.place = place;
    return refused;
}

/* The output is written where it has the room, else refused by 10. */
static struct output output_in(struct text written, size_t room)
{
    struct output accepted = {0, 0, {NULL, 0}};

    accepted.written = written;
    return room < written.length ? refused_output(BOCCELARCH_OUTPUT_LENGTH, written.length) : accepted;
}

struct award {
    uint64_t number, place, bought, total, count;
    const row *rows;
};

static struct award refused_award(uint64_t number, uint64_t place)
{
    struct award refused = {0, 0, 0, 0, 0, NULL};

    refused.number = number;
    refused.place = place;
    return refused;
}

/* Each number by itself, so that a failure names row and column. */
static void expect_row(unsigned i, const uint64_t *expected, const uint64_t *got)
{
    char what[40];
    unsigned column;

    for (column = 0; column < BOCCELARCH_COLUMNS; column++) {
        snprintf(what, sizeof what, "row %u, column %u", i, column);
        expect_number(what, expected[column], got[column]);
    }
}

static void expect_rows(const struct award *expected, const uint64_t *got)
{
    unsigned i;

    for (i = 0; i < expected->count; i++)
        expect_row(i, expected->rows[i], got + i * BOCCELARCH_COLUMNS);
}

#endif
