/* The methods, and the comparison of what they give. */
#include "methods.h"

#include "boccelarch.h"
#include "clock.h"

#include <inttypes.h>
#include <stdio.h>
#include <string.h>

static bool product(const struct text *text, const struct book *book, struct clearing *out)
{
    uint64_t rows[BOCCELARCH_AWARD_NUMBERS], place, bought, total, count;
    uint64_t number = boccelarch_award((const uint8_t *)text->bytes, text->length, rows, BOCCELARCH_AWARD_NUMBERS, &place, &bought, &total,
                                       &count);

    (void)book;
    memset(out, 0, sizeof *out);
    if (number != BOCCELARCH_ACCEPTED) {
        return number == BOCCELARCH_NOT_COVERED;
    }
    out->covered = true;
    out->bought = bought;
    out->total = (int64_t)total;
    for (size_t i = 0; i < count; i++) {
        const uint64_t *row = rows + i * BOCCELARCH_COLUMNS;

        out->quantities[i] = row[BOCCELARCH_QUANTITY];
        out->covered_without[i] = row[BOCCELARCH_COVERED] != 0;
        out->without[i] = (int64_t)row[BOCCELARCH_WITHOUT];
    }
    return true;
}

static bool exhaustive(const struct text *text, const struct book *book, struct clearing *out)
{
    (void)text;
    exhaustive_clear(book, out);
    return true;
}

static bool bounded(const struct text *text, const struct book *book, struct clearing *out)
{
    (void)text;
    bounded_clear(book, out);
    return true;
}

static bool dynamic_program(const struct text *text, const struct book *book, struct clearing *out)
{
    (void)text;
    return dp_clear(book, out);
}

const struct method METHODS[METHOD_COUNT] = {
    [PRODUCT] = {"product", product},
    [EXHAUSTIVE] = {"exhaustive", exhaustive},
    [BOUNDED] = {"bounded", bounded},
    [DYNAMIC] = {"dp", dynamic_program},
};

static bool same(const struct clearing *a, const struct clearing *b)
{
    bool equal = a->covered == b->covered && a->bought == b->bought && a->total == b->total;

    for (size_t i = 0; i < BIDS; i++) {
        equal = equal && a->quantities[i] == b->quantities[i] && a->covered_without[i] == b->covered_without[i];
        equal = equal && a->without[i] == b->without[i];
    }
    return equal;
}

static void show(const char *name, const struct clearing *c)
{
    fprintf(stderr, "%s: %s, bought %" PRIu64 ", total %" PRId64, name, c->covered ? "covered" : "not covered", c->bought, c->total);
    for (size_t i = 0; i < BIDS; i++) {
        fprintf(stderr, "; %" PRIu64 " without %s %" PRId64, c->quantities[i], c->covered_without[i] ? "amount" : "none", c->without[i]);
    }
    fprintf(stderr, "\n");
}

bool method_run(const struct method *method, const struct text *text, const struct book *book, struct clearing *expected, double *fastest)
{
    struct clearing out;
    double begun = milliseconds(), taken;
    bool given = method->clear(text, book, &out);

    taken = milliseconds() - begun;
    if (!given) {
        fprintf(stderr, "%s failed\n", method->name);
        return false;
    }
    if (method == &METHODS[PRODUCT]) {
        *expected = out;
    } else if (!same(expected, &out)) {
        fprintf(stderr, "two methods differ\n");
        show(METHODS[PRODUCT].name, expected);
        show(method->name, &out);
        return false;
    }
    *fastest = *fastest == 0 || taken < *fastest ? taken : *fastest;
    return true;
}
