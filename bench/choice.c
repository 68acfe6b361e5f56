/* The cheapest division within a choice, as the product finds it: a complete choice that fits by the sums it carries is filled and compared.
 * Records are passed by pointer, and the choice and the best division are changed in place. */
#include "choice.h"

#include <string.h>

/* What the first n of the chosen segments can take over their starts, of those that are no dearer than `unit`. */
static uint64_t cheaper(const struct choice *c, size_t n, uint64_t unit)
{
    uint64_t sum = 0;

    for (size_t i = 0; i < n; i++) {
        const struct segment *s = c->chosen[i];

        if (s->unit <= unit) {
            sum += s->end - s->start;
        }
    }
    return sum;
}

/* What bidder i gets over its start, where there is so much left for it and those before it. */
static uint64_t share(const struct choice *c, size_t i, uint64_t left)
{
    const struct segment *s = c->chosen[i];
    uint64_t width = s->end - s->start;
    uint64_t earlier = cheaper(c, i, s->unit);

    if (left <= earlier) {
        return 0;
    }
    return width < left - earlier ? width : left - earlier;
}

/* The cheapest quantities within a choice that fits, and of equally cheap ones the fewest: as many as the demand, or as the starts where they
 * pass it. */
static void fill(const struct choice *c, struct division *out)
{
    uint64_t left = c->starts < c->book->demand ? c->book->demand - c->starts : 0;

    *out = (struct division){.found = true, .bought = c->starts + left};
    for (size_t i = c->book->count; i-- > 0;) {
        const struct segment *s = c->chosen[i];
        uint64_t x = share(c, i, left);

        left -= x;
        out->quantities[i] = s->start + x;
        out->total += price(s, out->quantities[i]);
    }
}

static bool better(const struct division *a, const struct division *b, size_t n)
{
    if (a->total != b->total) {
        return a->total < b->total;
    }
    if (a->bought != b->bought) {
        return a->bought < b->bought;
    }
    for (size_t i = 0; i < n; i++) {
        if (a->quantities[i] != b->quantities[i]) {
            return a->quantities[i] > b->quantities[i];
        }
    }
    return false;
}

void choice_compare(struct choice *c)
{
    struct division new;

    if (most_of(c->book) < c->starts || c->ends < c->book->demand) {
        return;
    }
    fill(c, &new);
    if (!c->best.found || better(&new, &c->best, c->book->count)) {
        c->best = new;
    }
}

/* The best division of a book's bids. */
static struct division award(const struct book *book, search *best_of)
{
    struct choice c = {.book = book};

    best_of(&c);
    return c.best;
}

void choice_clear(const struct book *book, search *best_of, bool skip, struct clearing *out)
{
    struct division all = award(book, best_of);

    memset(out, 0, sizeof *out);
    if (!all.found) {
        return;
    }
    out->covered = true;
    out->bought = all.bought;
    out->total = all.total;
    memcpy(out->quantities, all.quantities, sizeof out->quantities);
    for (size_t i = 0; i < book->count; i++) {
        struct division others = all;

        if (!skip || all.quantities[i] > 0) {
            struct book left;

            book_without(book, i, &left);
            others = award(&left, best_of);
        }
        out->covered_without[i] = others.found;
        out->without[i] = others.total;
    }
}
