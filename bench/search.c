/* The exhaustive search in plain C: every choice of segments, in the product's order. */
#include "choice.h"

/* A segment for the bidder with the index `at`, each in turn from its last to segment 0, and then for those after it. */
static void choose(struct choice *c, size_t at)
{
    const struct bid *bid;

    if (at == c->book->count) {
        choice_compare(c);
        return;
    }
    bid = &c->book->bids[at];
    for (size_t j = bid->count + 1; j-- > 0;) {
        choice_choose(c, at, &bid->segments[j]);
        choose(c, at + 1);
        choice_drop(c, at);
    }
}

static void exhaustive(struct choice *c)
{
    choose(c, 0);
}

void exhaustive_clear(const struct book *book, struct clearing *out)
{
    choice_clear(book, exhaustive, false, out);
}
