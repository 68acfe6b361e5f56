/* A choice of a segment for each bidder, its cheapest division, and clearing by a search through choices: what the plain C searches share. */
#ifndef CHOICE_H
#define CHOICE_H

#include "book.h"

struct division {
    bool found;
    int64_t total;
    uint64_t bought;
    uint64_t quantities[BIDS];
};

/* The segments chosen so far with the sums of their starts and of their ends, and the best division so far. */
struct choice {
    const struct book *book;
    const struct segment *chosen[BIDS];
    uint64_t starts, ends;
    struct division best;
};

/* A segment is chosen for the bidder with the index i, who has none. */
static inline void choice_choose(struct choice *c, size_t i, const struct segment *s)
{
    c->chosen[i] = s;
    c->starts += s->start;
    c->ends += s->end;
}

/* It is dropped, and the sums are again those before it. */
static inline void choice_drop(struct choice *c, size_t i)
{
    c->starts -= c->chosen[i]->start;
    c->ends -= c->chosen[i]->end;
}

/* The division of a complete choice, where it fits demand and allowance, is compared with the best so far. */
void choice_compare(struct choice *c);

/* A search: from a choice of nothing, without a best division, it leaves the best of all divisions in c->best. */
typedef void search(struct choice *c);

/* The award of a book by a search, and the total without each bidder. Where `skip` holds, a bidder who sells nothing is not cleared again:
 * the total without it is the award's. */
void choice_clear(const struct book *book, search *best_of, bool skip, struct clearing *out);

#endif
