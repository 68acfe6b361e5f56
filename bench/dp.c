/* The dynamic program: the least price at which the bidders from i on sell q blanks, for each i from the last and each q up to the most that
 * is taken, which is demand and allowance. For each segment it is the least of a sliding window, so each segment takes time linear in that. */
#include "book.h"

#include <stdlib.h>
#include <string.h>

/* More than every sum of prices of an accepted book, each at most 2.01 * 10^12, and small enough to add to. */
#define NEVER (INT64_C(1) << 60)

/* The places of a window whose keys rise, and the keys. */
struct window {
    size_t first, last;
    uint64_t *places;
    int64_t *keys;
};

static void append(struct window *w, uint64_t place, int64_t key)
{
    while (w->first < w->last && key <= w->keys[w->last - 1]) {
        w->last--;
    }
    w->places[w->last] = place;
    w->keys[w->last] = key;
    w->last++;
}

/* Drops the places from which `end` blanks do not reach q. */
static void drop(struct window *w, uint64_t end, uint64_t q)
{
    while (w->first < w->last && w->places[w->first] + end < q) {
        w->first++;
    }
}

/* Lowers now[q] to the least price with this bidder on segment s, where the bidders after it sell at the prices `after`. With p sold after
 * it, the price is unit * q + fixed + (after[p] - unit * p), for q - end <= p <= q - start. */
static void lower(const struct segment *s, uint64_t most, const int64_t *after, int64_t *now, struct window *w)
{
    w->first = w->last = 0;
    for (uint64_t q = s->start; q <= most; q++) {
        uint64_t p = q - s->start;

        if (after[p] < NEVER) {
            append(w, p, after[p] - (int64_t)(s->unit * p));
        }
        drop(w, s->end, q);
        if (w->first < w->last && price(s, q) + w->keys[w->first] < now[q]) {
            now[q] = price(s, q) + w->keys[w->first];
        }
    }
}

/* The least prices without a bidder: only no blanks can be had. */
static void without_bidders(int64_t *now, size_t width)
{
    now[0] = 0;
    for (size_t q = 1; q < width; q++) {
        now[q] = NEVER;
    }
}

/* The least prices with this bidder, where those after it sell at the prices `after`. */
static void with_bidder(const struct bid *bid, uint64_t most, const int64_t *after, int64_t *now, struct window *w)
{
    memcpy(now, after, (most + 1) * sizeof *now); /* segment 0 */
    for (size_t j = 1; j <= bid->count; j++) {
        lower(&bid->segments[j], most, after, now, w);
    }
}

/* Fills tables[i * (most_of(book) + 1) + q] for i from book->count to 0. */
static void tables_of(const struct book *book, int64_t *tables, struct window *w)
{
    size_t width = most_of(book) + 1;

    without_bidders(tables + book->count * width, width);
    for (size_t i = book->count; i-- > 0;) {
        with_bidder(&book->bids[i], most_of(book), tables + (i + 1) * width, tables + i * width, w);
    }
}

/* Of the quantities that are taken, the lowest of the cheapest at these prices. */
static uint64_t cheapest(const struct book *book, const int64_t *prices)
{
    uint64_t best = book->demand;

    for (uint64_t q = book->demand; q <= most_of(book); q++) {
        best = prices[q] < prices[best] ? q : best;
    }
    return best;
}

/* The most of `left` that can be sold on a segment at the least price, where the bidders after it sell at the prices `after`; else 0. */
static uint64_t most_on(const struct segment *s, uint64_t left, int64_t least, const int64_t *after)
{
    for (uint64_t x = s->end < left ? s->end : left; x >= s->start; x--) {
        if (price(s, x) + after[left - x] == least) {
            return x;
        }
    }
    return 0;
}

/* The same for a bid. */
static uint64_t most(const struct bid *bid, uint64_t left, int64_t least, const int64_t *after)
{
    uint64_t x = 0;

    for (size_t j = bid->count; j > 0 && x == 0; j--) {
        x = most_on(&bid->segments[j], left, least, after);
    }
    return x;
}

/* The award of the book, where so many blanks are bought: by the rule for ties the first bidder gets most, then the second, and so on. */
static void quantities_of(const struct book *book, uint64_t bought, const int64_t *tables, uint64_t *quantities)
{
    size_t width = most_of(book) + 1;
    uint64_t left = bought;

    for (size_t i = 0; i < book->count; i++) {
        quantities[i] = most(&book->bids[i], left, tables[i * width + left], tables + (i + 1) * width);
        left -= quantities[i];
    }
}

static void clear(const struct book *book, int64_t *tables, struct window *w, struct clearing *out)
{
    uint64_t bought;

    memset(out, 0, sizeof *out);
    tables_of(book, tables, w);
    bought = cheapest(book, tables);
    if (tables[bought] == NEVER) {
        return;
    }
    out->covered = true;
    out->bought = bought;
    out->total = tables[bought];
    quantities_of(book, bought, tables, out->quantities);
    for (size_t i = 0; i < book->count; i++) {
        struct book left;
        int64_t total;

        book_without(book, i, &left);
        tables_of(&left, tables, w);
        total = tables[cheapest(&left, tables)];
        out->covered_without[i] = total < NEVER;
        out->without[i] = out->covered_without[i] ? total : 0;
    }
}

bool dp_clear(const struct book *book, struct clearing *out)
{
    size_t width = most_of(book) + 1;
    int64_t *tables = malloc((book->count + 1) * width * sizeof *tables);
    struct window w = {.places = malloc(width * sizeof *w.places), .keys = malloc(width * sizeof *w.keys)};
    bool memory = tables != NULL && w.places != NULL && w.keys != NULL;

    if (memory) {
        clear(book, tables, &w, out);
    }
    free(tables);
    free(w.places);
    free(w.keys);
    return memory;
}
