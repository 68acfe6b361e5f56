/* The product's algorithm in plain C: a search through choices of segments that leaves out parts in which nothing better can be found.
 *
 * Given a price of a blank, a quantity on a segment is charged its own price less that of its blanks. Over a division the charges add up to
 * its total less the price of what is bought, and so to no more than its total less the price of the demand. So a part of the search can be
 * left out where the charges of the segments chosen so far, with the least charges of the bidders left, are too high for a division that
 * goes before the best so far. There are two prices of a blank, and either can show it. Any prices will do: they only make the search
 * faster. */
#include "choice.h"

enum { PRICES = 2, CLASSES = 32 };

/* The highest price of a blank that is looked at, above every unit price with its carriage. */
static const int64_t HIGHEST_PRICE = INT64_C(1) << 30;

/* With a segment chosen for each of some bidders: the sums of the starts, of the ends, and of the least charges by each price. As a class
 * of several such choices: the least of their starts, the greatest of their ends and the least of their charges. */
struct sums {
    int64_t low, high;
    int64_t charges[PRICES];
};

/* The prices of a blank, and for the bidders from each index on the classes of the ways to complete a choice. */
struct bounds {
    int64_t prices[PRICES];
    size_t counts[BIDS + 1];
    struct sums classes[BIDS + 1][CLASSES];
};

static int64_t smaller(int64_t a, int64_t b)
{
    return b < a ? b : a;
}

static int64_t larger(int64_t a, int64_t b)
{
    return a < b ? b : a;
}

/* The most of so many blanks that can be sold on a segment which starts within them. */
static int64_t most_on(const struct segment *s, uint64_t blanks)
{
    return smaller((int64_t)s->end, (int64_t)blanks);
}

static int64_t charge_at(const struct segment *s, int64_t quantity, int64_t blank)
{
    return price(s, (uint64_t)quantity) - blank * quantity;
}

/* The least that a quantity on a segment, of at most so many blanks, is charged: it is that of the start or of the end. */
static int64_t charge(const struct segment *s, uint64_t most, int64_t blank)
{
    return smaller(charge_at(s, (int64_t)s->start, blank), charge_at(s, most_on(s, most), blank));
}

/* The segment of least charge among those that start within demand and allowance, the latest of equals. */
static const struct segment *favourite(const struct book *book, size_t i, int64_t blank)
{
    const struct bid *bid = &book->bids[i];
    const struct segment *best = &bid->segments[0];

    for (size_t j = 1; j <= bid->count && bid->segments[j].start <= most_of(book); j++) {
        if (charge(&bid->segments[j], most_of(book), blank) <= charge(best, most_of(book), blank)) {
            best = &bid->segments[j];
        }
    }
    return best;
}

/* What the bidders sell where each takes the quantity of least charge, the greatest of equals. */
static int64_t sold_at(const struct book *book, int64_t blank)
{
    int64_t sum = 0;

    for (size_t i = 0; i < book->count; i++) {
        const struct segment *s = favourite(book, i, blank);

        sum += (int64_t)s->unit <= blank ? most_on(s, book->demand) : (int64_t)s->start;
    }
    return sum;
}

/* The least price of a blank at which the bidders so sell the demand or more. */
static int64_t meeting_price(const struct book *book)
{
    int64_t low = 0, high = HIGHEST_PRICE;

    while (low < high) {
        int64_t middle = (low + high) / 2;

        if (sold_at(book, middle) < (int64_t)book->demand) {
            low = middle + 1;
        } else {
            high = middle;
        }
    }
    return low;
}

static void choose_favourites(struct choice *c, int64_t blank)
{
    for (size_t i = 0; i < c->book->count; i++) {
        choice_choose(c, i, favourite(c->book, i, blank));
    }
}

/* The favourites with each segment of bidder i in place of its own. */
static void vary(struct choice *c, size_t i)
{
    const struct segment *own = c->chosen[i];
    const struct bid *bid = &c->book->bids[i];

    choice_drop(c, i);
    for (size_t j = 0; j <= bid->count; j++) {
        choice_choose(c, i, &bid->segments[j]);
        choice_compare(c);
        choice_drop(c, i);
    }
    choice_choose(c, i, own);
}

/* A first division to start from: the best of those choices that differ from the favourites in at most one bidder, and of one that was
 * found before. */
static void first_division(struct choice *c, int64_t blank)
{
    choose_favourites(c, blank);
    for (size_t i = 0; i < c->book->count; i++) {
        vary(c, i);
    }
    for (size_t i = 0; i < c->book->count; i++) {
        choice_drop(c, i);
    }
}

/* Whether a quantity is strictly inside the segment. */
static bool inside(const struct segment *s, uint64_t quantity)
{
    return s->start < quantity && quantity < s->end;
}

/* The segment of a bid that a quantity is on; segment 0 is that of nothing. */
static const struct segment *sold_on(const struct bid *bid, uint64_t quantity)
{
    size_t j = bid->count;

    while (0 < j && quantity < bid->segments[j].start) {
        j--;
    }
    return &bid->segments[j];
}

/* In the first division the unit price, carriage included, of a bidder who stands strictly inside its segment, or else the largest that is
 * paid; where there is none, three quarters of the first price. */
static int64_t second_price(const struct choice *c, int64_t first)
{
    int64_t paid = 0;

    if (!c->best.found) {
        return first - first / 4;
    }
    for (size_t i = 0; i < c->book->count; i++) {
        const struct segment *s = sold_on(&c->book->bids[i], c->best.quantities[i]);

        if (inside(s, c->best.quantities[i])) {
            return (int64_t)s->unit;
        }
        paid = larger(paid, (int64_t)s->unit);
    }
    return paid;
}

/* The sums with one more segment. */
static struct sums with(const struct sums *sums, const struct segment *s, uint64_t most, const int64_t *prices)
{
    struct sums more = *sums;

    more.low += (int64_t)s->start;
    more.high += (int64_t)s->end;
    for (size_t k = 0; k < PRICES; k++) {
        more.charges[k] += charge(s, most, prices[k]);
    }
    return more;
}

/* Makes a class also that of these sums; an empty one has the end 0 and the start 1. */
static void join(struct sums *class, const struct sums *sums)
{
    if (class->high < class->low) {
        *class = *sums;
        return;
    }
    class->low = smaller(class->low, sums->low);
    class->high = larger(class->high, sums->high);
    for (size_t k = 0; k < PRICES; k++) {
        class->charges[k] = smaller(class->charges[k], sums->charges[k]);
    }
}

/* The classes of the bidders from `at` on, from those of the bidders after it: each with each segment, put together by their starts, which
 * are at most `most` where anything is to be found. */
static void survey_bid(const struct book *book, size_t at, int64_t most, struct bounds *b)
{
    const struct bid *bid = &book->bids[at];
    struct sums table[CLASSES];

    for (size_t k = 0; k < CLASSES; k++) {
        table[k] = (struct sums){.low = 1, .high = 0};
    }
    for (size_t j = 0; j <= bid->count; j++) {
        for (size_t k = 0; k < b->counts[at + 1]; k++) {
            struct sums sums = with(&b->classes[at + 1][k], &bid->segments[j], most_of(book), b->prices);

            if (sums.low <= (int64_t)most_of(book)) {
                join(&table[sums.low * CLASSES / (most + 1)], &sums);
            }
        }
    }
    b->counts[at] = 0;
    for (size_t k = 0; k < CLASSES; k++) {
        if (table[k].low <= table[k].high) {
            b->classes[at][b->counts[at]++] = table[k];
        }
    }
}

/* The classes for all indexes, from the last bidder to the first. */
static void survey(const struct book *book, struct bounds *b)
{
    int64_t ends = 0;

    b->counts[book->count] = 1;
    b->classes[book->count][0] = (struct sums){0};
    for (size_t i = book->count; i-- > 0;) {
        ends += (int64_t)book->bids[i].segments[book->bids[i].count].end;
        survey_bid(book, i, smaller(ends, (int64_t)most_of(book)), b);
    }
}

/* Whether every division with the first n segments chosen comes after the best so far if it has the same total: it has no fewer blanks, and
 * the first chosen end that is not the best's quantity is below it. */
static bool behind(const struct choice *c, size_t n, const struct sums *chosen)
{
    if (c->best.bought > c->book->demand && (int64_t)c->best.bought > chosen->low) {
        return false;
    }
    for (size_t i = 0; i < n; i++) {
        if (c->chosen[i]->end != c->best.quantities[i]) {
            return c->chosen[i]->end < c->best.quantities[i];
        }
    }
    return false;
}

/* The highest charges of the bidders left with which a division goes before the best so far. */
static void highest_charges(const struct choice *c, const struct bounds *b, size_t n, const struct sums *chosen, int64_t *highest)
{
    int64_t total = c->best.total - (behind(c, n, chosen) ? 1 : 0);

    for (size_t k = 0; k < PRICES; k++) {
        highest[k] = total - b->prices[k] * (int64_t)c->book->demand - chosen->charges[k];
    }
}

/* Whether the ways of this class can meet the demand with the segments chosen, and not pass the allowance. */
static bool reaches(const struct sums *class, const struct sums *chosen, const struct book *book)
{
    return chosen->low + class->low <= (int64_t)most_of(book) && (int64_t)book->demand <= chosen->high + class->high;
}

/* Whether the ways of this class cost too much by one of the prices. What is bought is the demand at least, and the starts: `over` is how many
 * blanks the starts are above the demand. */
static bool too_dear(const struct sums *class, const int64_t *highest, const struct bounds *b, int64_t over)
{
    for (size_t k = 0; k < PRICES; k++) {
        if (class->charges[k] > highest[k] - b->prices[k] * over) {
            return true;
        }
    }
    return false;
}

/* Whether nothing better than the best so far can be found with the first n segments chosen: each class of the bidders left misses the
 * demand or is too dear. */
static bool hopeless(const struct choice *c, const struct bounds *b, size_t n, const struct sums *chosen)
{
    int64_t highest[PRICES];

    if (c->best.found) {
        highest_charges(c, b, n, chosen, highest);
    }
    for (size_t k = 0; k < b->counts[n]; k++) {
        const struct sums *class = &b->classes[n][k];
        int64_t over = chosen->low + class->low - (int64_t)c->book->demand;

        if (reaches(class, chosen, c->book) && !(c->best.found && too_dear(class, highest, b, over > 0 ? over : 0))) {
            return false;
        }
    }
    return true;
}

/* A segment for the bidder with the index `at`, each in turn from its last to segment 0, and then for those after it where there is hope. The
 * sums are passed on, and a complete choice has them. */
static void choose(struct choice *c, const struct bounds *b, size_t at, const struct sums *chosen)
{
    const struct bid *bid;

    if (at == c->book->count) {
        c->starts = (uint64_t)chosen->low;
        c->ends = (uint64_t)chosen->high;
        choice_compare(c);
        return;
    }
    bid = &c->book->bids[at];
    for (size_t j = bid->count + 1; j-- > 0;) {
        struct sums sums = with(chosen, &bid->segments[j], most_of(c->book), b->prices);

        c->chosen[at] = &bid->segments[j];
        if (!hopeless(c, b, at + 1, &sums)) {
            choose(c, b, at + 1, &sums);
        }
    }
}

static void bounded(struct choice *c)
{
    struct bounds b;
    struct sums nothing = {0};

    b.prices[0] = meeting_price(c->book);
    first_division(c, b.prices[0]);
    first_division(c, second_price(c, b.prices[0]));
    b.prices[1] = second_price(c, b.prices[0]);
    survey(c->book, &b);
    choose(c, &b, 0, &nothing);
}

void bounded_clear(const struct book *book, struct clearing *out)
{
    choice_clear(book, bounded, true, out);
}
