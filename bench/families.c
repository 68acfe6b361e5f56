/* Random books of families that are hard for the search, eight bids of six segments with carriage 0 each and no allowance: `families COUNT
 * RUNS` makes COUNT books of each family, always the same, runs the product and the bounded plain C search on each and compares what they
 * give. It prints a line for each family: its name, COUNT, and for the product, then for the plain C search, the mean and the most
 * milliseconds of a book, of which the fastest of RUNS runs counts. The status is 1 where the two differ in anything.
 */
#include "methods.h"

#include <stdio.h>
#include <stdlib.h>

enum { MOST = 1000000, MARKS = 2 * SEGMENTS };

/* Splitmix64. */
struct random {
    uint64_t state;
};

static uint64_t next(struct random *r)
{
    uint64_t z = r->state += UINT64_C(0x9e3779b97f4a7c15);

    z = (z ^ (z >> 30)) * UINT64_C(0xbf58476d1ce4e5b9);
    z = (z ^ (z >> 27)) * UINT64_C(0x94d049bb133111eb);
    return z ^ (z >> 31);
}

/* A number from low to high, both counted. */
static int64_t between(struct random *r, int64_t low, int64_t high)
{
    return low + (int64_t)(next(r) % (uint64_t)(high - low + 1));
}

static bool chance(struct random *r, int percent)
{
    return between(r, 1, 100) <= percent;
}

#define PICK(r, list) ((list)[between((r), 0, sizeof(list) / sizeof *(list) - 1)])

static int by_value(const void *a, const void *b)
{
    int64_t x = *(const int64_t *)a, y = *(const int64_t *)b;

    return (y < x) - (x < y);
}

static bool among(const int64_t *list, size_t count, int64_t x)
{
    bool found = false;

    for (size_t i = 0; i < count; i++) {
        found = found || list[i] == x;
    }
    return found;
}

/* So many different numbers from 1 to `top`, rising. */
static void rising(struct random *r, int64_t top, int64_t *list, size_t count)
{
    for (size_t i = 0; i < count;) {
        list[i] = between(r, 1, top);
        i += among(list, i, list[i]) ? 0 : 1;
    }
    qsort(list, count, sizeof *list, by_value);
}

static void set_places(struct segment *s, int64_t start, int64_t end)
{
    s->start = (uint64_t)start;
    s->end = (uint64_t)end;
}

static void set_prices(struct segment *s, int64_t unit, int64_t fixed)
{
    s->unit = (uint64_t)unit;
    s->fixed = fixed;
}

/* A book without bidders' prices: no allowance, the numbers of the bidders, carriage 0, and six segments each. */
static void begin(struct book *book)
{
    *book = (struct book){.count = BIDS};
    for (size_t i = 0; i < BIDS; i++) {
        book->bids[i].bidder = i + 1;
        book->bids[i].count = SEGMENTS;
    }
}

/* Six segments up to `top`: so many in a hundred of one quantity alone, and of the others some from the end before on. */
static void places(struct random *r, struct bid *bid, int64_t top, int single)
{
    int64_t marks[MARKS], before = 0;

    rising(r, top, marks, MARKS);
    for (size_t j = 1; j <= SEGMENTS; j++) {
        int64_t start = marks[2 * j - 2], end = marks[2 * j - 1];

        if (chance(r, single)) {
            end = start;
        } else if (chance(r, 40)) {
            start = before + 1;
        }
        set_places(&bid->segments[j], start, end);
        before = end;
    }
}

static const struct segment *last_of(const struct bid *bid)
{
    return &bid->segments[bid->count];
}

/* A demand from `low` to `high` hundredths of all that the bidders can sell. */
static void set_demand(struct random *r, struct book *book, int64_t low, int64_t high)
{
    int64_t all = 0, demand;

    for (size_t i = 0; i < book->count; i++) {
        all += (int64_t)last_of(&book->bids[i])->end;
    }
    demand = between(r, all * low / 100, all * high / 100);
    book->demand = (uint64_t)(demand < MOST ? demand : MOST);
}

/* Each bidder sells from 1 blank on in steps; within a step a further blank is cheap, and the prices at the ends of all steps lie nearly on
 * one line: the cheapest division is nearly a sum of ends that meets the demand. */
static void steps(struct random *r, struct book *book)
{
    static const int64_t tops[] = {100, 2000, 40000, 250000}, extras[] = {0, 1, 100, 10000};
    int64_t top = PICK(r, tops), extra = PICK(r, extras), line = between(r, 10, 1000), usual = between(r, 0, line / 2);

    begin(book);
    for (size_t i = 0; i < BIDS; i++) {
        int64_t ends[SEGMENTS];

        rising(r, top, ends, SEGMENTS);
        for (size_t j = 0; j < SEGMENTS; j++) {
            struct segment *s = &book->bids[i].segments[j + 1];
            int64_t unit = chance(r, 50) ? usual : between(r, 0, line / 2);

            set_places(s, j == 0 ? 1 : ends[j - 1] + 1, ends[j]);
            set_prices(s, unit, (line - unit) * ends[j] + between(r, 0, extra));
        }
    }
    set_demand(r, book, 30, 70);
}

/* A unit price near the base, and a fixed price that is nothing, a small rebate, or a small sum. */
static void near_prices(struct random *r, struct segment *s, int64_t base, int64_t top)
{
    int64_t unit = base + between(r, -base / 10 - 1, base / 10 + 1);
    int64_t fixed[] = {0, -unit * (int64_t)s->start / 20, between(r, 0, unit * top / 20 + 1)};

    set_prices(s, unit, PICK(r, fixed));
}

/* Makes a bidder so many times as large. */
static void enlarge(struct bid *bid, int64_t factor)
{
    for (size_t j = 1; j <= bid->count; j++) {
        bid->segments[j].start *= (uint64_t)factor;
        bid->segments[j].end *= (uint64_t)factor;
    }
}

/* Near prices, and one bidder who sells many times as much as the others; the demand begins with a start of that bidder. */
static void giant(struct random *r, struct book *book)
{
    static const int64_t tops[] = {60, 2000, 40000, 250000}, bases[] = {3, 400, 400000};
    int64_t top = PICK(r, tops), base = PICK(r, bases), most = MOST / top, demand;
    int single = chance(r, 50) ? 10 : 60;
    struct bid *large;

    begin(book);
    for (size_t i = 0; i < BIDS; i++) {
        places(r, &book->bids[i], top, single);
        for (size_t j = 1; j <= SEGMENTS; j++) {
            near_prices(r, &book->bids[i].segments[j], base, top);
        }
    }
    large = &book->bids[between(r, 0, BIDS - 1)];
    enlarge(large, between(r, 3, most < 40 ? most : 40));
    demand = (int64_t)large->segments[between(r, 1, SEGMENTS)].start + between(r, 0, 3 * top);
    book->demand = (uint64_t)(demand < MOST ? demand : MOST);
}

/* Moves the first segment of a bidder off the multiples, at a high price. */
static void move_off(struct random *r, struct segment *first)
{
    uint64_t width = first->end - first->start;

    first->start += width + 1;
    first->end += width + 1;
    first->fixed += 100000 * between(r, 0, 30);
}

/* All quantities are multiples of a step, or so little above one that all bidders together do not reach the next; the demand is none. One
 * bidder at most has a segment off the multiples. */
static void parity(struct random *r, struct book *book)
{
    static const int64_t sizes[] = {2, 3, 10, 1000}, ranges[] = {10, 30, 300, 20000};
    int64_t step = PICK(r, sizes), range = PICK(r, ranges), width = chance(r, 67) ? 0 : between(r, 0, (step - 1) / BIDS);
    int64_t off = between(r, 0, BIDS);

    begin(book);
    for (size_t i = 0; i < BIDS; i++) {
        int64_t multiples[SEGMENTS];

        rising(r, range < (MOST - width) / step ? range : (MOST - width) / step, multiples, SEGMENTS);
        for (size_t j = 0; j < SEGMENTS; j++) {
            struct segment *s = &book->bids[i].segments[j + 1];

            set_places(s, multiples[j] * step, multiples[j] * step + width);
            set_prices(s, between(r, 380, 420), between(r, 0, 3000));
        }
    }
    if (off < BIDS) {
        move_off(r, &book->bids[off].segments[1]);
    }
    set_demand(r, book, 30, 60);
    book->demand = (book->demand - 1) / (uint64_t)step * (uint64_t)step;
    book->demand += (uint64_t)(chance(r, 50) ? width + 1 : between(r, 1, step - 1));
}

/* The price at the start or at the end of every segment lies on one line, but for a small sum. */
static void noise(struct random *r, struct book *book)
{
    static const int64_t tops[] = {40, 200, 2000, 30000, 250000}, extras[] = {0, 1, 10, 1000, 100000};
    static const int singles[] = {0, 50, 100};
    int64_t top = PICK(r, tops), extra = PICK(r, extras), line = between(r, 1, 1000);
    int single = PICK(r, singles);

    begin(book);
    for (size_t i = 0; i < BIDS; i++) {
        places(r, &book->bids[i], top, single);
        for (size_t j = 1; j <= SEGMENTS; j++) {
            struct segment *s = &book->bids[i].segments[j];
            int64_t unit = chance(r, 50) ? line : between(r, 0, line);

            set_prices(s, unit, (line - unit) * (int64_t)(chance(r, 50) ? s->start : s->end) + between(r, 0, extra));
        }
    }
    set_demand(r, book, 30, 70);
}

struct family {
    const char *name;
    void (*make)(struct random *r, struct book *book);
};

static const struct family FAMILIES[] = {{"steps", steps}, {"giant", giant}, {"parity", parity}, {"noise", noise}};

enum { FAMILY_COUNT = sizeof FAMILIES / sizeof *FAMILIES };

struct times {
    double sum, most;
};

static void add(struct times *times, double taken)
{
    times->sum += taken;
    times->most = times->most < taken ? taken : times->most;
}

/* Runs the product and the plain C search on a book, in turn; false where one fails or they differ. */
static bool run_book(const struct book *book, int runs, struct times *product, struct times *bounded)
{
    struct text text;
    struct clearing expected;
    double ours = 0, theirs = 0;
    bool good = true;

    book_write(book, &text);
    for (int i = 0; good && i < runs; i++) {
        good = method_run(&METHODS[PRODUCT], &text, book, &expected, &ours) && method_run(&METHODS[BOUNDED], &text, book, &expected, &theirs);
    }
    if (!good) {
        fprintf(stderr, "%s", text.bytes);
    }
    add(product, ours);
    add(bounded, theirs);
    return good;
}

static bool run_family(const struct family *family, uint64_t seed, int count, int runs)
{
    struct random r = {seed};
    struct times product = {0}, bounded = {0};

    for (int i = 0; i < count; i++) {
        struct book book;

        family->make(&r, &book);
        if (!run_book(&book, runs, &product, &bounded)) {
            return false;
        }
    }
    printf("%s %d %.6f %.6f %.6f %.6f\n", family->name, count, product.sum / count, product.most, bounded.sum / count, bounded.most);
    return true;
}

int main(int argc, char **argv)
{
    if (argc != 3 || atoi(argv[1]) < 1 || atoi(argv[2]) < 1) {
        fprintf(stderr, "usage: %s COUNT RUNS\n", argv[0]);
        return 2;
    }
    for (size_t i = 0; i < FAMILY_COUNT; i++) {
        if (!run_family(&FAMILIES[i], i + 1, atoi(argv[1]), atoi(argv[2]))) {
            return 1;
        }
    }
    return 0;
}
