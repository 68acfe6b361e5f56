/* Writes a book as a mixed-integer program, in the CPLEX LP format, to standard output.
 *
 * For segment j of bid i (from 1): y_i_j is 1 where it is chosen, and x_i_j is the quantity on it. The quantities are continuous: with the
 * segments chosen, some cheapest quantities are whole numbers, since all bounds are.
 */
#include "book.h"

#include <inttypes.h>
#include <stdio.h>

typedef void segment_line(size_t i, size_t j, const struct segment *s);

/* Calls `line` for each segment of bid i. */
static void each_of(size_t i, const struct bid *bid, segment_line *line)
{
    for (size_t j = 1; j <= bid->count; j++) {
        line(i, j, &bid->segments[j]);
    }
}

/* Calls `line` for each segment of the book. */
static void each(const struct book *book, segment_line *line)
{
    for (size_t i = 0; i < book->count; i++) {
        each_of(i + 1, &book->bids[i], line);
    }
}

static void cost(size_t i, size_t j, const struct segment *s)
{
    printf(" + %" PRIu64 " x_%zu_%zu", s->unit, i, j);
    printf(" %c %" PRId64 " y_%zu_%zu\n", s->fixed < 0 ? '-' : '+', s->fixed < 0 ? -s->fixed : s->fixed, i, j);
}

static void quantity(size_t i, size_t j, const struct segment *s)
{
    (void)s;
    printf(" + x_%zu_%zu\n", i, j);
}

static void bounds(size_t i, size_t j, const struct segment *s)
{
    printf(" start_%zu_%zu: x_%zu_%zu - %" PRIu64 " y_%zu_%zu >= 0\n", i, j, i, j, s->start, i, j);
    printf(" end_%zu_%zu: x_%zu_%zu - %" PRIu64 " y_%zu_%zu <= 0\n", i, j, i, j, s->end, i, j);
}

static void chosen(size_t i, size_t j, const struct segment *s)
{
    (void)s;
    printf(" + y_%zu_%zu", i, j);
}

static void binary(size_t i, size_t j, const struct segment *s)
{
    (void)s;
    printf(" y_%zu_%zu\n", i, j);
}

/* At most one segment of each bid. */
static void one_each(const struct book *book)
{
    for (size_t i = 0; i < book->count; i++) {
        printf(" one_%zu:", i + 1);
        each_of(i + 1, &book->bids[i], chosen);
        printf(" <= 1\n");
    }
}

int main(int argc, char **argv)
{
    static struct text text;
    static struct book book;

    if (argc != 2 || !book_load(argv[1], &text, &book)) {
        fprintf(stderr, "usage: %s BOOK\n", argv[0]);
        return 2;
    }
    printf("Minimize\n price:\n");
    each(&book, cost);
    printf("Subject To\n demand:\n");
    each(&book, quantity);
    printf(" %s %" PRIu64 "\n", book.allowance == 0 ? "=" : ">=", book.demand);
    if (book.allowance > 0) {
        printf(" most:\n");
        each(&book, quantity);
        printf(" <= %" PRIu64 "\n", most_of(&book));
    }
    each(&book, bounds);
    one_each(&book);
    printf("Binary\n");
    each(&book, binary);
    printf("End\n");
    return 0;
}
