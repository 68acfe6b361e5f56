/* A bid book and its clearing, as the plain C methods of the benchmark have them. */
#ifndef BOOK_H
#define BOOK_H

#include <stdbool.h>
#include <stddef.h>
#include <stdint.h>

enum { BIDS = 8, SEGMENTS = 6, TEXT_BYTES = 4096 };

struct text {
    size_t length;
    char bytes[TEXT_BYTES + 1]; /* with a 0 after the text */
};

/* `unit` is what a further blank costs: the unit price that the book has for the segment, and the bid's carriage. */
struct segment {
    uint64_t start, end, unit;
    int64_t fixed;
};

/* Segment 0 is quantity 0 at price 0; the first `count` after it are those of the book. */
struct bid {
    uint64_t bidder, carriage;
    size_t count;
    struct segment segments[SEGMENTS + 1];
};

struct book {
    uint64_t demand, allowance;
    size_t count;
    struct bid bids[BIDS];
};

/* What clearing gives: where the book is not covered, all else is 0. */
struct clearing {
    bool covered;
    uint64_t bought;
    int64_t total;
    uint64_t quantities[BIDS];
    bool covered_without[BIDS];
    int64_t without[BIDS];
};

/* Reads the text of an accepted book from a file, and the book from the text; false where it cannot. The rules are not checked. */
bool book_load(const char *path, struct text *text, struct book *book);

/* The text of a book. It has room for that of every accepted book. */
void book_write(const struct book *book, struct text *text);

/* The book less the bid with this index. */
void book_without(const struct book *book, size_t at, struct book *left);

/* The most blanks that are taken. */
static inline uint64_t most_of(const struct book *book)
{
    return book->demand + book->allowance;
}

/* The price of a quantity on a segment. */
static inline int64_t price(const struct segment *s, uint64_t quantity)
{
    return (int64_t)(s->unit * quantity) + s->fixed;
}

/* Every choice of segments in the product's order, the sums carried along, each complete one that fits filled and compared; all clearings. */
void exhaustive_clear(const struct book *book, struct clearing *out);

/* The product's algorithm: the same search, less the parts where nothing better can be found; the product's clearings. */
void bounded_clear(const struct book *book, struct clearing *out);

/* A dynamic program over quantities; false where there is no memory for it. */
bool dp_clear(const struct book *book, struct clearing *out);

#endif
