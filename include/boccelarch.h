/* The blanks tender for C: entries of libboccelarch.a (x86-64 Linux).
 *
 * A bid book is a line for the demand and then one for each bid, each ended by byte 10:
 *
 *     (demand 120 10)
 *     (bid 3 250 (seg 1 60 400 0) (seg 61 100 350 -500))
 *
 * The second number of the first line is the allowance: from the demand to demand + allowance blanks are bought, here 120 to 130. A bid is the
 * bidder number, the carriage in cents for one blank, and segments: start, end, unit price, fixed price. On a segment r blanks cost
 * (unit price + carriage) * r + fixed price. README.md has the ranges.
 *
 * A sampling table says how many blanks of an awarded quantity are sampled. It is a line for each band: its highest quantity, and the sample:
 *
 *     (band 19 1)
 *     (band 100 9)
 *     (band 1000000 60)
 *
 * A band begins one above the band before it, the first at 1. There are 1 to 16 bands; quantities rise strictly, the last is 1,000,000; samples
 * are from 1 to 99,999, never fall, and none is more than the lowest quantity of its band, so that the first is always 1. What is awarded is
 * sampled by the printed table of sixteen bands, which boccelarch_printed_table writes, or, by a function whose name ends in _by_table, by the
 * table that is passed before the book.
 *
 * The functions take the bytes of a bid book, of a table or of both, which need not end with a 0, and return the number of the refusal, 0 where
 * nothing is refused. They always set *place to the place of the refusal (a line, a place in the text, or a length), 0 where nothing is
 * refused, and every other number behind a pointer; with a refusal those are 0.
 *
 * With a refusal not one byte of a lent output is changed. Without one, exactly *bytes bytes are written at its beginning (by
 * boccelarch_award and boccelarch_award_by_table, *count rows of BOCCELARCH_COLUMNS numbers), and those past them stay as they were. No byte
 * outside of what was lent is read or written.
 *
 * What is asked of a caller: each pointer is valid for the length beside it, also where that is 0 (so it is never NULL); uint64_t and
 * int64_t are aligned; and what is written to (outputs, lists of rows, numbers behind pointers) overlaps nothing else that is passed. The
 * functions keep no state, allocate nothing and may be called from several threads at once.
 *
 * A thread with a stack of 64 KB can call each of them: tests/boundary/run checks it on a book of eight bids of six segments.
 * With boccelarch_sheet, boccelarch_page and boccelarch_award, by a table or not, most books are cleared in about a millisecond or less, the
 * slowest known in 0.14 s (bench/RESULTS.md).
 *
 * That the functions answer what docs/CLAIMS.md states is proved, for every text and every length.
 */
#ifndef BOCCELARCH_H
#define BOCCELARCH_H

#include <stddef.h>
#include <stdint.h>

#ifdef __cplusplus
extern "C" {
#endif

/* The refusals, and what *place then is. Of several that are due, the first in this order is given: those of a table, if one is passed, 1, 2,
 * then 12; those of a book, 1, 2, then the lines from the first, in a line 3 to 8; after that 11 for a split, 9 and then 10 for a sheet, a page
 * or an award, 10 for a book or a table that is written. Which of the two texts a 1 or a 2 is about, boccelarch_write_table tells. */
enum boccelarch_refusal {
    BOCCELARCH_ACCEPTED = 0,
    BOCCELARCH_TEXT_LENGTH = 1,    /* the text is longer than 4,096 bytes: 4096 */
    BOCCELARCH_SHAPE = 2,          /* not of the shape: length of the longest beginning that some text of the shape also has */
    BOCCELARCH_BID_COUNT = 3,      /* a ninth bid: the line */
    BOCCELARCH_SEGMENT_COUNT = 4,  /* a seventh segment in a bid: the line */
    BOCCELARCH_RANGE = 5,          /* a number outside its range: the line */
    BOCCELARCH_BIDDER_ORDER = 6,   /* a bidder number not above the one before: the line */
    BOCCELARCH_SEGMENT_ORDER = 7,  /* a start above its end, or not above the end before: the line */
    BOCCELARCH_NEGATIVE_PRICE = 8, /* a negative price at a start, without carriage: the line */
    BOCCELARCH_NOT_COVERED = 9,    /* no allocation adds up to at least the demand and at most demand + allowance: 0 */
    BOCCELARCH_OUTPUT_LENGTH = 10, /* the output is too short: the bytes needed */
    BOCCELARCH_SPLIT_QUANTITY = 11, /* a quantity missing, neither 0 nor on a segment, or one too many: the line */
    BOCCELARCH_SAMPLING_TABLE = 12 /* a band of a sampling table that breaks a rule: the first such line */
};

/* The longest text; a caller reads one byte more, to see that a text is too long. */
#define BOCCELARCH_TEXT_BYTES 4096

/* Enough for every sheet. */
#define BOCCELARCH_SHEET_BYTES 600

/* The award sheet, and its length in bytes. Refused by 1 to 10. */
uint64_t boccelarch_sheet(const uint8_t *text, size_t text_length, uint8_t *out, size_t out_length, uint64_t *place, uint64_t *bytes);

/* Enough for every page. */
#define BOCCELARCH_PAGE_BYTES 585

/* The page of the award, for print, and its length in bytes: a line for demand, blanks bought and total, then one for each bid, in book
 * order. A line is 64 bytes and a byte 10, so line i, counted from 0, begins at byte 65 * i. What it shows stands in these of its bytes, set
 * to the right with spaces before:
 *
 *     line 0      0 to 19 demand, 20 to 39 bought, 40 to 63 total
 *     other lines 0 to 5 bidder, 6 to 9 segment, 10 to 19 quantity, 20 to 39 price, 40 to 45 sample, 46 to 63 total without this bidder
 *
 * The price and both totals have a point and two decimals, so that 5 cents are 0.05 and 0 cents 0.00; instead of a total without a bidder
 * there can be the word none. Refused by 1 to 10; 10 gives 65 bytes for each line. */
uint64_t boccelarch_page(const uint8_t *text, size_t text_length, uint8_t *out, size_t out_length, uint64_t *place, uint64_t *bytes);

/* The book written out again, and its length in bytes: of an accepted text, the same text. Refused by 1 to 8 and 10. An output of
 * BOCCELARCH_TEXT_BYTES holds every accepted book, and one of the bytes that boccelarch_sizes gives holds exactly it. */
uint64_t boccelarch_write(const uint8_t *text, size_t text_length, uint8_t *out, size_t out_length, uint64_t *place, uint64_t *bytes);

/* What is known of a book before it is cleared, whether or not its demand can be covered: *bytes, the exact length of its text, which is what
 * boccelarch_write writes; *choices, in how many ways each bid can be given one of its segments or none, the product over the bids of
 * segments + 1; *sheet, 39 + 66 for each bid, which no sheet of the book exceeds, by the printed table or by any that passes, so that with
 * an output of as many bytes it is never refused by 10. Refused by 1 to 8. */
uint64_t boccelarch_sizes(const uint8_t *text, size_t text_length, uint64_t *place, uint64_t *bytes, uint64_t *choices, uint64_t *sheet);

/* The price in cents of a proposed split, carriage with it: one quantity for each bid in book order, whether or not the demand can be
 * covered. *meets is 1 if the quantities add up to at least the demand and at most demand + allowance, else 0. Refused by 1 to 8 and 11. */
uint64_t boccelarch_split(const uint8_t *text, size_t text_length, const uint64_t *quantities, size_t count, uint64_t *place, int64_t *price,
                          uint64_t *meets);

/* The award as numbers: a row of BOCCELARCH_COLUMNS numbers for each bid, in book order, so that the quantity of the third bid is
 * rows[2 * BOCCELARCH_COLUMNS + BOCCELARCH_QUANTITY]; the blanks bought, which are those of all quantities together; the total price in
 * cents; and how many bids there are. rows_length counts numbers, not bytes. Refused by 1 to 10; 10 gives the bytes needed, 8 for each
 * number, so that a list of *place / 8 numbers is long enough. */
enum boccelarch_column {
    BOCCELARCH_BIDDER = 0,
    BOCCELARCH_SEGMENT = 1,  /* 0 for a bidder who sells nothing */
    BOCCELARCH_QUANTITY = 2, /* blanks */
    BOCCELARCH_PRICE = 3,    /* cents, carriage with it */
    BOCCELARCH_SAMPLE = 4,   /* blanks to sample */
    BOCCELARCH_COVERED = 5,  /* 1 if the other bids cover the demand, 0 for `none` */
    BOCCELARCH_WITHOUT = 6,  /* the total without this bidder in cents, 0 for `none` */
    BOCCELARCH_COLUMNS = 7
};

/* Enough for every award. */
#define BOCCELARCH_AWARD_NUMBERS (8 * BOCCELARCH_COLUMNS)

uint64_t boccelarch_award(const uint8_t *text, size_t text_length, uint64_t *rows, size_t rows_length, uint64_t *place, uint64_t *bought,
                          uint64_t *total, uint64_t *count);

/* The sheet, the page and the award likewise, sampled by a table that is passed before the book. The table is refused by 1, 2 and 12 before
 * anything of the book. BOCCELARCH_SHEET_BYTES and BOCCELARCH_PAGE_BYTES are enough with every table. */
uint64_t boccelarch_sheet_by_table(const uint8_t *table, size_t table_length, const uint8_t *text, size_t text_length, uint8_t *out,
                                   size_t out_length, uint64_t *place, uint64_t *bytes);
uint64_t boccelarch_page_by_table(const uint8_t *table, size_t table_length, const uint8_t *text, size_t text_length, uint8_t *out,
                                  size_t out_length, uint64_t *place, uint64_t *bytes);
uint64_t boccelarch_award_by_table(const uint8_t *table, size_t table_length, const uint8_t *text, size_t text_length, uint64_t *rows,
                                   size_t rows_length, uint64_t *place, uint64_t *bought, uint64_t *total, uint64_t *count);

/* Enough for every table that passes. */
#define BOCCELARCH_TABLE_BYTES 336

/* A table written out again, and its length in bytes: of an accepted text, the same text. Refused by 1, 2, 12 and 10, so that it tells
 * whether a table passes. */
uint64_t boccelarch_write_table(const uint8_t *table, size_t table_length, uint8_t *out, size_t out_length, uint64_t *place, uint64_t *bytes);

/* The printed table as text, and its length in bytes, for a caller to start from. Refused by 10 alone. With it as the table every answer is
 * that of the function without one. */
uint64_t boccelarch_printed_table(uint8_t *out, size_t out_length, uint64_t *place, uint64_t *bytes);

#ifdef __cplusplus
}
#endif

#endif
