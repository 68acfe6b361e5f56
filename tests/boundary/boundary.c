/* Calls the entries of include/boccelarch.h as the tender site does: the cases of the scope paper ("document 01"), each refusal with its
 * place, the order of refusals, and that nothing is touched but what was lent. The texts and what should be answered are in cases.h. The
 * entries by a sampling table are called by tables.c. Every call is made twice, as lent.h says.
 *
 * Prints a line for each check that fails, and at the end how many passed and how many failed. */
#include <stdio.h>
#include <string.h>

#include "answers.h"
#include "boccelarch.h"
#include "cases.h"
#include "checks.h"
#include "lent.h"

/* The entries: for each what it should answer, and the check of a call */

enum output_entry { SHEET, PAGE, WRITE };

static const struct {
    const char *name;
    uint64_t (*call)(const uint8_t *, size_t, uint8_t *, size_t, uint64_t *, uint64_t *);
    size_t enough; /* a length in which everything that it writes has the room */
} output_entries[] = {
    {"sheet", boccelarch_sheet, BOCCELARCH_SHEET_BYTES},
    {"page", boccelarch_page, BOCCELARCH_PAGE_BYTES},
    {"write", boccelarch_write, BOCCELARCH_TEXT_BYTES},
};

static void check_output(enum output_entry entry, const char *name, struct text text, size_t room, struct output expected)
{
    enum arrangement how;

    for (how = GUARDED; how <= EXACT; how++) {
        struct lent lent_text = lend_copy(how, text.bytes, text.length), out = lend(how, room);
        struct lent place = lend(how, sizeof(uint64_t)), bytes = lend(how, sizeof(uint64_t));

        situate(output_entries[entry].name, name, text.length, room, how);
        expect_number("refusal", expected.number,
                      output_entries[entry].call(lent_text.bytes, text.length, out.bytes, room, numbers(&place), numbers(&bytes)));
        take_back_number("place", &place, expected.place);
        take_back_number("bytes", &bytes, expected.written.length);
        take_back("output", &out, expected.written.bytes, expected.written.length);
        take_back("text", &lent_text, text.bytes, text.length);
    }
}

/* Outputs of each length from `from` to `to`. */
static void check_lengths(enum output_entry entry, const char *name, struct text text, struct text written, size_t from, size_t to)
{
    size_t length;

    for (length = from; length <= to; length++)
        check_output(entry, name, text, length, output_in(written, length));
}

/* An output of no bytes, of about as many as are written, and of enough for everything. */
static void check_written(enum output_entry entry, const char *name, struct text text, struct text written)
{
    size_t enough = output_entries[entry].enough;

    check_lengths(entry, name, text, written, 0, 0);
    check_lengths(entry, name, text, written, written.length - 2, written.length + 2);
    check_lengths(entry, name, text, written, enough, enough);
}

/* A refusal that does not ask how long the output is: none is lent, and then enough. */
static void check_refused_output(enum output_entry entry, const char *name, struct text text, uint64_t number, uint64_t place)
{
    check_output(entry, name, text, 0, refused_output(number, place));
    check_output(entry, name, text, output_entries[entry].enough, refused_output(number, place));
}

struct sizes {
    uint64_t number, place, bytes, choices, sheet;
};

/* What lent.h lends is not 0 before a call, so that the zeros beside a refusal are seen to be set. */
static void check_sizes(const char *name, struct text text, struct sizes expected)
{
    enum arrangement how;

    for (how = GUARDED; how <= EXACT; how++) {
        struct lent lent_text = lend_copy(how, text.bytes, text.length), place = lend(how, sizeof(uint64_t));
        struct lent bytes = lend(how, sizeof(uint64_t)), choices = lend(how, sizeof(uint64_t)), sheet = lend(how, sizeof(uint64_t));

        situate("sizes", name, text.length, 0, how);
        expect_number("refusal", expected.number,
                      boccelarch_sizes(lent_text.bytes, text.length, numbers(&place), numbers(&bytes), numbers(&choices),
                                       numbers(&sheet)));
        take_back_number("place", &place, expected.place);
        take_back_number("bytes", &bytes, expected.bytes);
        take_back_number("choices", &choices, expected.choices);
        take_back_number("sheet", &sheet, expected.sheet);
        take_back("text", &lent_text, text.bytes, text.length);
    }
}

/* An output of as many bytes as the limit is long enough for the sheet, of which nothing else is known here: there is none, or it fits. */
static void check_limit(const char *name, struct text text, uint64_t limit)
{
    enum arrangement how;

    for (how = GUARDED; how <= EXACT; how++) {
        struct lent lent_text = lend_copy(how, text.bytes, text.length), out = lend(how, limit);
        uint64_t place, bytes, number;

        situate("sheet", name, text.length, limit, how);
        number = boccelarch_sheet(lent_text.bytes, text.length, out.bytes, limit, &place, &bytes);
        expect_number("refused by another number than 9", 0, number != BOCCELARCH_ACCEPTED && number != BOCCELARCH_NOT_COVERED);
        expect_number("more bytes than the limit", 0, bytes > limit);
        release("output", &out);
        take_back("text", &lent_text, text.bytes, text.length);
    }
}

static void check_split(const char *name, struct text text, const uint64_t *quantities, size_t count, struct split expected)
{
    enum arrangement how;

    for (how = GUARDED; how <= EXACT; how++) {
        struct lent lent_text = lend_copy(how, text.bytes, text.length), list = lend_copy(how, quantities, count * sizeof *quantities);
        struct lent place = lend(how, sizeof(uint64_t)), price = lend(how, sizeof(int64_t)), meets = lend(how, sizeof(uint64_t));

        situate("split", name, text.length, count, how);
        expect_number("refusal", expected.number,
                      boccelarch_split(lent_text.bytes, text.length, numbers(&list), count, numbers(&place),
                                       (int64_t *)(void *)price.bytes, numbers(&meets)));
        take_back_number("place", &place, expected.place);
        take_back_number("price", &price, (uint64_t)expected.price);
        take_back_number("meets", &meets, expected.meets);
        take_back("quantities", &list, quantities, count * sizeof *quantities);
        take_back("text", &lent_text, text.bytes, text.length);
    }
}

static void check_award(const char *name, struct text text, size_t length, struct award expected)
{
    enum arrangement how;

    for (how = GUARDED; how <= EXACT; how++) {
        struct lent lent_text = lend_copy(how, text.bytes, text.length), rows = lend(how, length * sizeof(uint64_t));
        struct lent place = lend(how, sizeof(uint64_t)), bought = lend(how, sizeof(uint64_t));
        struct lent total = lend(how, sizeof(uint64_t)), count = lend(how, sizeof(uint64_t));

        situate("award", name, text.length, length, how);
        expect_number("refusal", expected.number,
                      boccelarch_award(lent_text.bytes, text.length, numbers(&rows), length, numbers(&place), numbers(&bought),
                                       numbers(&total), numbers(&count)));
        take_back_number("place", &place, expected.place);
        take_back_number("bought", &bought, expected.bought);
        take_back_number("total", &total, expected.total);
        take_back_number("count", &count, expected.count);
        expect_rows(&expected, numbers(&rows));
        take_back("rows", &rows, expected.rows, expected.count * sizeof(row));
        take_back("text", &lent_text, text.bytes, text.length);
    }
}

/* Checks of a text by several entries */

/* A refusal from 1 to 8 is given by every entry, also where the output is too short (10) or a quantity is missing (11). */
static void check_refused(const char *name, struct text text, uint64_t number, uint64_t place)
{
    static const uint64_t quantities[BIDS] = {0};
    struct sizes sizes = {0, 0, 0, 0, 0};
    struct split split = {0, 0, 0, 0};
    enum output_entry entry;
    size_t all;

    sizes.number = split.number = number;
    sizes.place = split.place = place;
    for (entry = SHEET; entry <= WRITE; entry++)
        check_refused_output(entry, name, text, number, place);
    for (all = 0; all <= 1; all++) {
        check_split(name, text, quantities, all * COUNT(quantities), split);
        check_award(name, text, all * BOCCELARCH_AWARD_NUMBERS, refused_award(number, place));
    }
    check_sizes(name, text, sizes);
}

/* An accepted text is written out the same, whether or not its demand can be covered. Its length is the first of the three figures: with an
 * output of as many bytes it is written, and with one byte less that number is the place of refusal 10. */
static void check_accepted(const char *name, struct text text, uint64_t choices, uint64_t limit)
{
    struct sizes sizes = {0, 0, 0, 0, 0};

    sizes.bytes = text.length;
    sizes.choices = choices;
    sizes.sheet = limit;
    check_sizes(name, text, sizes);
    check_written(WRITE, name, text, text);
    check_limit(name, text, limit);
}

/* 9 comes before 10, so it does not matter how long the output is. */
static void check_not_covered(const char *name, struct text text, uint64_t choices, uint64_t limit)
{
    size_t all;

    check_refused_output(SHEET, name, text, BOCCELARCH_NOT_COVERED, 0);
    check_refused_output(PAGE, name, text, BOCCELARCH_NOT_COVERED, 0);
    for (all = 0; all <= 1; all++)
        check_award(name, text, all * BOCCELARCH_AWARD_NUMBERS, refused_award(BOCCELARCH_NOT_COVERED, 0));
    check_accepted(name, text, choices, limit);
}

/* Books that are cleared */

/* Every length of list: 10 with the bytes needed while it is too short. */
static void check_award_lengths(const struct cleared *book)
{
    struct award accepted = {0, 0, 0, 0, 0, NULL};
    size_t length, needed = book->count * BOCCELARCH_COLUMNS;

    accepted.bought = book->bought;
    accepted.total = book->total;
    accepted.count = book->count;
    accepted.rows = book->rows;
    for (length = 0; length <= BOCCELARCH_AWARD_NUMBERS; length++)
        check_award(book->name, book->text, length,
                    length < needed ? refused_award(BOCCELARCH_OUTPUT_LENGTH, sizeof(uint64_t) * needed) : accepted);
}

static void check_cleared_books(void)
{
    const struct cleared *book;

    for (book = cleared; book < cleared + COUNT(cleared); book++) {
        check_written(SHEET, book->name, book->text, book->sheet);
        check_lengths(SHEET, book->name, book->text, book->sheet, book->limit, book->limit);
        check_written(PAGE, book->name, book->text, book->page);
        expect_number("bytes of the page in cases.h", 65 * (book->count + 1), book->page.length);
        expect_number("limit of the sheet in cases.h", 39 + 66 * book->count, book->limit);
        check_award_lengths(book);
        check_accepted(book->name, book->text, book->choices, book->limit);
    }
}

/* Document 01's book: everything that is written of it, in an output of every length. */
static void check_every_length(void)
{
    const struct cleared *book = &cleared[0];

    check_lengths(SHEET, book->name, book->text, book->sheet, 0, BOCCELARCH_SHEET_BYTES);
    check_lengths(PAGE, book->name, book->text, book->page, 0, BOCCELARCH_PAGE_BYTES);
    check_lengths(WRITE, book->name, book->text, book->text, 0, 2 * book->text.length);
}

static void check_books_not_covered(void)
{
    check_not_covered("demand 301", (struct text)TEXT(BOOK(301)), 12, 237);
    check_not_covered("bidder 12 alone, demand 119", (struct text)TEXT(DEMAND(119) BID_12), 2, 105);
    check_not_covered("demand 301, which no allowance helps", (struct text)TEXT(ORDER(301, 1000000) BID_3 BID_8 BID_12), 12, 237);
    check_not_covered("starts that pass the demand by one more than the allowance", (struct text)TEXT(STARTS_BOOK(19)), 4, 171);
    check_not_covered("two bids of 999,999, one blank more than is taken",
                      (struct text)TEXT(ORDER(1000000, 999997) DEAREST(9998, 999999) DEAREST(9999, 999999)), 4, 171);
}

/* Texts that are refused */

static void check_shapes(void)
{
    size_t i;

    for (i = 0; i < COUNT(shapes); i++)
        check_refused(shapes[i].name, shapes[i].text, shapes[i].number, shapes[i].place);
}

/* Each of 3 to 8, and 2 before it: with the last byte missing, and with one byte more, the 0 that ends the literal. */
static void check_rules(void)
{
    size_t i;

    for (i = 0; i < COUNT(rules); i++) {
        struct text shorter = rules[i].text, longer = rules[i].text;

        shorter.length--;
        longer.length++;
        check_refused(rules[i].name, rules[i].text, rules[i].number, rules[i].place);
        check_refused(rules[i].name, shorter, BOCCELARCH_SHAPE, shorter.length);
        check_refused(rules[i].name, longer, BOCCELARCH_SHAPE, rules[i].text.length);
    }
}

/* The rules' limits, where nothing is refused. The shortest and the longest text are also among the books that are cleared. */
static void check_limits(void)
{
    check_sizes("the shortest text", (struct text)TEXT(SHORTEST_TEXT), (struct sizes){0, 0, 37, 2, 105});
    check_sizes("the longest text", (struct text)TEXT(LONGEST_TEXT), (struct sizes){0, 0, 2201, 5764801, 567});
    check_accepted("the longest line",
                   (struct text)TEXT(ORDER(1000000, 1000000) "(bid 9999 10000 (seg 1000000 1000000 1000000 -1000000000000))\n"), 2, 105);
    check_accepted("the highest allowance", (struct text)TEXT(ORDER(1, 1000000) "(bid 1 0 (seg 1 1 0 0))\n"), 2, 105);
    check_accepted("the widest segment", (struct text)TEXT(DEMAND(1) "(bid 1 0 (seg 1 1000000 0 1000000000000))\n"), 2, 105);
    check_accepted("price 0 at a start, and the highest carriage",
                   (struct text)TEXT(DEMAND(120) CARRIED(3, 10000, " (seg 61 100 350 -21350)")), 2, 105);
    check_accepted("eight bids", (struct text)TEXT(DEMAND(1) SEVEN_GOOD GOOD(8)), 256, 567);
}

/* Counts of bids and of segments, from the fewest to the most. */
static void check_counts(void)
{
    check_not_covered("one segment", (struct text)TEXT(DEMAND(1) BID(1, ONE)), 2, 105);
    check_not_covered("two segments", (struct text)TEXT(DEMAND(1) BID(1, TWO)), 3, 105);
    check_not_covered("three segments", (struct text)TEXT(DEMAND(1) BID(1, THREE)), 4, 105);
    check_not_covered("four segments", (struct text)TEXT(DEMAND(1) BID(1, FOUR)), 5, 105);
    check_not_covered("five segments", (struct text)TEXT(DEMAND(1) BID(1, FIVE)), 6, 105);
    check_not_covered("six segments", (struct text)TEXT(DEMAND(1) BID(1, SIX)), 7, 105);
    check_not_covered("one segment and six", (struct text)TEXT(DEMAND(1) BID(1, ONE) BID(2, SIX)), 14, 171);
    check_not_covered("six segments and one", (struct text)TEXT(DEMAND(1) BID(1, SIX) BID(2, ONE)), 14, 171);
    check_not_covered("from one segment to six",
                      (struct text)TEXT(DEMAND(1) BID(1, ONE) BID(2, TWO) BID(3, THREE) BID(4, FOUR) BID(5, FIVE) BID(6, SIX)), 5040, 435);
    check_not_covered("seven bids of six segments",
                      (struct text)TEXT(DEMAND(1) BID(1, SIX) BID(2, SIX) BID(3, SIX) BID(4, SIX) BID(5, SIX) BID(6, SIX) BID(7, SIX)),
                      823543, 501);
    check_not_covered("eight bids of six segments",
                      (struct text)TEXT(DEMAND(1) BID(1, SIX) BID(2, SIX) BID(3, SIX) BID(4, SIX) BID(5, SIX) BID(6, SIX) BID(7, SIX)
                                            BID(8, SIX)),
                      5764801, 567);
}

/* Beginnings of document 01's book. One that ends with a bid's line is itself a book, that of two bids among those that are cleared; every
 * other is 2 with its length as the place. */
static void check_beginnings(void)
{
    static const struct text book = TEXT(BOOK(120)), one_bid = TEXT(DEMAND(120) BID_3), two_bids = TEXT(TWO_BIDS);
    struct text beginning = book;

    for (beginning.length = 0; beginning.length < book.length; beginning.length++)
        if (beginning.length != one_bid.length && beginning.length != two_bids.length)
            check_refused("a beginning", beginning, BOCCELARCH_SHAPE, beginning.length);
    check_not_covered("the first bid", one_bid, 3, 105);
}

/* What follows in memory is not taken for a part of the text or of the list, even if it would fit. */
static void check_what_follows(void)
{
    static const struct text book = TEXT(BOOK(120));
    static const uint64_t quantities[] = {60, 60, 0};
    const uint8_t *bytes = (const uint8_t *)book.bytes;
    uint8_t out[BOCCELARCH_TEXT_BYTES];
    uint64_t place, number, choices, sheet, meets;
    int64_t price;
    size_t length = book.length - 1;
    enum output_entry entry;

    for (entry = SHEET; entry <= WRITE; entry++) {
        situate(output_entries[entry].name, "the book's last byte behind the text", length, sizeof out, IN_PLACE);
        expect_number("refusal", BOCCELARCH_SHAPE, output_entries[entry].call(bytes, length, out, sizeof out, &place, &number));
        expect_number("place", length, place);
    }
    situate("sizes", "the book's last byte behind the text", length, 0, IN_PLACE);
    expect_number("refusal", BOCCELARCH_SHAPE, boccelarch_sizes(bytes, length, &place, &number, &choices, &sheet));
    expect_number("place", length, place);
    situate("split", "the third quantity behind the list", book.length, 2, IN_PLACE);
    expect_number("refusal", BOCCELARCH_SPLIT_QUANTITY, boccelarch_split(bytes, book.length, quantities, 2, &place, &price, &meets));
    expect_number("place", 4, place);
}

/* Texts of 4,096 bytes and more */

static char long_bytes[BOCCELARCH_TEXT_BYTES + 1000];

/* The beginning, of that length, of a book whose first bid has ever more segments. A segment ends before byte 4,094. */
static struct text endless(size_t length)
{
    static const struct text first = TEXT(ORDER(1000000, 1000000) "(bid 1 0 (seg 1 10 0 0)"), further = TEXT(" (seg 1 1 0 0)");
    struct text text = {long_bytes, 0};
    size_t place;

    memcpy(long_bytes, first.bytes, first.length);
    for (place = first.length; place < sizeof long_bytes; place++)
        long_bytes[place] = further.bytes[(place - first.length) % further.length];
    text.length = length;
    return text;
}

/* The same, but the bid and its line end before byte 4,096. */
static struct text ended(size_t length)
{
    struct text text = endless(length);

    memcpy(long_bytes + BOCCELARCH_TEXT_BYTES - 2, ")\n", 2);
    return text;
}

static struct text spaces(size_t length)
{
    struct text text = {long_bytes, 0};

    memset(long_bytes, ' ', sizeof long_bytes);
    text.length = length;
    return text;
}

/* A text longer than 4,096 bytes is refused by 1 whatever it holds. */
static void check_long_texts(void)
{
    check_refused("of the shape", ended(BOCCELARCH_TEXT_BYTES), BOCCELARCH_SEGMENT_COUNT, 2);
    check_refused("a space after the shape", ended(BOCCELARCH_TEXT_BYTES + 1), BOCCELARCH_TEXT_LENGTH, BOCCELARCH_TEXT_BYTES);
    check_refused("cut", endless(BOCCELARCH_TEXT_BYTES), BOCCELARCH_SHAPE, BOCCELARCH_TEXT_BYTES);
    check_refused("cut", endless(BOCCELARCH_TEXT_BYTES + 1), BOCCELARCH_TEXT_LENGTH, BOCCELARCH_TEXT_BYTES);
    check_refused("cut", endless(sizeof long_bytes), BOCCELARCH_TEXT_LENGTH, BOCCELARCH_TEXT_BYTES);
    check_refused("spaces", spaces(BOCCELARCH_TEXT_BYTES), BOCCELARCH_SHAPE, 0);
    check_refused("spaces", spaces(BOCCELARCH_TEXT_BYTES + 1), BOCCELARCH_TEXT_LENGTH, BOCCELARCH_TEXT_BYTES);
}

/* Splits */

static void check_splits(void)
{
    size_t i;

    for (i = 0; i < COUNT(splits); i++)
        check_split(splits[i].name, splits[i].text, splits[i].quantities, splits[i].count, splits[i].expected);
}

int main(void)
{
    setvbuf(stdout, NULL, _IOLBF, 0); /* the lines of failures stand even if a broken heap ends the program */
    check_cleared_books();
    check_every_length();
    check_books_not_covered();
    check_shapes();
    check_rules();
    check_limits();
    check_counts();
    check_beginnings();
    check_what_follows();
    check_long_texts();
    check_splits();
    printf("%lu passed, %lu failed\n", passed, failed);
    return failed > 0;
}
