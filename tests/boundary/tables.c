/* Calls the entries by a sampling table, as boundary.c calls the others: tables that pass, each rule of a table at its limits, the order of
 * refusals, and that nothing is touched but what was lent. Every call is made twice, as lent.h says.
 *
 * Prints a line for each check that fails, and at the end how many passed and how many failed. */
#include <inttypes.h>
#include <stdio.h>
#include <string.h>

#include "answers.h"
#include "boccelarch.h"
#include "cases.h"
#include "checks.h"
#include "lent.h"

/* Tables */

#define BAND(highest, sample) "(band " #highest " " #sample ")\n"
#define PRINTED_TABLE                                                                                                                     \
    BAND(1, 1) BAND(8, 2) BAND(15, 3) BAND(25, 5) BAND(50, 8) BAND(90, 13) BAND(150, 20) BAND(280, 32) BAND(500, 50) BAND(1200, 80)       \
    BAND(3200, 125) BAND(10000, 200) BAND(35000, 315) BAND(150000, 500) BAND(500000, 800) BAND(1000000, 1250)

#define FIFTEEN                                                                                                                           \
    BAND(1, 1) BAND(2, 2) BAND(3, 3) BAND(4, 4) BAND(5, 5) BAND(6, 6) BAND(7, 7) BAND(8, 8) BAND(9, 9) BAND(10, 10) BAND(11, 11)          \
    BAND(12, 12) BAND(13, 13) BAND(14, 14) BAND(15, 15)

static const struct text printed_table = TEXT(PRINTED_TABLE);
static const struct text widest_table = TEXT(BAND(99998, 1) BAND(1000000, 99999));

/* Tables that pass, and what they sample of document 01's book with demand 120, of which bidder 3 sells 100 and bidder 8 sells 20. */
static const struct {
    const char *name;
    struct text table;
    uint64_t of_100, of_20;
} passing[] = {
    {"the printed table", TEXT(PRINTED_TABLE), 20, 5},
    {"one band", TEXT(BAND(1000000, 1)), 1, 1},
    {"at the last quantity of a band", TEXT(BAND(20, 1) BAND(100, 21) BAND(1000000, 101)), 21, 1},
    {"at the first quantity of a band", TEXT(BAND(19, 1) BAND(99, 20) BAND(1000000, 100)), 100, 20},
    {"beside other bands", TEXT(BAND(19, 1) BAND(20, 2) BAND(21, 3) BAND(99, 4) BAND(100, 5) BAND(1000000, 6)), 5, 2},
    {"equal samples", TEXT(BAND(50, 1) BAND(60, 1) BAND(1000000, 1)), 1, 1},
    {"sixteen bands", TEXT(FIFTEEN BAND(1000000, 16)), 16, 16},
    {"the largest sample", TEXT(BAND(99998, 1) BAND(1000000, 99999)), 1, 1},
    {"999,999 before the last", TEXT(BAND(99, 1) BAND(999999, 100) BAND(1000000, 99999)), 100, 1},
};

#define BROKEN(line) BOCCELARCH_SAMPLING_TABLE, line

static const struct refused broken[] = {
    {"highest quantity 0", TEXT(BAND(0, 1) BAND(1000000, 1)), BROKEN(1)},
    {"highest quantity 0 alone", TEXT(BAND(0, 1)), BROKEN(1)},
    {"highest quantity 1000001", TEXT(BAND(1000001, 1)), BROKEN(1)},
    {"highest quantity 1000001 in the second line", TEXT(BAND(5, 1) BAND(1000001, 1) BAND(1000000, 1)), BROKEN(2)},
    {"a highest quantity of thirteen digits", TEXT(BAND(5, 1) BAND(9999999999999, 1)), BROKEN(2)},
    {"a highest quantity past 32 bits", TEXT(BAND(5, 1) BAND(4295967296, 1)), BROKEN(2)}, /* 2^32 + 1,000,000 */
    {"quantities that stay", TEXT(BAND(5, 1) BAND(5, 1) BAND(1000000, 1)), BROKEN(2)},
    {"quantities that fall", TEXT(BAND(5, 1) BAND(9, 1) BAND(8, 1) BAND(1000000, 1)), BROKEN(3)},
    {"1000000 twice", TEXT(BAND(5, 1) BAND(1000000, 1) BAND(1000000, 1)), BROKEN(3)},
    {"1000000 before the last", TEXT(BAND(1000000, 1) BAND(5, 1)), BROKEN(2)},
    {"sample 0", TEXT(BAND(1000000, 0)), BROKEN(1)},
    {"sample 0 in the second line", TEXT(BAND(5, 1) BAND(1000000, 0)), BROKEN(2)},
    {"sample 100000", TEXT(BAND(5, 1) BAND(200000, 2) BAND(1000000, 100000)), BROKEN(3)},
    {"a sample of thirteen digits", TEXT(BAND(5, 1) BAND(1000000, 9999999999999)), BROKEN(2)},
    {"a sample past 32 bits", TEXT(BAND(5, 1) BAND(1000000, 4294967298)), BROKEN(2)},
    {"a sample that falls", TEXT(BAND(5, 1) BAND(9, 6) BAND(1000000, 5)), BROKEN(3)},
    {"a sample that falls to 1", TEXT(BAND(5, 1) BAND(9, 2) BAND(99, 1) BAND(1000000, 2)), BROKEN(3)},
    {"a first sample of 2", TEXT(BAND(5, 2) BAND(1000000, 2)), BROKEN(1)},
    {"a sample above the lowest quantity", TEXT(BAND(5, 1) BAND(9, 7) BAND(1000000, 7)), BROKEN(2)},
    {"a sample above the lowest quantity at the end", TEXT(BAND(5, 1) BAND(9, 6) BAND(1000000, 11)), BROKEN(3)},
    {"99999 from 99998 on", TEXT(BAND(99997, 1) BAND(1000000, 99999)), BROKEN(2)},
    {"an end of 999999", TEXT(BAND(5, 1) BAND(999999, 1)), BROKEN(2)},
    {"an end of 1", TEXT(BAND(1, 1)), BROKEN(1)},
    {"sixteen bands and an end of 999999", TEXT(FIFTEEN BAND(999999, 16)), BROKEN(16)},
    {"seventeen bands", TEXT(FIFTEEN BAND(16, 16) BAND(1000000, 17)), BROKEN(17)},
    {"seventeen bands and an end of 17", TEXT(FIFTEEN BAND(16, 16) BAND(17, 17)), BROKEN(17)},
    {"eighteen bands", TEXT(FIFTEEN BAND(16, 16) BAND(17, 17) BAND(1000000, 18)), BROKEN(17)},
    {"seventeen bands, the sixteenth at 1000000", TEXT(FIFTEEN BAND(1000000, 16) BAND(1000000, 16)), BROKEN(17)},
    {"seventeen bands, the sixteenth wrong", TEXT(FIFTEEN BAND(16, 17) BAND(1000000, 17)), BROKEN(16)},
    {"seventeen bands, the first wrong", TEXT(BAND(1, 0) FIFTEEN BAND(1000000, 16)), BROKEN(1)},
    {"two wrong lines", TEXT(BAND(5, 1) BAND(9, 0) BAND(8, 0) BAND(1000000, 1)), BROKEN(2)},
    {"two rules in a line", TEXT(BAND(5, 1) BAND(4, 9) BAND(1000000, 9)), BROKEN(2)},
};

static const struct refused misshapen[] = {
    {"no text", TEXT(""), BOCCELARCH_SHAPE, 0},
    STOPS("a byte 10 alone", "", "\n"),
    STOPS("a space before all", "", " " BAND(1000000, 1)),
    STOPS("a capital letter", "(", "Band 1000000 1)\n"),
    STOPS("another word", "(b", "id 1000000 1)\n"),
    STOPS("two spaces", "(band ", " 1000000 1)\n"),
    STOPS("no number", "(band ", ")\n"),
    STOPS("a quantity with a minus", "(band ", "-5 1)\n"),
    STOPS("a sample with a minus", "(band 5 ", "-1)\n"),
    STOPS("a quantity with a leading zero", "(band 0", "5 1)\n"),
    STOPS("a sample with a leading zero", "(band 5 0", "1)\n"),
    STOPS("a quantity of fourteen digits", "(band 1234567890123", "4 1)\n"),
    STOPS("a sample of fourteen digits", "(band 5 1234567890123", "4)\n"),
    STOPS("a comma in a number", "(band 1", ",000,000 1)\n"),
    STOPS("byte 0 in a number", "(band 1", "\0" "0 1)\n"),
    STOPS("byte 255", "(band 1", "\377" " 1)\n"),
    STOPS("one number", "(band 1000000", ")\n"),
    STOPS("three numbers", "(band 1000000 1", " 1)\n"),
    STOPS("a space at the end", "(band 1000000 1", " )\n"),
    STOPS("no last byte 10", "(band 1000000 1)", ""),
    STOPS("byte 13 before byte 10", "(band 1000000 1)", "\r\n"),
    STOPS("a byte 10 after the table", BAND(1000000, 1), "\n"),
    STOPS("a byte 0 after the table", BAND(1000000, 1), "\0"),
    STOPS("a bracket after the table", BAND(1000000, 1) "(", ""),
    STOPS("a wrong line before a wrong shape", BAND(0, 0) "(band ", "x 1)\n"),
    STOPS("seventeen bands before a wrong shape", FIFTEEN BAND(16, 16) BAND(17, 17) "(band ", "x 1)\n"),
    STOPS("a book", "(", "demand 120 0)\n" BID_3),
};

/* Document 01's book with demand 120, on the sheet and on the page with samples of the table's own. */

static const struct text paper_book = TEXT(BOOK(120));

static struct text paper_sheet(uint64_t of_100, uint64_t of_20)
{
    static char bytes[BOCCELARCH_SHEET_BYTES + 1];
    struct text sheet = {bytes, 0};

    sheet.length = (size_t)snprintf(bytes, sizeof bytes,
                                    "(award 120 120 43100)\n(buy 3 2 100 34500 %" PRIu64 " (without 44400))\n(buy 8 1 20 8600 %" PRIu64
                                    " (without 44400))\n(buy 12 0 0 0 0 (without 43100))\n",
                                    of_100, of_20);
    return sheet;
}

static struct text paper_page(uint64_t of_100, uint64_t of_20)
{
    static char bytes[BOCCELARCH_PAGE_BYTES + 1];
    struct text page = {bytes, 0};

    page.length = (size_t)snprintf(bytes, sizeof bytes,
                                   "                 120                 120                  431.00\n"
                                   "     3   2       100              345.00%6" PRIu64 "            444.00\n"
                                   "     8   1        20               86.00%6" PRIu64 "            444.00\n"
                                   "    12   0         0                0.00     0            431.00\n",
                                   of_100, of_20);
    return page;
}

/* Calls */

enum by_table_entry { SHEET_BY, PAGE_BY };

static const struct {
    const char *name;
    uint64_t (*call)(const uint8_t *, size_t, const uint8_t *, size_t, uint8_t *, size_t, uint64_t *, uint64_t *);
    size_t enough;
} by_table_entries[] = {
    {"sheet by table", boccelarch_sheet_by_table, BOCCELARCH_SHEET_BYTES},
    {"page by table", boccelarch_page_by_table, BOCCELARCH_PAGE_BYTES},
};

static void check_output(enum by_table_entry entry, const char *name, struct text table, struct text text, size_t room,
                         struct output expected)
{
    enum arrangement how;

    for (how = GUARDED; how <= EXACT; how++) {
        struct lent lent_table = lend_copy(how, table.bytes, table.length), lent_text = lend_copy(how, text.bytes, text.length);
        struct lent out = lend(how, room), place = lend(how, sizeof(uint64_t)), bytes = lend(how, sizeof(uint64_t));

        situate(by_table_entries[entry].name, name, text.length, room, how);
        expect_number("refusal", expected.number,
                      by_table_entries[entry].call(lent_table.bytes, table.length, lent_text.bytes, text.length, out.bytes, room,
                                                   numbers(&place), numbers(&bytes)));
        take_back_number("place", &place, expected.place);
        take_back_number("bytes", &bytes, expected.written.length);
        take_back("output", &out, expected.written.bytes, expected.written.length);
        take_back("text", &lent_text, text.bytes, text.length);
        take_back("table", &lent_table, table.bytes, table.length);
    }
}

static void check_award(const char *name, struct text table, struct text text, size_t length, struct award expected)
{
    enum arrangement how;

    for (how = GUARDED; how <= EXACT; how++) {
        struct lent lent_table = lend_copy(how, table.bytes, table.length), lent_text = lend_copy(how, text.bytes, text.length);
        struct lent rows = lend(how, length * sizeof(uint64_t)), place = lend(how, sizeof(uint64_t));
        struct lent bought = lend(how, sizeof(uint64_t)), total = lend(how, sizeof(uint64_t)), count = lend(how, sizeof(uint64_t));

        situate("award by table", name, text.length, length, how);
        expect_number("refusal", expected.number,
                      boccelarch_award_by_table(lent_table.bytes, table.length, lent_text.bytes, text.length, numbers(&rows), length,
                                                numbers(&place), numbers(&bought), numbers(&total), numbers(&count)));
        take_back_number("place", &place, expected.place);
        take_back_number("bought", &bought, expected.bought);
        take_back_number("total", &total, expected.total);
        take_back_number("count", &count, expected.count);
        expect_rows(&expected, numbers(&rows));
        take_back("rows", &rows, expected.rows, expected.count * sizeof(row));
        take_back("text", &lent_text, text.bytes, text.length);
        take_back("table", &lent_table, table.bytes, table.length);
    }
}

static void check_write(const char *name, struct text table, size_t room, struct output expected)
{
    enum arrangement how;

    for (how = GUARDED; how <= EXACT; how++) {
        struct lent lent_table = lend_copy(how, table.bytes, table.length), out = lend(how, room);
        struct lent place = lend(how, sizeof(uint64_t)), bytes = lend(how, sizeof(uint64_t));

        situate("write table", name, table.length, room, how);
        expect_number("refusal", expected.number,
                      boccelarch_write_table(lent_table.bytes, table.length, out.bytes, room, numbers(&place), numbers(&bytes)));
        take_back_number("place", &place, expected.place);
        take_back_number("bytes", &bytes, expected.written.length);
        take_back("output", &out, expected.written.bytes, expected.written.length);
        take_back("table", &lent_table, table.bytes, table.length);
    }
}

static void check_printed(size_t room, struct output expected)
{
    enum arrangement how;

    for (how = GUARDED; how <= EXACT; how++) {
        struct lent out = lend(how, room), place = lend(how, sizeof(uint64_t)), bytes = lend(how, sizeof(uint64_t));

        situate("printed table", "no text", 0, room, how);
        expect_number("refusal", expected.number, boccelarch_printed_table(out.bytes, room, numbers(&place), numbers(&bytes)));
        take_back_number("place", &place, expected.place);
        take_back_number("bytes", &bytes, expected.written.length);
        take_back("output", &out, expected.written.bytes, expected.written.length);
    }
}

/* An output of no bytes, of about as many as are written, and of enough for everything. */
static void check_written(enum by_table_entry entry, const char *name, struct text table, struct text text, struct text written)
{
    size_t room, enough = by_table_entries[entry].enough;

    check_output(entry, name, table, text, 0, output_in(written, 0));
    for (room = written.length - 2; room <= written.length + 2; room++)
        check_output(entry, name, table, text, room, output_in(written, room));
    check_output(entry, name, table, text, enough, output_in(written, enough));
}

/* The same of a list of rows: 10 gives the bytes needed. */
static void check_rows(const char *name, struct text table, struct text text, struct award accepted)
{
    size_t needed = accepted.count * BOCCELARCH_COLUMNS;
    struct award too_short = refused_award(BOCCELARCH_OUTPUT_LENGTH, sizeof(uint64_t) * needed);

    check_award(name, table, text, 0, too_short);
    check_award(name, table, text, needed - 1, too_short);
    check_award(name, table, text, needed, accepted);
    check_award(name, table, text, BOCCELARCH_AWARD_NUMBERS, accepted);
}

/* A refusal that does not ask how long the output is: none is lent, and then enough. */
static void check_refused(const char *name, struct text table, struct text text, uint64_t number, uint64_t place)
{
    enum by_table_entry entry;
    size_t all;

    for (all = 0; all <= 1; all++) {
        for (entry = SHEET_BY; entry <= PAGE_BY; entry++)
            check_output(entry, name, table, text, all * by_table_entries[entry].enough, refused_output(number, place));
        check_award(name, table, text, all * BOCCELARCH_AWARD_NUMBERS, refused_award(number, place));
    }
}

/* A table is refused before a book: one that is good, one of no bytes, one not of the shape, one that breaks a rule, one not covered. */
static void check_refused_table(const char *name, struct text table, uint64_t number, uint64_t place)
{
    static const struct text books[] = {TEXT(BOOK(120)), TEXT(""), TEXT("(demand 05)"), TEXT(BOOK(0)), TEXT(BOOK(301))};
    size_t i;

    for (i = 0; i < COUNT(books); i++)
        check_refused(name, table, books[i], number, place);
    check_write(name, table, 0, refused_output(number, place));
    check_write(name, table, BOCCELARCH_TABLE_BYTES, refused_output(number, place));
}

/* Tables that pass */

static void check_printed_table(void)
{
    size_t room;

    for (room = 0; room <= BOCCELARCH_TABLE_BYTES + 1; room++)
        check_printed(room, output_in(printed_table, room));
}

/* Of an accepted text, the same text, in an output of every length. */
static void check_written_tables(void)
{
    size_t i, room;

    for (i = 0; i < COUNT(passing); i++)
        for (room = 0; room <= BOCCELARCH_TABLE_BYTES + 1; room++)
            check_write(passing[i].name, passing[i].table, room, output_in(passing[i].table, room));
}

static void check_samples(void)
{
    size_t i;

    for (i = 0; i < COUNT(passing); i++) {
        uint64_t of_100 = passing[i].of_100, of_20 = passing[i].of_20;
        row rows[] = {{3, 2, 100, 34500, 0, 1, 44400}, {8, 1, 20, 8600, 0, 1, 44400}, {12, 0, 0, 0, 0, 1, 43100}};
        struct award award = {0, 0, 120, 43100, 3, NULL};

        rows[0][BOCCELARCH_SAMPLE] = of_100;
        rows[1][BOCCELARCH_SAMPLE] = of_20;
        award.rows = (const row *)rows;
        check_written(SHEET_BY, passing[i].name, passing[i].table, paper_book, paper_sheet(of_100, of_20));
        check_written(PAGE_BY, passing[i].name, passing[i].table, paper_book, paper_page(of_100, of_20));
        check_rows(passing[i].name, passing[i].table, paper_book, award);
    }
}

/* An output of as many bytes as the limit is long enough for the sheet by any table that passes. */
static void check_limit(const char *name, struct text table, const struct cleared *book)
{
    enum arrangement how;

    for (how = GUARDED; how <= EXACT; how++) {
        struct lent out = lend(how, book->limit);
        uint64_t place, bytes;

        situate("sheet by table", name, book->text.length, book->limit, how);
        expect_number("refusal", BOCCELARCH_ACCEPTED,
                      boccelarch_sheet_by_table((const uint8_t *)table.bytes, table.length, (const uint8_t *)book->text.bytes,
                                                book->text.length, out.bytes, book->limit, &place, &bytes));
        expect_number("more bytes than the limit", 0, bytes > book->limit);
        release("output", &out);
    }
}

static void check_limits(void)
{
    const struct cleared *book;
    size_t i;

    for (book = cleared; book < cleared + COUNT(cleared); book++)
        for (i = 0; i < COUNT(passing); i++)
            check_limit(book->name, passing[i].table, book);
}

/* By the printed table every book of cases.h has the sheet, the page and the rows that it has without a table. */
static void check_books_by_printed_table(void)
{
    const struct cleared *book;

    for (book = cleared; book < cleared + COUNT(cleared); book++) {
        struct award award = {0, 0, 0, 0, 0, NULL};

        award.bought = book->bought;
        award.total = book->total;
        award.count = book->count;
        award.rows = book->rows;
        check_written(SHEET_BY, book->name, printed_table, book->text, book->sheet);
        check_written(PAGE_BY, book->name, printed_table, book->text, book->page);
        check_rows(book->name, printed_table, book->text, award);
    }
}

/* Eight bidders with the widest numbers, of whom seven sell 125,000 each, or all do: by a sample of 99,999 too, BOCCELARCH_SHEET_BYTES and
 * the limit of 567 are enough. */
#define SELLS_WIDE(bidder, without) "(buy " #bidder " 1 125000 1125000000000 99999 (without " #without "))\n"
#define PAGE_SELLS_WIDE(bidder, without) "  " #bidder "   1    125000      11250000000.00 99999" without "\n"

static void check_widest(void)
{
    static const struct text book = TEXT(DEMAND(875000) EIGHT_DEAR);
    static const struct text sheet =
        TEXT("(award 875000 875000 7875000000000)\n" SEVEN_LINES(SELLS_WIDE, 7875000000000) SELLS_NOTHING(9999, 7875000000000));
    static const struct text page = TEXT("              875000              875000          78750000000.00\n" SEVEN_LINES(
        PAGE_SELLS_WIDE, "    78750000000.00") PAGE_SELLS_NOTHING(9999, "    78750000000.00"));
    static const struct text shared_book = TEXT(ORDER(1000000, 1000000) EIGHT_OF_TWO);
    static const struct text widest_sheet =
        TEXT("(award 1000000 1000000 8000000000000)\n" SEVEN_LINES(SELLS_FIRST, 99999) SELLS_FIRST(9999, 99999));

    check_written(SHEET_BY, "samples of 99999", widest_table, book, sheet);
    check_written(PAGE_BY, "samples of 99999", widest_table, book, page);
    check_written(SHEET_BY, "the widest sheet", widest_table, shared_book, widest_sheet);
    check_output(SHEET_BY, "the widest sheet", widest_table, shared_book, 567, output_in(widest_sheet, 567));
    expect_number("bytes of the widest sheet here", 550, widest_sheet.length);
}

/* Refusals */

static void check_refused_tables(void)
{
    size_t i;

    for (i = 0; i < COUNT(broken); i++)
        check_refused_table(broken[i].name, broken[i].text, broken[i].number, broken[i].place);
    for (i = 0; i < COUNT(misshapen); i++)
        check_refused_table(misshapen[i].name, misshapen[i].text, misshapen[i].number, misshapen[i].place);
}

/* By a table that passes a book has the refusal that it has without one. */
static void check_refused_books(void)
{
    size_t i;

    for (i = 0; i < COUNT(shapes); i++)
        check_refused(shapes[i].name, widest_table, shapes[i].text, shapes[i].number, shapes[i].place);
    for (i = 0; i < COUNT(rules); i++)
        check_refused(rules[i].name, widest_table, rules[i].text, rules[i].number, rules[i].place);
    check_refused("demand 301", widest_table, (struct text)TEXT(BOOK(301)), BOCCELARCH_NOT_COVERED, 0);
}

/* Beginnings of the printed table: one of whole lines is refused by 12 at its last, which is not 1,000,000, and every other by 2. */
static void check_beginnings(void)
{
    struct text beginning = printed_table;
    uint64_t lines = 0;

    for (beginning.length = 0; beginning.length < printed_table.length; beginning.length++) {
        int ends = beginning.length > 0 && beginning.bytes[beginning.length - 1] == '\n';

        lines += ends;
        if (ends)
            check_refused_table("lines of the printed table", beginning, BROKEN(lines));
        else
            check_refused_table("a beginning of the printed table", beginning, BOCCELARCH_SHAPE, beginning.length);
    }
    expect_number("lines before the last", 15, lines);
}

/* What follows in memory is not taken for a part of the table, even if it would fit: here its last byte, and its last line. */
static void check_what_follows(void)
{
    static const size_t last_line = sizeof BAND(1000000, 1250) - 1;
    const uint8_t *table = (const uint8_t *)printed_table.bytes, *book = (const uint8_t *)paper_book.bytes;
    uint8_t out[BOCCELARCH_SHEET_BYTES];
    uint64_t place, bytes;
    size_t length = printed_table.length - 1;

    situate("sheet by table", "the table's last byte behind it", length, sizeof out, IN_PLACE);
    expect_number("refusal", BOCCELARCH_SHAPE,
                  boccelarch_sheet_by_table(table, length, book, paper_book.length, out, sizeof out, &place, &bytes));
    expect_number("place", length, place);
    length = printed_table.length - last_line;
    situate("write table", "the table's last line behind it", length, sizeof out, IN_PLACE);
    expect_number("refusal", BOCCELARCH_SAMPLING_TABLE, boccelarch_write_table(table, length, out, sizeof out, &place, &bytes));
    expect_number("place", 15, place);
}

/* Tables of 4,096 bytes and more */

static char long_bytes[BOCCELARCH_TEXT_BYTES + 1000];

/* Lines as BAND(7, 1), which have 11 bytes, one after another; the first is made up to 15, so that 4,096 bytes end with a line. */
static struct text bands(size_t length)
{
    static const struct text first = TEXT("(band 10000 1)\n"), further = TEXT(BAND(7, 1));
    struct text text = {long_bytes, 0};
    size_t place;

    memcpy(long_bytes, first.bytes, first.length);
    for (place = first.length; place < sizeof long_bytes; place++)
        long_bytes[place] = further.bytes[(place - first.length) % further.length];
    text.length = length;
    return text;
}

static struct text spaces(size_t length)
{
    struct text text = {long_bytes, 0};

    memset(long_bytes, ' ', sizeof long_bytes);
    text.length = length;
    return text;
}

/* A table longer than 4,096 bytes is refused by 1 whatever it holds. */
static void check_long_tables(void)
{
    check_refused_table("of the shape", bands(BOCCELARCH_TEXT_BYTES), BROKEN(2));
    check_refused_table("cut", bands(BOCCELARCH_TEXT_BYTES - 1), BOCCELARCH_SHAPE, BOCCELARCH_TEXT_BYTES - 1);
    check_refused_table("cut", bands(BOCCELARCH_TEXT_BYTES + 1), BOCCELARCH_TEXT_LENGTH, BOCCELARCH_TEXT_BYTES);
    check_refused_table("of the shape", bands(BOCCELARCH_TEXT_BYTES + 11), BOCCELARCH_TEXT_LENGTH, BOCCELARCH_TEXT_BYTES);
    check_refused_table("cut", bands(sizeof long_bytes), BOCCELARCH_TEXT_LENGTH, BOCCELARCH_TEXT_BYTES);
    check_refused_table("spaces", spaces(BOCCELARCH_TEXT_BYTES), BOCCELARCH_SHAPE, 0);
    check_refused_table("spaces", spaces(BOCCELARCH_TEXT_BYTES + 1), BOCCELARCH_TEXT_LENGTH, BOCCELARCH_TEXT_BYTES);
    /* Of a table and a book that are both too long nobody can tell which is meant, so here only the book is. */
    check_refused("too long a book", printed_table, spaces(BOCCELARCH_TEXT_BYTES + 1), BOCCELARCH_TEXT_LENGTH, BOCCELARCH_TEXT_BYTES);
    check_refused("too long a book", (struct text)TEXT(BAND(5, 1)), spaces(BOCCELARCH_TEXT_BYTES + 1), BROKEN(1));
    check_refused("too long a book", (struct text)TEXT(""), spaces(BOCCELARCH_TEXT_BYTES + 1), BOCCELARCH_SHAPE, 0);
}

int main(void)
{
    setvbuf(stdout, NULL, _IOLBF, 0); /* the lines of failures stand even if a broken heap ends the program */
    check_printed_table();
    check_written_tables();
    check_samples();
    check_books_by_printed_table();
    check_limits();
    check_widest();
    check_refused_tables();
    check_refused_books();
    check_beginnings();
    check_what_follows();
    check_long_tables();
    printf("%lu passed, %lu failed\n", passed, failed);
    return failed > 0;
}
