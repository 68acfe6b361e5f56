/* Calls each entry on books of eight bids of six segments, the most that a book may have, in a thread with a stack of 64 KB: a call that
 * needs more ends the program. Then compares what the entries answered, one with another and with totals that were found in another way.
 *
 * Prints a line for each check that fails, and at the end how many passed and how many failed. */
#define _POSIX_C_SOURCE 200809L /* for pthread.h */

#include <inttypes.h>
#include <pthread.h>
#include <stdarg.h>
#include <stdio.h>
#include <stdlib.h>
#include <string.h>

#include "boccelarch.h"
#include "checks.h"

enum { BIDS = 8, SEGMENTS = 6, CHOICES = 7 * 7 * 7 * 7 * 7 * 7 * 7 * 7, SHEET_LIMIT = 39 + BIDS * 66 };

/* Texts */

struct text {
    char bytes[BOCCELARCH_TEXT_BYTES + 1]; /* and the 0 that vsnprintf ends with */
    size_t length;
};

static void append(struct text *text, const char *format, ...)
{
    size_t room = sizeof text->bytes - text->length;
    va_list values;
    int length;

    va_start(values, format);
    length = vsnprintf(text->bytes + text->length, room, format, values);
    va_end(values);
    if (length < 0 || (size_t)length >= room) {
        fputs("a text is too long\n", stderr);
        exit(2);
    }
    text->length += (size_t)length;
}

/* Prices are near each other. Larger quantities have a lower unit price and a higher fixed price, and later bidders sell more. */
static void append_segment(struct text *book, unsigned bid, unsigned segment)
{
    unsigned width = 2500 + 10 * bid, start = 1 + width * segment, end = width + width * segment;

    append(book, " (seg %u %u %u %u)", start, end, 430 - 3 * bid - 7 * segment, 300 * bid + 20000 * segment);
}

static void append_bid(struct text *book, unsigned bid, unsigned carriage)
{
    unsigned segment;

    append(book, "(bid %u %u", 1 + bid, carriage);
    for (segment = 0; segment < SEGMENTS; segment++)
        append_segment(book, bid, segment);
    append(book, ")\n");
}

/* What is ordered, and the carriage of the first bid; each further one has so much more. */
struct plan {
    uint64_t demand, allowance;
    unsigned carriage, more;
};

static void make_book(struct text *book, const struct plan *plan)
{
    unsigned bid;

    book->length = 0;
    append(book, "(demand %" PRIu64 " %" PRIu64 ")\n", plan->demand, plan->allowance);
    for (bid = 0; bid < BIDS; bid++)
        append_bid(book, bid, plan->carriage + plan->more * bid);
}

/* What the entries answer */

struct output {
    uint64_t number, place, bytes;
    uint8_t out[BOCCELARCH_TEXT_BYTES];
};

struct award {
    uint64_t number, place, bought, total, count, rows[BOCCELARCH_AWARD_NUMBERS];
};

struct answers {
    const struct text *book;
    struct output sheet, page, written;
    struct award award;
    struct output table, table_written, sheet_by_table, page_by_table; /* the printed table, and the answers by it */
    struct award award_by_table;
    struct {
        uint64_t number, place, bytes, choices, sheet;
    } sizes;
    struct {
        uint64_t number, place, meets, quantities[BIDS];
        int64_t price;
    } split; /* of the award's quantities */
};

static uint64_t in_award(const struct answers *a, uint64_t bid, enum boccelarch_column column)
{
    return a->award.rows[bid * BOCCELARCH_COLUMNS + column];
}

typedef uint64_t output_entry(const uint8_t *, size_t, uint8_t *, size_t, uint64_t *, uint64_t *);

static void call_output(output_entry *entry, const struct text *book, size_t room, struct output *output)
{
    output->number = entry((const uint8_t *)book->bytes, book->length, output->out, room, &output->place, &output->bytes);
}

typedef uint64_t by_table_entry(const uint8_t *, size_t, const uint8_t *, size_t, uint8_t *, size_t, uint64_t *, uint64_t *);

static void call_by_table(by_table_entry *entry, const struct answers *a, size_t room, struct output *output)
{
    output->number = entry(a->table.out, a->table.bytes, (const uint8_t *)a->book->bytes, a->book->length, output->out, room,
                           &output->place, &output->bytes);
}

/* The entries that have to do with a table: the printed one is taken, written again and used. */
static void call_table_entries(struct answers *a)
{
    struct award *award = &a->award_by_table;

    a->table.number = boccelarch_printed_table(a->table.out, BOCCELARCH_TABLE_BYTES, &a->table.place, &a->table.bytes);
    a->table_written.number = boccelarch_write_table(a->table.out, a->table.bytes, a->table_written.out, BOCCELARCH_TABLE_BYTES,
                                                     &a->table_written.place, &a->table_written.bytes);
    call_by_table(boccelarch_sheet_by_table, a, BOCCELARCH_SHEET_BYTES, &a->sheet_by_table);
    call_by_table(boccelarch_page_by_table, a, BOCCELARCH_PAGE_BYTES, &a->page_by_table);
    award->number = boccelarch_award_by_table(a->table.out, a->table.bytes, (const uint8_t *)a->book->bytes, a->book->length, award->rows,
                                              BOCCELARCH_AWARD_NUMBERS, &award->place, &award->bought, &award->total, &award->count);
}

/* For pthread_create. Everything that is lent lies outside of the thread's stack. */
static void *call_entries(void *answers)
{
    struct answers *a = answers;
    const uint8_t *text = (const uint8_t *)a->book->bytes;
    size_t length = a->book->length;
    uint64_t bid;

    a->sizes.number = boccelarch_sizes(text, length, &a->sizes.place, &a->sizes.bytes, &a->sizes.choices, &a->sizes.sheet);
    call_output(boccelarch_sheet, a->book, SHEET_LIMIT, &a->sheet);
    call_output(boccelarch_page, a->book, BOCCELARCH_PAGE_BYTES, &a->page);
    call_output(boccelarch_write, a->book, length, &a->written);
    a->award.number = boccelarch_award(text, length, a->award.rows, BOCCELARCH_AWARD_NUMBERS, &a->award.place, &a->award.bought,
                                       &a->award.total, &a->award.count);
    for (bid = 0; bid < BIDS; bid++)
        a->split.quantities[bid] = in_award(a, bid, BOCCELARCH_QUANTITY);
    a->split.number = boccelarch_split(text, length, a->split.quantities, BIDS, &a->split.place, &a->split.price, &a->split.meets);
    call_table_entries(a);
    return NULL;
}

static void must(const char *what, int error)
{
    if (error == 0)
        return;
    fprintf(stderr, "%s: %s\n", what, strerror(error));
    exit(2);
}

/* The guard is larger than the stack, so that no call steps over it. */
static void call_entries_in_thread(struct answers *answers)
{
    static const size_t stack_bytes = 64 * 1024, guard_bytes = 1024 * 1024;
    pthread_attr_t attributes;
    pthread_t thread;

    must("attributes of a thread", pthread_attr_init(&attributes));
    must("stack", pthread_attr_setstacksize(&attributes, stack_bytes));
    must("guard", pthread_attr_setguardsize(&attributes, guard_bytes));
    must("thread", pthread_create(&thread, &attributes, call_entries, answers));
    must("end of the thread", pthread_join(thread, NULL));
    pthread_attr_destroy(&attributes);
}

/* Checks */

static void expect_accepted(const char *entry, uint64_t number, uint64_t place)
{
    char what[40];

    snprintf(what, sizeof what, "refusal of the %s", entry);
    expect_number(what, BOCCELARCH_ACCEPTED, number);
    snprintf(what, sizeof what, "place of the %s", entry);
    expect_number(what, 0, place);
}

static void expect_output(const char *what, const struct text *expected, const struct output *got)
{
    expect_accepted(what, got->number, got->place);
    if (got->bytes == expected->length && memcmp(expected->bytes, got->out, expected->length) == 0) {
        passed++;
        return;
    }
    failed++;
    printf("%s: %s: expected\n%sgot\n%.*s\n", situation, what, expected->bytes, (int)got->bytes, (const char *)got->out);
}

/* The sheet that the award's numbers make. */
static void make_sheet(struct text *sheet, uint64_t demand, const struct answers *a)
{
    uint64_t bid;

    sheet->length = 0;
    append(sheet, "(award %" PRIu64 " %" PRIu64 " %" PRIu64 ")\n", demand, a->award.bought, a->award.total);
    for (bid = 0; bid < BIDS; bid++) {
        append(sheet, "(buy %" PRIu64 " %" PRIu64 " %" PRIu64, in_award(a, bid, BOCCELARCH_BIDDER), in_award(a, bid, BOCCELARCH_SEGMENT),
               in_award(a, bid, BOCCELARCH_QUANTITY));
        append(sheet, " %" PRIu64 " %" PRIu64 " (without ", in_award(a, bid, BOCCELARCH_PRICE), in_award(a, bid, BOCCELARCH_SAMPLE));
        if (in_award(a, bid, BOCCELARCH_COVERED))
            append(sheet, "%" PRIu64 "))\n", in_award(a, bid, BOCCELARCH_WITHOUT));
        else
            append(sheet, "none))\n");
    }
}

static void append_money(struct text *text, int width, uint64_t cents)
{
    append(text, "%*" PRIu64 ".%02" PRIu64, width - 3, cents / 100, cents % 100);
}

/* The page that the award's numbers make. */
static void make_page(struct text *page, uint64_t demand, const struct answers *a)
{
    uint64_t bid;

    page->length = 0;
    append(page, "%20" PRIu64 "%20" PRIu64, demand, a->award.bought);
    append_money(page, 24, a->award.total);
    append(page, "\n");
    for (bid = 0; bid < BIDS; bid++) {
        append(page, "%6" PRIu64 "%4" PRIu64 "%10" PRIu64, in_award(a, bid, BOCCELARCH_BIDDER), in_award(a, bid, BOCCELARCH_SEGMENT),
               in_award(a, bid, BOCCELARCH_QUANTITY));
        append_money(page, 20, in_award(a, bid, BOCCELARCH_PRICE));
        append(page, "%6" PRIu64, in_award(a, bid, BOCCELARCH_SAMPLE));
        if (in_award(a, bid, BOCCELARCH_COVERED))
            append_money(page, 18, in_award(a, bid, BOCCELARCH_WITHOUT));
        else
            append(page, "%18s", "none");
        append(page, "\n");
    }
}

static uint64_t sum(const struct answers *a, enum boccelarch_column column)
{
    uint64_t bid, all = 0;

    for (bid = 0; bid < BIDS; bid++)
        all += in_award(a, bid, column);
    return all;
}

static void make_printed_table(struct text *table)
{
    static const unsigned bands[][2] = {{1, 1},        {8, 2},       {15, 3},       {25, 5},       {50, 8},         {90, 13},
                                        {150, 20},     {280, 32},    {500, 50},     {1200, 80},    {3200, 125},     {10000, 200},
                                        {35000, 315},  {150000, 500}, {500000, 800}, {1000000, 1250}};
    size_t band;

    table->length = 0;
    for (band = 0; band < sizeof bands / sizeof bands[0]; band++)
        append(table, "(band %u %u)\n", bands[band][0], bands[band][1]);
}

/* By the printed table the answers are those without a table. */
static void check_by_table(const struct answers *a, const struct text *sheet, const struct text *page)
{
    static struct text table;
    uint64_t number;

    make_printed_table(&table);
    expect_output("printed table", &table, &a->table);
    expect_output("table written out", &table, &a->table_written);
    expect_output("sheet by table", sheet, &a->sheet_by_table);
    expect_output("page by table", page, &a->page_by_table);
    expect_accepted("award by table", a->award_by_table.number, a->award_by_table.place);
    expect_number("bids by table", BIDS, a->award_by_table.count);
    expect_number("bought by table", a->award.bought, a->award_by_table.bought);
    expect_number("total by table", a->award.total, a->award_by_table.total);
    for (number = 0; number < BOCCELARCH_AWARD_NUMBERS; number++)
        expect_number("a number of the award by table", a->award.rows[number], a->award_by_table.rows[number]);
}

/* What an award should be; `covered`: without how many of the bidders, each taken out alone, the demand is covered. */
struct expected {
    uint64_t bought, total, covered;
};

static void check_answers(const struct answers *a, uint64_t demand, const struct expected *expected)
{
    static struct text sheet, page;

    make_sheet(&sheet, demand, a);
    make_page(&page, demand, a);
    expect_output("sheet", &sheet, &a->sheet);
    expect_output("page", &page, &a->page);
    expect_output("book written out", a->book, &a->written);
    expect_accepted("award", a->award.number, a->award.place);
    expect_accepted("sizes", a->sizes.number, a->sizes.place);
    expect_accepted("split", a->split.number, a->split.place);

    expect_number("bytes of the book", a->book->length, a->sizes.bytes);
    expect_number("choices of segments", CHOICES, a->sizes.choices);
    expect_number("limit of the sheet", SHEET_LIMIT, a->sizes.sheet);
    expect_number("bids", BIDS, a->award.count);
    expect_number("bought", expected->bought, a->award.bought);
    expect_number("quantities", a->award.bought, sum(a, BOCCELARCH_QUANTITY));
    expect_number("total", expected->total, a->award.total);
    expect_number("prices", a->award.total, sum(a, BOCCELARCH_PRICE));
    expect_number("bidders who are not needed", expected->covered, sum(a, BOCCELARCH_COVERED));
    expect_number("price of the split", a->award.total, (uint64_t)a->split.price);
    expect_number("split is taken", 1, a->split.meets);
    check_by_table(a, &sheet, &page);
}

static void check_book(struct plan plan, struct expected expected)
{
    static struct text book;
    static struct answers answers;

    make_book(&book, &plan);
    answers.book = &book;
    snprintf(situation, sizeof situation, "demand %" PRIu64 " %" PRIu64 ", carriage %u and %u more for each bid", plan.demand,
             plan.allowance, plan.carriage, plan.more);
    call_entries_in_thread(&answers);
    check_answers(&answers, plan.demand, &expected);
}

#define CHECK_BOOK(demand, allowance, carriage, more, bought, total, covered)                                                             \
    check_book((struct plan){demand, allowance, carriage, more}, (struct expected){bought, total, covered})

int main(void)
{
    setvbuf(stdout, NULL, _IOLBF, 0); /* the lines of failures stand even if a call ends the program */
    /* The totals are those of the cheapest price of each quantity, found with one bid more after another. */
    CHECK_BOOK(35000, 0, 0, 0, 35000, 13504960, 8);
    /* Of 121,680 that the bids sell together; the fourth sells 15,180, the fifth 15,240. */
    CHECK_BOOK(106500, 0, 0, 0, 106500, 41491240, 4);
    /* The same carriage for all: for each blank of the demand so much more. */
    CHECK_BOOK(35000, 0, 10000, 0, 35000, 13504960 + UINT64_C(350000000), 8);
    CHECK_BOOK(106500, 0, 10000, 0, 106500, 41491240 + UINT64_C(1065000000), 4);
    /* Carriages that make later bidders the dearer ones. */
    CHECK_BOOK(35000, 0, 0, 6, 35000, 14246884, 8);
    CHECK_BOOK(106500, 0, 0, 6, 106500, 43750720, 4);
    /* Allowances: the starts of the cheapest choice pass the demand by 53; in the last book no starts that pass it are cheaper. */
    CHECK_BOOK(37600, 52, 0, 6, 37600, 15301606, 8);
    CHECK_BOOK(37600, 53, 0, 6, 37653, 15287094, 8);
    CHECK_BOOK(37600, 1000000, 0, 6, 37653, 15287094, 8);
    CHECK_BOOK(106500, 1000000, 0, 0, 106500, 41491240, 4);
    printf("%lu passed, %lu failed\n", passed, failed);
    return failed > 0;
}
