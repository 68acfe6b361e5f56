/* For boundary.c: texts, and what should be answered. */
#ifndef CASES_H
#define CASES_H

#include <stddef.h>
#include <stdint.h>

#include "boccelarch.h"

enum { BIDS = 8 };

/* Texts */

struct text {
    const char *bytes;
    size_t length;
};

#define TEXT(literal) {(literal), sizeof(literal) - 1} /* a literal may hold bytes 0 */

/* Document 01's book, with the demand changed. ORDER has an allowance; DEMAND has none, as all books of before the allowance get. */
#define BID_3 "(bid 3 0 (seg 1 60 400 0) (seg 61 100 350 -500))\n"
#define BID_8 "(bid 8 0 (seg 20 80 380 1000))\n"
#define BID_12 "(bid 12 0 (seg 120 120 370 0))\n"
#define ORDER(blanks, allowance) "(demand " #blanks " " #allowance ")\n"
#define DEMAND(blanks) ORDER(blanks, 0)
#define BOOK(blanks) DEMAND(blanks) BID_3 BID_8 BID_12
#define TWO_BIDS DEMAND(120) BID_3 BID_8

/* The same book with carriages. With q blanks of bidder 3 and the rest of bidder 8 it costs 250 * q + 49000 for q from 40 to 60, and
 * 200 * q + 48500 for q from 61 to 100: at least 59,000, with 40. With bidder 12 it costs 520 * 120. */
#define CARRIED_BOOK                                                                                                                      \
    DEMAND(120)                                                                                                                           \
    "(bid 3 250 (seg 1 60 400 0) (seg 61 100 350 -500))\n(bid 8 20 (seg 20 80 380 1000))\n(bid 12 150 (seg 120 120 370 0))\n"

/* The same book, where bidder 12 sells a drum of 125 blanks for 42,500 cents: less than 120 of the other two cost, 43,100. */
#define DRUM_BOOK(allowance) ORDER(120, allowance) BID_3 BID_8 "(bid 12 0 (seg 125 125 340 0))\n"

/* Two bidders who both sell where the allowance is 20 or more, and two of whom one sells. */
#define STARTS_BOOK(allowance) ORDER(100, allowance) "(bid 1 0 (seg 60 70 5 0))\n(bid 2 0 (seg 60 70 7 0))\n"
#define DRUMS_OF(blanks, unit, others, price)                                                                                             \
    ORDER(10, 5) "(bid 1 0 (seg " #blanks " " #blanks " " #unit " 0))\n(bid 2 0 (seg " #others " " #others " " #price " 0))\n"

/* The first bidder sells a blank at 100 cents and its carriage, the second at 104. */
#define ORDER_BOOK(carriage) DEMAND(10) "(bid 1 " #carriage " (seg 1 10 100 0))\n(bid 2 0 (seg 1 10 104 0))\n"

/* Books that are cleared */

typedef uint64_t row[BOCCELARCH_COLUMNS];

struct cleared {
    const char *name;
    struct text text;
    uint64_t choices, limit; /* of segments; of the sheet's bytes */
    struct text sheet, page;
    uint64_t bought, total, count;
    row rows[BIDS]; /* bidder, segment, quantity, price, sample, covered without this bidder, total without */
};

/* For books of eight bidders, 9992 to 9999: a line, or a row, for each but the last. */
#define SEVEN_LINES(line, value)                                                                                                          \
    line(9992, value) line(9993, value) line(9994, value) line(9995, value) line(9996, value) line(9997, value) line(9998, value)
#define SEVEN_ROWS(row, covered, without)                                                                                                 \
    row(9992, covered, without), row(9993, covered, without), row(9994, covered, without), row(9995, covered, without),                   \
        row(9996, covered, without), row(9997, covered, without), row(9998, covered, without)

/* Sells so many blanks at the highest prices, or nothing; without carriage, and with the highest. */
#define DEAR(bidder, blanks) "(bid " #bidder " 0 (seg " #blanks " " #blanks " 1000000 1000000000000))\n"
#define DEAREST(bidder, blanks) "(bid " #bidder " 10000 (seg " #blanks " " #blanks " 1000000 1000000000000))\n"
#define EIGHT_DEAR SEVEN_LINES(DEAR, 125000) DEAR(9999, 125000)

/* Who sells 125,000 blanks for 1,125,000,000,000 cents, and who sells nothing: on the sheet, on the page and as a row. */
#define SELLS(bidder, without) "(buy " #bidder " 1 125000 1125000000000 500 (without " #without "))\n"
#define SELLS_NOTHING(bidder, without) "(buy " #bidder " 0 0 0 0 (without " #without "))\n"
#define PAGE_SELLS(bidder, without) "  " #bidder "   1    125000      11250000000.00   500" without "\n"
#define PAGE_SELLS_NOTHING(bidder, without) "  " #bidder "   0         0                0.00     0" without "\n"
#define SELLER(bidder, covered, without) {bidder, 1, 125000, 1125000000000, 500, covered, without}
#define NO_SELLER(bidder, covered, without) {bidder, 0, 0, 0, 0, covered, without}

/* The shortest text, of 37 bytes, has one bid of one segment, and every number has one digit.
 *
 * The longest has 2,201: 25 in the first line, and 17 + 5 * 42 + 45 in each of eight bids. None is longer, since a first line has at most
 * 25 bytes, and a bid 17 beside its segments. A segment has 10 beside its numbers. Its start and end are below the next start, so that only
 * in the last one they can be 1,000,000 and have seven digits, and only at that start the price with the one fixed price of fourteen bytes,
 * -1,000,000,000,000, is not negative. So the last has at most 7 + 7 + 7 + 14 bytes of numbers, and each other one 6 + 6 + 7 + 13. */
#define SHORTEST_TEXT DEMAND(1) "(bid 1 0 (seg 1 1 0 0))\n"
#define LONG(blanks) " (seg " #blanks " " #blanks " 1000000 1000000000000)"
#define LONGEST(bidder, fixed)                                                                                                            \
    "(bid " #bidder " 10000" LONG(100000) LONG(200000) LONG(300000) LONG(400000) LONG(999999) " (seg 1000000 1000000 1000000 " #fixed "))\n"
#define LONGEST_TEXT ORDER(1000000, 1000000) LONGEST(9991, -1000000000000) SEVEN_LINES(LONGEST, -1000000000000)

/* Sells 125,000 blanks for 1,000,000,000,000 cents, or 142,858 for 1,144,286,580,000. For 1,000,000 blanks eight such all sell the first,
 * and seven the second: 1,000,006 for 8,010,006,060,000. With samples of five digits no sheet is wider: tests/rust/src/generate/widest.rs
 * says why. */
#define OF_TWO(bidder, carriage)                                                                                                          \
    "(bid " #bidder " " #carriage " (seg 125000 125000 0 998750000000) (seg 142858 142858 1000000 1000000000000))\n"
#define EIGHT_OF_TWO SEVEN_LINES(OF_TWO, 10000) OF_TWO(9999, 10000)
#define SELLS_FIRST(bidder, sample) "(buy " #bidder " 1 125000 1000000000000 " #sample " (without 8010006060000))\n"
#define PAGE_SELLS_FIRST(bidder, sample) "  " #bidder "   1    125000      10000000000.00" sample "    80100060600.00\n"
#define FIRST_SELLER(bidder, covered, without) {bidder, 1, 125000, 1000000000000, 500, covered, without}

static const struct cleared cleared[] = {
    {"demand 120", TEXT(BOOK(120)), 12, 237,
     TEXT("(award 120 120 43100)\n(buy 3 2 100 34500 20 (without 44400))\n(buy 8 1 20 8600 5 (without 44400))\n"
          "(buy 12 0 0 0 0 (without 43100))\n"),
     TEXT("                 120                 120                  431.00\n"
          "     3   2       100              345.00    20            444.00\n"
          "     8   1        20               86.00     5            444.00\n"
          "    12   0         0                0.00     0            431.00\n"),
     120, 43100, 3, {{3, 2, 100, 34500, 20, 1, 44400}, {8, 1, 20, 8600, 5, 1, 44400}, {12, 0, 0, 0, 0, 1, 43100}}},
    {"demand 19", TEXT(BOOK(19)), 12, 237,
     TEXT("(award 19 19 7600)\n(buy 3 1 19 7600 5 (without none))\n(buy 8 0 0 0 0 (without 7600))\n(buy 12 0 0 0 0 (without 7600))\n"),
     TEXT("                  19                  19                   76.00\n"
          "     3   1        19               76.00     5              none\n"
          "     8   0         0                0.00     0             76.00\n"
          "    12   0         0                0.00     0             76.00\n"),
     19, 7600, 3, {{3, 1, 19, 7600, 5, 0, 0}, {8, 0, 0, 0, 0, 1, 7600}, {12, 0, 0, 0, 0, 1, 7600}}},
    {"demand 60", TEXT(BOOK(60)), 12, 237,
     TEXT("(award 60 60 23800)\n(buy 3 0 0 0 0 (without 23800))\n(buy 8 1 60 23800 13 (without 24000))\n"
          "(buy 12 0 0 0 0 (without 23800))\n"),
     TEXT("                  60                  60                  238.00\n"
          "     3   0         0                0.00     0            238.00\n"
          "     8   1        60              238.00    13            240.00\n"
          "    12   0         0                0.00     0            238.00\n"),
     60, 23800, 3, {{3, 0, 0, 0, 0, 1, 23800}, {8, 1, 60, 23800, 13, 1, 24000}, {12, 0, 0, 0, 0, 1, 23800}}},
    {"demand 61", TEXT(BOOK(61)), 12, 237,
     TEXT("(award 61 61 20850)\n(buy 3 2 61 20850 13 (without 24180))\n(buy 8 0 0 0 0 (without 20850))\n"
          "(buy 12 0 0 0 0 (without 20850))\n"),
     TEXT("                  61                  61                  208.50\n"
          "     3   2        61              208.50    13            241.80\n"
          "     8   0         0                0.00     0            208.50\n"
          "    12   0         0                0.00     0            208.50\n"),
     61, 20850, 3, {{3, 2, 61, 20850, 13, 1, 24180}, {8, 0, 0, 0, 0, 1, 20850}, {12, 0, 0, 0, 0, 1, 20850}}},
    {"demand 181", TEXT(BOOK(181)), 12, 237,
     TEXT("(award 181 181 65250)\n(buy 3 2 61 20850 13 (without 68580))\n(buy 8 0 0 0 0 (without 65250))\n"
          "(buy 12 1 120 44400 20 (without none))\n"),
     TEXT("                 181                 181                  652.50\n"
          "     3   2        61              208.50    13            685.80\n"
          "     8   0         0                0.00     0            652.50\n"
          "    12   1       120              444.00    20              none\n"),
     181, 65250, 3, {{3, 2, 61, 20850, 13, 1, 68580}, {8, 0, 0, 0, 0, 1, 65250}, {12, 1, 120, 44400, 20, 0, 0}}},
    {"demand 300", TEXT(BOOK(300)), 12, 237,
     TEXT("(award 300 300 110300)\n(buy 3 2 100 34500 20 (without none))\n(buy 8 1 80 31400 13 (without none))\n"
          "(buy 12 1 120 44400 20 (without none))\n"),
     TEXT("                 300                 300                 1103.00\n"
          "     3   2       100              345.00    20              none\n"
          "     8   1        80              314.00    13              none\n"
          "    12   1       120              444.00    20              none\n"),
     300, 110300, 3, {{3, 2, 100, 34500, 20, 0, 0}, {8, 1, 80, 31400, 13, 0, 0}, {12, 1, 120, 44400, 20, 0, 0}}},
    {"two bidders at one price", TEXT(DEMAND(10) "(bid 1 0 (seg 1 10 5 0))\n(bid 2 0 (seg 1 10 5 0))\n"), 4, 171,
     TEXT("(award 10 10 50)\n(buy 1 1 10 50 3 (without 50))\n(buy 2 0 0 0 0 (without 50))\n"),
     TEXT("                  10                  10                    0.50\n"
          "     1   1        10                0.50     3              0.50\n"
          "     2   0         0                0.00     0              0.50\n"),
     10, 50, 2, {{1, 1, 10, 50, 3, 1, 50}, {2, 0, 0, 0, 0, 1, 50}}},
    {"price 0 at a start", TEXT(DEMAND(120) "(bid 3 0 (seg 1 60 400 0) (seg 61 100 350 -21350))\n" BID_8 BID_12), 12, 237,
     TEXT("(award 120 120 22250)\n(buy 3 2 100 13650 20 (without 44400))\n(buy 8 1 20 8600 5 (without 44400))\n"
          "(buy 12 0 0 0 0 (without 22250))\n"),
     TEXT("                 120                 120                  222.50\n"
          "     3   2       100              136.50    20            444.00\n"
          "     8   1        20               86.00     5            444.00\n"
          "    12   0         0                0.00     0            222.50\n"),
     120, 22250, 3, {{3, 2, 100, 13650, 20, 1, 44400}, {8, 1, 20, 8600, 5, 1, 44400}, {12, 0, 0, 0, 0, 1, 22250}}},
    {"a total of 0 is not none", TEXT(DEMAND(1) "(bid 1 0 (seg 1 1 0 0))\n(bid 2 0 (seg 1 1 0 0))\n"), 4, 171,
     TEXT("(award 1 1 0)\n(buy 1 1 1 0 1 (without 0))\n(buy 2 0 0 0 0 (without 0))\n"),
     TEXT("                   1                   1                    0.00\n"
          "     1   1         1                0.00     1              0.00\n"
          "     2   0         0                0.00     0              0.00\n"),
     1, 0, 2, {{1, 1, 1, 0, 1, 1, 0}, {2, 0, 0, 0, 0, 1, 0}}},
    {"a price past 32 bits", TEXT(DEMAND(12000) "(bid 1 0 (seg 1 12000 400000 0))\n"), 2, 105,
     TEXT("(award 12000 12000 4800000000)\n(buy 1 1 12000 4800000000 315 (without none))\n"),
     TEXT("               12000               12000             48000000.00\n"
          "     1   1     12000         48000000.00   315              none\n"),
     12000, 4800000000, 1, {{1, 1, 12000, 4800000000, 315, 0, 0}}},
    {"five cents", TEXT(DEMAND(1) "(bid 1 0 (seg 1 1 5 0))\n"), 2, 105,
     TEXT("(award 1 1 5)\n(buy 1 1 1 5 1 (without none))\n"),
     TEXT("                   1                   1                    0.05\n"
          "     1   1         1                0.05     1              none\n"),
     1, 5, 1, {{1, 1, 1, 5, 1, 0, 0}}},
    {"the first two bids", TEXT(TWO_BIDS), 6, 171,
     TEXT("(award 120 120 43100)\n(buy 3 2 100 34500 20 (without none))\n(buy 8 1 20 8600 5 (without none))\n"),
     TEXT("                 120                 120                  431.00\n"
          "     3   2       100              345.00    20              none\n"
          "     8   1        20               86.00     5              none\n"),
     120, 43100, 2, {{3, 2, 100, 34500, 20, 0, 0}, {8, 1, 20, 8600, 5, 0, 0}}},
    {"eight bidders, all needed", TEXT(DEMAND(1000000) EIGHT_DEAR), 256, 567,
     TEXT("(award 1000000 1000000 9000000000000)\n" SEVEN_LINES(SELLS, none) SELLS(9999, none)),
     TEXT("             1000000             1000000          90000000000.00\n"
          SEVEN_LINES(PAGE_SELLS, "              none") PAGE_SELLS(9999, "              none")),
     1000000, 9000000000000, 8, {SEVEN_ROWS(SELLER, 0, 0), SELLER(9999, 0, 0)}},
    {"eight bidders, the last not needed", TEXT(DEMAND(875000) EIGHT_DEAR), 256, 567,
     TEXT("(award 875000 875000 7875000000000)\n" SEVEN_LINES(SELLS, 7875000000000) SELLS_NOTHING(9999, 7875000000000)),
     TEXT("              875000              875000          78750000000.00\n"
          SEVEN_LINES(PAGE_SELLS, "    78750000000.00") PAGE_SELLS_NOTHING(9999, "    78750000000.00")),
     875000, 7875000000000, 8, {SEVEN_ROWS(SELLER, 1, 7875000000000), NO_SELLER(9999, 1, 7875000000000)}},
    {"each number at its widest",
     TEXT(DEMAND(1000000) SEVEN_LINES(DEAR, 1000000) "(bid 9999 0 (seg 1000000 1000000 1000000 999999999999))\n"), 256, 567,
     TEXT("(award 1000000 1000000 1999999999999)\n" SEVEN_LINES(SELLS_NOTHING, 1999999999999)
          "(buy 9999 1 1000000 1999999999999 1250 (without 2000000000000))\n"),
     TEXT("             1000000             1000000          19999999999.99\n"
          SEVEN_LINES(PAGE_SELLS_NOTHING, "    19999999999.99")
          "  9999   1   1000000      19999999999.99  1250    20000000000.00\n"),
     1000000, 1999999999999, 8, {SEVEN_ROWS(NO_SELLER, 1, 1999999999999), {9999, 1, 1000000, 1999999999999, 1250, 1, 2000000000000}}},
    {"carriages", TEXT(CARRIED_BOOK), 12, 237,
     TEXT("(award 120 120 59000)\n(buy 3 1 40 26000 8 (without 62400))\n(buy 8 1 80 33000 13 (without 62400))\n"
          "(buy 12 0 0 0 0 (without 59000))\n"),
     TEXT("                 120                 120                  590.00\n"
          "     3   1        40              260.00     8            624.00\n"
          "     8   1        80              330.00    13            624.00\n"
          "    12   0         0                0.00     0            590.00\n"),
     120, 59000, 3, {{3, 1, 40, 26000, 8, 1, 62400}, {8, 1, 80, 33000, 13, 1, 62400}, {12, 0, 0, 0, 0, 1, 59000}}},
    {"carriage 3: the first is cheaper", TEXT(ORDER_BOOK(3)), 4, 171,
     TEXT("(award 10 10 1030)\n(buy 1 1 10 1030 3 (without 1040))\n(buy 2 0 0 0 0 (without 1030))\n"),
     TEXT("                  10                  10                   10.30\n"
          "     1   1        10               10.30     3             10.40\n"
          "     2   0         0                0.00     0             10.30\n"),
     10, 1030, 2, {{1, 1, 10, 1030, 3, 1, 1040}, {2, 0, 0, 0, 0, 1, 1030}}},
    {"carriage 4: two bidders at one price", TEXT(ORDER_BOOK(4)), 4, 171,
     TEXT("(award 10 10 1040)\n(buy 1 1 10 1040 3 (without 1040))\n(buy 2 0 0 0 0 (without 1040))\n"),
     TEXT("                  10                  10                   10.40\n"
          "     1   1        10               10.40     3             10.40\n"
          "     2   0         0                0.00     0             10.40\n"),
     10, 1040, 2, {{1, 1, 10, 1040, 3, 1, 1040}, {2, 0, 0, 0, 0, 1, 1040}}},
    {"carriage 5: the second is cheaper", TEXT(ORDER_BOOK(5)), 4, 171,
     TEXT("(award 10 10 1040)\n(buy 1 0 0 0 0 (without 1040))\n(buy 2 1 10 1040 3 (without 1050))\n"),
     TEXT("                  10                  10                   10.40\n"
          "     1   0         0                0.00     0             10.40\n"
          "     2   1        10               10.40     3             10.50\n"),
     10, 1040, 2, {{1, 0, 0, 0, 0, 1, 1040}, {2, 1, 10, 1040, 3, 1, 1050}}},
    {"each number at its widest, and the highest carriage",
     TEXT(DEMAND(1000000) SEVEN_LINES(DEAREST, 1000000) "(bid 9999 10000 (seg 1000000 1000000 1000000 999999999999))\n"), 256, 567,
     TEXT("(award 1000000 1000000 2009999999999)\n" SEVEN_LINES(SELLS_NOTHING, 2009999999999)
          "(buy 9999 1 1000000 2009999999999 1250 (without 2010000000000))\n"),
     TEXT("             1000000             1000000          20099999999.99\n"
          SEVEN_LINES(PAGE_SELLS_NOTHING, "    20099999999.99")
          "  9999   1   1000000      20099999999.99  1250    20100000000.00\n"),
     1000000, 2009999999999, 8, {SEVEN_ROWS(NO_SELLER, 1, 2009999999999), {9999, 1, 1000000, 2009999999999, 1250, 1, 2010000000000}}},
    {"an allowance that nothing is bought by", TEXT(ORDER(120, 10) BID_3 BID_8 BID_12), 12, 237,
     TEXT("(award 120 120 43100)\n(buy 3 2 100 34500 20 (without 44400))\n(buy 8 1 20 8600 5 (without 44400))\n"
          "(buy 12 0 0 0 0 (without 43100))\n"),
     TEXT("                 120                 120                  431.00\n"
          "     3   2       100              345.00    20            444.00\n"
          "     8   1        20               86.00     5            444.00\n"
          "    12   0         0                0.00     0            431.00\n"),
     120, 43100, 3, {{3, 2, 100, 34500, 20, 1, 44400}, {8, 1, 20, 8600, 5, 1, 44400}, {12, 0, 0, 0, 0, 1, 43100}}},
    {"a cheaper drum above the demand", TEXT(DRUM_BOOK(5)), 12, 237,
     TEXT("(award 120 125 42500)\n(buy 3 0 0 0 0 (without 42500))\n(buy 8 0 0 0 0 (without 42500))\n"
          "(buy 12 1 125 42500 20 (without 43100))\n"),
     TEXT("                 120                 125                  425.00\n"
          "     3   0         0                0.00     0            425.00\n"
          "     8   0         0                0.00     0            425.00\n"
          "    12   1       125              425.00    20            431.00\n"),
     125, 42500, 3, {{3, 0, 0, 0, 0, 1, 42500}, {8, 0, 0, 0, 0, 1, 42500}, {12, 1, 125, 42500, 20, 1, 43100}}},
    {"a cheaper drum, one blank above what is taken", TEXT(DRUM_BOOK(4)), 12, 237,
     TEXT("(award 120 120 43100)\n(buy 3 2 100 34500 20 (without none))\n(buy 8 1 20 8600 5 (without none))\n"
          "(buy 12 0 0 0 0 (without 43100))\n"),
     TEXT("                 120                 120                  431.00\n"
          "     3   2       100              345.00    20              none\n"
          "     8   1        20               86.00     5              none\n"
          "    12   0         0                0.00     0            431.00\n"),
     120, 43100, 3, {{3, 2, 100, 34500, 20, 0, 0}, {8, 1, 20, 8600, 5, 0, 0}, {12, 0, 0, 0, 0, 1, 43100}}},
    {"free blanks are not taken beyond the demand", TEXT(ORDER(10, 5) "(bid 1 0 (seg 1 20 0 30))\n"), 2, 105,
     TEXT("(award 10 10 30)\n(buy 1 1 10 30 3 (without none))\n"),
     TEXT("                  10                  10                    0.30\n"
          "     1   1        10                0.30     3              none\n"),
     10, 30, 1, {{1, 1, 10, 30, 3, 0, 0}}},
    {"starts that pass the demand by the allowance", TEXT(STARTS_BOOK(20)), 4, 171,
     TEXT("(award 100 120 720)\n(buy 1 1 60 300 13 (without none))\n(buy 2 1 60 420 13 (without none))\n"),
     TEXT("                 100                 120                    7.20\n"
          "     1   1        60                3.00    13              none\n"
          "     2   1        60                4.20    13              none\n"),
     120, 720, 2, {{1, 1, 60, 300, 13, 0, 0}, {2, 1, 60, 420, 13, 0, 0}}},
    {"equal cost: fewer blanks before book order", TEXT(DRUMS_OF(12, 5, 10, 6)), 4, 171,
     TEXT("(award 10 10 60)\n(buy 1 0 0 0 0 (without 60))\n(buy 2 1 10 60 3 (without 60))\n"),
     TEXT("                  10                  10                    0.60\n"
          "     1   0         0                0.00     0              0.60\n"
          "     2   1        10                0.60     3              0.60\n"),
     10, 60, 2, {{1, 0, 0, 0, 0, 1, 60}, {2, 1, 10, 60, 3, 1, 60}}},
    {"equal cost and as many blanks: book order", TEXT(DRUMS_OF(12, 5, 12, 5)), 4, 171,
     TEXT("(award 10 12 60)\n(buy 1 1 12 60 3 (without 60))\n(buy 2 0 0 0 0 (without 60))\n"),
     TEXT("                  10                  12                    0.60\n"
          "     1   1        12                0.60     3              0.60\n"
          "     2   0         0                0.00     0              0.60\n"),
     12, 60, 2, {{1, 1, 12, 60, 3, 1, 60}, {2, 0, 0, 0, 0, 1, 60}}},
    {"the most that can be bought", TEXT(ORDER(1000000, 1000000) DEAREST(9998, 999999) DEAREST(9999, 999999)), 4, 171,
     TEXT("(award 1000000 1999998 4019997980000)\n(buy 9998 1 999999 2009998990000 1250 (without none))\n"
          "(buy 9999 1 999999 2009998990000 1250 (without none))\n"),
     TEXT("             1000000             1999998          40199979800.00\n"
          "  9998   1    999999      20099989900.00  1250              none\n"
          "  9999   1    999999      20099989900.00  1250              none\n"),
     1999998, 4019997980000, 2, {{9998, 1, 999999, 2009998990000, 1250, 0, 0}, {9999, 1, 999999, 2009998990000, 1250, 0, 0}}},
    {"the shortest text", TEXT(SHORTEST_TEXT), 2, 105,
     TEXT("(award 1 1 0)\n(buy 1 1 1 0 1 (without none))\n"),
     TEXT("                   1                   1                    0.00\n"
          "     1   1         1                0.00     1              none\n"),
     1, 0, 1, {{1, 1, 1, 0, 1, 0, 0}}},
    {"the longest text", TEXT(LONGEST_TEXT), 5764801, 567,
     TEXT("(award 1000000 1000000 10000000000)\n(buy 9991 6 1000000 10000000000 1250 (without 10000000000))\n"
          SEVEN_LINES(SELLS_NOTHING, 10000000000)),
     TEXT("             1000000             1000000            100000000.00\n"
          "  9991   6   1000000        100000000.00  1250      100000000.00\n"
          SEVEN_LINES(PAGE_SELLS_NOTHING, "      100000000.00")),
     1000000, 10000000000, 8, {{9991, 6, 1000000, 10000000000, 1250, 1, 10000000000}, SEVEN_ROWS(NO_SELLER, 1, 10000000000)}},
    {"eight bidders who all sell, none of them needed", TEXT(ORDER(1000000, 1000000) EIGHT_OF_TWO), 6561, 567,
     TEXT("(award 1000000 1000000 8000000000000)\n" SEVEN_LINES(SELLS_FIRST, 500) SELLS_FIRST(9999, 500)),
     TEXT("             1000000             1000000          80000000000.00\n"
          SEVEN_LINES(PAGE_SELLS_FIRST, "   500") PAGE_SELLS_FIRST(9999, "   500")),
     1000000, 8000000000000, 8, {SEVEN_ROWS(FIRST_SELLER, 1, 8010006060000), FIRST_SELLER(9999, 1, 8010006060000)}},
};

/* Texts that are refused */

struct refused {
    const char *name;
    struct text text;
    uint64_t number, place;
};

/* A text that stops being of the shape where `good` ends. */
#define STOPS(name, good, rest) {name, TEXT(good rest), BOCCELARCH_SHAPE, sizeof(good) - 1}
#define IN_SEGMENT DEMAND(120) "(bid 3 0 (seg 1 60 "

static const struct refused shapes[] = {
    {"empty text", TEXT(""), BOCCELARCH_SHAPE, 0},
    {"(demand 05)", TEXT("(demand 05)"), BOCCELARCH_SHAPE, 9},
    STOPS("(demand 05 0) in a book", "(demand 0", "5 0)\n" BID_3),
    STOPS("a space before all", "", " " BOOK(120)),
    STOPS("a capital letter", "(", "Demand 120 0)\n" BID_3),
    STOPS("two spaces", "(demand ", " 120 0)\n" BID_3),
    STOPS("no number", "(demand ", ")\n" BID_3),
    STOPS("a demand with a minus", "(demand ", "-120 0)\n" BID_3),
    STOPS("a comma in a number", "(demand 1", ",200 0)\n" BID_3),
    STOPS("fourteen digits", "(demand 1234567890123", "4 0)\n" BID_3),
    STOPS("byte 0 in a number", "(demand 1", "\0" "20 0)\n" BID_3),
    STOPS("byte 255", "(demand 1", "\377" " 0)\n" BID_3),
    STOPS("byte 13 before byte 10", "(demand 120 0)", "\r\n" BID_3),
    STOPS("a book in the old form, without an allowance", "(demand 120", ")\n" BID_3 BID_8 BID_12),
    STOPS("a demand in the old form, out of its range", "(demand 0", ")\n" BID_3),
    STOPS("a demand in the old form, and no more", "(demand 120", ")"),
    STOPS("an allowance that is missing", "(demand 120 ", ")\n" BID_3),
    STOPS("nothing after the demand's space", "(demand 120 ", ""),
    STOPS("an allowance with a minus", "(demand 120 ", "-10)\n" BID_3),
    STOPS("an allowance with a leading zero", "(demand 120 0", "10)\n" BID_3),
    STOPS("an allowance of fourteen digits", "(demand 120 1234567890123", "4)\n" BID_3),
    STOPS("two spaces before an allowance", "(demand 120 ", " 10)\n" BID_3),
    STOPS("a space after an allowance", "(demand 120 10", " )\n" BID_3),
    STOPS("two allowances", "(demand 120 10", " 5)\n" BID_3),
    STOPS("a byte 10 for an allowance", "(demand 120", "\n)\n" BID_3),
    STOPS("no bids", DEMAND(120), ""),
    STOPS("an empty line", DEMAND(120), "\n" BID_3),
    STOPS("two demands", DEMAND(120) "(", "demand 120 0)\n" BID_3),
    STOPS("a bidder with a minus", DEMAND(120) "(bid ", "-3 0 (seg 1 60 400 0))\n"),
    STOPS("a bidder with a leading zero", DEMAND(120) "(bid 0", "3 0 (seg 1 60 400 0))\n"),
    {"a book in the old form, without carriages",
     TEXT(DEMAND(120) "(bid 3 (seg 1 60 400 0) (seg 61 100 350 -500))\n(bid 8 (seg 20 80 380 1000))\n(bid 12 (seg 120 120 370 0))\n"),
     BOCCELARCH_SHAPE, 22},
    STOPS("a bid in the old form after others", DEMAND(120) BID_3 BID_8 "(bid 12 ", "(seg 120 120 370 0))\n"),
    STOPS("a bid of a bidder alone", DEMAND(120) "(bid 3", ")\n"),
    STOPS("a carriage that is missing", DEMAND(120) "(bid 3 ", ")\n"),
    STOPS("nothing after the bidder's space", DEMAND(120) "(bid 3 ", ""),
    STOPS("a carriage with a minus", DEMAND(120) "(bid 3 ", "-250 (seg 1 60 400 0))\n"),
    STOPS("a carriage with a leading zero", DEMAND(120) "(bid 3 0", "250 (seg 1 60 400 0))\n"),
    STOPS("a carriage of fourteen digits", DEMAND(120) "(bid 3 1234567890123", "4 (seg 1 60 400 0))\n"),
    STOPS("two spaces before a carriage", DEMAND(120) "(bid 3 ", " 250 (seg 1 60 400 0))\n"),
    STOPS("two spaces after a carriage", DEMAND(120) "(bid 3 250 ", " (seg 1 60 400 0))\n"),
    STOPS("no space after a carriage", DEMAND(120) "(bid 3 250", "(seg 1 60 400 0))\n"),
    STOPS("two carriages", DEMAND(120) "(bid 3 250 ", "20 (seg 1 60 400 0))\n"),
    STOPS("a further carriage after the segment", DEMAND(120) "(bid 3 250 (seg 1 60 400 0) ", "250)\n"),
    STOPS("a bid without segments", DEMAND(120) "(bid 3 0", ")\n"),
    STOPS("a unit price with a minus", IN_SEGMENT, "-400 0))\n"),
    STOPS("three numbers in a segment", IN_SEGMENT "400", "))\n"),
    STOPS("five numbers in a segment", IN_SEGMENT "400 0", " 0))\n"),
    STOPS("-0", IN_SEGMENT "400 -", "0))\n"),
    STOPS("a space after a minus", IN_SEGMENT "400 -", " 5))\n"),
    STOPS("two minuses", IN_SEGMENT "400 -", "-5))\n"),
    STOPS("a plus", IN_SEGMENT "400 ", "+5))\n"),
    STOPS("fourteen digits after a minus", IN_SEGMENT "400 -1234567890123", "4))\n"),
    STOPS("no space between segments", IN_SEGMENT "400 0)", "(seg 61 100 350 -500))\n"),
    STOPS("a space after the last segment", IN_SEGMENT "400 0) ", ")\n"),
    STOPS("a bid left open", IN_SEGMENT "400 0)", "\n"),
    STOPS("a byte 10 after the book", BOOK(120), "\n"),
    STOPS("a space after the book", BOOK(120), " "),
    STOPS("a byte 0 after the book", BOOK(120), "\0"),
    STOPS("a bracket after the book", BOOK(120) "(", ""),
    STOPS("another demand after the book", BOOK(120) "(", "demand 120 0)\n"),
};

/* A fault in a segment that has no other: unit price 1,000,001; start above the end; -1 cent at the start. */
#define FAULT_5 " (seg 1 1 1000001 0)"
#define FAULT_7 " (seg 2 1 5 0)"
#define FAULT_8 " (seg 1 1 5 -6)"
#define ONE " (seg 11 11 5 0)"
#define TWO ONE " (seg 12 12 5 0)"
#define THREE TWO " (seg 13 13 5 0)"
#define FOUR THREE " (seg 14 14 5 0)"
#define FIVE FOUR " (seg 15 15 5 0)"
#define SIX FIVE " (seg 16 16 5 0)"
#define SEVEN SIX " (seg 17 17 5 0)"
#define CARRIED(bidder, carriage, segments) "(bid " #bidder " " #carriage segments ")\n"
#define BID(bidder, segments) CARRIED(bidder, 0, segments)
#define GOOD(bidder) BID(bidder, " (seg 1 1 5 0)")
#define TOO_FAR(bidder, segments) CARRIED(bidder, 10001, segments) /* a carriage out of range */
#define SEVEN_GOOD GOOD(1) GOOD(2) GOOD(3) GOOD(4) GOOD(5) GOOD(6) GOOD(7)
#define BEFORE DEMAND(1) GOOD(8) /* lines 1 and 2 */

static const struct refused rules[] = {
    {"nine bids", TEXT(DEMAND(1) SEVEN_GOOD GOOD(8) GOOD(9)), 3, 10},
    {"ten bids", TEXT(DEMAND(1) SEVEN_GOOD GOOD(8) GOOD(9) GOOD(10)), 3, 10},
    {"seven segments", TEXT(DEMAND(1) BID(8, SEVEN)), 4, 2},
    {"seven segments in the second bid", TEXT(BEFORE BID(9, SEVEN)), 4, 3},
    {"demand 0", TEXT(BOOK(0)), 5, 1},
    {"demand 1000001", TEXT(BOOK(1000001)), 5, 1},
    {"a demand of thirteen digits", TEXT(BOOK(9999999999999)), 5, 1},
    {"allowance 1000001", TEXT(ORDER(120, 1000001) BID_3 BID_8 BID_12), 5, 1},
    {"an allowance of thirteen digits", TEXT(ORDER(120, 9999999999999) BID_3 BID_8 BID_12), 5, 1},
    {"an allowance past 32 bits", TEXT(ORDER(120, 4294967296) BID_3 BID_8 BID_12), 5, 1},
    {"demand 0 and allowance 1000001", TEXT(ORDER(0, 1000001) BID_3 BID_8 BID_12), 5, 1},
    {"bidder 0", TEXT(DEMAND(1) GOOD(0)), 5, 2},
    {"bidder 10000", TEXT(BEFORE GOOD(10000)), 5, 3},
    {"carriage 10001", TEXT(DEMAND(1) TOO_FAR(8, " (seg 1 1 5 0)")), 5, 2},
    {"carriage 10001 in the second bid", TEXT(BEFORE TOO_FAR(9, " (seg 1 1 5 0)")), 5, 3},
    {"a carriage of thirteen digits", TEXT(DEMAND(1) CARRIED(8, 9999999999999, " (seg 1 1 5 0)")), 5, 2},
    {"a carriage past 32 bits", TEXT(DEMAND(1) CARRIED(8, 4294967296, " (seg 1 1 5 0)")), 5, 2},
    {"start 0", TEXT(DEMAND(1) BID(8, " (seg 0 1 5 0)")), 5, 2},
    {"end 1000001", TEXT(DEMAND(1) BID(8, " (seg 1 1000001 5 0)")), 5, 2},
    {"unit price 1000001", TEXT(DEMAND(1) BID(8, FAULT_5)), 5, 2},
    {"fixed price 1000000000001", TEXT(DEMAND(1) BID(8, " (seg 1 1 5 1000000000001)")), 5, 2},
    {"fixed price -1000000000001", TEXT(DEMAND(1) BID(8, " (seg 1000000 1000000 1000000 -1000000000001)")), 5, 2},
    {"a fixed price of thirteen digits", TEXT(DEMAND(1) BID(8, " (seg 1 1 5 -9999999999999)")), 5, 2},
    {"bidders 8 and 8", TEXT(BEFORE GOOD(8)), 6, 3},
    {"bidders 8 and 7", TEXT(BEFORE GOOD(7)), 6, 3},
    {"a start above its end", TEXT(DEMAND(1) BID(8, FAULT_7)), 7, 2},
    {"segments 1 to 60 and 60 to 100", TEXT(DEMAND(120) BID(3, " (seg 1 60 400 0) (seg 60 100 350 -500)")), 7, 2},
    {"segments turned round", TEXT(DEMAND(120) BID(3, " (seg 61 100 350 -500) (seg 1 60 400 0)")), 7, 2},
    {"fixed price -21351", TEXT(DEMAND(120) BID(3, " (seg 1 60 400 0) (seg 61 100 350 -21351)") BID_8 BID_12), 8, 2},
    {"a negative price in the third bid", TEXT(BEFORE GOOD(9) BID(10, FAULT_8)), 8, 4},
    {"a negative price but for the carriage", TEXT(DEMAND(1) CARRIED(8, 10000, FAULT_8)), 8, 2},
    {"fixed price -21351, and the highest carriage", TEXT(DEMAND(120) CARRIED(3, 10000, " (seg 61 100 350 -21351)") BID_8), 8, 2},

    /* Several in a line: the lowest number, wherever it stands. */
    {"3 and 4", TEXT(DEMAND(1) SEVEN_GOOD GOOD(8) BID(9, SEVEN)), 3, 10},
    {"3 and 5", TEXT(DEMAND(1) SEVEN_GOOD GOOD(8) BID(9, FAULT_5)), 3, 10},
    {"3 and 5, the carriage", TEXT(DEMAND(1) SEVEN_GOOD GOOD(8) TOO_FAR(9, " (seg 1 1 5 0)")), 3, 10},
    {"3 and 6", TEXT(DEMAND(1) SEVEN_GOOD GOOD(8) GOOD(8)), 3, 10},
    {"3 and 7", TEXT(DEMAND(1) SEVEN_GOOD GOOD(8) BID(9, FAULT_7)), 3, 10},
    {"3 and 8", TEXT(DEMAND(1) SEVEN_GOOD GOOD(8) BID(9, FAULT_8)), 3, 10},
    {"4 and 5", TEXT(BEFORE BID(9, FAULT_5 SIX)), 4, 3},
    {"4 and 5, the carriage", TEXT(BEFORE TOO_FAR(9, SEVEN)), 4, 3},
    {"4 and 6", TEXT(BEFORE BID(8, SEVEN)), 4, 3},
    {"4 and 7", TEXT(BEFORE BID(9, FAULT_7 SIX)), 4, 3},
    {"4 and 8", TEXT(BEFORE BID(9, FAULT_8 SIX)), 4, 3},
    {"5 and 6", TEXT(BEFORE BID(8, FAULT_5)), 5, 3},
    {"5, the carriage, and 6", TEXT(BEFORE TOO_FAR(8, " (seg 1 1 5 0)")), 5, 3},
    {"5, the carriage, and 7", TEXT(BEFORE TOO_FAR(9, FAULT_7)), 5, 3},
    {"5, the carriage, and 8", TEXT(BEFORE TOO_FAR(9, FAULT_8)), 5, 3},
    {"5 and 7", TEXT(BEFORE BID(9, FAULT_7 " (seg 3 3 1000001 0)")), 5, 3},
    {"5 and 8", TEXT(BEFORE BID(9, FAULT_8 " (seg 3 3 1000001 0)")), 5, 3},
    {"6 and 7", TEXT(BEFORE BID(8, FAULT_7)), 6, 3},
    {"6 and 8", TEXT(BEFORE BID(8, FAULT_8)), 6, 3},
    {"7 and 8", TEXT(BEFORE BID(9, FAULT_8 " (seg 1 2 5 0)")), 7, 3},
    {"4 to 8", TEXT(BEFORE BID(8, FAULT_8 FAULT_7 FAULT_5 " (seg 11 11 5 0) (seg 12 12 5 0) (seg 13 13 5 0) (seg 14 14 5 0)")), 4, 3},

    /* Several lines: the first, whatever the numbers. */
    {"5 in line 1, 4 in line 2", TEXT(DEMAND(0) BID(8, SEVEN)), 5, 1},
    {"5 in line 1, 3 in line 10", TEXT(DEMAND(0) SEVEN_GOOD GOOD(8) GOOD(9)), 5, 1},
    {"5 in line 1, the allowance, 4 in line 2", TEXT(ORDER(1, 1000001) BID(8, SEVEN)), 5, 1},
    {"5 in line 1, the allowance, 3 in line 10", TEXT(ORDER(1, 1000001) SEVEN_GOOD GOOD(8) GOOD(9)), 5, 1},
    {"8 in line 2, 4 in line 3", TEXT(DEMAND(1) BID(8, FAULT_8) BID(9, SEVEN)), 8, 2},
    {"8 in line 2, 5 in line 3, the carriage", TEXT(DEMAND(1) BID(8, FAULT_8) TOO_FAR(9, " (seg 1 1 5 0)")), 8, 2},
    {"6 in line 3, 5 in line 4", TEXT(BEFORE GOOD(8) BID(9, FAULT_5)), 6, 3},
    {"8 in line 9, 3 in line 10", TEXT(DEMAND(1) SEVEN_GOOD BID(8, FAULT_8) GOOD(9)), 8, 9},
    {"7 in line 8, 8 in line 9", TEXT(DEMAND(1) GOOD(1) GOOD(2) GOOD(3) GOOD(4) GOOD(5) GOOD(6) BID(7, FAULT_7) BID(8, FAULT_8)), 7, 8},
};

/* Splits */

struct split {
    uint64_t number, place;
    int64_t price;
    uint64_t meets;
};

#define GAP DEMAND(100) "(bid 1 0 (seg 1 50 10 0) (seg 61 100 9 0))\n"

static const struct {
    const char *name;
    struct text text;
    uint64_t quantities[4];
    size_t count;
    struct split expected; /* refusal, place, price, meets */
} splits[] = {
    {"60 60 0", TEXT(BOOK(120)), {60, 60, 0}, 3, {0, 0, 47800, 1}},
    {"the award", TEXT(BOOK(120)), {100, 20, 0}, 3, {0, 0, 43100, 1}},
    {"60 59 0", TEXT(BOOK(120)), {60, 59, 0}, 3, {0, 0, 47420, 0}},
    {"more than the demand", TEXT(BOOK(120)), {60, 61, 0}, 3, {0, 0, 48180, 0}},
    {"all zeros", TEXT(BOOK(120)), {0, 0, 0}, 3, {0, 0, 0, 0}},
    {"starts", TEXT(BOOK(120)), {61, 20, 120}, 3, {0, 0, 73850, 0}},
    {"not covered, not met", TEXT(BOOK(301)), {60, 60, 0}, 3, {0, 0, 47800, 0}},
    {"not covered, all ends", TEXT(BOOK(301)), {100, 80, 120}, 3, {0, 0, 110300, 0}},
    {"60 10 0", TEXT(BOOK(120)), {60, 10, 0}, 3, {11, 3, 0, 0}},
    {"101", TEXT(BOOK(120)), {101, 0, 0}, 3, {11, 2, 0, 0}},
    {"19 from 20", TEXT(BOOK(120)), {100, 19, 0}, 3, {11, 3, 0, 0}},
    {"81 up to 80", TEXT(BOOK(120)), {0, 81, 0}, 3, {11, 3, 0, 0}},
    {"119 at 120", TEXT(BOOK(120)), {0, 0, 119}, 3, {11, 4, 0, 0}},
    {"the greatest number", TEXT(BOOK(120)), {0, 0, UINT64_MAX}, 3, {11, 4, 0, 0}},
    {"two faults", TEXT(BOOK(120)), {0, 10, 119}, 3, {11, 3, 0, 0}},
    {"no quantities", TEXT(BOOK(120)), {0}, 0, {11, 2, 0, 0}},
    {"one quantity", TEXT(BOOK(120)), {60}, 1, {11, 3, 0, 0}},
    {"two quantities", TEXT(BOOK(120)), {60, 60}, 2, {11, 4, 0, 0}},
    {"two quantities, a fault", TEXT(BOOK(120)), {60, 10}, 2, {11, 3, 0, 0}},
    {"four quantities", TEXT(BOOK(120)), {60, 60, 0, 0}, 4, {11, 5, 0, 0}},
    {"four quantities, a fault", TEXT(BOOK(120)), {60, 10, 0, 0}, 4, {11, 3, 0, 0}},
    {"50 before a gap", TEXT(GAP), {50}, 1, {0, 0, 500, 0}},
    {"51 in a gap", TEXT(GAP), {51}, 1, {11, 2, 0, 0}},
    {"60 in a gap", TEXT(GAP), {60}, 1, {11, 2, 0, 0}},
    {"61 after a gap", TEXT(GAP), {61}, 1, {0, 0, 549, 0}},
    {"a price past 32 bits", TEXT(DEMAND(12000) "(bid 1 0 (seg 1 12000 400000 0))\n"), {12000}, 1, {0, 0, 4800000000, 1}},
    {"carriages, 60 60 0", TEXT(CARRIED_BOOK), {60, 60, 0}, 3, {0, 0, 64000, 1}},
    {"carriages, the award", TEXT(CARRIED_BOOK), {40, 80, 0}, 3, {0, 0, 59000, 1}},
    {"carriages, 100 20 0", TEXT(CARRIED_BOOK), {100, 20, 0}, 3, {0, 0, 68500, 1}},
    {"carriages, 60 59 0", TEXT(CARRIED_BOOK), {60, 59, 0}, 3, {0, 0, 63600, 0}},
    {"carriages, all zeros", TEXT(CARRIED_BOOK), {0, 0, 0}, 3, {0, 0, 0, 0}},
    {"carriages, 60 10 0", TEXT(CARRIED_BOOK), {60, 10, 0}, 3, {11, 3, 0, 0}},
    {"the highest price", TEXT(DEMAND(1000000) DEAREST(9999, 1000000)), {1000000}, 1, {0, 0, 2010000000000, 1}},
    {"an allowance, just the demand", TEXT(DRUM_BOOK(10)), {60, 60, 0}, 3, {0, 0, 47800, 1}},
    {"an allowance, one blank short", TEXT(DRUM_BOOK(10)), {60, 59, 0}, 3, {0, 0, 47420, 0}},
    {"an allowance, the award", TEXT(DRUM_BOOK(10)), {0, 0, 125}, 3, {0, 0, 42500, 1}},
    {"an allowance, as many as are taken", TEXT(DRUM_BOOK(10)), {60, 70, 0}, 3, {0, 0, 51600, 1}},
    {"an allowance, one blank more", TEXT(DRUM_BOOK(10)), {60, 71, 0}, 3, {0, 0, 51980, 0}},
    {"an allowance, all zeros", TEXT(DRUM_BOOK(1000000)), {0, 0, 0}, 3, {0, 0, 0, 0}},
    {"an allowance, 60 10 0", TEXT(DRUM_BOOK(10)), {60, 10, 0}, 3, {11, 3, 0, 0}},
    {"an allowance, not covered", TEXT(STARTS_BOOK(19)), {60, 60}, 2, {0, 0, 720, 0}},
    {"as many as are ever taken", TEXT(ORDER(1000000, 1000000) DEAREST(9998, 1000000) DEAREST(9999, 1000000)), {1000000, 1000000}, 2,
     {0, 0, 4020000000000, 1}},
    {"one blank more than ever", TEXT(ORDER(1000000, 1000000) DEAREST(9997, 1) DEAREST(9998, 1000000) DEAREST(9999, 1000000)),
     {1, 1000000, 1000000}, 3, {0, 0, 5020001010000, 0}},
};

#endif
