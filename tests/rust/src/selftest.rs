//! The check of the reference and of the comparison: the reference against what the paper prints, against cases with carriage, with an
//! allowance and with tables that were worked out by hand, against sizes that were counted by hand and against a listing of all divisions,
//! and the comparison against answers that were altered. The laws of changed books have theirs in lawchecks.rs.

use crate::book::{refusal, Bid, Book, Refusal, Sizes};
use crate::cases::{Case, CASES};
use crate::clearing;
use crate::compare::Comparer;
use crate::entries::{Answer, Call};
use crate::expected::Judged;
use crate::generate::{books, bytes, families, limits, tables, widest};
use crate::lawchecks;
use crate::page;
use crate::random::Random;
use crate::shape::Shape;
use crate::sheet;
use crate::table::{Loaded, Table};
use crate::ties;
use std::cmp::Reverse;
use std::rc::Rc;

const BIDS: &str = "(bid 3 0 (seg 1 60 400 0) (seg 61 100 350 -500))
(bid 8 0 (seg 20 80 380 1000))
(bid 12 0 (seg 120 120 370 0))
";

const SHEET: &str = "(award 120 120 43100)
(buy 3 2 100 34500 20 (without 44400))
(buy 8 1 20 8600 5 (without 44400))
(buy 12 0 0 0 0 (without 43100))
";

/// The page of the same award, written by hand.
const PAGE: &str = concat!(
    "                 120                 120                  431.00\n",
    "     3   2       100              345.00    20            444.00\n",
    "     8   1        20               86.00     5            444.00\n",
    "    12   0         0                0.00     0            431.00\n",
);

/// The paper's book with carriages. With the first two bidders 120 blanks cost 250 × q + 49,000 where the first sells q from 40 to 60, and
/// 200 × q + 48,500 from 61 to 100: least 59,000 with 40 and 80. The third sells them for 520 × 120 = 62,400.
const CARRIED: &str = "(demand 120 0)
(bid 3 250 (seg 1 60 400 0) (seg 61 100 350 -500))
(bid 8 20 (seg 20 80 380 1000))
(bid 12 150 (seg 120 120 370 0))
";

const CARRIED_SHEET: &str = "(award 120 120 59000)
(buy 3 1 40 26000 8 (without 62400))
(buy 8 1 80 33000 13 (without 62400))
(buy 12 0 0 0 0 (without 59000))
";

const CARRIED_PAGE: &str = concat!(
    "                 120                 120                  590.00\n",
    "     3   1        40              260.00     8            624.00\n",
    "     8   1        80              330.00    13            624.00\n",
    "    12   0         0                0.00     0            590.00\n",
);

/// The paper's book with an allowance, and a drum of 125 blanks, which costs 42,500: the first two bidders sell 120 blanks for 43,100.
const DRUMS: &str = "(demand 120 10)
(bid 3 0 (seg 1 60 400 0) (seg 61 100 350 -500))
(bid 8 0 (seg 20 80 380 1000))
(bid 12 0 (seg 125 125 340 0))
";

const DRUMS_SHEET: &str = "(award 120 125 42500)
(buy 3 0 0 0 0 (without 42500))
(buy 8 0 0 0 0 (without 42500))
(buy 12 1 125 42500 20 (without 43100))
";

const DRUMS_PAGE: &str = concat!(
    "                 120                 125                  425.00\n",
    "     3   0         0                0.00     0            425.00\n",
    "     8   0         0                0.00     0            425.00\n",
    "    12   1       125              425.00    20            431.00\n",
);

/// The checks done, and those that failed.
#[derive(Default)]
pub struct Checks {
    done: u64,
    failed: u64,
}

impl Checks {
    pub fn check(&mut self, name: &str, holds: bool) {
        self.done += 1;
        if !holds {
            self.failed += 1;
            println!("SELF-TEST FAILED: {name}");
        }
    }
}

fn judged(shape: &Shape, text: &str) -> Judged {
    Judged::new(shape, text.as_bytes())
}

fn read(shape: &Shape, text: &str) -> Option<Refusal> {
    judged(shape, text).reading.err()
}

/// The quantities and totals printed under "Cases" for the paper's book with other demands.
fn paper_awards(checks: &mut Checks, shape: &Shape) {
    let cases: [(i64, [i64; 3], i64); 6] = [
        (120, [100, 20, 0], 43_100),
        (19, [19, 0, 0], 7_600),
        (60, [0, 60, 0], 23_800),
        (61, [61, 0, 0], 20_850),
        (181, [61, 0, 120], 65_250),
        (300, [100, 80, 120], 110_300),
    ];
    for (demand, quantities, total) in cases {
        let case = judged(shape, &format!("(demand {demand} 0)\n{BIDS}"));
        let award = case.cleared().map(|cleared| cleared.1.clone());
        let same = award.is_ok_and(|a| a.quantities == quantities && a.total == total && a.bought == demand);
        checks.check(&format!("the paper's demand {demand}"), same);
    }
    let sheet = judged(shape, &format!("(demand 120 0)\n{BIDS}")).sheet();
    checks.check("the paper's sheet", sheet == Ok(SHEET.as_bytes().to_vec()));
    let uncovered = judged(shape, &format!("(demand 301 0)\n{BIDS}")).sheet();
    checks.check("the paper's demand 301", uncovered == Err(refusal(9, 0)));
    let alone = judged(shape, "(demand 119 0)\n(bid 12 0 (seg 120 120 370 0))\n").sheet();
    checks.check("bidder 12 alone", alone == Err(refusal(9, 0)));
    let pair = judged(shape, "(demand 10 0)\n(bid 1 0 (seg 1 10 5 0))\n(bid 2 0 (seg 1 10 5 0))\n");
    let award = pair.cleared().map(|cleared| cleared.1.clone());
    checks.check("two alike", award.is_ok_and(|a| a.quantities == [10, 0] && a.total == 50));
}

/// The page of the paper's book, and one with five cents and `none`.
fn pages(checks: &mut Checks, shape: &Shape) {
    let paper = judged(shape, &format!("(demand 120 0)\n{BIDS}")).page();
    checks.check("the paper's page", paper == Ok(PAGE.as_bytes().to_vec()));
    let uncovered = judged(shape, &format!("(demand 301 0)\n{BIDS}")).page();
    checks.check("no page for the paper's demand 301", uncovered == Err(refusal(9, 0)));
    let alone = judged(shape, "(demand 1 0)\n(bid 4 0 (seg 1 1 5 0))\n").page();
    let first = "                   1                   1                    0.05\n";
    let bid = "     4   1         1                0.05     1              none\n";
    checks.check("a page with five cents and `none`", alone == Ok(format!("{first}{bid}").into_bytes()));
}

/// The columns of the paper's page are the numbers of its sheet, and with any byte altered they are not.
fn columns(checks: &mut Checks) {
    let numbers = [120, 120, 43_100, 3, 2, 100, 34_500, 20, 44_400, 8, 1, 20, 8_600, 5, 44_400, 12, 0, 0, 0, 0, 43_100];
    let all: Vec<Option<i64>> = numbers.into_iter().map(Some).collect();
    checks.check("the numbers of the paper's sheet", sheet::shown(SHEET.as_bytes()) == all);
    checks.check("the columns of the paper's page", page::shown(PAGE.as_bytes()) == Some(all.clone()));
    for altered in bytes::edits(PAGE.as_bytes(), b" 19.-+n\n\xff") {
        checks.check("the columns of an altered page", altered == PAGE.as_bytes() || page::shown(&altered) != Some(all.clone()));
    }
}

/// The refusals printed under "Cases".
fn paper_refusals(checks: &mut Checks, shape: &Shape) {
    let cases = [
        ("", Some(refusal(2, 0))),
        ("(demand 05)", Some(refusal(2, 9))),
        ("(demand 0 0)\n(bid 3 0 (seg 1 60 400 0))\n", Some(refusal(5, 1))),
        ("(demand 70 0)\n(bid 3 0 (seg 61 100 350 -21350))\n", None),
        ("(demand 70 0)\n(bid 3 0 (seg 61 100 350 -21351))\n", Some(refusal(8, 2))),
        ("(demand 70 0)\n(bid 8 0 (seg 1 9 1 0))\n(bid 8 0 (seg 1 9 1 0))\n", Some(refusal(6, 3))),
        ("(demand 70 0)\n(bid 3 0 (seg 1 60 400 0) (seg 60 100 350 0))\n", Some(refusal(7, 2))),
    ];
    for (text, expected) in cases {
        checks.check(text, read(shape, text) == expected);
    }
    let Ok(book) = judged(shape, &format!("(demand 120 0)\n{BIDS}")).reading else {
        return checks.check("the paper's book is accepted", false);
    };
    checks.check("split 60, 60, 0", book.split(&[60, 60, 0]) == Ok((47_800, true)));
    checks.check("split 60, 10, 0", book.split(&[60, 10, 0]) == Err(refusal(11, 3)));
}

/// Quantities, total and totals without each bidder.
type Given = ([i64; 2], i64, [Option<i64>; 2]);

fn gives(shape: &Shape, text: &str, (quantities, total, without): Given) -> bool {
    let award = judged(shape, text).cleared().map(|cleared| cleared.1.clone());
    award.is_ok_and(|a| a.quantities == quantities && a.total == total && a.without == without)
}

/// Two bidders, of whom the carriage of the first decides who sells, and who gets more than its start.
fn carriage_decides(checks: &mut Checks, shape: &Shape) {
    let who_sells = [
        (3, ([10, 0], 1_030, [Some(1_040), Some(1_030)])),
        (4, ([10, 0], 1_040, [Some(1_040), Some(1_040)])),
        (5, ([0, 10], 1_040, [Some(1_040), Some(1_050)])),
    ];
    for (carriage, given) in who_sells {
        let text = format!("(demand 10 0)\n(bid 1 {carriage} (seg 1 10 100 0))\n(bid 2 0 (seg 1 10 104 0))\n");
        checks.check(&text, gives(shape, &text, given));
    }
    let who_gets_more = [(30, ([10, 5], 2_000, [None; 2])), (40, ([10, 5], 2_100, [None; 2])), (50, ([5, 10], 2_150, [None; 2]))];
    for (carriage, given) in who_gets_more {
        let text = format!("(demand 15 0)\n(bid 1 {carriage} (seg 5 10 100 0))\n(bid 2 0 (seg 5 10 140 0))\n");
        checks.check(&text, gives(shape, &text, given));
    }
}

/// The paper's book with carriages, whole, and its splits.
fn carried_book(checks: &mut Checks, shape: &Shape) {
    let carried = judged(shape, CARRIED);
    checks.check("the sheet with carriages", carried.sheet() == Ok(CARRIED_SHEET.as_bytes().to_vec()));
    checks.check("the page with carriages", carried.page() == Ok(CARRIED_PAGE.as_bytes().to_vec()));
    checks.check("the book with carriages written again", carried.written() == Ok(CARRIED.as_bytes().to_vec()));
    let Ok(book) = carried.reading else {
        return checks.check("the book with carriages is accepted", false);
    };
    let splits = [([60, 60, 0], 64_000, true), ([100, 20, 0], 68_500, true), ([60, 59, 0], 63_600, false), ([0, 0, 120], 62_400, true)];
    for (quantities, price, meets) in splits {
        checks.check("a split with carriages", book.split(&quantities) == Ok((price, meets)));
    }
    checks.check("nothing is carried for nothing", book.split(&[0, 0, 0]) == Ok((0, false)));
}

/// The highest price, (1,000,000 + 10,000) × 1,000,000 + 1,000,000,000,000.
fn carriage_at_limits(checks: &mut Checks, shape: &Shape) {
    let text = "(demand 1000000 0)\n(bid 9999 10000 (seg 1000000 1000000 1000000 1000000000000))\n";
    let sheet = "(award 1000000 1000000 2010000000000)\n(buy 9999 1 1000000 2010000000000 1250 (without none))\n";
    let first = "             1000000             1000000          20100000000.00\n";
    let bid = "  9999   1   1000000      20100000000.00  1250              none\n";
    let highest = judged(shape, text);
    checks.check("the sheet of the highest price", highest.sheet() == Ok(sheet.as_bytes().to_vec()));
    checks.check("the page of the highest price", highest.page() == Ok(format!("{first}{bid}").into_bytes()));
    let split = highest.reading.map(|book| book.split(&[1_000_000]));
    checks.check("the highest price of a split", split == Ok(Ok((2_010_000_000_000, true))));
}

/// The length of a text, its choices of segments and the limit of its sheet: the shortest text, the paper's, one with bids of one to six
/// segments, the longest text of one segment, and the longest there is. And zeros beside a refusal.
fn sizes(checks: &mut Checks, shape: &Shape) {
    let segments = |count: i64| (1..=count).map(|start| format!(" (seg {start} {start} 5 0)")).collect::<String>();
    let rising: String = (1..=6).map(|bidder| format!("(bid {bidder} 0{})\n", segments(bidder))).collect();
    let longest = String::from_utf8(widest::longest_text().written()).expect("ASCII alone");
    let cases = [
        ("(demand 1 0)\n(bid 1 0 (seg 1 1 0 0))\n".to_string(), 37, 2, 105),
        (format!("(demand 120 0)\n{BIDS}"), 126, 12, 237),
        (format!("(demand 301 0)\n{BIDS}"), 126, 12, 237),
        (CARRIED.to_string(), 131, 12, 237),
        (DRUMS.to_string(), 127, 12, 237),
        (format!("(demand 9 0)\n{rising}"), 13 + 6 * 10 + 21 * 14, 5_040, 435),
        ("(demand 1000000 1000000)\n(bid 9999 10000 (seg 1000000 1000000 1000000 -1000000000000))\n".to_string(), 87, 2, 105),
        (longest, 2_201, 5_764_801, 567),
    ];
    for (text, bytes, choices, sheet) in cases {
        let judged = judged(shape, &text);
        let numbers = Answer { refusal: 0, place: 0, numbers: [bytes, choices, sheet], output: Vec::new(), rest_unchanged: true };
        checks.check(&text, judged.answer(&Call::Sizes) == numbers && text.len() as u64 == bytes);
        let sizes = Sizes { bytes: bytes as usize, choices, sheet: sheet as usize };
        checks.check(&text, judged.reading.is_ok_and(|book| book.sizes() == sizes));
    }
    for (text, number, place) in [("(demand", 2, 7), ("(demand 0 0)\n(bid 3 0 (seg 1 60 400 0))\n", 5, 1)] {
        let refused = Answer { refusal: number, place, numbers: [0; 3], output: Vec::new(), rest_unchanged: true };
        checks.check(text, judged(shape, text).answer(&Call::Sizes) == refused);
    }
}

/// The widest sheets of one bid, of two and of eight, worked out by hand.
fn widest_sheets(checks: &mut Checks, shape: &Shape) {
    let eight: String =
        (9_992..=9_999).map(|bidder| format!("(buy {bidder} 1 125000 1000000000000 99999 (without 8010006060000))\n")).collect();
    let cases = [
        (1, "(award 1000000 1000000 1000000000000)\n(buy 9999 1 1000000 1000000000000 99999 (without none))\n".to_string(), 94),
        (
            2,
            "(award 1000000 1000000 2000000000000)
(buy 9998 1 500000 1000000000000 99999 (without 2010000000000))
(buy 9999 1 500000 1000000000000 99999 (without 2010000000000))
"
            .to_string(),
            166,
        ),
        (8, format!("(award 1000000 1000000 8000000000000)\n{eight}"), 550),
    ];
    let table = Table::of(&[(99_998, 1), (1_000_000, 99_999)]);
    for (bids, sheet, bytes) in cases {
        let widest = Judged::new(shape, &widest::shared(bids).written()).sheet_by(Ok(&table));
        checks.check(&format!("the widest sheet, {bids} bids"), widest == Ok(sheet.clone().into_bytes()) && sheet.len() == bytes);
        checks.check(&format!("the width of {bids} bids"), widest::bytes(bids as usize) == bytes);
    }
}

/// Carriages in and out of range, the order of refusals in a line, and rule 8, which looks at the curve without carriage.
fn carriage_refusals(checks: &mut Checks, shape: &Shape) {
    let eight: String = (1..=8).map(|bidder| format!("(bid {bidder} 0 (seg 1 1 5 0))\n")).collect();
    let seven = " (seg 1 1 5 0) (seg 2 2 5 0) (seg 3 3 5 0) (seg 4 4 5 0) (seg 5 5 5 0) (seg 6 6 5 0) (seg 7 7 5 0)";
    let cases = [
        ("(bid 3 10000 (seg 1 9 5 0))\n".to_string(), None),
        ("(bid 3 10001 (seg 1 9 5 0))\n".to_string(), Some(refusal(5, 2))),
        ("(bid 3 9999999999999 (seg 1 9 5 0))\n".to_string(), Some(refusal(5, 2))),
        ("(bid 3 0 (seg 1 9 5 0))\n(bid 4 10001 (seg 1 9 5 0))\n".to_string(), Some(refusal(5, 3))),
        (format!("{eight}(bid 9 10001 (seg 1 9 5 0))\n"), Some(refusal(3, 10))),
        (format!("(bid 3 10001{seven})\n"), Some(refusal(4, 2))),
        ("(bid 8 0 (seg 1 9 5 0))\n(bid 8 10001 (seg 1 9 5 0))\n".to_string(), Some(refusal(5, 3))),
        ("(bid 8 10001 (seg 9 1 5 0))\n".to_string(), Some(refusal(5, 2))),
        ("(bid 8 10001 (seg 1 9 5 -6))\n".to_string(), Some(refusal(5, 2))),
        ("(bid 8 0 (seg 1 9 5 -6))\n(bid 9 10001 (seg 1 9 5 0))\n".to_string(), Some(refusal(8, 2))),
        ("(bid 3 10000 (seg 61 100 350 -21350))\n".to_string(), None),
        ("(bid 3 10000 (seg 61 100 350 -21351))\n".to_string(), Some(refusal(8, 2))),
        ("(bid 3 1 (seg 1 9 0 -1))\n".to_string(), Some(refusal(8, 2))),
    ];
    for (bids, expected) in cases {
        let text = format!("(demand 9 0)\n{bids}");
        checks.check(&text, read(shape, &text) == expected);
    }
}

pub fn as_given(shape: &Shape, case: &Case) -> bool {
    let judged = judged(shape, case.text);
    match (judged.cleared(), &case.given) {
        (Err(refused), Err(given)) => refused == *given,
        (Ok((_, award)), Ok(given)) => given.is(award),
        _ => false,
    }
}

/// The cases with an allowance; the paper's book with one, whole, and its splits.
fn allowance_cases(checks: &mut Checks, shape: &Shape) {
    for case in &CASES {
        checks.check(case.name, as_given(shape, case));
    }
    let drums = judged(shape, DRUMS);
    checks.check("the sheet with a drum", drums.sheet() == Ok(DRUMS_SHEET.as_bytes().to_vec()));
    checks.check("the page with a drum", drums.page() == Ok(DRUMS_PAGE.as_bytes().to_vec()));
    checks.check("the book with an allowance written again", drums.written() == Ok(DRUMS.as_bytes().to_vec()));
    let Ok(book) = drums.reading else {
        return checks.check("the book with an allowance is accepted", false);
    };
    let splits = [
        ([60, 59, 0], 47_420, false),
        ([60, 60, 0], 47_800, true),
        ([60, 70, 0], 51_600, true),
        ([60, 71, 0], 51_980, false),
        ([0, 0, 125], 42_500, true),
        ([0, 20, 125], 51_100, false),
    ];
    for (quantities, price, meets) in splits {
        checks.check("a split with an allowance", book.split(&quantities) == Ok((price, meets)));
    }
    let paper = judged(shape, &format!("(demand 120 10)\n{BIDS}"));
    let sheet = paper.sheet();
    checks.check("an allowance that nothing is bought by", sheet == Ok(SHEET.as_bytes().to_vec()));
}

/// Places of refusal 2 counted by hand: the text up to `|` is the longest possible beginning.
fn places(checks: &mut Checks, shape: &Shape) {
    let texts = [
        "(demand |-5 0)\n",
        "(demand 1234567890123|4 0)\n",
        "(demand 5|)\n(bid 3 0 (seg 1 5 1 0))\n",
        "(demand 1234567890123|)\n(bid 3 0 (seg 1 5 1 0))\n",
        "(demand 5|\n",
        "(demand 5 |",
        "(demand 5 |)\n",
        "(demand 5 | 0)\n",
        "(demand 5 |-1)\n",
        "(demand 5 0|7)\n",
        "(demand 5 1234567890123|4)\n",
        "(demand 5 7| )\n",
        "(demand 5 7| 8)\n",
        "(demand 5 7)|(bid",
        "(demand 5 0)\n|",
        "(demand 5 0)\n|\n",
        "(demand 5 0)\n(bid 3|)\n",
        "(demand 5 0)\n(bid 3 |)\n",
        "(demand 5 0)\n(bid 3 0|)\n",
        "(demand 5 0)\n(bid 3 |",
        "(demand 5 0)\n(bid 3 |(seg 1 5 1 0))\n",
        "(demand 5 0)\n(bid 3 0 (seg 1 5 1 0))\n(bid 4 |(seg 1 5 1 0))\n",
        "(demand 5 0)\n(bid 3 |-1 (seg 1 5 1 0))\n",
        "(demand 5 0)\n(bid 3 0|7 (seg 1 5 1 0))\n",
        "(demand 5 0)\n(bid 3 1234567890123|4 (seg 1 5 1 0))\n",
        "(demand 5 0)\n(bid 3 | 7 (seg 1 5 1 0))\n",
        "(demand 5 0)\n(bid 3 7 | (seg 1 5 1 0))\n",
        "(demand 5 0)\n(bid 3 7 |8 (seg 1 5 1 0))\n",
        "(demand 5 0)\n(bid 3 7|(seg 1 5 1 0))\n",
        "(demand 5 0)\n(bid 3 0 (seg 1 5 |-1 0))\n",
        "(demand 5 0)\n(bid 3 0 (seg 1 5 1 -|0))\n",
        "(demand 5 0)\n(bid 3 0 (seg 1 5 1 0|0))\n",
        "(demand 5 0)\n(bid 3 0 (seg 1 5 1 -1234567890123|4))\n",
        "(demand 5 0)\n(bid 3 0 (seg 1 5 1 0))\n|)",
        "(demand 5 0)\n(bid 3 0 (seg 1 5 1 0))\n(|demand 5 0)\n",
        "(demand 5 0)\n(bid 3 0 (seg 1 5 1 0))| \n",
        "|Demand",
        "(demand 5 0)\n(bid 3 0 (seg 1 5 1 0)|\r)\n",
    ];
    for text in texts {
        let place = text.find('|').expect("a marked place");
        let plain = text.replace('|', "");
        checks.check(text, read(shape, &plain) == Some(refusal(2, place)));
    }
}

const PRINTED: &str = "(band 1 1)
(band 8 2)
(band 15 3)
(band 25 5)
(band 50 8)
(band 90 13)
(band 150 20)
(band 280 32)
(band 500 50)
(band 1200 80)
(band 3200 125)
(band 10000 200)
(band 35000 315)
(band 150000 500)
(band 500000 800)
(band 1000000 1250)
";

fn load(shape: &Shape, text: &str) -> Result<Table, Refusal> {
    Table::read(shape, text.as_bytes())
}

/// Tables that pass, at the limits of the rules, and such as do not.
fn table_refusals(checks: &mut Checks, shape: &Shape) {
    let sixteen: String = (1..=15).map(|highest| format!("(band {highest} 1)\n")).collect();
    let cases = [
        (PRINTED.to_string(), None),
        ("(band 1000000 1)\n".to_string(), None),
        ("(band 1 1)\n(band 1000000 2)\n".to_string(), None),
        ("(band 1 1)\n(band 1000000 3)\n".to_string(), Some(refusal(12, 2))),
        ("(band 1000000 2)\n".to_string(), Some(refusal(12, 1))),
        ("(band 1000000 0)\n".to_string(), Some(refusal(12, 1))),
        ("(band 0 1)\n(band 1000000 1)\n".to_string(), Some(refusal(12, 1))),
        ("(band 999999 1)\n".to_string(), Some(refusal(12, 1))),
        ("(band 1000001 1)\n".to_string(), Some(refusal(12, 1))),
        ("(band 9 1)\n(band 9999999999999 1)\n(band 1000000 1)\n".to_string(), Some(refusal(12, 2))),
        ("(band 9 1)\n(band 9 1)\n(band 1000000 1)\n".to_string(), Some(refusal(12, 2))),
        ("(band 9 1)\n(band 10 1)\n(band 1000000 1)\n".to_string(), None),
        ("(band 9 1)\n(band 99 7)\n(band 1000000 6)\n".to_string(), Some(refusal(12, 3))),
        ("(band 9 1)\n(band 99 10)\n(band 1000000 10)\n".to_string(), None),
        ("(band 9 1)\n(band 99 11)\n(band 1000000 11)\n".to_string(), Some(refusal(12, 2))),
        ("(band 9 1)\n(band 1000000 1)\n(band 1000000 1)\n".to_string(), Some(refusal(12, 3))),
        ("(band 99998 1)\n(band 1000000 99999)\n".to_string(), None),
        ("(band 99997 1)\n(band 1000000 99999)\n".to_string(), Some(refusal(12, 2))),
        ("(band 99999 1)\n(band 1000000 100000)\n".to_string(), Some(refusal(12, 2))),
        ("(band 9 1)\n(band 99 1)\n".to_string(), Some(refusal(12, 2))),
        (format!("{sixteen}(band 1000000 16)\n"), None),
        (format!("{sixteen}(band 16 16)\n(band 1000000 16)\n"), Some(refusal(12, 17))),
        (format!("{sixteen}(band 16 16)\n(band 17 16)\n(band 18 16)\n"), Some(refusal(12, 17))),
        (format!("{sixteen}(band 16 17)\n(band 1000000 16)\n"), Some(refusal(12, 16))),
        (format!("{sixteen}(band 16 16)\n"), Some(refusal(12, 16))),
        ("".to_string(), Some(refusal(2, 0))),
        ("(band 05 1)\n".to_string(), Some(refusal(2, 7))),
        (format!("{}(band 1000000 1)\n", "(band 1 1)\n".repeat(370)), Some(refusal(12, 2))),
        ("(band 1 1)\n".repeat(373), Some(refusal(1, 4096))),
    ];
    for (text, expected) in cases {
        checks.check(&text, load(shape, &text).err() == expected);
    }
    checks.check("the printed table written", Table::printed().written() == PRINTED.as_bytes());
    checks.check("the printed table read", load(shape, PRINTED) == Ok(Table::printed()));
}

/// As `places`, of a table.
fn table_places(checks: &mut Checks, shape: &Shape) {
    let texts = [
        "(band |-5 1)\n",
        "(band 5 |-1)\n",
        "(band 1234567890123|4 1)\n",
        "(band 5 1234567890123|4)\n",
        "(band 0|1 1)\n",
        "(band 5|)\n",
        "(band 5 1| 1)\n",
        "(band 5 1)|",
        "(band 5 1)\n|\n",
        "(band 5 1)\n| ",
        "(band 5 1)|\r\n",
        "(band 5 1)\n(b|id 3 0 (seg 1 5 1 0))\n",
        "|Band",
        "| (band 5 1)\n",
        "(band | 5 1)\n",
        "(band 5 |)\n",
    ];
    for text in texts {
        let place = text.find('|').expect("a marked place");
        let plain = text.replace('|', "");
        checks.check(text, load(shape, &plain).err() == Some(refusal(2, place)));
    }
}

/// The paper's book by other tables, and the order of refusals.
fn sheets_by_table(checks: &mut Checks, shape: &Shape, table_shape: &Shape) {
    let paper = judged(shape, &format!("(demand 120 0)\n{BIDS}"));
    let cases = [
        (PRINTED, 20, 5),
        ("(band 1000000 1)\n", 1, 1),
        ("(band 19 1)\n(band 99 2)\n(band 1000000 100)\n", 100, 2),
        ("(band 20 1)\n(band 100 2)\n(band 1000000 3)\n", 2, 1),
        ("(band 1 1)\n(band 20 2)\n(band 21 3)\n(band 1000000 4)\n", 4, 2),
    ];
    for (text, of_hundred, of_twenty) in cases {
        let first = SHEET.replace("34500 20 ", &format!("34500 {of_hundred} "));
        let sheet = first.replace("8600 5 ", &format!("8600 {of_twenty} "));
        let table = load(table_shape, text);
        checks.check(text, paper.sheet_by(table.as_ref().map_err(|by| *by)) == Ok(sheet.into_bytes()));
    }
    let first = paper.sheet_by(Err(refusal(12, 3)));
    checks.check("the table's refusal", first == Err(refusal(12, 3)));
    let both = judged(shape, "(demand").sheet_by(Err(refusal(12, 3)));
    checks.check("the table's refusal before the book's", both == Err(refusal(12, 3)));
}

/// Tables that were made to pass do, and are written again the same; every quantity lies in one band, and no sample is above its quantity.
fn table_laws(checks: &mut Checks, shape: &Shape) {
    let mut random = Random::new(72);
    for _ in 0..400 {
        let table = tables::passing(&mut random);
        let text = table.written();
        checks.check("a table read from its own text", Table::read(shape, &text) == Ok(table.clone()) && text.len() <= 336);
        let beside = table.bands.iter().flat_map(|band| limits::beside(band.highest));
        let mut quantities: Vec<i64> = (0..=70).chain(beside).filter(|&quantity| quantity <= 1_000_000).collect();
        quantities.sort();
        let samples: Vec<i64> = quantities.iter().map(|&quantity| table.sample(quantity)).collect();
        let well = quantities.iter().zip(&samples).all(|(&quantity, &sample)| table.samples_well(quantity, sample));
        checks.check("the samples of a table", well && samples.is_sorted());
        let altered = quantities.iter().zip(&samples).any(|(&quantity, &sample)| table.samples_well(quantity, sample + 1));
        checks.check("other samples than a table's", !altered);
    }
}

/// A price and the quantities that have it.
type Division = (i64, Vec<i64>);

/// Every allocation of at most so many blanks, in any order.
fn allocations(bids: &[Bid], most: i64) -> Vec<Division> {
    let Some((last, before)) = bids.split_last() else { return vec![(0, Vec::new())] };
    (0..=most).flat_map(|quantity| allocations_with(last, quantity, before, most)).collect()
}

/// Those in which the last bidder sells this quantity.
fn allocations_with(last: &Bid, quantity: i64, before: &[Bid], most: i64) -> Vec<Division> {
    let Some(price) = last.price(quantity) else { return Vec::new() };
    let with_last = |(others, mut quantities): Division| {
        quantities.push(quantity);
        (price + others, quantities)
    };
    allocations(before, most - quantity).into_iter().map(with_last).collect()
}

fn blanks(division: &Division) -> i64 {
    division.1.iter().sum()
}

/// Every division: the allocations that add up to at least the demand and at most demand and allowance.
fn divisions(book: &Book) -> Vec<Division> {
    let most = book.demand + book.allowance;
    let all = allocations(&book.bids, most).into_iter();
    all.filter(|division| book.demand <= blanks(division) && blanks(division) <= most).collect()
}

/// Whether `other` costs more than `best`; or the same, and has more blanks; or as many, and gives less to the first bidder at whom they
/// differ.
fn worse(other: &Division, best: &Division) -> bool {
    let (cost, best_cost) = (other.0, best.0);
    let (count, best_count) = (blanks(other), blanks(best));
    cost > best_cost || (cost == best_cost && (count > best_count || (count == best_count && other.1 < best.1)))
}

fn listed_well(book: &Book, all: &[Division]) -> bool {
    let Some(award) = clearing::award(book) else { return all.is_empty() };
    let best = (award.total, award.quantities);
    let first = all.contains(&best) && all.iter().all(|d| *d == best || worse(d, &best));
    let without = |absent: usize| {
        let mut left = book.clone();
        left.bids.remove(absent);
        divisions(&left).iter().map(|division| division.0).min()
    };
    first && award.bought == blanks(&best) && (0..book.bids.len()).all(|absent| award.without[absent] == without(absent))
}

/// The cheapest division, by the earlier rule alone: of equals the one that gives most to the first bidder at whom two differ.
fn by_book_order(all: &[Division]) -> Option<&Division> {
    all.iter().min_by_key(|division| (division.0, Reverse(&division.1)))
}

/// Whether with the allowance 0 the award is that of before: of the allocations that are just the demand, the first by the earlier rule.
fn as_before(book: &Book) -> bool {
    let exact = Book { allowance: 0, ..book.clone() };
    let all = allocations(&book.bids, book.demand);
    let all: Vec<Division> = all.into_iter().filter(|division| blanks(division) == book.demand).collect();
    let award = clearing::award(&exact).map(|award| (award.total, award.quantities));
    award.as_ref() == by_book_order(&all)
}

/// Whether several divisions cost the least.
fn tied(all: &[Division]) -> bool {
    let least = all.iter().map(|division| division.0).min();
    all.iter().filter(|division| Some(division.0) == least).count() > 1
}

/// Whether the award would give other quantities if nothing were asked for carriage.
fn decided_by_carriage(book: &Book) -> bool {
    let mut without = book.clone();
    without.bids.iter_mut().for_each(|bid| bid.carriage = 0);
    clearing::award(book).map(|award| award.quantities) != clearing::award(&without).map(|award| award.quantities)
}

/// Whether by the earlier rule alone another of the cheapest divisions, with more blanks, would be the award.
fn decided_by_blanks(book: &Book, all: &[Division]) -> bool {
    clearing::award(book).map(|award| award.quantities).as_ref() != by_book_order(all).map(|division| &division.1)
}

fn listings(checks: &mut Checks) {
    let mut random = Random::new(71);
    let (mut ties, mut decided, mut over, mut fewer) = (0, 0, 0, 0);
    for turn in 0..8_000 {
        let mut book = match turn % 4 {
            0 => books::book(&mut random, &books::SMALL),
            1 => books::tied(&mut random, &books::SMALL),
            2 => books::passed(&mut random, &books::SMALL),
            _ => families::ALL[turn / 4 % families::ALL.len()](&mut random, &families::SMALL),
        };
        book.demand = book.demand.min(24);
        book.allowance = book.allowance.min(8);
        let all = divisions(&book);
        ties += u64::from(tied(&all));
        over += u64::from(clearing::award(&book).is_some_and(|award| award.bought > book.demand));
        fewer += u64::from(decided_by_blanks(&book, &all));
        decided += u64::from(decided_by_carriage(&book));
        checks.check("a small book by listing all divisions", listed_well(&book, &all));
        checks.check("a small book with the allowance 0", as_before(&book));
        let other = clearing::award(&book).is_some_and(|award| ties::tied(&book, &award));
        checks.check("another division of the award's cost", other == tied(&all));
    }
    println!("self-test: 8000 small books listed, {ties} of them with several cheapest divisions, {decided} decided by carriage");
    println!("self-test: {over} of them with more than the demand bought, {fewer} decided by fewest blanks");
    checks.check("ties among the small books", ties > 500);
    checks.check("small books with more than the demand bought", over > 500);
    checks.check("small books decided by fewest blanks", fewer > 300);
    checks.check("small books decided by carriage", decided > 500);
}

type Alteration = fn(&mut Answer);

const ALTERATIONS: [Alteration; 8] = [
    |answer| answer.refusal += 1,
    |answer| answer.place += 1,
    |answer| answer.numbers[0] += 1,
    |answer| answer.numbers[1] += 1,
    |answer| answer.numbers[2] += 1,
    |answer| answer.rest_unchanged = false,
    |answer| answer.output.iter_mut().take(1).for_each(|byte| *byte ^= 1),
    |answer| answer.output.iter_mut().last().into_iter().for_each(|byte| *byte ^= 128),
];

/// Every altered answer must be counted as a difference, and an answer left as it was must not.
fn alterations(checks: &mut Checks) {
    let mut comparer = Comparer::silent();
    let accepted = format!("(demand 120 0)\n{BIDS}");
    let refused = ["(demand 0 0)\n(bid 3 0 (seg 1 60 400 0))\n", "(demand", "(demand 301 0)\n(bid 3 0 (seg 1 9 1 0))\n"];
    for text in [accepted.as_str(), CARRIED, DRUMS].into_iter().chain(refused) {
        alter_text(checks, &mut comparer, text);
        for table in ["(band 19 1)\n(band 99 2)\n(band 1000000 100)\n", "(band 1 2)\n", "(band"] {
            alter_by_table(checks, &mut comparer, text, table);
        }
    }
    checks.check("altered answers were compared", comparer.counts.different > 100);
}

fn alter_text(checks: &mut Checks, comparer: &mut Comparer, text: &str) {
    let judged = judged(&comparer.shape, text);
    let split = Call::Split(vec![60, 60, 0]);
    let outputs = [Call::Sheet(600), Call::Sheet(9), Call::Page(585), Call::Page(9), Call::Write(300)];
    for call in outputs.into_iter().chain([Call::Sizes, split, Call::Award(56)]) {
        alter_answer(checks, comparer, text, &call, &judged.answer(&call));
    }
}

fn alter_by_table(checks: &mut Checks, comparer: &mut Comparer, text: &str, table: &str) {
    let judged = judged(&comparer.shape, text);
    let table = Rc::new(Loaded::new(&comparer.table_shape, table.as_bytes()));
    let by_table = [Call::Sheet(600), Call::Sheet(9), Call::Page(585), Call::Award(56)].map(|call| call.by_table(&table));
    let alone = [Call::WriteTable(table.clone(), 336), Call::WriteTable(table.clone(), 9), Call::PrintedTable(336), Call::PrintedTable(9)];
    for call in by_table.into_iter().flatten().chain(alone) {
        alter_answer(checks, comparer, text, &call, &judged.answer(&call));
    }
}

fn alter_answer(checks: &mut Checks, comparer: &mut Comparer, text: &str, call: &Call, expected: &Answer) {
    for alter in ALTERATIONS {
        let mut altered = expected.clone();
        alter(&mut altered);
        let before = comparer.counts.different;
        comparer.call(text.as_bytes(), call, &altered);
        let counted = comparer.counts.different - before;
        checks.check("an altered answer", counted == u64::from(altered != *expected));
    }
}

/// A sheet that is longer than its limit must be counted as a difference, and one that just has it must not.
fn limits_of_sheets(checks: &mut Checks) {
    let mut comparer = Comparer::silent();
    let text = format!("(demand 120 0)\n{BIDS}");
    let judged = judged(&comparer.shape, &text);
    let table = Rc::new(Loaded::new(&comparer.table_shape, b"(band 1000000 1)\n"));
    for call in [Call::Sheet(600), Call::SheetByTable(table, 600)] {
        for (bytes, different) in [(237, 0), (238, 1)] {
            let mut answer = judged.answer(&call);
            answer.numbers[0] = bytes;
            let before = comparer.counts.different;
            comparer.look_at(text.as_bytes(), &judged, &call, &answer);
            checks.check("a sheet beside its limit", comparer.counts.different - before == different);
        }
    }
    checks.check("the widest sheet that was looked at", comparer.widest == [0, 0, 0, 238, 0, 0, 0, 0, 0]);
}

/// Whether every check holds; says how many there were.
pub fn run() -> bool {
    let (shape, table_shape) = (Shape::of_book(), Shape::of_table());
    let mut checks = Checks::default();
    paper_awards(&mut checks, &shape);
    pages(&mut checks, &shape);
    columns(&mut checks);
    paper_refusals(&mut checks, &shape);
    carriage_decides(&mut checks, &shape);
    carried_book(&mut checks, &shape);
    carriage_at_limits(&mut checks, &shape);
    sizes(&mut checks, &shape);
    widest_sheets(&mut checks, &shape);
    carriage_refusals(&mut checks, &shape);
    allowance_cases(&mut checks, &shape);
    places(&mut checks, &shape);
    table_refusals(&mut checks, &table_shape);
    table_places(&mut checks, &table_shape);
    sheets_by_table(&mut checks, &shape, &table_shape);
    table_laws(&mut checks, &table_shape);
    listings(&mut checks);
    alterations(&mut checks);
    limits_of_sheets(&mut checks);
    lawchecks::run(&mut checks, &shape);
    println!("self-test: {} checks, {} failed", checks.done, checks.failed);
    checks.failed == 0
}
