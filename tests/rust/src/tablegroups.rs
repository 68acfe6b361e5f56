//! The groups of generated tables, each table with a book.

use crate::compare::Comparer;
use crate::generate::books::{self, Plan};
use crate::generate::{broken, bytes, calls, limits, tables, widest};
use crate::random::Random;
use crate::table::{Loaded, Rule, Table, RULES};
use std::rc::Rc;

const GOOD_BOOK: &[u8] = b"(demand 120 0)
(bid 3 0 (seg 1 60 400 0) (seg 61 100 350 -500))
(bid 8 0 (seg 20 80 380 1000))
(bid 12 0 (seg 120 120 370 0))
";

const OTHER_BOOK: &[u8] = b"(demand 9 1)\n(bid 4 0 (seg 2 9 3 -5))\n";

fn by_table(comparer: &mut Comparer, random: &mut Random, table: &Rc<Loaded>, book: &[u8]) {
    comparer.text(book, |judged| calls::by_table(random, judged, table));
}

/// Loads a table and notes what its first wrong line breaks, if that is one rule alone.
fn load(comparer: &mut Comparer, table: &Table) -> Rc<Loaded> {
    if let Some((line, broken)) = table.first_fault() {
        if let [rule] = broken[..] {
            comparer.faults.insert((rule, line));
        }
    }
    comparer.load(&table.written())
}

/// What the product writes, and that it loads as any other text.
pub fn printed(comparer: &mut Comparer, random: &mut Random) {
    comparer.text(GOOD_BOOK, |_| calls::printed_table());
    let table = comparer.load(&Table::printed().written());
    for plan in [books::SMALL, books::USUAL, books::WIDE, books::LARGE] {
        planned_by(comparer, random, &plan, &table, 30);
    }
}

fn planned_by(comparer: &mut Comparer, random: &mut Random, plan: &Plan, table: &Rc<Loaded>, count: usize) {
    for _ in 0..count {
        let book = books::book(random, plan).written();
        by_table(comparer, random, table, &book);
    }
}

pub fn passing(comparer: &mut Comparer, random: &mut Random) {
    for (plan, count) in [(books::SMALL, 12_000), (books::USUAL, 4_000), (books::MANY_BIDS, 500), (books::WIDE, 400), (books::LARGE, 25)] {
        for _ in 0..count {
            let table = tables::passing(random);
            let table = load(comparer, &table);
            planned_by(comparer, random, &plan, &table, 1);
        }
    }
}

/// Quantities beside the limits of each band, bought whole from one bidder.
pub fn limits_of_bands(comparer: &mut Comparer, random: &mut Random) {
    for _ in 0..60 {
        let table = tables::passing(random);
        let loaded = load(comparer, &table);
        for highest in table.bands.iter().map(|band| band.highest).filter(|&highest| highest < 20_000) {
            beside(comparer, random, &loaded, highest);
        }
    }
    large_limits(comparer, random);
}

fn beside(comparer: &mut Comparer, random: &mut Random, table: &Rc<Loaded>, middle: i64) {
    for quantity in limits::beside(middle) {
        by_table(comparer, random, table, &limits::bought(quantity, 0).written());
    }
}

/// At the end of all bands, and where samples are at most 99,999. Of so large quantities few, since the reference goes through them all.
fn large_limits(comparer: &mut Comparer, random: &mut Random) {
    let texts = [
        vec![(1_000_000, 1)],
        vec![(999_999, 1), (1_000_000, 99_999)],
        vec![(99_998, 1), (1_000_000, 99_999)],
        vec![(99_999, 1), (100_000, 99_999), (1_000_000, 99_999)],
    ];
    for bands in texts {
        let table = Table::of(&bands);
        let loaded = load(comparer, &table);
        for band in &table.bands {
            beside(comparer, random, &loaded, band.highest);
        }
    }
}

/// Eight bids with large numbers, sampled by 99,999 each.
pub fn large_numbers(comparer: &mut Comparer, random: &mut Random) {
    let table = load(comparer, &Table::of(&[(99_998, 1), (1_000_000, 99_999)]));
    for spare in [-1, 0, 1, 20_000] {
        by_table(comparer, random, &table, &limits::large_numbers(spare).written());
    }
}

/// For each number of bids the widest sheet that there is, and others that are wide in some of their numbers. By the first two tables
/// samples have five digits.
pub fn widest_sheets(comparer: &mut Comparer, random: &mut Random) {
    let bands = [vec![(99_998, 1), (1_000_000, 99_999)], vec![(9_999, 1), (1_000_000, 10_000)], vec![(1_000_000, 1)]];
    let mut tables: Vec<Table> = bands.iter().map(|bands| Table::of(bands)).collect();
    tables.extend([Table::printed(), tables::of_bands(random, 16)]);
    let tables: Vec<Rc<Loaded>> = tables.iter().map(|table| load(comparer, table)).collect();
    for bids in 1..=8 {
        for book in widest::books(bids) {
            comparer.text(&book.written(), |judged| calls::by_tables(random, judged, &tables));
        }
    }
}

/// Each rule broken in each line of a table of each length; with a book that is good, and with one that is refused.
pub fn one_broken(comparer: &mut Comparer, random: &mut Random) {
    for count in 1..=tables::MOST_BANDS {
        for line in 1..=count {
            broken_in_line(comparer, random, count, line);
        }
    }
}

fn broken_in_line(comparer: &mut Comparer, random: &mut Random, count: usize, line: usize) {
    for turn in 0..4 * RULES.len() {
        let table = tables::broken(random, RULES[turn % RULES.len()], count, line);
        with_any_book(comparer, random, &table);
    }
}

fn with_any_book(comparer: &mut Comparer, random: &mut Random, table: &Table) {
    let table = load(comparer, table);
    let book = match random.below(4) {
        0 => broken::several(random).written(),
        1 => bytes::any_bytes(random),
        _ => books::book(random, &books::SMALL).written(),
    };
    by_table(comparer, random, &table, &book);
}

pub fn several_broken(comparer: &mut Comparer, random: &mut Random) {
    for _ in 0..8_000 {
        let table = tables::several_broken(random, &RULES);
        with_any_book(comparer, random, &table);
    }
}

/// Seventeen bands and more: right but for that, with 1,000,000 before the last line, and with another sample before or after the
/// seventeenth line.
pub fn too_many(comparer: &mut Comparer, random: &mut Random) {
    for turn in 0..1_500 {
        let count = 17 + turn % 14;
        let mut table = tables::of_bands(random, count);
        match turn % 3 {
            0 => {}
            1 => table.bands[random.below(count)].highest = 1_000_000,
            _ => table.bands[random.below(count)].sample = random.pick(&[0, 1, 100_000]),
        }
        with_any_book(comparer, random, &table);
    }
}

fn damaged(comparer: &mut Comparer, random: &mut Random, text: &[u8]) {
    let table = comparer.load(text);
    comparer.text(if random.chance(90) { OTHER_BOOK } else { b"(demand" }, |_| calls::by_damaged(random, &table));
}

pub fn edits(comparer: &mut Comparer, random: &mut Random) {
    let all: Vec<u8> = (0..=255).collect();
    for edit in bytes::edits(b"(band 1 1)\n(band 1000000 2)\n", &all) {
        damaged(comparer, random, &edit);
    }
    for edit in bytes::edits(&Table::printed().written(), b"019 ()-\nbx\xff") {
        damaged(comparer, random, &edit);
    }
    for edit in bytes::edits(b"(band 0 0)\n(band 9999999999999 9999999999999)\n", bytes::RELEVANT) {
        damaged(comparer, random, &edit);
    }
}

pub fn other_damages(comparer: &mut Comparer, random: &mut Random) {
    for _ in 0..6_000 {
        let table = tables::passing(random).written();
        for text in [bytes::edited(random, &table), tables::tokens(random), bytes::any_bytes(random)] {
            damaged(comparer, random, &text);
        }
    }
    for text in [Table::printed().written(), tables::of_bands(random, 16).written(), GOOD_BOOK.to_vec()] {
        for length in 0..=text.len() {
            damaged(comparer, random, &text[..length]);
        }
    }
}

/// Whole, with a wrong last byte, cut, with one byte replaced; and texts that are not of the shape from the first byte on.
pub fn long_texts(comparer: &mut Comparer, random: &mut Random) {
    for length in [336, 337, 4_000, 4_094, 4_095, 4_096, 4_097, 4_098, 8_192, 100_000] {
        for text in bytes::tables_of_length(length) {
            damaged(comparer, random, &text);
            damaged(comparer, random, &bytes::replaced(&text, length - 1, b' '));
            damaged(comparer, random, &text[..length - 1]);
            one_byte_replaced(comparer, random, &text);
        }
        damaged(comparer, random, &vec![b'('; length]);
        damaged(comparer, random, &vec![0; length]);
    }
}

fn one_byte_replaced(comparer: &mut Comparer, random: &mut Random, text: &[u8]) {
    for _ in 0..20 {
        let place = random.below(text.len());
        let byte = random.pick(bytes::RELEVANT);
        damaged(comparer, random, &bytes::replaced(text, place, byte));
    }
}

pub fn every_length(comparer: &mut Comparer, random: &mut Random) {
    for turn in 0..40 {
        let table = match turn % 4 {
            0 => tables::broken(random, Rule::AboveLowest, 3, 2),
            _ => tables::passing(random),
        };
        let table = load(comparer, &table);
        let book = if turn == 1 { GOOD_BOOK.to_vec() } else { books::book(random, &books::SMALL).written() };
        comparer.text(&book, |judged| calls::every_length_by(judged, &table));
    }
}

/// Each refusal of a table, and none, with each refusal of a book, and none.
pub fn order(comparer: &mut Comparer, random: &mut Random) {
    let [too_long, _] = bytes::tables_of_length(4_097);
    let tables = [too_long, b"".to_vec(), b"(band 1 1)\n(ban".to_vec(), b"(band 1 2)\n".to_vec(), b"(band 1000000 1)\n".to_vec()];
    for table in tables {
        let table = comparer.load(&table);
        for book in books_of_every_refusal() {
            by_table(comparer, random, &table, &book);
        }
    }
}

/// From 1 to 9, each, and a book that is cleared.
fn books_of_every_refusal() -> Vec<Vec<u8>> {
    let [too_long, ..] = bytes::of_length(4_097);
    let nine: String = (1..=9).map(|bidder| format!("(bid {bidder} 0 (seg 1 1 5 0))\n")).collect();
    let seven: String = (1..=7).map(|start| format!(" (seg {start} {start} 5 0)")).collect();
    let texts = [
        "",
        "(demand 9 0)\n(bid",
        "(demand 0 0)\n(bid 1 0 (seg 1 1 5 0))\n",
        "(demand 9 1000001)\n(bid 8 0 (seg 1 9 5 0))\n",
        "(demand 9 0)\n(bid 8 0 (seg 1 9 5 0))\n(bid 8 0 (seg 1 9 5 0))\n",
        "(demand 9 0)\n(bid 8 0 (seg 9 1 5 0))\n",
        "(demand 9 0)\n(bid 8 0 (seg 1 9 5 -6))\n",
        "(demand 9 0)\n(bid 8 0 (seg 1 8 5 0))\n",
        "(demand 8 0)\n(bid 8 0 (seg 1 8 5 0))\n",
    ];
    let mut all: Vec<Vec<u8>> = texts.iter().map(|text| text.as_bytes().to_vec()).collect();
    all.extend([too_long, format!("(demand 9 0)\n{nine}").into_bytes(), format!("(demand 9 0)\n(bid 1 0{seven})\n").into_bytes()]);
    all
}
