//! The groups of generated texts. Those with tables are in tablegroups.rs.

use crate::cases::CASES;
use crate::compare::Comparer;
use crate::entries::Call;
use crate::expected::Judged;
use crate::generate::books::{self, Plan, MOST};
use crate::generate::families::{self, Family};
use crate::generate::{broken, bytes, calls, limits, widest};
use crate::random::Random;
use crate::tablegroups;

pub type Group = (&'static str, fn(&mut Comparer, &mut Random));

pub const GROUPS: [Group; 48] = [
    ("the paper's book, every demand, with and without an allowance", paper_book),
    ("small books", small_books),
    ("small books with ties", tied_books),
    ("four to six segments in a bid", books_of_many_segments),
    ("books with gaps and larger numbers", usual_books),
    ("books with wide segments", wide_books),
    ("five to eight bids", many_bids),
    ("eight bids of six segments", full_books),
    ("numbers at their limits, small demands", limits_small),
    ("numbers at their limits, large demands", limits_large),
    ("numbers at their limits, not cleared", limits_not_cleared),
    ("large demands", large_books),
    ("quantities beside each line of the sampling table and each power of ten", sampled),
    ("one rule broken", one_broken),
    ("several rules broken", several_broken),
    ("every edit of one byte, all 256 values", edits_all),
    ("every edit of one byte, relevant values", edits_relevant),
    ("several edits", edits_several),
    ("every beginning of a book", beginnings),
    ("any bytes", any_bytes),
    ("words and signs in any order", tokens),
    ("texts beside 4,096 bytes", long_texts),
    ("outputs of every length", every_length),
    ("splits of every kind", splits),
    ("hard books: prices at all ends on a line", steps),
    ("hard books: one giant bidder", giant),
    ("hard books: multiples of a step and a demand that is none", parity),
    ("hard books: prices near a line", noise),
    ("books in which carriage decides the order", carried),
    ("other carriages, and bids in the old form", carriages),
    ("cases with an allowance, worked out by hand", allowance_cases),
    ("starts that pass the demand by the allowance, by one more or by one less", passed),
    ("hard books: drums", drums),
    ("other allowances, and demands in the old form", allowances),
    ("the shortest text, and the longest and every deletion of one byte of it", shortest_and_longest),
    ("the printed table", tablegroups::printed),
    ("tables that pass", tablegroups::passing),
    ("quantities beside the limits of bands", tablegroups::limits_of_bands),
    ("large numbers and the largest samples", tablegroups::large_numbers),
    ("tables with one rule broken, in each line", tablegroups::one_broken),
    ("tables with several rules broken", tablegroups::several_broken),
    ("seventeen bands and more", tablegroups::too_many),
    ("every edit of one byte of a table", tablegroups::edits),
    ("several edits, beginnings, words and bytes for a table", tablegroups::other_damages),
    ("tables beside 4,096 bytes", tablegroups::long_texts),
    ("outputs of every length by a table", tablegroups::every_length),
    ("a refused table with a refused book", tablegroups::order),
    ("the widest sheets, by several tables", tablegroups::widest_sheets),
];

/// Books of eight bids of six segments for each family.
const FULL_OF_A_FAMILY: usize = 25;

const PAPER: &str = "(bid 3 0 (seg 1 60 400 0) (seg 61 100 350 -500))
(bid 8 0 (seg 20 80 380 1000))
(bid 12 0 (seg 120 120 370 0))
";

fn paper_text(demand: u64, allowance: u64) -> Vec<u8> {
    format!("(demand {demand} {allowance})\n{PAPER}").into_bytes()
}

fn usual(comparer: &mut Comparer, random: &mut Random, text: &[u8]) {
    comparer.text(text, |judged| calls::usual(random, judged));
}

fn paper_book(comparer: &mut Comparer, random: &mut Random) {
    for demand in 0..=330 {
        for allowance in [0, 1, 10, 59, 60, 1_000_000] {
            usual(comparer, random, &paper_text(demand, allowance));
        }
    }
}

fn planned(comparer: &mut Comparer, random: &mut Random, plan: &Plan, count: usize) {
    for _ in 0..count {
        let text = books::book(random, plan).written();
        usual(comparer, random, &text);
    }
}

fn planned_tied(comparer: &mut Comparer, random: &mut Random, plan: &Plan, count: usize) {
    for _ in 0..count {
        let text = books::tied(random, plan).written();
        usual(comparer, random, &text);
    }
}

fn small_books(comparer: &mut Comparer, random: &mut Random) {
    planned(comparer, random, &books::SMALL, 60_000);
}

fn tied_books(comparer: &mut Comparer, random: &mut Random) {
    planned_tied(comparer, random, &books::SMALL, 40_000);
}

fn books_of_many_segments(comparer: &mut Comparer, random: &mut Random) {
    planned(comparer, random, &books::MANY_SEGMENTS, 5_000);
    planned_tied(comparer, random, &books::MANY_SEGMENTS, 2_000);
}

fn usual_books(comparer: &mut Comparer, random: &mut Random) {
    planned(comparer, random, &books::USUAL, 20_000);
}

fn wide_books(comparer: &mut Comparer, random: &mut Random) {
    planned(comparer, random, &books::WIDE, 4_000);
}

fn many_bids(comparer: &mut Comparer, random: &mut Random) {
    planned(comparer, random, &books::MANY_BIDS, 1_500);
    planned_tied(comparer, random, &books::MANY_BIDS, 1_500);
}

fn full_books(comparer: &mut Comparer, random: &mut Random) {
    for turn in 0..8 {
        let book = match turn {
            0..=3 => books::book(random, &books::FULL),
            4..=5 => books::tied(random, &books::FULL),
            _ => books::book(random, &books::FULL_LARGE),
        };
        comparer.text(&book.written(), |judged| calls::once(random, judged));
    }
}

fn limits_small(comparer: &mut Comparer, random: &mut Random) {
    for _ in 0..8_000 {
        let text = limits::book(random, 4, &[1, 2, 3, 4, 7], &[0, 0, 1, 2, 5, MOST + 1]).written();
        usual(comparer, random, &text);
    }
}

fn limits_large(comparer: &mut Comparer, random: &mut Random) {
    let demands = [999_998, 999_999, MOST, MOST, 500_000, 500_001, MOST + 1, 1, 2];
    let allowances = [0, 0, 0, 0, 1, 2, 500_000, MOST - 2, MOST - 1, MOST, MOST + 1];
    for _ in 0..500 {
        let text = limits::book(random, 3, &demands, &allowances).written();
        usual(comparer, random, &text);
    }
    large_numbers(comparer, random);
}

fn large_numbers(comparer: &mut Comparer, random: &mut Random) {
    for spare in [-1, 0, 1, 20_000] {
        usual(comparer, random, &limits::large_numbers(spare).written());
    }
    for allowance in [0, 1, 999_997, 999_998, 999_999, MOST, MOST + 1] {
        usual(comparer, random, &limits::most_bought(allowance).written());
    }
}

fn limits_not_cleared(comparer: &mut Comparer, random: &mut Random) {
    for _ in 0..8_000 {
        let allowances = [0, 1, 500_000, MOST - 1, MOST, MOST, MOST + 1];
        let text = limits::book(random, 8, &[1, 500_000, MOST, MOST + 1, 0], &allowances).written();
        not_cleared(comparer, random, &text);
    }
}

fn not_cleared(comparer: &mut Comparer, random: &mut Random, text: &[u8]) {
    comparer.text(text, |judged| calls::without_clearing(random, judged));
}

fn large_books(comparer: &mut Comparer, random: &mut Random) {
    planned(comparer, random, &books::LARGE, 300);
}

/// A quantity bought whole from one bidder.
fn sampled(comparer: &mut Comparer, random: &mut Random) {
    let highest = [1, 8, 15, 25, 50, 90, 150, 280, 500, 1_200, 3_200, 10_000, 35_000, 150_000, 500_000, 1_000_000];
    let powers = [10, 100, 1_000, 10_000, 100_000, 1_000_000];
    for quantity in highest.into_iter().chain(powers).flat_map(limits::beside) {
        usual(comparer, random, &limits::bought(quantity, 0).written());
    }
    priced(comparer, random);
}

/// Its price, a number of as many digits as `fixed`, beside that of another bidder.
fn priced(comparer: &mut Comparer, random: &mut Random) {
    for fixed in (0..=12).flat_map(|digits| limits::beside(10i64.pow(digits))) {
        usual(comparer, random, &limits::bought(9, fixed).written());
        usual(comparer, random, &limits::bought(9, -fixed).written());
    }
}

fn one_broken(comparer: &mut Comparer, random: &mut Random) {
    for turn in 0..24_000 {
        let text = broken::one(random, 3 + turn % 6).written();
        usual(comparer, random, &text);
    }
}

fn several_broken(comparer: &mut Comparer, random: &mut Random) {
    for _ in 0..20_000 {
        let text = broken::several(random).written();
        usual(comparer, random, &text);
    }
}

fn edits_of(comparer: &mut Comparer, random: &mut Random, text: &[u8], values: &[u8]) {
    for edit in bytes::edits(text, values) {
        usual(comparer, random, &edit);
    }
}

fn edits_all(comparer: &mut Comparer, random: &mut Random) {
    let all: Vec<u8> = (0..=255).collect();
    edits_of(comparer, random, b"(demand 7 2)\n(bid 4 0 (seg 2 9 3 -5))\n", &all);
}

fn edits_relevant(comparer: &mut Comparer, random: &mut Random) {
    let texts: [&[u8]; 5] = [
        b"(demand 0 0)\n(bid 0 0 (seg 0 0 0 0))\n",
        b"(demand 9999999999999 9999999999999)\n(bid 1 0 (seg 1 1000000 1000000 -1000000000000))\n",
        b"(demand 10 0)\n(bid 1 0 (seg 1 10 5 0))\n(bid 2 0 (seg 1 10 5 0) (seg 12 20 4 -48))\n",
        b"(demand 10 2)\n(bid 1 0 (seg 1 10 5 0))\n(bid 2 0 (seg 1 10 5 0) (seg 12 20 4 -48))\n",
        b"(demand 10 1)\n(bid 1 10000 (seg 1 10 5 0))\n(bid 2 250 (seg 1 10 9755 -9755))\n",
    ];
    for text in texts {
        edits_of(comparer, random, text, bytes::RELEVANT);
    }
    edits_of(comparer, random, &paper_text(120, 0), b"09 ()-\nes\xff");
}

fn edits_several(comparer: &mut Comparer, random: &mut Random) {
    for _ in 0..25_000 {
        let book = books::book(random, &books::SMALL).written();
        let text = bytes::edited(random, &book);
        usual(comparer, random, &text);
    }
}

fn beginnings(comparer: &mut Comparer, random: &mut Random) {
    for plan in [books::SMALL, books::USUAL, books::WIDE, books::MANY_BIDS, books::FULL] {
        let text = books::book(random, &plan).written();
        beginnings_of(comparer, random, &text);
    }
    beginnings_of(comparer, random, &paper_text(120, 0));
    usual(comparer, random, &paper_text(120, 0));
}

/// Without the whole text.
fn beginnings_of(comparer: &mut Comparer, random: &mut Random, text: &[u8]) {
    for length in 0..text.len() {
        usual(comparer, random, &text[..length]);
    }
}

fn any_bytes(comparer: &mut Comparer, random: &mut Random) {
    for _ in 0..10_000 {
        let text = bytes::any_bytes(random);
        usual(comparer, random, &text);
    }
}

fn tokens(comparer: &mut Comparer, random: &mut Random) {
    for _ in 0..25_000 {
        let text = bytes::tokens(random);
        usual(comparer, random, &text);
    }
}

fn long_texts(comparer: &mut Comparer, random: &mut Random) {
    for length in [4_000, 4_094, 4_095, 4_096, 4_097, 4_098, 5_000, 8_192, 100_000] {
        texts_of_length(comparer, random, length);
    }
}

/// Whole, with a wrong last byte, cut, with one byte replaced; and two that are not of the shape from an early byte on.
fn texts_of_length(comparer: &mut Comparer, random: &mut Random, length: usize) {
    for text in bytes::of_length(length) {
        usual(comparer, random, &text);
        usual(comparer, random, &bytes::replaced(&text, length - 1, b' '));
        usual(comparer, random, &text[..length - 1]);
        one_byte_replaced(comparer, random, &text);
    }
    usual(comparer, random, &vec![b'7'; length]);
    usual(comparer, random, &[b"(demand 5 0)\n".as_slice(), &vec![0; length - 13]].concat());
}

fn one_byte_replaced(comparer: &mut Comparer, random: &mut Random, text: &[u8]) {
    for _ in 0..40 {
        let place = random.below(text.len());
        let byte = random.pick(bytes::RELEVANT);
        usual(comparer, random, &bytes::replaced(text, place, byte));
    }
}

fn lengths_of(comparer: &mut Comparer, text: &[u8]) {
    comparer.text(text, calls::every_length);
}

fn every_length(comparer: &mut Comparer, random: &mut Random) {
    for demand in [19, 60, 61, 120, 181, 300, 301, 0] {
        lengths_of(comparer, &paper_text(demand, 0));
    }
    lengths_of(comparer, &paper_text(60, 1));
    lengths_of_books(comparer, random);
    lengths_at_limits(comparer, random);
}

fn lengths_of_books(comparer: &mut Comparer, random: &mut Random) {
    for _ in 0..150 {
        lengths_of(comparer, &books::book(random, &books::SMALL).written());
        lengths_of(comparer, &books::book(random, &books::USUAL).written());
    }
}

fn lengths_at_limits(comparer: &mut Comparer, random: &mut Random) {
    for _ in 0..20 {
        let book = limits::book(random, 4, &[1, 2], &[0, 1]);
        lengths_of(comparer, &book.written());
    }
}

fn splits(comparer: &mut Comparer, random: &mut Random) {
    for plan in [books::SMALL, books::USUAL, books::MANY_BIDS] {
        splits_of(comparer, random, &plan);
    }
    comparer.text(&paper_text(120, 0), paper_splits);
    comparer.text(&paper_text(120, 10), paper_splits);
}

fn splits_of(comparer: &mut Comparer, random: &mut Random, plan: &Plan) {
    for _ in 0..2_500 {
        let text = books::book(random, plan).written();
        comparer.text(&text, |judged| calls::many_splits(random, judged));
    }
}

fn paper_splits(_: &Judged) -> Vec<Call> {
    let met = [vec![60, 60, 0], vec![100, 20, 0], vec![60, 59, 0], vec![60, 61, 0], vec![60, 70, 0], vec![60, 71, 0]];
    let lists = met.into_iter().chain([vec![60, 10, 0], vec![60, 60], vec![60, 60, 0, 0]]);
    lists.map(Call::Split).collect()
}

fn steps(comparer: &mut Comparer, random: &mut Random) {
    family(comparer, random, families::steps);
}

fn giant(comparer: &mut Comparer, random: &mut Random) {
    family(comparer, random, families::giant);
}

fn parity(comparer: &mut Comparer, random: &mut Random) {
    family(comparer, random, families::parity);
}

fn noise(comparer: &mut Comparer, random: &mut Random) {
    family(comparer, random, families::noise);
}

fn family(comparer: &mut Comparer, random: &mut Random, make: Family) {
    for (size, count) in [(families::SMALL, 2_000), (families::FEW, 500), (families::MANY, 50)] {
        family_of_size(comparer, random, make, &size, count);
    }
    for _ in 0..FULL_OF_A_FAMILY {
        let text = make(random, &families::FULL).written();
        comparer.text(&text, |judged| calls::once(random, judged));
    }
}

fn family_of_size(comparer: &mut Comparer, random: &mut Random, make: Family, size: &families::Size, count: usize) {
    for _ in 0..count {
        let text = make(random, size).written();
        usual(comparer, random, &text);
    }
}

fn carried(comparer: &mut Comparer, random: &mut Random) {
    family(comparer, random, families::carriage);
}

fn carriages(comparer: &mut Comparer, random: &mut Random) {
    for _ in 0..15_000 {
        let book = books::book(random, &books::SMALL).written();
        let text = bytes::carriage_replaced(random, &book);
        usual(comparer, random, &text);
    }
}

fn allowance_cases(comparer: &mut Comparer, random: &mut Random) {
    for case in CASES {
        usual(comparer, random, case.text.as_bytes());
        lengths_of(comparer, case.text.as_bytes());
        comparer.text(case.text.as_bytes(), |judged| calls::many_splits(random, judged));
    }
}

fn passed(comparer: &mut Comparer, random: &mut Random) {
    let plans = [(books::SMALL, 15_000), (books::USUAL, 4_000), (books::MANY_BIDS, 1_000), (books::WIDE, 400), (books::LARGE, 30)];
    for (plan, count) in plans {
        for _ in 0..count {
            let text = books::passed(random, &plan).written();
            usual(comparer, random, &text);
        }
    }
}

fn drums(comparer: &mut Comparer, random: &mut Random) {
    family(comparer, random, families::drums);
}

fn allowances(comparer: &mut Comparer, random: &mut Random) {
    for _ in 0..12_000 {
        let book = books::book(random, &books::SMALL).written();
        let text = bytes::allowance_replaced(random, &book);
        usual(comparer, random, &text);
    }
}

/// The longest is not cleared: the reference would go through all its quantities, 2,000,000, for each of its 48 segments again and again.
fn shortest_and_longest(comparer: &mut Comparer, random: &mut Random) {
    usual(comparer, random, b"(demand 1 0)\n(bid 1 0 (seg 1 1 0 0))\n");
    let longest = widest::longest_text().written();
    not_cleared(comparer, random, &longest);
    for place in 0..longest.len() {
        not_cleared(comparer, random, &bytes::deleted(&longest, place));
    }
}
