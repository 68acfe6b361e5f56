//! The groups of pairs: each change, made to books of each sort; a discount on one segment; and the cases worked out by hand.

use crate::book::Book;
use crate::generate::books::{self, MOST};
use crate::generate::changes::{self, Changer, Pair};
use crate::generate::{families, limits};
use crate::lawcases::{CASES, CHANGES};
use crate::pairs::Pairs;
use crate::random::Random;

/// Makes a change to books of one sort.
type Sort = fn(&mut Pairs, &mut Random, Changer);

pub const CHANGERS: [(&str, Changer); 3] =
    [("discounts", changes::discount), ("raised prices", changes::raised), ("struck bidders", changes::struck)];

pub const SORTS: [(&str, Sort); 6] = [
    ("small books", small),
    ("books with ties", tied),
    ("books with starts about the demand", passed),
    ("larger books and numbers at their limits", larger),
    ("hard books", hard),
    ("eight bids of six segments", full),
];

/// Each case, and then each change from one case to another.
pub fn cases(pairs: &mut Pairs, random: &mut Random) {
    for case in &CASES {
        pairs.case(random, case);
    }
    for changed in &CHANGES {
        let (before, after) = (pairs.book(changed.before.text), pairs.book(changed.after.text));
        pairs.pair(random, &Pair { change: changed.change, before, after });
    }
}

/// These promise the bidder nothing; only the law of each award is tried.
pub fn one_segment(pairs: &mut Pairs, random: &mut Random) {
    hard(pairs, random, changes::one_segment);
}

/// So many pairs; a book that cannot be changed so is passed over.
fn make(pairs: &mut Pairs, random: &mut Random, change: Changer, count: usize, book: impl Fn(&mut Random) -> Book) {
    let mut made = 0;
    while made < count {
        let book = book(random);
        if let Some(pair) = change(random, book) {
            pairs.pair(random, &pair);
            made += 1;
        }
    }
}

fn small(pairs: &mut Pairs, random: &mut Random, change: Changer) {
    for (plan, count) in [(books::SMALL, 12_000), (books::MANY_SEGMENTS, 2_000), (books::MANY_BIDS, 1_000)] {
        make(pairs, random, change, count, |random| books::book(random, &plan));
    }
}

fn tied(pairs: &mut Pairs, random: &mut Random, change: Changer) {
    for (plan, count) in [(books::SMALL, 12_000), (books::MANY_SEGMENTS, 2_000), (books::MANY_BIDS, 1_000)] {
        make(pairs, random, change, count, |random| books::tied(random, &plan));
    }
}

fn passed(pairs: &mut Pairs, random: &mut Random, change: Changer) {
    for (plan, count) in [(books::SMALL, 8_000), (books::USUAL, 2_000), (books::MANY_BIDS, 1_000), (books::LARGE, 200)] {
        make(pairs, random, change, count, |random| books::passed(random, &plan));
    }
}

fn larger(pairs: &mut Pairs, random: &mut Random, change: Changer) {
    for (plan, count) in [(books::USUAL, 4_000), (books::WIDE, 1_000), (books::LARGE, 300)] {
        make(pairs, random, change, count, |random| books::book(random, &plan));
    }
    make(pairs, random, change, 3_000, at_limits);
}

/// Of those with numbers at their limits the accepted ones, with small demands and with large ones.
pub fn at_limits(random: &mut Random) -> Book {
    loop {
        let demands = [1, 2, 3, 4, 7, 500_000, 500_001, MOST - 1, MOST];
        let book = limits::book(random, 4, &demands, &[0, 0, 1, 2, 500_000, MOST - 1, MOST]);
        if book.line_refusal().is_none() {
            return book;
        }
    }
}

fn hard(pairs: &mut Pairs, random: &mut Random, change: Changer) {
    for family in families::ALL {
        for (size, count) in [(families::SMALL, 1_500), (families::FEW, 300), (families::MANY, 30)] {
            make(pairs, random, change, count, |random| family(random, &size));
        }
    }
}

fn full(pairs: &mut Pairs, random: &mut Random, change: Changer) {
    for family in families::ALL {
        make(pairs, random, change, 10, |random| family(random, &families::FULL));
    }
    make(pairs, random, change, 10, |random| books::book(random, &books::FULL));
    make(pairs, random, change, 10, |random| books::tied(random, &books::FULL));
    make(pairs, random, change, 10, |random| books::book(random, &books::FULL_LARGE));
}
