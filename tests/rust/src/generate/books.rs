//! Books that keep every rule.

use crate::book::{Bid, Book, Segment};
use crate::random::Random;

pub const MOST: i64 = 1_000_000;
pub const MOST_FIXED: i64 = 1_000_000_000_000;
pub const MOST_CARRIAGE: i64 = 10_000;

/// How large a book is: bids and segments from and to, and the most of each other number.
#[derive(Clone, Copy)]
pub struct Plan {
    pub bids: (i64, i64),
    pub segments: (i64, i64),
    pub gap: i64,
    pub width: i64,
    pub unit: i64,
    pub fixed: i64,
    pub carriage: i64,
}

pub const SMALL: Plan = Plan { bids: (1, 4), segments: (1, 3), gap: 3, width: 6, unit: 4, fixed: 12, carriage: 3 };
pub const USUAL: Plan = Plan { bids: (1, 4), segments: (1, 4), gap: 40, width: 120, unit: 900, fixed: 40_000, carriage: 300 };
pub const WIDE: Plan =
    Plan { bids: (1, 4), segments: (1, 3), gap: 900, width: 3_000, unit: MOST, fixed: 1_000_000_000, carriage: MOST_CARRIAGE };
pub const MANY_BIDS: Plan = Plan { bids: (5, 8), segments: (1, 2), gap: 4, width: 9, unit: 7, fixed: 30, carriage: 5 };
pub const MANY_SEGMENTS: Plan = Plan { bids: (1, 3), segments: (4, 6), gap: 3, width: 8, unit: 9, fixed: 40, carriage: 6 };
pub const FULL: Plan = Plan { bids: (8, 8), segments: (6, 6), gap: 20, width: 60, unit: 900, fixed: 40_000, carriage: 300 };
pub const FULL_LARGE: Plan = Plan { gap: 9_000, width: 90_000, unit: MOST, fixed: MOST_FIXED, carriage: MOST_CARRIAGE, ..FULL };
pub const LARGE: Plan =
    Plan { bids: (1, 4), segments: (1, 3), gap: 90_000, width: 300_000, unit: MOST, fixed: MOST_FIXED, carriage: MOST_CARRIAGE };

fn fixed(random: &mut Random, plan: &Plan, unit: i64, start: i64) -> i64 {
    let lowest = -(unit * start);
    match random.below(5) {
        0 => 0,
        1 => lowest,
        2 => (lowest + random.between(0, 3)).min(plan.fixed),
        3 => random.between(0, plan.fixed),
        _ => random.between(lowest.max(-plan.fixed), plan.fixed),
    }
}

fn segment(random: &mut Random, plan: &Plan, after: i64) -> Segment {
    let gap = if random.chance(50) { 0 } else { random.between(0, plan.gap) };
    let width = if random.chance(20) { 0 } else { random.between(0, plan.width) };
    let start = (after + 1 + gap).min(MOST);
    let unit = random.between(0, plan.unit);
    Segment { start, end: (start + width).min(MOST), unit, fixed: fixed(random, plan, unit, start) }
}

fn segments(random: &mut Random, plan: &Plan) -> Vec<Segment> {
    let mut list: Vec<Segment> = Vec::new();
    for _ in 0..random.between(plan.segments.0, plan.segments.1) {
        let after = list.last().map_or(0, |last| last.end);
        if after < MOST {
            list.push(segment(random, plan, after));
        }
    }
    list
}

/// The most that can be taken off a unit price: neither that nor the price at the start may fall below 0.
pub fn most_off(segment: &Segment) -> i64 {
    segment.unit.min((segment.unit * segment.start + segment.fixed) / segment.start)
}

fn carriage(random: &mut Random, plan: &Plan) -> i64 {
    match random.below(5) {
        0 => 0,
        1 => plan.carriage,
        _ => random.between(0, plan.carriage),
    }
}

/// A book of the plan with the demand 1 and no allowance.
fn bids(random: &mut Random, plan: &Plan) -> Book {
    let count = random.between(plan.bids.0, plan.bids.1);
    let mut bidder = if random.chance(10) { 9_999 - 40 } else { 0 };
    let mut list = Vec::new();
    for _ in 0..count {
        bidder += random.between(1, 5);
        list.push(Bid { bidder, carriage: carriage(random, plan), segments: segments(random, plan) });
    }
    Book { demand: 1, allowance: 0, bids: list }
}

fn sum(book: &Book, of: impl Fn(&Bid) -> i64) -> i64 {
    book.bids.iter().map(of).sum()
}

/// A quantity that the bid can sell, 0 among them.
pub fn sold(random: &mut Random, bid: &Bid) -> i64 {
    if random.chance(25) {
        return 0;
    }
    let segment = &bid.segments[random.below(bid.segments.len())];
    match random.below(4) {
        0 => segment.start,
        1 => segment.end,
        _ => random.between(segment.start, segment.end),
    }
}

/// All last ends.
pub fn all_ends(book: &Book) -> i64 {
    sum(book, |bid| bid.segments[bid.segments.len() - 1].end)
}

/// Sums that a division can or just cannot reach, all first starts, all last ends, or any demand up to a little above these.
pub fn demand(random: &mut Random, book: &Book) -> i64 {
    let ends = all_ends(book);
    let wanted = match random.below(10) {
        0 => ends,
        1 => ends + random.between(-1, 1),
        2 => sum(book, |bid| bid.segments[0].start) + random.between(-1, 1),
        3..=6 => {
            let quantities: Vec<i64> = book.bids.iter().map(|bid| sold(random, bid)).collect();
            quantities.iter().sum::<i64>() + random.pick(&[0, 0, 0, 1, -1])
        }
        _ => random.between(1, ends + 2),
    };
    wanted.clamp(1, MOST)
}

/// Often 0; else a few blanks, a part of the demand, so many that all that is offered is just taken or just not, any up to that, or more
/// than can be sold.
pub fn allowance(random: &mut Random, book: &Book) -> i64 {
    let ends = all_ends(book);
    let wanted = match random.below(12) {
        0..=4 => 0,
        5..=7 => random.between(1, 4),
        8 => random.between(0, book.demand / 10 + 1),
        9 => ends - book.demand + random.between(-1, 1),
        10 => random.between(0, ends),
        _ => random.pick(&[ends, ends + 1, MOST - 1, MOST]),
    };
    wanted.clamp(0, MOST)
}

/// The book with a demand and an allowance.
fn ordered(random: &mut Random, mut book: Book) -> Book {
    book.demand = demand(random, &book);
    book.allowance = allowance(random, &book);
    book
}

pub fn book(random: &mut Random, plan: &Plan) -> Book {
    let book = bids(random, plan);
    ordered(random, book)
}

/// A book in which the starts of some choice of segments pass the demand by just the allowance, or by one more or one less.
pub fn passed(random: &mut Random, plan: &Plan) -> Book {
    let mut book = bids(random, plan);
    let start = |bid: &Bid| if random.chance(30) { 0 } else { bid.segments[random.below(bid.segments.len())].start };
    let starts: i64 = book.bids.iter().map(start).sum();
    let over = random.pick(&[1, 1, 2, 3, starts / 20 + 1, starts / 2]).clamp(0, MOST);
    book.demand = (starts - over).clamp(1, MOST);
    book.allowance = (over + random.pick(&[0, 0, -1, -1, 1])).clamp(0, MOST);
    book
}

/// Bidders with the segments and carriage or the prices of others, and prices of 0, so that many divisions cost the same.
pub fn tied(random: &mut Random, plan: &Plan) -> Book {
    let mut book = bids(random, plan);
    let blank = random.between(0, 2);
    for index in 0..book.bids.len() {
        match random.below(4) {
            0 => book.bids[index] = Bid { bidder: book.bids[index].bidder, ..book.bids[0].clone() },
            1 => flatten(random, &mut book.bids[index], blank, 0),
            2 => {
                let fixed = random.pick(&[0, 0, 5]);
                flatten(random, &mut book.bids[index], 0, fixed);
            }
            _ => {
                let fixed = random.between(0, 2);
                flatten(random, &mut book.bids[index], blank, fixed);
            }
        }
    }
    ordered(random, book)
}

/// All segments at one price of a blank, which is shared out between unit price and carriage.
fn flatten(random: &mut Random, bid: &mut Bid, blank: i64, fixed: i64) {
    bid.carriage = random.between(0, blank);
    for segment in &mut bid.segments {
        segment.unit = blank - bid.carriage;
        segment.fixed = fixed;
    }
}
