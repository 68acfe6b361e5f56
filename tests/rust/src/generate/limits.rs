//! Books with every number at or beside the limit of its range.

use super::books::{MOST, MOST_CARRIAGE, MOST_FIXED};
use crate::book::{Bid, Book, Segment};
use crate::random::Random;

fn fixed(random: &mut Random, unit: i64, start: i64) -> i64 {
    let at_start = unit.saturating_mul(start);
    let near = at_start.clamp(-MOST_FIXED - 1, MOST_FIXED + 1);
    let any = [MOST_FIXED, -MOST_FIXED, 0, 1, MOST_FIXED + 1, -MOST_FIXED - 1];
    match random.below(8) {
        0 => random.pick(&any),
        1 => random.pick(&any[..4]),
        2..=4 => -near,
        5 => -near - random.pick(&[0, 0, 1]),
        _ => MOST_FIXED - near,
    }
}

fn segments(random: &mut Random) -> Vec<Segment> {
    let shapes: [&[(i64, i64)]; 8] = [
        &[(1, 1)],
        &[(MOST, MOST)],
        &[(1, MOST)],
        &[(1, 1), (2, 2), (3, 3), (MOST - 2, MOST - 2), (MOST - 1, MOST - 1), (MOST, MOST)],
        &[(1, MOST - 1), (MOST, MOST)],
        &[(1, 1), (3, 3), (MOST - 1, MOST)],
        &[(499_999, 500_001)],
        &[(1, 124_999), (125_000, 125_000), (125_001, 125_002)],
    ];
    let shape = shapes[random.below(shapes.len())];
    let unit = |random: &mut Random| random.pick(&[0, 1, MOST - 1, MOST, MOST]);
    let priced = |&(start, end): &(i64, i64)| {
        let unit = unit(random);
        Segment { start, end, unit, fixed: fixed(random, unit, start) }
    };
    shape.iter().map(priced).collect()
}

/// Now and then past its limit.
fn carriage(random: &mut Random) -> i64 {
    match random.chance(3) {
        true => MOST_CARRIAGE + 1,
        false => random.pick(&[0, 1, MOST_CARRIAGE - 1, MOST_CARRIAGE, MOST_CARRIAGE]),
    }
}

pub fn book(random: &mut Random, most_bids: i64, demands: &[i64], allowances: &[i64]) -> Book {
    let count = random.between(1, most_bids);
    let first = random.pick(&[1, 2, 9_999 - count, 10_000 - count, 10_000 - count]);
    let bid = |index: i64| Bid { bidder: first + index, carriage: carriage(random), segments: segments(random) };
    let bids = (0..count).map(bid).collect();
    Book { demand: random.pick(demands), allowance: random.pick(allowances), bids }
}

/// A number and those beside it.
pub fn beside(middle: i64) -> [i64; 3] {
    [middle - 1, middle, middle + 1]
}

/// Two bidders who both offer the quantity without carriage, the first at this fixed price, and at the highest unit price where that is
/// negative.
pub fn bought(quantity: i64, fixed: i64) -> Book {
    let unit = if fixed < 0 { MOST } else { 1 };
    let first = Segment { start: 1, end: MOST, unit, fixed };
    let second = Segment { start: quantity.max(1), end: quantity.max(1), unit: 1, fixed: fixed.max(0) };
    let bid = |bidder, segment| Bid { bidder, carriage: 0, segments: vec![segment] };
    Book { demand: quantity, allowance: 0, bids: vec![bid(10, first), bid(100, second)] }
}

/// Eight bids with large quantities, prices and totals, which offer eight times the spare blanks more than the demand.
pub fn large_numbers(spare: i64) -> Book {
    let dear = |start, end| Segment { start, end, unit: MOST, fixed: MOST_FIXED };
    let bid = |index: i64| Bid { bidder: 9_992 + index, carriage: MOST_CARRIAGE, segments: vec![dear(100_000, 125_000 + spare)] };
    Book { demand: MOST, allowance: 0, bids: (0..8).map(bid).collect() }
}

/// Two bidders who sell 999,999 blanks each, and a demand of 1,000,000: both sell where the allowance is 999,998 or more, which is the most
/// that can be bought; one blank more from each, and one of them would do.
pub fn most_bought(allowance: i64) -> Book {
    let segment = |unit| Segment { start: MOST - 1, end: MOST - 1, unit, fixed: MOST_FIXED };
    let bid = |index: i64| Bid { bidder: 9_998 + index, carriage: MOST_CARRIAGE, segments: vec![segment(MOST - index)] };
    Book { demand: MOST, allowance, bids: (0..2).map(bid).collect() }
}
