//! Books that break one rule of 3 to 8, or several.

use super::books::{self, Plan};
use crate::book::{Book, Segment};
use crate::random::Random;

const PLAN: Plan = Plan { bids: (1, 4), segments: (1, 4), ..books::SMALL };
const THIRTEEN_DIGITS: i64 = 9_999_999_999_999;
/// A number that would be in its range if only its low 32 bits were kept.
const ABOVE_32_BITS: i64 = 4_294_967_296;

fn too_many_bids(random: &mut Random, book: &mut Book) {
    let count = random.pick(&[9, 9, 9, 10, 12, 20]);
    while book.bids.len() < count {
        let mut bid = book.bids[random.below(book.bids.len())].clone();
        bid.bidder = book.bids[book.bids.len() - 1].bidder + 1;
        book.bids.push(bid);
    }
}

fn too_many_segments(random: &mut Random, book: &mut Book) {
    let index = random.below(book.bids.len());
    let segments = &mut book.bids[index].segments;
    let count = random.pick(&[7, 7, 7, 8, 12]);
    while segments.len() < count {
        let start = segments[segments.len() - 1].end + 1;
        segments.push(Segment { start, end: start, unit: 1, fixed: 0 });
    }
}

fn past(random: &mut Random, most: i64) -> i64 {
    random.pick(&[most + 1, most + 1, THIRTEEN_DIGITS, ABOVE_32_BITS + 1, most * 10])
}

fn out_of_range(random: &mut Random, book: &mut Book) {
    let index = random.below(book.bids.len());
    let number = random.below(book.bids[index].segments.len());
    let segment = &mut book.bids[index].segments[number];
    let zero = random.chance(35);
    let quantity = if zero { 0 } else { past(random, books::MOST) };
    match random.below(8) {
        0 => book.demand = quantity,
        7 => book.allowance = past(random, books::MOST),
        1 => book.bids[index].bidder = if zero { 0 } else { past(random, 9_999) },
        2 => book.bids[index].carriage = past(random, books::MOST_CARRIAGE),
        3 => segment.start = quantity,
        4 => segment.end = quantity,
        5 => segment.unit = past(random, books::MOST),
        _ => {
            let fixed = random.pick(&[books::MOST_FIXED + 1, THIRTEEN_DIGITS]);
            segment.fixed = if zero { fixed } else { -fixed };
        }
    }
}

fn bidders_not_rising(random: &mut Random, book: &mut Book) {
    if book.bids.len() == 1 {
        book.bids.push(book.bids[0].clone());
    }
    let index = random.below(book.bids.len() - 1);
    let before = book.bids[index].bidder;
    book.bids[index + 1].bidder = if random.chance(50) { before } else { random.between(1.min(before), before) };
}

fn segments_not_rising(random: &mut Random, book: &mut Book) {
    let index = random.below(book.bids.len());
    let segments = &mut book.bids[index].segments;
    let number = random.below(segments.len());
    if number > 0 && random.chance(60) {
        let before = segments[number - 1].clone();
        segments[number].start = random.between(before.start.min(before.end), before.end);
    } else {
        let segment = &mut segments[number];
        segment.start = segment.end + random.between(1, 3);
    }
}

/// In half of the books the carriage is so high that with it the price would not be negative.
fn negative_at_start(random: &mut Random, book: &mut Book) {
    let index = random.below(book.bids.len());
    let number = random.below(book.bids[index].segments.len());
    if random.chance(50) {
        book.bids[index].carriage = books::MOST_CARRIAGE;
    }
    let segment = &mut book.bids[index].segments[number];
    let least = segment.unit.saturating_mul(segment.start).min(books::MOST_FIXED - 100);
    segment.fixed = -least - random.pick(&[1, 1, 1, 2, 50]);
}

fn break_rule(random: &mut Random, book: &mut Book, rule: usize) {
    match rule {
        3 => too_many_bids(random, book),
        4 => too_many_segments(random, book),
        5 => out_of_range(random, book),
        6 => bidders_not_rising(random, book),
        7 => segments_not_rising(random, book),
        _ => negative_at_start(random, book),
    }
}

pub fn one(random: &mut Random, rule: usize) -> Book {
    let mut book = books::book(random, &PLAN);
    break_rule(random, &mut book, rule);
    book
}

/// Two to five breaks, of rules drawn anew each time, in lines drawn anew each time.
pub fn several(random: &mut Random) -> Book {
    let mut book = books::book(random, &PLAN);
    for _ in 0..random.between(2, 5) {
        let rule = random.pick(&[3, 4, 5, 5, 6, 6, 7, 7, 8, 8]);
        break_rule(random, &mut book, rule);
    }
    book
}
