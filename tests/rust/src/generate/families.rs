//! Books of families that are hard for a search with bounds: many choices cost nearly the same, or few meet the demand. In one carriage
//! decides the order, and in the last one blanks come in drums.

use super::books::{self, MOST, MOST_CARRIAGE};
use crate::book::{Bid, Book, Segment};
use crate::random::Random;
use std::collections::BTreeSet;

/// How large a book is: bids from and to, segments of a bid at most, and the highest end but for a giant's.
#[derive(Clone, Copy)]
pub struct Size {
    pub bids: (i64, i64),
    pub segments: usize,
    pub top: i64,
}

pub const SMALL: Size = Size { bids: (1, 4), segments: 3, top: 12 };
pub const FEW: Size = Size { bids: (2, 4), segments: 6, top: 200 };
pub const MANY: Size = Size { bids: (5, 6), segments: 4, top: 600 };
pub const FULL: Size = Size { bids: (8, 8), segments: 6, top: 4_000 };

pub type Family = fn(&mut Random, &Size) -> Book;

pub const ALL: [Family; 6] = [steps, giant, parity, noise, carriage, drums];

/// Different numbers from 1 to `top`, rising: so many, or all where there are not so many.
pub fn rising(random: &mut Random, count: usize, top: i64) -> Vec<i64> {
    let mut numbers = BTreeSet::new();
    while numbers.len() < count.min(top as usize) {
        numbers.insert(random.between(1, top));
    }
    numbers.into_iter().collect()
}

/// A book with the demand 1 and no allowance whose bids have these segments and no carriage.
fn bids(random: &mut Random, size: &Size, mut segments: impl FnMut(&mut Random) -> Vec<Segment>) -> Book {
    let count = random.between(size.bids.0, size.bids.1);
    let bid = |index: i64| Bid { bidder: index + 1, carriage: 0, segments: segments(random) };
    Book { demand: 1, allowance: 0, bids: (0..count).map(bid).collect() }
}

/// From three to seven tenths of all that is offered, or as for other books.
fn with_demand(random: &mut Random, mut book: Book) -> Book {
    let all = books::all_ends(&book);
    book.demand = match random.chance(70) {
        true => random.between(all * 3 / 10, all * 7 / 10).clamp(1, MOST),
        false => books::demand(random, &book),
    };
    book
}

/// In a third of the books each bidder takes a part of its unit prices for its carriage, as much as rule 8 allows or less: all prices stay.
/// And an allowance as for other books.
fn shared_out(random: &mut Random, mut book: Book) -> Book {
    if random.chance(33) {
        book.bids.iter_mut().for_each(|bid| share_out(random, bid));
    }
    book.allowance = books::allowance(random, &book);
    book
}

fn share_out(random: &mut Random, bid: &mut Bid) {
    let least = bid.segments.iter().map(books::most_off).fold(MOST_CARRIAGE, i64::min);
    bid.carriage = random.between(0, least);
    bid.segments.iter_mut().for_each(|segment| segment.unit -= bid.carriage);
}

/// Each bidder sells from 1 blank on without gaps; the prices at the ends of all segments lie on one line, but for a small sum, and within
/// a segment a further blank is cheaper.
pub fn steps(random: &mut Random, size: &Size) -> Book {
    let line = random.between(2, 400);
    let extra = random.pick(&[0, 1, 100]);
    let usual = random.between(0, line / 2);
    let segments = |random: &mut Random| {
        let ends = rising(random, size.segments, size.top);
        let starts = std::iter::once(1).chain(ends.iter().map(|end| end + 1));
        let segment = |(start, &end): (i64, &i64)| {
            let unit = if random.chance(50) { usual } else { random.between(0, line / 2) };
            Segment { start, end, unit, fixed: (line - unit) * end + random.between(0, extra) }
        };
        starts.zip(&ends).map(segment).collect()
    };
    let book = bids(random, size, segments);
    let book = with_demand(random, book);
    shared_out(random, book)
}

/// Segments with gaps, some of one quantity alone; without prices.
fn places(random: &mut Random, size: &Size, single: usize) -> Vec<Segment> {
    let marks = rising(random, 2 * size.segments, size.top);
    let segment = |pair: &[i64]| {
        let end = if random.chance(single) { pair[0] } else { pair[1] };
        Segment { start: pair[0], end, unit: 0, fixed: 0 }
    };
    marks.chunks_exact(2).map(segment).collect()
}

/// Near prices, and one bidder with many times the quantities of the others; the demand is a little above one of its starts.
pub fn giant(random: &mut Random, size: &Size) -> Book {
    let base = random.pick(&[3, 400, 400_000]);
    let segments = |random: &mut Random| {
        let mut segments = places(random, size, 30);
        segments.iter_mut().for_each(|segment| near_prices(random, segment, base));
        segments
    };
    let mut book = bids(random, size, segments);
    let index = random.below(book.bids.len());
    let factor = random.between(3, 40);
    for segment in &mut book.bids[index].segments {
        segment.start *= factor;
        segment.end *= factor;
    }
    let large = &book.bids[index].segments;
    book.demand = large[random.below(large.len())].start + random.between(0, 3 * size.top);
    shared_out(random, book)
}

/// A unit price near the base; no fixed price, a small rebate, or a small sum.
fn near_prices(random: &mut Random, segment: &mut Segment, base: i64) {
    segment.unit = base + random.between(-base / 10 - 1, base / 10 + 1);
    let whole = segment.unit * segment.start;
    segment.fixed = random.pick(&[0, -whole / 20, whole / 20, whole / 7]);
}

/// Quantities at multiples of a step and a demand that is none; the first segment of one bidder at most is off them.
pub fn parity(random: &mut Random, size: &Size) -> Book {
    let step = random.pick(&[2, 2, 3, 10]);
    let segments = |random: &mut Random| {
        let multiples = rising(random, size.segments, (size.top / step).max(6));
        let segment = |multiple: &i64| {
            let (unit, fixed) = (random.between(380, 420), random.between(0, 3_000));
            Segment { start: multiple * step, end: multiple * step, unit, fixed }
        };
        multiples.iter().map(segment).collect()
    };
    let mut book = bids(random, size, segments);
    if random.chance(80) {
        let index = random.below(book.bids.len());
        move_off(random, &mut book.bids[index].segments[0]);
    }
    book = with_demand(random, book);
    book.demand = book.demand / step * step + random.pick(&[1, step - 1]);
    shared_out(random, book)
}

fn move_off(random: &mut Random, first: &mut Segment) {
    first.start += 1;
    first.end += 1;
    first.fixed += 100_000 * random.between(0, 30);
}

/// The price at the start or the end of each segment lies on one line, but for a small sum.
pub fn noise(random: &mut Random, size: &Size) -> Book {
    let line = random.between(1, 400);
    let extra = random.pick(&[0, 1, 10, 1_000]);
    let single = random.pick(&[0, 50, 100]);
    let segments = |random: &mut Random| {
        let mut segments = places(random, size, single);
        segments.iter_mut().for_each(|segment| on_line(random, segment, line, extra));
        segments
    };
    let book = bids(random, size, segments);
    let book = with_demand(random, book);
    shared_out(random, book)
}

fn on_line(random: &mut Random, segment: &mut Segment, line: i64, extra: i64) {
    segment.unit = if random.chance(50) { line } else { random.between(0, line) };
    let place = random.pick(&[segment.start, segment.end]);
    segment.fixed = (line - segment.unit) * place + random.between(0, extra);
}

/// Unit price and carriage are together near one price of a blank, so that a low unit price has a high carriage: the order of the unit
/// prices is not that of the prices.
pub fn carriage(random: &mut Random, size: &Size) -> Book {
    let blank = random.pick(&[3, 12, 400, MOST_CARRIAGE, 400_000]);
    let mut book = bids(random, size, |random| places(random, size, 30));
    book.bids.iter_mut().for_each(|bid| carried(random, bid, blank));
    let mut book = with_demand(random, book);
    book.allowance = books::allowance(random, &book);
    book
}

fn carried(random: &mut Random, bid: &mut Bid, blank: i64) {
    bid.carriage = random.between(0, blank.min(MOST_CARRIAGE));
    for segment in &mut bid.segments {
        segment.unit = blank - bid.carriage + random.between(0, 2);
        segment.fixed = random.pick(&[0, 0, 1, 100]);
    }
}

/// Each bidder sells whole drums, of a size of its own and at near prices, some also a few blanks over a drum: what is bought mostly passes the
/// demand, by a few blanks or up to the allowance, which is about a drum.
pub fn drums(random: &mut Random, size: &Size) -> Book {
    let line = random.between(1, 400);
    let most = (size.top / size.segments as i64).max(2);
    let segments = |random: &mut Random| {
        let drum = random.between(2, most);
        let filled = |random: &mut Random, count: i64| {
            let (unit, start) = (random.between(0, line), count * drum);
            let end = start + if random.chance(25) { random.between(0, drum - 1) } else { 0 };
            Segment { start, end, unit, fixed: (line - unit) * start + random.between(0, line) }
        };
        (1..=size.segments as i64).map(|count| filled(random, count)).collect()
    };
    let book = bids(random, size, segments);
    let book = with_demand(random, book);
    let mut book = shared_out(random, book);
    if random.chance(70) {
        book.allowance = random.between(0, most);
    }
    book
}
