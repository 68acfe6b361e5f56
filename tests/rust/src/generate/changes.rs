//! Changed books: with a discount, with raised prices, with a bidder struck, and with a discount on one segment alone. Where the book that
//! is given keeps every rule, so do both books of the pair.

use super::books::{self, MOST, MOST_FIXED};
use crate::book::{Bid, Book};
use crate::random::Random;

/// What was changed; where it is one bid, its index in the book as it was.
#[derive(Clone, Copy, Debug, PartialEq)]
pub enum Change {
    /// The bidder takes the same amount off the unit price of all its segments.
    Discount(usize),
    /// Unit prices and fixed prices of any segments are raised.
    Raised,
    Struck(usize),
    /// The bidder takes an amount off the unit price of one of its segments, and has others.
    OneSegment(usize),
}

impl Change {
    /// The bid that was changed; the first where it is not one alone.
    pub fn index(self) -> usize {
        match self {
            Change::Discount(index) | Change::Struck(index) | Change::OneSegment(index) => index,
            Change::Raised => 0,
        }
    }
}

/// A book as it was, and as it is changed.
#[derive(Clone, Debug)]
pub struct Pair {
    pub change: Change,
    pub before: Book,
    pub after: Book,
}

/// Makes a pair from a book; nothing where it cannot be changed so.
pub type Changer = fn(&mut Random, Book) -> Option<Pair>;

/// The largest discount with which the book is still accepted.
pub fn largest_discount(bid: &Bid) -> i64 {
    bid.segments.iter().map(books::most_off).min().unwrap_or(0)
}

fn highest_unit(bid: &Bid) -> i64 {
    bid.segments.iter().map(|segment| segment.unit).max().unwrap_or(0)
}

/// The book with these cents more on the unit price of all segments of a bid, or less where they are negative.
fn with_units(book: &Book, index: usize, cents: i64) -> Book {
    let mut changed = book.clone();
    changed.bids[index].segments.iter_mut().for_each(|segment| segment.unit += cents);
    changed
}

/// From 1 to the most: often 1, a few, or the most.
fn amount(random: &mut Random, most: i64) -> i64 {
    match random.below(5) {
        0 => 1,
        1 => most,
        2 => random.between(1, most.min(3)),
        _ => random.between(1, most),
    }
}

/// The given book is the one before the discount or the one after it, so that ties, and prices of 0 at a start, stand on either side.
pub fn discount(random: &mut Random, book: Book) -> Option<Pair> {
    let index = random.below(book.bids.len());
    match random.chance(50) {
        true => discount_from(random, book, index),
        false => discount_to(random, book, index),
    }
}

fn discount_from(random: &mut Random, before: Book, index: usize) -> Option<Pair> {
    let most = largest_discount(&before.bids[index]);
    if most < 1 {
        return None;
    }
    let after = with_units(&before, index, -amount(random, most));
    Some(Pair { change: Change::Discount(index), before, after })
}

/// Before the discount the unit prices were higher by up to about as much again.
fn discount_to(random: &mut Random, after: Book, index: usize) -> Option<Pair> {
    let highest = highest_unit(&after.bids[index]);
    if highest == MOST {
        return None;
    }
    let most = (highest + 1).min(MOST - highest);
    let before = with_units(&after, index, amount(random, most));
    Some(Pair { change: Change::Discount(index), before, after })
}

/// Every unit price and every fixed price, each with its highest value.
fn prices(book: &mut Book) -> Vec<(&mut i64, i64)> {
    let segments = book.bids.iter_mut().flat_map(|bid| &mut bid.segments);
    segments.flat_map(|segment| [(&mut segment.unit, MOST), (&mut segment.fixed, MOST_FIXED)]).collect()
}

/// A higher price: by one cent, by a few, by up to about as much again, or the highest.
fn higher(random: &mut Random, price: i64, most: i64) -> i64 {
    let room = most - price;
    let cents = match random.below(10) {
        0 => room,
        1..=3 => 1,
        4..=6 => random.between(1, room.min(5)),
        _ => random.between(1, room.min(price.abs() + 1)),
    };
    price + cents
}

/// One price alone, some, or all but those that are the highest already.
pub fn raised(random: &mut Random, before: Book) -> Option<Pair> {
    let mut after = before.clone();
    let prices = prices(&mut after);
    let alone = random.below(prices.len());
    let share = random.pick(&[0, 30, 100]);
    for (place, (price, most)) in prices.into_iter().enumerate() {
        let chosen = if share == 0 { place == alone } else { random.chance(share) };
        if chosen && *price < most {
            *price = higher(random, *price, most);
        }
    }
    (after != before).then_some(Pair { change: Change::Raised, before, after })
}

/// At least one bid is left.
pub fn struck(random: &mut Random, before: Book) -> Option<Pair> {
    if before.bids.len() == 1 {
        return None;
    }
    let index = random.below(before.bids.len());
    let mut after = before.clone();
    after.bids.remove(index);
    Some(Pair { change: Change::Struck(index), before, after })
}

pub fn one_segment(random: &mut Random, before: Book) -> Option<Pair> {
    let index = random.below(before.bids.len());
    let segments = &before.bids[index].segments;
    let number = random.below(segments.len());
    let most = books::most_off(&segments[number]);
    if segments.len() == 1 || most < 1 {
        return None;
    }
    let mut after = before.clone();
    after.bids[index].segments[number].unit -= amount(random, most);
    Some(Pair { change: Change::OneSegment(index), before, after })
}
