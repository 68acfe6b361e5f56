//! The award, by dynamic programming over quantities: for the bidders from each one on, and for each quantity, the least price.
//!
//! No choice of segments is listed or filled, and nothing is supposed about how many bidders stand inside a segment.

use crate::book::{Bid, Book, Segment};
use std::collections::VecDeque;

#[derive(Clone, Debug, PartialEq)]
pub struct Award {
    pub bought: i64,
    pub total: i64,
    pub quantities: Vec<i64>,
    pub without: Vec<Option<i64>>,
}

/// Above every price; stands where no allocation gives the quantity.
pub const NO_WAY: i64 = i64::MAX;

/// The least price of each quantity up to the most from no bidder at all.
fn nobody(most: i64) -> Vec<i64> {
    let mut least = vec![NO_WAY; most as usize + 1];
    least[0] = 0;
    least
}

/// Brackets, each with its k, both rising: one that is not below a later one is left out, since it will not be the least again.
#[derive(Default)]
struct Window(VecDeque<(i64, usize)>);

impl Window {
    fn add(&mut self, bracket: i64, k: usize) {
        while self.0.back().is_some_and(|last| last.0 >= bracket) {
            self.0.pop_back();
        }
        self.0.push_back((bracket, k));
    }

    /// The least bracket once every k below `lowest` is dropped.
    fn least_from(&mut self, lowest: usize) -> Option<i64> {
        while self.0.front().is_some_and(|first| first.1 < lowest) {
            self.0.pop_front();
        }
        self.0.front().map(|first| first.0)
    }
}

/// Lowers `least` by what buying a quantity on this segment, and the rest from the bidders after it, costs.
///
/// A blank costs unit price + carriage. With k blanks from those after it, q cost blank × q + fixed + (rest[k] − blank × k): for each q
/// the least of the brackets over k from q − end to q − start, a window that slides with q.
fn lower(least: &mut [i64], rest: &[i64], segment: &Segment, carriage: i64) {
    let (start, end) = (segment.start as usize, segment.end as usize);
    let blank = segment.unit + carriage;
    let mut window = Window::default();
    for (quantity, least) in least.iter_mut().enumerate().skip(start) {
        let entering = quantity - start;
        if rest[entering] != NO_WAY {
            window.add(rest[entering] - blank * entering as i64, entering);
        }
        if let Some(bracket) = window.least_from(quantity.saturating_sub(end)) {
            let price = segment.price(carriage, quantity as i64) + bracket;
            *least = price.min(*least);
        }
    }
}

fn with_bidder(bid: &Bid, rest: &[i64]) -> Vec<i64> {
    let mut least = rest.to_vec();
    for segment in &bid.segments {
        lower(&mut least, rest, segment, bid.carriage);
    }
    least
}

/// The least prices for the bidders from each one on, the last list for none.
fn layers(bids: &[Bid], most: i64) -> Vec<Vec<i64>> {
    let mut backward = vec![nobody(most)];
    for bid in bids.iter().rev() {
        let least = with_bidder(bid, &backward[backward.len() - 1]);
        backward.push(least);
    }
    backward.reverse();
    backward
}

/// The most blanks that have to be looked at: more are not taken, or not offered.
pub fn most(book: &Book) -> i64 {
    let offered: i64 = book.bids.iter().map(|bid| bid.segments[bid.segments.len() - 1].end).sum();
    offered.min(book.demand + book.allowance)
}

/// The least of these prices among the quantities that are taken, and the fewest blanks that have it; nothing where none can be had.
fn cheapest(book: &Book, least: &[i64]) -> Option<(i64, i64)> {
    let prices = (0..).zip(least).filter(|&(blanks, &price)| book.takes(blanks) && price != NO_WAY);
    prices.map(|(blanks, &price)| (price, blanks)).min()
}

/// The greatest quantity of this bidder with which the least price is still reached.
fn greatest(bid: &Bid, wanted: i64, price: i64, rest: &[i64]) -> i64 {
    let reaches = |quantity: &i64| {
        let others = rest[(wanted - quantity) as usize];
        let own = bid.price(*quantity).expect("a quantity on a segment");
        others != NO_WAY && own + others == price
    };
    for segment in bid.segments.iter().rev() {
        let end = segment.end.min(wanted);
        if let Some(quantity) = (segment.start..=end).rev().find(reaches) {
            return quantity;
        }
    }
    0
}

/// So many blanks at the least price: the first bidder gets most, then the second, and so on.
fn quantities(bids: &[Bid], bought: i64, layers: &[Vec<i64>]) -> Vec<i64> {
    let mut wanted = bought;
    let mut given = Vec::new();
    for (index, bid) in bids.iter().enumerate() {
        let price = layers[index][wanted as usize];
        let quantity = greatest(bid, wanted, price, &layers[index + 1]);
        wanted -= quantity;
        given.push(quantity);
    }
    given
}

/// The least price of each quantity from all bidders but one.
pub fn least_without(book: &Book, absent: usize) -> Vec<i64> {
    let all = book.bids.iter().enumerate();
    let left: Vec<&Bid> = all.filter(|bid| bid.0 != absent).map(|bid| bid.1).collect();
    left.iter().rev().fold(nobody(most(book)), |rest, bid| with_bidder(bid, &rest))
}

fn total_without(book: &Book, absent: usize) -> Option<i64> {
    cheapest(book, &least_without(book, absent)).map(|(total, _)| total)
}

/// The award of an accepted book, nothing where it is not covered.
pub fn award(book: &Book) -> Option<Award> {
    let layers = layers(&book.bids, most(book));
    let (total, bought) = cheapest(book, &layers[0])?;
    let quantities = quantities(&book.bids, bought, &layers);
    let without = (0..book.bids.len()).map(|absent| total_without(book, absent));
    Some(Award { bought, total, quantities, without: without.collect() })
}
