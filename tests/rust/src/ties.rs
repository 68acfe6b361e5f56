//! Whether another division costs as much as the award.
//!
//! In such a division some bidder sells more than in the award: otherwise it would have fewer blanks at the same cost, and be the award.

use crate::book::Book;
use crate::clearing::{self, Award, NO_WAY};

/// Whether some division of the award's cost gives this bidder more than the award does.
pub fn could_have_more(book: &Book, award: &Award, index: usize) -> bool {
    let others = clearing::least_without(book, index);
    let most = clearing::most(book);
    let costs_as_much = |own: i64, price: i64| {
        let mut rest = (book.demand - own).max(0)..=most - own;
        rest.any(|blanks| others[blanks as usize] != NO_WAY && price + others[blanks as usize] == award.total)
    };
    let more = award.quantities[index] + 1..=most;
    more.into_iter().any(|own| book.bids[index].price(own).is_some_and(|price| costs_as_much(own, price)))
}

pub fn tied(book: &Book, award: &Award) -> bool {
    (0..book.bids.len()).any(|index| could_have_more(book, award, index))
}
