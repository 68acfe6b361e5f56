//! The kinds of pairs that there must be, and how many of each, so that the laws are tried where they could be broken.

use crate::book::Book;
use crate::clearing::{self, Award};
use crate::generate::changes::{self, Change, Pair};
use crate::laws::Cleared;
use crate::ties;

/// A pair, and what the product answers for its two books.
pub struct Tried<'a> {
    pub pair: &'a Pair,
    pub before: &'a Cleared,
    pub after: &'a Cleared,
}

/// The pairs among which a kind is looked for: all of which a law speaks, or those of one change.
#[derive(Clone, Copy, Debug, PartialEq)]
pub enum Among {
    Pairs,
    Discounts,
    Raised,
    Struck,
    OneSegment,
}

pub const ALL: [Among; 5] = [Among::Pairs, Among::Discounts, Among::Raised, Among::Struck, Among::OneSegment];

impl Among {
    pub fn words(self) -> &'static str {
        match self {
            Among::Pairs => "pairs",
            Among::Discounts => "discounts",
            Among::Raised => "books with raised prices",
            Among::Struck => "bidders struck",
            Among::OneSegment => "discounts on one segment, which promise the bidder nothing",
        }
    }

    pub fn includes(self, change: Change) -> bool {
        match change {
            Change::Discount(_) => matches!(self, Among::Pairs | Among::Discounts),
            Change::Raised => matches!(self, Among::Pairs | Among::Raised),
            Change::Struck(_) => matches!(self, Among::Pairs | Among::Struck),
            Change::OneSegment(_) => self == Among::OneSegment,
        }
    }
}

pub struct Kind {
    pub among: Among,
    pub words: &'static str,
    pub wanted: u64,
    pub is: fn(&Tried) -> bool,
}

const fn kind(among: Among, words: &'static str, wanted: u64, is: fn(&Tried) -> bool) -> Kind {
    Kind { among, words, wanted, is }
}

pub const KINDS: [Kind; 26] = [
    kind(Among::Pairs, "with a carriage above 0", 100_000, carried),
    kind(Among::Pairs, "with an allowance above 0", 80_000, allowed),
    kind(Among::Pairs, "with more than the demand bought", 15_000, over),
    kind(Among::Pairs, "not covered", 10_000, not_covered),
    kind(Among::Pairs, "with another division of the award's cost", 30_000, tied),
    kind(Among::Discounts, "win blanks", 8_000, wins),
    kind(Among::Discounts, "change nothing", 10_000, changes_nothing),
    kind(Among::Discounts, "only bring the bidder level with others", 1_000, only_level),
    kind(Among::Discounts, "are the largest still accepted", 20_000, largest),
    kind(Among::Discounts, "lose another bidder blanks", 8_000, loses_another),
    kind(Among::Discounts, "win no further blank", 30_000, wins_none),
    kind(Among::Discounts, "leave the total as it was", 10_000, same_total),
    kind(Among::Raised, "in one price alone", 15_000, one_price),
    kind(Among::Raised, "in every price", 15_000, every_price),
    kind(Among::Raised, "in a unit price", 30_000, unit_price),
    kind(Among::Raised, "in a fixed price", 30_000, fixed_price),
    kind(Among::Raised, "with a higher total", 20_000, higher_total),
    kind(Among::Raised, "with the same total", 10_000, same_total),
    kind(Among::Raised, "with more blanks for some bidder", 8_000, wins_somebody),
    kind(Among::Struck, "who sold something", 20_000, sold),
    kind(Among::Struck, "who sold nothing", 10_000, sold_nothing),
    kind(Among::Struck, "without whom the demand is not covered", 10_000, needed),
    kind(Among::Struck, "without whom the total is higher", 10_000, higher_total),
    kind(Among::Struck, "who sold something, and without whom the total is the same", 2_000, replaced),
    kind(Among::OneSegment, "lose the bidder blanks", 500, loses),
    kind(Among::OneSegment, "win blanks", 500, wins),
];

/// A book of at most so many blanks is looked at for ties.
const FEW_BLANKS: i64 = 100;

fn carried(tried: &Tried) -> bool {
    tried.pair.before.bids.iter().any(|bid| bid.carriage > 0)
}

fn allowed(tried: &Tried) -> bool {
    tried.pair.before.allowance > 0
}

/// Whether this is so of the book with its award before the change, or after it.
fn either(tried: &Tried, is: impl Fn(&Book, &Award) -> bool) -> bool {
    let books = [(&tried.pair.before, tried.before), (&tried.pair.after, tried.after)];
    books.into_iter().any(|(book, cleared)| cleared.as_ref().is_some_and(|award| is(book, award)))
}

fn over(tried: &Tried) -> bool {
    either(tried, |book, award| award.bought > book.demand)
}

fn not_covered(tried: &Tried) -> bool {
    tried.before.is_none() && tried.after.is_none()
}

fn tied(tried: &Tried) -> bool {
    either(tried, |book, award| clearing::most(book) <= FEW_BLANKS && ties::tied(book, award))
}

/// Whether both books are covered, and this is so of their awards.
fn both(tried: &Tried, is: impl Fn(&Award, &Award) -> bool) -> bool {
    tried.before.as_ref().zip(tried.after.as_ref()).is_some_and(|(before, after)| is(before, after))
}

fn wins(tried: &Tried) -> bool {
    let own = tried.pair.change.index();
    both(tried, |before, after| after.quantities[own] > before.quantities[own])
}

fn wins_none(tried: &Tried) -> bool {
    let own = tried.pair.change.index();
    both(tried, |before, after| after.quantities[own] == before.quantities[own])
}

fn loses(tried: &Tried) -> bool {
    let own = tried.pair.change.index();
    both(tried, |before, after| after.quantities[own] < before.quantities[own])
}

fn loses_another(tried: &Tried) -> bool {
    let own = tried.pair.change.index();
    let fewer = |before: &Award, after: &Award, other: usize| other != own && after.quantities[other] < before.quantities[other];
    both(tried, |before, after| (0..before.quantities.len()).any(|other| fewer(before, after, other)))
}

fn same_total(tried: &Tried) -> bool {
    both(tried, |before, after| after.total == before.total)
}

fn higher_total(tried: &Tried) -> bool {
    both(tried, |before, after| after.total > before.total)
}

fn changes_nothing(tried: &Tried) -> bool {
    both(tried, |before, after| after.total == before.total && after.quantities == before.quantities)
}

/// Only since the discount some division of the award's cost gives the bidder more, and the award gives it no more than before.
fn only_level(tried: &Tried) -> bool {
    let Pair { change, before, after } = tried.pair;
    let own = change.index();
    let level = |was: &Award, is: &Award| !ties::could_have_more(before, was, own) && ties::could_have_more(after, is, own);
    changes_nothing(tried) && clearing::most(after) <= FEW_BLANKS && both(tried, level)
}

fn largest(tried: &Tried) -> bool {
    changes::largest_discount(&tried.pair.after.bids[tried.pair.change.index()]) == 0
}

/// How many unit prices and how many fixed prices are raised, and how many of both there are.
fn raised(tried: &Tried) -> (usize, usize, usize) {
    let segments = |book: &Book| book.bids.iter().flat_map(|bid| bid.segments.clone()).collect::<Vec<_>>();
    let (before, after) = (segments(&tried.pair.before), segments(&tried.pair.after));
    let units = before.iter().zip(&after).filter(|(before, after)| after.unit > before.unit);
    let fixed = before.iter().zip(&after).filter(|(before, after)| after.fixed > before.fixed);
    (units.count(), fixed.count(), 2 * before.len())
}

fn one_price(tried: &Tried) -> bool {
    let (units, fixed, _) = raised(tried);
    units + fixed == 1
}

fn every_price(tried: &Tried) -> bool {
    let (units, fixed, all) = raised(tried);
    units + fixed == all
}

fn unit_price(tried: &Tried) -> bool {
    raised(tried).0 > 0
}

fn fixed_price(tried: &Tried) -> bool {
    raised(tried).1 > 0
}

fn wins_somebody(tried: &Tried) -> bool {
    both(tried, |before, after| before.quantities.iter().zip(&after.quantities).any(|(before, after)| after > before))
}

fn sold(tried: &Tried) -> bool {
    tried.before.as_ref().is_some_and(|award| award.quantities[tried.pair.change.index()] > 0)
}

fn sold_nothing(tried: &Tried) -> bool {
    tried.before.as_ref().is_some_and(|award| award.quantities[tried.pair.change.index()] == 0)
}

fn needed(tried: &Tried) -> bool {
    tried.before.is_some() && tried.after.is_none()
}

fn replaced(tried: &Tried) -> bool {
    sold(tried) && same_total(tried)
}
