//! Calls the product on a book and on the same book changed, holds both answers against the laws, and counts.

use crate::book::{refusal, Book};
use crate::cases::Case;
use crate::clearing;
use crate::compare::Comparer;
use crate::entries::{Call, Entries};
use crate::generate::calls;
use crate::generate::changes::{Change, Pair};
use crate::kinds::{self, Tried, KINDS};
use crate::laws::{self, Cleared};
use crate::random::Random;
use std::collections::HashSet;

/// How many broken laws are printed whole.
const PRINTED: u64 = 10;

/// Of so many pairs the first is compared with the reference too, where that has to look at no more blanks than these.
const COMPARED: u64 = 20;
const COMPARED_BLANKS: i64 = 40_000;

#[derive(Clone, Copy, Default)]
pub struct Counts {
    pub pairs: u64,
    /// The answers that were held against a law or against what was worked out by hand, and those of them that broke it.
    pub laws: u64,
    pub broken: u64,
    /// Pairs of which the changed book was compared with the reference.
    pub compared: u64,
}

pub struct Pairs<'a> {
    comparer: &'a mut Comparer,
    entries: Entries,
    pub counts: Counts,
    /// How many pairs there are of each change and of all of which a law speaks, and how many of each kind.
    pub among: [u64; kinds::ALL.len()],
    pub kinds: [u64; KINDS.len()],
    distinct: HashSet<Vec<u8>>,
    printed: u64,
}

impl<'a> Pairs<'a> {
    pub fn new(comparer: &'a mut Comparer) -> Self {
        Pairs {
            comparer,
            entries: Entries::new(),
            counts: Counts::default(),
            among: [0; kinds::ALL.len()],
            kinds: [0; KINDS.len()],
            distinct: HashSet::new(),
            printed: PRINTED,
        }
    }

    /// Counts broken laws and prints none.
    pub fn silent(comparer: &'a mut Comparer) -> Self {
        Pairs { printed: 0, ..Pairs::new(comparer) }
    }

    pub fn distinct_pairs(&self) -> usize {
        self.distinct.len()
    }

    /// The book of a text that is accepted.
    pub fn book(&self, text: &str) -> Book {
        Book::read(&self.comparer.shape, text.as_bytes()).expect("an accepted text")
    }

    fn cleared(&mut self, book: &Book) -> Result<Cleared, String> {
        let answer = self.entries.answer(&book.written(), &Call::Award(56));
        laws::cleared(&answer, book.bids.len())
    }

    pub fn pair(&mut self, random: &mut Random, pair: &Pair) {
        self.counts.pairs += 1;
        match (self.cleared(&pair.before), self.cleared(&pair.after)) {
            (Ok(before), Ok(after)) => {
                let tried = Tried { pair, before: &before, after: &after };
                self.try_laws(&tried);
                self.note(&tried);
            }
            answers => self.hold(false, || format!("both books are accepted: {answers:?} of {}", texts(pair))),
        }
        if self.counts.pairs % COMPARED == 1 && clearing::most(&pair.after) <= COMPARED_BLANKS {
            self.counts.compared += 1;
            self.comparer.text(&pair.after.written(), |judged| calls::once(random, judged));
        }
    }

    /// The laws of the change, where they speak of such answers, and that of each award.
    pub fn try_laws(&mut self, tried: &Tried) {
        let Tried { pair, before, after } = tried;
        for law in laws::laws(pair.change) {
            if let Some(kept) = (law.kept)(before, after, pair.change.index()) {
                self.hold(kept, || format!("{}: {:?} of {}", law.words, pair.change, texts(pair)));
            }
        }
        for award in [before, after].into_iter().copied().flatten() {
            self.hold(laws::none_below(award), || format!("no total without a bidder is below the award's: {award:?} of {}", texts(pair)));
        }
    }

    /// Counts what kind of pair it was.
    fn note(&mut self, tried: &Tried) {
        let Pair { change, before, after } = tried.pair;
        if !matches!(change, Change::OneSegment(_)) {
            self.distinct.insert([before.written(), after.written()].concat());
        }
        for (count, among) in self.among.iter_mut().zip(kinds::ALL) {
            *count += u64::from(among.includes(*change));
        }
        for (count, kind) in self.kinds.iter_mut().zip(&KINDS) {
            *count += u64::from(kind.among.includes(*change) && (kind.is)(tried));
        }
    }

    /// A case worked out by hand: the product must give just that. And all entries are compared with the reference.
    pub fn case(&mut self, random: &mut Random, case: &Case) {
        let book = self.book(case.text);
        let cleared = self.cleared(&book);
        let same = match (&cleared, &case.given) {
            (Ok(Some(award)), Ok(given)) => given.is(award),
            (Ok(None), Err(refused)) => *refused == refusal(9, 0),
            _ => false,
        };
        self.hold(same, || format!("{}: {cleared:?}", case.name));
        self.comparer.text(case.text.as_bytes(), |judged| calls::usual(random, judged));
    }

    /// Counts what was tried, and says which law is broken while few have been printed.
    fn hold(&mut self, kept: bool, which: impl FnOnce() -> String) {
        self.counts.laws += 1;
        if kept {
            return;
        }
        self.counts.broken += 1;
        if self.printed > 0 {
            self.printed -= 1;
            println!("BROKEN: {}", which());
        }
    }
}

fn texts(pair: &Pair) -> String {
    let [before, after] = [&pair.before, &pair.after].map(Book::written);
    format!("the texts \"{}\" and \"{}\"", before.escape_ascii(), after.escape_ascii())
}
