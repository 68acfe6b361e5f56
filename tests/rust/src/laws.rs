//! The laws of changed books: what the product may answer once a bidder gives a discount, prices are raised or a bidder is struck.
//!
//! A law looks at what the product answers for the book as it was and as it is changed, and at nothing else.

use crate::clearing::Award;
use crate::entries::Answer;
use crate::generate::changes::Change;

/// What is answered for an accepted book: its award, or nothing where it is refused by 9.
pub type Cleared = Option<Award>;

/// A law in words, and whether the answers before and after a change of the bid with this index keep it. Nothing where the law does not
/// speak of such answers, as a law of totals where one of them has none.
pub struct Law {
    pub words: &'static str,
    pub kept: fn(&Cleared, &Cleared, usize) -> Option<bool>,
}

const COVERED_ALIKE: Law =
    Law { words: "one is covered exactly if the other is", kept: |before, after, _| Some(before.is_some() == after.is_some()) };

const STILL_NOT_COVERED: Law =
    Law { words: "what was not covered still is not", kept: |before, after, _| before.is_none().then_some(after.is_none()) };

const BLANKS_DO_NOT_FALL: Law = Law {
    words: "the bidder's blanks do not fall",
    kept: |before, after, index| Some(before.as_ref()?.quantities[index] <= after.as_ref()?.quantities[index]),
};

const TOTAL_DOES_NOT_RISE: Law =
    Law { words: "the total does not rise", kept: |before, after, _| Some(before.as_ref()?.total >= after.as_ref()?.total) };

const TOTAL_DOES_NOT_FALL: Law =
    Law { words: "the total does not fall", kept: |before, after, _| Some(before.as_ref()?.total <= after.as_ref()?.total) };

const AS_SHOWN: Law = Law {
    words: "the total is the one shown without the bidder",
    kept: |before, after, index| Some(before.as_ref()?.without[index] == after.as_ref().map(|award| award.total)),
};

/// A discount on one segment alone has none.
pub fn laws(change: Change) -> &'static [Law] {
    match change {
        Change::Discount(_) => &[COVERED_ALIKE, BLANKS_DO_NOT_FALL, TOTAL_DOES_NOT_RISE],
        Change::Raised => &[COVERED_ALIKE, TOTAL_DOES_NOT_FALL],
        Change::Struck(_) => &[STILL_NOT_COVERED, TOTAL_DOES_NOT_FALL, AS_SHOWN],
        Change::OneSegment(_) => &[],
    }
}

/// The law of every award: no total without a bidder is below its own.
pub fn none_below(award: &Award) -> bool {
    award.without.iter().flatten().all(|&total| total >= award.total)
}

/// The answer of the entry for the award as it is for an accepted book of so many bids; in words where no such book has that answer.
pub fn cleared(answer: &Answer, bids: usize) -> Result<Cleared, String> {
    let Answer { refusal, place, numbers: [bought, total, count], rest_unchanged, .. } = answer;
    match (refusal, place, rest_unchanged) {
        (9, 0, true) => Ok(None),
        (0, 0, true) if *count == bids as u64 => Ok(Some(award(answer))),
        _ => Err(format!("refusal {refusal} place {place} numbers {bought} {total} {count} rest unchanged {rest_unchanged}")),
    }
}

fn award(answer: &Answer) -> Award {
    let number = |bytes: &[u8]| i64::from_ne_bytes(bytes.try_into().expect("eight bytes"));
    let numbers: Vec<i64> = answer.output.chunks_exact(8).map(number).collect();
    let [bought, total, count] = answer.numbers;
    let rows = || numbers.chunks_exact(7).take(count as usize);
    Award {
        bought: bought as i64,
        total: total as i64,
        quantities: rows().map(|row| row[2]).collect(),
        without: rows().map(|row| (row[5] == 1).then_some(row[6])).collect(),
    }
}
