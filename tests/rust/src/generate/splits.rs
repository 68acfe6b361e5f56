//! Proposed splits of a book: taken, just taken or just not, missing, too many, in a gap, beside a segment, 0, and past every range.

use super::books;
use crate::book::Book;
use crate::expected::Judged;
use crate::random::Random;

pub const KINDS: usize = 13;

fn sold(random: &mut Random, book: &Book) -> Vec<u64> {
    book.bids.iter().map(|bid| books::sold(random, bid) as u64).collect()
}

/// One quantity just beside a segment, which is in a gap, on the next segment, 0, or past the last.
fn beside(random: &mut Random, book: &Book, list: &mut [u64]) {
    let index = random.below(list.len());
    let segments = &book.bids[index].segments;
    let segment = &segments[random.below(segments.len())];
    list[index] = random.pick(&[segment.start - 1, segment.end + 1]) as u64;
}

fn huge(random: &mut Random, list: &mut [u64]) {
    let index = random.below(list.len());
    let kept = list[index];
    let values = [u64::MAX, u64::MAX - 1, 1 << 63, (1 << 63) + kept, (1 << 32) + kept, 1_000_001, kept.wrapping_neg()];
    list[index] = random.pick(&values);
}

fn longer(random: &mut Random, list: &mut Vec<u64>) {
    for _ in 0..random.pick(&[1, 1, 2, 9, 40]) {
        list.push(random.pick(&[0, 0, 1, u64::MAX]));
    }
}

/// Each quantity moved on its segment toward a sum that is just taken, or just not; often it is reached.
fn at_limit(random: &mut Random, book: &Book, list: &mut [u64]) {
    let most = book.demand + book.allowance;
    let wanted = random.pick(&[book.demand, book.demand - 1, book.demand + 1, most, most + 1]);
    let mut missing = wanted - list.iter().sum::<u64>() as i64;
    for (bid, quantity) in book.bids.iter().zip(list) {
        let before = *quantity as i64;
        let Some(on) = bid.segments.iter().find(|segment| segment.holds(before)) else { continue };
        let after = (before + missing).clamp(on.start, on.end);
        missing -= after - before;
        *quantity = after as u64;
    }
}

/// The award's quantities where the book is covered, else any that are sold.
fn awarded(random: &mut Random, judged: &Judged, book: &Book) -> Vec<u64> {
    match judged.cleared() {
        Ok((_, award)) => award.quantities.iter().map(|&quantity| quantity as u64).collect(),
        Err(_) => sold(random, book),
    }
}

pub fn of_kind(random: &mut Random, judged: &Judged, book: &Book, kind: usize) -> Vec<u64> {
    let mut list = match kind {
        0..=2 => awarded(random, judged, book),
        _ => sold(random, book),
    };
    match kind {
        0 | 3 | 4 => {}
        1 => {
            let index = random.below(list.len());
            list[index] = list[index].wrapping_add(random.pick(&[1, u64::MAX]));
        }
        2 | 5 => longer(random, &mut list),
        6 => list.truncate(random.below(list.len())),
        7 => beside(random, book, &mut list),
        8 => huge(random, &mut list),
        9 => list.fill(0),
        10 => {
            beside(random, book, &mut list);
            longer(random, &mut list);
        }
        11 => list.clear(),
        _ => at_limit(random, book, &mut list),
    }
    list
}

/// For a text that is not a book: some list.
pub fn any(random: &mut Random) -> Vec<u64> {
    let count = random.below(10);
    (0..count).map(|_| random.pick(&[0, 1, 60, u64::MAX])).collect()
}
