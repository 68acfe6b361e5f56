//! Books with the widest sheets and with the longest text that there are.
//!
//! Why no sheet of two bids or more is wider than 38 bytes and 64 for each bid, where the limit is 39 and 66: nobody who sells can be left
//! out of an award, since the rest would cost no more and be fewer blanks, so without any one of them less than the demand is bought. Where
//! k sell, they therefore sell at most k × 999,999 / (k − 1) blanks together, each for 1,010,000 cents at most, and at most
//! k × 1,000,000,000,000 cents come on top. For k up to eight that is below 10,000,000,000,000, so that no total, with all bidders or
//! without one, has fourteen digits. And who sells 1,000,000 blanks, the only quantity of seven digits, sells alone: its line has at most
//! 65 bytes, and those of the others, who sell nothing, 43.
//!
//! With one bid `none` stands for the total without it, and a sheet has at most 94 bytes.

use super::books::{MOST, MOST_CARRIAGE, MOST_FIXED};
use crate::book::{Bid, Book, Segment};

/// How long the widest sheet of so many bids is.
pub fn bytes(bids: usize) -> usize {
    match bids {
        1 => 94,
        _ => 38 + 64 * bids,
    }
}

/// The least quantity of which so many are 1,000,000 or more.
fn part(count: i64) -> i64 {
    (MOST + count - 1) / count
}

fn dear(blanks: i64) -> Segment {
    Segment { start: blanks, end: blanks, unit: MOST, fixed: MOST_FIXED }
}

/// Bidders with the highest numbers and the highest carriage, all with these segments.
fn alike(allowance: i64, bids: i64, segments: &[Segment]) -> Book {
    let bid = |index| Bid { bidder: 10_000 - bids + index, carriage: MOST_CARRIAGE, segments: segments.to_vec() };
    Book { demand: MOST, allowance, bids: (0..bids).map(bid).collect() }
}

/// The widest sheet: all sell an equal part of the demand for the least price of thirteen digits. Without one of them the others sell a
/// larger part each, on a further segment and at the highest prices.
pub fn shared(bids: i64) -> Book {
    let blanks = part(bids);
    let equal = Segment { start: blanks, end: blanks, unit: 0, fixed: MOST_FIXED - MOST_CARRIAGE * blanks };
    let larger = (bids > 1).then(|| dear(part(bids - 1)));
    let segments: Vec<Segment> = [equal].into_iter().chain(larger).collect();
    alike(MOST, bids, &segments)
}

/// The first sells 1,000,000 blanks at the highest price, as each of the others would.
pub fn alone(bids: i64) -> Book {
    alike(0, bids, &[dear(MOST)])
}

/// The highest total: all sell at the highest prices, as many blanks above the demand as so many can.
pub fn dearest(bids: i64) -> Book {
    let blanks = (MOST - 1) / (bids - 1);
    alike(bids * blanks - MOST, bids, &[dear(blanks)])
}

/// Each of these of so many bids.
pub fn books(bids: i64) -> Vec<Book> {
    let mut books = vec![shared(bids), alone(bids)];
    if bids > 1 {
        books.push(dearest(bids));
    }
    books
}

/// The longest text. Only the last segment of a bid can start or end at 1,000,000, and only there a fixed price of -1,000,000,000,000 gives
/// no negative price: it has 45 bytes, and the others 42.
pub fn longest_text() -> Book {
    let last = Segment { start: MOST, end: MOST, unit: MOST, fixed: -MOST_FIXED };
    let segments: Vec<Segment> = [100_000, 250_000, 500_000, 999_998, 999_999].map(dear).into_iter().chain([last]).collect();
    alike(MOST, 8, &segments)
}
