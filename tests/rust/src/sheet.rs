//! The award as rows of numbers and as a sheet, by a sampling table, and the numbers that a sheet shows.

use crate::book::Book;
use crate::clearing::Award;
use crate::table::Table;

/// Bidder, segment, quantity, price, blanks to sample; and the total without the bidder.
pub struct Row {
    pub numbers: [i64; 5],
    pub without: Option<i64>,
}

pub fn rows(book: &Book, award: &Award, table: &Table) -> Vec<Row> {
    let row = |index: usize| {
        let bid = &book.bids[index];
        let quantity = award.quantities[index];
        let segment = bid.segment_of(quantity).expect("on a segment") as i64;
        let price = bid.price(quantity).expect("on a segment");
        let numbers = [bid.bidder, segment, quantity, price, table.sample(quantity)];
        Row { numbers, without: award.without[index] }
    };
    (0..book.bids.len()).map(row).collect()
}

fn line(row: &Row) -> String {
    let without = row.without.map_or("none".to_string(), |price| price.to_string());
    let numbers = row.numbers.map(|number| number.to_string()).join(" ");
    format!("(buy {numbers} (without {without}))\n")
}

pub fn sheet(book: &Book, award: &Award, table: &Table) -> Vec<u8> {
    let lines: String = rows(book, award, table).iter().map(line).collect();
    format!("(award {} {} {})\n{lines}", book.demand, award.bought, award.total).into_bytes()
}

/// The numbers that stand on a sheet, from the first on; nothing for `none`.
pub fn shown(sheet: &[u8]) -> Vec<Option<i64>> {
    let text = std::str::from_utf8(sheet).expect("a sheet has ASCII alone");
    let words = text.split(['(', ')', ' ', '\n']);
    let numbers = words.filter(|word| *word == "none" || word.starts_with(|c: char| c.is_ascii_digit()));
    numbers.map(|word| word.parse().ok()).collect()
}

/// The rows of seven numbers that the entry for the award gives.
pub fn numbers(book: &Book, award: &Award, table: &Table) -> Vec<u64> {
    let seven = |row: &Row| {
        let covered = u64::from(row.without.is_some());
        let without = row.without.unwrap_or(0) as u64;
        let mut numbers = row.numbers.map(|number| number as u64).to_vec();
        numbers.extend([covered, without]);
        numbers
    };
    rows(book, award, table).iter().flat_map(seven).collect()
}
