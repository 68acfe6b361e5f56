//! The award as a page, by a sampling table, and a page read back by its columns.

use crate::book::Book;
use crate::clearing::Award;
use crate::sheet::{self, Row};
use crate::table::Table;

/// Cents with a point and two decimals.
fn money(cents: i64) -> String {
    format!("{}.{:02}", cents / 100, cents % 100)
}

fn line(row: &Row) -> String {
    let [bidder, segment, quantity, price, sample] = row.numbers;
    let price = money(price);
    let without = row.without.map_or("none".to_string(), money);
    format!("{bidder:>6}{segment:>4}{quantity:>10}{price:>20}{sample:>6}{without:>18}\n")
}

pub fn page(book: &Book, award: &Award, table: &Table) -> Vec<u8> {
    let lines: String = sheet::rows(book, award, table).iter().map(line).collect();
    format!("{:>20}{:>20}{:>24}\n{lines}", book.demand, award.bought, money(award.total)).into_bytes()
}

/// How wide a column is, and whether money stands in it.
type Column = (usize, bool);

const FIRST_LINE: [Column; 3] = [(20, false), (20, false), (24, true)];
const BID_LINE: [Column; 6] = [(6, false), (4, false), (10, false), (20, true), (6, false), (18, true)];

/// What the columns show, line by line, as `sheet::shown` has it: money in cents. Nothing where they cannot be read.
pub fn shown(page: &[u8]) -> Option<Vec<Option<i64>>> {
    let mut lines = std::str::from_utf8(page).ok()?.split_inclusive('\n');
    let mut all = in_line(lines.next()?, &FIRST_LINE)?;
    for line in lines {
        all.extend(in_line(line, &BID_LINE)?);
    }
    Some(all)
}

fn in_line(line: &str, columns: &[Column]) -> Option<Vec<Option<i64>>> {
    let mut rest = line.strip_suffix('\n')?;
    let mut all = Vec::new();
    for &(width, is_money) in columns {
        let (column, further) = rest.split_at_checked(width)?;
        all.push(in_column(column.trim_start_matches(' '), is_money)?);
        rest = further;
    }
    rest.is_empty().then_some(all)
}

fn in_column(text: &str, is_money: bool) -> Option<Option<i64>> {
    match text {
        "none" => Some(None),
        _ if is_money => cents(text).map(Some),
        _ => number(text).map(Some),
    }
}

fn cents(text: &str) -> Option<i64> {
    let (whole, decimals) = text.split_once('.')?;
    let both = !whole.is_empty() && decimals.len() == 2;
    number(&[whole, decimals].concat()).filter(|_| both)
}

/// Of digits alone, since `parse` would also take a sign.
fn number(text: &str) -> Option<i64> {
    let digits = text.bytes().all(|byte| byte.is_ascii_digit());
    text.parse().ok().filter(|_| digits)
}
