//! The calls made on a text, chosen once it is known what they should give.

use super::splits;
use crate::entries::Call;
use crate::expected::Judged;
use crate::random::Random;
use crate::table::{Loaded, Table};
use std::rc::Rc;

/// A length around the one needed.
fn around(random: &mut Random, needed: usize) -> usize {
    match random.below(8) {
        0 => random.below(2),
        1 => random.below(needed + 1),
        2 => needed - 1,
        _ => needed.saturating_sub(2) + random.below(5),
    }
}

/// The page in an output that holds every page, in one of just its bytes, in one that is a byte too short, and in none.
fn pages(judged: &Judged) -> Vec<Call> {
    let needed = judged.page().map_or(260, |bytes| bytes.len());
    vec![Call::Page(585), Call::Page(needed), Call::Page(needed - 1), Call::Page(0)]
}

/// Each entry for a text that is refused in reading.
fn on_refused(random: &mut Random, judged: &Judged) -> Vec<Call> {
    let length = random.pick(&[600, 600, 4096, 100, 1, 0]);
    let rows = random.pick(&[56, 56, 7, 1, 0]);
    let list = splits::any(random);
    let others = vec![Call::Sheet(length), Call::Write(length), Call::Sizes, Call::Split(list), Call::Award(rows)];
    [others, pages(judged)].concat()
}

/// A length that holds the sheet: that of every sheet, or the limit for so many bids, which needs no clearing.
fn enough_for_sheet(random: &mut Random, judged: &Judged) -> usize {
    let limit = judged.reading.as_ref().map_or(600, |book| book.sheet_limit());
    random.pick(&[600, limit])
}

/// The page as above, each other entry once with room for everything, and once more with a length around the one needed or another split.
pub fn usual(random: &mut Random, judged: &Judged) -> Vec<Call> {
    let Ok(book) = &judged.reading else { return on_refused(random, judged) };
    let written = book.sizes().bytes;
    let sheet = judged.sheet().map_or(50, |bytes| bytes.len());
    let rows = 7 * book.bids.len();
    let mut calls = pages(judged);
    calls.extend([
        Call::Sheet(enough_for_sheet(random, judged)),
        Call::Sheet(around(random, sheet)),
        Call::Write(random.pick(&[4096, written])),
        Call::Write(around(random, written)),
        Call::Sizes,
        Call::Award(56),
        Call::Award(around(random, rows)),
    ]);
    for _ in 0..2 {
        let kind = random.below(splits::KINDS);
        calls.push(Call::Split(splits::of_kind(random, judged, book, kind)));
    }
    calls
}

/// The page as above and each other entry once: for books with many choices.
pub fn once(random: &mut Random, judged: &Judged) -> Vec<Call> {
    let Ok(book) = &judged.reading else { return on_refused(random, judged) };
    let split = splits::of_kind(random, judged, book, 0);
    let sheet = Call::Sheet(enough_for_sheet(random, judged));
    let others = vec![sheet, Call::Write(4096), Call::Sizes, Call::Split(split), Call::Award(56)];
    [others, pages(judged)].concat()
}

/// The entries that do not clear, with each kind of split.
pub fn without_clearing(random: &mut Random, judged: &Judged) -> Vec<Call> {
    let Ok(book) = &judged.reading else { return on_refused(random, judged) };
    let written = book.sizes().bytes;
    let mut calls = vec![Call::Write(4096), Call::Write(written), Call::Write(around(random, written)), Call::Sizes];
    for kind in 3..splits::KINDS {
        calls.push(Call::Split(splits::of_kind(random, judged, book, kind)));
    }
    calls
}

/// Every length from 0 to 8 above the one needed, for the sheet, the page, the book written again and the award.
pub fn every_length(judged: &Judged) -> Vec<Call> {
    let sheet = judged.sheet().map_or(60, |bytes| bytes.len());
    let page = judged.page().map_or(60, |bytes| bytes.len());
    let written = judged.written().map_or(60, |bytes| bytes.len());
    let rows = judged.reading.as_ref().map_or(7, |book| 7 * book.bids.len());
    let sheets = (0..=sheet + 8).map(Call::Sheet);
    let pages = (0..=page + 8).map(Call::Page);
    let books = (0..=written + 8).map(Call::Write);
    let awards = (0..=rows + 8).map(Call::Award);
    sheets.chain(pages).chain(books).chain(awards).collect()
}

/// Each kind of split, several times.
pub fn many_splits(random: &mut Random, judged: &Judged) -> Vec<Call> {
    let Ok(book) = &judged.reading else { return on_refused(random, judged) };
    let kinds = (0..2 * splits::KINDS).map(|turn| turn % splits::KINDS);
    kinds.map(|kind| Call::Split(splits::of_kind(random, judged, book, kind))).collect()
}

/// As `by_table`, by each of these tables, and the sheet in an output of just the limit; and the sizes, which know of no table.
pub fn by_tables(random: &mut Random, judged: &Judged, tables: &[Rc<Loaded>]) -> Vec<Call> {
    let limit = judged.reading.as_ref().map_or(600, |book| book.sheet_limit());
    let at_limit = tables.iter().map(|table| Call::SheetByTable(table.clone(), limit));
    let by_each = tables.iter().flat_map(|table| by_table(random, judged, table));
    by_each.chain(at_limit).chain([Call::Sizes, Call::Sheet(limit)]).collect()
}

/// The entries by this table, each with room for everything and with a length around the one needed, and the table written again.
pub fn by_table(random: &mut Random, judged: &Judged, table: &Rc<Loaded>) -> Vec<Call> {
    let sheet = judged.sheet_by(table.table()).map_or(50, |bytes| bytes.len());
    let page = judged.page_by(table.table()).map_or(260, |bytes| bytes.len());
    let rows = judged.reading.as_ref().map_or(7, |book| 7 * book.bids.len());
    let mut calls = written_table(random, table);
    calls.extend([
        Call::SheetByTable(table.clone(), enough_for_sheet(random, judged)),
        Call::SheetByTable(table.clone(), around(random, sheet)),
        Call::PageByTable(table.clone(), 585),
        Call::PageByTable(table.clone(), around(random, page)),
        Call::AwardByTable(table.clone(), 56),
        Call::AwardByTable(table.clone(), around(random, rows)),
    ]);
    calls
}

/// In an output that holds every table, and in one of a length around the one needed.
fn written_table(random: &mut Random, table: &Rc<Loaded>) -> Vec<Call> {
    let needed = table.written().map_or(50, |bytes| bytes.len());
    let length = around(random, needed);
    vec![Call::WriteTable(table.clone(), 336), Call::WriteTable(table.clone(), length)]
}

/// For a table's text that is damaged: the table written again, and one of the other entries.
pub fn by_damaged(random: &mut Random, table: &Rc<Loaded>) -> Vec<Call> {
    let mut calls = written_table(random, table);
    let any = [Call::Sheet(600), Call::Page(585), Call::Award(56), Call::Sheet(0), Call::Page(0), Call::Award(0)];
    calls.extend(any[random.below(any.len())].by_table(table));
    calls
}

/// Every length from 0 to 8 above the one needed, by a table.
pub fn every_length_by(judged: &Judged, table: &Rc<Loaded>) -> Vec<Call> {
    let sheet = judged.sheet_by(table.table()).map_or(60, |bytes| bytes.len());
    let page = judged.page_by(table.table()).map_or(60, |bytes| bytes.len());
    let written = table.written().map_or(60, |bytes| bytes.len());
    let rows = judged.reading.as_ref().map_or(7, |book| 7 * book.bids.len());
    let sheets = (0..=sheet + 8).map(|length| Call::SheetByTable(table.clone(), length));
    let pages = (0..=page + 8).map(|length| Call::PageByTable(table.clone(), length));
    let tables = (0..=written + 8).map(|length| Call::WriteTable(table.clone(), length));
    let awards = (0..=rows + 8).map(|length| Call::AwardByTable(table.clone(), length));
    sheets.chain(pages).chain(tables).chain(awards).collect()
}

/// The printed table in an output of every length up to a little above that of every table.
pub fn printed_table() -> Vec<Call> {
    let needed = Table::printed().written().len();
    (0..=needed + 8).chain([336, 337, 4096]).map(Call::PrintedTable).collect()
}
