//! What the papers and the header say that each call gives for a text, and for a table where the call takes one.

use crate::book::{refusal, Book, Refusal};
use crate::clearing::{self, Award};
use crate::entries::{pattern, Answer, Call};
use crate::page;
use crate::shape::Shape;
use crate::sheet;
use crate::table::Table;
use std::cell::OnceCell;

/// A text read once, and its award once somebody asks for it.
pub struct Judged {
    pub reading: Result<Book, Refusal>,
    cleared: OnceCell<Result<(Book, Award), Refusal>>,
}

impl Judged {
    pub fn new(shape: &Shape, text: &[u8]) -> Self {
        let reading = Book::read(shape, text);
        assert!(reading.as_ref().map_or(true, |book| book.written() == text), "an accepted text is written as it was");
        Judged { reading, cleared: OnceCell::new() }
    }

    /// The book and its award, or the refusal: those of the text, then 9.
    pub fn cleared(&self) -> Result<&(Book, Award), Refusal> {
        let clear = || {
            let book = self.reading.clone()?;
            let award = clearing::award(&book).ok_or(refusal(9, 0))?;
            Ok((book, award))
        };
        self.cleared.get_or_init(clear).as_ref().map_err(|refused| *refused)
    }

    /// The book and its award, if some call asked for it and there is one.
    pub fn known_award(&self) -> Option<&(Book, Award)> {
        self.cleared.get()?.as_ref().ok()
    }

    fn book(&self) -> Result<&Book, Refusal> {
        self.reading.as_ref().map_err(|refused| *refused)
    }

    pub fn sheet(&self) -> Result<Vec<u8>, Refusal> {
        self.sheet_by(Ok(&Table::printed()))
    }

    /// By a table, whose refusals come before all of the book's.
    pub fn sheet_by(&self, table: Result<&Table, Refusal>) -> Result<Vec<u8>, Refusal> {
        let table = table?;
        let (book, award) = self.cleared()?;
        let sheet = sheet::sheet(book, award, table);
        assert!(sheet.len() <= book.sheet_limit(), "a sheet has at most 39 bytes and 66 for each bid");
        Ok(sheet)
    }

    pub fn page(&self) -> Result<Vec<u8>, Refusal> {
        self.page_by(Ok(&Table::printed()))
    }

    pub fn page_by(&self, table: Result<&Table, Refusal>) -> Result<Vec<u8>, Refusal> {
        let table = table?;
        let (book, award) = self.cleared()?;
        let page = page::page(book, award, table);
        assert!(page.len() == 65 * (book.bids.len() + 1), "a line of a page is 64 bytes and a byte 10");
        Ok(page)
    }

    pub fn written(&self) -> Result<Vec<u8>, Refusal> {
        Ok(self.book()?.written())
    }

    fn sizes(&self) -> Result<[u64; 3], Refusal> {
        let sizes = self.book()?.sizes();
        Ok([sizes.bytes as u64, sizes.choices, sizes.sheet as u64])
    }

    pub fn answer(&self, call: &Call) -> Answer {
        match call {
            Call::Sheet(length) => put_down(self.sheet(), *length, |bytes| [bytes, 0, 0]),
            Call::Page(length) => put_down(self.page(), *length, |bytes| [bytes, 0, 0]),
            Call::Write(length) => put_down(self.written(), *length, |bytes| [bytes, 0, 0]),
            Call::Sizes => bare(self.sizes()),
            Call::Split(list) => bare(self.split(list)),
            Call::Award(length) => self.award_by(Ok(&Table::printed()), *length),
            Call::SheetByTable(loaded, length) => put_down(self.sheet_by(loaded.table()), *length, |bytes| [bytes, 0, 0]),
            Call::PageByTable(loaded, length) => put_down(self.page_by(loaded.table()), *length, |bytes| [bytes, 0, 0]),
            Call::AwardByTable(loaded, length) => self.award_by(loaded.table(), *length),
            Call::WriteTable(loaded, length) => put_down(loaded.written(), *length, |bytes| [bytes, 0, 0]),
            Call::PrintedTable(length) => put_down(Ok(Table::printed().written()), *length, |bytes| [bytes, 0, 0]),
        }
    }

    fn split(&self, list: &[u64]) -> Result<[u64; 3], Refusal> {
        let (price, meets) = self.book()?.split(list)?;
        Ok([price as u64, u64::from(meets), 0])
    }

    fn award_by(&self, table: Result<&Table, Refusal>, length: usize) -> Answer {
        let numbers = table.and_then(|table| self.cleared().map(|(book, award)| sheet::numbers(book, award, table)));
        let bytes = numbers.map(|all| all.iter().flat_map(|n| n.to_ne_bytes()).collect());
        put_down(bytes, 8 * length, |_| {
            let (book, award) = self.cleared().expect("nothing is refused");
            [award.bought as u64, award.total as u64, book.bids.len() as u64]
        })
    }
}

fn refused(by: Refusal, length: usize) -> Answer {
    let output = pattern(length);
    Answer { refusal: by.number, place: by.place, numbers: [0; 3], output, rest_unchanged: true }
}

/// The answer of a call without an output.
fn bare(numbers: Result<[u64; 3], Refusal>) -> Answer {
    match numbers {
        Err(by) => refused(by, 0),
        Ok(numbers) => Answer { refusal: 0, place: 0, numbers, output: Vec::new(), rest_unchanged: true },
    }
}

/// The answer of a call that writes `bytes` to an output of `length` bytes; `numbers` is given how many they are.
fn put_down(bytes: Result<Vec<u8>, Refusal>, length: usize, numbers: impl Fn(u64) -> [u64; 3]) -> Answer {
    let fitting = bytes.and_then(|bytes| match bytes.len() <= length {
        true => Ok(bytes),
        false => Err(refusal(10, bytes.len())),
    });
    match fitting {
        Err(by) => refused(by, length),
        Ok(bytes) => {
            let mut output = pattern(length);
            output[..bytes.len()].copy_from_slice(&bytes);
            let numbers = numbers(bytes.len() as u64);
            Answer { refusal: 0, place: 0, numbers, output, rest_unchanged: true }
        }
    }
}
