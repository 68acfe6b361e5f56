//! The entries for C, called with lent memory, and everything that a call leaves behind.

use crate::memory::{Area, Side};
use crate::random::Random;
use crate::table::Loaded;
use std::rc::Rc;

extern "C" {
    fn boccelarch_sheet(text: *const u8, text_length: usize, out: *mut u8, out_length: usize, place: *mut u64, bytes: *mut u64) -> u64;
    fn boccelarch_page(text: *const u8, text_length: usize, out: *mut u8, out_length: usize, place: *mut u64, bytes: *mut u64) -> u64;
    fn boccelarch_write(text: *const u8, text_length: usize, out: *mut u8, out_length: usize, place: *mut u64, bytes: *mut u64) -> u64;
    fn boccelarch_sizes(text: *const u8, text_length: usize, place: *mut u64, bytes: *mut u64, choices: *mut u64, sheet: *mut u64) -> u64;
    fn boccelarch_split(
        text: *const u8,
        text_length: usize,
        quantities: *const u64,
        count: usize,
        place: *mut u64,
        price: *mut i64,
        meets: *mut u64,
    ) -> u64;
    fn boccelarch_award(
        text: *const u8,
        text_length: usize,
        rows: *mut u64,
        rows_length: usize,
        place: *mut u64,
        bought: *mut u64,
        total: *mut u64,
        count: *mut u64,
    ) -> u64;
    fn boccelarch_sheet_by_table(
        table: *const u8,
        table_length: usize,
        text: *const u8,
        text_length: usize,
        out: *mut u8,
        out_length: usize,
        place: *mut u64,
        bytes: *mut u64,
    ) -> u64;
    fn boccelarch_page_by_table(
        table: *const u8,
        table_length: usize,
        text: *const u8,
        text_length: usize,
        out: *mut u8,
        out_length: usize,
        place: *mut u64,
        bytes: *mut u64,
    ) -> u64;
    fn boccelarch_award_by_table(
        table: *const u8,
        table_length: usize,
        text: *const u8,
        text_length: usize,
        rows: *mut u64,
        rows_length: usize,
        place: *mut u64,
        bought: *mut u64,
        total: *mut u64,
        count: *mut u64,
    ) -> u64;
    fn boccelarch_write_table(
        table: *const u8,
        table_length: usize,
        out: *mut u8,
        out_length: usize,
        place: *mut u64,
        bytes: *mut u64,
    ) -> u64;
    fn boccelarch_printed_table(out: *mut u8, out_length: usize, place: *mut u64, bytes: *mut u64) -> u64;
}

/// A call and what it is lent besides the text: an output's length in bytes, a split's quantities, or a length in numbers for the award's
/// rows; by a table also its text. `WriteTable` is given the table alone, and `PrintedTable` no text at all.
#[derive(Clone, Debug, PartialEq)]
pub enum Call {
    Sheet(usize),
    Page(usize),
    Write(usize),
    Sizes,
    Split(Vec<u64>),
    Award(usize),
    SheetByTable(Rc<Loaded>, usize),
    PageByTable(Rc<Loaded>, usize),
    AwardByTable(Rc<Loaded>, usize),
    WriteTable(Rc<Loaded>, usize),
    PrintedTable(usize),
}

impl Call {
    /// The same call by a table, where there is one.
    pub fn by_table(&self, table: &Rc<Loaded>) -> Option<Call> {
        match self {
            Call::Sheet(length) => Some(Call::SheetByTable(table.clone(), *length)),
            Call::Page(length) => Some(Call::PageByTable(table.clone(), *length)),
            Call::Award(length) => Some(Call::AwardByTable(table.clone(), *length)),
            _ => None,
        }
    }

    fn table(&self) -> &[u8] {
        match self {
            Call::SheetByTable(loaded, _) | Call::PageByTable(loaded, _) => &loaded.text,
            Call::AwardByTable(loaded, _) | Call::WriteTable(loaded, _) => &loaded.text,
            _ => &[],
        }
    }
}

/// What a call gives back: the numbers behind pointers besides the place (bytes; bytes, choices and sheet; price and meets; bought, total
/// and count; 0 where there is no second or third), the lent output whole, and whether text, table, quantities and all guards are as they
/// were.
#[derive(Clone, Debug, PartialEq)]
pub struct Answer {
    pub refusal: u64,
    pub place: u64,
    pub numbers: [u64; 3],
    pub output: Vec<u8>,
    pub rest_unchanged: bool,
}

/// What a lent output holds before a call.
pub fn pattern(length: usize) -> Vec<u8> {
    (0..length).map(|index| (index * 37 + 129) as u8).collect()
}

/// How many bytes of output, and which quantities, a call is lent.
fn lent(call: &Call) -> (usize, &[u64]) {
    match call {
        Call::Sheet(length) | Call::Page(length) | Call::Write(length) => (*length, &[]),
        Call::Sizes => (0, &[]),
        Call::Split(quantities) => (0, quantities),
        Call::Award(length) | Call::AwardByTable(_, length) => (8 * length, &[]),
        Call::SheetByTable(_, length) | Call::PageByTable(_, length) => (*length, &[]),
        Call::WriteTable(_, length) | Call::PrintedTable(length) => (*length, &[]),
    }
}

fn bytes_of(numbers: &[u64]) -> Vec<u8> {
    numbers.iter().flat_map(|number| number.to_ne_bytes()).collect()
}

const UNSET: u64 = 0xdead_beef_dead_beef;
const BETWEEN: u64 = 0x5a5a_5a5a_5a5a_5a5a;
const NUMBERS: [u64; 9] = [BETWEEN, UNSET, BETWEEN, UNSET, BETWEEN, UNSET, BETWEEN, UNSET, BETWEEN];

pub struct Entries {
    text: Area,
    table: Area,
    output: Area,
    quantities: Area,
    sides: Random,
}

impl Entries {
    pub fn new() -> Self {
        let [text, table, output, quantities] = std::array::from_fn(|_| Area::new());
        Entries { text, table, output, quantities, sides: Random::new(27) }
    }

    fn side(&mut self) -> Side {
        self.sides.pick(&[Side::Low, Side::Middle, Side::High])
    }

    pub fn answer(&mut self, text: &[u8], call: &Call) -> Answer {
        let (length, quantities) = lent(call);
        let quantities = bytes_of(quantities);
        let (one, two, three, four) = (self.side(), self.side(), self.side(), self.side());
        let text_at = self.text.lend(text, one);
        let output_at = self.output.lend(&pattern(length), two);
        let quantities_at = self.quantities.lend(&quantities, three);
        let table_at = self.table.lend(call.table(), four);
        let output_at = if quantities.is_empty() { output_at } else { quantities_at };
        let mut numbers = NUMBERS;
        let refusal = enter(call, (text_at, text.len()), (table_at, call.table().len()), output_at, &mut numbers);
        let apart = numbers.iter().step_by(2).all(|&number| number == BETWEEN);
        let [place, mut numbers @ ..] = [numbers[1], numbers[3], numbers[5], numbers[7]];
        numbers[count_of(call)..].iter_mut().for_each(|number| *number = number.wrapping_sub(UNSET));
        let lent = self.text.content() == text && self.table.content() == call.table() && self.quantities.content() == quantities;
        let areas = [&self.text, &self.table, &self.output, &self.quantities];
        let guards = areas.iter().all(|area| area.guards_unchanged());
        let output = self.output.content().to_vec();
        Answer { refusal, place, numbers, output, rest_unchanged: apart && lent && guards }
    }
}

/// How many numbers a call sets besides the place.
fn count_of(call: &Call) -> usize {
    match call {
        Call::Sizes | Call::Award(_) | Call::AwardByTable(..) => 3,
        Call::Split(_) => 2,
        _ => 1,
    }
}

/// Where a lent text begins, and its length.
type Text = (*const u8, usize);

/// Calls the entry; `lent` is the output, or the quantities of a split.
fn enter(call: &Call, (text, length): Text, (table, size): Text, lent: *mut u8, numbers: &mut [u64; 9]) -> u64 {
    let numbers = numbers.as_mut_ptr();
    // SAFETY: every pointer is valid for the length beside it, the areas start at pages and 64-bit numbers lie at multiples of 8,
    // and what is written to overlaps nothing else.
    unsafe {
        let (place, first, second, third) = (numbers.add(1), numbers.add(3), numbers.add(5), numbers.add(7));
        match call {
            Call::Sheet(bytes) => boccelarch_sheet(text, length, lent, *bytes, place, first),
            Call::Page(bytes) => boccelarch_page(text, length, lent, *bytes, place, first),
            Call::Write(bytes) => boccelarch_write(text, length, lent, *bytes, place, first),
            Call::Sizes => boccelarch_sizes(text, length, place, first, second, third),
            Call::Split(list) => boccelarch_split(text, length, lent.cast(), list.len(), place, first.cast(), second),
            Call::Award(rows) => boccelarch_award(text, length, lent.cast(), *rows, place, first, second, third),
            Call::SheetByTable(_, bytes) => boccelarch_sheet_by_table(table, size, text, length, lent, *bytes, place, first),
            Call::PageByTable(_, bytes) => boccelarch_page_by_table(table, size, text, length, lent, *bytes, place, first),
            Call::AwardByTable(_, rows) => {
                boccelarch_award_by_table(table, size, text, length, lent.cast(), *rows, place, first, second, third)
            }
            Call::WriteTable(_, bytes) => boccelarch_write_table(table, size, lent, *bytes, place, first),
            Call::PrintedTable(bytes) => boccelarch_printed_table(lent, *bytes, place, first),
        }
    }
}
