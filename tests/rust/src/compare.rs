//! Calls the product and the reference on a text, by a table where the call takes one, compares everything that each gives, and counts.

use crate::book::Refusal;
use crate::entries::{Answer, Call, Entries};
use crate::expected::Judged;
use crate::page;
use crate::shape::Shape;
use crate::sheet;
use crate::table::{Loaded, Rule};
use std::collections::{BTreeSet, HashSet};
use std::rc::Rc;

/// How many differences are printed whole.
const PRINTED: u64 = 10;

/// Enough for every table that passes.
const TABLE_BYTES: usize = 336;

#[derive(Clone, Copy, Default)]
pub struct Counts {
    pub texts: u64,
    pub calls: u64,
    pub different: u64,
    /// Texts that are books, of these the ones cleared, of these the ones with a carriage above 0, with an allowance above 0 and of which
    /// more than the demand is bought, and of their totals without a bidder the `none`.
    pub accepted: u64,
    pub cleared: u64,
    pub carried: u64,
    pub allowed: u64,
    pub over: u64,
    pub none: u64,
    /// Pages of the product that were read back.
    pub pages: u64,
    /// Sheets of the product that were held against the limit of their length.
    pub sheets: u64,
    /// Samples of the product that were looked at.
    pub samples: u64,
    /// Tables that were loaded, and those of them that pass.
    pub tables: u64,
    pub passing: u64,
}

pub struct Comparer {
    pub shape: Shape,
    pub table_shape: Shape,
    entries: Entries,
    pub counts: Counts,
    /// How often the product gave each refusal, 0 where nothing was refused.
    pub refusals: [u64; 13],
    /// The rules that tables broke alone in their first wrong line, each with the line.
    pub faults: BTreeSet<(Rule, usize)>,
    /// The length of the product's widest sheet for each number of bids.
    pub widest: [usize; 9],
    /// The lengths of accepted texts, as the product gives them.
    pub lengths: BTreeSet<u64>,
    /// The printed table as the product writes it.
    printed_table: Rc<Loaded>,
    distinct: HashSet<Vec<u8>>,
    distinct_tables: HashSet<Vec<u8>>,
    printed: u64,
}

impl Comparer {
    pub fn new() -> Self {
        let table_shape = Shape::of_table();
        let mut entries = Entries::new();
        let printed = entries.answer(&[], &Call::PrintedTable(TABLE_BYTES));
        let text = printed.output.get(..printed.numbers[0] as usize).unwrap_or_default();
        Comparer {
            shape: Shape::of_book(),
            printed_table: Rc::new(Loaded::new(&table_shape, text)),
            table_shape,
            entries,
            counts: Counts::default(),
            refusals: [0; 13],
            faults: BTreeSet::new(),
            widest: [0; 9],
            lengths: BTreeSet::new(),
            distinct: HashSet::new(),
            distinct_tables: HashSet::new(),
            printed: PRINTED,
        }
    }

    /// A comparer that counts differences and prints none.
    pub fn silent() -> Self {
        Comparer { printed: 0, ..Comparer::new() }
    }

    pub fn distinct_texts(&self) -> usize {
        self.distinct.len()
    }

    pub fn distinct_table_texts(&self) -> usize {
        self.distinct_tables.len()
    }

    /// A table's text, for calls; counts what kind of table it is.
    pub fn load(&mut self, text: &[u8]) -> Rc<Loaded> {
        let loaded = Loaded::new(&self.table_shape, text);
        self.counts.tables += 1;
        self.counts.passing += u64::from(loaded.reading.is_ok());
        self.distinct_tables.insert(text.to_vec());
        Rc::new(loaded)
    }

    pub fn text(&mut self, text: &[u8], calls: impl FnOnce(&Judged) -> Vec<Call>) {
        let judged = Judged::new(&self.shape, text);
        self.counts.texts += 1;
        if !self.distinct.contains(text) {
            self.distinct.insert(text.to_vec());
        }
        let turn = (self.counts.texts % 3) as usize;
        let mut again = None;
        for call in calls(&judged) {
            let expected = judged.answer(&call);
            let answer = self.call(text, &call, &expected);
            self.look_at(text, &judged, &call, &answer);
            if again.is_none() && by_turn(turn, &call) {
                again = Some((call, answer));
            }
        }
        if let Some((call, answer)) = again {
            self.by_printed(text, &call, answer);
        }
        self.note(&judged);
    }

    /// What holds of an answer that is no refusal.
    pub fn look_at(&mut self, text: &[u8], judged: &Judged, call: &Call, answer: &Answer) {
        if answer.refusal != 0 {
            return;
        }
        match call {
            Call::Sheet(_) | Call::SheetByTable(..) => self.within_limit(text, judged, answer),
            Call::Sizes => {
                self.lengths.insert(answer.numbers[0]);
            }
            Call::Page(_) => self.read_back(text, judged.sheet(), answer),
            Call::PageByTable(loaded, _) => self.read_back(text, judged.sheet_by(loaded.table()), answer),
            Call::AwardByTable(loaded, _) => self.sampled_well(text, loaded, answer),
            _ => {}
        }
    }

    /// No sheet is longer than the limit that is known without clearing, whatever the table.
    fn within_limit(&mut self, text: &[u8], judged: &Judged, answer: &Answer) {
        let Ok(book) = &judged.reading else { return };
        let bytes = answer.numbers[0] as usize;
        let widest = &mut self.widest[book.bids.len()];
        *widest = bytes.max(*widest);
        self.counts.sheets += 1;
        if bytes > book.sheet_limit() {
            self.different(|| format!("a sheet of {bytes} bytes, the text \"{}\"", text.escape_ascii()));
        }
    }

    /// What an entry answers without a table, it answers by the printed table.
    fn by_printed(&mut self, text: &[u8], call: &Call, answer: Answer) {
        if let Some(by_table) = call.by_table(&self.printed_table.clone()) {
            self.call(text, &by_table, &answer);
        }
    }

    /// Each quantity of the product's rows lies in one band, and the sample is that band's and not above the quantity.
    fn sampled_well(&mut self, text: &[u8], loaded: &Loaded, answer: &Answer) {
        let number = |bytes: &[u8]| i64::from_ne_bytes(bytes.try_into().expect("eight bytes"));
        let numbers: Vec<i64> = answer.output.chunks_exact(8).map(number).collect();
        for row in numbers.chunks_exact(7).take(answer.numbers[2] as usize) {
            self.counts.samples += 1;
            if !loaded.table().is_ok_and(|table| table.samples_well(row[2], row[4])) {
                self.different(|| format!("{} of {} sampled by {loaded:?}, the text \"{}\"", row[4], row[2], text.escape_ascii()));
            }
        }
    }

    /// Counts what kind of text it was.
    fn note(&mut self, judged: &Judged) {
        self.counts.accepted += u64::from(judged.reading.is_ok());
        if let Some((book, award)) = judged.known_award() {
            self.counts.cleared += 1;
            self.counts.carried += u64::from(book.bids.iter().any(|bid| bid.carriage > 0));
            self.counts.allowed += u64::from(book.allowance > 0);
            self.counts.over += u64::from(award.bought > book.demand);
            self.counts.none += award.without.iter().filter(|total| total.is_none()).count() as u64;
        }
    }

    /// The columns of the product's page, read as numbers, must be what the sheet shows.
    fn read_back(&mut self, text: &[u8], sheet: Result<Vec<u8>, Refusal>, answer: &Answer) {
        let page = answer.output.get(..answer.numbers[0] as usize);
        let read = page.and_then(page::shown);
        self.counts.pages += 1;
        if !sheet.is_ok_and(|sheet| read == Some(sheet::shown(&sheet))) {
            self.different(|| format!("the columns of the page of the text \"{}\": {read:?}", text.escape_ascii()));
        }
    }

    pub fn call(&mut self, text: &[u8], call: &Call, expected: &Answer) -> Answer {
        let answer = self.entries.answer(text, call);
        self.counts.calls += 1;
        if let Some(count) = self.refusals.get_mut(answer.refusal as usize) {
            *count += 1;
        }
        if answer != *expected {
            let (wanted, given) = (described(expected), described(&answer));
            self.different(|| format!("{call:?} of the text \"{}\"\n  expected {wanted}\n  got      {given}", text.escape_ascii()));
        }
        answer
    }

    /// Counts a difference, and says which while few have been printed.
    fn different(&mut self, which: impl FnOnce() -> String) {
        self.counts.different += 1;
        if self.printed > 0 {
            self.printed -= 1;
            println!("DIFFERENT: {}", which());
        }
    }
}

/// Which entry is called again by the printed table: a text's turn.
fn by_turn(turn: usize, call: &Call) -> bool {
    match turn {
        0 => matches!(call, Call::Sheet(_)),
        1 => matches!(call, Call::Page(_)),
        _ => matches!(call, Call::Award(_)),
    }
}

fn described(answer: &Answer) -> String {
    let Answer { refusal, place, numbers, output, rest_unchanged } = answer;
    let output = output.escape_ascii();
    format!("refusal {refusal} place {place} numbers {numbers:?} rest unchanged {rest_unchanged} output \"{output}\"")
}
