//! The sampling table: its bands taken from a text, the refusals 1, 2 and 12, the table written again, and the sample of a quantity.

use crate::book::{refusal, Refusal};
use crate::shape::Shape;
use std::fmt;

#[derive(Clone, Copy, Debug, PartialEq)]
pub struct Band {
    pub highest: i64,
    pub sample: i64,
}

#[derive(Clone, Debug, PartialEq)]
pub struct Table {
    pub bands: Vec<Band>,
}

/// Highest quantity and sample, as printed in the paper.
const PRINTED: [(i64, i64); 16] = [
    (1, 1),
    (8, 2),
    (15, 3),
    (25, 5),
    (50, 8),
    (90, 13),
    (150, 20),
    (280, 32),
    (500, 50),
    (1_200, 80),
    (3_200, 125),
    (10_000, 200),
    (35_000, 315),
    (150_000, 500),
    (500_000, 800),
    (1_000_000, 1_250),
];

/// What a line can break.
#[derive(Clone, Copy, Debug, PartialEq, Eq, PartialOrd, Ord)]
pub enum Rule {
    /// A highest quantity below 1.
    TooLow,
    /// A highest quantity above 1,000,000.
    TooHigh,
    /// A highest quantity not above the one before.
    NotRising,
    /// A sample below 1.
    TooSmall,
    /// A sample above 99,999.
    TooLarge,
    /// A sample below the one before.
    Falling,
    /// A sample above the lowest quantity of its band.
    AboveLowest,
    /// A last quantity that is not 1,000,000.
    WrongEnd,
    /// A seventeenth band, or a later one.
    TooMany,
}

/// All of them, in their order.
pub const RULES: [Rule; 9] = [
    Rule::TooLow,
    Rule::TooHigh,
    Rule::NotRising,
    Rule::TooSmall,
    Rule::TooLarge,
    Rule::Falling,
    Rule::AboveLowest,
    Rule::WrongEnd,
    Rule::TooMany,
];

impl Table {
    pub fn of(bands: &[(i64, i64)]) -> Table {
        Table { bands: bands.iter().map(|&(highest, sample)| Band { highest, sample }).collect() }
    }

    pub fn printed() -> Table {
        Table::of(&PRINTED)
    }

    /// Reads a text: refusals 1 and 2, then 12 with the first line that breaks a rule.
    pub fn read(shape: &Shape, text: &[u8]) -> Result<Table, Refusal> {
        if text.len() > 4096 {
            return Err(refusal(1, 4096));
        }
        if let Some(place) = shape.refused_at(text) {
            return Err(refusal(2, place));
        }
        let table = Table::of_shape(text);
        match table.first_fault() {
            Some((line, _)) => Err(refusal(12, line)),
            None => Ok(table),
        }
    }

    /// The numbers of a text that is of the shape: in such a text whatever is no digit only separates.
    fn of_shape(text: &[u8]) -> Table {
        let digits = text.split(|byte| !byte.is_ascii_digit()).filter(|part| !part.is_empty());
        let number = |part: &[u8]| part.iter().fold(0, |value, digit| 10 * value + i64::from(digit - b'0'));
        let numbers: Vec<i64> = digits.map(number).collect();
        Table { bands: numbers.chunks_exact(2).map(|pair| Band { highest: pair[0], sample: pair[1] }).collect() }
    }

    /// One above the highest quantity of the band before; 1 for the first.
    pub fn lowest(&self, index: usize) -> i64 {
        match index {
            0 => 1,
            _ => self.bands[index - 1].highest + 1,
        }
    }

    /// The rules that the line of a band breaks. A rule between two lines is broken by the later one.
    fn broken_by(&self, index: usize) -> Vec<Rule> {
        let band = &self.bands[index];
        let before = index.checked_sub(1).map(|last| &self.bands[last]);
        let broken = |rule: &Rule| match rule {
            Rule::TooLow => band.highest < 1,
            Rule::TooHigh => band.highest > 1_000_000,
            Rule::NotRising => before.is_some_and(|before| band.highest <= before.highest),
            Rule::TooSmall => band.sample < 1,
            Rule::TooLarge => band.sample > 99_999,
            Rule::Falling => before.is_some_and(|before| band.sample < before.sample),
            Rule::AboveLowest => band.sample > self.lowest(index),
            Rule::WrongEnd => index + 1 == self.bands.len() && band.highest != 1_000_000,
            Rule::TooMany => index >= 16,
        };
        RULES.into_iter().filter(broken).collect()
    }

    /// The first line that breaks a rule, counted from 1, and what it breaks.
    pub fn first_fault(&self) -> Option<(usize, Vec<Rule>)> {
        let lines = (0..self.bands.len()).map(|index| (index + 1, self.broken_by(index)));
        lines.into_iter().find(|line| !line.1.is_empty())
    }

    pub fn holds(&self, index: usize, quantity: i64) -> bool {
        self.lowest(index) <= quantity && quantity <= self.bands[index].highest
    }

    /// The sample of the band that the quantity lies in; 0 for the quantity 0.
    pub fn sample(&self, quantity: i64) -> i64 {
        if quantity == 0 {
            return 0;
        }
        let index = (0..self.bands.len()).find(|&index| self.holds(index, quantity));
        self.bands[index.expect("a quantity in its range")].sample
    }

    /// Whether the quantity lies in one band alone, that band has this sample, and no more is sampled than there is; or nothing of nothing.
    pub fn samples_well(&self, quantity: i64, sample: i64) -> bool {
        let holding: Vec<usize> = (0..self.bands.len()).filter(|&index| self.holds(index, quantity)).collect();
        match holding[..] {
            [index] => sample == self.bands[index].sample && 1 <= sample && sample <= quantity,
            _ => holding.is_empty() && quantity == 0 && sample == 0,
        }
    }

    pub fn written(&self) -> Vec<u8> {
        let line = |band: &Band| format!("(band {} {})\n", band.highest, band.sample);
        self.bands.iter().map(line).collect::<String>().into_bytes()
    }
}

/// The text of a table, and what is read from it.
#[derive(PartialEq)]
pub struct Loaded {
    pub text: Vec<u8>,
    pub reading: Result<Table, Refusal>,
}

impl Loaded {
    pub fn new(shape: &Shape, text: &[u8]) -> Self {
        Loaded { text: text.to_vec(), reading: Table::read(shape, text) }
    }

    pub fn table(&self) -> Result<&Table, Refusal> {
        self.reading.as_ref().map_err(|refused| *refused)
    }

    pub fn written(&self) -> Result<Vec<u8>, Refusal> {
        let written = self.table()?.written();
        assert!(written == self.text && written.len() <= 336, "a table that passes is written as it was, and 336 bytes hold it");
        Ok(written)
    }
}

impl fmt::Debug for Loaded {
    fn fmt(&self, to: &mut fmt::Formatter) -> fmt::Result {
        write!(to, "\"{}\"", self.text.escape_ascii())
    }
}
