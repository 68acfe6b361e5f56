//! The bid book: its numbers taken from a text, the rules 1 to 8, the book written again, the three figures that need no clearing, and the
//! price of a split.

use crate::shape::Shape;

#[derive(Clone, Debug, PartialEq)]
pub struct Segment {
    pub start: i64,
    pub end: i64,
    pub unit: i64,
    pub fixed: i64,
}

#[derive(Clone, Debug, PartialEq)]
pub struct Bid {
    pub bidder: i64,
    pub carriage: i64,
    pub segments: Vec<Segment>,
}

#[derive(Clone, Debug, PartialEq)]
pub struct Book {
    pub demand: i64,
    pub allowance: i64,
    pub bids: Vec<Bid>,
}

#[derive(Clone, Copy, Debug, PartialEq)]
pub struct Refusal {
    pub number: u64,
    pub place: u64,
}

/// What is known of a book before it is cleared: how long its text is, how many choices of segments there are, and how long its sheet is at
/// most.
#[derive(Clone, Copy, Debug, PartialEq)]
pub struct Sizes {
    pub bytes: usize,
    pub choices: u64,
    pub sheet: usize,
}

pub fn refusal(number: u64, place: usize) -> Refusal {
    Refusal { number, place: place as u64 }
}

impl Segment {
    pub fn holds(&self, quantity: i64) -> bool {
        self.start <= quantity && quantity <= self.end
    }

    /// The price of a quantity with the bid's carriage, which comes on top of the unit price.
    pub fn price(&self, carriage: i64, quantity: i64) -> i64 {
        (self.unit + carriage) * quantity + self.fixed
    }

    /// Without carriage, as rule 8 looks at it. In 128 bits, since a refused number may have thirteen digits.
    fn price_at_start(&self) -> i128 {
        i128::from(self.unit) * i128::from(self.start) + i128::from(self.fixed)
    }

    fn out_of_range(&self) -> bool {
        let fixed = -1_000_000_000_000..=1_000_000_000_000;
        let price = (0..=1_000_000).contains(&self.unit) && fixed.contains(&self.fixed);
        !(quantity_in_range(self.start) && quantity_in_range(self.end) && price)
    }
}

fn quantity_in_range(quantity: i64) -> bool {
    (1..=1_000_000).contains(&quantity)
}

impl Bid {
    fn out_of_range(&self) -> bool {
        let own = (1..=9_999).contains(&self.bidder) && (0..=10_000).contains(&self.carriage);
        !own || self.segments.iter().any(Segment::out_of_range)
    }

    fn disordered(&self) -> bool {
        let backward = self.segments.iter().any(|s| s.start > s.end);
        backward || self.segments.windows(2).any(|pair| pair[1].start <= pair[0].end)
    }

    /// The number of the segment that a quantity is on, counted from 1; 0 for the quantity 0.
    pub fn segment_of(&self, quantity: i64) -> Option<usize> {
        if quantity == 0 {
            return Some(0);
        }
        let found = self.segments.iter().position(|s| s.holds(quantity));
        found.map(|index| index + 1)
    }

    pub fn price(&self, quantity: i64) -> Option<i64> {
        let number = self.segment_of(quantity)?;
        match number {
            0 => Some(0),
            _ => Some(self.segments[number - 1].price(self.carriage, quantity)),
        }
    }
}

impl Book {
    /// Reads a text: refusals 1 and 2, then those of the lines.
    pub fn read(shape: &Shape, text: &[u8]) -> Result<Book, Refusal> {
        if text.len() > 4096 {
            return Err(refusal(1, 4096));
        }
        if let Some(place) = shape.refused_at(text) {
            return Err(refusal(2, place));
        }
        let book = Book::of_shape(text);
        match book.line_refusal() {
            Some(refused) => Err(refused),
            None => Ok(book),
        }
    }

    /// The numbers of a text that is of the shape: in such a text whatever is not part of a number only separates.
    fn of_shape(text: &[u8]) -> Book {
        let text = std::str::from_utf8(text).expect("the shape has ASCII alone");
        let mut lines = text.lines().map(numbers);
        let first = lines.next().expect("a demand line");
        Book { demand: first[0], allowance: first[1], bids: lines.map(|line| bid_of(&line)).collect() }
    }

    /// The refusal of the first line that breaks a rule.
    pub fn line_refusal(&self) -> Option<Refusal> {
        if !quantity_in_range(self.demand) || !(0..=1_000_000).contains(&self.allowance) {
            return Some(refusal(5, 1));
        }
        (0..self.bids.len()).find_map(|index| self.bid_refusal(index))
    }

    fn bid_refusal(&self, index: usize) -> Option<Refusal> {
        let bid = &self.bids[index];
        let rules = [
            (3, index >= 8),
            (4, bid.segments.len() > 6),
            (5, bid.out_of_range()),
            (6, index > 0 && bid.bidder <= self.bids[index - 1].bidder),
            (7, bid.disordered()),
            (8, bid.segments.iter().any(|s| s.price_at_start() < 0)),
        ];
        let broken = rules.iter().find(|rule| rule.1)?;
        Some(refusal(broken.0, index + 2))
    }

    pub fn written(&self) -> Vec<u8> {
        let bids: String = self.bids.iter().map(bid_line).collect();
        format!("(demand {} {})\n{bids}", self.demand, self.allowance).into_bytes()
    }

    /// Of each bid one of its segments is chosen, or segment 0.
    pub fn sizes(&self) -> Sizes {
        let choices = self.bids.iter().map(|bid| bid.segments.len() as u64 + 1).product();
        Sizes { bytes: self.written().len(), choices, sheet: self.sheet_limit() }
    }

    pub fn sheet_limit(&self) -> usize {
        39 + 66 * self.bids.len()
    }

    /// Whether so many blanks are taken: at least the demand, and at most demand and allowance.
    pub fn takes(&self, blanks: i64) -> bool {
        self.demand <= blanks && blanks <= self.demand + self.allowance
    }

    /// The price of a split and whether so many blanks as its quantities add up to are taken.
    pub fn split(&self, quantities: &[u64]) -> Result<(i64, bool), Refusal> {
        let mut price = 0;
        let mut sum = 0;
        for (index, bid) in self.bids.iter().enumerate() {
            let proposed = quantities.get(index).and_then(|&q| i64::try_from(q).ok());
            let answer = proposed.and_then(|q| bid.price(q).map(|p| (q, p)));
            let (quantity, cents) = answer.ok_or(refusal(11, index + 2))?;
            sum += quantity;
            price += cents;
        }
        if quantities.len() > self.bids.len() {
            return Err(refusal(11, self.bids.len() + 2));
        }
        Ok((price, self.takes(sum)))
    }
}

fn numbers(line: &str) -> Vec<i64> {
    let parts = line.split(|c: char| !(c.is_ascii_digit() || c == '-'));
    let written = parts.filter(|part| !part.is_empty());
    written.map(|part| part.parse().expect("a number of the shape")).collect()
}

fn bid_of(line: &[i64]) -> Bid {
    let fours = line[2..].chunks_exact(4);
    let segments = fours.map(|n| Segment { start: n[0], end: n[1], unit: n[2], fixed: n[3] });
    Bid { bidder: line[0], carriage: line[1], segments: segments.collect() }
}

fn bid_line(bid: &Bid) -> String {
    let segments: String = bid.segments.iter().map(segment_form).collect();
    format!("(bid {} {}{segments})\n", bid.bidder, bid.carriage)
}

fn segment_form(s: &Segment) -> String {
    format!(" (seg {} {} {} {})", s.start, s.end, s.unit, s.fixed)
}
