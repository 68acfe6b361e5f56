//! The shapes of a bid book and of a sampling table, each as a finite automaton over bytes.
//!
//! The grammar is laid out as states, those from which the end cannot be reached are dropped, and the sets of the others are made into a
//! table. A beginning of a text is possible exactly when its set of states is not empty.

use std::collections::BTreeMap;

enum Part {
    Word(&'static str),
    Among(u8, u8),
    Row(Vec<Part>),
    Either(Vec<Part>),
    Repeated(Box<Part>),
    AtMost(usize, Box<Part>),
}

use Part::{Among, AtMost, Either, Repeated, Row, Word};

/// A digit 1 to 9 and at most twelve further digits.
fn positive() -> Part {
    let further = AtMost(12, Box::new(Among(b'0', b'9')));
    Row(vec![Among(b'1', b'9'), further])
}

fn number() -> Part {
    Either(vec![Word("0"), positive()])
}

fn fixed_price() -> Part {
    Either(vec![number(), Row(vec![Word("-"), positive()])])
}

fn segment() -> Part {
    let unsigned = [Word(" (seg "), number(), Word(" "), number(), Word(" ")];
    let mut parts: Vec<Part> = unsigned.into_iter().collect();
    parts.extend([number(), Word(" "), fixed_price(), Word(")")]);
    Row(parts)
}

fn bid() -> Part {
    let segments = Repeated(Box::new(segment()));
    Row(vec![Word("(bid "), number(), Word(" "), number(), segments, Word(")\n")])
}

fn book() -> Part {
    let bids = Repeated(Box::new(bid()));
    Row(vec![Word("(demand "), number(), Word(" "), number(), Word(")\n"), bids])
}

fn band() -> Part {
    Row(vec![Word("(band "), number(), Word(" "), number(), Word(")\n")])
}

fn table() -> Part {
    Repeated(Box::new(band()))
}

/// The states: those that a byte of a range leads to, and those that are reached without a byte.
#[derive(Default)]
struct States {
    steps: Vec<Vec<(u8, u8, usize)>>,
    free: Vec<Vec<usize>>,
}

impl States {
    fn add(&mut self) -> usize {
        self.steps.push(Vec::new());
        self.free.push(Vec::new());
        self.steps.len() - 1
    }

    fn step(&mut self, from: usize, low: u8, high: u8) -> usize {
        let to = self.add();
        self.steps[from].push((low, high, to));
        to
    }

    /// Lays a part out after `from` and gives the state after it.
    fn lay(&mut self, part: &Part, from: usize) -> usize {
        match part {
            Word(word) => word.bytes().fold(from, |at, b| self.step(at, b, b)),
            Among(low, high) => self.step(from, *low, *high),
            Row(parts) => parts.iter().fold(from, |at, p| self.lay(p, at)),
            Either(parts) => self.lay_either(parts, from),
            Repeated(part) => self.lay_repeated(part, from),
            AtMost(count, part) => self.lay_at_most(*count, part, from),
        }
    }

    fn lay_either(&mut self, parts: &[Part], from: usize) -> usize {
        let end = self.add();
        for part in parts {
            let last = self.lay(part, from);
            self.free[last].push(end);
        }
        end
    }

    fn lay_repeated(&mut self, part: &Part, from: usize) -> usize {
        let start = self.add();
        self.free[from].push(start);
        let end = self.lay(part, start);
        self.free[end].push(start);
        end
    }

    fn lay_at_most(&mut self, count: usize, part: &Part, from: usize) -> usize {
        let end = self.add();
        let mut at = from;
        for _ in 0..count {
            self.free[at].push(end);
            at = self.lay(part, at);
        }
        self.free[at].push(end);
        end
    }

    /// For each state whether `end` can be reached from it.
    fn reaches_end(&self, end: usize) -> Vec<bool> {
        let all = 0..self.steps.len();
        let mut reaches: Vec<bool> = all.clone().map(|state| state == end).collect();
        loop {
            let further = all.clone().map(|state| self.leads_to(state, &reaches)).collect();
            if reaches == further {
                return reaches;
            }
            reaches = further;
        }
    }

    /// Whether a state is among those, or one of those comes next after it.
    fn leads_to(&self, state: usize, those: &[bool]) -> bool {
        let by_byte = self.steps[state].iter().any(|s| those[s.2]);
        let by_none = self.free[state].iter().any(|&s| those[s]);
        those[state] || by_byte || by_none
    }

    /// The states reached from `from` without a byte, `from` among them, in rising order, less those that do not reach the end.
    fn closed(&self, from: Vec<usize>, reaches_end: &[bool]) -> Vec<usize> {
        let mut reached = vec![false; self.steps.len()];
        let mut waiting = from;
        while let Some(state) = waiting.pop() {
            if reaches_end[state] && !reached[state] {
                reached[state] = true;
                waiting.extend(&self.free[state]);
            }
        }
        (0..reached.len()).filter(|&s| reached[s]).collect()
    }

    fn after(&self, set: &[usize], byte: u8, reaches_end: &[bool]) -> Vec<usize> {
        let steps = set.iter().flat_map(|&s| &self.steps[s]);
        let taken = steps.filter(|s| s.0 <= byte && byte <= s.1);
        self.closed(taken.map(|s| s.2).collect(), reaches_end)
    }
}

/// Stands for the empty set.
const NONE_LEFT: usize = usize::MAX;

/// The sets of states found so far; the number of a set is its index in the list.
#[derive(Default)]
struct Sets {
    list: Vec<Vec<usize>>,
    numbers: BTreeMap<Vec<usize>, usize>,
}

impl Sets {
    /// The number of a set, which is added to the list where it is new.
    fn number(&mut self, set: Vec<usize>) -> usize {
        if set.is_empty() {
            return NONE_LEFT;
        }
        let fresh = self.list.len();
        let number = *self.numbers.entry(set.clone()).or_insert(fresh);
        if number == fresh {
            self.list.push(set);
        }
        number
    }
}

/// The table: for each set of states the set after each byte, and whether a text may end there.
pub struct Shape {
    next: Vec<[usize; 256]>,
    whole: Vec<bool>,
}

impl Shape {
    pub fn of_book() -> Self {
        Shape::of(&book())
    }

    pub fn of_table() -> Self {
        Shape::of(&table())
    }

    fn of(whole: &Part) -> Self {
        let mut states = States::default();
        let start = states.add();
        let end = states.lay(whole, start);
        let reaches_end = states.reaches_end(end);
        let mut sets = Sets::default();
        sets.number(states.closed(vec![start], &reaches_end));
        let mut shape = Shape { next: Vec::new(), whole: Vec::new() };
        while shape.next.len() < sets.list.len() {
            let set = sets.list[shape.next.len()].clone();
            let after = |byte| sets.number(states.after(&set, byte as u8, &reaches_end));
            shape.next.push(std::array::from_fn(after));
            shape.whole.push(set.contains(&end));
        }
        shape
    }

    /// The place of refusal 2, the length of the longest possible beginning; nothing for a text of the shape.
    pub fn refused_at(&self, text: &[u8]) -> Option<usize> {
        let mut state = 0;
        for (place, &byte) in text.iter().enumerate() {
            state = self.next[state][byte as usize];
            if state == NONE_LEFT {
                return Some(place);
            }
        }
        if self.whole[state] {
            None
        } else {
            Some(text.len())
        }
    }
}
