//! Sampling tables: such as pass, such as break a rule in a line, and texts that are none.

use super::families::rising;
use crate::random::Random;
use crate::table::{Band, Rule, Table};

pub const MOST_BANDS: usize = 16;
const MOST: i64 = 1_000_000;
const MOST_SAMPLE: i64 = 99_999;
const THIRTEEN_DIGITS: i64 = 9_999_999_999_999;
/// A number that would be in its range if only its low 32 bits were kept.
const ABOVE_32_BITS: i64 = 4_294_967_296;

/// So many highest quantities, the last 1,000,000: near each other, so that small books meet many of them, or far apart.
fn highest(random: &mut Random, count: usize) -> Vec<i64> {
    let top = random.pick(&[16, 16, 30, 60, 400, 10_000, MOST - 1]);
    let mut all = rising(random, count - 1, top.max(count as i64));
    all.push(MOST);
    all
}

/// Samples that never fall: often the most that a band may have, or that of the band before.
fn with_samples(random: &mut Random, highest: &[i64]) -> Table {
    let mut table = Table { bands: Vec::new() };
    for &highest in highest {
        let least = table.bands.last().map_or(1, |before| before.sample);
        let most = table.lowest(table.bands.len()).min(MOST_SAMPLE);
        let sample = match random.below(4) {
            0 => most,
            1 => least,
            2 => (least + random.between(0, 3)).min(most),
            _ => random.between(least, most),
        };
        table.bands.push(Band { highest, sample });
    }
    table
}

/// A table of so many bands that keeps every other rule.
pub fn of_bands(random: &mut Random, count: usize) -> Table {
    let highest = highest(random, count);
    with_samples(random, &highest)
}

pub fn passing(random: &mut Random) -> Table {
    let count = random.pick(&[1, 2, 3, 4, 6, 9, 12, 15, 16, 16]);
    of_bands(random, count)
}

/// Bands from 99,999 on, each with the largest sample.
fn of_large_samples(random: &mut Random, count: usize) -> Table {
    let steps = rising(random, count - 1, MOST - 100_000);
    let highest = steps.iter().map(|step| 99_999 - 1 + step).chain([MOST]);
    let mut table = Table { bands: Vec::new() };
    for highest in highest {
        let sample = table.lowest(table.bands.len()).min(MOST_SAMPLE);
        table.bands.push(Band { highest, sample });
    }
    table
}

/// A table of so many bands in which the line, counted from 1, breaks the rule where it can; where it can be, that rule alone, and no line
/// before it is wrong.
pub fn broken(random: &mut Random, rule: Rule, count: usize, line: usize) -> Table {
    let mut table = match random.chance(50) {
        true => of_large_samples(random, count),
        false => of_bands(random, count),
    };
    break_rule(random, &mut table, rule, line - 1);
    table
}

fn break_rule(random: &mut Random, table: &mut Table, rule: Rule, index: usize) {
    let lowest = table.lowest(index);
    let before = index.checked_sub(1).map_or(Band { highest: 0, sample: 1 }, |last| table.bands[last]);
    let last = index + 1 == table.bands.len();
    let band = &mut table.bands[index];
    match rule {
        Rule::TooLow => band.highest = 0,
        Rule::TooHigh => band.highest = random.pick(&[MOST + 1, MOST + 1, THIRTEEN_DIGITS, ABOVE_32_BITS + band.highest]),
        Rule::NotRising if last && index > 0 => table.bands[index - 1].highest = MOST,
        Rule::NotRising => band.highest = random.pick(&[before.highest, before.highest, before.highest - 1, 1]),
        Rule::TooSmall => band.sample = 0,
        Rule::TooLarge => band.sample = random.pick(&[MOST_SAMPLE + 1, MOST_SAMPLE + 1, THIRTEEN_DIGITS, ABOVE_32_BITS + band.sample]),
        Rule::Falling => band.sample = random.pick(&[before.sample - 1, before.sample - 1, 1]),
        Rule::AboveLowest => band.sample = random.pick(&[lowest + 1, lowest + 1, lowest + 2, 10 * lowest]),
        Rule::WrongEnd => {
            table.bands.truncate(index + 1);
            let near = [MOST - 1, MOST - 1, before.highest + 1];
            table.bands[index].highest = random.pick(&near).min(MOST - 1);
        }
        Rule::TooMany => {}
    }
}

/// Several lines wrong, of a table that may have too many bands.
pub fn several_broken(random: &mut Random, rules: &[Rule]) -> Table {
    let count = random.pick(&[1, 2, 3, 5, 8, 16, 16, 17, 18, 30]);
    let mut table = of_bands(random, count);
    for _ in 0..random.between(1, 4) {
        let index = random.below(table.bands.len());
        let rule = random.pick(rules);
        break_rule(random, &mut table, rule, index);
    }
    table
}

const TOKENS: [&str; 22] = [
    "(",
    ")",
    " ",
    "\n",
    "band",
    "(band ",
    "(bid ",
    "0",
    "1",
    "-1",
    "12",
    "00",
    "01",
    "9999999999999",
    "99999999999999",
    ")\n",
    " 1)\n",
    " 1",
    "(band 1 1)\n",
    "(band 1000000 1)\n",
    "(band 1000000 2)\n",
    "(band 05 1)\n",
];

const BEGINNINGS: [&str; 6] = ["", "(band ", "(band 1", "(band 1 ", "(band 1 1", "(band 1 1)\n"];

/// Words and signs of a table in any order, after a good beginning.
pub fn tokens(random: &mut Random) -> Vec<u8> {
    let mut text = random.pick(&BEGINNINGS).to_string();
    for _ in 0..random.between(1, 7) {
        text += random.pick(&TOKENS);
    }
    text.into_bytes()
}
