//! The entries for C compared with a reference of its own, which is written from the customer's papers alone.
//!
//! First the self-test (alone with `--self-test`), then the groups. A text is one book or what stands for one; on each several calls are
//! made, and of each call the number returned, every number behind a pointer, every lent byte and the bytes around them are compared. In
//! the last groups the calls are made by a sampling table or what stands for one. Each text is also given once by the printed table, as
//! the product writes that, and the answer compared with the product's own without a table. Each page is read back by its columns, the
//! samples by a table are held against its bands, and each sheet against the limit of its length.
//!
//! Then the groups of pairs, a book and the same book with a discount, with raised prices or with a bidder struck: the award of each is
//! asked for, and the two answers are held against the laws of the change. There must be enough pairs of each kind. A discount on one
//! segment alone promises the bidder nothing: some must lose it blanks, which shows that the law of discounts says something.
//!
//! In the last line, passed and failed count the compared calls, the pages read back, the samples and the sheets looked at, and the laws
//! tried: together they are all of them.

#![deny(warnings)]

mod book;
mod cases;
mod clearing;
mod compare;
mod entries;
mod expected;
mod generate;
mod groups;
mod kinds;
mod lawcases;
mod lawchecks;
mod lawgroups;
mod laws;
mod memory;
mod page;
mod pairs;
mod random;
mod selftest;
mod shape;
mod sheet;
mod table;
mod tablegroups;
mod ties;

use compare::{Comparer, Counts};
use generate::widest;
use kinds::KINDS;
use pairs::Pairs;
use std::process::ExitCode;
use table::{Rule, RULES};

const TEXTS_WANTED: usize = 100_000;
const CARRIED_WANTED: u64 = 50_000;
const ALLOWED_WANTED: u64 = 50_000;
const OVER_WANTED: u64 = 10_000;
const TABLES_WANTED: usize = 40_000;
const PASSING_WANTED: u64 = 15_000;
const PAIRS_WANTED: usize = 150_000;

/// The seed of the first group of pairs.
const PAIRS_SEED: u64 = 1_001;

fn run_groups(comparer: &mut Comparer) {
    for (seed, (name, group)) in groups::GROUPS.into_iter().enumerate() {
        let before = comparer.counts;
        group(comparer, &mut random::Random::new(seed as u64 + 1));
        let after = comparer.counts;
        let (texts, calls) = (after.texts - before.texts, after.calls - before.calls);
        let (accepted, cleared) = (after.accepted - before.accepted, after.cleared - before.cleared);
        let different = after.different - before.different;
        println!("{name}: {texts} texts ({accepted} accepted, {cleared} cleared), {calls} calls, {different} different");
    }
}

/// Runs one group of pairs and says what was tried.
fn law_group(pairs: &mut Pairs, name: &str, group: impl FnOnce(&mut Pairs)) {
    let before = pairs.counts;
    group(pairs);
    let after = pairs.counts;
    let (made, compared) = (after.pairs - before.pairs, after.compared - before.compared);
    let (laws, broken) = (after.laws - before.laws, after.broken - before.broken);
    println!("{name}: {made} pairs ({compared} compared with the reference too), {laws} laws tried, {broken} broken");
}

fn run_law_groups(pairs: &mut Pairs) {
    let mut seeds = (PAIRS_SEED..).map(random::Random::new);
    let mut random = || seeds.next().expect("seeds without end");
    law_group(pairs, "changes worked out by hand", |pairs| lawgroups::cases(pairs, &mut random()));
    for (change, changer) in lawgroups::CHANGERS {
        for (books, group) in lawgroups::SORTS {
            law_group(pairs, &format!("{change}, {books}"), |pairs| group(pairs, &mut random(), changer));
        }
    }
    law_group(pairs, "discounts on one segment, hard books", |pairs| lawgroups::one_segment(pairs, &mut random()));
}

/// Says how often each refusal was given; each must have been.
fn every_refusal(comparer: &Comparer) -> bool {
    let counts = comparer.refusals.iter().enumerate();
    let each: Vec<String> = counts.map(|(number, count)| format!("{number}: {count}")).collect();
    println!("refusals: {}", each.join(", "));
    comparer.refusals.iter().all(|&count| count > 0)
}

/// The lines, from the first to the last, in which a rule can be the only one that is broken. From the second line on a quantity or a
/// sample below 1 is also below the one before. The first sample is 1, so the second cannot fall without being below 1; and in the first
/// line a sample above 99,999 is above the lowest quantity too. A last quantity above 1,000,000 is a wrong end too.
fn broken_alone(rule: Rule) -> (usize, usize) {
    match rule {
        Rule::TooLow | Rule::TooSmall => (1, 1),
        Rule::TooHigh => (1, 15),
        Rule::NotRising | Rule::TooLarge => (2, 16),
        Rule::Falling => (3, 16),
        Rule::AboveLowest | Rule::WrongEnd => (1, 16),
        Rule::TooMany => (17, 17),
    }
}

/// Each rule must have been broken alone in each line where it can be.
fn every_fault(comparer: &Comparer) -> bool {
    let lines = |rule| (broken_alone(rule).0..=broken_alone(rule).1).map(move |line| (rule, line));
    let missing: Vec<(Rule, usize)> = RULES.into_iter().flat_map(lines).filter(|fault| !comparer.faults.contains(fault)).collect();
    println!("{} faults of a table, each a rule broken alone in a line", comparer.faults.len());
    if !missing.is_empty() {
        println!("FAILED: no table with {missing:?}");
    }
    missing.is_empty()
}

/// Enough tables, and of these enough that pass.
fn enough_tables(comparer: &Comparer) -> bool {
    let Counts { tables, passing, samples, .. } = comparer.counts;
    let distinct = comparer.distinct_table_texts();
    println!("{tables} tables, {distinct} of them differ from each other, {passing} pass, {samples} samples looked at");
    let enough = distinct >= TABLES_WANTED && passing >= PASSING_WANTED;
    if !enough {
        println!("FAILED: fewer than {TABLES_WANTED} tables, or than {PASSING_WANTED} that pass");
    }
    enough
}

/// Enough cleared books with a carriage, with an allowance, and of which more than the demand is bought.
fn enough_cleared(comparer: &Comparer) -> bool {
    let Counts { accepted, cleared, carried, allowed, over, none, .. } = comparer.counts;
    println!("{accepted} accepted, {cleared} cleared, {carried} of these with a carriage above 0, {none} totals `none`");
    println!("{allowed} of the cleared with an allowance above 0, {over} of which more than the demand is bought");
    let enough = carried >= CARRIED_WANTED && allowed >= ALLOWED_WANTED && over >= OVER_WANTED;
    if !enough {
        println!("FAILED: fewer cleared books than {CARRIED_WANTED} with a carriage above 0, {ALLOWED_WANTED} with an allowance above 0");
        println!("or {OVER_WANTED} of which more than the demand is bought");
    }
    enough
}

/// Enough pairs, and of these enough of each kind.
fn enough_pairs(pairs: &Pairs) -> bool {
    let counted = || KINDS.iter().zip(&pairs.kinds);
    for (among, count) in kinds::ALL.into_iter().zip(&pairs.among) {
        let own = counted().filter(|(kind, _)| kind.among == among);
        let each: Vec<String> = own.map(|(kind, count)| format!("{count} {}", kind.words)).collect();
        println!("{count} {}: {}", among.words(), each.join(", "));
    }
    let too_few = || counted().filter(|(kind, &count)| count < kind.wanted);
    for (kind, _) in too_few() {
        println!("FAILED: {}: fewer than {} {}", kind.among.words(), kind.wanted, kind.words);
    }
    let distinct = pairs.distinct_pairs();
    println!("{distinct} of the pairs differ from each other, {} laws tried, {} broken", pairs.counts.laws, pairs.counts.broken);
    if distinct < PAIRS_WANTED {
        println!("FAILED: fewer than {PAIRS_WANTED} pairs");
    }
    distinct >= PAIRS_WANTED && too_few().next().is_none()
}

/// For each number of bids the widest sheet that there is must have been seen, and none that is wider.
fn every_width(comparer: &Comparer) -> bool {
    let seen = &comparer.widest[1..];
    let each: Vec<String> = (1..).zip(seen).map(|(bids, bytes)| format!("{bids}: {bytes} of {}", 39 + 66 * bids)).collect();
    println!("{} sheets held against their limit, the widest of each number of bids: {}", comparer.counts.sheets, each.join(", "));
    let wanted = (1..).zip(seen).all(|(bids, &bytes)| bytes == widest::bytes(bids));
    if !wanted {
        println!("FAILED: the widest sheet that was seen is not the widest that there is");
    }
    wanted
}

/// The shortest and the longest accepted text that there are must have been seen, and none that is shorter or longer.
fn shortest_and_longest(comparer: &Comparer) -> bool {
    let lengths = &comparer.lengths;
    let (shortest, longest) = (lengths.first().unwrap_or(&0), lengths.last().unwrap_or(&0));
    println!("accepted texts of {} different lengths, from {shortest} to {longest} bytes", lengths.len());
    let wanted = (*shortest, *longest) == (37, 2_201);
    if !wanted {
        println!("FAILED: the accepted texts are not of 37 to 2201 bytes");
    }
    wanted
}

fn main() -> ExitCode {
    let mut good = selftest::run();
    if std::env::args().any(|argument| argument == "--self-test") {
        return ExitCode::from(u8::from(!good));
    }
    let mut comparer = Comparer::new();
    run_groups(&mut comparer);
    let mut pairs = Pairs::new(&mut comparer);
    run_law_groups(&mut pairs);
    good &= enough_pairs(&pairs);
    let laws = pairs.counts;
    if !every_refusal(&comparer) {
        println!("FAILED: a refusal was never given");
        good = false;
    }
    let distinct = comparer.distinct_texts();
    println!("{distinct} of the texts differ from each other");
    if distinct < TEXTS_WANTED {
        println!("FAILED: fewer than {TEXTS_WANTED} texts");
        good = false;
    }
    let counts = comparer.counts;
    good &= enough_cleared(&comparer) & every_fault(&comparer) & enough_tables(&comparer);
    good &= every_width(&comparer) & shortest_and_longest(&comparer);
    println!("{} texts, {} calls compared, {} pages read back, {} different", counts.texts, counts.calls, counts.pages, counts.different);
    let all = counts.calls + counts.pages + counts.samples + counts.sheets + laws.laws;
    let failed = counts.different + laws.broken;
    println!("{} passed, {failed} failed", all - failed);
    ExitCode::from(u8::from(!good || failed > 0))
}
