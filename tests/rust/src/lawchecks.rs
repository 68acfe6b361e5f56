//! The check of the laws and of the changed books: each law on answers that keep it and on answers that break it, the changes on generated
//! books, and the kinds of pairs on the cases that were worked out by hand.

use crate::book::{Bid, Book, Segment};
use crate::clearing::{self, Award};
use crate::compare::Comparer;
use crate::entries::{Answer, Call};
use crate::expected::Judged;
use crate::generate::changes::{self, Change, Changer, Pair};
use crate::generate::{books, families};
use crate::kinds::{Tried, KINDS};
use crate::lawcases::{Changed, CASES, CHANGES};
use crate::lawgroups;
use crate::laws::{self, Cleared};
use crate::pairs::Pairs;
use crate::random::Random;
use crate::selftest::{as_given, Checks};
use crate::shape::Shape;

/// Two blanks, with these quantities and totals.
fn award<const N: usize>(total: i64, quantities: [i64; N], without: [Option<i64>; N]) -> Cleared {
    Some(Award { bought: 2, total, quantities: quantities.to_vec(), without: without.to_vec() })
}

/// What each law of a change says of two answers.
type Verdicts = &'static [Option<bool>];

const KEPT: Option<bool> = Some(true);
const BROKEN: Option<bool> = Some(false);

/// The laws that one is covered exactly if the other is, of the bidder's blanks, and of the total.
fn of_discounts() -> Vec<(Change, Cleared, Cleared, Verdicts)> {
    let [first, second] = [Change::Discount(0), Change::Discount(1)];
    let base = || award(20, [2, 0], [None, Some(20)]);
    vec![
        (first, base(), base(), &[KEPT, KEPT, KEPT]),
        (first, base(), award(19, [2, 0], [None, Some(19)]), &[KEPT, KEPT, KEPT]),
        (first, base(), award(20, [1, 1], [None, Some(20)]), &[KEPT, BROKEN, KEPT]),
        (first, base(), award(21, [2, 0], [None, Some(21)]), &[KEPT, KEPT, BROKEN]),
        (first, base(), award(21, [1, 1], [None, Some(21)]), &[KEPT, BROKEN, BROKEN]),
        (second, base(), award(19, [1, 1], [None, Some(20)]), &[KEPT, KEPT, KEPT]),
        (second, award(19, [1, 1], [None, Some(20)]), award(19, [2, 0], [None, Some(20)]), &[KEPT, BROKEN, KEPT]),
        (first, base(), None, &[BROKEN, None, None]),
        (first, None, base(), &[BROKEN, None, None]),
        (first, None, None, &[KEPT, None, None]),
    ]
}

/// The laws that one is covered exactly if the other is, and of the total.
fn of_raised_prices() -> Vec<(Change, Cleared, Cleared, Verdicts)> {
    let raised = Change::Raised;
    let base = || award(20, [2, 0], [None, Some(20)]);
    vec![
        (raised, base(), base(), &[KEPT, KEPT]),
        (raised, base(), award(21, [1, 1], [None, Some(22)]), &[KEPT, KEPT]),
        (raised, base(), award(19, [2, 0], [None, Some(19)]), &[KEPT, BROKEN]),
        (raised, base(), None, &[BROKEN, None]),
        (raised, None, base(), &[BROKEN, None]),
        (raised, None, None, &[KEPT, None]),
    ]
}

/// The laws that what was not covered still is not, of the total, and that it is the one shown without the bidder.
fn of_struck_bidders() -> Vec<(Change, Cleared, Cleared, Verdicts)> {
    let [first, second] = [Change::Struck(0), Change::Struck(1)];
    let base = || award(20, [2, 0], [None, Some(20)]);
    let dearer = || award(20, [1, 1], [None, Some(22)]);
    vec![
        (second, base(), award(20, [2], [None]), &[None, KEPT, KEPT]),
        (second, dearer(), award(22, [2], [None]), &[None, KEPT, KEPT]),
        (second, dearer(), award(21, [2], [None]), &[None, KEPT, BROKEN]),
        (second, base(), award(21, [2], [None]), &[None, KEPT, BROKEN]),
        (second, base(), award(19, [2], [None]), &[None, BROKEN, BROKEN]),
        (second, base(), None, &[None, None, BROKEN]),
        (first, base(), None, &[None, None, KEPT]),
        (first, base(), award(20, [2], [None]), &[None, KEPT, BROKEN]),
        (first, None, None, &[KEPT, None, None]),
        (first, None, award(20, [2], [None]), &[BROKEN, None, None]),
    ]
}

/// A law says what it should, and what it says is counted: one for each law that speaks, and one for each award.
fn verdicts(checks: &mut Checks) {
    let mut comparer = Comparer::silent();
    let mut pairs = Pairs::silent(&mut comparer);
    let book = pairs.book(CASES[0].text);
    for (change, before, after, expected) in [of_discounts(), of_raised_prices(), of_struck_bidders()].concat() {
        let given: Vec<Option<bool>> = laws::laws(change).iter().map(|law| (law.kept)(&before, &after, change.index())).collect();
        let name = format!("{change:?} with the answers {before:?} and {after:?}");
        checks.check(&name, given == expected);
        let was = pairs.counts;
        let pair = Pair { change, before: book.clone(), after: book.clone() };
        pairs.try_laws(&Tried { pair: &pair, before: &before, after: &after });
        let spoken = expected.iter().flatten().count() + before.iter().chain(&after).count();
        let broken = expected.iter().filter(|&&verdict| verdict == BROKEN).count();
        checks.check(&name, pairs.counts.laws - was.laws == spoken as u64 && pairs.counts.broken - was.broken == broken as u64);
    }
    checks.check("no law of a discount on one segment", laws::laws(Change::OneSegment(0)).is_empty());
}

/// A total without a bidder that is below the award's, just not below it, or `none`.
fn totals_without(checks: &mut Checks) {
    let mut comparer = Comparer::silent();
    let mut pairs = Pairs::silent(&mut comparer);
    let book = pairs.book(CASES[0].text);
    let pair = Pair { change: Change::OneSegment(0), before: book.clone(), after: book };
    for (without, kept) in [([None, Some(20)], true), ([Some(21), None], true), ([Some(19), None], false), ([Some(20), Some(19)], false)] {
        let cleared = award(20, [2, 0], without);
        let was = pairs.counts;
        pairs.try_laws(&Tried { pair: &pair, before: &None, after: &cleared });
        pairs.try_laws(&Tried { pair: &pair, before: &cleared, after: &None });
        let broken = pairs.counts.broken - was.broken;
        checks.check(&format!("the totals without a bidder {without:?}"), pairs.counts.laws - was.laws == 2 && (broken == 0) == kept);
        checks.check(&format!("the law of the totals {without:?}"), cleared.is_some_and(|award| laws::none_below(&award) == kept));
    }
}

/// The award is read from the numbers of an answer, and an answer that no accepted book has is not.
fn answers(checks: &mut Checks, shape: &Shape) {
    let alterations: [fn(&mut Answer); 4] = [
        |answer| answer.refusal += 1,
        |answer| answer.place += 1,
        |answer| answer.rest_unchanged = false,
        |answer| {
            answer.refusal = 0;
            answer.numbers[2] += 9;
        },
    ];
    for case in &CASES {
        let judged = Judged::new(shape, case.text.as_bytes());
        let bids = judged.reading.as_ref().map_or(0, |book| book.bids.len());
        let answer = judged.answer(&Call::Award(56));
        let award = judged.cleared().ok().map(|cleared| cleared.1.clone());
        checks.check(case.name, laws::cleared(&answer, bids) == Ok(award));
        for alter in alterations {
            let mut altered = answer.clone();
            alter(&mut altered);
            checks.check("an answer that no accepted book has", laws::cleared(&altered, bids).is_err());
        }
    }
}

/// The reference gives what was worked out by hand, each pair of cases is of its change and keeps the laws, and is of just these kinds.
fn cases(checks: &mut Checks, shape: &Shape) {
    let mut comparer = Comparer::silent();
    let mut pairs = Pairs::silent(&mut comparer);
    for case in &CASES {
        checks.check(case.name, as_given(shape, case));
    }
    for Changed { change, before, after, kinds } in &CHANGES {
        let pair = Pair { change: *change, before: pairs.book(before.text), after: pairs.book(after.text) };
        let [was, is] = [&pair.before, &pair.after].map(clearing::award);
        let tried = Tried { pair: &pair, before: &was, after: &is };
        pairs.try_laws(&tried);
        let own = KINDS.iter().filter(|kind| kind.among.includes(*change) && (kind.is)(&tried));
        checks.check(&format!("the kinds of {}", after.name), own.map(|kind| kind.words).eq(kinds.iter().copied()));
        checks.check(&format!("the change of {}", after.name), as_said(&pair));
    }
    checks.check("the reference keeps the laws", pairs.counts.broken == 0);
}

/// The book with unit prices and fixed prices of 0.
fn without_prices(book: &Book) -> Book {
    let free = |segment: &Segment| Segment { unit: 0, fixed: 0, ..segment.clone() };
    let bid = |bid: &Bid| Bid { segments: bid.segments.iter().map(free).collect(), ..bid.clone() };
    Book { bids: book.bids.iter().map(bid).collect(), ..book.clone() }
}

/// By how much unit price and fixed price of each segment of a bid have risen.
fn rises(before: &Bid, after: &Bid) -> Vec<(i64, i64)> {
    before.segments.iter().zip(&after.segments).map(|(before, after)| (after.unit - before.unit, after.fixed - before.fixed)).collect()
}

/// Whether the books differ as the change says, and in nothing else.
fn as_said(pair: &Pair) -> bool {
    let Pair { change, before, after } = pair;
    if let Change::Struck(index) = change {
        let bids = [&before.bids[..*index], &before.bids[index + 1..]].concat();
        return !bids.is_empty() && *after == Book { bids, ..before.clone() };
    }
    let rises: Vec<Vec<(i64, i64)>> = before.bids.iter().zip(&after.bids).map(|(before, after)| rises(before, after)).collect();
    let own = &rises[change.index()];
    let others_as_they_were = || (0..).zip(&rises).all(|(index, bid)| index == change.index() || bid.iter().all(|&rise| rise == (0, 0)));
    let different: Vec<(i64, i64)> = rises.iter().flatten().copied().filter(|&rise| rise != (0, 0)).collect();
    let by_change = match change {
        Change::Raised => !different.is_empty() && different.iter().all(|&(unit, fixed)| unit >= 0 && fixed >= 0),
        Change::OneSegment(_) => {
            own.len() > 1 && different.len() == 1 && others_as_they_were() && different[0].0 < 0 && different[0].1 == 0
        }
        _ => others_as_they_were() && own.iter().all(|&rise| rise == (own[0].0, 0)) && own[0].0 < 0,
    };
    by_change && without_prices(before) == without_prices(after)
}

/// Both books are accepted and differ as the change says; and of the book after a discount it is known whether a further cent is accepted.
fn changed_book(checks: &mut Checks, shape: &Shape, pair: &Pair) {
    for book in [&pair.before, &pair.after] {
        checks.check("a book of a pair is accepted", Book::read(shape, &book.written()).as_ref() == Ok(book));
    }
    checks.check("a book is changed as it is said", as_said(pair));
    if !matches!(pair.change, Change::Struck(_)) {
        let back = Pair { change: pair.change, before: pair.after.clone(), after: pair.before.clone() };
        checks.check("a book changed back is not changed so", !as_said(&back));
    }
    if let Change::Discount(index) = pair.change {
        let mut further = pair.after.clone();
        further.bids[index].segments.iter_mut().for_each(|segment| segment.unit -= 1);
        let largest = changes::largest_discount(&pair.after.bids[index]) == 0;
        checks.check("the largest discount", largest == further.line_refusal().is_some());
    }
}

fn changed_books(checks: &mut Checks, shape: &Shape) {
    let changers: [Changer; 4] = [changes::discount, changes::raised, changes::struck, changes::one_segment];
    let sources: [fn(&mut Random) -> Book; 6] = [
        |random| books::book(random, &books::SMALL),
        |random| books::tied(random, &books::SMALL),
        |random| books::passed(random, &books::USUAL),
        |random| books::book(random, &books::LARGE),
        |random| families::ALL[random.below(families::ALL.len())](random, &families::FEW),
        lawgroups::at_limits,
    ];
    let mut random = Random::new(73);
    let mut made = [0; 4];
    for turn in 0..24_000 {
        let book = sources[turn / 4 % 6](&mut random);
        if let Some(pair) = changers[turn % 4](&mut random, book) {
            made[turn % 4] += 1;
            changed_book(checks, shape, &pair);
        }
    }
    println!(
        "self-test: changed books: {} discounts, {} raised prices, {} struck bidders, {} discounts on one segment",
        made[0], made[1], made[2], made[3]
    );
    checks.check("enough changed books of each change", made.iter().all(|&count| count > 1_000));
}

pub fn run(checks: &mut Checks, shape: &Shape) {
    verdicts(checks);
    totals_without(checks);
    answers(checks, shape);
    cases(checks, shape);
    changed_books(checks, shape);
}
