//! A book with a discount, with raised prices and with a bidder struck, and what each gives, worked out by hand. Two blanks are wanted, of
//! which the second bidder sells one at most: both come from the first, or one from each.

use crate::cases::{award, refused, Case};
use crate::generate::changes::Change;

const BASE: Case = Case {
    name: "two blanks for 20 from the first, or for 21 from both",
    text: "(demand 2 0)\n(bid 1 0 (seg 1 1 10 0) (seg 2 2 10 0))\n(bid 2 0 (seg 1 1 11 0))\n",
    given: award(2, 20, &[2, 0], &[None, Some(20)]),
};

const ONE_SEGMENT_LOWERED: Case = Case {
    name: "the first bidder's first segment lowered by 2",
    text: "(demand 2 0)\n(bid 1 0 (seg 1 1 8 0) (seg 2 2 10 0))\n(bid 2 0 (seg 1 1 11 0))\n",
    given: award(2, 19, &[1, 1], &[None, Some(20)]),
};

const FIRST_CHEAPER: Case = Case {
    name: "the first bidder takes 1 cent off",
    text: "(demand 2 0)\n(bid 1 0 (seg 1 1 9 0) (seg 2 2 9 0))\n(bid 2 0 (seg 1 1 11 0))\n",
    given: award(2, 18, &[2, 0], &[None, Some(18)]),
};

const LEVEL: Case = Case {
    name: "the second bidder takes 1 cent off: two blanks for 20 from the first, and from both",
    text: "(demand 2 0)\n(bid 1 0 (seg 1 1 10 0) (seg 2 2 10 0))\n(bid 2 0 (seg 1 1 10 0))\n",
    given: award(2, 20, &[2, 0], &[None, Some(20)]),
};

const SECOND_CHEAPER: Case = Case {
    name: "the second bidder takes 2 cents off",
    text: "(demand 2 0)\n(bid 1 0 (seg 1 1 10 0) (seg 2 2 10 0))\n(bid 2 0 (seg 1 1 9 0))\n",
    given: award(2, 19, &[1, 1], &[None, Some(20)]),
};

const FIXED_BY_ONE: Case = Case {
    name: "a fixed price raised by 1: two blanks for 21 from the first, and from both",
    text: "(demand 2 0)\n(bid 1 0 (seg 1 1 10 0) (seg 2 2 10 1))\n(bid 2 0 (seg 1 1 11 0))\n",
    given: award(2, 21, &[2, 0], &[None, Some(21)]),
};

const FIXED_BY_TWO: Case = Case {
    name: "a fixed price raised by 2",
    text: "(demand 2 0)\n(bid 1 0 (seg 1 1 10 0) (seg 2 2 10 2))\n(bid 2 0 (seg 1 1 11 0))\n",
    given: award(2, 21, &[1, 1], &[None, Some(22)]),
};

const FIRST_STRUCK: Case = Case { name: "the first bidder struck", text: "(demand 2 0)\n(bid 2 0 (seg 1 1 11 0))\n", given: refused(9, 0) };

const SECOND_STRUCK: Case = Case {
    name: "the second bidder struck",
    text: "(demand 2 0)\n(bid 1 0 (seg 1 1 10 0) (seg 2 2 10 0))\n",
    given: award(2, 20, &[2], &[None]),
};

const NOT_COVERED: Case = Case {
    name: "four blanks, of which three are offered",
    text: "(demand 4 0)\n(bid 1 0 (seg 1 1 10 0) (seg 2 2 10 0))\n(bid 2 0 (seg 1 1 11 0))\n",
    given: refused(9, 0),
};

const NOT_COVERED_CHEAPER: Case = Case {
    name: "four blanks, of which three are offered, and a discount",
    text: "(demand 4 0)\n(bid 1 0 (seg 1 1 10 0) (seg 2 2 10 0))\n(bid 2 0 (seg 1 1 9 0))\n",
    given: refused(9, 0),
};

const NOT_COVERED_STRUCK: Case =
    Case { name: "four blanks, of which one is offered", text: "(demand 4 0)\n(bid 2 0 (seg 1 1 11 0))\n", given: refused(9, 0) };

pub const CASES: [Case; 12] = [
    BASE,
    ONE_SEGMENT_LOWERED,
    FIRST_CHEAPER,
    LEVEL,
    SECOND_CHEAPER,
    FIXED_BY_ONE,
    FIXED_BY_TWO,
    FIRST_STRUCK,
    SECOND_STRUCK,
    NOT_COVERED,
    NOT_COVERED_CHEAPER,
    NOT_COVERED_STRUCK,
];

/// The cases before and after a change, and all kinds of pairs, in the words of kinds.rs, that the two are.
pub struct Changed {
    pub change: Change,
    pub before: Case,
    pub after: Case,
    pub kinds: &'static [&'static str],
}

const fn changed(change: Change, before: Case, after: Case, kinds: &'static [&'static str]) -> Changed {
    Changed { change, before, after, kinds }
}

const TIED: &str = "with another division of the award's cost";
const MORE: &str = "with more blanks for some bidder";

pub const CHANGES: [Changed; 15] = [
    changed(Change::OneSegment(0), BASE, ONE_SEGMENT_LOWERED, &["lose the bidder blanks"]),
    changed(Change::Discount(0), BASE, FIRST_CHEAPER, &["win no further blank"]),
    changed(
        Change::Discount(1),
        BASE,
        LEVEL,
        &[TIED, "change nothing", "only bring the bidder level with others", "win no further blank", "leave the total as it was"],
    ),
    changed(Change::Discount(1), BASE, SECOND_CHEAPER, &["win blanks", "lose another bidder blanks"]),
    changed(Change::Discount(1), LEVEL, SECOND_CHEAPER, &[TIED, "win blanks", "lose another bidder blanks"]),
    changed(Change::Discount(1), NOT_COVERED, NOT_COVERED_CHEAPER, &["not covered"]),
    changed(Change::Raised, ONE_SEGMENT_LOWERED, BASE, &["in one price alone", "in a unit price", "with a higher total", MORE]),
    changed(Change::Raised, SECOND_CHEAPER, BASE, &["in one price alone", "in a unit price", "with a higher total", MORE]),
    changed(Change::Raised, LEVEL, BASE, &[TIED, "in one price alone", "in a unit price", "with the same total"]),
    changed(Change::Raised, BASE, FIXED_BY_ONE, &[TIED, "in one price alone", "in a fixed price", "with a higher total"]),
    changed(Change::Raised, BASE, FIXED_BY_TWO, &["in one price alone", "in a fixed price", "with a higher total", MORE]),
    changed(Change::Raised, NOT_COVERED_CHEAPER, NOT_COVERED, &["not covered", "in one price alone", "in a unit price"]),
    changed(Change::Struck(0), BASE, FIRST_STRUCK, &["who sold something", "without whom the demand is not covered"]),
    changed(Change::Struck(1), BASE, SECOND_STRUCK, &["who sold nothing"]),
    changed(Change::Struck(0), NOT_COVERED, NOT_COVERED_STRUCK, &["not covered"]),
];
