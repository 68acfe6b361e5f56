//! Books with an allowance, and what they give, worked out by hand: the reference is checked against them, and the product is compared with
//! the reference on them.

use crate::book::Refusal;
use crate::clearing::Award;

/// What clearing gives: the blanks bought, the total, the quantities, and the totals without each bidder.
pub struct Given {
    pub bought: i64,
    pub total: i64,
    pub quantities: &'static [i64],
    pub without: &'static [Option<i64>],
}

impl Given {
    /// Whether the award is this one.
    pub fn is(&self, award: &Award) -> bool {
        let numbers = award.bought == self.bought && award.total == self.total;
        numbers && award.quantities == self.quantities && award.without == self.without
    }
}

pub struct Case {
    pub name: &'static str,
    pub text: &'static str,
    pub given: Result<Given, Refusal>,
}

pub const fn award(bought: i64, total: i64, quantities: &'static [i64], without: &'static [Option<i64>]) -> Result<Given, Refusal> {
    Ok(Given { bought, total, quantities, without })
}

pub const fn refused(number: u64, place: u64) -> Result<Given, Refusal> {
    Err(Refusal { number, place })
}

pub const CASES: [Case; 37] = [
    Case {
        name: "free blanks are not taken beyond the demand",
        text: "(demand 10 5)\n(bid 1 0 (seg 1 20 0 30))\n",
        given: award(10, 30, &[10], &[None]),
    },
    Case {
        name: "free blanks of two bidders",
        text: "(demand 10 5)\n(bid 1 0 (seg 1 8 0 0))\n(bid 2 0 (seg 1 8 0 0))\n",
        given: award(10, 0, &[8, 2], &[None, None]),
    },
    Case {
        name: "free blanks, of which the starts pass the demand",
        text: "(demand 10 5)\n(bid 1 0 (seg 6 9 0 0))\n(bid 2 0 (seg 7 9 0 0))\n",
        given: award(13, 0, &[6, 7], &[None, None]),
    },
    Case {
        name: "a cheaper drum above the demand is taken",
        text: "(demand 100 10)\n(bid 1 0 (seg 100 100 50 0))\n(bid 2 0 (seg 110 110 40 0))\n",
        given: award(110, 4_400, &[0, 110], &[Some(4_400), Some(5_000)]),
    },
    Case {
        name: "a cheaper drum one blank above what is taken",
        text: "(demand 100 9)\n(bid 1 0 (seg 100 100 50 0))\n(bid 2 0 (seg 110 110 40 0))\n",
        given: award(100, 5_000, &[100, 0], &[None, Some(5_000)]),
    },
    Case {
        name: "a drum above the demand that its carriage makes dearer",
        text: "(demand 100 10)\n(bid 1 0 (seg 100 100 45 0))\n(bid 2 5 (seg 110 110 40 0))\n",
        given: award(100, 4_500, &[100, 0], &[Some(4_950), Some(4_500)]),
    },
    Case {
        name: "the same drum without a carriage",
        text: "(demand 100 10)\n(bid 1 0 (seg 100 100 45 0))\n(bid 2 0 (seg 110 110 40 0))\n",
        given: award(110, 4_400, &[0, 110], &[Some(4_400), Some(4_500)]),
    },
    Case {
        name: "the next segment of the same bidder is cheaper: the paper's book, demand 60",
        text: "(demand 60 1)\n(bid 3 0 (seg 1 60 400 0) (seg 61 100 350 -500))\n(bid 8 0 (seg 20 80 380 1000))\n(bid 12 0 (seg 120 120 370 0))\n",
        given: award(61, 20_850, &[61, 0, 0], &[Some(23_800), Some(20_850), Some(20_850)]),
    },
    Case {
        name: "starts that pass the demand by just the allowance",
        text: "(demand 100 20)\n(bid 1 0 (seg 60 70 5 0))\n(bid 2 0 (seg 60 70 7 0))\n",
        given: award(120, 720, &[60, 60], &[None, None]),
    },
    Case {
        name: "starts that pass the demand by one more than the allowance",
        text: "(demand 100 19)\n(bid 1 0 (seg 60 70 5 0))\n(bid 2 0 (seg 60 70 7 0))\n",
        given: refused(9, 0),
    },
    Case {
        name: "a start that passes the demand by just the allowance, and is the least that is sold",
        text: "(demand 1 4)\n(bid 1 0 (seg 5 9 2 0))\n",
        given: award(5, 10, &[5], &[None]),
    },
    Case {
        name: "a start that passes the demand by one more than the allowance",
        text: "(demand 1 3)\n(bid 1 0 (seg 5 9 2 0))\n",
        given: refused(9, 0),
    },
    Case {
        name: "ends that do not reach the demand are not helped by an allowance",
        text: "(demand 10 1000000)\n(bid 1 0 (seg 1 9 2 0))\n",
        given: refused(9, 0),
    },
    Case {
        name: "a gap between what is sold and what is taken",
        text: "(demand 51 9)\n(bid 1 0 (seg 1 50 10 0) (seg 61 100 9 0))\n",
        given: refused(9, 0),
    },
    Case {
        name: "a gap that the allowance crosses",
        text: "(demand 51 10)\n(bid 1 0 (seg 1 50 10 0) (seg 61 100 9 0))\n",
        given: award(61, 549, &[61], &[None]),
    },
    Case {
        name: "equal cost: fewer blanks go before book order",
        text: "(demand 10 5)\n(bid 1 0 (seg 12 12 5 0))\n(bid 2 0 (seg 10 10 6 0))\n",
        given: award(10, 60, &[0, 10], &[Some(60), Some(60)]),
    },
    Case {
        name: "equal cost, both above the demand: fewer blanks go before book order",
        text: "(demand 10 5)\n(bid 1 0 (seg 15 15 4 0))\n(bid 2 0 (seg 12 12 5 0))\n",
        given: award(12, 60, &[0, 12], &[Some(60), Some(60)]),
    },
    Case {
        name: "equal cost and fewer blanks with more bidders",
        text: "(demand 10 5)\n(bid 1 0 (seg 14 14 5 0))\n(bid 2 0 (seg 6 6 5 0))\n(bid 3 0 (seg 5 5 8 0))\n",
        given: award(11, 70, &[0, 6, 5], &[Some(70), Some(70), Some(70)]),
    },
    Case {
        name: "equal cost and as many blanks: book order",
        text: "(demand 10 5)\n(bid 1 0 (seg 12 12 5 0))\n(bid 2 0 (seg 12 12 5 0))\n",
        given: award(12, 60, &[12, 0], &[Some(60), Some(60)]),
    },
    Case {
        name: "equal cost and as many blanks: book order, at the second bidder",
        text: "(demand 10 5)\n(bid 1 0 (seg 4 4 10 0))\n(bid 2 0 (seg 8 8 10 0))\n(bid 3 0 (seg 8 8 10 0))\n",
        given: award(12, 120, &[4, 8, 0], &[None, Some(120), Some(120)]),
    },
    Case {
        name: "a lower cost goes before fewer blanks",
        text: "(demand 10 5)\n(bid 1 0 (seg 10 10 6 0))\n(bid 2 0 (seg 15 15 1 44))\n",
        given: award(15, 59, &[0, 15], &[Some(59), Some(60)]),
    },
    Case {
        name: "a total without a bidder that is above the demand",
        text: "(demand 100 10)\n(bid 1 0 (seg 100 100 5 0))\n(bid 2 0 (seg 105 105 6 0))\n(bid 3 0 (seg 111 111 1 0))\n",
        given: award(100, 500, &[100, 0, 0], &[Some(630), Some(500), Some(500)]),
    },
    Case {
        name: "nothing without a bidder but above what is taken",
        text: "(demand 100 10)\n(bid 1 0 (seg 100 100 5 0))\n(bid 2 0 (seg 111 111 1 0))\n",
        given: award(100, 500, &[100, 0], &[None, Some(500)]),
    },
    Case {
        name: "an allowance above all that is sold",
        text: "(demand 5 1000000)\n(bid 1 0 (seg 1 3 2 0))\n(bid 2 0 (seg 1 3 2 0))\n",
        given: award(5, 10, &[3, 2], &[None, None]),
    },
    Case {
        name: "an allowance that takes just all that is sold",
        text: "(demand 5 1)\n(bid 1 0 (seg 3 3 2 0))\n(bid 2 0 (seg 3 3 2 0))\n",
        given: award(6, 12, &[3, 3], &[None, None]),
    },
    Case {
        name: "demand and allowance at their highest",
        text: "(demand 1000000 1000000)\n(bid 1 0 (seg 999999 999999 1 0))\n(bid 2 0 (seg 1 999999 1 0))\n(bid 3 0 (seg 1000000 1000000 1 0))\n",
        given: award(1_000_000, 1_000_000, &[999_999, 1, 0], &[Some(1_000_000), Some(1_000_000), Some(1_000_000)]),
    },
    Case {
        name: "the most that can be bought",
        text: "(demand 1000000 1000000)\n(bid 1 0 (seg 999999 999999 1 0))\n(bid 2 0 (seg 999999 999999 1 0))\n",
        given: award(1_999_998, 1_999_998, &[999_999, 999_999], &[None, None]),
    },
    Case {
        name: "the most that can be bought, and one blank too many for the allowance",
        text: "(demand 1000000 999997)\n(bid 1 0 (seg 999999 999999 1 0))\n(bid 2 0 (seg 999999 999999 1 0))\n",
        given: refused(9, 0),
    },
    Case {
        name: "the least demand with the highest allowance",
        text: "(demand 1 1000000)\n(bid 1 0 (seg 1000000 1000000 1 0))\n",
        given: award(1_000_000, 1_000_000, &[1_000_000], &[None]),
    },
    Case { name: "an allowance of 1,000,001", text: "(demand 10 1000001)\n(bid 1 0 (seg 1 20 1 0))\n", given: refused(5, 1) },
    Case { name: "an allowance of thirteen digits", text: "(demand 10 9999999999999)\n(bid 1 0 (seg 1 20 1 0))\n", given: refused(5, 1) },
    Case { name: "an allowance and a bid out of range", text: "(demand 10 1000001)\n(bid 0 0 (seg 1 20 1 0))\n", given: refused(5, 1) },
    Case { name: "the old form", text: "(demand 120)\n(bid 3 0 (seg 1 60 400 0))\n", given: refused(2, 11) },
    Case { name: "the old form alone", text: "(demand 5)", given: refused(2, 9) },
    Case { name: "the old form, and a demand out of range", text: "(demand 0)\n(bid 3 0 (seg 1 60 400 0))\n", given: refused(2, 9) },
    Case { name: "a space for an allowance", text: "(demand 120 )\n(bid 3 0 (seg 1 60 400 0))\n", given: refused(2, 12) },
    Case { name: "two allowances", text: "(demand 120 10 5)\n(bid 3 0 (seg 1 60 400 0))\n", given: refused(2, 14) },
];
