//! Rules for the reasons of steps 40 to 42 that are W-208's but for one point: another order of the codes,
//! another operand, another fact. The rows of `paper`, read by hand and held to the library there, refute
//! each of them.

use crate::paper::{Row, SUMS};

/// A code, and whether it names B. 00 where nothing is refused.
type Reason = (u64, bool);

/// Which code comes when, and what a rule may have another way.
#[derive(Clone, Copy)]
struct Rules {
    order: [u64; 6],
    names_b: [u64; 2],
    /// Whether an end counts as infinite where it is the low one, the high one.
    low_is_infinite: fn(f64) -> bool,
    high_is_infinite: fn(f64) -> bool,
    /// The low and the high answer of each step.
    sum: fn([f64; 2], [f64; 2]) -> [f64; 2],
    difference: fn([f64; 2], [f64; 2]) -> [f64; 2],
    product: fn([f64; 2], [f64; 2]) -> [f64; 2],
}

const RIGHT: Rules = Rules {
    order: [0x0e, 0x0f, 0x10, 0x11, 0x12, 0x13],
    names_b: [0x10, 0x11],
    low_is_infinite: f64::is_infinite,
    high_is_infinite: f64::is_infinite,
    sum: |a, b| [a[0] + b[0], a[1] + b[1]],
    difference: |a, b| [a[0] - b[1], a[1] - b[0]],
    product: |a, b| {
        let products = a.map(|x| b.map(|y| x * y));
        let products = products.as_flattened().iter().copied();
        [
            products.clone().fold(f64::INFINITY, f64::min),
            products.fold(f64::NEG_INFINITY, f64::max),
        ]
    },
};

impl Rules {
    fn reason(&self, opcode: u8, a: [f64; 2], b: [f64; 2]) -> Reason {
        let all_finite = [a, b].as_flattened().iter().all(|end| end.is_finite());
        let [low, high] = match opcode {
            0x40 => (self.sum)(a, b),
            0x41 => (self.difference)(a, b),
            _ => (self.product)(a, b),
        };
        let is_true = |&code: &u64| match code {
            0x0e => (self.low_is_infinite)(a[0]),
            0x0f => (self.high_is_infinite)(a[1]),
            0x10 => (self.low_is_infinite)(b[0]),
            0x11 => (self.high_is_infinite)(b[1]),
            // An answer overflows where its operands are finite, and otherwise in a rule that asks first.
            0x12 => low.is_infinite() && (all_finite || self.order[0] > 0x11),
            _ => high.is_infinite() && (all_finite || self.order[0] > 0x11),
        };
        let code = self.order.into_iter().find(is_true).unwrap_or(0);
        (code, self.names_b.contains(&code))
    }
}

/// The order of the codes with two exchanged.
const fn exchanged(one: usize, other: usize) -> [u64; 6] {
    let mut order = RIGHT.order;
    (order[one], order[other]) = (order[other], order[one]);
    order
}

#[rustfmt::skip]
const WRONG: [(&str, Rules); 18] = [
    ("0f before 0e", Rules { order: exchanged(0, 1), ..RIGHT }),
    ("10 before 0f", Rules { order: exchanged(1, 2), ..RIGHT }),
    ("11 before 10", Rules { order: exchanged(2, 3), ..RIGHT }),
    ("13 before 12", Rules { order: exchanged(4, 5), ..RIGHT }),
    ("b's before a's", Rules { order: [0x10, 0x11, 0x0e, 0x0f, 0x12, 0x13], ..RIGHT }),
    ("high ends first", Rules { order: [0x0f, 0x11, 0x0e, 0x10, 0x13, 0x12], ..RIGHT }),
    ("overflows first", Rules { order: [0x12, 0x13, 0x0e, 0x0f, 0x10, 0x11], ..RIGHT }),
    ("the codes backwards", Rules { order: [0x13, 0x12, 0x11, 0x10, 0x0f, 0x0e], ..RIGHT }),
    ("10 and 11 name A", Rules { names_b: [0, 0], ..RIGHT }),
    ("12 and 13 name B", Rules { names_b: [0x12, 0x13], ..RIGHT }),
    ("0f names B", Rules { names_b: [0x0f, 0x11], ..RIGHT }),
    ("a low end of +infinity is not infinite", Rules { low_is_infinite: |end| end == f64::NEG_INFINITY, ..RIGHT }),
    ("no low end is infinite", Rules { low_is_infinite: |_| false, ..RIGHT }),
    ("no high end is infinite", Rules { high_is_infinite: |_| false, ..RIGHT }),
    ("a sum's low answer is low + high", Rules { sum: |a, b| [a[0] + b[1], a[1] + b[0]], ..RIGHT }),
    ("a difference's low answer is low - low", Rules { difference: |a, b| [a[0] - b[0], a[1] - b[1]], ..RIGHT }),
    ("a product's low answer is low times low", Rules { product: |a, b| [a[0] * b[0], a[1] * b[1]], ..RIGHT }),
    ("any infinite product is a low answer", Rules {
        product: |a, b| {
            let [low, high] = (RIGHT.product)(a, b);
            [if high.is_infinite() { high } else { low }, high]
        },
        ..RIGHT
    }),
];

/// How many rows say something else. The operand that a row names is B for 10 and 11 (`paper::two`).
fn refuted_by_rows(rules: &Rules) -> usize {
    let differs = |&&(opcode, a, b, reason): &&Row| {
        let expected = (reason, [0x10, 0x11].contains(&reason));
        rules.reason(opcode, a, b) != expected
    };
    SUMS.iter().filter(differs).count()
}

#[test]
fn rows_refute_wrong_rules() {
    for (name, rules) in WRONG {
        let rows = refuted_by_rows(&rules);
        println!("{name}: refuted by {rows} rows");
        assert!(rows >= 1, "{name}: no row");
    }
    assert_eq!(refuted_by_rows(&RIGHT), 0);
}
