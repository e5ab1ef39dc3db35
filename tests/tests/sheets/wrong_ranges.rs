//! Rules for the range of step 24 that are W-204's but for one point. The rows of `ranges`, read by hand,
//! refute each of them. Those that promise what isn't so are refuted by the library's runs too; of the
//! others, which promise less or as much, runs can't tell.

use crate::ranges::{NO_DIVISION, REMAINDER};
use estrenwind_tests::library;
use estrenwind_tests::patterns::Random;
use estrenwind_tests::recipes::{frame, Draft, Line};
use estrenwind_tests::reference::recipe::{Kind, Operation};

/// Ranges that every rule is tried on, and inputs drawn from each.
pub const RANGES: usize = 2_000;
const FRAMES: usize = 10;

/// The range of a step on operands with these ends, or the refusal.
pub type Rule = fn([f64; 2], [f64; 2]) -> Result<[f64; 2], u64>;

/// The greatest magnitude of two ends, and the least.
fn greatest([low, high]: [f64; 2]) -> f64 {
    low.abs().max(high.abs())
}

fn least([low, high]: [f64; 2]) -> f64 {
    low.abs().min(high.abs())
}

pub fn reaches_infinity(ends: [f64; 2]) -> bool {
    ends.iter().any(|end| end.is_infinite())
}

fn holds_zero([low, high]: [f64; 2]) -> bool {
    low <= 0.0 && high >= 0.0
}

/// From -m to m, where it is not refused.
fn about_zero(is_refused: bool, m: f64) -> Result<[f64; 2], u64> {
    match is_refused {
        true => Err(20),
        false => Ok([-m, m]),
    }
}

/// "On the same terms as fmod."
fn has_no_division(a: [f64; 2], b: [f64; 2]) -> bool {
    reaches_infinity(a) || holds_zero(b)
}

fn smaller(a: [f64; 2], b: [f64; 2]) -> f64 {
    greatest(a).min(greatest(b))
}

/// W-204's.
fn right(a: [f64; 2], b: [f64; 2]) -> Result<[f64; 2], u64> {
    about_zero(has_no_division(a, b), smaller(a, b))
}

/// Refuted by runs.
const BROKEN: [(&str, Rule); 11] = [
    ("+0 where a is not below zero, as in fmod", |a, b| {
        right(a, b).map(|[low, high]| [if a[0] >= 0.0 { 0.0 } else { low }, high])
    }),
    ("+0 where a is not above zero, as in fmod", |a, b| {
        right(a, b).map(|[low, high]| [low, if a[1] <= 0.0 { 0.0 } else { high }])
    }),
    ("a's own ends, where they are nearer", |a, b| {
        right(a, b).map(|[low, high]| [low.max(a[0]), high.min(a[1])])
    }),
    ("the least magnitude among a's ends", |a, b| {
        about_zero(has_no_division(a, b), least(a).min(greatest(b)))
    }),
    ("the least magnitude among b's ends", |a, b| {
        about_zero(has_no_division(a, b), greatest(a).min(least(b)))
    }),
    ("a's high end alone", |a, b| {
        about_zero(has_no_division(a, b), a[1].abs().min(greatest(b)))
    }),
    ("half of the smaller", |a, b| {
        about_zero(has_no_division(a, b), smaller(a, b) / 2.0)
    }),
    ("an infinite low end of a not refused", |a, b| {
        about_zero(a[1].is_infinite() || holds_zero(b), smaller(a, b))
    }),
    ("an infinite high end of a not refused", |a, b| {
        about_zero(a[0].is_infinite() || holds_zero(b), smaller(a, b))
    }),
    ("b's zero not refused", |a, b| {
        about_zero(reaches_infinity(a), smaller(a, b))
    }),
    ("b's zero refused as an end alone", |a, b| {
        about_zero(reaches_infinity(a) || b.contains(&0.0), smaller(a, b))
    }),
];

/// Not refuted by runs: more is held, or more refused, or just as much is held.
const HELD: [(&str, Rule); 6] = [
    ("the larger of the two", |a, b| {
        about_zero(has_no_division(a, b), greatest(a).max(greatest(b)))
    }),
    ("a's alone", |a, b| {
        about_zero(has_no_division(a, b), greatest(a))
    }),
    ("b's alone", |a, b| {
        about_zero(has_no_division(a, b), greatest(b))
    }),
    // As far as it goes; and a unit more, where y has an odd count of them.
    ("half of b's", |a, b| {
        let half = greatest(b) / 2.0 + f64::from_bits(1);
        about_zero(has_no_division(a, b), greatest(a).min(half))
    }),
    ("an infinite end of b refused", |a, b| {
        about_zero(has_no_division(a, b) || reaches_infinity(b), smaller(a, b))
    }),
    ("from +0 for a zero", |a, b| {
        right(a, b).map(|[low, high]| [low + 0.0, high])
    }),
];

pub fn bits(range: Result<[f64; 2], u64>) -> Result<[u64; 2], u64> {
    range.map(|ends| ends.map(f64::to_bits))
}

/// How many rows that were read by hand say something else, to the bit.
fn refuted_by_rows(rule: Rule) -> usize {
    let divisions = REMAINDER.iter().map(|&(a, b, m)| (a, b, Ok([-m, m])));
    let refusals = NO_DIVISION.iter().map(|&(a, b)| (a, b, Err(20)));
    let rows = divisions.chain(refusals);
    rows.filter(|&(a, b, expected)| bits(rule(a, b)) != bits(expected))
        .count()
}

/// Two ranges, and what the library's runs make of inputs in them: a word, or a refusal.
pub struct Tried {
    pub a: [f64; 2],
    pub b: [f64; 2],
    values: Vec<Result<f64, u64>>,
}

impl Tried {
    /// By a step of two doubles.
    fn new(random: &mut Random, opcode: u8) -> Tried {
        let operation = Operation::of_opcode(opcode).expect("an opcode");
        let ranges = random.operands(operation, false);
        let [a, b] = ranges.map(|range| [range.low, range.high]);
        let inputs = [a, b].map(|ends| Line::input(Kind::Double, ends));
        let lines = vec![inputs[0], inputs[1], Line::step(opcode, 0, 1)];
        let text = Draft {
            lines,
            words: vec![],
        }
        .run_call()
        .text;
        let value = |_| {
            let words = [a, b].map(|ends| random.declared(Kind::Double, ends));
            let mut written = [0; 3];
            let answer = library::run(&text, &frame(&words), &mut written);
            match answer.refusal {
                0 => Ok(f64::from_bits(written[2])),
                refusal => Err(refusal),
            }
        };
        let values = (0..FRAMES).map(value).collect();
        let [a, b] = [a, b].map(|ends| ends.map(f64::from_bits));
        Tried { a, b, values }
    }

    /// Whether a value breaks what the rule promises.
    pub fn refutes(&self, rule: Rule) -> bool {
        let Ok([low, high]) = rule(self.a, self.b) else {
            return false;
        };
        let is_inside = |value: &Result<f64, u64>| value.is_ok_and(|x| low <= x && x <= high);
        !self.values.iter().all(is_inside)
    }
}

/// Ranges for the operands of a step, each with runs.
pub fn tried_by(opcode: u8) -> Vec<Tried> {
    let mut random = Random::new(0x2042);
    (0..RANGES)
        .map(|_| Tried::new(&mut random, opcode))
        .collect()
}

fn tried() -> Vec<Tried> {
    tried_by(0x24)
}

#[test]
fn rows_and_runs_refute_wrong_rules() {
    let tried = tried();
    for (name, rule) in BROKEN {
        let rows = refuted_by_rows(rule);
        let runs = tried.iter().filter(|tried| tried.refutes(rule)).count();
        println!("{name}: refuted by {rows} rows, by runs in {runs} of {RANGES} ranges");
        assert!(rows >= 1, "{name}: no row");
        assert!(runs >= 5, "{name}: runs in {runs}");
    }
}

#[test]
fn rows_alone_refute_rules_that_hold() {
    let tried = tried();
    for (name, rule) in HELD {
        let rows = refuted_by_rows(rule);
        let runs = tried.iter().filter(|tried| tried.refutes(rule)).count();
        println!("{name}: refuted by {rows} rows");
        assert!(rows >= 1, "{name}: no row");
        assert_eq!(runs, 0, "{name}");
    }
}

/// What the wrong ones are changed from; and some ranges pass, some don't.
#[test]
fn the_right_rule_is_not_refuted() {
    assert_eq!(refuted_by_rows(right), 0);
    let tried = tried();
    assert!(!tried.iter().any(|tried| tried.refutes(right)));
    let passed = tried.iter().filter(|tried| right(tried.a, tried.b).is_ok());
    assert!((200..RANGES - 200).contains(&passed.count()));
}
