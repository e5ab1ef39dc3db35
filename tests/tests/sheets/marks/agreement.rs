//! Recipes with many marks, from seeds: the library's sheets are the reference's to the byte, and each
//! mark is what the rule gives by the sheet's own lines.

use super::line_with_a_wrong_mark;
use crate::shown_lines;
use estrenwind_tests::comparison::on_all_cores;
use estrenwind_tests::patterns::Random;
use estrenwind_tests::recipes::comparison::Outcome;
use estrenwind_tests::recipes::growing::grow_marked;
use estrenwind_tests::recipes::shown::{is_finite_and_integral, Shown};
use estrenwind_tests::recipes::{Draft, Line};
use estrenwind_tests::reference::recipe::{Kind, Way, OPERATIONS};
use std::collections::BTreeMap;
use std::ops::Range;

/// Seeds that a test goes through, on all cores; each gives `RECIPES` recipes.
const SEEDS: u64 = 1_600;
const EXACT_SEEDS: u64 = 80;
const RECIPES: u64 = 40;

/// Why a step has the mark or lacks it, as far as its opcode doesn't tell.
#[derive(Clone, Copy, Debug, PartialEq, Eq, PartialOrd, Ord)]
enum Case {
    /// Of one number that is declared: the zeros with different signs, or the same word.
    PlusToMinusZero,
    MinusToPlusZero,
    Integer,
    Fraction,
    Infinity,
    /// More than one number is declared, the ends integers or not.
    IntegersAndBetween,
    Many,
    /// Of a rounding.
    FiniteEnds,
    LowInfinite,
    HighInfinite,
    BothInfinite,
    /// Of a step on A alone, or on a double and a power of two.
    OfMarked,
    OfUnmarked,
    /// Of a step on two doubles.
    BothMarked,
    OnlyA,
    OnlyB,
    NeitherMarked,
    /// Of whole numbers.
    Whole,
}

use Case::*;

/// The cases that an opcode has, and W-203's word on each.
fn cases(opcode: u8) -> &'static [(Case, bool)] {
    match opcode {
        0x01 => &[
            (PlusToMinusZero, true),
            (MinusToPlusZero, true),
            (Integer, true),
            (Fraction, false),
            (Infinity, false),
            (IntegersAndBetween, false),
            (Many, false),
        ],
        0x03 => &[(Integer, true), (Fraction, false), (Infinity, false)],
        0x10..=0x14 => &[
            (FiniteEnds, true),
            (LowInfinite, false),
            (HighInfinite, false),
            (BothInfinite, false),
        ],
        0x16 | 0x17 => &[(OfMarked, true), (OfUnmarked, false)],
        0x15 | 0x23 => &[(OfMarked, false), (OfUnmarked, false)],
        0x20..=0x22 | 0x24 | 0x40..=0x42 => &[
            (BothMarked, true),
            (OnlyA, false),
            (OnlyB, false),
            (NeitherMarked, false),
        ],
        0x02 | 0x04 | 0x18 | 0x30 | 0x31 | 0x32 => &[(Whole, true)],
        _ => panic!("{opcode:x} is no opcode"),
    }
}

/// The case of a step, by its line in the recipe and the lines of the sheet.
fn case(line: &Line, step: usize, shown: &[Shown]) -> Case {
    let [low, high] = shown[step].ends().map(f64::from_bits);
    let [a, b] = [line.a, line.b].map(|operand| shown[operand as usize].mark);
    match line.opcode {
        0x01 | 0x03 if low == high => match (low.to_bits(), high.to_bits()) {
            (0, 0x8000000000000000) => PlusToMinusZero,
            (0x8000000000000000, 0) => MinusToPlusZero,
            _ if low.is_infinite() => Infinity,
            _ if low.fract() == 0.0 => Integer,
            _ => Fraction,
        },
        0x01 if shown[step].ends().into_iter().all(is_finite_and_integral) => IntegersAndBetween,
        0x01 => Many,
        0x10..=0x14 => match (low.is_finite(), high.is_finite()) {
            (true, true) => FiniteEnds,
            (false, true) => LowInfinite,
            (true, false) => HighInfinite,
            (false, false) => BothInfinite,
        },
        0x15..=0x17 | 0x23 if a => OfMarked,
        0x15..=0x17 | 0x23 => OfUnmarked,
        0x20..=0x22 | 0x24 | 0x40..=0x42 => match (a, b) {
            (true, true) => BothMarked,
            (true, false) => OnlyA,
            (false, true) => OnlyB,
            (false, false) => NeitherMarked,
        },
        _ => Whole,
    }
}

/// How often each case came up, and with which mark.
#[derive(Default)]
struct Counts {
    recipes: u64,
    met: BTreeMap<(u8, Case, bool), u64>,
    doubles: [u64; 2],
}

impl Counts {
    fn add(&mut self, draft: &Draft, shown: &[Shown]) {
        self.recipes += 1;
        for (step, line) in draft.lines.iter().enumerate() {
            let mark = shown[step].mark;
            let case = case(line, step, shown);
            *self.met.entry((line.opcode, case, mark)).or_default() += 1;
            if shown[step].kind == Kind::Double {
                self.doubles[mark as usize] += 1;
            }
        }
    }

    fn join(&mut self, other: Counts) {
        self.recipes += other.recipes;
        for (key, count) in other.met {
            *self.met.entry(key).or_default() += count;
        }
        for (all, count) in self.doubles.iter_mut().zip(other.doubles) {
            *all += count;
        }
    }

    fn met(&self, opcode: u8, case: Case, mark: bool) -> u64 {
        self.met.get(&(opcode, case, mark)).copied().unwrap_or(0)
    }

    /// Stops where a case has another mark than W-203 gives it, or came up less often than this, or
    /// less than a third of the doubles have the mark.
    fn expect(&self, least: u64) {
        let [unmarked, marked] = self.doubles;
        println!(
            "{} recipes, {marked} doubles marked, {unmarked} not",
            self.recipes
        );
        assert!(2 * marked >= unmarked, "{marked} marked, {unmarked} not");
        let mut all = 0;
        for operation in &OPERATIONS {
            let opcode = operation.opcode;
            for &(case, mark) in cases(opcode) {
                let [met, wrong] = [mark, !mark].map(|mark| self.met(opcode, case, mark));
                println!("opcode {opcode:02x}, {case:?}: {met} lines, marked {mark}");
                assert!(met >= least, "opcode {opcode:02x}, {case:?}: {met}");
                assert_eq!(
                    wrong, 0,
                    "opcode {opcode:02x}, {case:?} is not marked {mark}"
                );
                all += met;
            }
        }
        // No line was of a case that its opcode doesn't have.
        assert_eq!(all, self.met.values().sum::<u64>());
    }
}

/// Holds the sheets of these seeds' recipes to the reference's.
fn compare(way: Way, seeds: Range<u64>) -> Counts {
    on_all_cores(seeds.end - seeds.start, Counts::join, |seed, counts| {
        let mut random = Random::new(0x3a7c_0000 + seeds.start + seed);
        for _ in 0..RECIPES {
            let plan = random.plan();
            let (draft, _) = grow_marked(&mut random, &plan);
            let call = draft.sheet_call();
            let outcome = Outcome::library(&call);
            let difference = outcome.difference(&Outcome::expected(way, &call), &call);
            if difference.is_some() {
                return difference;
            }
            let shown = shown_lines(&outcome);
            if let Some(step) = line_with_a_wrong_mark(&shown) {
                return Some(format!("step {step} has a wrong mark\n{call}"));
            }
            counts.add(&draft, &shown);
        }
        None
    })
}

#[test]
fn on_many_marks_by_the_short_form() {
    let counts = compare(Way::Short, 0..SEEDS);
    assert_eq!(counts.recipes, SEEDS * RECIPES);
    counts.expect(500);
}

#[test]
fn on_many_marks_by_the_authority() {
    let counts = compare(Way::Exact, SEEDS..SEEDS + EXACT_SEEDS);
    assert_eq!(counts.recipes, EXACT_SEEDS * RECIPES);
    counts.expect(20);
}
