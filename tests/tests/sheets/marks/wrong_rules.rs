//! Values tell a wrong rule from W-203's: by marks that are given where they shouldn't be, the check of
//! `promise` finds a run that breaks them. Rules that give too many and are still true of every value
//! are listed too: of these only `agreement` and the rows read by hand can tell.

use crate::promise::{broken, frames};
use estrenwind_tests::library;
use estrenwind_tests::patterns::Random;
use estrenwind_tests::recipes::growing::{grow_marked, grow_sheet};
use estrenwind_tests::recipes::shown::{is_finite_and_integral, read, Shown};
use estrenwind_tests::recipes::{frame, Draft};
use estrenwind_tests::reference::recipe::marks::is_marked;
use estrenwind_tests::reference::recipe::{Kind, Operation, Range, Way};

/// Recipes that every rule is tried on, over the frames of `promise`.
const RECIPES: usize = 3_000;

/// What a rule goes by: the step's own line, and its operands', with the marks of the rule itself.
struct Step {
    opcode: u8,
    shown: Shown,
    a: Option<Shown>,
    b: Option<Shown>,
}

impl Step {
    fn is(&self, opcode: u8) -> bool {
        self.opcode == opcode
    }

    fn is_rounding(&self) -> bool {
        (0x10..=0x14).contains(&self.opcode)
    }

    fn ends(&self) -> [f64; 2] {
        self.shown.ends().map(f64::from_bits)
    }

    fn is_one_number(&self) -> bool {
        let [low, high] = self.ends();
        low == high
    }

    fn is_infinite(&self) -> bool {
        self.ends().iter().any(|end| end.is_infinite())
    }

    fn has_integral_ends(&self) -> bool {
        self.shown.ends().into_iter().all(is_finite_and_integral)
    }

    fn a_is_marked(&self) -> bool {
        self.a.is_some_and(|a| a.mark)
    }

    fn b_is_marked(&self) -> bool {
        self.b.is_some_and(|b| b.mark)
    }

    /// Whether B is one infinity.
    fn b_is_infinite(&self) -> bool {
        let infinite = |b: Shown| f64::from_bits(b.low).is_infinite() && b.low == b.high;
        self.b.is_some_and(infinite)
    }

    /// The papers' mark, by the operands' marks that are given.
    fn right(&self) -> bool {
        let operation = Operation::of_opcode(self.opcode).expect("an opcode");
        let Shown { low, high, .. } = self.shown;
        let (a, b) = (self.a_is_marked(), self.b_is_marked());
        is_marked(Way::Short, operation, Range { low, high }, a, b)
    }
}

/// Steps that a wrong rule marks, besides those that W-203's does.
type Also = fn(&Step) -> bool;

const REFUTED: [(&str, Also); 38] = [
    ("an input with integral ends", |s| {
        s.is(0x01) && s.has_integral_ends()
    }),
    ("an input of one number, whatever it is", |s| {
        s.is(0x01) && s.is_one_number()
    }),
    ("an input of one number, infinite", |s| {
        s.is(0x01) && s.is_one_number() && s.is_infinite()
    }),
    ("any input", |s| s.is(0x01)),
    ("any constant", |s| s.is(0x03)),
    ("an infinite constant", |s| s.is(0x03) && s.is_infinite()),
    ("a finite constant", |s| s.is(0x03) && !s.is_infinite()),
    ("10 to 14 always", |s| s.is_rounding()),
    ("10 to 14, low end finite", |s| {
        s.is_rounding() && s.ends()[0].is_finite()
    }),
    ("10 to 14, high end finite", |s| {
        s.is_rounding() && s.ends()[1].is_finite()
    }),
    ("15 always", |s| s.is(0x15)),
    ("16 always", |s| s.is(0x16)),
    ("17 always", |s| s.is(0x17)),
    ("16 with integral ends", |s| {
        s.is(0x16) && s.has_integral_ends()
    }),
    ("17 with integral ends", |s| {
        s.is(0x17) && s.has_integral_ends()
    }),
    ("20 when A is", |s| s.is(0x20) && s.a_is_marked()),
    ("20 when B is", |s| s.is(0x20) && s.b_is_marked()),
    ("21 when A is", |s| s.is(0x21) && s.a_is_marked()),
    ("21 when B is", |s| s.is(0x21) && s.b_is_marked()),
    ("22 when A is", |s| s.is(0x22) && s.a_is_marked()),
    ("22 when B is", |s| s.is(0x22) && s.b_is_marked()),
    ("23 keeps A's", |s| s.is(0x23) && s.a_is_marked()),
    ("23 with integral ends", |s| {
        s.is(0x23) && s.has_integral_ends()
    }),
    ("24 when A is", |s| s.is(0x24) && s.a_is_marked()),
    ("24 when B is", |s| s.is(0x24) && s.b_is_marked()),
    ("40 when A is", |s| s.is(0x40) && s.a_is_marked()),
    ("40 when B is", |s| s.is(0x40) && s.b_is_marked()),
    ("40 always", |s| s.is(0x40)),
    ("40 with integral ends", |s| {
        s.is(0x40) && s.has_integral_ends()
    }),
    ("41 when A is", |s| s.is(0x41) && s.a_is_marked()),
    ("41 when B is", |s| s.is(0x41) && s.b_is_marked()),
    ("41 always", |s| s.is(0x41)),
    ("41 with integral ends", |s| {
        s.is(0x41) && s.has_integral_ends()
    }),
    ("42 when A is", |s| s.is(0x42) && s.a_is_marked()),
    ("42 when B is", |s| s.is(0x42) && s.b_is_marked()),
    ("42 always", |s| s.is(0x42)),
    ("42 with integral ends", |s| {
        s.is(0x42) && s.has_integral_ends()
    }),
    ("every step with integral ends", |s| s.has_integral_ends()),
];

/// Marked besides, and never broken.
const UNREFUTED: [(&str, Also); 7] = [
    ("15 keeps A's", |s| s.is(0x15) && s.a_is_marked()),
    ("23 keeps A's where no power is below 0", |s| {
        s.is(0x23) && s.a_is_marked() && s.b.is_some_and(|b| b.low as i64 >= 0)
    }),
    ("20 when A is and B is above it", |s| {
        let above = |[a, b]: [Shown; 2]| f64::from_bits(a.high) < f64::from_bits(b.low);
        s.is(0x20) && s.a_is_marked() && s.a.zip(s.b).is_some_and(|(a, b)| above([a, b]))
    }),
    ("22 when A is and B is infinite", |s| {
        s.is(0x22) && s.a_is_marked() && s.b_is_infinite()
    }),
    ("24 when A is and B is infinite", |s| {
        s.is(0x24) && s.a_is_marked() && s.b_is_infinite()
    }),
    // From 2^52 on every double is an integer.
    ("40 to 42 where the range begins beyond 2^52", |s| {
        (0x40..=0x42).contains(&s.opcode) && s.ends()[0] >= 4_503_599_627_370_496.0
    }),
    ("42 when A is, and is zero", |s| {
        s.is(0x42) && s.a_is_marked() && s.a.is_some_and(|a| (a.low | a.high) << 1 == 0)
    }),
];

/// A recipe, the lines of its sheet, and the words of its runs. All is the library's.
struct Tried {
    draft: Draft,
    shown: Vec<Shown>,
    runs: Vec<Vec<u64>>,
}

impl Tried {
    fn new(random: &mut Random, turn: usize) -> Tried {
        let plan = random.plan();
        let grow = [grow_marked, grow_sheet][turn % 2];
        let (draft, _) = grow(random, &plan);
        let call = draft.sheet_call();
        let mut sheet = vec![0; call.lent];
        assert_eq!(library::sheet(&call.text, &mut sheet).refusal, 0, "{call}");
        let run = |inputs: Vec<u64>| {
            let mut words = vec![0; draft.lines.len()];
            let answer = library::run(&call.text, &frame(&inputs), &mut words);
            assert_eq!(answer.refusal, 0, "{call}");
            words
        };
        let runs = frames(random, &draft).into_iter().map(run).collect();
        let shown = read(&sheet);
        Tried { draft, shown, runs }
    }

    /// The lines of the sheet with the marks of a wrong rule, and the steps that it marks besides.
    fn marked_by(&self, also: Also) -> (Vec<Shown>, Vec<usize>) {
        let mut marked: Vec<Shown> = Vec::new();
        let mut besides = Vec::new();
        for (place, (line, &shown)) in self.draft.lines.iter().zip(&self.shown).enumerate() {
            let operation = line.operation().expect("an opcode");
            let operand = |used: bool, place: u8| used.then(|| marked[place as usize]);
            let step = Step {
                opcode: line.opcode,
                shown,
                a: operand(operation.uses_a(), line.a),
                b: operand(operation.uses_b(), line.b),
            };
            let (right, also) = (step.right(), also(&step));
            if also && !right {
                besides.push(place);
            }
            let mark = right || also;
            marked.push(Shown { mark, ..shown });
        }
        (marked, besides)
    }

    /// The first step that a run breaks.
    fn broken(&self, marked: &[Shown]) -> Option<usize> {
        let step = |words: &Vec<u64>| broken(marked, words).map(|(step, _)| step);
        self.runs.iter().find_map(step)
    }
}

fn tried() -> Vec<Tried> {
    let mut random = Random::new(0x2032);
    (0..RECIPES)
        .map(|turn| Tried::new(&mut random, turn))
        .collect()
}

/// How many recipes a wrong rule marks more in, and in how many of them it is refuted. What refutes
/// it is first a step that it marks besides: what W-203 makes of marks that hold, holds.
fn refuted(tried: &[Tried], also: Also) -> (u64, u64) {
    let (mut wrong, mut refuted) = (0, 0);
    for tried in tried {
        let (marked, besides) = tried.marked_by(also);
        wrong += !besides.is_empty() as u64;
        if let Some(step) = tried.broken(&marked) {
            refuted += 1;
            assert!(
                besides.contains(&step),
                "step {step}\n{}",
                tried.draft.sheet_call()
            );
            assert_eq!(marked[step].kind, Kind::Double);
        }
    }
    (wrong, refuted)
}

#[test]
fn values_refute_wrong_rules() {
    let tried = tried();
    for (name, also) in REFUTED {
        let (wrong, refuted) = refuted(&tried, also);
        println!("{name}: more marks in {wrong} recipes, refuted in {refuted}");
        assert!(refuted >= 10, "{name}: {refuted} of {wrong} recipes");
    }
    let (wrong, refuted) = refuted(&tried, |_| false);
    assert_eq!((wrong, refuted), (0, 0), "the right rule");
}

#[test]
fn values_do_not_refute_rules_that_are_true_of_them() {
    let tried = tried();
    for (name, also) in UNREFUTED {
        let (wrong, refuted) = refuted(&tried, also);
        println!("{name}: more marks in {wrong} recipes");
        assert!(wrong > 0, "{name}");
        assert_eq!(refuted, 0, "{name}");
    }
}
