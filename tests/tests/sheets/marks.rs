//! The marks of W-203, "Say when a value is whole", read off its rule by hand, not off the reference:
//!
//! > Marked: every whole-kind step; 32; a constant or one-number input that is finite and integral;
//! > 10 to 14 when both ends are finite. fabs and negate keep the mark; fmin, fmax and fmod have it
//! > when both operands do; all others lack it.
//!
//! Step 24 came after it, "marked when both operands are" (W-204), and so did steps 40 to 42, "marked when
//! both operands are" (W-208).
//!
//! `declared` has inputs and constants, `steps` every other row of the rule, `chains` recipes of 128
//! steps. `agreement` holds the library's sheets to the reference's on recipes with many marks, and
//! says how many it met. `unpromised` lists steps that lack the mark although no value of theirs has a
//! fraction. `wrong_rules` shows that values tell a wrong rule from the right one, and which they
//! don't; that they never refute the right one is in `promise`.

mod agreement;
mod chains;
mod declared;
mod steps;
mod unpromised;
mod wrong_rules;

use crate::shown_lines;
use estrenwind_tests::library::SheetAnswer;
use estrenwind_tests::recipes::comparison::check;
use estrenwind_tests::recipes::shown::{is_finite_and_integral, Shown};
use estrenwind_tests::recipes::{Draft, Line};
use estrenwind_tests::reference::recipe::{Kind, Way};

/// The recipe of these lines, without a frame.
fn recipe(lines: &[Line]) -> Draft {
    Draft {
        lines: lines.to_vec(),
        words: vec![],
    }
}

/// What the library's sheet of these lines shows, which has to pass and to be the reference's too.
#[track_caller]
fn shown(lines: &[Line]) -> Vec<Shown> {
    let call = recipe(lines).sheet_call();
    let outcome = check(Way::Exact, &call);
    assert_eq!(outcome.answer, SheetAnswer::passed(lines.len()), "{call}");
    let shown = shown_lines(&outcome);
    assert_eq!(line_with_a_wrong_mark(&shown), None, "{call}");
    shown
}

/// The marks of the steps.
#[track_caller]
fn marks(lines: &[Line]) -> Vec<bool> {
    shown(lines).iter().map(|shown| shown.mark).collect()
}

/// The first line with a mark that nothing could have: a whole number without it, or a double with it
/// and an end that isn't finite and integral. Every value may be an end's.
fn line_with_a_wrong_mark(shown: &[Shown]) -> Option<usize> {
    let is_wrong = |shown: &Shown| match shown.kind {
        Kind::Whole => !shown.mark,
        Kind::Double => shown.mark && !shown.ends().into_iter().all(is_finite_and_integral),
    };
    shown.iter().position(is_wrong)
}

/// A look that found nothing wrong would let every mark pass.
#[test]
fn wrong_marks_are_seen() {
    let line = |kind, mark, [low, high]: [f64; 2]| Shown {
        kind,
        mark,
        low: low.to_bits(),
        high: high.to_bits(),
    };
    for (kind, mark, ends, is_wrong) in [
        (Kind::Double, true, [-3.0, 7.0], false),
        (Kind::Double, true, [-0.0, f64::MAX], false),
        (Kind::Double, true, [-2.5, 7.0], true),
        (Kind::Double, true, [-3.0, 7.25], true),
        (Kind::Double, true, [f64::NEG_INFINITY, 7.0], true),
        (Kind::Double, true, [-3.0, f64::INFINITY], true),
        (Kind::Double, false, [-2.5, f64::INFINITY], false),
        (Kind::Double, false, [-3.0, 7.0], false),
        (Kind::Whole, true, [-2.5, f64::INFINITY], false),
        (Kind::Whole, false, [-3.0, 7.0], true),
    ] {
        let lines = [line(Kind::Whole, true, [0.0, 0.0]), line(kind, mark, ends)];
        let found = line_with_a_wrong_mark(&lines);
        assert_eq!(found, is_wrong.then_some(1), "{kind:?} {mark} {ends:?}");
    }
}
