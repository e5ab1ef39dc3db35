//! Chains of up to 128 steps, each on the one before it.

use super::{marks, shown};
use estrenwind_tests::recipes::limits::{INF, MAX};
use estrenwind_tests::recipes::Line;
use estrenwind_tests::reference::recipe::text::MOST_STEPS;
use estrenwind_tests::reference::recipe::Kind;

fn double(x: f64) -> Line {
    Line::constant(Kind::Double, x.to_bits())
}

/// The steps that hand the mark on from `last`, where there is a number with the mark at step 1.
fn keepers(last: usize) -> [Line; 8] {
    [
        Line::step(0x16, last, 0),
        Line::step(0x17, last, 0),
        Line::step(0x20, last, 1),
        Line::step(0x20, 1, last),
        Line::step(0x21, last, 1),
        Line::step(0x21, 1, last),
        Line::step(0x20, last, last),
        Line::step(0x21, last, last),
    ]
}

/// Keepers by turns behind these steps, up to the last of 128: each on the one before it.
fn kept_on(start: &[Line], turn: usize) -> Vec<Line> {
    let mut lines = start.to_vec();
    while lines.len() < MOST_STEPS {
        let last = lines.len() - 1;
        let keepers = keepers(last);
        lines.push(keepers[(turn * lines.len()) % keepers.len()]);
    }
    lines
}

/// A mark is kept to the last step, and where it isn't there at the start, it never comes.
#[test]
fn keepers_keep_what_is_there() {
    let far = double(1e9);
    let starts = [
        (
            vec![Line::input_of([-2.5, 7.25]), far, Line::step(0x10, 0, 0)],
            true,
        ),
        (
            vec![Line::input_of([-7i64, 9]), far, Line::step(0x32, 0, 0)],
            true,
        ),
        (
            vec![Line::input_of([0.0, -0.0]), far, Line::step(0x16, 0, 0)],
            true,
        ),
        (vec![double(-MAX), far, Line::step(0x17, 0, 0)], true),
        (
            vec![Line::input_of([-2.5, 7.25]), far, Line::step(0x17, 0, 0)],
            false,
        ),
        (
            vec![Line::input_of([-3.0, 7.0]), far, Line::step(0x16, 0, 0)],
            false,
        ),
        (
            vec![Line::input_of([-INF, INF]), far, Line::step(0x12, 0, 0)],
            false,
        ),
        (vec![double(INF), far, Line::step(0x17, 0, 0)], false),
        (vec![double(0.5), far, Line::step(0x17, 0, 0)], false),
    ];
    for (start, mark) in starts {
        for turn in [1, 3, 5, 7] {
            let marks = marks(&kept_on(&start, turn));
            assert_eq!(marks[2..], vec![mark; MOST_STEPS - 2], "{start:?} {turn}");
        }
    }
}

/// One kind of step alone, 127 times: fabs, negate, and fmin, fmax, fmod, remainder, a sum, a difference
/// and a product with a number.
#[test]
fn one_keeper_again_and_again() {
    for (start, mark) in [(3.0, true), (-3.0, true), (2.5, false), (-2.5, false)] {
        for opcode in [0x16, 0x17, 0x20, 0x21, 0x22, 0x24, 0x40, 0x41, 0x42] {
            let mut lines = vec![double(start), double(5.0), Line::step(0x17, 0, 0)];
            while lines.len() < MOST_STEPS {
                let last = lines.len() - 1;
                let b = if opcode >= 0x20 { 1 } else { 0 };
                lines.push(Line::step(opcode, last, b));
            }
            let marks = marks(&lines);
            assert_eq!(
                marks[2..],
                vec![mark; MOST_STEPS - 2],
                "{start} {opcode:02x}"
            );
        }
    }
}

/// The mark is lost by modf's fraction and by ldexp, and by fmin with an infinite constant, though it
/// chooses the other operand; a rounding brings it back, until it is lost again.
#[test]
fn lost_and_brought_back() {
    let mut lines = vec![
        Line::input_of([-2.5, 7.25]),
        double(3.0),
        double(INF),
        Line::constant(Kind::Whole, 1),
    ];
    let mut expected = vec![false, true, false, true];
    let mut last = 0;
    'rounds: for round in 0.. {
        for (opcode, b, mark) in [
            (0x10 + round % 5, 0, true),
            (0x16, 0, true),
            (
                [0x15, 0x23, 0x20][round as usize % 3],
                [0, 3, 2][round as usize % 3],
                false,
            ),
            (0x17, 0, false),
            (0x20, 1, false),
        ] {
            if lines.len() == MOST_STEPS {
                break 'rounds;
            }
            lines.push(Line::step(opcode, last, b));
            expected.push(mark);
            last = lines.len() - 1;
        }
    }
    assert_eq!(marks(&lines), expected);
    let lost = expected.windows(2).filter(|pair| pair == &[true, false]);
    assert!(lost.count() > 20);
}

/// fmin of a marked step and an infinite constant lacks the mark, with just the ends that the step
/// has; its floor, on the same ends, has it again.
#[test]
fn an_infinite_constant_takes_the_mark_and_leaves_the_range() {
    let lines = [
        Line::input_of([-2.5, 7.25]),
        Line::step(0x10, 0, 0),
        double(INF),
        Line::step(0x20, 1, 2),
        Line::step(0x10, 3, 0),
        double(-INF),
        Line::step(0x21, 5, 4),
        Line::step(0x14, 6, 0),
        // By the other infinity there is no number left, and nothing to round.
        Line::step(0x20, 7, 5),
        Line::step(0x10, 8, 0),
    ];
    let shown = shown(&lines);
    let ends = [-3.0f64, 7.0].map(f64::to_bits);
    for step in [1, 3, 4, 6, 7] {
        assert_eq!(shown[step].ends(), ends, "step {step}");
    }
    let marks: Vec<bool> = shown.iter().map(|shown| shown.mark).collect();
    let expected = [
        false, true, false, false, true, false, false, true, false, false,
    ];
    assert_eq!(marks, expected);
}

/// Step 127 on step 0 or 1 with everything else between them: no mark is taken from a neighbour.
#[test]
fn the_last_step_on_the_first() {
    for (between, others) in [(double(1.0), true), (double(0.5), false)] {
        for (a, mark) in [(0, true), (1, false)] {
            for step in [
                Line::step(0x16, a, 0),
                Line::step(0x17, a, 0),
                Line::step(0x20, a, a),
                Line::step(0x21, a, a),
                Line::step(0x40, a, a),
                Line::step(0x41, a, a),
                Line::step(0x42, a, a),
            ] {
                let mut lines = vec![double(2.0), double(2.5)];
                lines.resize(MOST_STEPS - 1, between);
                lines.push(step);
                let mut expected = vec![true, false];
                expected.resize(MOST_STEPS - 1, others);
                expected.push(mark);
                assert_eq!(marks(&lines), expected, "{step:?}");
            }
        }
    }
}
