//! A mark of 00 promises nothing. Of these steps every value is finite and integral, and the rule still
//! gives 00: it goes by opcodes, ends and marks, not by what values can be.

use super::{marks, recipe};
use crate::promise::frames;
use estrenwind_tests::library;
use estrenwind_tests::patterns::Random;
use estrenwind_tests::recipes::limits::{INF, MAX};
use estrenwind_tests::recipes::shown::is_finite_and_integral;
use estrenwind_tests::recipes::{frame, Line};
use estrenwind_tests::reference::recipe::Kind;

fn double(x: f64) -> Line {
    Line::constant(Kind::Double, x.to_bits())
}

fn step(opcode: u8, a: usize, b: usize) -> Line {
    Line::step(opcode, a, b)
}

/// Recipes whose last step is always an integer, and why it is.
fn recipes() -> Vec<(&'static str, Vec<Line>)> {
    let inputs = Line::input_of([-2.5, 7.25]);
    let rounded = step(0x10, 0, 0); // -3 to 7, with the mark
    let [two_52, two_53] = [4_503_599_627_370_496.0, 9_007_199_254_740_992.0];
    let integers = Line::input_of([two_52, two_53]);
    let any_power = Line::input_of([-1100i64, 1000]);
    vec![
        (
            "15: the fraction of an integer is a zero",
            vec![inputs, rounded, step(0x15, 1, 0)],
        ),
        ("15: of one number too", vec![double(3.0), step(0x15, 0, 0)]),
        (
            "23: an integer by powers from 0 on",
            vec![inputs, rounded, Line::input_of([0i64, 9]), step(0x23, 1, 2)],
        ),
        (
            "23: eight down to one",
            vec![double(8.0), Line::input_of([-3i64, 0]), step(0x23, 0, 1)],
        ),
        (
            "23: a zero by any power",
            vec![Line::input_of([0.0, -0.0]), any_power, step(0x23, 0, 1)],
        ),
        (
            "23: too small to be more than a zero",
            vec![
                double(0.5),
                Line::input_of([-2000i64, -1074]),
                step(0x23, 0, 1),
            ],
        ),
        (
            "20: the other is infinite",
            vec![inputs, rounded, double(INF), step(0x20, 1, 2)],
        ),
        (
            "20: the other is always larger",
            vec![
                inputs,
                rounded,
                Line::input_of([10.5, 11.5]),
                step(0x20, 2, 1),
            ],
        ),
        (
            "21: the other is infinite",
            vec![inputs, rounded, double(-INF), step(0x21, 2, 1)],
        ),
        (
            "21: the other is always smaller",
            vec![
                inputs,
                rounded,
                Line::input_of([-9.5, -8.5]),
                step(0x21, 1, 2),
            ],
        ),
        (
            "22: by an infinity it is the number itself",
            vec![inputs, rounded, double(INF), step(0x22, 1, 2)],
        ),
        (
            "22: of a zero it is a zero",
            vec![double(-0.0), Line::input_of([0.5, 2.5]), step(0x22, 0, 1)],
        ),
        (
            "24: by an infinity it is the number itself",
            vec![inputs, rounded, double(-INF), step(0x24, 1, 2)],
        ),
        (
            "24: of a zero it is a zero",
            vec![double(-0.0), Line::input_of([0.5, 2.5]), step(0x24, 0, 1)],
        ),
        (
            "24: by a half an integer leaves a zero",
            vec![inputs, rounded, double(0.5), step(0x24, 1, 2)],
        ),
        (
            "40: two halves are one",
            vec![double(0.5), step(0x40, 0, 0)],
        ),
        (
            "40: beyond 2^52 a sum has no fraction left",
            vec![inputs, double(two_53), step(0x40, 0, 1)],
        ),
        (
            "41: a step taken from itself is a zero, of one number",
            vec![double(2.5), step(0x41, 0, 0)],
        ),
        (
            "42: by a zero it is a zero",
            vec![inputs, double(-0.0), step(0x42, 0, 1)],
        ),
        (
            "42: an even integer by a half",
            vec![
                inputs,
                rounded,
                double(2.0),
                step(0x42, 1, 2),
                double(0.5),
                step(0x42, 3, 4),
            ],
        ),
        (
            "42: too small to be more than a zero",
            vec![Line::input_of([1e-300, 2e-300]), step(0x42, 0, 0)],
        ),
        ("01: from 2^52 to 2^53 all are integers", vec![integers]),
        (
            "01: the two largest",
            vec![Line::input_of([MAX.next_down(), MAX])],
        ),
        ("16: of these", vec![integers, step(0x16, 0, 0)]),
        ("17: of these", vec![integers, step(0x17, 0, 0)]),
        (
            "20: two that are integers without the mark",
            vec![integers, integers, step(0x20, 0, 1)],
        ),
        (
            // The smaller of x's parts above and below zero, both made positive: one of them is zero.
            "10: an end is infinite that no value reaches",
            vec![
                Line::input_of([-INF, INF]),
                double(0.0),
                step(0x20, 0, 1),
                step(0x21, 0, 1),
                step(0x17, 2, 0),
                step(0x20, 3, 4),
                step(0x10, 5, 0),
            ],
        ),
    ]
}

#[test]
fn steps_that_are_always_integers_and_lack_the_mark() {
    let mut random = Random::new(0x203);
    for (why, lines) in recipes() {
        let marks = marks(&lines);
        let last = lines.len() - 1;
        assert!(!marks[last], "{why}");
        let draft = recipe(&lines);
        let text = draft.run_call().text;
        let mut words = vec![0; lines.len()];
        for _ in 0..100 {
            for inputs in frames(&mut random, &draft) {
                let answer = library::run(&text, &frame(&inputs), &mut words);
                assert_eq!(answer.refusal, 0, "{why}: {answer}");
                let word = words[last];
                assert!(
                    is_finite_and_integral(word),
                    "{why}: {word:016x} {inputs:x?}"
                );
            }
        }
    }
}
