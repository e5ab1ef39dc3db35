//! The rule for marks: what it gives by opcode, and that values keep to it step by step.

use crate::sheet::small_range;
use estrenwind_tests::patterns::Random;
use estrenwind_tests::recipes::shown::is_finite_and_integral;
use estrenwind_tests::reference::recipe::marks::is_marked;
use estrenwind_tests::reference::recipe::{Kind, Operation, Range, Way, OPERATIONS};

const BOTH: [bool; 2] = [false, true];

/// A step has the mark by its operands' in these cases: of neither, of B alone, of A alone, of both.
fn by_operands(opcode: u8, range: Range) -> [bool; 4] {
    let operation = Operation::of_opcode(opcode).expect("an opcode");
    let pairs = [[false, false], [false, true], [true, false], [true, true]];
    pairs.map(|[a, b]| is_marked(Way::Exact, operation, range, a, b))
}

/// "Marked: every whole-kind step; 32; .. 10 to 14 when both ends are finite. fabs and negate keep the
/// mark; fmin, fmax and fmod have it when both operands do; all others lack it." W-204: "marked when
/// both operands are".
#[test]
fn the_rule_opcode_by_opcode() {
    let range = |[low, high]: [f64; 2]| Range {
        low: low.to_bits(),
        high: high.to_bits(),
    };
    let finite = range([-2.5, 7.0]);
    let infinite = [
        range([f64::NEG_INFINITY, 7.0]),
        range([-2.5, f64::INFINITY]),
        range([f64::NEG_INFINITY, f64::INFINITY]),
    ];
    for operation in &OPERATIONS {
        let opcode = operation.opcode;
        let expected = match opcode {
            0x02 | 0x04 | 0x18 | 0x30 | 0x31 | 0x32 => [true; 4],
            0x10..=0x14 => [true; 4],
            0x16 | 0x17 => [false, false, true, true],
            0x20..=0x22 | 0x24 | 0x40..=0x42 => [false, false, false, true],
            0x01 | 0x03 | 0x15 | 0x23 => [false; 4],
            _ => panic!("{opcode:x} is no opcode"),
        };
        assert_eq!(by_operands(opcode, finite), expected, "{opcode:02x}");
        for range in infinite {
            let expected = match opcode {
                0x10..=0x14 => [false; 4],
                _ => expected,
            };
            assert_eq!(by_operands(opcode, range), expected, "{opcode:02x}");
        }
    }
}

/// Whether a word may be the value of an operand with this mark.
fn may_be(kind: Kind, mark: bool, word: u64) -> bool {
    kind == Kind::Whole || !mark || is_finite_and_integral(word)
}

/// What a step makes of values that keep to their operands' marks keeps to its own.
#[test]
fn values_keep_to_the_marks() {
    let mut random = Random::new(0x530);
    for operation in OPERATIONS.iter().filter(|step| step.kind == Kind::Double) {
        let Some(function) = operation.function() else {
            continue;
        };
        let opcode = operation.opcode;
        let kinds = operation.source.operands();
        let (mut marked, mut unmarked) = (0, 0);
        for _ in 0..4_000 {
            let (a, a_words) = small_range(&mut random, kinds[0]);
            let (b, b_words) = match kinds.get(1) {
                Some(&kind) => small_range(&mut random, kind),
                None => (Range::of(0), vec![0]),
            };
            let Ok(range) = function.range(Way::Exact, a, b) else {
                continue;
            };
            for a_mark in BOTH {
                for b_mark in BOTH {
                    let mark = is_marked(Way::Exact, operation, range, a_mark, b_mark);
                    let of_b = kinds.get(1).copied().unwrap_or(Kind::Whole);
                    for &x in a_words.iter().filter(|&&x| may_be(kinds[0], a_mark, x)) {
                        for &y in b_words.iter().filter(|&&y| may_be(of_b, b_mark, y)) {
                            let word = function.value(Way::Exact, x, y);
                            let word = word.expect("the sheet passes");
                            assert!(
                                !mark || is_finite_and_integral(word),
                                "{opcode:x} {x:x} {y:x}: {word:x}"
                            );
                            marked += mark as u64;
                            unmarked += !mark as u64;
                        }
                    }
                }
            }
        }
        println!("{opcode:02x}: {marked} values marked, {unmarked} not");
        assert_eq!(
            marked > 1_000,
            ![0x15, 0x23].contains(&opcode),
            "{opcode:02x}"
        );
        assert_eq!(unmarked > 1_000, opcode != 0x32, "{opcode:02x}");
    }
}
