//! Sheets: the range rules against every value of small ranges, the promise of a passed sheet, and
//! the two ways of working values.

use crate::recipe::both_ways_give_the_same;
use estrenwind_tests::patterns::Random;
use estrenwind_tests::recipes::growing::{grow, grow_marked, grow_sheet};
use estrenwind_tests::recipes::shown::is_finite_and_integral;
use estrenwind_tests::recipes::{frame, SheetCall};
use estrenwind_tests::reference::recipe::{
    ranges, run, sheet, Kind, Operation, Range, StepRange, Way, OPERATIONS,
};
use estrenwind_tests::reference::BINARY64;

/// A range of up to seven numbers, and all of their words: of the zeros both. It starts near a
/// number at which a rule changes, or anywhere.
pub fn small_range(random: &mut Random, kind: Kind) -> (Range, Vec<u64>) {
    let words_of = |rank: i64| match kind {
        Kind::Whole => vec![rank as u64],
        Kind::Double if rank == 0 => vec![0, BINARY64.sign_bit()],
        Kind::Double if rank < 0 => vec![BINARY64.sign_bit() | rank.unsigned_abs()],
        Kind::Double => vec![rank as u64],
    };
    let rank_of = |word: u64| match kind {
        Kind::Whole => word as i64,
        Kind::Double => BINARY64.rank(word),
    };
    let (least, most) = match kind {
        Kind::Whole => (i64::MIN, i64::MAX),
        Kind::Double => (-(BINARY64.infinity() as i64), BINARY64.infinity() as i64),
    };
    let near = rank_of(random.value(kind)).saturating_add(random.within(-4..2));
    let first = near.clamp(least, most);
    let last = first.saturating_add(random.within(0..7)).min(most);
    let words: Vec<u64> = (first..=last).flat_map(words_of).collect();
    let [lows, highs] = [first, last].map(words_of);
    let [low, high] = [lows, highs].map(|ends| ends[random.below(ends.len() as u64) as usize]);
    (Range { low, high }, words)
}

/// Every value of the operands gives a value in the range, and the ends of the range are among
/// them: but for modf's fraction, fmod and remainder, whose rules say only how far the values can
/// reach.
#[test]
fn ranges_hold_every_value_and_reach_no_further() {
    let mut random = Random::new(0x510);
    for operation in &OPERATIONS {
        let Some(function) = operation.function() else {
            continue;
        };
        let (kind, opcode) = (operation.kind, operation.opcode);
        let operands = operation.source.operands();
        let mut passed = 0;
        for _ in 0..2_000 {
            let (a, a_words) = small_range(&mut random, operands[0]);
            let (b, b_words) = match operands.get(1) {
                Some(&kind) => small_range(&mut random, kind),
                None => (Range::of(0), vec![0]),
            };
            let Ok(range) = function.range(Way::Exact, a, b) else {
                continue;
            };
            passed += 1;
            let mut reached = [false; 2];
            for &x in &a_words {
                for &y in &b_words {
                    let word = function.value(Way::Exact, x, y);
                    let word = word.unwrap_or_else(|refusal| {
                        panic!("{opcode:x} {x:x} {y:x}: refusal {refusal}, range {range:x?}")
                    });
                    assert!(
                        range.holds(Way::Exact, kind, word),
                        "{opcode:x} {x:x} {y:x}: {word:x}, range {range:x?}"
                    );
                    for (reached, end) in reached.iter_mut().zip([range.low, range.high]) {
                        *reached |= kind.compare(Way::Exact, word, end).is_eq();
                    }
                }
            }
            assert!(
                reached == [true; 2] || [0x15, 0x22, 0x24].contains(&opcode),
                "{opcode:x} of {a:x?}, {b:x?}: {range:x?} reached {reached:?}"
            );
        }
        assert!(passed > 200, "{opcode:x}: {passed}");
    }
}

/// Where the rules refuse, there are values of the operands that do: but for ldexp by powers that
/// are too small to overflow, where a range that reaches infinity is refused all the same.
#[test]
fn where_the_rules_refuse_a_value_does() {
    let mut random = Random::new(0x511);
    for operation in &OPERATIONS {
        let Some(function) = operation.function() else {
            continue;
        };
        let operands = operation.source.operands();
        for _ in 0..2_000 {
            let (a, a_words) = small_range(&mut random, operands[0]);
            let (b, b_words) = match operands.get(1) {
                Some(&kind) => small_range(&mut random, kind),
                None => (Range::of(0), vec![0]),
            };
            if let Err(refusal) = function.range(Way::Exact, a, b) {
                let refuses = |&x: &u64| {
                    (b_words.iter()).any(|&y| function.value(Way::Exact, x, y) == Err(refusal))
                };
                let infinite = |end: u64| BINARY64.fabs(end) == BINARY64.infinity();
                let excused = operation.opcode == 0x23 && (infinite(a.low) || infinite(a.high));
                assert!(
                    excused || a_words.iter().any(refuses),
                    "{:x} of {a:x?}, {b:x?}",
                    operation.opcode
                );
            }
        }
    }
}

/// The promise, of the reference's own sheets and runs.
#[test]
fn every_run_of_a_passed_sheet_completes_in_its_ranges() {
    let mut random = Random::new(0x512);
    let (mut passed, mut runs, mut marked) = (0, 0, 0);
    for round in 0..8_000 {
        let plan = random.plan();
        let grow = [grow, grow_sheet, grow_sheet, grow_marked][round % 4];
        let (draft, _) = grow(&mut random, &plan);
        let call = draft.sheet_call();
        let Ok(ranges) = sheet(Way::Short, &call.text, call.lent) else {
            continue;
        };
        passed += 1;
        for _ in 0..8 {
            let inputs = draft.inputs().into_iter().map(|place| draft.lines[place]);
            let words: Vec<u64> = inputs
                .map(|line| random.declared(line.kind().unwrap(), [line.p, line.q]))
                .collect();
            let values = run(Way::Short, &call.text, &frame(&words), ranges.len());
            let values = values.unwrap_or_else(|refusal| panic!("{refusal:?}\n{call}\n{words:x?}"));
            assert_eq!(values.len(), ranges.len());
            for (value, StepRange { kind, mark, range }) in values.iter().zip(&ranges) {
                assert_eq!(value.kind, *kind);
                assert!(
                    range.holds(Way::Short, *kind, value.word),
                    "{call}\n{words:x?}"
                );
                if *kind == Kind::Double && *mark {
                    marked += 1;
                    assert!(is_finite_and_integral(value.word), "{call}\n{words:x?}");
                }
            }
            runs += 1;
        }
    }
    assert!(passed > 5_000 && runs > 40_000, "{passed} {runs}");
    assert!(marked > 100_000, "{marked}");
}

/// "Sheet line: step 2 digits, kind 2 (01 double, 02 whole), low 16, high 16, line feed"; and W-203's
/// mark, "01 or 00, shown after the kind, so a sheet line has 38 digits".
#[test]
fn lines_are_as_document_01_and_w_203_say() {
    let mut text = b"0300003ff80000000000000000000000000000\n".repeat(127);
    text.extend(b"040000fffffffffffffffe0000000000000000\n");
    let ranges = sheet(Way::Exact, &text, 39 * 128).unwrap();
    let bytes = sheet::bytes(&ranges);
    assert_eq!(bytes.len(), 39 * 128);
    assert_eq!(bytes[..39], *b"0001003ff80000000000003ff8000000000000\n");
    assert_eq!(
        bytes[39 * 127..],
        *b"7f0201fffffffffffffffefffffffffffffffe\n"
    );
}

/// "21 for an infinite result (sheet: any end sum, difference or product)": where any of the four end
/// products is infinite, and no end is, the fmin or the fmax of the four is too. So it is all the same
/// whether the products are asked or the ends of the range.
#[test]
fn an_infinite_product_is_an_end() {
    let mut random = Random::new(0x514);
    let multiply = Operation::of_opcode(0x42).unwrap();
    let (mut infinite, mut finite) = (0, 0);
    for _ in 0..200_000 {
        let [a, b] = random.operands(multiply, false);
        let ends = |range: Range| [range.low, range.high].map(f64::from_bits);
        let ([a_low, a_high], [b_low, b_high]) = (ends(a), ends(b));
        if [a_low, a_high, b_low, b_high]
            .iter()
            .any(|end| end.is_infinite())
        {
            continue;
        }
        let products = [
            a_low * b_low,
            a_low * b_high,
            a_high * b_low,
            a_high * b_high,
        ];
        let any = products.iter().any(|product| product.is_infinite());
        let low = products.into_iter().fold(f64::INFINITY, f64::min);
        let high = products.into_iter().fold(f64::NEG_INFINITY, f64::max);
        assert_eq!(any, low.is_infinite() || high.is_infinite(), "{products:?}");
        let range = multiply.function().unwrap().range(Way::Exact, a, b);
        assert_eq!(range.err(), any.then_some(21), "{products:?}");
        infinite += any as u64;
        finite += !any as u64;
    }
    assert!(infinite > 10_000 && finite > 10_000, "{infinite} {finite}");
}

/// W-202's order makes the fmin and the fmax of four numbers the same in whichever order they come.
#[test]
fn the_order_of_the_four_products_does_not_matter() {
    let numbers: [u64; 4] = [0, 1 << 63, 1, 1 << 63 | 1];
    for w in numbers {
        for x in numbers {
            for y in numbers {
                for z in numbers {
                    let expected = ranges::least_and_greatest(Way::Exact, &[w, x, y, z]);
                    for order in [[z, y, x, w], [x, w, z, y], [y, z, w, x]] {
                        for way in [Way::Exact, Way::Short] {
                            assert_eq!(ranges::least_and_greatest(way, &order), expected);
                        }
                    }
                }
            }
        }
    }
}

#[test]
fn both_ways_give_the_same_sheet() {
    both_ways_give_the_same::<SheetCall>(0x513);
}
