//! Each step on the operands where a mistake would sit, given as inputs of any value.

use estrenwind_tests::arithmetic;
use estrenwind_tests::functions::Function;
use estrenwind_tests::library;
use estrenwind_tests::operands::Operands;
use estrenwind_tests::patterns::Random;
use estrenwind_tests::recipes::comparison::check;
use estrenwind_tests::recipes::{Draft, Line};
use estrenwind_tests::reference::recipe::{Kind, Operation, Way, OPERATIONS};
use estrenwind_tests::reference::{Class, BINARY64};

/// Any double, any whole number.
fn any(kind: Kind) -> Line {
    let range = match kind {
        Kind::Double => [BINARY64.negate(BINARY64.infinity()), BINARY64.infinity()],
        Kind::Whole => [i64::MIN as u64, i64::MAX as u64],
    };
    Line::input(kind, range)
}

/// The step on these operands, which are inputs.
fn draft(operation: &Operation, words: [u64; 2]) -> Draft {
    let kinds = operation.source.operands();
    let mut lines: Vec<Line> = kinds.iter().map(|&kind| any(kind)).collect();
    let b = kinds.len() - 1;
    lines.push(Line::step(operation.opcode, 0, b));
    Draft {
        lines,
        words: words[..kinds.len()].to_vec(),
    }
}

fn has_nan(operation: &Operation, words: [u64; 2]) -> bool {
    let kinds = operation.source.operands();
    kinds
        .iter()
        .zip(words)
        .any(|(kind, word)| kind.is_nan(word))
}

/// What the step's function is tried on; few of the edges where there are many.
fn cases(operation: &Operation, random: &mut Random) -> Vec<[u64; 2]> {
    if (0x40..=0x42).contains(&operation.opcode) {
        return finite_pairs(random);
    }
    let Some(function) = Function::of_step(operation.opcode) else {
        return wholes(random);
    };
    let operands = function.operands;
    let edges = operands.edges(&BINARY64);
    let step = if operands == Operands::Pattern { 1 } else { 29 };
    let mut cases: Vec<[u64; 2]> = edges.into_iter().step_by(step).collect();
    cases.extend((0..40_000).map(|_| operands.random(&BINARY64, random)));
    cases
}

/// What sums and products are tried on, and pairs with an infinity.
fn finite_pairs(random: &mut Random) -> Vec<[u64; 2]> {
    let mut cases = arithmetic::edges(&BINARY64);
    cases.extend((0..200_000).map(|_| random.finite_pair(&BINARY64)));
    cases.extend((0..5_000).map(|_| random.with_special(&BINARY64)));
    cases
}

/// Whole numbers around powers of two, every pair of some and random ones.
fn wholes(random: &mut Random) -> Vec<[u64; 2]> {
    let mut edges = vec![];
    for digit in 0..64 {
        let power = 1u64 << digit;
        edges.extend([power - 1, power, power + 1, power.wrapping_neg(), !power]);
    }
    let mut cases = Vec::new();
    for &a in &edges {
        cases.extend(edges.iter().map(|&b| [a, b]));
    }
    cases.extend((0..40_000).map(|_| {
        let mut whole = || (random.word() as i64 >> random.below(64)) as u64;
        [whole(), whole()]
    }));
    cases
}

/// Sums, differences and products of finite numbers by the language's own operations, and not by the
/// reference; 20 where an operand is infinite, else 21 where the result is.
#[test]
fn sums_and_products_as_the_language_has_them() {
    let mut random = Random::new(28);
    let host: [fn(f64, f64) -> f64; 3] = [|x, y| x + y, |x, y| x - y, |x, y| x * y];
    for (opcode, host) in (0x40..=0x42).zip(host) {
        let operation = Operation::of_opcode(opcode).expect("an opcode");
        let mut counts = [0; 3];
        for words in finite_pairs(&mut random) {
            if has_nan(operation, words) {
                continue;
            }
            let [x, y] = words.map(f64::from_bits);
            let result = host(x, y);
            let expected = if x.is_infinite() || y.is_infinite() {
                Err(20)
            } else if result.is_infinite() {
                Err(21)
            } else {
                Ok(result.to_bits())
            };
            let call = draft(operation, words).run_call();
            let mut memory = [0; 3];
            let answer = library::run(&call.text, &call.frame, &mut memory);
            let given = match answer.refusal {
                0 => Ok(answer.word),
                refusal => Err(refusal),
            };
            assert_eq!(given, expected, "{opcode:x} {x:e} {y:e}");
            counts[expected.map_or_else(|refusal| refusal as usize - 19, |_| 0)] += 1;
        }
        println!("{opcode:x}: completed, refused with 20, with 21: {counts:?}");
        assert!(counts.iter().all(|&count| count > 500), "{counts:?}");
    }
}

#[test]
fn every_step_on_its_edges() {
    let mut random = Random::new(26);
    for operation in OPERATIONS.iter().filter(|operation| operation.uses_a()) {
        let (mut completed, mut refused) = (0u64, 0u64);
        for words in cases(operation, &mut random) {
            let outcome = check(Way::Short, &draft(operation, words).run_call());
            match outcome.answer.refusal {
                0 => completed += 1,
                32 => assert!(has_nan(operation, words)),
                _ => refused += 1,
            }
        }
        let opcode = operation.opcode;
        assert!(completed > 1_000, "{opcode:x}: {completed}");
        let refuses = matches!(opcode, 0x18 | 0x22..=0x24 | 0x30..=0x32 | 0x40..=0x42);
        assert_eq!(refused > 500, refuses, "{opcode:x}: {refused}");
    }
}

/// The two operands of a step may be one step, and may be the first of 128.
#[test]
fn a_step_on_one_step_twice_and_on_the_first_of_many() {
    let mut random = Random::new(27);
    for operation in OPERATIONS.iter().filter(|operation| operation.uses_b()) {
        let kinds = operation.source.operands();
        if kinds[0] != kinds[1] {
            continue;
        }
        for _ in 0..2_000 {
            let word = random.value(kinds[0]);
            let mut lines = vec![any(kinds[0])];
            lines.resize(127, Line::constant(Kind::Whole, 1));
            lines.push(Line::step(operation.opcode, 0, 0));
            let words = vec![word];
            check(Way::Short, &Draft { lines, words }.run_call());
        }
    }
}

/// An input's value is its digits, and the two zeros stay apart.
#[test]
fn inputs_keep_their_bits() {
    for word in [0, 1 << 63, 1, u64::MAX >> 1, 0x7ff0000000000000, u64::MAX] {
        for kind in [Kind::Double, Kind::Whole] {
            let draft = Draft {
                lines: vec![any(kind)],
                words: vec![word],
            };
            let answer = check(Way::Exact, &draft.run_call()).answer;
            if kind == Kind::Whole || BINARY64.classify(word) != Class::Nan {
                assert_eq!((answer.kind, answer.word), (kind as u64, word));
            } else {
                assert_eq!((answer.refusal, answer.word), (32, 0));
            }
        }
    }
}
