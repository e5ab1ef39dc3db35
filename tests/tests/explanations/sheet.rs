//! An explanation beside the sheet of the same recipe. Both are the library's; the reference takes
//! no part but in the choice of recipes, and facts are looked at by the language's own operations.

use crate::agreement;
use estrenwind_tests::comparison::on_all_cores;
use estrenwind_tests::library::{self, ExplainAnswer, SheetAnswer};
use estrenwind_tests::patterns::Random;
use estrenwind_tests::recipes::limits::{TWO_53, TWO_63};
use estrenwind_tests::recipes::walks::bytes;
use estrenwind_tests::recipes::{shown, Call, ExplainCall, SheetCall};
use estrenwind_tests::reference::recipe::{sheet, text};
use std::collections::BTreeMap;
use std::ops::RangeInclusive;

const SEEDS: u64 = 235;

const RECIPE_LINE: usize = text::LINE;
/// Enough for every sheet.
const ROOM: usize = text::MOST_STEPS * sheet::LINE;

/// The number that stands in these columns of a line.
fn number(line: &[u8], columns: std::ops::Range<usize>) -> u64 {
    let digits = std::str::from_utf8(&line[columns]).expect("digits");
    u64::from_str_radix(digits, 16).expect("digits")
}

/// The codes of an opcode that a sheet refuses, in order.
fn codes(opcode: u64) -> RangeInclusive<u64> {
    match opcode {
        0x22 | 0x24 => 0x01..=0x03,
        0x18 => 0x04..=0x05,
        0x30 | 0x31 => 0x06..=0x07,
        0x23 => 0x08..=0x0b,
        0x32 => 0x0c..=0x0d,
        0x40..=0x42 => 0x0e..=0x13,
        _ => panic!("{opcode:x} is never refused"),
    }
}

/// Whether the fact of a code is true of operands with these ends.
fn is_true(opcode: u64, code: u64, [a_low, a_high]: [u64; 2], [b_low, b_high]: [u64; 2]) -> bool {
    let double = f64::from_bits;
    let whole = |end: u64| end as i64;
    match (opcode, code) {
        (0x22 | 0x24, 0x01) => double(b_low) <= 0.0 && double(b_high) >= 0.0,
        (0x22 | 0x24, 0x02) | (0x23, 0x08) => double(a_low).is_infinite(),
        (0x22 | 0x24, 0x03) | (0x23, 0x09) => double(a_high).is_infinite(),
        (0x18, 0x04) => !fits(double(a_low)),
        (0x18, 0x05) => !fits(double(a_high)),
        (0x30, 0x06) => whole(a_low).checked_add(whole(b_low)).is_none(),
        (0x30, 0x07) => whole(a_high).checked_add(whole(b_high)).is_none(),
        (0x31, 0x06) => whole(a_low).checked_sub(whole(b_high)).is_none(),
        (0x31, 0x07) => whole(a_high).checked_sub(whole(b_low)).is_none(),
        (0x23, 0x0a) => {
            let power = if double(a_low) < 0.0 { b_high } else { b_low };
            overflows(double(a_low), whole(power))
        }
        (0x23, 0x0b) => {
            let power = if double(a_high) > 0.0 { b_high } else { b_low };
            overflows(double(a_high), whole(power))
        }
        (0x32, 0x0c) => whole(a_low).unsigned_abs() > TWO_53 as u64,
        (0x32, 0x0d) => whole(a_high).unsigned_abs() > TWO_53 as u64,
        (0x40..=0x42, 0x0e) => double(a_low).is_infinite(),
        (0x40..=0x42, 0x0f) => double(a_high).is_infinite(),
        (0x40..=0x42, 0x10) => double(b_low).is_infinite(),
        (0x40..=0x42, 0x11) => double(b_high).is_infinite(),
        (0x40, 0x12) => (double(a_low) + double(b_low)).is_infinite(),
        (0x40, 0x13) => (double(a_high) + double(b_high)).is_infinite(),
        (0x41, 0x12) => (double(a_low) - double(b_high)).is_infinite(),
        (0x41, 0x13) => (double(a_high) - double(b_low)).is_infinite(),
        (0x42, 0x12 | 0x13) => {
            let [a, b] = [[a_low, a_high], [b_low, b_high]].map(|ends| ends.map(double));
            let products = a.map(|x| b.map(|y| x * y));
            let products = products.as_flattened().iter().copied();
            let answer = match code {
                0x12 => products.fold(f64::INFINITY, f64::min),
                _ => products.fold(f64::NEG_INFINITY, f64::max),
            };
            answer.is_infinite()
        }
        _ => panic!("{code:x} is no reason for {opcode:x}"),
    }
}

/// Whether x rounded is a whole number of 64 bits.
fn fits(x: f64) -> bool {
    (-TWO_63..TWO_63).contains(&x.round())
}

/// Whether a finite x times 2^n is infinite. A product by a power of two that isn't is exact where
/// n is above 0, and no number grows where it isn't.
fn overflows(x: f64, n: i64) -> bool {
    let mut scaled = x;
    for _ in 0..n.clamp(0, 2_200) {
        scaled *= 2.0;
    }
    x.is_finite() && scaled.is_infinite()
}

/// The code of an explanation that goes with the sheet, 00 where nothing is explained; or what is
/// wrong.
fn compared(text: &[u8]) -> Result<u64, String> {
    let mut memory = vec![0; ROOM];
    let explained = library::explain(text);
    let sheet = library::sheet(text, &mut memory);
    let wrong = |what: &str| {
        let call = ExplainCall { text: text.into() };
        Err(format!("{what}: {explained}\nsheet: {sheet}\n{call}"))
    };
    let ExplainAnswer {
        step,
        operand,
        reason,
        ..
    } = explained;
    match sheet.refusal {
        0 if explained != ExplainAnswer::PASSED => return wrong("the sheet is passed"),
        0 => return Ok(0),
        20..=22 => {}
        _ => {
            let refused = ExplainAnswer::from(SheetCall::refusal(sheet));
            return match explained == refused {
                true => Ok(0),
                false => wrong("the text is refused"),
            };
        }
    }
    if (explained.refusal, explained.place, step) != (0, 0, sheet.place) {
        return wrong("the sheet refuses a step");
    }
    let line = &text[RECIPE_LINE * step as usize..][..RECIPE_LINE];
    let [opcode, a, b] = [0..2, 2..4, 4..6].map(|columns| number(line, columns));
    if !codes(opcode).contains(&reason) {
        return wrong("the reason is another opcode's");
    }
    let is_of_b = [0x01, 0x10, 0x11].contains(&reason);
    if operand != if is_of_b { b } else { a } {
        return wrong("it is another operand");
    }
    if ExplainCall::refusal(explained) != SheetCall::refusal(sheet) {
        return wrong("the reason is another refusal's");
    }
    // The earlier steps are a recipe that passes, and their sheet has the ranges.
    let earlier = &text[..RECIPE_LINE * step as usize];
    let passed = SheetAnswer::passed(step as usize);
    if library::sheet(earlier, &mut memory) != passed
        || library::explain(earlier) != ExplainAnswer::PASSED
    {
        return wrong("the earlier steps are refused");
    }
    let earlier = shown::read(&memory[..sheet::LINE * step as usize]);
    // A field that isn't used is zero, and step 0 is there.
    let [a, b] = [a, b].map(|operand| earlier[operand as usize].ends());
    let first = codes(opcode).find(|&code| is_true(opcode, code, a, b));
    match first == Some(reason) {
        true => Ok(reason),
        false => wrong("it is not the first fact that is true"),
    }
}

/// How often each code came up, 00 for no reason.
type Counts = BTreeMap<u64, u64>;

fn join(all: &mut Counts, counts: Counts) {
    for (code, count) in counts {
        *all.entry(code).or_default() += count;
    }
}

/// Recipes that pass and recipes with every fault or reason: `agreement` has them.
#[test]
fn of_recipes() {
    let counts = on_all_cores(SEEDS, join, |seed, counts: &mut Counts| {
        let mut found = None;
        agreement::calls(0x1_0000 + seed, &mut |call| match compared(&call.text) {
            Ok(code) => *counts.entry(code).or_default() += 1,
            Err(wrong) => found = found.take().or(Some(wrong)),
        });
        found
    });
    println!("{counts:?}");
    for code in 0x00..=0x13 {
        let count = counts.get(&code).copied().unwrap_or(0);
        assert!(count >= SEEDS, "code {code:02x} came up {count} times");
    }
}

#[test]
fn of_noise() {
    let mut random = Random::new(0xd1);
    for round in 0..100_000 {
        let text = bytes::noise(&mut random, round);
        compared(&text).unwrap_or_else(|wrong| panic!("{wrong}"));
    }
}
