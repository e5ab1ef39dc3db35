//! The sheet: ranges of steps and their marks, in the machine's own arithmetic.

use super::text::{parse, Step};
use super::Refused;
use crate::library::SheetAnswer;

const LINE: usize = 39;

/// `ew_sheet` again.
pub fn sheet(text: &[u8], sheet: &mut [u8]) -> SheetAnswer {
    let (refusal, place, steps) = match passed(text, sheet) {
        Ok(steps) => (0, 0, steps as u64),
        Err((number, place)) => (number, place as u64, 0),
    };
    SheetAnswer {
        refusal,
        place,
        steps,
    }
}

fn passed(text: &[u8], sheet: &mut [u8]) -> Result<usize, Refused> {
    let steps = parse(text)?;
    if sheet.len() < LINE * steps.len() {
        return Err((40, 0));
    }
    let ranges = ranges(&steps)?;
    let lines = sheet.chunks_exact_mut(LINE);
    for (place, (line, (step, range))) in lines.zip(steps.iter().zip(&ranges)).enumerate() {
        write_digits(&mut line[..2], place as u64);
        write_digits(&mut line[2..4], step.kind as u64);
        write_digits(&mut line[4..6], range.integral as u64);
        write_digits(&mut line[6..22], range.low);
        write_digits(&mut line[22..38], range.high);
        line[38] = b'\n';
    }
    Ok(steps.len())
}

fn write_digits(digits: &mut [u8], mut number: u64) {
    for digit in digits.iter_mut().rev() {
        *digit = b"0123456789abcdef"[(number & 15) as usize];
        number >>= 4;
    }
}

/// The ends, as words of the step's kind, and the mark: whether all values are known to be integers.
#[derive(Clone, Copy)]
struct Range {
    low: u64,
    high: u64,
    integral: bool,
}

impl Range {
    /// Doubles that may have a fraction, or be infinite.
    fn of_doubles([low, high]: [f64; 2]) -> Range {
        Range {
            low: low.to_bits(),
            high: high.to_bits(),
            integral: false,
        }
    }

    /// Doubles of which the caller knows whether they are integers.
    fn of_integers(ends: [f64; 2], integral: bool) -> Range {
        Range {
            integral,
            ..Range::of_doubles(ends)
        }
    }

    /// What a rounding makes of a range: integers, as far as it reaches no infinity.
    fn of_rounded(ends: [f64; 2]) -> Range {
        let reaches_infinity = ends.iter().any(|end| end.abs() == f64::INFINITY);
        Range::of_integers(ends, !reaches_infinity)
    }

    /// An input or a constant: an integer if it is one number without a remainder by 1. There is no
    /// remainder of an infinity.
    fn of_declared(ends: [f64; 2]) -> Range {
        let [low, high] = ends;
        Range::of_integers(ends, low == high && low % 1.0 == 0.0)
    }

    fn of_wholes([low, high]: [i64; 2]) -> Range {
        Range {
            low: low as u64,
            high: high as u64,
            integral: true,
        }
    }

    fn doubles(self) -> [f64; 2] {
        [f64::from_bits(self.low), f64::from_bits(self.high)]
    }

    fn wholes(self) -> [i64; 2] {
        [self.low as i64, self.high as i64]
    }
}

fn ranges(steps: &[Step]) -> Result<Vec<Range>, Refused> {
    let mut ranges: Vec<Range> = Vec::with_capacity(steps.len());
    for (place, step) in steps.iter().enumerate() {
        let range = range(step, &ranges).map_err(|number| (number, place))?;
        ranges.push(range);
    }
    Ok(ranges)
}

fn range(step: &Step, earlier: &[Range]) -> Result<Range, u64> {
    let doubles = |place: usize| earlier[place].doubles();
    let wholes = |place: usize| earlier[place].wholes();
    let (a, b) = (step.a, step.b);
    let rounded = |function: fn(f64) -> f64| Ok(Range::of_rounded(doubles(a).map(function)));
    // Of what hands on an operand's value, or its integers among themselves.
    let from_a = |ends| Ok(Range::of_integers(ends, earlier[a].integral));
    let from_both = |ends| {
        let integral = earlier[a].integral && earlier[b].integral;
        Ok(Range::of_integers(ends, integral))
    };
    match step.opcode {
        0x01 => Ok(Range::of_declared([step.p, step.q].map(f64::from_bits))),
        0x02 => Ok(Range::of_wholes([step.p as i64, step.q as i64])),
        0x03 => Ok(Range::of_declared([f64::from_bits(step.p); 2])),
        0x04 => Ok(Range::of_wholes([step.p as i64; 2])),
        0x10 => rounded(f64::floor),
        0x11 => rounded(f64::ceil),
        0x12 => rounded(f64::trunc),
        0x13 => rounded(f64::round),
        0x14 => rounded(f64::round_ties_even),
        0x15 => Ok(Range::of_doubles(fraction(doubles(a)))),
        0x16 => from_a(fabs(doubles(a))),
        0x17 => {
            let [low, high] = doubles(a);
            from_a([-high, -low])
        }
        0x18 => {
            let [low, high] = doubles(a);
            Ok(Range::of_wholes([lround(low)?, lround(high)?]))
        }
        0x20 => {
            let ([a_low, a_high], [b_low, b_high]) = (doubles(a), doubles(b));
            from_both([fmin(a_low, b_low), fmin(a_high, b_high)])
        }
        0x21 => {
            let ([a_low, a_high], [b_low, b_high]) = (doubles(a), doubles(b));
            from_both([fmax(a_low, b_low), fmax(a_high, b_high)])
        }
        0x22 => from_both(fmod(doubles(a), doubles(b))?),
        0x23 => Ok(Range::of_doubles(ldexp(doubles(a), wholes(b))?)),
        0x24 => from_both(remainder(doubles(a), doubles(b))?),
        0x30 => {
            let ([a_low, a_high], [b_low, b_high]) = (wholes(a), wholes(b));
            let low = a_low.checked_add(b_low).ok_or(21u64)?;
            let high = a_high.checked_add(b_high).ok_or(21u64)?;
            Ok(Range::of_wholes([low, high]))
        }
        0x31 => {
            let ([a_low, a_high], [b_low, b_high]) = (wholes(a), wholes(b));
            let low = a_low.checked_sub(b_high).ok_or(21u64)?;
            let high = a_high.checked_sub(b_low).ok_or(21u64)?;
            Ok(Range::of_wholes([low, high]))
        }
        0x32 => {
            let [low, high] = wholes(a);
            Ok(Range::of_integers(
                [to_double(low)?, to_double(high)?],
                true,
            ))
        }
        0x40 => {
            let ([a_low, a_high], [b_low, b_high]) = finite(doubles(a), doubles(b))?;
            from_both(without_overflow([a_low + b_low, a_high + b_high])?)
        }
        0x41 => {
            let ([a_low, a_high], [b_low, b_high]) = finite(doubles(a), doubles(b))?;
            from_both(without_overflow([a_low - b_high, a_high - b_low])?)
        }
        _ => {
            let ([a_low, a_high], [b_low, b_high]) = finite(doubles(a), doubles(b))?;
            let [first, second, third, fourth] = [
                a_low * b_low,
                a_low * b_high,
                a_high * b_low,
                a_high * b_high,
            ];
            let low = fmin(fmin(first, second), fmin(third, fourth));
            let high = fmax(fmax(first, second), fmax(third, fourth));
            from_both(without_overflow([low, high])?)
        }
    }
}

type TwoRanges = ([f64; 2], [f64; 2]);

/// The ranges, where none of their ends is infinite.
fn finite(a: [f64; 2], b: [f64; 2]) -> Result<TwoRanges, u64> {
    if [a, b].as_flattened().iter().any(|end| end.is_infinite()) {
        return Err(20);
    }
    Ok((a, b))
}

/// The ends, where none is infinite. Of four products that the ends are chosen from, one that is
/// infinite is an end.
fn without_overflow(ends: [f64; 2]) -> Result<[f64; 2], u64> {
    if ends.iter().any(|end| end.is_infinite()) {
        return Err(21);
    }
    Ok(ends)
}

/// The largest fraction, 1 - 2^-53.
const LARGEST_FRACTION: f64 = 1.0 - f64::EPSILON / 2.0;

fn fraction([low, high]: [f64; 2]) -> [f64; 2] {
    let low = if low >= 0.0 {
        0.0
    } else {
        low.max(-LARGEST_FRACTION)
    };
    let high = if high <= 0.0 {
        0.0
    } else {
        high.min(LARGEST_FRACTION)
    };
    [low, high]
}

fn fabs([low, high]: [f64; 2]) -> [f64; 2] {
    if low >= 0.0 {
        [low.abs(), high.abs()]
    } else if high <= 0.0 {
        [high.abs(), low.abs()]
    } else {
        [0.0, fmax(low.abs(), high.abs())]
    }
}

fn lround(x: f64) -> Result<i64, u64> {
    const LIMIT: f64 = (1u64 << 63) as f64;
    let rounded = x.round();
    if (-LIMIT..LIMIT).contains(&rounded) {
        Ok(rounded as i64)
    } else {
        Err(21)
    }
}

/// -0 is below +0, which no comparison tells. Equal numbers have the same bits but for a zero's
/// sign, which is there if either has it.
fn fmin(x: f64, y: f64) -> f64 {
    if x == y {
        f64::from_bits(x.to_bits() | y.to_bits())
    } else if x < y {
        x
    } else {
        y
    }
}

/// Likewise, and the sign is there if both have it.
fn fmax(x: f64, y: f64) -> f64 {
    if x == y {
        f64::from_bits(x.to_bits() & y.to_bits())
    } else if x > y {
        x
    } else {
        y
    }
}

/// Where every a has a remainder by every b: an infinite number has none, and none is left by zero.
fn divides([a_low, a_high]: [f64; 2], [b_low, b_high]: [f64; 2]) -> Result<(), u64> {
    let may_be_zero = b_low <= 0.0 && b_high >= 0.0;
    if a_low.is_infinite() || a_high.is_infinite() || may_be_zero {
        return Err(20);
    }
    Ok(())
}

fn fmod(a: [f64; 2], b: [f64; 2]) -> Result<[f64; 2], u64> {
    divides(a, b)?;
    let ([a_low, a_high], [b_low, b_high]) = (a, b);
    let m = fmax(b_low.abs(), b_high.abs());
    let low = if a_low >= 0.0 {
        0.0
    } else {
        -fmin(a_low.abs(), m)
    };
    let high = if a_high <= 0.0 { 0.0 } else { fmin(a_high, m) };
    Ok([low, high])
}

/// As far on both sides of zero: what is left may have either sign, whatever a's is.
fn remainder(a: [f64; 2], b: [f64; 2]) -> Result<[f64; 2], u64> {
    divides(a, b)?;
    let [of_a, of_b] = [a, b].map(|[low, high]| low.abs().max(high.abs()));
    let m = if of_a < of_b { of_a } else { of_b };
    Ok([-m, m])
}

fn ldexp([a_low, a_high]: [f64; 2], [b_low, b_high]: [i64; 2]) -> Result<[f64; 2], u64> {
    if a_low.is_infinite() || a_high.is_infinite() {
        return Err(21);
    }
    let low = scaled(a_low, if a_low < 0.0 { b_high } else { b_low });
    let high = scaled(a_high, if a_high > 0.0 { b_high } else { b_low });
    if low.is_infinite() || high.is_infinite() {
        return Err(21);
    }
    Ok([low, high])
}

/// x·2^n rounded once: down by multiplications that are exact, so long as the last leaves more than
/// 53 places to go.
fn scaled(x: f64, n: i64) -> f64 {
    const UP: f64 = power_of_two(1023);
    const DOWN: f64 = power_of_two(53 - 1022);
    let (mut x, mut n) = (x, n);
    if n > 1023 {
        (x, n) = (x * UP, n - 1023);
        if n > 1023 {
            (x, n) = (x * UP, (n - 1023).min(1023));
        }
    } else if n < -1022 {
        (x, n) = (x * DOWN, n + 1022 - 53);
        if n < -1022 {
            (x, n) = (x * DOWN, (n + 1022 - 53).max(-1022));
        }
    }
    x * power_of_two(n)
}

/// 2^n, for n from -1022 to 1023.
const fn power_of_two(n: i64) -> f64 {
    f64::from_bits(((n + 1023) as u64) << 52)
}

fn to_double(n: i64) -> Result<f64, u64> {
    if n.unsigned_abs() > 1 << 53 {
        return Err(22);
    }
    Ok(n as f64)
}

#[cfg(test)]
mod tests {
    use super::*;
    use crate::patterns::{edges, Random};
    use crate::recipes::comparison::Outcome;
    use crate::recipes::faults::{damaged, SHEET_REFUSALS};
    use crate::recipes::growing::{grow, grow_marked};
    use crate::recipes::{Draft, Line, SheetCall};
    use crate::reference::recipe::{Kind, Way};
    use crate::reference::{short, Class, BINARY64};

    fn check(call: &SheetCall) {
        let outcome = Outcome::made(call, |memory| sheet(&call.text, memory));
        assert_eq!(outcome, Outcome::expected(Way::Short, call), "{call}");
    }

    /// A race against wrong answers would say nothing.
    #[test]
    fn gives_the_reference_s_answers() {
        let mut random = Random::new(32);
        for _ in 0..40 {
            for first in SHEET_REFUSALS {
                for second in SHEET_REFUSALS {
                    for faults in [&[][..], &[first], &[first, second]] {
                        check(&damaged(&mut random, faults).0);
                    }
                }
                let plan = random.plan();
                check(&grow(&mut random, &plan).0.sheet_call());
                check(&grow_marked(&mut random, &plan).0.sheet_call());
                check(&random.meeting().sheet_call());
            }
        }
    }

    /// The marks of inputs and constants alone, at the numbers where integers end and begin.
    #[test]
    fn marks_the_numbers_that_the_reference_does() {
        let is_number = |&x: &u64| BINARY64.classify(x) != Class::Nan;
        let numbers: Vec<u64> = edges(&BINARY64).into_iter().filter(is_number).collect();
        for numbers in numbers.chunks(14) {
            let constants = numbers.iter().map(|&p| Line::constant(Kind::Double, p));
            let zeros = [[0, 1 << 63], [1 << 63, 0]].into_iter();
            let inputs = zeros.chain(numbers.iter().map(|&p| [p, p]));
            let inputs = inputs.map(|ends| Line::input(Kind::Double, ends));
            let lines = inputs.chain(constants).collect();
            let words = vec![];
            check(&Draft { lines, words }.sheet_call());
        }
    }

    #[test]
    fn scales_as_the_reference_does() {
        let mut random = Random::new(33);
        for _ in 0..400_000 {
            let x = random.pattern(&BINARY64);
            let n = random.within(-2300..2301);
            let expected = short::ldexp::ldexp(&BINARY64, x, n).words[0];
            if BINARY64.classify(x) != Class::Nan {
                let answer = scaled(f64::from_bits(x), n).to_bits();
                assert_eq!(answer, expected, "{x:x} {n}");
            }
        }
        for n in [i64::MIN, i64::MIN + 1, i64::MAX] {
            for x in [1.0, -f64::MAX, f64::from_bits(1), 0.0, -0.0] {
                let expected = short::ldexp::ldexp(&BINARY64, x.to_bits(), n).words[0];
                assert_eq!(scaled(x, n).to_bits(), expected, "{x:e} {n}");
            }
        }
    }
}
