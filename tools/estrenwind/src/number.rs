//! Numbers as people write and read them. Rust's parsing of decimals is correctly rounded, and its printing gives the fewest digits that read
//! back as the same number.

use estrenwind::{Kind, Value};

/// Why a text is not a number of a kind.
#[derive(Clone, Copy, Debug, PartialEq, Eq)]
pub enum Slip {
    /// It is none at all.
    NoNumber,
    /// It is a number, with a fraction or an exponent, where a whole one is needed.
    NotWhole,
    /// It is too large for the kind, and would not be itself.
    TooLarge,
    /// It is a NaN.
    Nan,
    /// A hexadecimal float that no double is exactly.
    NoDouble,
}

impl Slip {
    /// What is wrong with it, and what to do.
    pub fn words(self, kind: Kind) -> (&'static str, &'static str) {
        match (self, kind) {
            (Slip::NoNumber, _) => ("not a number", "write it as 12, -0.5, 1e6, 0x1.8p3 or inf"),
            (Slip::NotWhole, _) => ("not a whole number", "write it without a fraction or an exponent, as 12 or -3"),
            (Slip::TooLarge, Kind::Whole) => (
                "too large for a whole number of 64 bits",
                "stay within -9223372036854775808 and 9223372036854775807",
            ),
            (Slip::TooLarge, _) => (
                "too large for a double",
                "stay within 1.7976931348623157e308 in magnitude, or write inf",
            ),
            (Slip::Nan, _) => ("a NaN, which no recipe has", "write a number"),
            (Slip::NoDouble, _) => (
                "a hexadecimal float that no double is exactly",
                "write at most 53 binary digits, none below 2^-1074; or the number in decimal, which is rounded",
            ),
        }
    }
}

/// The 64 bits of the number of this kind that a text writes.
pub fn read(text: &str, kind: Kind) -> Result<u64, Slip> {
    match kind {
        Kind::Whole => read_whole(text).map(|n| n as u64),
        _ => read_double(text).map(f64::to_bits),
    }
}

fn read_whole(text: &str) -> Result<i64, Slip> {
    let digits = text.strip_prefix(['-', '+']).unwrap_or(text);
    if digits.is_empty() || !digits.bytes().all(|byte| byte.is_ascii_digit()) {
        return Err(match read_double(text) {
            Err(Slip::NoNumber) => Slip::NoNumber,
            _ => Slip::NotWhole,
        });
    }
    // Nothing but the size of it can be wrong now.
    text.parse().map_err(|_| Slip::TooLarge)
}

fn read_double(text: &str) -> Result<f64, Slip> {
    let (negative, magnitude) = match text.strip_prefix(['-', '+']) {
        Some(rest) => (text.starts_with('-'), rest),
        None => (false, text),
    };
    let lower = magnitude.to_ascii_lowercase();
    let number = if lower == "inf" || lower == "infinity" {
        f64::INFINITY
    } else if lower == "nan" {
        return Err(Slip::Nan);
    } else if let Some(digits) = lower.strip_prefix("0x") {
        read_hexadecimal(digits)?
    } else if lower.starts_with(|c: char| c.is_ascii_digit() || c == '.') {
        let number: f64 = lower.parse().map_err(|_| Slip::NoNumber)?;
        if number.is_infinite() {
            return Err(Slip::TooLarge);
        }
        number
    } else {
        return Err(Slip::NoNumber);
    };
    Ok(if negative { -number } else { number })
}

/// The number of a C hexadecimal float, in lower case and after its 0x: digits with a point among them, then p and a power of two. It must be a
/// double: nothing is rounded.
fn read_hexadecimal(text: &str) -> Result<f64, Slip> {
    let (digits, power) = match text.split_once('p') {
        Some((digits, power)) => (digits, Some(power)),
        None => (text, None),
    };
    let (whole, fraction) = digits.split_once('.').unwrap_or((digits, ""));
    let all = || whole.bytes().chain(fraction.bytes());
    if all().next().is_none() || !all().all(|byte| byte.is_ascii_hexdigit()) {
        return Err(Slip::NoNumber);
    }
    let power: i64 = match power {
        None => 0,
        Some(power) => {
            let plain = power.strip_prefix(['-', '+']).unwrap_or(power);
            if plain.is_empty() || !plain.bytes().all(|byte| byte.is_ascii_digit()) {
                return Err(Slip::NoNumber);
            }
            // A power that does not even fit 32 bits is beyond any double, in its direction.
            match power.parse::<i32>() {
                Ok(power) => power.into(),
                Err(_) if power.starts_with('-') => i32::MIN.into(),
                Err(_) => i32::MAX.into(),
            }
        }
    };
    // The significant digits as a whole number, and the power of its last one. Leading zeros do not count, trailing ones move the power.
    let mut significand: u64 = 0;
    let mut exponent = power;
    let places = whole.len() as i64;
    for (place, byte) in all().enumerate() {
        let digit = u64::from((byte as char).to_digit(16).unwrap_or(0));
        if significand >> 60 != 0 {
            // No room for a further digit: it must be a zero, and so must all that follow.
            if digit != 0 {
                return Err(Slip::NoDouble);
            }
            continue;
        }
        significand = significand << 4 | digit;
        exponent = power + 4 * (places - 1 - place as i64);
    }
    if significand == 0 {
        return Ok(0.0);
    }
    // 2^63 at most: exact as a double where no bit below the 53rd is set.
    let shift = significand.trailing_zeros();
    let odd = significand >> shift;
    exponent += i64::from(shift);
    if odd >> 53 != 0 {
        return Err(Slip::NoDouble);
    }
    let bits = 64 - i64::from(odd.leading_zeros());
    if exponent + bits > 1024 {
        return Err(Slip::TooLarge);
    }
    if exponent < -1074 {
        return Err(Slip::NoDouble);
    }
    // The library's own scaling, which is exact here.
    estrenwind::ldexp(odd as f64, exponent).map_err(|_| Slip::TooLarge)
}

/// A value in decimal: the fewest digits that read back as the same number.
pub fn text(value: Value) -> String {
    match value {
        Value::Double(x) => {
            let text = format!("{x:?}");
            text.strip_suffix(".0").map_or(text.clone(), str::to_owned)
        }
        Value::Whole(n) => n.to_string(),
        Value::Other { kind, word } => format!("kind {kind}, {word:016x}"),
        other => format!("{other:?}"),
    }
}

/// The same of the bits of a value.
pub fn word_text(kind: Kind, word: u64) -> String {
    text(kind.value(word))
}

/// A count with commas between thousands.
pub fn grouped(count: u64) -> String {
    let digits = count.to_string();
    let mut text = String::new();
    for (place, digit) in digits.chars().enumerate() {
        if place > 0 && (digits.len() - place) % 3 == 0 {
            text.push(',');
        }
        text.push(digit);
    }
    text
}

#[cfg(test)]
mod tests {
    use super::*;

    fn double(text: &str) -> Result<f64, Slip> {
        read(text, Kind::Double).map(f64::from_bits)
    }

    #[test]
    fn decimals() {
        assert_eq!(double("0.5"), Ok(0.5));
        assert_eq!(double("-0").map(f64::to_bits), Ok(1 << 63));
        assert_eq!(double("+1e6"), Ok(1e6));
        assert_eq!(double(".5"), Ok(0.5));
        assert_eq!(double("5."), Ok(5.0));
        assert_eq!(double("-inf"), Ok(f64::NEG_INFINITY));
        assert_eq!(double("1e400"), Err(Slip::TooLarge));
        assert_eq!(double("1e-400"), Ok(0.0));
        assert_eq!(double("nan"), Err(Slip::Nan));
        for text in [
            "", "-", "x", "1x", "--1", "1_000", "e5", "0x", "1e", "0x.p1", "1 ", "infinit",
        ] {
            assert_eq!(double(text), Err(Slip::NoNumber), "{text}");
        }
    }

    #[test]
    fn hexadecimal_floats() {
        assert_eq!(double("0x1.8p3"), Ok(12.0));
        assert_eq!(double("0X1P-1074"), Ok(5e-324));
        assert_eq!(double("-0x0.0p5").map(f64::to_bits), Ok(1 << 63));
        assert_eq!(double("0x1.fffffffffffffp1023"), Ok(f64::MAX));
        assert_eq!(double("0x10"), Ok(16.0));
        assert_eq!(double("0x.8"), Ok(0.5));
        assert_eq!(double("0x1.00000000000000000000"), Ok(1.0));
        assert_eq!(double("0x10000000000000000000000p-80"), Ok(256.0));
        assert_eq!(double("0x00000000000000000000000000000000001p1"), Ok(2.0));
        assert_eq!(double("0x1p1024"), Err(Slip::TooLarge));
        assert_eq!(double("0x1p99999999999"), Err(Slip::TooLarge));
        assert_eq!(double("0x1p-1075"), Err(Slip::NoDouble));
        assert_eq!(double("0x1p-99999999999"), Err(Slip::NoDouble));
        assert_eq!(double("0x1.00000000000001p0"), Err(Slip::NoDouble));
        assert_eq!(double("0x123456789abcdef01"), Err(Slip::NoDouble));
        for text in ["0x1p", "0x1p+", "0x1.2.3", "0xg", "0x1p1.5"] {
            assert_eq!(double(text), Err(Slip::NoNumber), "{text}");
        }
    }

    #[test]
    fn whole_numbers() {
        let whole = |text| read(text, Kind::Whole).map(|word| word as i64);
        assert_eq!(whole("-3"), Ok(-3));
        assert_eq!(whole("+12"), Ok(12));
        assert_eq!(whole("-9223372036854775808"), Ok(i64::MIN));
        assert_eq!(whole("9223372036854775808"), Err(Slip::TooLarge));
        assert_eq!(whole("1.5"), Err(Slip::NotWhole));
        assert_eq!(whole("1e3"), Err(Slip::NotWhole));
        assert_eq!(whole("inf"), Err(Slip::NotWhole));
        assert_eq!(whole("x"), Err(Slip::NoNumber));
    }

    #[test]
    fn numbers_come_back() {
        let mut word = 0x9e3779b97f4a7c15u64;
        for _ in 0..200_000 {
            word ^= word << 13;
            word ^= word >> 7;
            word ^= word << 17;
            if !f64::from_bits(word).is_nan() {
                assert_eq!(read(&word_text(Kind::Double, word), Kind::Double), Ok(word));
            }
            assert_eq!(read(&word_text(Kind::Whole, word), Kind::Whole), Ok(word));
        }
    }

    #[test]
    fn texts() {
        assert_eq!(text(Value::Double(-0.0)), "-0");
        assert_eq!(text(Value::Double(255.0)), "255");
        assert_eq!(text(Value::Double(f64::NEG_INFINITY)), "-inf");
        assert_eq!(text(Value::Double(1e16)), "1e16");
        assert_eq!(grouped(0), "0");
        assert_eq!(grouped(1_234_567), "1,234,567");
        assert_eq!(grouped(999_000), "999,000");
    }
}
