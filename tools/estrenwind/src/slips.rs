//! Slips in a hexadecimal recipe, in words. The library has refused the text before this is asked: nothing here decides whether a recipe is good.

use crate::diagnostic::Diagnostic;
use crate::number::grouped;
use estrenwind::{
    Fault, Field, Kind, Step, TurnedDown, FRAME_INPUT, MOST_STEPS, RECIPE_LINE, STEP_FIELDS,
};

/// Digits of a line.
const DIGITS: usize = RECIPE_LINE - 1;

fn slip(
    line: usize,
    column: usize,
    length: usize,
    message: impl Into<String>,
    help: impl Into<String>,
) -> Diagnostic {
    Diagnostic {
        line,
        column,
        length,
        message: message.into(),
        help: help.into(),
    }
}

/// What is wrong with a text that the library refused so.
pub fn find(text: &[u8], refused: TurnedDown) -> Diagnostic {
    let found = match refused.fault {
        Fault::Length | Fault::Digit => in_bytes(text),
        _ => in_step(text, refused),
    };
    found.unwrap_or_else(|| {
        let line = text
            .split(|&byte| byte == b'\n')
            .nth(refused.place)
            .unwrap_or_default();
        slip(
            refused.place + 1,
            1,
            line.len(),
            refused.fault.to_string(),
            "see \"What to do\" in docs/FORMATS.md",
        )
    })
}

// ---- the bytes of the text: refusals 10 and 11

/// What editors put before a text, and what it is.
const MARKS: [(&[u8], &str); 3] = [
    (b"\xef\xbb\xbf", "a byte order mark (BOM) of UTF-8"),
    (b"\xff\xfe", "a byte order mark (BOM) of UTF-16"),
    (b"\xfe\xff", "a byte order mark (BOM) of UTF-16"),
];

fn in_bytes(text: &[u8]) -> Option<Diagnostic> {
    if text.is_empty() {
        return Some(slip(
            1,
            1,
            1,
            "the file is empty",
            "write at least one step",
        ));
    }
    if let Some((_, what)) = MARKS.iter().find(|(mark, _)| text.starts_with(mark)) {
        let help = "save the file as plain ASCII or UTF-8 without a BOM";
        return Some(slip(1, 1, 1, format!("the file begins with {what}"), help));
    }
    let lines: Vec<&[u8]> = text.split(|&byte| byte == b'\n').collect();
    // After the last line feed stands an empty piece, which is no line.
    let (last, whole) = lines.split_last()?;
    if let Some(k) = whole.iter().position(|line| line.ends_with(b"\r")) {
        return Some(slip(
            k + 1,
            whole[k].len(),
            1,
            format!("line {} ends with CR LF, as Windows ends lines", k + 1),
            "save the file with Unix line ends, or take the CRs out: tr -d '\\r' <old >new",
        ));
    }
    let all: &[&[u8]] = if last.is_empty() { whole } else { &lines };
    for (k, line) in all.iter().enumerate() {
        if let Some(found) = in_line(k, line, &all[k..]) {
            return Some(found);
        }
    }
    if !last.is_empty() {
        return Some(slip(
            all.len(),
            last.len() + 1,
            1,
            "the last line has no line feed",
            "end it with one: press Enter at its end, or echo >>file",
        ));
    }
    (all.len() > MOST_STEPS).then(|| {
        slip(
            MOST_STEPS + 1,
            1,
            DIGITS,
            format!(
                "{} steps, and a recipe has {MOST_STEPS} at most",
                grouped(all.len() as u64)
            ),
            "split the recipe",
        )
    })
}

/// The slip of line k, with which these lines begin.
fn in_line(k: usize, line: &[u8], rest: &[&[u8]]) -> Option<Diagnostic> {
    if line.is_empty() {
        return Some(empty_line(k, &rest[1..]));
    }
    let strange = line
        .iter()
        .position(|byte| !matches!(byte, b'0'..=b'9' | b'a'..=b'f'));
    if let Some(place) = strange {
        return Some(strange_byte(k, line, place));
    }
    if line.len() == DIGITS {
        return None;
    }
    if k > 0 && are_frames(rest) {
        return Some(slip(
            k + 1,
            1,
            line.len(),
            "frames are left on the end of the recipe",
            "put them in a file of their own: estrenwind run RECIPE FRAMES",
        ));
    }
    let count = line.len();
    let wrong = if count + 1 == DIGITS {
        "one is missing"
    } else if count == DIGITS + 1 {
        "one is too many"
    } else if count < DIGITS {
        "some are missing"
    } else {
        "some are too many, or a line feed is missing"
    };
    let fields = STEP_FIELDS.map(|field| format!("{} {}", field.name, field.digits));
    let help = format!("{wrong}: {}", fields.join(", "));
    let place = if count < DIGITS {
        count + 1
    } else {
        DIGITS + 1
    };
    let length = count.saturating_sub(DIGITS).max(1);
    Some(slip(
        k + 1,
        place,
        length,
        format!("a line of {count} digits, and {DIGITS} are needed"),
        help,
    ))
}

/// Whether these lines can be frames, and cannot be steps: fields of 16 digits, one for each input.
fn are_frames(lines: &[&[u8]]) -> bool {
    let frame =
        |line: &&[u8]| line.len() % FRAME_INPUT == 0 && line.iter().all(u8::is_ascii_hexdigit);
    lines.iter().any(|line| !line.is_empty()) && lines.iter().all(frame)
}

fn empty_line(k: usize, after: &[&[u8]]) -> Diagnostic {
    let (message, help) = if are_frames(after) && k > 0 {
        (
            "frames are left on the end of the recipe, after an empty line",
            "put them in a file of their own: estrenwind run RECIPE FRAMES",
        )
    } else if k == 0 {
        ("the file begins with an empty line", "take it out")
    } else if after.iter().all(|line| line.is_empty()) {
        ("an empty line after the last step", "take it out")
    } else {
        ("an empty line among the steps", "take it out")
    };
    slip(k + 1, 1, 1, message, help)
}

fn strange_byte(k: usize, line: &[u8], place: usize) -> Diagnostic {
    let byte = line[place];
    // Columns are those of the line as it is shown, in characters.
    let column = String::from_utf8_lossy(&line[..place]).chars().count() + 1;
    let (message, help) = match byte {
        b'A'..=b'F' => {
            let length = line[place..]
                .iter()
                .take_while(|byte| byte.is_ascii_uppercase())
                .count();
            return slip(
                k + 1,
                column,
                length,
                "digits in upper case",
                "write a to f in lower case: tr A-F a-f <old >new",
            );
        }
        b' ' | b'\t' if line[place..].iter().all(u8::is_ascii_whitespace) => {
            ("spaces at the end of the line".to_owned(), "take them out")
        }
        b' ' | b'\t' => (
            "a space among the digits".to_owned(),
            "run the fields together, without spaces",
        ),
        b'\r' => (
            "a CR in the line".to_owned(),
            "take it out: tr -d '\\r' <old >new",
        ),
        b'x' | b'X' if line[..place].ends_with(b"0") => {
            ("0x before the digits".to_owned(), "write the digits alone")
        }
        b'#' => (
            "a comment".to_owned(),
            "the hexadecimal form has none; the text form has (estrenwind dis)",
        ),
        b' '..=b'~' => (
            format!("{} is no hexadecimal digit", byte as char),
            "the digits are 0 to 9 and a to f",
        ),
        _ => (
            format!("the byte {byte:02x} is no hexadecimal digit"),
            "the digits are 0 to 9 and a to f",
        ),
    };
    slip(k + 1, column, 1, message, help)
}

// ---- a step: refusals 12 to 17

/// The places of the opcode, A and P among the fields; B stands after A, and Q after P.
const OPCODE: usize = 0;
const A: usize = 1;
const P: usize = 3;

fn in_step(text: &[u8], refused: TurnedDown) -> Option<Diagnostic> {
    let line = |k: usize| text.split(|&byte| byte == b'\n').nth(k);
    let k = refused.place;
    // A slip in one of the fields, or in some that stand side by side.
    let at = |fields: &[Field], message: String, help: &str| {
        let digits = fields.iter().map(|field| field.digits).sum();
        Some(slip(
            k + 1,
            fields.first()?.start + 1,
            digits,
            message,
            help,
        ))
    };
    let field = |i: usize| &STEP_FIELDS[i..=i];
    let digits = line(k)?;
    if refused.fault == Fault::Opcode {
        let opcode = STEP_FIELDS[OPCODE].read(digits)?;
        return at(
            field(OPCODE),
            format!("there is no opcode {opcode:02x}"),
            "see the table of steps in docs/FORMATS.md; opcodes are hexadecimal",
        );
    }
    let step = Step::read(digits)?;
    let name = step.operation.name();
    let operands: Vec<usize> = step.operands().collect();
    match refused.fault {
        Fault::Unused => {
            let (values, used) = (step.values(), step.operation.uses());
            let i = (0..values.len()).find(|&i| values[i] != 0 && !used[i])?;
            let unused = STEP_FIELDS[i].name;
            at(
                field(i),
                format!("{name} does not use {unused}, which is not zero"),
                &format!("write zeros for {unused}"),
            )
        }
        Fault::Ahead => {
            let i = operands.iter().position(|&operand| operand >= k)?;
            let (place, operand) = (STEP_FIELDS[A + i].name, operands[i]);
            at(
                field(A + i),
                format!("{place} is step {operand}, which does not stand before step {k}"),
                "steps count from 0, in hexadecimal; move the line that it means up",
            )
        }
        Fault::Kind => {
            let kind_of = |operand: usize| Some(Step::read(line(operand)?)?.operation.gives());
            let needed = step.operation.operands();
            let i = (0..operands.len()).find(|&i| kind_of(operands[i]) != Some(needed[i]))?;
            let (is, need, help) = match needed[i] {
                Kind::Whole => (
                    "a double",
                    "a whole number",
                    "put lround (18) between, or use a whole constant (04)",
                ),
                _ => (
                    "a whole number",
                    "a double",
                    "put to_double (32) between, or use a double constant (03)",
                ),
            };
            let (place, operand) = (STEP_FIELDS[A + i].name, operands[i]);
            at(
                field(A + i),
                format!("{place} is step {operand}, {is}, and {name} needs {need} there"),
                help,
            )
        }
        Fault::Declared => {
            let is_double = step.operation.gives() == Kind::Double;
            let is_nan = |&i: &usize| is_double && f64::from_bits(step.values()[i]).is_nan();
            match [P, P + 1].into_iter().find(is_nan) {
                Some(i) => at(
                    field(i),
                    format!("{} is a NaN", STEP_FIELDS[i].name),
                    "write a number",
                ),
                None => at(
                    &STEP_FIELDS[P..],
                    "the low end P is above the high end Q".to_owned(),
                    "exchange P and Q; of negative doubles the larger pattern is the smaller number",
                ),
            }
        }
        Fault::Inputs => at(
            field(OPCODE),
            refused.fault.to_string(),
            "make inputs that never change constants, or split the recipe",
        ),
        _ => None,
    }
}

#[cfg(test)]
mod tests {
    use super::*;
    use estrenwind::explain;

    const INPUT: &str = "010000c004000000000000401d000000000000\n";
    const FLOOR: &str = "10000000000000000000000000000000000000\n";

    /// What is told of a text: line, column, message. The library must have refused it.
    fn told(text: &[u8]) -> (usize, usize, String) {
        let refused = explain(text).expect_err("the library refuses it");
        let found = find(text, refused);
        assert!(!found.help.is_empty());
        (found.line, found.column, found.message)
    }

    fn expect(text: impl AsRef<[u8]>, line: usize, column: usize, message: &str) {
        let found = told(text.as_ref());
        assert_eq!((found.0, found.1), (line, column), "{}", found.2);
        assert!(found.2.contains(message), "{}", found.2);
    }

    #[test]
    fn every_slip_has_its_words() {
        let recipe = format!("{INPUT}{FLOOR}");
        expect("", 1, 1, "empty");
        expect(format!("\u{feff}{recipe}"), 1, 1, "BOM) of UTF-8");
        expect(b"\xff\xfe0\x001\x00", 1, 1, "UTF-16");
        expect(recipe.replace('\n', "\r\n"), 1, 39, "CR LF");
        expect(format!("\n{recipe}"), 1, 1, "begins with an empty line");
        expect(
            format!("{INPUT}\n{FLOOR}"),
            2,
            1,
            "an empty line among the steps",
        );
        expect(
            format!("{recipe}\n"),
            3,
            1,
            "an empty line after the last step",
        );
        expect(
            format!("{recipe}\nbfe0000000000000\n"),
            3,
            1,
            "frames are left on the end of the recipe, after an empty line",
        );
        expect(
            format!("{recipe}bfe0000000000000\n"),
            3,
            1,
            "frames are left on the end of the recipe",
        );
        expect(recipe.replace("c004", "C0D4"), 1, 7, "upper case");
        expect(
            recipe.replacen("0100", "0x01", 1),
            1,
            2,
            "0x before the digits",
        );
        expect(
            recipe.replacen("0100", "01 00", 1),
            1,
            3,
            "a space among the digits",
        );
        expect(
            format!("{} \n", recipe.trim_end()),
            2,
            39,
            "spaces at the end of the line",
        );
        expect(format!("# a texture\n{recipe}"), 1, 1, "a comment");
        expect(
            recipe.replacen('c', "g", 1),
            1,
            7,
            "g is no hexadecimal digit",
        );
        expect(
            recipe.replacen('c', "é", 1),
            1,
            7,
            "the byte c3 is no hexadecimal digit",
        );
        expect(
            format!("{INPUT}{}\n", &FLOOR[..37]),
            2,
            38,
            "a line of 37 digits",
        );
        expect(
            format!("{INPUT}{}0\n", &FLOOR[..38]),
            2,
            39,
            "a line of 39 digits",
        );
        expect(recipe.trim_end(), 2, 39, "no line feed");
        expect(
            INPUT.repeat(129),
            129,
            1,
            "129 steps, and a recipe has 128 at most",
        );
    }

    #[test]
    fn every_refusal_of_a_step_has_its_field() {
        let step = |line: &str| format!("{INPUT}{line}\n");
        expect(
            step("99000000000000000000000000000000000000"),
            2,
            1,
            "there is no opcode 99",
        );
        expect(
            step("10000100000000000000000000000000000000"),
            2,
            5,
            "floor does not use B",
        );
        expect(
            step("10000000000000000000010000000000000000"),
            2,
            7,
            "floor does not use P",
        );
        expect(
            step("03000000000000000000000000000000000001"),
            2,
            23,
            "constant does not use Q",
        );
        expect(
            step("01010000000000000000000000000000000000"),
            2,
            3,
            "input does not use A",
        );
        expect(
            step("20000100000000000000000000000000000000"),
            2,
            5,
            "B is step 1, which does not stand before step 1",
        );
        expect(
            step("23000000000000000000000000000000000000"),
            2,
            5,
            "B is step 0, a double, and ldexp needs a whole number there",
        );
        expect(
            step("30000000000000000000000000000000000000"),
            2,
            3,
            "A is step 0, a double, and sum needs a whole number",
        );
        expect(
            step("24000100000000000000000000000000000000"),
            2,
            5,
            "B is step 1, which does not stand before step 1",
        );
        expect(
            step("24000000000000000000010000000000000000"),
            2,
            7,
            "remainder does not use P",
        );
        expect(
            step("25000000000000000000000000000000000000"),
            2,
            1,
            "there is no opcode 25",
        );
        for (opcode, name) in [("40", "add"), ("41", "subtract"), ("42", "multiply")] {
            expect(
                step(&format!("{opcode}000100000000000000000000000000000000")),
                2,
                5,
                "B is step 1, which does not stand before step 1",
            );
            expect(
                step(&format!("{opcode}000000000000000000010000000000000000")),
                2,
                7,
                &format!("{name} does not use P"),
            );
            let whole = "02000000000000000000000000000000000000\n";
            expect(
                format!("{whole}{opcode}000000000000000000000000000000000000\n"),
                2,
                3,
                &format!("A is step 0, a whole number, and {name} needs a double there"),
            );
        }
        for opcode in ["33", "3f", "43"] {
            expect(
                step(&format!("{opcode}000000000000000000000000000000000000")),
                2,
                1,
                &format!("there is no opcode {opcode}"),
            );
        }
        expect(
            step("0300007ff80000000000000000000000000000"),
            2,
            7,
            "P is a NaN",
        );
        expect(
            step("01000000000000000000007ff8000000000000"),
            2,
            23,
            "Q is a NaN",
        );
        expect(
            step("0100003ff00000000000000000000000000000"),
            2,
            7,
            "above the high end",
        );
        expect(INPUT.repeat(17), 17, 1, "a seventeenth input");
    }

    #[test]
    fn noise_is_told_something() {
        let mut word = 1u64;
        for _ in 0..20_000 {
            let mut text = format!("{INPUT}{FLOOR}").into_bytes();
            for _ in 0..3 {
                word = word
                    .wrapping_mul(6364136223846793005)
                    .wrapping_add(1442695040888963407);
                let place = (word >> 33) as usize % text.len();
                text[place] = (word >> 24) as u8;
            }
            if let Err(refused) = explain(&text) {
                let found = find(&text, refused);
                assert!(found.line >= 1 && found.column >= 1 && found.length >= 1);
            }
        }
    }
}
