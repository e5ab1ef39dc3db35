//! Every slip in a hexadecimal recipe has its words and its place, by each command that reads one; and the refusal is the program's.

use crate::{built, estrenwind, fits_80_columns, run_program};

const INPUT: &str = "010000c004000000000000401d000000000000\n";
const FLOOR: &str = "10000000000000000000000000000000000000\n";

/// The place and the words that are told of a text, and the program's refusal line in them.
#[track_caller]
fn told(text: impl AsRef<[u8]>, place: &str, words: &str, help: &str) {
    let text = text.as_ref();
    let refusal = run_program(&built("explain"), &[], text).output;
    assert!(refusal.starts_with("ff"), "the program takes it: {refusal}");
    for command in ["check", "sheet", "explain", "asm", "dis"] {
        let ran = estrenwind(&[command, "-"], text);
        assert_eq!((ran.status, ran.output.as_str()), (3, ""), "{command}");
        let message = ran.errors.replace("\n    ", " ").replace("\n       ", " ");
        let start = format!("standard input:{place}: refused ");
        assert!(message.starts_with(&start), "{message}");
        for part in [refusal.trim(), words, help] {
            assert!(message.contains(part), "{part} is not in: {message}");
        }
        fits_80_columns(&ran.errors);
    }
}

#[test]
fn slips_of_editors() {
    let recipe = format!("{INPUT}{FLOOR}");
    told("", "1:1", "the file is empty", "at least one step");
    told(recipe.replace('\n', "\r\n"), "1:39", "CR LF", "tr -d '\\r'");
    told(
        format!("\u{feff}{recipe}"),
        "1:1",
        "byte order mark (BOM) of UTF-8",
        "without a BOM",
    );
    told(
        format!("{INPUT}\n{FLOOR}"),
        "2:1",
        "an empty line among the steps",
        "take it out",
    );
    told(
        format!("\n{recipe}"),
        "1:1",
        "begins with an empty line",
        "take it out",
    );
    told(
        format!("{recipe}\n"),
        "3:1",
        "an empty line after the last step",
        "take it out",
    );
    told(
        recipe.replace("c004", "C004"),
        "1:7",
        "upper case",
        "tr A-F a-f",
    );
    told(
        format!("{INPUT}{}\n", &FLOOR[1..38]),
        "2:38",
        "a line of 37 digits",
        "one is missing",
    );
    told(
        format!("{INPUT}0{FLOOR}"),
        "2:39",
        "a line of 39 digits",
        "one is too many",
    );
    told(
        recipe.trim_end(),
        "2:39",
        "the last line has no line feed",
        "press Enter",
    );
    told(
        format!("{recipe}\nbfe0000000000000\n"),
        "3:1",
        "frames are left on the end",
        "RECIPE FRAMES",
    );
    told(
        format!("{recipe}bfe0000000000000\n"),
        "3:1",
        "frames are left on the end",
        "RECIPE FRAMES",
    );
    told(
        recipe.replacen("0100", "01 00", 1),
        "1:3",
        "a space among the digits",
        "without spaces",
    );
    told(INPUT.repeat(129), "129:1", "129 steps", "split the recipe");
}

#[test]
fn refusals_of_steps() {
    let step = |line: &str| format!("{INPUT}{line:0<38}\n");
    told(
        step("99"),
        "2:1",
        "refused 12 (ff0c01): there is no opcode 99",
        "table of steps",
    );
    told(
        step("100001"),
        "2:5",
        "refused 13 (ff0d01): floor does not use B",
        "zeros for B",
    );
    told(
        step("1001"),
        "2:3",
        "refused 14 (ff0e01): A is step 1",
        "steps count from 0",
    );
    told(
        step("3000"),
        "2:3",
        "refused 15 (ff0f01): A is step 0, a double",
        "lround (18)",
    );
    told(
        format!("020000{:032}\n2400{:034}\n", 0, 0),
        "2:3",
        "refused 15 (ff0f01): A is step 0, a whole number, and remainder needs a double there",
        "to_double (32)",
    );
    told(
        format!("020000{:032}\n4200{:034}\n", 0, 0),
        "2:3",
        "refused 15 (ff0f01): A is step 0, a whole number, and multiply needs a double there",
        "to_double (32)",
    );
    told(
        step("430000"),
        "2:1",
        "refused 12 (ff0c01): there is no opcode 43",
        "table of steps",
    );
    told(
        step("400001"),
        "2:5",
        "refused 14 (ff0e01): B is step 1",
        "steps count from 0",
    );
    told(
        step("0300007ff8"),
        "2:7",
        "refused 16 (ff1001): P is a NaN",
        "write a number",
    );
    told(
        step("0100003ff0"),
        "2:7",
        "refused 16 (ff1001): the low end P is above",
        "exchange P and Q",
    );
    told(
        INPUT.repeat(17),
        "17:1",
        "refused 17 (ff1110): a seventeenth input",
        "split the recipe",
    );
}

/// A carriage return, a control byte or an escape in a file never reaches a terminal.
#[test]
fn what_is_shown_of_a_file_can_be_printed() {
    for text in [
        "\u{1b}[31m\u{7}0\r0\n",
        "x = \u{1b}[2J floor\n",
        "x\u{0}= floor\n",
        "a = flo\u{7f}or b\n",
    ] {
        let ran = estrenwind(&["check", "-"], text);
        assert_eq!(ran.status, 3);
        assert!(
            ran.errors.chars().all(|c| c == '\n' || !c.is_control()),
            "{:?}",
            ran.errors
        );
    }
}
