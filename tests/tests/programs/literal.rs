//! Files written out, with answers read off document 01 and requests W-202 to W-205 by hand.

use crate::{EXPLAIN, OF_RECIPES, RUN, SHEET};

pub const EXAMPLE: &str = "\
010000c004000000000000401d000000000000
10000000000000000000000000000000000000
18010000000000000000000000000000000000
";

const SHEET_OF_EXAMPLE: &str = "\
000100c004000000000000401d000000000000
010101c008000000000000401c000000000000
020201fffffffffffffffd0000000000000007
";

/// The example up to infinity: lround, at step 2, is refused for the high end of floor's range.
pub const TURNED_DOWN: &str = "\
010000c0040000000000007ff0000000000000
10000000000000000000000000000000000000
18010000000000000000000000000000000000
";

/// -0.5 and what it gives.
pub const FRAME: &str = "bfe0000000000000";
const ANSWER: &str = "02ffffffffffffffff";

/// Floor of step 0.
const FLOOR: &str = "10000000000000000000000000000000000000\n";
/// The whole number 5.
const FIVE: &str = "04000000000000000000050000000000000000\n";

/// The longest recipe there is: the input, and its floor 127 times.
pub fn longest() -> String {
    let longest = format!("{}{}", &EXAMPLE[..39], FLOOR.repeat(127));
    assert_eq!(longest.len(), 4_992);
    longest
}

#[test]
fn the_example_of_document_01() {
    SHEET.prints(EXAMPLE, SHEET_OF_EXAMPLE);
    let input = format!("{EXAMPLE}\nbfe0000000000000\n401e000000000000\n");
    RUN.prints(input, "02ffffffffffffffff\nff2000\n");
}

/// W-202: "fmin takes -0 as below +0, and fmax likewise, in whichever order they come".
#[test]
fn the_zeros_in_fmin_and_fmax() {
    // From +0 to 2, and from -0 to 3.
    let inputs = "01000000000000000000004000000000000000\n\
                  01000080000000000000004008000000000000\n";
    let ranges = "00010000000000000000004000000000000000\n\
                  01010080000000000000004008000000000000\n";
    let frames = "00000000000000008000000000000000\n\
                  80000000000000000000000000000000\n";
    for (step, range, answer) in [
        (
            "200001",
            "80000000000000004000000000000000",
            "018000000000000000\n",
        ),
        (
            "200100",
            "80000000000000004000000000000000",
            "018000000000000000\n",
        ),
        (
            "210001",
            "00000000000000004008000000000000",
            "010000000000000000\n",
        ),
        (
            "210100",
            "00000000000000004008000000000000",
            "010000000000000000\n",
        ),
    ] {
        let recipe = format!("{inputs}{step}{:032}\n", 0);
        SHEET.prints(&recipe, &format!("{ranges}020100{range}\n"));
        EXPLAIN.prints(&recipe, "00\n");
        RUN.prints(format!("{recipe}\n{frames}"), &answer.repeat(2));
    }
}

/// W-203: "Each range gains a mark, 01 or 00, shown after the kind".
#[test]
fn marks() {
    let (recipe, sheet): (String, String) = [
        // From +0 to -0, one number; 1.5; infinity.
        (
            "01000000000000000000008000000000000000\n",
            "00010100000000000000008000000000000000\n",
        ),
        (
            "0300003ff80000000000000000000000000000\n",
            "0101003ff80000000000003ff8000000000000\n",
        ),
        (
            "0300007ff00000000000000000000000000000\n",
            "0201007ff00000000000007ff0000000000000\n",
        ),
        // The zeros' fmin with infinity; its floor, negated; the fraction of that.
        (
            "20000200000000000000000000000000000000\n",
            "03010000000000000000008000000000000000\n",
        ),
        (
            "10030000000000000000000000000000000000\n",
            "04010100000000000000008000000000000000\n",
        ),
        (
            "17040000000000000000000000000000000000\n",
            "05010100000000000000008000000000000000\n",
        ),
        (
            "15050000000000000000000000000000000000\n",
            "06010000000000000000000000000000000000\n",
        ),
        // As a whole number, and that as a double.
        (
            "18040000000000000000000000000000000000\n",
            "07020100000000000000000000000000000000\n",
        ),
        (
            "32070000000000000000000000000000000000\n",
            "08010100000000000000000000000000000000\n",
        ),
    ]
    .into_iter()
    .unzip();
    SHEET.prints(recipe, &sheet);
}

/// W-204: an angle from -1000 to 1000 degrees by the nearest turn of 360.
#[test]
fn the_nearest_remainder() {
    let recipe = "010000c08f400000000000408f400000000000\n\
                  03000040768000000000000000000000000000\n\
                  24000100000000000000000000000000000000\n";
    SHEET.prints(
        recipe,
        "000100c08f400000000000408f400000000000\n\
         01010140768000000000004076800000000000\n\
         020100c0768000000000004076800000000000\n",
    );
    EXPLAIN.prints(recipe, "00\n");
    let (frames, answers): (String, String) = [
        ("4075e00000000000\n", "01c024000000000000\n"), // 350 -> -10
        ("4066800000000000\n", "014066800000000000\n"), // 180 is half a turn: n = 0
        ("4080e00000000000\n", "01c066800000000000\n"), // 540 -> -180, n = 2
        ("c080e00000000000\n", "014066800000000000\n"), // -540 -> 180, n = -2
        ("408c200000000000\n", "014066800000000000\n"), // 900 -> 180, n = 2
        ("4086800000000000\n", "010000000000000000\n"), // 720 -> +0
        ("c086800000000000\n", "018000000000000000\n"), // -720 -> -0
        ("7ff0000000000000\n", "ff2000\n"),
    ]
    .into_iter()
    .unzip();
    RUN.prints(format!("{recipe}\n{frames}"), &answers);
}

/// "The step, the operand's step and a reason code, two hex digits each, run together. .. A passed
/// recipe answers 00."
#[test]
fn why_a_recipe_is_turned_down() {
    let steps_before = format!("{}{}", &TURNED_DOWN[..39], FLOOR.repeat(126));
    for (recipe, line) in [
        (EXAMPLE, "00\n"),
        (FIVE, "00\n"),
        (&longest(), "00\n"),
        (TURNED_DOWN, "020105\n"),
        (&TURNED_DOWN.replace("c004", "fff0"), "020104\n"),
        (&format!("{TURNED_DOWN}{TURNED_DOWN}"), "020105\n"),
        (&format!("{steps_before}1800{:034}\n", 0), "7f0005\n"),
        (&format!("{steps_before}187e{:034}\n", 0), "7f7e05\n"),
        (&format!("{steps_before}220a7e{:032}\n", 0), "7f7e01\n"),
    ] {
        EXPLAIN.prints(recipe, line);
    }
    // A divisor that may be zero, an infinite dividend, sums, scalings, and a whole number beyond
    // 2^53.
    let unit = "010000bff00000000000003ff0000000000000\n"; // -1 to 1
    let down = "010000fff00000000000003ff0000000000000\n"; // -infinity to 1
    let up = "010000bff00000000000007ff0000000000000\n"; // -1 to infinity
    let three = "03000040080000000000000000000000000000\n";
    let most = "0400007fffffffffffffff0000000000000000\n";
    let powers = "02000000000000000000000000000000000400\n"; // 0 to 1,024
    let wholes = "02000000000000000000000020000000000001\n"; // 0 to 2^53 + 1
    let less = "020000ffdfffffffffffff0000000000000000\n"; // -2^53 - 1 to 0
    let falling = "02000080000000000000000000000000000000\n"; // -2^63 to 0
    let (fmod, ldexp) = (format!("220001{:032}\n", 0), format!("230001{:032}\n", 0));
    let remainder = format!("240001{:032}\n", 0);
    let (sum, to_double) = (format!("300001{:032}\n", 0), format!("3200{:034}\n", 0));
    for (recipe, line) in [
        (format!("{three}{unit}{fmod}"), "020101\n"),
        (format!("{down}{unit}{fmod}"), "020101\n"),
        (format!("{down}{three}{fmod}"), "020002\n"),
        (format!("{up}{three}{fmod}"), "020003\n"),
        (format!("{three}{unit}{remainder}"), "020101\n"),
        (format!("{down}{unit}{remainder}"), "020101\n"),
        (format!("{down}{three}{remainder}"), "020002\n"),
        (format!("{up}{three}{remainder}"), "020003\n"),
        (format!("{falling}{falling}{sum}"), "020006\n"),
        (format!("{wholes}{most}{sum}"), "020007\n"),
        (format!("{down}{powers}{ldexp}"), "020008\n"),
        (format!("{up}{powers}{ldexp}"), "020009\n"),
        (format!("{unit}{powers}{ldexp}"), "02000a\n"),
        (format!("{three}{powers}{ldexp}"), "02000b\n"),
        (format!("{less}{to_double}"), "01000c\n"),
        (format!("{wholes}{to_double}"), "01000d\n"),
    ] {
        EXPLAIN.prints(recipe, line);
    }
}

#[test]
fn a_refused_frame_does_not_stop_the_next() {
    for (frame, answer) in [
        ("401e000000000000", "ff2000"),
        ("", "ff1e00"),
        ("bfe000000000000", "ff1e00"),
        ("bfe00000000000000", "ff1e00"),
        ("bfe000000000000G", "ff1f00"),
        ("BFE0000000000000", "ff1f00"),
        ("bfe0000000000000\r", "ff1e00"),
        (" bfe000000000000", "ff1f00"),
        ("7ff8000000000000", "ff2000"),
        ("c004000000000001", "ff2000"),
        ("c004000000000000", "02fffffffffffffffd"),
        ("401d000000000000", "020000000000000007"),
    ] {
        let input = format!("{EXAMPLE}\n{FRAME}\n{frame}\n{FRAME}\n");
        RUN.prints(input, &format!("{ANSWER}\n{answer}\n{ANSWER}\n"));
    }
}

#[test]
fn a_refused_recipe_gives_one_line() {
    let frames = format!("\n{FRAME}\n{FRAME}\n");
    for (recipe, refusal) in [
        (EXAMPLE[1..].to_string(), "ff0a00\n"),
        (EXAMPLE.replace("1801", "18G1"), "ff0b02\n"),
        (EXAMPLE.replace("1801", "1901"), "ff0c02\n"),
        (EXAMPLE.replace("\n100000", "\n100001"), "ff0d01\n"),
        (EXAMPLE.replace("1801", "1802"), "ff0e02\n"),
        (EXAMPLE.replace("\n1000", "\n3200"), "ff0f01\n"),
        (EXAMPLE.replace("401d", "c01d"), "ff1000\n"),
        (EXAMPLE[..39].repeat(17), "ff1110\n"),
        (
            format!("{FIVE}{}", EXAMPLE.replace('\n', "\r\n")),
            "ff0a00\n",
        ),
    ] {
        SHEET.prints(&recipe, refusal);
        EXPLAIN.prints(&recipe, refusal);
        RUN.prints(&recipe, refusal);
        RUN.prints(format!("{recipe}{frames}"), refusal);
    }
    // What only the sheet turns down: a whole number from 2^53 on as a double, and a divisor that
    // may be zero.
    let beyond = format!("020000{:016x}{:016x}\n3200{:034}\n", 0, (1u64 << 53) + 1, 0);
    SHEET.prints(&beyond, "ff1601\n");
    EXPLAIN.prints(&beyond, "01000d\n");
    RUN.prints(
        format!("{beyond}\n0000000000000001\n0020000000000001\n"),
        "013ff0000000000000\nff1601\n",
    );
    for opcode in ["22", "24"] {
        let divisor = format!(
            "0100000000000000000000{:016x}\n{opcode}0000{:032}\n",
            2f64.to_bits(),
            0
        );
        SHEET.prints(&divisor, "ff1401\n");
        EXPLAIN.prints(&divisor, "010001\n");
        RUN.prints(
            format!("{divisor}\n3ff0000000000000\n0000000000000000\n"),
            "010000000000000000\nff1401\n",
        );
    }
}

/// W-208: two inputs, their sum, difference or product. -3 and 1.5 are in any range that is asked for.
#[test]
fn sums_differences_and_products() {
    let inputs = |[low, high]: [f64; 2]| {
        let (low, high) = (low.to_bits(), high.to_bits());
        format!("010000{low:016x}{high:016x}\n").repeat(2)
    };
    let small = [-4.0, 4.0];
    let frame = format!("{:016x}{:016x}\n", (-3f64).to_bits(), 1.5f64.to_bits());
    for (opcode, value, high) in [
        (0x40, -1.5f64, 8.0f64),
        (0x41, -4.5, 8.0),
        (0x42, -4.5, 16.0),
    ] {
        let with = |ends| format!("{}{opcode:02x}0001{:032}\n", inputs(ends), 0);
        let text = with(small);
        let (low, high) = ((-high).to_bits(), high.to_bits());
        let lines: String = (0..2)
            .map(|step| {
                format!(
                    "{step:02x}0100{:016x}{:016x}\n",
                    (-4f64).to_bits(),
                    4f64.to_bits()
                )
            })
            .collect();
        SHEET.prints(&text, &format!("{lines}020100{low:016x}{high:016x}\n"));
        EXPLAIN.prints(&text, "00\n");
        RUN.prints(
            format!("{text}\n{frame}"),
            &format!("01{:016x}\n", value.to_bits()),
        );
        // Any finite double: the ends overflow. Any double: they are infinite.
        let finite = with([f64::MIN, f64::MAX]);
        SHEET.prints(&finite, "ff1502\n");
        EXPLAIN.prints(&finite, "020012\n");
        let any = with([f64::NEG_INFINITY, f64::INFINITY]);
        SHEET.prints(&any, "ff1402\n");
        EXPLAIN.prints(&any, "02000e\n");
        let [max, min, infinity, zero] = [f64::MAX, f64::MIN, f64::INFINITY, 0.0].map(f64::to_bits);
        let frames = format!("{frame}{max:016x}{infinity:016x}\n{zero:016x}{infinity:016x}\n");
        let value = format!("01{:016x}", value.to_bits());
        RUN.prints(
            format!("{any}\n{frames}"),
            &format!("{value}\nff1402\nff1402\n"),
        );
        let other = if opcode == 0x41 { min } else { max };
        RUN.prints(format!("{finite}\n{max:016x}{other:016x}\n"), "ff1502\n");
    }
}

#[test]
fn no_recipe() {
    for input in ["", "\n", "\n\n", "\nbfe0000000000000\n"] {
        RUN.prints(input, "ff0a00\n");
        SHEET.prints(input, "ff0a00\n");
        EXPLAIN.prints(input, "ff0a00\n");
    }
    // A line feed first of all is an empty line to one program and a byte of the text to the
    // others.
    let line = format!("\n{:038}", 0);
    RUN.prints(&line, "ff0a00\n");
    for program in OF_RECIPES {
        program.prints(format!("{EXAMPLE}\n"), "ff0a00\n");
        program.prints(&line, "ff0b00\n");
    }
}

#[test]
fn no_frames() {
    RUN.prints(EXAMPLE, "");
    RUN.prints(format!("{EXAMPLE}\n"), "");
}

#[test]
fn empty_lines_are_the_frames_of_a_recipe_without_inputs() {
    let five = "020000000000000005\n";
    RUN.prints(FIVE, "");
    for frames in 0..4 {
        RUN.prints(
            format!("{FIVE}\n{}", "\n".repeat(frames)),
            &five.repeat(frames),
        );
    }
    RUN.prints(
        format!("{FIVE}\n\n0\n\n0"),
        &format!("{five}ff1e00\n{five}ff1e00\n"),
    );
    RUN.prints(
        format!("{EXAMPLE}\n\n\n{FRAME}\n"),
        &format!("ff1e00\nff1e00\n{ANSWER}\n"),
    );
}

#[test]
fn a_last_line_may_lack_its_line_feed() {
    RUN.prints(format!("{EXAMPLE}\n{FRAME}"), &format!("{ANSWER}\n"));
    RUN.prints(
        format!("{EXAMPLE}\n{FRAME}\n{FRAME}"),
        &format!("{ANSWER}\n{ANSWER}\n"),
    );
    RUN.prints(format!("{EXAMPLE}\n{}", &FRAME[1..]), "ff1e00\n");
    // A recipe's may not.
    RUN.prints(&EXAMPLE[..116], "ff0a00\n");
    SHEET.prints(&EXAMPLE[..116], "ff0a00\n");
    EXPLAIN.prints(&EXAMPLE[..116], "ff0a00\n");
    EXPLAIN.prints(&TURNED_DOWN[..116], "ff0a00\n");
}

#[test]
fn lines_of_256_and_257_bytes() {
    let inputs = EXAMPLE[..39].repeat(16);
    let zeros = "0".repeat(256);
    let zero = "010000000000000000\n";
    for (line, answer) in [
        (zeros.clone(), zero),
        (zeros[1..].to_string(), "ff1e00\n"),
        (format!("{zeros}0"), "ff1e00\n"),
        (format!("{zeros}00"), "ff1e00\n"),
        (format!("{zeros}\r"), "ff1e00\n"),
        (format!("{zeros}{zeros}"), "ff1e00\n"),
        (format!("{}g", &zeros[1..]), "ff1f00\n"),
    ] {
        RUN.prints(
            format!("{inputs}\n{line}\n{zeros}\n"),
            &format!("{answer}{zero}"),
        );
        RUN.prints(
            format!("{inputs}\n{zeros}\n{line}"),
            &format!("{zero}{answer}"),
        );
        // No frame of a recipe with one input is as long: 30 either way.
        RUN.prints(
            format!("{EXAMPLE}\n{line}\n{FRAME}\n"),
            &format!("ff1e00\n{ANSWER}\n"),
        );
    }
}

/// "No empty line in the first 4,993 bytes: refusal 10 if the input goes on, else all of it is
/// recipe with no frames."
#[test]
fn texts_about_as_long_as_the_longest() {
    let longest = longest();
    let answer = "01bff0000000000000\n";
    for (input, output) in [
        // 4,992 bytes, none of them an empty line: a recipe, and no frames.
        (longest.clone(), ""),
        // 4,993 bytes, the last an empty line.
        (format!("{longest}\n"), ""),
        (format!("{longest}\n{FRAME}"), answer),
        (format!("{longest}\n{FRAME}\n"), answer),
        // An empty frame after the empty line.
        (format!("{longest}\n\n"), "ff1e00\n"),
        // 4,993 bytes, no empty line.
        (format!("{longest}0"), "ff0a00\n"),
        // 4,994 bytes, the empty line one byte too late.
        (format!("{longest}0\n"), "ff0a00\n"),
        (format!("{longest}0\n\n{FRAME}\n"), "ff0a00\n"),
        (format!("0{longest}\n{FRAME}\n"), "ff0a00\n"),
        (format!("{longest}00"), "ff0a00\n"),
        (format!("{longest}{FLOOR}"), "ff0a00\n"),
        (format!("{longest}{FLOOR}\n{FRAME}\n"), "ff0a00\n"),
        // A recipe that is turned down where it ends with the 4,992nd byte.
        (format!("{}g\n", &longest[..4_990]), "ff0b7f\n"),
        (format!("{}g\n\n{FRAME}\n", &longest[..4_990]), "ff0b7f\n"),
        // An empty line early on ends the recipe, whatever follows.
        (format!("{EXAMPLE}\n{longest}"), &"ff1e00\n".repeat(128)),
    ] {
        RUN.prints(&input, output);
    }
    let floors: String = (1..128)
        .map(|step| format!("{step:02x}0101c008000000000000401c000000000000\n"))
        .collect();
    SHEET.prints(
        &longest,
        &format!("000100c004000000000000401d000000000000\n{floors}"),
    );
    for program in OF_RECIPES {
        for input in [
            format!("{longest}\n"),
            format!("{longest}0"),
            format!("{longest}{FLOOR}"),
            longest[1..].to_string(),
            longest.repeat(2),
        ] {
            program.prints(&input, "ff0a00\n");
        }
        program.prints(format!("{}g\n", &longest[..4_990]), "ff0b7f\n");
    }
}
