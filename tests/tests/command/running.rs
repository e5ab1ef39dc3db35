//! `estrenwind run` writes what the program `run` does, and what the reference says, and counts it.

use crate::child::{Child, Ending};
use crate::counts::last_line;
use crate::folder::Folder;
use crate::soon::soon;
use crate::{assert_same, built, command, counted, counted_answers, run_file, run_input, IDENTITY};
use estrenwind_tests::patterns::Random;
use estrenwind_tests::programs::run_output;
use estrenwind_tests::recipes::frame;
use estrenwind_tests::recipes::lines::Recipe;
use estrenwind_tests::reference::recipe::{Kind, Step, Way};
use std::collections::BTreeMap;
use std::fs;
use std::path::Path;

/// The input from -2.5 to 7.25, its floor, and that as a whole number.
const EXAMPLE: &str = "\
010000c004000000000000401d000000000000
10000000000000000000000000000000000000
18010000000000000000000000000000000000
";
const FRAME: &str = "bfe0000000000000";
const ANSWER: &str = "02ffffffffffffffff";

/// A constant: a recipe without an input, whose frames are empty lines.
const CONSTANT: &str = "04000000000000000000050000000000000000\n";

#[track_caller]
fn assert_ended(case: &str, ending: &Ending, answers: &[u8]) {
    let (line, status) = last_line(answers);
    assert_same(case, &ending.output, answers);
    assert_eq!(ending.errors, line, "{case}");
    assert_eq!(ending.status.code(), Some(status), "{case}");
}

/// The command's answers are the built program's and the reference's, from a file and through a pipe, to
/// standard output and to a file. Gives them.
#[track_caller]
fn check(recipe: impl AsRef<[u8]>, frames: impl AsRef<[u8]>) -> Vec<u8> {
    let (recipe, frames) = (recipe.as_ref(), frames.as_ref());
    let input = [recipe, b"\n", frames].concat();
    let answers = run_output(Way::Short, &input);
    let built = Child::start(&built("run")).write(&input).end();
    assert_same("the program run", &built, &answers);

    let folder = Folder::new();
    let (recipe, path) = (folder.with("recipe", recipe), folder.with("frames", frames));
    assert_ended("a file", &run_file(&recipe, &path, &[]), &answers);
    assert_ended("a pipe", &run_input(&recipe, frames, &[]), &answers);
    assert_ended("-", &run_input(&recipe, frames, &["--quiet"]), &answers);
    let out = folder.file("out");
    let ending = run_file(&recipe, &path, &["-o", out.to_str().unwrap()]);
    assert_eq!(ending.output, b"");
    assert_same("-o", &folder.read("out"), &answers);
    assert_eq!(ending.errors, last_line(&answers).0);
    assert_eq!(folder.names(), ["frames", "out", "recipe"]);
    answers
}

#[track_caller]
fn prints(recipe: &str, frames: impl AsRef<[u8]>, expected: &str) {
    let answers = check(recipe, frames);
    assert_eq!(String::from_utf8(answers).unwrap(), expected);
}

#[test]
fn the_examples() {
    let folder = Path::new(env!("CARGO_MANIFEST_DIR")).join("../examples");
    let mut count = 0;
    for entry in fs::read_dir(folder).unwrap() {
        let example = entry.unwrap().path();
        for (recipe, answers) in [("recipe", "answers"), ("mended", "mended_answers")] {
            let [recipe, frames, answers] =
                [recipe, "frames", answers].map(|name| fs::read(example.join(name)));
            if let (Ok(recipe), Ok(frames), Ok(answers)) = (recipe, frames, answers) {
                assert_eq!(check(&recipe, &frames), answers, "{}", example.display());
                count += 1;
            }
        }
    }
    assert!(count >= 12, "{count} examples");
}

#[test]
fn what_is_a_frame() {
    prints(EXAMPLE, "", "");
    prints(EXAMPLE, FRAME, &format!("{ANSWER}\n"));
    prints(EXAMPLE, format!("{FRAME}\n"), &format!("{ANSWER}\n"));
    prints(
        EXAMPLE,
        format!("{FRAME}\n\n"),
        &format!("{ANSWER}\nff1e00\n"),
    );
    prints(EXAMPLE, "\n", "ff1e00\n");
    prints(EXAMPLE, format!("{FRAME}\r\n"), "ff1e00\n");
    prints(EXAMPLE, "401e000000000000\n", "ff2000\n");
    prints(EXAMPLE, "BFE0000000000000\n", "ff1f00\n");
    prints(EXAMPLE, "\0\n\u{e9}\n", "ff1e00\nff1e00\n");
    let five = "020000000000000005\n";
    prints(CONSTANT, "", "");
    prints(CONSTANT, "\n", five);
    prints(CONSTANT, "\n\n\n", &five.repeat(3));
    prints(CONSTANT, "\n0\n\n0", &format!("{five}ff1e00\n").repeat(2));
}

/// Answers to so many empty lines that they are far more than the frames.
#[test]
fn many_empty_frames() {
    let frames = 200_000;
    let answers = check(CONSTANT, "\n".repeat(frames));
    assert_eq!(answers.len(), 19 * frames);
}

#[test]
fn lines_around_the_longest_frame() {
    let inputs =
        "0200000000000000000000ffffffffffffffff\n".replace("ffffffffffffffff", "7fffffffffffffff");
    let recipe = inputs.repeat(16);
    // Some of them are longer than the command reads at once.
    for length in [
        254, 255, 256, 257, 258, 259, 4_096, 49_151, 49_152, 49_153, 65_535, 65_536, 65_537, 99_000,
    ] {
        let line = "0".repeat(length);
        let answer = match length {
            256 => "020000000000000000\n",
            _ => "ff1e00\n",
        };
        for (before, after) in [(0, 0), (1, 1), (3_000, 300)] {
            let other = format!("{}\n", "0".repeat(256));
            let frames = format!("{}{line}\n{}", other.repeat(before), other.repeat(after));
            let others = |count| "020000000000000000\n".repeat(count);
            let expected = format!("{}{answer}{}", others(before), others(after));
            prints(&recipe, &frames, &expected);
            if after == 0 {
                prints(&recipe, frames.trim_end(), &expected);
            }
        }
    }
}

#[test]
fn lines_of_10_mib() {
    for byte in ["0", "\0", "?"] {
        let line = byte.repeat(10 << 20);
        for (frames, expected) in [
            (
                format!("{FRAME}\n{line}\n{FRAME}\n"),
                format!("{ANSWER}\nff1e00\n{ANSWER}\n"),
            ),
            (format!("{line}\n\n{line}"), "ff1e00\n".repeat(3)),
        ] {
            prints(EXAMPLE, &frames, &expected);
        }
    }
}

/// Memory does not grow with a line, nor with the number of lines.
#[test]
fn memory_is_constant() {
    const MIB: usize = 1 << 20;
    let folder = Folder::new();
    let recipe = folder.with("recipe", EXAMPLE);
    let lines = format!("{FRAME}\n").repeat(MIB / 17 + 1);
    for (options, piece) in [
        (&[][..], vec![b'0'; MIB]),
        (&["--decimal"], vec![b'0'; MIB]),
        (&["--decimal"], b", ".repeat(MIB / 2)),
        (&[], lines.into_bytes()),
        (&["--decimal"], b"1.5\n".repeat(MIB / 4)),
        (&["--shard", "2/3"], b"\n".repeat(MIB / 16)),
    ] {
        let mut child = Child::start_command(command(["run"]).args(options).arg(&recipe));
        let mut peaks = Vec::new();
        for _ in 0..12 {
            assert!(child.offer(&piece));
            peaks.extend(child.peak());
        }
        let case = format!("{options:?}, {}: {peaks:?} KiB", piece[..4].escape_ascii());
        let ending = child.ending();
        assert!(
            matches!(ending.status.code(), Some(0 | 1)),
            "{}",
            ending.errors
        );
        // The first pieces may still load code; after them 8 MiB and more follow.
        assert!(
            peaks[11] <= peaks[2] + 256 && peaks[11] < 16 * 1024,
            "{case}"
        );
    }
}

/// The frames come in pieces that end anywhere.
#[test]
fn pieces() {
    let folder = Folder::new();
    let recipe = folder.with("recipe", IDENTITY);
    let frames = format!("{}{}\n{FRAME}", counted(30), "0".repeat(300));
    let answers = format!("{}ff1e00\n02{FRAME}\n", counted_answers(30));
    for size in [1, 2, 16, 17, 18, 40, 257, 400] {
        let mut child = Child::start_command(command(["run"]).arg(&recipe));
        for piece in frames.as_bytes().chunks(size) {
            child.offer(piece);
            child.wait_until_taken();
        }
        assert_ended(
            &format!("pieces of {size}"),
            &child.ending(),
            answers.as_bytes(),
        );
    }
}

/// An answer is written before more frames come.
#[test]
fn answers_do_not_wait() {
    use std::io::{BufRead, BufReader};
    use std::process::Stdio;
    let folder = Folder::new();
    let recipe = folder.with("recipe", EXAMPLE);
    let mut child = Child::spawn(command(["run"]).arg(&recipe).stdout(Stdio::piped()));
    let mut output = BufReader::new(child.take_output());
    for _ in 0..3 {
        assert!(child.offer(format!("{FRAME}\n").as_bytes()));
        let (line, rest) = soon("an answer", move || {
            let mut line = String::new();
            output.read_line(&mut line).unwrap();
            (line, output)
        });
        assert_eq!(line, format!("{ANSWER}\n"));
        output = rest;
    }
    let ending = child.ending();
    assert_eq!(
        ending.errors,
        "estrenwind: 3 frames, 3 answered, 0 refused\n"
    );
}

/// A recipe that is read. Of one in three, some step refuses the frame that it comes with.
pub fn recipe(random: &mut Random) -> Recipe {
    let fault = match random.below(3) {
        0 => vec![20 + random.below(3)],
        _ => vec![],
    };
    random.recipe(&fault)
}

/// Words for the inputs of a recipe, one of them now and then outside its range.
pub fn words(random: &mut Random, steps: &[Step]) -> Vec<u64> {
    let mut words = random.input_words(steps);
    if random.below(12) == 0 {
        random.put_one_outside(steps, &mut words);
    }
    words
}

#[test]
fn generated() {
    let mut random = Random::new(71);
    let mut counts: BTreeMap<u8, usize> = BTreeMap::new();
    for _ in 0..300 {
        let recipe = recipe(&mut random);
        let count = random.one_of(&[0, 1, 10, 30, 300]);
        let frames = random.lines(&recipe, count);
        for line in check(&recipe.text, &frames).split(|&byte| byte == b'\n') {
            if let [b'f', b'f', high, low, ..] = line {
                let digits = [*high, *low];
                let digits = std::str::from_utf8(&digits).unwrap();
                *counts
                    .entry(u8::from_str_radix(digits, 16).unwrap())
                    .or_default() += 1;
            }
        }
    }
    for number in [20, 21, 22, 30, 31, 32] {
        let found = counts.get(&number).copied().unwrap_or_default();
        assert!(found >= 100, "{number} came up {found} times: {counts:?}");
    }
}

/// A number as people write it.
fn decimal(kind: Kind, word: u64) -> String {
    let number = f64::from_bits(word);
    match kind {
        Kind::Whole => (word as i64).to_string(),
        Kind::Double if number.is_nan() => "nan".to_string(),
        Kind::Double => format!("{number:?}"),
    }
}

/// What a decimal answer has to be, of a hexadecimal one: the very bits, or the refusal and its step.
#[track_caller]
fn assert_goes_with(decimal: &str, hexadecimal: &str) {
    let (kind, rest) = hexadecimal.split_at(2);
    let number = |digits| u64::from_str_radix(digits, 16).unwrap();
    let same = match kind {
        "01" => decimal
            .parse()
            .is_ok_and(|x: f64| x.to_bits() == number(rest)),
        "02" => decimal.parse().is_ok_and(|n: i64| n as u64 == number(rest)),
        _ => {
            let (refusal, step) = (number(&rest[..2]), number(&rest[2..]));
            let front = match refusal {
                30 | 31 => format!("refused {refusal}: "),
                _ => format!("refused {refusal} at s{step}: "),
            };
            decimal.starts_with(&front) && decimal.len() > front.len()
        }
    };
    assert!(same, "{decimal} for {hexadecimal}");
}

/// The same frames in decimal and in hexadecimal; where a line is no frame, the refusal that its slip has.
#[test]
fn decimal_beside_hexadecimal() {
    let mut random = Random::new(72);
    let folder = Folder::new();
    let mut lines = 0;
    for _ in 0..300 {
        let recipe = recipe(&mut random);
        let (recipe, steps) = (recipe.text, recipe.steps);
        let kinds: Vec<Kind> = steps
            .iter()
            .filter(|step| step.operation.is_input())
            .map(|step| step.operation.kind)
            .collect();
        let (mut plain, mut hexadecimal) = (String::new(), Vec::new());
        for _ in 0..40 {
            let words = words(&mut random, &steps);
            let mut texts: Vec<String> = kinds
                .iter()
                .zip(&words)
                .map(|(&kind, &word)| decimal(kind, word))
                .collect();
            let mut digits = frame(&words);
            match random.below(10) {
                0 => {
                    texts.push("1".to_string());
                    digits.push(b'0');
                }
                1 if !texts.is_empty() => {
                    texts.pop();
                    digits.pop();
                }
                2 if !texts.is_empty() => {
                    let place = random.below(texts.len() as u64) as usize;
                    texts[place] = random
                        .one_of(&["x", "1_0", "0x", "--1", "1e400"])
                        .to_string();
                    digits[16 * place] = b'x';
                }
                _ => {}
            }
            let between = random.one_of(&[" ", "\t", ",", ", ", " ,\t", "   "]);
            plain += &format!("{}\n", texts.join(between));
            hexadecimal.extend([&digits[..], b"\n"].concat());
        }
        let recipe = folder.with("recipe", recipe);
        let given = run_input(&recipe, plain.as_bytes(), &["--decimal"]);
        let expected = run_input(&recipe, &hexadecimal, &[]);
        assert_eq!(given.errors, expected.errors, "{plain}");
        assert_eq!(given.status, expected.status);
        let [given, expected] =
            [given, expected].map(|ending| String::from_utf8(ending.output).unwrap());
        assert_eq!(given.lines().count(), 40);
        for (given, expected) in given.lines().zip(expected.lines()) {
            assert_goes_with(given, expected);
            lines += 1;
        }
    }
    assert_eq!(lines, 12_000);
}

#[test]
fn decimal_lines() {
    let folder = Folder::new();
    let recipe = folder.with("recipe", EXAMPLE);
    let zeros = "0".repeat(4_000);
    let more = "0".repeat(70_000);
    for (line, answer) in [
        ("-0.5", "-1"),
        ("  7.25\t", "7"),
        ("0x1.8p1", "3"),
        (&format!("2.{zeros}"), "2"),
        (
            &format!("2.{zeros}{zeros}"),
            "refused 30: the frame does not have one number for each input",
        ),
        (
            &format!("2.{more}"),
            "refused 30: the frame does not have one number for each input",
        ),
        (
            "",
            "refused 30: the frame does not have one number for each input",
        ),
        (
            "1,",
            "refused 30: the frame does not have one number for each input",
        ),
        (
            "1 2",
            "refused 30: the frame does not have one number for each input",
        ),
        (
            "1;2",
            "refused 31: not a number of the input's kind in the frame",
        ),
        (
            "nan",
            "refused 32 at s0: the input is a NaN or outside its range",
        ),
        (
            "-inf",
            "refused 32 at s0: the input is a NaN or outside its range",
        ),
    ] {
        for end in ["\n", "", "\n1\n"] {
            if line.is_empty() && end.is_empty() {
                continue;
            }
            let ending = run_input(&recipe, format!("{line}{end}").as_bytes(), &["--decimal"]);
            let expected = format!("{answer}\n{}", end.trim_start());
            let front: String = line.chars().take(20).collect();
            assert_eq!(
                String::from_utf8(ending.output).unwrap(),
                expected,
                "{front}"
            );
            let refused = answer.starts_with("refused");
            assert_eq!(ending.status.code(), Some(i32::from(refused)), "{front}");
        }
    }
}
