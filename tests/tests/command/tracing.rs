//! `estrenwind run --trace N` shows every step of one frame, in 80 columns.

use crate::folder::Folder;
use crate::running::{recipe, words};
use crate::{run_file, run_input};
use estrenwind_tests::patterns::Random;
use estrenwind_tests::recipes::frame;
use estrenwind_tests::reference::recipe::{run, Step, Way};
use std::collections::BTreeMap;

/// The bits in a table: each row ends with them, under their title.
fn bits(table: &str) -> Vec<u64> {
    let mut lines = table.lines();
    let title = lines.next().expect("it has a title");
    let column = title.find("bits").expect("bits have a column");
    let of_row = |line: &str| {
        let (front, digits) = line.split_at_checked(column)?;
        let is_row = front.ends_with("  ") && digits.len() == 16;
        is_row.then(|| u64::from_str_radix(digits, 16).unwrap())
    };
    let rows = lines.take_while(|line| !line.is_empty());
    rows.filter_map(of_row).collect()
}

/// What a table shows is what the reference works out: of a refused step, what stands before it; of a
/// refused input, the inputs.
#[test]
fn generated() {
    let mut random = Random::new(73);
    let folder = Folder::new();
    let mut counts: BTreeMap<u64, usize> = BTreeMap::new();
    for _ in 0..400 {
        let recipe = recipe(&mut random);
        let (recipe, whole, steps) = (recipe.text, recipe.frame, recipe.steps);
        let words = words(&mut random, &steps);
        let mut line = frame(&words);
        match random.below(8) {
            0 => line.push(b'0'),
            1 if !line.is_empty() => line[0] = b'g',
            2 | 3 => line = whole,
            _ => {}
        }
        let words: Vec<u64> = line
            .chunks(16)
            .filter_map(|digits| u64::from_str_radix(std::str::from_utf8(digits).ok()?, 16).ok())
            .collect();
        let path = folder.with("recipe", &recipe);
        let frames = [b"first\n", &line[..], b"\nthird\n"].concat();
        let ending = run_input(&path, &frames, &["--trace", "2"]);
        let shown = String::from_utf8(ending.output).unwrap();
        assert_eq!(ending.errors, "");
        for line in shown.lines() {
            assert!(line.chars().count() <= 80, "{line}");
        }
        let values = |count: usize, line: &[u8]| -> Vec<u64> {
            let values = run(Way::Short, &recipe[..39 * count], line, 128).unwrap();
            values.iter().map(|value| value.word).collect()
        };
        let number = match run(Way::Short, &recipe, &line, 128) {
            Ok(_) => {
                assert_eq!(bits(&shown), values(steps.len(), &line));
                assert_eq!(ending.status.code(), Some(0));
                0
            }
            Err(refusal) => {
                let (number, step) = (refusal.number, refusal.place as usize);
                let inputs = |steps: &[Step]| {
                    steps
                        .iter()
                        .filter(|step| step.operation.is_input())
                        .count()
                };
                let expected = match number {
                    20..=22 => values(step, &line[..16 * inputs(&steps[..step])]),
                    32 => words,
                    _ => vec![],
                };
                let place = match number {
                    30 | 31 => String::new(),
                    _ => format!(" at s{step}"),
                };
                let words = format!("refused {number}{place}: ");
                assert!(shown.contains(&words), "{words} is not in\n{shown}");
                if number < 30 || number == 32 {
                    assert_eq!(bits(&shown), expected, "{shown}");
                } else {
                    assert_eq!(shown.lines().count(), 1, "{shown}");
                }
                assert_eq!(ending.status.code(), Some(1));
                number
            }
        };
        *counts.entry(number).or_default() += 1;
    }
    for number in [0, 20, 21, 22, 30, 31, 32] {
        let found = counts.get(&number).copied().unwrap_or_default();
        assert!(found >= 5, "{number} came up {found} times: {counts:?}");
    }
}

/// A texture index, in decimal.
const RECIPE: &str = "\
010000bfe0000000000000406fd00000000000
13000000000000000000000000000000000000
18010000000000000000000000000000000000
";

#[test]
fn in_decimal() {
    let folder = Folder::new();
    let recipe = folder.with("recipe", RECIPE);
    let frames = folder.with("frames", "1\n127.25\n300\nx\n");
    let shown = |number: &str| {
        let ending = run_file(&recipe, &frames, &["--decimal", "--trace", number]);
        let output = String::from_utf8(ending.output).unwrap();
        (output + &ending.errors, ending.status.code())
    };
    let table = "\
step  name  operation             value  bits
   0  s0    input -0.5 .. 254.5  127.25  405fd00000000000
   1  s1    round s0                127  405fc00000000000
   2  s2    lround s1               127  000000000000007f
";
    assert_eq!(shown("2"), (table.to_string(), Some(0)));
    let outside = "\
step  name  operation            value  bits
   0  s0    input -0.5 .. 254.5    300  4072c00000000000

refused 32 at s0: the input is a NaN or outside its range
s0 is 300, and its range is -0.5 .. 254.5
";
    assert_eq!(shown("3"), (outside.to_string(), Some(1)));
    let no_number = "refused 31: not a number of the input's kind in the frame\n";
    assert_eq!(shown("4"), (no_number.to_string(), Some(1)));
    let (told, status) = shown("5");
    assert_eq!(status, Some(74));
    assert_eq!(
        told,
        format!(
            "estrenwind: there is no frame 5: {} has 4\n",
            frames.display()
        )
    );
}

/// Frames far into a file, past many pieces of it.
#[test]
fn far_away() {
    let folder = Folder::new();
    let recipe = folder.with("recipe", crate::IDENTITY);
    let frames: String = (0..20_000).map(|n| format!("{n:016x}\n")).collect();
    let frames = folder.with("frames", frames);
    // 2,891 and 3,855 frames fit 48 and 64 KiB.
    for number in [1, 2_891, 2_892, 2_893, 3_855, 3_856, 3_857, 20_000] {
        let ending = run_file(&recipe, &frames, &["--trace", &number.to_string()]);
        let shown = String::from_utf8(ending.output).unwrap();
        assert_eq!(bits(&shown), [number - 1], "{shown}");
    }
}
