//! Inputs that are no text, or have nothing in them.

use crate::literal::{EXAMPLE, TURNED_DOWN};
use crate::{assert_same, Program, EXPLAIN, PROGRAMS, RUN, SHEET};
use estrenwind_tests::patterns::Random;
use estrenwind_tests::reference::recipe::Way;
use std::fs::File;
use std::path::Path;
use std::process::Command;

fn output_of_file(program: &Path, input: File) -> Vec<u8> {
    let output = Command::new(program).stdin(input).output();
    let output = output.unwrap_or_else(|error| panic!("{}: {error}", program.display()));
    assert!(output.status.success(), "{}", output.status);
    assert_eq!(String::from_utf8_lossy(&output.stderr), "");
    output.stdout
}

#[test]
fn nothing_at_all() {
    for program in PROGRAMS {
        for path in program.paths() {
            let null = File::open("/dev/null").unwrap();
            assert_same(&path, b"", &output_of_file(&path, null), b"ff0a00\n");
        }
    }
}

/// A file gives as many bytes as are asked for, where a pipe may give fewer.
#[test]
fn a_file() {
    let frames = "bfe0000000000000\n401e000000000000\n\n".repeat(20_000);
    let input = format!("{EXAMPLE}\n{frames}");
    let path = std::env::temp_dir().join(format!("estrenwind-frames-{}", std::process::id()));
    std::fs::write(&path, &input).unwrap();
    let expected = "02ffffffffffffffff\nff2000\nff1e00\n".repeat(20_000);
    let outputs = RUN
        .paths()
        .map(|program| output_of_file(&program, File::open(&path).unwrap()));
    std::fs::remove_file(&path).unwrap();
    for (program, output) in RUN.paths().iter().zip(outputs) {
        assert_same(
            program,
            b"the example's frames, 20,000 times",
            &output,
            expected.as_bytes(),
        );
    }
}

#[test]
fn the_examples() {
    let folder = Path::new(env!("CARGO_MANIFEST_DIR")).join("../examples");
    let mut found = 0;
    for entry in std::fs::read_dir(folder).unwrap() {
        let example = entry.unwrap().path();
        let read = |name| std::fs::read_to_string(example.join(name)).unwrap();
        if example.join("recipe").exists() {
            let input = |recipe| format!("{}\n{}", read(recipe), read("frames"));
            SHEET.prints(read("recipe"), &read("sheet"));
            EXPLAIN.prints(read("recipe"), &read("explanation"));
            RUN.prints(input("recipe"), &read("answers"));
            if example.join("mended").exists() {
                SHEET.prints(read("mended"), &read("mended_sheet"));
                EXPLAIN.prints(read("mended"), "00\n");
                RUN.prints(input("mended"), &read("mended_answers"));
            }
            if example.join("unbounded").exists() {
                SHEET.prints(read("unbounded"), &read("unbounded_sheet"));
                EXPLAIN.prints(read("unbounded"), &read("unbounded_explanation"));
            }
            found += 1;
        }
    }
    assert_eq!(found, 12);
}

/// Bytes of all values, among which line feeds and digits are common or not.
fn noise(random: &mut Random, length: usize) -> Vec<u8> {
    let sort = random.below(4);
    let byte = |_| match sort {
        0 => random.word() as u8,
        1 => b"\n0f"[random.below(3) as usize],
        2 => b"\n\r\0 0123456789abcdefABCDEF\xff\x80"[random.below(28) as usize],
        _ if random.below(40) == 0 => b'\n',
        _ => b"0123456789abcdef"[random.below(16) as usize],
    };
    (0..length).map(byte).collect()
}

fn check_noise(program: &Program, seed: u64, head: &[u8]) {
    let mut random = Random::new(seed);
    for turn in 0..120 {
        let length = match turn % 4 {
            0 => random.below(60),
            1 => random.below(600),
            2 => 4_950 + random.below(80),
            _ => random.below(20_000),
        };
        let noise = noise(&mut random, length as usize);
        program.check(Way::Short, &[head, &noise].concat());
    }
}

#[test]
fn noise_for_a_recipe() {
    check_noise(&SHEET, 51, b"");
    check_noise(&RUN, 52, b"");
    check_noise(&SHEET, 53, EXAMPLE.as_bytes());
    check_noise(&RUN, 54, EXAMPLE.as_bytes());
    check_noise(&EXPLAIN, 58, b"");
    check_noise(&EXPLAIN, 59, TURNED_DOWN.as_bytes());
}

#[test]
fn noise_for_frames() {
    check_noise(&RUN, 55, format!("{EXAMPLE}\n").as_bytes());
    check_noise(
        &RUN,
        56,
        format!("{EXAMPLE}{}\n", &EXAMPLE[..39].repeat(15)).as_bytes(),
    );
    let constant = "04000000000000000000050000000000000000\n\n";
    check_noise(&RUN, 57, constant.as_bytes());
}
