//! The cases of `vectors/` through the library, and the lines that programs exchange.

use estrenwind_tests::functions::FUNCTIONS;
use estrenwind_tests::vectors::cases;
use std::collections::HashSet;
use std::process::Command;

#[test]
fn the_library_answers_as_the_reference_does() {
    for case in cases() {
        let [x, y] = case.operands;
        let answer = case.function.library(case.format)(x, y);
        assert_eq!(answer, case.expected(), "{}", case.input_line());
    }
}

#[test]
fn every_function_has_cases_at_every_width() {
    let cases = cases();
    for function in &FUNCTIONS {
        for format in function.formats() {
            let (name, width) = (function.name, format.width());
            let has_case = cases
                .iter()
                .any(|case| case.function.name == name && case.format == format);
            assert!(has_case, "{name} {width}");
        }
    }
}

fn printed(what: &str) -> String {
    let program = Command::new(env!("CARGO_BIN_EXE_vectors"))
        .arg(what)
        .output()
        .unwrap();
    assert!(program.status.success());
    String::from_utf8(program.stdout).unwrap()
}

/// The two texts go line by line together, and these lines are known without the reference.
#[test]
fn the_program_prints_lines_of_fixed_width() {
    let (input, output) = (printed("stdin"), printed("stdout"));
    assert!(input.split_inclusive('\n').all(|line| line.len() == 40));
    assert!(output.split_inclusive('\n').all(|line| line.len() == 37));
    let lines: HashSet<(&str, &str)> = input.lines().zip(output.lines()).collect();
    assert_eq!(input.lines().count(), output.lines().count());
    for (case, answer) in [
        (
            "10 40 bfe0000000000000 0000000000000000",
            "00 bff0000000000000 0000000000000000",
        ),
        (
            "11 20 00000000bf000000 0000000000000000",
            "00 0000000080000000 0000000000000000",
        ),
        (
            "18 40 c3e0000000000000 0000000000000000",
            "00 8000000000000000 0000000000000000",
        ),
        (
            "18 40 43e0000000000000 0000000000000000",
            "03 0000000000000000 0000000000000000",
        ),
        (
            "18 40 7ff8000000000000 0000000000000000",
            "01 0000000000000000 0000000000000000",
        ),
        (
            "18 20 00000000c0200000 0000000000000000",
            "00 fffffffffffffffd 0000000000000000",
        ),
        (
            "19 20 000000007f800000 0000000000000000",
            "00 0000000000000001 0000000000000000",
        ),
        (
            "15 40 c00a000000000000 0000000000000000",
            "00 c008000000000000 bfd0000000000000",
        ),
        (
            "20 20 0000000080000000 0000000000000000",
            "00 0000000080000000 0000000000000000",
        ),
        (
            "20 40 0000000000000000 8000000000000000",
            "00 8000000000000000 0000000000000000",
        ),
        (
            "21 40 8000000000000000 0000000000000000",
            "00 0000000000000000 0000000000000000",
        ),
        (
            "21 20 0000000080000000 0000000000000000",
            "00 0000000000000000 0000000000000000",
        ),
        (
            "21 40 bff0000000000000 c000000000000000",
            "00 bff0000000000000 0000000000000000",
        ),
        (
            "22 40 c01e000000000000 4000000000000000",
            "00 bff8000000000000 0000000000000000",
        ),
        (
            "22 20 000000003f800000 0000000000000000",
            "02 000000007fc00000 0000000000000000",
        ),
        (
            "23 40 3ff0000000000000 fffffffffffffbcd",
            "00 0000000000000000 0000000000000000",
        ),
        (
            "23 20 00000000bf800000 0000000000000080",
            "03 00000000ff800000 0000000000000000",
        ),
        (
            "24 40 0000000000000000 bff0000000000000",
            "00 8000000000000001 0000000000000000",
        ),
        (
            "24 20 00000000ff7fffff 00000000ff800000",
            "03 00000000ff800000 0000000000000000",
        ),
        (
            "25 40 0000000000000001 0000000000000000",
            "00 3fe0000000000000 fffffffffffffbcf",
        ),
        (
            "25 20 0000000000000001 0000000000000000",
            "00 000000003f000000 ffffffffffffff6c",
        ),
        (
            "26 40 c01e000000000000 4000000000000000",
            "00 3fe0000000000000 0000000000000000",
        ),
        (
            "26 20 0000000040400000 0000000040000000",
            "00 00000000bf800000 0000000000000000",
        ),
        (
            "26 40 3ff0000000000000 0000000000000000",
            "02 7ff8000000000000 0000000000000000",
        ),
        (
            "27 40 c01e000000000000 4000000000000000",
            "00 3fe0000000000000 fffffffffffffffc",
        ),
        (
            "27 20 0000000041700000 0000000040000000",
            "00 00000000bf800000 0000000000000000",
        ),
        (
            "27 20 00000000c1100000 000000003f800000",
            "00 0000000080000000 ffffffffffffffff",
        ),
        (
            "27 40 7ff0000000000001 0000000000000000",
            "00 7ff8000000000001 0000000000000000",
        ),
        (
            "27 20 000000007f800000 000000003f800000",
            "02 000000007fc00000 0000000000000000",
        ),
    ] {
        assert!(lines.contains(&(case, answer)), "{case} -> {answer}");
    }
}
