//! The mark of a step is the same in every form of a sheet: the program's lines, the command's lines, its table and its JSON.

use crate::{built, output_of, run_program};
use estrenwind_tests::patterns::Random;
use estrenwind_tests::recipes::faults::damaged;
use estrenwind_tests::recipes::SheetCall;

/// The marks in lines of digits, and whether each step is a double.
fn of_lines(lines: &str) -> Vec<(bool, bool)> {
    let mark = |line: &str| match &line[4..6] {
        "00" => false,
        "01" => true,
        other => panic!("a mark of {other}"),
    };
    lines
        .lines()
        .map(|line| (&line[2..4] == "01", mark(line)))
        .collect()
}

/// The marks in a table: the column says yes, or, where there is no room for columns, the range has a word after it. A step that takes more
/// lines than one has spaces where the others have a number.
fn of_table(table: &str) -> Vec<bool> {
    let (table, promise) = table.split_once("\n\n").expect("a sentence follows it");
    assert!(promise.ends_with("marked whole is finite and has no fraction.\n"));
    let mut rows: Vec<&str> = Vec::new();
    for line in table.lines() {
        match &line[..4] {
            "    " => *rows.last_mut().unwrap() = line,
            _ => rows.push(line),
        }
    }
    assert!(rows[0].ends_with("whole"), "{}", rows[0]);
    let word = match rows[0].ends_with(", whole") {
        true => ", whole",
        false => " yes",
    };
    let marked = |row: &&str| row.ends_with(word);
    rows[1..].iter().map(marked).collect()
}

fn of_json(json: &str) -> Vec<bool> {
    let steps = json.lines().filter(|line| line.contains("\"step\": "));
    let mark = |line: &str| match line.split_once("\"whole\": ").map(|(_, rest)| rest) {
        Some(rest) if rest.starts_with("true,") => true,
        Some(rest) if rest.starts_with("false,") => false,
        _ => panic!("no mark in {line}"),
    };
    steps.map(mark).collect()
}

#[test]
fn every_form_of_a_sheet_has_the_program_s_marks() {
    let mut random = Random::new(75);
    let (mut marked, mut unmarked, mut whole_kind) = (0, 0, 0);
    for _ in 0..300 {
        let recipe = damaged::<SheetCall>(&mut random, &[]).0.text;
        let lines = run_program(&built("sheet"), &[], &recipe).output;
        assert_eq!(output_of(&["sheet", "--hex", "-"], &recipe), lines);
        let marks = of_lines(&lines);
        let expected: Vec<bool> = marks.iter().map(|&(_, mark)| mark).collect();
        let table = output_of(&["sheet", "-"], &recipe);
        assert_eq!(of_table(&table), expected, "{lines}{table}");
        let json = output_of(&["sheet", "--json", "-"], &recipe);
        assert_eq!(of_json(&json), expected, "{lines}{json}");
        for mark in marks {
            match mark {
                (true, true) => marked += 1,
                (true, false) => unmarked += 1,
                (false, mark) => {
                    assert!(mark, "a step of whole kind is marked: {lines}");
                    whole_kind += 1;
                }
            }
        }
    }
    assert!(
        [marked, unmarked, whole_kind]
            .iter()
            .all(|&count| count >= 500),
        "doubles marked {marked} and not {unmarked}, of whole kind {whole_kind}"
    );
}
