//! The header, docs/FORMATS.md and the manual pages tell the same refusals, and their examples are what the
//! programs print; the tables of docs/HALVES.md have the reference's answers. The tables of opcodes and of marks
//! have every opcode once. The version is the same wherever it stands, and the header's sizes are the reference's. docs/CONTRACTS.md names every must-fail edit, and no
//! other.

use estrenwind_tests::answer::Answer;
use estrenwind_tests::programs::{explain_output, run_output, sheet_output};
use estrenwind_tests::reference::recipe::{frame, lines, sheet, text, Kind, Way, OPERATIONS};
use estrenwind_tests::reference::{conversion, rounding, BINARY16, BINARY32};
use std::collections::{BTreeMap, BTreeSet};
use std::fs;
use std::path::{Path, PathBuf};

fn path(name: &str) -> PathBuf {
    Path::new(env!("CARGO_MANIFEST_DIR")).join("..").join(name)
}

fn read(name: &str) -> String {
    let path = path(name);
    fs::read_to_string(&path).unwrap_or_else(|error| panic!("{}: {error}", path.display()))
}

/// The names of what is in a folder, none if there is no such folder.
fn listed(name: &str) -> Vec<String> {
    let name_of = |entry: std::io::Result<fs::DirEntry>| entry.unwrap().file_name();
    let entries = fs::read_dir(path(name)).into_iter().flatten();
    entries
        .map(|entry| name_of(entry).into_string().unwrap())
        .collect()
}

/// The header's names by number.
fn names() -> BTreeMap<u64, String> {
    let header = read("include/estrenwind.h");
    let name = |line: &str| {
        let (name, rest) = line.trim().split_once(" = ")?;
        let number: String = rest.chars().take_while(char::is_ascii_digit).collect();
        let is_name = name.starts_with("EW_REFUSED_");
        is_name.then(|| (number.parse().unwrap(), name.to_string()))
    };
    header.lines().filter_map(name).collect()
}

#[test]
fn formats_has_a_row_for_every_refusal() {
    let names = names();
    assert_eq!(names.len(), 18);
    let formats = read("docs/FORMATS.md");
    let rows: Vec<Vec<&str>> = formats
        .lines()
        .filter(|line| line.contains("`EW_REFUSED_"))
        .map(|line| line.split('|').map(str::trim).collect())
        .collect();
    assert_eq!(rows.len(), names.len());
    for (number, name) in &names {
        let row = rows.iter().find(|row| row[1] == number.to_string());
        let row = row.unwrap_or_else(|| panic!("no row for {number}"));
        assert!(row.contains(&format!("`{name}`").as_str()), "{row:?}");
        if (10..40).contains(number) {
            assert!(row[2].starts_with(&format!("`ff{number:02x}")), "{row:?}");
        }
    }
}

#[test]
fn manual_pages_have_every_refusal_of_their_program() {
    let of_texts = 10..18;
    let of_steps = 20..23;
    for (page, numbers) in [
        (
            "man/sheet.1",
            of_texts.chain(of_steps.clone()).collect::<Vec<u64>>(),
        ),
        ("man/run.1", of_steps.chain(30..33).collect()),
    ] {
        let page = read(page);
        let rows: Vec<&str> = page.lines().filter(|line| line.starts_with("ff")).collect();
        let tabs: Vec<&str> = rows
            .iter()
            .copied()
            .filter(|row| row.contains('\t'))
            .collect();
        assert_eq!(tabs.len(), numbers.len());
        for number in numbers {
            let row = tabs
                .iter()
                .find(|row| row.starts_with(&format!("ff{number:02x}")));
            let row = row.unwrap_or_else(|| panic!("no row for {number}"));
            assert!(row.contains(&format!("\t{number}\t")), "{row}");
        }
    }
}

/// The input between `<<'END'` and `END`, and the output after it, of a manual page's example.
fn example(page: &str) -> (String, String) {
    let page = read(page);
    let (_, rest) = page
        .split_once("<<'END'\n")
        .expect("the page has an example");
    let (input, rest) = rest.split_once("END\n").expect("its input ends");
    let (output, _) = rest.split_once(".fi\n").expect("its output ends");
    (input.to_string(), output.to_string())
}

#[test]
fn examples_of_the_manual_pages() {
    let (input, output) = example("man/sheet.1");
    assert_eq!(
        sheet_output(Way::Exact, input.as_bytes()),
        output.as_bytes()
    );
    let (input, output) = example("man/run.1");
    assert_eq!(run_output(Way::Exact, input.as_bytes()), output.as_bytes());
    assert_eq!(output.lines().count(), 2);
    let (input, output) = example("man/explain.1");
    assert_eq!(
        explain_output(Way::Exact, input.as_bytes()),
        output.as_bytes()
    );
}

/// The recipes that docs/FORMATS.md has for the reasons, each under the line that explains it.
fn explained() -> Vec<(String, String)> {
    let formats = read("docs/FORMATS.md");
    let (_, section) = formats
        .split_once("### Why a sheet is refused\n")
        .expect("the heading is there");
    let (section, _) = section.split_once("### ").expect("another one follows");
    let mut recipes: Vec<(String, String)> = Vec::new();
    for line in section.lines() {
        let digits = line.trim();
        let is_hex = digits.bytes().all(|byte| byte.is_ascii_hexdigit());
        match (line.len() - line.trim_start().len(), digits.len()) {
            (4, 6) if is_hex => recipes.push((digits.to_string(), String::new())),
            (8, 38) if is_hex => {
                let (_, recipe) = recipes.last_mut().expect("a line explains the recipe");
                recipe.push_str(&format!("{digits}\n"));
            }
            _ => {}
        }
    }
    recipes
}

/// The header, the manual page and docs/FORMATS.md have all nineteen reasons, and the recipe that
/// FORMATS has for each is explained by it.
#[test]
fn every_reason_is_told_of() {
    let header = read("include/estrenwind.h");
    let page = read("man/explain.1");
    let recipes = explained();
    assert_eq!(recipes.len(), 19);
    for (code, (line, recipe)) in (1u64..).zip(&recipes) {
        assert_eq!(
            explain_output(Way::Exact, recipe.as_bytes()),
            format!("{line}\n").as_bytes()
        );
        assert!(line.ends_with(&format!("{code:02x}")), "{line}");
        assert!(
            header.contains(&format!(" = {code}, ")) || header.contains(&format!(" = {code} "))
        );
        assert!(
            page.contains(&format!("\n{code:02x}\t")),
            "man/explain.1 has no row for {code:02x}"
        );
    }
    let names = header.matches("    EW_REASON_").count();
    assert_eq!(names, 20, "nineteen and EW_REASON_NONE");
}

/// Steps 40 to 42 share the reasons 0e to 13: the recipes that docs/FORMATS.md has for these have all three among them, and each is
/// explained by the same line where another of the three stands in its place and the fact is true of that. Which operand a code names is in
/// the manual page, the rules and FORMATS.
#[test]
fn sums_and_products_are_told_of() {
    let recipes = explained();
    let mut opcodes = BTreeSet::new();
    for (line, recipe) in &recipes[13..17] {
        let start = recipe.rfind("\n4").expect("the last step is one of them") + 1;
        opcodes.insert(recipe[start..start + 2].to_string());
        for opcode in ["40", "41", "42"] {
            let mut other = recipe.clone();
            other.replace_range(start..start + 2, opcode);
            assert_eq!(
                explain_output(Way::Exact, other.as_bytes()),
                format!("{line}\n").as_bytes(),
                "an infinite end is one whatever the step: {opcode}"
            );
        }
    }
    assert_eq!(opcodes.len(), 3, "{opcodes:?}");
    let page = read("man/explain.1");
    let rules = read("docs/RULES.md");
    let formats = read("docs/FORMATS.md");
    for (codes, number, operand) in [
        ("0e, 0f", 20, "A"),
        ("10, 11", 20, "B"),
        ("12, 13", 21, "A"),
    ] {
        let row = format!("| {codes} | {number} | 40, 41, 42 | {operand} |");
        assert_eq!(rules.matches(&row).count(), 1, "docs/RULES.md: {row}");
        let row = format!("\n| {codes} | add, subtract, multiply: ");
        assert_eq!(formats.matches(&row).count(), 1, "docs/FORMATS.md: {row}");
        for code in codes.split(", ") {
            let row = format!("\n{code}\t{number}\t{operand}\tadd, subtract, multiply: ");
            assert_eq!(page.matches(&row).count(), 1, "man/explain.1: {row}");
        }
    }
    for (name, words) in [
        ("docs/FORMATS.md", "40 to 42 of an infinite number |"),
        ("docs/FORMATS.md", "or ldexp, 40, 41 or 42 overflows |"),
        ("docs/FORMATS.md", "for the codes 01, 10 and\n11."),
        ("docs/RULES.md", "| `refusal.20` | 40, 41, 42 |"),
        ("docs/RULES.md", "| `refusal.21` | 40, 41, 42 |"),
        ("man/sheet.1", "40, 41 and 42 are refused with 20"),
        ("man/run.1", "are refused with 20 where A or B is infinite"),
        (
            "include/estrenwind.h",
            "add, subtract or multiply of an infinite number */",
        ),
        (
            "include/estrenwind.h",
            "ldexp, add, subtract or multiply out of range */",
        ),
        (
            "include/estrenwind.h",
            "EW_REASON_B_LOW_INFINITE and EW_REASON_B_HIGH_INFINITE it is B.",
        ),
    ] {
        assert_eq!(read(name).matches(words).count(), 1, "{name}: {words}");
    }
}

/// Step 24 shares fmod's refusal and its reasons 01 to 03: it is explained by the same line in the place of fmod,
/// and every row about them names both.
#[test]
fn both_remainders_are_told_of() {
    for (line, recipe) in &explained()[..3] {
        let nearest = recipe.replace("\n22", "\n24");
        assert_ne!(&nearest, recipe);
        assert_eq!(
            explain_output(Way::Exact, nearest.as_bytes()),
            format!("{line}\n").as_bytes()
        );
    }
    for (name, starts, rows) in [
        (
            "docs/FORMATS.md",
            &["| 2 |", "| 20 |", "| 01 | fmod", "| 02, 03 |"][..],
            4,
        ),
        ("man/sheet.1", &["ff14"], 1),
        ("man/run.1", &["ff14"], 1),
        ("man/explain.1", &["01\t", "02\t", "03\t"], 3),
        (
            "include/estrenwind.h",
            &[
                "    EW_REFUSED_REMAINDER",
                "    EW_REASON_DIVISOR_HOLDS_ZERO",
                "    EW_REASON_DIVIDEND_LOW_INFINITE",
            ],
            3,
        ),
    ] {
        let text = read(name);
        let is_row = |line: &&str| starts.iter().any(|start| line.starts_with(start));
        let found: Vec<&str> = text.lines().filter(is_row).collect();
        assert_eq!(found.len(), rows, "{name}: {found:?}");
        for row in found {
            assert!(
                row.contains("fmod") && row.contains("remainder"),
                "{name}: {row}"
            );
        }
    }
    let rules = read("docs/RULES.md");
    for name in ["| `refusal.20` |", "| `zero` |", "| `dividend` |"] {
        let row = rules.lines().find(|line| line.starts_with(name)).unwrap();
        assert!(row.contains("| 22, 24 |"), "{row}");
    }
}

/// The indented blocks of docs/FORMATS.md that are a recipe, its sheet, an input of `run` and its answers.
#[test]
fn examples_of_formats() {
    let formats = read("docs/FORMATS.md");
    let block = |heading: &str, lines: usize| -> String {
        let (_, section) = formats.split_once(heading).expect("the heading is there");
        let indented = section.lines().skip_while(|line| !line.starts_with("    "));
        indented
            .take(lines)
            .map(|line| format!("{}\n", line.trim()))
            .collect()
    };
    let recipe = block("## Recipe\n", 3);
    assert_eq!(
        sheet_output(Way::Exact, recipe.as_bytes()),
        block("## Sheet\n", 3).as_bytes()
    );
    let input = block("## Frames and answers\n", 6);
    assert_eq!(input.matches('\n').count(), 6);
    let answers = block("answers each frame with a line:\n", 2);
    assert_eq!(run_output(Way::Exact, input.as_bytes()), answers.as_bytes());
}

/// What stands behind a name that the header defines.
fn defined(name: &str) -> String {
    let header = read("include/estrenwind.h");
    let mut values = header
        .lines()
        .filter_map(|line| line.strip_prefix(&format!("#define {name} ")));
    let value = values
        .next()
        .unwrap_or_else(|| panic!("{name} isn't defined"));
    value.trim().to_string()
}

/// The rest of the first line that starts like this.
fn line_after(name: &str, start: &str) -> String {
    let text = read(name);
    let line = text.lines().find_map(|line| line.strip_prefix(start));
    line.unwrap_or_else(|| panic!("{name} has no line {start}.."))
        .to_string()
}

#[test]
fn one_version() {
    let version = line_after("Makefile", "VERSION = ");
    assert_eq!(defined("EW_VERSION"), format!("\"{version}\""));
    let parts = ["MAJOR", "MINOR", "PATCH"].map(|part| defined(&format!("EW_VERSION_{part}")));
    assert_eq!(parts.join("."), version);
    for folder in ["bindings/rust", "tools/estrenwind", "tests"] {
        assert_eq!(
            line_after(&format!("{folder}/Cargo.toml"), "version = "),
            format!("\"{version}\"")
        );
        // The lock file has this repository's crates alone, and a line for the version of its own form.
        let lock = read(&format!("{folder}/Cargo.lock"));
        for line in lock.lines().filter(|line| line.starts_with("version = \"")) {
            assert_eq!(line, format!("version = \"{version}\""), "{folder}");
        }
    }
    let changelog = read("CHANGELOG.md");
    let latest = changelog
        .lines()
        .find(|line| line.starts_with("## [") && *line != "## [Unreleased]");
    assert_eq!(latest, Some(format!("## [{version}]").as_str()));
}

#[test]
fn sizes_are_the_reference_s() {
    for (name, size) in [
        ("EW_MOST_STEPS", text::MOST_STEPS),
        ("EW_MOST_INPUTS", text::MOST_INPUTS),
        ("EW_RECIPE_LINE", text::LINE),
        ("EW_SHEET_LINE", sheet::LINE),
        ("EW_FRAME_INPUT", frame::DIGITS),
        ("EW_ANSWER_LINE", lines::LONGEST_ANSWER),
    ] {
        let value = defined(name);
        assert_eq!(value.split(' ').next(), Some(size.to_string().as_str()));
    }
    for (name, size) in [
        ("EW_MOST_TEXT", text::MOST_STEPS * text::LINE),
        ("EW_MOST_SHEET", text::MOST_STEPS * sheet::LINE),
        ("EW_MOST_FRAME", text::MOST_INPUTS * frame::DIGITS),
    ] {
        let value = defined(name);
        assert!(value.contains(&format!("/* {size}: ")), "{value}");
    }
}

/// When a step is marked, as a row of a table says it.
#[derive(Clone, Copy, Debug, PartialEq, Eq)]
enum Marked {
    Always,
    OneNumber,
    FiniteEnds,
    WhereAIs,
    WhereBothAre,
    Never,
}

/// The rule that a cell names or puts in words.
fn marked(cell: &str) -> Marked {
    let begins = |start: &str| cell.starts_with(start);
    match cell {
        _ if begins("always") => Marked::Always,
        _ if begins("P and Q are one number") || begins("P is finite") => Marked::OneNumber,
        _ if begins("it is one number") => Marked::OneNumber,
        _ if begins("both ends of its range are finite") => Marked::FiniteEnds,
        "A is marked" => Marked::WhereAIs,
        "A and B are marked" => Marked::WhereBothAre,
        _ if begins("never") => Marked::Never,
        "`mark.whole`" | "`mark.to-double`" => Marked::Always,
        "`mark.one-number`" => Marked::OneNumber,
        "`mark.rounding`" => Marked::FiniteEnds,
        "`mark.sign`" => Marked::WhereAIs,
        "`mark.both`" => Marked::WhereBothAre,
        "`mark.none`" => Marked::Never,
        _ => panic!("{cell} is no rule of marks"),
    }
}

/// The opcodes in a cell: `10`, `16, 17`, `10 to 14`.
fn opcodes(cell: &str) -> Vec<u8> {
    let number = |text: &str| u8::from_str_radix(text.trim(), 16).unwrap();
    let range = |part: &str| {
        let (low, high) = part.split_once(" to ").unwrap_or((part, part));
        number(low)..=number(high)
    };
    cell.split(',').flat_map(range).collect()
}

/// FORMATS, its text form and the manual page of sheet have a table with every opcode, each once and in order.
#[test]
fn every_opcode_is_in_the_tables() {
    let formats = read("docs/FORMATS.md");
    let cells = |start: &str, end: &str, column: usize| -> Vec<u8> {
        let (_, section) = formats.split_once(start).unwrap();
        let (section, _) = section.split_once(end).unwrap();
        let rows = section.lines().filter(|line| line.starts_with("| "));
        let cell = |row: &str| row.split('|').nth(column).unwrap().trim().to_string();
        let cells = rows.map(cell);
        let numbers = cells.filter(|cell| cell.starts_with(|c: char| c.is_ascii_digit()));
        numbers.flat_map(|cell| opcodes(&cell)).collect()
    };
    let page = read("man/sheet.1");
    let (_, table) = page.split_once("\\fBOpcode\\fR\t\\fBStep\\fR\n").unwrap();
    let (table, _) = table.split_once(".TE").unwrap();
    let in_page: Vec<u8> = table
        .lines()
        .flat_map(|row| opcodes(row.split_once('\t').unwrap().0))
        .collect();
    let all: Vec<u8> = OPERATIONS
        .iter()
        .map(|operation| operation.opcode)
        .collect();
    assert_eq!(cells("## Recipe\n", "### Text form\n", 1), all);
    assert_eq!(cells("### Text form\n", "## Sheet\n", 2), all);
    assert_eq!(in_page, all);
}

/// The rules by opcode, each once, of rows that have the opcodes in one cell and the rule in another.
fn rules_of<'a>(rows: impl Iterator<Item = (&'a str, &'a str)>) -> BTreeMap<u8, Marked> {
    let mut rules = BTreeMap::new();
    for (cell, rule) in rows {
        for opcode in opcodes(cell) {
            assert_eq!(rules.insert(opcode, marked(rule)), None, "{opcode:02x}");
        }
    }
    rules
}

/// The mark of the last step of a recipe, by the reference: none where it has no sheet.
fn last_mark(steps: &[String]) -> Option<bool> {
    let sheet = sheet_output(Way::Exact, steps.concat().as_bytes());
    let sheet = String::from_utf8(sheet).unwrap();
    let last = sheet.lines().last().unwrap();
    (!last.starts_with("ff")).then(|| &last[4..6] == "01")
}

/// A step's line.
fn step(opcode: u8, a: u8, b: u8, p: f64, q: f64) -> String {
    let [p, q] = [p, q].map(f64::to_bits);
    format!("{opcode:02x}{a:02x}{b:02x}{p:016x}{q:016x}\n")
}

/// FORMATS, the manual page of sheet and the rules have one and the same mark rule for every opcode, and the
/// reference goes by it.
#[test]
fn every_opcode_has_its_mark_rule() {
    let formats = read("docs/FORMATS.md");
    let (_, section) = formats.split_once("### The mark\n").unwrap();
    let (section, _) = section.split_once("\n## ").unwrap();
    let in_formats = rules_of(section.lines().filter_map(|line| {
        let row: Vec<&str> = line.split('|').map(str::trim).collect();
        let is_row = row.len() == 5 && row[1].starts_with(|c: char| c.is_ascii_digit());
        is_row.then(|| (row[1], row[3]))
    }));
    let page = read("man/sheet.1");
    let (_, table) = page.split_once("\\fBMarked where\\fR\n").unwrap();
    let (table, _) = table.split_once(".TE").unwrap();
    let in_page = rules_of(table.lines().map(|row| row.split_once('\t').unwrap()));
    let rules = read("docs/RULES.md");
    let in_rules = rules_of(rules.lines().filter_map(|line| {
        let row: Vec<&str> = line.split('|').map(str::trim).collect();
        (row.len() == 8 && row[6].starts_with("`mark.")).then(|| (row[1], row[6]))
    }));
    assert_eq!(in_formats, in_rules);
    assert_eq!(in_page, in_rules);
    let all = OPERATIONS.iter();
    let all: Vec<u8> = all.map(|operation| operation.opcode).collect();
    assert_eq!(in_rules.keys().copied().collect::<Vec<u8>>(), all);

    for operation in &OPERATIONS {
        let opcode = operation.opcode;
        let rule = in_rules[&opcode];
        // On a double that is marked, on doubles that are not, and on such that may be infinite: what the rule says.
        for (high, is_one, is_finite) in [
            (1.0, true, true),
            (1.5, false, true),
            (f64::INFINITY, false, false),
        ] {
            let double = step(0x01, 0, 0, 1.0, high);
            let whole = step(0x04, 0, 0, 0.0, 0.0);
            let operands = operation.source.operands();
            let place = |i: usize| match operands.get(i) {
                Some(Kind::Whole) => 1,
                _ => 0,
            };
            let q = if operation.is_input() { high } else { 0.0 };
            let p = if operation.uses_p() { 1.0 } else { 0.0 };
            let last = step(opcode, place(0), place(1), p, q);
            let Some(mark) = last_mark(&[double, whole, last]) else {
                continue;
            };
            let expected = match rule {
                Marked::Always => true,
                Marked::OneNumber => is_one || !operation.is_input(),
                Marked::FiniteEnds => is_finite,
                Marked::WhereAIs | Marked::WhereBothAre => is_one,
                Marked::Never => false,
            };
            assert_eq!(mark, expected, "{opcode:02x} up to {high}");
        }
    }
}

/// A sheet's line had 36 digits before it had a mark. None is left where formats are shown.
#[test]
fn no_sheet_line_without_a_mark() {
    let names = [
        "README.md",
        "docs/FORMATS.md",
        "docs/RULES.md",
        "include/estrenwind.h",
    ]
    .map(str::to_string);
    let pages = listed("man").into_iter().map(|name| format!("man/{name}"));
    let examples = listed("examples").into_iter().flat_map(|folder| {
        let files = listed(&format!("examples/{folder}")).into_iter();
        files.map(move |file| format!("examples/{folder}/{file}"))
    });
    let mut lines = 0;
    for name in names.into_iter().chain(pages).chain(examples) {
        let text = read(&name);
        for word in text.split(|c: char| !c.is_ascii_alphanumeric()) {
            let is_hex = word.bytes().all(|byte| byte.is_ascii_hexdigit());
            assert!(!(is_hex && word.len() == 36), "{name}: {word}");
            lines += usize::from(is_hex && word.len() == 38);
        }
    }
    assert!(lines > 200, "{lines} lines of recipes and sheets");
}

#[test]
fn contracts_names_every_edit() {
    let mut edits = BTreeSet::new();
    for name in listed("crates") {
        for file in listed(&format!("crates/{name}/must-fail")) {
            let edit = file.strip_suffix(".edit").expect("an edit");
            edits.insert(format!("{name}/{edit}"));
        }
    }
    assert!(edits.len() > 90, "{}", edits.len());

    let contracts = read("docs/CONTRACTS.md");
    let named: BTreeSet<String> = contracts
        .lines()
        .filter(|line| line.starts_with("    ruled out") || line.starts_with("                "))
        .filter_map(|line| line.split_whitespace().last())
        .filter(|word| word.contains('/'))
        .map(str::to_string)
        .collect();
    assert_eq!(named, edits);
}

/// The rows of the first table under a heading of docs/HALVES.md, cell by cell.
fn halves(heading: &str) -> Vec<Vec<String>> {
    let text = read("docs/HALVES.md");
    let (_, section) = text.split_once(heading).expect("the heading is there");
    let table = section.lines().skip_while(|line| !line.starts_with("| `"));
    let rows = table.take_while(|line| line.starts_with("| `"));
    let cells = |row: &str| row.split('|').map(|cell| cell.trim().to_string()).collect();
    rows.map(cells).collect()
}

/// The number in a cell of a table, a pattern in hexadecimal or a refusal.
fn number(cell: &str) -> u64 {
    match cell
        .strip_prefix('`')
        .and_then(|cell| cell.strip_suffix('`'))
    {
        Some(pattern) => u64::from_str_radix(pattern, 16).unwrap(),
        None => cell.parse().unwrap(),
    }
}

#[test]
fn tables_of_halves() {
    for row in halves("## Import\n") {
        let answer = conversion::converted(&BINARY16, &BINARY32, number(&row[1]));
        assert_eq!(answer, Answer::word(number(&row[2])), "{row:?}");
    }
    for row in halves("## Export\n") {
        let answer = conversion::converted(&BINARY32, &BINARY16, number(&row[1]));
        let expected = Answer::refused(number(&row[4]), number(&row[3]));
        assert_eq!(answer, expected, "{row:?}");
    }
    for row in halves("## Roundings\n") {
        let x = number(&row[1]);
        let roundings = [
            rounding::floor,
            rounding::ceil,
            rounding::trunc,
            rounding::round,
            rounding::nearbyint,
        ];
        for (rounding, cell) in roundings.iter().zip(&row[3..8]) {
            assert_eq!(rounding(&BINARY16, x), number(cell), "{row:?}");
        }
    }
    let rows =
        ["## Import\n", "## Export\n", "## Roundings\n"].map(|heading| halves(heading).len());
    assert_eq!(rows, [9, 13, 7]);
}
