//! README, docs/FORMATS.md and the manual page say of the command what it does.

use crate::{built, estrenwind, output_of, repository, run_program};
use std::collections::BTreeSet;
use std::fs;
use std::process::Command;

fn read(name: &str) -> String {
    let path = repository().join(name);
    fs::read_to_string(&path).unwrap_or_else(|error| panic!("{}: {error}", path.display()))
}

/// The part of a text between two marks.
#[track_caller]
fn between<'a>(text: &'a str, start: &str, end: &str) -> &'a str {
    let (_, rest) = text
        .split_once(start)
        .unwrap_or_else(|| panic!("there is no {start}"));
    rest.split_once(end)
        .unwrap_or_else(|| panic!("nothing ends {start}"))
        .0
}

/// The operations that the command itself lists.
fn operations() -> BTreeSet<String> {
    let told = estrenwind(&["check", "-"], "x = nothing_like_it\n").errors;
    let (_, list) = told.split_once("there are ").unwrap();
    let list = list.replace('\n', " ");
    list.split([',', ' '])
        .filter(|word| !word.is_empty())
        .map(str::to_owned)
        .collect()
}

#[test]
fn every_operation_is_in_the_documents() {
    let operations = operations();
    assert_eq!(operations.len(), 22, "{operations:?}");
    let formats = read("docs/FORMATS.md");
    let section = between(&formats, "### Text form\n", "## Sheet\n");
    let page = read("man/estrenwind.1");
    let table = between(&page, "What it gives", ".TE");
    for operation in &operations {
        assert!(
            section.contains(&format!("`{operation} ")),
            "FORMATS has no {operation}"
        );
        let has = table.split([' ', ',', '\n']).any(|word| word == operation);
        assert!(has, "man/estrenwind.1 has no {operation}");
    }
}

/// The indented lines after a mark.
fn block(text: &str, mark: &str) -> String {
    let (_, rest) = text.split_once(mark).unwrap();
    let lines = rest.lines().skip_while(|line| !line.starts_with("    "));
    let block = lines.take_while(|line| line.starts_with("    ") || line.is_empty());
    block
        .map(|line| format!("{}\n", line.strip_prefix("    ").unwrap_or(line)))
        .collect()
}

#[test]
fn examples_of_the_text_form_pass() {
    let formats = read("docs/FORMATS.md");
    let recipe = block(&formats, "### Text form\n");
    assert_eq!(
        output_of(&["check", "-"], &recipe),
        "standard input: 8 steps, 2 inputs; the sheet passes\n"
    );
    let page = read("man/estrenwind.1");
    let recipe = between(&page, ".nf\n", ".fi\n").replace("\\-", "-");
    assert!(
        output_of(&["check", "-"], &recipe).ends_with("the sheet passes\n"),
        "{recipe}"
    );
    let help = output_of(&["--help"], "");
    let recipe = between(&help, "The text form:\n\n", "\n\n");
    assert!(
        output_of(&["check", "-"], recipe).ends_with("the sheet passes\n"),
        "{recipe}"
    );
}

/// The manual page's example, typed into a shell.
#[test]
fn the_example_of_the_manual_page() {
    let page = read("man/estrenwind.1");
    let example = between(&page, ".SH EXAMPLE\n.nf\n", ".fi\n").replace("\\-", "-");
    let (typed, shown): (Vec<&str>, Vec<&str>) =
        example.lines().partition(|line| line.starts_with("$ "));
    let (recipe, shown) = shown.split_at(3);
    assert_eq!(typed[0], "$ cat tile.ew");
    let folder = std::env::temp_dir().join(format!("estrenwind-page-{}", std::process::id()));
    fs::create_dir_all(&folder).unwrap();
    fs::write(folder.join("tile.ew"), recipe.join("\n") + "\n").unwrap();
    let path = format!(
        "{}:{}",
        built("estrenwind").parent().unwrap().display(),
        std::env::var("PATH").unwrap()
    );
    let script: Vec<&str> = typed[1..]
        .iter()
        .map(|line| line.strip_prefix("$ ").unwrap())
        .collect();
    let done = Command::new("sh")
        .args(["-c", &format!("{{ {}; }} 2>&1", script.join("; "))])
        .current_dir(&folder)
        .env("PATH", path)
        .output()
        .unwrap();
    fs::remove_dir_all(&folder).unwrap();
    assert_eq!(
        String::from_utf8(done.stdout).unwrap(),
        shown.join("\n") + "\n"
    );
}

/// What README shows of `make demo` is among what it prints, in the same order.
#[test]
fn the_demonstration_in_readme() {
    let readme = read("README.md");
    let (_, rest) = readme.split_once("    $ make demo\n").unwrap();
    let block: Vec<&str> = rest
        .lines()
        .take_while(|line| line.starts_with("    ") || line.is_empty())
        .collect();
    let command = built("estrenwind");
    let arguments = [
        "examples/demo.sh".as_ref(),
        command.as_os_str(),
        "examples/texture_index".as_ref(),
    ];
    let ran = run_program("sh".as_ref(), &arguments, b"");
    let mut printed = ran.output.lines();
    for line in block
        .iter()
        .map(|line| line.strip_prefix("    ").unwrap_or(line))
    {
        assert!(
            printed.any(|other| other == line),
            "make demo does not print: {line}"
        );
    }
}
