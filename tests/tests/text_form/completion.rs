//! The completion for bash offers the commands and the options that the command has.

use crate::{output_of, repository, run_program};
use std::collections::BTreeSet;

/// What bash offers for these words, the last of them unfinished.
fn offered(words: &[&str]) -> BTreeSet<String> {
    let script = format!(
        "source tools/estrenwind/estrenwind.bash; COMP_WORDS=({}); COMP_CWORD={}; _estrenwind; printf '%s\\n' \"${{COMPREPLY[@]}}\"",
        words.iter().map(|word| format!("'{word}'")).collect::<Vec<_>>().join(" "),
        words.len() - 1
    );
    let ran = run_program("bash".as_ref(), &["-c".as_ref(), script.as_ref()], b"");
    assert_eq!((ran.status, ran.errors.as_str()), (0, ""));
    ran.output
        .lines()
        .filter(|line| !line.is_empty())
        .map(str::to_owned)
        .collect()
}

fn set(words: &[&str]) -> BTreeSet<String> {
    words.iter().map(|&word| word.to_owned()).collect()
}

/// The options that a command's help has a line for, or names in its usage.
fn options_of(command: &str) -> BTreeSet<String> {
    let help = output_of(&["help", command], "");
    let words = help.split([' ', '\n', '[', ']', '|', '(', ')', ',', ';']);
    let mut options: BTreeSet<String> = words
        .filter(|word| word.len() > 1 && word.starts_with('-'))
        .map(str::to_owned)
        .collect();
    options.insert("--help".into());
    options
}

#[test]
fn commands_and_options() {
    if !std::path::Path::new("/bin/bash").exists() {
        println!("bash is missing: its completion is not tried");
        return;
    }
    let commands = set(&[
        "check", "sheet", "explain", "run", "join", "asm", "dis", "help",
    ]);
    let first = offered(&["estrenwind", ""]);
    assert_eq!(
        first,
        commands
            .iter()
            .cloned()
            .chain(set(&["--help", "--version"]))
            .collect()
    );
    assert_eq!(offered(&["estrenwind", "s"]), set(&["sheet"]));
    assert_eq!(offered(&["estrenwind", "help", "ex"]), set(&["explain"]));
    for command in ["check", "sheet", "explain", "run", "join", "asm", "dis"] {
        assert_eq!(
            offered(&["estrenwind", command, "-"]),
            options_of(command),
            "{command}"
        );
    }
    assert!(offered(&["estrenwind", "run", "--trace", ""]).is_empty());
    assert!(repository().join("README.md").exists());
    assert_eq!(
        offered(&["estrenwind", "check", "READ"]),
        set(&["README.md"])
    );
}
