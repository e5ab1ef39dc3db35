//! The examples in the text form: asm gives their recipes, and their frames in decimal are those in hexadecimal.

use crate::{estrenwind, output_of, repository};
use std::fs;
use std::path::PathBuf;

fn folders_with(name: &str) -> Vec<PathBuf> {
    let entries = fs::read_dir(repository().join("examples")).unwrap();
    let folders = entries.map(|entry| entry.unwrap().path());
    folders
        .filter(|folder| folder.join(name).exists())
        .collect()
}

#[test]
fn text_forms_are_the_recipes() {
    for (name, folders) in [
        ("recipe", 12),
        ("mended", 5),
        ("nearest", 1),
        ("unbounded", 1),
    ] {
        let found = folders_with(name);
        assert_eq!(found.len(), folders);
        for folder in found {
            let source = folder.join(format!("{name}.ew"));
            let recipe = fs::read_to_string(folder.join(name)).unwrap();
            assert_eq!(output_of(&["asm", source.to_str().unwrap()], ""), recipe);
            let shown: String = fs::read_to_string(&source)
                .unwrap()
                .lines()
                .map(|line| format!("    {line}\n"))
                .collect();
            let readme = fs::read_to_string(folder.join("README.md")).unwrap();
            assert!(
                readme.contains(&shown),
                "{}: README.md has another {name}.ew",
                folder.display()
            );
        }
    }
}

/// What the README of the texture that is 3000 wide shows of the command, for the variant that is refused.
#[test]
fn the_refused_variant_is_explained() {
    let ran = estrenwind(&["explain", "examples/texture_scale/unbounded.ew"], "");
    assert_eq!((ran.status, ran.errors.as_str()), (3, ""));
    let shown: String = ran
        .output
        .lines()
        .map(|line| format!("    {line}").trim_end().to_owned() + "\n")
        .collect();
    let readme = repository().join("examples/texture_scale/README.md");
    assert!(shown.lines().count() > 6, "{shown}");
    assert!(
        fs::read_to_string(readme).unwrap().contains(&shown),
        "{shown}"
    );
}

/// dis keeps the names of a text form, and asm of it is the same recipe.
#[test]
fn names_are_kept() {
    for folder in folders_with("recipe") {
        let source = folder.join("recipe.ew");
        let shown = output_of(&["dis", source.to_str().unwrap()], "");
        let text = fs::read_to_string(&source).unwrap();
        let names = |text: &str| -> Vec<String> {
            let lines = text
                .lines()
                .filter_map(|line| line.split('#').next()?.split_once('='));
            lines.map(|(name, _)| name.trim().to_owned()).collect()
        };
        assert_eq!(names(&shown), names(&text));
        let recipe = fs::read_to_string(folder.join("recipe")).unwrap();
        assert_eq!(output_of(&["asm", "-"], shown), recipe);
    }
}

/// A decimal answer says what the hexadecimal one does.
#[test]
fn decimal_frames_have_the_same_answers() {
    let with = |recipe: &str, answers: &str| {
        let both = (format!("{recipe}.ew"), answers.to_owned());
        folders_with(recipe)
            .into_iter()
            .map(move |folder| (folder, both.clone()))
    };
    let all = with("recipe", "answers")
        .chain(with("mended", "mended_answers"))
        .chain(with("nearest", "nearest_answers"));
    for (folder, (recipe, answers)) in all {
        let file = |name: &str| folder.join(name).to_str().unwrap().to_owned();
        let decimal = estrenwind(
            &[
                "run",
                "--quiet",
                "--decimal",
                &file(&recipe),
                &file("frames.txt"),
            ],
            "",
        );
        let answers = fs::read_to_string(folder.join(answers)).unwrap();
        assert_eq!(decimal.output.lines().count(), answers.lines().count());
        for (shown, answer) in decimal.output.lines().zip(answers.lines()) {
            match &answer[..2] {
                "01" => {
                    let bits = shown.parse::<f64>().unwrap().to_bits();
                    assert_eq!(format!("01{bits:016x}"), answer);
                }
                "02" => assert_eq!(format!("02{:016x}", shown.parse::<i64>().unwrap()), answer),
                _ => {
                    let number = u64::from_str_radix(&answer[2..4], 16).unwrap();
                    assert!(
                        shown.starts_with(&format!("refused {number} at ")),
                        "{shown}"
                    );
                }
            }
        }
    }
}

/// `make demo` shows every example, whatever becomes of it.
#[test]
fn the_demonstration_shows_every_example() {
    let command = crate::built("estrenwind");
    for folder in folders_with("recipe") {
        let script = repository().join("examples/demo.sh");
        let ran = crate::run_program(
            "sh".as_ref(),
            &[script.as_os_str(), command.as_os_str(), folder.as_os_str()],
            b"",
        );
        assert_eq!(ran.status, 0, "{}", ran.errors);
        assert!(
            ran.output.contains("estrenwind sheet ") && ran.output.contains("estrenwind run "),
            "{}",
            ran.output
        );
    }
}
