//! How the command ends, what `--version` and `--help` say, and that colour is for terminals.

use crate::{built, estrenwind, fits_80_columns, output_of, repository, run_program};
use std::fs;

const PASSES: &str = "u = input 0 .. 1\nn = lround u\n";
const NO_SHEET: &str = "u = input 0 .. 1\nx = fmod u u\n";
const UNREAD: &str = "u = inputt 0 .. 1\n";

#[test]
fn statuses_of_recipes() {
    for (command, passes, no_sheet) in [
        ("check", 0, 3),
        ("sheet", 0, 3),
        ("explain", 0, 3),
        ("asm", 0, 0),
        ("dis", 0, 0),
    ] {
        assert_eq!(
            estrenwind(&[command, "-"], PASSES).status,
            passes,
            "{command}"
        );
        assert_eq!(
            estrenwind(&[command, "-"], NO_SHEET).status,
            no_sheet,
            "{command}"
        );
        let unread = estrenwind(&[command, "-"], UNREAD);
        assert_eq!(
            (unread.status, unread.output.as_str()),
            (3, ""),
            "{command}"
        );
        let missing = estrenwind(&[command, "no/such/file"], "");
        assert_eq!(missing.status, 74, "{command}");
        assert_eq!(
            missing.errors,
            "estrenwind: cannot read no/such/file: No such file or directory\n"
        );
        let folder = estrenwind(&[command, "examples"], "");
        assert_eq!(folder.status, 74, "{command}");
        assert_eq!(
            folder.errors,
            "estrenwind: cannot read examples: Is a directory\n"
        );
    }
    let endless = estrenwind(&["check", "/dev/zero"], "");
    assert_eq!(
        (endless.status, endless.errors.as_str()),
        (3, "/dev/zero: over 1 MiB, and no recipe is that long\n")
    );
}

#[test]
fn check_goes_on_after_a_recipe_that_is_not_read() {
    let good = "examples/texture_index/recipe.ew";
    let ran = estrenwind(&["check", good, "README.md", good], "");
    assert_eq!(ran.status, 3);
    assert_eq!(
        ran.output,
        format!("{good}: 6 steps, 1 input; the sheet passes\n").repeat(2)
    );
    assert!(ran.errors.starts_with("README.md:"), "{}", ran.errors);
    let ran = estrenwind(&["check", "no/such/file", good, "neither/this"], "");
    assert_eq!(ran.status, 74);
    assert_eq!(ran.output.lines().count(), 1);
    assert_eq!(ran.errors.lines().count(), 2, "{}", ran.errors);
}

#[test]
fn statuses_of_runs() {
    let recipe = "examples/texture_index/recipe.ew";
    let run = |input: &str| estrenwind(&["run", recipe], input).status;
    assert_eq!(run("3fe0000000000000\n"), 0);
    assert_eq!(run(""), 0);
    assert_eq!(run("3fe0000000000000\n7ff8000000000000\n"), 1);
    assert_eq!(run("bfe000000000000\n"), 1);
    assert_eq!(
        estrenwind(&["run", "README.md", "examples/texture_index/frames"], "").status,
        3
    );
    assert_eq!(estrenwind(&["run", recipe, "no/such/file"], "").status, 74);
}

#[test]
fn usage_is_2_and_says_what_is_wrong() {
    for (arguments, words) in [
        (&[][..], "no command"),
        (&["shet", "x"], "did you mean sheet?"),
        (&["sheet"], "needs a file"),
        (&["sheet", "--jsom", "x"], "did you mean --json?"),
        (&["run", "-"], "standard input"),
        (&["run", "x", "--shard", "3/2"], "--shard needs I/N"),
        (&["run", "x", "--trace", "0"], "from 1"),
        (&["asm", "x", "-o"], "needs a value"),
    ] {
        let ran = estrenwind(arguments, "");
        assert_eq!((ran.status, ran.output.as_str()), (2, ""), "{arguments:?}");
        assert!(
            ran.errors.starts_with("estrenwind: ") && ran.errors.contains(words),
            "{}",
            ran.errors
        );
        assert!(ran.errors.contains("estrenwind help"), "{}", ran.errors);
        fits_80_columns(&ran.errors);
    }
}

#[test]
fn help_and_version() {
    let header = fs::read_to_string(repository().join("include/estrenwind.h")).unwrap();
    let (_, rest) = header.split_once("#define EW_VERSION \"").unwrap();
    let (version, _) = rest.split_once('"').unwrap();
    assert_eq!(
        output_of(&["--version"], ""),
        format!("estrenwind {version}\n")
    );
    let general = output_of(&["--help"], "");
    assert!(general.contains("What is proved"));
    for command in ["check", "sheet", "explain", "run", "join", "asm", "dis"] {
        assert!(general.contains(&format!("\n  {command} ")), "{command}");
        let help = output_of(&["help", command], "");
        assert_eq!(help, output_of(&[command, "--help"], ""));
        assert!(help.starts_with(&format!("usage: estrenwind {command} ")));
        assert!(help.contains("Exit status: 0"));
        fits_80_columns(&help);
    }
    fits_80_columns(&general);
}

#[test]
fn no_colour_where_there_is_no_terminal() {
    for arguments in [&["check", "-"][..], &["explain", "-"], &["sheet", "-"]] {
        for text in [PASSES, NO_SHEET, UNREAD] {
            let ran = estrenwind(arguments, text);
            assert!(!ran.output.contains('\u{1b}') && !ran.errors.contains('\u{1b}'));
        }
    }
}

/// What a program reads: a sheet that passes, infinities, large whole numbers and a double without a fraction in it, and one that is refused.
#[test]
fn json() {
    let ran = estrenwind(
        &["sheet", "--json", "-"],
        "u = input -inf .. 1\nn = constant whole 9223372036854775807\nx = negate u\nk = constant -0\n",
    );
    assert_eq!(ran.status, 0);
    let expected = "{\"file\": \"standard input\", \"passed\": true, \"steps\": [\n  \
        {\"step\": 0, \"name\": \"u\", \"operation\": \"input\", \"operands\": [], \"kind\": \"double\", \"whole\": false, \"low\": \"-inf\", \"high\": \"1\", \
        \"low_bits\": \"fff0000000000000\", \"high_bits\": \"3ff0000000000000\"},\n  \
        {\"step\": 1, \"name\": \"n\", \"operation\": \"constant whole\", \"operands\": [], \"kind\": \"whole\", \"whole\": true, \"low\": \"9223372036854775807\", \
        \"high\": \"9223372036854775807\", \"low_bits\": \"7fffffffffffffff\", \"high_bits\": \"7fffffffffffffff\"},\n  \
        {\"step\": 2, \"name\": \"x\", \"operation\": \"negate\", \"operands\": [\"u\"], \"kind\": \"double\", \"whole\": false, \"low\": \"-1\", \"high\": \"inf\", \
        \"low_bits\": \"bff0000000000000\", \"high_bits\": \"7ff0000000000000\"},\n  \
        {\"step\": 3, \"name\": \"k\", \"operation\": \"constant\", \"operands\": [], \"kind\": \"double\", \"whole\": true, \"low\": \"-0\", \"high\": \"-0\", \
        \"low_bits\": \"8000000000000000\", \"high_bits\": \"8000000000000000\"}\n]}\n";
    assert_eq!(ran.output, expected);
    let refused = estrenwind(&["sheet", "--json", "-"], NO_SHEET);
    assert_eq!(refused.status, 3);
    assert_eq!(
        refused.output,
        "{\"file\": \"standard input\", \"passed\": false, \"refusal\": {\"number\": 20, \"step\": 1, \"name\": \"x\", \"words\": \
         \"fmod by u, whose range 0 .. 1 holds zero\", \"mend\": [\"declare u from 1\", \"put fmax u 1 before it\"]}}\n"
    );
}

/// A recipe that is refused has nothing to write, so that a standard output that is closed takes nothing from what is said.
#[test]
fn a_refusal_is_told_without_an_output() {
    let command = built("estrenwind");
    for (text, words) in [(NO_SHEET, "holds zero"), (UNREAD, "no operation inputt")] {
        let script = format!("'{}' sheet - >&-", command.display());
        let ran = run_program(
            "sh".as_ref(),
            &["-c".as_ref(), script.as_ref()],
            text.as_bytes(),
        );
        assert_eq!(ran.status, 3, "{}", ran.errors);
        assert!(ran.errors.contains(words), "{}", ran.errors);
    }
    let script = format!("'{}' sheet - >&-", command.display());
    let ran = run_program(
        "sh".as_ref(),
        &["-c".as_ref(), script.as_ref()],
        PASSES.as_bytes(),
    );
    assert_eq!(ran.status, 74);
    assert!(
        ran.errors.contains("cannot write standard output"),
        "{}",
        ran.errors
    );
}
