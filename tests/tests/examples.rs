//! The folders of examples/: what stands in `sheet`, `explanation` and `answers` is what the
//! reference gives for `recipe` and `frames`, a mended recipe's sheet passes, and so does that of a
//! variant, and the README shows every line of them. The programs in C compile, and one prints what a
//! README shows.

use estrenwind_tests::programs::{explain_output, run_output, sheet_output};
use estrenwind_tests::reference::recipe::Way;
use std::fs;
use std::path::{Path, PathBuf};
use std::process::Command;

/// The folders that have a file of this name.
fn folders_with(name: &str) -> Vec<PathBuf> {
    let folder = Path::new(env!("CARGO_MANIFEST_DIR")).join("../examples");
    let entries = fs::read_dir(folder)
        .unwrap()
        .map(|entry| entry.unwrap().path());
    entries.filter(|path| path.join(name).exists()).collect()
}

fn examples() -> Vec<PathBuf> {
    folders_with("recipe")
}

/// Those of a slip, with the recipe mended.
fn slips() -> Vec<PathBuf> {
    folders_with("mended")
}

/// The folder in which a heading is wrapped, to one turn and to the nearest.
fn camera_wrap() -> PathBuf {
    let folders = folders_with("nearest");
    assert_eq!(folders.len(), 1);
    assert!(folders[0].ends_with("camera_wrap"));
    folders[0].clone()
}

fn read(example: &Path, name: &str) -> String {
    let path = example.join(name);
    fs::read_to_string(&path).unwrap_or_else(|error| panic!("{}: {error}", path.display()))
}

fn text(bytes: Vec<u8>) -> String {
    String::from_utf8(bytes).unwrap()
}

/// Two files of a folder hold a recipe's sheet and its answers to the folder's frames.
fn shown_and_answered(example: &Path, recipe: &str, sheet: &str, answers: &str) {
    let [recipe, sheet, frames, answers] =
        [recipe, sheet, "frames", answers].map(|name| read(example, name));
    let shown = text(sheet_output(Way::Exact, recipe.as_bytes()));
    assert_eq!(sheet, shown, "{}", example.display());
    let answered = text(run_output(
        Way::Exact,
        format!("{recipe}\n{frames}").as_bytes(),
    ));
    assert_eq!(answers, answered, "{}", example.display());
    assert_eq!(frames.lines().count(), answers.lines().count());
}

#[test]
fn sheets_explanations_and_answers_are_the_reference_s() {
    assert_eq!(examples().len(), 12);
    for example in examples() {
        shown_and_answered(&example, "recipe", "sheet", "answers");
        let explained = text(explain_output(
            Way::Exact,
            read(&example, "recipe").as_bytes(),
        ));
        assert_eq!(
            read(&example, "explanation"),
            explained,
            "{}",
            example.display()
        );
    }
}

#[test]
fn slips_are_mended() {
    assert_eq!(slips().len(), 5);
    for example in slips() {
        shown_and_answered(&example, "mended", "mended_sheet", "mended_answers");
        assert_ne!(read(&example, "explanation"), "00\n");
        let [mended, sheet] = ["mended", "mended_sheet"].map(|name| read(&example, name));
        assert_eq!(sheet.lines().count(), mended.lines().count(), "it passes");
    }
}

/// The variant by the nearest turn, on the same frames. What its README says of the sheet: bounds of half a turn
/// make its last range narrower, and change no answer.
#[test]
fn the_nearest_turn() {
    let folder = camera_wrap();
    shown_and_answered(&folder, "nearest", "nearest_sheet", "nearest_answers");
    let [nearest, frames, answers] =
        ["nearest", "frames", "nearest_answers"].map(|name| read(&folder, name));
    assert_ne!(answers, read(&folder, "answers"), "it is another function");
    let half = 180f64.to_bits();
    let minus_half = (-180f64).to_bits();
    let bounded = format!(
        "{nearest}030000{minus_half:016x}{:016}\n210203{:032}\n030000{half:016x}{:016}\n200405{:032}\n",
        0, 0, 0, 0
    );
    let sheet = text(sheet_output(Way::Exact, bounded.as_bytes()));
    let narrower = format!("060100{minus_half:016x}{half:016x}");
    assert_eq!(sheet.lines().last(), Some(narrower.as_str()));
    let input = format!("{bounded}\n{frames}");
    assert_eq!(text(run_output(Way::Exact, input.as_bytes())), answers);
}

/// The variant of the texture that is 3000 wide whose coordinate has no end: it differs in its input alone, and there is no sheet.
#[test]
fn the_coordinate_without_an_end() {
    let folders = folders_with("unbounded");
    assert_eq!(folders.len(), 1);
    let [recipe, unbounded, sheet, explanation] = [
        "recipe",
        "unbounded",
        "unbounded_sheet",
        "unbounded_explanation",
    ]
    .map(|name| read(&folders[0], name));
    let steps = |text: &str| text.lines().skip(1).map(str::to_owned).collect::<Vec<_>>();
    assert_eq!(steps(&recipe), steps(&unbounded));
    assert_eq!(sheet, text(sheet_output(Way::Exact, unbounded.as_bytes())));
    assert_eq!(
        explanation,
        text(explain_output(Way::Exact, unbounded.as_bytes()))
    );
    assert_eq!((sheet.trim(), explanation.trim()), ("ff1402", "02000f"));
    let input = unbounded.lines().next().unwrap();
    for shown in [input, sheet.trim(), explanation.trim()] {
        shows(&folders[0], &[shown]);
    }
}

/// The examples in C, built with warnings as errors; one prints the block that the README of the camera's heading shows.
#[test]
fn programs_in_c() {
    let root = Path::new(env!("CARGO_MANIFEST_DIR")).join("..");
    let library = std::env::var_os("ESTRENWIND_LIB_DIR").map_or(root.join("build"), PathBuf::from);
    let readme = read(&camera_wrap(), "README.md");
    for (name, is_shown) in [("roundings", false), ("quadrant", true)] {
        let program = std::env::temp_dir().join(format!("{name}-{}", std::process::id()));
        let compiled = Command::new("gcc")
            .args([
                "-std=c99",
                "-O2",
                "-Wall",
                "-Wextra",
                "-Wpedantic",
                "-Wconversion",
                "-Werror",
            ])
            .arg("-I")
            .arg(root.join("include"))
            .arg(root.join(format!("examples/{name}.c")))
            .arg(library.join("libestrenwind.a"))
            .arg("-o")
            .arg(&program)
            .status()
            .unwrap();
        assert!(compiled.success(), "{name}.c");
        let ran = Command::new(&program).output().unwrap();
        fs::remove_file(&program).unwrap();
        assert!(ran.status.success(), "{name}");
        let printed = text(ran.stdout);
        assert!(printed.lines().count() > 8, "{printed}");
        let block: String = printed
            .lines()
            .map(|line| format!("    {line}\n"))
            .collect();
        assert_eq!(readme.contains(&block), is_shown, "{block}");
    }
}

/// Whether a README has a line with all of these, each in backquotes.
fn shows(example: &Path, words: &[&str]) {
    let shown = read(example, "README.md")
        .lines()
        .any(|line| words.iter().all(|word| line.contains(&format!("`{word}`"))));
    assert!(
        shown,
        "{}: README.md has no line with {words:?}",
        example.display()
    );
}

#[test]
fn every_line_is_explained() {
    for example in examples() {
        let [recipe, sheet, explanation, frames, answers] =
            ["recipe", "sheet", "explanation", "frames", "answers"]
                .map(|name| read(&example, name));
        recipe.lines().for_each(|line| shows(&example, &[line]));
        sheet.lines().for_each(|line| shows(&example, &[line]));
        if explanation != "00\n" {
            shows(&example, &[explanation.trim()]);
        }
        for (frame, answer) in frames.lines().zip(answers.lines()) {
            shows(&example, &[frame, answer]);
        }
    }
    let mended = slips().into_iter().map(|example| (example, "mended"));
    for (example, name) in mended.chain([(camera_wrap(), "nearest")]) {
        let [recipe, sheet, frames, answers] = [
            name,
            &format!("{name}_sheet"),
            "frames",
            &format!("{name}_answers"),
        ]
        .map(|name| read(&example, name));
        let steps = recipe.lines().zip(sheet.lines());
        for (line, other) in steps.chain(frames.lines().zip(answers.lines())) {
            shows(&example, &[line, other]);
        }
    }
}

/// What the README of the two zeros says of its step 2 with the operands exchanged.
#[test]
fn exchanged_operands_of_fmin_give_the_same_answers() {
    let folder = Path::new(env!("CARGO_MANIFEST_DIR")).join("../examples/two_zeros");
    let [recipe, frames, answers] = ["recipe", "frames", "answers"].map(|name| read(&folder, name));
    let [written, exchanged] = ["200001", "200100"].map(|line| format!("{line:0<38}"));
    assert!(read(&folder, "README.md").contains(&exchanged));
    let recipe = recipe.replace(&written, &exchanged);
    assert!(recipe.contains(&exchanged));
    let input = format!("{recipe}\n{frames}");
    assert_eq!(text(run_output(Way::Exact, input.as_bytes())), answers);
}

/// The mark of a step in a sheet that stands in a file.
fn mark(example: &Path, step: usize) -> String {
    let sheet = read(example, "sheet");
    let line = sheet.lines().nth(step).unwrap();
    assert!(line.starts_with(&format!("{step:02x}01")), "a double");
    line[4..6].to_string()
}

/// What the README of the texel for a lookup says beside the index clamp: to bound and then round, or
/// to round and then bound, gives the same doubles, and the first way alone has the mark.
#[test]
fn the_order_of_rounding_and_bounding_matters_to_the_mark() {
    let folder = Path::new(env!("CARGO_MANIFEST_DIR")).join("../examples");
    let [lookup, clamp] = ["texel_lookup", "index_clamp"].map(|name| folder.join(name));
    let frames = read(&lookup, "frames") + &read(&clamp, "frames");
    // Each without what follows the double in question.
    let answers = [(&lookup, 5), (&clamp, 5)].map(|(example, step)| {
        let recipe: String = read(example, "recipe")
            .split_inclusive('\n')
            .take(step + 1)
            .collect();
        text(run_output(
            Way::Exact,
            format!("{recipe}\n{frames}").as_bytes(),
        ))
    });
    assert_eq!(answers[0], answers[1]);
    assert!(answers[0].starts_with("01"), "they are doubles");
    assert_eq!(
        (mark(&lookup, 5), mark(&clamp, 5)),
        ("01".into(), "00".into())
    );
}

/// What the README of the texture that is 3000 wide says: by round the texel is that of floor without the half, at the middles and on
/// the edges of the texels too; by nearbyint it is another on every other edge; and without the bounds it leaves the texture at both ends.
#[test]
fn the_nearest_middle_is_the_texel() {
    let folder = Path::new(env!("CARGO_MANIFEST_DIR")).join("../examples/texture_scale");
    let recipe = read(&folder, "recipe");
    let lines: Vec<&str> = recipe.lines().collect();
    let with = |step: usize, line: &str| -> String {
        let mut lines = lines.clone();
        lines[step] = line;
        lines.join("\n") + "\n"
    };
    let [round, floor, nearbyint] = ["1304", "1002", "1404"].map(|line| format!("{line:0<38}"));
    assert_eq!(lines[5], round);
    let [by_floor, by_nearbyint] = [with(5, &floor), with(5, &nearbyint)];
    // Coordinates whose product with 3000 is exact: k and a half of a texel, for middles and edges, where there is one.
    let exact = (0..=6000u32).map(|halves| f64::from(halves) / 6000.0);
    let frames: Vec<f64> = exact
        .filter(|u| (u * 3000.0 * 2.0).fract() == 0.0)
        .collect();
    let edges = frames.iter().filter(|u| (*u * 3000.0).fract() == 0.0);
    assert!(edges.count() > 1_000, "some of them are edges");
    let input: String = frames
        .iter()
        .map(|u| format!("{:016x}\n", u.to_bits()))
        .collect();
    let answers = |recipe: &str| {
        text(run_output(
            Way::Exact,
            format!("{recipe}\n{input}").as_bytes(),
        ))
    };
    assert_eq!(answers(&recipe), answers(&by_floor));
    let others = answers(&by_nearbyint);
    let differ = others
        .lines()
        .zip(answers(&recipe).lines())
        .filter(|(x, y)| x != y)
        .count();
    assert!(differ > 500, "{differ}");
    // As the README has it: on the edge 3 texel 2, and on the edge 4 texel 4.
    for (u, texel) in [(3.0 / 3000.0, 2), (4.0 / 3000.0, 4)] {
        let frame = format!("{by_nearbyint}\n{:016x}", f64::to_bits(u));
        let answer = text(run_output(Way::Exact, frame.as_bytes()));
        assert_eq!(answer, format!("02{texel:016x}\n"));
    }
    let unbounded = lines[..6].join("\n") + "\n";
    for (u, texel) in [(0.0, -1.0), (1.0, 3000.0)] {
        let frame = format!("{unbounded}\n{:016x}", f64::to_bits(u));
        let answer = text(run_output(Way::Exact, frame.as_bytes()));
        assert_eq!(answer, format!("01{:016x}\n", f64::to_bits(texel)));
    }
}

/// What the READMEs of the two slips with sums and products advise beside their mended recipes: to declare the light finite, or one of two
/// lights narrower.
#[test]
fn one_bound_is_enough_for_lights() {
    let folder = Path::new(env!("CARGO_MANIFEST_DIR")).join("../examples");
    let passes =
        |recipe: &str| !text(sheet_output(Way::Exact, recipe.as_bytes())).starts_with("ff");
    let light = read(&folder.join("light_without_end"), "recipe");
    let finite = light.replace("7ff0000000000000", "40effc0000000000");
    assert!(!passes(&light) && passes(&finite));
    let both = read(&folder.join("two_lights"), "recipe");
    let one = both.replacen("7fefffffffffffff", "40effc0000000000", 1);
    assert!(!passes(&both) && passes(&one));
}

/// What the README of the recipe that is turned down advises: to declare the width from 1, or to
/// keep it there.
#[test]
fn the_remedies_pass() {
    let recipe = text(
        fs::read(Path::new(env!("CARGO_MANIFEST_DIR")).join("../examples/turned_down/recipe"))
            .unwrap(),
    );
    let width = "01000000000000000000004050000000000000\n";
    let from_one = "0100003ff00000000000004050000000000000\n";
    let declared = recipe.replace(width, from_one);
    assert_ne!(declared, recipe);
    assert!(read(Path::new("../examples/turned_down"), "README.md").contains(from_one.trim()));
    let kept = format!(
        "{}0300003ff0000000000000{:016}\n210201{:032}\n220003{:032}\n1004{:034}\n1805{:034}\n",
        &recipe[..78],
        0,
        0,
        0,
        0,
        0
    );
    for (recipe, steps) in [(declared, 5), (kept, 7)] {
        let sheet = text(sheet_output(Way::Exact, recipe.as_bytes()));
        assert_eq!(sheet.lines().count(), steps, "{sheet}");
    }
}
