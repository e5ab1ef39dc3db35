//! What the command prints, to the byte, in 80 columns: stored under `golden/`, one file for each example and one for slips.
//!
//! With ESTRENWIND_GOLDEN=write in the environment the files are written anew, to be read before they are committed.

use crate::{estrenwind, fits_80_columns, Ran};
use std::fs;
use std::path::{Path, PathBuf};

fn golden(name: &str) -> PathBuf {
    Path::new(env!("CARGO_MANIFEST_DIR")).join(format!("tests/text_form/golden/{name}.txt"))
}

/// A command as one would type it, and all that came of it.
fn shown(arguments: &[&str], ran: Ran) -> String {
    let errors: String = ran
        .errors
        .lines()
        .map(|line| format!("! {line}\n"))
        .collect();
    format!(
        "$ estrenwind {}\n{}{errors}[{}]\n\n",
        arguments.join(" "),
        ran.output,
        ran.status
    )
}

#[track_caller]
fn compare(name: &str, text: &str) {
    let path = golden(name);
    if std::env::var_os("ESTRENWIND_GOLDEN").is_some_and(|value| value == "write") {
        fs::create_dir_all(path.parent().unwrap()).unwrap();
        fs::write(&path, text).unwrap();
    }
    let stored =
        fs::read_to_string(&path).unwrap_or_else(|error| panic!("{}: {error}", path.display()));
    if stored != text {
        let place = stored
            .lines()
            .zip(text.lines())
            .take_while(|(x, y)| x == y)
            .count();
        panic!(
            "{} differs from line {} on:\nstored: {:?}\nnow:    {:?}",
            path.display(),
            place + 1,
            stored.lines().nth(place),
            text.lines().nth(place)
        );
    }
}

#[test]
fn examples() {
    let names = [
        "camera_wrap",
        "divisor_through_zero",
        "index_clamp",
        "ldexp_out_of_range",
        "light_without_end",
        "texel_lookup",
        "texture_index",
        "texture_scale",
        "turned_down",
        "two_lights",
        "two_zeros",
        "whole_too_big",
    ];
    for name in names {
        let file = |file: &str| format!("examples/{name}/{file}");
        let [source, recipe, frames, decimal] =
            ["recipe.ew", "recipe", "frames", "frames.txt"].map(file);
        let commands: [&[&str]; 9] = [
            &["check", &source],
            &["sheet", &source],
            &["sheet", "--hex", &source],
            &["explain", &source],
            &["dis", &recipe],
            &["run", "--quiet", &source, &frames],
            &["run", "--quiet", "--decimal", &source, &decimal],
            &["run", "--trace", "1", &source, &frames],
            &["run", "--trace", "3", "--decimal", &source, &decimal],
        ];
        compare(name, &all_shown(&commands, ""));
    }
}

/// Each command with these arguments, and what came of it, in 80 columns.
fn all_shown(commands: &[&[&str]], input: &str) -> String {
    let one = |arguments: &&[&str]| {
        let ran = estrenwind(arguments, input);
        fits_80_columns(&ran.output);
        fits_80_columns(&ran.errors);
        shown(arguments, ran)
    };
    commands.iter().map(one).collect()
}

/// The nearest remainder: its variant of the camera's heading, and what is said where it is refused, of a recipe and of a frame.
#[test]
fn nearest_remainder() {
    let file = |file: &str| format!("examples/camera_wrap/{file}");
    let [source, recipe, frames, decimal] =
        ["nearest.ew", "nearest", "frames", "frames.txt"].map(file);
    let mut text = all_shown(
        &[
            &["check", &source],
            &["sheet", &source],
            &["dis", &recipe],
            &["run", "--quiet", &source, &frames],
            &["run", "--quiet", "--decimal", &source, &decimal],
            &["run", "--trace", "8", "--decimal", &source, &decimal],
        ],
        "",
    );
    for recipe in [
        "u = input -4096 .. 4096\nw = input 0 .. 64\nx = remainder u w\n",
        "u = input -inf .. 1\nx = remainder u 360\n",
        "u = input 1 .. inf\nv = negate u\nx = remainder u v\n",
        "x = remainder 1 0\n",
    ] {
        text += recipe;
        text += &all_shown(&[&["check", "-"], &["explain", "-"]], recipe);
    }
    let folder = std::env::temp_dir().join(format!("estrenwind-nearest-{}", std::process::id()));
    fs::create_dir_all(&folder).unwrap();
    let path = folder.join("tile.ew");
    fs::write(&path, "u = input -inf .. inf\nx = remainder u 360\n").unwrap();
    let path = path.to_str().unwrap();
    let frames = "350\n-inf\n-540\n";
    let ran = all_shown(
        &[
            &["run", "--quiet", "--decimal", path],
            &["run", "--trace", "2", "--decimal", path],
        ],
        frames,
    );
    fs::remove_dir_all(&folder).unwrap();
    text += &ran.replace(path, "tile.ew");
    compare("nearest_remainder", &text);
}

/// Sums and products of doubles: what is said where one is refused, for each reason, of a recipe and of a frame; and the table that shows which
/// are whole.
#[test]
fn sums_and_products() {
    let mut text = String::new();
    for recipe in [
        "u = input -inf .. 1\nx = add u 0.5\n",
        "u = input 1 .. inf\nx = multiply u 3000\n",
        "u = input 0 .. 1\nv = input -inf .. 0\nx = subtract u v\n",
        "u = input 0 .. 1\nv = input -inf .. 1\nw = negate v\nx = multiply u w\n",
        "u = input -1e308 .. 0\nv = input 0 .. 1e308\nx = subtract u v\n",
        "key = input 0 .. 1e308\nfill = input 0 .. 1e308\nboth = add key fill\n",
        // Neither operand alone is to blame.
        "u = input 0 .. inf\nv = input -inf .. inf\nx = add u v\n",
        "u = input 0 .. inf\nv = input 0 .. inf\nw = negate u\nx = add v w\n",
        // One step as A and B.
        "u = input -inf .. inf\nx = add u u\n",
        "u = input 0 .. 1e200\nv = floor u\nx = multiply v v\n",
        // Constants.
        "x = add inf 1\n",
        "x = multiply -1e308 1e308\n",
    ] {
        text += recipe;
        text += &all_shown(&[&["check", "-"], &["explain", "-"]], recipe);
    }
    let folder = std::env::temp_dir().join(format!("estrenwind-sums-{}", std::process::id()));
    fs::create_dir_all(&folder).unwrap();
    let path = folder.join("lights.ew");
    let recipe = "u = input -inf .. inf\nv = input -inf .. inf\nx = add u v\ny = subtract u v\nz = multiply x y\n";
    fs::write(&path, recipe).unwrap();
    let path = path.to_str().unwrap();
    let frames = "0.1 0.2\n-inf inf\n1e308 -1e308\n1e200 1\n-0 -0\n";
    let ran = all_shown(
        &[
            &["run", "--quiet", "--decimal", path],
            &["run", "--trace", "2", "--decimal", path],
            &["run", "--trace", "3", "--decimal", path],
            &["run", "--trace", "5", "--decimal", path],
        ],
        frames,
    );
    fs::remove_dir_all(&folder).unwrap();
    text += &ran.replace(path, "lights.ew");
    let whole = "u = input -8.5 .. 8.5\nn = nearbyint u\nright = add n 1\nleft = subtract n 1\nrow = multiply n right\nnone = multiply n 0.5\n";
    text += whole;
    text += &all_shown(&[&["sheet", "-"], &["dis", "-"]], whole);
    compare("sums_and_products", &text);
}

/// Each text, and what check says of it.
#[test]
fn slips_in_the_text_form() {
    let texts = [
        "u = input 0 .. 1\nwidth = input 1 .. 64\nx = fmod u widht\ny = flor x\n",
        "u = input 0 .. 1\nx = remaindr u 0.25\ny = remainder u\nz = rem u 0.25\n",
        "u = input 0 .. 1\nu = input 1 .. 2\n",
        "y = floor u\nu = input 0 .. 1\n",
        "u = input 1 .. 0\n",
        "u = input 0 .. 1\nn = sum u 1\n",
        "u = input 0 .. 1\nx = mul u 3000\ny = plus u 0.5\nz = sub u 0.5\nw = multiply u\n",
        "n = input whole 0 .. 1\nm = add n 1\nk = n - 1\n",
        "u = input 0 .. 1\nx = u * 3000\ny = 1e-3*u\nz = u+u\n",
        "u = input 0 .. 1\nx = ldexp u 0.5\n",
        "half = 0.5\n",
        "u = input 0 .. 1\nx = max(u, 0.5)\n",
        "u = input 0 .. 1e400\n",
        "u = input 0x1.00000000000001p0 .. 2\n",
        "a_name_that_is_much_longer_than_it_needs_to_be = input 0 .. 1\n",
        "u = input 0 .. 1\nanswer = lround u u u u u u u u u u u u u u u u u u u u u u u u u u u u u u u u u u\n",
        "# nothing but words\n",
        "caf\u{e9} = input 0 .. 1\n",
    ];
    let text: String = texts
        .iter()
        .map(|text| {
            let ran = estrenwind(&["check", "-"], text);
            fits_80_columns(&ran.errors);
            format!("{text}{}", shown(&["check", "-"], ran))
        })
        .collect();
    compare("slips", &text);
}

/// Ranges and names as wide as they can be.
#[test]
fn wide_tables() {
    let long = "n".repeat(29);
    let recipe = format!(
        "{long}1 = input -2.2250738585072014e-308 .. 1.7976931348623157e308\n\
         {long}2 = input whole -4611686018427387904 .. 4611686018427387903\n\
         {long}3 = fmax {long}1 -1.2345678901234567e-300\n\
         {long}4 = difference {long}2 {long}2\n\
         short = fmin {long}1 {long}3\n"
    );
    let text: String = [&["sheet", "-"][..], &["dis", "-"]]
        .into_iter()
        .map(|arguments| {
            let ran = estrenwind(arguments, &recipe);
            if arguments[0] == "sheet" {
                fits_80_columns(&ran.output);
            }
            shown(arguments, ran)
        })
        .collect();
    compare("wide", &text);
}
