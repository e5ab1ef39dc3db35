//! What dis writes of a recipe, asm makes the same recipe of, to the byte; and the sheet of either form is that of the program `sheet`.

use crate::{built, estrenwind, output_of, run_program};
use estrenwind_tests::patterns::Random;
use estrenwind_tests::recipes::faults::damaged;
use estrenwind_tests::recipes::{RunCall, SheetCall};
use estrenwind_tests::reference::recipe::{text, Way};
use std::collections::BTreeMap;

/// The recipes of the tests of runs and of sheets, with no fault in their texts.
fn recipe(random: &mut Random) -> Vec<u8> {
    match random.below(3) {
        0 => damaged::<SheetCall>(random, &[]).0.text,
        1 => {
            let refused = 20 + random.below(3);
            damaged::<RunCall>(random, &[refused]).0.text
        }
        _ => damaged::<RunCall>(random, &[]).0.text,
    }
}

#[test]
fn dis_then_asm_is_the_same_recipe() {
    let mut random = Random::new(71);
    let (mut opcodes, mut folded) = (BTreeMap::new(), 0);
    for _ in 0..1_500 {
        let recipe = recipe(&mut random);
        let steps = text::steps(Way::Short, &recipe).expect("it is read");
        let form = output_of(&["dis", "-"], &recipe);
        let again = output_of(&["asm", "-"], &form);
        assert_eq!(again.as_bytes(), recipe, "{form}");
        for step in &steps {
            *opcodes.entry(step.operation.opcode).or_insert(0) += 1;
        }
        folded += steps.len() - form.lines().count();
    }
    assert_eq!(opcodes.len(), 24, "{opcodes:?}");
    assert!(opcodes.values().all(|&count| count >= 200), "{opcodes:?}");
    assert!(folded > 500, "{folded} constants stand among operands");
}

#[test]
fn sheets_in_hexadecimal_are_the_program_s() {
    let mut random = Random::new(72);
    let (mut passed, mut refused) = (0, 0);
    for _ in 0..600 {
        let recipe = recipe(&mut random);
        let expected = run_program(&built("sheet"), &[], &recipe).output;
        let ran = estrenwind(&["sheet", "--hex", "-"], &recipe);
        assert_eq!(ran.output, expected);
        if expected.starts_with("ff") {
            assert_eq!(ran.status, 3);
            assert!(ran.errors.contains("no sheet: refused 2"), "{}", ran.errors);
            refused += 1;
        } else {
            assert_eq!((ran.status, ran.errors.as_str()), (0, ""));
            passed += 1;
        }
    }
    assert!(passed >= 100 && refused >= 100, "{passed} and {refused}");
}

/// Texts that are nearly recipes, and bytes that are nothing: each ends with a status that says what became of it, and none breaks the
/// command.
#[test]
fn noise_is_refused_in_words() {
    let mut random = Random::new(73);
    let (mut good, mut bad) = (0, 0);
    for turn in 0..800 {
        let mut bytes = match turn % 3 {
            0 => recipe(&mut random),
            1 => output_of(&["dis", "-"], recipe(&mut random)).into_bytes(),
            _ => (0..random.below(300))
                .map(|_| random.below(256) as u8)
                .collect(),
        };
        for _ in 0..1 + random.below(3) {
            let place = random.below(bytes.len() as u64 + 1) as usize;
            match random.below(4) {
                0 => bytes.truncate(place),
                1 => bytes.insert(place, b" =.#\n\r-xe0"[random.below(10) as usize]),
                2 if place < bytes.len() => bytes[place] = random.below(256) as u8,
                _ if place < bytes.len() => drop(bytes.remove(place)),
                _ => {}
            }
        }
        let ran = estrenwind(&["asm", "-"], &bytes);
        match ran.status {
            0 => {
                good += 1;
                let expected = text::steps(Way::Short, ran.output.as_bytes());
                assert!(expected.is_ok(), "asm wrote what is no recipe");
                assert_eq!(ran.errors, "");
            }
            3 => {
                bad += 1;
                assert_eq!(ran.output, "");
                assert!(ran.errors.starts_with("standard input:"), "{}", ran.errors);
                assert!(ran.errors.contains("\n help: "), "{}", ran.errors);
            }
            other => panic!("status {other}: {}", ran.errors),
        }
    }
    assert!(good >= 20 && bad >= 300, "{good} and {bad}");
}
