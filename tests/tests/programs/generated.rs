//! Files as the tests of recipes make them: recipes of 1 to 128 steps, whole and damaged, with frames
//! for them, whole and damaged.

use crate::{EXPLAIN, RUN, SHEET};
use estrenwind_tests::patterns::Random;
use estrenwind_tests::recipes::faults::{damaged, EXPLAIN_REFUSALS};
use estrenwind_tests::recipes::growing::grow_marked;
use estrenwind_tests::recipes::reasons::{FACTS, PLACES};
use estrenwind_tests::recipes::{frame, Call, ExplainCall, RunCall, SheetCall};
use estrenwind_tests::reference::recipe::{text, Step, Way};
use std::collections::BTreeMap;

/// The refusals of a text.
const OF_TEXTS: [u64; 8] = [10, 11, 12, 13, 14, 15, 16, 17];

/// The refusals of a sheet that has room.
const OF_SHEETS: [u64; 11] = EXPLAIN_REFUSALS;

/// A recipe, one in four of them damaged. One with a step that refuses comes with its frame.
fn recipe(random: &mut Random) -> (Vec<u8>, Vec<u8>) {
    let fault = match random.below(8) {
        0 | 1 => vec![OF_TEXTS[random.below(8) as usize]],
        2 | 3 => vec![20 + random.below(3)],
        _ => vec![],
    };
    let (call, _) = damaged::<RunCall>(random, &fault);
    (call.text, call.frame)
}

fn a_frame(random: &mut Random, steps: &[Step]) -> Vec<u8> {
    let mut words = random.input_words(steps);
    let fault = random.below(12);
    if fault == 0 {
        random.put_one_outside(steps, &mut words);
    }
    let mut frame = frame(&words);
    match fault {
        1 if !frame.is_empty() => {
            let place = random.below(frame.len() as u64) as usize;
            frame[place] = b"gA\r \0\xff/:"[random.below(8) as usize];
        }
        2 => frame.push(b'0'),
        3 => drop(frame.pop()),
        4 => frame.resize([0, 255, 256, 257, 258, 600][random.below(6) as usize], b'0'),
        _ => {}
    }
    frame
}

/// A recipe, mostly an empty line, and frames, the last of them with or without its line feed.
fn file(random: &mut Random) -> Vec<u8> {
    let (mut file, frame) = recipe(random);
    let steps = text::steps(Way::Short, &file).unwrap_or_default();
    if random.below(16) > 0 {
        file.push(b'\n');
    }
    let frames = match random.below(8) {
        0 => 0,
        1 => 1,
        2 => 300,
        _ => random.below(60),
    };
    for _ in 0..frames {
        file.extend(match random.below(6) {
            0 => frame.clone(),
            _ => a_frame(random, &steps),
        });
        file.push(b'\n');
    }
    if random.below(4) == 0 {
        file.pop();
    }
    file
}

/// How often each refusal is a line of the output; a line with a kind counts under the kind.
fn count(output: &[u8], counts: &mut BTreeMap<u64, u64>) {
    for line in output.split_inclusive(|&byte| byte == b'\n') {
        let digits = if line.starts_with(b"ff") {
            &line[2..4]
        } else {
            &line[..2]
        };
        let number = u64::from_str_radix(std::str::from_utf8(digits).unwrap(), 16).unwrap();
        *counts.entry(number).or_default() += 1;
    }
}

#[test]
fn runs() {
    let mut random = Random::new(61);
    let mut counts = BTreeMap::new();
    for _ in 0..1_200 {
        count(&RUN.check(Way::Short, &file(&mut random)), &mut counts);
    }
    for (number, least) in [(1, 5_000), (2, 5_000), (30, 2_000), (31, 500), (32, 500)]
        .into_iter()
        .chain([20, 21, 22].map(|number| (number, 100)))
        .chain(OF_TEXTS.map(|number| (number, 10)))
    {
        let found = counts.get(&number).copied().unwrap_or_default();
        assert!(found >= least, "{number} came up {found} times: {counts:?}");
    }
}

/// How often each pair of kind and mark is on the lines of a sheet.
fn count_marks(sheet: &[u8], counts: &mut BTreeMap<[u8; 4], u64>) {
    for line in sheet.split_inclusive(|&byte| byte == b'\n') {
        let kind_and_mark = line[2..6].try_into().expect("four digits");
        *counts.entry(kind_and_mark).or_default() += 1;
    }
}

#[test]
fn sheets_with_many_marks() {
    let mut random = Random::new(64);
    let mut counts = BTreeMap::new();
    for _ in 0..400 {
        let plan = random.plan();
        let (draft, _) = grow_marked(&mut random, &plan);
        let output = SHEET.check(Way::Short, &draft.sheet_call().text);
        count_marks(&output, &mut counts);
    }
    let kinds_and_marks: Vec<[u8; 4]> = counts.keys().copied().collect();
    assert_eq!(kinds_and_marks, [*b"0100", *b"0101", *b"0201"]);
    assert!(counts.values().all(|&count| count >= 1_000), "{counts:?}");
}

#[test]
fn sheets() {
    let mut random = Random::new(62);
    let (mut passed, mut counts) = (0, BTreeMap::new());
    for turn in 0..1_200 {
        let fault = match turn % 2 {
            0 => vec![],
            _ => vec![OF_SHEETS[random.below(11) as usize]],
        };
        let (call, _) = damaged::<SheetCall>(&mut random, &fault);
        let output = SHEET.check(Way::Short, &call.text);
        if output.starts_with(b"ff") {
            count(&output, &mut counts);
        } else {
            passed += 1;
        }
    }
    assert!(passed >= 500, "{passed} sheets passed: {counts:?}");
    for number in OF_SHEETS {
        let found = counts.get(&number).copied().unwrap_or_default();
        assert!(found >= 10, "{number} came up {found} times: {counts:?}");
    }
}

/// Recipes as for a sheet, and ones that are turned down for every set of facts that can be true at
/// once.
#[test]
fn explanations() {
    let mut random = Random::new(63);
    let (mut reasons, mut refusals) = (BTreeMap::new(), BTreeMap::new());
    let mut check = |text: &[u8]| {
        let output = EXPLAIN.check(Way::Short, text);
        match output.len() {
            7 if output.starts_with(b"ff") => count(&output, &mut refusals),
            // The step and the operand's stand before the code.
            7 => count(&output[4..], &mut reasons),
            _ => count(&output, &mut reasons),
        }
    };
    for turn in 0..800 {
        let fault = match turn % 2 {
            0 => vec![],
            _ => vec![OF_SHEETS[random.below(11) as usize]],
        };
        check(&damaged::<ExplainCall>(&mut random, &fault).0.text);
    }
    for turn in 0..15 {
        for facts in &FACTS {
            let place = PLACES[random.below(3) as usize];
            let same = facts.of_one_step && turn % 3 == 0;
            check(&random.turned_down(facts, place, same).0.explain_call().text);
        }
    }
    for (number, least) in [(0, 300)]
        .into_iter()
        .chain(ExplainCall::REASONS.iter().map(|&reason| (reason, 15)))
    {
        let found = reasons.get(&number).copied().unwrap_or_default();
        assert!(
            found >= least,
            "{number:x} came up {found} times: {reasons:?}"
        );
    }
    for number in OF_TEXTS {
        let found = refusals.get(&number).copied().unwrap_or_default();
        assert!(found >= 10, "{number} came up {found} times: {refusals:?}");
    }
}
