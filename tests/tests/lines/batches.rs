//! Batch after batch, going on from what was read with fresh memory: the joined answers are what the
//! program `run` writes for the whole input. The library's answers alone stand beside `programs`.

use estrenwind_tests::patterns::Random;
use estrenwind_tests::programs::run_output;
use estrenwind_tests::recipes::comparison::Outcome;
use estrenwind_tests::recipes::{Call, LinesCall};
use estrenwind_tests::reference::recipe::Way;

/// What the program writes for a recipe, an empty line, and these lines.
fn program(text: &[u8], lines: &[u8]) -> Vec<u8> {
    run_output(Way::Short, &[text, b"\n", lines].concat())
}

/// Answers the whole lines of `rest` and leaves the others in it: one call after the other, each
/// over memory of the next length. A call reads and writes something if a line is there.
fn answer(text: &[u8], rest: &mut Vec<u8>, room: &mut dyn FnMut() -> usize) -> Vec<u8> {
    let mut joined = Vec::new();
    loop {
        let call = LinesCall {
            text: text.to_vec(),
            lines: rest.clone(),
            lent: room(),
        };
        let Outcome { answer, memory } = Outcome::library(&call);
        assert_eq!(answer.refusal, 0, "{call}");
        let (read, written) = (answer.read as usize, answer.written as usize);
        let line_is_there = rest.contains(&b'\n');
        assert_eq!(
            (read > 0, written > 0),
            (line_is_there, line_is_there),
            "{call}"
        );
        joined.extend(&memory[LinesCall::BEFORE..][..written]);
        rest.drain(..read);
        if read == 0 {
            return joined;
        }
    }
}

#[track_caller]
fn assert_same(joined: &[u8], expected: &[u8], text: &[u8], lines: &[u8]) {
    if joined != expected {
        let call = LinesCall {
            text: text.to_vec(),
            lines: lines.to_vec(),
            lent: 0,
        };
        let [joined, expected] = [joined, expected].map(|bytes| {
            let bytes = bytes.escape_ascii().to_string();
            bytes.replace("\\n", "\n")
        });
        panic!("{joined}\nexpected:\n{expected}\n{call}");
    }
}

/// A recipe that passes, and lines for it. One in four has a step that refuses.
fn input(random: &mut Random) -> [Vec<u8>; 2] {
    let fault = match random.below(4) {
        0 => vec![20 + random.below(3)],
        _ => vec![],
    };
    let recipe = random.recipe(&fault);
    let count = random.below(40);
    [random.lines(&recipe, count), recipe.text]
}

/// Over memory for one answer, for some, and of lengths by chance. The program answers a last line
/// without its line feed, and the call does when it is given one.
#[test]
fn joined_they_are_the_program_s_output() {
    let mut random = Random::new(43);
    for round in 0..2_500 {
        let [lines, text] = input(&mut random);
        let lengths = [19, 20, 25, 26, 37, 38, 39, 57, 400, 0];
        let mut room = || match lengths[round % lengths.len()] {
            0 => 19 + random.below(100) as usize,
            length => length,
        };
        let mut rest = lines.clone();
        let mut joined = answer(&text, &mut rest, &mut room);
        let whole = &lines[..lines.len() - rest.len()];
        assert_same(&joined, &program(&text, whole), &text, whole);
        if !rest.is_empty() {
            rest.push(b'\n');
            joined.extend(answer(&text, &mut rest, &mut room));
        }
        assert_same(&joined, &program(&text, &lines), &text, &lines);
    }
}

/// Lines that come in pieces, cut anywhere: what was not read stands before the next piece.
#[test]
fn lines_that_come_in_pieces() {
    let mut random = Random::new(44);
    for _ in 0..500 {
        let [lines, text] = input(&mut random);
        let (mut rest, mut joined) = (Vec::new(), Vec::new());
        let mut left = &lines[..];
        while !left.is_empty() {
            let most = random.one_of(&[2, 17, 300, 5_000]);
            let length = (1 + random.below(most) as usize).min(left.len());
            rest.extend(&left[..length]);
            left = &left[length..];
            let mut room = || 19 + random.below(60) as usize;
            joined.extend(answer(&text, &mut rest, &mut room));
        }
        let whole = &lines[..lines.len() - rest.len()];
        assert_same(&joined, &program(&text, whole), &text, whole);
    }
}

/// Where the text is refused, the program writes the refusal that the call gives. A text that the
/// program would cut elsewhere, or take more of, is left out.
#[test]
fn a_refused_recipe() {
    let mut random = Random::new(45);
    for fault in 10..=17 {
        let mut met = 0;
        for _ in 0..200 {
            let recipe = random.recipe(&[fault]);
            let lines = random.lines(&recipe, 5);
            let text = recipe.text;
            let call = LinesCall {
                text: text.clone(),
                lines: lines.clone(),
                lent: 200,
            };
            let answer = Outcome::library(&call).answer;
            let has_empty_line =
                text.starts_with(b"\n") || text.windows(2).any(|two| two == b"\n\n");
            if answer.refusal == 0 || has_empty_line || !text.ends_with(b"\n") {
                continue;
            }
            let line = format!("ff{:02x}{:02x}\n", answer.refusal, answer.place);
            assert_same(line.as_bytes(), &program(&text, &lines), &text, &lines);
            met += (answer.refusal == fault) as u64;
        }
        assert!(met >= 20, "{fault}: {met}");
    }
}
