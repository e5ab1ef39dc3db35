//! Text and lines as bytes: every byte at every place, every length, every cut, and noise.

use estrenwind_tests::library::{run_lines, LinesAnswer};
use estrenwind_tests::patterns::Random;
use estrenwind_tests::recipes::comparison::{check, Outcome};
use estrenwind_tests::recipes::growing::{grow, Plan};
use estrenwind_tests::recipes::walks::bytes::{self, of_every_sort};
use estrenwind_tests::recipes::{frame, Call, Draft, Line, LinesCall};
use estrenwind_tests::reference::recipe::{Kind, Way};

#[test]
fn every_byte_at_every_place_of_a_text() {
    bytes::every_byte_at_every_place(Way::Short, LinesCall::text_mut);
}

/// A line feed among them, which makes two lines of one, and any other byte in a line feed's place.
#[test]
fn every_byte_at_every_place_of_lines() {
    let mut call = LinesCall::of(&of_every_sort());
    call.lines = call.lines.repeat(3);
    call.lent = 100;
    assert_eq!(check(Way::Exact, &call).answer.written, 3 * 19);
    for place in 0..call.lines.len() {
        let right = call.lines[place];
        for byte in 0..=255 {
            call.lines[place] = byte;
            check(Way::Short, &call);
        }
        call.lines[place] = right;
    }
}

#[test]
fn texts_of_every_length() {
    let plan = Plan {
        steps: 128,
        inputs: vec![],
        chain: true,
        ordinary: false,
        refusing: vec![],
    };
    let (draft, _) = grow(&mut Random::new(38), &plan);
    let mut whole = LinesCall::of(&draft);
    whole.lines = b"\n0\n\n".to_vec();
    whole.lent = 64;
    bytes::texts_of_every_length(&whole, whole.text.len() + 100);
}

/// So many inputs of any whole number, of which the last is given back.
fn of_inputs(count: usize) -> Draft {
    let any = [i64::MIN as u64, i64::MAX as u64];
    Draft {
        lines: vec![Line::input(Kind::Whole, any); count],
        words: (0x0123_4567_89ab_cdef..).take(count).collect(),
    }
}

/// The first `length` digits of a frame, or all and more, and a line after it: of 16 inputs, the
/// line of 256 bytes is answered, and one of 257 that begins with it is not.
#[test]
fn lines_of_every_length() {
    for inputs in 1..=16 {
        let draft = of_inputs(inputs);
        let whole = frame(&draft.words);
        let last = draft.words[inputs - 1];
        for length in (0..=600).chain([1 << 12, 1 << 16]) {
            let mut line = whole.clone();
            line.resize(length, b'0');
            let mut call = LinesCall::of(&draft);
            call.lines = [&line[..], b"\n", &whole, b"\n"].concat();
            call.lent = 40;
            let outcome = check(Way::Short, &call);
            let first = if length == 16 * inputs {
                format!("02{last:016x}\n")
            } else {
                "ff1e00\n".into()
            };
            let answers = format!("{first}02{last:016x}\n");
            let written = &outcome.memory[LinesCall::BEFORE..][..answers.len()];
            assert_eq!(written, answers.as_bytes(), "{inputs} inputs, {length}");
            let (read, written) = (call.lines.len() as u64, answers.len() as u64);
            assert_eq!(
                (outcome.answer.read, outcome.answer.written),
                (read, written)
            );
        }
    }
}

/// What lies behind the text and behind the lines, more of the same, is neither read nor answered.
#[test]
fn text_and_lines_cut_at_every_place() {
    let draft = of_every_sort();
    let call = LinesCall::of(&draft);
    let lines = [
        &call.lines[..],
        b"\n\r\n",
        &call.lines,
        b"zz\n",
        &call.lines,
    ]
    .concat();
    let cut = |text: &[u8], lines: &[u8]| {
        let call = LinesCall {
            text: text.to_vec(),
            lines: lines.to_vec(),
            lent: 200,
        };
        let outcome = Outcome::made(&call, |memory| run_lines(text, lines, memory));
        let difference = outcome.difference(&Outcome::expected(Way::Short, &call), &call);
        assert_eq!(difference, None);
        outcome.answer
    };
    for length in 0..=lines.len() {
        let answer = cut(&call.text, &lines[..length]);
        let whole = lines[..length].iter().rposition(|&byte| byte == b'\n');
        assert_eq!(answer.read, whole.map_or(0, |place| place as u64 + 1));
    }
    for length in 0..=call.text.len() {
        let answer = cut(&call.text[..length], &lines);
        let fits = length > 0 && length % 39 == 0;
        assert_eq!(answer.refusal, if fits { 0 } else { 10 }, "{length}");
    }
    // The lines are the text: no line of 38 digits is a frame.
    let answer = cut(&call.text, &call.text);
    assert_eq!(answer.written, 7 * draft.lines.len() as u64);
}

/// A line of a mebibyte, and a hundred thousand lines.
#[test]
fn lines_of_great_length() {
    let mut call = LinesCall::of(&of_every_sort());
    let line = call.lines.clone();
    for (lines, answers) in [
        ([&vec![b'0'; 1 << 20][..], b"\n", &line].concat(), 7 + 19),
        ([&b"\n".repeat(1 << 20)[..], &line].concat(), (7 << 20) + 19),
        (line.repeat(100_000), 1_900_000),
    ] {
        call.lines = lines;
        call.lent = answers + 18;
        let outcome = check(Way::Short, &call);
        let answer = LinesAnswer {
            refusal: 0,
            place: 0,
            read: call.lines.len() as u64,
            written: answers as u64,
        };
        assert_eq!(outcome.answer, answer);
    }
    // Without its line feed it is no line, however long it is.
    call.lines = vec![b'0'; 1 << 20];
    assert_eq!(check(Way::Short, &call).answer.read, 0);
}

/// Texts and lines of any bytes, and of digits and line feeds alone.
#[test]
fn noise() {
    let mut random = Random::new(39);
    let mut answered = 0u64;
    let whole = LinesCall::of(&of_inputs(1)).text;
    for round in 0..40_000 {
        let text = match round % 5 {
            4 => whole.clone(),
            _ => bytes::noise(&mut random, round),
        };
        let length = random.below(80);
        let mut byte = || match round % 3 {
            0 => random.word() as u8,
            1 => random.one_of(b"0123456789abcdef0123456789abcdef\n\n\n\r"),
            _ => random.one_of(b"0\n"),
        };
        let lines = (0..length).map(|_| byte()).collect();
        let lent = random.below(200) as usize;
        let outcome = check(Way::Short, &LinesCall { text, lines, lent });
        answered += (outcome.answer.written > 0) as u64;
    }
    assert!(answered > 2_000, "{answered}");
}
