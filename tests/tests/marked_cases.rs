//! The marked cases of document 01, as they stand there.

use estrenwind_tests::answer::Answer;
use estrenwind_tests::functions::Function;
use estrenwind_tests::reference::BINARY64;

const fn word(word: u64) -> Answer {
    Answer::word(word)
}

const fn pair(first: u64, second: u64) -> Answer {
    Answer::pair(first, second)
}

const fn whole(n: i64) -> u64 {
    n as u64
}

/// Function, operands, answer. The comment has the words of document 01.
#[rustfmt::skip]
const MARKED: [(&str, [u64; 2], Answer); 16] = [
    ("floor", [0xbfe0000000000000, 0], word(0xbff0000000000000)),          // floor(-0.5) = -1
    ("ceil", [0xbfe0000000000000, 0], word(0x8000000000000000)),           // ceil(-0.5) = -0
    ("round", [0x3fe0000000000000, 0], word(0x3ff0000000000000)),          // round(0.5) = 1
    ("round", [0x3fdfffffffffffff, 0], word(0x0000000000000000)),          // round(3fdfffffffffffff) = +0
    ("nearbyint", [0x4004000000000000, 0], word(0x4000000000000000)),      // nearbyint(2.5) = 2
    ("round", [0xc004000000000000, 0], word(0xc008000000000000)),          // round(-2.5) = -3
    ("trunc", [0x8000000000000000, 0], word(0x8000000000000000)),          // trunc(-0) = -0
    ("floor", [0x4330000000000001, 0], word(0x4330000000000001)),          // floor(4330000000000001) is itself
    ("lround", [0xc3e0000000000000, 0], word(whole(i64::MIN))),            // lround(c3e0000000000000) = -2^63
    ("lround", [0x43e0000000000000, 0], Answer::refused(3, 0)),            // lround(43e0000000000000) refuses 3
    ("modf", [0xc00a000000000000, 0], pair(0xc008000000000000, 0xbfd0000000000000)), // modf(-3.25) = -3, -0.25
    ("frexp", [0x0000000000000001, 0], pair(0x3fe0000000000000, whole(-1073))),      // frexp(pattern 1) = 0.5, -1073
    ("ldexp", [0x3ff0000000000000, whole(-1075)], word(0x0000000000000000)),         // ldexp(1, -1075) = +0
    ("ldexp", [0x3ff0000000000000, 1024], Answer::refused(3, 0x7ff0000000000000)),   // ldexp(1, 1024) refuses 3
    ("fmod", [0xc01e000000000000, 0x4000000000000000], word(0xbff8000000000000)),    // fmod(-7.5, 2) = -1.5
    ("nextafter", [0x0000000000000000, 0xbff0000000000000], word(0x8000000000000001)), // nextafter(+0, -1) = 8000000000000001
];

#[test]
fn the_library_and_the_reference_give_the_marked_answers() {
    for (name, [x, y], answer) in MARKED {
        let function = Function::named(name).unwrap();
        let case = format!("{name} {x:x} {y:x}");
        assert_eq!(function.library(&BINARY64)(x, y), answer, "library, {case}");
        assert_eq!(
            (function.reference)(&BINARY64, x, y),
            answer,
            "reference, {case}"
        );
        assert_eq!(
            (function.short)(&BINARY64, x, y),
            answer,
            "short form, {case}"
        );
    }
}
