//! remainder and remquo beside those of the host's C library: what is left to the bit, and the sign
//! and the last three digits of the quotient. A mistake that the reference shared would show here.

use estrenwind_tests::answer::Answer;
use estrenwind_tests::comparison::on_all_cores;
use estrenwind_tests::divisions::{is_half, Met};
use estrenwind_tests::functions::{Function, Library};
use estrenwind_tests::patterns::Random;
use estrenwind_tests::reference::{Class, Format, BINARY32, BINARY64};
use std::ffi::c_int;

/// Eleven million pairs a width: one in twenty-five is of two random patterns, the others have to do
/// with each other.
const SEEDS: u64 = 110;
const PAIRS: usize = 100_000;

/// Pairs of each sort, and answers of remquo of each quotient, at least.
const LEAST: u64 = 10_000;

#[link(name = "m")]
unsafe extern "C" {
    safe fn remainder(x: f64, y: f64) -> f64;
    safe fn remainderf(x: f32, y: f32) -> f32;
    /// Writes the quotient where the pointer says.
    fn remquo(x: f64, y: f64, quotient: *mut c_int) -> f64;
    fn remquof(x: f32, y: f32, quotient: *mut c_int) -> f32;
}

/// The C library's functions on patterns of a width.
struct Host {
    remainder: fn(u64, u64) -> u64,
    remquo: fn(u64, u64) -> (u64, c_int),
}

fn host(format: &Format) -> Host {
    match *format {
        BINARY64 => Host {
            remainder: |x, y| remainder(f64::from_bits(x), f64::from_bits(y)).to_bits(),
            remquo: |x, y| {
                let mut quotient = 0;
                // SAFETY: the pointer is to a number that may be written.
                let rest = unsafe { remquo(f64::from_bits(x), f64::from_bits(y), &mut quotient) };
                (rest.to_bits(), quotient)
            },
        },
        BINARY32 => Host {
            remainder: |x, y| remainderf(narrow(x), narrow(y)).to_bits().into(),
            remquo: |x, y| {
                let mut quotient = 0;
                // SAFETY: the pointer is to a number that may be written.
                let rest = unsafe { remquof(narrow(x), narrow(y), &mut quotient) };
                (rest.to_bits().into(), quotient)
            },
        },
        _ => panic!("C has no {}-bit numbers", format.width()),
    }
}

fn narrow(x: u64) -> f32 {
    f32::from_bits(x as u32)
}

/// Whether two words are the same. C leaves a NaN's bits open.
fn same(format: &Format, word: u64, other: u64) -> bool {
    let is_nan = |x| format.classify(x) == Class::Nan;
    word == other || is_nan(word) && is_nan(other)
}

/// Whether C's quotient has the sign of ours and its last three digits. It may have more.
fn same_quotient(quotient: i64, other: c_int) -> bool {
    let (sign, digits) = (other.signum() as i64, (other.unsigned_abs() % 8) as i64);
    sign * digits == quotient
}

/// What glibc 2.36's remainder of doubles gets wrong, as its own remquo shows. C has the rule in 27.10.2
/// of source 002. Just this is taken for the same, and counted.
#[derive(Clone, Copy, Debug, PartialEq, Eq)]
enum Fault {
    /// "If r = 0, its sign shall be that of x." For some small y it is +0 for a negative x:
    /// 88005cfd922a752c by 8000000000004000, 8cd75f8165ebffff by 0340000000000000.
    ZeroSign,
    /// "Whenever |n - x/y| = 1/2, then n is even." At some halves it is odd, and what is left has the
    /// other sign: 0026634af108e573 by 0000000000001904, a06738c93b70b800 by 1e4ac00000000000.
    OddAtHalf,
}

/// The fault by which remainder gives `theirs` where remquo gives `left` and `quotient`, if it is one.
fn fault(
    format: &Format,
    [x, y]: [u64; 2],
    theirs: u64,
    (left, quotient): (u64, c_int),
) -> Option<Fault> {
    let has_sign_of_x = format.is_negative(left) == format.is_negative(x);
    let is_half = is_half(format, y, left) && quotient % 2 == 0;
    match format.classify(left) {
        _ if *format != BINARY64 || theirs != format.negate(left) => None,
        Class::Zero if has_sign_of_x => Some(Fault::ZeroSign),
        Class::Subnormal | Class::Normal if is_half => Some(Fault::OddAtHalf),
        _ => None,
    }
}

#[derive(Default)]
struct Counts {
    pairs: u64,
    met: Met,
    /// The C library's, by their numbers.
    faults: [u64; 2],
}

impl Counts {
    fn join(&mut self, other: Counts) {
        self.pairs += other.pairs;
        self.met.join(other.met);
        for (all, count) in self.faults.iter_mut().zip(other.faults) {
            *all += count;
        }
    }
}

/// Holds both functions beside the C library's on a pair; what differs, if anything does.
fn compare(
    format: &Format,
    [ours, ours_with_quotient]: [Library; 2],
    host: &Host,
    [x, y]: [u64; 2],
    counts: &mut Counts,
) -> Option<String> {
    let (left, with_quotient) = (ours(x, y), ours_with_quotient(x, y));
    let theirs = (host.remainder)(x, y);
    let (word, quotient) = (host.remquo)(x, y);
    let told = |what: &str, answer: Answer| {
        let width = format.width();
        let theirs = format!("remainder {theirs:x}, remquo {word:x} {quotient}");
        Some(format!(
            "{what} {width} {x:x} {y:x}: {answer}, C has {theirs}"
        ))
    };
    if !same(format, with_quotient.words[0], word) {
        return told("remquo", with_quotient);
    }
    // A fault that ours shared would not show in C's remainder.
    if left.words[0] != with_quotient.words[0] {
        return told("remainder beside remquo", left);
    }
    if !same(format, left.words[0], theirs) {
        match fault(format, [x, y], theirs, (word, quotient)) {
            Some(fault) => counts.faults[fault as usize] += 1,
            None => return told("remainder", left),
        }
    }
    // Of a NaN, and where there is no remainder, C leaves the quotient open.
    let is_open = format.classify(word) == Class::Nan;
    let ours = with_quotient.words[1] as i64;
    if !is_open && !same_quotient(ours, quotient) {
        return told("quotient", with_quotient);
    }
    counts.pairs += 1;
    counts.met.add(format, x, y, with_quotient);
    None
}

fn as_the_c_library_has_it(format: Format) {
    let named = |name| Function::named(name).expect("a function").library(&format);
    let ours = ["remainder", "remquo"].map(named);
    let host = host(&format);
    let counts = on_all_cores(SEEDS, Counts::join, |seed, counts: &mut Counts| {
        let mut random = Random::new(0xc11b_0000 + seed);
        let mut pairs = (0..PAIRS).map(|_| random.division(&format));
        pairs.find_map(|pair| compare(&format, ours, &host, pair, counts))
    });
    assert_eq!(counts.pairs, SEEDS * PAIRS as u64);
    let width = format.width();
    println!("{width} bits, {} pairs", counts.pairs);
    for fault in [Fault::ZeroSign, Fault::OddAtHalf] {
        let count = counts.faults[fault as usize];
        println!("{width} bits, the C library's remainder has {fault:?}: {count}");
    }
    counts.met.expect(&format, LEAST);
}

#[test]
fn doubles_as_the_c_library_has_them() {
    as_the_c_library_has_it(BINARY64);
}

#[test]
fn floats_as_the_c_library_has_them() {
    as_the_c_library_has_it(BINARY32);
}

/// A comparison that found nothing would let every library pass.
#[test]
fn wrong_answers_are_told() {
    let host = host(&BINARY64);
    let library = |name| Function::named(name).unwrap().library(&BINARY64);
    let [remainder, remquo] = ["remainder", "remquo"].map(library);
    let compared = |ours: [Library; 2], operands: [f64; 2]| {
        let operands = operands.map(f64::to_bits);
        compare(&BINARY64, ours, &host, operands, &mut Counts::default())
    };
    let wrong: [(Library, Library); 4] = [
        (|x, _| Answer::word(x), remquo),
        (remainder, |x, _| Answer::word(x)),
        // -0.5 is left, and the quotient is 4.
        (remainder, |_, _| {
            Answer::pair(0xbfe0000000000000, -4i64 as u64)
        }),
        (remainder, |_, _| Answer::pair(0xbfe0000000000000, 0)),
    ];
    assert_eq!(compared([remainder, remquo], [7.5, 2.0]), None);
    for (remainder, remquo) in wrong {
        assert!(compared([remainder, remquo], [7.5, 2.0]).is_some());
    }
    // These are no faults of the C library's.
    assert_eq!(compared([remainder, remquo], [-6.0, 2.0]), None);
    assert!(compared([|_, _| Answer::word(0), remquo], [-6.0, 2.0]).is_some());
    assert_eq!(compared([remainder, remquo], [3.0, 2.0]), None);
    let one = |_, _| Answer::word(0x3ff0000000000000);
    assert!(compared([one, remquo], [3.0, 2.0]).is_some());
    for (theirs, expected) in [(11, true), (3, true), (-3, false), (-5, false), (4, false)] {
        assert_eq!(same_quotient(3, theirs), expected, "{theirs}");
    }
    assert!(same_quotient(0, -8) && same_quotient(-1, -9) && !same_quotient(1, -9));
}

/// What is taken for the same is this and nothing else.
#[test]
fn faults_are_what_they_say() {
    let format = BINARY64;
    let (plus, minus) = (0, format.sign_bit());
    let [x, y] = [0x88005cfd922a752c, 0x8000000000004000];
    let zero_sign = Some(Fault::ZeroSign);
    assert_eq!(fault(&format, [x, y], plus, (minus, 0)), zero_sign);
    assert_eq!(fault(&format, [x, y], 1, (minus, 0)), None);
    assert_eq!(fault(&format, [x, y], minus, (plus, 0)), None);
    let [x, y, half] = [0x0026634af108e573, 0x0000000000001904, 0x0000000000000c82];
    let odd_at_half = Some(Fault::OddAtHalf);
    assert_eq!(fault(&format, [x, y], half, (minus | half, 2)), odd_at_half);
    assert_eq!(fault(&format, [x, y], half, (minus | half, 1)), None);
    assert_eq!(fault(&format, [x, y], half - 1, (minus | half, 2)), None);
    assert_eq!(fault(&format, [x, y], half, (half, 2)), None);
    let beside = half - 1;
    assert_eq!(fault(&format, [x, y], beside, (minus | beside, 2)), None);
    // Of floats there are none.
    let minus = BINARY32.sign_bit();
    assert_eq!(fault(&BINARY32, [minus | 4, 2], 0, (minus, 2)), None);
    assert_eq!(fault(&BINARY32, [3, 2], 1, (minus | 1, 2)), None);
}
