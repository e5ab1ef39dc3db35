//! fmod at a width of a caller's own (libcross_check.a), the patterns of f32 under another name and with
//! none of the library's constants, beside the reference and beside the library's fmod of f32. Its
//! default NaN is worked out from the sizes.

use estrenwind_tests::comparison::on_all_cores;
use estrenwind_tests::functions::FUNCTIONS;
use estrenwind_tests::pairs::edges;
use estrenwind_tests::patterns::Random;
use estrenwind_tests::reference::{fmod::fmod, BINARY32};

#[link(name = "cross_check", kind = "static")]
unsafe extern "C" {
    safe fn ew_check_own_default_nan() -> u32;
    safe fn ew_check_own_fmod(x: u32, y: u32) -> u32;
}

/// A million pairs; and so many refusals at least, of them and of the edges.
const SEEDS: u64 = 20;
const PAIRS: usize = 50_000;
const LEAST: u64 = 1_000;

type Fmod = fn(u64, u64) -> u64;

const OWN: Fmod = |x, y| ew_check_own_fmod(x as u32, y as u32).into();

fn library(x: u64, y: u64) -> u64 {
    let function = FUNCTIONS.iter().find(|function| function.name == "fmod");
    function.expect("it is there").library(&BINARY32)(x, y).words[0]
}

/// Whether the reference refuses a pair, or what differs on it.
fn compared(own: Fmod, [x, y]: [u64; 2]) -> Result<bool, String> {
    let expected = fmod(&BINARY32, x, y);
    match own(x, y) {
        word if word == expected.words[0] && word == library(x, y) => Ok(expected.refusal != 0),
        word => Err(format!("{x:08x} {y:08x}: {word:08x}, expected {expected}")),
    }
}

#[test]
fn default_nan_is_the_formats() {
    assert_eq!(
        u64::from(ew_check_own_default_nan()),
        BINARY32.default_nan()
    );
}

#[test]
fn as_the_reference_and_the_library_have_it_at_the_edges() {
    let edges = edges(&BINARY32);
    let pairs = edges
        .iter()
        .flat_map(|&x| edges.iter().map(move |&y| [x, y]));
    let refused: Result<Vec<bool>, String> = pairs.map(|pair| compared(OWN, pair)).collect();
    let refused = refused
        .unwrap()
        .into_iter()
        .filter(|&refused| refused)
        .count();
    assert!(refused as u64 >= LEAST);
}

#[test]
fn as_the_reference_and_the_library_have_it_on_a_million_pairs() {
    let refused = on_all_cores(
        SEEDS,
        |count: &mut u64, other| *count += other,
        |seed, count| {
            let mut random = Random::new(0xf32d_0000 + seed);
            let mut pairs = (0..PAIRS).map(|_| random.division(&BINARY32));
            pairs.find_map(|pair| match compared(OWN, pair) {
                Ok(refused) => {
                    *count += u64::from(refused);
                    None
                }
                Err(wrong) => Some(wrong),
            })
        },
    );
    println!("{refused} refused");
    assert!(refused >= LEAST);
}

/// A comparison that found nothing would let every archive pass: a refusal's word that is a signalling NaN,
/// an infinity, or the operand; and the operands the other way round.
#[test]
fn wrong_answers_are_told() {
    let [infinity, one] = [f32::INFINITY, 1.0].map(|x| u64::from(x.to_bits()));
    let wrong: [Fmod; 4] = [
        |_, _| 0x7fa00000,
        |_, _| 0x7f800000,
        |x, _| x,
        |x, y| OWN(y, x),
    ];
    for wrong in wrong {
        assert!(compared(wrong, [infinity, one]).is_err());
    }
    assert_eq!(compared(OWN, [infinity, one]), Ok(true));
    assert_eq!(compared(OWN, [one, infinity]), Ok(false));
}
