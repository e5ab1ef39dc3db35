//! The proved sums, differences and products of doubles (libcross_check.a), beside the language's own
//! operations and beside the reference, bit for bit: those in whole numbers, which steps 40 to 42 call,
//! and the language's own in the library's language. Both are the same in the environment that a
//! program starts with; in any other only those in whole numbers stay.

use estrenwind_tests::arithmetic::{edges, Met};
use estrenwind_tests::comparison::on_all_cores;
use estrenwind_tests::patterns::Random;
use estrenwind_tests::reference::{arithmetic, short, Format, BINARY64};

#[link(name = "cross_check", kind = "static")]
unsafe extern "C" {
    safe fn ew_check_sum(x: u64, y: u64) -> u64;
    safe fn ew_check_difference(x: u64, y: u64) -> u64;
    safe fn ew_check_product(x: u64, y: u64) -> u64;
    safe fn ew_check_float_sum(x: u64, y: u64) -> u64;
    safe fn ew_check_float_difference(x: u64, y: u64) -> u64;
    safe fn ew_check_float_product(x: u64, y: u64) -> u64;
}

/// Three operations on the patterns of two finite doubles: a sum, a difference, a product.
type Operations = [fn(u64, u64) -> u64; 3];

const WHOLE: Operations = [
    |x, y| ew_check_sum(x, y),
    |x, y| ew_check_difference(x, y),
    |x, y| ew_check_product(x, y),
];

const FLOAT: Operations = [
    |x, y| ew_check_float_sum(x, y),
    |x, y| ew_check_float_difference(x, y),
    |x, y| ew_check_float_product(x, y),
];

/// The operations of the language that the tests are in.
const HOST: Operations = [
    |x, y| (f64::from_bits(x) + f64::from_bits(y)).to_bits(),
    |x, y| (f64::from_bits(x) - f64::from_bits(y)).to_bits(),
    |x, y| (f64::from_bits(x) * f64::from_bits(y)).to_bits(),
];

type Reference = fn(&Format, u64, u64) -> estrenwind_tests::answer::Answer;

const EXACT: [Reference; 3] = [arithmetic::sum, arithmetic::difference, arithmetic::product];
const SHORT: [Reference; 3] = [
    short::arithmetic::sum,
    short::arithmetic::difference,
    short::arithmetic::product,
];

const NAMES: [&str; 3] = ["sum", "difference", "product"];

/// A hundred million pairs, each added, subtracted and multiplied.
const SEEDS: u64 = 1_000;
const PAIRS: usize = 100_000;

/// Pairs of each sort, at least.
const LEAST: u64 = 20_000;

/// What differs on a pair, if anything does, and the words of its sum and its product.
fn compared([whole, float, host]: [&Operations; 3], x: u64, y: u64) -> Result<[u64; 2], String> {
    let words: [u64; 3] = std::array::from_fn(|place| host[place](x, y));
    for (place, expected) in words.into_iter().enumerate() {
        for (body, answer) in [
            ("in whole numbers", whole[place](x, y)),
            ("of floats", float[place](x, y)),
        ] {
            if answer != expected {
                let name = NAMES[place];
                return Err(format!(
                    "{name} {body} {x:016x} {y:016x}: {answer:016x}, expected {expected:016x}"
                ));
            }
        }
    }
    Ok([words[0], words[2]])
}

#[derive(Default)]
struct Counts {
    pairs: u64,
    met: Met,
}

impl Counts {
    fn join(&mut self, other: Counts) {
        self.pairs += other.pairs;
        self.met.join(other.met);
    }

    /// Adds a pair, or tells what differs on it.
    fn add(&mut self, [x, y]: [u64; 2]) -> Option<String> {
        match compared([&WHOLE, &FLOAT, &HOST], x, y) {
            Ok([sum, product]) => {
                self.pairs += 1;
                self.met.add_sum(&BINARY64, x, y, sum);
                self.met.add_product(&BINARY64, x, y, product);
                None
            }
            Err(wrong) => Some(wrong),
        }
    }
}

#[test]
fn as_the_language_has_them_on_a_hundred_million_pairs() {
    let counts = on_all_cores(SEEDS, Counts::join, |seed, counts: &mut Counts| {
        let mut random = Random::new(0x2081_0000 + seed);
        let mut pairs = (0..PAIRS).map(|_| random.finite_pair(&BINARY64));
        pairs.find_map(|pair| counts.add(pair))
    });
    println!("{} pairs", counts.pairs);
    assert!(counts.pairs >= 100_000_000);
    counts.met.expect(LEAST);
}

#[test]
fn as_the_language_has_them_at_the_edges() {
    let mut counts = Counts::default();
    for pair in edges(&BINARY64) {
        let wrong = counts.add(pair);
        assert_eq!(wrong, None);
    }
}

/// What differs from the reference's word, which a refusal for an infinite result has too.
fn beside(reference: &[Reference; 3], [x, y]: [u64; 2]) -> Option<String> {
    (0..3).find_map(|place| {
        let answer = WHOLE[place](x, y);
        let expected = reference[place](&BINARY64, x, y).words[0];
        let name = NAMES[place];
        (answer != expected)
            .then(|| format!("{name} {x:016x} {y:016x}: {answer:016x}, expected {expected:016x}"))
    })
}

/// A million pairs by the authority, six million by the short form.
#[test]
fn as_the_reference_has_them() {
    for (reference, seeds) in [(&EXACT, 10), (&SHORT, 60)] {
        on_all_cores(
            seeds,
            |(), ()| (),
            |seed, _| {
                let mut random = Random::new(0x2082_0000 + seed);
                let mut pairs = (0..PAIRS).map(|_| random.finite_pair(&BINARY64));
                pairs.find_map(|pair| beside(reference, pair))
            },
        );
    }
}

/// A comparison that found nothing would let every archive pass: each operation with another's answer,
/// with another sign of zero, and with the last place one up.
#[test]
fn wrong_answers_are_told() {
    let [x, y] = [1.5f64, -2.25].map(f64::to_bits);
    let told = |whole, float| compared([&whole, &float, &HOST], x, y).is_err();
    assert!(!told(WHOLE, FLOAT));
    for place in 0..3 {
        let wrong: [fn(u64, u64) -> u64; 2] = [|_, _| 0x3fe0000000000001, |x, _| x];
        for wrong in wrong {
            let with = |mut operations: Operations| {
                operations[place] = wrong;
                operations
            };
            assert!(told(with(WHOLE), FLOAT));
            assert!(told(WHOLE, with(FLOAT)));
        }
    }
    const MINUS: u64 = 1 << 63;
    let mut wrong = WHOLE;
    wrong[0] = |_, _| MINUS;
    assert!(compared([&wrong, &FLOAT, &HOST], 0, MINUS).is_err());
    assert!(compared([&WHOLE, &FLOAT, &HOST], 0, MINUS).is_ok());
}

/// What is not finite gives the float operations' NaN. Of those in whole numbers nothing is asked there.
#[test]
fn floats_that_are_not_finite_have_no_answer() {
    let [infinity, one] = [f64::INFINITY, 1.0].map(f64::to_bits);
    let minus = 1 << 63;
    for special in [
        infinity,
        infinity | minus,
        infinity + 1,
        u64::MAX,
        0xfff8 << 48,
    ] {
        for other in [0, minus, one, infinity, infinity | minus, special] {
            for operation in FLOAT {
                assert_eq!(operation(special, other), 0x7ff8000000000000);
                assert_eq!(operation(other, special), 0x7ff8000000000000);
            }
        }
    }
}

#[cfg(target_arch = "x86_64")]
mod environment {
    use super::*;
    use estrenwind_tests::environment::{leaves_a_trace, ENVIRONMENTS};

    fn pairs(seed: u64, count: usize) -> Vec<[u64; 2]> {
        let mut random = Random::new(seed);
        let mut pairs = edges(&BINARY64);
        pairs.extend((0..count).map(|_| random.finite_pair(&BINARY64)));
        pairs
    }

    /// How many answers are others in an environment than by the language's own in the one that a
    /// program starts with.
    fn differing(
        environment: &estrenwind_tests::environment::Environment,
        operation: fn(u64, u64) -> u64,
        cases: &[([u64; 2], u64)],
    ) -> usize {
        environment.run(|| {
            let differs = |&&([x, y], expected): &&([u64; 2], u64)| operation(x, y) != expected;
            let count = cases.iter().filter(differs).count();
            assert!(environment.is_in_force(), "{}", environment.name);
            count
        })
    }

    /// The answers in whole numbers are the same in every environment. Those of floats are not, which
    /// is why the steps don't call them: in every environment but the first some are others.
    #[test]
    fn whole_numbers_stay_the_same_and_floats_do_not() {
        let pairs = pairs(0x2083, 300_000);
        for place in 0..3 {
            let name = NAMES[place];
            let case = |&[x, y]: &[u64; 2]| ([x, y], HOST[place](x, y));
            let cases: Vec<([u64; 2], u64)> = pairs.iter().map(case).collect();
            for (number, environment) in ENVIRONMENTS.iter().enumerate() {
                let whole = differing(environment, WHOLE[place], &cases);
                let float = differing(environment, FLOAT[place], &cases);
                let count = cases.len();
                println!("{name}, {}: {float} of {count} by floats", environment.name);
                assert_eq!(whole, 0, "{name}, {}", environment.name);
                match number {
                    0 => assert_eq!(float, 0, "{name}, {}", environment.name),
                    _ => assert!(float >= 1_000, "{name}, {}: {float}", environment.name),
                }
            }
        }
    }

    /// Integer arithmetic raises nothing. A floating-point operation that rounds does.
    #[test]
    fn whole_numbers_do_no_floating_point_operation() {
        let pairs = pairs(0x2084, 100_000);
        for place in 0..3 {
            let mut traces = 0;
            for &[x, y] in &pairs {
                let name = NAMES[place];
                assert!(!leaves_a_trace(|| WHOLE[place](x, y)), "{name} {x:x} {y:x}");
                traces += leaves_a_trace(|| FLOAT[place](x, y)) as usize;
            }
            assert!(traces > 10_000, "{traces}");
        }
    }
}
