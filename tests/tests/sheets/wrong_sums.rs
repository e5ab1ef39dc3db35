//! Rules for the ranges of steps 40 to 42 that are W-208's but for one point. The rows of `ranges`, read
//! by hand, refute each of them. Those that promise what isn't so are refuted by the library's runs too;
//! of the others, which promise less or as much, runs can't tell.

use crate::ranges::{Row, ADD, MULTIPLY, SUBTRACT};
use crate::wrong_ranges::{bits, reaches_infinity, tried_by, Rule, Tried, RANGES};

/// -0 below +0.
fn fmin(x: f64, y: f64) -> f64 {
    let is_less = x < y || x == y && x.is_sign_negative();
    if is_less {
        x
    } else {
        y
    }
}

fn fmax(x: f64, y: f64) -> f64 {
    -fmin(-x, -y)
}

fn least<const N: usize>(numbers: [f64; N]) -> f64 {
    numbers.into_iter().reduce(fmin).expect("a number")
}

fn greatest<const N: usize>(numbers: [f64; N]) -> f64 {
    numbers.into_iter().reduce(fmax).expect("a number")
}

/// 20 where an operand's end is infinite.
fn finite(a: [f64; 2], b: [f64; 2]) -> Result<(), u64> {
    match reaches_infinity(a) || reaches_infinity(b) {
        true => Err(20),
        false => Ok(()),
    }
}

/// 20 where one of these ends is infinite.
fn finite_but([ends, others]: [&[f64]; 2]) -> Result<(), u64> {
    let mut looked_at = ends.iter().chain(others);
    match looked_at.any(|end| end.is_infinite()) {
        true => Err(20),
        false => Ok(()),
    }
}

/// The ends, or 21 where one is infinite.
fn bounded(ends: [f64; 2]) -> Result<[f64; 2], u64> {
    match reaches_infinity(ends) {
        true => Err(21),
        false => Ok(ends),
    }
}

fn sums(a: [f64; 2], b: [f64; 2]) -> [f64; 2] {
    [a[0] + b[0], a[1] + b[1]]
}

fn differences(a: [f64; 2], b: [f64; 2]) -> [f64; 2] {
    [a[0] - b[1], a[1] - b[0]]
}

/// low·low, low·high, high·low, high·high.
fn products(a: [f64; 2], b: [f64; 2]) -> [f64; 4] {
    [a[0] * b[0], a[0] * b[1], a[1] * b[0], a[1] * b[1]]
}

fn of_products(a: [f64; 2], b: [f64; 2]) -> [f64; 2] {
    [least(products(a, b)), greatest(products(a, b))]
}

/// One of the four left out.
fn without(place: usize, a: [f64; 2], b: [f64; 2]) -> Result<[f64; 2], u64> {
    finite(a, b)?;
    let mut left = products(a, b);
    left[place] = left[(place + 1) % 4];
    bounded([least(left), greatest(left)])
}

/// 21 for just one of the four.
fn overflow_of(place: usize, a: [f64; 2], b: [f64; 2]) -> Result<[f64; 2], u64> {
    finite(a, b)?;
    match products(a, b)[place].is_infinite() {
        true => Err(21),
        // What is infinite doesn't count.
        false => {
            let of_finite = |product: f64| product.clamp(f64::MIN, f64::MAX);
            Ok(of_products(a, b).map(of_finite))
        }
    }
}

/// A step, its rows, its rule, the wrong rules that runs refute, and those that rows alone do.
struct Step {
    opcode: u8,
    rows: &'static [Row],
    right: Rule,
    broken: &'static [(&'static str, Rule)],
    held: &'static [(&'static str, Rule)],
}

const STEPS: [Step; 3] = [
    Step {
        opcode: 0x40,
        rows: ADD,
        right: |a, b| finite(a, b).and_then(|()| bounded(sums(a, b))),
        broken: &[
            ("low + high to high + low", |a, b| {
                finite(a, b)?;
                bounded([a[0] + b[1], a[1] + b[0]])
            }),
            ("the low end twice", |a, b| {
                finite(a, b)?;
                bounded([a[0] + b[0], a[0] + b[0]])
            }),
            ("low - high to high - low", |a, b| {
                finite(a, b)?;
                bounded(differences(a, b))
            }),
            ("the greater magnitude's own ends", |a, b| {
                finite(a, b)?;
                bounded(if a[1].abs() > b[1].abs() { a } else { b })
            }),
            ("a's infinite low end passed", |a, b| {
                finite_but([&a[1..], &b])?;
                Ok(sums(a, b))
            }),
            ("a's infinite high end passed", |a, b| {
                finite_but([&a[..1], &b])?;
                Ok(sums(a, b))
            }),
            ("b's infinite low end passed", |a, b| {
                finite_but([&a, &b[1..]])?;
                Ok(sums(a, b))
            }),
            ("b's infinite high end passed", |a, b| {
                finite_but([&a, &b[..1]])?;
                Ok(sums(a, b))
            }),
            ("an overflow passed", |a, b| {
                finite(a, b)?;
                Ok(sums(a, b))
            }),
            ("an overflow of the high end passed", |a, b| {
                finite(a, b)?;
                let [low, high] = sums(a, b);
                bounded([low, high.min(f64::MAX)])
            }),
            ("an overflow of the low end passed", |a, b| {
                finite(a, b)?;
                let [low, high] = sums(a, b);
                bounded([low.max(f64::MIN), high])
            }),
            ("rounded toward zero", |a, b| {
                finite(a, b)?;
                let toward_zero = |x: f64, y: f64| match x + y {
                    sum if (sum - x) > y && sum > 0.0 => sum.next_down(),
                    sum => sum,
                };
                bounded([a[0] + b[0], toward_zero(a[1], b[1])])
            }),
        ],
        held: &[
            ("21 before 20", |a, b| {
                bounded(sums(a, b).map(|sum| if sum.is_nan() { 0.0 } else { sum }))?;
                finite(a, b)?;
                Ok(sums(a, b))
            }),
            ("21 for an infinite end", |a, b| {
                finite(a, b).map_err(|_| 21u64)?;
                bounded(sums(a, b))
            }),
            ("20 for an overflow", |a, b| {
                finite(a, b)?;
                bounded(sums(a, b)).map_err(|_| 20)
            }),
            ("a zero sum -0", |a, b| {
                finite(a, b)?;
                bounded(sums(a, b).map(|sum| if sum == 0.0 { -0.0 } else { sum }))
            }),
            ("a zero sum +0", |a, b| {
                finite(a, b)?;
                bounded(sums(a, b).map(|sum| sum + 0.0))
            }),
            ("the next number on either side", |a, b| {
                finite(a, b)?;
                let [low, high] = bounded(sums(a, b))?;
                Ok([low.next_down().max(f64::MIN), high.next_up().min(f64::MAX)])
            }),
        ],
    },
    Step {
        opcode: 0x41,
        rows: SUBTRACT,
        right: |a, b| finite(a, b).and_then(|()| bounded(differences(a, b))),
        broken: &[
            ("low - low to high - high", |a, b| {
                finite(a, b)?;
                bounded([a[0] - b[0], a[1] - b[1]])
            }),
            ("low - low and high - high in order", |a, b| {
                finite(a, b)?;
                let [one, other] = [a[0] - b[0], a[1] - b[1]];
                bounded([one.min(other), one.max(other)])
            }),
            ("low + low to high + high", |a, b| {
                finite(a, b)?;
                bounded(sums(a, b))
            }),
            ("the other way about", |a, b| {
                finite(a, b)?;
                bounded(differences(b, a))
            }),
            ("never negative", |a, b| {
                finite(a, b)?;
                bounded(differences(a, b).map(|end| end.max(0.0)))
            }),
            ("a's infinite low end passed", |a, b| {
                finite_but([&a[1..], &b])?;
                Ok(differences(a, b))
            }),
            ("b's infinite low end passed", |a, b| {
                finite_but([&a, &b[1..]])?;
                Ok(differences(a, b))
            }),
            ("an overflow passed", |a, b| {
                finite(a, b)?;
                Ok(differences(a, b))
            }),
            ("an overflow of the high end passed", |a, b| {
                finite(a, b)?;
                let [low, high] = differences(a, b);
                bounded([low, high.min(f64::MAX)])
            }),
            ("an overflow of the low end passed", |a, b| {
                finite(a, b)?;
                let [low, high] = differences(a, b);
                bounded([low.max(f64::MIN), high])
            }),
        ],
        held: &[
            ("21 before 20", |a, b| {
                bounded(differences(a, b).map(|end| if end.is_nan() { 0.0 } else { end }))?;
                finite(a, b)?;
                Ok(differences(a, b))
            }),
            ("a zero difference -0", |a, b| {
                finite(a, b)?;
                bounded(differences(a, b).map(|end| if end == 0.0 { -0.0 } else { end }))
            }),
            ("a zero difference +0", |a, b| {
                finite(a, b)?;
                bounded(differences(a, b).map(|end| end + 0.0))
            }),
            ("b's ends negated and added, -0 as +0", |a, b| {
                finite(a, b)?;
                bounded([a[0] + (0.0 - b[1]), a[1] + (0.0 - b[0])])
            }),
        ],
    },
    Step {
        opcode: 0x42,
        rows: MULTIPLY,
        right: |a, b| finite(a, b).and_then(|()| bounded(of_products(a, b))),
        broken: &[
            ("low times low to high times high", |a, b| {
                finite(a, b)?;
                bounded([a[0] * b[0], a[1] * b[1]])
            }),
            ("two products in order", |a, b| {
                finite(a, b)?;
                let [one, _, _, other] = products(a, b);
                bounded([fmin(one, other), fmax(one, other)])
            }),
            ("the other two in order", |a, b| {
                finite(a, b)?;
                let [_, one, other, _] = products(a, b);
                bounded([fmin(one, other), fmax(one, other)])
            }),
            ("without low times low", |a, b| without(0, a, b)),
            ("without low times high", |a, b| without(1, a, b)),
            ("without high times low", |a, b| without(2, a, b)),
            ("without high times high", |a, b| without(3, a, b)),
            ("never negative", |a, b| {
                finite(a, b)?;
                bounded(of_products(a, b).map(|end| end.max(0.0)))
            }),
            ("products of magnitudes", |a, b| {
                finite(a, b)?;
                let of_magnitudes = products(a, b).map(f64::abs);
                bounded([least(of_magnitudes), greatest(of_magnitudes)])
            }),
            ("a's infinite low end passed", |a, b| {
                finite_but([&a[1..], &b])?;
                Ok(of_products(a, b))
            }),
            ("a's infinite high end passed", |a, b| {
                finite_but([&a[..1], &b])?;
                Ok(of_products(a, b))
            }),
            ("b's infinite low end passed", |a, b| {
                finite_but([&a, &b[1..]])?;
                Ok(of_products(a, b))
            }),
            ("b's infinite high end passed", |a, b| {
                finite_but([&a, &b[..1]])?;
                Ok(of_products(a, b))
            }),
            ("an infinite end passed beside a zero", |a, b| {
                let is_zero = |ends: [f64; 2]| ends == [0.0, 0.0];
                if is_zero(a) || is_zero(b) {
                    return Ok([-0.0, 0.0]);
                }
                finite(a, b)?;
                bounded(of_products(a, b))
            }),
            ("an overflow passed", |a, b| {
                finite(a, b)?;
                Ok(of_products(a, b))
            }),
            ("refused where low times low overflows", |a, b| {
                overflow_of(0, a, b)
            }),
            ("refused where low times high overflows", |a, b| {
                overflow_of(1, a, b)
            }),
            ("refused where high times low overflows", |a, b| {
                overflow_of(2, a, b)
            }),
            ("refused where high times high overflows", |a, b| {
                overflow_of(3, a, b)
            }),
        ],
        held: &[
            ("21 before 20", |a, b| {
                let products = products(a, b);
                if products.iter().any(|product| product.is_infinite()) {
                    return Err(21);
                }
                finite(a, b)?;
                Ok(of_products(a, b))
            }),
            ("the greatest magnitude on either side", |a, b| {
                finite(a, b)?;
                let most = greatest(products(a, b).map(f64::abs));
                bounded([-most, most])
            }),
            ("of zeros the first", |a, b| {
                finite(a, b)?;
                let [one, two, three, four] = products(a, b);
                let least = |x: f64, y: f64| if y < x { y } else { x };
                let greatest = |x: f64, y: f64| if y > x { y } else { x };
                let low = least(least(least(one, two), three), four);
                let high = greatest(greatest(greatest(one, two), three), four);
                bounded([low, high])
            }),
            ("a zero product +0", |a, b| {
                finite(a, b)?;
                bounded(of_products(a, b).map(|end| end + 0.0))
            }),
        ],
    },
];

/// How many rows that were read by hand say something else, to the bit.
fn refuted_by_rows(rows: &[Row], rule: Rule) -> usize {
    let differs = |&&(a, b, expected): &&Row| bits(rule(a, b)) != bits(expected);
    rows.iter().filter(differs).count()
}

fn refuted_by_runs(tried: &[Tried], rule: Rule) -> usize {
    tried.iter().filter(|tried| tried.refutes(rule)).count()
}

#[test]
fn rows_and_runs_refute_wrong_rules() {
    for step in STEPS {
        let tried = tried_by(step.opcode);
        for &(name, rule) in step.broken {
            let rows = refuted_by_rows(step.rows, rule);
            let runs = refuted_by_runs(&tried, rule);
            let opcode = step.opcode;
            println!("{opcode:x}, {name}: refuted by {rows} rows, by runs in {runs} of {RANGES}");
            assert!(rows >= 1, "{opcode:x}, {name}: no row");
            assert!(runs >= 3, "{opcode:x}, {name}: runs in {runs}");
        }
    }
}

#[test]
fn rows_alone_refute_rules_that_hold() {
    for step in STEPS {
        let tried = tried_by(step.opcode);
        for &(name, rule) in step.held {
            let rows = refuted_by_rows(step.rows, rule);
            let opcode = step.opcode;
            println!("{opcode:x}, {name}: refuted by {rows} rows");
            assert!(rows >= 1, "{opcode:x}, {name}: no row");
            assert_eq!(refuted_by_runs(&tried, rule), 0, "{opcode:x}, {name}");
        }
    }
}

/// What the wrong ones are changed from; and some ranges pass, some don't.
#[test]
fn the_right_rules_are_not_refuted() {
    for step in STEPS {
        assert_eq!(refuted_by_rows(step.rows, step.right), 0);
        let tried = tried_by(step.opcode);
        assert_eq!(refuted_by_runs(&tried, step.right), 0);
        let passes = |tried: &&Tried| (step.right)(tried.a, tried.b).is_ok();
        let passed = tried.iter().filter(passes).count();
        assert!((200..RANGES - 200).contains(&passed), "{passed}");
    }
}
