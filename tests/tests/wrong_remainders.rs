//! Rules for remainder and remquo that are W-204's but for one point. The vectors refute each of them
//! at each width, so that whoever runs these alone would see such a mistake; and so do the edges.

use estrenwind_tests::answer::Answer;
use estrenwind_tests::divisions;
use estrenwind_tests::functions::{Function, FORMATS};
use estrenwind_tests::reference::fmod::without_division;
use estrenwind_tests::reference::natural::Natural;
use estrenwind_tests::reference::{Class, Format, BINARY64};
use estrenwind_tests::vectors::cases;
use std::cmp::Ordering;

/// Two finite numbers to divide, y other than zero: the magnitude of x is q times that of y, and r.
struct Division {
    x_is_negative: bool,
    y_is_negative: bool,
    y: Natural,
    q: Natural,
    r: Natural,
}

impl Division {
    fn new(format: &Format, x: u64, y: u64) -> Division {
        let y_magnitude = format.magnitude(y);
        let (q, r) = format.magnitude(x).div_rem(&y_magnitude);
        Division {
            x_is_negative: format.is_negative(x),
            y_is_negative: format.is_negative(y),
            y: y_magnitude,
            q,
            r,
        }
    }

    fn quotient_is_negative(&self) -> bool {
        self.x_is_negative != self.y_is_negative
    }

    /// r held against half of y.
    fn half(&self) -> Ordering {
        (&self.r * 2).cmp(&self.y)
    }

    /// r held against half of y as a number of the format: an odd count of units has its half rounded.
    fn rounded_half(&self) -> Ordering {
        let (below, rest) = self.y.div_rem_power_of_two(1);
        let is_up = !rest.is_zero() && below.is_odd();
        let half = &below + &Natural::from(is_up as u64);
        self.r.cmp(&half)
    }
}

/// The last binary digits of a number, three of them modulo 8.
fn last_digits(n: &Natural, digits: u32) -> i64 {
    let (_, last) = n.div_rem_power_of_two(digits);
    last.to_u64().expect("few digits") as i64
}

fn signed(is_negative: bool, magnitude: i64) -> i64 {
    if is_negative {
        -magnitude
    } else {
        magnitude
    }
}

#[derive(Clone, Copy)]
struct Rule {
    /// The answer where nothing is divided.
    undivided: fn(&Format, u64, u64) -> Option<Answer>,
    /// Whether n is q + 1, and not q.
    is_up: fn(&Division) -> bool,
    /// The quotient that is given, by the magnitude of n.
    quotient: fn(&Division, &Natural) -> i64,
    /// Whether a zero result is -0.
    zero_is_negative: fn(&Division) -> bool,
}

const RIGHT: Rule = Rule {
    undivided: without_division,
    is_up: |d| d.half().is_gt() || d.half().is_eq() && d.q.is_odd(),
    quotient: |d, n| signed(d.quotient_is_negative(), last_digits(n, 3)),
    zero_is_negative: |d| d.x_is_negative,
};

impl Rule {
    fn remquo(&self, format: &Format, x: u64, y: u64) -> Answer {
        (self.undivided)(format, x, y).unwrap_or_else(|| {
            let d = Division::new(format, x, y);
            let is_up = (self.is_up)(&d);
            let n = &d.q + &Natural::from(is_up as u64);
            let rest = if is_up { &d.y - &d.r } else { d.r.clone() };
            let is_negative = match rest.is_zero() {
                true => (self.zero_is_negative)(&d),
                false => d.x_is_negative != is_up,
            };
            let sign = if is_negative { format.sign_bit() } else { 0 };
            Answer::pair(sign | format.encode(&rest), (self.quotient)(&d, &n) as u64)
        })
    }
}

/// The right answer where nothing is divided, but for what `other` says.
fn undivided_but(
    format: &Format,
    [x, y]: [u64; 2],
    other: impl Fn([Class; 2]) -> Option<Answer>,
) -> Option<Answer> {
    let classes = [x, y].map(|x| format.classify(x));
    other(classes).or_else(|| without_division(format, x, y))
}

const WRONG: [(&str, Rule); 24] = [
    (
        "halves away from zero",
        Rule {
            is_up: |d| d.half().is_ge(),
            ..RIGHT
        },
    ),
    (
        "halves towards zero",
        Rule {
            is_up: |d| d.half().is_gt(),
            ..RIGHT
        },
    ),
    (
        "halves to odd",
        Rule {
            is_up: |d| d.half().is_gt() || d.half().is_eq() && !d.q.is_odd(),
            ..RIGHT
        },
    ),
    (
        "halves upwards",
        Rule {
            is_up: |d| d.half().is_gt() || d.half().is_eq() && !d.quotient_is_negative(),
            ..RIGHT
        },
    ),
    (
        "n towards zero, as in fmod",
        Rule {
            is_up: |_| false,
            ..RIGHT
        },
    ),
    (
        "half of y as a number of the format",
        Rule {
            is_up: |d| d.rounded_half().is_gt() || d.rounded_half().is_eq() && d.q.is_odd(),
            ..RIGHT
        },
    ),
    (
        "the quotient not advanced when the rest is turned",
        Rule {
            quotient: |d, _| signed(d.quotient_is_negative(), last_digits(&d.q, 3)),
            ..RIGHT
        },
    ),
    (
        "the quotient with the sign of x",
        Rule {
            quotient: |d, n| signed(d.x_is_negative, last_digits(n, 3)),
            ..RIGHT
        },
    ),
    (
        "the quotient with the sign of y",
        Rule {
            quotient: |d, n| signed(d.y_is_negative, last_digits(n, 3)),
            ..RIGHT
        },
    ),
    (
        "the quotient with the other sign",
        Rule {
            quotient: |d, n| signed(!d.quotient_is_negative(), last_digits(n, 3)),
            ..RIGHT
        },
    ),
    (
        "the quotient without a sign",
        Rule {
            quotient: |_, n| last_digits(n, 3),
            ..RIGHT
        },
    ),
    (
        "the quotient modulo 4",
        Rule {
            quotient: |d, n| signed(d.quotient_is_negative(), last_digits(n, 2)),
            ..RIGHT
        },
    ),
    (
        "the quotient modulo 16",
        Rule {
            quotient: |d, n| signed(d.quotient_is_negative(), last_digits(n, 4)),
            ..RIGHT
        },
    ),
    (
        "the quotient modulo 8 from 0 to 7",
        Rule {
            quotient: |d, n| signed(d.quotient_is_negative(), last_digits(n, 3)).rem_euclid(8),
            ..RIGHT
        },
    ),
    (
        "the quotient modulo 8 from -4 to 3",
        Rule {
            quotient: |d, n| {
                let n = signed(d.quotient_is_negative(), last_digits(n, 3));
                (n + 4).rem_euclid(8) - 4
            },
            ..RIGHT
        },
    ),
    (
        "a zero with the other sign",
        Rule {
            zero_is_negative: |d| !d.x_is_negative,
            ..RIGHT
        },
    ),
    (
        "a zero with y's sign",
        Rule {
            zero_is_negative: |d| d.y_is_negative,
            ..RIGHT
        },
    ),
    (
        "a zero with the sign of x/y",
        Rule {
            zero_is_negative: |d| d.quotient_is_negative(),
            ..RIGHT
        },
    ),
    (
        "a zero always +0",
        Rule {
            zero_is_negative: |_| false,
            ..RIGHT
        },
    ),
    (
        "infinite y refused",
        Rule {
            undivided: |format, x, y| {
                undivided_but(format, [x, y], |classes| match classes {
                    [Class::Nan, _] => None,
                    [_, Class::Infinite] => Some(Answer::refused(2, format.default_nan())),
                    _ => None,
                })
            },
            ..RIGHT
        },
    ),
    (
        "infinite x refused before a NaN",
        Rule {
            undivided: |format, x, y| {
                undivided_but(format, [x, y], |classes| match classes {
                    [Class::Infinite, _] => Some(Answer::refused(2, format.default_nan())),
                    _ => None,
                })
            },
            ..RIGHT
        },
    ),
    (
        "zero y refused before a NaN",
        Rule {
            undivided: |format, x, y| {
                undivided_but(format, [x, y], |classes| match classes {
                    [_, Class::Zero] => Some(Answer::refused(2, format.default_nan())),
                    _ => None,
                })
            },
            ..RIGHT
        },
    ),
    (
        "zero by zero is zero",
        Rule {
            undivided: |format, x, y| {
                undivided_but(format, [x, y], |classes| match classes {
                    [Class::Zero, Class::Zero] => Some(Answer::word(x)),
                    _ => None,
                })
            },
            ..RIGHT
        },
    ),
    (
        "the second NaN",
        Rule {
            undivided: |format, x, y| {
                undivided_but(format, [x, y], |classes| match classes {
                    [Class::Nan, Class::Nan] => Some(Answer::word(format.quieted(y))),
                    _ => None,
                })
            },
            ..RIGHT
        },
    ),
];

/// A rule as remquo, and the shortcut beside them.
type Remquo<'a> = &'a dyn Fn(&Format, u64, u64) -> Answer;

/// x - nearbyint(x/y)·y in floats, and the quotient from there.
fn in_floats(format: &Format, x: u64, y: u64) -> Answer {
    if let Some(answer) = without_division(format, x, y) {
        return answer;
    }
    let (word, n) = if *format == BINARY64 {
        let [x, y] = [x, y].map(f64::from_bits);
        let n = (x / y).round_ties_even();
        ((x - n * y).to_bits(), n)
    } else {
        let [x, y] = [x, y].map(|x| f32::from_bits(x as u32));
        let n = (x / y).round_ties_even();
        ((x - n * y).to_bits().into(), n.into())
    };
    Answer::pair(word, (n % 8.0) as i64 as u64)
}

/// The vectors of remquo at this width; and edges, of divisions and of operands that have none.
fn pairs(format: &Format) -> [Vec<[u64; 2]>; 2] {
    let of_remquo = cases()
        .into_iter()
        .filter(|case| case.function.name == "remquo");
    let at_format = of_remquo.filter(|case| case.format == format);
    let vectors = at_format.map(|case| case.operands).collect();
    let mut edges = divisions::edges(format);
    let one = format.bias() << format.fraction_bits;
    let [signalling, quiet] = [format.infinity() + 1, format.default_nan() + 2];
    let special = [0, 1, one, format.infinity(), signalling, quiet];
    let special = special.map(|x| [x, format.negate(x)]).concat();
    for &x in &special {
        edges.extend(special.iter().map(|&y| [x, y]));
    }
    [vectors, edges]
}

/// On how many of these the rule gives another answer than the library.
fn refuted(format: &Format, pairs: &[[u64; 2]], rule: Remquo) -> usize {
    let library = Function::named("remquo")
        .expect("a function")
        .library(format);
    let differs = |&&[x, y]: &&[u64; 2]| rule(format, x, y) != library(x, y);
    pairs.iter().filter(differs).count()
}

#[test]
fn vectors_and_edges_refute_wrong_rules() {
    for format in FORMATS {
        let [vectors, edges] = pairs(&format);
        let check = |name: &str, rule: Remquo| {
            let [by_vectors, by_edges] =
                [&vectors, &edges].map(|pairs| refuted(&format, pairs, rule));
            let width = format.width();
            println!("{width} bits, {name}: by {by_vectors} vectors, {by_edges} edges");
            assert!(by_vectors >= 1, "{width} bits, {name}: no vector");
            // Four pairs of zeros are all that there are.
            assert!(by_edges >= 4, "{width} bits, {name}: {by_edges} edges");
        };
        for (name, rule) in WRONG {
            check(name, &|format, x, y| rule.remquo(format, x, y));
        }
        check("the quotient in floats", &in_floats);
    }
}

/// What the wrong ones are changed from.
#[test]
fn the_right_rule_is_not_refuted() {
    for format in FORMATS {
        for pairs in pairs(&format) {
            assert!(pairs.len() > 400, "{}", pairs.len());
            let rule = |format: &Format, x, y| RIGHT.remquo(format, x, y);
            assert_eq!(refuted(&format, &pairs, &rule), 0);
        }
    }
}
