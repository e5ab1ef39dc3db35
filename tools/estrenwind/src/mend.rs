//! What would mend a recipe that is refused a sheet. Every mend is made to a copy of the steps and shown only where the library then takes the
//! step, so that none is a guess.

use crate::explain::Reason;
use crate::number;
use crate::recipe::{constant, text_of};
use estrenwind::{explain, Cause, Explanation, Kind, Operation, Step};

/// An input from another low end, to another high end, or both.
#[derive(Clone, Copy, Debug)]
struct Declared {
    input: usize,
    low: Option<u64>,
    high: Option<u64>,
}

/// Which operands of a step are exchanged for a bounded one.
#[derive(Clone, Copy, Debug, PartialEq, Eq)]
enum Place {
    A,
    B,
    /// Of a step whose A and B are one step.
    Both,
}

/// A change to a recipe.
#[derive(Clone, Copy, Debug)]
enum Mend {
    Declare(Declared),
    /// Two inputs at once.
    DeclareBoth([Declared; 2]),
    /// fmin or fmax of an operand of a step with a number, put before the step.
    Bound {
        at: usize,
        on: Place,
        operation: Operation,
        limit: f64,
    },
    /// Both: fmax with one number and fmin with another.
    Clamp {
        at: usize,
        on: Place,
        low: f64,
        high: f64,
    },
    /// Another constant.
    Constant {
        step: usize,
        word: u64,
    },
}

/// The operand of a step at a place.
fn operand_of(step: &Step, on: Place) -> usize {
    match on {
        Place::B => step.b,
        Place::A | Place::Both => step.a,
    }
}

/// Steps with fmin or fmax put before step `at`, and the same on its operand. Later steps move by two.
fn bounded(steps: &[Step], at: usize, on: Place, operation: Operation, limit: f64) -> Vec<Step> {
    let moved = |k: usize| if k < at { k } else { k + 2 };
    let operand = operand_of(&steps[at], on);
    let mut mended = steps[..at].to_vec();
    mended.push(constant(Kind::Double, limit.to_bits()));
    mended.push(Step {
        operation,
        a: operand,
        b: at,
        p: 0,
        q: 0,
    });
    mended.extend(steps[at..].iter().map(|step| {
        let operands = step.operation.operands().len();
        Step {
            a: if operands > 0 { moved(step.a) } else { 0 },
            b: if operands > 1 { moved(step.b) } else { 0 },
            ..*step
        }
    }));
    let step = &mut mended[at + 2];
    if on != Place::B {
        step.a = at + 1;
    }
    if on != Place::A {
        step.b = at + 1;
    }
    mended
}

fn declare(steps: &mut [Step], declared: Declared) {
    let input = &mut steps[declared.input];
    input.p = declared.low.unwrap_or(input.p);
    input.q = declared.high.unwrap_or(input.q);
}

impl Mend {
    fn made(&self, steps: &[Step]) -> Vec<Step> {
        let mut mended = steps.to_vec();
        match *self {
            Mend::Declare(declared) => declare(&mut mended, declared),
            Mend::DeclareBoth(both) => {
                for declared in both {
                    declare(&mut mended, declared);
                }
            }
            Mend::Constant { step, word } => mended[step].p = word,
            Mend::Bound {
                at,
                on,
                operation,
                limit,
            } => return bounded(steps, at, on, operation, limit),
            Mend::Clamp { at, on, low, high } => {
                let once = bounded(steps, at, on, Operation::Fmax, low);
                return bounded(&once, at + 2, on, Operation::Fmin, high);
            }
        }
        mended
    }

    /// Whether the library takes the refused step, and all before it, once this is done.
    fn helps(&self, reason: &Reason) -> bool {
        let front = &reason.recipe.steps[..=reason.step];
        explain(&text_of(&self.made(front))) == Ok(Explanation::Passes)
    }

    fn words(&self, reason: &Reason) -> String {
        let name = |k: usize| &reason.recipe.names[k];
        let it = |k: usize| if k == reason.step { "it" } else { name(k) };
        let double = |x: f64| number::word_text(Kind::Double, x.to_bits());
        // The range of an input, as it is to be declared.
        let range = |declared: Declared| {
            let Declared { input, low, high } = declared;
            let text = |word: u64| number::word_text(reason.recipe.kind(input), word);
            match (low, high) {
                (Some(low), Some(high)) => {
                    format!("{} from {} to {}", name(input), text(low), text(high))
                }
                (Some(low), None) => format!("{} from {}", name(input), text(low)),
                (_, high) => format!("{} up to {}", name(input), text(high.unwrap_or(0))),
            }
        };
        let operand = |at: usize, on: Place| name(operand_of(&reason.recipe.steps[at], on));
        let both = |on: Place| {
            if on == Place::Both {
                ", for A and B"
            } else {
                ""
            }
        };
        match *self {
            Mend::Declare(declared) => format!("declare {}", range(declared)),
            Mend::DeclareBoth([a, b]) => format!("declare {}, and {}", range(a), range(b)),
            Mend::Bound {
                at,
                on,
                operation,
                limit,
            } => format!(
                "put {} {} {} before {}{}",
                operation.name(),
                operand(at, on),
                double(limit),
                it(at),
                both(on)
            ),
            Mend::Clamp { at, on, low, high } => format!(
                "put fmax {} {}, and fmin of that with {}, before {}{}",
                operand(at, on),
                double(low),
                double(high),
                it(at),
                both(on)
            ),
            Mend::Constant { step, word } => {
                let number = number::word_text(reason.recipe.kind(step), word);
                format!("take {number} in the place of the constant {}", name(step))
            }
        }
    }
}

/// What would mend it, in words: a change of what is declared, and a step to put in, as far as there are such.
pub fn mends(reason: &Reason) -> Vec<String> {
    let first = |mends: Vec<Mend>| mends.into_iter().find(|mend| mend.helps(reason));
    let found = [first(declarations(reason)), first(insertions(reason))];
    found
        .into_iter()
        .flatten()
        .map(|mend| mend.words(reason))
        .collect()
}

/// Doubles that most numbers of a scene lie well within; the first that helps is taken.
const WIDE: [f64; 3] = [1e9, 1e3, 1.0];

/// Whole numbers of which two add up within 64 bits.
const HALF_OF_WHOLE: i64 = 4_000_000_000_000_000_000;

/// Doubles whose lround fits 64 bits.
const LROUND_FITS: f64 = 1e18;

/// Whole numbers up to this have a double, 2^53.
const EXACT: i64 = 1 << 53;

fn operation_at(reason: &Reason, k: usize) -> Operation {
    reason.recipe.steps[k].operation
}

fn double_ends(reason: &Reason, k: usize) -> (f64, f64) {
    let range = &reason.ranges[k];
    (f64::from_bits(range.low), f64::from_bits(range.high))
}

/// Inputs declared narrower, and constants of other values.
fn declarations(reason: &Reason) -> Vec<Mend> {
    let operand = reason.operand;
    let is_input = |k: usize| operation_at(reason, k).is_input();
    let step = reason.recipe.steps[reason.step];
    let declare = |input: usize, low: Option<u64>, high: Option<u64>| {
        Mend::Declare(Declared { input, low, high })
    };
    let double = |x: f64| Some(x.to_bits());
    match reason.cause {
        Cause::DivisorHoldsZero if is_input(operand) => match off_zero(reason) {
            Some((Operation::Fmax, limit)) => vec![declare(operand, double(limit), None)],
            Some((_, limit)) => vec![declare(operand, None, double(limit))],
            None => vec![],
        },
        Cause::DivisorHoldsZero if operation_at(reason, operand).is_constant() => {
            vec![Mend::Constant {
                step: operand,
                word: 1f64.to_bits(),
            }]
        }
        Cause::DividendLowInfinite
        | Cause::DividendHighInfinite
        | Cause::LdexpLowInfinite
        | Cause::LdexpHighInfinite
        | Cause::LroundLow
        | Cause::LroundHigh
            if is_input(operand) =>
        {
            within(&[operand], &double_ends_of(limits(reason)))
        }
        Cause::ALowInfinite
        | Cause::AHighInfinite
        | Cause::BLowInfinite
        | Cause::BHighInfinite
        | Cause::AnswerLowOverflows
        | Cause::AnswerHighOverflows => {
            let operands: Vec<usize> = places(&step)
                .iter()
                .map(|&on| operand_of(&step, on))
                .collect();
            let inputs: Vec<usize> = operands.iter().copied().filter(|&k| is_input(k)).collect();
            let mut mends = within(&inputs, &double_ends_of(&WIDE));
            mends.extend(other_constants(reason, &operands));
            // Where A and B have infinite ends, neither change is enough alone.
            if let [a, b] = inputs[..] {
                mends.extend(WIDE.map(|limit| {
                    Mend::DeclareBoth([a, b].map(|input| finite(reason, input, limit)))
                }));
            }
            mends
        }
        Cause::WholeLow | Cause::WholeHigh => within(
            &whole_inputs(reason, &[step.a, step.b]),
            &[HALF_OF_WHOLE, EXACT].map(whole_ends),
        ),
        Cause::LdexpLowOverflows | Cause::LdexpHighOverflows => {
            let changed = |word: u64| {
                if is_input(step.b) {
                    Some(declare(step.b, None, Some(word)))
                } else if operation_at(reason, step.b).is_constant() {
                    Some(Mend::Constant { step: step.b, word })
                } else {
                    None
                }
            };
            let least = if is_input(step.b) {
                reason.recipe.steps[step.b].p as i64
            } else {
                i64::MIN
            };
            largest(reason, least, changed).into_iter().collect()
        }
        Cause::TooBigLow | Cause::TooBigHigh => within(
            &whole_inputs(reason, &[operand]),
            &[EXACT, EXACT / 2, EXACT / 4].map(whole_ends),
        ),
        _ => vec![],
    }
}

/// The operands of a step of two, once where they are one step.
fn places(step: &Step) -> &'static [Place] {
    if step.a == step.b {
        &[Place::Both]
    } else {
        &[Place::A, Place::B]
    }
}

/// The 64 bits of each double's negative, and its own.
fn double_ends_of(limits: &[f64]) -> Vec<[u64; 2]> {
    limits.iter().map(|x| [-x, *x].map(f64::to_bits)).collect()
}

/// An input with a limit in the place of each end that is infinite.
fn finite(reason: &Reason, input: usize, limit: f64) -> Declared {
    let (low, high) = double_ends(reason, input);
    let instead = |end: f64| (!end.is_finite()).then(|| limit.copysign(end).to_bits());
    Declared {
        input,
        low: instead(low),
        high: instead(high),
    }
}

/// Other values, of the same sign, for those of these steps that are constants.
fn other_constants(reason: &Reason, steps: &[usize]) -> Vec<Mend> {
    let constants = steps
        .iter()
        .filter(|&&k| operation_at(reason, k).is_constant());
    constants
        .flat_map(|&step| {
            let (number, _) = double_ends(reason, step);
            WIDE.map(|limit| Mend::Constant {
                step,
                word: limit.copysign(number).to_bits(),
            })
        })
        .collect()
}

/// The 64 bits of a whole number's negative, and its own.
fn whole_ends(limit: i64) -> [u64; 2] {
    [-limit, limit].map(|end| end as u64)
}

/// Each of these inputs within each of these ranges, at its low end, at its high end, and at both.
fn within(inputs: &[usize], ranges: &[[u64; 2]]) -> Vec<Mend> {
    let mut mends = Vec::new();
    for &[low, high] in ranges {
        for &input in inputs {
            let ends = [
                (Some(low), None),
                (None, Some(high)),
                (Some(low), Some(high)),
            ];
            mends.extend(ends.map(|(low, high)| Mend::Declare(Declared { input, low, high })));
        }
    }
    mends
}

/// The inputs that some steps are, or that they come from by sums and differences alone.
fn whole_inputs(reason: &Reason, steps: &[usize]) -> Vec<usize> {
    let mut behind = vec![false; reason.step];
    for &k in steps {
        behind[k] = true;
    }
    // Operands stand before their steps, so that one way down finds all of them.
    for k in (0..reason.step).rev() {
        if behind[k]
            && matches!(
                operation_at(reason, k),
                Operation::Sum | Operation::Difference
            )
        {
            for operand in reason.recipe.steps[k].operands() {
                behind[operand] = true;
            }
        }
    }
    (0..reason.step)
        .filter(|&k| behind[k] && operation_at(reason, k) == Operation::WholeInput)
        .collect()
}

/// fmin and fmax put in.
fn insertions(reason: &Reason) -> Vec<Mend> {
    let at = reason.step;
    let bounds = |at: usize, on: Place, limit: f64| {
        let bound = |operation, limit| Mend::Bound {
            at,
            on,
            operation,
            limit,
        };
        [
            bound(Operation::Fmax, -limit),
            bound(Operation::Fmin, limit),
            Mend::Clamp {
                at,
                on,
                low: -limit,
                high: limit,
            },
        ]
    };
    let both = |at: usize, limit: f64| bounds(at, Place::A, limit);
    match reason.cause {
        Cause::DivisorHoldsZero => off_zero(reason)
            .map(|(operation, limit)| Mend::Bound {
                at,
                on: Place::B,
                operation,
                limit,
            })
            .into_iter()
            .collect(),
        Cause::ALowInfinite
        | Cause::AHighInfinite
        | Cause::BLowInfinite
        | Cause::BHighInfinite
        | Cause::AnswerLowOverflows
        | Cause::AnswerHighOverflows => WIDE
            .iter()
            .flat_map(|&limit| {
                let step = reason.recipe.steps[at];
                let is_worked =
                    move |on: &&Place| !operation_at(reason, operand_of(&step, **on)).is_constant();
                let places = places(&step).iter().filter(is_worked);
                places.flat_map(move |&on| bounds(at, on, limit))
            })
            .collect(),
        Cause::DividendLowInfinite
        | Cause::DividendHighInfinite
        | Cause::LdexpLowInfinite
        | Cause::LdexpHighInfinite
        | Cause::LdexpLowOverflows
        | Cause::LdexpHighOverflows
        | Cause::LroundLow
        | Cause::LroundHigh => limits(reason)
            .iter()
            .flat_map(|&limit| both(at, limit))
            .collect(),
        // Whole numbers have no fmin: where they come from lround, what it rounds is bounded.
        Cause::TooBigLow | Cause::TooBigHigh
            if operation_at(reason, reason.operand) == Operation::Lround =>
        {
            both(reason.operand, EXACT as f64).to_vec()
        }
        Cause::WholeLow | Cause::WholeHigh => {
            let step = reason.recipe.steps[at];
            let rounded = |&k: &usize| operation_at(reason, k) == Operation::Lround;
            [step.a, step.b]
                .into_iter()
                .filter(rounded)
                .flat_map(|k| both(k, LROUND_FITS))
                .collect()
        }
        _ => vec![],
    }
}

/// The numbers within which a cause is no more.
fn limits(reason: &Reason) -> &'static [f64] {
    match reason.cause {
        Cause::LroundLow | Cause::LroundHigh => &[LROUND_FITS],
        _ => &WIDE,
    }
}

/// How a divisor is kept off zero: by fmax or fmin, with 1 or the end of its range that is nearer to zero.
fn off_zero(reason: &Reason) -> Option<(Operation, f64)> {
    let (low, high) = double_ends(reason, reason.operand);
    if high > 0.0 {
        Some((Operation::Fmax, high.min(1.0)))
    } else if low < 0.0 {
        Some((Operation::Fmin, low.max(-1.0)))
    } else {
        None
    }
}

/// The change by the largest power of two that helps, from the least that may be: what is smaller helps too.
fn largest(reason: &Reason, least: i64, changed: impl Fn(u64) -> Option<Mend>) -> Option<Mend> {
    // No double is scaled up by more than 2,098 powers and stays one, and by so many down each becomes a zero.
    let (mut helps, mut fails) = (least.clamp(-2_200, 2_200), 2_200i64);
    changed(helps as u64)?;
    while fails - helps > 1 {
        let middle = (helps + fails) / 2;
        if changed(middle as u64)?.helps(reason) {
            helps = middle;
        } else {
            fails = middle;
        }
    }
    changed(helps as u64)
}

/// What to do about a cause where no single change was found that helps.
pub fn general(cause: Cause) -> &'static str {
    match cause {
        Cause::DivisorHoldsZero => "divide by a step that is never zero",
        Cause::DividendLowInfinite | Cause::DividendHighInfinite | Cause::LdexpLowInfinite | Cause::LdexpHighInfinite => {
            "declare the inputs that it comes from finite, or bound it with fmin and fmax"
        }
        Cause::LroundLow | Cause::LroundHigh => "bound what is rounded to 1e18 with fmin and fmax",
        Cause::WholeLow | Cause::WholeHigh => {
            "declare the whole inputs that it comes from narrower, or bound them while they are doubles, before lround"
        }
        Cause::LdexpLowOverflows | Cause::LdexpHighOverflows => {
            "scale by a smaller power, or bound what is scaled with fmin and fmax"
        }
        Cause::TooBigLow | Cause::TooBigHigh => {
            "declare the whole inputs that it comes from narrower, or bound them while they are doubles, before lround"
        }
        Cause::ALowInfinite | Cause::AHighInfinite | Cause::BLowInfinite | Cause::BHighInfinite => {
            "declare the inputs that A and B come from finite, or bound A and B with fmin and fmax"
        }
        Cause::AnswerLowOverflows | Cause::AnswerHighOverflows => {
            "declare the inputs that A and B come from narrower, or bound A and B with fmin and fmax"
        }
        _ => "see docs/FORMATS.md",
    }
}
