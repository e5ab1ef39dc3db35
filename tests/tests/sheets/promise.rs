//! What a passed sheet promises: every run over a frame of inputs in their declared ranges completes,
//! each of its words lies in the range that the sheet shows for its step, and a double with the mark
//! is finite and integral. Sheet and runs are the library's; the reference takes no part but in the
//! choice of recipes.

use estrenwind_tests::comparison::on_all_cores;
use estrenwind_tests::library::{self, RunAnswer, SheetAnswer};
use estrenwind_tests::patterns::Random;
use estrenwind_tests::recipes::growing::{grow, grow_marked, grow_sheet};
use estrenwind_tests::recipes::shown::{is_finite_and_integral, read, Shown};
use estrenwind_tests::recipes::{frame, Draft, Line};
use estrenwind_tests::reference::recipe::{text, Kind, Operation, OPERATIONS};
use estrenwind_tests::reference::BINARY64;
use std::collections::BTreeMap;

const SEEDS: u64 = 3_000;

/// Frames that are drawn for a recipe with inputs.
const FRAMES: usize = 20;

/// Where a word lies, seen from a range.
#[derive(Clone, Copy, Debug, PartialEq, Eq, PartialOrd, Ord)]
enum Lie {
    /// The range's only number.
    Alone,
    Low,
    High,
    /// Neither the lowest nor the highest of more than one.
    Inside,
    Outside,
}

/// By the language's own comparison, for which the zeros are equal and a NaN is nowhere.
fn lie_of<T: PartialOrd>(low: T, word: T, high: T) -> Lie {
    if !(low <= word && word <= high) {
        Lie::Outside
    } else if low == high {
        Lie::Alone
    } else if word == low {
        Lie::Low
    } else if word == high {
        Lie::High
    } else {
        Lie::Inside
    }
}

fn lie(shown: &Shown, word: u64) -> Lie {
    let Shown { low, high, .. } = *shown;
    match shown.kind {
        Kind::Double => {
            let [low, word, high] = [low, word, high].map(f64::from_bits);
            lie_of(low, word, high)
        }
        Kind::Whole => lie_of(low as i64, word as i64, high as i64),
    }
}

/// How a run's words break what the lines of a sheet say of their steps, if they do: the first step,
/// and the word there.
pub fn broken(shown: &[Shown], words: &[u64]) -> Option<(usize, String)> {
    let lines = shown.iter().zip(words).enumerate();
    let mut broken = lines.filter_map(|(step, (shown, &word))| {
        if lie(shown, word) == Lie::Outside {
            Some((step, format!("step {step}: {word:016x} is outside")))
        } else if shown.kind == Kind::Double && shown.mark && !is_finite_and_integral(word) {
            Some((step, format!("step {step}: {word:016x} is no integer")))
        } else {
            None
        }
    });
    broken.next()
}

/// What sort of an input was drawn.
#[derive(Clone, Copy, Debug, PartialEq, Eq, PartialOrd, Ord)]
enum Sort {
    Low,
    High,
    BesideLow,
    BesideHigh,
    PlusZero,
    MinusZero,
    Subnormal,
    Infinite,
    Between,
}

/// An input may be of more than one sort, if the range is small.
fn sorts(kind: Kind, [p, q]: [u64; 2], word: u64) -> Vec<Sort> {
    let (ends, zero, subnormal, infinite) = match kind {
        Kind::Double => {
            let [low, word, high] = [p, word, q].map(f64::from_bits);
            let beside = [low.next_up() == word, high.next_down() == word];
            let ends = [low == word, high == word, beside[0], beside[1]];
            (ends, word == 0.0, word.is_subnormal(), word.is_infinite())
        }
        Kind::Whole => {
            let [low, word, high] = [p, word, q].map(|end| end as i64);
            let beside = [low.checked_add(1), high.checked_sub(1)].map(|n| n == Some(word));
            let ends = [low == word, high == word, beside[0], beside[1]];
            (ends, false, false, false)
        }
    };
    let mut sorts = Vec::new();
    for (held, sort) in [
        (ends[0], Sort::Low),
        (ends[1], Sort::High),
        (ends[2], Sort::BesideLow),
        (ends[3], Sort::BesideHigh),
        (zero && word == 0, Sort::PlusZero),
        (zero && word != 0, Sort::MinusZero),
        (subnormal, Sort::Subnormal),
        (infinite, Sort::Infinite),
        (ends == [false; 4], Sort::Between),
    ] {
        if held {
            sorts.push(sort);
        }
    }
    sorts
}

const SORTS: [Sort; 9] = [
    Sort::Low,
    Sort::High,
    Sort::BesideLow,
    Sort::BesideHigh,
    Sort::PlusZero,
    Sort::MinusZero,
    Sort::Subnormal,
    Sort::Infinite,
    Sort::Between,
];

#[derive(Default)]
struct Counts {
    passed: u64,
    refused: u64,
    runs: u64,
    /// Runs of recipes with a sum, a difference or a product of doubles.
    with_sums: u64,
    prefixes: u64,
    words: BTreeMap<(u8, bool, Lie), u64>,
    inputs: BTreeMap<(u8, Sort), u64>,
}

impl Counts {
    fn join(&mut self, other: Counts) {
        self.passed += other.passed;
        self.refused += other.refused;
        self.runs += other.runs;
        self.with_sums += other.with_sums;
        self.prefixes += other.prefixes;
        for (lie, count) in other.words {
            *self.words.entry(lie).or_default() += count;
        }
        for (sort, count) in other.inputs {
            *self.inputs.entry(sort).or_default() += count;
        }
    }

    /// Words of steps with this opcode and mark.
    fn words(&self, opcode: u8, mark: bool, lie: Lie) -> u64 {
        self.words.get(&(opcode, mark, lie)).copied().unwrap_or(0)
    }

    fn inputs(&self, opcode: u8, sort: Sort) -> u64 {
        self.inputs.get(&(opcode, sort)).copied().unwrap_or(0)
    }
}

/// The recipes of a seed: grown along ranges, with few marks and with many, with and without a step
/// that the sheet is to refuse; grown along a frame, where it may; each step on inputs; and sums,
/// differences and products on ranges at the numbers where these are hard.
fn recipes(random: &mut Random) -> Vec<Draft> {
    let mut drafts = Vec::new();
    for grow in [grow_sheet, grow_marked] {
        for _ in 0..12 {
            let plan = random.plan();
            drafts.push(grow(random, &plan).0);
        }
    }
    for number in [20, 21, 22] {
        let plan = random.plan();
        let plan = random.with_refusing(plan, &[number]);
        drafts.push(grow_sheet(random, &plan).0);
    }
    for _ in 0..4 {
        let plan = random.plan();
        drafts.push(grow(random, &plan).0);
    }
    let steps = OPERATIONS.iter().filter(|operation| operation.uses_a());
    drafts.extend(steps.map(|operation| on_inputs(random, operation)));
    for opcode in [0x40, 0x41, 0x42].repeat(4) {
        drafts.push(on_summands(random, opcode));
    }
    drafts
}

/// A sum, a difference or a product, on inputs whose ranges begin or end where digits cancel, at a tie,
/// or about the smallest and the largest numbers; and the next such step on that.
pub fn on_summands(random: &mut Random, opcode: u8) -> Draft {
    let [x, y] = random.finite_pair(&BINARY64);
    let [x, y] = [x, y].map(|word| random.range_from(word));
    let mut lines = [x, y].map(|ends| Line::input(Kind::Double, ends)).to_vec();
    lines.push(Line::step(opcode, 0, 1));
    if random.below(2) == 0 {
        let next = 0x40 + random.below(3) as u8;
        lines.push(Line::step(next, 2, random.below(2) as usize));
    }
    let words = vec![x[0], y[0]];
    Draft { lines, words }
}

/// The step on inputs of moderate ranges.
fn on_inputs(random: &mut Random, operation: &Operation) -> Draft {
    let kinds = operation.source.operands();
    let input = |&kind| Line::input(kind, random.declared_range(kind));
    let mut lines: Vec<Line> = kinds.iter().map(input).collect();
    lines.push(Line::step(operation.opcode, 0, kinds.len() - 1));
    let words = lines[..kinds.len()].iter().map(|line| line.p).collect();
    Draft { lines, words }
}

/// The frames of a recipe, no two the same: each input at its low end, each at its high one, and
/// drawn ones. Without inputs there is one frame.
pub fn frames(random: &mut Random, draft: &Draft) -> Vec<Vec<u64>> {
    let inputs: Vec<Line> = (draft.inputs().into_iter())
        .map(|place| draft.lines[place])
        .collect();
    if inputs.is_empty() {
        return vec![vec![]];
    }
    let mut frames: Vec<Vec<u64>> = vec![
        inputs.iter().map(|line| line.p).collect(),
        inputs.iter().map(|line| line.q).collect(),
    ];
    frames.resize_with(FRAMES, || {
        let word = |line: &Line| random.declared(line.kind().expect("an input"), [line.p, line.q]);
        inputs.iter().map(word).collect()
    });
    frames.sort_unstable();
    frames.dedup();
    frames
}

/// A recipe's sheet, and its runs if it passes: what breaks the promise, if anything does.
fn check(random: &mut Random, draft: &Draft, counts: &mut Counts) -> Option<String> {
    let call = draft.sheet_call();
    let mut sheet = vec![0; call.lent];
    let answer = library::sheet(&call.text, &mut sheet);
    if answer.refusal != 0 {
        counts.refused += 1;
        return None;
    }
    counts.passed += 1;
    assert_eq!(answer, SheetAnswer::passed(draft.lines.len()), "{call}");
    let shown = read(&sheet);
    let text = &call.text;
    let told = |words: &[u64], what: String| {
        let frame = frame(words);
        let sheet = String::from_utf8_lossy(&sheet);
        Some(format!(
            "{what}\n{call}\nframe {}\nsheet\n{sheet}",
            frame.escape_ascii()
        ))
    };
    let mut words = vec![0; shown.len()];
    let is_sum = |line: &Line| (0x40..=0x42).contains(&line.opcode);
    let has_sum = draft.lines.iter().any(is_sum);
    for (number, inputs) in frames(random, draft).into_iter().enumerate() {
        counts.runs += 1;
        counts.with_sums += has_sum as u64;
        let answer = library::run(text, &frame(&inputs), &mut words);
        let expected = RunAnswer {
            refusal: 0,
            place: 0,
            kind: shown[shown.len() - 1].kind as u64,
            word: words[shown.len() - 1],
        };
        if answer != expected {
            return told(&inputs, format!("{answer}\nexpected {expected}"));
        }
        if let Some((_, what)) = broken(&shown, &words) {
            return told(&inputs, what);
        }
        for ((shown, &word), line) in shown.iter().zip(&words).zip(&draft.lines) {
            let of_word = (line.opcode, shown.mark, lie(shown, word));
            *counts.words.entry(of_word).or_default() += 1;
        }
        for (place, &word) in draft.inputs().into_iter().zip(&inputs) {
            let line = draft.lines[place];
            let kind = line.kind().expect("an input");
            for sort in sorts(kind, [line.p, line.q], word) {
                *counts.inputs.entry((line.opcode, sort)).or_default() += 1;
            }
        }
        // A run tells the kind of its last step: of the others, the runs up to them do.
        if number == 0 && random.below(8) == 0 {
            for (step, shown) in shown.iter().enumerate() {
                counts.prefixes += 1;
                let steps = step + 1;
                let used = draft.inputs().into_iter().filter(|&place| place < steps);
                let frame = frame(&inputs[..used.count()]);
                let mut prefix = vec![0; steps];
                let answer = library::run(&text[..text::LINE * steps], &frame, &mut prefix);
                if (answer.refusal, answer.kind) != (0, shown.kind as u64) {
                    return told(&inputs, format!("up to step {step}: {answer}"));
                }
                if prefix[..] != words[..steps] {
                    return told(&inputs, format!("other words up to step {step}"));
                }
            }
        }
    }
    None
}

#[test]
fn every_run_of_a_passed_sheet_completes_in_its_ranges() {
    let counts: Counts = on_all_cores(SEEDS, Counts::join, |seed, counts| {
        let mut random = Random::new(0x9000_0000 + seed);
        let drafts = recipes(&mut random);
        let mut broken = drafts
            .iter()
            .filter_map(|draft| check(&mut random, draft, counts));
        broken.next()
    });
    let (passed, refused) = (counts.passed, counts.refused);
    println!("{passed} sheets passed, {refused} refused");
    println!("{} runs, {} up to a step", counts.runs, counts.prefixes);
    println!("{} runs with steps 40 to 42", counts.with_sums);
    assert!(counts.with_sums >= 1_000_000, "{}", counts.with_sums);
    assert!(counts.prefixes >= 20_000, "{} prefixes", counts.prefixes);

    // Of each step, with the mark and without where it can be so, words at either end and between
    // them. A constant has no range but itself, and neither has an input with the mark.
    for operation in &OPERATIONS {
        let opcode = operation.opcode;
        for mark in [false, true] {
            let lies = [Lie::Alone, Lie::Low, Lie::High, Lie::Inside];
            let met = lies.map(|lie| counts.words(opcode, mark, lie));
            println!("opcode {opcode:02x}, mark {mark}, words alone, low, high, inside: {met:?}");
            let (some, none) = met.split_at(match (opcode, mark) {
                (0x15 | 0x23, true) => 0,
                (0x02 | 0x04 | 0x18 | 0x30 | 0x31 | 0x32, false) => 0,
                (0x03 | 0x04, _) | (0x01, true) => 1,
                _ => 4,
            });
            assert!(
                some.iter().all(|&count| count >= 1_000),
                "opcode {opcode:02x}, mark {mark}: {met:?}"
            );
            assert!(none.iter().all(|&count| count == 0), "{opcode:02x}, {mark}");
        }
    }

    for sort in SORTS {
        let met = [0x01, 0x02].map(|opcode| counts.inputs(opcode, sort));
        println!("inputs {sort:?}: {met:?}");
        let only_doubles = [
            Sort::PlusZero,
            Sort::MinusZero,
            Sort::Subnormal,
            Sort::Infinite,
        ];
        let expected = &met[..if only_doubles.contains(&sort) { 1 } else { 2 }];
        assert!(
            expected.iter().all(|&count| count >= 1_000),
            "{sort:?}: {met:?}"
        );
    }
}

/// A look that called everything inside would find no promise broken.
#[test]
#[rustfmt::skip]
fn words_lie_where_they_should() {
    use Lie::{Alone, High, Inside, Low, Outside};
    const ONE: u64 = 0x3ff0000000000000;
    const INFINITY: u64 = 0x7ff0000000000000;
    const MINUS: u64 = 1 << 63;
    for (kind, low, high, word, expected) in [
        (Kind::Double, 0, ONE, MINUS, Low),
        (Kind::Double, MINUS, ONE, 0, Low),
        (Kind::Double, MINUS, 0, 0, Alone),
        (Kind::Double, 0, ONE, 1, Inside),
        (Kind::Double, 0, ONE, MINUS | 1, Outside),
        (Kind::Double, 0, ONE, ONE - 1, Inside),
        (Kind::Double, 0, ONE, ONE, High),
        (Kind::Double, 0, ONE, ONE + 1, Outside),
        (Kind::Double, MINUS | ONE, ONE, MINUS | (ONE - 1), Inside),
        (Kind::Double, MINUS | ONE, ONE, MINUS | (ONE + 1), Outside),
        (Kind::Double, MINUS | INFINITY, INFINITY, INFINITY - 1, Inside),
        (Kind::Double, MINUS | INFINITY, INFINITY, MINUS | INFINITY, Low),
        (Kind::Double, MINUS | INFINITY, INFINITY, INFINITY + 1, Outside),
        (Kind::Double, MINUS | INFINITY, INFINITY, MINUS | INFINITY | 1, Outside),
        (Kind::Whole, MINUS, INFINITY, 0, Inside),
        (Kind::Whole, MINUS, INFINITY, MINUS, Low),
        (Kind::Whole, MINUS, INFINITY, INFINITY + 1, Outside),
        (Kind::Whole, u64::MAX, 1, 0, Inside),
        (Kind::Whole, u64::MAX, 1, u64::MAX - 1, Outside),
        (Kind::Whole, u64::MAX, u64::MAX, u64::MAX, Alone),
    ] {
        let shown = Shown { kind, mark: false, low, high };
        assert_eq!(lie(&shown, word), expected, "{kind:?} {low:x} {high:x} {word:x}");
    }
}

/// What a line says is broken by a word outside its range, and by a fraction or an infinity where a
/// double has the mark. A whole number has no fraction whatever its bits.
#[test]
#[rustfmt::skip]
fn words_break_what_they_should() {
    const ONE: u64 = 0x3ff0000000000000;
    const HALF: u64 = 0x3fe0000000000000;
    const INFINITY: u64 = 0x7ff0000000000000;
    const MINUS: u64 = 1 << 63;
    for (kind, mark, word, is_broken) in [
        (Kind::Double, true, 0, false),
        (Kind::Double, true, MINUS, false),
        (Kind::Double, true, ONE, false),
        (Kind::Double, true, HALF, true),
        (Kind::Double, true, 1, true),
        (Kind::Double, true, INFINITY, true),
        (Kind::Double, true, INFINITY - 1, false),
        (Kind::Double, false, HALF, false),
        (Kind::Double, false, INFINITY, false),
        (Kind::Double, false, INFINITY + 1, true),
        (Kind::Double, false, MINUS | 1, true),
        (Kind::Double, true, MINUS | ONE, true),
        (Kind::Whole, true, HALF, false),
        (Kind::Whole, true, MINUS | 1, true),
    ] {
        let range = [0, INFINITY];
        let shown = |mark, [low, high]: [u64; 2]| Shown { kind, mark, low, high };
        let lines = [shown(false, range), shown(mark, range), shown(false, range)];
        let step = broken(&lines, &[0, word, 0]).map(|(step, _)| step);
        assert_eq!(step, is_broken.then_some(1), "{kind:?} {mark} {word:x}");
    }
}
