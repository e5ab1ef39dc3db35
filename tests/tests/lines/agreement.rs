//! Recipes and frame lines from seeds, valid and damaged, over memory of many lengths, and how often
//! each refusal and each end came up.

use estrenwind_tests::comparison::on_all_cores;
use estrenwind_tests::patterns::Random;
use estrenwind_tests::recipes::comparison::Outcome;
use estrenwind_tests::recipes::{Call, LinesCall};
use estrenwind_tests::reference::recipe::Way;
use std::collections::BTreeMap;
use std::ops::Range;

/// Seeds that a test goes through, on all cores; each gives `CALLS` calls.
const SEEDS: u64 = 800;
const EXACT_SEEDS: u64 = 40;
const CALLS: u64 = RECIPES * ROOMS;
const RECIPES: u64 = 75;
/// Lengths of memory that the same lines are answered over.
const ROOMS: u64 = 7;

const LONG: usize = 19;
const SHORT: usize = 7;

/// The calls of a seed. Of its recipes, one in five has a fault in its text, and as many have a
/// step that refuses over the frame that they came with.
fn calls(seed: u64, visit: &mut dyn FnMut(LinesCall)) {
    let mut random = Random::new(0x11e5_0000 + seed);
    for recipe in 0..RECIPES {
        let fault = match recipe % 5 {
            0 => vec![10 + random.below(8)],
            1 => vec![20 + random.below(3)],
            _ => vec![],
        };
        let recipe = random.recipe(&fault);
        let count = match random.below(8) {
            0 => 0,
            1 => 1,
            2 => random.below(60),
            _ => random.below(12),
        };
        let lines = random.lines(&recipe, count);
        for _ in 0..ROOMS {
            visit(LinesCall {
                text: recipe.text.clone(),
                lines: lines.clone(),
                lent: random.room(count),
            });
        }
    }
}

/// What came up.
#[derive(Default)]
struct Counts {
    calls: u64,
    /// Refusals of calls, 0 where one is answered.
    refused: BTreeMap<u64, u64>,
    /// Refusals among the answers, and under 1 and 2 answers of these kinds.
    answers: BTreeMap<u64, u64>,
    /// Bytes that were left where a line was not answered for want of memory.
    left: BTreeMap<usize, u64>,
    /// Such calls whose next answer, a short one, would have fit.
    short_would_fit: u64,
    /// Calls that answered all lines, and such as left bytes without a line feed.
    all_read: u64,
    cut_off: u64,
    /// Lines by length, of those that have a special one.
    lengths: BTreeMap<usize, u64>,
}

impl Counts {
    fn add(&mut self, call: &LinesCall, outcome: &Outcome<LinesCall>) {
        self.calls += 1;
        *self.refused.entry(outcome.refusal()).or_default() += 1;
        if outcome.refusal() != 0 {
            return;
        }
        let (read, written) = (
            outcome.answer.read as usize,
            outcome.answer.written as usize,
        );
        let answers = &outcome.memory[LinesCall::BEFORE..][..written];
        for answer in answers.split_inclusive(|&byte| byte == b'\n') {
            let digits = match answer.len() {
                SHORT => &answer[2..4],
                _ => &answer[..2],
            };
            let digits = std::str::from_utf8(digits).expect("digits");
            let number = u64::from_str_radix(digits, 16).expect("digits");
            *self.answers.entry(number).or_default() += 1;
        }
        for line in call.lines[..read].split_inclusive(|&byte| byte == b'\n') {
            let length = match line.len() - 1 {
                length @ (0 | 255..=258) => length,
                1000.. => 1000,
                _ => continue,
            };
            *self.lengths.entry(length).or_default() += 1;
        }
        let rest = &call.lines[read..];
        let left = call.lent - written;
        if rest.is_empty() {
            self.all_read += 1;
        } else if !rest.contains(&b'\n') {
            self.cut_off += 1;
        } else {
            *self.left.entry(left).or_default() += 1;
            let whole = LinesCall {
                lines: rest.to_vec(),
                lent: LONG,
                ..call.clone()
            };
            let next = whole.reference(Way::Short).expect("the text is read");
            self.short_would_fit += (next.bytes.len() <= left) as u64;
        }
    }

    fn join(&mut self, other: Counts) {
        fn add<K: Ord>(all: &mut BTreeMap<K, u64>, other: BTreeMap<K, u64>) {
            for (key, count) in other {
                *all.entry(key).or_default() += count;
            }
        }
        self.calls += other.calls;
        add(&mut self.refused, other.refused);
        add(&mut self.answers, other.answers);
        add(&mut self.left, other.left);
        add(&mut self.lengths, other.lengths);
        self.short_would_fit += other.short_would_fit;
        self.all_read += other.all_read;
        self.cut_off += other.cut_off;
    }

    /// Stops where something came up too seldom.
    fn expect_enough(&self) {
        fn expect<K: Ord + std::fmt::Debug>(
            what: &str,
            counts: &BTreeMap<K, u64>,
            keys: impl IntoIterator<Item = K>,
            least: u64,
        ) {
            println!("{what}: {counts:?}");
            for key in keys {
                let met = counts.get(&key).copied().unwrap_or(0);
                assert!(met >= least, "{what} {key:?} was met {met} times");
            }
        }
        println!("{} calls", self.calls);
        let refusals = LinesCall::REFUSALS.iter().copied();
        expect("refusal", &self.refused, refusals.chain([0]), 1_000);
        expect(
            "answer",
            &self.answers,
            [1, 2, 30, 31, 32, 20, 21, 22],
            1_000,
        );
        expect("bytes left", &self.left, 0..LONG, 500);
        expect("length", &self.lengths, [0, 255, 256, 257, 258, 1000], 500);
        for (what, count) in [
            ("a short answer would fit", self.short_would_fit),
            ("all lines read", self.all_read),
            ("a last line cut off", self.cut_off),
        ] {
            println!("{what}: {count}");
            assert!(count >= 1_000, "{what}: {count} times");
        }
    }
}

fn compare(way: Way, seeds: Range<u64>) -> Counts {
    on_all_cores(seeds.end - seeds.start, Counts::join, |seed, counts| {
        let mut found = None;
        calls(seeds.start + seed, &mut |call| {
            if found.is_none() {
                let expected = Outcome::expected(way, &call);
                counts.add(&call, &expected);
                found = Outcome::library(&call).difference(&expected, &call);
            }
        });
        found
    })
}

#[test]
fn on_four_hundred_thousand_calls_by_the_short_form() {
    let counts = compare(Way::Short, 0..SEEDS);
    assert_eq!(counts.calls, SEEDS * CALLS);
    assert!(counts.calls >= 400_000, "{} calls", counts.calls);
    counts.expect_enough();
}

#[test]
fn on_twenty_thousand_calls_by_the_authority() {
    let counts = compare(Way::Exact, SEEDS..SEEDS + EXACT_SEEDS);
    assert_eq!(counts.calls, EXACT_SEEDS * CALLS);
}
