//! Calls from seeds, valid and damaged, and how often each refusal came up among them.

use crate::comparison::on_all_cores;
use crate::patterns::Random;
use crate::recipes::comparison::Outcome;
use crate::recipes::faults::damaged;
use crate::recipes::Call;
use crate::reference::recipe::{text, Way, OPERATIONS};
use std::collections::BTreeMap;
use std::ops::Range;

/// How often each refusal was met, and how often at which step, 0 standing for a call that was
/// answered, at its last step; how often each reason was; and how often a step of each opcode was
/// in a call that was answered.
#[derive(Default)]
pub struct Counts {
    pub calls: u64,
    met: BTreeMap<u64, BTreeMap<u64, u64>>,
    reasons: BTreeMap<u64, u64>,
    answered: BTreeMap<u8, u64>,
}

impl Counts {
    fn add<C: Call>(&mut self, call: &C, answer: C::Answer) {
        self.calls += 1;
        let refusal = C::refusal(answer);
        let lines = call.text().chunks_exact(text::LINE);
        let place = match refusal.number {
            0 => lines.len() as u64 - 1,
            _ => refusal.place,
        };
        let places = self.met.entry(refusal.number).or_default();
        *places.entry(place).or_default() += 1;
        *self.reasons.entry(C::reason(answer)).or_default() += 1;
        if refusal.number == 0 {
            for line in lines {
                let opcode = std::str::from_utf8(&line[..2]).expect("digits");
                let opcode = u8::from_str_radix(opcode, 16).expect("digits");
                *self.answered.entry(opcode).or_default() += 1;
            }
        }
    }

    fn join(&mut self, other: Counts) {
        self.calls += other.calls;
        for (refusal, places) in other.met {
            let all = self.met.entry(refusal).or_default();
            for (place, count) in places {
                *all.entry(place).or_default() += count;
            }
        }
        for (reason, count) in other.reasons {
            *self.reasons.entry(reason).or_default() += count;
        }
        for (opcode, count) in other.answered {
            *self.answered.entry(opcode).or_default() += count;
        }
    }

    fn of(&self, refusal: u64) -> u64 {
        let places = self.met.get(&refusal);
        places.map_or(0, |places| places.values().sum())
    }

    fn at(&self, refusal: u64, place: u64) -> u64 {
        let places = self.met.get(&refusal);
        places
            .and_then(|places| places.get(&place))
            .copied()
            .unwrap_or(0)
    }

    /// Stops where a refusal or a call that was answered was met too seldom, or not at the first, a
    /// middle and the last step; or a reason too seldom; or an opcode too seldom in calls that were
    /// answered.
    pub fn expect_enough<C: Call>(&self) {
        println!("{} calls, {} answered", self.calls, self.of(0));
        for &refusal in C::REFUSALS {
            println!("refusal {refusal}: {}", self.of(refusal));
        }
        for &refusal in C::REFUSALS.iter().chain(&[0]) {
            let met = self.of(refusal);
            assert!(met >= 1_000, "refusal {refusal} was met {met} times");
        }
        // The first step that a refusal can come at, some step, and the last of all.
        for (refusal, first) in [
            (0, 0),
            (11, 0),
            (12, 0),
            (13, 0),
            (14, 1),
            (15, 1),
            (16, 0),
            (17, 16),
            (32, 0),
            (20, 1),
            (21, 1),
            (22, 1),
        ] {
            if refusal == 32 && !C::REFUSALS.contains(&32) {
                continue;
            }
            for place in [first, 20, 127] {
                let met = self.at(refusal, place);
                assert!(met >= 20, "{refusal} was met {met} times at step {place}");
            }
        }
        for &reason in C::REASONS {
            let count = self.reasons.get(&reason).copied().unwrap_or(0);
            println!("reason {reason:02x}: {count}");
            assert!(count >= 1_000, "reason {reason:02x} was met {count} times");
        }
        for operation in &OPERATIONS {
            let opcode = operation.opcode;
            let count = self.answered.get(&opcode).copied().unwrap_or(0);
            println!("opcode {opcode:02x}: {count} steps of answered calls");
            assert!(count >= 1_000, "{opcode:02x} is in {count} answered calls");
        }
    }
}

/// Calls with every fault and without one, and with every pair of faults.
pub fn faults<C: Call>(random: &mut Random, visit: &mut dyn FnMut(C)) {
    for &first in C::REFUSALS {
        visit(damaged(random, &[first]).0);
        visit(damaged(random, &[]).0);
        for &second in C::REFUSALS {
            visit(damaged(random, &[first, second]).0);
        }
    }
}

/// Compares the calls of these seeds on all cores. `calls` visits those of a seed.
pub fn compare<C: Call>(
    way: Way,
    seeds: Range<u64>,
    calls: impl Fn(u64, &mut dyn FnMut(C)) + Sync,
) -> Counts {
    on_all_cores(seeds.end - seeds.start, Counts::join, |seed, counts| {
        let mut found = None;
        calls(seeds.start + seed, &mut |call| {
            if found.is_none() {
                let expected = Outcome::expected(way, &call);
                counts.add(&call, expected.answer);
                found = Outcome::library(&call).difference(&expected, &call);
            }
        });
        found
    })
}
