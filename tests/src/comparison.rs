//! Holding the library's answers against those expected, and telling every function that went
//! wrong.

use crate::answer::Answer;
use crate::functions::{Function, FUNCTIONS};
use crate::reference::Format;
use std::fmt;
use std::sync::atomic::{AtomicU64, Ordering};
use std::sync::Mutex;
use std::thread;

/// A case on which two answers differ.
pub struct Difference {
    pub name: &'static str,
    pub width: u32,
    pub operands: [u64; 2],
    pub answer: Answer,
    pub expected: Answer,
}

impl fmt::Display for Difference {
    fn fmt(&self, f: &mut fmt::Formatter) -> fmt::Result {
        let [x, y] = self.operands;
        let digits = self.width as usize / 4;
        write!(f, "{} {} {x:0digits$x} {y:x}: ", self.name, self.width)?;
        write!(f, "{}, expected {}", self.answer, self.expected)
    }
}

/// The first case on which the library's function doesn't give the answer expected.
pub fn first_difference(
    function: &Function,
    format: &Format,
    cases: impl Iterator<Item = ([u64; 2], Answer)>,
) -> Option<Difference> {
    let library = function.library(format);
    for (operands, expected) in cases {
        let answer = library(operands[0], operands[1]);
        if answer != expected {
            return Some(Difference {
                name: function.name,
                width: format.width(),
                operands,
                answer,
                expected,
            });
        }
    }
    None
}

/// Checks every function at every format that it has, on all cores, and stops with all that was found: a
/// mistake in one function doesn't hide another's.
pub fn check_every_function<D: fmt::Display + Send>(
    check: impl Fn(&'static Function, &'static Format) -> Option<D> + Sync,
) {
    let jobs: Vec<_> = FUNCTIONS
        .iter()
        .flat_map(|function| function.formats().map(move |format| (function, format)))
        .collect();
    let join = |all: &mut Vec<String>, found| all.extend(found);
    let found = on_all_cores(jobs.len() as u64, join, |job, found| {
        let (function, format) = jobs[job as usize];
        found.extend(check(function, format).map(|difference| difference.to_string()));
        None
    });
    assert!(found.is_empty(), "differences:\n{}", found.join("\n"));
}

/// Goes through so many jobs, or seeds, on all cores. `work` counts, and gives what is wrong, if
/// anything is: then the test stops.
pub fn on_all_cores<C: Default + Send>(
    jobs: u64,
    join: fn(&mut C, C),
    work: impl Fn(u64, &mut C) -> Option<String> + Sync,
) -> C {
    let next = AtomicU64::new(0);
    let all = Mutex::new((C::default(), Vec::new()));
    let core = || {
        let (mut counts, mut found) = (C::default(), None);
        while found.is_none() {
            let job = next.fetch_add(1, Ordering::Relaxed);
            if job >= jobs {
                break;
            }
            found = work(job, &mut counts);
        }
        let mut all = all.lock().unwrap();
        join(&mut all.0, counts);
        all.1.extend(found);
    };
    let cores = thread::available_parallelism().map_or(1, |cores| cores.get());
    thread::scope(|scope| {
        for _ in 0..cores {
            scope.spawn(core);
        }
    });
    let (counts, found) = all.into_inner().unwrap();
    assert!(found.is_empty(), "differences:\n{}", found.join("\n\n"));
    counts
}

#[cfg(test)]
mod tests {
    use super::*;
    use crate::reference::BINARY64;

    /// A comparison that found nothing would let every library pass.
    #[test]
    fn a_wrong_answer_is_told() {
        let floor = Function::named("floor").unwrap();
        let library = floor.library(&BINARY64)(0, 0);
        let wrong = Answer::refused(library.refusal, library.words[0] + 1);
        let cases = [([0, 0], library), ([0, 7], wrong), ([0, 8], wrong)];
        let found = first_difference(floor, &BINARY64, cases.into_iter());
        assert_eq!(found.map(|difference| difference.operands), Some([0, 7]));
    }

    #[test]
    fn every_function_is_checked_at_every_width() {
        let met = Mutex::new(Vec::new());
        check_every_function(|function, format| {
            met.lock().unwrap().push((function.number, format.width()));
            None::<String>
        });
        let mut met = met.into_inner().unwrap();
        met.sort();
        met.dedup();
        // Document 01's 16 functions at two widths, five of them at a third, W-201's two
        // conversions, and W-204's two functions at two widths.
        assert_eq!(met.len(), 16 * 2 + 5 + 2 + 2 * 2);
    }

    #[test]
    #[should_panic(expected = "lround at 32")]
    fn what_one_function_got_wrong_stops_the_test() {
        check_every_function(|function, format| {
            let at = format!("{} at {}", function.name, format.width());
            (at == "lround at 32").then_some(at)
        });
    }
}
