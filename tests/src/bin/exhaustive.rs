//! Compares library and reference on all 2^32 patterns of f32, for every function of one pattern,
//! export to halves among them.
//!
//!     exhaustive                       all patterns
//!     exhaustive --slice K/N           the K-th of N slices, K from 1 to N
//!     exhaustive [--slice K/N] NAME..  only these functions
//!
//! Ends with one line that says how much was compared; exit status 1 where anything differed.

use estrenwind_tests::comparison::{first_difference, on_all_cores};
use estrenwind_tests::functions::{Function, FUNCTIONS};
use estrenwind_tests::reference::BINARY32;
use std::env;
use std::process::ExitCode;
use std::sync::atomic::{AtomicU64, Ordering};

const PATTERNS: u64 = 1 << 32;

/// The K-th of N slices. Of each N patterns in a row, a slice has one, at a place that changes from
/// row to row: a fixed place would leave out most fractions for good.
#[derive(Clone, Copy)]
struct Slice {
    index: u64,
    count: u64,
}

impl Slice {
    /// From the words `K/N`, K from 1 to N.
    fn parse(text: &str) -> Option<Slice> {
        let (index, count) = text.split_once('/')?;
        let (index, count) = (index.parse::<u64>().ok()?, count.parse().ok()?);
        let index = index.checked_sub(1)?;
        (index < count && count <= PATTERNS).then_some(Slice { index, count })
    }

    fn rows(&self) -> u64 {
        PATTERNS.div_ceil(self.count)
    }

    /// The slice's pattern in a row; none where a last, shorter row doesn't reach so far.
    fn pattern(&self, row: u64) -> Option<u64> {
        let shift = row.wrapping_mul(0x9e37_79b9_7f4a_7c15) >> 32;
        let pattern = row * self.count + (self.index + shift) % self.count;
        (pattern < PATTERNS).then_some(pattern)
    }
}

/// Rows that a thread takes at a time.
const PORTION: u64 = 1 << 20;

fn compare(slice: Slice, functions: &[&Function]) -> (u64, u64) {
    let portions = slice.rows().div_ceil(PORTION);
    let differing = AtomicU64::new(0);
    let join = |all: &mut u64, compared| *all += compared;
    let compared = on_all_cores(portions, join, |portion, compared| {
        let rows = portion * PORTION..slice.rows().min((portion + 1) * PORTION);
        let patterns = || rows.clone().filter_map(|row| slice.pattern(row));
        for function in functions {
            let mut cases = patterns().map(|x| ([x, 0], (function.short)(&BINARY32, x, 0)));
            while let Some(difference) = first_difference(function, &BINARY32, &mut cases) {
                if differing.fetch_add(1, Ordering::Relaxed) < 20 {
                    eprintln!("{difference}");
                }
            }
        }
        *compared += patterns().count() as u64;
        if portion % 64 == 63 {
            eprintln!("{} of {portions} portions", portion + 1);
        }
        None
    });
    (compared, differing.into_inner())
}

/// The functions of one f32 with these names, or all where none is named; nothing where there is no
/// such function.
fn named(names: &[&str]) -> Option<Vec<&'static Function>> {
    let of_one_pattern =
        |function: &&Function| function.operands.is_one_pattern() && function.is_at(&BINARY32);
    if names.is_empty() {
        return Some(FUNCTIONS.iter().filter(of_one_pattern).collect());
    }
    let named = |name: &&str| Function::named(name).filter(of_one_pattern);
    names.iter().map(named).collect()
}

fn main() -> ExitCode {
    let arguments: Vec<String> = env::args().skip(1).collect();
    let arguments: Vec<&str> = arguments.iter().map(String::as_str).collect();
    let (slice, names) = match arguments[..] {
        ["--slice", slice, ref names @ ..] => (Slice::parse(slice), names),
        ref names => (Slice::parse("1/1"), names),
    };
    let (Some(slice), Some(functions)) = (slice, named(names)) else {
        eprintln!("usage: exhaustive [--slice K/N] [NAME..]");
        return ExitCode::FAILURE;
    };
    let (compared, differing) = compare(slice, &functions);
    let names: Vec<&str> = functions.iter().map(|function| function.name).collect();
    println!(
        "compared {compared} patterns of f32 in each of {}: {differing} differences",
        names.join(", ")
    );
    if differing == 0 {
        ExitCode::SUCCESS
    } else {
        ExitCode::FAILURE
    }
}

#[cfg(test)]
mod tests {
    use super::*;

    #[test]
    fn slices_share_the_patterns_out() {
        for count in [1, 3, 64, 1000] {
            let slices: Vec<Slice> = (0..count).map(|index| Slice { index, count }).collect();
            let last = slices[0].rows() - 1;
            for row in [0, 1, 2, last] {
                let mut patterns: Vec<u64> = slices.iter().filter_map(|s| s.pattern(row)).collect();
                patterns.sort();
                let whole_row = row * count..PATTERNS.min((row + 1) * count);
                assert!(patterns.into_iter().eq(whole_row), "{row} of {count}");
            }
        }
    }

    /// The last bits of a pattern tell integers, halves and their neighbours apart.
    #[test]
    fn a_slice_meets_every_ending() {
        let slice = Slice::parse("1/64").unwrap();
        let endings: std::collections::HashSet<u64> = (0..10_000)
            .map(|row| slice.pattern(row).unwrap() % 256)
            .collect();
        assert_eq!(endings.len(), 256);
    }

    #[test]
    fn only_functions_of_one_float_are_named() {
        let names = |names: &[&str]| {
            let functions = named(names)?;
            Some(functions.iter().map(|f| f.name).collect::<Vec<_>>())
        };
        let all = names(&[]).unwrap();
        assert_eq!(all.len(), 12);
        assert!(all.contains(&"floor") && all.contains(&"f32_to_f16"));
        assert_eq!(
            names(&["f32_to_f16", "ceil"]),
            Some(vec!["f32_to_f16", "ceil"])
        );
        for wrong in ["flor", "fmod", "f16_to_f32", "--slice"] {
            assert_eq!(names(&[wrong]), None, "{wrong}");
        }
    }

    #[test]
    fn only_slices_are_slices() {
        for text in ["0/4", "5/4", "1", "1/0", "a/b", "-1/4", "1/"] {
            assert!(Slice::parse(text).is_none(), "{text}");
        }
    }
}
