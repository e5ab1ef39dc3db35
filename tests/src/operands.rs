//! What a function takes, and what it is tried on.

use crate::patterns::Random;
use crate::reference::{Format, BINARY16};
use crate::{divisions, narrowing, pairs, patterns, scalings};

/// The operands of a function. A case always has two words; one that isn't used is 0.
#[derive(Clone, Copy, Debug, PartialEq, Eq)]
pub enum Operands {
    /// One pattern.
    Pattern,
    /// One pattern, which is rounded to a half.
    PatternToHalf,
    /// Two patterns.
    Patterns,
    /// Two patterns, of which the first is divided by the second and the quotient rounded.
    Division,
    /// A pattern and a whole number of 64 bits, as its two's complement.
    PatternAndWhole,
}

impl Operands {
    /// Whether one pattern is all that the function takes.
    pub fn is_one_pattern(&self) -> bool {
        matches!(self, Operands::Pattern | Operands::PatternToHalf)
    }

    /// Whether two patterns are what the function takes.
    pub fn is_two_patterns(&self) -> bool {
        matches!(self, Operands::Patterns | Operands::Division)
    }

    /// The cases where a mistake would sit.
    pub fn edges(&self, format: &Format) -> Vec<[u64; 2]> {
        match self {
            Operands::Pattern => patterns::edges(format)
                .into_iter()
                .map(|x| [x, 0])
                .collect(),
            Operands::PatternToHalf => narrowing::edges(format, &BINARY16)
                .into_iter()
                .map(|x| [x, 0])
                .collect(),
            Operands::Patterns => {
                let edges = pairs::edges(format);
                every_pair(&edges, &edges)
            }
            Operands::Division => {
                let mut edges = Operands::Patterns.edges(format);
                edges.extend(divisions::edges(format));
                edges
            }
            Operands::PatternAndWhole => {
                let powers: Vec<u64> = scalings::powers().iter().map(|&n| n as u64).collect();
                every_pair(&scalings::edges(format), &powers)
            }
        }
    }

    /// Whether the edges are all the cases that there are: random ones would add nothing.
    pub fn edges_are_all(&self, format: &Format) -> bool {
        *self == Operands::Pattern && patterns::edges_are_all(format)
    }

    /// A random case.
    pub fn random(&self, format: &Format, random: &mut Random) -> [u64; 2] {
        match self {
            Operands::Pattern => [random.pattern(format), 0],
            Operands::PatternToHalf => [random.narrowed(format, &BINARY16), 0],
            Operands::Patterns => random.pair(format),
            Operands::Division => random.division(format),
            Operands::PatternAndWhole => random.scaling(format),
        }
    }

    /// How many hexadecimal digits each operand is written with.
    pub fn digits(&self, format: &Format) -> Vec<usize> {
        let digits = format.width() as usize / 4;
        match self {
            Operands::Pattern | Operands::PatternToHalf => vec![digits],
            Operands::Patterns | Operands::Division => vec![digits, digits],
            Operands::PatternAndWhole => vec![digits, 16],
        }
    }
}

fn every_pair(xs: &[u64], ys: &[u64]) -> Vec<[u64; 2]> {
    xs.iter()
        .flat_map(|&x| ys.iter().map(move |&y| [x, y]))
        .collect()
}
