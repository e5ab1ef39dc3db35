//! Tests of the Estrenwind library against an independent second implementation.
//!
//! The second implementation is `reference`, in exact whole numbers, written from document 01 and
//! the requests after it. `functions` is the table that joins it with the library: every test walks
//! over that table, so a new function is a new row.

pub mod answer;
pub mod arithmetic;
pub mod comparison;
pub mod divisions;
#[cfg(target_arch = "x86_64")]
pub mod environment;
pub mod functions;
pub mod interpreter;
pub mod library;
pub mod narrowing;
pub mod operands;
pub mod pairs;
pub mod patterns;
pub mod programs;
pub mod recipes;
pub mod reference;
pub mod scalings;
pub mod speed;
pub mod vectors;
