//! The independent second implementation, from document 01 and the requests after it, without a
//! look at the crates.
//!
//! A finite pattern stands for a signed whole number of units (2^-1074 for f64, 2^-149 for f32,
//! 2^-24 for halves), and every function is worked on these whole numbers. There is no floating-point operation in
//! here, and no trick on patterns: a result is a whole number first and turned into its pattern
//! last. `short` alone takes shorter ways to the same answers, and is held against the others.

pub mod arithmetic;
pub mod conversion;
pub mod fmod;
pub mod format;
pub mod ldexp;
pub mod natural;
pub mod order;
pub mod overflow;
pub mod parts;
pub mod recipe;
pub mod remainder;
pub mod rounding;
pub mod short;
pub mod whole;

pub use format::{Class, Format, BINARY16, BINARY32, BINARY64};
