//! Numbers at the limits of the rules.

/// The smallest double above zero.
pub const TINY: f64 = f64::from_bits(1);
pub const INF: f64 = f64::INFINITY;
pub const MAX: f64 = f64::MAX;

pub const LEAST: i64 = i64::MIN;
pub const MOST: i64 = i64::MAX;

/// Up to here every whole number is a double.
pub const TWO_53: i64 = 1 << 53;
pub const TWO_62: i64 = 1 << 62;
/// The first double that is no whole number of 64 bits.
pub const TWO_63: f64 = 9_223_372_036_854_775_808.0;
