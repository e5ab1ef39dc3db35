//! Halves (binary16), as patterns of 16 bits.
//!
//! Their five roundings give what [`to_f32`], the same rounding of `f32` and [`from_f32`] give, for every pattern, and never refuse.

use crate::c;
use crate::number::{answer, Answer};

/// The float of a half, exactly. A NaN keeps its sign and its payload, quieted.
///
/// ```
/// use estrenwind::half;
/// assert_eq!(half::to_f32(0x3e00), 1.5);
/// assert_eq!(half::to_f32(0x0001), 2f32.powi(-24));
/// ```
#[inline]
pub fn to_f32(x: u16) -> f32 {
    f32::from_bits(c::ew_f16_to_f32(x))
}

/// The half nearest to `x`, halves to even. A NaN keeps its sign and the top ten bits of its payload, quieted.
///
/// Refuses [`OutOfRange`](crate::Reason::OutOfRange) where `x` is finite and 65,520 or more in magnitude: the infinity of its sign.
///
/// ```
/// use estrenwind::{half, Reason};
/// assert_eq!(half::from_f32(1.5), Ok(0x3e00));
/// assert_eq!(half::from_f32(65519.996), Ok(0x7bff));
/// let refused = half::from_f32(-65520.0).unwrap_err();
/// assert_eq!((refused.reason, refused.value), (Reason::OutOfRange, 0xfc00));
/// ```
#[inline]
pub fn from_f32(x: f32) -> Answer<u16> {
    let half = c::ew_f32_to_f16(x.to_bits());
    answer(half.refusal, half.word)
}

macro_rules! rounding {
    ($(#[$text:meta])* $name:ident, $function:ident) => {
        $(#[$text])*
        ///
        /// Zeros and infinities are unchanged, a NaN is quieted; a zero result has the sign of `x`.
        #[inline]
        pub fn $name(x: u16) -> u16 {
            c::$function(x)
        }
    };
}

rounding! {
    /// The greatest integer not above `x`.
    ///
    /// ```
    /// assert_eq!(estrenwind::half::floor(0xb800), 0xbc00); // of -0.5: -1
    /// ```
    floor, ew_floor_f16
}
rounding! {
    /// The least integer not below `x`.
    ceil, ew_ceil_f16
}
rounding! {
    /// The nearest integer not larger in magnitude.
    trunc, ew_trunc_f16
}
rounding! {
    /// The nearest integer, halves away from zero.
    round, ew_round_f16
}
rounding! {
    /// The nearest integer, halves to even.
    nearbyint, ew_nearbyint_f16
}
