//! Rounding, splitting, scaling and remainders of IEEE 754 numbers, exact to the last bit, and recipes of such steps, in which doubles are also
//! added, subtracted and multiplied.
//!
//! Every function takes and gives `f64` or `f32`; the module [`half`] has halves, as patterns. Every answer is worked out in
//! whole-number arithmetic by the Estrenwind library, whose functions are proved: none depends on the processor, on the rounding mode,
//! or on how subnormal numbers are treated.
//!
//! ```
//! assert_eq!(estrenwind::round(2.5), 3.0);
//! assert_eq!(estrenwind::nearbyint(2.5), 2.0);
//! assert_eq!(estrenwind::fmod(-7.5, 2.0), Ok(-1.5));
//! assert_eq!(estrenwind::remainder(-7.5, 2.0), Ok(0.5));
//! assert_eq!(estrenwind::floor(-0.5f32), -1.0);
//! ```
//!
//! What has no answer is refused, with the reason and with what the C functions give in its place:
//!
//! ```
//! use estrenwind::{ldexp, lround, Reason};
//!
//! assert_eq!(lround(1e300).unwrap_err().reason, Reason::OutOfRange);
//! let overflow = ldexp(-1.0, 1024).unwrap_err();
//! assert_eq!((overflow.reason, overflow.value), (Reason::OutOfRange, f64::NEG_INFINITY));
//! ```
//!
//! Every enum may grow, so a `match` on one needs an arm for the rest. A number of the library is never lost: [`Reason::Other`],
//! [`Fault::Other`] and [`Cause::Other`] hold one that this version has no name for.
//!
//! "Quieted" below means the same pattern with the top fraction bit set. Patterns that must pass untouched on every host, a signalling
//! NaN's above all, are better kept as integers: the module [`c`] has the functions on them.
//!
//! The library is linked statically, from the folder that the environment variable `ESTRENWIND_LIB_DIR` names when the crate is built, or
//! else from where `pkg-config` finds it. It is for x86-64.

pub mod c;
mod explanation;
mod format;
pub mod half;
mod number;
mod recipe;

pub use explanation::*;
pub use format::*;
pub use number::*;
pub use recipe::*;
