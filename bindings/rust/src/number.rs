//! Functions of numbers, at both widths.

use crate::c;
use std::error::Error;
use std::fmt;

/// What sort of number a pattern is, whatever its sign.
#[derive(Clone, Copy, Debug, PartialEq, Eq, Hash)]
#[non_exhaustive]
pub enum Class {
    /// Not a number.
    Nan = 0,
    /// An infinity.
    Infinite = 1,
    /// One of the two zeros.
    Zero = 2,
    /// Nearer to zero than every normal number.
    Subnormal = 3,
    /// Any other.
    Normal = 4,
}

/// Why a function has no answer.
///
/// Later versions may have more reasons. A number of the library that this version has no name for is kept:
///
/// ```
/// use estrenwind::Reason;
///
/// assert_eq!(Reason::from(3), Reason::OutOfRange);
/// assert_eq!(Reason::from(9), Reason::Other(9));
/// assert_eq!(Reason::from(9).number(), 9);
/// ```
#[derive(Clone, Copy, Debug, PartialEq, Eq, Hash)]
#[non_exhaustive]
pub enum Reason {
    /// Refusal 1: a NaN has no whole number.
    NotANumber,
    /// Refusal 2: an infinite number has no remainder, and none is left by zero.
    NoRemainder,
    /// Refusal 3: the result is infinite or does not fit.
    OutOfRange,
    /// The refusal of this number, none of those above.
    Other(u64),
}

impl Reason {
    /// The refusal's number.
    pub fn number(self) -> u64 {
        match self {
            Reason::NotANumber => 1,
            Reason::NoRemainder => 2,
            Reason::OutOfRange => 3,
            Reason::Other(number) => number,
        }
    }
}

impl From<u64> for Reason {
    /// The reason of a refusal's number.
    fn from(number: u64) -> Reason {
        match number {
            1 => Reason::NotANumber,
            2 => Reason::NoRemainder,
            3 => Reason::OutOfRange,
            number => Reason::Other(number),
        }
    }
}

impl fmt::Display for Reason {
    fn fmt(&self, f: &mut fmt::Formatter) -> fmt::Result {
        f.write_str(match self {
            Reason::NotANumber => "a NaN has no whole number",
            Reason::NoRemainder => "an infinite number has no remainder, and none is left by zero",
            Reason::OutOfRange => "the result is infinite or does not fit",
            Reason::Other(number) => return write!(f, "refusal {number}"),
        })
    }
}

/// A refusal, and what the C function gives in place of an answer.
#[derive(Clone, Copy, Debug, PartialEq, Eq)]
pub struct Refused<T> {
    /// Why there is no answer.
    pub reason: Reason,
    /// 0, the default NaN or an infinity: each function says which.
    pub value: T,
}

impl<T> fmt::Display for Refused<T> {
    fn fmt(&self, f: &mut fmt::Formatter) -> fmt::Result {
        self.reason.fmt(f)
    }
}

impl<T: fmt::Debug> Error for Refused<T> {}

/// An answer, or a refusal with what stands in its place.
pub type Answer<T> = Result<T, Refused<T>>;

pub(crate) fn answer<T>(refusal: u64, value: T) -> Answer<T> {
    match refusal {
        0 => Ok(value),
        number => Err(Refused {
            reason: Reason::from(number),
            value,
        }),
    }
}

/// A number's two parts: [`modf`].
#[derive(Clone, Copy, Debug, PartialEq)]
pub struct Parts<F> {
    /// The number cut to an integer.
    pub whole: F,
    /// What is past it.
    pub fraction: F,
}

/// A fraction and a power of two: [`frexp`].
#[derive(Clone, Copy, Debug, PartialEq)]
pub struct Scaled<F> {
    /// Of magnitude at least 0.5 and below 1.
    pub fraction: F,
    /// The number is `fraction` times two to this power.
    pub exponent: i64,
}

/// A remainder and low digits of the quotient: [`remquo`].
#[derive(Clone, Copy, Debug, PartialEq)]
pub struct Divided<F> {
    /// What [`remainder`] gives.
    pub remainder: F,
    /// The quotient's magnitude modulo 8, with its sign: from -7 to 7.
    pub quotient: i32,
}

/// The two widths, and the functions at each of them. Use the crate's functions; no other type can be of this trait.
pub trait Float: sealed::Width {}

impl Float for f64 {}
impl Float for f32 {}

mod sealed {
    use super::{Answer, Divided, Parts, Scaled};

    pub trait Width: Copy {
        fn classify(self) -> u8;
        fn fabs(self) -> Self;
        fn negate(self) -> Self;
        fn floor(self) -> Self;
        fn ceil(self) -> Self;
        fn trunc(self) -> Self;
        fn round(self) -> Self;
        fn nearbyint(self) -> Self;
        fn lround(self) -> Answer<i64>;
        fn modf(self) -> Parts<Self>;
        fn frexp(self) -> Scaled<Self>;
        fn ldexp(self, n: i64) -> Answer<Self>;
        fn fmod(self, y: Self) -> Answer<Self>;
        fn remainder(self, y: Self) -> Answer<Self>;
        fn remquo(self, y: Self) -> Answer<Divided<Self>>;
        fn nextafter(self, y: Self) -> Answer<Self>;
        fn fmin(self, y: Self) -> Self;
        fn fmax(self, y: Self) -> Self;
    }
}

macro_rules! width {
    ($float:ident, $classify:ident, $fabs:ident, $negate:ident, $floor:ident, $ceil:ident, $trunc:ident, $round:ident, $nearbyint:ident,
     $lround:ident, $modf:ident, $frexp:ident, $ldexp:ident, $fmod:ident, $remainder:ident, $remquo:ident, $nextafter:ident, $fmin:ident,
     $fmax:ident) => {
        impl sealed::Width for $float {
            #[inline]
            fn classify(self) -> u8 {
                c::$classify(self.to_bits())
            }
            #[inline]
            fn fabs(self) -> Self {
                $float::from_bits(c::$fabs(self.to_bits()))
            }
            #[inline]
            fn negate(self) -> Self {
                $float::from_bits(c::$negate(self.to_bits()))
            }
            #[inline]
            fn floor(self) -> Self {
                $float::from_bits(c::$floor(self.to_bits()))
            }
            #[inline]
            fn ceil(self) -> Self {
                $float::from_bits(c::$ceil(self.to_bits()))
            }
            #[inline]
            fn trunc(self) -> Self {
                $float::from_bits(c::$trunc(self.to_bits()))
            }
            #[inline]
            fn round(self) -> Self {
                $float::from_bits(c::$round(self.to_bits()))
            }
            #[inline]
            fn nearbyint(self) -> Self {
                $float::from_bits(c::$nearbyint(self.to_bits()))
            }
            #[inline]
            fn lround(self) -> Answer<i64> {
                let whole = c::$lround(self.to_bits());
                answer(whole.refusal, whole.value)
            }
            #[inline]
            fn modf(self) -> Parts<Self> {
                let parts = c::$modf(self.to_bits());
                Parts {
                    whole: $float::from_bits(parts.whole),
                    fraction: $float::from_bits(parts.fraction),
                }
            }
            #[inline]
            fn frexp(self) -> Scaled<Self> {
                let scaled = c::$frexp(self.to_bits());
                Scaled {
                    fraction: $float::from_bits(scaled.fraction),
                    exponent: scaled.exponent,
                }
            }
            #[inline]
            fn ldexp(self, n: i64) -> Answer<Self> {
                let word = c::$ldexp(self.to_bits(), n);
                answer(word.refusal, $float::from_bits(word.word))
            }
            #[inline]
            fn fmod(self, y: Self) -> Answer<Self> {
                let word = c::$fmod(self.to_bits(), y.to_bits());
                answer(word.refusal, $float::from_bits(word.word))
            }
            #[inline]
            fn remainder(self, y: Self) -> Answer<Self> {
                let word = c::$remainder(self.to_bits(), y.to_bits());
                answer(word.refusal, $float::from_bits(word.word))
            }
            #[inline]
            fn remquo(self, y: Self) -> Answer<Divided<Self>> {
                let divided = c::$remquo(self.to_bits(), y.to_bits());
                answer(
                    divided.refusal.into(),
                    Divided {
                        remainder: $float::from_bits(divided.word),
                        quotient: divided.quotient,
                    },
                )
            }
            #[inline]
            fn nextafter(self, y: Self) -> Answer<Self> {
                let word = c::$nextafter(self.to_bits(), y.to_bits());
                answer(word.refusal, $float::from_bits(word.word))
            }
            #[inline]
            fn fmin(self, y: Self) -> Self {
                $float::from_bits(c::$fmin(self.to_bits(), y.to_bits()))
            }
            #[inline]
            fn fmax(self, y: Self) -> Self {
                $float::from_bits(c::$fmax(self.to_bits(), y.to_bits()))
            }
        }
    };
}

#[rustfmt::skip]
width!(f64, ew_classify_f64, ew_fabs_f64, ew_negate_f64, ew_floor_f64, ew_ceil_f64, ew_trunc_f64, ew_round_f64, ew_nearbyint_f64,
       ew_lround_f64, ew_modf_f64, ew_frexp_f64, ew_ldexp_f64, ew_fmod_f64, ew_remainder_f64, ew_remquo_f64, ew_nextafter_f64, ew_fmin_f64,
       ew_fmax_f64);
#[rustfmt::skip]
width!(f32, ew_classify_f32, ew_fabs_f32, ew_negate_f32, ew_floor_f32, ew_ceil_f32, ew_trunc_f32, ew_round_f32, ew_nearbyint_f32,
       ew_lround_f32, ew_modf_f32, ew_frexp_f32, ew_ldexp_f32, ew_fmod_f32, ew_remainder_f32, ew_remquo_f32, ew_nextafter_f32, ew_fmin_f32,
       ew_fmax_f32);

/// The sort of number that `x` is.
///
/// ```
/// use estrenwind::{classify, Class};
/// assert_eq!(classify(-0.0), Class::Zero);
/// assert_eq!(classify(1e-310), Class::Subnormal);
/// ```
pub fn classify<F: Float>(x: F) -> Class {
    match x.classify() {
        0 => Class::Nan,
        1 => Class::Infinite,
        2 => Class::Zero,
        3 => Class::Subnormal,
        _ => Class::Normal,
    }
}

/// `x` with its sign bit cleared, a NaN's too.
///
/// ```
/// assert_eq!(estrenwind::fabs(-2.5), 2.5);
/// ```
pub fn fabs<F: Float>(x: F) -> F {
    x.fabs()
}

/// `x` with its sign bit flipped, a NaN's too.
///
/// ```
/// assert!(estrenwind::negate(0.0f64).is_sign_negative());
/// ```
pub fn negate<F: Float>(x: F) -> F {
    x.negate()
}

/// The greatest integer not above `x`. Zeros and infinities are unchanged, a NaN is quieted.
///
/// ```
/// assert_eq!(estrenwind::floor(-0.5), -1.0);
/// ```
pub fn floor<F: Float>(x: F) -> F {
    x.floor()
}

/// The least integer not below `x`. Zeros and infinities are unchanged, a NaN is quieted; a zero result has the sign of `x`.
///
/// ```
/// assert_eq!(estrenwind::ceil(-0.5f64).to_bits(), (-0.0f64).to_bits());
/// ```
pub fn ceil<F: Float>(x: F) -> F {
    x.ceil()
}

/// The nearest integer not larger in magnitude. Zeros and infinities are unchanged, a NaN is quieted; a zero result has the sign of `x`.
///
/// ```
/// assert_eq!(estrenwind::trunc(-2.75), -2.0);
/// ```
pub fn trunc<F: Float>(x: F) -> F {
    x.trunc()
}

/// The nearest integer, halves away from zero. Zeros and infinities are unchanged, a NaN is quieted; a zero result has the sign of `x`.
///
/// ```
/// assert_eq!(estrenwind::round(0.5), 1.0);
/// assert_eq!(estrenwind::round(0.49999999999999994), 0.0);
/// ```
pub fn round<F: Float>(x: F) -> F {
    x.round()
}

/// The nearest integer, halves to even. Zeros and infinities are unchanged, a NaN is quieted; a zero result has the sign of `x`.
///
/// ```
/// assert_eq!(estrenwind::nearbyint(0.5), 0.0);
/// assert_eq!(estrenwind::nearbyint(1.5), 2.0);
/// ```
pub fn nearbyint<F: Float>(x: F) -> F {
    x.nearbyint()
}

/// [`round`] of `x` as a whole number.
///
/// Refuses [`Reason::NotANumber`] where `x` is a NaN, and [`Reason::OutOfRange`] where it is infinite or does not fit; the value is then 0.
///
/// ```
/// assert_eq!(estrenwind::lround(-2.5), Ok(-3));
/// assert!(estrenwind::lround(9223372036854775808.0).is_err());
/// ```
pub fn lround<F: Float>(x: F) -> Answer<i64> {
    x.lround()
}

/// [`trunc`] of `x` and what `x` has past it, each with the sign of `x`. Added together they are `x` again, to the bit. An infinity's
/// fraction is a zero; a NaN's two parts are the NaN, quieted.
///
/// ```
/// let parts = estrenwind::modf(-3.25);
/// assert_eq!((parts.whole, parts.fraction), (-3.0, -0.25));
/// ```
pub fn modf<F: Float>(x: F) -> Parts<F> {
    x.modf()
}

/// A fraction of magnitude at least 0.5 and below 1, with the sign of `x`, and a power of two. Zeros and infinities are unchanged, a NaN
/// is quieted, and the power is then 0.
///
/// ```
/// let scaled = estrenwind::frexp(5e-324);
/// assert_eq!((scaled.fraction, scaled.exponent), (0.5, -1073));
/// ```
pub fn frexp<F: Float>(x: F) -> Scaled<F> {
    x.frexp()
}

/// `x` times two to the power `n`, rounded once, halves to even. Too small a result is a zero with the sign of `x`. Zeros and infinities
/// are unchanged, a NaN is quieted.
///
/// Refuses [`Reason::OutOfRange`] where `x` is finite and the result is not; the value is then that infinity.
///
/// ```
/// assert_eq!(estrenwind::ldexp(3.0, -1), Ok(1.5));
/// assert_eq!(estrenwind::ldexp(1.0, -1075), Ok(0.0));
/// ```
pub fn ldexp<F: Float>(x: F, n: i64) -> Answer<F> {
    x.ldexp(n)
}

/// `x - n * y` exactly, for the integer `n` that is `x / y` cut: of smaller magnitude than `y`, with the sign of `x`. A finite `x` by an
/// infinite `y` is `x`; where there is a NaN, the first one is given, quieted.
///
/// Refuses [`Reason::NoRemainder`] where `x` is infinite or `y` is zero, and neither is a NaN; the value is then the default NaN.
///
/// ```
/// assert_eq!(estrenwind::fmod(-370.0, 360.0), Ok(-10.0));
/// assert!(estrenwind::fmod(1.0f64, 0.0).unwrap_err().value.is_nan());
/// ```
pub fn fmod<F: Float>(x: F, y: F) -> Answer<F> {
    x.fmod(y)
}

/// `x - n * y` exactly, for the integer `n` nearest to `x / y`, halves to even: at most half of `y` in magnitude. A zero result has the sign
/// of `x`. A finite `x` by an infinite `y` is `x`; where there is a NaN, the first one is given, quieted.
///
/// Refuses [`Reason::NoRemainder`] where [`fmod`] does, with the same value.
///
/// ```
/// assert_eq!(estrenwind::remainder(350.0, 360.0), Ok(-10.0));
/// assert_eq!(estrenwind::remainder(540.0, 360.0), Ok(-180.0)); // one turn and a half: two turns, which is even
/// assert!(estrenwind::remainder(-720.0, 360.0f64).unwrap().is_sign_negative());
/// ```
pub fn remainder<F: Float>(x: F, y: F) -> Answer<F> {
    x.remainder(y)
}

/// [`remainder`] of `x` by `y`, and of the integer `n` in it the magnitude modulo 8 with the sign of `x / y`: 0 where `n` is 8, -1 where it
/// is -9. With a NaN, and by an infinite `y`, it is 0.
///
/// Refuses [`Reason::NoRemainder`] where [`fmod`] does; the remainder is then the default NaN, and the quotient 0.
///
/// ```
/// // An angle as quarter turns and what is left of it, 45 degrees at most: the quarter is in the two low bits.
/// let divided = estrenwind::remquo(-100.0, 90.0)?;
/// assert_eq!((divided.remainder, divided.quotient), (-10.0, -1));
/// assert_eq!(divided.quotient & 3, 3);
/// # Ok::<(), estrenwind::Refused<estrenwind::Divided<f64>>>(())
/// ```
pub fn remquo<F: Float>(x: F, y: F) -> Answer<Divided<F>> {
    x.remquo(y)
}

/// The neighbour of `x` towards `y`; `y` where they are equal. A zero that is reached keeps the sign of `x`; where there is a NaN, the
/// first one is given, quieted.
///
/// Refuses [`Reason::OutOfRange`] where `x` is finite and the result is not; the value is then that infinity.
///
/// ```
/// assert_eq!(estrenwind::nextafter(0.0, -1.0), Ok(-5e-324));
/// assert!(estrenwind::nextafter(f32::MAX, f32::INFINITY).is_err());
/// ```
pub fn nextafter<F: Float>(x: F, y: F) -> Answer<F> {
    x.nextafter(y)
}

/// The lesser of two numbers, -0 counting as below +0: on numbers the same bits whichever operand comes first. Of a number and a NaN the
/// number; of two NaNs the first, quieted.
///
/// ```
/// assert_eq!(estrenwind::fmin(f64::NAN, 2.0), 2.0);
/// assert!(estrenwind::fmin(0.0, -0.0f64).is_sign_negative());
/// ```
pub fn fmin<F: Float>(x: F, y: F) -> F {
    x.fmin(y)
}

/// The greater of two numbers, +0 counting as above -0: on numbers the same bits whichever operand comes first. Of a number and a NaN the
/// number; of two NaNs the first, quieted.
///
/// ```
/// assert!(estrenwind::fmax(-0.0f64, 0.0).is_sign_positive());
/// ```
pub fn fmax<F: Float>(x: F, y: F) -> F {
    x.fmax(y)
}
