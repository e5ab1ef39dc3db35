//! The C functions as they are, on bit patterns: `u64` for a double, `u32` for a float, `u16` for a half.
//!
//! A field `refusal` is 0 where nothing is refused. The header `estrenwind.h` states each function's answer; the functions of the crate's
//! root cite it.

/// A whole number and the refusal's number.
#[repr(C)]
#[derive(Clone, Copy, Debug, PartialEq, Eq)]
#[allow(missing_docs)]
pub struct Whole {
    pub value: i64,
    pub refusal: u64,
}

/// A double's pattern and the refusal's number.
#[repr(C)]
#[derive(Clone, Copy, Debug, PartialEq, Eq)]
#[allow(missing_docs)]
pub struct Word64 {
    pub word: u64,
    pub refusal: u64,
}

/// A float's pattern and the refusal's number.
#[repr(C)]
#[derive(Clone, Copy, Debug, PartialEq, Eq)]
#[allow(missing_docs)]
pub struct Word32 {
    pub word: u32,
    pub refusal: u64,
}

/// A half's pattern and the refusal's number.
#[repr(C)]
#[derive(Clone, Copy, Debug, PartialEq, Eq)]
#[allow(missing_docs)]
pub struct Word16 {
    pub word: u16,
    pub refusal: u64,
}

/// The patterns of a double's two parts.
#[repr(C)]
#[derive(Clone, Copy, Debug, PartialEq, Eq)]
#[allow(missing_docs)]
pub struct Parts64 {
    pub whole: u64,
    pub fraction: u64,
}

/// The patterns of a float's two parts.
#[repr(C)]
#[derive(Clone, Copy, Debug, PartialEq, Eq)]
#[allow(missing_docs)]
pub struct Parts32 {
    pub whole: u32,
    pub fraction: u32,
}

/// A double's fraction, as a pattern, and its power of two.
#[repr(C)]
#[derive(Clone, Copy, Debug, PartialEq, Eq)]
#[allow(missing_docs)]
pub struct Frexp64 {
    pub fraction: u64,
    pub exponent: i64,
}

/// A float's fraction, as a pattern, and its power of two.
#[repr(C)]
#[derive(Clone, Copy, Debug, PartialEq, Eq)]
#[allow(missing_docs)]
pub struct Frexp32 {
    pub fraction: u32,
    pub exponent: i64,
}

/// A remainder of doubles, as a pattern, low digits of the quotient, and the refusal's number.
#[repr(C)]
#[derive(Clone, Copy, Debug, PartialEq, Eq)]
#[allow(missing_docs)]
pub struct Remquo64 {
    pub word: u64,
    pub quotient: i32,
    pub refusal: u32,
}

/// A remainder of floats, as a pattern, low digits of the quotient, and the refusal's number.
#[repr(C)]
#[derive(Clone, Copy, Debug, PartialEq, Eq)]
#[allow(missing_docs)]
pub struct Remquo32 {
    pub word: u32,
    pub quotient: i32,
    pub refusal: u64,
}

/// A refusal's number and place, or the last step's kind and word. What is not used is 0.
#[repr(C)]
#[derive(Clone, Copy, Debug, PartialEq, Eq)]
#[allow(missing_docs)]
pub struct RunAnswer {
    pub refusal: u64,
    pub place: u64,
    pub kind: u64,
    pub word: u64,
}

/// A refusal's number and place, or the number of steps. What is not used is 0.
#[repr(C)]
#[derive(Clone, Copy, Debug, PartialEq, Eq)]
#[allow(missing_docs)]
pub struct SheetAnswer {
    pub refusal: u64,
    pub place: u64,
    pub steps: u64,
}

/// A refusal's number and place; or the step that a sheet refuses, its operand's step and the reason's code. What is not used is 0.
#[repr(C)]
#[derive(Clone, Copy, Debug, PartialEq, Eq)]
#[allow(missing_docs)]
pub struct ExplainAnswer {
    pub refusal: u64,
    pub place: u64,
    pub step: u64,
    pub operand: u64,
    pub reason: u64,
}

/// A refusal's number and place; or how many bytes of lines were read and how many bytes of answers written. What is not used is 0.
#[repr(C)]
#[derive(Clone, Copy, Debug, PartialEq, Eq)]
#[allow(missing_docs)]
pub struct LinesAnswer {
    pub refusal: u64,
    pub place: u64,
    pub read: u64,
    pub written: u64,
}

// SAFETY: these are the signatures of estrenwind.h. Functions of numbers alone are safe for all of them.
#[allow(missing_docs)]
unsafe extern "C" {
    pub safe fn ew_classify_f64(x: u64) -> u8;
    pub safe fn ew_classify_f32(x: u32) -> u8;
    pub safe fn ew_fabs_f64(x: u64) -> u64;
    pub safe fn ew_fabs_f32(x: u32) -> u32;
    pub safe fn ew_negate_f64(x: u64) -> u64;
    pub safe fn ew_negate_f32(x: u32) -> u32;
    pub safe fn ew_floor_f64(x: u64) -> u64;
    pub safe fn ew_floor_f32(x: u32) -> u32;
    pub safe fn ew_floor_f16(x: u16) -> u16;
    pub safe fn ew_ceil_f64(x: u64) -> u64;
    pub safe fn ew_ceil_f32(x: u32) -> u32;
    pub safe fn ew_ceil_f16(x: u16) -> u16;
    pub safe fn ew_trunc_f64(x: u64) -> u64;
    pub safe fn ew_trunc_f32(x: u32) -> u32;
    pub safe fn ew_trunc_f16(x: u16) -> u16;
    pub safe fn ew_round_f64(x: u64) -> u64;
    pub safe fn ew_round_f32(x: u32) -> u32;
    pub safe fn ew_round_f16(x: u16) -> u16;
    pub safe fn ew_nearbyint_f64(x: u64) -> u64;
    pub safe fn ew_nearbyint_f32(x: u32) -> u32;
    pub safe fn ew_nearbyint_f16(x: u16) -> u16;
    pub safe fn ew_lround_f64(x: u64) -> Whole;
    pub safe fn ew_lround_f32(x: u32) -> Whole;
    pub safe fn ew_modf_f64(x: u64) -> Parts64;
    pub safe fn ew_modf_f32(x: u32) -> Parts32;
    pub safe fn ew_frexp_f64(x: u64) -> Frexp64;
    pub safe fn ew_frexp_f32(x: u32) -> Frexp32;
    pub safe fn ew_ldexp_f64(x: u64, n: i64) -> Word64;
    pub safe fn ew_ldexp_f32(x: u32, n: i64) -> Word32;
    pub safe fn ew_fmod_f64(x: u64, y: u64) -> Word64;
    pub safe fn ew_fmod_f32(x: u32, y: u32) -> Word32;
    pub safe fn ew_remainder_f64(x: u64, y: u64) -> Word64;
    pub safe fn ew_remainder_f32(x: u32, y: u32) -> Word32;
    pub safe fn ew_remquo_f64(x: u64, y: u64) -> Remquo64;
    pub safe fn ew_remquo_f32(x: u32, y: u32) -> Remquo32;
    pub safe fn ew_nextafter_f64(x: u64, y: u64) -> Word64;
    pub safe fn ew_nextafter_f32(x: u32, y: u32) -> Word32;
    pub safe fn ew_fmin_f64(x: u64, y: u64) -> u64;
    pub safe fn ew_fmin_f32(x: u32, y: u32) -> u32;
    pub safe fn ew_fmax_f64(x: u64, y: u64) -> u64;
    pub safe fn ew_fmax_f32(x: u32, y: u32) -> u32;
    pub safe fn ew_f16_to_f32(x: u16) -> u32;
    pub safe fn ew_f32_to_f16(x: u32) -> Word16;

    /// Each pointer is good for as many elements as the length after it says, `words` for writing too.
    pub fn ew_run(
        text: *const u8,
        text_len: usize,
        frame: *const u8,
        frame_len: usize,
        words: *mut u64,
        words_len: usize,
    ) -> RunAnswer;

    /// Each pointer is good for as many bytes as the length after it says, `answers` for writing too.
    pub fn ew_run_lines(
        text: *const u8,
        text_len: usize,
        lines: *const u8,
        lines_len: usize,
        answers: *mut u8,
        answers_len: usize,
    ) -> LinesAnswer;

    /// Each pointer is good for as many bytes as the length after it says, `sheet` for writing too.
    pub fn ew_sheet(
        text: *const u8,
        text_len: usize,
        sheet: *mut u8,
        sheet_len: usize,
    ) -> SheetAnswer;

    /// The pointer is good for as many bytes as the length after it says.
    pub fn ew_explain(text: *const u8, text_len: usize) -> ExplainAnswer;
}
