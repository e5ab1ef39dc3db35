//! The library's C functions. Those of single values take and return numbers only, so every call is
//! safe; `run`, `run_lines`, `sheet` and `explain` have safe forms over slices.

use crate::answer::Answer;
use crate::reference::recipe::{Answers, Explanation, Refusal, StepValue};
use std::fmt;

/// A whole number and the refusal number, `ew_whole` of the header.
#[repr(C)]
pub struct Whole {
    value: i64,
    refusal: u64,
}

impl From<Whole> for Answer {
    fn from(whole: Whole) -> Answer {
        Answer::refused(whole.refusal, whole.value as u64)
    }
}

/// A pattern and the refusal number, `ew_word64` of the header.
#[repr(C)]
pub struct Word64 {
    word: u64,
    refusal: u64,
}

impl From<Word64> for Answer {
    fn from(word: Word64) -> Answer {
        Answer::refused(word.refusal, word.word)
    }
}

/// A pattern and the refusal number, `ew_word32` of the header.
#[repr(C)]
pub struct Word32 {
    word: u32,
    refusal: u64,
}

impl From<Word32> for Answer {
    fn from(word: Word32) -> Answer {
        Answer::refused(word.refusal, word.word.into())
    }
}

/// A pattern and the refusal number, `ew_word16` of the header.
#[repr(C)]
pub struct Word16 {
    word: u16,
    refusal: u64,
}

impl From<Word16> for Answer {
    fn from(word: Word16) -> Answer {
        Answer::refused(word.refusal, word.word.into())
    }
}

/// Both parts of a number, `ew_parts64` of the header.
#[repr(C)]
pub struct Parts64 {
    whole: u64,
    fraction: u64,
}

impl From<Parts64> for Answer {
    fn from(parts: Parts64) -> Answer {
        Answer::pair(parts.whole, parts.fraction)
    }
}

/// Both parts of a number, `ew_parts32` of the header.
#[repr(C)]
pub struct Parts32 {
    whole: u32,
    fraction: u32,
}

impl From<Parts32> for Answer {
    fn from(parts: Parts32) -> Answer {
        Answer::pair(parts.whole.into(), parts.fraction.into())
    }
}

/// A fraction and its power of two, `ew_frexp64` of the header.
#[repr(C)]
pub struct Frexp64 {
    fraction: u64,
    exponent: i64,
}

impl From<Frexp64> for Answer {
    fn from(parts: Frexp64) -> Answer {
        Answer::pair(parts.fraction, parts.exponent as u64)
    }
}

/// A fraction and its power of two, `ew_frexp32` of the header.
#[repr(C)]
pub struct Frexp32 {
    fraction: u32,
    exponent: i64,
}

impl From<Frexp32> for Answer {
    fn from(parts: Frexp32) -> Answer {
        Answer::pair(parts.fraction.into(), parts.exponent as u64)
    }
}

/// A remainder, the last digits of its quotient and the refusal number, `ew_remquo64` of the header.
#[repr(C)]
pub struct Remquo64 {
    word: u64,
    quotient: i32,
    refusal: u32,
}

impl From<Remquo64> for Answer {
    fn from(remquo: Remquo64) -> Answer {
        Answer {
            refusal: remquo.refusal.into(),
            words: [remquo.word, remquo.quotient as u64],
        }
    }
}

/// A remainder, the last digits of its quotient and the refusal number, `ew_remquo32` of the header.
#[repr(C)]
pub struct Remquo32 {
    word: u32,
    quotient: i32,
    refusal: u64,
}

impl From<Remquo32> for Answer {
    fn from(remquo: Remquo32) -> Answer {
        Answer {
            refusal: remquo.refusal,
            words: [remquo.word.into(), remquo.quotient as u64],
        }
    }
}

/// What a run gives back, `ew_run_answer` of the header: a refusal's number and place, or the last
/// step's kind and word. What isn't given is 0.
#[repr(C)]
#[derive(Clone, Copy, Debug, PartialEq, Eq)]
pub struct RunAnswer {
    pub refusal: u64,
    pub place: u64,
    pub kind: u64,
    pub word: u64,
}

impl From<Refusal> for RunAnswer {
    fn from(refusal: Refusal) -> RunAnswer {
        RunAnswer {
            refusal: refusal.number,
            place: refusal.place,
            kind: 0,
            word: 0,
        }
    }
}

/// The answer of a completed run whose last step has this value.
impl From<StepValue> for RunAnswer {
    fn from(last: StepValue) -> RunAnswer {
        RunAnswer {
            refusal: 0,
            place: 0,
            kind: last.kind as u64,
            word: last.word,
        }
    }
}

impl fmt::Display for RunAnswer {
    fn fmt(&self, f: &mut fmt::Formatter) -> fmt::Result {
        let (kind, word) = (self.kind, self.word);
        write!(f, "refusal {} place {} ", self.refusal, self.place)?;
        write!(f, "kind {kind} word {word:016x}")
    }
}

/// What a run of frame lines gives back, `ew_lines_answer` of the header: a refusal's number and
/// place, or how many bytes of lines were read and how many of answers written. What isn't given is
/// 0.
#[repr(C)]
#[derive(Clone, Copy, Debug, PartialEq, Eq)]
pub struct LinesAnswer {
    pub refusal: u64,
    pub place: u64,
    pub read: u64,
    pub written: u64,
}

impl From<Refusal> for LinesAnswer {
    fn from(refusal: Refusal) -> LinesAnswer {
        LinesAnswer {
            refusal: refusal.number,
            place: refusal.place,
            read: 0,
            written: 0,
        }
    }
}

impl From<&Answers> for LinesAnswer {
    fn from(answers: &Answers) -> LinesAnswer {
        LinesAnswer {
            refusal: 0,
            place: 0,
            read: answers.read as u64,
            written: answers.bytes.len() as u64,
        }
    }
}

impl fmt::Display for LinesAnswer {
    fn fmt(&self, f: &mut fmt::Formatter) -> fmt::Result {
        let (read, written) = (self.read, self.written);
        write!(f, "refusal {} place {} ", self.refusal, self.place)?;
        write!(f, "read {read} written {written}")
    }
}

/// What a sheet gives back, `ew_sheet_answer` of the header: a refusal's number and place, or the
/// number of steps. What isn't given is 0.
#[repr(C)]
#[derive(Clone, Copy, Debug, PartialEq, Eq)]
pub struct SheetAnswer {
    pub refusal: u64,
    pub place: u64,
    pub steps: u64,
}

impl SheetAnswer {
    /// The answer of a passed sheet of so many steps.
    pub fn passed(steps: usize) -> SheetAnswer {
        SheetAnswer {
            refusal: 0,
            place: 0,
            steps: steps as u64,
        }
    }
}

impl From<Refusal> for SheetAnswer {
    fn from(refusal: Refusal) -> SheetAnswer {
        SheetAnswer {
            refusal: refusal.number,
            place: refusal.place,
            steps: 0,
        }
    }
}

impl fmt::Display for SheetAnswer {
    fn fmt(&self, f: &mut fmt::Formatter) -> fmt::Result {
        let (refusal, place, steps) = (self.refusal, self.place, self.steps);
        write!(f, "refusal {refusal} place {place} steps {steps}")
    }
}

/// What an explanation gives back, `ew_explain_answer` of the header: the number and place of a
/// refusal from 10 to 17; or the step that the sheet refuses, the step of its operand, and the
/// reason's code. What isn't given is 0: of a passed recipe, all five.
#[repr(C)]
#[derive(Clone, Copy, Debug, PartialEq, Eq)]
pub struct ExplainAnswer {
    pub refusal: u64,
    pub place: u64,
    pub step: u64,
    pub operand: u64,
    pub reason: u64,
}

impl ExplainAnswer {
    /// The answer of a passed recipe.
    pub const PASSED: ExplainAnswer = ExplainAnswer {
        refusal: 0,
        place: 0,
        step: 0,
        operand: 0,
        reason: 0,
    };
}

impl From<Refusal> for ExplainAnswer {
    fn from(refusal: Refusal) -> ExplainAnswer {
        ExplainAnswer {
            refusal: refusal.number,
            place: refusal.place,
            ..ExplainAnswer::PASSED
        }
    }
}

impl From<Explanation> for ExplainAnswer {
    fn from(explanation: Explanation) -> ExplainAnswer {
        ExplainAnswer {
            step: explanation.step as u64,
            operand: explanation.operand as u64,
            reason: explanation.code.into(),
            ..ExplainAnswer::PASSED
        }
    }
}

impl fmt::Display for ExplainAnswer {
    fn fmt(&self, f: &mut fmt::Formatter) -> fmt::Result {
        let (step, operand, reason) = (self.step, self.operand, self.reason);
        write!(f, "refusal {} place {} ", self.refusal, self.place)?;
        write!(f, "step {step} operand {operand} reason {reason:02x}")
    }
}

/// `ew_run`: `words` is the lent memory.
#[inline]
pub fn run(text: &[u8], frame: &[u8], words: &mut [u64]) -> RunAnswer {
    // SAFETY: the pointers and lengths are those of slices, and only `words` is lent for writing.
    unsafe {
        ew_run(
            text.as_ptr(),
            text.len(),
            frame.as_ptr(),
            frame.len(),
            words.as_mut_ptr(),
            words.len(),
        )
    }
}

/// `ew_run_lines`: `answers` is the lent memory.
#[inline]
pub fn run_lines(text: &[u8], lines: &[u8], answers: &mut [u8]) -> LinesAnswer {
    // SAFETY: the pointers and lengths are those of slices, and only `answers` is lent for writing.
    unsafe {
        ew_run_lines(
            text.as_ptr(),
            text.len(),
            lines.as_ptr(),
            lines.len(),
            answers.as_mut_ptr(),
            answers.len(),
        )
    }
}

/// `ew_sheet`: `sheet` is the lent memory.
#[inline]
pub fn sheet(text: &[u8], sheet: &mut [u8]) -> SheetAnswer {
    // SAFETY: the pointers and lengths are those of slices, and only `sheet` is lent for writing.
    unsafe { ew_sheet(text.as_ptr(), text.len(), sheet.as_mut_ptr(), sheet.len()) }
}

/// `ew_explain`: no memory is lent.
#[inline]
pub fn explain(text: &[u8]) -> ExplainAnswer {
    // SAFETY: the pointer and length are those of a slice.
    unsafe { ew_explain(text.as_ptr(), text.len()) }
}

unsafe extern "C" {
    /// Reads `text` and `frame` and writes `words`, each as long as the number after it says. A
    /// pointer may be null where that is 0.
    pub fn ew_run(
        text: *const u8,
        text_len: usize,
        frame: *const u8,
        frame_len: usize,
        words: *mut u64,
        words_len: usize,
    ) -> RunAnswer;
    /// Reads `text` and `lines` and writes `answers`, each as long as the number after it says. A
    /// pointer may be null where that is 0.
    pub fn ew_run_lines(
        text: *const u8,
        text_len: usize,
        lines: *const u8,
        lines_len: usize,
        answers: *mut u8,
        answers_len: usize,
    ) -> LinesAnswer;
    /// Reads `text` and writes `sheet`, each as long as the number after it says. A pointer may be
    /// null where that is 0.
    pub fn ew_sheet(
        text: *const u8,
        text_len: usize,
        sheet: *mut u8,
        sheet_len: usize,
    ) -> SheetAnswer;
    /// Reads `text`, as long as the number after it says. The pointer may be null where that is 0.
    pub fn ew_explain(text: *const u8, text_len: usize) -> ExplainAnswer;
    pub safe fn ew_floor_f64(x: u64) -> u64;
    pub safe fn ew_floor_f32(x: u32) -> u32;
    pub safe fn ew_floor_f16(x: u16) -> u16;
    pub safe fn ew_ceil_f64(x: u64) -> u64;
    pub safe fn ew_ceil_f32(x: u32) -> u32;
    pub safe fn ew_ceil_f16(x: u16) -> u16;
    pub safe fn ew_trunc_f64(x: u64) -> u64;
    pub safe fn ew_trunc_f32(x: u32) -> u32;
    pub safe fn ew_trunc_f16(x: u16) -> u16;
    pub safe fn ew_round_f64(x: u64) -> u64;
    pub safe fn ew_round_f32(x: u32) -> u32;
    pub safe fn ew_round_f16(x: u16) -> u16;
    pub safe fn ew_nearbyint_f64(x: u64) -> u64;
    pub safe fn ew_nearbyint_f32(x: u32) -> u32;
    pub safe fn ew_nearbyint_f16(x: u16) -> u16;
    pub safe fn ew_fabs_f64(x: u64) -> u64;
    pub safe fn ew_fabs_f32(x: u32) -> u32;
    pub safe fn ew_negate_f64(x: u64) -> u64;
    pub safe fn ew_negate_f32(x: u32) -> u32;
    pub safe fn ew_lround_f64(x: u64) -> Whole;
    pub safe fn ew_lround_f32(x: u32) -> Whole;
    pub safe fn ew_classify_f64(x: u64) -> u8;
    pub safe fn ew_classify_f32(x: u32) -> u8;
    pub safe fn ew_modf_f64(x: u64) -> Parts64;
    pub safe fn ew_modf_f32(x: u32) -> Parts32;
    pub safe fn ew_frexp_f64(x: u64) -> Frexp64;
    pub safe fn ew_frexp_f32(x: u32) -> Frexp32;
    pub safe fn ew_ldexp_f64(x: u64, n: i64) -> Word64;
    pub safe fn ew_ldexp_f32(x: u32, n: i64) -> Word32;
    pub safe fn ew_fmod_f64(x: u64, y: u64) -> Word64;
    pub safe fn ew_fmod_f32(x: u32, y: u32) -> Word32;
    pub safe fn ew_remainder_f64(x: u64, y: u64) -> Word64;
    pub safe fn ew_remainder_f32(x: u32, y: u32) -> Word32;
    pub safe fn ew_remquo_f64(x: u64, y: u64) -> Remquo64;
    pub safe fn ew_remquo_f32(x: u32, y: u32) -> Remquo32;
    pub safe fn ew_nextafter_f64(x: u64, y: u64) -> Word64;
    pub safe fn ew_nextafter_f32(x: u32, y: u32) -> Word32;
    pub safe fn ew_fmin_f64(x: u64, y: u64) -> u64;
    pub safe fn ew_fmin_f32(x: u32, y: u32) -> u32;
    pub safe fn ew_fmax_f64(x: u64, y: u64) -> u64;
    pub safe fn ew_fmax_f32(x: u32, y: u32) -> u32;
    pub safe fn ew_f16_to_f32(x: u16) -> u32;
    pub safe fn ew_f32_to_f16(x: u32) -> Word16;
}
