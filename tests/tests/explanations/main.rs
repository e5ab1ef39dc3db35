//! The library's explanations of recipes against the reference's: refusal and place, or step,
//! operand and reason; and against the library's own sheets. What runs, sheets and explanations are
//! all tried on is in `recipes::walks`.

mod agreement;
mod bytes;
#[cfg(target_arch = "x86_64")]
mod environment;
mod memory;
mod paper;
mod reasons;
mod sheet;
mod wrong_reasons;
