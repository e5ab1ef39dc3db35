//! The library's run of recipes against the reference's: refusal, place, kind, word, and every word
//! of the lent memory. What runs and sheets are both tried on is in `recipes::walks`.

mod agreement;
mod bytes;
#[cfg(target_arch = "x86_64")]
mod environment;
mod memory;
mod paper;
mod steps;
