//! The library's answers to frame lines against the reference's: refusal, place, bytes read and
//! written, and every byte of the lent memory. What all calls are tried on is in `recipes::walks`.

mod agreement;
mod batches;
mod bytes;
#[cfg(target_arch = "x86_64")]
mod environment;
mod memory;
mod paper;
