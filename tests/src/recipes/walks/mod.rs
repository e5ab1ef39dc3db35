//! What runs, frame lines, sheets and explanations are all tried on, said once over the call that is
//! made. Each walk stops where the library's outcome isn't the reference's, or where it met too
//! little.

pub mod agreement;
pub mod bytes;
#[cfg(target_arch = "x86_64")]
pub mod environment;
pub mod memory;
