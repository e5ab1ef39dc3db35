//! Floating-point environments: what a host may have set before it calls the library.
//!
//! The environment is the control bits of MXCSR, so this is for x86-64 only.

use std::arch::asm;

/// Exceptions masked, round to nearest, nothing flushed: what a program starts with.
const DEFAULT: u32 = 0x1f80;
const DOWN: u32 = 1 << 13;
const UP: u32 = 2 << 13;
const TOWARD_ZERO: u32 = 3 << 13;
/// Subnormal results become zero (FTZ), subnormal operands count as zero (DAZ).
const FLUSH: u32 = 1 << 15 | 1 << 6;

/// The status bits: what floating-point operations have raised.
const RAISED: u32 = 0x3f;

#[derive(Clone, Copy, Debug, PartialEq, Eq)]
pub struct Environment {
    pub name: &'static str,
    mxcsr: u32,
}

const fn environment(name: &'static str, settings: u32) -> Environment {
    Environment {
        name,
        mxcsr: DEFAULT | settings,
    }
}

/// Every rounding direction, without and with FTZ and DAZ.
pub const ENVIRONMENTS: [Environment; 8] = [
    environment("nearest", 0),
    environment("down", DOWN),
    environment("up", UP),
    environment("toward zero", TOWARD_ZERO),
    environment("nearest, FTZ and DAZ", FLUSH),
    environment("down, FTZ and DAZ", DOWN | FLUSH),
    environment("up, FTZ and DAZ", UP | FLUSH),
    environment("toward zero, FTZ and DAZ", TOWARD_ZERO | FLUSH),
];

/// Sets the old word again when it goes out of scope, a panic's way out included.
struct Restore {
    mxcsr: u32,
}

impl Drop for Restore {
    fn drop(&mut self) {
        write(self.mxcsr);
    }
}

impl Environment {
    /// Runs `work` in this environment. `work` must do no floating-point operation of its own: the
    /// compiler takes the default environment for granted.
    pub fn run<R>(&self, work: impl FnOnce() -> R) -> R {
        let _restore = Restore { mxcsr: read() };
        write(self.mxcsr);
        work()
    }

    /// Whether this environment is the one in force, whatever has been raised in it.
    pub fn is_in_force(&self) -> bool {
        read() & !RAISED == self.mxcsr
    }
}

/// Whether `work` left a trace: a floating-point exception, as an inexact, invalid or subnormal
/// operation raises, or another setting.
pub fn leaves_a_trace<R>(work: impl FnOnce() -> R) -> bool {
    let _restore = Restore { mxcsr: read() };
    write(DEFAULT);
    work();
    read() != DEFAULT
}

fn read() -> u32 {
    let mut mxcsr = 0;
    // SAFETY: stores four bytes where `mxcsr` lies.
    unsafe { asm!("stmxcsr [{}]", in(reg) &mut mxcsr, options(nostack, preserves_flags)) };
    mxcsr
}

fn write(mxcsr: u32) {
    // SAFETY: loads four bytes from where `mxcsr` lies; the words written keep all exceptions
    // masked.
    unsafe { asm!("ldmxcsr [{}]", in(reg) &mxcsr, options(nostack, preserves_flags)) };
}
