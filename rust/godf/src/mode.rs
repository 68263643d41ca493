//! The floating-point mode that the library is proved for: round to nearest, ties to even, subnormal numbers as they are, no traps.
//!
//! Engines often run with flush-to-zero and denormals-are-zero set. On x86-64 the mode is the register MXCSR: it is saved, set and
//! restored around every call, with its flags, so that a call leaves no trace in it. On other targets the mode is not changed, and a caller
//! that has changed it must restore it before a call.

/// MXCSR as a program starts with it: all exceptions masked, round to nearest, no flushing.
#[cfg(target_arch = "x86_64")]
const DEFAULT: u32 = 0x1f80;

/// The caller's mode, restored when this is dropped.
#[cfg(target_arch = "x86_64")]
struct Found(u32);

#[cfg(target_arch = "x86_64")]
impl Found {
    fn replace() -> Self {
        let mut found = 0u32;
        // SAFETY: stores MXCSR to `found`
        unsafe { core::arch::asm!("stmxcsr [{}]", in(reg) &mut found, options(nostack, preserves_flags)) };
        load(DEFAULT);
        Self(found)
    }
}

#[cfg(target_arch = "x86_64")]
impl Drop for Found {
    fn drop(&mut self) {
        load(self.0);
    }
}

#[cfg(target_arch = "x86_64")]
fn load(mode: u32) {
    // SAFETY: loads MXCSR with the default, or with what it held: no reserved bit is set
    unsafe { core::arch::asm!("ldmxcsr [{}]", in(reg) &mode, options(nostack, preserves_flags)) };
}

/// Runs a call in the library's mode.
pub fn in_default_mode<T>(call: impl FnOnce() -> T) -> T {
    #[cfg(target_arch = "x86_64")]
    let _found = Found::replace();
    call()
}
