//! What the processor has, which is asked once.

use core::sync::atomic::{AtomicU8, Ordering};

const UNKNOWN: u8 = 0;
const YES: u8 = 1;
const NO: u8 = 2;

/// Whether the processor moves sixteen bytes to any places by one instruction, of SSSE3.
static SHUFFLES: AtomicU8 = AtomicU8::new(UNKNOWN);

/// Returns whether the processor is known to shuffle by one instruction: `with_shuffles` asks it.
///
/// A crate that is compiled for processors with the instruction asks none.
#[inline(always)]
pub fn has_shuffles() -> bool {
    cfg!(target_feature = "ssse3") || SHUFFLES.load(Ordering::Relaxed) == YES
}

/// Does something by code for a processor that shuffles by one instruction, if this one does.
///
/// What is always inlined into the code is compiled for that processor too.
#[inline(always)]
#[allow(unsafe_code)]
pub fn with_shuffles<R>(act: impl FnOnce() -> R) -> R {
    #[target_feature(enable = "ssse3")]
    fn shuffling<R>(act: impl FnOnce() -> R) -> R {
        act()
    }

    let is_known = cfg!(target_feature = "ssse3") || SHUFFLES.load(Ordering::Relaxed) != UNKNOWN;
    if !is_known {
        ask();
    }
    if cfg!(target_feature = "ssse3") || !has_shuffles() {
        return act();
    }
    // SAFETY: the processor has SSSE3.
    unsafe { shuffling(act) }
}

/// Asks the processor, and keeps the answer.
#[cold]
#[inline(never)]
fn ask() {
    let answer = if asked() { YES } else { NO };
    SHUFFLES.store(answer, Ordering::Relaxed);
}

#[cfg(feature = "std")]
fn asked() -> bool {
    std::arch::is_x86_feature_detected!("ssse3")
}

/// Asks by the instruction `cpuid`: bit 9 of leaf 1 is SSSE3.
#[cfg(not(feature = "std"))]
#[allow(unsafe_code, unused_unsafe)]
fn asked() -> bool {
    // SAFETY: every x86-64 has the instruction. Later versions of Rust know that.
    let leaf = unsafe { core::arch::x86_64::__cpuid(1) };
    leaf.ecx & 1 << 9 != 0
}
