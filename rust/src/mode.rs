//! The floating-point mode of a call.

use core::arch::asm;

#[cfg(not(all(target_arch = "x86_64", target_pointer_width = "64")))]
compile_error!("the library is x86-64 code");

/// Round to nearest, denormals kept, no exception trapped, no exception flag set.
const DEFAULT: u32 = 0x1f80;

fn set(mode: u32) {
    // SAFETY: reads the four bytes at the address. Of a mode other than the default one: it is the caller's own that is put back.
    unsafe { asm!("ldmxcsr [{}]", in(reg) &mode, options(nostack)) }
}

/// The caller's mode and exception flags; dropped, it puts them back.
struct CallersMode(u32);

impl CallersMode {
    fn put_by() -> CallersMode {
        let mut mode = 0;
        // SAFETY: writes the four bytes at the address.
        unsafe { asm!("stmxcsr [{}]", in(reg) &mut mode, options(nostack, preserves_flags)) }
        set(DEFAULT);
        CallersMode(mode)
    }
}

impl Drop for CallersMode {
    fn drop(&mut self) {
        set(self.0);
    }
}

/// Makes the call in the default mode. Not inlined, so that no floating-point operation of the caller's is moved to where the mode is not its own.
#[inline(never)]
pub(crate) fn in_default_mode<R>(call: impl FnOnce() -> R) -> R {
    let _callers = CallersMode::put_by();
    call()
}
