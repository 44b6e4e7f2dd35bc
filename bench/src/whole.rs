//! For a value that is made and not used: what std::hint::black_box is for, which the oldest Rust that builds this does not
//! have.

use std::arch::asm;

/// Has the compiler take it that all of the value is read, so that it leaves no part of it out.
pub fn whole<T>(value: &T) {
    // Nothing is done with the address.
    unsafe { asm!("/* {} */", in(reg) value as *const T, options(nostack, preserves_flags, readonly)) };
}
