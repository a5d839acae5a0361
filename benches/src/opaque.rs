//! A value of which the compiler knows nothing. (`std::hint` has one from Rust
//! 1.66 on, and Debian 12 has 1.63.)

use std::{mem, ptr};

/// The same value, read back in a way that the compiler may not shorten.
pub fn black_box<T>(value: T) -> T {
    // SAFETY: the pointer is that of a value, and the value is forgotten, so
    // that there are not two of it.
    unsafe {
        let same = ptr::read_volatile(&value);
        mem::forget(value);
        same
    }
}
