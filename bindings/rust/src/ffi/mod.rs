//! The C interface as it is: slices for pointers with lengths, and numbers for
//! answers. `raw` in each module has the functions themselves.
//!
//! [`Chip`](crate::Chip) and [`Driver`](crate::Driver) stand on this. Use it
//! for lengths and states that they do not let through.

use crate::{Record, FACTORY_LEN};

pub mod calls;
pub mod driver;

/// The library's functions as they are.
pub mod raw {
    extern "C" {
        pub fn slipknoll_fresh(
            record: *mut u8,
            factory: *const u8,
            array: *mut u8,
            array_len: usize,
        ) -> u8;

        pub fn slipknoll_send(
            record: *mut u8,
            array: *const u8,
            array_len: usize,
            frame: *const u8,
            frame_len: usize,
            reply: *mut u8,
            reply_len: usize,
        ) -> u8;

        pub fn slipknoll_end_busy(record: *mut u8, array: *mut u8, array_len: usize) -> u8;

        pub fn slipknoll_move_pin(record: *mut u8, high: bool) -> u8;

        pub fn slipknoll_cut(
            record: *mut u8,
            array: *mut u8,
            array_len: usize,
            junk: *const u8,
            junk_len: usize,
        ) -> u8;
    }
}

/// Makes record and array those of a fresh chip; answers 0 or 1.
pub fn fresh(record: &mut Record, factory: &[u8; FACTORY_LEN], array: &mut [u8]) -> u8 {
    // SAFETY: each pointer comes from a reference of the length that the
    // library expects or is told; what is written overlaps nothing else.
    unsafe {
        raw::slipknoll_fresh(
            record.as_mut_ptr(),
            factory.as_ptr(),
            array.as_mut_ptr(),
            array.len(),
        )
    }
}

/// Sends one frame; answers 0, 1 or 2.
pub fn send(record: &mut Record, array: &[u8], frame: &[u8], reply: &mut [u8]) -> u8 {
    // SAFETY: as in `fresh`.
    unsafe {
        raw::slipknoll_send(
            record.as_mut_ptr(),
            array.as_ptr(),
            array.len(),
            frame.as_ptr(),
            frame.len(),
            reply.as_mut_ptr(),
            reply.len(),
        )
    }
}

/// Ends the busy period; answers 0 or 1.
pub fn end_busy(record: &mut Record, array: &mut [u8]) -> u8 {
    // SAFETY: as in `fresh`.
    unsafe { raw::slipknoll_end_busy(record.as_mut_ptr(), array.as_mut_ptr(), array.len()) }
}

/// Moves the WP pin; answers 0.
pub fn move_pin(record: &mut Record, high: bool) -> u8 {
    // SAFETY: as in `fresh`.
    unsafe { raw::slipknoll_move_pin(record.as_mut_ptr(), high) }
}

/// Cuts the supply; answers 0, 1 or 7.
pub fn cut(record: &mut Record, array: &mut [u8], junk: &[u8]) -> u8 {
    // SAFETY: as in `fresh`.
    unsafe {
        raw::slipknoll_cut(
            record.as_mut_ptr(),
            array.as_mut_ptr(),
            array.len(),
            junk.as_ptr(),
            junk.len(),
        )
    }
}
