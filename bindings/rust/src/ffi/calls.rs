//! The slot calls: put, with a term or without, patch, get, wipe and raw. A date
//! is `[year, month, day]`, any numbers.

use crate::{Record, Run};

/// The library's functions as they are.
pub mod raw {
    extern "C" {
        pub fn slipknoll_put(
            record: *mut u8,
            array: *mut u8,
            array_len: usize,
            slot: usize,
            poll_limit: usize,
            recipe: *const u8,
            recipe_len: usize,
            script: *const u8,
            script_len: usize,
            junk: *const u8,
            junk_len: usize,
            log: *mut u8,
            log_len: usize,
            counts: *mut u64,
        ) -> u8;

        pub fn slipknoll_put_term(
            record: *mut u8,
            array: *mut u8,
            array_len: usize,
            slot: usize,
            poll_limit: usize,
            first_year: u32,
            first_month: u32,
            first_day: u32,
            last_year: u32,
            last_month: u32,
            last_day: u32,
            recipe: *const u8,
            recipe_len: usize,
            script: *const u8,
            script_len: usize,
            junk: *const u8,
            junk_len: usize,
            log: *mut u8,
            log_len: usize,
            counts: *mut u64,
        ) -> u8;

        pub fn slipknoll_patch(
            record: *mut u8,
            array: *mut u8,
            array_len: usize,
            slot: usize,
            poll_limit: usize,
            place: usize,
            bytes: *const u8,
            bytes_len: usize,
            script: *const u8,
            script_len: usize,
            junk: *const u8,
            junk_len: usize,
            log: *mut u8,
            log_len: usize,
            counts: *mut u64,
        ) -> u8;

        pub fn slipknoll_get(
            record: *mut u8,
            array: *mut u8,
            array_len: usize,
            slot: usize,
            poll_limit: usize,
            year: u32,
            month: u32,
            day: u32,
            buffer: *mut u8,
            buffer_len: usize,
            script: *const u8,
            script_len: usize,
            junk: *const u8,
            junk_len: usize,
            log: *mut u8,
            log_len: usize,
            counts: *mut u64,
        ) -> u8;

        pub fn slipknoll_wipe(
            record: *mut u8,
            array: *mut u8,
            array_len: usize,
            slot: usize,
            poll_limit: usize,
            script: *const u8,
            script_len: usize,
            junk: *const u8,
            junk_len: usize,
            log: *mut u8,
            log_len: usize,
            counts: *mut u64,
        ) -> u8;

        pub fn slipknoll_raw(
            record: *mut u8,
            array: *mut u8,
            array_len: usize,
            frame: *const u8,
            frame_len: usize,
            reply: *mut u8,
            reply_len: usize,
            script: *const u8,
            script_len: usize,
            junk: *const u8,
            junk_len: usize,
            log: *mut u8,
            log_len: usize,
            counts: *mut u64,
        ) -> u8;
    }
}

/// Stores a recipe in a slot.
pub fn put(
    record: &mut Record,
    array: &mut [u8],
    slot: usize,
    poll_limit: usize,
    recipe: &[u8],
    run: &mut Run,
) -> u8 {
    // SAFETY: each pointer comes from a reference of the length that the
    // library expects or is told; what is written overlaps nothing else.
    unsafe {
        raw::slipknoll_put(
            record.as_mut_ptr(),
            array.as_mut_ptr(),
            array.len(),
            slot,
            poll_limit,
            recipe.as_ptr(),
            recipe.len(),
            run.script.as_ptr(),
            run.script.len(),
            run.junk.as_ptr(),
            run.junk.len(),
            run.log.as_mut_ptr(),
            run.log.len(),
            run.counts.as_mut_ptr(),
        )
    }
}

/// Stores a recipe in a slot with its first and its last day.
#[allow(clippy::too_many_arguments)]
pub fn put_term(
    record: &mut Record,
    array: &mut [u8],
    slot: usize,
    poll_limit: usize,
    first: [u32; 3],
    last: [u32; 3],
    recipe: &[u8],
    run: &mut Run,
) -> u8 {
    // SAFETY: as in `put`.
    unsafe {
        raw::slipknoll_put_term(
            record.as_mut_ptr(),
            array.as_mut_ptr(),
            array.len(),
            slot,
            poll_limit,
            first[0],
            first[1],
            first[2],
            last[0],
            last[1],
            last[2],
            recipe.as_ptr(),
            recipe.len(),
            run.script.as_ptr(),
            run.script.len(),
            run.junk.as_ptr(),
            run.junk.len(),
            run.log.as_mut_ptr(),
            run.log.len(),
            run.counts.as_mut_ptr(),
        )
    }
}

/// Changes bytes of a slot's recipe, from `place` on.
pub fn patch(
    record: &mut Record,
    array: &mut [u8],
    slot: usize,
    poll_limit: usize,
    place: usize,
    bytes: &[u8],
    run: &mut Run,
) -> u8 {
    // SAFETY: as in `put`.
    unsafe {
        raw::slipknoll_patch(
            record.as_mut_ptr(),
            array.as_mut_ptr(),
            array.len(),
            slot,
            poll_limit,
            place,
            bytes.as_ptr(),
            bytes.len(),
            run.script.as_ptr(),
            run.script.len(),
            run.junk.as_ptr(),
            run.junk.len(),
            run.log.as_mut_ptr(),
            run.log.len(),
            run.counts.as_mut_ptr(),
        )
    }
}

/// Reads a slot's recipe into the beginning of `buffer`.
pub fn get(
    record: &mut Record,
    array: &mut [u8],
    slot: usize,
    poll_limit: usize,
    today: [u32; 3],
    buffer: &mut [u8],
    run: &mut Run,
) -> u8 {
    // SAFETY: as in `put`.
    unsafe {
        raw::slipknoll_get(
            record.as_mut_ptr(),
            array.as_mut_ptr(),
            array.len(),
            slot,
            poll_limit,
            today[0],
            today[1],
            today[2],
            buffer.as_mut_ptr(),
            buffer.len(),
            run.script.as_ptr(),
            run.script.len(),
            run.junk.as_ptr(),
            run.junk.len(),
            run.log.as_mut_ptr(),
            run.log.len(),
            run.counts.as_mut_ptr(),
        )
    }
}

/// Erases a slot.
pub fn wipe(
    record: &mut Record,
    array: &mut [u8],
    slot: usize,
    poll_limit: usize,
    run: &mut Run,
) -> u8 {
    // SAFETY: as in `put`.
    unsafe {
        raw::slipknoll_wipe(
            record.as_mut_ptr(),
            array.as_mut_ptr(),
            array.len(),
            slot,
            poll_limit,
            run.script.as_ptr(),
            run.script.len(),
            run.junk.as_ptr(),
            run.junk.len(),
            run.log.as_mut_ptr(),
            run.log.len(),
            run.counts.as_mut_ptr(),
        )
    }
}

/// Sends one frame of the caller's.
pub fn raw(
    record: &mut Record,
    array: &mut [u8],
    frame: &[u8],
    reply: &mut [u8],
    run: &mut Run,
) -> u8 {
    // SAFETY: as in `put`.
    unsafe {
        raw::slipknoll_raw(
            record.as_mut_ptr(),
            array.as_mut_ptr(),
            array.len(),
            frame.as_ptr(),
            frame.len(),
            reply.as_mut_ptr(),
            reply.len(),
            run.script.as_ptr(),
            run.script.len(),
            run.junk.as_ptr(),
            run.junk.len(),
            run.log.as_mut_ptr(),
            run.log.len(),
            run.counts.as_mut_ptr(),
        )
    }
}
