//! The slot driver alone: it takes in a reply and hands out the frame that
//! follows, or none at the end. A date is `[year, month, day]`, any numbers.

use crate::{DRIVER_FRAME_LEN, SLOT_ROOM};

/// Length of the driver's state.
pub const STATE_LEN: usize = 72;

/// What the library answers of a driver that has not ended.
pub const RUNNING: u8 = 255;

/// The driver's state as a block of bytes.
pub type State = [u8; STATE_LEN];

/// The library's functions as they are.
pub mod raw {
    extern "C" {
        pub fn slipknoll_driver_start_put(
            state: *mut u8,
            array_len: usize,
            slot: usize,
            poll_limit: usize,
            recipe: *const u8,
            recipe_len: usize,
        );

        pub fn slipknoll_driver_start_put_term(
            state: *mut u8,
            array_len: usize,
            slot: usize,
            poll_limit: usize,
            first_year: u32,
            first_month: u32,
            first_day: u32,
            last_year: u32,
            last_month: u32,
            last_day: u32,
            recipe: *const u8,
            recipe_len: usize,
        );

        pub fn slipknoll_driver_start_patch(
            state: *mut u8,
            array_len: usize,
            slot: usize,
            poll_limit: usize,
            place: usize,
            bytes: *const u8,
            bytes_len: usize,
        );

        pub fn slipknoll_driver_start_get(
            state: *mut u8,
            array_len: usize,
            slot: usize,
            poll_limit: usize,
            year: u32,
            month: u32,
            day: u32,
            buffer_len: usize,
        );

        pub fn slipknoll_driver_start_wipe(
            state: *mut u8,
            array_len: usize,
            slot: usize,
            poll_limit: usize,
        );

        pub fn slipknoll_driver_frame(
            state: *const u8,
            payload: *const u8,
            payload_len: usize,
            staged: *const u8,
            frame: *mut u8,
        ) -> usize;

        pub fn slipknoll_driver_next(
            state: *mut u8,
            payload: *const u8,
            payload_len: usize,
            reply: *const u8,
            reply_len: usize,
            staged: *mut u8,
            frame: *mut u8,
        ) -> usize;

        pub fn slipknoll_driver_answer(state: *const u8) -> u8;

        pub fn slipknoll_driver_count(state: *const u8, staged: *const u8) -> usize;
    }
}

/// Starts a put; a refusal is a state that has ended.
pub fn start_put(
    state: &mut State,
    array_len: usize,
    slot: usize,
    poll_limit: usize,
    recipe: &[u8],
) {
    // SAFETY: each pointer comes from a reference of the length that the
    // library expects or is told; what is written overlaps nothing else.
    unsafe {
        raw::slipknoll_driver_start_put(
            state.as_mut_ptr(),
            array_len,
            slot,
            poll_limit,
            recipe.as_ptr(),
            recipe.len(),
        )
    }
}

/// Starts a put with a first and a last day.
pub fn start_put_term(
    state: &mut State,
    array_len: usize,
    slot: usize,
    poll_limit: usize,
    first: [u32; 3],
    last: [u32; 3],
    recipe: &[u8],
) {
    // SAFETY: as in `start_put`.
    unsafe {
        raw::slipknoll_driver_start_put_term(
            state.as_mut_ptr(),
            array_len,
            slot,
            poll_limit,
            first[0],
            first[1],
            first[2],
            last[0],
            last[1],
            last[2],
            recipe.as_ptr(),
            recipe.len(),
        )
    }
}

/// Starts a patch.
pub fn start_patch(
    state: &mut State,
    array_len: usize,
    slot: usize,
    poll_limit: usize,
    place: usize,
    bytes: &[u8],
) {
    // SAFETY: as in `start_put`.
    unsafe {
        raw::slipknoll_driver_start_patch(
            state.as_mut_ptr(),
            array_len,
            slot,
            poll_limit,
            place,
            bytes.as_ptr(),
            bytes.len(),
        )
    }
}

/// Starts a get into a buffer of this length.
pub fn start_get(
    state: &mut State,
    array_len: usize,
    slot: usize,
    poll_limit: usize,
    today: [u32; 3],
    buffer_len: usize,
) {
    // SAFETY: as in `start_put`.
    unsafe {
        raw::slipknoll_driver_start_get(
            state.as_mut_ptr(),
            array_len,
            slot,
            poll_limit,
            today[0],
            today[1],
            today[2],
            buffer_len,
        )
    }
}

/// Starts a wipe.
pub fn start_wipe(state: &mut State, array_len: usize, slot: usize, poll_limit: usize) {
    // SAFETY: as in `start_put`.
    unsafe { raw::slipknoll_driver_start_wipe(state.as_mut_ptr(), array_len, slot, poll_limit) }
}

/// Writes the frame to send now and returns its length; 0 at the end.
///
/// `payload` is the recipe of a put, the bytes of a patch, else empty.
pub fn frame(
    state: &State,
    payload: &[u8],
    staged: &[u8; SLOT_ROOM],
    frame: &mut [u8; DRIVER_FRAME_LEN],
) -> usize {
    // SAFETY: as in `start_put`.
    unsafe {
        raw::slipknoll_driver_frame(
            state.as_ptr(),
            payload.as_ptr(),
            payload.len(),
            staged.as_ptr(),
            frame.as_mut_ptr(),
        )
    }
}

/// Takes the reply to the last frame, writes the next one and returns its
/// length; 0 at the end.
pub fn next(
    state: &mut State,
    payload: &[u8],
    reply: &[u8],
    staged: &mut [u8; SLOT_ROOM],
    frame: &mut [u8; DRIVER_FRAME_LEN],
) -> usize {
    // SAFETY: as in `start_put`.
    unsafe {
        raw::slipknoll_driver_next(
            state.as_mut_ptr(),
            payload.as_ptr(),
            payload.len(),
            reply.as_ptr(),
            reply.len(),
            staged.as_mut_ptr(),
            frame.as_mut_ptr(),
        )
    }
}

/// The answer; None while the driver is running.
pub fn answer(state: &State) -> Option<u8> {
    // SAFETY: as in `start_put`.
    match unsafe { raw::slipknoll_driver_answer(state.as_ptr()) } {
        RUNNING => None,
        answer => Some(answer),
    }
}

/// Of a get that has ended with 0 the recipe's length; else 0.
///
/// The recipe stands in `staged` from [`body`] on.
pub fn count(state: &State, staged: &[u8; SLOT_ROOM]) -> usize {
    // SAFETY: as in `start_put`.
    unsafe { raw::slipknoll_driver_count(state.as_ptr(), staged.as_ptr()) }
}

/// Where the recipe begins in the bytes of its slot: behind its term if these have
/// one. The same as the header's `SLIPKNOLL_BODY`.
pub fn body(staged: &[u8; SLOT_ROOM]) -> usize {
    match staged[0] {
        2 => 11,
        _ => 3,
    }
}
