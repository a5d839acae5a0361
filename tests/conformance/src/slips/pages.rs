//! What a device made for 264-byte pages would do on parts of 256: each slip of
//! page sizes, on these parts alone.

use at45db081d_model::record::{field, tag};
use at45db081d_model::{answer, Call, Part, Record};

use super::Slip;
use crate::frames::{row_of, ROWS};

/// The longest recipe with pages of 264 bytes.
const LONGER: usize = Part::FULL.max_recipe();

/// A part of 256-byte pages, if an array of this length is one's.
pub fn part_of_256(array_len: usize) -> Option<Part> {
    Part::from_array_len(array_len).filter(|part| part.page_size == 256)
}

/// The frame with its address as nine bits for the byte would have it.
pub fn sent(slip: Slip, frame: &[u8]) -> Vec<u8> {
    let mut frame = frame.to_vec();
    let row = row_of(&frame).map(|row| ROWS[row]);
    if let Some(row) = row.filter(|row| slip == Slip::WideByteField && frame.len() >= row.lead) {
        if let Some(place) = row.address_place() {
            let bytes = &mut frame[place..place + 3];
            let n = u32::from_be_bytes([0, bytes[0], bytes[1], bytes[2]]);
            let read = n >> 9 << 8 | n & 0xFF;
            bytes.copy_from_slice(&read.to_be_bytes()[1..]);
        }
    }
    frame
}

/// The reply with bit 0 of the status as other parts have it.
pub fn hear(slip: Slip, frame: &[u8], reply: &mut [u8]) {
    if slip == Slip::PageSizeBitForgotten && frame.first() == Some(&0xD7) {
        reply.iter_mut().skip(1).for_each(|byte| *byte &= 0xFE);
    }
}

/// The junk of a cut, a register's taken from where other parts have it.
pub fn junk(slip: Slip, record: &Record, junk: &[u8]) -> Vec<u8> {
    let mut junk = junk.to_vec();
    let on_register = [
        tag::ERASE_PROTECTION,
        tag::PROGRAM_PROTECTION,
        tag::LOCK_SECTOR,
        tag::PROGRAM_SECURITY,
    ]
    .contains(&record[field::TAG]);
    if slip == Slip::RegisterJunkAt528 && on_register && junk.len() > 528 + 64 {
        junk.copy_within(528..528 + 64, 512);
    }
    junk
}

/// Behind an accepted cut: the buffers' last bytes are junk too.
pub fn after_cut(slip: Slip, record: &mut Record, junk: &[u8]) {
    if slip == Slip::CutFillsBuffers {
        for (buffer, at) in [(field::BUFFER_1, 256), (field::BUFFER_2, 512)] {
            record[buffer.start + 256..buffer.end].copy_from_slice(&junk[at..at + 8]);
        }
    }
}

/// The refusals by the longer limit: a put over the part's is taken, a get buffer
/// of the part's is not.
pub fn refuse(slip: Slip, right: Result<(), u8>, call: &Call) -> Result<(), u8> {
    match (slip, right, call) {
        (Slip::LongerLimitKept, Err(answer::SIZE), Call::Put { recipe, .. })
            if recipe.len() <= LONGER && call.dates_fit() =>
        {
            Ok(())
        }
        (Slip::LongerLimitKept, Ok(()), Call::Get { buffer, .. }) if buffer.len() < LONGER => {
            Err(answer::SIZE)
        }
        _ => right,
    }
}
