//! A chip that is sent frames.

use at45db081d_model::{answer, Chip, Part};

pub const FACTORY: [u8; 64] = [0x5A; 64];

/// A fresh chip and its array.
pub fn fresh(part: Part) -> (Chip, Vec<u8>) {
    let mut array = vec![0; part.array_len()];
    let chip = Chip::fresh(&FACTORY, &mut array).expect("a known part");
    (chip, array)
}

/// Sends a frame that must be accepted; hands back the reply.
pub fn send(chip: &mut Chip, array: &[u8], frame: &[u8]) -> Vec<u8> {
    let mut reply = vec![0xEE; frame.len()];
    assert_eq!(chip.send(array, frame, &mut reply), answer::ACCEPTED);
    reply
}

pub fn status(chip: &mut Chip, array: &[u8]) -> u8 {
    send(chip, array, &[0xD7, 0x00])[1]
}
