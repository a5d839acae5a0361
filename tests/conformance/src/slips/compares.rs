//! What goes wrong with the compares: each slip hears the compare bit of another
//! status.

use super::Slip;

const PROGRAM: u8 = 0x83;
const COMPARE: u8 = 0x60;
const STATUS: u8 = 0xD7;

/// The compare bit of a status, and the bit that ends a wait.
const DIFFERS: u8 = 0x40;
const READY: u8 = 0x80;

/// What has been heard of the compare bits so far.
#[derive(Default)]
pub struct Compares {
    /// The opcode of the last frame that was no poll.
    last: u8,
    /// A status that should not count has had the bit.
    differs: bool,
}

impl Compares {
    /// What the driver hears of a status in place of its compare bit.
    pub fn hear(&mut self, slip: Slip, frame: &[u8], reply: &mut [u8]) {
        if frame[0] != STATUS {
            self.last = frame[0];
            // A compare begins anew; what an 83's wait has shown is kept for it.
            self.differs &= self.last == COMPARE;
            return;
        }
        let (bit, ready) = (reply[1] & DIFFERS, reply[1] & READY != 0);
        match (slip, self.last) {
            (Slip::StoresNothing | Slip::SealedByAllBits, _) => reply[1] &= !DIFFERS,
            (Slip::EarlierPollCounts, COMPARE) => self.differs |= bit != 0,
            (Slip::ProgramWaitCounts, PROGRAM) if ready => self.differs = bit != 0,
            _ => {}
        }
        if self.last == COMPARE && self.differs {
            reply[1] |= DIFFERS;
        }
    }
}
