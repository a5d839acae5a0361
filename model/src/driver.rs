//! The slot driver: the frames of each call, one after the other.
//!
//! It knows nothing of a chip but the frames that go out and the replies that
//! come back; a [`Link`] carries both. Section 10 of the specification.

use crate::answer;
use crate::part::{sector_bits, sector_of, Part, BUFFER_SIZE, PAGES_PER_BLOCK};
use crate::slot::{judge_get, judge_patch, store, Head, SLOT_ROOM};

/// Bytes before the data: an opcode with its address, and D2's four more.
const LEAD: usize = 4;
const READ_LEAD: usize = 8;

/// 32 and 35: a lead, and room for the register's bytes (10.7).
const REGISTER_FRAME: usize = LEAD + 16;

const STATUS_READY: u8 = 0x80;
/// The last compare found a difference (3.21).
const STATUS_COMPARE: u8 = 0x40;
/// The bits by which the chip is known (3.21).
const STATUS_DENSITY: u8 = 0b0011_1100;
const DENSITY: u8 = 0b0010_0100;
/// The chip is guarded (3.21).
const STATUS_PROTECT: u8 = 0x02;

/// The way to a chip and back.
pub trait Link {
    /// Sends a frame and fills in its reply, which is as long; an error is an
    /// answer that ends the call at once.
    fn send(&mut self, frame: &[u8], reply: &mut [u8]) -> Result<(), u8>;
}

/// One call on one slot over a link.
pub struct Driver<'a, L: Link> {
    pub link: &'a mut L,
    pub part: Part,
    /// Below the number of the part's blocks.
    pub slot: usize,
    /// B: how many polls each wait may have (10.15).
    pub poll_limit: usize,
    /// Polls so far, of all waits (11.7).
    pub polls: u64,
}

impl<'a, L: Link> Driver<'a, L> {
    pub fn new(link: &'a mut L, part: Part, slot: usize, poll_limit: usize) -> Self {
        Driver {
            link,
            part,
            slot,
            poll_limit,
            polls: 0,
        }
    }

    /// Every page is programmed, lowest first (10.4, 10.5), with the bytes of
    /// 9.4; what the compares found is told behind the last (10.32). The days are
    /// those of a term.
    pub fn put(&mut self, recipe: &[u8], days: Option<[u32; 2]>) -> Result<(), u8> {
        self.begin_writing()?;
        let mut room = [0; SLOT_ROOM];
        let bytes = &mut room[..self.part.slot_size()];
        store(bytes, recipe, days);
        let mut differs = false;
        for (k, page) in bytes.chunks_exact(self.part.page_size).enumerate() {
            differs |= self.program(k, page)?;
        }
        judge_pages(differs)
    }

    /// Every page is read and programmed (10.4). The first one tells the verdict
    /// (10.20); under 12 and 13 the frames are as many, with the bytes that
    /// were read (9.8), and what the compares found is not told (10.32).
    ///
    /// The patch ends by the longest recipe's end.
    pub fn patch(&mut self, place: usize, bytes: &[u8]) -> Result<(), u8> {
        self.begin_writing()?;
        let mut verdict = Err(answer::BLANK);
        let mut differs = false;
        for k in 0..PAGES_PER_BLOCK {
            let mut room = [0; BUFFER_SIZE];
            let page = &mut room[..self.part.page_size];
            self.read(k, page)?;
            if k == 0 {
                verdict = judge_patch(self.part, page, place + bytes.len());
            }
            if let Ok(head) = verdict {
                change(page, k, head.body + place, bytes);
            }
            differs |= self.program(k, page)?;
        }
        verdict.and_then(|_| judge_pages(differs))
    }

    /// Every page is read, however long the recipe is (10.4). The slot's bytes,
    /// and their head or answer 12 or 15 (9.9).
    pub fn get(&mut self, slot_bytes: &mut [u8], today: u32) -> Result<Head, u8> {
        self.wait()?;
        for (k, page) in slot_bytes.chunks_exact_mut(self.part.page_size).enumerate() {
            self.read(k, page)?;
        }
        judge_get(self.part, slot_bytes, today)
    }

    /// One erase of the slot's block (10.5).
    pub fn wipe(&mut self) -> Result<(), u8> {
        self.begin_writing()?;
        self.send_address(0x50, 0)?;
        self.wait()?;
        Ok(())
    }

    /// Polls until the chip is ready; the B-th busy one ends the call (10.15).
    /// The status that ended the wait.
    fn wait(&mut self) -> Result<u8, u8> {
        for _ in 0..self.poll_limit {
            let mut reply = [0; 2];
            self.polls += 1;
            self.link.send(&[0xD7, 0x00], &mut reply)?;
            let status = reply[1];
            // Whatever bit 7 is (10.14).
            if status & STATUS_DENSITY != DENSITY {
                return Err(answer::CHIP);
            }
            if status & STATUS_READY != 0 {
                return Ok(status);
            }
        }
        Err(answer::BUSY)
    }

    /// The opening of a call that writes: both registers are always read
    /// (10.3), then it is told whether the slot's sector is sealed (10.16).
    fn begin_writing(&mut self) -> Result<(), u8> {
        let status = self.wait()?;
        let protection = self.register_byte(0x32)?;
        let lockdown = self.register_byte(0x35)?;
        let (_, bits) = self.sector_bits();
        let locked = lockdown & bits != 0;
        let listed = protection & bits != 0;
        if locked || (listed && status & STATUS_PROTECT != 0) {
            return Err(answer::SEALED);
        }
        Ok(())
    }

    /// The byte of a register in which the slot's sector has its bits (10.13).
    fn register_byte(&mut self, opcode: u8) -> Result<u8, u8> {
        let mut frame = [0; REGISTER_FRAME];
        frame[0] = opcode;
        let mut reply = [0; REGISTER_FRAME];
        self.link.send(&frame, &mut reply)?;
        let (byte, _) = self.sector_bits();
        Ok(reply[LEAD + byte])
    }

    /// D2 of the slot's page `k` (10.7, 10.19).
    fn read(&mut self, k: usize, page: &mut [u8]) -> Result<(), u8> {
        let mut frame = [0; READ_LEAD + BUFFER_SIZE];
        let mut reply = frame;
        let len = READ_LEAD + self.part.page_size;
        frame[..LEAD].copy_from_slice(&self.naming(0xD2, k));
        self.link.send(&frame[..len], &mut reply[..len])?;
        page.copy_from_slice(&reply[READ_LEAD..len]);
        Ok(())
    }

    /// 84, 83 and a wait: the slot's page `k` becomes `bytes`. Then 60 and a
    /// wait: true if page and buffer differ, by the status that ended this second
    /// wait (10.31).
    fn program(&mut self, k: usize, bytes: &[u8]) -> Result<bool, u8> {
        // The 84 loads the buffer from its first byte (10.7, 10.10).
        let mut frame = [0; LEAD + BUFFER_SIZE];
        let mut reply = frame;
        let len = LEAD + self.part.page_size;
        frame[0] = 0x84;
        frame[LEAD..len].copy_from_slice(bytes);
        self.link.send(&frame[..len], &mut reply[..len])?;
        self.send_address(0x83, k)?;
        self.wait()?;
        self.send_address(0x60, k)?;
        Ok(self.wait()? & STATUS_COMPARE != 0)
    }

    fn send_address(&mut self, opcode: u8, k: usize) -> Result<(), u8> {
        self.link.send(&self.naming(opcode, k), &mut [0; LEAD])
    }

    /// Opcode, and address of the slot's page `k` (10.8).
    fn naming(&self, opcode: u8, k: usize) -> [u8; LEAD] {
        let [_, high, middle, low] = self.part.address_of(self.page(k)).to_be_bytes();
        [opcode, high, middle, low]
    }

    /// The part's number of the slot's page `k` (9.1).
    fn page(&self, k: usize) -> u16 {
        (self.slot * PAGES_PER_BLOCK + k) as u16
    }

    fn sector_bits(&self) -> (usize, u8) {
        sector_bits(sector_of(self.page(0)))
    }
}

/// Answer 16 if a page was found to differ from what was loaded for it (10.32).
fn judge_pages(differs: bool) -> Result<(), u8> {
    if differs {
        Err(answer::MISCOMPARE)
    } else {
        Ok(())
    }
}

/// Lays a patch that begins at this byte of the slot over its page `k` (9.7).
fn change(page: &mut [u8], k: usize, patch_start: usize, bytes: &[u8]) {
    let page_start = k * page.len();
    let start = patch_start.max(page_start);
    let end = (patch_start + bytes.len()).min(page_start + page.len());
    if start < end {
        page[start - page_start..end - page_start]
            .copy_from_slice(&bytes[start - patch_start..end - patch_start]);
    }
}
