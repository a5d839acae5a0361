//! Examples of the compares after programming and of answer 16, with their values
//! typed here: over a made-up chip, and over the chip, which never miscompares.

use at45db081d_model::driver::Link;
use at45db081d_model::{answer, Call, Chip, Date, Lent, Outcome, Part};

const READY: u8 = 0xA4;
const BUSY: u8 = 0x24;
/// The compare bit of a status.
const DIFFERS: u8 = 0x40;

/// The waits of a put and a patch: one at the beginning, then of each page that
/// after 83 and that after 60.
const WAITS: usize = 17;

fn after_60(page: usize) -> usize {
    2 + 2 * page
}

/// Nothing but replies: the statuses of each wait in turn, of which the last comes
/// again and again, registers of 00, and a slot.
struct MadeUp {
    statuses: Vec<Vec<u8>>,
    slot: Vec<u8>,
    /// Frames that are no polls: the opcodes, and the data of each 84.
    opcodes: Vec<u8>,
    loaded: Vec<Vec<u8>>,
    frames: usize,
    /// Waits begun so far, and the polls of the last, 0 between two waits.
    waits: usize,
    polls: usize,
}

impl MadeUp {
    /// A chip that is ready at each poll, and whose slot has these bytes.
    fn ready(slot: &[u8]) -> MadeUp {
        MadeUp {
            statuses: vec![vec![READY]; WAITS],
            slot: slot.to_vec(),
            opcodes: Vec::new(),
            loaded: Vec::new(),
            frames: 0,
            waits: 0,
            polls: 0,
        }
    }

    fn with(mut self, wait: usize, statuses: &[u8]) -> MadeUp {
        self.statuses[wait] = statuses.to_vec();
        self
    }

    fn with_all(mut self, waits: impl Iterator<Item = usize>, statuses: &[u8]) -> MadeUp {
        for wait in waits {
            self.statuses[wait] = statuses.to_vec();
        }
        self
    }

    fn status(&mut self) -> u8 {
        self.waits += usize::from(self.polls == 0);
        let statuses = &self.statuses[self.waits - 1];
        let status = statuses[self.polls.min(statuses.len() - 1)];
        self.polls += 1;
        status
    }

    /// Runs a call; hands back answer, frames and polls.
    fn run(&mut self, part: Part, call: Call) -> (u8, usize, u64) {
        let (result, polls) = call.drive(part, self);
        (result.err().unwrap_or(0), self.frames, polls)
    }
}

impl Link for MadeUp {
    fn send(&mut self, frame: &[u8], reply: &mut [u8]) -> Result<(), u8> {
        self.frames += 1;
        if frame[0] == 0xD7 {
            reply[1] = self.status();
            return Ok(());
        }
        self.polls = 0;
        self.opcodes.push(frame[0]);
        if frame[0] == 0x84 {
            self.loaded.push(frame[4..].to_vec());
        }
        if frame[0] == 0xD2 {
            let page_size = reply.len() - 8;
            let read = self.opcodes.iter().filter(|&&opcode| opcode == 0xD2);
            let page = &self.slot[(read.count() - 1) * page_size..][..page_size];
            reply[8..].copy_from_slice(page);
        }
        Ok(())
    }
}

/// A part of either page size.
const PARTS: [Part; 2] = [Part::FULL, Part::SHORT_256];

/// The bytes of a slot that holds 1,500 of them, in version 1.
fn slot(part: Part) -> Vec<u8> {
    let mut slot = vec![0x11; part.slot_size()];
    slot[..3].copy_from_slice(&[1, 0x05, 0xDC]);
    slot
}

fn put(poll_limit: usize) -> Call<'static> {
    Call::Put {
        slot: 7,
        poll_limit,
        term: None,
        recipe: b"salt",
    }
}

/// A patch of 1,400 bytes, which has to do with six pages.
fn patch(poll_limit: usize) -> Call<'static> {
    Call::Patch {
        slot: 7,
        poll_limit,
        place: 100,
        bytes: &[0x99; 1400],
    }
}

#[test]
fn each_page_is_told_at_the_end() {
    for part in PARTS {
        let mut calm = MadeUp::ready(&slot(part));
        assert_eq!(calm.run(part, patch(1)), (0, 51, 17));
        for page in 0..8 {
            let odd = || MadeUp::ready(&slot(part)).with(after_60(page), &[READY | DIFFERS]);
            assert_eq!(odd().run(part, put(1)), (answer::MISCOMPARE, 43, 17));
            let mut chip = odd();
            assert_eq!(chip.run(part, patch(1)), (answer::MISCOMPARE, 51, 17));
            // What follows is patched all the same.
            assert!(chip.loaded == calm.loaded && chip.opcodes == calm.opcodes);
        }
    }
}

#[test]
fn every_page_is_compared_with_buffer_1() {
    let part = Part::SHORT;
    let mut chip = MadeUp::ready(&slot(part));
    chip.run(part, put(1));
    assert_eq!(chip.opcodes[..2], [0x32, 0x35]);
    assert_eq!(chip.opcodes[2..], [0x84, 0x83, 0x60].repeat(8));
    let mut chip = MadeUp::ready(&slot(part));
    chip.run(part, patch(1));
    assert_eq!(chip.opcodes[2..], [0xD2, 0x84, 0x83, 0x60].repeat(8));
}

/// The status that ends the wait counts, and none before it.
#[test]
fn last_status_counts() {
    for part in PARTS {
        for page in 0..8 {
            let chip = |statuses: &[u8]| MadeUp::ready(&slot(part)).with(after_60(page), statuses);
            for call in [put, patch] {
                let (_, frames, polls) = chip(&[READY]).run(part, call(3));
                let (frames, polls) = (frames + 2, polls + 2);
                let early = [BUSY | DIFFERS, BUSY | DIFFERS, READY];
                let met = chip(&early).run(part, call(3));
                assert_eq!(met, (0, frames, polls));
                let met = chip(&[BUSY, BUSY, READY | DIFFERS]).run(part, call(3));
                assert_eq!(met, (answer::MISCOMPARE, frames, polls));
            }
        }
    }
}

#[test]
fn waits_after_anything_but_60_do_not_count() {
    for part in PARTS {
        for call in [put, patch] {
            let others = (0..WAITS).filter(|wait| *wait == 0 || wait % 2 == 1);
            let mut chip = MadeUp::ready(&slot(part)).with_all(others, &[READY | DIFFERS]);
            assert_eq!(chip.run(part, call(1)).0, 0);
        }
    }
}

/// 12 and 13 come before 16; the pages then keep what they had.
#[test]
fn verdicts_come_first() {
    for part in PARTS {
        for (head, expected) in [
            ([0xFF, 0xFF, 0xFF], answer::BLANK),
            ([1, 0x05, 0xDB], answer::END),
            ([1, 0x05, 0xDC], answer::MISCOMPARE),
        ] {
            let mut bytes = slot(part);
            bytes[..3].copy_from_slice(&head);
            let mut chip = MadeUp::ready(&bytes).with_all(0..WAITS, &[READY | DIFFERS]);
            assert_eq!(chip.run(part, patch(1)), (expected, 51, 17));
            let kept = chip.loaded.concat() == bytes;
            assert_eq!(kept, expected != answer::MISCOMPARE);
        }
    }
}

/// 8 and 9 end the call at once, and 10 before anything is compared.
#[test]
fn answers_on_the_way_come_first() {
    let part = Part::SHORT;
    let chip = || MadeUp::ready(&slot(part)).with_all(0..WAITS, &[READY | DIFFERS]);
    // The second page's waits after 83 and after 60.
    for (wait, frames) in [(3, 11), (4, 13)] {
        let met = chip().with(wait, &[0x80]).run(part, put(1));
        assert_eq!(met, (answer::CHIP, frames, wait as u64 + 1));
        let met = chip().with(wait, &[BUSY | DIFFERS]).run(part, put(1));
        assert_eq!(met, (answer::BUSY, frames, wait as u64 + 1));
    }
    let mut chip = Sealed(chip());
    let (result, polls) = put(1).drive(part, &mut chip);
    assert_eq!((result, polls), (Err(answer::SEALED), 1));
}

/// A made-up chip with each bit of its registers set.
struct Sealed(MadeUp);

impl Link for Sealed {
    fn send(&mut self, frame: &[u8], reply: &mut [u8]) -> Result<(), u8> {
        self.0.send(frame, reply)?;
        if matches!(frame[0], 0x32 | 0x35) {
            reply.fill(0xFF);
        }
        Ok(())
    }
}

#[test]
fn get_and_wipe_compare_nothing() {
    let part = Part::SHORT;
    let chip = || MadeUp::ready(&slot(part)).with_all(0..WAITS, &[READY | DIFFERS]);
    let get = Call::Get {
        slot: 7,
        poll_limit: 1,
        today: Date::new(2000, 1, 1),
        buffer: &mut [0; 2109],
    };
    assert_eq!(chip().run(part, get), (0, 9, 1));
    let wipe = Call::Wipe {
        slot: 7,
        poll_limit: 1,
    };
    assert_eq!(chip().run(part, wipe), (0, 5, 2));
}

/// A call on a chip, with a log for a poll limit of 3.
fn on_chip(chip: &mut Chip, array: &mut [u8], script: &[u8], call: Call) -> Outcome {
    let lent = Lent {
        array,
        script,
        junk: &[],
        log: &mut [0; 6 * 85],
    };
    chip.call(lent, call)
}

/// The compare bit that a chip has beforehand is gone by each page's last status.
#[test]
fn chip_with_its_compare_bit_set_takes_every_page() {
    for part in PARTS {
        let mut array = vec![0; part.array_len()];
        let mut chip = Chip::fresh(&[0; 64], &mut array).expect("a known part");
        for (call, frames) in [(put as fn(usize) -> Call<'static>, 43), (patch, 51)] {
            // A raw 60 of the slot's first page, which is not what the buffer is.
            chip.buffers[0].fill(0x5A);
            let first = part.address_of(56).to_be_bytes();
            let raw = Call::Raw {
                frame: &[0x60, first[1], first[2], first[3]],
                reply: &mut [0; 4],
            };
            assert_eq!(on_chip(&mut chip, &mut array, &[], raw).answer, 0);
            assert!(chip.compare);
            array[56 * part.page_size..][..part.slot_size()].copy_from_slice(&slot(part));
            let met = on_chip(&mut chip, &mut array, &[], call(1));
            assert_eq!((met.answer, met.frames, met.polls), (0, frames, 17));
            assert!(!chip.compare);
        }
    }
}

/// Busy periods that do not end give 9, after 83 and after 60, with the compare bit
/// set too.
#[test]
fn scripts_that_end_nothing_give_9() {
    let part = Part::SHORT;
    let mut array = vec![0; part.array_len()];
    let fresh = Chip::fresh(&[0; 64], &mut array).expect("a known part");
    // The frames behind which busy periods end; from the 83, the 60 and the next
    // page's 83 on they do not.
    for (ends, frames, polls) in [(4, 8, 4), (6, 10, 5), (9, 13, 6)] {
        let script = [vec![0; ends], vec![1; 100]].concat();
        let mut chip = fresh.clone();
        chip.compare = true;
        let met = on_chip(&mut chip, &mut array, &script, put(3));
        let met = (met.answer, met.frames, met.polls);
        assert_eq!(met, (answer::BUSY, frames, polls));
    }
}
