//! A link from the model's driver to a faulty chip, with slips of its own.

use at45db081d_model::calls::log_line;
use at45db081d_model::driver::Link;
use at45db081d_model::part::{sector_bits, sector_of};
use at45db081d_model::slot::{judge_get, judge_patch, Head, HEADER_SIZE, TERM_HEADER_SIZE};
use at45db081d_model::{answer, Call, Lent, Outcome, Part, Record};

use super::compares::Compares;
use super::{terms, Faulty, Slip};
use crate::device::Device;

const LOAD: u8 = 0x84;
const PROGRAM: u8 = 0x83;
const COMPARE: u8 = 0x60;
const READ: u8 = 0xD2;
const STATUS: u8 = 0xD7;
const PROTECTION: u8 = 0x32;
const LOCKDOWN: u8 = 0x35;

#[derive(Clone, Copy, PartialEq, Eq)]
enum Kind {
    Put,
    Patch,
    Get,
    Wipe,
    Raw,
}

pub struct Wire<'a> {
    slip: Slip,
    part: Part,
    record: &'a mut Record,
    lent: Lent<'a>,
    kind: Kind,
    slot: usize,
    poll_limit: usize,
    /// Where a patch begins, and the length of recipe or patch.
    place: usize,
    len: usize,
    /// Whether a put has a term, and the day of a get.
    has_term: bool,
    today: u32,
    frames: usize,
    polls: u64,
    /// Pages loaded and pages read so far, and the first of each.
    loads: usize,
    reads: usize,
    first_load: Vec<u8>,
    first_read: Vec<u8>,
    compares: Compares,
    /// Frames still to be dropped.
    dropping: usize,
    cut: bool,
}

impl<'a> Wire<'a> {
    pub fn new(
        slip: Slip,
        part: Part,
        record: &'a mut Record,
        lent: Lent<'a>,
        call: &Call,
    ) -> Wire<'a> {
        let (slot, poll_limit) = call.target().unwrap_or_default();
        let today = match call {
            Call::Get { today, .. } => today.number(),
            _ => None,
        };
        let (kind, place, len) = match call {
            Call::Put { recipe, .. } => (Kind::Put, 0, recipe.len()),
            Call::Patch { place, bytes, .. } => (Kind::Patch, *place, bytes.len()),
            Call::Get { .. } => (Kind::Get, 0, 0),
            Call::Wipe { .. } => (Kind::Wipe, 0, 0),
            Call::Raw { .. } => (Kind::Raw, 0, 0),
        };
        Wire {
            slip,
            part,
            record,
            lent,
            kind,
            slot,
            poll_limit,
            place,
            len,
            has_term: matches!(call, Call::Put { term: Some(_), .. }),
            today: today.unwrap_or(0),
            frames: 0,
            polls: 0,
            loads: 0,
            reads: 0,
            first_load: Vec::new(),
            first_read: Vec::new(),
            compares: Compares::default(),
            dropping: 0,
            cut: false,
        }
    }

    /// Runs the call, which is not refused.
    pub fn run(mut self, call: Call) -> Outcome {
        let (mut result, _) = call.drive(self.part, &mut self);
        let first_answers = [answer::CHIP, answer::BUSY, answer::SEALED].map(Err);
        if self.cut && !first_answers.contains(&result) {
            result = Err(answer::CUT);
        }
        result = self.judged(result);
        let mut n = result.unwrap_or(0) as u64;
        match (self.slip, self.kind, result) {
            (Slip::GetTellsLengthUnder12, Kind::Get, Err(answer::BLANK))
            | (Slip::GetTellsLengthUnder15, Kind::Get, Err(answer::TERM)) => {
                n = u64::from(u16::from_be_bytes([self.first_read[1], self.first_read[2]]));
            }
            _ => {}
        }
        let answer = result.err().unwrap_or(answer::ACCEPTED);
        if self.slip == Slip::LogClearedBehind {
            self.lent.log[6 * self.frames..].fill(0);
        }
        Outcome {
            answer,
            frames: self.frames_told(answer),
            polls: self.polls_told(),
            n,
        }
    }

    /// The result with a verdict of the slip's on what was read.
    fn judged(&self, result: Result<usize, u8>) -> Result<usize, u8> {
        let (slip, part, bytes) = (self.slip, self.part, &self.first_read);
        let at_end = !matches!(result, Err(8..=11));
        match self.kind {
            Kind::Get if at_end => terms::judge_get(slip, result, part, bytes, self.today),
            Kind::Patch if at_end => terms::judge_patch(slip, result, part, bytes),
            _ => result,
        }
    }

    fn frames_told(&self, answer: u8) -> u64 {
        let uncounted = self.slip == Slip::CutFrameUncounted && answer == answer::CUT;
        (self.frames - usize::from(uncounted)) as u64
    }

    fn polls_told(&self) -> u64 {
        match (self.slip, self.kind) {
            (Slip::PollsMadeUp, Kind::Put | Kind::Patch) if self.loads == 8 => 17,
            _ => self.polls,
        }
    }

    /// Whether a poll of a wait, or a frame of the caller's that looks like it.
    fn is_poll(&self, frame: &[u8]) -> bool {
        frame[0] == STATUS && (self.kind != Kind::Raw || self.slip == Slip::RawStatusIsPoll)
    }

    /// The range of the slot's page `k` in the array.
    fn page(&self, k: usize) -> std::ops::Range<usize> {
        self.part.page_range((8 * self.slot + k) as u16)
    }

    /// The bytes of the slot that a get has to read by its first page.
    fn used(&self) -> usize {
        let head = Head::read(self.part, &self.first_read);
        head.map_or(self.part.slot_size(), |head| head.body + head.len)
    }

    /// Where a patch begins in the slot, by its first page.
    fn patch_start(&self) -> usize {
        let head = Head::read(self.part, &self.first_read);
        head.map_or(HEADER_SIZE, |head| head.body) + self.place
    }

    /// What a patch comes to, by its first page.
    fn patch_verdict(&self) -> Result<Head, u8> {
        judge_patch(self.part, &self.first_read, self.place + self.len)
    }

    /// An error if the slip ends a patch of this verdict before its first 84.
    fn ends_at_once(&self) -> Result<(), u8> {
        let ending = match self.slip {
            Slip::PatchEndsUnder12 => answer::BLANK,
            Slip::PatchEndsUnder13 => answer::END,
            _ => return Ok(()),
        };
        match self.patch_verdict() {
            Err(answer) if answer == ending => Err(answer),
            _ => Ok(()),
        }
    }

    /// Whether the 60 of the last page loaded is dropped, with its wait.
    fn compares_not(&self) -> bool {
        match self.slip {
            Slip::LastPageNotCompared => self.loads == 8,
            Slip::KeptPagesNotCompared if self.kind == Kind::Patch => self.patch_verdict().is_err(),
            _ => false,
        }
    }

    /// How many frames the slip drops from this one on.
    fn dropped_from(&self, frame: &[u8]) -> usize {
        let driven = self.kind != Kind::Raw;
        let read_on = self.kind == Kind::Get && self.reads > 0;
        match (self.slip, frame[0]) {
            (Slip::SkipsPageAlreadyThere, LOAD) if driven => {
                let there = self.lent.array[self.page(self.loads)] == frame[4..];
                5 * usize::from(there)
            }
            (Slip::SkipsPageOutsidePatch, LOAD) if self.kind == Kind::Patch => {
                let first = self.patch_start();
                let page = self.part.page_range(self.loads as u16);
                let outside = first >= page.end || first + self.len <= page.start;
                5 * usize::from(outside)
            }
            (Slip::GetStopsAtStoredLength, READ) if read_on => {
                usize::from(self.reads * self.part.page_size >= self.used())
            }
            (Slip::GetStopsOutsideTerm, READ) if read_on => {
                let verdict = judge_get(self.part, &self.first_read, self.today);
                usize::from(verdict == Err(answer::TERM))
            }
            (_, COMPARE) if driven && self.compares_not() => 2,
            _ => 0,
        }
    }

    /// Decides whether a frame is dropped; an error ends the call.
    fn drops(&mut self, frame: &[u8]) -> Result<bool, u8> {
        let driven = self.kind != Kind::Raw;
        match frame[0] {
            LOAD if self.kind == Kind::Patch && self.loads == 0 => self.ends_at_once()?,
            STATUS if driven && self.slip == Slip::BusyAtOnce => return Err(answer::BUSY),
            STATUS if driven && self.slip == Slip::PollLimitPerCall => {
                if self.polls == self.poll_limit as u64 {
                    return Err(answer::BUSY);
                }
            }
            _ => {}
        }
        self.dropping = self.dropping.max(self.dropped_from(frame));
        let drops = self.dropping > 0;
        self.dropping -= usize::from(drops);
        Ok(drops)
    }

    /// The frame that the chip gets in place of the one that is logged.
    fn change(&mut self, frame: &[u8]) -> Vec<u8> {
        let mut changed = frame.to_vec();
        match (self.slip, frame[0], self.kind) {
            (Slip::StoresNothing, PROGRAM, Kind::Put | Kind::Patch) => changed[0] = 0x00,
            (Slip::ComparedWithBuffer2, COMPARE, Kind::Put | Kind::Patch) => changed[0] = 0x61,
            (Slip::SevenPagesAlike, LOAD, Kind::Put) if self.loads > 0 => {
                changed.copy_from_slice(&self.first_load);
            }
            (Slip::PatchWritesUnder13, LOAD, Kind::Patch) => {
                let at = self.patch_start();
                let page_size = self.part.page_size;
                let late = self.patch_verdict() == Err(answer::END);
                if late && at / page_size == self.loads {
                    changed[4 + at % page_size] ^= 0xFF;
                }
            }
            (Slip::DaysLittleEndian, LOAD, Kind::Put) if self.has_term && self.loads == 0 => {
                terms::turn_days(&mut changed[4..]);
            }
            _ => {}
        }
        changed
    }

    /// What the driver hears in place of a reply.
    fn hear(&mut self, frame: &[u8], reply: &mut [u8]) {
        if self.kind == Kind::Raw {
            return;
        }
        self.compares.hear(self.slip, frame, reply);
        let (byte, bits) = sector_bits(sector_of(8 * self.slot as u16));
        match (self.slip, frame[0]) {
            (Slip::ReadyWithCompareBit, STATUS) if reply[1] & 0x40 != 0 => reply[1] &= 0x7F,
            (Slip::SealedByAllBits, PROTECTION | LOCKDOWN) if reply[4 + byte] & bits != bits => {
                reply[4 + byte] &= !bits;
            }
            (Slip::RegisterByteOff, PROTECTION | LOCKDOWN) => reply.copy_within(..16, 4),
            (Slip::DaysLittleEndian, READ)
                if self.kind == Kind::Get && self.reads == 1 && reply[8] == 2 =>
            {
                terms::turn_days(&mut reply[8..]);
            }
            _ => {}
        }
    }

    fn log(&mut self, frame: &[u8]) {
        let mut line = log_line(frame);
        let padding = 2 + frame.len().min(4);
        let target = &mut self.lent.log[6 * self.frames..][..6];
        match (self.slip, frame[0], self.kind) {
            (Slip::LogPadsWithZeros, _, _) => line[padding..].fill(0),
            (Slip::LogKeepsPadding, _, _) => line[padding..].copy_from_slice(&target[padding..]),
            (Slip::ComparedWithBuffer2, COMPARE, Kind::Put | Kind::Patch) => line[2] = 0x61,
            (Slip::LogShowsTerm, LOAD, Kind::Put) if self.has_term && self.loads == 0 => {
                line[5] = 1;
            }
            (Slip::LogShowsRecipeLength, LOAD, Kind::Put) => {
                let page_size = self.part.page_size;
                let head = match self.has_term {
                    true => TERM_HEADER_SIZE,
                    false => HEADER_SIZE,
                };
                let used = (head + self.len).saturating_sub(self.loads * page_size);
                let len = 4 + used.min(page_size) as u16;
                line[..2].copy_from_slice(&len.to_be_bytes());
            }
            _ => {}
        }
        target.copy_from_slice(&line);
    }

    /// Does what the script says of the frame.
    fn event(&mut self) -> Result<(), u8> {
        let mut chip = Faulty(self.slip);
        match self.lent.script.get(self.frames).copied().unwrap_or(0) {
            0 => {
                chip.end_busy(self.record, self.lent.array);
            }
            1 => {}
            _ => {
                chip.cut(self.record, self.lent.array, self.lent.junk);
                if self.slip != Slip::CutAfterVerdict {
                    return Err(answer::CUT);
                }
                self.cut = true;
            }
        }
        Ok(())
    }

    /// Counts pages loaded and read, and keeps the first of each.
    fn note(&mut self, frame: &[u8], reply: &[u8]) {
        match frame[0] {
            LOAD => {
                if self.loads == 0 {
                    self.first_load = frame.to_vec();
                }
                self.loads += 1;
            }
            READ if self.kind != Kind::Raw => {
                if self.reads == 0 {
                    self.first_read = reply[8..].to_vec();
                }
                self.reads += 1;
            }
            _ => {}
        }
    }
}

impl Link for Wire<'_> {
    fn send(&mut self, frame: &[u8], reply: &mut [u8]) -> Result<(), u8> {
        if self.cut {
            return Err(answer::CUT);
        }
        if self.drops(frame)? {
            reply.fill(if frame[0] == STATUS { 0xA4 } else { 0x00 });
            self.note(frame, reply);
            return Ok(());
        }
        let early = self.slip == Slip::EventBeforeFrame;
        let ending = if early { self.event() } else { Ok(()) };
        let sent = self.change(frame);
        Faulty(self.slip).send(self.record, self.lent.array, &sent, reply);
        self.log(frame);
        self.note(frame, reply);
        self.polls += u64::from(self.is_poll(frame));
        let ending = if early { ending } else { self.event() };
        self.frames += 1;
        ending?;
        self.hear(frame, reply);
        if self.slip == Slip::AlwaysSealed && frame[0] == LOCKDOWN && self.kind != Kind::Raw {
            return Err(answer::SEALED);
        }
        Ok(())
    }
}
