//! Shows that the comparison notices faults: devices that are the model but
//! for one slip each.

use at45db081d_model::record::{field, tag};
use at45db081d_model::{answer, Call, Chip, Lent, Outcome, Part, Record};
use conformance::runner::runs_one_case;
use conformance::{run_cases, scenarios, Cases, Device, Failure, Model};

#[derive(Clone, Copy, Debug, PartialEq)]
enum Fault {
    None,
    /// 88/89 treated as 83/86.
    ProgramWithoutAnd,
    /// A page erase also changes the array's last byte.
    StrayWrite,
    /// The seal is looked at again at the busy end.
    SealTestedTwice,
    /// FC takes its data from buffer 1 at the busy end.
    ProtectionFromBuffer,
    /// Locking 0a or 0b forgets the other's bits.
    LockAssigns,
    /// Any bit of byte 0 locks 0a and 0b.
    LowBitsLock,
    /// 9F is obeyed while a sector is being locked.
    IdentifiesWhileLocking,
    /// The byte field has eight bits.
    NarrowByteField,
    /// The page to lock is in the last three bytes of the frame.
    LocksByLastBytes,
    /// Sectors that no part has are ignored in a Chip Erase's set.
    StraySectorsIgnored,
    /// A frame of 1,101 bytes is taken.
    LongFrame,
    /// A refused frame clears the reply.
    RefusedReplyCleared,
    /// A refused call makes the marks 0 or 1.
    RefusedRecordTidied,
    /// An accepted call leaves the marks as they were.
    AcceptedRecordUntidy,
    /// A pin move makes the other marks 0 or 1.
    PinTidiesRecord,
    /// A cut clears lockdown.
    CutClearsLockdown,
    /// A cut raises WP.
    CutRaisesWp,
    /// A cut locks from 81h on.
    CutLocksLate,
    /// A cut's junk is tested before the part.
    CutTestsJunkFirst,
}

const FAULTS: [Fault; 19] = [
    Fault::ProgramWithoutAnd,
    Fault::StrayWrite,
    Fault::SealTestedTwice,
    Fault::ProtectionFromBuffer,
    Fault::LockAssigns,
    Fault::LowBitsLock,
    Fault::IdentifiesWhileLocking,
    Fault::NarrowByteField,
    Fault::LocksByLastBytes,
    Fault::StraySectorsIgnored,
    Fault::LongFrame,
    Fault::RefusedReplyCleared,
    Fault::RefusedRecordTidied,
    Fault::AcceptedRecordUntidy,
    Fault::PinTidiesRecord,
    Fault::CutClearsLockdown,
    Fault::CutRaisesWp,
    Fault::CutLocksLate,
    Fault::CutTestsJunkFirst,
];

const MARKS: [usize; 5] = [
    field::SECURITY_PROGRAMMED,
    field::PROTECTION_ENABLED,
    field::WP_HIGH,
    field::DEEP_POWER_DOWN,
    field::COMPARE,
];

/// The model with one fault.
struct Faulty(Fault);

impl Device for Faulty {
    fn fresh(&mut self, record: &mut Record, factory: &[u8; 64], array: &mut [u8]) -> u8 {
        Model.fresh(record, factory, array)
    }

    fn send(&mut self, record: &mut Record, array: &[u8], frame: &[u8], reply: &mut [u8]) -> u8 {
        let before = *record;
        let mut frame = frame.to_vec();
        self.spoil_frame(&mut frame);
        self.spoil_before_send(record, &frame);
        let answer = if self.0 == Fault::LongFrame && frame.len() == 1101 && reply.len() == 1101 {
            reply[1100] = 0xFF;
            Model.send(record, array, &frame[..1100], &mut reply[..1100])
        } else {
            Model.send(record, array, &frame, reply)
        };
        if self.0 == Fault::RefusedReplyCleared && answer == answer::FRAME {
            reply.fill(0xFF);
        }
        self.restore_after_send(record, &before, &frame);
        self.spoil_marks(record, &before, answer);
        answer
    }

    fn end_busy(&mut self, record: &mut Record, array: &mut [u8]) -> u8 {
        let before = *record;
        self.spoil_before_end(record);
        let answer = Model.end_busy(record, array);
        let erased = answer == answer::ACCEPTED && before[field::TAG] == tag::ERASE_PAGE;
        if self.0 == Fault::StrayWrite && erased {
            *array.last_mut().expect("an array") ^= 1;
        }
        self.spoil_marks(record, &before, answer);
        answer
    }

    fn move_pin(&mut self, record: &mut Record, high: bool) -> u8 {
        if self.0 == Fault::PinTidiesRecord {
            tidy_marks(record);
        }
        Model.move_pin(record, high)
    }

    fn cut(&mut self, record: &mut Record, array: &mut [u8], junk: &[u8]) -> u8 {
        let before = *record;
        let mut junk = junk.to_vec();
        let fits = Part::ALL.map(Part::junk_len).contains(&junk.len());
        if self.0 == Fault::CutTestsJunkFirst && !fits {
            return answer::SCRIPT;
        }
        let at = Part::from_array_len(array.len()).map_or(0, Part::array_junk);
        let locks = before[field::TAG] == tag::LOCK_SECTOR;
        if self.0 == Fault::CutLocksLate && locks && junk.get(at) == Some(&0x80) {
            junk[at] = 0;
        }
        self.spoil_sectors(record);
        let answer = Model.cut(record, array, &junk);
        if answer == answer::ACCEPTED {
            match self.0 {
                Fault::CutClearsLockdown => record[field::LOCKDOWN].fill(0),
                Fault::CutRaisesWp => record[field::WP_HIGH] = 1,
                _ => {}
            }
        }
        self.spoil_marks(record, &before, answer);
        answer
    }

    fn call(&mut self, record: &mut Record, lent: Lent, call: Call) -> Outcome {
        Model.call(record, lent, call)
    }
}

impl Faulty {
    fn spoil_frame(&self, frame: &mut [u8]) {
        let len = frame.len();
        match self.0 {
            Fault::NarrowByteField if frame.starts_with(&[0xD2]) && len >= 4 => frame[2] &= 0xFE,
            Fault::LocksByLastBytes if frame.starts_with(&[0x3D, 0x2A, 0x7F, 0x30]) && len >= 7 => {
                frame.copy_within(len - 3.., 4);
            }
            _ => {}
        }
    }

    fn spoil_before_send(&self, record: &mut Record, frame: &[u8]) {
        let locking = record[field::TAG] == tag::LOCK_SECTOR && record[field::BUFFER] == 0;
        match self.0 {
            Fault::LowBitsLock if record[field::LOCKDOWN.start] != 0 => {
                record[field::LOCKDOWN.start] |= 0xF0;
            }
            Fault::IdentifiesWhileLocking if locking && frame.first() == Some(&0x9F) => {
                record[field::TAG] = tag::ERASE_SECTOR;
            }
            _ => {}
        }
        self.spoil_sectors(record);
    }

    fn restore_after_send(&self, record: &mut Record, before: &Record, frame: &[u8]) {
        match self.0 {
            Fault::LowBitsLock => record[field::LOCKDOWN.start] = before[field::LOCKDOWN.start],
            Fault::IdentifiesWhileLocking if frame.first() == Some(&0x9F) => {
                record[field::TAG] = before[field::TAG];
            }
            _ => {}
        }
    }

    fn spoil_before_end(&self, record: &mut Record) {
        let chip = Chip::from_record(record);
        let tag = record[field::TAG];
        match self.0 {
            Fault::ProgramWithoutAnd if tag == tag::PROGRAM_WITHOUT_ERASE => {
                record[field::TAG] = tag::PROGRAM;
            }
            Fault::SealTestedTwice if tag == tag::PROGRAM && chip.is_sealed(1) => {
                record[field::TAG] = tag::IDLE;
                record[field::BUFFER] = 0;
            }
            Fault::ProtectionFromBuffer if tag == tag::PROGRAM_PROTECTION => {
                record[field::DATA].copy_from_slice(&chip.buffers[0][..64]);
            }
            Fault::LockAssigns if tag == tag::LOCK_SECTOR => record[field::LOCKDOWN.start] = 0,
            _ => {}
        }
        self.spoil_sectors(record);
    }

    fn spoil_sectors(&self, record: &mut Record) {
        let chip_erase = record[field::TAG] == tag::ERASE_CHIP && record[field::BUFFER] == 0;
        if self.0 == Fault::StraySectorsIgnored && chip_erase {
            record[field::SECTORS.start] = 0;
            record[field::SECTORS.start + 1] &= 1;
        }
    }

    fn spoil_marks(&self, record: &mut Record, before: &Record, answer: u8) {
        match self.0 {
            Fault::RefusedRecordTidied if answer != answer::ACCEPTED => tidy_marks(record),
            Fault::AcceptedRecordUntidy if answer == answer::ACCEPTED => {
                for mark in MARKS {
                    if before[mark] > 1 && record[mark] == 1 {
                        record[mark] = before[mark];
                    }
                }
            }
            _ => {}
        }
    }
}

fn tidy_marks(record: &mut Record) {
    for mark in MARKS {
        record[mark] = record[mark].min(1);
    }
}

/// Runs a share of every scenario on a short part; the first failure.
fn first_failure(part: Part, fault: Fault) -> Option<Failure> {
    scenarios::ALL.iter().find_map(|scenario| {
        let rate = match (scenario.cases)(part) {
            1_000..=40_000 => 5,
            _ => 100,
        };
        let cases = Cases::share(scenario, part, rate);
        run_cases(scenario, cases, &mut Faulty(fault)).err()
    })
}

#[test]
fn harness_notices_faults() {
    if runs_one_case() {
        return;
    }
    for part in [Part::SHORT, Part::SHORT_256] {
        if let Some(failure) = first_failure(part, Fault::None) {
            panic!("the model differs from itself: {failure}");
        }
        for fault in FAULTS {
            let failure = first_failure(part, fault);
            let failure = failure.unwrap_or_else(|| panic!("{fault:?} not noticed"));
            let (scenario, case) = (failure.scenario, failure.case);
            println!("{fault:?}: {scenario} {case}: {}", failure.mismatch.what);
        }
    }
}
