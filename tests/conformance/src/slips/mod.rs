//! Devices with one seeded fault each, to show that the tests notice it.
//!
//! A faulty device is the model but for its slip: its calls run the model's
//! driver over a [`wire`] that drops, changes or miscounts something. [`drivers`]
//! has drivers with a fault that a chip would not show.

use at45db081d_model::record::{field, tag};
use at45db081d_model::{answer, Call, Chip, Date, Lent, Outcome, Part, Record};

use crate::device::{Device, Model};

mod compares;
pub mod drivers;
mod pages;
mod terms;
mod wire;

use wire::Wire;

/// What is wrong with a device.
#[derive(Clone, Copy, Debug, PartialEq, Eq)]
pub enum Slip {
    None,

    /// A page that has its bytes already is not programmed again.
    SkipsPageAlreadyThere,
    /// A page that a patch does not touch is not programmed again.
    SkipsPageOutsidePatch,
    /// Get reads no page beyond the stored length.
    GetStopsAtStoredLength,
    /// A patch under 12 ends at once.
    PatchEndsUnder12,
    /// A patch under 13 ends at once.
    PatchEndsUnder13,
    /// A patch under 13 writes all the same.
    PatchWritesUnder13,
    /// The frames are sent and nothing is stored; compares are not looked at.
    StoresNothing,
    /// The first page is right and the other seven get the same bytes.
    SevenPagesAlike,

    /// A cut clears lockdown.
    CutClearsLockdown,
    /// A cut makes page 5 junk if nothing is under way.
    IdleCutSpoilsPage,
    /// 88 is treated as 83.
    AndTreatedAsProgram,
    /// FC takes its data from buffer 1 at the busy end.
    ProtectionFromBuffer,

    /// Ready is bit 7 set and bit 6 clear.
    ReadyWithCompareBit,
    /// A sector is sealed only if all of its bits are set; compares are not looked
    /// at.
    SealedByAllBits,
    /// Byte j of the replies to 32 and 35, not byte 4 + j.
    RegisterByteOff,
    /// The script's byte acts before its frame.
    EventBeforeFrame,
    /// 8, 9 and 10 are looked at before a cut.
    CutAfterVerdict,
    /// The poll limit is that of the whole call.
    PollLimitPerCall,
    /// 9 before any poll.
    BusyAtOnce,
    /// 10 whatever the replies are.
    AlwaysSealed,

    /// 4 before 3.
    LimitBeforeSlot,
    /// 5 before 4.
    SizeBeforeLimit,
    /// 6 before 5.
    LogBeforeSize,
    /// 7 before 6.
    ScriptBeforeLog,
    /// 2 before 1.
    FrameBeforePart,
    /// A script byte past the bound of the frames is not looked at.
    ScriptTestedToBound,
    /// The junk's length matters without a cut too.
    JunkTestedAlways,
    /// A patch's end wraps at the largest number.
    PatchEndWraps,
    /// A recipe's length is taken modulo 65,536.
    RecipeLengthWraps,
    /// A refused call clears the log.
    RefusalClearsLog,

    /// A raw D7 counts as a poll.
    RawStatusIsPoll,
    /// One poll for each wait, however many there were.
    PollsMadeUp,
    /// The frame before a cut is not counted.
    CutFrameUncounted,
    /// Log lines of short frames are filled with 00.
    LogPadsWithZeros,
    /// Log lines of short frames keep what stood there.
    LogKeepsPadding,
    /// The log has the length of an 84 without the zeros behind the recipe.
    LogShowsRecipeLength,
    /// The log behind the lines is cleared.
    LogClearedBehind,

    /// Get clears the buffer behind the recipe.
    GetClearsBuffer,
    /// Get under 12 carries the length that it read.
    GetTellsLengthUnder12,
    /// Get hands back one byte too few.
    GetLosesByte,
    /// Raw's reply is lost in a cut.
    RawReplyLostInCut,

    /// Parts of 256-byte pages read nine bits of an address as the byte.
    WideByteField,
    /// Their junk for registers begins at 528.
    RegisterJunkAt528,
    /// Their cuts fill the buffers' bytes 256 to 263 too.
    CutFillsBuffers,
    /// Bit 0 of their status is 0.
    PageSizeBitForgotten,
    /// Their recipes may have 2,109 bytes.
    LongerLimitKept,

    /// 2100 is a leap year.
    LeapYear2100,
    /// Years before 2000 and after 2199 are taken.
    YearsUntested,
    /// Every month has 31 days.
    LongMonths,
    /// Years are taken modulo 65,536, months and days modulo 256.
    NarrowNumbers,
    /// A first day after the last is taken.
    FirstAfterLastTaken,
    /// 14 is not tested on a get of a record without a term.
    DatesUntestedOnVersion1,
    /// 14 before 5.
    DatesBeforeSize,
    /// 6 before 14.
    LogBeforeDates,
    /// Recipes without a term have the limit of those with one.
    ShorterLimitForAll,
    /// Recipes with a term have the limit of those without.
    LongerLimitForTerms,
    /// The first day is outside.
    FirstDayExcluded,
    /// The last day is outside.
    LastDayExcluded,
    /// 15 before 12.
    TermBeforeBlank,
    /// Every day is inside.
    TermForgotten,
    /// Days in a slot that no put writes make it hold no record.
    StoredDaysTested,
    /// Days are compared by two of their bytes.
    DaysOfTwoBytes,
    /// A patch looks at the term.
    PatchLooksAtTerm,
    /// A patch counts from behind the length, with a term too.
    PatchCountsBehindLength,
    /// Days are written and read with the low byte first.
    DaysLittleEndian,
    /// Get under 15 carries the length that it read.
    GetTellsLengthUnder15,
    /// Get under 15 changes the buffer.
    GetFillsBufferUnder15,
    /// Get outside the term reads no further page.
    GetStopsOutsideTerm,
    /// The log of a put with a term shows that there is one.
    LogShowsTerm,

    /// A difference at an earlier poll of the wait after a 60 counts.
    EarlierPollCounts,
    /// The compare bit counts after an 83 too.
    ProgramWaitCounts,
    /// The last page is not compared.
    LastPageNotCompared,
    /// Pages are compared with buffer 2.
    ComparedWithBuffer2,
    /// A page under 12 and 13 is not compared.
    KeptPagesNotCompared,
}

/// The slips of page sizes that the chip alone has; the last is the calls'.
pub const PAGE_SIZE_SLIPS: [Slip; 4] = [
    Slip::WideByteField,
    Slip::RegisterJunkAt528,
    Slip::CutFillsBuffers,
    Slip::PageSizeBitForgotten,
];

/// Every slip.
pub const SLIPS: [Slip; 74] = [
    Slip::SkipsPageAlreadyThere,
    Slip::SkipsPageOutsidePatch,
    Slip::GetStopsAtStoredLength,
    Slip::PatchEndsUnder12,
    Slip::PatchEndsUnder13,
    Slip::PatchWritesUnder13,
    Slip::StoresNothing,
    Slip::SevenPagesAlike,
    Slip::CutClearsLockdown,
    Slip::IdleCutSpoilsPage,
    Slip::AndTreatedAsProgram,
    Slip::ProtectionFromBuffer,
    Slip::ReadyWithCompareBit,
    Slip::SealedByAllBits,
    Slip::RegisterByteOff,
    Slip::EventBeforeFrame,
    Slip::CutAfterVerdict,
    Slip::PollLimitPerCall,
    Slip::BusyAtOnce,
    Slip::AlwaysSealed,
    Slip::LimitBeforeSlot,
    Slip::SizeBeforeLimit,
    Slip::LogBeforeSize,
    Slip::ScriptBeforeLog,
    Slip::FrameBeforePart,
    Slip::ScriptTestedToBound,
    Slip::JunkTestedAlways,
    Slip::PatchEndWraps,
    Slip::RecipeLengthWraps,
    Slip::RefusalClearsLog,
    Slip::RawStatusIsPoll,
    Slip::PollsMadeUp,
    Slip::CutFrameUncounted,
    Slip::LogPadsWithZeros,
    Slip::LogKeepsPadding,
    Slip::LogShowsRecipeLength,
    Slip::LogClearedBehind,
    Slip::GetClearsBuffer,
    Slip::GetTellsLengthUnder12,
    Slip::GetLosesByte,
    Slip::RawReplyLostInCut,
    Slip::WideByteField,
    Slip::RegisterJunkAt528,
    Slip::CutFillsBuffers,
    Slip::PageSizeBitForgotten,
    Slip::LongerLimitKept,
    Slip::LeapYear2100,
    Slip::YearsUntested,
    Slip::LongMonths,
    Slip::NarrowNumbers,
    Slip::FirstAfterLastTaken,
    Slip::DatesUntestedOnVersion1,
    Slip::DatesBeforeSize,
    Slip::LogBeforeDates,
    Slip::ShorterLimitForAll,
    Slip::LongerLimitForTerms,
    Slip::FirstDayExcluded,
    Slip::LastDayExcluded,
    Slip::TermBeforeBlank,
    Slip::TermForgotten,
    Slip::StoredDaysTested,
    Slip::DaysOfTwoBytes,
    Slip::PatchLooksAtTerm,
    Slip::PatchCountsBehindLength,
    Slip::DaysLittleEndian,
    Slip::GetTellsLengthUnder15,
    Slip::GetFillsBufferUnder15,
    Slip::GetStopsOutsideTerm,
    Slip::LogShowsTerm,
    Slip::EarlierPollCounts,
    Slip::ProgramWaitCounts,
    Slip::LastPageNotCompared,
    Slip::ComparedWithBuffer2,
    Slip::KeptPagesNotCompared,
];

/// The model with one slip.
#[derive(Clone, Copy)]
pub struct Faulty(pub Slip);

impl Device for Faulty {
    fn fresh(&mut self, record: &mut Record, factory: &[u8; 64], array: &mut [u8]) -> u8 {
        Model.fresh(record, factory, array)
    }

    fn send(&mut self, record: &mut Record, array: &[u8], frame: &[u8], reply: &mut [u8]) -> u8 {
        if pages::part_of_256(array.len()).is_none() {
            return Model.send(record, array, frame, reply);
        }
        let answer = Model.send(record, array, &pages::sent(self.0, frame), reply);
        if answer == answer::ACCEPTED {
            pages::hear(self.0, frame, reply);
        }
        answer
    }

    fn end_busy(&mut self, record: &mut Record, array: &mut [u8]) -> u8 {
        match (self.0, record[field::TAG]) {
            (Slip::AndTreatedAsProgram, tag::PROGRAM_WITHOUT_ERASE) => {
                record[field::TAG] = tag::PROGRAM;
            }
            (Slip::ProtectionFromBuffer, tag::PROGRAM_PROTECTION) => {
                let data = field::DATA.start;
                record.copy_within(field::BUFFER_1.start..field::BUFFER_1.start + 16, data);
            }
            _ => {}
        }
        Model.end_busy(record, array)
    }

    fn move_pin(&mut self, record: &mut Record, high: bool) -> u8 {
        Model.move_pin(record, high)
    }

    fn cut(&mut self, record: &mut Record, array: &mut [u8], junk: &[u8]) -> u8 {
        let idle = record[field::TAG] == tag::IDLE;
        let of_256 = pages::part_of_256(array.len()).is_some();
        let answer = match of_256 {
            true => Model.cut(record, array, &pages::junk(self.0, record, junk)),
            false => Model.cut(record, array, junk),
        };
        if of_256 && answer == answer::ACCEPTED {
            pages::after_cut(self.0, record, junk);
        }
        match self.0 {
            Slip::CutClearsLockdown if answer == answer::ACCEPTED => {
                record[field::LOCKDOWN].fill(0);
            }
            Slip::IdleCutSpoilsPage if answer == answer::ACCEPTED && idle => {
                let part = Part::from_array_len(array.len()).expect("a cut that is accepted");
                let page = part.page_range(5);
                array[page.clone()].copy_from_slice(&junk[part.array_junk()..][page]);
            }
            _ => {}
        }
        answer
    }

    fn call(&mut self, record: &mut Record, lent: Lent, call: Call) -> Outcome {
        let call = terms::read(self.0, lent.array, call);
        if let Err(answer) = self.refuse(&Chip::from_record(record), &lent, &call) {
            if self.0 == Slip::RefusalClearsLog {
                lent.log.fill(0);
            }
            return Outcome {
                answer,
                ..Outcome::default()
            };
        }
        let part = Part::from_array_len(lent.array.len()).expect("a call that is not refused");
        let wire = Wire::new(self.0, part, record, lent, &call);
        match self.change(part, call) {
            Call::Get {
                slot,
                poll_limit,
                today,
                buffer,
            } => self.get(wire, slot, poll_limit, today, buffer),
            Call::Raw { frame, reply } => self.raw(wire, frame, reply),
            call => wire.run(call),
        }
    }
}

impl Faulty {
    fn get(
        &self,
        wire: Wire,
        slot: usize,
        poll_limit: usize,
        today: Date,
        buffer: &mut [u8],
    ) -> Outcome {
        let mut read = buffer.to_vec();
        let outcome = wire.run(Call::Get {
            slot,
            poll_limit,
            today,
            buffer: &mut read,
        });
        let n = outcome.n as usize;
        match (self.0, outcome.answer) {
            (Slip::GetClearsBuffer, answer::ACCEPTED) => read[n..].fill(0),
            (Slip::GetLosesByte, answer::ACCEPTED) if n > 0 => read[n - 1] = buffer[n - 1],
            (Slip::GetFillsBufferUnder15, answer::TERM) => read[0] ^= 0xFF,
            _ => {}
        }
        buffer.copy_from_slice(&read);
        outcome
    }

    fn raw(&self, wire: Wire, frame: &[u8], reply: &mut [u8]) -> Outcome {
        let mut heard = vec![0; reply.len()];
        let outcome = wire.run(Call::Raw {
            frame,
            reply: &mut heard,
        });
        if self.0 != Slip::RawReplyLostInCut || outcome.answer != answer::CUT {
            reply.copy_from_slice(&heard);
        }
        outcome
    }

    /// The refusals, with two of them the other way round, one too many or one
    /// too few.
    fn refuse(&self, chip: &Chip, lent: &Lent, call: &Call) -> Result<(), u8> {
        let part = Part::from_array_len(lent.array.len());
        let most = part.map_or(0, Part::max_recipe);
        let limit = call.target().map_or(1, |(_, limit)| limit);
        let log_fits = limit > 1000 || lent.log.len() >= 6 * call.most_frames();
        let script_fits = lent.script.iter().all(|&byte| byte <= 2);
        let right = call.refuse(chip, lent).map(|_| ());
        let right = terms::refuse(self.0, right, call, part, log_fits);
        match (self.0, right, call) {
            (Slip::LimitBeforeSlot, Err(answer::SLOT), _) if limit == 0 => Err(answer::LIMIT),
            (Slip::SizeBeforeLimit, Err(answer::LIMIT), Call::Put { recipe, .. })
                if recipe.len() > most =>
            {
                Err(answer::SIZE)
            }
            (Slip::LogBeforeSize, Err(answer::SIZE), _) if !log_fits => Err(answer::LOG),
            (Slip::ScriptBeforeLog, Err(answer::LOG), _) if !script_fits => Err(answer::SCRIPT),
            (Slip::FrameBeforePart, Err(answer::PART), Call::Raw { frame, reply })
                if reply.len() != frame.len() =>
            {
                Err(answer::FRAME)
            }
            (Slip::JunkTestedAlways, Ok(()), _) if lent.junk.is_empty() => Err(answer::SCRIPT),
            (Slip::ScriptTestedToBound, Err(answer::SCRIPT), _) => {
                let bound = call.most_frames().min(lent.script.len());
                let calm = lent.script[..bound].iter().all(|&byte| byte < 2);
                if calm {
                    Ok(())
                } else {
                    right
                }
            }
            _ if log_fits && lent.script.is_empty() => self.refuse_size(right, lent, call, most),
            _ => right,
        }
    }

    /// Answer 5 by another limit.
    fn refuse_size(
        &self,
        right: Result<(), u8>,
        lent: &Lent,
        call: &Call,
        most: usize,
    ) -> Result<(), u8> {
        let fits = match (self.0, right, call) {
            (Slip::PatchEndWraps, Err(answer::SIZE), Call::Patch { place, bytes, .. }) => {
                let (end, wraps) = place.overflowing_add(bytes.len());
                wraps && end <= most
            }
            (Slip::RecipeLengthWraps, Err(answer::SIZE), Call::Put { recipe, .. }) => {
                recipe.len() % 0x1_0000 <= most && call.dates_fit()
            }
            (Slip::LongerLimitForTerms, Err(answer::SIZE), Call::Put { .. }) => {
                let part = Part::from_array_len(lent.array.len());
                part.map_or(false, |part| terms::fits_longer(self.0, part, call))
            }
            _ if pages::part_of_256(lent.array.len()).is_some() => {
                return pages::refuse(self.0, right, call)
            }
            _ => false,
        };
        if fits {
            Ok(())
        } else {
            right
        }
    }

    /// What becomes of a call that should have been refused.
    fn change<'a>(&self, part: Part, call: Call<'a>) -> Call<'a> {
        let most = part.max_recipe();
        match (self.0, call) {
            (
                Slip::PatchEndWraps,
                Call::Patch {
                    slot,
                    poll_limit,
                    place,
                    bytes,
                },
            ) if place > most => Call::Patch {
                slot,
                poll_limit,
                place: 0,
                bytes: &bytes[..0],
            },
            (
                Slip::RecipeLengthWraps | Slip::LongerLimitKept | Slip::LongerLimitForTerms,
                Call::Put {
                    slot,
                    poll_limit,
                    term,
                    recipe,
                },
            ) => {
                let most = part.max_recipe_of(term.is_some());
                let recipe = &recipe[..most.min(recipe.len() % 0x1_0000)];
                Call::Put {
                    slot,
                    poll_limit,
                    term,
                    recipe,
                }
            }
            (_, call) => call,
        }
    }
}
