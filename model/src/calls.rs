//! The calls put, patch, get, wipe and raw: the refusals first, then the
//! frames, sent to the chip one by one under a script. Sections 11 and 12 of
//! the specification.

use crate::answer;
use crate::chip::MAX_FRAME;
use crate::driver::{Driver, Link};
use crate::slot::SLOT_ROOM;
use crate::{Chip, Date, Part, Term};

/// Bytes of a line in the log (11.5).
pub const LOG_LINE: usize = 6;

/// The highest B (12.4).
const MAX_POLL_LIMIT: usize = 1000;

/// What a script byte can ask for (11.3, 11.4).
const SCRIPT_END_BUSY: u8 = 0;
const SCRIPT_NOTHING: u8 = 1;
const SCRIPT_CUT: u8 = 2;

/// What every call is lent beside the chip.
pub struct Lent<'a> {
    pub array: &'a mut [u8],
    pub script: &'a [u8],
    pub junk: &'a [u8],
    pub log: &'a mut [u8],
}

/// A call, with what it is given and lent of its own.
pub enum Call<'a> {
    Put {
        slot: usize,
        poll_limit: usize,
        term: Option<Term>,
        recipe: &'a [u8],
    },
    Patch {
        slot: usize,
        poll_limit: usize,
        place: usize,
        bytes: &'a [u8],
    },
    Get {
        slot: usize,
        poll_limit: usize,
        today: Date,
        buffer: &'a mut [u8],
    },
    Wipe {
        slot: usize,
        poll_limit: usize,
    },
    Raw {
        frame: &'a [u8],
        reply: &'a mut [u8],
    },
}

/// What a call hands back (11.7).
#[derive(Clone, Copy, Debug, Default, PartialEq, Eq)]
pub struct Outcome {
    pub answer: u8,
    /// All frames, polls among them (11.7).
    pub frames: u64,
    /// Those of waits; a raw D7 is none (11.7).
    pub polls: u64,
    /// The recipe's length if a get answers 0, else 0 (11.8).
    pub n: u64,
}

impl Chip {
    /// Makes a call. A refused one changes nothing (12.2).
    pub fn call(&mut self, lent: Lent, call: Call) -> Outcome {
        let part = match call.refuse(self, &lent) {
            Ok(part) => part,
            Err(answer) => {
                return Outcome {
                    answer,
                    ..Outcome::default()
                }
            }
        };
        let mut run = Run {
            chip: self,
            lent,
            frames: 0,
        };
        let (result, polls) = call.drive(part, &mut run);
        Outcome {
            answer: result.err().unwrap_or(answer::ACCEPTED),
            frames: run.frames as u64,
            polls,
            n: result.unwrap_or(0) as u64,
        }
    }
}

impl Call<'_> {
    /// The slot and the poll limit; None for raw.
    pub fn target(&self) -> Option<(usize, usize)> {
        match *self {
            Call::Put {
                slot, poll_limit, ..
            }
            | Call::Patch {
                slot, poll_limit, ..
            }
            | Call::Get {
                slot, poll_limit, ..
            }
            | Call::Wipe { slot, poll_limit } => Some((slot, poll_limit)),
            Call::Raw { .. } => None,
        }
    }

    /// The refusals, in the order of their numbers but for 14, which comes after
    /// 5 (12.2); the first that applies is the answer. If none does, the part
    /// that the array stands for.
    pub fn refuse(&self, chip: &Chip, lent: &Lent) -> Result<Part, u8> {
        let part = chip.part_of(lent.array).ok_or(answer::PART)?;
        allow(self.frame_fits(), answer::FRAME)?;
        if let Some((slot, poll_limit)) = self.target() {
            allow(slot < part.blocks(), answer::SLOT)?;
            allow((1..=MAX_POLL_LIMIT).contains(&poll_limit), answer::LIMIT)?;
        }
        allow(self.size_fits(part), answer::SIZE)?;
        allow(self.dates_fit(), answer::DATES)?;
        allow(lent.log.len() >= LOG_LINE * self.most_frames(), answer::LOG)?;
        allow(script_fits(lent, part), answer::SCRIPT)?;
        Ok(part)
    }

    /// Answer 2, which only raw can meet (3.1, 12.9).
    fn frame_fits(&self) -> bool {
        match self {
            Call::Raw { frame, reply } => {
                (1..=MAX_FRAME).contains(&frame.len()) && reply.len() == frame.len()
            }
            _ => true,
        }
    }

    /// Answer 5: of a put and a patch what would not fit a slot (12.5), of a
    /// get a buffer that the longest recipe would not fit (12.6). Only a put
    /// knows whether there is a term.
    pub fn size_fits(&self, part: Part) -> bool {
        let most = part.max_recipe();
        match self {
            Call::Put { term, recipe, .. } => recipe.len() <= part.max_recipe_of(term.is_some()),
            Call::Patch { place, bytes, .. } => place
                .checked_add(bytes.len())
                .map_or(false, |end| end <= most),
            Call::Get { buffer, .. } => buffer.len() >= most,
            Call::Wipe { .. } | Call::Raw { .. } => true,
        }
    }

    /// Answer 14: of a put its term, of a get today, whatever the slot holds.
    pub fn dates_fit(&self) -> bool {
        match self {
            Call::Put { term, .. } => term.map_or(true, |term| term.days().is_some()),
            Call::Get { today, .. } => today.number().is_some(),
            Call::Patch { .. } | Call::Wipe { .. } | Call::Raw { .. } => true,
        }
    }

    /// The most frames that the call can send (10.29); raw sends one (11.12).
    pub fn most_frames(&self) -> usize {
        match *self {
            Call::Put { poll_limit, .. } => 17 * poll_limit + 26,
            Call::Patch { poll_limit, .. } => 17 * poll_limit + 34,
            Call::Get { poll_limit, .. } => poll_limit + 8,
            Call::Wipe { poll_limit, .. } => 2 * poll_limit + 3,
            Call::Raw { .. } => 1,
        }
    }

    /// Sends the call's frames over a link. Hands back n or the answer that
    /// ended the call, and the number of polls. The call is not refused.
    pub fn drive(self, part: Part, link: &mut impl Link) -> (Result<usize, u8>, u64) {
        let (slot, poll_limit) = self.target().unwrap_or_default();
        let mut driver = Driver::new(link, part, slot, poll_limit);
        let result = match self {
            Call::Put { term, recipe, .. } => {
                let days = term.map(|term| term.days().expect("a put that is not refused"));
                driver.put(recipe, days).map(|()| 0)
            }
            Call::Patch { place, bytes, .. } => driver.patch(place, bytes).map(|()| 0),
            Call::Get { today, buffer, .. } => {
                let mut room = [0; SLOT_ROOM];
                let slot_bytes = &mut room[..part.slot_size()];
                let today = today.number().expect("a get that is not refused");
                // Under any other answer the buffer stays (11.9).
                driver.get(slot_bytes, today).map(|head| {
                    buffer[..head.len].copy_from_slice(&slot_bytes[head.body..][..head.len]);
                    head.len
                })
            }
            Call::Wipe { .. } => driver.wipe().map(|()| 0),
            // The caller's frame and the caller's reply (11.12, 11.13).
            Call::Raw { frame, reply } => driver.link.send(frame, reply).map(|()| 0),
        };
        (result, driver.polls)
    }
}

fn allow(fits: bool, answer: u8) -> Result<(), u8> {
    if fits {
        Ok(())
    } else {
        Err(answer)
    }
}

/// Answer 7: the whole script is looked at, and the junk if it has a cut
/// (12.8).
fn script_fits(lent: &Lent, part: Part) -> bool {
    let known = lent.script.iter().all(|&byte| byte <= SCRIPT_CUT);
    let cuts = lent.script.contains(&SCRIPT_CUT);
    known && (!cuts || lent.junk.len() == part.junk_len())
}

/// The chip as a link: each frame is logged, then its script byte acts
/// (11.1).
struct Run<'a> {
    chip: &'a mut Chip,
    lent: Lent<'a>,
    frames: usize,
}

impl Link for Run<'_> {
    fn send(&mut self, frame: &[u8], reply: &mut [u8]) -> Result<(), u8> {
        accepted(self.chip.send(self.lent.array, frame, reply));
        let line = &mut self.lent.log[LOG_LINE * self.frames..][..LOG_LINE];
        line.copy_from_slice(&log_line(frame));
        // Where the script is over, a busy end follows each frame (11.2).
        let event = self.lent.script.get(self.frames);
        self.frames += 1;
        match event.copied().unwrap_or(SCRIPT_END_BUSY) {
            SCRIPT_END_BUSY => accepted(self.chip.end_busy(self.lent.array)),
            SCRIPT_NOTHING => {}
            // The driver does not get to see the reply (11.4).
            _ => {
                accepted(self.chip.cut(self.lent.array, self.lent.junk));
                return Err(answer::CUT);
            }
        }
        Ok(())
    }
}

/// The chip refuses nothing once the call has been accepted.
fn accepted(answer: u8) {
    assert_eq!(answer, answer::ACCEPTED);
}

/// A frame's line in the log (11.5).
pub fn log_line(frame: &[u8]) -> [u8; LOG_LINE] {
    let mut line = [0xFF; LOG_LINE];
    line[..2].copy_from_slice(&(frame.len() as u16).to_be_bytes());
    let shown = frame.len().min(4);
    line[2..2 + shown].copy_from_slice(&frame[..shown]);
    line
}
