//! A chip behind a driver that miscompares: the compare bit of one status of its
//! is another. Two drivers are given the same replies.

use std::fmt;

use at45db081d_model::slot::store;
use at45db081d_model::{Chip, Part};

use crate::dates;
use crate::driving::{Driver, ModelDriver, Turn};
use crate::lists::Broken;
use crate::replies::difference;
use crate::request::Request;
use crate::rng::{Digits, Rng};

/// The slot of every case, and the longest wait.
const SLOT: usize = 9;
const POLL_LIMIT: usize = 3;

/// The compare bit of a status.
const DIFFERS: u8 = 0x40;

/// A call, as far as it matters to the compares.
#[derive(Clone, Copy, Debug, PartialEq, Eq)]
pub enum Work {
    Put,
    PutTerm,
    /// A patch that changes bytes of every page.
    Patch,
    /// One of a slot that holds no record.
    PatchBlank,
    /// One that ends behind the recipe.
    PatchEnd,
}

const WORKS: [Work; 5] = [
    Work::Put,
    Work::PutTerm,
    Work::Patch,
    Work::PatchBlank,
    Work::PatchEnd,
];

/// The frame behind which the bit is another.
const AFTER: [u8; 2] = [0x83, 0x60];

/// A call on a chip, and the status whose compare bit is another.
#[derive(Clone, Copy, Debug)]
pub struct Case {
    pub part: Part,
    pub work: Work,
    /// The compare bit of the chip beforehand.
    pub compared: bool,
    /// Polls of each wait after an 83 and a 60 that find the chip busy.
    pub busy: usize,
    /// The page, 0 to 7, the frame and the poll of the wait behind it; the last
    /// poll is that of number `busy`.
    pub page: usize,
    pub after: u8,
    pub poll: usize,
}

impl Case {
    /// Every case: each page of each call on each part, with 0 to 2 busy polls, each
    /// poll of both waits.
    pub fn all() -> impl Iterator<Item = Case> {
        let polls = POLL_LIMIT * POLL_LIMIT;
        let count = 4 * WORKS.len() * 2 * polls * 8 * AFTER.len();
        (0..count as u64)
            .map(Case::numbered)
            .filter(|case| case.poll <= case.busy)
    }

    fn numbered(number: u64) -> Case {
        let mut digits = Digits::new(number);
        Case {
            part: digits.pick(&Part::ALL),
            work: digits.pick(&WORKS),
            compared: digits.flag(),
            busy: digits.below(POLL_LIMIT),
            poll: digits.below(POLL_LIMIT),
            page: digits.below(8),
            after: digits.pick(&AFTER),
        }
    }

    fn request(&self) -> Request {
        let mut rng = Rng::new(1);
        let (most, term) = (self.part.max_recipe(), dates::term(&mut rng));
        match self.work {
            Work::Put => Request::put(SLOT, POLL_LIMIT, None, vec![0xA5; most]),
            Work::PutTerm => Request::put(SLOT, POLL_LIMIT, Some(term), vec![0xA5; most - 8]),
            // From the first byte of the slot's recipe to its last.
            _ => Request::patch(SLOT, POLL_LIMIT, 0, vec![0xA5; most]),
        }
    }

    /// The chip, and its array with the slot.
    fn chip(&self) -> Replies {
        let mut array = vec![0; self.part.array_len()];
        let mut chip = Chip::fresh(&[0; 64], &mut array).expect("a known part");
        chip.compare = self.compared;
        let slot = &mut array[self.part.block_range(SLOT as u16)];
        let short = usize::from(self.work == Work::PatchEnd);
        store(slot, &vec![0x5A; self.part.max_recipe() - short], None);
        if self.work == Work::PatchBlank {
            slot[0] = 0;
        }
        Replies {
            case: *self,
            chip,
            array,
            loads: 0,
            last: 0,
            polls: 0,
        }
    }

    /// Runs the case on a driver beside the model's; the frames, and the answer.
    pub fn check(&self, subject: &mut dyn Driver) -> Result<(u64, u8), Broken> {
        let (request, array_len) = (self.request(), self.part.array_len());
        let (mut model, mut chip) = (ModelDriver::default(), self.chip());
        let mut expected = model.start(array_len, &request);
        let mut turn = subject.start(array_len, &request);
        for frames in 0.. {
            if let Some(what) = difference(&expected, &turn) {
                let list = vec![self.to_string(), format!("frame {frames}")];
                return Err(Broken {
                    seed: 0,
                    what,
                    list,
                });
            }
            match &turn {
                Turn::End(answer) => return Ok((frames, *answer)),
                Turn::Frame(frame) => {
                    let reply = chip.reply(frame);
                    expected = model.next(&reply);
                    turn = subject.next(&reply);
                }
            }
        }
        unreachable!("a driver without an end")
    }
}

impl fmt::Display for Case {
    fn fmt(&self, f: &mut fmt::Formatter) -> fmt::Result {
        write!(f, "{:?} on {:?}", self.work, self.part)?;
        write!(f, ", compared {}, busy {}", self.compared, self.busy)?;
        let (page, after, poll) = (self.page, self.after, self.poll);
        write!(f, "; page {page}, poll {poll} after {after:02X}")
    }
}

/// The chip's replies, but for one bit of one status.
struct Replies {
    case: Case,
    chip: Chip,
    array: Vec<u8>,
    /// Pages loaded so far, the last frame that was no poll, and the polls since.
    loads: usize,
    last: u8,
    polls: usize,
}

impl Replies {
    fn reply(&mut self, frame: &[u8]) -> Vec<u8> {
        let mut reply = vec![0; frame.len()];
        self.chip.send(&self.array, frame, &mut reply);
        if frame[0] == 0xD7 {
            if self.is_odd() {
                reply[1] ^= DIFFERS;
            }
            self.polls += 1;
        } else {
            self.last = frame[0];
            self.polls = 0;
            self.loads += usize::from(frame[0] == 0x84);
        }
        if self.polls == self.case.busy {
            self.chip.end_busy(&mut self.array);
        }
        reply
    }

    /// Whether the compare bit of the status that comes now is another.
    fn is_odd(&self) -> bool {
        let case = &self.case;
        self.loads == case.page + 1 && self.last == case.after && self.polls == case.poll
    }
}
