//! The slot driver alone, step by step: a reply in, a frame out, until the end.
//! Replies come from a chip or from nowhere.

use at45db081d_model::driver::Link;
use at45db081d_model::slot::SLOT_ROOM;
use at45db081d_model::{answer, Part, Term};
use slipknoll::ffi::driver;
use slipknoll::DRIVER_FRAME_LEN;

use crate::device::ymd;
use crate::request::Request;

/// What a driver yields.
#[derive(Clone, Debug, PartialEq, Eq)]
pub enum Turn {
    Frame(Vec<u8>),
    /// The end, with its answer.
    End(u8),
}

pub trait Driver {
    fn start(&mut self, array_len: usize, request: &Request) -> Turn;
    fn next(&mut self, reply: &[u8]) -> Turn;
    /// What a get has read that ended with 0.
    fn recipe(&self) -> Vec<u8>;
}

/// The model's driver: at each turn it runs anew over all replies so far.
#[derive(Default)]
pub struct ModelDriver {
    request: Option<Request>,
    /// The part, or why the call is refused.
    part: Option<Result<Part, u8>>,
    replies: Vec<Vec<u8>>,
    recipe: Vec<u8>,
}

/// An answer of no table: the replies have come to an end.
const NO_REPLY: u8 = 0xFF;

/// Replies that are known, then the frame that waits for one.
struct Replay<'a> {
    replies: std::slice::Iter<'a, Vec<u8>>,
    waiting: Vec<u8>,
}

impl Link for Replay<'_> {
    fn send(&mut self, frame: &[u8], reply: &mut [u8]) -> Result<(), u8> {
        let heard = match self.replies.next() {
            Some(heard) => heard,
            None => {
                self.waiting = frame.to_vec();
                return Err(NO_REPLY);
            }
        };
        // A reply byte that is not there counts as FFh.
        for (i, byte) in reply.iter_mut().enumerate() {
            *byte = heard.get(i).copied().unwrap_or(0xFF);
        }
        Ok(())
    }
}

impl ModelDriver {
    fn turn(&mut self) -> Turn {
        let request = self.request.as_ref().expect("a driver that was started");
        let part = match self.part.expect("a driver that was started") {
            Ok(part) => part,
            Err(answer) => return Turn::End(answer),
        };
        let mut buffer = [0; SLOT_ROOM];
        let mut replay = Replay {
            replies: self.replies.iter(),
            waiting: Vec::new(),
        };
        let call = request.with_lent(&mut buffer);
        let (result, _) = call.drive(part, &mut replay);
        match result {
            Err(NO_REPLY) => Turn::Frame(replay.waiting),
            Err(answer) => Turn::End(answer),
            Ok(n) => {
                self.recipe = buffer[..n].to_vec();
                Turn::End(answer::ACCEPTED)
            }
        }
    }
}

/// The part, or the refusal that a driver meets: those that need no chip, log and
/// script.
fn part_of(array_len: usize, request: &Request) -> Result<Part, u8> {
    let part = Part::from_array_len(array_len).ok_or(answer::PART)?;
    let mut buffer = vec![0; request.lent_len()];
    let call = request.with_lent(&mut buffer);
    let (slot, poll_limit) = call.target().expect("a call with a slot");
    if slot >= part.blocks() {
        Err(answer::SLOT)
    } else if !(1..=1000).contains(&poll_limit) {
        Err(answer::LIMIT)
    } else if !call.size_fits(part) {
        Err(answer::SIZE)
    } else if !call.dates_fit() {
        Err(answer::DATES)
    } else {
        Ok(part)
    }
}

impl Driver for ModelDriver {
    fn start(&mut self, array_len: usize, request: &Request) -> Turn {
        *self = ModelDriver {
            request: Some(request.clone()),
            part: Some(part_of(array_len, request)),
            ..ModelDriver::default()
        };
        self.turn()
    }

    fn next(&mut self, reply: &[u8]) -> Turn {
        self.replies.push(reply.to_vec());
        self.turn()
    }

    fn recipe(&self) -> Vec<u8> {
        self.recipe.clone()
    }
}

/// The library's driver, with the memories that it is lent.
pub struct LibraryDriver {
    state: driver::State,
    payload: Vec<u8>,
    staged: [u8; SLOT_ROOM],
    frame: [u8; DRIVER_FRAME_LEN],
}

impl LibraryDriver {
    /// A driver whose memories hold this byte.
    pub fn new(stale: u8) -> LibraryDriver {
        LibraryDriver {
            state: [stale; driver::STATE_LEN],
            payload: Vec::new(),
            staged: [stale; SLOT_ROOM],
            frame: [stale; DRIVER_FRAME_LEN],
        }
    }

    fn turn(&self, len: usize) -> Turn {
        match (len, driver::answer(&self.state)) {
            (0, Some(answer)) => Turn::End(answer),
            (1.., None) => Turn::Frame(self.frame[..len].to_vec()),
            (len, answer) => panic!("a frame of {len} bytes and the answer {answer:?}"),
        }
    }
}

impl Driver for LibraryDriver {
    fn start(&mut self, array_len: usize, request: &Request) -> Turn {
        let state = &mut self.state;
        self.payload.clear();
        match request {
            Request::Put {
                slot,
                poll_limit,
                term,
                recipe,
            } => {
                self.payload.extend_from_slice(recipe);
                let (slot, limit) = (*slot, *poll_limit);
                match *term {
                    None => driver::start_put(state, array_len, slot, limit, recipe),
                    Some(Term { first, last }) => {
                        let (first, last) = (ymd(first), ymd(last));
                        driver::start_put_term(state, array_len, slot, limit, first, last, recipe);
                    }
                }
            }
            Request::Patch {
                slot,
                poll_limit,
                place,
                bytes,
            } => {
                self.payload.extend_from_slice(bytes);
                driver::start_patch(state, array_len, *slot, *poll_limit, *place, bytes);
            }
            Request::Get {
                slot,
                poll_limit,
                today,
                buffer_len,
            } => {
                let today = ymd(*today);
                driver::start_get(state, array_len, *slot, *poll_limit, today, *buffer_len);
            }
            Request::Wipe { slot, poll_limit } => {
                driver::start_wipe(state, array_len, *slot, *poll_limit);
            }
            Request::Raw { .. } => panic!("raw has no driver"),
        }
        let len = driver::frame(&self.state, &self.payload, &self.staged, &mut self.frame);
        self.turn(len)
    }

    fn next(&mut self, reply: &[u8]) -> Turn {
        let len = driver::next(
            &mut self.state,
            &self.payload,
            reply,
            &mut self.staged,
            &mut self.frame,
        );
        self.turn(len)
    }

    fn recipe(&self) -> Vec<u8> {
        let n = driver::count(&self.state, &self.staged);
        self.staged[driver::body(&self.staged)..][..n].to_vec()
    }
}
