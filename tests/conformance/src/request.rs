//! A call as a case keeps it: what is given is owned, what is lent is a
//! length.

use std::fmt;

use at45db081d_model::calls::LOG_LINE;
use at45db081d_model::{Call, Date, Part, Term};

/// The calls by name, in the order of [`Request::kind`].
pub const KINDS: [&str; 5] = ["put", "patch", "get", "wipe", "raw"];

/// The answers that each call can meet on a chip; 16 is not among them.
pub const ANSWERS: [&[usize]; KINDS.len()] = [
    &[0, 1, 3, 4, 5, 6, 7, 8, 9, 10, 11, 14],
    &[0, 1, 3, 4, 5, 6, 7, 8, 9, 10, 11, 12, 13],
    &[0, 1, 3, 4, 5, 6, 7, 8, 9, 11, 12, 14, 15],
    &[0, 1, 3, 4, 6, 7, 8, 9, 10, 11],
    &[0, 1, 2, 6, 7, 11],
];

#[derive(Clone, Debug)]
pub enum Request {
    Put {
        slot: usize,
        poll_limit: usize,
        term: Option<Term>,
        recipe: Vec<u8>,
    },
    Patch {
        slot: usize,
        poll_limit: usize,
        place: usize,
        bytes: Vec<u8>,
    },
    Get {
        slot: usize,
        poll_limit: usize,
        today: Date,
        buffer_len: usize,
    },
    Wipe {
        slot: usize,
        poll_limit: usize,
    },
    Raw {
        frame: Vec<u8>,
        reply_len: usize,
    },
}

impl Request {
    pub fn put(slot: usize, poll_limit: usize, term: Option<Term>, recipe: Vec<u8>) -> Request {
        Request::Put {
            slot,
            poll_limit,
            term,
            recipe,
        }
    }

    pub fn patch(slot: usize, poll_limit: usize, place: usize, bytes: Vec<u8>) -> Request {
        Request::Patch {
            slot,
            poll_limit,
            place,
            bytes,
        }
    }

    pub fn get(slot: usize, poll_limit: usize, today: Date, buffer_len: usize) -> Request {
        Request::Get {
            slot,
            poll_limit,
            today,
            buffer_len,
        }
    }

    pub fn wipe(slot: usize, poll_limit: usize) -> Request {
        Request::Wipe { slot, poll_limit }
    }

    /// A raw frame with a reply of its own length.
    pub fn raw(frame: Vec<u8>) -> Request {
        let reply_len = frame.len();
        Request::Raw { frame, reply_len }
    }

    /// The call's place in [`KINDS`].
    pub fn kind(&self) -> usize {
        match self {
            Request::Put { .. } => 0,
            Request::Patch { .. } => 1,
            Request::Get { .. } => 2,
            Request::Wipe { .. } => 3,
            Request::Raw { .. } => 4,
        }
    }

    pub fn slot(&self) -> Option<usize> {
        self.with_lent(&mut []).target().map(|(slot, _)| slot)
    }

    /// The length of the get buffer or of raw's reply; 0 for the others.
    pub fn lent_len(&self) -> usize {
        match *self {
            Request::Get { buffer_len, .. } => buffer_len,
            Request::Raw { reply_len, .. } => reply_len,
            _ => 0,
        }
    }

    /// The shortest log that is long enough, for a poll limit of at most 1,000:
    /// a line for each frame that the call can send (10.29, 12.7).
    pub fn log_len(&self) -> usize {
        let limit = |poll_limit: usize| poll_limit.min(1000);
        let frames = match *self {
            Request::Put { poll_limit, .. } => 17 * limit(poll_limit) + 26,
            Request::Patch { poll_limit, .. } => 17 * limit(poll_limit) + 34,
            Request::Get { poll_limit, .. } => limit(poll_limit) + 8,
            Request::Wipe { poll_limit, .. } => 2 * limit(poll_limit) + 3,
            Request::Raw { .. } => 1,
        };
        LOG_LINE * frames
    }

    /// The call, with its get buffer or reply.
    pub fn with_lent<'a>(&'a self, lent: &'a mut [u8]) -> Call<'a> {
        match self {
            &Request::Put {
                slot,
                poll_limit,
                term,
                ref recipe,
            } => Call::Put {
                slot,
                poll_limit,
                term,
                recipe,
            },
            &Request::Patch {
                slot,
                poll_limit,
                place,
                ref bytes,
            } => Call::Patch {
                slot,
                poll_limit,
                place,
                bytes,
            },
            &Request::Get {
                slot,
                poll_limit,
                today,
                ..
            } => Call::Get {
                slot,
                poll_limit,
                today,
                buffer: lent,
            },
            &Request::Wipe { slot, poll_limit } => Call::Wipe { slot, poll_limit },
            Request::Raw { frame, .. } => Call::Raw { frame, reply: lent },
        }
    }
}

impl fmt::Display for Request {
    fn fmt(&self, f: &mut fmt::Formatter) -> fmt::Result {
        write!(f, "{}", KINDS[self.kind()])?;
        if let Some((slot, poll_limit)) = self.with_lent(&mut []).target() {
            write!(f, " slot {slot} B {poll_limit}")?;
        }
        match self {
            Request::Put { term, recipe, .. } => {
                write!(f, " recipe {}", recipe.len())?;
                match term {
                    Some(Term { first, last }) => {
                        write!(f, ", {} to {}", shown(*first), shown(*last))
                    }
                    None => Ok(()),
                }
            }
            Request::Patch { place, bytes, .. } => {
                write!(f, " place {place} bytes {}", bytes.len())
            }
            Request::Get {
                today, buffer_len, ..
            } => write!(f, " on {}, buffer {buffer_len}", shown(*today)),
            Request::Wipe { .. } => Ok(()),
            Request::Raw { frame, reply_len } => {
                let shown = &frame[..frame.len().min(8)];
                write!(f, " {shown:02X?} of {}, reply {reply_len}", frame.len())
            }
        }
    }
}

fn shown(date: Date) -> String {
    format!("{}-{}-{}", date.year, date.month, date.day)
}

/// A call with everything that it is lent.
#[derive(Clone, Debug)]
pub struct CallStep {
    pub array_len: usize,
    pub request: Request,
    pub script: Vec<u8>,
    pub junk_len: usize,
    /// What the junk's beginning is made from, and the first byte of it that may
    /// reach a register.
    pub seed: u64,
    pub register: u8,
    pub log_len: usize,
}

impl CallStep {
    /// A call with the part's array, an empty script, junk of the right length
    /// and the shortest log.
    pub fn new(part: Part, request: Request) -> CallStep {
        CallStep {
            array_len: part.array_len(),
            log_len: request.log_len(),
            request,
            script: Vec::new(),
            junk_len: part.junk_len(),
            seed: 0,
            register: 0,
        }
    }

    pub fn with_script(self, script: Vec<u8>) -> CallStep {
        CallStep { script, ..self }
    }

    /// Junk made from this seed, with this byte where a register's begins.
    pub fn with_junk(self, seed: u64, register: u8) -> CallStep {
        CallStep {
            seed,
            register,
            ..self
        }
    }
}

impl fmt::Display for CallStep {
    fn fmt(&self, f: &mut fmt::Formatter) -> fmt::Result {
        write!(f, "{}, script {}", self.request, runs(&self.script))?;
        write!(
            f,
            ", junk {}, register's {:02X}",
            self.junk_len, self.register
        )?;
        write!(f, ", log {}, array {}", self.log_len, self.array_len)
    }
}

/// A script with equal bytes gathered: `0x3 1x2 2`.
pub fn runs(script: &[u8]) -> String {
    let mut runs: Vec<(u8, usize)> = Vec::new();
    for &byte in script {
        match runs.last_mut() {
            Some((last, len)) if *last == byte => *len += 1,
            _ => runs.push((byte, 1)),
        }
    }
    let words: Vec<String> = runs
        .iter()
        .map(|(byte, len)| match len {
            1 => byte.to_string(),
            _ => format!("{byte}x{len}"),
        })
        .collect();
    format!("[{}]", words.join(" "))
}
