//! One item of a list: a call or an event with all its inputs.

use std::fmt;

use at45db081d_model::Part;

use crate::request::{runs, Request};
use crate::rng::Rng;

/// Junk made from a seed, but for the bytes that may reach a register.
#[derive(Clone, Debug)]
pub struct Junk {
    pub len: usize,
    pub seed: u64,
    /// Where the cut rule takes junk for a register, and the bytes there.
    at: usize,
    pub register: [u8; 64],
}

impl Junk {
    /// Junk of this length for a cut of the part.
    pub fn random(rng: &mut Rng, part: Part, len: usize) -> Junk {
        let mut register = [0; 64];
        rng.fill(&mut register);
        Junk {
            len,
            seed: rng.next_u64(),
            at: part.array_junk(),
            register,
        }
    }

    /// Other junk of the same length.
    pub fn another(&self, rng: &mut Rng) -> Junk {
        let mut other = self.clone();
        rng.fill(&mut other.register);
        other.seed = rng.next_u64();
        other
    }

    pub fn write(&self, junk: &mut Vec<u8>) {
        junk.resize(self.len, 0);
        Rng::new(self.seed).fill(junk);
        if let Some(bytes) = junk.get_mut(self.at..self.at + 64) {
            bytes.copy_from_slice(&self.register);
        }
    }
}

/// A call with all it is given; log, get buffer and reply are lengths.
#[derive(Clone, Debug)]
pub struct CallItem {
    pub request: Request,
    pub script: Vec<u8>,
    pub junk: Junk,
    pub log_len: usize,
}

impl CallItem {
    /// True if the script has a cut, whether or not it is reached.
    pub fn has_cut(&self) -> bool {
        self.script.contains(&2)
    }
}

#[derive(Clone, Debug)]
pub enum Item {
    Call(Box<CallItem>),
    /// A frame sent straight.
    Send {
        frame: Vec<u8>,
        reply_len: usize,
    },
    EndBusy,
    MovePin {
        high: bool,
    },
    Cut {
        junk: Junk,
    },
}

impl Item {
    /// The junk, if the item has a cut in which it may be used.
    pub fn junk(&mut self) -> Option<&mut Junk> {
        match self {
            Item::Call(call) if call.has_cut() => Some(&mut call.junk),
            Item::Cut { junk } => Some(junk),
            _ => None,
        }
    }
}

impl fmt::Display for Item {
    fn fmt(&self, f: &mut fmt::Formatter) -> fmt::Result {
        match self {
            Item::Call(call) => {
                let (script, junk) = (runs(&call.script), &call.junk);
                write!(f, "{}, script {script}, log {}", call.request, call.log_len)?;
                match call.has_cut() {
                    true => write!(f, ", {junk}"),
                    false => Ok(()),
                }
            }
            Item::Send { frame, reply_len } => {
                let shown = &frame[..frame.len().min(8)];
                write!(f, "send {shown:02X?} of {}, reply {reply_len}", frame.len())
            }
            Item::EndBusy => write!(f, "busy end"),
            Item::MovePin { high } => write!(f, "WP {}", if *high { "high" } else { "low" }),
            Item::Cut { junk } => write!(f, "cut, {junk}"),
        }
    }
}

impl fmt::Display for Junk {
    fn fmt(&self, f: &mut fmt::Formatter) -> fmt::Result {
        let shown = &self.register[..2];
        write!(f, "junk {} from {:x}, {shown:02X?}..", self.len, self.seed)
    }
}
