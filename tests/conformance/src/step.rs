//! One step of a case, done alike on both devices.

use std::fmt;

use at45db081d_model::record::field;
use at45db081d_model::Record;

use crate::request::CallStep;

#[derive(Clone)]
pub enum Step {
    /// The caller puts a record of its own in place.
    Load(Box<Record>),
    /// The caller lends the array as it was at the beginning.
    RestoreArray,
    /// The caller writes bytes of its own into the array.
    Store {
        at: usize,
        bytes: Vec<u8>,
    },
    Fresh {
        array_len: usize,
        factory: Box<[u8; 64]>,
    },
    Send {
        array_len: usize,
        frame: Vec<u8>,
        reply_len: usize,
    },
    EndBusy {
        array_len: usize,
    },
    MovePin {
        high: bool,
    },
    /// A cut whose junk has a beginning made from `seed`, and `register` where a
    /// register's begins.
    Cut {
        array_len: usize,
        junk_len: usize,
        seed: u64,
        register: u8,
    },
    /// Put, patch, get, wipe or raw.
    Call(Box<CallStep>),
}

/// The functions of the chip; the calls are counted behind them.
pub const CHIP_FUNCTIONS: usize = 5;

impl Step {
    pub fn call(call: CallStep) -> Step {
        Step::Call(Box::new(call))
    }

    /// A frame with a reply of its own length.
    pub fn send(array_len: usize, frame: Vec<u8>) -> Step {
        let reply_len = frame.len();
        Step::Send {
            array_len,
            frame,
            reply_len,
        }
    }

    /// The length of the array that the step is lent for a chip that is there.
    pub fn array_len(&self) -> Option<usize> {
        match self {
            Step::Send { array_len, .. }
            | Step::EndBusy { array_len }
            | Step::Cut { array_len, .. } => Some(*array_len),
            Step::Call(call) => Some(call.array_len),
            _ => None,
        }
    }

    /// Index for counting by function; None for the caller's own doings.
    pub fn function(&self) -> Option<usize> {
        match self {
            Step::Load(_) | Step::RestoreArray | Step::Store { .. } => None,
            Step::Fresh { .. } => Some(0),
            Step::Send { .. } => Some(1),
            Step::EndBusy { .. } => Some(2),
            Step::MovePin { .. } => Some(3),
            Step::Cut { .. } => Some(4),
            Step::Call(call) => Some(CHIP_FUNCTIONS + call.request.kind()),
        }
    }
}

impl fmt::Display for Step {
    fn fmt(&self, f: &mut fmt::Formatter) -> fmt::Result {
        match self {
            Step::Load(record) => write!(f, "load {}", summary(record)),
            Step::RestoreArray => write!(f, "restore array"),
            Step::Store { at, bytes } => {
                let shown = hex(&bytes[..bytes.len().min(8)]);
                write!(f, "store {} bytes at {at}: {shown}", bytes.len())
            }
            Step::Call(call) => write!(f, "{call}"),
            Step::Fresh { array_len, .. } => write!(f, "fresh, array {array_len}"),
            Step::Send {
                array_len,
                frame,
                reply_len,
            } => {
                write!(f, "send {}", hex(&frame[..frame.len().min(16)]))?;
                let frame_len = frame.len();
                write!(
                    f,
                    " ({frame_len} bytes), reply {reply_len}, array {array_len}"
                )
            }
            Step::EndBusy { array_len } => write!(f, "end busy, array {array_len}"),
            Step::MovePin { high } => write!(f, "move pin, high {high}"),
            Step::Cut {
                array_len,
                junk_len,
                register,
                ..
            } => write!(
                f,
                "cut, junk {junk_len}, register's {register:02X}, array {array_len}"
            ),
        }
    }
}

/// The fields of a record that decide most: marks, operation and sectors.
fn summary(record: &Record) -> String {
    format!(
        "used/protect/WP/deep {}, operation {}, protection {}, lockdown {}",
        hex(&record[field::SECURITY_PROGRAMMED..field::TAG]),
        hex(&record[field::TAG..field::DATA.start]),
        hex(&record[field::PROTECTION]),
        hex(&record[field::LOCKDOWN]),
    )
}

fn hex(bytes: &[u8]) -> String {
    let digits: Vec<String> = bytes.iter().map(|byte| format!("{byte:02X}")).collect();
    digits.join(" ")
}
