//! One of the two devices, with its own record, array and lent buffers.

use std::ops::Range;

use at45db081d_model::{Lent, Outcome, Record, RECORD_LEN};

use crate::device::Device;
use crate::request::CallStep;
use crate::step::Step;

/// Bytes before and behind each lent piece of memory; they must not change.
pub const GUARD: usize = 32;

/// The longest reply or get buffer that a case lends.
const MAX_REPLY: usize = 2300;

/// The longest log that a case lends.
const MAX_LOG: usize = 103_000;

/// A device with memories of its own, each between guards.
pub struct Side<'a> {
    device: &'a mut dyn Device,
    pub record: Vec<u8>,
    pub array: Vec<u8>,
    /// The reply of a frame, or the get buffer.
    pub reply: Vec<u8>,
    pub log: Vec<u8>,
}

impl<'a> Side<'a> {
    pub fn new(device: &'a mut dyn Device, pristine: &[u8]) -> Side<'a> {
        Side {
            device,
            record: vec![0; RECORD_LEN + 2 * GUARD],
            array: pristine.to_vec(),
            reply: vec![0; MAX_REPLY + 2 * GUARD],
            log: vec![0; MAX_LOG + 2 * GUARD],
        }
    }

    pub fn record(&mut self) -> &mut Record {
        record_in(&mut self.record)
    }

    /// Fills what a step is lent for output with something stale.
    pub fn make_stale(&mut self, step: &Step, stale: u8) {
        let (reply_len, log_len) = match step {
            Step::Send { reply_len, .. } => (*reply_len, 0),
            Step::Call(call) => (call.request.lent_len(), call.log_len),
            _ => return,
        };
        self.reply[..reply_len + 2 * GUARD].fill(stale);
        self.log[..log_len + 2 * GUARD].fill(!stale);
    }

    /// Does a step; what has an answer alone has zeros for its counts.
    pub fn step(&mut self, step: &Step, junk: &[u8]) -> Outcome {
        let record = record_in(&mut self.record);
        let answer = match step {
            Step::Fresh { array_len, factory } => {
                let array = &mut self.array[inside(*array_len)];
                self.device.fresh(record, factory, array)
            }
            Step::Send {
                array_len,
                frame,
                reply_len,
            } => {
                let array = &self.array[inside(*array_len)];
                let reply = &mut self.reply[inside(*reply_len)];
                self.device.send(record, array, frame, reply)
            }
            Step::EndBusy { array_len } => {
                let array = &mut self.array[inside(*array_len)];
                self.device.end_busy(record, array)
            }
            Step::MovePin { high } => self.device.move_pin(record, *high),
            Step::Cut {
                array_len,
                junk_len,
                ..
            } => {
                let array = &mut self.array[inside(*array_len)];
                self.device.cut(record, array, &junk[..*junk_len])
            }
            Step::Call(call) => return self.call(call, junk),
            Step::Store { at, bytes } => {
                self.array[inside(at + bytes.len())][*at..].copy_from_slice(bytes);
                0
            }
            Step::Load(_) | Step::RestoreArray => 0,
        };
        Outcome {
            answer,
            ..Outcome::default()
        }
    }

    fn call(&mut self, call: &CallStep, junk: &[u8]) -> Outcome {
        let lent = Lent {
            array: &mut self.array[inside(call.array_len)],
            script: &call.script,
            junk: &junk[..call.junk_len],
            log: &mut self.log[inside(call.log_len)],
        };
        let reply = &mut self.reply[inside(call.request.lent_len())];
        let record = record_in(&mut self.record);
        self.device
            .call(record, lent, call.request.with_lent(reply))
    }
}

/// Where a lent piece of this length lies between its guards.
pub fn inside(len: usize) -> Range<usize> {
    GUARD..GUARD + len
}

fn record_in(memory: &mut [u8]) -> &mut Record {
    (&mut memory[inside(RECORD_LEN)])
        .try_into()
        .expect("the length of a record")
}
