//! A chip, and the memories that its calls are lent.

use at45db081d_model::{Lent, Outcome, Record};

use super::item::{CallItem, Item};
use crate::device::Device;
use crate::rng::Rng;

/// What an item showed and handed back; an event has an answer alone.
#[derive(Clone, Debug, PartialEq, Eq)]
pub struct Outline {
    pub outcome: Outcome,
    /// Six bytes for each frame sent.
    pub log: Vec<u8>,
    /// The recipe that a get has read.
    pub read: Vec<u8>,
}

#[derive(Clone)]
pub struct World {
    pub record: Record,
    pub array: Vec<u8>,
    /// What lent memories hold before a call.
    stale: Rng,
    log: Vec<u8>,
    lent: Vec<u8>,
    junk: Vec<u8>,
}

impl World {
    pub fn new(record: Record, array: Vec<u8>, stale: u64) -> World {
        World {
            record,
            array,
            stale: Rng::new(stale),
            log: Vec::new(),
            lent: Vec::new(),
            junk: Vec::new(),
        }
    }

    /// Does one item on what the one before has left of record and array.
    pub fn run(&mut self, device: &mut dyn Device, item: &Item) -> Outline {
        let (record, array) = (&mut self.record, &mut self.array);
        let answer = match item {
            Item::Call(call) => return self.call(device, call),
            Item::Send { frame, reply_len } => {
                make_stale(&mut self.lent, *reply_len, &mut self.stale);
                device.send(record, array, frame, &mut self.lent)
            }
            Item::EndBusy => device.end_busy(record, array),
            Item::MovePin { high } => device.move_pin(record, *high),
            Item::Cut { junk } => {
                junk.write(&mut self.junk);
                device.cut(record, array, &self.junk)
            }
        };
        Outline {
            outcome: Outcome {
                answer,
                ..Outcome::default()
            },
            log: Vec::new(),
            read: Vec::new(),
        }
    }

    fn call(&mut self, device: &mut dyn Device, call: &CallItem) -> Outline {
        make_stale(&mut self.log, call.log_len, &mut self.stale);
        make_stale(&mut self.lent, call.request.lent_len(), &mut self.stale);
        match call.has_cut() {
            true => call.junk.write(&mut self.junk),
            false => self.junk.resize(call.junk.len, 0x5A),
        }
        let lent = Lent {
            array: &mut self.array,
            script: &call.script,
            junk: &self.junk,
            log: &mut self.log,
        };
        let request = call.request.with_lent(&mut self.lent);
        let outcome = device.call(&mut self.record, lent, request);
        let lines = (6 * outcome.frames as usize).min(self.log.len());
        let n = (outcome.n as usize).min(self.lent.len());
        Outline {
            outcome,
            log: self.log[..lines].to_vec(),
            read: self.lent[..n].to_vec(),
        }
    }
}

fn make_stale(memory: &mut Vec<u8>, len: usize, stale: &mut Rng) {
    memory.resize(len, 0);
    stale.fill(memory);
}
