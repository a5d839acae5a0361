//! What is compared: the chip's five functions and the slot calls, over a
//! record block.

use at45db081d_model::{record, Call, Date, Lent, Outcome, Record, Term};
use slipknoll::{Chip, Error, Level, Run};

/// An implementation of the chip and its calls over record blocks of 765
/// bytes.
pub trait Device {
    fn fresh(&mut self, record: &mut Record, factory: &[u8; 64], array: &mut [u8]) -> u8;
    fn send(&mut self, record: &mut Record, array: &[u8], frame: &[u8], reply: &mut [u8]) -> u8;
    fn end_busy(&mut self, record: &mut Record, array: &mut [u8]) -> u8;
    fn move_pin(&mut self, record: &mut Record, high: bool) -> u8;
    fn cut(&mut self, record: &mut Record, array: &mut [u8], junk: &[u8]) -> u8;
    /// Put, patch, get, wipe or raw.
    fn call(&mut self, record: &mut Record, lent: Lent, call: Call) -> Outcome;
}

/// The second model.
pub struct Model;

impl Device for Model {
    fn fresh(&mut self, record: &mut Record, factory: &[u8; 64], array: &mut [u8]) -> u8 {
        record::fresh(record, factory, array)
    }

    fn send(&mut self, record: &mut Record, array: &[u8], frame: &[u8], reply: &mut [u8]) -> u8 {
        record::send(record, array, frame, reply)
    }

    fn end_busy(&mut self, record: &mut Record, array: &mut [u8]) -> u8 {
        record::end_busy(record, array)
    }

    fn move_pin(&mut self, record: &mut Record, high: bool) -> u8 {
        record::move_pin(record, high)
    }

    fn cut(&mut self, record: &mut Record, array: &mut [u8], junk: &[u8]) -> u8 {
        record::cut(record, array, junk)
    }

    fn call(&mut self, record: &mut Record, lent: Lent, call: Call) -> Outcome {
        record::call(record, lent, call)
    }
}

/// The proved library. It works where the record lies, between its guards.
pub struct Library;

/// A date as the library takes its numbers.
pub fn ymd(date: Date) -> [u32; 3] {
    [date.year, date.month, date.day]
}

/// The number of the answer that a result stands for.
fn number<T>(result: Result<T, Error>) -> u8 {
    result.err().map_or(0, Error::number)
}

impl Device for Library {
    fn fresh(&mut self, record: &mut Record, factory: &[u8; 64], array: &mut [u8]) -> u8 {
        slipknoll::ffi::fresh(record, factory, array)
    }

    fn send(&mut self, record: &mut Record, array: &[u8], frame: &[u8], reply: &mut [u8]) -> u8 {
        number(Chip::from_record_mut(record).send(array, frame, reply))
    }

    fn end_busy(&mut self, record: &mut Record, array: &mut [u8]) -> u8 {
        number(Chip::from_record_mut(record).end_busy(array))
    }

    fn move_pin(&mut self, record: &mut Record, high: bool) -> u8 {
        let level = if high { Level::High } else { Level::Low };
        Chip::from_record_mut(record).move_pin(level);
        0
    }

    fn cut(&mut self, record: &mut Record, array: &mut [u8], junk: &[u8]) -> u8 {
        number(Chip::from_record_mut(record).cut(array, junk))
    }

    fn call(&mut self, record: &mut Record, lent: Lent, call: Call) -> Outcome {
        let array = lent.array;
        // Counts of a call that sets none of them.
        let mut run = Run {
            script: lent.script,
            junk: lent.junk,
            log: lent.log,
            counts: [u64::MAX; 3],
        };
        let chip = Chip::from_record_mut(record);
        let answer = match call {
            Call::Put {
                slot,
                poll_limit,
                term: None,
                recipe,
            } => number(chip.put(array, slot, poll_limit, None, recipe, &mut run)),
            Call::Put {
                slot,
                poll_limit,
                term: Some(Term { first, last }),
                recipe,
            } => {
                let (first, last) = (ymd(first), ymd(last));
                number(chip.put_ymd(array, slot, poll_limit, first, last, recipe, &mut run))
            }
            Call::Patch {
                slot,
                poll_limit,
                place,
                bytes,
            } => number(chip.patch(array, slot, poll_limit, place, bytes, &mut run)),
            Call::Get {
                slot,
                poll_limit,
                today,
                buffer,
            } => number(chip.get_ymd(array, slot, poll_limit, ymd(today), buffer, &mut run)),
            Call::Wipe { slot, poll_limit } => number(chip.wipe(array, slot, poll_limit, &mut run)),
            Call::Raw { frame, reply } => number(chip.raw(array, frame, reply, &mut run)),
        };
        let [frames, polls, n] = run.counts;
        Outcome {
            answer,
            frames,
            polls,
            n,
        }
    }
}
