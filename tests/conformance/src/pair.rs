//! Two devices side by side.

use std::collections::VecDeque;
use std::ops::Range;

use at45db081d_model::command::decode;
use at45db081d_model::record::field;
use at45db081d_model::{Chip, Operation, Outcome, Part, Record, RECORD_LEN};

use crate::coverage::Coverage;
use crate::device::Device;
use crate::frames::{row_of, ROWS};
use crate::mismatch::{difference, Mismatch};
use crate::parts;
use crate::records::operation_of;
use crate::request::{CallStep, Request};
use crate::rng::Rng;
use crate::side::{inside, Side, GUARD};
use crate::step::Step;

/// Where the junk for registers ends in any part; a cut makes all before it anew.
const JUNK_HEAD: usize = Part::FULL.array_junk() + 64;

/// How many steps are kept for a report.
const REMEMBERED: usize = 12;

/// In a full part the whole array is compared after each busy end and cut,
/// and once in so many steps after the others; a call's own part of it always.
pub const WHOLE_EVERY: u64 = 64;

/// The model and a device under test, on one part.
pub struct Pair<'a> {
    pub part: Part,
    pub coverage: Coverage,
    model: Side<'a>,
    subject: Side<'a>,
    pristine: Vec<u8>,
    junk: Vec<u8>,
    /// Parts of the array that may differ from the pristine one, and how many
    /// of them were known before the last step.
    dirty: Vec<Range<usize>>,
    dirty_before: usize,
    recent: VecDeque<Step>,
    /// Functions called on both devices, in all cases and in this one.
    calls: u64,
    case_calls: u64,
}

impl<'a> Pair<'a> {
    pub fn new(part: Part, model: &'a mut dyn Device, subject: &'a mut dyn Device) -> Pair<'a> {
        let mut rng = Rng::new(part.pages as u64);
        let mut pristine = vec![0; parts::room(part) + 2 * GUARD];
        rng.fill(&mut pristine);
        let mut junk = vec![0; Part::FULL.junk_len() + GUARD];
        rng.fill(&mut junk);
        Pair {
            part,
            coverage: Coverage::default(),
            model: Side::new(model, &pristine),
            subject: Side::new(subject, &pristine),
            pristine,
            junk,
            dirty: Vec::new(),
            dirty_before: 0,
            recent: VecDeque::new(),
            calls: 0,
            case_calls: 0,
        }
    }

    /// The functions called so far on both devices.
    pub fn calls(&self) -> u64 {
        self.calls
    }

    /// The record as it stands, alike on both sides.
    pub fn record(&mut self) -> Record {
        *self.model.record()
    }

    /// The array as it stands, alike on both sides.
    pub fn array(&self) -> &[u8] {
        &self.model.array[inside(self.part.array_len())]
    }

    /// Begins a case: the array is as it was before the first.
    pub fn begin_case(&mut self) {
        self.restore_array();
        self.recent.clear();
        self.case_calls = 0;
        let blank = Box::new([0; RECORD_LEN]);
        self.load(&blank);
    }

    /// Does one step on both devices and compares them; hands back the answer.
    pub fn step(&mut self, step: Step) -> Result<u8, Mismatch> {
        self.outcome(step).map(|outcome| outcome.answer)
    }

    /// Makes one call on both devices and compares them.
    pub fn call(&mut self, call: CallStep) -> Result<Outcome, Mismatch> {
        self.outcome(Step::call(call))
    }

    fn outcome(&mut self, step: Step) -> Result<Outcome, Mismatch> {
        match &step {
            Step::Load(record) => self.load(record),
            Step::RestoreArray => self.restore_array(),
            _ => {}
        }
        let before = self.record();
        self.dirty_before = self.dirty.len();
        self.note_dirty(&step, &before);
        self.prepare(&step);
        let expected = self.model.step(&step, &self.junk);
        let outcome = self.subject.step(&step, &self.junk);
        if let Some(function) = step.function() {
            self.calls += 1;
            self.case_calls += 1;
            self.coverage.count_answer(function, expected.answer);
            self.count_row(&step, expected.answer, &before);
        }
        let part = step.array_len().and_then(Part::from_array_len);
        self.remember(step);
        self.compare(expected, outcome)?;
        self.compare_spare(part, &before)?;
        Ok(expected)
    }

    /// Compares the arrays whole.
    pub fn compare_arrays(&self) -> Result<(), Mismatch> {
        self.alike("array", &self.model.array, &self.subject.array)
    }

    fn load(&mut self, record: &Record) {
        *self.model.record() = *record;
        *self.subject.record() = *record;
    }

    fn restore_array(&mut self) {
        for range in self.dirty.drain(..) {
            let source = &self.pristine[range.clone()];
            self.model.array[range.clone()].copy_from_slice(source);
            self.subject.array[range].copy_from_slice(source);
        }
    }

    /// Notes which part of the array the step may change, by the model's rules.
    fn note_dirty(&mut self, step: &Step, before: &Record) {
        let len = match *step {
            Step::Fresh { array_len, .. } => return self.note_range(0..array_len),
            Step::Store { at, ref bytes } => return self.note_range(at..at + bytes.len()),
            Step::EndBusy { array_len } | Step::Cut { array_len, .. } => array_len,
            Step::Call(ref call) => call.array_len,
            _ => return,
        };
        let operation = Chip::from_record(before).operation;
        let part = match Part::from_array_len(len).filter(|&part| operation.fits(part)) {
            Some(part) => part,
            None => return,
        };
        self.note_operation(&operation, part);
        if let Step::Call(call) = step {
            self.note_call(&call.request, part, before);
        }
    }

    /// A call writes in its slot, a raw frame what its operation says.
    fn note_call(&mut self, request: &Request, part: Part, before: &Record) {
        if let Request::Raw { frame, .. } = request {
            let mut chip = Chip::from_record(before);
            let array = &self.model.array[inside(part.array_len())];
            chip.send(array, frame, &mut vec![0; frame.len()]);
            return self.note_operation(&chip.operation, part);
        }
        if let Some(slot) = request.slot().filter(|&slot| slot < part.blocks()) {
            self.note_range(part.block_range(slot as u16));
        }
    }

    fn note_operation(&mut self, operation: &Operation, part: Part) {
        operation.each_altered_range(part, |range| self.note_range(range));
    }

    fn note_range(&mut self, range: Range<usize>) {
        self.dirty.push(range.start + GUARD..range.end + GUARD);
    }

    /// Makes the junk of a cut, and fills what is lent for output with
    /// something stale.
    fn prepare(&mut self, step: &Step) {
        let junk = match *step {
            Step::Cut {
                array_len,
                seed,
                register,
                ..
            } => Some((array_len, seed, register)),
            Step::Call(ref call) if call.script.contains(&2) => {
                Some((call.array_len, call.seed, call.register))
            }
            _ => None,
        };
        if let Some((array_len, seed, register)) = junk {
            Rng::new(seed).fill(&mut self.junk[..JUNK_HEAD]);
            let part = Part::from_array_len(array_len).unwrap_or(self.part);
            self.junk[part.array_junk()] = register;
        }
        let stale = (self.calls as u8).wrapping_mul(0x35);
        self.model.make_stale(step, stale);
        self.subject.make_stale(step, stale);
    }

    fn remember(&mut self, step: Step) {
        if self.recent.len() == REMEMBERED {
            self.recent.pop_front();
        }
        self.recent.push_back(step);
    }

    fn count_row(&mut self, step: &Step, answer: u8, before: &Record) {
        let (array_len, frame) = match step {
            Step::Send {
                array_len, frame, ..
            } => (array_len, frame),
            _ => return,
        };
        let (row, operation) = match (row_of(frame), operation_of(before)) {
            (Some(row), Some(operation)) => (row, operation),
            _ => return,
        };
        let part = match Part::from_array_len(*array_len).filter(|_| answer == 0) {
            Some(part) => part,
            None => return,
        };
        let chip = Chip::from_record(before);
        let obeys = decode(frame).map_or(false, |request| chip.obeys(part, &request));
        // By value, since an ignored frame may also tidy the block up.
        let changed = Chip::from_record(self.subject.record()) != chip;
        let reply = &self.subject.reply[inside(frame.len())];
        let shows = changed || reply.iter().any(|&byte| byte != 0xFF);
        let count = &mut self.coverage.rows[row][operation];
        count.obeyed += u64::from(shows);
        count.ignored += u64::from(!obeys && !shows && frame.len() >= ROWS[row].lead);
    }

    fn compare(&self, expected: Outcome, outcome: Outcome) -> Result<(), Mismatch> {
        if expected != outcome {
            return Err(self.mismatch(format!("model {expected:?}, device {outcome:?}")));
        }
        self.alike("record", &self.model.record, &self.subject.record)?;
        match self.recent.back().expect("a step") {
            Step::Send { reply_len, .. } => {
                self.compare_replies("reply", *reply_len)?;
                self.compare_arrays_now_and_then()
            }
            Step::Call(call) => {
                let log = ..call.log_len + 2 * GUARD;
                self.alike("log", &self.model.log[log], &self.subject.log[log])?;
                self.compare_replies("buffer or reply", call.request.lent_len())?;
                self.compare_dirty()?;
                self.compare_arrays_now_and_then()
            }
            Step::Fresh { .. } | Step::EndBusy { .. } | Step::Cut { .. } => self.compare_arrays(),
            _ => self.compare_arrays_now_and_then(),
        }
    }

    /// What the buffers have behind a page of the part is as it was, whatever the
    /// model does.
    fn compare_spare(&self, part: Option<Part>, before: &Record) -> Result<(), Mismatch> {
        let after = &self.subject.record[inside(RECORD_LEN)];
        let kept = [field::BUFFER_1, field::BUFFER_2].into_iter().all(|it| {
            let spare = it.start + part.map_or(0, |part| part.page_size)..it.end;
            part.is_none() || after[spare.clone()] == before[spare]
        });
        match kept {
            true => Ok(()),
            false => Err(self.mismatch("a buffer changed behind a page's bytes".into())),
        }
    }

    fn compare_replies(&self, name: &str, len: usize) -> Result<(), Mismatch> {
        let lent = ..len + 2 * GUARD;
        self.alike(name, &self.model.reply[lent], &self.subject.reply[lent])
    }

    /// Compares the parts of the array that the last step may have changed.
    fn compare_dirty(&self) -> Result<(), Mismatch> {
        let alike = self.dirty[self.dirty_before..]
            .iter()
            .all(|range| self.model.array[range.clone()] == self.subject.array[range.clone()]);
        if alike {
            Ok(())
        } else {
            self.compare_arrays()
        }
    }

    fn compare_arrays_now_and_then(&self) -> Result<(), Mismatch> {
        if parts::is_short(self.part) || self.calls % WHOLE_EVERY == 0 {
            return self.compare_arrays();
        }
        Ok(())
    }

    fn alike(&self, name: &str, model: &[u8], subject: &[u8]) -> Result<(), Mismatch> {
        match difference(name, model, subject) {
            None => Ok(()),
            Some(what) => Err(self.mismatch(what)),
        }
    }

    fn mismatch(&self, what: String) -> Mismatch {
        Mismatch {
            step: self.case_calls,
            what,
            last_steps: self.recent.iter().map(Step::to_string).collect(),
        }
    }
}
