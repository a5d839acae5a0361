//! The chip, what is done to it line by line, and what is printed.

use at45db081d_model::calls::LOG_LINE;
use at45db081d_model::{Call, Chip, Lent, Outcome, Part, RECORD_LEN};

use crate::order::{Options, Order, Request};
use crate::rules::Rules;

/// Factory bytes of every fresh part.
const FACTORY: [u8; 64] = [0; 64];

/// What sum says of the last step beside the chip's state.
#[derive(Clone, Debug, Default)]
pub struct Step {
    /// The whole lent log.
    pub log: Vec<u8>,
    /// The whole lent get buffer or reply.
    pub out: Vec<u8>,
    /// What a get gave.
    pub n: u64,
}

pub struct Session<'a> {
    rules: &'a Rules,
    part: Part,
    chip: Chip,
    array: Vec<u8>,
    step: Step,
}

impl<'a> Session<'a> {
    /// A fresh short part.
    pub fn new(rules: &'a Rules) -> Session<'a> {
        let part = Part::SHORT;
        let (chip, array) = fresh(part);
        Session {
            rules,
            part,
            chip,
            array,
            step: Step::default(),
        }
    }

    /// Takes a line, which has this number; what is printed.
    pub fn line(&mut self, number: usize, line: &[u8]) -> String {
        match (self.rules.read)(line, self.rules) {
            Ok(order) => self.carry_out(order),
            Err(what) => {
                (self.rules.after_fault)(&mut self.step);
                (self.rules.fault_text)(number, &what)
            }
        }
    }

    fn carry_out(&mut self, order: Order) -> String {
        match order {
            Order::Sum => self.sum(),
            Order::Call(request, options) => self.call(&request, &options),
            Order::Part(part) => {
                self.part = part;
                (self.chip, self.array) = fresh(part);
                self.step = Step::default();
                String::new()
            }
            event => format!("answer {}\n", self.event(event)),
        }
    }

    fn sum(&self) -> String {
        let mut record = [0; RECORD_LEN];
        self.chip.to_record(&mut record);
        (self.rules.sum_text)(&record, &self.array, &self.step)
    }

    /// A frame sent straight, a busy end, a pin move or a cut; its answer.
    fn event(&mut self, event: Order) -> u8 {
        self.step = Step::default();
        match event {
            Order::Send(frame) => {
                self.step.out = vec![self.rules.stale; frame.len()];
                self.chip.send(&self.array, &frame, &mut self.step.out)
            }
            Order::Pin(high) => self.chip.move_pin(high),
            Order::Cut(seed) => {
                let junk = self.junk(seed, self.part.junk_len());
                self.chip.cut(&mut self.array, &junk)
            }
            _ => self.chip.end_busy(&mut self.array),
        }
    }

    fn call(&mut self, request: &Request, options: &Options) -> String {
        let junk_len = options.junk_len.unwrap_or(self.part.junk_len());
        let junk = self.junk(options.seed, junk_len);
        let frames = (self.rules.log_frames)(request, options.limit);
        let log_len = options.log_len.unwrap_or(LOG_LINE * frames);
        let mut step = Step {
            log: vec![self.rules.stale; log_len],
            out: vec![self.rules.stale; out_len(self.part, request, options)],
            n: 0,
        };
        let lent = Lent {
            array: &mut self.array,
            script: &options.script,
            junk: &junk,
            log: &mut step.log,
        };
        let call = with_lent(request, options, &mut step.out);
        let outcome = self.chip.call(lent, call);
        step.n = outcome.n;
        self.step = step;
        self.outline(&outcome)
    }

    /// The frames of the call that was made last, and its totals.
    fn outline(&self, outcome: &Outcome) -> String {
        let lines = self.step.log.chunks(LOG_LINE).take(outcome.frames as usize);
        let frames: String = lines.map(self.rules.frame_text).collect();
        frames + &(self.rules.totals_text)(outcome)
    }

    fn junk(&self, seed: u64, len: usize) -> Vec<u8> {
        let byte = self.rules.junk_byte;
        (0..len).map(|i| byte(seed, i)).collect()
    }
}

fn fresh(part: Part) -> (Chip, Vec<u8>) {
    let mut array = vec![0; part.array_len()];
    let chip = Chip::fresh(&FACTORY, &mut array).expect("the array of a part");
    (chip, array)
}

/// The length of the get buffer or reply; 0 for a call that is lent none.
fn out_len(part: Part, request: &Request, options: &Options) -> usize {
    match request {
        Request::Get { .. } => options.buffer_len.unwrap_or(part.max_recipe()),
        Request::Raw { frame } => options.reply_len.unwrap_or(frame.len()),
        _ => 0,
    }
}

/// The call with its poll limit and dates, and its get buffer or reply.
fn with_lent<'a>(request: &'a Request, options: &Options, out: &'a mut [u8]) -> Call<'a> {
    let poll_limit = options.limit;
    match *request {
        Request::Put { slot, ref recipe } => Call::Put {
            slot,
            poll_limit,
            term: options.term(),
            recipe,
        },
        Request::Patch {
            slot,
            place,
            ref bytes,
        } => Call::Patch {
            slot,
            poll_limit,
            place,
            bytes,
        },
        Request::Get { slot } => Call::Get {
            slot,
            poll_limit,
            today: options.today,
            buffer: out,
        },
        Request::Wipe { slot } => Call::Wipe { slot, poll_limit },
        Request::Raw { ref frame } => Call::Raw { frame, reply: out },
    }
}
