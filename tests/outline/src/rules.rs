//! What the reference does by a rule that stands alone. A wrong version of it
//! is these rules but for one.

use at45db081d_model::{Outcome, Record};

use crate::crc::{crc32, Crc};
use crate::order::{self, Order, Request};
use crate::session::Step;

#[derive(Clone, Copy)]
pub struct Rules {
    /// The input taken apart into lines.
    pub lines: fn(&[u8]) -> Vec<&[u8]>,
    /// What a line says, or what is wrong with it.
    pub read: fn(&[u8], &Rules) -> Result<Order, String>,
    /// The longest line that is read.
    pub longest_line: usize,
    pub is_blank: fn(u8) -> bool,
    /// What is printed of a line that cannot be read.
    pub fault_text: fn(usize, &str) -> String,
    /// What such a line does to the step that sum speaks of.
    pub after_fault: fn(&mut Step),
    /// What log, get buffer and reply hold before a step.
    pub stale: u8,
    /// Byte i of the junk with this seed.
    pub junk_byte: fn(u64, usize) -> u8,
    /// The frames that the log has room for if its length is not given.
    pub log_frames: fn(&Request, usize) -> usize,
    /// What is printed of a frame, from its six log bytes.
    pub frame_text: fn(&[u8]) -> String,
    /// What is printed behind the frames.
    pub totals_text: fn(&Outcome) -> String,
    pub sum_text: fn(&Record, &[u8], &Step) -> String,
}

/// The rules as they are.
pub const RULES: Rules = Rules {
    lines,
    read: order::read,
    longest_line: 8192,
    is_blank: |byte| matches!(byte, b' ' | b'\t' | b'\r'),
    fault_text: |number, what| format!("line {number}: {what}\n"),
    after_fault: |_| {},
    stale: 0xA5,
    junk_byte,
    log_frames,
    frame_text,
    totals_text,
    sum_text,
};

/// A line ends with LF or at the end of the input; an empty rest after the
/// last LF is no line.
pub fn lines(input: &[u8]) -> Vec<&[u8]> {
    let mut lines: Vec<&[u8]> = input.split(|&byte| byte == b'\n').collect();
    if lines.last().map_or(false, |rest| rest.is_empty()) {
        lines.pop();
    }
    lines
}

/// (SEED*7 + i*13 + (i div 256)*31) mod 256.
pub fn junk_byte(seed: u64, i: usize) -> u8 {
    let i = i as u64;
    (seed % 256 * 7 + i * 13 + i / 256 * 31) as u8
}

/// The bound of the call, for a poll limit of at most 1,000.
pub fn log_frames(request: &Request, limit: usize) -> usize {
    let b = limit.min(1000);
    match request {
        Request::Put { .. } => 17 * b + 26,
        Request::Patch { .. } => 17 * b + 34,
        Request::Get { .. } => b + 8,
        Request::Wipe { .. } => 2 * b + 3,
        Request::Raw { .. } => 1,
    }
}

/// Decimal length, then at most four bytes and no more than the frame has.
pub fn frame_text(line: &[u8]) -> String {
    let len = usize::from(line[0]) << 8 | usize::from(line[1]);
    let mut text = len.to_string();
    for byte in &line[2..][..len.min(4)] {
        text += &format!(" {byte:02X}");
    }
    text + "\n"
}

pub fn totals_text(outcome: &Outcome) -> String {
    let Outcome {
        frames,
        polls,
        answer,
        ..
    } = outcome;
    format!("frames {frames} polls {polls} answer {answer}\n")
}

/// The record block followed by the array; the log; the get buffer or reply.
pub fn sum_text(record: &Record, array: &[u8], step: &Step) -> String {
    let state = Crc::default().then(record).then(array).end();
    let (log, out) = (crc32(&step.log), crc32(&step.out));
    format!("sum {state:08X} log {log:08X} out {out:08X} n {}\n", step.n)
}
