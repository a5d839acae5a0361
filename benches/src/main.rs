//! Times calls of the proved library beside the second model and beside a
//! plain copy of as many bytes: `cargo run --release -p bench`.

mod calls;
mod opaque;

use std::time::{Duration, Instant};

use at45db081d_model::{Chip, Operation, Part};

use opaque::black_box;

/// How long one measurement lasts at least, and how many there are, turn by
/// turn; the quickest counts.
const LEAST: Duration = Duration::from_millis(20);
const REPEATS: usize = 7;

/// The parts whose frames are timed: pages of either size.
const PARTS: [Part; 2] = [Part::FULL, Part::FULL_256];
const FACTORY: [u8; 64] = [0x5A; 64];
const MAX_FRAME: usize = 1100;

/// How far the target of a copy stands off the beginning of its memory.
const APART: usize = 1024;

/// An implementation with its own array and reply.
trait Subject {
    fn send(&mut self, frame: &[u8]);
    fn end_busy(&mut self);
    /// Makes the chip idle by hand: the operation under way has no effect.
    fn take_back(&mut self);
    fn reply(&self) -> &[u8];
}

/// The proved library, over its record block.
struct Library {
    chip: slipknoll::Chip,
    array: Vec<u8>,
    reply: Vec<u8>,
}

impl Library {
    fn new(part: Part) -> Library {
        let mut array = vec![0; part.array_len()];
        Library {
            chip: slipknoll::Chip::fresh(&FACTORY, &mut array).expect("a known part"),
            array,
            reply: vec![0; MAX_FRAME],
        }
    }
}

impl Subject for Library {
    fn send(&mut self, frame: &[u8]) {
        let reply = &mut self.reply[..frame.len()];
        let answer = self.chip.send(&self.array, frame, reply);
        assert_eq!(answer, Ok(()));
    }

    fn end_busy(&mut self) {
        assert_eq!(self.chip.end_busy(&mut self.array), Ok(()));
    }

    fn take_back(&mut self) {
        // Tag, buffer and number of the operation under way.
        self.chip.record_mut()[164..168].fill(0);
    }

    fn reply(&self) -> &[u8] {
        &self.reply
    }
}

/// The second model, in place.
struct Model {
    chip: Chip,
    array: Vec<u8>,
    reply: Vec<u8>,
}

impl Model {
    fn new(part: Part) -> Model {
        let mut array = vec![0; part.array_len()];
        Model {
            chip: Chip::fresh(&FACTORY, &mut array).expect("a known part"),
            array,
            reply: vec![0; MAX_FRAME],
        }
    }
}

impl Subject for Model {
    fn send(&mut self, frame: &[u8]) {
        let reply = &mut self.reply[..frame.len()];
        assert_eq!(self.chip.send(&self.array, frame, reply), 0);
    }

    fn end_busy(&mut self) {
        assert_eq!(self.chip.end_busy(&mut self.array), 0);
    }

    fn take_back(&mut self) {
        self.chip.operation = Operation::Idle;
    }

    fn reply(&self) -> &[u8] {
        &self.reply
    }
}

/// What one measured call does.
#[derive(Clone, Copy)]
enum Work {
    /// One frame of this opcode and length.
    Frame(u8, usize),
    /// One frame of this opcode with a page of data behind so many bytes.
    Page(u8, usize),
    /// 83 and its busy end.
    ProgramToEnd,
    /// 83, taken back by hand.
    ProgramAlone,
    /// Frames 03 of 1,100 bytes until the whole array has been read.
    WholeArray,
}

const ROWS: [(&str, Work); 7] = [
    ("D2 of a page", Work::Page(0xD2, 8)),
    ("84 of a page", Work::Page(0x84, 4)),
    ("83 with its busy end", Work::ProgramToEnd),
    ("83 without busy end", Work::ProgramAlone),
    ("D7, 2 bytes", Work::Frame(0xD7, 2)),
    ("03, 1,100 bytes", Work::Frame(0x03, 1100)),
    ("03, whole array", Work::WholeArray),
];

impl Work {
    /// The number of bytes for the copy beside it.
    fn copied(self, part: Part) -> usize {
        match self {
            Work::ProgramToEnd => part.page_size,
            Work::WholeArray => part.array_len(),
            _ => self.frame(part).len(),
        }
    }

    /// The frame that it sends, with zeros behind the opcode.
    fn frame(self, part: Part) -> Vec<u8> {
        let (opcode, len) = match self {
            Work::Frame(opcode, len) => (opcode, len),
            Work::Page(opcode, lead) => (opcode, lead + part.page_size),
            Work::ProgramToEnd | Work::ProgramAlone => (0x83, 4),
            Work::WholeArray => (0x03, MAX_FRAME),
        };
        let mut frame = vec![0; len];
        frame[0] = opcode;
        frame
    }
}

/// Puts an address that names this page and byte into a frame.
fn set_address(part: Part, frame: &mut [u8], page: usize, byte: usize) {
    let address = part.address_of(page as u16) + byte as u32;
    frame[1..4].copy_from_slice(&address.to_be_bytes()[1..]);
}

/// Does the work once; `turn` chooses the page.
fn work_once(subject: &mut impl Subject, work: Work, part: Part, frame: &mut [u8], turn: usize) {
    match work {
        Work::WholeArray => return read_whole_array(subject, part, frame),
        _ if frame.len() >= 4 => set_address(part, frame, turn % part.pages, 0),
        _ => {}
    }
    subject.send(black_box(frame));
    match work {
        Work::ProgramToEnd => subject.end_busy(),
        Work::ProgramAlone => subject.take_back(),
        _ => {}
    }
    black_box(subject.reply());
}

fn read_whole_array(subject: &mut impl Subject, part: Part, frame: &mut [u8]) {
    let mut at = 0;
    while at < part.array_len() {
        let len = frame.len().min(part.array_len() - at + 4);
        set_address(part, frame, at / part.page_size, at % part.page_size);
        subject.send(black_box(&frame[..len]));
        black_box(subject.reply());
        at += len - 4;
    }
}

/// Nanoseconds per call, over as many calls as one measurement needs.
fn nanoseconds(mut call: impl FnMut(usize)) -> f64 {
    let mut count = 1;
    loop {
        let elapsed = time(&mut call, count);
        if elapsed >= LEAST {
            return elapsed.as_nanos() as f64 / count as f64;
        }
        count *= 2;
    }
}

fn time(call: &mut impl FnMut(usize), count: usize) -> Duration {
    let begin = Instant::now();
    for turn in 0..count {
        call(turn);
    }
    begin.elapsed()
}

fn measure(subject: &mut impl Subject, work: Work, part: Part) -> f64 {
    let mut frame = work.frame(part);
    nanoseconds(|turn| work_once(subject, work, part, &mut frame, turn))
}

/// One plain copy; the places differ within a memory page, since processors
/// copy slowly between places that do not.
fn measure_copy(bytes: usize) -> f64 {
    let source = vec![0x5Au8; bytes];
    let mut target = vec![0xA5u8; bytes + APART];
    nanoseconds(|_| {
        target[APART..].copy_from_slice(black_box(&source));
        black_box(&mut target);
    })
}

/// Prints the lines of one part.
fn run(part: Part) {
    let (mut library, mut model) = (Library::new(part), Model::new(part));
    for (name, work) in ROWS {
        let bytes = work.copied(part);
        let mut best = [f64::MAX; 3];
        for _ in 0..REPEATS {
            best[0] = best[0].min(measure(&mut library, work, part));
            best[1] = best[1].min(measure(&mut model, work, part));
            best[2] = best[2].min(measure_copy(bytes));
        }
        let ([library, model, copy], page) = (best, part.page_size);
        println!("{name:22} {page:>5} {library:12.1} {model:12.1} {copy:12.1} {bytes:12}");
    }
    assert!(library.array == model.array, "the arrays differ");
}

fn main() {
    println!("parts of 4,096 pages; nanoseconds per call, best of {REPEATS} measurements");
    println!("reply buffers are reused and not cleared between calls");
    println!();
    println!(
        "{:22} {:>5} {:>12} {:>12} {:>12} {:>12}",
        "call", "page", "library", "model", "copy", "bytes copied"
    );
    PARTS.into_iter().for_each(run);
    println!();
    calls::run();
}
