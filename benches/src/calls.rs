//! Times put, with a term and without, patch, get and wipe on every part, library
//! and model over a record block alike.

use at45db081d_model::{record, Call, Date, Lent, Part, Term};
use slipknoll::{log_len, Chip, Run};

use crate::opaque::black_box;
use crate::{nanoseconds, FACTORY, REPEATS};

const POLL_LIMIT: usize = 1;
/// A patch sends the most frames.
const LOG_LEN: usize = log_len::patch(POLL_LIMIT);

/// A patch of 300 bytes, which lies in two pages.
const PLACE: usize = 200;
const PATCH_LEN: usize = 300;

/// A term late in the calendar, and today inside it.
const FIRST: [u32; 3] = [2190, 5, 1];
const LAST: [u32; 3] = [2199, 10, 31];
const TODAY: [u32; 3] = [2199, 7, 1];

#[derive(Clone, Copy)]
enum Work {
    Put,
    PutTerm,
    Patch,
    Get,
    Wipe,
}

/// The second get reads what the put with a term has left.
const ROWS: [(&str, Work); 6] = [
    ("put, longest", Work::Put),
    ("patch, 300 bytes", Work::Patch),
    ("get, longest", Work::Get),
    ("put with a term", Work::PutTerm),
    ("get with a term", Work::Get),
    ("wipe", Work::Wipe),
];

/// A chip with its array, and what its calls are lent.
struct Memory {
    array: Vec<u8>,
    recipe: Vec<u8>,
    /// The longest recipe with a term.
    term_len: usize,
    buffer: Vec<u8>,
    log: Vec<u8>,
}

impl Memory {
    fn new(part: Part) -> Memory {
        Memory {
            array: vec![0; part.array_len()],
            recipe: (0..part.max_recipe()).map(|i| (i * 7) as u8).collect(),
            term_len: part.max_term_recipe(),
            buffer: vec![0; part.max_recipe()],
            log: vec![0; LOG_LEN],
        }
    }
}

/// An implementation; each call tells whether its answer is 0, and its frames.
trait Subject {
    fn call(&mut self, work: Work, slot: usize) -> (bool, u64);
    fn array(&self) -> &[u8];
}

struct Library {
    chip: Chip,
    memory: Memory,
}

impl Library {
    fn new(part: Part) -> Library {
        let mut memory = Memory::new(part);
        let chip = Chip::fresh(&FACTORY, &mut memory.array).expect("a known part");
        Library { chip, memory }
    }
}

impl Subject for Library {
    fn call(&mut self, work: Work, slot: usize) -> (bool, u64) {
        let Memory {
            array,
            recipe,
            term_len,
            buffer,
            log,
        } = &mut self.memory;
        let chip = &mut self.chip;
        let mut run = Run::new(log);
        let result = match work {
            Work::Put => chip.put(array, slot, POLL_LIMIT, None, recipe, &mut run),
            Work::PutTerm => {
                let recipe = &recipe[..*term_len];
                chip.put_ymd(array, slot, POLL_LIMIT, FIRST, LAST, recipe, &mut run)
            }
            Work::Patch => {
                let bytes = &recipe[..PATCH_LEN];
                chip.patch(array, slot, POLL_LIMIT, PLACE, bytes, &mut run)
            }
            Work::Get => {
                let result = chip.get_ymd(array, slot, POLL_LIMIT, TODAY, buffer, &mut run);
                result.map(|_| ())
            }
            Work::Wipe => chip.wipe(array, slot, POLL_LIMIT, &mut run),
        };
        (result.is_ok(), run.frames())
    }

    fn array(&self) -> &[u8] {
        &self.memory.array
    }
}

fn date([year, month, day]: [u32; 3]) -> Date {
    Date::new(year, month, day)
}

struct Model {
    record: record::Record,
    memory: Memory,
}

impl Model {
    fn new(part: Part) -> Model {
        let mut block = [0; record::RECORD_LEN];
        let mut memory = Memory::new(part);
        assert_eq!(record::fresh(&mut block, &FACTORY, &mut memory.array), 0);
        Model {
            record: block,
            memory,
        }
    }
}

impl Subject for Model {
    fn call(&mut self, work: Work, slot: usize) -> (bool, u64) {
        let Memory {
            array,
            recipe,
            term_len,
            buffer,
            log,
        } = &mut self.memory;
        let poll_limit = POLL_LIMIT;
        let call = match work {
            Work::Put => Call::Put {
                slot,
                poll_limit,
                term: None,
                recipe,
            },
            Work::PutTerm => Call::Put {
                slot,
                poll_limit,
                term: Some(Term::new(date(FIRST), date(LAST))),
                recipe: &recipe[..*term_len],
            },
            Work::Patch => Call::Patch {
                slot,
                poll_limit,
                place: PLACE,
                bytes: &recipe[..PATCH_LEN],
            },
            Work::Get => Call::Get {
                slot,
                poll_limit,
                today: date(TODAY),
                buffer,
            },
            Work::Wipe => Call::Wipe { slot, poll_limit },
        };
        let lent = Lent {
            array,
            script: &[],
            junk: &[],
            log,
        };
        let outcome = record::call(&mut self.record, lent, call);
        (outcome.answer == 0, outcome.frames)
    }

    fn array(&self) -> &[u8] {
        &self.memory.array
    }
}

/// Nanoseconds per call that is answered with 0, slot after slot.
fn measure(subject: &mut impl Subject, work: Work, part: Part) -> f64 {
    let slots = part.blocks();
    nanoseconds(|turn| {
        let (accepted, frames) = subject.call(black_box(work), turn % slots);
        assert!(accepted);
        black_box(frames);
    })
}

/// Fills every slot, so that all calls are answered with 0.
fn fill(subject: &mut impl Subject, part: Part) {
    for slot in 0..part.blocks() {
        assert_eq!(subject.call(Work::Put, slot), (true, 43));
    }
}

/// Prints the table of the calls.
pub fn run() {
    println!("calls over a record block, empty script, B = 1; best of {REPEATS} measurements");
    println!("longest: recipes of 2,109 bytes, or of 2,045 with pages of 256; with a term 8 less");
    println!(
        "{:18} {:>9} {:>11} {:>11} {:>11} {:>11} {:>8}",
        "call", "pages", "library ns", "model ns", "library /s", "model /s", "times"
    );
    for part in Part::ALL {
        let (mut library, mut model) = (Library::new(part), Model::new(part));
        fill(&mut library, part);
        fill(&mut model, part);
        for (name, work) in ROWS {
            let mut best = [f64::MAX; 2];
            for _ in 0..REPEATS {
                best[0] = best[0].min(measure(&mut library, work, part));
                best[1] = best[1].min(measure(&mut model, work, part));
            }
            let [library, model] = best;
            let [library_rate, model_rate] = best.map(|nanoseconds| 1e9 / nanoseconds);
            let pages = format!("{}x{}", part.pages, part.page_size);
            let times = library / model;
            println!(
                "{name:18} {pages:>9} {library:11.0} {model:11.0} \
                 {library_rate:11.0} {model_rate:11.0} {times:8.2}"
            );
        }
        assert!(library.array() == model.array(), "the arrays differ");
    }
}
