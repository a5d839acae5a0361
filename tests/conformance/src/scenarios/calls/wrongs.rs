//! What meets 1 to 7 and 14, alone and together: every set of wrong things for
//! every call, for the order of refusals.

use at45db081d_model::answer::is_refusal;
use at45db081d_model::record::tag;
use at45db081d_model::{Part, Record};

use super::super::refusals::{array_len, ARRAY_LENGTHS};
use super::{load, open_record, random_bytes, random_frame, slot, GET, KINDS, PATCH, PUT, WIPE};
use crate::dates;
use crate::mismatch::Mismatch;
use crate::pair::Pair;
use crate::parts;
use crate::records::{self, OPERATIONS};
use crate::request::{CallStep, Request};
use crate::rng::{Digits, Rng};
use crate::runner::Scenario;

pub const WRONGS: Scenario = Scenario {
    name: "refusals_in_order",
    test: "calls",
    cases,
    run,
};

/// Times that each set of wrong things is tried, in other ways.
const TURNS: usize = 16;

/// The refusals, in the order in which they are looked at.
const ORDER: [usize; 8] = [1, 2, 3, 4, 5, 14, 6, 7];

fn cases(_: Part) -> u64 {
    (KINDS * (1 << ORDER.len()) * TURNS) as u64
}

/// Which of the refusals the call is to meet.
#[derive(Clone, Copy)]
struct Wrong(usize);

impl Wrong {
    fn has(self, answer: usize) -> bool {
        let place = ORDER.iter().position(|&it| it == answer);
        self.0 >> place.expect("a refusal") & 1 == 1
    }
}

fn run(pair: &mut Pair, case: u64) -> Result<(), Mismatch> {
    let (part, mut digits, mut rng) = (pair.part, Digits::new(case), Rng::new(case));
    let kind = digits.below(KINDS);
    let wrong = Wrong(digits.below(1 << ORDER.len()));
    let operation = rng.pick(&OPERATIONS);
    let mut record = open_record(&mut rng, part, operation);
    let request = request(&mut rng, kind, wrong, part);
    let mut call = CallStep::new(part, request).with_junk(rng.next_u64(), rng.byte());
    if wrong.has(1) {
        wrong_part(&mut rng, &mut record, &mut call, part);
    }
    set_log(&mut rng, &mut call, wrong.has(6));
    set_script(&mut rng, &mut call, wrong.has(7), part);
    load(pair, record)?;
    let answer = pair.call(call)?.answer;
    let first = (ORDER.into_iter()).find(|&n| wrong.has(n) && concerns(kind, n));
    match first {
        Some(first) => assert_eq!(usize::from(answer), first, "the first wrong thing"),
        None => assert!(!is_refusal(answer), "nothing is wrong"),
    }
    Ok(())
}

/// Which refusals concern a call.
fn concerns(kind: usize, answer: usize) -> bool {
    match kind {
        PUT | GET => answer != 2,
        PATCH => answer != 2 && answer != 14,
        WIPE => ![2, 5, 14].contains(&answer),
        _ => [1, 2, 6, 7].contains(&answer),
    }
}

fn request(rng: &mut Rng, kind: usize, wrong: Wrong, part: Part) -> Request {
    let slots = part.blocks();
    let slot = match wrong.has(3) {
        false => slot(rng, part),
        true => rng.pick(&[slots, slots + 1, 512, 65_536, 1 << 32, usize::MAX]),
    };
    let limit = match wrong.has(4) {
        false => rng.pick(&[1, 2, 3, 1000]),
        true => rng.pick(&[0, 1001, 65_537, (1 << 32) + 1, usize::MAX]),
    };
    let (size, most) = (wrong.has(5), part.max_recipe());
    match kind {
        PUT => {
            let term = match wrong.has(14) {
                true => Some(dates::no_term(rng)),
                false => rng.one_in(2).then(|| dates::term(rng)),
            };
            let most = part.max_recipe_of(term.is_some());
            let len = rng.pick(&match size {
                false => [0, 1, most - 1, most],
                true => [most + 1, most + 2, 4000, 65_541],
            });
            Request::put(slot, limit, term, random_bytes(rng, len))
        }
        PATCH => {
            let (place, len) = rng.pick(&patches(most, size));
            Request::patch(slot, limit, place, random_bytes(rng, len))
        }
        GET => {
            let buffer_len = rng.pick(&match size {
                false => [most, most + 1, 2200],
                true => [0, 1, most - 1],
            });
            let today = match wrong.has(14) {
                true => dates::no_date(rng),
                false => dates::date(rng),
            };
            Request::get(slot, limit, today, buffer_len)
        }
        WIPE => Request::wipe(slot, limit),
        _ => raw(rng, part, wrong.has(2)),
    }
}

/// Places and lengths of patches that end by the longest recipe's end, or behind.
fn patches(most: usize, behind: bool) -> [(usize, usize); 5] {
    match behind {
        false => [(0, 0), (0, 1), (most, 0), (most - 1, 1), (0, most)],
        true => [
            (most + 1, 0),
            (most, 1),
            (0, most + 1),
            (usize::MAX, 1),
            (2, 65_536),
        ],
    }
}

/// A raw frame, its length or that of its reply being wrong or not.
fn raw(rng: &mut Rng, part: Part, wrong: bool) -> Request {
    if !wrong {
        return Request::raw(random_frame(rng, part));
    }
    let (len, reply_len) = rng.pick(&[
        (0, 0),
        (0, 1),
        (1, 0),
        (1101, 1101),
        (1101, 1100),
        (1100, 1101),
        (1100, 1099),
        (2200, 2200),
        (2, 2300),
    ]);
    let mut frame = random_frame(rng, part);
    frame.resize(len, 0);
    Request::Raw { frame, reply_len }
}

/// An array of no part, or an operation beyond the part.
fn wrong_part(rng: &mut Rng, record: &mut Record, call: &mut CallStep, part: Part) {
    if rng.one_in(3) {
        let pages = part.pages as u16;
        return records::set_place(record, (tag::ERASE_PAGE, 0), pages, 0);
    }
    while Part::from_array_len(call.array_len).is_some() {
        call.array_len = array_len(4 + rng.below(ARRAY_LENGTHS.len() - 4), part);
    }
}

fn set_log(rng: &mut Rng, call: &mut CallStep, wrong: bool) {
    let least = call.request.log_len();
    call.log_len = match wrong {
        true => rng.pick(&[least - 1, least - 6, least / 2, 0]),
        false => least + rng.pick(&[0, 1, 6, 100]),
    };
}

/// A byte that is 3 or more, or a cut whose junk has a wrong length; if nothing
/// is to be wrong, a cut with the right junk, or other junk and no cut.
fn set_script(rng: &mut Rng, call: &mut CallStep, wrong: bool, part: Part) {
    let mut script = vec![0; rng.pick(&[0, 1, 5, 40])];
    let lengths = [
        0,
        1,
        part.array_junk(),
        part.junk_len() - 1,
        part.junk_len() + 1,
        parts::other_page_size(part).junk_len(),
    ];
    match (wrong, rng.one_in(2)) {
        (true, true) => script.push(rng.pick(&[3, 4, 0x80, 0xFF])),
        (true, false) => {
            script.push(2);
            call.junk_len = rng.pick(&lengths);
        }
        (false, true) => script.push(2),
        (false, false) => call.junk_len = rng.pick(&lengths),
    }
    script.resize(script.len() + rng.pick(&[0, 3, 100]), 0);
    call.script = script;
}
