//! Every row of the command table, and unlisted openings, under every
//! operation, with all marks both ways, at every edge length.

use at45db081d_model::record::field;
use at45db081d_model::Part;

use crate::frames::{self, Row, BYTE_FIELDS, LENGTHS, UNLISTED};
use crate::mismatch::Mismatch;
use crate::pair::Pair;
use crate::records::{self, OPERATIONS};
use crate::rng::{Digits, Rng};
use crate::runner::Scenario;
use crate::step::Step;

pub const ROWS: Scenario = Scenario {
    name: "every_row_under_every_operation",
    test: "library",
    cases,
    run,
};

const OPENINGS: usize = frames::ROWS.len() + UNLISTED.len();
const MARKS: usize = 16;

fn cases(_: Part) -> u64 {
    (OPENINGS * LENGTHS.len() * OPERATIONS.len() * MARKS) as u64
}

fn opening(index: usize) -> Row {
    match index.checked_sub(frames::ROWS.len()) {
        None => frames::ROWS[index],
        Some(unlisted) => UNLISTED[unlisted],
    }
}

fn run(pair: &mut Pair, case: u64) -> Result<(), Mismatch> {
    let (part, mut digits, mut rng) = (pair.part, Digits::new(case), Rng::new(case));
    let row = opening(digits.below(OPENINGS));
    let len = digits.pick(&LENGTHS);
    let operation = digits.pick(&OPERATIONS);
    let mut record = records::random(&mut rng);
    records::set_operation(&mut rng, &mut record, operation, part);
    for mark in [
        field::SECURITY_PROGRAMMED,
        field::PROTECTION_ENABLED,
        field::WP_HIGH,
        field::DEEP_POWER_DOWN,
    ] {
        record[mark] = u8::from(digits.flag());
    }
    let page = records::page(&mut rng, part);
    let byte_field = rng.pick(&BYTE_FIELDS);
    let address = frames::address(&mut rng, page, byte_field, part);
    let frame = row.frame(&mut rng, address, len);
    pair.step(Step::Load(Box::new(record)))?;
    pair.step(Step::send(part.array_len(), frame))?;
    follow_up(pair, &mut rng)
}

/// Now and then a second call shows what the first has left.
fn follow_up(pair: &mut Pair, rng: &mut Rng) -> Result<(), Mismatch> {
    let array_len = pair.part.array_len();
    let step = match rng.below(8) {
        0 | 1 => Step::EndBusy { array_len },
        2 => Step::Cut {
            array_len,
            junk_len: pair.part.junk_len(),
            seed: rng.next_u64(),
            register: rng.byte(),
        },
        3 => Step::send(array_len, vec![0xD7, 0x00]),
        4 => Step::MovePin {
            high: rng.one_in(2),
        },
        _ => return Ok(()),
    };
    pair.step(step).map(|_| ())
}
