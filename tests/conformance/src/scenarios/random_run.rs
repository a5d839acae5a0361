//! Long random runs: each call works on what the one before has left of record
//! and array.

use at45db081d_model::record::{field, tag};
use at45db081d_model::{Part, Record};

use super::refusals::{array_len, ARRAY_LENGTHS};
use crate::frames::{self, Row, BYTE_FIELDS, LENGTHS, UNLISTED};
use crate::mismatch::Mismatch;
use crate::pair::Pair;
use crate::parts;
use crate::records::{self, OPERATIONS};
use crate::rng::Rng;
use crate::runner::Scenario;
use crate::step::Step;

pub const RANDOM_RUN: Scenario = Scenario {
    name: "random_runs",
    test: "library",
    cases,
    run,
};

/// Steps of one run.
const STEPS: usize = 2000;

/// The number of seeds; any other may be given by hand.
fn cases(part: Part) -> u64 {
    if parts::is_short(part) {
        400
    } else {
        40
    }
}

fn run(pair: &mut Pair, seed: u64) -> Result<(), Mismatch> {
    let mut rng = Rng::new(seed.wrapping_mul(0xD134_2543_DE82_EF95));
    let mut first = records::random(&mut rng);
    first[field::DEEP_POWER_DOWN] = 0;
    pair.step(Step::Load(Box::new(first)))?;
    for _ in 0..STEPS {
        let step = next_step(pair, &mut rng);
        pair.step(step)?;
    }
    Ok(())
}

fn next_step(pair: &mut Pair, rng: &mut Rng) -> Step {
    let part = pair.part;
    let record = pair.record();
    let array_len = lent_array(rng, part);
    match rng.below(1000) {
        0..=639 => send(rng, part, &record, array_len),
        640..=799 => Step::EndBusy { array_len },
        800..=859 => Step::MovePin {
            high: rng.one_in(2),
        },
        860..=899 => cut(rng, part, array_len),
        900..=901 => fresh(rng, array_len),
        902..=907 => Step::RestoreArray,
        _ => Step::Load(Box::new(other_record(rng, part, record))),
    }
}

/// Mostly the part's own array; at times as much of it, or a little more, as
/// another part has, or an array of no part.
fn lent_array(rng: &mut Rng, part: Part) -> usize {
    match rng.below(40) {
        0 => array_len(rng.below(ARRAY_LENGTHS.len()), part),
        1 => rng.pick(&parts::with_room(part)).array_len(),
        _ => part.array_len(),
    }
}

fn fresh(rng: &mut Rng, array_len: usize) -> Step {
    let mut factory = Box::new([0; 64]);
    rng.fill(&mut factory[..]);
    Step::Fresh { array_len, factory }
}

fn cut(rng: &mut Rng, part: Part, array_len: usize) -> Step {
    let lent = Part::from_array_len(array_len).unwrap_or(part);
    let junk_len = match rng.below(10) {
        0 => lent.junk_len() + 1,
        1 => lent.junk_len() - 1,
        2 => parts::other_page_size(lent).junk_len(),
        _ => lent.junk_len(),
    };
    Step::Cut {
        array_len,
        junk_len,
        seed: rng.next_u64(),
        register: rng.byte(),
    }
}

fn send(rng: &mut Rng, part: Part, record: &Record, array_len: usize) -> Step {
    let row = choose_row(rng, record);
    let len = choose_length(rng, &row);
    let page = choose_page(rng, part, record);
    let byte_field = if rng.one_in(2) {
        rng.pick(&BYTE_FIELDS)
    } else {
        rng.below(512) as u32
    };
    let address = frames::address(rng, page, byte_field, part);
    let frame = row.frame(rng, address, len);
    let reply_len = match rng.below(100) {
        0 => len + 1,
        1 => len.saturating_sub(1),
        _ => len,
    };
    Step::Send {
        array_len,
        frame,
        reply_len,
    }
}

/// Mostly a row of the table; a deep chip is often woken.
fn choose_row(rng: &mut Rng, record: &Record) -> Row {
    if record[field::DEEP_POWER_DOWN] != 0 && rng.one_in(4) {
        return frames::ROWS[frames::row_ending(0xAB)];
    }
    match rng.below(20) {
        0 => rng.pick(&UNLISTED),
        _ => rng.pick(&frames::ROWS),
    }
}

fn choose_length(rng: &mut Rng, row: &Row) -> usize {
    match rng.below(8) {
        0 | 1 => row.lead,
        2 | 3 => row.lead + 1 + rng.below(20),
        4 => row.lead + rng.pick(&[256, 264]),
        5 => 1 + rng.below(1100),
        _ => rng.pick(&LENGTHS),
    }
}

/// Any page, or the one of the operation under way.
fn choose_page(rng: &mut Rng, part: Part, record: &Record) -> usize {
    if rng.one_in(8) {
        let number = [record[field::NUMBER.start], record[field::NUMBER.start + 1]];
        return usize::from(u16::from_be_bytes(number)) % part.pages;
    }
    records::page(rng, part)
}

/// A record of the caller: a new one, or the old one with one thing changed.
fn other_record(rng: &mut Rng, part: Part, old: Record) -> Record {
    let mut record = old;
    match rng.below(8) {
        0 | 1 => {
            record = records::random(rng);
            let operation = rng.pick(&OPERATIONS);
            records::set_operation(rng, &mut record, operation, part);
        }
        2 => {
            let operation = rng.pick(&OPERATIONS);
            records::set_operation(rng, &mut record, operation, part);
        }
        3 => record[rng.below(16)] = rng.pick(&records::PATTERNS),
        4 => record[field::LOCKDOWN].fill(0),
        5 => record[field::SECURITY_PROGRAMMED] = 0,
        6 if rng.one_in(4) => {
            let any = rng.below(field::DATA.start - field::USER.end) + field::USER.end;
            record[any] = rng.byte();
        }
        // An operation that does not fit the part would block the rest.
        _ => records::set_place(&mut record, (tag::IDLE, 0), 0, 0),
    }
    record
}
