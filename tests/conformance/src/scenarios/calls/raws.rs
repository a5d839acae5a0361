//! Every row of the command table, and unlisted openings, as a raw frame under
//! every operation, with each script byte.

use at45db081d_model::record::field;
use at45db081d_model::Part;

use super::{load, open_record};
use crate::frames::{self, Row, UNLISTED};
use crate::mismatch::Mismatch;
use crate::pair::Pair;
use crate::records::{self, OPERATIONS};
use crate::request::{CallStep, Request};
use crate::rng::{Digits, Rng};
use crate::runner::Scenario;

pub const RAWS: Scenario = Scenario {
    name: "every_row_as_a_raw_frame",
    test: "calls",
    cases,
    run,
};

const OPENINGS: usize = frames::ROWS.len() + UNLISTED.len();

const SCRIPTS: [&[u8]; 5] = [&[], &[0, 2], &[1], &[2], &[1, 1, 1]];

/// Data bytes behind the lead; the last makes the longest frame.
const DATA: [usize; 5] = [0, 1, 256, 264, 1100];

fn cases(_: Part) -> u64 {
    (OPENINGS * OPERATIONS.len() * SCRIPTS.len() * DATA.len()) as u64
}

fn opening(index: usize) -> Row {
    match index.checked_sub(frames::ROWS.len()) {
        None => frames::ROWS[index],
        Some(unlisted) => UNLISTED[unlisted],
    }
}

fn run(pair: &mut Pair, case: u64) -> Result<(), Mismatch> {
    let (part, mut digits, mut rng) = (pair.part, Digits::new(case), Rng::new(case));
    let row = opening(digits.below(OPENINGS));
    let operation = digits.pick(&OPERATIONS);
    let script = digits.pick(&SCRIPTS).to_vec();
    let len = (row.lead + digits.pick(&DATA)).min(1100);
    let mut record = records::random(&mut rng);
    if rng.one_in(2) {
        record = open_record(&mut rng, part, operation);
        record[field::WP_HIGH] = 1;
    }
    records::set_operation(&mut rng, &mut record, operation, part);
    load(pair, record)?;
    let page = records::page(&mut rng, part);
    let address = frames::address(&mut rng, page, 0, part);
    let frame = row.frame(&mut rng, address, len);
    let call = CallStep::new(part, Request::raw(frame))
        .with_script(script)
        .with_junk(rng.next_u64(), rng.byte());
    pair.call(call)?;
    Ok(())
}
