//! Every row with an address: byte fields and pages at their edges, top bits
//! set, lengths at which data ends or wraps; then the busy end.

use at45db081d_model::record::field;
use at45db081d_model::Part;

use crate::frames::{self, Row, BYTE_FIELDS};
use crate::mismatch::Mismatch;
use crate::pair::Pair;
use crate::records;
use crate::rng::{Digits, Rng};
use crate::runner::Scenario;
use crate::step::Step;

pub const ADDRESSES: Scenario = Scenario {
    name: "every_address_edge",
    test: "library",
    cases,
    run,
};

/// The high fifteen bits of an address: a page of 264 bytes, or two of 256; at the
/// edges of sectors and parts of either page size.
const PAGE_FIELDS: [u32; 22] = [
    0, 1, 3, 4, 7, 8, 63, 64, 126, 127, 128, 135, 255, 256, 2047, 2048, 4094, 4095, 4096, 0x7F80,
    0x7FF7, 0x7FFF,
];

/// Numbers of data bytes.
const DATA_LENGTHS: [usize; 13] = [0, 1, 2, 16, 17, 64, 65, 256, 257, 264, 265, 513, 529];

/// Whole lengths.
const LENGTHS: [usize; 13] = [
    260, 261, 264, 265, 266, 267, 268, 269, 270, 271, 272, 1099, 1100,
];

fn cases(_: Part) -> u64 {
    let lengths = DATA_LENGTHS.len() + LENGTHS.len();
    (frames::ROWS.len() * BYTE_FIELDS.len() * PAGE_FIELDS.len() * lengths) as u64
}

fn length(row: &Row, index: usize) -> usize {
    match index.checked_sub(DATA_LENGTHS.len()) {
        None => row.lead + DATA_LENGTHS[index],
        Some(index) => LENGTHS[index],
    }
}

fn run(pair: &mut Pair, case: u64) -> Result<(), Mismatch> {
    let (part, mut digits, mut rng) = (pair.part, Digits::new(case), Rng::new(case));
    let row = digits.pick(&frames::ROWS);
    let address = digits.pick(&PAGE_FIELDS) << 9 | digits.pick(&BYTE_FIELDS);
    let len = length(&row, digits.below(DATA_LENGTHS.len() + LENGTHS.len()));
    let mut record = records::random(&mut rng);
    record[field::PROTECTION].fill(0);
    record[field::LOCKDOWN].fill(0);
    record[field::DEEP_POWER_DOWN] = 0;
    record[field::SECURITY_PROGRAMMED] = 0;
    record[field::WP_HIGH] = 1;
    let frame = row.frame(&mut rng, address, len);
    let array_len = part.array_len();
    pair.step(Step::Load(Box::new(record)))?;
    pair.step(Step::send(array_len, frame))?;
    if pair.record()[field::TAG] != 0 {
        pair.step(Step::EndBusy { array_len })?;
    }
    Ok(())
}
