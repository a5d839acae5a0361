//! Every row that names a sector, or takes all, with the sector's bits in
//! protection and lockdown in every combination that matters.

use at45db081d_model::part::{sector_bits, sector_of};
use at45db081d_model::record::field;
use at45db081d_model::{Part, Record};

use crate::frames::{self, Row};
use crate::mismatch::Mismatch;
use crate::pair::Pair;
use crate::parts;
use crate::records::{self, PATTERNS};
use crate::rng::{Digits, Rng};
use crate::runner::Scenario;
use crate::step::Step;

pub const SEALS: Scenario = Scenario {
    name: "every_seal_of_every_sector",
    test: "library",
    cases,
    run,
};

/// The rows that name a page of the array, by their last opening byte: those
/// that a seal stops, those that it does not stop, and the Chip Erase.
const NAMING: [u8; 17] = [
    0x83, 0x86, 0x88, 0x89, 0x82, 0x85, 0x81, 0x50, 0x7C, 0x58, 0x59, 0x53, 0x55, 0x60, 0x61, 0x30,
    0x84,
];

fn naming_row(index: usize) -> Row {
    match NAMING.get(index) {
        Some(&byte) => frames::ROWS[frames::row_ending(byte)],
        None => Row {
            opening: &[0xC7, 0x94, 0x80, 0x9A],
            lead: 4,
        },
    }
}

fn cases(part: Part) -> u64 {
    let pages = records::edge_pages(part).len();
    ((NAMING.len() + 1) * PATTERNS.len() * PATTERNS.len() * 4 * pages) as u64
}

fn run(pair: &mut Pair, case: u64) -> Result<(), Mismatch> {
    let (part, mut digits, mut rng) = (pair.part, Digits::new(case), Rng::new(case));
    let row = naming_row(digits.below(NAMING.len() + 1));
    let (listed, locked) = (digits.pick(&PATTERNS), digits.pick(&PATTERNS));
    let mut record = records::random(&mut rng);
    record[field::DEEP_POWER_DOWN] = 0;
    record[field::PROTECTION_ENABLED] = u8::from(digits.flag());
    record[field::WP_HIGH] = u8::from(digits.flag());
    let pages = records::edge_pages(part);
    let page = digits.pick(&pages);
    set_registers(&mut rng, &mut record, page, listed, locked);
    let address = frames::address(&mut rng, page, 0, part);
    let len = row.lead + rng.pick(&[0, 1, 256, 264]);
    let frame = row.frame(&mut rng, address, len);
    pair.step(Step::Load(Box::new(record)))?;
    pair.step(Step::send(part.array_len(), frame))?;
    if rng.one_in(if parts::is_short(part) { 2 } else { 64 }) {
        let array_len = part.array_len();
        pair.step(Step::EndBusy { array_len })?;
    }
    Ok(())
}

/// Sets the page's register byte to the patterns and the other bytes to
/// something that must not matter.
fn set_registers(rng: &mut Rng, record: &mut Record, page: usize, listed: u8, locked: u8) {
    let (byte, _) = sector_bits(sector_of(page as u16));
    let (other_listed, other_locked) = (rng.pick(&[0, 0xFF]), rng.pick(&[0, 0xFF]));
    record[field::PROTECTION].fill(other_listed);
    record[field::LOCKDOWN].fill(other_locked);
    record[field::PROTECTION][byte] = listed;
    record[field::LOCKDOWN][byte] = locked;
}
