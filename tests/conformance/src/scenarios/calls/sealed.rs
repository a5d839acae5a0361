//! Slots at the edges of each sector, with the sector's bits in protection and
//! lockdown in every combination that matters.

use at45db081d_model::part::{sector_bits, sector_of};
use at45db081d_model::record::{field, tag};
use at45db081d_model::{Part, Record};

use super::{edge_slots, load, open_record, request, SLOT_KINDS};
use crate::mismatch::Mismatch;
use crate::pair::Pair;
use crate::records::PATTERNS;
use crate::request::CallStep;
use crate::rng::{Digits, Rng};
use crate::runner::Scenario;

pub const SEALED: Scenario = Scenario {
    name: "sealed_and_locked_slots",
    test: "calls",
    cases,
    run,
};

fn cases(part: Part) -> u64 {
    (edge_slots(part).len() * PATTERNS.len() * PATTERNS.len() * 4 * SLOT_KINDS) as u64
}

fn run(pair: &mut Pair, case: u64) -> Result<(), Mismatch> {
    let (part, mut digits, mut rng) = (pair.part, Digits::new(case), Rng::new(case));
    let kind = digits.below(SLOT_KINDS);
    let slot = digits.pick(&edge_slots(part));
    let (listed, locked) = (digits.pick(&PATTERNS), digits.pick(&PATTERNS));
    let mut record = open_record(&mut rng, part, (tag::IDLE, 0));
    record[field::PROTECTION_ENABLED] = u8::from(digits.flag());
    record[field::WP_HIGH] = u8::from(digits.flag());
    set_registers(&mut rng, &mut record, slot, listed, locked);
    load(pair, record)?;
    let request = request(&mut rng, part, kind, slot, 1);
    pair.call(CallStep::new(part, request))?;
    Ok(())
}

/// Sets the slot's register bytes to the patterns and the other bytes to
/// something that must not matter.
fn set_registers(rng: &mut Rng, record: &mut Record, slot: usize, listed: u8, locked: u8) {
    let (byte, _) = sector_bits(sector_of(8 * slot as u16));
    let (other_listed, other_locked) = (rng.pick(&[0, 0xFF]), rng.pick(&[0, 0xFF]));
    record[field::PROTECTION].fill(other_listed);
    record[field::LOCKDOWN].fill(other_locked);
    record[field::PROTECTION][byte] = listed;
    record[field::LOCKDOWN][byte] = locked;
}
