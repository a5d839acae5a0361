//! The scenarios of put, patch, get, wipe and raw.

use at45db081d_model::record::field;
use at45db081d_model::{Part, Record};

use crate::dates;
use crate::mismatch::Mismatch;
use crate::pair::Pair;
use crate::records;
use crate::request::Request;
use crate::rng::Rng;
use crate::runner::Scenario;
use crate::step::Step;

mod bounds;
mod compares;
mod cuts;
mod deep;
mod lengths;
mod patches;
mod polls;
mod random_calls;
mod raws;
mod scripts;
mod sealed;
mod stored_terms;
mod terms;
mod wrong_dates;
mod wrongs;

/// Every scenario of calls, with the share of its cases that a full part gets:
/// one in so many.
pub const CALLS: [(Scenario, u64); 15] = [
    (cuts::CUTS, 5),
    (polls::POLLS, 5),
    (bounds::BOUNDS, 4),
    (sealed::SEALED, 2),
    (deep::DEEP, 5),
    (patches::PATCHES, 4),
    (lengths::LENGTHS, 2),
    (wrongs::WRONGS, 2),
    (scripts::SCRIPTS, 2),
    (raws::RAWS, 10),
    (terms::TERMS, 4),
    (stored_terms::STORED_TERMS, 8),
    (wrong_dates::WRONG_DATES, 4),
    (compares::COMPARES, 2),
    (random_calls::RANDOM_CALLS, 1),
];

/// The calls that have a slot, in the order of [`Request::kind`].
pub const SLOT_KINDS: usize = 4;
pub const KINDS: usize = 5;

pub const PUT: usize = 0;
pub const PATCH: usize = 1;
pub const GET: usize = 2;
pub const WIPE: usize = 3;

/// A record that is awake and has nothing sealed, with an operation under way
/// somewhere in the part.
pub fn open_record(rng: &mut Rng, part: Part, operation: (u8, u8)) -> Record {
    let mut record = records::random(rng);
    record[field::PROTECTION].fill(0);
    record[field::LOCKDOWN].fill(0);
    record[field::DEEP_POWER_DOWN] = 0;
    records::set_operation(rng, &mut record, operation, part);
    record
}

/// A call of some kind with random content; a patch is mostly a short one, half of
/// the puts have a term, and every date is one.
pub fn request(rng: &mut Rng, part: Part, kind: usize, slot: usize, poll_limit: usize) -> Request {
    let most = part.max_recipe();
    match kind {
        PUT => {
            let term = rng.one_in(2).then(|| dates::term(rng));
            let len = rng.below(part.max_recipe_of(term.is_some()) + 1);
            Request::put(slot, poll_limit, term, random_bytes(rng, len))
        }
        PATCH => {
            let place = rng.below(40);
            let longest = if rng.one_in(4) { 2000 } else { 20 };
            let len = rng.below(longest);
            Request::patch(slot, poll_limit, place, random_bytes(rng, len))
        }
        GET => Request::get(slot, poll_limit, dates::date(rng), most + rng.below(3)),
        WIPE => Request::wipe(slot, poll_limit),
        _ => Request::raw(random_frame(rng, part)),
    }
}

/// A frame of the table with an address that is often in the first slots.
pub fn random_frame(rng: &mut Rng, part: Part) -> Vec<u8> {
    let row = rng.pick(&crate::frames::ROWS);
    let len = row.lead + rng.pick(&[0, 0, 1, 16, 64, 256, 264]);
    let address = part.address_of(rng.below(64) as u16);
    row.frame(rng, address, len)
}

pub fn random_bytes(rng: &mut Rng, len: usize) -> Vec<u8> {
    let mut bytes = vec![0; len];
    rng.fill(&mut bytes);
    bytes
}

/// The first and last slot of each sector.
pub fn edge_slots(part: Part) -> Vec<usize> {
    let mut slots: Vec<usize> = (0..part.sectors())
        .map(|sector| part.sector_range(sector))
        .flat_map(|range| {
            [
                range.start / part.slot_size(),
                range.end / part.slot_size() - 1,
            ]
        })
        .collect();
    slots.dedup();
    slots
}

/// Any slot; those at the edges of sectors come often.
pub fn slot(rng: &mut Rng, part: Part) -> usize {
    if rng.one_in(2) {
        return rng.below(part.blocks());
    }
    rng.pick(&edge_slots(part))
}

/// The caller writes version and length at the beginning of a slot, and behind a
/// version other than 1 first and last day.
pub fn store_head(
    pair: &mut Pair,
    slot: usize,
    version: u8,
    len: u16,
    days: [u32; 2],
) -> Result<(), Mismatch> {
    let at = slot * pair.part.slot_size();
    let bytes = head(version, len, days);
    pair.step(Step::Store { at, bytes })?;
    Ok(())
}

/// The first bytes of a record of this version, whether or not there is one.
pub fn head(version: u8, len: u16, [first, last]: [u32; 2]) -> Vec<u8> {
    let mut bytes = vec![version];
    bytes.extend(len.to_be_bytes());
    if version != 1 {
        bytes.extend(first.to_be_bytes());
        bytes.extend(last.to_be_bytes());
    }
    bytes
}

/// Loads a record.
pub fn load(pair: &mut Pair, record: Record) -> Result<(), Mismatch> {
    pair.step(Step::Load(Box::new(record))).map(|_| ())
}
