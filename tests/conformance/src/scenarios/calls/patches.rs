//! Patches that begin and end around the page boundaries of a slot, with
//! stored lengths around their end and with slots that are blank; and places
//! up to the largest number.

use at45db081d_model::record::tag;
use at45db081d_model::slot::{HEADER_SIZE, TERM_HEADER_SIZE};
use at45db081d_model::{Date, Part};

use super::{load, open_record, random_bytes, slot, store_head};
use crate::mismatch::Mismatch;
use crate::pair::Pair;
use crate::request::{CallStep, Request};
use crate::rng::{Digits, Rng};
use crate::runner::Scenario;

pub const PATCHES: Scenario = Scenario {
    name: "patches_around_page_boundaries",
    test: "calls",
    cases,
    run,
};

/// Boundaries at slot offsets 264k or 256k, and how far a patch begins from them:
/// offsets 261 to 267 and so on.
const BOUNDARIES: usize = 9;
const OFFSETS: usize = 7;

const LENGTHS: [usize; 32] = [
    0, 1, 2, 3, 4, 5, 6, 250, 251, 253, 255, 256, 257, 258, 259, 260, 261, 262, 263, 264, 265, 511,
    512, 527, 528, 529, 1056, 2044, 2045, 2046, 2109, 2110,
];

/// Places near the largest number and near what fits narrower ones.
const FAR: [usize; 13] = [
    2046,
    2110,
    4221,
    0xFFFF,
    0x1_0000,
    u32::MAX as usize,
    u32::MAX as usize + 1,
    usize::MAX / 2,
    usize::MAX / 2 + 1,
    usize::MAX - 2109,
    usize::MAX - 3,
    usize::MAX - 1,
    usize::MAX,
];

/// What the slot's head says: see `head`.
const HEADS: usize = 14;

/// Terms: the days that there are, and none.
const TERMS: [[u32; 2]; 3] = [[0, 73_048], [u32::MAX, 0], [9_816, u32::MAX]];
const TODAY: Date = Date::new(2026, 11, 16);

const NEAR: usize = BOUNDARIES * OFFSETS;

fn cases(_: Part) -> u64 {
    // The places, those at which a patch of each length would wrap to 0, 1, 2
    // and 3, and those that are far off.
    ((NEAR + 4 + FAR.len()) * LENGTHS.len() * HEADS) as u64
}

fn run(pair: &mut Pair, case: u64) -> Result<(), Mismatch> {
    let (part, mut digits, mut rng) = (pair.part, Digits::new(case), Rng::new(case));
    let place = digits.below(NEAR + 4 + FAR.len());
    let len = digits.pick(&LENGTHS);
    let which = digits.below(HEADS);
    let body = match which {
        8.. => TERM_HEADER_SIZE,
        _ => HEADER_SIZE,
    };
    let place = match place.checked_sub(NEAR) {
        None => near(part, place, body),
        Some(wrapped) if wrapped < 4 => wrapped.wrapping_sub(len),
        Some(far) => FAR[far - 4],
    };
    let slot = slot(&mut rng, part);
    let most = part.max_recipe();
    let (version, stored) = head(which, part, place.saturating_add(len));
    store_head(pair, slot, version, stored, rng.pick(&TERMS))?;
    load(pair, open_record(&mut rng, part, (tag::IDLE, 0)))?;
    let bytes = random_bytes(&mut rng, len);
    let patch = Request::patch(slot, 1, place, bytes);
    pair.call(CallStep::new(part, patch))?;
    pair.call(CallStep::new(part, Request::get(slot, 1, TODAY, most)))?;
    Ok(())
}

/// A place whose slot offset is within 3 of a boundary, at the recipe's
/// beginning if there is none.
fn near(part: Part, index: usize, body: usize) -> usize {
    let (boundary, offset) = (index / OFFSETS * part.page_size, index % OFFSETS);
    (boundary + offset).saturating_sub(3 + body)
}

/// Version and length of a slot, by the longest recipes and the end of the patch.
fn head(index: usize, part: Part, end: usize) -> (u8, u16) {
    let plain = part.max_recipe() as u16;
    let most = part.max_recipe_of(index >= 8) as u16;
    let end = end.min(most.into()) as u16;
    match index {
        0 => (1, end),
        1 => (1, end.saturating_sub(1)),
        2 => (1, (end + 1).min(most)),
        3 => (1, most),
        4 => (1, most + 1),
        5 => (0, end),
        6 => (3, end),
        7 => (1, 0xFFFF),
        8 => (2, end),
        9 => (2, end.saturating_sub(1)),
        10 => (2, most),
        11 => (2, most + 1),
        12 => (2, plain),
        _ => (2, 0xFFFF),
    }
}
