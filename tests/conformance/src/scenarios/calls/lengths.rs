//! Recipes of every length that matters, put over a slot that holds something
//! else, the same recipe or a part of it, and read back.

use at45db081d_model::record::{field, tag};
use at45db081d_model::slot::store;
use at45db081d_model::{Part, Term};

use super::{load, open_record, random_bytes, slot};
use crate::dates;
use crate::mismatch::Mismatch;
use crate::pair::Pair;
use crate::request::{CallStep, Request};
use crate::rng::{Digits, Rng};
use crate::runner::Scenario;
use crate::step::Step;

pub const LENGTHS: Scenario = Scenario {
    name: "recipes_of_every_length",
    test: "calls",
    cases,
    run,
};

/// Around the page boundaries and the limit of either page size, and around what
/// two bytes hold.
const RECIPES: [usize; 58] = [
    0, 1, 2, 3, 100, 244, 245, 246, 250, 251, 252, 253, 254, 255, 256, 257, 258, 259, 260, 261,
    262, 263, 264, 265, 508, 509, 510, 524, 525, 526, 765, 789, 1021, 1053, 1317, 1581, 1789, 1845,
    1846, 2036, 2037, 2038, 2043, 2044, 2045, 2046, 2047, 2048, 2100, 2101, 2102, 2107, 2108, 2109,
    2110, 2112, 65_536, 65_541,
];

const BUFFERS: [usize; 8] = [0, 1, 2044, 2045, 2046, 2108, 2109, 2200];

/// What the slot holds before: random bytes, the record to come, that record
/// but for one byte, 00 or FFh throughout.
const BEFORE: usize = 5;

/// Whether the compare bit is set, the poll limit, and whether there is a term.
const MARKS: usize = 8;

fn cases(_: Part) -> u64 {
    (RECIPES.len() * BUFFERS.len() * BEFORE * MARKS) as u64
}

fn run(pair: &mut Pair, case: u64) -> Result<(), Mismatch> {
    let (part, mut digits, mut rng) = (pair.part, Digits::new(case), Rng::new(case));
    let recipe = recipe(&mut rng, digits.pick(&RECIPES));
    let buffer_len = digits.pick(&BUFFERS);
    let before = digits.below(BEFORE);
    let mut record = open_record(&mut rng, part, (tag::IDLE, 0));
    record[field::COMPARE] = u8::from(digits.flag());
    let limit = if digits.flag() { 1 } else { 3 };
    let term = digits.flag().then(|| dates::term(&mut rng));
    let days = term.and_then(Term::days);
    let slot = slot(&mut rng, part);
    if recipe.len() <= part.max_recipe_of(days.is_some()) {
        let bytes = held_before(&mut rng, part, before, &recipe, days);
        let at = slot * part.slot_size();
        pair.step(Step::Store { at, bytes })?;
    }
    load(pair, record)?;
    let put = Request::put(slot, limit, term, recipe);
    pair.call(CallStep::new(part, put))?;
    let today = match (days, rng.one_in(2)) {
        (Some(days), true) => dates::around(&mut rng, days),
        _ => dates::date(&mut rng),
    };
    let get = Request::get(slot, limit, today, buffer_len);
    pair.call(CallStep::new(part, get))?;
    Ok(())
}

/// Random bytes, or the same byte throughout.
fn recipe(rng: &mut Rng, len: usize) -> Vec<u8> {
    match rng.below(4) {
        0 => vec![rng.pick(&[0x00, 0xFF, 0x01]); len],
        _ => random_bytes(rng, len),
    }
}

fn held_before(
    rng: &mut Rng,
    part: Part,
    before: usize,
    recipe: &[u8],
    days: Option<[u32; 2]>,
) -> Vec<u8> {
    let mut bytes = vec![0; part.slot_size()];
    store(&mut bytes, recipe, days);
    match before {
        0 => rng.fill(&mut bytes),
        1 => {}
        2 => bytes[rng.below(part.slot_size())] ^= 1 << rng.below(8),
        3 => bytes.fill(0x00),
        _ => bytes.fill(0xFF),
    }
    bytes
}
