//! Recipes put with terms around the days that matter, patched or not, and read on
//! the days around these terms.

use at45db081d_model::record::tag;
use at45db081d_model::{Part, Term};

use super::{load, open_record, random_bytes, slot};
use crate::dates;
use crate::mismatch::Mismatch;
use crate::pair::Pair;
use crate::request::{CallStep, Request};
use crate::rng::{Digits, Rng};
use crate::runner::Scenario;

pub const TERMS: Scenario = Scenario {
    name: "terms_and_the_days_around_them",
    test: "calls",
    cases,
    run,
};

/// First and last day: at the edges of the calendar, of a year, of February in 2000,
/// 2096 and 2100.
const DAYS: [[u32; 2]; 15] = [
    [0, 0],
    [0, 1],
    [0, 73_048],
    [1, 1],
    [58, 60],
    [59, 59],
    [60, 60],
    [365, 366],
    [9_816, 36_600],
    [35_123, 35_123],
    [36_583, 36_583],
    [36_583, 36_584],
    [36_584, 36_584],
    [73_047, 73_048],
    [73_048, 73_048],
];

/// Lengths of recipes: around the end of the first page and of the slot.
const LENGTHS: usize = 8;

/// Days on which it is read: from the one before the first to the one after the
/// last, and any.
const TODAYS: usize = 7;

/// No patch, one of the first byte, one of the last, one behind it.
const PATCHES: usize = 4;

fn cases(_: Part) -> u64 {
    (DAYS.len() * LENGTHS * TODAYS * PATCHES) as u64
}

fn run(pair: &mut Pair, case: u64) -> Result<(), Mismatch> {
    let (part, mut digits, mut rng) = (pair.part, Digits::new(case), Rng::new(case));
    let [first, last] = digits.pick(&DAYS);
    let len = length(digits.below(LENGTHS), part);
    let today = today(&mut rng, digits.below(TODAYS), first, last);
    let patch = digits.below(PATCHES);
    let slot = slot(&mut rng, part);
    load(pair, open_record(&mut rng, part, (tag::IDLE, 0)))?;

    let [from, to] = [first, last].map(|day| dates::of(day).expect("a day"));
    let term = Some(Term::new(from, to));
    let put = Request::put(slot, 1, term, random_bytes(&mut rng, len));
    let answer = pair.call(CallStep::new(part, put))?.answer;
    let fits = len <= part.page_size * 8 - 11;
    assert_eq!(answer, if fits { 0 } else { 5 }, "a put of {len} bytes");
    if let Some(place) = [0, len.saturating_sub(1), len].get(patch.wrapping_sub(1)) {
        let patch = Request::patch(slot, 1, *place, vec![rng.byte()]);
        pair.call(CallStep::new(part, patch))?;
    }
    let date = dates::of(today).expect("a day");
    let get = Request::get(slot, 1, date, part.max_recipe());
    let answer = pair.call(CallStep::new(part, get))?.answer;
    if fits {
        let inside = first <= today && today <= last;
        assert_eq!(answer == 0, inside, "{today} in {first} to {last}");
        assert_eq!(answer == 15, !inside, "{today} in {first} to {last}");
    }
    Ok(())
}

fn length(index: usize, part: Part) -> usize {
    let (page, most) = (part.page_size, part.max_term_recipe());
    let lengths = [
        0,
        1,
        page - 12,
        page - 11,
        page - 10,
        most - 1,
        most,
        most + 1,
    ];
    lengths[index]
}

/// A day of the calendar; where there is none before or after the term, its own.
fn today(rng: &mut Rng, index: usize, first: u32, last: u32) -> u32 {
    match index {
        0 => first.saturating_sub(1),
        1 => first,
        2 => (first + 1).min(dates::LAST),
        3 => last.saturating_sub(1),
        4 => last,
        5 => (last + 1).min(dates::LAST),
        _ => dates::number(rng),
    }
}
