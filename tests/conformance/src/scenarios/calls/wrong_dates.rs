//! Every day, real or not, of the months of some years, and dates of any three
//! numbers: as today's, and as first and last day.

use at45db081d_model::record::tag;
use at45db081d_model::{Date, Part, Term};

use super::{load, open_record, slot, store_head};
use crate::dates;
use crate::mismatch::Mismatch;
use crate::pair::Pair;
use crate::request::{CallStep, Request};
use crate::rng::{Digits, Rng};
use crate::runner::Scenario;

pub const WRONG_DATES: Scenario = Scenario {
    name: "dates_that_are_and_that_are_not",
    test: "calls",
    cases,
    run,
};

const YEARS: [u32; 11] = [
    1999, 2000, 2001, 2004, 2096, 2099, 2100, 2101, 2104, 2199, 2200,
];

/// Months 0 to 13 and days 0 to 32.
const MONTHS: usize = 14;
const DAYS: usize = 33;

const GRID: usize = YEARS.len() * MONTHS * DAYS;

/// Dates of any numbers.
const ANY: usize = 1500;

fn cases(_: Part) -> u64 {
    (GRID + ANY) as u64
}

fn run(pair: &mut Pair, case: u64) -> Result<(), Mismatch> {
    let (part, mut rng) = (pair.part, Rng::new(case));
    let date = match case < GRID as u64 {
        true => grid(Digits::new(case)),
        false => any(&mut rng),
    };
    let slot = slot(&mut rng, part);
    let version = rng.pick(&[0, 1, 2]);
    store_head(pair, slot, version, 5, [0, dates::LAST])?;
    load(pair, open_record(&mut rng, part, (tag::IDLE, 0)))?;

    let get = Request::get(slot, 1, date, part.max_recipe());
    let today = pair.call(CallStep::new(part, get))?;
    let other = dates::date(&mut rng);
    let mut refused = vec![today];
    for (first, last) in [(date, date), (date, other), (other, date)] {
        let put = Request::put(slot, 1, Some(Term::new(first, last)), vec![7; 3]);
        refused.push(pair.call(CallStep::new(part, put))?);
    }
    refused.retain(|outcome| outcome.answer == 14);
    assert!(refused.iter().all(|outcome| outcome.frames == 0));
    let wrong = [0, 13].contains(&date.month)
        || date.day == 0
        || date.day > 31
        || !(2000..=2199).contains(&date.year);
    if wrong {
        assert_eq!(refused.len(), 4, "{date:?}");
    }
    if date.month == 1 && !wrong {
        assert!(refused.len() <= 1, "{date:?}");
    }
    Ok(())
}

fn grid(mut digits: Digits) -> Date {
    let (month, day) = (digits.below(MONTHS), digits.below(DAYS));
    Date::new(digits.pick(&YEARS), month as u32, day as u32)
}

/// Any numbers, some of them small.
fn any(rng: &mut Rng) -> Date {
    let mut number = |small: u32, bound: usize| match rng.below(4) {
        0 => rng.next_u64() as u32,
        1 => rng.pick(&[0, 0x7FFF_FFFF, 0x8000_0000, u32::MAX]),
        2 => rng.pick(&[0x100, 0x1_0000, 0x8000_0000]) + small + rng.below(bound) as u32,
        _ => small + rng.below(bound) as u32,
    };
    Date::new(number(2000, 200), number(1, 12), number(1, 28))
}
