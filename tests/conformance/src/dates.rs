//! Dates and terms for cases: days that terms often begin and end on, days near
//! them, and dates that are none.

use at45db081d_model::{Date, Term};

use crate::rng::Rng;

/// The number of the last day, 31 December 2199.
pub const LAST: u32 = 73_048;

/// Days that many terms and gets are near: the first and the last, around the leap
/// days that are there and the one of 2100 that is not, and one of no meaning.
const ANCHORS: [u32; 6] = [0, 59, 9_816, 35_123, 36_583, LAST];

/// Days that a slot may hold though no put writes them.
const STRANGE: [u32; 7] = [
    LAST + 1,
    0xFFFF,
    0x1_0000,
    0x7FFF_FFFF,
    0x8000_0000,
    u32::MAX - 1,
    u32::MAX,
];

/// The date with this number, if it is not after the last.
pub fn of(number: u32) -> Option<Date> {
    if number > LAST {
        return None;
    }
    let begins = |year: u32, month: u32| Date::new(year, month, 1).number();
    let year = (2000..=2199).rfind(|&it| begins(it, 1) <= Some(number))?;
    let month = (1..=12).rfind(|&it| begins(year, it) <= Some(number))?;
    Some(Date::new(year, month, 1 + number - begins(year, month)?))
}

/// The date whose number is as near to this as there is one.
pub fn nearest(number: i64) -> Date {
    let number = number.clamp(0, i64::from(LAST)) as u32;
    of(number).expect("a number of the calendar")
}

/// A day's number: near an anchor, or any.
pub fn number(rng: &mut Rng) -> u32 {
    match rng.below(8) {
        0 => rng.below(LAST as usize + 1) as u32,
        _ => {
            let near = i64::from(rng.pick(&ANCHORS)) + rng.below(7) as i64 - 3;
            near.clamp(0, i64::from(LAST)) as u32
        }
    }
}

/// A date that there is.
pub fn date(rng: &mut Rng) -> Date {
    nearest(i64::from(number(rng)))
}

/// A date that there is, or rarely one that there is not.
pub fn any_date(rng: &mut Rng, rarity: usize) -> Date {
    match rng.one_in(rarity) {
        true => no_date(rng),
        false => date(rng),
    }
}

/// A date that there is not: of a month that is shorter, beside the calendar, or
/// with a number of no meaning.
pub fn no_date(rng: &mut Rng) -> Date {
    let mut date = date(rng);
    let huge = rng.pick(&[33, 255, 256, 65_536, 0x7FFF_FFFF, 0x8000_0000, u32::MAX]);
    match rng.below(9) {
        0 => (date.month, date.day) = (2, 30),
        1 => (date.year, date.month, date.day) = (rng.pick(&[2001, 2099, 2100, 2199]), 2, 29),
        2 => (date.month, date.day) = (rng.pick(&[4, 6, 9, 11]), 31),
        3 => date.month = rng.pick(&[0, 13, huge]),
        4 => date.day = rng.pick(&[0, 32, huge]),
        5 => date.year = rng.pick(&[0, 1, 1900, 1999, 2200, 2400, u32::MAX - 47, u32::MAX]),
        6 => (date.year, date.month, date.day) = rng.pick(&[(1999, 12, 31), (2200, 1, 1)]),
        7 => (date.year, date.month, date.day) = (huge, huge, huge),
        _ => (date.year, date.month, date.day) = (0, 0, 0),
    }
    assert_eq!(date.number(), None);
    date
}

/// A term that there is: often of few days.
pub fn term(rng: &mut Rng) -> Term {
    let first = number(rng);
    let last = match rng.below(3) {
        0 => first + rng.below(3) as u32,
        _ => number(rng),
    };
    let (first, last) = (first.min(last), first.max(last).min(LAST));
    Term::new(nearest(first.into()), nearest(last.into()))
}

/// A term that is refused: one of its dates is none, or both, or they are the wrong
/// way round.
pub fn no_term(rng: &mut Rng) -> Term {
    let mut term = term(rng);
    match rng.below(4) {
        0 => term.first = no_date(rng),
        1 => term.last = no_date(rng),
        2 => term = Term::new(no_date(rng), no_date(rng)),
        _ => {
            let first = 1 + rng.below(LAST as usize) as u32;
            let last = match rng.one_in(2) {
                true => first - 1,
                false => rng.below(first as usize) as u32,
            };
            term = Term::new(nearest(first.into()), nearest(last.into()));
        }
    }
    assert_eq!(term.days(), None);
    term
}

/// Mostly a term that there is or none at all, rarely one that is refused.
pub fn any_term(rng: &mut Rng, rarity: usize) -> Option<Term> {
    match (rng.one_in(rarity), rng.one_in(2)) {
        (true, _) => Some(no_term(rng)),
        (false, true) => Some(term(rng)),
        (false, false) => None,
    }
}

/// Days that a slot holds: those of a term, or any numbers in any order.
pub fn stored(rng: &mut Rng) -> [u32; 2] {
    match rng.below(4) {
        0 => [(); 2].map(|()| stored_day(rng)),
        _ => term(rng).days().expect("a term"),
    }
}

fn stored_day(rng: &mut Rng) -> u32 {
    match rng.below(4) {
        0 => rng.next_u64() as u32,
        1 => number(rng),
        _ => rng.pick(&STRANGE),
    }
}

/// A day at the edges of a term: the one before, its first, one between, its last,
/// the one after.
pub fn around(rng: &mut Rng, [first, last]: [u32; 2]) -> Date {
    let (first, last) = (i64::from(first), i64::from(last));
    let between = first + rng.below(1 + (last - first).max(0) as usize) as i64;
    nearest(rng.pick(&[first - 1, first, between, last, last + 1]))
}
