//! The Gregorian calendar of 2000 to 2199, and terms.

/// The years whose dates are known, 2000 to 2199 (15.3).
const FIRST_YEAR: u32 = 2000;
const YEARS: usize = 200;

/// The number of the first day of each, year after year.
const NEW_YEARS: [u32; YEARS] = new_years();

/// A date as a caller gives it: any three numbers.
#[derive(Clone, Copy, Debug, PartialEq, Eq)]
pub struct Date {
    pub year: u32,
    pub month: u32,
    pub day: u32,
}

impl Date {
    pub const fn new(year: u32, month: u32, day: u32) -> Date {
        Date { year, month, day }
    }

    /// The day's number, 1 January 2000 being 0 (15.4); None if there is no such
    /// date, or it lies before 2000 or after 2199 (15.3).
    pub fn number(self) -> Option<u32> {
        let Date { year, month, day } = self;
        let new_year = NEW_YEARS.get(year.checked_sub(FIRST_YEAR)? as usize)?;
        let exists = (1..=12).contains(&month) && (1..=days_of_month(year, month)).contains(&day);
        if !exists {
            return None;
        }
        let months: u32 = (1..month).map(|month| days_of_month(year, month)).sum();
        Some(new_year + months + day - 1)
    }
}

/// Every fourth year has a day more, the hundredth ones only if they are four
/// hundredth ones (15.1).
const fn is_leap(year: u32) -> bool {
    match (year % 400, year % 100, year % 4) {
        (0, _, _) => true,
        (_, 0, _) => false,
        (_, _, rest) => rest == 0,
    }
}

const fn new_years() -> [u32; YEARS] {
    let mut days = [0; YEARS];
    let mut i = 1;
    while i < YEARS {
        let before = FIRST_YEAR + i as u32 - 1;
        days[i] = days[i - 1] + if is_leap(before) { 366 } else { 365 };
        i += 1;
    }
    days
}

/// The days of a month, 1 to 12 (15.2).
fn days_of_month(year: u32, month: u32) -> u32 {
    match month {
        2 => 28 + u32::from(is_leap(year)),
        4 | 6 | 9 | 11 => 30,
        _ => 31,
    }
}

/// The days on which a recipe may be read, both inside.
#[derive(Clone, Copy, Debug, PartialEq, Eq)]
pub struct Term {
    pub first: Date,
    pub last: Date,
}

impl Term {
    pub const fn new(first: Date, last: Date) -> Term {
        Term { first, last }
    }

    /// The numbers of both days; None if one of them has none, or the first is
    /// after the last (15.5).
    pub fn days(self) -> Option<[u32; 2]> {
        let (first, last) = (self.first.number()?, self.last.number()?);
        (first <= last).then(|| [first, last])
    }
}
