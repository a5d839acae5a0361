use std::fmt;

use crate::ffi::driver;
use crate::{Error, Part};

/// A day of the Gregorian calendar, from 1 January 2000 to 31 December 2199.
///
/// ```
/// use slipknoll::{Date, Error};
///
/// let day = Date::new(2096, 2, 29)?;
/// assert_eq!(day.to_string(), "2096-02-29");
/// assert!(day < Date::new(2096, 3, 1)?);
/// assert_eq!(Date::new(2100, 2, 29), Err(Error::Dates));
/// # Ok::<(), slipknoll::Error>(())
/// ```
#[derive(Clone, Copy, Debug, PartialEq, Eq, PartialOrd, Ord, Hash)]
pub struct Date {
    year: u32,
    month: u32,
    day: u32,
}

impl Date {
    /// A date; the library decides whether there is one.
    ///
    /// Errors: `Dates`, for a date that does not exist or that lies before 2000
    /// or after 2199.
    pub fn new(year: u32, month: u32, day: u32) -> Result<Date, Error> {
        let today = [year, month, day];
        let mut state = [0; driver::STATE_LEN];
        let (array_len, room) = (Part::Full.array_len(), Part::Full.recipe_max());
        // A get of a slot that there is, of which no frame is sent.
        driver::start_get(&mut state, array_len, 0, 1, today, room);
        match driver::answer(&state) {
            None => Ok(Date { year, month, day }),
            Some(_) => Err(Error::Dates),
        }
    }

    /// The year, 2000 to 2199.
    pub fn year(self) -> u32 {
        self.year
    }

    /// The month, 1 to 12.
    pub fn month(self) -> u32 {
        self.month
    }

    /// The day of the month, from 1 on.
    pub fn day(self) -> u32 {
        self.day
    }

    /// Year, month and day, as the calls with `ymd` in their names take them.
    pub fn ymd(self) -> [u32; 3] {
        [self.year, self.month, self.day]
    }
}

impl fmt::Display for Date {
    fn fmt(&self, f: &mut fmt::Formatter) -> fmt::Result {
        write!(f, "{}-{:02}-{:02}", self.year, self.month, self.day)
    }
}

/// The days on which a recipe may be read: from the first to the last, both
/// inside.
///
/// ```
/// use slipknoll::{Date, Error, Term};
///
/// let (may, october) = (Date::new(2027, 5, 1)?, Date::new(2027, 10, 31)?);
/// let season = Term::new(may, october)?;
/// assert_eq!((season.first(), season.last()), (may, october));
/// assert_eq!(Term::new(october, may), Err(Error::Dates));
/// # Ok::<(), slipknoll::Error>(())
/// ```
#[derive(Clone, Copy, Debug, PartialEq, Eq, Hash)]
pub struct Term {
    first: Date,
    last: Date,
}

impl Term {
    /// A term. Both days may be the same.
    ///
    /// Errors: `Dates`, for a first day after the last.
    pub fn new(first: Date, last: Date) -> Result<Term, Error> {
        if first > last {
            return Err(Error::Dates);
        }
        Ok(Term { first, last })
    }

    /// The first day.
    pub fn first(self) -> Date {
        self.first
    }

    /// The last day.
    pub fn last(self) -> Date {
        self.last
    }

    /// Year, month and day of the first and of the last day.
    pub fn ymd(self) -> [[u32; 3]; 2] {
        [self.first.ymd(), self.last.ymd()]
    }
}
