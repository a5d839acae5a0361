use std::fmt;

/// An answer other than 0, by its number and word in `docs/SPECIFICATION.md`
/// (12.1).
///
/// After 1 to 7 and 14 nothing was sent and nothing has changed. 8 to 13, 15 and
/// 16 end a call that was under way; what its frames have done stays.
///
/// ```
/// use slipknoll::Error;
///
/// assert_eq!(Error::Busy.number(), 9);
/// assert_eq!(Error::from_number(9), Some(Error::Busy));
/// assert_eq!(
///     Error::Busy.to_string(),
///     "busy (9): as many polls as the limit allows, and not ready"
/// );
/// ```
#[derive(Clone, Copy, Debug, PartialEq, Eq, Hash)]
#[repr(u8)]
pub enum Error {
    /// No part has an array of this length, or the part lacks what the
    /// operation under way names.
    Part = 1,
    /// The frame is empty or over 1,100 bytes, or the reply's length is another.
    Frame = 2,
    /// The part does not have this slot.
    Slot = 3,
    /// The poll limit is 0, or over 1,000.
    Limit = 4,
    /// A recipe of more than the part's longest, 2,109 or 2,045 bytes, with a
    /// term 2,101 or 2,037; a patch that ends behind 2,109 or 2,045, or a get
    /// buffer of less.
    Size = 5,
    /// Log shorter than the call's frames may need; see [`crate::log_len`].
    Log = 6,
    /// A script byte that is 3 or more; or a cut in it, and junk that has not
    /// the part's length.
    Script = 7,
    /// A status without 1001 in bits 5-2: no AT45DB081D, or a deep one.
    Chip = 8,
    /// As many polls as the limit allows, and not ready.
    Busy = 9,
    /// The slot's sector is locked or protected; nothing was written.
    Sealed = 10,
    /// The script cut the supply.
    Cut = 11,
    /// The slot holds no record: its first byte, the version, is neither 1 nor
    /// 2, or the length behind it is over that version's longest recipe.
    Blank = 12,
    /// The patch would end behind the recipe that is there.
    End = 13,
    /// A date that does not exist, or that lies before 2000 or after 2199, or a
    /// term whose first day is after its last. It comes after `Size` and before
    /// `Log`.
    Dates = 14,
    /// Today is outside the term in the slot.
    Term = 15,
    /// A page that a put or a patch programmed is not what was loaded for it, by
    /// the status after its compare. All pages were programmed. A chip that the
    /// program holds never miscompares: it is an answer of a
    /// [`Driver`](crate::Driver).
    Miscompare = 16,
}

/// Every error with its word and what it says, in the order of the numbers.
const TABLE: [(Error, &str, &str); 16] = [
    (
        Error::Part,
        "part",
        "array length or operation under way fits no part",
    ),
    (Error::Frame, "frame", "frame or reply length"),
    (Error::Slot, "slot", "no such slot"),
    (Error::Limit, "limit", "poll limit outside 1 to 1,000"),
    (
        Error::Size,
        "size",
        "recipe or patch too long, or get buffer too short",
    ),
    (Error::Log, "log", "log too short"),
    (
        Error::Script,
        "script",
        "script byte over 2, or junk length",
    ),
    (Error::Chip, "chip", "no AT45DB081D answers, or a deep one"),
    (
        Error::Busy,
        "busy",
        "as many polls as the limit allows, and not ready",
    ),
    (Error::Sealed, "sealed", "sector locked or protected"),
    (Error::Cut, "cut", "the script cut the supply"),
    (Error::Blank, "blank", "no recipe in the slot"),
    (Error::End, "end", "patch beyond the end of the recipe"),
    (
        Error::Dates,
        "dates",
        "no date of 2000 to 2199, or first day after the last",
    ),
    (Error::Term, "term", "today is outside the recipe's term"),
    (
        Error::Miscompare,
        "miscompare",
        "a page does not hold what was programmed",
    ),
];

impl Error {
    /// The error of an answer's number, if it is one of 1 to 16.
    pub fn from_number(number: u8) -> Option<Error> {
        let place = usize::from(number).checked_sub(1)?;
        TABLE.get(place).map(|(error, ..)| *error)
    }

    /// The answer's number.
    pub fn number(self) -> u8 {
        self as u8
    }

    /// The answer's word.
    pub fn word(self) -> &'static str {
        self.row().1
    }

    /// True for 1 to 7 and 14: nothing was sent and nothing has changed.
    pub fn is_refusal(self) -> bool {
        self.number() <= Error::Script.number() || self == Error::Dates
    }

    fn row(self) -> &'static (Error, &'static str, &'static str) {
        &TABLE[usize::from(self.number()) - 1]
    }
}

impl fmt::Display for Error {
    fn fmt(&self, f: &mut fmt::Formatter) -> fmt::Result {
        let (_, word, meaning) = self.row();
        write!(f, "{word} ({}): {meaning}", self.number())
    }
}

impl std::error::Error for Error {}

/// An answer as a result. The library answers with 0 to 16 alone.
pub(crate) fn accepted(answer: u8) -> Result<(), Error> {
    match answer {
        0 => Ok(()),
        _ => Err(Error::from_number(answer).expect("an answer of the table")),
    }
}

#[cfg(test)]
mod tests {
    use super::*;

    #[test]
    fn numbers_and_errors_go_both_ways() {
        for (i, (error, word, _)) in TABLE.into_iter().enumerate() {
            assert_eq!(usize::from(error.number()), i + 1);
            assert_eq!(Error::from_number(error.number()), Some(error));
            assert_eq!(format!("{error:?}").to_lowercase(), word);
            assert_eq!(error.is_refusal(), i < 7 || i + 1 == 14);
        }
        assert_eq!(Error::from_number(0), None);
        assert_eq!(Error::from_number(17), None);
    }
}
