//! The number of a rule.

use std::fmt;

/// Section and item, both from 1 on: `5.3`.
#[derive(Clone, Copy, Debug, PartialEq, Eq, PartialOrd, Ord)]
pub struct Number {
    pub section: u32,
    pub item: u32,
}

impl Number {
    /// The number that the text is, if it is one.
    pub fn read(text: &str) -> Option<Number> {
        let (section, item) = text.split_once('.')?;
        Some(Number {
            section: positive(section)?,
            item: positive(item)?,
        })
    }

    /// Whether a rule of this number may come after one of that number.
    pub fn follows(self, last: Number) -> bool {
        let same = self.section == last.section && self.item == last.item + 1;
        let next = self.section == last.section + 1 && self.item == 1;
        same || next
    }
}

impl fmt::Display for Number {
    fn fmt(&self, f: &mut fmt::Formatter) -> fmt::Result {
        write!(f, "{}.{}", self.section, self.item)
    }
}

/// Digits without a sign or leading zeros.
fn positive(text: &str) -> Option<u32> {
    if text.starts_with('0') || !text.bytes().all(|it| it.is_ascii_digit()) {
        return None;
    }
    text.parse().ok()
}
