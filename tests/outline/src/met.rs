//! Which messages and answers an output has.

use std::collections::BTreeSet;

/// Every message about a line, behind its number.
pub const MESSAGES: [&str; 48] = [
    "longer than 8192 characters",
    "no command",
    "unknown command",
    "too many words",
    "S is missing",
    "PLACE is missing",
    "HEX is missing",
    "SEED is missing",
    "level is missing",
    "part is missing",
    "S is not a number",
    "PLACE is not a number",
    "SEED is not a number",
    "S is too large",
    "PLACE is too large",
    "SEED is too large",
    "HEX has an odd number of digits",
    "HEX has a character that is not a hexadecimal digit",
    "level is not 0 or 1",
    "part is not 128, 4096, 128x256 or 4096x256",
    "unknown option",
    "option given twice",
    "b is not a number",
    "b is too large",
    "script has an odd number of digits",
    "script has a character that is not a hexadecimal digit",
    "junk is not a number",
    "junk is too large",
    "junklen is not a number",
    "junklen is too large",
    "junklen is over 1114112",
    "log is not a number",
    "log is too large",
    "log is over 102204",
    "buffer is not a number",
    "buffer is too large",
    "buffer is over 65536",
    "reply is not a number",
    "reply is too large",
    "reply is over 65536",
    "first is not a date",
    "first is too large",
    "first is missing",
    "last is not a date",
    "last is too large",
    "last is missing",
    "today is not a date",
    "today is too large",
];

/// The answers that lines can meet: all but 1, since the array is always a
/// part's and a fresh part has no operation under way, and 16, since the chip
/// never miscompares.
pub const ANSWERS: [&str; 15] = [
    "0", "2", "3", "4", "5", "6", "7", "8", "9", "10", "11", "12", "13", "14", "15",
];

/// Messages and answers of some outputs.
#[derive(Clone, Debug, Default, PartialEq, Eq)]
pub struct Met {
    pub messages: BTreeSet<String>,
    pub answers: BTreeSet<String>,
}

impl Met {
    /// Every message and every answer.
    pub fn all() -> Met {
        Met {
            messages: MESSAGES.map(String::from).into(),
            answers: ANSWERS.map(String::from).into(),
        }
    }

    pub fn add(&mut self, output: &[u8]) {
        for line in String::from_utf8_lossy(output).lines() {
            if let Some((_, message)) = line.split_once(": ") {
                self.messages.insert(message.into());
            } else if let Some((_, answer)) = line.rsplit_once("answer ") {
                self.answers.insert(answer.into());
            }
        }
    }
}
