//! A difference between the two devices, and how it is told.

use std::fmt;

use at45db081d_model::record::field;
use at45db081d_model::RECORD_LEN;

use crate::side::GUARD;

/// A difference between the two devices, with the steps before it.
#[derive(Debug)]
pub struct Mismatch {
    pub step: u64,
    pub what: String,
    pub last_steps: Vec<String>,
}

impl fmt::Display for Mismatch {
    fn fmt(&self, f: &mut fmt::Formatter) -> fmt::Result {
        writeln!(f, "step {}: {}", self.step, self.what)?;
        writeln!(f, "last steps:")?;
        for step in &self.last_steps {
            writeln!(f, "  {step}")?;
        }
        Ok(())
    }
}

/// The first difference between two lent pieces with their guards, if any.
pub fn difference(name: &str, model: &[u8], subject: &[u8]) -> Option<String> {
    if model == subject {
        return None;
    }
    let at = (0..model.len()).find(|&i| model[i] != subject[i])?;
    let place = match at.checked_sub(GUARD) {
        Some(index) => format!("{name} byte {index}{}", field_name(name, index)),
        None => format!("guard before the {name}"),
    };
    let (model, subject) = (model[at], subject[at]);
    Some(format!("{place}: model {model:02X}, device {subject:02X}"))
}

/// The name of the record's field that holds a byte.
fn field_name(name: &str, index: usize) -> &'static str {
    if name != "record" {
        return "";
    }
    let fields = [
        (field::PROTECTION.end, " (protection)"),
        (field::LOCKDOWN.end, " (lockdown)"),
        (field::USER.end, " (user bytes)"),
        (field::FACTORY.end, " (factory bytes)"),
        (field::PROTECTION_ENABLED, " (used)"),
        (field::WP_HIGH, " (protect mark)"),
        (field::DEEP_POWER_DOWN, " (WP)"),
        (field::TAG, " (deep)"),
        (field::BUFFER, " (operation tag)"),
        (field::NUMBER.start, " (operation's buffer)"),
        (field::SECTORS.start, " (operation's number)"),
        (field::DATA.start, " (operation's sectors)"),
        (field::DATA.end, " (operation's data)"),
        (field::BUFFER_1.end, " (buffer 1)"),
        (field::BUFFER_2.end, " (buffer 2)"),
        (RECORD_LEN, " (compare bit)"),
    ];
    fields
        .iter()
        .find(|(end, _)| index < *end)
        .map_or(" (guard behind it)", |(_, name)| name)
}
