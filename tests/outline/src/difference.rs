//! The first place where an output is not the reference's.

use std::fmt;

use crate::rules::{self, RULES};

/// The first line of an output that is not what it must be.
#[derive(Clone, Debug, PartialEq, Eq)]
pub struct Difference {
    /// The line of the input that it belongs to, with its number; None behind
    /// the last.
    pub input: Option<(usize, String)>,
    /// The number of the output's line.
    pub number: usize,
    /// None where there is no such line.
    pub expected: Option<String>,
    pub found: Option<String>,
}

/// The first line where an output differs from the reference's on this input.
pub fn difference(input: &[u8], found: &[u8]) -> Option<Difference> {
    let printed = crate::printed_by_line(&RULES, input);
    let expected = printed.concat();
    if found == expected.as_bytes() {
        return None;
    }
    let mut expected_lines = expected.as_bytes().split_inclusive(|&byte| byte == b'\n');
    let mut found_lines = found.split_inclusive(|&byte| byte == b'\n');
    for number in 1.. {
        let (expected, found) = (expected_lines.next(), found_lines.next());
        if expected != found {
            return Some(Difference {
                input: input_line(input, &printed, number),
                number,
                expected: expected.map(shown),
                found: found.map(shown),
            });
        }
    }
    None
}

/// The line of the input on which this line of the output is printed.
fn input_line(input: &[u8], printed: &[String], output_line: usize) -> Option<(usize, String)> {
    let mut so_far = 0;
    let at = printed.iter().position(|text| {
        so_far += text.lines().count();
        so_far >= output_line
    })?;
    Some((at + 1, shown(rules::lines(input)[at])))
}

/// Bytes as text, cut where they are many.
fn shown(bytes: &[u8]) -> String {
    let text = bytes.escape_ascii().to_string();
    match text.get(..200) {
        Some(start) if text.len() > 200 => format!("{start}... ({} bytes)", bytes.len()),
        _ => text,
    }
}

impl fmt::Display for Difference {
    fn fmt(&self, f: &mut fmt::Formatter) -> fmt::Result {
        let text = |line: &Option<String>| line.clone().unwrap_or("nothing".into());
        writeln!(f, "line {} of the output differs", self.number)?;
        match &self.input {
            Some((number, line)) => writeln!(f, "  on line {number}: {line}")?,
            None => writeln!(f, "  behind the last line of the input")?,
        }
        writeln!(f, "  expected: {}", text(&self.expected))?;
        write!(f, "  found:    {}", text(&self.found))
    }
}
