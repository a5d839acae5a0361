//! A reference of the program `outline` over the second model, and what its
//! comparison with the proved program needs.
//!
//! - [`order`]: what a line says, or what is wrong with it
//! - [`session`]: the chip, what is done to it line by line, and what is printed
//! - [`rules`]: what a wrong version of the reference has otherwise
//! - [`crc`]: the CRC-32 that sum prints
//! - [`inputs`]: random inputs
//! - [`pairs`]: pairs of inputs that differ in everything secret
//! - [`stored`]: inputs that are stored, with what must be printed on them
//! - [`met`]: which messages and answers an output has
//! - [`difference`]: the first place where an output is not the reference's
//! - [`trial`]: a program run with its input and output as a test has them
//! - [`system`]: pipes and signals

pub mod crc;
pub mod difference;
pub mod inputs;
pub mod met;
pub mod order;
pub mod pairs;
pub mod rules;
pub mod session;
pub mod stored;
pub mod system;
pub mod trial;

pub use difference::{difference, Difference};
pub use rules::{Rules, RULES};
pub use session::Session;

/// What `outline` prints on this input.
pub fn run(input: &[u8]) -> Vec<u8> {
    run_by(&RULES, input)
}

/// What a reference with other rules prints.
pub fn run_by(rules: &Rules, input: &[u8]) -> Vec<u8> {
    printed_by_line(rules, input).concat().into_bytes()
}

/// What is printed on each line of the input.
pub fn printed_by_line(rules: &Rules, input: &[u8]) -> Vec<String> {
    let mut session = Session::new(rules);
    let lines = (rules.lines)(input);
    let numbered = lines.iter().zip(1..);
    numbered
        .map(|(line, number)| session.line(number, line))
        .collect()
}
