//! What the gate asks of the repository's files before it proves anything:
//!
//! - every function that is open to others promises something of its result
//!   and requires nothing ([`contracts`]);
//! - crates.txt and the folders under crates/ go together ([`folders`]);
//! - the environment's variables that the Rust tests read are among those that
//!   the gate clears ([`variables`]).

pub mod contracts;
pub mod files;
pub mod folders;
pub mod variables;
