//! A run beside the proofs: random lists of calls and events, on which the
//! compiled code must do what the theorems say.
//!
//! - [`two_runs`]: nothing of the recipes shows on the wire
//! - [`read_back`]: a recipe that was put comes back
//!
//! A list is made from its seed with the model alone, before the device under
//! test runs any of it.

mod item;
mod items;
pub mod read_back;
pub mod two_runs;
mod world;

pub use item::{CallItem, Item, Junk};
pub use world::{Outline, World};

/// A list on which a device did not do what a theorem says.
#[derive(Debug)]
pub struct Broken {
    pub seed: u64,
    pub what: String,
    pub list: Vec<String>,
}

impl std::fmt::Display for Broken {
    fn fmt(&self, f: &mut std::fmt::Formatter) -> std::fmt::Result {
        writeln!(f, "seed {}: {}", self.seed, self.what)?;
        for (i, item) in self.list.iter().enumerate() {
            writeln!(f, "  {i}: {item}")?;
        }
        Ok(())
    }
}

/// Counts and what they are of, for a line about a run.
pub fn count_line(counts: &[(&str, u64)]) -> String {
    let parts: Vec<String> = counts
        .iter()
        .map(|(name, count)| format!("{count} {name}"))
        .collect();
    parts.join(", ")
}
