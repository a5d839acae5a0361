//! Inputs that are stored, with what must be printed on them.

use std::path::{Path, PathBuf};

/// An input and what must be printed on it.
pub struct Stored {
    pub name: &'static str,
    input: &'static str,
    output: &'static str,
}

const fn stored(name: &'static str, input: &'static str, output: &'static str) -> Stored {
    Stored {
        name,
        input,
        output,
    }
}

/// The run that is stored beside the program's source.
pub const RUN: Stored = stored(
    "the stored run",
    "crates/outline/stdin",
    "crates/outline/stdout",
);

/// The example of README: a slot is wiped.
pub const WIPE: Stored = stored("wipe 2", "tests/outline/wipe.in", "tests/outline/wipe.out");

/// Calls on parts of 256-byte pages.
pub const PAGES_256: Stored = stored(
    "pages of 256 bytes",
    "tests/outline/pages256.in",
    "tests/outline/pages256.out",
);

/// Terms and dates: what is read of them, and 14 and 15.
pub const TERMS: Stored = stored(
    "terms and dates",
    "tests/outline/terms.in",
    "tests/outline/terms.out",
);

/// The compares after programming: their frames, their room in the log, late busy
/// ends and cuts behind them, a compare bit that was set before.
pub const COMPARES: Stored = stored(
    "compares",
    "tests/outline/compares.in",
    "tests/outline/compares.out",
);

/// The two examples of `make run`, whose outlines are one.
pub const SHORT: Stored = example("the short recipe", "examples/outline/short.txt");
pub const LONG: Stored = example("the long recipe", "examples/outline/long.txt");

const fn example(name: &'static str, input: &'static str) -> Stored {
    stored(name, input, "examples/outline/outline.txt")
}

pub const ALL: [Stored; 7] = [RUN, WIPE, PAGES_256, TERMS, COMPARES, SHORT, LONG];

impl Stored {
    pub fn input(&self) -> Vec<u8> {
        read(self.input)
    }

    pub fn output(&self) -> Vec<u8> {
        read(self.output)
    }
}

/// A place in the repository.
pub fn in_repository(path: &str) -> PathBuf {
    let mut above = Path::new(env!("CARGO_MANIFEST_DIR")).ancestors();
    above.nth(2).expect("the repository").join(path)
}

fn read(path: &str) -> Vec<u8> {
    std::fs::read(in_repository(path)).unwrap_or_else(|error| panic!("{path}: {error}"))
}
