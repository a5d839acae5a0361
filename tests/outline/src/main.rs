//! The reference as a program: `cargo run -p outline-tests < input`.

use std::io::{self, Read, Write};

fn main() -> io::Result<()> {
    let mut input = Vec::new();
    io::stdin().read_to_end(&mut input)?;
    io::stdout().write_all(&outline_tests::run(&input))
}
