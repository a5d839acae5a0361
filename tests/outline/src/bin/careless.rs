//! The reference as a careless hand reads and writes: each read is taken for
//! whole lines and its failure for the end; what is printed is written once,
//! as much as one buffer holds, whatever comes of it. The tests of reading and
//! writing must notice.

use std::io::{self, Read, Write};

use outline_tests::system::output;

const BUFFER: usize = 65_536;

fn main() {
    let mut piece = vec![0; BUFFER];
    let mut printed = Vec::new();
    while let Ok(n @ 1..) = io::stdin().read(&mut piece) {
        printed.extend(outline_tests::run(&piece[..n]));
    }
    printed.truncate(BUFFER);
    output().write(&printed).ok();
}
