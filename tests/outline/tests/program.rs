//! The proved program against the reference, byte for byte.

use std::io::Write;
use std::path::Path;
use std::process::{Child, Command, Output, Stdio};
use std::{fs, io, thread};

use outline_tests::inputs::{input, INPUTS};
use outline_tests::stored::ALL;
use outline_tests::trial::program;
use outline_tests::{difference, pairs};

/// What the program prints on an input, which it is given piece by piece.
fn printed(input: &[u8]) -> Vec<u8> {
    let child = Command::new(program())
        .stdin(Stdio::piped())
        .stdout(Stdio::piped())
        .spawn()
        .expect("the program runs");
    let output = feed(child, input).expect("the program's output");
    assert!(output.status.success(), "outline: {}", output.status);
    output.stdout
}

fn feed(mut child: Child, input: &[u8]) -> io::Result<Output> {
    let mut pipe = child.stdin.take().expect("a pipe");
    thread::scope(|scope| {
        scope.spawn(move || {
            let mut pieces = input.chunks(1 + input.len() % 4099);
            // A program that ends early shows in its output.
            pieces.try_for_each(|piece| pipe.write_all(piece)).ok();
        });
        child.wait_with_output()
    })
}

/// Runs the program; shows and stores an input on which it differs.
fn compare(name: &str, input: &[u8]) {
    if let Some(difference) = difference(input, &printed(input)) {
        let path = Path::new(env!("CARGO_TARGET_TMPDIR")).join("outline-input");
        fs::write(&path, input).expect("the input stored");
        panic!("{name} ({}): {difference}", path.display());
    }
}

#[test]
fn stored_inputs() {
    for stored in ALL {
        assert_eq!(printed(&stored.input()), stored.output(), "{}", stored.name);
        compare(stored.name, &stored.input());
    }
}

#[test]
fn random_inputs() {
    for seed in 0..INPUTS {
        compare(&format!("input {seed}"), &input(seed));
    }
}

/// Input of any length, in lines of any length.
#[test]
fn long_inputs() {
    let long_line = vec![b' '; 3_000_000];
    compare("a long line", &[&long_line[..], b"\nwipe 2\n"].concat());
    compare("a long rest", &[b"wipe 2\n", &long_line[..]].concat());
    compare("many lines", &b"\nwipe 16\n\0\n".repeat(30_000));
}

/// What a listener sees of a short recipe and of a long one is the same.
#[test]
fn outlines_are_alike() {
    let shown = pairs::check(printed).unwrap_or_else(|unlike| panic!("{unlike}"));
    assert!(shown.is_enough(), "{shown:?}");
}
