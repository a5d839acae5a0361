//! The library from Python's ctypes: the example in `include/slipknoll.h` as it
//! stands there, and `tests/c/parts.py` on every part.

use std::fs;
use std::path::{Path, PathBuf};
use std::process::Command;

use c_tests::examples;

fn in_repository(path: &str) -> PathBuf {
    Path::new(env!("CARGO_MANIFEST_DIR"))
        .join("../..")
        .join(path)
}

/// The header's command for a shared object, and its program.
fn example() -> [String; 2] {
    let header = fs::read_to_string(in_repository("include/slipknoll.h")).expect("the header");
    let examples = examples(&header, "Python: make a shared object");
    <[String; 2]>::try_from(examples).expect("a command and a program")
}

/// What a program prints beside the shared object, in a directory of this name.
fn printed(name: &str, program: &str) -> String {
    let directory = Path::new(env!("CARGO_TARGET_TMPDIR")).join(name);
    fs::create_dir_all(&directory).expect("a directory");
    let archive = in_repository("target/staticlib/libslipknoll.a");
    fs::copy(archive, directory.join("libslipknoll.a")).expect("the archive");
    let [command, _] = example();
    let mut shell = Command::new("sh");
    let made = shell
        .args(["-c", &command])
        .current_dir(&directory)
        .status();
    assert!(made.expect("a shell").success(), "{command}");

    let mut python = Command::new("python3");
    let run = python.args(["-c", program]).current_dir(&directory);
    let output = run.output().expect("python3 runs");
    let said = String::from_utf8_lossy(&output.stderr);
    assert!(output.status.success(), "{said}");
    String::from_utf8_lossy(&output.stdout).into_owned()
}

#[test]
fn the_example_prints_the_status() {
    let [_, program] = example();
    // Fresh chips are ready: A4h, and with 256-byte pages A5h.
    assert_eq!(printed("python", &program), "A4\nA5\n");
}

/// Put and get refuse what is over 2,109 or 2,045 with 5, a put with a term what is
/// over eight bytes less; gets outside the term answer 15, on a day that there is
/// not 14; and a cut meets junk of the other page size with 7.
const EVERY_PART: &str = "\
4096 264 A4 5 0 5 True True 5 0 15 0 0 15 14 True 7 0
4096 256 A5 5 0 5 True True 5 0 15 0 0 15 14 True 7 0
128 264 A4 5 0 5 True True 5 0 15 0 0 15 14 True 7 0
128 256 A5 5 0 5 True True 5 0 15 0 0 15 14 True 7 0
";

#[test]
fn calls_on_every_part() {
    let program = fs::read_to_string(in_repository("tests/c/parts.py")).expect("the program");
    assert_eq!(printed("python-parts", &program), EVERY_PART);
}

#[test]
fn examples_are_found() {
    let header = " * Here:\n *     not this\n * Python: so,\n *\n *     one\n *       two\n *\n *     three\n */\n *     four\n";
    assert_eq!(examples(header, "Python: so"), ["one\n  two\n", "three\n"]);
}
