//! Outlines that were lost do not pass as alike: by `scripts/compare`, and by
//! the lines of shell in `docs/OUTLINE.md`.

use std::fs;
use std::path::{Path, PathBuf};
use std::process::Command;

use outline_tests::stored::{in_repository, LONG, SHORT};
use outline_tests::trial::program;

/// A file of its own for each name.
fn stored(name: &str, bytes: &[u8]) -> PathBuf {
    let path = Path::new(env!("CARGO_TARGET_TMPDIR")).join(name);
    fs::write(&path, bytes).expect("a file");
    path
}

/// Whether two outlines of the short recipe pass.
fn passes(name: &str, first: &[u8], second: &[u8]) -> bool {
    let input = in_repository("examples/outline/short.txt");
    let first = stored(&format!("{name}.first"), first);
    let second = stored(&format!("{name}.second"), second);
    let compare = Command::new(in_repository("scripts/compare"))
        .args([&input, &first, &input, &second])
        .output();
    compare.expect("the script runs").status.success()
}

#[test]
fn whole_and_the_same_passes() {
    let whole = SHORT.output();
    assert!(passes("whole", &whole, &whole));
}

/// Both cut before or behind any line feed, or one of them lost.
#[test]
fn lost_output_does_not_pass() {
    let whole = SHORT.output();
    let ends = whole.iter().enumerate().filter(|(_, byte)| **byte == b'\n');
    let cuts = ends.flat_map(|(end, _)| [end, end + 1]);
    let cuts: Vec<usize> = cuts.filter(|&cut| cut < whole.len()).collect();
    assert!(cuts.len() > 100);
    for cut in cuts.into_iter().chain([0]) {
        assert!(!passes("both-cut", &whole[..cut], &whole[..cut]), "{cut}");
    }
    assert!(!passes("first-lost", b"", &whole));
    assert!(!passes("second-lost", &whole, b""));
}

/// One digit of one frame.
#[test]
fn difference_does_not_pass() {
    let whole = SHORT.output();
    let mut other = whole.clone();
    other[0] += 1;
    assert!(!passes("other", &whole, &other));
}

/// The lines of shell in the document.
fn shell() -> String {
    let document = fs::read_to_string(in_repository("docs/OUTLINE.md")).expect("the document");
    let lines = document.lines().skip_while(|line| *line != BEGINNING);
    lines
        .take_while(|line| line.starts_with("    "))
        .map(|line| format!("{line}\n"))
        .collect()
}

const BEGINNING: &str = "    for i in first second; do";

/// What the shell says of the two examples, with this standing for the program.
fn compared(name: &str, program: &str) -> String {
    let folder = Path::new(env!("CARGO_TARGET_TMPDIR")).join(name);
    fs::create_dir_all(&folder).expect("a folder");
    fs::write(folder.join("first.txt"), SHORT.input()).expect("a file");
    fs::write(folder.join("second.txt"), LONG.input()).expect("a file");
    let script = shell().replace("target/bin/outline", program);
    let mut bash = Command::new("bash");
    let output = bash.args(["-c", &script]).current_dir(&folder).output();
    String::from_utf8(output.expect("bash runs").stdout).expect("text")
}

#[test]
fn lines_of_shell_find_no_difference() {
    let program = program().canonicalize().expect("the program's place");
    let program = program.to_str().expect("text");
    assert!(shell().contains("target/bin/outline") && shell().contains("diff"));
    assert_eq!(compared("alike", program), "");
    // Cut at a place where a whole outline might end.
    let cut = format!("{program} | head -n 44");
    let not_whole = "first: not whole\nsecond: not whole\n";
    assert_eq!(compared("cut", &cut), not_whole);
    assert_eq!(compared("lost", "true"), not_whole);
    // All that is due, but something was said.
    let said = format!("{{ echo said >&2; {program}; }}");
    assert_eq!(compared("said", &said), not_whole);
}
