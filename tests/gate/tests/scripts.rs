//! The gate's own scripts: what they refuse, and what they say.

use std::fs;
use std::path::{Path, PathBuf};
use std::process::Command;

use gate_tests::files::{root, text};

/// Exit status and output of a shell line in the repository, with these
/// variables alone beside `PATH`.
fn run(line: &str, variables: &[(&str, &str)]) -> (bool, String) {
    let path = std::env::var_os("PATH").expect("a path");
    let output = Command::new("bash")
        .args(["-c", line])
        .current_dir(root())
        .env_clear()
        .env("PATH", path)
        .envs(variables.iter().copied())
        .output()
        .expect("bash runs");
    let said = String::from_utf8_lossy(&output.stdout).into_owned();
    (output.status.success(), said)
}

/// A file with a log in it.
fn log(name: &str, text: &str) -> PathBuf {
    let path = Path::new(env!("CARGO_TARGET_TMPDIR")).join(name);
    fs::write(&path, text).expect("a log");
    path
}

fn counts(kind: &str, name: &str, text: &str) -> (bool, String) {
    let path = log(name, text);
    run(&format!("scripts/counts {kind} '{}'", path.display()), &[])
}

/// The number, or names, that tests/counts.txt has.
fn pinned(name: &str) -> String {
    let begin = format!("{name} ");
    let pins = text("tests/counts.txt");
    let line = pins.lines().find_map(|it| it.strip_prefix(&begin));
    line.expect("a pinned count").to_string()
}

const CLEAR: &str = ". scripts/setup; . scripts/environment; clear_environment; env";

#[test]
fn variables_are_refused_where_ci_is_set() {
    for name in [
        "SLIPKNOLL_SEED",
        "OUTLINE_PROGRAM",
        "RUSTFLAGS",
        "RATTLE_HOME",
        "RT_ALLOW_C",
        "CARGO_PROFILE_TEST_OPT_LEVEL",
        "RUST_TEST_THREADS",
    ] {
        let (passed, said) = run(CLEAR, &[("CI", "1"), (name, "")]);
        let due = format!("failed: the environment changes what is tested: {name}\n");
        assert_eq!((passed, said), (false, due));
    }
}

/// Before anything else the gate looks at the environment.
#[test]
fn the_gate_begins_so() {
    let gate = text("scripts/test");
    let mut lines = gate.lines().filter(|it| !it.starts_with('#'));
    assert_eq!(lines.next(), Some(". \"$(dirname \"$0\")/setup\""));
    assert_eq!(lines.next(), Some(". scripts/environment"));
    assert_eq!(lines.next(), Some("clear_environment"));
}

#[test]
fn variables_are_cleared_elsewhere() {
    let (passed, said) = run(CLEAR, &[("SLIPKNOLL_SEED", "1"), ("CARGO_HOME", "here")]);
    assert!(passed, "{said}");
    assert!(said.starts_with("== cleared, since it changes what is tested: SLIPKNOLL_SEED\n"));
    assert!(!said.contains("SLIPKNOLL_SEED=1"), "{said}");
    assert!(said.contains("CARGO_HOME=here"), "{said}");
}

/// What rt ci would print of so many crates, kept crates and edits.
fn proofs(crates: usize, kept: usize, edits: usize, bad: &str) -> String {
    let mut text = String::new();
    for at in 0..crates {
        text.push_str(&format!("rt: proved_{at} proved\n"));
        text.push_str(&format!("rt: proved_{at}: its tests are proved\n"));
    }
    for at in 0..kept {
        text.push_str(&format!(
            "rt: kept_{at} is kept: an earlier run on this machine proved the same files over the same libraries\n"
        ));
    }
    for at in 0..edits {
        text.push_str(&format!(
            "rt: must-fail one/slip_{at}.edit: refused, as it must be: note: src/lib.rt:1:1: no\n"
        ));
    }
    text.push_str("rt: must-fail one/other.edit: BAD EDIT: it changes nothing\n");
    text.push_str(&format!(
        "rt: ok; handles allowed: none; must-fail edits: {edits} refused{bad}; every proof was done in this run\n"
    ));
    text
}

#[test]
fn what_rt_ci_counts() {
    let number = |name: &str| pinned(name).parse::<usize>().expect("a number");
    let (crates, edits) = (number("crates"), number("edits"));
    let count = |text: String| counts("rt", "rt-log", &text);
    for (proved, kept) in [(crates, 0), (0, crates), (crates - 1, 1)] {
        let found = count(proofs(proved, kept, edits, ""));
        assert_eq!(found, (true, String::new()));
    }
    let limit = proofs(crates, 0, edits, ", 2 of them only by a limit");
    assert_eq!(count(limit), (true, String::new()));

    let (passed, said) = count(proofs(crates - 1, 0, edits + 1, ""));
    assert!(!passed);
    assert!(
        said.starts_with(&format!("crates: found {},", crates - 1)),
        "{said}"
    );
    assert!(
        said.contains(&format!("\nedits: found {},", edits + 1)),
        "{said}"
    );
    // Two numbers of one run: the lines, and the sum at the end.
    let odd = format!("edits: {edits} refused");
    let text = proofs(crates, 0, edits, "").replace(&odd, "edits: 1 refused");
    let (passed, said) = count(text);
    assert!(!passed && said.starts_with("edits: found 1,"), "{said}");

    for bad in [", 1 bad", ", 3 of them only by a limit, 12 bad"] {
        let (passed, said) = count(proofs(crates, 0, edits, bad));
        assert_eq!(
            (passed, said.as_str()),
            (false, "failed: rt ci met bad must-fail edits\n")
        );
    }
    let silent = proofs(crates, 0, edits, "").replace("rt: ok;", "rt: FAILED:");
    let (passed, said) = count(silent);
    assert!(!passed && said.starts_with("failed: rt ci has not said"));
}

/// What rt check would print of a program behind which these functions stand.
fn assumed(names: &[&str]) -> String {
    let mut text = "logic=proved functions=9 sum=0\n".to_string();
    text.push_str(&format!(
        "axioms libc: {} reached of the 50 declared\n  libc::other\n",
        names.len()
    ));
    for name in names {
        text.push_str(&format!("  {name}   reached\n"));
    }
    let number = names.len();
    text.push_str(&format!(
        "logic=proved functions=3 axioms={number} target=x86_64 sum=0\n"
    ));
    text
}

#[test]
fn what_the_program_assumes() {
    let pinned = pinned("axioms_of_outline");
    let names: Vec<&str> = pinned
        .split(": ")
        .nth(1)
        .expect("names")
        .split(", ")
        .collect();
    let count = |text: String| counts("outline", "outline-log", &text);
    assert_eq!(count(assumed(&names)), (true, String::new()));

    let more: Vec<&str> = names.iter().copied().chain(["libc::more"]).collect();
    for other in [&names[1..], &more] {
        let (passed, said) = count(assumed(other));
        let due = format!("axioms_of_outline: found {}: ", other.len());
        assert!(!passed && said.starts_with(&due), "{said}");
    }
    assert!(!count(assumed(&names).replace(" axioms=", " others=")).0);
    assert!(!count("nothing\n".to_string()).0);
}

#[test]
fn what_the_library_assumes() {
    let count = |text: &str| counts("library", "library-log", text);
    assert_eq!(
        count("logic=proved functions=3 target=x86_64 sum=0\n"),
        (true, String::new())
    );
    for text in [
        "logic=proved functions=3 axioms=1 target=x86_64 sum=0\n",
        "logic=proved functions=3 foreign=magic sum=0\n",
        "axioms libc: 1 reached of the 50 declared\n  libc::read   reached\nlogic=proved functions=3 axioms=1 sum=0\n",
        "nothing\n",
    ] {
        assert!(!count(text).0, "{text}");
    }
}

/// What cargo test would print of so many tests.
fn tests(tests: usize, examples: usize, ignored: usize) -> String {
    format!(
        "     Running unittests src/lib.rs (one)\n\
         test result: ok. {tests} passed; 0 failed; {ignored} ignored; 0 measured; 0 filtered out; finished\n   \
         Doc-tests one\n\
         test result: ok. {examples} passed; 0 failed; 0 ignored; 0 measured; 0 filtered out; finished\n     \
         Running tests/two.rs (two)\n\
         test result: ok. 1 passed; 0 failed; 0 ignored; 0 measured; 0 filtered out; finished\n"
    )
}

#[test]
fn what_cargo_test_counts() {
    let number = |name: &str| pinned(name).parse::<usize>().expect("a number");
    let (all, examples) = (number("rust_tests"), number("rust_examples"));
    let count = |text: String| counts("rust", "rust-log", &text);
    assert_eq!(count(tests(all - 1, examples, 0)), (true, String::new()));
    let said = count(tests(all, examples, 0)).1;
    assert!(said.starts_with("rust_tests: found "), "{said}");
    let said = count(tests(all - 1, examples + 1, 0)).1;
    assert!(said.starts_with("rust_examples: found "), "{said}");
    let said = count(tests(all - 1, examples, 1)).1;
    assert!(said.starts_with("rust_left_out: found 1,"), "{said}");
}
