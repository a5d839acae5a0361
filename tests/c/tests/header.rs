//! `include/slipknoll.h` and the static library, used from C and C++.
//!
//! `tests/c/header.c` calls every function and checks what it does. What it
//! expects is from the header's words and docs/SPECIFICATION.md.

use std::collections::BTreeSet;
use std::fs;
use std::path::{Path, PathBuf};
use std::process::Command;

use c_tests::functions;

const STRICT: [&str; 4] = ["-pedantic", "-Wall", "-Wextra", "-Werror"];

fn in_repository(path: &str) -> PathBuf {
    Path::new(env!("CARGO_MANIFEST_DIR"))
        .join("../..")
        .join(path)
}

fn temporary(name: &str) -> PathBuf {
    Path::new(env!("CARGO_TARGET_TMPDIR")).join(name)
}

fn text(path: &str) -> String {
    fs::read_to_string(in_repository(path)).expect("a file of the repository")
}

fn compile(compiler: &str, words: &[&str], files: &[PathBuf]) {
    let status = Command::new(compiler)
        .args(STRICT)
        .args(words)
        .arg("-I")
        .arg(in_repository("include"))
        .args(files)
        .status()
        .expect("a compiler");
    assert!(status.success(), "{compiler} {words:?}: {status}");
}

/// Whether the program ends well, and what it prints.
fn run(program: &Path) -> (bool, String) {
    let output = Command::new(program).output().expect("the program runs");
    let said = String::from_utf8_lossy(&output.stdout).into_owned();
    (output.status.success(), said)
}

/// Compiles the calls into an object.
fn object(name: &str, compiler: &str, language: &[&str]) -> PathBuf {
    let object = temporary(name);
    let into = object.to_str().expect("a path in Unicode");
    let words = [language, &["-c", "-o", into]].concat();
    compile(compiler, &words, &[in_repository("tests/c/header.c")]);
    object
}

/// Links an object with the library, and runs the program.
fn linked(name: &str, compiler: &str, words: &[&str], mut files: Vec<PathBuf>) -> (bool, String) {
    let program = temporary(name);
    let into = program.to_str().expect("a path in Unicode");
    files.push(in_repository("target/staticlib/libslipknoll.a"));
    compile(compiler, &[&["-o", into], words].concat(), &files);
    run(&program)
}

#[test]
fn the_header_stands_alone() {
    let header = [in_repository("include/slipknoll.h")];
    compile("cc", &["-std=c99", "-fsyntax-only", "-x", "c"], &header);
    compile(
        "g++",
        &["-std=c++11", "-fsyntax-only", "-x", "c++"],
        &header,
    );
}

#[test]
fn every_function_is_declared_and_called() {
    let declared = functions(&text("include/slipknoll.h"));
    assert_eq!(declared.len(), 20);
    let called = functions(&text("tests/c/header.c"));
    let uncalled: BTreeSet<_> = declared.difference(&called).collect();
    assert!(uncalled.is_empty(), "not called: {uncalled:?}");
}

/// With pages of 264 bytes, and of 256.
const PARTS: [(&str, &[&str]); 2] = [("264", &[]), ("256", &["-DPAGES_256"])];

/// On a part of either page size every check holds.
fn passes(compiler: &str, language: &[&str]) {
    for (name, part) in PARTS {
        let name = format!("calls-{compiler}-{name}");
        let words = [language, part].concat();
        let object = object(&format!("{name}.o"), compiler, &words);
        let (passed, said) = linked(&name, compiler, &[], vec![object]);
        assert!(passed, "{name}: {said}");
    }
}

#[test]
fn calls_from_c() {
    passes("cc", &["-std=c99"]);
}

/// The same file as C++: every function is linked by its plain name.
#[test]
fn calls_from_cpp() {
    passes("g++", &["-std=c++11", "-x", "c++"]);
}

/// A function that does nothing and returns 77 is noticed, whichever it is.
#[test]
fn every_function_is_checked() {
    let object = object("calls-wrapped.o", "cc", &["-std=c99"]);
    for name in functions(&text("include/slipknoll.h")) {
        let stub = temporary(&format!("{name}.c"));
        let body = format!("unsigned long __wrap_{name}(void);\nunsigned long __wrap_{name}(void) {{ return 77; }}\n");
        fs::write(&stub, body).expect("a stub");
        let wrap = format!("-Wl,--wrap={name}");
        let (passed, said) = linked(&name, "cc", &[&wrap], vec![object.clone(), stub]);
        assert!(!passed && said.contains("does not hold"), "{name}: {said}");
    }
}

#[test]
fn uncalled_functions_are_seen() {
    let header = "/* slipknoll_a(x) */\nuint8_t slipknoll_b(void);\nvoid slipknoll_c_d (int);\nvoid slipknoll_c(\n  int);\n";
    let names: Vec<String> = functions(header).into_iter().collect();
    assert_eq!(names, ["slipknoll_b", "slipknoll_c"]);
}
