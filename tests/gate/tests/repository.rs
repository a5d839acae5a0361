//! What the gate asks of the files of this repository.

use std::collections::BTreeMap;

use gate_tests::contracts::{lacks, open_functions, Function, OPEN};
use gate_tests::files::{below, names, text};
use gate_tests::folders::{listed, strays};
use gate_tests::variables::{cleared, read_in};

fn open_functions_of(name: &str) -> Vec<Function> {
    let source = format!("crates/{name}/src");
    let files = names(&source).into_iter();
    let modules: BTreeMap<String, String> = files
        .map(|it| (it.replace(".rt", ""), text(&format!("{source}/{it}"))))
        .collect();
    open_functions(&modules)
}

#[test]
fn open_functions_promise_and_require_nothing() {
    for name in OPEN {
        let functions = open_functions_of(name);
        assert!(!functions.is_empty(), "crates/{name} has no open function");
        let found: Vec<String> = functions.iter().filter_map(lacks).collect();
        assert!(found.is_empty(), "crates/{name}: {}", found.join(", "));
    }
}

/// Every function of the header is an open one of crate slipknoll.
#[test]
fn the_interface_is_seen() {
    let header = text("include/slipknoll.h");
    for function in open_functions_of("slipknoll") {
        let name = format!("{}(", function.name);
        assert!(header.contains(&name), "{name}) is not in the header");
    }
}

/// The static library has each of these functions, with the same promise.
#[test]
fn exports_promise_the_same() {
    let functions = open_functions_of("slipknoll");
    assert!(functions.len() >= 20);
    assert_eq!(open_functions_of("slipknoll_c"), functions);
    let exports = text("crates/slipknoll_c/src/lib.rt");
    let marked = "#[unsafe(no_mangle)]\npub extern \"C\" fn ";
    assert_eq!(exports.matches(marked).count(), functions.len());
    for function in functions {
        let name = &function.name;
        let call = format!("    slipknoll::{name}(");
        assert_eq!(exports.matches(&call).count(), 1, "{name}");
    }
}

#[test]
fn crates_and_folders_go_together() {
    let found = strays(&listed(&text("crates.txt")), &names("crates"));
    assert!(found.is_empty(), "{}", found.join("\n"));
}

#[test]
fn variables_that_tests_read_are_cleared() {
    let cleared = cleared(&text("scripts/environment"));
    // PATH is the machine's; cargo itself sets the other.
    let known = ["PATH", "CARGO_MANIFEST_DIR"];
    let mut seen = 0;
    for directory in ["model", "bindings", "tests", "benches"] {
        for file in below(directory, ".rs") {
            if file.starts_with("tests/gate/") {
                continue;
            }
            for name in read_in(&text(&file)) {
                let fine = known.contains(&name.as_str()) || cleared.contains(&name);
                assert!(
                    fine,
                    "{file} reads {name}, and scripts/environment keeps it"
                );
                seen += 1;
            }
        }
    }
    assert!(seen >= 4, "only {seen} were found");
}
