//! Shows that each rule notices what it is for, in small files.

use std::collections::BTreeMap;

use gate_tests::contracts::{lacks, open_functions, public_functions};
use gate_tests::folders::{listed, strays};
use gate_tests::variables::{cleared, read_in};

const ROOT: &str = "\
pub use inner::{handed, other};
pub mod wide;
mod inner;

// pub fn spoken(x: u8) -> u8
pub fn good(x: u8) -> u8
    ensures { \u{3bb} r. \u{231c} r \u{2261} f { x } \u{231d} }
{
    if x == 0 { ensures } else { x }
}

fn own(x: u8)
    requires { x }
{
}
";

const WIDE: &str = "pub extern \"C\" fn exported(x: &[u8])\n    ensures { x }\n{\n}\n";

const INNER: &str = "\
pub fn handed(x: u8) -> u8
    ensures { x }
{
    x
}

pub fn kept(x: u8) -> u8
    requires { x }
    ensures { x }
{
    x
}
";

/// The open functions of three small modules, and what they lack, after a
/// change of one of them.
fn found(old: &str, new: &str) -> (Vec<String>, Vec<String>) {
    let modules: BTreeMap<String, String> = [("lib", ROOT), ("wide", WIDE), ("inner", INNER)]
        .map(|(name, text)| (name.to_string(), text.replacen(old, new, 1)))
        .into();
    let functions = open_functions(&modules);
    let names = functions.iter().map(|it| it.name.clone()).collect();
    (names, functions.iter().filter_map(lacks).collect())
}

#[test]
fn open_functions_are_found() {
    let (names, lacking) = found("", "");
    assert_eq!(names, ["good", "exported", "handed"]);
    assert_eq!(lacking, [""; 0]);
}

#[test]
fn a_function_without_a_promise() {
    let promise = "    ensures { \u{3bb} r. \u{231c} r \u{2261} f { x } \u{231d} }\n";
    let lacking = found(promise, "").1;
    assert_eq!(lacking, ["good promises nothing of its result"]);
    // Only in the module that is public.
    let lacking = found(
        "fn exported(x: &[u8])\n    ensures { x }",
        "fn exported(x: &[u8])",
    )
    .1;
    assert_eq!(lacking, ["exported promises nothing of its result"]);
}

#[test]
fn a_function_that_requires() {
    let lacking = found(
        "fn handed(x: u8) -> u8\n",
        "fn handed(x: u8) -> u8\n    requires { x }\n",
    )
    .1;
    assert_eq!(lacking, ["handed requires something of its callers"]);
    let lacking = found("handed, other", "handed, kept").1;
    assert_eq!(lacking, ["kept requires something of its callers"]);
}

#[test]
fn clauses_may_have_names() {
    let promise = "    ensures { \u{3bb} r. \u{231c} r \u{2261} f { x } \u{231d} }\n";
    let named = "    ensures low { x }\n    ensures* held { x }\n";
    assert_eq!(found(promise, named).1, [""; 0]);
    let named = "    requires few { x }\n    ensures low { x }\n    ensures high { x }\n";
    let lacking = found(promise, named).1;
    assert_eq!(lacking, ["good requires something of its callers"]);
}

/// Layout is no part of a promise, and all else is.
#[test]
fn promises_are_compared() {
    let of = |text: &str| public_functions(text).remove(0).contract;
    let one = of("pub fn f(a: u8, b: &[u8]) -> u8\n    ensures { x }\n{\n    a\n}\n");
    let same = "pub extern \"C\" fn f(\n    a: u8,\n    b: &[u8],\n) -> u8\n    ensures { x }\n{\n    b\n}\n";
    assert_eq!(of(same), one);
    for (old, new) in [("-> u8", "-> u16"), ("{ x }", "{ y }"), ("a: u8", "a: u16")] {
        assert_ne!(of(&same.replacen(old, new, 1)), one);
    }
}

#[test]
fn folders_and_lines_without_each_other() {
    let listed = listed("# a: line\none:\ntwo staticlib: one\n");
    let folders = |names: &[&str]| names.iter().map(|it| it.to_string()).collect::<Vec<_>>();
    assert_eq!(strays(&listed, &folders(&["one", "two"])), [""; 0]);
    assert_eq!(
        strays(&listed, &folders(&["one", "three"])),
        [
            "crates/three is not listed in crates.txt",
            "two is listed, and there is no crates/two",
        ]
    );
}

#[test]
fn variables_are_seen() {
    let text = "env::var(\"ONE\").ok(); std::env::var_os(\"TWO\"); env::var(name); env!(\"NOT\")";
    assert_eq!(read_in(text), ["ONE", "?", "TWO"]);
    let script = "changing=(\n    ONE # TWO\n    'THREE_*'\n)\nother=(FOUR\n)\n";
    assert_eq!(cleared(script), ["ONE", "THREE_*"]);
}
