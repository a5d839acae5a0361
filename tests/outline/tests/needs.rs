//! The stack that the program needs is what `docs/OUTLINE.md` says.

use outline_tests::stored::{in_repository, RUN};
use outline_tests::system::{limit_stack, SIGSEGV};
use outline_tests::trial::{program, Ended, Trial};

fn run_after(prepare: fn()) -> Ended {
    let trial = Trial::of(&program()).given(&RUN.input()).after(prepare);
    trial.run().unwrap_or_else(|what| panic!("{what}"))
}

#[test]
fn stack_that_is_said_is_enough() {
    let document = std::fs::read_to_string(in_repository("docs/OUTLINE.md"));
    assert!(document.expect("the document").contains("`ulimit -s 2560`"));
    let ended = run_after(|| limit_stack(2560 * 1024));
    assert_eq!(ended.signal, None);
    assert!(ended.output == RUN.output());
}

/// If it is, the document can say less.
#[test]
fn two_mib_are_not() {
    let ended = run_after(|| limit_stack(2048 * 1024));
    assert_eq!((ended.signal, ended.output.len()), (Some(SIGSEGV), 0));
}
