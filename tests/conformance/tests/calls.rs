//! Compares the calls of the proved library with those of the second model.
//!
//! A case that fails is printed with its last steps and with the line that runs
//! it alone, such as
//!
//! ```text
//! SLIPKNOLL_SEED=random_calls:short:7 cargo test -p conformance --test calls
//! ```

use std::io::Write;
use std::time::Instant;

use conformance::request::{ANSWERS, KINDS};
use conformance::runner::runs_one_case;
use conformance::scenarios::CALLS;
use conformance::step::CHIP_FUNCTIONS;
use conformance::{run_cases, Cases, Coverage, Device, Library};

/// Calls of each kind that are compared at least: 95 in 100 of those that are.
const LEAST: [u64; KINDS.len()] = [255_700, 255_700, 418_600, 144_200, 204_900];

/// Says something even when the test passes.
fn say(line: &str) {
    writeln!(std::io::stdout(), "{line}").expect("standard output");
}

/// Runs every scenario on every part.
fn compare(subject: &mut dyn Device) -> Coverage {
    let mut reached = Coverage::default();
    for (scenario, rate) in CALLS {
        for cases in Cases::on_every_part(&scenario, rate) {
            let (_, coverage) =
                run_cases(&scenario, cases, subject).unwrap_or_else(|failure| panic!("{failure}"));
            reached.add(&coverage);
        }
    }
    reached
}

#[test]
fn library_and_model_make_the_same_calls() {
    let begin = Instant::now();
    let reached = compare(&mut Library);
    if runs_one_case() {
        return;
    }
    let calls = reached.calls();
    let total: u64 = calls.iter().sum();
    let each: Vec<String> = (KINDS.iter().zip(calls))
        .map(|(kind, count)| format!("{kind} {count}"))
        .collect();
    let seconds = begin.elapsed().as_secs_f64();
    let each = each.join(", ");
    say(&format!(
        "library and model: {total} calls compared ({each}) in {seconds:.1} s"
    ));
    for (kind, least) in LEAST.iter().enumerate() {
        assert!(calls[kind] >= *least, "{}: {}", KINDS[kind], calls[kind]);
    }
    for (kind, expected) in ANSWERS.iter().enumerate() {
        let met = reached.answers_of(CHIP_FUNCTIONS + kind);
        assert_eq!(met, *expected, "answers of {}", KINDS[kind]);
    }
}
