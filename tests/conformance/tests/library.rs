//! Compares the proved library with the second model.
//!
//! Each test runs numbered cases. One that fails is printed with its last
//! steps and with the line that runs it alone, such as
//!
//! ```text
//! SLIPKNOLL_SEED=random_runs:short:1234 cargo test -p conformance --test library
//! ```

use std::io::Write;

use at45db081d_model::record::tag;
use conformance::frames::ROWS;
use conformance::records::OPERATIONS;
use conformance::runner::runs_one_case;
use conformance::{run_cases, scenarios, Cases, Coverage, Library, Scenario};

/// The steps that each test compares at least: 95 in 100 of those that it does.
mod least {
    pub const ROWS: u64 = 1_445_000;
    pub const SEALS: u64 = 936_000;
    pub const ADDRESSES: u64 = 866_000;
    pub const BUSY_ENDS: u64 = 311_000;
    pub const CALLER_RECORDS: u64 = 154_000;
    pub const REFUSALS: u64 = 447_000;
    pub const OTHER_PARTS: u64 = 86_000;
    pub const RANDOM_RUNS: u64 = 1_507_000;
}

/// Says something even when the test passes.
fn say(line: &str) {
    writeln!(std::io::stdout(), "{line}").expect("standard output");
}

/// Runs a scenario against the library, on the full parts one case in `rate`; on
/// each part what they reached is handed back, or None if one case was run alone.
fn compare(scenario: Scenario, rate: u64, least: u64) -> Option<[Coverage; 4]> {
    let mut calls = 0;
    let coverage = Cases::on_every_part(&scenario, rate).map(|cases| {
        let (more, coverage) =
            run_cases(&scenario, cases, &mut Library).unwrap_or_else(|failure| panic!("{failure}"));
        calls += more;
        coverage
    });
    if runs_one_case() {
        return None;
    }
    say(&format!("{}: {calls} steps compared", scenario.name));
    assert!(calls >= least, "only {calls} steps were compared");
    Some(coverage)
}

/// Which rows are obeyed under an operation, if nothing else stands against
/// them: the status always (5.5); the identity, and what reads or writes a free
/// buffer (5.6), unless the operation is on a register (5.3).
fn may_be_obeyed(opening: &[u8], (tag, buffer): (u8, u8)) -> bool {
    match opening {
        _ if tag == tag::IDLE => true,
        [0xD7] => true,
        _ if [0xCF, 0xFC, 0x30, 0x9B].contains(&tag) => false,
        [0x9F] => true,
        [0xD1] | [0xD4] | [0x84] => buffer != 1,
        [0xD3] | [0xD6] | [0x87] => buffer != 2,
        _ => false,
    }
}

#[test]
fn every_row_under_every_operation() {
    let reached = match compare(scenarios::ROWS, 10, least::ROWS) {
        Some(reached) => reached,
        None => return,
    };
    for (i, row) in ROWS.iter().enumerate() {
        for (j, &operation) in OPERATIONS.iter().enumerate() {
            let case = format!("{:02X?} under {operation:02X?}", row.opening);
            let expected = may_be_obeyed(row.opening, operation);
            // AB wakes an idle chip whatever else holds.
            let always = row.opening == [0xAB] && operation.0 == tag::IDLE;
            // On the short parts, which have every case.
            for count in reached[..2].iter().map(|reached| reached.rows[i][j]) {
                assert_eq!(count.obeyed > 0, expected, "obeyed: {case}");
                assert_eq!(count.ignored > 0, !always, "ignored: {case}");
            }
        }
        for reached in &reached {
            assert!(reached.obeyed(i) > 0, "{:02X?} never obeyed", row.opening);
            assert!(reached.ignored(i) > 0, "{:02X?} never ignored", row.opening);
        }
    }
}

#[test]
fn every_seal_of_every_sector() {
    compare(scenarios::SEALS, 1, least::SEALS);
}

#[test]
fn every_address_edge() {
    compare(scenarios::ADDRESSES, 4, least::ADDRESSES);
}

#[test]
fn every_busy_end_and_cut() {
    compare(scenarios::BUSY_ENDS, 8, least::BUSY_ENDS);
}

#[test]
fn every_tag_of_a_callers_record() {
    let reached = match compare(scenarios::CALLER_RECORDS, 1, least::CALLER_RECORDS) {
        Some(reached) => reached,
        None => return,
    };
    for reached in reached {
        let answers = [0, 1, 2, 3, 4].map(|call| reached.answers_of(call));
        assert_eq!(
            answers,
            [vec![0], vec![0, 1], vec![0, 1], vec![0], vec![0, 1]]
        );
    }
}

#[test]
fn every_length_refused() {
    let reached = match compare(scenarios::REFUSALS, 10, least::REFUSALS) {
        Some(reached) => reached,
        None => return,
    };
    for reached in reached {
        let answers = [0, 1, 2, 4].map(|call| reached.answers_of(call));
        assert_eq!(
            answers,
            [vec![0, 1], vec![0, 1, 2], vec![0, 1], vec![0, 1, 7]]
        );
    }
}

/// The full parts' pairs have room for every part.
#[test]
fn operations_met_by_other_parts() {
    let reached = match compare(scenarios::OTHER_PARTS, 1, least::OTHER_PARTS) {
        Some(reached) => reached,
        None => return,
    };
    for reached in &reached[2..] {
        let answers = [1, 2, 4].map(|call| reached.answers_of(call));
        assert_eq!(answers, [vec![0, 1], vec![0, 1], vec![0, 1, 7]]);
    }
}

#[test]
fn random_runs() {
    let reached = match compare(scenarios::RANDOM_RUN, 1, least::RANDOM_RUNS) {
        Some(reached) => reached,
        None => return,
    };
    for reached in reached {
        let answers = [0, 1, 2, 3, 4].map(|call| reached.answers_of(call));
        let expected = [
            vec![0, 1],
            vec![0, 1, 2],
            vec![0, 1],
            vec![0],
            vec![0, 1, 7],
        ];
        assert_eq!(answers, expected);
        for (i, row) in ROWS.iter().enumerate() {
            assert!(reached.obeyed(i) > 0, "{:02X?} never obeyed", row.opening);
            assert!(reached.ignored(i) > 0, "{:02X?} never ignored", row.opening);
        }
    }
}
