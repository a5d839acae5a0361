//! Shows that the comparison of the calls notices faults: devices that are the
//! model but for one slip each.

use at45db081d_model::Part;
use conformance::runner::runs_one_case;
use conformance::scenarios::{ALL, BUSY_ENDS, CALLS};
use conformance::slips::{Faulty, Slip, PAGE_SIZE_SLIPS, SLIPS};
use conformance::{parts, run_cases, Cases, Failure, Pair, Scenario};

/// Runs a share of every scenario of the calls on every part; the first failure.
fn first_failure(slip: Slip, rate: u64) -> Option<Failure> {
    CALLS.iter().find_map(|(scenario, _)| {
        (parts::NAMED.iter()).find_map(|&(_, part)| failure(scenario, part, slip, rate))
    })
}

fn failure(scenario: &Scenario, part: Part, slip: Slip, rate: u64) -> Option<Failure> {
    let rate = rate.min((scenario.cases)(part) / 10);
    let cases = Cases::share(scenario, part, rate);
    run_cases(scenario, cases, &mut Faulty(slip)).err()
}

#[test]
fn comparison_notices_every_slip() {
    if runs_one_case() {
        return;
    }
    if let Some(failure) = first_failure(Slip::None, 40) {
        panic!("the model differs from itself: {failure}");
    }
    for slip in SLIPS {
        let failure = first_failure(slip, 20).unwrap_or_else(|| panic!("{slip:?} not noticed"));
        let (scenario, case) = (failure.scenario, failure.case);
        println!("{slip:?}: {scenario} {case}: {}", failure.mismatch.what);
    }
}

/// The scenarios of the chip notice them too, on the parts that have them alone.
#[test]
fn chip_scenarios_notice_slips_of_page_sizes() {
    if runs_one_case() {
        return;
    }
    for slip in PAGE_SIZE_SLIPS {
        let first = |part| (ALL.iter()).find_map(|scenario| failure(scenario, part, slip, 100));
        let noticed = first(Part::SHORT_256).unwrap_or_else(|| panic!("{slip:?} not noticed"));
        let (scenario, case) = (noticed.scenario, noticed.case);
        println!("{slip:?}: {scenario} {case}: {}", noticed.mismatch.what);
    }
}

/// What a buffer has behind a page is looked at whatever the model does: here it
/// has the same slip.
#[test]
fn bytes_behind_a_page_are_looked_at() {
    let [mut model, mut subject] = [Faulty(Slip::CutFillsBuffers); 2];
    let mut pair = Pair::new(Part::SHORT_256, &mut model, &mut subject);
    let mismatch = (0..(BUSY_ENDS.cases)(Part::SHORT_256)).find_map(|case| {
        pair.begin_case();
        (BUSY_ENDS.run)(&mut pair, case).err()
    });
    let what = mismatch.expect("not noticed").what;
    assert_eq!(what, "a buffer changed behind a page's bytes");
}
