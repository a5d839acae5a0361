//! What `two-runs` says, on compiled code: random lists on two chips alike in
//! registers and otherwise different show the same outlines.

use std::io::Write;
use std::time::Instant;

use conformance::lists::two_runs::{self, Shown, Without};
use conformance::lists::{count_line, Broken};
use conformance::request::{ANSWERS, KINDS};
use conformance::slips::{Faulty, Slip};
use conformance::{Device, Library, Model};

/// Pairs of lists, by their seeds.
const PAIRS: u64 = 48_000;

/// Pairs on each part at least: 95 in 100 of those that there are.
const LEAST_BY_PART: [u64; 4] = [22_300, 22_300, 106, 112];

/// Builds that leak something of the recipes.
const LEAKS: [Slip; 20] = [
    Slip::SkipsPageAlreadyThere,
    Slip::SkipsPageOutsidePatch,
    Slip::GetStopsAtStoredLength,
    Slip::PatchEndsUnder12,
    Slip::PatchEndsUnder13,
    Slip::ProtectionFromBuffer,
    Slip::ReadyWithCompareBit,
    Slip::RecipeLengthWraps,
    Slip::LogKeepsPadding,
    Slip::LogShowsRecipeLength,
    Slip::PatchEndWraps,
    Slip::LongerLimitKept,
    Slip::GetStopsOutsideTerm,
    Slip::LogShowsTerm,
    Slip::ShorterLimitForAll,
    Slip::LongerLimitForTerms,
    Slip::DatesUntestedOnVersion1,
    Slip::EarlierPollCounts,
    Slip::ProgramWaitCounts,
    Slip::KeptPagesNotCompared,
];

/// Says something even when the test passes.
fn say(line: &str) {
    writeln!(std::io::stdout(), "{line}").expect("standard output");
}

/// Runs pairs of lists; what they have shown, or the first that is broken.
fn run(device: &mut dyn Device, without: Without) -> Result<Shown, Broken> {
    let mut shown = Shown::default();
    for seed in 0..PAIRS {
        two_runs::check(device, seed, without, &mut shown)?;
    }
    Ok(shown)
}

#[test]
fn nothing_of_the_recipes_shows() {
    let begin = Instant::now();
    let shown = run(&mut Library, Without::Nothing).unwrap_or_else(|broken| panic!("{broken}"));
    let counts = count_line(&[
        ("pairs of lists", shown.pairs),
        ("calls", shown.calls()),
        ("frames", shown.frames),
        ("unlike answers among 0, 12, 13, 15", shown.unlike_answers),
        ("puts with a term in one run", shown.unlike_terms),
        ("gets on unlike days", shown.unlike_days),
    ]);
    let seconds = begin.elapsed().as_secs_f64();
    say(&format!(
        "two runs of the library: {counts} in {seconds:.1} s; by part {:?}",
        shown.parts
    ));
    // 95 in 100 of what is reached.
    assert_eq!(shown.pairs, PAIRS);
    assert!(shown.calls() >= 192_700);
    assert!(shown.frames >= 2_092_800);
    assert!(shown.unlike_answers >= 22_900);
    assert!(shown.unlike_terms >= 7_500);
    assert!(shown.unlike_days >= 33_100);
    for (shown, least) in shown.parts.iter().zip(&LEAST_BY_PART) {
        assert!(shown >= least, "only {shown} of {least} on a part");
    }
    for (kind, expected) in ANSWERS.iter().enumerate() {
        let met: Vec<usize> = (0..17).filter(|&n| shown.answers[kind][n] > 0).collect();
        assert_eq!(met, *expected, "answers of {}", KINDS[kind]);
    }
}

#[test]
fn leaks_are_noticed() {
    for leak in LEAKS {
        match run(&mut Faulty(leak), Without::Nothing) {
            Ok(_) => panic!("{leak:?} not noticed"),
            Err(broken) => println!("{leak:?}: {broken}"),
        }
    }
}

/// That lists reach what the premises are for.
#[test]
fn premises_are_needed() {
    for without in [Without::JunkAlike, Without::SizeAlike, Without::DatesAlike] {
        match run(&mut Model, without) {
            Ok(_) => panic!("nothing shows without {without:?}"),
            Err(broken) => println!("without {without:?}: {broken}"),
        }
    }
}
