//! What `read-back` says, on compiled code: a recipe that was put comes back, and
//! outside its term it does not.

use std::io::Write;
use std::time::Instant;

use conformance::lists::{count_line, read_back, Broken};
use conformance::slips::{Faulty, Slip};
use conformance::{Device, Library};

const SEEDS: u64 = 64_000;

/// Lists whose put answers 0, gets, recipes read, of these the ones with a term, and
/// gets outside a term at least: 95 in 100 of those that there are.
const LEAST: [u64; 5] = [38_000, 55_700, 42_000, 16_100, 9_400];

/// The same of the lists on each part.
const LEAST_BY_PART: [u64; 4] = [18_900, 18_800, 101, 89];

/// Builds that lose a recipe.
const LOSSES: [Slip; 10] = [
    Slip::StoresNothing,
    Slip::SevenPagesAlike,
    Slip::SealedByAllBits,
    Slip::IdleCutSpoilsPage,
    Slip::GetLosesByte,
    Slip::WideByteField,
    Slip::FirstDayExcluded,
    Slip::LastDayExcluded,
    Slip::TermForgotten,
    Slip::DaysOfTwoBytes,
];

/// Says something even when the test passes.
fn say(line: &str) {
    writeln!(std::io::stdout(), "{line}").expect("standard output");
}

/// Runs lists; what they have shown, or the first that is broken.
fn run(device: &mut dyn Device, seeds: u64) -> Result<read_back::Shown, Broken> {
    let mut shown = read_back::Shown::default();
    for seed in 0..seeds {
        read_back::check(device, seed, &mut shown)?;
    }
    Ok(shown)
}

#[test]
fn recipes_come_back() {
    let begin = Instant::now();
    let shown = run(&mut Library, SEEDS).unwrap_or_else(|broken| panic!("{broken}"));
    let counts = count_line(&[
        ("lists after a put of answer 0", shown.lists),
        ("gets", shown.gets),
        ("recipes read", shown.read),
        ("of these with a term", shown.read_inside),
        ("gets outside the term", shown.outside),
    ]);
    say(&format!(
        "read-back of the library: {counts} in {:.1} s; by part {:?}",
        begin.elapsed().as_secs_f64(),
        shown.parts
    ));
    let counts = [
        shown.lists,
        shown.gets,
        shown.read,
        shown.read_inside,
        shown.outside,
    ];
    for (shown, least) in counts.iter().zip(&LEAST) {
        assert!(shown >= least, "only {shown} of {least}");
    }
    for (shown, least) in shown.parts.iter().zip(&LEAST_BY_PART) {
        assert!(shown >= least, "only {shown} of {least} on a part");
    }
}

#[test]
fn losses_are_noticed() {
    for loss in LOSSES {
        match run(&mut Faulty(loss), SEEDS) {
            Ok(_) => panic!("{loss:?} not noticed"),
            Err(broken) => println!("{loss:?}: {broken}"),
        }
    }
}
