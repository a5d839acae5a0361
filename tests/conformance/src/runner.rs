//! Runs the cases of a scenario, or the one that `SLIPKNOLL_SEED` names.

use std::collections::VecDeque;
use std::env;
use std::fmt;
use std::time::Instant;

use at45db081d_model::Part;

use crate::coverage::Coverage;
use crate::device::{Device, Model};
use crate::mismatch::Mismatch;
use crate::pair::{Pair, WHOLE_EVERY};
use crate::parts;

/// A numbered list of cases.
#[derive(Clone, Copy)]
pub struct Scenario {
    pub name: &'static str,
    /// The test file that runs it.
    pub test: &'static str,
    /// The number of cases on a part.
    pub cases: fn(Part) -> u64,
    pub run: fn(&mut Pair, u64) -> Result<(), Mismatch>,
}

/// Which cases of a scenario to run: `count` of them, each `stride` cases
/// after the one before, round and round.
#[derive(Clone, Copy)]
pub struct Cases {
    pub part: Part,
    pub stride: u64,
    pub count: u64,
}

impl Cases {
    /// Every case on the part.
    pub fn all(scenario: &Scenario, part: Part) -> Cases {
        Cases {
            part,
            stride: 1,
            count: (scenario.cases)(part),
        }
    }

    /// One case in about `rate`, spread over all choices.
    pub fn share(scenario: &Scenario, part: Part, rate: u64) -> Cases {
        let total = (scenario.cases)(part);
        Cases {
            part,
            stride: coprime_stride(total),
            count: total / rate,
        }
    }

    /// Every case on the short parts, and one in about `rate` on the full ones.
    pub fn on_every_part(scenario: &Scenario, rate: u64) -> [Cases; 4] {
        parts::NAMED.map(|(_, part)| match rate {
            2.. if !parts::is_short(part) => Cases::share(scenario, part, rate),
            _ => Cases::all(scenario, part),
        })
    }

    fn numbers(self, total: u64) -> impl Iterator<Item = u64> {
        (0..self.count).map(move |i| (i as u128 * self.stride as u128 % total as u128) as u64)
    }
}

/// A stride that meets each of `total` cases once before it meets one again.
fn coprime_stride(total: u64) -> u64 {
    let near = (total as f64 * 0.618_033_988_75) as u64;
    (near.max(1)..)
        .find(|&stride| gcd(stride, total) == 1)
        .expect("a coprime number")
}

fn gcd(a: u64, b: u64) -> u64 {
    if b == 0 {
        a
    } else {
        gcd(b, a % b)
    }
}

/// A case that failed.
#[derive(Debug)]
pub struct Failure {
    pub scenario: &'static str,
    pub test: &'static str,
    pub part: Part,
    pub case: u64,
    pub mismatch: Mismatch,
}

impl fmt::Display for Failure {
    fn fmt(&self, f: &mut fmt::Formatter) -> fmt::Result {
        let part = parts::name(self.part);
        writeln!(
            f,
            "device and model differ: {} {part}:{}",
            self.scenario, self.case
        )?;
        write!(f, "{}", self.mismatch)?;
        write!(
            f,
            "run it alone: SLIPKNOLL_SEED={}:{part}:{} cargo test -p conformance --test {}",
            self.scenario, self.case, self.test
        )
    }
}

/// Runs cases of a scenario against the model. Returns the number of functions
/// called and compared and what they reached.
pub fn run_cases(
    scenario: &Scenario,
    cases: Cases,
    subject: &mut dyn Device,
) -> Result<(u64, Coverage), Failure> {
    let total = (scenario.cases)(cases.part);
    match chosen_case() {
        None => run_numbers(scenario, cases.part, cases.numbers(total), subject),
        Some((name, part, case)) if name == scenario.name && part == cases.part => {
            run_numbers(scenario, part, std::iter::once(case), subject)
        }
        Some(_) => Ok((0, Coverage::default())),
    }
}

fn run_numbers(
    scenario: &Scenario,
    part: Part,
    numbers: impl Iterator<Item = u64>,
    subject: &mut dyn Device,
) -> Result<(u64, Coverage), Failure> {
    let begin = Instant::now();
    let mut recent = VecDeque::new();
    let (calls, coverage) = run_until_failure(scenario, part, numbers, subject, &mut recent)
        .map_err(|mismatch| locate(scenario, part, &recent, subject, mismatch))?;
    println!(
        "{} {}: {calls} steps compared in {:.1} s",
        scenario.name,
        parts::name(part),
        begin.elapsed().as_secs_f64()
    );
    Ok((calls, coverage))
}

/// Runs cases with one pair; `recent` holds the last ones.
fn run_until_failure(
    scenario: &Scenario,
    part: Part,
    numbers: impl Iterator<Item = u64>,
    subject: &mut dyn Device,
    recent: &mut VecDeque<u64>,
) -> Result<(u64, Coverage), Mismatch> {
    let mut model = Model;
    let mut pair = Pair::new(part, &mut model, subject);
    for case in numbers {
        recent.push_back(case);
        if recent.len() as u64 > WHOLE_EVERY {
            recent.pop_front();
        }
        pair.begin_case();
        (scenario.run)(&mut pair, case)?;
    }
    pair.compare_arrays()?;
    Ok((pair.calls(), pair.coverage.clone()))
}

/// Finds the case that fails alone: a stray write into the array may have been
/// noticed some cases later.
fn locate(
    scenario: &Scenario,
    part: Part,
    recent: &VecDeque<u64>,
    subject: &mut dyn Device,
    mismatch: Mismatch,
) -> Failure {
    let alone = recent.iter().find_map(|&case| {
        let mut ignored = VecDeque::new();
        let once = std::iter::once(case);
        let result = run_until_failure(scenario, part, once, subject, &mut ignored);
        result.err().map(|mismatch| (case, mismatch))
    });
    let last = recent.back().copied().unwrap_or(0);
    let (case, mismatch) = alone.unwrap_or((last, mismatch));
    Failure {
        scenario: scenario.name,
        test: scenario.test,
        part,
        case,
        mismatch,
    }
}

/// True if `SLIPKNOLL_SEED` names one case to run alone.
pub fn runs_one_case() -> bool {
    chosen_case().is_some()
}

/// Reads `SLIPKNOLL_SEED`: scenario, part and case.
fn chosen_case() -> Option<(String, Part, u64)> {
    let text = env::var("SLIPKNOLL_SEED").ok()?;
    let chosen = chosen_in(&text);
    let form =
        "SLIPKNOLL_SEED is <scenario>:<part>:<number>, the part short, short256, full or full256";
    Some(chosen.expect(form))
}

fn chosen_in(text: &str) -> Option<(String, Part, u64)> {
    let words: Vec<&str> = text.split(':').collect();
    match words[..] {
        [name, part, case] => Some((name.into(), parts::named(part)?, case.parse().ok()?)),
        _ => None,
    }
}
