//! Poll limits 1 to 5 and 1,000 on chips busy with each operation, under
//! scripts of 1s that begin at any frame.

use at45db081d_model::Part;

use super::{load, open_record, request, slot, SLOT_KINDS};
use crate::mismatch::Mismatch;
use crate::pair::Pair;
use crate::records::OPERATIONS;
use crate::request::CallStep;
use crate::rng::{Digits, Rng};
use crate::runner::Scenario;

pub const POLLS: Scenario = Scenario {
    name: "poll_limits_under_scripts_of_1s",
    test: "calls",
    cases,
    run,
};

const LIMITS: [usize; 6] = [1, 2, 3, 4, 5, 1000];

/// Frames before the first 1: none, up to the first 83, 60 or 50, or further on.
const FIRST: [usize; 9] = [0, 1, 3, 4, 5, 6, 7, 8, 30];

/// Numbers of 1s, as how many more than the limit or as they are.
const ONES: usize = 9;

fn cases(_: Part) -> u64 {
    (SLOT_KINDS * LIMITS.len() * OPERATIONS.len() * FIRST.len() * ONES) as u64
}

fn run(pair: &mut Pair, case: u64) -> Result<(), Mismatch> {
    let (part, mut digits, mut rng) = (pair.part, Digits::new(case), Rng::new(case));
    let kind = digits.below(SLOT_KINDS);
    let limit = digits.pick(&LIMITS);
    let operation = digits.pick(&OPERATIONS);
    let first = digits.pick(&FIRST);
    let ones = match digits.below(ONES) {
        near @ 0..=3 => (limit + near).saturating_sub(2),
        few => few - 3,
    };
    load(pair, open_record(&mut rng, part, operation))?;
    let mut script = vec![0; first];
    script.resize(first + ones, 1);
    let slot = slot(&mut rng, part);
    let request = request(&mut rng, part, kind, slot, limit);
    pair.call(CallStep::new(part, request).with_script(script))?;
    Ok(())
}
