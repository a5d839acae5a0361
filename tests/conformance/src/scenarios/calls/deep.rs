//! Every call on a deep chip, idle or (made by a caller) busy; then the chip is
//! woken and the call made again.

use at45db081d_model::record::field;
use at45db081d_model::Part;

use super::{load, open_record, request, slot, KINDS};
use crate::mismatch::Mismatch;
use crate::pair::Pair;
use crate::records::OPERATIONS;
use crate::request::{CallStep, Request};
use crate::rng::{Digits, Rng};
use crate::runner::Scenario;

pub const DEEP: Scenario = Scenario {
    name: "calls_on_a_deep_chip",
    test: "calls",
    cases,
    run,
};

const SCRIPTS: [&[u8]; 5] = [&[], &[0], &[1], &[2], &[1, 2]];
const LIMITS: [usize; 3] = [1, 2, 1000];

fn cases(_: Part) -> u64 {
    (KINDS * OPERATIONS.len() * SCRIPTS.len() * LIMITS.len() * 4) as u64
}

fn run(pair: &mut Pair, case: u64) -> Result<(), Mismatch> {
    let (part, mut digits, mut rng) = (pair.part, Digits::new(case), Rng::new(case));
    let kind = digits.below(KINDS);
    let operation = digits.pick(&OPERATIONS);
    let script = digits.pick(&SCRIPTS).to_vec();
    let limit = digits.pick(&LIMITS);
    let mut record = open_record(&mut rng, part, operation);
    record[field::DEEP_POWER_DOWN] = 1;
    record[field::PROTECTION_ENABLED] = u8::from(digits.flag());
    record[field::WP_HIGH] = u8::from(digits.flag());
    load(pair, record)?;
    let slot = slot(&mut rng, part);
    let request = request(&mut rng, part, kind, slot, limit);
    let call = CallStep::new(part, request)
        .with_script(script)
        .with_junk(rng.next_u64(), rng.byte());
    pair.call(call.clone())?;
    pair.call(CallStep::new(part, Request::raw(vec![0xAB])))?;
    pair.call(call)?;
    Ok(())
}
