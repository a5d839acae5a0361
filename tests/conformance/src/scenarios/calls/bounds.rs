//! Every wait takes all of its polls, so that the frames reach their bound; or
//! one wait takes one poll too many.

use at45db081d_model::record::field;
use at45db081d_model::record::tag;
use at45db081d_model::Part;

use super::{load, open_record, request, slot, GET, PATCH, PUT, SLOT_KINDS, WIPE};
use crate::mismatch::Mismatch;
use crate::pair::Pair;
use crate::records::OPERATIONS;
use crate::request::CallStep;
use crate::rng::{Digits, Rng};
use crate::runner::Scenario;

pub const BOUNDS: Scenario = Scenario {
    name: "frames_reach_their_bound",
    test: "calls",
    cases,
    run,
};

const LIMITS: [usize; 6] = [2, 3, 4, 5, 17, 1000];

/// Which wait takes one poll too many; 17 for none.
const LATE: usize = 18;

fn cases(_: Part) -> u64 {
    (SLOT_KINDS * LIMITS.len() * LATE * OPERATIONS.len()) as u64
}

fn run(pair: &mut Pair, case: u64) -> Result<(), Mismatch> {
    let (part, mut digits, mut rng) = (pair.part, Digits::new(case), Rng::new(case));
    let kind = digits.below(SLOT_KINDS);
    let late = digits.below(LATE);
    let operation = digits.pick(&OPERATIONS);
    let limit = digits.pick(&LIMITS);
    // An FC or CF may list the slot's sector; a high WP lets that pass.
    let mut record = open_record(&mut rng, part, operation);
    record[field::WP_HIGH] = 1;
    record[field::PROTECTION_ENABLED] = 0;
    load(pair, record)?;
    let busy = operation.0 != tag::IDLE;
    let script = script(kind, limit, late, busy);
    let slot = slot(&mut rng, part);
    let request = request(&mut rng, part, kind, slot, limit);
    let outcome = pair.call(CallStep::new(part, request).with_script(script))?;
    // The most frames of a put, a patch, a get, a wipe (10.29).
    let bound = [17 * limit + 26, 17 * limit + 34, limit + 8, 2 * limit + 3][kind] as u64;
    let locks = operation.0 == tag::LOCK_SECTOR;
    if busy && late == LATE - 1 && !locks {
        assert_eq!(outcome.frames, bound, "the script reaches the bound");
    }
    Ok(())
}

/// 1s while a wait goes on, and a 0 at its last poll but one.
fn script(kind: usize, limit: usize, late: usize, busy: bool) -> Vec<u8> {
    let mut script = Vec::new();
    let wait = |script: &mut Vec<u8>, number: usize| {
        let polls = limit + usize::from(number == late);
        script.resize(script.len() + polls - 2, 1);
        script.extend([0, 0]);
    };
    if busy {
        wait(&mut script, 0);
    } else {
        script.push(0);
    }
    match kind {
        PUT | PATCH => {
            script.extend([0, 0]);
            for page in 0..8 {
                // D2 of a patch, 84, and 83 and 60, which stay busy.
                script.resize(script.len() + 1 + usize::from(kind == PATCH), 0);
                script.push(1);
                wait(&mut script, 2 * page + 1);
                script.push(1);
                wait(&mut script, 2 * page + 2);
            }
        }
        WIPE => {
            script.extend([0, 0, 1]);
            wait(&mut script, 1);
        }
        GET => {}
        _ => unreachable!("a call with a slot"),
    }
    script
}
