//! Long random runs of calls, straight frames, busy ends, pin moves and cuts:
//! each works on what the one before has left of record and array.

use at45db081d_model::record::field;
use at45db081d_model::Part;

use super::{load, random_bytes, random_frame, request, slot, store_head, KINDS, PATCH, PUT};
use crate::dates;
use crate::mismatch::Mismatch;
use crate::pair::Pair;
use crate::parts;
use crate::records::{self, OPERATIONS};
use crate::request::{CallStep, Request};
use crate::rng::Rng;
use crate::runner::Scenario;
use crate::step::Step;

pub const RANDOM_CALLS: Scenario = Scenario {
    name: "random_calls",
    test: "calls",
    cases,
    run,
};

/// Steps of one run.
const STEPS: usize = 200;

/// The number of seeds; any other may be given by hand.
fn cases(part: Part) -> u64 {
    if parts::is_short(part) {
        150
    } else {
        15
    }
}

fn run(pair: &mut Pair, seed: u64) -> Result<(), Mismatch> {
    let mut rng = Rng::new(seed.wrapping_mul(0xD134_2543_DE82_EF95));
    let mut first = records::random(&mut rng);
    first[field::DEEP_POWER_DOWN] = 0;
    load(pair, first)?;
    let part = pair.part;
    for _ in 0..STEPS {
        match rng.below(100) {
            0..=79 => {
                let call = call(&mut rng, part);
                pair.call(call)?;
            }
            80..=91 => {
                let step = event(&mut rng, part);
                pair.step(step)?;
            }
            92..=94 => {
                let slot = slot(&mut rng, part);
                let len = rng.below(part.max_recipe() + 1) as u16;
                let (version, days) = (rng.pick(&[1, 2]), dates::stored(&mut rng));
                store_head(pair, slot, version, len, days)?;
            }
            _ => {
                let mut record = records::random(&mut rng);
                let operation = rng.pick(&OPERATIONS);
                records::set_operation(&mut rng, &mut record, operation, part);
                load(pair, record)?;
            }
        }
    }
    Ok(())
}

fn call(rng: &mut Rng, part: Part) -> CallStep {
    // Few slots, so that calls meet what others have left.
    let slot = match rng.below(4) {
        0 => slot(rng, part),
        _ => rng.below(3),
    };
    let limit = rng.pick(&[1, 1, 2, 3, 5, 20]);
    let kind = rng.below(KINDS);
    let request = match kind {
        PATCH if rng.one_in(4) => {
            let place = rng.below(part.max_recipe());
            let len = rng.below(part.max_recipe() + 2 - place);
            Request::patch(slot, limit, place, random_bytes(rng, len))
        }
        _ if rng.one_in(40) => match kind {
            PUT => Request::put(slot, limit, Some(dates::no_term(rng)), Vec::new()),
            _ => Request::get(slot, limit, dates::no_date(rng), part.max_recipe()),
        },
        _ => request(rng, part, kind, slot, limit),
    };
    let mut call = CallStep::new(part, request).with_junk(rng.next_u64(), rng.byte());
    call.script = script(rng);
    if rng.one_in(40) {
        call.log_len = call.log_len.saturating_sub(1);
    }
    if rng.one_in(40) {
        let lent = rng.pick(&parts::with_room(part));
        (call.array_len, call.junk_len) = (lent.array_len(), lent.junk_len());
    }
    call
}

/// Mostly 0s with some 1s, at times a cut.
fn script(rng: &mut Rng) -> Vec<u8> {
    if rng.one_in(3) {
        return Vec::new();
    }
    let mut script = vec![0; rng.below(70)];
    let rarity = rng.pick(&[2, 4, 16]);
    script.fill_with(|| u8::from(rng.one_in(rarity)));
    if rng.one_in(4) {
        script.push(2);
    }
    script
}

fn event(rng: &mut Rng, part: Part) -> Step {
    let array_len = part.array_len();
    match rng.below(8) {
        0..=3 => Step::send(array_len, random_frame(rng, part)),
        4 | 5 => Step::EndBusy { array_len },
        6 => Step::MovePin {
            high: !rng.one_in(3),
        },
        _ => Step::Cut {
            array_len,
            junk_len: part.junk_len(),
            seed: rng.next_u64(),
            register: rng.byte(),
        },
    }
}
