//! Puts and patches on chips whose compare bit is set, by the caller or by a raw 60,
//! with busy periods that end late after one frame of the call, or never.

use at45db081d_model::answer;
use at45db081d_model::record::{field, tag};
use at45db081d_model::Part;

use super::{load, open_record, random_bytes, request, slot, store_head, PATCH, PUT};
use crate::mismatch::Mismatch;
use crate::pair::Pair;
use crate::request::{CallStep, Request};
use crate::rng::{Digits, Rng};
use crate::runner::Scenario;

pub const COMPARES: Scenario = Scenario {
    name: "calls_after_a_compare",
    test: "calls",
    cases,
    run,
};

/// The frame whose busy period ends late; a patch has 51.
const FRAMES: usize = 52;

/// Polls that find the chip busy behind it.
const LATE: usize = 4;
const LIMIT: usize = 3;

/// How the compare bit came to be: by the caller, by a 60 or a 61 that was sent raw
/// or straight.
const WAYS: usize = 3;

fn cases(_: Part) -> u64 {
    (2 * FRAMES * LATE * WAYS * 2) as u64
}

fn run(pair: &mut Pair, case: u64) -> Result<(), Mismatch> {
    let (part, mut digits, mut rng) = (pair.part, Digits::new(case), Rng::new(case));
    let kind = digits.pick(&[PUT, PATCH]);
    let (frame, late) = (digits.below(FRAMES), digits.below(LATE));
    let (way, ends) = (digits.below(WAYS), digits.flag());
    let slot = slot(&mut rng, part);
    store_head(pair, slot, 1, 1000, [0, 0])?;
    let mut record = open_record(&mut rng, part, (tag::IDLE, 0));
    record[field::COMPARE] = u8::from(way == 0);
    load(pair, record)?;
    compare(pair, &mut rng, way, slot)?;
    assert_ne!(pair.record()[field::COMPARE], 0, "the compare bit is set");

    let mut script = vec![0; frame];
    script.resize(frame + late, 1);
    if !ends {
        script.resize(frame + 100, 1);
    }
    let request = request(&mut rng, part, kind, slot, LIMIT);
    let outcome = pair.call(CallStep::new(part, request).with_script(script))?;
    let allowed = [0, answer::BUSY, answer::BLANK, answer::END];
    assert!(allowed.contains(&outcome.answer), "{outcome:?}");
    // As many polls as it may have find the chip ready at last.
    if ends && late < LIMIT {
        assert_ne!(outcome.answer, answer::BUSY, "{outcome:?}");
    }
    Ok(())
}

/// Compares a page of the slot with a buffer that holds something else.
fn compare(pair: &mut Pair, rng: &mut Rng, way: usize, slot: usize) -> Result<(), Mismatch> {
    let part = pair.part;
    let opcode = match way {
        0 => return Ok(()),
        1 => 0x60,
        _ => 0x61,
    };
    let mut load = vec![if opcode == 0x60 { 0x84 } else { 0x87 }, 0, 0, 0];
    load.extend(random_bytes(rng, part.page_size));
    let [_, high, middle, low] = part.address_of(8 * slot as u16).to_be_bytes();
    for frame in [load, vec![opcode, high, middle, low]] {
        pair.call(CallStep::new(part, Request::raw(frame)))?;
    }
    Ok(())
}
