//! Script bytes of every kind at every place: reached, not reached, and past
//! all frames that the call could send; with junk of right and wrong lengths.

use at45db081d_model::Part;

use super::{load, open_record, request, slot, KINDS};
use crate::mismatch::Mismatch;
use crate::pair::Pair;
use crate::records::OPERATIONS;
use crate::request::CallStep;
use crate::rng::{Digits, Rng};
use crate::runner::Scenario;

pub const SCRIPTS: Scenario = Scenario {
    name: "script_bytes_at_every_place",
    test: "calls",
    cases,
    run,
};

/// With B = 1 the calls send at most 43, 51, 9, 5 and 1 frames.
const PLACES: [usize; 15] = [0, 1, 2, 4, 5, 8, 9, 42, 43, 50, 51, 52, 100, 17_034, 60_000];

const BYTES: [u8; 7] = [0, 1, 2, 3, 4, 0x80, 0xFF];

/// Junk lengths: each part's, near the part's own, or none.
const JUNKS: usize = 7;

fn cases(_: Part) -> u64 {
    (KINDS * PLACES.len() * BYTES.len() * JUNKS * 2) as u64
}

fn run(pair: &mut Pair, case: u64) -> Result<(), Mismatch> {
    let (part, mut digits, mut rng) = (pair.part, Digits::new(case), Rng::new(case));
    let kind = digits.below(KINDS);
    let place = digits.pick(&PLACES);
    let byte = digits.pick(&BYTES);
    let junk = digits.below(JUNKS);
    let goes_on = digits.flag();
    let operation = rng.pick(&OPERATIONS);
    load(pair, open_record(&mut rng, part, operation))?;
    let mut script = vec![0; place];
    script.push(byte);
    if goes_on {
        script.extend([1, 0, 2, 0]);
    }
    let slot = slot(&mut rng, part);
    let request = request(&mut rng, part, kind, slot, 1);
    let mut call = CallStep::new(part, request)
        .with_script(script)
        .with_junk(rng.next_u64(), rng.byte());
    call.junk_len = match junk {
        0..=3 => Part::ALL[junk].junk_len(),
        4 => part.junk_len() - 1,
        5 => part.junk_len() + 1,
        _ => 0,
    };
    pair.call(call)?;
    Ok(())
}
