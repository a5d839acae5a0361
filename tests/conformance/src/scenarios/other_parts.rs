//! Operations that a frame began on one part, met by an array of another: a
//! status, a busy end, a cut with the junk of either, a call.

use at45db081d_model::record::{field, tag};
use at45db081d_model::Part;

use super::calls;
use crate::frames::ROWS;
use crate::mismatch::Mismatch;
use crate::pair::Pair;
use crate::parts;
use crate::records;
use crate::request::CallStep;
use crate::rng::{Digits, Rng};
use crate::runner::Scenario;
use crate::step::Step;

pub const OTHER_PARTS: Scenario = Scenario {
    name: "operations_met_by_other_parts",
    test: "library",
    cases,
    run,
};

/// The page that the frame names: first, last of the short parts, next, any.
const PAGES: usize = 4;

/// What meets the operation.
const MEETINGS: usize = 5;

fn cases(part: Part) -> u64 {
    let parts = parts::with_room(part).len();
    (ROWS.len() * parts * parts * PAGES * MEETINGS) as u64
}

fn run(pair: &mut Pair, case: u64) -> Result<(), Mismatch> {
    let (mut digits, mut rng) = (Digits::new(case), Rng::new(case));
    let row = digits.pick(&ROWS);
    let parts = parts::with_room(pair.part);
    let (begun, met) = (digits.pick(&parts), digits.pick(&parts));
    let page = match digits.below(PAGES) {
        0 => 0,
        1 => 127,
        2 => 128 % begun.pages,
        _ => records::page(&mut rng, begun),
    };
    let mut record = calls::open_record(&mut rng, begun, (tag::IDLE, 0));
    record[field::SECURITY_PROGRAMMED] = 0;
    record[field::WP_HIGH] = 1;
    calls::load(pair, record)?;
    let address = begun.address_of(page as u16);
    let len = row.lead + rng.pick(&[0, 20, 264]);
    let frame = row.frame(&mut rng, address, len);
    pair.step(Step::send(begun.array_len(), frame))?;
    meet(pair, &mut rng, digits.below(MEETINGS), begun, met)?;
    pair.step(Step::send(met.array_len(), vec![0xD7, 0x00]))?;
    Ok(())
}

fn meet(
    pair: &mut Pair,
    rng: &mut Rng,
    meeting: usize,
    begun: Part,
    met: Part,
) -> Result<(), Mismatch> {
    let array_len = met.array_len();
    let cut = |rng: &mut Rng, junk_len| Step::Cut {
        array_len,
        junk_len,
        seed: rng.next_u64(),
        register: rng.byte(),
    };
    let step = match meeting {
        0 => Step::send(array_len, calls::random_frame(rng, met)),
        1 => Step::EndBusy { array_len },
        2 => cut(rng, met.junk_len()),
        3 => cut(rng, begun.junk_len()),
        _ => {
            let (kind, slot) = (rng.below(calls::KINDS), rng.below(met.blocks()));
            let request = calls::request(rng, met, kind, slot, 2);
            let script = vec![rng.pick(&[0, 1, 2])];
            let junk = (rng.next_u64(), rng.byte());
            let call = CallStep::new(met, request).with_script(script);
            Step::call(call.with_junk(junk.0, junk.1))
        }
    };
    pair.step(step).map(|_| ())
}
