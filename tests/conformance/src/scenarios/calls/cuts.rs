//! A cut after every frame of every call, on chips busy with each operation.

use at45db081d_model::record::tag;
use at45db081d_model::Part;

use super::{load, open_record, request, slot, store_head, GET, KINDS};
use crate::dates;
use crate::mismatch::Mismatch;
use crate::pair::Pair;
use crate::records::OPERATIONS;
use crate::request::CallStep;
use crate::rng::{Digits, Rng};
use crate::runner::Scenario;

pub const CUTS: Scenario = Scenario {
    name: "cut_after_every_frame",
    test: "calls",
    cases,
    run,
};

/// The frame after which the cut comes; a patch sends at most 119 with B = 5.
const INDICES: usize = 120;

/// Frames of each call on an idle chip under an empty script.
const FRAMES: [usize; KINDS] = [43, 51, 9, 5, 1];

/// What the script has before the cut: 0s, 0s and then one 1, or 0s and 1s.
const BEGINNINGS: usize = 3;

const LIMITS: [usize; 2] = [1, 5];

/// The first junk byte of a register, on both sides of 80h.
const REGISTERS: [u8; 2] = [0x7F, 0x80];

fn cases(_: Part) -> u64 {
    (KINDS * INDICES * OPERATIONS.len() * BEGINNINGS * LIMITS.len() * REGISTERS.len()) as u64
}

fn run(pair: &mut Pair, case: u64) -> Result<(), Mismatch> {
    let (part, mut digits, mut rng) = (pair.part, Digits::new(case), Rng::new(case));
    let kind = digits.below(KINDS);
    let index = digits.below(INDICES);
    let operation = digits.pick(&OPERATIONS);
    let beginning = digits.below(BEGINNINGS);
    let limit = digits.pick(&LIMITS);
    let register = digits.pick(&REGISTERS);
    let slot = slot(&mut rng, part);
    if rng.one_in(2) {
        let (version, days) = (rng.pick(&[1, 2]), dates::stored(&mut rng));
        store_head(pair, slot, version, 100, days)?;
    }
    load(pair, open_record(&mut rng, part, operation))?;
    let mut script = beginning_of(&mut rng, beginning, index);
    script.push(2);
    let request = request(&mut rng, part, kind, slot, limit);
    let call = CallStep::new(part, request)
        .with_script(script)
        .with_junk(rng.next_u64(), register);
    let answer = pair.call(call)?.answer;
    if operation.0 == tag::IDLE && beginning == 0 {
        assert_eq!(answer == 11, index < FRAMES[kind], "every frame is met");
    }
    if rng.one_in(4) {
        let read = self::request(&mut rng, part, GET, slot, 2);
        pair.call(CallStep::new(part, read))?;
    }
    Ok(())
}

fn beginning_of(rng: &mut Rng, beginning: usize, len: usize) -> Vec<u8> {
    let mut script = vec![0; len];
    match beginning {
        0 => {}
        1 => {
            if let Some(last) = script.last_mut() {
                *last = 1;
            }
        }
        _ => script.fill_with(|| u8::from(rng.one_in(3))),
    }
    script
}
