//! Lengths that meet 1, 2 and 7, alone and together, under every operation.

use at45db081d_model::Part;

use crate::frames;
use crate::mismatch::Mismatch;
use crate::pair::Pair;
use crate::parts;
use crate::records::{self, OPERATIONS};
use crate::rng::{Digits, Rng};
use crate::runner::Scenario;
use crate::step::Step;

pub const REFUSALS: Scenario = Scenario {
    name: "every_length_refused",
    test: "library",
    cases,
    run,
};

/// Array lengths: the parts' first; those that the pair has no room for become the
/// part's own.
pub const ARRAY_LENGTHS: [usize; 22] = [
    33_792, 1_081_344, 32_768, 1_048_576, 0, 1, 255, 256, 263, 264, 2_048, 2_112, 32_767, 32_769,
    33_528, 33_791, 33_793, 67_584, 1_048_575, 1_048_577, 1_081_343, 1_081_345,
];

const FRAME_LENGTHS: [usize; 8] = [0, 1, 2, 4, 1099, 1100, 1101, 2200];

/// Reply lengths beside the frame's own.
const REPLY_LENGTHS: [usize; 5] = [0, 1, 2, 1100, 1101];

/// Junk lengths: right for one of the parts, near it, or far off.
const JUNK_LENGTHS: [usize; 20] = [
    34_320, 1_081_872, 33_280, 1_049_088, 0, 1, 511, 512, 527, 528, 32_768, 33_792, 33_279, 33_281,
    34_319, 34_321, 1_049_087, 1_049_089, 1_081_871, 1_081_873,
];

const CALLS: usize = 8;

fn cases(_: Part) -> u64 {
    let lengths = FRAME_LENGTHS.len() * (REPLY_LENGTHS.len() + 3);
    (ARRAY_LENGTHS.len() * OPERATIONS.len() * CALLS * lengths) as u64
}

fn run(pair: &mut Pair, case: u64) -> Result<(), Mismatch> {
    let (part, mut digits, mut rng) = (pair.part, Digits::new(case), Rng::new(case));
    let array_len = array_len(digits.below(ARRAY_LENGTHS.len()), part);
    let operation = digits.pick(&OPERATIONS);
    let mut record = records::random(&mut rng);
    records::set_operation(&mut rng, &mut record, operation, part);
    pair.step(Step::Load(Box::new(record)))?;
    let call = digits.below(CALLS);
    let step = match call {
        0 => Step::EndBusy { array_len },
        1 => fresh(&mut rng, array_len),
        2 | 3 => Step::Cut {
            array_len,
            junk_len: digits.pick(&JUNK_LENGTHS),
            seed: rng.next_u64(),
            register: rng.byte(),
        },
        _ => send(&mut digits, &mut rng, array_len),
    };
    pair.step(step)?;
    Ok(())
}

fn fresh(rng: &mut Rng, array_len: usize) -> Step {
    let mut factory = Box::new([0; 64]);
    rng.fill(&mut factory[..]);
    Step::Fresh { array_len, factory }
}

fn send(digits: &mut Digits, rng: &mut Rng, array_len: usize) -> Step {
    let len = digits.pick(&FRAME_LENGTHS);
    let reply_len = match digits.below(REPLY_LENGTHS.len() + 3) {
        0 => len + 1,
        1 => len.saturating_sub(1),
        2 => len,
        index => REPLY_LENGTHS[index - 3],
    };
    let address = rng.next_u64() as u32 & 0xFF_FFFF;
    let frame = rng.pick(&frames::ROWS).frame(rng, address, len);
    Step::Send {
        array_len,
        frame,
        reply_len,
    }
}

/// An array length that the pair has memory for.
pub fn array_len(index: usize, part: Part) -> usize {
    let len = ARRAY_LENGTHS[index];
    if len <= parts::room(part) + 1 {
        len
    } else {
        part.array_len()
    }
}
