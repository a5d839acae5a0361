//! Every operation at the edges of its place, ended by a busy end or by a cut
//! with junk on both sides of 80h, with buffers like and unlike the page.

use at45db081d_model::record::{field, tag};
use at45db081d_model::{Part, Record};

use crate::mismatch::Mismatch;
use crate::pair::Pair;
use crate::records::{self, OPERATIONS};
use crate::rng::{Digits, Rng};
use crate::runner::Scenario;
use crate::step::Step;

pub const BUSY_ENDS: Scenario = Scenario {
    name: "every_busy_end_and_cut",
    test: "library",
    cases,
    run,
};

/// How the operation ends: a busy end, or a cut with this byte where a register's
/// junk begins.
const ENDINGS: [Option<u8>; 6] = [None, None, Some(0x00), Some(0x7F), Some(0x80), Some(0xFF)];

/// Places per operation: first, last, and some between.
const PLACES: usize = 8;

/// How the buffers resemble the page.
const LIKENESSES: usize = 5;

const MARKS: usize = 16;

fn cases(_: Part) -> u64 {
    (OPERATIONS.len() * ENDINGS.len() * PLACES * LIKENESSES * MARKS) as u64
}

fn run(pair: &mut Pair, case: u64) -> Result<(), Mismatch> {
    let (part, mut digits, mut rng) = (pair.part, Digits::new(case), Rng::new(case));
    let operation = digits.pick(&OPERATIONS);
    let ending = digits.pick(&ENDINGS);
    let mut record = records::random(&mut rng);
    let number = place(&mut rng, operation.0, digits.below(PLACES), part);
    let sectors = rng.next_u64() as u32 & ((1 << part.sectors()) - 1);
    records::set_place(&mut record, operation, number as u16, sectors);
    set_buffers(
        &mut rng,
        &mut record,
        digits.below(LIKENESSES),
        pair,
        number,
    );
    for mark in [
        field::SECURITY_PROGRAMMED,
        field::PROTECTION_ENABLED,
        field::WP_HIGH,
        field::DEEP_POWER_DOWN,
    ] {
        record[mark] = u8::from(digits.flag());
    }
    pair.step(Step::Load(Box::new(record)))?;
    pair.step(end(&mut rng, ending, part))?;
    pair.step(Step::send(part.array_len(), vec![0xD7, 0x00]))?;
    Ok(())
}

fn end(rng: &mut Rng, ending: Option<u8>, part: Part) -> Step {
    let array_len = part.array_len();
    match ending {
        None => Step::EndBusy { array_len },
        Some(register) => Step::Cut {
            array_len,
            junk_len: part.junk_len(),
            seed: rng.next_u64(),
            register,
        },
    }
}

/// A page, block or sector of the part: the first two, the last two, or any.
fn place(rng: &mut Rng, tag: u8, index: usize, part: Part) -> usize {
    let places = match tag {
        tag::ERASE_BLOCK => part.blocks(),
        tag::ERASE_SECTOR | tag::LOCK_SECTOR => usize::from(part.sectors()),
        _ => part.pages,
    };
    match index {
        0 | 1 => index,
        2 | 3 => places + 1 - index,
        _ => rng.below(places),
    }
    .min(places - 1)
}

/// Makes both buffers like the page, unlike it in one byte, or leaves them; what a
/// buffer has behind the page's bytes stays.
fn set_buffers(rng: &mut Rng, record: &mut Record, likeness: usize, pair: &Pair, page: usize) {
    if likeness == 0 || page >= pair.part.pages {
        return;
    }
    let page = &pair.array()[pair.part.page_range(page as u16)];
    let byte = match likeness {
        2 => 0,
        3 => page.len() - 1,
        _ => rng.below(page.len()),
    };
    for buffer in [field::BUFFER_1, field::BUFFER_2] {
        let buffer = &mut record[buffer];
        buffer[..page.len()].copy_from_slice(page);
        if likeness > 1 {
            buffer[byte] ^= 1 << rng.below(8);
        }
    }
}
