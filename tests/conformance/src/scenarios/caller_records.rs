//! Records that no chip makes: unknown tags, buffers that a tag does not fit,
//! places and sector sets beyond the part, marks that are neither 0 nor 1.

use at45db081d_model::record::{field, tag};
use at45db081d_model::{Part, Record};

use crate::frames;
use crate::mismatch::Mismatch;
use crate::pair::Pair;
use crate::records;
use crate::rng::{Digits, Rng};
use crate::runner::Scenario;
use crate::step::Step;

pub const CALLER_RECORDS: Scenario = Scenario {
    name: "every_tag_of_a_callers_record",
    test: "library",
    cases,
    run,
};

const BUFFERS: [u8; 5] = [0, 1, 2, 3, 0xFF];

/// Numbers at the edges of sectors, blocks and pages of the parts.
const NUMBERS: [u16; 20] = [
    0, 1, 2, 15, 16, 17, 127, 128, 255, 256, 511, 512, 513, 3840, 4095, 4096, 4097, 0x7FFF, 0x8000,
    0xFFFF,
];

/// Sets within, at the edge of and beyond the parts.
const SECTOR_SETS: [u32; 14] = [
    0,
    1,
    2,
    3,
    4,
    5,
    0x1_0000,
    0x1_FFFF,
    0x2_0000,
    0x2_0001,
    0x100_0000,
    0x8000_0000,
    0x8000_0003,
    0xFFFF_FFFF,
];

const CALLS: usize = 8;

/// Every tag with every buffer; the known ones with every number and set.
fn cases(_: Part) -> u64 {
    (CALLS * BUFFERS.len() * (256 + KNOWN_TAGS.len() * NUMBERS.len() * 2)) as u64
}

const KNOWN_TAGS: [u8; 14] = [
    tag::IDLE,
    tag::PROGRAM,
    tag::PROGRAM_WITHOUT_ERASE,
    tag::TRANSFER,
    tag::COMPARE,
    tag::REWRITE,
    tag::ERASE_PAGE,
    tag::ERASE_BLOCK,
    tag::ERASE_SECTOR,
    tag::ERASE_CHIP,
    tag::ERASE_PROTECTION,
    tag::PROGRAM_PROTECTION,
    tag::LOCK_SECTOR,
    tag::PROGRAM_SECURITY,
];

fn run(pair: &mut Pair, case: u64) -> Result<(), Mismatch> {
    let (mut digits, mut rng) = (Digits::new(case), Rng::new(case));
    let call = digits.below(CALLS);
    let buffer = digits.pick(&BUFFERS);
    let rest = digits.below(256 + KNOWN_TAGS.len() * NUMBERS.len() * 2);
    let (tag, number) = match rest.checked_sub(256) {
        None => (rest as u8, rng.pick(&NUMBERS)),
        Some(rest) => {
            let mut digits = Digits::new(rest as u64);
            (digits.pick(&KNOWN_TAGS), digits.pick(&NUMBERS))
        }
    };
    let mut record = records::random(&mut rng);
    records::set_place(&mut record, (tag, buffer), number, rng.pick(&SECTOR_SETS));
    if rng.one_in(2) {
        spoil_marks(&mut rng, &mut record);
    }
    pair.step(Step::Load(Box::new(record)))?;
    let first = step(&mut rng, call, pair.part);
    pair.step(first)?;
    if rng.one_in(4) {
        let call = rng.below(CALLS);
        let second = step(&mut rng, call, pair.part);
        pair.step(second)?;
    }
    Ok(())
}

/// Marks of any value: all but 0 read as 1.
fn spoil_marks(rng: &mut Rng, record: &mut Record) {
    for mark in [
        field::SECURITY_PROGRAMMED,
        field::PROTECTION_ENABLED,
        field::WP_HIGH,
        field::DEEP_POWER_DOWN,
        field::COMPARE,
    ] {
        record[mark] = rng.pick(&[0, 1, 2, 0x10, 0x80, 0xFE, 0xFF]);
    }
}

fn step(rng: &mut Rng, call: usize, part: Part) -> Step {
    let array_len = part.array_len();
    let junk_len = part.junk_len();
    match call {
        0 => Step::send(array_len, vec![0xD7, 0x00]),
        1 => {
            let page = records::page(rng, part);
            let address = frames::address(rng, page, 0, part);
            let row = rng.pick(&frames::ROWS);
            let len = row.lead + rng.below(20);
            Step::send(array_len, row.frame(rng, address, len))
        }
        2 | 3 => Step::EndBusy { array_len },
        4 => Step::MovePin { high: false },
        5 => Step::MovePin { high: true },
        6 if rng.one_in(8) => {
            let mut factory = Box::new([0; 64]);
            rng.fill(&mut factory[..]);
            Step::Fresh { array_len, factory }
        }
        _ => Step::Cut {
            array_len,
            junk_len,
            seed: rng.next_u64(),
            register: rng.byte(),
        },
    }
}
