//! Records for cases: registers, marks, operations under way.

use std::ops::Range;

use at45db081d_model::record::{field, tag};
use at45db081d_model::{Part, Record, RECORD_LEN};

use crate::rng::Rng;

/// Every operation under way: tag, and the buffer that fits it.
pub const OPERATIONS: [(u8, u8); 19] = [
    (tag::IDLE, 0),
    (tag::PROGRAM, 1),
    (tag::PROGRAM, 2),
    (tag::PROGRAM_WITHOUT_ERASE, 1),
    (tag::PROGRAM_WITHOUT_ERASE, 2),
    (tag::TRANSFER, 1),
    (tag::TRANSFER, 2),
    (tag::COMPARE, 1),
    (tag::COMPARE, 2),
    (tag::REWRITE, 1),
    (tag::REWRITE, 2),
    (tag::ERASE_PAGE, 0),
    (tag::ERASE_BLOCK, 0),
    (tag::ERASE_SECTOR, 0),
    (tag::ERASE_CHIP, 0),
    (tag::ERASE_PROTECTION, 0),
    (tag::PROGRAM_PROTECTION, 0),
    (tag::LOCK_SECTOR, 0),
    (tag::PROGRAM_SECURITY, 0),
];

/// The index in [`OPERATIONS`] of the record's operation, if it is known.
pub fn operation_of(record: &Record) -> Option<usize> {
    let operation = (record[field::TAG], record[field::BUFFER]);
    OPERATIONS.iter().position(|&known| known == operation)
}

/// Register bytes of every kind that matters: none, all, each single bit, the
/// low half of byte 0, 0a and 0b apart.
pub const PATTERNS: [u8; 13] = [
    0x00, 0x01, 0x02, 0x04, 0x08, 0x10, 0x20, 0x40, 0x80, 0x0F, 0x30, 0xC0, 0xFF,
];

/// An idle record with random bytes in registers and buffers and with random
/// marks, of which deep is rare.
pub fn random(rng: &mut Rng) -> Record {
    let mut record = [0; RECORD_LEN];
    rng.fill(&mut record);
    sector_register(rng, &mut record[field::PROTECTION], 2);
    sector_register(rng, &mut record[field::LOCKDOWN], 4);
    for mark in [
        field::SECURITY_PROGRAMMED,
        field::PROTECTION_ENABLED,
        field::WP_HIGH,
        field::COMPARE,
    ] {
        record[mark] &= 1;
    }
    record[field::DEEP_POWER_DOWN] = u8::from(rng.one_in(16));
    record[field::TAG] = tag::IDLE;
    record[field::BUFFER] = 0;
    record
}

/// Fills a protection or lockdown register; it has something set once in
/// `rarity` times.
fn sector_register(rng: &mut Rng, register: &mut [u8], rarity: usize) {
    register.fill(0);
    if !rng.one_in(rarity) {
        return;
    }
    match rng.below(4) {
        0 => register.fill(0xFF),
        1 => rng.fill(register),
        2 => register[0] = rng.pick(&PATTERNS),
        _ => {
            for byte in register {
                *byte = rng.pick(&PATTERNS) * u8::from(rng.one_in(3));
            }
        }
    }
}

/// Puts an operation under way whose place lies within the part. Fields that
/// it does not have keep what stands there, half of the time.
pub fn set_operation(rng: &mut Rng, record: &mut Record, operation: (u8, u8), part: Part) {
    let place = match operation.0 {
        tag::ERASE_BLOCK => rng.below(part.blocks()),
        tag::ERASE_SECTOR | tag::LOCK_SECTOR => rng.below(usize::from(part.sectors())),
        _ => page(rng, part),
    };
    let sectors = rng.next_u64() as u32 & ((1 << part.sectors()) - 1);
    set_place(record, operation, place as u16, sectors);
    if rng.one_in(2) {
        clear_unused(record);
    }
}

/// Puts an operation under way with any number and any set of sectors.
pub fn set_place(record: &mut Record, operation: (u8, u8), number: u16, sectors: u32) {
    record[field::TAG] = operation.0;
    record[field::BUFFER] = operation.1;
    record[field::NUMBER].copy_from_slice(&number.to_be_bytes());
    record[field::SECTORS].copy_from_slice(&sectors.to_be_bytes());
}

/// Clears the fields that the operation under way does not have.
fn clear_unused(record: &mut Record) {
    for stale in stale_fields(record[field::TAG]) {
        record[stale].fill(0);
    }
}

/// The fields that the operation with this tag does not have.
fn stale_fields(tag: u8) -> [Range<usize>; 3] {
    let number = match tag {
        tag::IDLE
        | tag::ERASE_CHIP
        | tag::ERASE_PROTECTION
        | tag::PROGRAM_PROTECTION
        | tag::PROGRAM_SECURITY => field::NUMBER,
        _ => 0..0,
    };
    let sectors = match tag {
        tag::ERASE_CHIP => 0..0,
        _ => field::SECTORS,
    };
    let data = match tag {
        tag::PROGRAM_SECURITY => 0..0,
        tag::PROGRAM_PROTECTION => field::DATA.start + 16..field::DATA.end,
        _ => field::DATA,
    };
    [number, sectors, data]
}

/// A record alike in registers, and otherwise different: buffers, compare bit,
/// fields that the operation does not have, and the byte that stands for a mark.
pub fn alike_in_registers(rng: &mut Rng, record: &Record) -> Record {
    let mut other = *record;
    rng.fill(&mut other[field::BUFFER_1]);
    rng.fill(&mut other[field::BUFFER_2]);
    other[field::COMPARE] = u8::from(record[field::COMPARE] == 0);
    for stale in stale_fields(record[field::TAG]) {
        rng.fill(&mut other[stale]);
    }
    for mark in [
        field::SECURITY_PROGRAMMED,
        field::PROTECTION_ENABLED,
        field::WP_HIGH,
        field::DEEP_POWER_DOWN,
    ] {
        if record[mark] != 0 {
            other[mark] = rng.byte().max(1);
        }
    }
    other
}

/// A page of the part; those at the edges of sectors come often.
pub fn page(rng: &mut Rng, part: Part) -> usize {
    if rng.one_in(2) {
        return rng.below(part.pages);
    }
    let edges = edge_pages(part);
    edges[rng.below(edges.len())]
}

/// The first and last page of each sector.
pub fn edge_pages(part: Part) -> Vec<usize> {
    (0..part.sectors())
        .map(|sector| part.sector_range(sector))
        .flat_map(|range| [range.start / part.page_size, range.end / part.page_size - 1])
        .collect()
}
