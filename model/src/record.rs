//! The record block of 765 bytes, whose layout is the library's too (13.1),
//! and the chip's calls over such a block.

use std::ops::Range;

use crate::answer;
use crate::operation::{Buffer, Operation};
use crate::{Call, Chip, Lent, Outcome};

pub const RECORD_LEN: usize = 765;

/// The record as a block of bytes.
pub type Record = [u8; RECORD_LEN];

/// Where each field stands in the block (13.1).
pub mod field {
    use super::Range;

    pub const PROTECTION: Range<usize> = 0..16;
    pub const LOCKDOWN: Range<usize> = 16..32;
    pub const USER: Range<usize> = 32..96;
    pub const FACTORY: Range<usize> = 96..160;
    pub const SECURITY_PROGRAMMED: usize = 160;
    pub const PROTECTION_ENABLED: usize = 161;
    pub const WP_HIGH: usize = 162;
    pub const DEEP_POWER_DOWN: usize = 163;
    pub const TAG: usize = 164;
    pub const BUFFER: usize = 165;
    pub const NUMBER: Range<usize> = 166..168;
    pub const SECTORS: Range<usize> = 168..172;
    pub const DATA: Range<usize> = 172..236;
    pub const BUFFER_1: Range<usize> = 236..500;
    pub const BUFFER_2: Range<usize> = 500..764;
    pub const COMPARE: usize = 764;
}

/// The tags of the operations under way; the opcodes of buffer 2 and 82/85
/// share those of buffer 1 (13.4).
pub mod tag {
    pub const IDLE: u8 = 0x00;
    pub const PROGRAM: u8 = 0x83;
    pub const PROGRAM_WITHOUT_ERASE: u8 = 0x88;
    pub const TRANSFER: u8 = 0x53;
    pub const COMPARE: u8 = 0x60;
    pub const REWRITE: u8 = 0x58;
    pub const ERASE_PAGE: u8 = 0x81;
    pub const ERASE_BLOCK: u8 = 0x50;
    pub const ERASE_SECTOR: u8 = 0x7C;
    pub const ERASE_CHIP: u8 = 0xC7;
    pub const ERASE_PROTECTION: u8 = 0xCF;
    pub const PROGRAM_PROTECTION: u8 = 0xFC;
    pub const LOCK_SECTOR: u8 = 0x30;
    pub const PROGRAM_SECURITY: u8 = 0x9B;

    /// A tag that no operation has.
    pub const UNKNOWN: u8 = 0xFF;
}

impl Chip {
    /// Reads a block; a byte that holds a mark reads as set unless it is 0
    /// (13.2).
    pub fn from_record(record: &Record) -> Chip {
        Chip {
            protection: bytes(record, field::PROTECTION),
            lockdown: bytes(record, field::LOCKDOWN),
            user: bytes(record, field::USER),
            factory: bytes(record, field::FACTORY),
            security_programmed: record[field::SECURITY_PROGRAMMED] != 0,
            protection_enabled: record[field::PROTECTION_ENABLED] != 0,
            wp_high: record[field::WP_HIGH] != 0,
            deep_power_down: record[field::DEEP_POWER_DOWN] != 0,
            operation: read_operation(record),
            buffers: [
                bytes(record, field::BUFFER_1),
                bytes(record, field::BUFFER_2),
            ],
            compare: record[field::COMPARE] != 0,
        }
    }

    /// Writes the whole block: marks are 0 or 1 (13.2), and what the operation
    /// under way does not have is 0 (13.6).
    pub fn to_record(&self, record: &mut Record) {
        record[field::PROTECTION].copy_from_slice(&self.protection);
        record[field::LOCKDOWN].copy_from_slice(&self.lockdown);
        record[field::USER].copy_from_slice(&self.user);
        record[field::FACTORY].copy_from_slice(&self.factory);
        record[field::SECURITY_PROGRAMMED] = u8::from(self.security_programmed);
        record[field::PROTECTION_ENABLED] = u8::from(self.protection_enabled);
        record[field::WP_HIGH] = u8::from(self.wp_high);
        record[field::DEEP_POWER_DOWN] = u8::from(self.deep_power_down);
        write_operation(&self.operation, record);
        record[field::BUFFER_1].copy_from_slice(&self.buffers[0]);
        record[field::BUFFER_2].copy_from_slice(&self.buffers[1]);
        record[field::COMPARE] = u8::from(self.compare);
    }
}

/// [`Chip::fresh`] over a block.
pub fn fresh(record: &mut Record, factory: &[u8; 64], array: &mut [u8]) -> u8 {
    match Chip::fresh(factory, array) {
        Some(chip) => {
            chip.to_record(record);
            answer::ACCEPTED
        }
        None => answer::PART,
    }
}

/// [`Chip::send`] over a block.
pub fn send(record: &mut Record, array: &[u8], frame: &[u8], reply: &mut [u8]) -> u8 {
    with_chip(record, |chip| chip.send(array, frame, reply))
}

/// [`Chip::end_busy`] over a block.
pub fn end_busy(record: &mut Record, array: &mut [u8]) -> u8 {
    with_chip(record, |chip| chip.end_busy(array))
}

/// [`Chip::move_pin`] over a block: changes the WP byte alone (13.8).
pub fn move_pin(record: &mut Record, high: bool) -> u8 {
    record[field::WP_HIGH] = u8::from(high);
    answer::ACCEPTED
}

/// [`Chip::cut`] over a block.
pub fn cut(record: &mut Record, array: &mut [u8], junk: &[u8]) -> u8 {
    with_chip(record, |chip| chip.cut(array, junk))
}

/// [`Chip::call`] over a block; a refused one leaves it as it was, byte for
/// byte (13.9).
pub fn call(record: &mut Record, lent: Lent, call: Call) -> Outcome {
    let mut chip = Chip::from_record(record);
    let outcome = chip.call(lent, call);
    if !answer::is_refusal(outcome.answer) {
        chip.to_record(record);
    }
    outcome
}

/// Runs a call; a refused one leaves the block as it was, byte for byte
/// (13.7).
fn with_chip(record: &mut Record, call: impl FnOnce(&mut Chip) -> u8) -> u8 {
    let mut chip = Chip::from_record(record);
    let answer = call(&mut chip);
    if answer == answer::ACCEPTED {
        chip.to_record(record);
    }
    answer
}

fn bytes<const N: usize>(record: &Record, place: Range<usize>) -> [u8; N] {
    let mut bytes = [0; N];
    bytes.copy_from_slice(&record[place]);
    bytes
}

/// A tag that is not known, or a buffer that the tag does not fit, reads as
/// an operation beyond every part (13.5).
fn read_operation(record: &Record) -> Operation {
    let number = u16::from_be_bytes(bytes(record, field::NUMBER));
    match (record[field::TAG], record[field::BUFFER]) {
        (tag, 1) => with_buffer(tag, Buffer::One, number),
        (tag, 2) => with_buffer(tag, Buffer::Two, number),
        (tag, 0) => without_buffer(tag, number, record),
        _ => Operation::Unknown,
    }
}

fn with_buffer(tag: u8, buffer: Buffer, page: u16) -> Operation {
    match tag {
        tag::PROGRAM => Operation::Program { buffer, page },
        tag::PROGRAM_WITHOUT_ERASE => Operation::ProgramWithoutErase { buffer, page },
        tag::TRANSFER => Operation::Transfer { buffer, page },
        tag::COMPARE => Operation::Compare { buffer, page },
        tag::REWRITE => Operation::Rewrite { buffer, page },
        _ => Operation::Unknown,
    }
}

fn without_buffer(tag: u8, number: u16, record: &Record) -> Operation {
    match tag {
        tag::IDLE => Operation::Idle,
        tag::ERASE_PAGE => Operation::ErasePage { page: number },
        tag::ERASE_BLOCK => Operation::EraseBlock { block: number },
        tag::ERASE_SECTOR => Operation::EraseSector { sector: number },
        tag::ERASE_CHIP => Operation::EraseChip {
            sectors: u32::from_be_bytes(bytes(record, field::SECTORS)),
        },
        tag::ERASE_PROTECTION => Operation::EraseProtection,
        tag::PROGRAM_PROTECTION => Operation::ProgramProtection {
            data: bytes(record, field::DATA.start..field::DATA.start + 16),
        },
        tag::LOCK_SECTOR => Operation::LockSector { sector: number },
        tag::PROGRAM_SECURITY => Operation::ProgramSecurity {
            data: bytes(record, field::DATA),
        },
        _ => Operation::Unknown,
    }
}

fn write_operation(operation: &Operation, record: &mut Record) {
    record[field::TAG..field::DATA.end].fill(0);
    record[field::TAG] = tag_of(operation);
    record[field::BUFFER] = match operation.buffer() {
        None => 0,
        Some(Buffer::One) => 1,
        Some(Buffer::Two) => 2,
    };
    match *operation {
        Operation::Program { page: number, .. }
        | Operation::ProgramWithoutErase { page: number, .. }
        | Operation::Transfer { page: number, .. }
        | Operation::Compare { page: number, .. }
        | Operation::Rewrite { page: number, .. }
        | Operation::ErasePage { page: number }
        | Operation::EraseBlock { block: number }
        | Operation::EraseSector { sector: number }
        | Operation::LockSector { sector: number } => {
            record[field::NUMBER].copy_from_slice(&number.to_be_bytes());
        }
        Operation::EraseChip { sectors } => {
            record[field::SECTORS].copy_from_slice(&sectors.to_be_bytes());
        }
        Operation::ProgramProtection { data } => {
            record[field::DATA][..16].copy_from_slice(&data);
        }
        Operation::ProgramSecurity { data } => record[field::DATA].copy_from_slice(&data),
        Operation::Idle | Operation::EraseProtection | Operation::Unknown => {}
    }
}

fn tag_of(operation: &Operation) -> u8 {
    match operation {
        Operation::Idle => tag::IDLE,
        Operation::Program { .. } => tag::PROGRAM,
        Operation::ProgramWithoutErase { .. } => tag::PROGRAM_WITHOUT_ERASE,
        Operation::Transfer { .. } => tag::TRANSFER,
        Operation::Compare { .. } => tag::COMPARE,
        Operation::Rewrite { .. } => tag::REWRITE,
        Operation::ErasePage { .. } => tag::ERASE_PAGE,
        Operation::EraseBlock { .. } => tag::ERASE_BLOCK,
        Operation::EraseSector { .. } => tag::ERASE_SECTOR,
        Operation::EraseChip { .. } => tag::ERASE_CHIP,
        Operation::EraseProtection => tag::ERASE_PROTECTION,
        Operation::ProgramProtection { .. } => tag::PROGRAM_PROTECTION,
        Operation::LockSector { .. } => tag::LOCK_SECTOR,
        Operation::ProgramSecurity { .. } => tag::PROGRAM_SECURITY,
        Operation::Unknown => tag::UNKNOWN,
    }
}
