//! The operation under way.

use std::ops::Range;

use crate::part::Part;

/// One of the two buffers.
#[derive(Clone, Copy, Debug, PartialEq, Eq)]
pub enum Buffer {
    One,
    Two,
}

impl Buffer {
    pub fn index(self) -> usize {
        match self {
            Buffer::One => 0,
            Buffer::Two => 1,
        }
    }
}

/// The operation under way, or none, with what belongs to it (2.4).
///
/// Sectors are 0 for 0a, 1 for 0b, j + 1 for sector j (1.5).
#[derive(Clone, Copy, Debug, PartialEq, Eq)]
pub enum Operation {
    Idle,
    /// 83/86, and the second half of 82/85.
    Program {
        buffer: Buffer,
        page: u16,
    },
    /// 88/89.
    ProgramWithoutErase {
        buffer: Buffer,
        page: u16,
    },
    /// 53/55.
    Transfer {
        buffer: Buffer,
        page: u16,
    },
    /// 60/61.
    Compare {
        buffer: Buffer,
        page: u16,
    },
    /// 58/59.
    Rewrite {
        buffer: Buffer,
        page: u16,
    },
    /// 81.
    ErasePage {
        page: u16,
    },
    /// 50.
    EraseBlock {
        block: u16,
    },
    /// 7C.
    EraseSector {
        sector: u16,
    },
    /// C7 94 80 9A; bit i is sector i (2.5).
    EraseChip {
        sectors: u32,
    },
    /// 3D 2A 7F CF.
    EraseProtection,
    /// 3D 2A 7F FC.
    ProgramProtection {
        data: [u8; 16],
    },
    /// 3D 2A 7F 30.
    LockSector {
        sector: u16,
    },
    /// 9B 00 00 00.
    ProgramSecurity {
        data: [u8; 64],
    },
    /// A record block's tag or buffer that names no operation: it lies beyond
    /// every part (13.5).
    Unknown,
}

impl Operation {
    pub fn is_idle(&self) -> bool {
        matches!(self, Operation::Idle)
    }

    /// False if the part lacks what the operation names (12.3).
    pub fn fits(&self, part: Part) -> bool {
        match *self {
            Operation::Program { page, .. }
            | Operation::ProgramWithoutErase { page, .. }
            | Operation::Transfer { page, .. }
            | Operation::Compare { page, .. }
            | Operation::Rewrite { page, .. }
            | Operation::ErasePage { page } => usize::from(page) < part.pages,
            Operation::EraseBlock { block } => usize::from(block) < part.blocks(),
            Operation::EraseSector { sector } | Operation::LockSector { sector } => {
                sector < part.sectors()
            }
            Operation::EraseChip { sectors } => sectors >> part.sectors() == 0,
            Operation::Idle
            | Operation::EraseProtection
            | Operation::ProgramProtection { .. }
            | Operation::ProgramSecurity { .. } => true,
            Operation::Unknown => false,
        }
    }

    /// True for the operations on a register: CF, FC, 30 and 9B (5.5).
    pub fn is_on_register(&self) -> bool {
        matches!(
            self,
            Operation::EraseProtection
                | Operation::ProgramProtection { .. }
                | Operation::LockSector { .. }
                | Operation::ProgramSecurity { .. }
        )
    }

    /// The buffer that the operation uses; erases of the array leave both free
    /// (5.4).
    pub fn buffer(&self) -> Option<Buffer> {
        match *self {
            Operation::Program { buffer, .. }
            | Operation::ProgramWithoutErase { buffer, .. }
            | Operation::Transfer { buffer, .. }
            | Operation::Compare { buffer, .. }
            | Operation::Rewrite { buffer, .. } => Some(buffer),
            _ => None,
        }
    }

    /// Visits the parts of the array that the operation writes: fetches and
    /// compares have none, 58/59 have their page (2.5).
    pub fn each_altered_range(&self, part: Part, mut visit: impl FnMut(Range<usize>)) {
        match *self {
            Operation::Program { page, .. }
            | Operation::ProgramWithoutErase { page, .. }
            | Operation::Rewrite { page, .. }
            | Operation::ErasePage { page } => visit(part.page_range(page)),
            Operation::EraseBlock { block } => visit(part.block_range(block)),
            Operation::EraseSector { sector } => visit(part.sector_range(sector)),
            Operation::EraseChip { sectors } => (0..part.sectors())
                .filter(|&sector| sectors >> sector & 1 == 1)
                .for_each(|sector| visit(part.sector_range(sector))),
            _ => {}
        }
    }
}
