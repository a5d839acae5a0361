//! The four parts, and how an address or a number names a place in them.

use std::ops::Range;

/// Bytes of each buffer in the record, and of the longest page; a part with
/// shorter pages has no more of a buffer than a page.
pub const BUFFER_SIZE: usize = 264;

/// Block b is the eight pages from 8b on (1.4).
pub const PAGES_PER_BLOCK: usize = 8;

/// Pages of the sectors 1 to 15; sector 0 (0a and 0b together) has as many.
const PAGES_PER_SECTOR: usize = 256;

/// A part, told by the length of the array alone (1.1).
#[derive(Clone, Copy, Debug, PartialEq, Eq)]
pub struct Part {
    pub pages: usize,
    pub page_size: usize,
    /// How many low bits of an address name the byte; the page stands above.
    pub byte_bits: u32,
    /// Bit 0 of the status, which tells the page size.
    pub status_bit: u8,
}

const fn row(pages: usize, page_size: usize, byte_bits: u32, status_bit: u8) -> Part {
    Part {
        pages,
        page_size,
        byte_bits,
        status_bit,
    }
}

impl Part {
    /// Every part there is; everything else about them follows.
    pub const ALL: [Part; 4] = [
        row(4096, 264, 9, 0),
        row(128, 264, 9, 0),
        row(4096, 256, 8, 1),
        row(128, 256, 8, 1),
    ];

    pub const FULL: Part = Part::ALL[0];
    pub const SHORT: Part = Part::ALL[1];
    pub const FULL_256: Part = Part::ALL[2];
    pub const SHORT_256: Part = Part::ALL[3];

    /// The part whose array has this length, if there is one (1.1).
    pub fn from_array_len(len: usize) -> Option<Part> {
        let mut parts = Part::ALL.iter().copied();
        parts.find(|part| part.array_len() == len)
    }

    pub const fn array_len(self) -> usize {
        self.pages * self.page_size
    }

    /// Junk for both buffers and for the array (8.2).
    pub const fn junk_len(self) -> usize {
        self.array_junk() + self.array_len()
    }

    /// Where the array's junk begins, and a register's: behind that of both
    /// buffers (8.6).
    pub const fn array_junk(self) -> usize {
        2 * self.page_size
    }

    /// Bytes of a slot (9.1).
    pub const fn slot_size(self) -> usize {
        PAGES_PER_BLOCK * self.page_size
    }

    pub fn blocks(self) -> usize {
        self.pages / PAGES_PER_BLOCK
    }

    /// Number of sectors, 0a and 0b counted apart: 17, or 2 in a short part
    /// (1.7).
    pub fn sectors(self) -> u16 {
        sector_of((self.pages - 1) as u16) + 1
    }

    /// The page that an address names; beyond the last it starts over (3.8).
    pub fn page_of(self, address: u32) -> u16 {
        ((address >> self.byte_bits) as usize % self.pages) as u16
    }

    /// The byte that an address names in its page (3.9).
    pub fn byte_of(self, address: u32) -> usize {
        address as usize % (1 << self.byte_bits) % self.page_size
    }

    /// The address of a page's first byte (10.8).
    pub fn address_of(self, page: u16) -> u32 {
        u32::from(page) << self.byte_bits
    }

    /// The array bytes of a page (1.2, 1.3).
    pub fn page_range(self, page: u16) -> Range<usize> {
        self.pages_range(usize::from(page), 1)
    }

    pub fn block_range(self, block: u16) -> Range<usize> {
        self.pages_range(usize::from(block) * PAGES_PER_BLOCK, PAGES_PER_BLOCK)
    }

    /// The array bytes of a sector; 0b ends where the part does (1.5, 1.6).
    pub fn sector_range(self, sector: u16) -> Range<usize> {
        match sector {
            0 => self.pages_range(0, 8),
            1 => self.pages_range(8, self.pages.min(PAGES_PER_SECTOR) - 8),
            s => self.pages_range((usize::from(s) - 1) * PAGES_PER_SECTOR, PAGES_PER_SECTOR),
        }
    }

    fn pages_range(self, first: usize, count: usize) -> Range<usize> {
        first * self.page_size..(first + count) * self.page_size
    }
}

/// The sector that a page lies in: 0 for 0a, 1 for 0b, j + 1 for sector j
/// (1.5).
pub fn sector_of(page: u16) -> u16 {
    match page {
        0..=7 => 0,
        8..=255 => 1,
        _ => page / 256 + 1,
    }
}

/// Where a sector's bits stand in the protection and lockdown registers: 0a
/// and 0b share byte 0, any other sector has a byte of its own (2.7).
pub fn sector_bits(sector: u16) -> (usize, u8) {
    match sector {
        0 => (0, 0xC0),
        1 => (0, 0x30),
        s => (usize::from(s) - 1, 0xFF),
    }
}
