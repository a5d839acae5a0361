//! Frames: the rows of the command table (4.2, 4.3), typed once more, and
//! openings that it does not list.

use at45db081d_model::Part;

use crate::rng::Rng;

/// An opcode or fixed opening, with the number of bytes before data.
#[derive(Clone, Copy, Debug)]
pub struct Row {
    pub opening: &'static [u8],
    pub lead: usize,
}

const fn row(opening: &'static [u8], lead: usize) -> Row {
    Row { opening, lead }
}

/// Every opening of the command table.
pub const ROWS: [Row; 38] = [
    row(&[0xD2], 8),
    row(&[0x03], 4),
    row(&[0x0B], 5),
    row(&[0xD1], 4),
    row(&[0xD3], 4),
    row(&[0xD4], 5),
    row(&[0xD6], 5),
    row(&[0x84], 4),
    row(&[0x87], 4),
    row(&[0x83], 4),
    row(&[0x86], 4),
    row(&[0x88], 4),
    row(&[0x89], 4),
    row(&[0x82], 4),
    row(&[0x85], 4),
    row(&[0x81], 4),
    row(&[0x50], 4),
    row(&[0x7C], 4),
    row(&[0xC7, 0x94, 0x80, 0x9A], 4),
    row(&[0x53], 4),
    row(&[0x55], 4),
    row(&[0x60], 4),
    row(&[0x61], 4),
    row(&[0x58], 4),
    row(&[0x59], 4),
    row(&[0x3D, 0x2A, 0x7F, 0xA9], 4),
    row(&[0x3D, 0x2A, 0x7F, 0x9A], 4),
    row(&[0x3D, 0x2A, 0x7F, 0xCF], 4),
    row(&[0x3D, 0x2A, 0x7F, 0xFC], 4),
    row(&[0x3D, 0x2A, 0x7F, 0x30], 7),
    row(&[0x9B, 0x00, 0x00, 0x00], 4),
    row(&[0x32], 4),
    row(&[0x35], 4),
    row(&[0x77], 4),
    row(&[0xD7], 1),
    row(&[0x9F], 1),
    row(&[0xB9], 1),
    row(&[0xAB], 1),
];

/// Openings that the table does not list: near misses, legacy opcodes of the
/// real part, and bytes of no meaning.
pub const UNLISTED: [Row; 18] = [
    row(&[0x9B, 0x00, 0x00, 0x01], 4),
    row(&[0x9B, 0x00, 0x01, 0x00], 4),
    row(&[0x9B, 0x01, 0x00, 0x00], 4),
    row(&[0x3D, 0x2A, 0x7F, 0x31], 4),
    row(&[0x3D, 0x2A, 0x80, 0xA6], 4),
    row(&[0x3D, 0x2A, 0x80, 0xA9], 4),
    row(&[0x3D, 0x2B, 0x7F, 0xCF], 4),
    row(&[0xC7, 0x94, 0x80, 0x9B], 4),
    row(&[0xC7, 0x94, 0x81, 0x9A], 4),
    row(&[0xC7, 0x95, 0x80, 0x9A], 4),
    row(&[0xE8], 8),
    row(&[0x52], 8),
    row(&[0x54], 5),
    row(&[0x56], 5),
    row(&[0x57], 1),
    row(&[0x68], 8),
    row(&[0x00], 1),
    row(&[0xFF], 1),
];

/// Lengths at the edges: around the leads, around a page of either size, around
/// the limit.
pub const LENGTHS: [usize; 25] = [
    0, 1, 2, 3, 4, 5, 6, 7, 8, 256, 257, 260, 261, 264, 265, 266, 267, 268, 269, 270, 271, 272,
    1099, 1100, 1101,
];

/// The low nine bits of an address, at the edges of a page of either size and of
/// the byte field.
pub const BYTE_FIELDS: [u32; 11] = [0, 1, 254, 255, 256, 257, 262, 263, 264, 265, 511];

/// The index in [`ROWS`] of the row that a frame's beginning names.
pub fn row_of(frame: &[u8]) -> Option<usize> {
    ROWS.iter().position(|row| frame.starts_with(row.opening))
}

/// The index in [`ROWS`] of the row with this last opening byte.
pub fn row_ending(byte: u8) -> usize {
    ROWS.iter()
        .position(|row| row.opening.last() == Some(&byte))
        .expect("an opening of the table")
}

impl Row {
    /// Where the address stands, if the row has room for one.
    pub fn address_place(&self) -> Option<usize> {
        match (self.opening.len(), self.lead) {
            (1, 4..) => Some(1),
            (4, 7) => Some(4),
            _ => None,
        }
    }

    /// A frame of this row and length: opening, address, then random bytes.
    pub fn frame(&self, rng: &mut Rng, address: u32, len: usize) -> Vec<u8> {
        let mut frame = vec![0; len.max(8)];
        rng.fill(&mut frame);
        frame[..self.opening.len()].copy_from_slice(self.opening);
        if let Some(place) = self.address_place() {
            frame[place..place + 3].copy_from_slice(&address.to_be_bytes()[1..]);
        }
        frame.truncate(len);
        frame
    }
}

/// An address of a page of the part with any bits above those that the part
/// uses; of the byte field as many bits as the part has for it.
pub fn address(rng: &mut Rng, page: usize, byte_field: u32, part: Part) -> u32 {
    let tops = (0x100_0000 >> part.byte_bits) / part.pages;
    let top = rng.below(tops) * part.pages;
    ((page + top) as u32) << part.byte_bits | byte_field & ((1 << part.byte_bits) - 1)
}
