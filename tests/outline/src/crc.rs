//! CRC-32.

/// CRC-32: reflected polynomial EDB88320h, initial and final FFFFFFFFh.
#[derive(Clone, Copy, Debug)]
pub struct Crc(u32);

/// Eight steps of the polynomial for each byte.
const TABLE: [u32; 256] = table();

const fn table() -> [u32; 256] {
    let mut table = [0; 256];
    let mut i = 0;
    while i < 256 * 8 {
        let state = if i % 8 == 0 {
            i as u32 / 8
        } else {
            table[i / 8]
        };
        table[i / 8] = (state >> 1) ^ (0xEDB8_8320 * (state & 1));
        i += 1;
    }
    table
}

impl Default for Crc {
    fn default() -> Crc {
        Crc(0xFFFF_FFFF)
    }
}

impl Crc {
    /// The CRC with these bytes behind those so far.
    pub fn then(self, bytes: &[u8]) -> Crc {
        Crc(bytes.iter().fold(self.0, |state, byte| {
            (state >> 8) ^ TABLE[usize::from(state as u8 ^ byte)]
        }))
    }

    pub fn end(self) -> u32 {
        !self.0
    }
}

/// The CRC-32 of these bytes.
pub fn crc32(bytes: &[u8]) -> u32 {
    Crc::default().then(bytes).end()
}
