//! The chip: its registers and buffers, and what frames, busy ends, pin moves
//! and cuts do to them.

use std::ops::Range;

use crate::answer;
use crate::command::{decode, Command, Request};
use crate::operation::{Buffer, Operation};
use crate::part::{sector_bits, sector_of, Part, BUFFER_SIZE};

/// The longest frame (3.1).
pub const MAX_FRAME: usize = 1100;

/// What comes back where nothing is read (3.13).
const NO_DATA: u8 = 0xFF;

/// The value of an erased byte.
const ERASED: u8 = 0xFF;

/// All of a chip but its array: registers (2.3), buffers (2.2), compare bit.
#[derive(Clone, Debug, PartialEq, Eq)]
pub struct Chip {
    pub protection: [u8; 16],
    pub lockdown: [u8; 16],
    pub user: [u8; 64],
    pub factory: [u8; 64],
    pub security_programmed: bool,
    pub protection_enabled: bool,
    pub wp_high: bool,
    pub deep_power_down: bool,
    pub operation: Operation,
    /// A part uses as many bytes of each as its pages have; what is behind
    /// them it neither reads nor writes.
    pub buffers: [[u8; BUFFER_SIZE]; 2],
    pub compare: bool,
}

impl Chip {
    /// A chip as it is when new (2.13), its array erased (2.14).
    ///
    /// None (answer 1) if the array is no part's; nothing is changed then.
    pub fn fresh(factory: &[u8; 64], array: &mut [u8]) -> Option<Chip> {
        Part::from_array_len(array.len())?;
        array.fill(ERASED);
        Some(Chip {
            protection: [0; 16],
            lockdown: [0; 16],
            user: [ERASED; 64],
            factory: *factory,
            security_programmed: false,
            protection_enabled: false,
            wp_high: true,
            deep_power_down: false,
            operation: Operation::Idle,
            buffers: [[0; BUFFER_SIZE]; 2],
            compare: false,
        })
    }

    /// Sends one frame straight to the chip; answers 0, 1 or 2. The reply is
    /// made before the frame acts (3.12).
    pub fn send(&mut self, array: &[u8], frame: &[u8], reply: &mut [u8]) -> u8 {
        let part = match self.part_of(array) {
            Some(part) => part,
            None => return answer::PART,
        };
        if !(1..=MAX_FRAME).contains(&frame.len()) || reply.len() != frame.len() {
            return answer::FRAME;
        }
        reply.fill(NO_DATA);
        if let Some(request) = decode(frame) {
            if self.obeys(part, &request) {
                let (data, reply) = (&frame[request.lead..], &mut reply[request.lead..]);
                self.read(part, array, &request, reply);
                self.act(part, &request, data);
                self.start(part, &request, data);
            }
        }
        answer::ACCEPTED
    }

    /// Ends the busy period: the operation under way takes effect (7.1), if
    /// there is one (7.3). Answers 0 or 1.
    pub fn end_busy(&mut self, array: &mut [u8]) -> u8 {
        let part = match self.part_of(array) {
            Some(part) => part,
            None => return answer::PART,
        };
        let operation = std::mem::replace(&mut self.operation, Operation::Idle);
        match operation {
            // Every byte is the buffer's (7.4).
            Operation::Program { buffer, page } => {
                array[part.page_range(page)].copy_from_slice(self.buffer(part, buffer));
            }
            // Bits of the page are cleared, never set (7.5).
            Operation::ProgramWithoutErase { buffer, page } => {
                and_into(&mut array[part.page_range(page)], self.buffer(part, buffer));
            }
            // The page goes to the buffer (7.6), and 58/59 leave it what it
            // has (7.7).
            Operation::Transfer { buffer, page } | Operation::Rewrite { buffer, page } => {
                (self.buffer_mut(part, buffer)).copy_from_slice(&array[part.page_range(page)]);
            }
            // Set if a byte differs, cleared if none does (7.8).
            Operation::Compare { buffer, page } => {
                self.compare = self.buffer(part, buffer)[..] != array[part.page_range(page)];
            }
            // All that is named (7.9), of a set each sector (7.10).
            Operation::ErasePage { .. }
            | Operation::EraseBlock { .. }
            | Operation::EraseSector { .. }
            | Operation::EraseChip { .. } => {
                operation.each_altered_range(part, |range| array[range].fill(ERASED));
            }
            // Every sector is listed (7.11).
            Operation::EraseProtection => self.protection = [ERASED; 16],
            // By the data that came with the frame (7.12).
            Operation::ProgramProtection { data } => and_into(&mut self.protection, &data),
            Operation::LockSector { sector } => self.lock(sector),
            // Not ANDed; there is no second time (7.14, 5.14).
            Operation::ProgramSecurity { data } => {
                self.user = data;
                self.security_programmed = true;
            }
            Operation::Idle | Operation::Unknown => {}
        }
        answer::ACCEPTED
    }

    /// Sets the level of the WP pin (8.1); always answers 0.
    pub fn move_pin(&mut self, high: bool) -> u8 {
        self.wp_high = high;
        answer::ACCEPTED
    }

    /// Cuts the supply; what becomes undefined is taken from the junk.
    /// Answers 0, 1 or 7.
    pub fn cut(&mut self, array: &mut [u8], junk: &[u8]) -> u8 {
        let part = match self.part_of(array) {
            Some(part) => part,
            None => return answer::PART,
        };
        if junk.len() != part.junk_len() {
            return answer::SCRIPT;
        }
        let operation = std::mem::replace(&mut self.operation, Operation::Idle);
        // Both buffers are lost, whatever was under way (8.4).
        let (buffer_junk, array_junk) = junk.split_at(part.array_junk());
        let (first, second) = buffer_junk.split_at(part.page_size);
        (self.buffer_mut(part, Buffer::One)).copy_from_slice(first);
        (self.buffer_mut(part, Buffer::Two)).copy_from_slice(second);
        // So are all pages that the operation writes (8.5).
        operation.each_altered_range(part, |range: Range<usize>| {
            array[range.clone()].copy_from_slice(&array_junk[range]);
        });
        self.cut_register(&operation, array_junk);
        // The chip starts again (8.10); what is not named here stays (8.11).
        self.protection_enabled = false;
        self.deep_power_down = false;
        self.compare = false;
        answer::ACCEPTED
    }

    /// The status byte; its last bit is the part's (3.21).
    pub fn status(&self, part: Part) -> u8 {
        u8::from(self.operation.is_idle()) << 7
            | u8::from(self.compare) << 6
            | 0b1001 << 2
            | u8::from(self.protection_active()) << 1
            | part.status_bit
    }

    /// Whether a sector is sealed (2.12): one bit locks or lists it (2.9,
    /// 2.10), but to be listed counts only in a guarded chip.
    pub fn is_sealed(&self, sector: u16) -> bool {
        let (byte, bits) = sector_bits(sector);
        let locked = self.lockdown[byte] & bits != 0;
        let listed = self.protection[byte] & bits != 0;
        locked || (listed && self.protection_active())
    }

    /// Whether the chip, on this part, obeys the request (section 5).
    pub fn obeys(&self, part: Part, request: &Request) -> bool {
        let command = request.command;
        // A deep chip only wakes (5.7), and busy as well not even that (5.8).
        if self.deep_power_down && command != Command::ResumeFromDeepPowerDown {
            return false;
        }
        if !self.operation.is_idle() && !self.obeys_while_busy(command) {
            return false;
        }
        match command {
            // What writes a page asks for its seal (5.9), before a buffer is
            // touched (5.10). A Chip Erase names no sector (5.16).
            Command::Program(_)
            | Command::ProgramWithoutErase(_)
            | Command::WriteAndProgram(_)
            | Command::Rewrite(_)
            | Command::ErasePage
            | Command::EraseBlock
            | Command::EraseSector => !self.is_sealed(sector_of(part.page_of(request.address))),
            // WP holds protection fast (5.11, 5.12, 5.13).
            Command::DisableProtection | Command::EraseProtection | Command::ProgramProtection => {
                self.wp_high
            }
            // User bytes are written but once (5.14).
            Command::ProgramSecurity => !self.security_programmed,
            _ => true,
        }
    }

    /// What does not disturb the operation: the status always (5.5), and
    /// unless it is on a register, the identity and a free buffer (5.3).
    fn obeys_while_busy(&self, command: Command) -> bool {
        match command {
            Command::ReadStatus => true,
            _ if self.operation.is_on_register() => false,
            Command::ReadIdentification => true,
            Command::ReadBuffer(buffer) | Command::WriteBuffer(buffer) => {
                self.operation.buffer() != Some(buffer)
            }
            _ => false,
        }
    }

    /// The reading rows: puts the data read into the reply behind the lead
    /// (3.11).
    fn read(&self, part: Part, array: &[u8], request: &Request, reply: &mut [u8]) {
        let page = part.page_range(part.page_of(request.address));
        let byte = part.byte_of(request.address);
        match request.command {
            // A ring of one page (3.16).
            Command::ReadPage => copy_wrapping(&array[page], byte, reply),
            // A ring of all pages (3.17).
            Command::ReadArray => copy_wrapping(array, page.start + byte, reply),
            // A ring of one buffer (3.18).
            Command::ReadBuffer(buffer) => copy_wrapping(self.buffer(part, buffer), byte, reply),
            // Registers come once (3.14, 3.19).
            Command::ReadProtection => copy_once(&self.protection, reply),
            Command::ReadLockdown => copy_once(&self.lockdown, reply),
            Command::ReadSecurity => {
                copy_once(&self.user, reply);
                copy_once(&self.factory, reply.get_mut(64..).unwrap_or_default());
            }
            // The same in every byte (3.20).
            Command::ReadStatus => reply.fill(self.status(part)),
            // Four bytes, once (3.14, 3.22).
            Command::ReadIdentification => copy_once(&[0x1F, 0x25, 0x00, 0x00], reply),
            _ => {}
        }
    }

    /// What a frame does at once: to buffers (6.2, 6.5, 6.10), and to the marks
    /// for protect and deep (6.3).
    fn act(&mut self, part: Part, request: &Request, data: &[u8]) {
        let byte = part.byte_of(request.address);
        match request.command {
            // Of two bytes for one place the later stays (6.2).
            Command::WriteBuffer(buffer) | Command::WriteAndProgram(buffer) => {
                write_wrapping(self.buffer_mut(part, buffer), byte, data);
            }
            // The data of both pass through buffer 1 (6.10).
            Command::ProgramProtection => {
                self.buffers[0][..16].copy_from_slice(&padded::<16>(data));
            }
            Command::ProgramSecurity => {
                self.buffers[0][..64].copy_from_slice(&padded::<64>(data));
            }
            Command::EnableProtection => self.protection_enabled = true,
            Command::DisableProtection => self.protection_enabled = false,
            Command::EnterDeepPowerDown => self.deep_power_down = true,
            Command::ResumeFromDeepPowerDown => self.deep_power_down = false,
            _ => {}
        }
    }

    /// The operation that a frame starts, if its row has one (6.4).
    fn start(&mut self, part: Part, request: &Request, data: &[u8]) {
        let page = part.page_of(request.address);
        let sector = sector_of(page);
        self.operation = match request.command {
            // 82/85 have written the buffer by now (6.5).
            Command::Program(buffer) | Command::WriteAndProgram(buffer) => {
                Operation::Program { buffer, page }
            }
            Command::ProgramWithoutErase(buffer) => Operation::ProgramWithoutErase { buffer, page },
            Command::Transfer(buffer) => Operation::Transfer { buffer, page },
            Command::Compare(buffer) => Operation::Compare { buffer, page },
            Command::Rewrite(buffer) => Operation::Rewrite { buffer, page },
            Command::ErasePage => Operation::ErasePage { page },
            Command::EraseBlock => Operation::EraseBlock { block: page / 8 },
            Command::EraseSector => Operation::EraseSector { sector },
            Command::EraseChip => Operation::EraseChip {
                sectors: self.unsealed_sectors(part),
            },
            Command::EraseProtection => Operation::EraseProtection,
            Command::ProgramProtection => Operation::ProgramProtection { data: padded(data) },
            Command::LockSector => Operation::LockSector { sector },
            Command::ProgramSecurity => Operation::ProgramSecurity { data: padded(data) },
            _ => return,
        };
    }

    /// The part that the array stands for, if the operation under way fits it
    /// (1.1, 12.3).
    pub(crate) fn part_of(&self, array: &[u8]) -> Option<Part> {
        Part::from_array_len(array.len()).filter(|&part| self.operation.fits(part))
    }

    fn buffer(&self, part: Part, buffer: Buffer) -> &[u8] {
        &self.buffers[buffer.index()][..part.page_size]
    }

    fn buffer_mut(&mut self, part: Part, buffer: Buffer) -> &mut [u8] {
        &mut self.buffers[buffer.index()][..part.page_size]
    }

    /// Whether the chip is guarded (2.11).
    fn protection_active(&self) -> bool {
        self.protection_enabled || !self.wp_high
    }

    /// What a Chip Erase takes if it starts now (6.7).
    fn unsealed_sectors(&self, part: Part) -> u32 {
        (0..part.sectors())
            .filter(|&sector| !self.is_sealed(sector))
            .fold(0, |set, sector| set | 1 << sector)
    }

    /// Sets all bits of the sector; those of others stay (7.13).
    fn lock(&mut self, sector: u16) {
        let (byte, bits) = sector_bits(sector);
        self.lockdown[byte] |= bits;
    }

    /// What a cut does to the register of the operation under way.
    fn cut_register(&mut self, operation: &Operation, junk: &[u8]) {
        match *operation {
            // The junk behind the buffers' becomes protection (8.6).
            Operation::EraseProtection | Operation::ProgramProtection { .. } => {
                self.protection.copy_from_slice(&junk[..16]);
            }
            // Or the user bytes, which thereby count as written (8.7).
            Operation::ProgramSecurity { .. } => {
                self.user.copy_from_slice(&junk[..64]);
                self.security_programmed = true;
            }
            // The junk decides whether 30 has come about (8.8).
            Operation::LockSector { sector } if junk[0] >= 0x80 => self.lock(sector),
            _ => {}
        }
    }
}

/// The data of an FC or a 9B at their full length (6.9).
fn padded<const N: usize>(data: &[u8]) -> [u8; N] {
    let mut bytes = [0xFF; N];
    write_wrapping(&mut bytes, 0, data);
    bytes
}

/// Fills `reply` from `source`, beginning at `start` and wrapping at its end
/// (3.15).
fn copy_wrapping(source: &[u8], start: usize, reply: &mut [u8]) {
    let first = reply.len().min(source.len() - start);
    let (head, rest) = reply.split_at_mut(first);
    head.copy_from_slice(&source[start..start + first]);
    for chunk in rest.chunks_mut(source.len()) {
        chunk.copy_from_slice(&source[..chunk.len()]);
    }
}

/// Copies `source` to the beginning of `reply`, as far as it reaches (3.14).
fn copy_once(source: &[u8], reply: &mut [u8]) {
    let count = source.len().min(reply.len());
    reply[..count].copy_from_slice(&source[..count]);
}

/// Writes `data` into `target`, beginning at `start` and wrapping at its end.
fn write_wrapping(target: &mut [u8], start: usize, data: &[u8]) {
    let first = data.len().min(target.len() - start);
    let (head, rest) = data.split_at(first);
    target[start..start + first].copy_from_slice(head);
    for chunk in rest.chunks(target.len()) {
        target[..chunk.len()].copy_from_slice(chunk);
    }
}

fn and_into(target: &mut [u8], mask: &[u8]) {
    for (byte, mask) in target.iter_mut().zip(mask) {
        *byte &= mask;
    }
}
