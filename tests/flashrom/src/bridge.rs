//! One SPI transaction is one frame of the chip.

use crate::device::Device;
use slipknoll::{Chip, Date, Error, Part, Term, FACTORY_LEN};

/// The longest frame that the chip takes.
pub const FRAME_MAX: usize = 1100;
/// Opcode and address, which come before the data of a read or a write.
const LEAD: usize = 4;

/// Status frames that see a busy chip before the busy period ends.
const BUSY_POLLS: u32 = 3;
/// The opcode of a status frame, and the ready bit of its reply.
const STATUS: u8 = 0xD7;
const READY: u8 = 0x80;

/// Why a transaction brought no bytes.
#[derive(Clone, Copy, Debug, PartialEq, Eq)]
pub enum Refusal {
    /// The bridge keeps this opcode from the chip.
    Withheld,
    /// The chip's answer.
    Answer(Error),
}

/// What was on the bus.
#[derive(Clone, Debug, PartialEq, Eq)]
pub struct Traffic {
    /// Frames that the chip took, by their first byte.
    frames: [u64; 256],
    /// Length of the longest of them.
    pub longest: usize,
    /// Frames that the chip refused.
    pub refused: u64,
}

impl Traffic {
    const NONE: Traffic = Traffic {
        frames: [0; 256],
        longest: 0,
        refused: 0,
    };

    /// The frames that began with an opcode.
    pub fn count(&self, opcode: u8) -> u64 {
        self.frames[usize::from(opcode)]
    }

    fn note(&mut self, frame: &[u8]) {
        self.frames[usize::from(frame[0])] += 1;
        self.longest = self.longest.max(frame.len());
    }
}

/// The opcodes in order, each with its count.
impl std::fmt::Display for Traffic {
    fn fmt(&self, f: &mut std::fmt::Formatter) -> std::fmt::Result {
        for (opcode, count) in self.frames.iter().enumerate() {
            if *count > 0 {
                write!(f, "{opcode:02X}: {count}, ")?;
            }
        }
        write!(f, "longest {}, refused {}", self.longest, self.refused)
    }
}

/// A chip of a full part, the memory lent to it, and its bus.
pub struct Bridge<'a> {
    pub part: Part,
    device: &'a mut dyn Device,
    chip: Chip,
    array: Vec<u8>,
    busy_polls: u32,
    traffic: Traffic,
    /// Opcodes kept from the chip, as programmers do that allow only some.
    pub withheld: Vec<u8>,
    /// The most bytes of data that the client is told to write or read.
    pub data_max: usize,
}

impl<'a> Bridge<'a> {
    /// A bridge to a fresh chip.
    pub fn new(device: &'a mut dyn Device, part: Part) -> Bridge<'a> {
        let mut array = vec![0; part.array_len()];
        let chip = Chip::fresh(&[0; FACTORY_LEN], &mut array).expect("a fresh part");
        Bridge {
            part,
            device,
            chip,
            array,
            busy_polls: 0,
            traffic: Traffic::NONE,
            withheld: Vec::new(),
            data_max: FRAME_MAX - LEAD,
        }
    }

    /// The lent array.
    pub fn array(&self) -> &[u8] {
        &self.array
    }

    /// What was on the bus since this was last asked.
    pub fn take_traffic(&mut self) -> Traffic {
        std::mem::replace(&mut self.traffic, Traffic::NONE)
    }

    /// Sends bytes and then as many 00 as are to be read, in one frame, and
    /// hands back what was read.
    pub fn transact(&mut self, sent: &[u8], read_len: usize) -> Result<Vec<u8>, Refusal> {
        if sent.first().map_or(false, |it| self.withheld.contains(it)) {
            return Err(Refusal::Withheld);
        }
        let mut frame = sent.to_vec();
        frame.resize(sent.len() + read_len, 0);
        let mut reply = vec![0; frame.len()];
        let result = self
            .device
            .send(&mut self.chip, &self.array, &frame, &mut reply);
        if let Err(error) = result {
            self.traffic.refused += 1;
            return Err(Refusal::Answer(error));
        }
        self.traffic.note(&frame);
        self.pass_time(&frame, &reply)?;
        Ok(reply.split_off(sent.len()))
    }

    /// Ends the busy period once enough status frames have seen it.
    fn pass_time(&mut self, frame: &[u8], reply: &[u8]) -> Result<(), Refusal> {
        let busy = frame[0] == STATUS && frame.len() > 1 && reply[1] & READY == 0;
        if !busy {
            return Ok(());
        }
        self.busy_polls += 1;
        if self.busy_polls < BUSY_POLLS {
            return Ok(());
        }
        self.busy_polls = 0;
        let result = self.device.end_busy(&mut self.chip, &mut self.array);
        result.map_err(Refusal::Answer)
    }

    /// Sends a command without data, and status frames until it is done.
    pub fn command(&mut self, frame: &[u8]) -> Result<(), Refusal> {
        self.transact(frame, 0)?;
        while self.transact(&[STATUS], 1)?[0] & READY == 0 {}
        Ok(())
    }

    /// Stores a recipe in a slot, with a term or without.
    pub fn put(&mut self, slot: usize, term: Option<Term>, recipe: &[u8]) -> Result<(), Error> {
        self.device
            .put(&mut self.chip, &mut self.array, slot, term, recipe)
    }

    /// Reads a slot's recipe.
    pub fn get(&mut self, slot: usize, today: Date) -> Result<Vec<u8>, Error> {
        self.device
            .get(&mut self.chip, &mut self.array, slot, today)
    }
}
