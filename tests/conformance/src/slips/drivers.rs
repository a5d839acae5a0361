//! Drivers with one seeded fault each in what they make of the compares: the
//! model's driver, whose frames or replies are others on the way.

use at45db081d_model::answer;

use crate::driving::{Driver, ModelDriver, Turn};
use crate::request::Request;

const LOAD: u8 = 0x84;
const PROGRAM: u8 = 0x83;
const COMPARE: u8 = 0x60;
const READ: u8 = 0xD2;
const STATUS: u8 = 0xD7;

/// The compare bit of a status, and the bit that ends a wait.
const DIFFERS: u8 = 0x40;
const READY: u8 = 0x80;

/// What is wrong with a driver.
#[derive(Clone, Copy, Debug, PartialEq, Eq)]
pub enum DriverSlip {
    None,
    /// A difference at an earlier poll of the wait after a 60 counts.
    EarlierPollCounts,
    /// The compare bit counts after an 83 too.
    ProgramWaitCounts,
    /// The compare bit counts at the beginning too.
    FirstWaitCounts,
    /// 16 at once, and no further page.
    StopsAtFirst,
    /// 16 before 12 and 13.
    BeforeVerdict,
    /// The last page is not compared.
    LastPageNotCompared,
    /// Pages are compared with buffer 2.
    ComparedWithBuffer2,
    /// The last page alone counts.
    LastPageAlone,
    /// The first page alone counts.
    FirstPageAlone,
    /// 16 only if two pages differ.
    OneDifferenceAllowed,
    /// 16 never comes.
    Forgotten,
    /// A patch changes no page behind one that differs.
    KeepsPagesBehind,
}

/// Every slip.
pub const DRIVER_SLIPS: [DriverSlip; 12] = [
    DriverSlip::EarlierPollCounts,
    DriverSlip::ProgramWaitCounts,
    DriverSlip::FirstWaitCounts,
    DriverSlip::StopsAtFirst,
    DriverSlip::BeforeVerdict,
    DriverSlip::LastPageNotCompared,
    DriverSlip::ComparedWithBuffer2,
    DriverSlip::LastPageAlone,
    DriverSlip::FirstPageAlone,
    DriverSlip::OneDifferenceAllowed,
    DriverSlip::Forgotten,
    DriverSlip::KeepsPagesBehind,
];

/// The model's driver with one slip.
pub struct FaultyDriver {
    slip: DriverSlip,
    driver: ModelDriver,
    /// The last turn, and the opcode of the last frame that was no poll.
    turn: Turn,
    last: u8,
    /// Pages loaded so far, and those of them that differ.
    loads: usize,
    different: usize,
    /// A status that should not count has had the bit.
    stray: bool,
    /// The page that was read last.
    read: Vec<u8>,
}

impl FaultyDriver {
    pub fn new(slip: DriverSlip) -> FaultyDriver {
        FaultyDriver {
            slip,
            driver: ModelDriver::default(),
            turn: Turn::End(answer::ACCEPTED),
            last: 0,
            loads: 0,
            different: 0,
            stray: false,
            read: Vec::new(),
        }
    }

    /// The compare bit that the driver hears in the status that ends a wait, or in
    /// an earlier one.
    fn heard(&mut self, differs: bool, ready: bool) -> bool {
        let compared = self.last == COMPARE;
        if compared && ready {
            self.different += usize::from(differs);
        }
        match self.slip {
            DriverSlip::EarlierPollCounts if compared => self.stray |= differs,
            DriverSlip::ProgramWaitCounts if self.last == PROGRAM && ready => self.stray = differs,
            DriverSlip::FirstWaitCounts if self.last == 0 && ready => self.stray = differs,
            DriverSlip::LastPageAlone => return differs && self.loads == 8,
            DriverSlip::FirstPageAlone => return differs && self.loads == 1,
            DriverSlip::OneDifferenceAllowed => return differs && self.different > 1,
            DriverSlip::Forgotten => return false,
            _ => {}
        }
        differs || compared && self.stray
    }

    /// The reply as the driver hears it.
    fn hear(&mut self, sent: &[u8], mut reply: Vec<u8>) -> Vec<u8> {
        match sent[0] {
            STATUS if reply.len() > 1 => {
                let (status, ready) = (reply[1], reply[1] & READY != 0);
                let differs = self.heard(status & DIFFERS != 0, ready);
                reply[1] = status & !DIFFERS | u8::from(differs) << 6;
            }
            STATUS => {}
            opcode => {
                self.last = opcode;
                self.loads += usize::from(opcode == LOAD);
                // A compare begins anew, but for what was heard before it.
                self.stray &= opcode == COMPARE || self.slip == DriverSlip::FirstWaitCounts;
            }
        }
        if sent[0] == READ {
            self.read = reply.get(8..sent.len()).unwrap_or(&[]).to_vec();
        }
        reply
    }

    /// The turn as others see it.
    fn show(&mut self, turn: Turn) -> Turn {
        match (self.slip, turn) {
            (DriverSlip::ComparedWithBuffer2, Turn::Frame(mut frame)) if frame[0] == COMPARE => {
                frame[0] = 0x61;
                Turn::Frame(frame)
            }
            (DriverSlip::KeepsPagesBehind, Turn::Frame(mut frame))
                if frame[0] == LOAD && self.different > 0 && frame.len() == 4 + self.read.len() =>
            {
                frame[4..].copy_from_slice(&self.read);
                Turn::Frame(frame)
            }
            (DriverSlip::LastPageNotCompared, Turn::Frame(frame))
                if frame[0] == COMPARE && self.loads == 8 =>
            {
                self.driver.next(&[0; 4]);
                self.driver.next(&[0x00, 0xA4])
            }
            (DriverSlip::BeforeVerdict, Turn::End(answer::BLANK | answer::END))
                if self.different > 0 =>
            {
                Turn::End(answer::MISCOMPARE)
            }
            (_, turn) => turn,
        }
    }
}

impl Driver for FaultyDriver {
    fn start(&mut self, array_len: usize, request: &Request) -> Turn {
        *self = FaultyDriver::new(self.slip);
        self.turn = self.driver.start(array_len, request);
        self.turn.clone()
    }

    fn next(&mut self, reply: &[u8]) -> Turn {
        let sent = match &self.turn {
            Turn::Frame(frame) => frame.clone(),
            Turn::End(_) => return self.turn.clone(),
        };
        let heard = self.hear(&sent, reply.to_vec());
        let turn = self.driver.next(&heard);
        self.turn = match self.slip {
            DriverSlip::StopsAtFirst if self.different > 0 => Turn::End(answer::MISCOMPARE),
            _ => self.show(turn),
        };
        self.turn.clone()
    }

    fn recipe(&self) -> Vec<u8> {
        self.driver.recipe()
    }
}
