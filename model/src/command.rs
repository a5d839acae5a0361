//! The command table (4.2, 4.3).

use crate::operation::Buffer;

/// What a frame asks for, once its opening and lead are known.
#[derive(Clone, Copy, Debug, PartialEq, Eq)]
pub enum Command {
    ReadPage,
    ReadArray,
    ReadBuffer(Buffer),
    WriteBuffer(Buffer),
    Program(Buffer),
    ProgramWithoutErase(Buffer),
    WriteAndProgram(Buffer),
    ErasePage,
    EraseBlock,
    EraseSector,
    EraseChip,
    Transfer(Buffer),
    Compare(Buffer),
    Rewrite(Buffer),
    EnableProtection,
    DisableProtection,
    EraseProtection,
    ProgramProtection,
    LockSector,
    ProgramSecurity,
    ReadProtection,
    ReadLockdown,
    ReadSecurity,
    ReadStatus,
    ReadIdentification,
    EnterDeepPowerDown,
    ResumeFromDeepPowerDown,
}

/// A frame that the table knows and that is no shorter than its lead.
#[derive(Clone, Copy, Debug, PartialEq, Eq)]
pub struct Request {
    pub command: Command,
    /// How many bytes of the frame are not data (4.1).
    pub lead: usize,
    /// The 24-bit number N; 0 for a command without address.
    pub address: u32,
}

/// Looks a frame up in the table: none if its opening is in no row (3.4), or
/// if the lead is not all there (3.5).
pub fn decode(frame: &[u8]) -> Option<Request> {
    let (lead, command) = look_up(frame)?;
    if frame.len() < lead {
        return None;
    }
    let address = match command {
        // 30 has its address behind its opening of four bytes (6.8).
        Command::LockSector => address(&frame[4..7]),
        _ if lead >= 4 => address(&frame[1..4]),
        _ => 0,
    };
    Some(Request {
        command,
        lead,
        address,
    })
}

/// The number N of three address bytes (3.7).
fn address(bytes: &[u8]) -> u32 {
    bytes.iter().fold(0, |n, &byte| n << 8 | u32::from(byte))
}

/// Lead and command of each row, by the opening (3.2, 3.3).
fn look_up(frame: &[u8]) -> Option<(usize, Command)> {
    use Buffer::{One, Two};
    let row = match *frame {
        [0xD2, ..] => (8, Command::ReadPage),
        [0x03, ..] => (4, Command::ReadArray),
        [0x0B, ..] => (5, Command::ReadArray),
        [0xD1, ..] => (4, Command::ReadBuffer(One)),
        [0xD3, ..] => (4, Command::ReadBuffer(Two)),
        [0xD4, ..] => (5, Command::ReadBuffer(One)),
        [0xD6, ..] => (5, Command::ReadBuffer(Two)),
        [0x84, ..] => (4, Command::WriteBuffer(One)),
        [0x87, ..] => (4, Command::WriteBuffer(Two)),
        [0x83, ..] => (4, Command::Program(One)),
        [0x86, ..] => (4, Command::Program(Two)),
        [0x88, ..] => (4, Command::ProgramWithoutErase(One)),
        [0x89, ..] => (4, Command::ProgramWithoutErase(Two)),
        [0x82, ..] => (4, Command::WriteAndProgram(One)),
        [0x85, ..] => (4, Command::WriteAndProgram(Two)),
        [0x81, ..] => (4, Command::ErasePage),
        [0x50, ..] => (4, Command::EraseBlock),
        [0x7C, ..] => (4, Command::EraseSector),
        [0xC7, 0x94, 0x80, 0x9A, ..] => (4, Command::EraseChip),
        [0x53, ..] => (4, Command::Transfer(One)),
        [0x55, ..] => (4, Command::Transfer(Two)),
        [0x60, ..] => (4, Command::Compare(One)),
        [0x61, ..] => (4, Command::Compare(Two)),
        [0x58, ..] => (4, Command::Rewrite(One)),
        [0x59, ..] => (4, Command::Rewrite(Two)),
        [0x3D, 0x2A, 0x7F, 0xA9, ..] => (4, Command::EnableProtection),
        [0x3D, 0x2A, 0x7F, 0x9A, ..] => (4, Command::DisableProtection),
        [0x3D, 0x2A, 0x7F, 0xCF, ..] => (4, Command::EraseProtection),
        [0x3D, 0x2A, 0x7F, 0xFC, ..] => (4, Command::ProgramProtection),
        [0x3D, 0x2A, 0x7F, 0x30, ..] => (7, Command::LockSector),
        [0x9B, 0x00, 0x00, 0x00, ..] => (4, Command::ProgramSecurity),
        [0x32, ..] => (4, Command::ReadProtection),
        [0x35, ..] => (4, Command::ReadLockdown),
        [0x77, ..] => (4, Command::ReadSecurity),
        [0xD7, ..] => (1, Command::ReadStatus),
        [0x9F, ..] => (1, Command::ReadIdentification),
        [0xB9, ..] => (1, Command::EnterDeepPowerDown),
        [0xAB, ..] => (1, Command::ResumeFromDeepPowerDown),
        _ => return None,
    };
    Some(row)
}
