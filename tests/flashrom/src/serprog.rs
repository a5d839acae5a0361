//! flashrom's serprog protocol, version 1, for a programmer with an SPI bus.
//!
//! A command is one byte and its parameters; the answer is ACK and the bytes
//! asked for, or NAK alone. Numbers are little-endian. Debian's package has
//! the protocol in `/usr/share/doc/flashrom/serprog-protocol.txt.gz`.

use crate::bridge::Bridge;
use std::io::{self, ErrorKind, Read, Write};

const ACK: u8 = 0x06;
const NAK: u8 = 0x15;

/// The commands that the bridge knows.
mod command {
    pub const NOP: u8 = 0x00;
    pub const INTERFACE_VERSION: u8 = 0x01;
    pub const COMMAND_MAP: u8 = 0x02;
    pub const PROGRAMMER_NAME: u8 = 0x03;
    pub const SERIAL_BUFFER_LEN: u8 = 0x04;
    pub const BUS_TYPES: u8 = 0x05;
    pub const QUEUE_LEN: u8 = 0x07;
    pub const WRITE_MAX: u8 = 0x08;
    pub const CLEAR_QUEUE: u8 = 0x0B;
    pub const QUEUE_DELAY: u8 = 0x0E;
    pub const RUN_QUEUE: u8 = 0x0F;
    pub const SYNC_NOP: u8 = 0x10;
    pub const READ_MAX: u8 = 0x11;
    pub const SET_BUS_TYPE: u8 = 0x12;
    pub const SPI: u8 = 0x13;

    pub const ALL: [u8; 15] = [
        NOP,
        INTERFACE_VERSION,
        COMMAND_MAP,
        PROGRAMMER_NAME,
        SERIAL_BUFFER_LEN,
        BUS_TYPES,
        QUEUE_LEN,
        WRITE_MAX,
        CLEAR_QUEUE,
        QUEUE_DELAY,
        RUN_QUEUE,
        SYNC_NOP,
        READ_MAX,
        SET_BUS_TYPE,
        SPI,
    ];
}

const BUS_SPI: u8 = 0x08;
const NAME: &[u8; 16] = b"slipknoll\0\0\0\0\0\0\0";
/// A length for buffers that never fill: TCP controls the flow.
const AMPLE: [u8; 2] = [0xFF, 0xFF];

/// Serves one connection to its end.
pub fn serve(stream: &mut (impl Read + Write), bridge: &mut Bridge) -> io::Result<()> {
    let mut command = [0];
    loop {
        match stream.read(&mut command) {
            Ok(0) => return Ok(()),
            Ok(_) => {
                let answer = answer(command[0], stream, bridge)?;
                stream.write_all(&answer)?;
            }
            Err(error) if error.kind() == ErrorKind::Interrupted => {}
            Err(error) => return Err(error),
        }
    }
}

/// Takes a command's parameters and obeys it; what to send back.
fn answer(command: u8, stream: &mut impl Read, bridge: &mut Bridge) -> io::Result<Vec<u8>> {
    Ok(match command {
        command::NOP | command::CLEAR_QUEUE | command::RUN_QUEUE => vec![ACK],
        command::INTERFACE_VERSION => acknowledge(&[1, 0]),
        command::COMMAND_MAP => acknowledge(&command_map()),
        command::PROGRAMMER_NAME => acknowledge(NAME),
        command::SERIAL_BUFFER_LEN | command::QUEUE_LEN => acknowledge(&AMPLE),
        command::BUS_TYPES => acknowledge(&[BUS_SPI]),
        command::WRITE_MAX | command::READ_MAX => {
            acknowledge(&(bridge.data_max as u32).to_le_bytes()[..3])
        }
        // The bridge has no clock: busy periods last for a number of polls.
        command::QUEUE_DELAY => take(stream, 4).map(|_| vec![ACK])?,
        command::SYNC_NOP => vec![NAK, ACK],
        command::SET_BUS_TYPE => match take(stream, 1)?[0] {
            BUS_SPI => vec![ACK],
            _ => vec![NAK],
        },
        command::SPI => transact(stream, bridge)?,
        _ => vec![NAK],
    })
}

/// Takes the two lengths and the bytes to send.
fn transact(stream: &mut impl Read, bridge: &mut Bridge) -> io::Result<Vec<u8>> {
    let lengths = take(stream, 6)?;
    let (send_len, read_len) = (number(&lengths[..3]), number(&lengths[3..]));
    let sent = take(stream, send_len)?;
    Ok(match bridge.transact(&sent, read_len) {
        Ok(read) => acknowledge(&read),
        Err(_) => vec![NAK],
    })
}

fn take(stream: &mut impl Read, len: usize) -> io::Result<Vec<u8>> {
    let mut bytes = vec![0; len];
    stream.read_exact(&mut bytes)?;
    Ok(bytes)
}

fn number(bytes: &[u8]) -> usize {
    let add = |sum, &byte| 256 * sum + usize::from(byte);
    bytes.iter().rev().fold(0, add)
}

fn acknowledge(bytes: &[u8]) -> Vec<u8> {
    [&[ACK], bytes].concat()
}

/// A bit for each command; the lowest of the first byte is command 0's.
fn command_map() -> [u8; 32] {
    let mut map = [0; 32];
    for command in command::ALL {
        map[usize::from(command / 8)] |= 1 << (command % 8);
    }
    map
}
