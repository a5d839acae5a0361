//! The bridge by itself: commands of the protocol, and their answers.

use flashrom::{serprog, Bridge, Library};
use slipknoll::Part;
use std::io::{self, Cursor, Read, Write};

const ACK: u8 = 0x06;
const NAK: u8 = 0x15;

/// A connection whose client has sent everything already.
struct Connection {
    sent: Cursor<Vec<u8>>,
    answers: Vec<u8>,
}

impl Read for Connection {
    fn read(&mut self, bytes: &mut [u8]) -> io::Result<usize> {
        self.sent.read(bytes)
    }
}

impl Write for Connection {
    fn write(&mut self, bytes: &[u8]) -> io::Result<usize> {
        self.answers.write(bytes)
    }

    fn flush(&mut self) -> io::Result<()> {
        Ok(())
    }
}

/// What the bridge answers to these bytes.
fn answers(bridge: &mut Bridge, sent: &[u8]) -> io::Result<Vec<u8>> {
    let mut connection = Connection {
        sent: Cursor::new(sent.to_vec()),
        answers: Vec::new(),
    };
    serprog::serve(&mut connection, bridge)?;
    Ok(connection.answers)
}

/// The command for one transaction.
fn spi(sent: &[u8], read_len: u32) -> Vec<u8> {
    let send_len = (sent.len() as u32).to_le_bytes();
    let read_len = read_len.to_le_bytes();
    [&[0x13], &send_len[..3], &read_len[..3], sent].concat()
}

#[test]
fn queries() {
    let mut library = Library;
    let mut bridge = Bridge::new(&mut library, Part::Full);
    let mut ask = |sent: &[u8]| answers(&mut bridge, sent).expect("a whole command");
    assert_eq!(ask(&[0x10]), [NAK, ACK]);
    assert_eq!(ask(&[0x01]), [ACK, 1, 0]);
    assert_eq!(ask(&[0x05]), [ACK, 8]);
    // 1,096 bytes after an opcode and an address.
    assert_eq!(ask(&[0x08]), [ACK, 0x48, 0x04, 0]);
    assert_eq!(ask(&[0x11]), [ACK, 0x48, 0x04, 0]);
    // SPI alone, and no read of a byte of a parallel chip.
    assert_eq!(ask(&[0x12, 8, 0x12, 1, 0x09]), [ACK, NAK, NAK]);
    // A delay is queued, run and over.
    assert_eq!(ask(&[0x0B, 0x0E, 1, 2, 3, 4, 0x0F]), [ACK, ACK, ACK]);
    // The map says which commands these are.
    let map = ask(&[0x02]);
    assert_eq!(map[..5], [ACK, 0xBF, 0xC9, 0x0F, 0]);
    assert_eq!(map.len(), 33);
}

#[test]
fn busy_for_three_polls() {
    busy_on(Part::Full, [0x24, 0xA4], 264);
    busy_on(Part::Full256, [0x25, 0xA5], 512);
}

/// Busy and ready, and where N = 512 begins in the array.
fn busy_on(part: Part, [busy, ready]: [u8; 2], place: usize) {
    let mut library = Library;
    let mut bridge = Bridge::new(&mut library, part);
    let poll = spi(&[0xD7], 1);
    let load = spi(&[0x84, 0, 0, 0, 0x42], 0);
    let program = spi(&[0x83, 0, 2, 0], 0);
    let sent = [&load, &program, &poll, &poll, &poll, &poll].map(|it| &it[..]);
    let answers = answers(&mut bridge, &sent.concat()).expect("whole commands");
    let polls = [ACK, busy, ACK, busy, ACK, busy, ACK, ready];
    assert_eq!(answers, [&[ACK, ACK], &polls[..]].concat());
    assert_eq!(bridge.array()[place], 0x42);
    let traffic = bridge.take_traffic();
    assert_eq!([0x84, 0x83, 0xD7].map(|it| traffic.count(it)), [1, 1, 4]);
    assert_eq!((traffic.longest, traffic.refused), (5, 0));
}

#[test]
fn frames_of_1100_bytes_at_most() {
    let mut library = Library;
    let mut bridge = Bridge::new(&mut library, Part::Full);
    let longest = spi(&[0x03, 0, 0, 0], 1096);
    let longer = spi(&[0x03, 0, 0, 0], 1097);
    let empty = spi(&[], 0);
    let sent = [longest, longer, empty].concat();
    let answers = answers(&mut bridge, &sent).expect("whole commands");
    assert_eq!(answers[0], ACK);
    assert_eq!(answers[1..1097], [0xFF; 1096]);
    assert_eq!(answers[1097..], [NAK, NAK]);
    let traffic = bridge.take_traffic();
    assert_eq!((traffic.longest, traffic.refused), (1100, 2));
}

#[test]
fn withheld_opcodes() {
    let mut library = Library;
    let mut bridge = Bridge::new(&mut library, Part::Full);
    bridge.withheld = vec![0x81];
    let erase = spi(&[0x81, 0, 0, 0], 0);
    let poll = spi(&[0xD7], 1);
    let answers = answers(&mut bridge, &[erase, poll].concat()).expect("whole commands");
    assert_eq!(answers, [NAK, ACK, 0xA4]);
}

#[test]
fn half_a_command() {
    let mut library = Library;
    let mut bridge = Bridge::new(&mut library, Part::Full);
    let poll = spi(&[0xD7], 1);
    let error = answers(&mut bridge, &poll[..poll.len() - 1]).expect_err("half a command");
    assert_eq!(error.kind(), io::ErrorKind::UnexpectedEof);
}
