//! Examples of what 256-byte pages change, with their values typed here; `chip.rs`
//! and `calls.rs` have the others.

use at45db081d_model::{answer, Chip, Operation, Part};

mod bench;

use bench::{fresh, send, status};

/// The first byte behind a page of 256 bytes, and the last.
const BEHIND: [usize; 2] = [256, 263];

/// A fresh short part of 256-byte pages whose buffers have marks behind the
/// bytes that belong to it.
fn marked() -> (Chip, Vec<u8>) {
    let (mut chip, array) = fresh(Part::SHORT_256);
    for buffer in &mut chip.buffers {
        buffer[256..].copy_from_slice(&[1, 2, 3, 4, 5, 6, 7, 8]);
    }
    (chip, array)
}

fn assert_marked(chip: &Chip) {
    for buffer in &chip.buffers {
        assert_eq!(buffer[256..], [1, 2, 3, 4, 5, 6, 7, 8]);
    }
}

#[test]
fn buffers_of_256_bytes_wrap_at_256() {
    let (mut chip, array) = marked();
    // From byte 255 on: the byte field has eight bits, so 511 is 255.
    for middle in [0x00, 0x01] {
        send(
            &mut chip,
            &array,
            &[0x87, 0, middle, 0xFF, 0x41, 0x42, 0x43],
        );
        assert_eq!(chip.buffers[1][255], 0x41);
        assert_eq!(chip.buffers[1][..3], [0x42, 0x43, 0x00]);
        let reply = send(&mut chip, &array, &[0xD3, 0, middle, 0xFF, 0, 0, 0]);
        assert_eq!(reply[4..], [0x41, 0x42, 0x43]);
    }
    // Byte 8, where 264-byte pages have byte 0 again.
    send(&mut chip, &array, &[0x84, 0x00, 0x01, 0x08, 0x66]);
    assert_eq!((chip.buffers[0][0], chip.buffers[0][8]), (0x00, 0x66));
    assert_marked(&chip);
}

#[test]
fn pages_of_256_bytes_are_programmed_compared_and_fetched() {
    let (mut chip, mut array) = marked();
    let mut load = vec![0x3C; 4 + 264];
    load[..4].copy_from_slice(&[0x84, 0, 0, 0]);
    send(&mut chip, &array, &load);
    send(&mut chip, &array, &[0x83, 0x00, 0x05, 0x00]);
    chip.end_busy(&mut array);
    assert_eq!(array[5 * 256..6 * 256], [0x3C; 256]);
    assert_eq!((array[5 * 256 - 1], array[6 * 256]), (0xFF, 0xFF));
    // Alike in 256 bytes: what is behind them does not count.
    send(&mut chip, &array, &[0x60, 0x00, 0x05, 0x00]);
    chip.end_busy(&mut array);
    assert_eq!(status(&mut chip, &array), 0xA5);
    send(&mut chip, &array, &[0x55, 0x00, 0x05, 0x00]);
    chip.end_busy(&mut array);
    assert_eq!(chip.buffers[1][..256], [0x3C; 256]);
    send(&mut chip, &array, &[0x50, 0x00, 0x05, 0x00]);
    chip.end_busy(&mut array);
    assert!(array.iter().all(|&byte| byte == 0xFF));
    send(&mut chip, &array, &[0x61, 0x00, 0x05, 0x00]);
    chip.end_busy(&mut array);
    assert_eq!(status(&mut chip, &array), 0xE5);
    assert_marked(&chip);
}

#[test]
fn cut_of_a_256_byte_part_takes_junk_from_0_256_and_512() {
    let (mut chip, mut array) = marked();
    let mut junk = vec![0x10; 33_280];
    junk[256..512].fill(0x20);
    junk[512..].fill(0x30);
    junk[512 + 5 * 256] = 0x31;
    chip.operation = Operation::ErasePage { page: 5 };
    assert_eq!(chip.cut(&mut array, &junk), answer::ACCEPTED);
    assert_eq!(chip.buffers[0][..256], [0x10; 256]);
    assert_eq!(chip.buffers[1][..256], [0x20; 256]);
    assert_eq!((array[5 * 256 - 1], array[5 * 256]), (0xFF, 0x31));
    assert_eq!((array[6 * 256 - 1], array[6 * 256]), (0x30, 0xFF));
    assert_marked(&chip);
    // Registers: protection and user bytes from 512 on, the lock by J[512].
    for (i, byte) in junk[512..576].iter_mut().enumerate() {
        *byte = 0x80 + i as u8;
    }
    chip.operation = Operation::EraseProtection;
    chip.cut(&mut array, &junk);
    assert_eq!((chip.protection[0], chip.protection[15]), (0x80, 0x8F));
    chip.operation = Operation::ProgramSecurity { data: [0; 64] };
    chip.cut(&mut array, &junk);
    assert_eq!((chip.user[0], chip.user[63]), (0x80, 0xBF));
    for (byte, expected) in [(0x7F, 0x00), (0x80, 0xC0)] {
        junk[512] = byte;
        chip.operation = Operation::LockSector { sector: 0 };
        chip.cut(&mut array, &junk);
        assert_eq!(chip.lockdown[0], expected);
    }
    assert_marked(&chip);
}

#[test]
fn junk_of_another_part_meets_7() {
    for part in Part::ALL {
        let (mut chip, mut array) = fresh(part);
        let before = chip.clone();
        for other in Part::ALL.into_iter().filter(|&other| other != part) {
            let junk = vec![0; other.junk_len()];
            assert_eq!(chip.cut(&mut array, &junk), answer::SCRIPT);
        }
        assert_eq!(chip, before);
        let junk = vec![0; part.junk_len()];
        assert_eq!(chip.cut(&mut array, &junk), answer::ACCEPTED);
    }
}

#[test]
fn one_record_meets_parts_of_both_page_sizes() {
    let (mut chip, mut long) = fresh(Part::SHORT);
    let (_, mut short) = fresh(Part::SHORT_256);
    let mut load = vec![0x3C; 4 + 264];
    load[..4].copy_from_slice(&[0x84, 0, 0, 0]);
    send(&mut chip, &long, &load);
    // Begun on the one, ended on the other, which has 256 bytes of the buffer.
    send(&mut chip, &long, &[0x83, 0x00, 0xFE, 0x00]);
    assert_eq!(chip.end_busy(&mut short), answer::ACCEPTED);
    assert_eq!(short[127 * 256..], [0x3C; 256]);
    assert_eq!(short[127 * 256 - 1], 0xFF);
    send(&mut chip, &short, &[0x83, 0x00, 0x7F, 0x00]);
    assert_eq!(chip.end_busy(&mut long), answer::ACCEPTED);
    assert_eq!(long[127 * 264..], [0x3C; 264]);
    // A fetch on the part of 256 leaves the last eight bytes.
    send(&mut chip, &short, &[0x53, 0x00, 0x00, 0x00]);
    assert_eq!(chip.end_busy(&mut short), answer::ACCEPTED);
    assert_eq!(chip.buffers[0][..256], [0xFF; 256]);
    assert_eq!(BEHIND.map(|i| chip.buffers[0][i]), [0x3C; 2]);
}
