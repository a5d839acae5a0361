//! Examples of the chip's rules (sections 1 to 8 and 13 of
//! `docs/SPECIFICATION.md`), with their values typed here.

use at45db081d_model::command::decode;
use at45db081d_model::part::{sector_bits, sector_of};
use at45db081d_model::{answer, record, Buffer, Chip, Operation, Part, Record, RECORD_LEN};

mod bench;

use bench::{fresh, send, status, FACTORY};

fn page_named(frame: &[u8], part: Part) -> u16 {
    part.page_of(decode(frame).expect("a known frame").address)
}

/// 84 with all 264 bytes alike, then 83 of the page with its busy end.
fn program(chip: &mut Chip, array: &mut [u8], page: u16, byte: u8) {
    let mut frame = vec![byte; 268];
    frame[..4].copy_from_slice(&[0x84, 0, 0, 0]);
    send(chip, array, &frame);
    let [high, low] = (page * 2).to_be_bytes();
    send(chip, array, &[0x83, high, low, 0]);
    assert_eq!(chip.end_busy(array), answer::ACCEPTED);
}

#[test]
fn parts_have_their_lengths() {
    // Array, junk, junk's place for the array, slot, recipe, blocks.
    for (part, lengths) in [
        (Part::FULL, [1_081_344, 1_081_872, 528, 2112, 2109, 512]),
        (Part::SHORT, [33_792, 34_320, 528, 2112, 2109, 16]),
        (Part::FULL_256, [1_048_576, 1_049_088, 512, 2048, 2045, 512]),
        (Part::SHORT_256, [32_768, 33_280, 512, 2048, 2045, 16]),
    ] {
        let found = [
            part.array_len(),
            part.junk_len(),
            part.array_junk(),
            part.slot_size(),
            part.max_recipe(),
            part.blocks(),
        ];
        assert_eq!(found, lengths);
        let len = part.array_len();
        assert_eq!(Part::from_array_len(len), Some(part));
        assert_eq!(Part::from_array_len(len - 1), None);
        assert_eq!(Part::from_array_len(len + 1), None);
    }
    for len in [0, 1, 256, 264, 2048, 2112, 33_280, 34_320] {
        assert_eq!(Part::from_array_len(len), None);
    }
}

#[test]
fn addresses_name_pages_and_bytes() {
    assert_eq!(page_named(&[0x83, 0x00, 0x0A, 0x00], Part::FULL), 5);
    assert_eq!(page_named(&[0x83, 0x1F, 0xFE, 0x00], Part::FULL), 4095);
    assert_eq!(page_named(&[0x83, 0xFF, 0xFE, 0x00], Part::FULL), 4095);
    assert_eq!(page_named(&[0x83, 0xFF, 0xFE, 0x00], Part::SHORT), 127);
    assert_eq!(page_named(&[0x83, 0x00, 0x05, 0xFF], Part::FULL_256), 5);
    assert_eq!(page_named(&[0x83, 0x0F, 0xFF, 0x00], Part::FULL_256), 4095);
    assert_eq!(page_named(&[0x83, 0xFF, 0xFF, 0x00], Part::FULL_256), 4095);
    assert_eq!(page_named(&[0x83, 0x10, 0x00, 0x00], Part::FULL_256), 0);
    assert_eq!(page_named(&[0x83, 0xFF, 0xFF, 0x00], Part::SHORT_256), 127);
    assert_eq!(page_named(&[0x83, 0x00, 0x80, 0x00], Part::SHORT_256), 0);
    // Page and byte of N, with pages of 264 and of 256 bytes.
    for (n, long, short) in [
        (0, (0, 0), (0, 0)),
        (1, (0, 1), (0, 1)),
        (254, (0, 254), (0, 254)),
        (255, (0, 255), (0, 255)),
        (256, (0, 256), (1, 0)),
        (257, (0, 257), (1, 1)),
        (263, (0, 263), (1, 7)),
        (264, (0, 0), (1, 8)),
        (511, (0, 247), (1, 255)),
        (512, (1, 0), (2, 0)),
    ] {
        for (part, place) in [(Part::SHORT, long), (Part::SHORT_256, short)] {
            assert_eq!((part.page_of(n), part.byte_of(n)), place, "{n}");
        }
    }
}

#[test]
fn pages_lie_in_their_sectors() {
    assert_eq!([7, 8, 255, 256].map(sector_of), [0, 1, 1, 2]);
    assert_eq!(sector_of(4095), 16);
    assert_eq!(Part::ALL.map(Part::sectors), [17, 2, 17, 2]);
    assert_eq!(Part::FULL.sector_range(0), 0..8 * 264);
    assert_eq!(Part::FULL.sector_range(1), 8 * 264..256 * 264);
    assert_eq!(Part::SHORT.sector_range(1), 8 * 264..128 * 264);
    assert_eq!(Part::FULL.sector_range(16), 3840 * 264..4096 * 264);
    assert_eq!(Part::FULL_256.sector_range(1), 2_048..65_536);
    assert_eq!(Part::SHORT_256.sector_range(1), 2_048..32_768);
    assert_eq!(Part::FULL_256.sector_range(16), 983_040..1_048_576);
    assert_eq!(sector_bits(0), (0, 0xC0));
    assert_eq!(sector_bits(1), (0, 0x30));
    assert_eq!(sector_bits(16), (15, 0xFF));
}

#[test]
fn fresh_chip_is_as_listed() {
    for part in Part::ALL {
        let (chip, array) = fresh(part);
        assert!(array.iter().all(|&byte| byte == 0xFF));
        assert_eq!(chip.user, [0xFF; 64]);
        assert_eq!(chip.factory, FACTORY);
        assert_eq!(chip.buffers, [[0; 264]; 2]);
        assert_eq!((chip.protection, chip.lockdown), ([0; 16], [0; 16]));
        assert!(chip.wp_high && chip.operation == Operation::Idle && !chip.compare);
        assert!(!chip.security_programmed && !chip.protection_enabled && !chip.deep_power_down);
    }
}

#[test]
fn status_tells_mark_busy_pin_and_page_size() {
    for (part, expected) in [
        (Part::FULL, [0xA4, 0xA6, 0x24, 0x26, 0xE4]),
        (Part::SHORT, [0xA4, 0xA6, 0x24, 0x26, 0xE4]),
        (Part::FULL_256, [0xA5, 0xA7, 0x25, 0x27, 0xE5]),
        (Part::SHORT_256, [0xA5, 0xA7, 0x25, 0x27, 0xE5]),
    ] {
        let (mut chip, array) = fresh(part);
        assert_eq!(status(&mut chip, &array), expected[0]);
        send(&mut chip, &array, &[0x3D, 0x2A, 0x7F, 0xA9]);
        assert_eq!(status(&mut chip, &array), expected[1]);
        send(&mut chip, &array, &[0x3D, 0x2A, 0x7F, 0x9A]);
        send(&mut chip, &array, &[0x83, 0x00, 0x0A, 0x00]);
        assert_eq!(status(&mut chip, &array), expected[2]);
        chip.move_pin(false);
        assert_eq!(status(&mut chip, &array), expected[3]);
        assert_eq!(send(&mut chip, &array, &[0xD7]), [0xFF]);
        chip.move_pin(true);
        (chip.operation, chip.compare) = (Operation::Idle, true);
        assert_eq!(status(&mut chip, &array), expected[4]);
    }
}

#[test]
fn frame_83_programs_page_5_at_the_busy_end() {
    let (mut chip, mut array) = fresh(Part::FULL);
    send(&mut chip, &array, &[0x84, 0, 0, 0, 0x11]);
    send(&mut chip, &array, &[0x83, 0x00, 0x0A, 0x00]);
    assert_eq!(array[5 * 264], 0xFF);
    chip.end_busy(&mut array);
    assert_eq!(array[5 * 264], 0x11);
    assert_eq!(array[5 * 264 + 1..6 * 264], [0; 263]);
    assert_eq!((array[5 * 264 - 1], array[6 * 264]), (0xFF, 0xFF));
}

#[test]
fn frame_88_ands_f0_with_3c_to_30() {
    let (mut chip, mut array) = fresh(Part::SHORT);
    program(&mut chip, &mut array, 5, 0xF0);
    let mut write = vec![0x3C; 268];
    write[..4].copy_from_slice(&[0x84, 0, 0, 0]);
    send(&mut chip, &array, &write);
    send(&mut chip, &array, &[0x88, 0x00, 0x0A, 0x00]);
    chip.end_busy(&mut array);
    assert_eq!(array[5 * 264..6 * 264], [0x30; 264]);
}

#[test]
fn reads_wrap_where_listed() {
    // The last byte of pages 127 and 2: its address, and what it holds.
    for (part, page, [last, third], [at_last, at_third]) in [
        (Part::SHORT, 264, [[0xFF, 0x07], [0x05, 0x07]], [134, 9]),
        (Part::SHORT_256, 256, [[0x7F, 0xFF], [0x02, 0xFF]], [126, 1]),
    ] {
        let (mut chip, mut array) = fresh(part);
        for (i, byte) in array.iter_mut().enumerate() {
            *byte = (i / page + i % page) as u8;
        }
        let mut read = |opcode, [middle, low]: [u8; 2], lead: usize| {
            let mut frame = vec![0; lead + 2];
            frame[..4].copy_from_slice(&[opcode, 0, middle, low]);
            send(&mut chip, &array, &frame)[lead..].to_vec()
        };
        // Behind page 127 the page's byte 0 follows, or the array's.
        assert_eq!(read(0xD2, last, 8), [at_last, 127]);
        assert_eq!(read(0x03, last, 4), [at_last, 0]);
        assert_eq!(read(0x0B, last, 5), [at_last, 0]);
        assert_eq!(read(0x0B, third, 5), [at_third, 3]);
    }
}

#[test]
fn registers_and_identification_end_in_ff() {
    let (mut chip, array) = fresh(Part::SHORT);
    chip.protection = [0x21; 16];
    chip.lockdown = [0x43; 16];
    chip.user = [0x65; 64];
    let reply = send(&mut chip, &array, &[0x9F, 0, 0, 0, 0, 0]);
    assert_eq!(reply, [0xFF, 0x1F, 0x25, 0x00, 0x00, 0xFF]);
    let mut frame = [0; 140];
    for (opcode, length, expected) in [(0x32, 16, 0x21), (0x35, 16, 0x43)] {
        frame[0] = opcode;
        let reply = send(&mut chip, &array, &frame);
        assert!(reply[4..4 + length].iter().all(|&byte| byte == expected));
        assert_eq!((reply[3], reply[4 + length]), (0xFF, 0xFF));
    }
    frame[0] = 0x77;
    let reply = send(&mut chip, &array, &frame);
    assert_eq!(reply[4..68], [0x65; 64]);
    assert_eq!(reply[68..132], FACTORY);
    assert_eq!(reply[132..], [0xFF; 8]);
}

#[test]
fn sealed_sectors_take_no_program() {
    let (mut chip, mut array) = fresh(Part::FULL);
    // A single bit lists 0a; the low bits of byte 0 serve nobody.
    chip.protection[0] = 0x4F;
    chip.move_pin(false);
    let before = chip.clone();
    send(&mut chip, &array, &[0x82, 0x00, 0x0E, 0x00, 0x77]);
    send(&mut chip, &array, &[0x58, 0x00, 0x0E, 0x00]);
    assert_eq!(chip, before);
    send(&mut chip, &array, &[0x82, 0x00, 0x10, 0x00, 0x77]);
    assert_eq!(chip.buffers[0][0], 0x77);
    chip.end_busy(&mut array);
    assert_eq!(array[8 * 264], 0x77);
    // A Chip Erase takes what is not sealed: here all but 0a.
    send(&mut chip, &array, &[0xC7, 0x94, 0x80, 0x9A]);
    assert_eq!(chip.operation, Operation::EraseChip { sectors: 0x1_FFFE });
}

#[test]
fn locking_sets_c0_30_or_ff() {
    let (mut chip, mut array) = fresh(Part::FULL);
    for page in [[0x00, 0x00, 0x00], [0x00, 0x10, 0x00], [0x1F, 0xFE, 0x00]] {
        let mut frame = vec![0x3D, 0x2A, 0x7F, 0x30];
        frame.extend(page);
        send(&mut chip, &array, &frame);
        chip.end_busy(&mut array);
    }
    assert_eq!((chip.lockdown[0], chip.lockdown[15]), (0xF0, 0xFF));
    assert_eq!(chip.lockdown[1..15], [0; 14]);
}

#[test]
fn protection_is_programmed_by_and() {
    let (mut chip, mut array) = fresh(Part::SHORT);
    chip.protection = [0xF0; 16];
    let mut frame = vec![0x3D, 0x2A, 0x7F, 0xFC];
    frame.extend([0x3C; 17]);
    frame[4 + 16] = 0x11;
    send(&mut chip, &array, &frame);
    assert_eq!(
        chip.buffers[0][..17],
        [[0x11, 0x3C].as_slice(), &[0x3C; 14], &[0]].concat()
    );
    // Only status is obeyed meanwhile.
    assert_eq!(send(&mut chip, &array, &[0x9F, 0]), [0xFF, 0xFF]);
    assert_eq!(status(&mut chip, &array), 0x24);
    chip.end_busy(&mut array);
    assert_eq!((chip.protection[0], chip.protection[1]), (0x10, 0x30));
}

#[test]
fn security_is_programmed_once() {
    let (mut chip, mut array) = fresh(Part::SHORT);
    send(&mut chip, &array, &[0x9B, 0, 0, 0, 0x42]);
    chip.end_busy(&mut array);
    assert!(chip.security_programmed);
    assert_eq!((chip.user[0], chip.user[1]), (0x42, 0xFF));
    send(&mut chip, &array, &[0x9B, 0, 0, 0, 0x00]);
    assert_eq!(
        (chip.operation, chip.buffers[0][0]),
        (Operation::Idle, 0x42)
    );
}

#[test]
fn compare_bit_tells_a_difference() {
    let (mut chip, mut array) = fresh(Part::SHORT);
    send(&mut chip, &array, &[0x60, 0, 0, 0]);
    chip.end_busy(&mut array);
    assert_eq!(status(&mut chip, &array), 0xE4);
    send(&mut chip, &array, &[0x53, 0, 0, 0]);
    chip.end_busy(&mut array);
    send(&mut chip, &array, &[0x60, 0, 0, 0]);
    chip.end_busy(&mut array);
    assert_eq!(status(&mut chip, &array), 0xA4);
}

#[test]
fn deep_power_down_obeys_ab_alone() {
    let (mut chip, array) = fresh(Part::SHORT);
    send(&mut chip, &array, &[0xB9]);
    assert_eq!(status(&mut chip, &array), 0xFF);
    send(&mut chip, &array, &[0xAB]);
    assert_eq!(status(&mut chip, &array), 0xA4);
}

#[test]
fn cut_keeps_lockdown_and_wp() {
    let (mut chip, mut array) = fresh(Part::SHORT);
    chip.lockdown = [0x99; 16];
    chip.protection = [0x88; 16];
    chip.protection_enabled = true;
    chip.deep_power_down = true;
    chip.compare = true;
    chip.wp_high = false;
    chip.operation = Operation::EraseBlock { block: 1 };
    let mut junk = vec![0x07; Part::SHORT.junk_len()];
    junk[528 + 8 * 264] = 0x08;
    assert_eq!(chip.cut(&mut array, &junk), answer::ACCEPTED);
    assert_eq!(chip.buffers, [[0x07; 264]; 2]);
    assert_eq!((chip.lockdown, chip.protection), ([0x99; 16], [0x88; 16]));
    assert!(!chip.protection_enabled && !chip.deep_power_down && !chip.compare && !chip.wp_high);
    assert_eq!((array[8 * 264 - 1], array[8 * 264]), (0xFF, 0x08));
    assert_eq!((array[16 * 264 - 1], array[16 * 264]), (0x07, 0xFF));
}

#[test]
fn cut_locks_from_80h_on() {
    for (byte, expected) in [(0x7F, 0x00), (0x80, 0x30)] {
        let (mut chip, mut array) = fresh(Part::SHORT);
        chip.operation = Operation::LockSector { sector: 1 };
        let mut junk = vec![0; Part::SHORT.junk_len()];
        junk[528] = byte;
        assert_eq!(chip.cut(&mut array, &junk), answer::ACCEPTED);
        assert_eq!(chip.lockdown[0], expected);
    }
}

#[test]
fn refusals_come_in_order_and_change_nothing() {
    let (mut chip, mut array) = fresh(Part::SHORT);
    let before = chip.clone();
    let mut reply = [0xEE; 4];
    assert_eq!(chip.send(&array[1..], &[], &mut reply), answer::PART);
    assert_eq!(chip.send(&array, &[], &mut []), answer::FRAME);
    assert_eq!(chip.send(&array, &[0xD7, 0], &mut reply), answer::FRAME);
    assert_eq!(chip.send(&array, &[0; 1101], &mut [0; 1101]), answer::FRAME);
    assert_eq!(chip.cut(&mut array[1..], &[]), answer::PART);
    assert_eq!(chip.cut(&mut array, &[]), answer::SCRIPT);
    assert_eq!((chip, reply), (before, [0xEE; 4]));
}

#[test]
fn operations_beyond_the_part_are_refused() {
    let (mut chip, mut array) = fresh(Part::SHORT);
    for operation in [
        Operation::Transfer {
            buffer: Buffer::Two,
            page: 128,
        },
        Operation::EraseBlock { block: 16 },
        Operation::LockSector { sector: 2 },
        Operation::EraseChip { sectors: 4 },
        Operation::Unknown,
    ] {
        chip.operation = operation;
        assert_eq!(chip.end_busy(&mut array), answer::PART);
        assert_eq!(chip.operation, operation);
    }
}

#[test]
fn record_block_is_canonical_after_a_call() {
    let mut block: Record = [0xA5; RECORD_LEN];
    let mut array = vec![0; Part::SHORT.array_len()];
    assert_eq!(
        record::fresh(&mut block, &FACTORY, &mut array),
        answer::ACCEPTED
    );
    let mut frame = vec![0x3D, 0x2A, 0x7F, 0xFC];
    frame.extend([0x3C; 16]);
    assert_eq!(
        record::send(&mut block, &array, &frame, &mut [0; 20]),
        answer::ACCEPTED
    );
    let mut expected = [0; RECORD_LEN];
    expected[32..96].fill(0xFF);
    expected[96..160].copy_from_slice(&FACTORY);
    expected[162] = 1;
    expected[164] = 0xFC;
    expected[172..188].fill(0x3C);
    expected[236..252].fill(0x3C);
    assert_eq!(block, expected);
}

#[test]
fn unreadable_tag_meets_1_but_lets_the_pin_move() {
    let mut block: Record = [0; RECORD_LEN];
    let mut array = vec![0; Part::SHORT.array_len()];
    for (tag, buffer) in [(0x86, 1), (0x83, 0), (0x83, 3), (0x00, 1), (0xFF, 0)] {
        (block[164], block[165], block[162]) = (tag, buffer, 0x5A);
        let before = block;
        assert_eq!(
            record::send(&mut block, &array, &[0xD7], &mut [0]),
            answer::PART
        );
        assert_eq!(record::end_busy(&mut block, &mut array), answer::PART);
        assert_eq!(record::cut(&mut block, &mut array, &[]), answer::PART);
        assert_eq!(block, before);
        assert_eq!(record::move_pin(&mut block, true), answer::ACCEPTED);
        assert_eq!(block[162], 1);
    }
}
