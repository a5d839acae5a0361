//! Examples of the slot driver's rules (sections 9 to 12 of
//! `docs/SPECIFICATION.md`), with their values typed here.

use at45db081d_model::{answer, Buffer, Call, Chip, Date, Lent, Operation, Outcome, Part};

const FACTORY: [u8; 64] = [0x5A; 64];
const STALE: u8 = 0xEE;
const TODAY: Date = Date::new(2000, 1, 1);

/// A chip with what its calls are lent.
struct Bench {
    chip: Chip,
    array: Vec<u8>,
    junk: Vec<u8>,
    log: Vec<u8>,
    buffer: Vec<u8>,
}

impl Bench {
    fn fresh(part: Part) -> Bench {
        let mut array = vec![0; part.array_len()];
        Bench {
            chip: Chip::fresh(&FACTORY, &mut array).expect("a known part"),
            array,
            junk: vec![0x77; part.junk_len()],
            log: vec![STALE; 103_000],
            buffer: vec![STALE; 2200],
        }
    }

    fn call(&mut self, script: &[u8], call: Call) -> Outcome {
        self.log.fill(STALE);
        let lent = Lent {
            array: &mut self.array,
            script,
            junk: &self.junk,
            log: &mut self.log,
        };
        self.chip.call(lent, call)
    }

    fn put(&mut self, script: &[u8], slot: usize, poll_limit: usize, recipe: &[u8]) -> Outcome {
        let call = Call::Put {
            slot,
            poll_limit,
            term: None,
            recipe,
        };
        self.call(script, call)
    }

    fn patch(&mut self, slot: usize, place: usize, bytes: &[u8]) -> Outcome {
        let call = Call::Patch {
            slot,
            poll_limit: 1,
            place,
            bytes,
        };
        self.call(&[], call)
    }

    fn get(&mut self, script: &[u8], slot: usize) -> Outcome {
        let mut buffer = vec![STALE; 2200];
        let call = Call::Get {
            slot,
            poll_limit: 1,
            today: TODAY,
            buffer: &mut buffer,
        };
        let outcome = self.call(script, call);
        self.buffer = buffer;
        outcome
    }

    fn wipe(&mut self, script: &[u8], slot: usize, poll_limit: usize) -> Outcome {
        self.call(script, Call::Wipe { slot, poll_limit })
    }

    fn raw(&mut self, script: &[u8], frame: &[u8]) -> (Outcome, Vec<u8>) {
        let mut reply = vec![STALE; frame.len()];
        let call = Call::Raw {
            frame,
            reply: &mut reply,
        };
        let outcome = self.call(script, call);
        (outcome, reply)
    }

    /// The log lines written, as hexadecimal.
    fn lines(&self, outcome: &Outcome) -> Vec<String> {
        let end = 6 * outcome.frames as usize;
        assert!(self.log[end..].iter().all(|&byte| byte == STALE));
        self.log[..end]
            .chunks(6)
            .map(|line| line.iter().map(|byte| format!("{byte:02X}")).collect())
            .collect()
    }

    fn slot(&self, slot: usize) -> &[u8] {
        let len = match self.array.len() {
            33_792 | 1_081_344 => 2112,
            _ => 2048,
        };
        &self.array[len * slot..len * (slot + 1)]
    }
}

fn counted(answer: u8, frames: u64, polls: u64) -> Outcome {
    Outcome {
        answer,
        frames,
        polls,
        n: 0,
    }
}

#[test]
fn empty_script_counts_are_43_51_9_5() {
    for part in Part::ALL {
        let mut bench = Bench::fresh(part);
        assert_eq!(bench.get(&[], 3), counted(answer::BLANK, 9, 1));
        assert_eq!(bench.put(&[], 3, 1, b"AB"), counted(0, 43, 17));
        assert_eq!(bench.patch(3, 1, b"C"), counted(0, 51, 17));
        let read = Outcome {
            n: 2,
            ..counted(0, 9, 1)
        };
        assert_eq!(bench.get(&[], 3), read);
        assert_eq!(bench.buffer[..3], [b'A', b'C', STALE]);
        assert_eq!(bench.wipe(&[], 3, 1), counted(0, 5, 2));
        assert!(bench.array.iter().all(|&byte| byte == 0xFF));
    }
}

#[test]
fn wipe_2_has_the_outline_of_the_readme() {
    for (part, erase) in [
        (Part::SHORT, "000450002000"),
        (Part::SHORT_256, "000450001000"),
    ] {
        let mut bench = Bench::fresh(part);
        let outcome = bench.wipe(&[], 2, 1);
        let expected = [
            "0002D700FFFF",
            "001432000000",
            "001435000000",
            erase,
            "0002D700FFFF",
        ];
        assert_eq!(bench.lines(&outcome), expected);
        assert_eq!(outcome, counted(0, 5, 2));
    }
}

#[test]
fn put_and_patch_send_the_listed_frames() {
    const POLL: &str = "0002D700FFFF";
    // Load, and read, program and compare of the slot's first and last page.
    for (part, load, read, program, compare) in [
        (
            Part::FULL,
            "010C84000000",
            ["0110D21FF000", "0110D21FFE00"],
            ["0004831FF000", "0004831FFE00"],
            ["0004601FF000", "0004601FFE00"],
        ),
        (
            Part::FULL_256,
            "010484000000",
            ["0108D20FF800", "0108D20FFF00"],
            ["0004830FF800", "0004830FFF00"],
            ["0004600FF800", "0004600FFF00"],
        ),
    ] {
        let mut bench = Bench::fresh(part);
        let outcome = bench.put(&[], 511, 1, &[]);
        let put = bench.lines(&outcome);
        let outcome = bench.patch(511, 0, &[]);
        let patch = bench.lines(&outcome);
        for (page, first) in [(0, 3), (1, 38)] {
            let frames = [load, program[page], POLL, compare[page], POLL];
            assert_eq!(put[first..first + 5], frames);
            let first = first + 7 * page;
            assert_eq!(patch[first], read[page]);
            assert_eq!(patch[first + 1..first + 6], frames);
        }
        assert_eq!((put.len(), patch.len()), (43, 51));
    }
}

/// A short part of either page size, the bytes of its slots, its longest recipe
/// and this length as a head has it.
const LIMITS: [(Part, usize, usize, [u8; 2]); 2] = [
    (Part::SHORT, 2112, 2109, [0x08, 0x3D]),
    (Part::SHORT_256, 2048, 2045, [0x07, 0xFD]),
];

#[test]
fn recipes_are_stored_with_version_and_length() {
    for (part, slot_len, most, [high, low]) in LIMITS {
        let mut bench = Bench::fresh(part);
        bench.put(&[], 0, 1, &[0x41, 0x42]);
        assert_eq!(bench.slot(0)[..5], [0x01, 0x00, 0x02, 0x41, 0x42]);
        assert_eq!(bench.slot(0)[5..], vec![0; slot_len - 5]);
        assert_eq!(bench.slot(1)[0], 0xFF);
        bench.put(&[], 0, 1, &[]);
        assert_eq!(bench.slot(0)[..3], [0x01, 0x00, 0x00]);
        bench.put(&[], 0, 1, &vec![7; most]);
        assert_eq!(bench.slot(0)[..4], [0x01, high, low, 7]);
        assert_eq!((bench.slot(0)[slot_len - 1], bench.slot(1)[0]), (7, 0xFF));
        let long = vec![7; most + 1];
        assert_eq!(bench.put(&[], 0, 1, &long), counted(answer::SIZE, 0, 0));
    }
}

#[test]
fn patches_cross_pages_and_keep_the_length() {
    for (part, page) in [(Part::SHORT, 264), (Part::SHORT_256, 256)] {
        let mut bench = Bench::fresh(part);
        bench.put(&[], 1, 1, &[1; 600]);
        assert_eq!(bench.patch(1, page - 6, &[9; 6]).answer, 0);
        let slot = bench.slot(1);
        assert_eq!(slot[..3], [0x01, 0x02, 0x58]);
        assert_eq!(slot[page - 4..page + 4], [1, 9, 9, 9, 9, 9, 9, 1]);
    }
}

#[test]
fn patches_under_12_and_13_send_every_frame() {
    for (part, _, most, _) in LIMITS {
        let mut bench = Bench::fresh(part);
        assert_eq!(bench.patch(0, 0, &[1]), counted(answer::BLANK, 51, 17));
        assert!(bench.slot(0).iter().all(|&byte| byte == 0xFF));
        bench.put(&[], 0, 1, &[5; 10]);
        let before = bench.slot(0).to_vec();
        assert_eq!(bench.patch(0, 10, &[1]), counted(answer::END, 51, 17));
        assert_eq!(bench.patch(0, 11, &[]), counted(answer::END, 51, 17));
        assert_eq!(bench.patch(0, 10, &[]), counted(0, 51, 17));
        assert_eq!(bench.slot(0), before);
        assert_eq!(bench.patch(0, most, &[]).answer, answer::END);
        assert_eq!(bench.patch(0, most + 1, &[]).answer, answer::SIZE);
        assert_eq!(bench.patch(0, usize::MAX, &[1]).answer, answer::SIZE);
    }
}

#[test]
fn length_over_the_limit_or_another_version_is_blank() {
    for (part, _, _, [high, low]) in LIMITS {
        let mut bench = Bench::fresh(part);
        for (head, expected) in [
            ([1, high, low], answer::ACCEPTED),
            ([1, high, low + 1], answer::BLANK),
            ([0, 0x00, 0x00], answer::BLANK),
            ([3, 0x00, 0x00], answer::BLANK),
            ([0xFF, 0x00, 0x00], answer::BLANK),
        ] {
            bench.array[..3].copy_from_slice(&head);
            assert_eq!(bench.get(&[], 0).answer, expected);
        }
    }
}

#[test]
fn get_buffer_holds_the_longest_recipe() {
    for (part, _, most, _) in LIMITS {
        let mut bench = Bench::fresh(part);
        for (len, expected) in [(most - 1, answer::SIZE), (most, answer::BLANK)] {
            let call = Call::Get {
                slot: 0,
                poll_limit: 1,
                today: TODAY,
                buffer: &mut vec![STALE; len],
            };
            assert_eq!(bench.call(&[], call).answer, expected);
        }
    }
}

#[test]
fn script_byte_acts_after_the_status_is_read() {
    let mut bench = Bench::fresh(Part::SHORT);
    let erase = Operation::ErasePage { page: 100 };
    bench.chip.operation = erase;
    assert_eq!(bench.wipe(&[], 0, 1), counted(answer::BUSY, 1, 1));
    assert_eq!(bench.chip.operation, Operation::Idle);
    bench.chip.operation = erase;
    assert_eq!(bench.wipe(&[1, 1], 0, 3), counted(answer::BUSY, 3, 3));
    bench.chip.operation = erase;
    assert_eq!(bench.wipe(&[1, 1], 0, 4), counted(0, 8, 5));
    assert_eq!(bench.wipe(&[0, 1, 1, 1, 1, 1], 0, 2).answer, answer::BUSY);
    assert_eq!(bench.chip.operation, Operation::EraseBlock { block: 0 });
}

#[test]
fn cut_comes_before_8_9_10_and_success() {
    let mut bench = Bench::fresh(Part::SHORT);
    bench.chip.deep_power_down = true;
    assert_eq!(bench.wipe(&[], 0, 5), counted(answer::CHIP, 1, 1));
    assert_eq!(bench.wipe(&[2], 0, 5), counted(answer::CUT, 1, 1));
    assert!(!bench.chip.deep_power_down);
    bench.chip.lockdown[0] = 0x40;
    assert_eq!(bench.wipe(&[], 0, 1), counted(answer::SEALED, 3, 1));
    assert_eq!(bench.wipe(&[0, 0, 2], 0, 1), counted(answer::CUT, 3, 1));
    assert_eq!(bench.wipe(&[], 1, 1), counted(0, 5, 2));
    assert_eq!(
        bench.wipe(&[0, 0, 0, 0, 2], 1, 1),
        counted(answer::CUT, 5, 2)
    );
    assert_eq!(
        bench.get(&[0, 0, 0, 0, 0, 0, 0, 0, 2], 1).answer,
        answer::CUT
    );
}

#[test]
fn seal_is_told_by_bits_of_the_sector_and_bit_1() {
    let mut bench = Bench::fresh(Part::FULL);
    bench.chip.protection[3] = 0x01;
    bench.chip.protection[0] = 0x0F;
    assert_eq!(bench.wipe(&[], 96, 1).answer, 0);
    bench.chip.protection_enabled = true;
    assert_eq!(bench.wipe(&[], 96, 1).answer, answer::SEALED);
    assert_eq!(bench.wipe(&[], 127, 1).answer, answer::SEALED);
    assert_eq!(bench.wipe(&[], 95, 1).answer, 0);
    assert_eq!(bench.wipe(&[], 128, 1).answer, 0);
    assert_eq!(bench.wipe(&[], 0, 1).answer, 0);
    assert_eq!(bench.get(&[], 96).answer, answer::BLANK);
}

#[test]
fn raw_has_no_wait_and_its_reply_outlives_a_cut() {
    for (part, page, address, status) in [
        (Part::SHORT, 264, 0x0A, 0x24),
        (Part::SHORT_256, 256, 0x05, 0x25),
    ] {
        let mut bench = Bench::fresh(part);
        let (outcome, reply) = bench.raw(&[1], &[0x83, 0x00, address, 0x00]);
        assert_eq!((outcome, reply), (counted(0, 1, 0), vec![0xFF; 4]));
        let program = Operation::Program {
            buffer: Buffer::One,
            page: 5,
        };
        assert_eq!(bench.chip.operation, program);
        let (outcome, reply) = bench.raw(&[2], &[0xD7, 0x00]);
        assert_eq!(
            (outcome, reply),
            (counted(answer::CUT, 1, 0), vec![0xFF, status])
        );
        let junk = [bench.array[5 * page], bench.array[6 * page - 1]];
        assert_eq!(junk, [0x77; 2]);
        let around = [bench.array[5 * page - 1], bench.array[6 * page]];
        assert_eq!(around, [0xFF; 2]);
        let (outcome, _) = bench.raw(&[], &[0xB9]);
        assert_eq!(bench.lines(&outcome), ["0001B9FFFFFF"]);
        assert_eq!(bench.raw(&[], &[]).0, counted(answer::FRAME, 0, 0));
        assert_eq!(bench.raw(&[], &[0; 1101]).0, counted(answer::FRAME, 0, 0));
    }
}

#[test]
fn refusals_come_in_order() {
    for (part, _, most, _) in LIMITS {
        refuses_in_order(Bench::fresh(part), &vec![0; most + 1]);
    }
}

fn refuses_in_order(mut bench: Bench, recipe: &[u8]) {
    let bad = [3];
    assert_eq!(bench.put(&bad, 16, 0, recipe).answer, answer::SLOT);
    assert_eq!(bench.put(&bad, 15, 0, recipe).answer, answer::LIMIT);
    assert_eq!(bench.put(&bad, 15, 1001, recipe).answer, answer::LIMIT);
    assert_eq!(bench.put(&bad, 15, 1000, recipe).answer, answer::SIZE);
    bench.log.truncate(6 * 17_026 - 1);
    assert_eq!(bench.put(&bad, 15, 1000, &[]).answer, answer::LOG);
    bench.log.push(STALE);
    assert_eq!(bench.put(&bad, 15, 1000, &[]).answer, answer::SCRIPT);
    bench.junk.pop();
    let never_reached = [[0; 17_026].as_slice(), &[2]].concat();
    assert_eq!(
        bench.put(&never_reached, 15, 1000, &[]).answer,
        answer::SCRIPT
    );
    bench.junk.push(0);
    assert_eq!(bench.put(&never_reached, 15, 1000, &[]).answer, 0);
    bench.array.pop();
    assert_eq!(bench.put(&bad, 16, 0, recipe).answer, answer::PART);
}
