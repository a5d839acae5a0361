//! Examples of records with a term, of the answers 14 and 15 and of their order,
//! with their values typed here.

use at45db081d_model::{answer, Call, Chip, Date, Lent, Outcome, Part, Term};

const STALE: u8 = 0xEE;

/// 1 May 2026 to 31 October 2026, days 9,617 (00002591h) to 9,800 (00002648h).
const SEASON: Term = Term::new(Date::new(2026, 5, 1), Date::new(2026, 10, 31));
const HEAD: [u8; 8] = [0x00, 0x00, 0x25, 0x91, 0x00, 0x00, 0x26, 0x48];

const INSIDE: Date = Date::new(2026, 7, 1);
const NO_DATE: Date = Date::new(2026, 6, 31);

/// A short part of either page size, the bytes of its slots, its longest recipes
/// without a term and with one, and the latter's length as a head has it.
const LIMITS: [(Part, usize, usize, usize, [u8; 2]); 2] = [
    (Part::SHORT, 2112, 2109, 2101, [0x08, 0x35]),
    (Part::SHORT_256, 2048, 2045, 2037, [0x07, 0xF5]),
];

/// A chip with its array; calls are on slot 0 with poll limit 1.
struct Bench {
    chip: Chip,
    array: Vec<u8>,
    log: Vec<u8>,
}

impl Bench {
    fn fresh(part: Part) -> Bench {
        let mut array = vec![0; part.array_len()];
        Bench {
            chip: Chip::fresh(&[0; 64], &mut array).expect("a known part"),
            array,
            log: vec![STALE; 6 * 51],
        }
    }

    fn call(&mut self, script: &[u8], call: Call) -> Outcome {
        let lent = Lent {
            array: &mut self.array,
            script,
            junk: &[],
            log: &mut self.log,
        };
        self.chip.call(lent, call)
    }

    fn put(&mut self, term: Option<Term>, recipe: &[u8]) -> u8 {
        let call = Call::Put {
            slot: 0,
            poll_limit: 1,
            term,
            recipe,
        };
        self.call(&[], call).answer
    }

    fn patch(&mut self, place: usize, bytes: &[u8]) -> u8 {
        let call = Call::Patch {
            slot: 0,
            poll_limit: 1,
            place,
            bytes,
        };
        self.call(&[], call).answer
    }

    /// The outcome, and the bytes of the buffer that have changed.
    fn get(&mut self, today: Date) -> (Outcome, Vec<u8>) {
        let mut buffer = vec![STALE; 2200];
        let call = Call::Get {
            slot: 0,
            poll_limit: 1,
            today,
            buffer: &mut buffer,
        };
        let outcome = self.call(&[], call);
        let used = buffer.iter().rposition(|&byte| byte != STALE);
        buffer.truncate(used.map_or(0, |last| last + 1));
        (outcome, buffer)
    }

    fn answer_on(&mut self, year: u32, month: u32, day: u32) -> u8 {
        self.get(Date::new(year, month, day)).0.answer
    }
}

fn met(answer: u8, frames: u64, polls: u64, n: u64) -> Outcome {
    Outcome {
        answer,
        frames,
        polls,
        n,
    }
}

#[test]
fn days_stand_between_length_and_recipe() {
    for (part, slot_len, _, most, length) in LIMITS {
        let mut bench = Bench::fresh(part);
        assert_eq!(bench.put(Some(SEASON), b"AB"), 0);
        assert_eq!(bench.array[..3], [0x02, 0x00, 0x02]);
        assert_eq!(bench.array[3..11], HEAD);
        assert_eq!(bench.array[11..13], *b"AB");
        assert_eq!(bench.array[13..slot_len], vec![0; slot_len - 13]);
        assert_eq!(bench.get(INSIDE), (met(0, 9, 1, 2), b"AB".to_vec()));

        assert_eq!(bench.put(Some(SEASON), &vec![7; most]), 0);
        assert_eq!(bench.array[..3], [0x02, length[0], length[1]]);
        assert_eq!((bench.array[11], bench.array[slot_len - 1]), (7, 7));
        assert_eq!(bench.array[slot_len], 0xFF);
        let (outcome, read) = bench.get(INSIDE);
        assert_eq!((outcome, read.len()), (met(0, 9, 1, most as u64), most));
    }
}

/// A put without a term writes what it always did.
#[test]
fn without_a_term_every_day_is_inside() {
    let mut bench = Bench::fresh(Part::SHORT);
    assert_eq!(bench.put(None, b"AB"), 0);
    assert_eq!(bench.array[..6], [0x01, 0x00, 0x02, b'A', b'B', 0x00]);
    assert_eq!(bench.answer_on(2000, 1, 1), 0);
    assert_eq!(bench.answer_on(2199, 12, 31), 0);
}

#[test]
fn first_and_last_day_are_inside() {
    for (part, ..) in LIMITS {
        let mut bench = Bench::fresh(part);
        bench.put(Some(SEASON), b"AB");
        let outside = (met(answer::TERM, 9, 1, 0), Vec::new());
        assert_eq!(bench.get(Date::new(2026, 4, 30)), outside);
        assert_eq!(bench.answer_on(2026, 5, 1), 0);
        assert_eq!(bench.answer_on(2026, 10, 31), 0);
        assert_eq!(bench.get(Date::new(2026, 11, 1)), outside);
        // One day long.
        let day = Date::new(2096, 2, 29);
        bench.put(Some(Term::new(day, day)), b"AB");
        assert_eq!(bench.answer_on(2096, 2, 28), answer::TERM);
        assert_eq!(bench.answer_on(2096, 2, 29), 0);
        assert_eq!(bench.answer_on(2096, 3, 1), answer::TERM);
    }
}

/// Days that a raw frame may have written: they are compared and nothing else.
#[test]
fn stored_days_are_any_numbers() {
    let mut bench = Bench::fresh(Part::SHORT);
    for (days, first, last) in [
        // First after last: never inside.
        ([0x00, 0x00, 0x00, 0x01, 0x00, 0x00, 0x00, 0x00], 15, 15),
        // Beyond the calendar.
        ([0x00, 0x00, 0x00, 0x00, 0xFF, 0xFF, 0xFF, 0xFF], 0, 0),
        ([0xFF, 0xFF, 0xFF, 0xFF, 0xFF, 0xFF, 0xFF, 0xFF], 15, 15),
        // 73,048 is 00011D58h.
        ([0x00, 0x01, 0x1D, 0x58, 0x00, 0x01, 0x1D, 0x59], 15, 0),
        ([0x00, 0x01, 0x1D, 0x59, 0x00, 0x01, 0x1D, 0x59], 15, 15),
        ([0x00, 0x00, 0x00, 0x00, 0x00, 0x00, 0x00, 0x00], 0, 15),
    ] {
        bench.array[..3].copy_from_slice(&[2, 0, 1]);
        bench.array[3..11].copy_from_slice(&days);
        assert_eq!(bench.answer_on(2000, 1, 1), first, "{days:02X?}");
        assert_eq!(bench.answer_on(2199, 12, 31), last, "{days:02X?}");
        assert_eq!(bench.patch(0, b"x"), 0, "{days:02X?}");
        assert_eq!(bench.array[3..11], days);
        assert_eq!(bench.array[11], b'x');
    }
}

/// Each version has its limit; 12 comes before 15.
#[test]
fn length_over_its_versions_limit_is_blank() {
    for (part, _, plain, most, _) in LIMITS {
        let mut bench = Bench::fresh(part);
        bench.array[3..11].copy_from_slice(&HEAD);
        for (version, len, inside, outside) in [
            (1, plain, 0, 0),
            (1, plain + 1, 12, 12),
            (2, most, 0, 15),
            (2, most + 1, 12, 12),
            (2, plain, 12, 12),
            (2, plain + 1, 12, 12),
            (2, 0xFFFF, 12, 12),
            (3, 0, 12, 12),
            (0, 0, 12, 12),
        ] {
            let [high, low] = (len as u16).to_be_bytes();
            bench.array[..3].copy_from_slice(&[version, high, low]);
            assert_eq!(bench.get(INSIDE).0.answer, inside, "{version} {len}");
            let found = bench.answer_on(2027, 1, 1);
            assert_eq!(found, outside, "{version} {len}");
            let blank = if inside == 12 { 12 } else { 0 };
            assert_eq!(bench.patch(0, &[]), blank, "{version} {len}");
        }
    }
}

/// A patch counts from the recipe's first byte, and keeps the term.
#[test]
fn patches_begin_behind_the_term() {
    for (part, page) in [(Part::SHORT, 264), (Part::SHORT_256, 256)] {
        let mut bench = Bench::fresh(part);
        bench.put(Some(SEASON), &[1; 600]);
        // Three bytes in the slot's first page, three in its second.
        assert_eq!(bench.patch(page - 14, &[9; 6]), 0);
        assert_eq!(bench.array[..3], [0x02, 0x02, 0x58]);
        assert_eq!(bench.array[3..11], HEAD);
        let around = [1, 9, 9, 9, 9, 9, 9, 1];
        assert_eq!(bench.array[page - 4..page + 4], around);
        assert_eq!(bench.patch(0, &[5]), 0);
        assert_eq!(bench.array[10..13], [0x48, 5, 1]);
        assert_eq!(bench.patch(599, &[6]), 0);
        assert_eq!(bench.array[610..612], [6, 0]);
        let before = bench.array.clone();
        assert_eq!(bench.patch(600, &[6]), answer::END);
        assert_eq!(bench.array, before);
    }
}

/// 5 of a patch does not know the version: what fits the longest recipe only is
/// answered with 13 where there is a term.
#[test]
fn patches_too_long_for_a_term_meet_13() {
    for (part, _, plain, most, _) in LIMITS {
        let mut bench = Bench::fresh(part);
        bench.put(Some(SEASON), &vec![1; most]);
        assert_eq!(bench.patch(most - 1, &[9]), 0);
        assert_eq!(bench.patch(most, &[9]), answer::END);
        assert_eq!(bench.patch(plain - 1, &[9]), answer::END);
        assert_eq!(bench.patch(plain, &[9]), answer::SIZE);
    }
}

/// 5 reads the limit of the version that would be written; the get buffer has
/// room for the longest recipe of all.
#[test]
fn size_goes_by_the_version() {
    for (part, _, plain, most, _) in LIMITS {
        let mut bench = Bench::fresh(part);
        let recipe = vec![0; plain + 1];
        assert_eq!(bench.put(None, &recipe[..plain]), 0);
        assert_eq!(bench.put(None, &recipe), answer::SIZE);
        assert_eq!(bench.put(Some(SEASON), &recipe[..most]), 0);
        assert_eq!(bench.put(Some(SEASON), &recipe[..most + 1]), answer::SIZE);
        assert_eq!(bench.put(Some(SEASON), &recipe[..plain]), answer::SIZE);
        for (len, expected) in [(most, answer::SIZE), (plain - 1, answer::SIZE), (plain, 0)] {
            let call = Call::Get {
                slot: 0,
                poll_limit: 1,
                today: INSIDE,
                buffer: &mut vec![STALE; len],
            };
            assert_eq!(bench.call(&[], call).answer, expected);
        }
    }
}

/// Nothing but 14 happens, whatever the slot holds.
#[test]
fn dates_are_refused() {
    const HUGE: u32 = u32::MAX;
    let wrong = [
        NO_DATE,
        Date::new(2100, 2, 29),
        Date::new(1999, 12, 31),
        Date::new(2200, 1, 1),
        Date::new(2026, 0, 1),
        Date::new(2026, 13, 1),
        Date::new(2026, 1, 0),
        Date::new(2026, 1, HUGE),
        Date::new(0, 1, 1),
        Date::new(HUGE, 1, 1),
    ];
    let refused = (met(answer::DATES, 0, 0, 0), Vec::new());
    for (version, part) in [(1, Part::SHORT), (2, Part::SHORT_256), (0, Part::SHORT)] {
        let mut bench = Bench::fresh(part);
        bench.array[..3].copy_from_slice(&[version, 0, 1]);
        let (chip, array) = (bench.chip.clone(), bench.array.clone());
        for date in wrong {
            assert_eq!(bench.get(date), refused);
            for term in [Term::new(date, INSIDE), Term::new(INSIDE, date)] {
                assert_eq!(bench.put(Some(term), b"AB"), answer::DATES);
            }
        }
        let backwards = Term::new(SEASON.last, SEASON.first);
        assert_eq!(bench.put(Some(backwards), b"AB"), answer::DATES);
        assert!(bench.chip == chip && bench.array == array);
        assert!(bench.log.iter().all(|&byte| byte == STALE));
    }
}

/// 14 stands between 5 and 6.
#[test]
fn dates_come_after_size_and_before_log() {
    let mut bench = Bench::fresh(Part::SHORT);
    let (bad_script, bad_term) = ([3], Term::new(NO_DATE, INSIDE));
    let put = |recipe| Call::Put {
        slot: 0,
        poll_limit: 1,
        term: Some(bad_term),
        recipe,
    };
    bench.log.truncate(5);
    let long = vec![0; 2102];
    assert_eq!(bench.call(&bad_script, put(&long)).answer, answer::SIZE);
    assert_eq!(bench.call(&bad_script, put(&[])).answer, answer::DATES);
    for (today, len, expected) in [
        (NO_DATE, 2108, answer::SIZE),
        (NO_DATE, 2109, answer::DATES),
        (INSIDE, 2109, answer::LOG),
    ] {
        let get = Call::Get {
            slot: 0,
            poll_limit: 1,
            today,
            buffer: &mut vec![STALE; len],
        };
        assert_eq!(bench.call(&bad_script, get).answer, expected);
    }
}
