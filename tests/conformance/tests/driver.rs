//! Compares the library's slot driver with the model's, turn by turn: under
//! replies of a chip, and under replies of any bytes and any lengths.

use std::io::Write;
use std::time::Instant;

use conformance::driving::{Driver, LibraryDriver, ModelDriver, Turn};
use conformance::lists::Broken;
use conformance::replies::{self, Shown};
use conformance::rng::Digits;
use conformance::{Request, Rng};
use slipknoll::ffi::driver;
use slipknoll::{Part, DRIVER_FRAME_LEN, SLOT_ROOM};

const CASES: u64 = 40_000;

/// Ends with answers that come at a call's end, at least: 95 in 100 of those that
/// there are.
const ENDS: [(usize, u64); 5] = [(0, 9_900), (12, 2_000), (13, 280), (15, 2_000), (16, 1_360)];

/// Says something even when the test passes.
fn say(line: &str) {
    writeln!(std::io::stdout(), "{line}").expect("standard output");
}

fn run(subject: &mut dyn Driver) -> Result<Shown, Broken> {
    let mut shown = Shown::default();
    for seed in 0..CASES {
        replies::check(subject, seed, &mut shown)?;
    }
    Ok(shown)
}

#[test]
fn drivers_yield_the_same_frames() {
    let begin = Instant::now();
    let mut library = LibraryDriver::new(0x5A);
    let Shown { frames, answers } = run(&mut library).unwrap_or_else(|broken| panic!("{broken}"));
    let seconds = begin.elapsed().as_secs_f64();
    say(&format!(
        "driver of the library: {CASES} cases, {frames} frames compared in {seconds:.1} s; \
         ends by answer {answers:?}"
    ));
    assert!(frames >= 458_400);
    for (answer, least) in ENDS {
        assert!(answers[answer] >= least, "{answer}: {}", answers[answer]);
    }
}

/// The opcodes of a call's frames, by the byte of a state that names the call.
fn opcodes(call: u8) -> &'static [u8] {
    match call {
        0x0F => &[0xD7, 0x32, 0x35, 0x84, 0x83, 0x60],
        0x33 => &[0xD7, 0x32, 0x35, 0xD2, 0x84, 0x83, 0x60],
        0x55 => &[0xD7, 0xD2],
        0xF0 => &[0xD7, 0x32, 0x35, 0x50],
        _ => &[],
    }
}

/// A year's days, 0 to 365.
const TERM: [[u32; 3]; 2] = [[2000, 1, 1], [2000, 12, 31]];
const TODAY: [u32; 3] = [2000, 2, 29];

/// The calls that can be started, a put with a term among them.
const STARTS: usize = 5;

/// Starts a put, a patch, a get, a wipe or a put with a term.
fn start(
    state: &mut driver::State,
    call: usize,
    array_len: usize,
    slot: usize,
    limit: usize,
    payload: &[u8],
) {
    match call {
        0 => driver::start_put(state, array_len, slot, limit, payload),
        1 => driver::start_patch(state, array_len, slot, limit, 3, payload),
        2 => driver::start_get(state, array_len, slot, limit, TODAY, 2109),
        3 => driver::start_wipe(state, array_len, slot, limit),
        _ => {
            let [first, last] = TERM;
            driver::start_put_term(state, array_len, slot, limit, first, last, payload);
        }
    }
}

/// A state of any bytes, of a start, or of a start with bytes changed.
fn any_state(rng: &mut Rng) -> driver::State {
    let mut state = [0; driver::STATE_LEN];
    if rng.one_in(4) {
        rng.fill(&mut state);
        return state;
    }
    let (slot, limit, payload) = (rng.below(520), rng.below(4), vec![0; rng.below(9)]);
    let len = rng.pick(&[Part::Full, Part::Full256]).array_len();
    start(&mut state, rng.below(STARTS), len, slot, limit, &payload);
    for _ in 0..rng.below(4) {
        let at = rng.below(driver::STATE_LEN);
        state[at] = if rng.one_in(2) {
            rng.byte()
        } else {
            state[at] ^ 1 << rng.below(8)
        };
    }
    state[4] = if rng.one_in(2) {
        state[4]
    } else {
        rng.byte() % 56
    };
    state
}

/// One of a state's numbers of eight bytes.
fn number(state: &driver::State, at: usize) -> usize {
    usize::from_be_bytes(state[at..at + 8].try_into().expect("eight bytes"))
}

/// The part that a state names.
fn part_of(state: &driver::State) -> Option<Part> {
    Part::from_array_len(number(state, 8))
}

/// The lengths of the frames that a driver may give on its part.
fn frame_lens(state: &driver::State) -> [usize; 5] {
    let part = part_of(state).expect("a driver with a frame has a part");
    [2, 4, 20, 4 + part.page_len(), 8 + part.page_len()]
}

/// No state that a caller makes leads the driver astray: it gives frames of the call that it names, and
/// has an answer exactly when it has none; it ends within the bound.
#[test]
fn any_state_gives_frames_of_its_call_and_ends() {
    let mut rng = Rng::new(1);
    let (mut going, mut longest) = (0, 0);
    for _ in 0..60_000 {
        let mut state = any_state(&mut rng);
        let bound = 17 * number(&state, 24).min(1000) + 34;
        let mut payload = vec![0; rng.below(20)];
        rng.fill(&mut payload);
        let (mut staged, mut frame) = ([0; SLOT_ROOM], [0; DRIVER_FRAME_LEN]);
        let calm = rng.one_in(2);
        let mut len = driver::frame(&state, &payload, &staged, &mut frame);
        let mut steps = 0;
        while len > 0 {
            assert!(frame_lens(&state).contains(&len), "{state:02X?}: {len}");
            assert!(opcodes(state[0]).contains(&frame[0]), "{state:02X?}");
            assert_eq!(driver::answer(&state), None, "{state:02X?}");
            assert_eq!(driver::count(&state, &staged), 0, "{state:02X?}");
            assert!(steps < bound, "{state:02X?}: {steps} frames");
            // Of a chip that is busy or not, or of any bytes.
            let reply = match (calm, rng.one_in(3)) {
                (true, true) => vec![0x24; len],
                (true, false) if len == 2 => vec![rng.pick(&[0xA4, 0xA4, 0xE4]); len],
                (true, false) => vec![0x00; len],
                (false, _) => vec![rng.byte(); rng.below(300)],
            };
            len = driver::next(&mut state, &payload, &reply, &mut staged, &mut frame);
            steps += 1;
        }
        let answer = driver::answer(&state);
        assert!(matches!(answer, Some(0..=16)), "{state:02X?}: {answer:?}");
        let most = part_of(&state).map_or(0, Part::recipe_max);
        assert!(driver::count(&state, &staged) <= most, "{state:02X?}");
        going += u64::from(steps > 0);
        longest = longest.max(steps);
    }
    say(&format!(
        "any state: {going} of 60000 gave a frame, the longest {longest}"
    ));
    assert!(going >= 12_200 && longest >= 64);
}

/// A flipped bit of the byte that names the call makes no call another.
#[test]
fn a_flipped_bit_names_no_other_call() {
    for case in 0..(STARTS * 4 * 8) as u64 {
        let mut digits = Digits::new(case);
        let (call, part) = (digits.below(STARTS), digits.pick(&Part::ALL));
        let mut state = [0; driver::STATE_LEN];
        start(&mut state, call, part.array_len(), 0, 1, &[]);
        assert_eq!(driver::answer(&state), None);
        state[0] ^= 1 << digits.below(8);
        let mut frame = [0; DRIVER_FRAME_LEN];
        let len = driver::frame(&state, &[], &[0; SLOT_ROOM], &mut frame);
        assert_eq!((len, driver::answer(&state)), (0, Some(1)), "{state:02X?}");
    }
}

/// The first four bytes of a state that is going on hold a call, a verdict, a stage
/// and an answer, each as such a state is written, or else it has ended with 1.
#[test]
fn first_bytes_are_a_call_a_verdict_a_stage_and_an_answer() {
    for case in 0..(STARTS * 4 * 256) as u64 {
        let mut digits = Digits::new(case);
        let (call, at, byte) = (digits.below(STARTS), digits.below(4), digits.below(256));
        let mut state = [0; driver::STATE_LEN];
        start(&mut state, call, Part::Short.array_len(), 0, 1, &[]);
        state[at] = byte as u8;
        let expected = match (at, byte) {
            (0, 0x0F | 0x33 | 0x55 | 0xF0) => None,
            (1, 0..=4) | (2, 0) | (3, 0..=16) => None,
            // Ended, with the answer that stands behind it.
            (2, 1) => Some(0),
            _ => Some(1),
        };
        assert_eq!(driver::answer(&state), expected, "{state:02X?}");
        // The answer of a state that has ended.
        if at == 3 {
            state[2] = 1;
            let told = if byte <= 16 { byte as u8 } else { 1 };
            assert_eq!(driver::answer(&state), Some(told), "{state:02X?}");
        }
    }
}

/// Where a state has its days.
const FIRST_DAY: usize = 48;
const LAST_DAY: usize = 56;
const TODAYS: usize = 64;

fn set_number(state: &mut driver::State, at: usize, number: u64) {
    state[at..at + 8].copy_from_slice(&number.to_be_bytes());
}

/// Goes on with a call over a chip that is always ready, whose slot begins so;
/// the data of the first 84, if there is one, and the answer.
fn talk(state: driver::State, payload: &[u8], slot: &[u8]) -> (Option<Vec<u8>>, Option<u8>) {
    talk_over(0xA4, state, payload, slot)
}

/// The same with this status at each poll.
fn talk_over(
    status: u8,
    mut state: driver::State,
    payload: &[u8],
    slot: &[u8],
) -> (Option<Vec<u8>>, Option<u8>) {
    let (mut staged, mut frame) = ([0x5A; SLOT_ROOM], [0; DRIVER_FRAME_LEN]);
    let mut loaded = None;
    let mut first_read = true;
    let mut len = driver::frame(&state, payload, &staged, &mut frame);
    while len > 0 {
        let mut reply = vec![0; len];
        match frame[0] {
            0xD7 => reply[1] = status,
            0xD2 if first_read => {
                reply[8..8 + slot.len()].copy_from_slice(slot);
                first_read = false;
            }
            0x84 if loaded.is_none() => loaded = Some(frame[4..len].to_vec()),
            _ => {}
        }
        len = driver::next(&mut state, payload, &reply, &mut staged, &mut frame);
    }
    (loaded, driver::answer(&state))
}

/// A page that differs makes 16 of no verdict, and stays; any other verdict stays
/// too.
#[test]
fn verdict_of_a_made_up_state() {
    for (verdict, calm, differing) in [
        (0, 0, 16),
        (1, 12, 12),
        (2, 13, 13),
        (3, 15, 15),
        (4, 16, 16),
    ] {
        // Puts from their beginning on; a patch from its second page on, and behind
        // its last 60.
        for (call, place) in [(0, 0), (4, 0), (1, 9), (1, 50)] {
            let mut state = [0; driver::STATE_LEN];
            start(&mut state, call, Part::Short.array_len(), 3, 1, b"AB");
            (state[1], state[4]) = (verdict, place);
            let (_, answer) = talk(state, b"AB", &[]);
            assert_eq!(answer, Some(calm), "{state:02X?}");
            let (_, answer) = talk_over(0xE4, state, b"AB", &[]);
            assert_eq!(answer, Some(differing), "{state:02X?}");
        }
    }
}

/// The verdict is none until the status that ends the wait after a 60, and 4 from
/// there on; behind each of the plan's places there is one more, and then the end.
#[test]
fn places_and_verdicts_of_a_put_and_a_patch() {
    let (mut staged, mut frame) = ([0; SLOT_ROOM], [0; DRIVER_FRAME_LEN]);
    for (call, first_judged, last) in [(0, 7, 42), (1, 8, 50)] {
        let mut state = [0; driver::STATE_LEN];
        start(&mut state, call, Part::Full.array_len(), 3, 1, b"AB");
        for place in 0..=last {
            assert_eq!(state[4], place);
            assert_eq!(state[1], if place > first_judged { 4 } else { 0 });
            assert_eq!(driver::answer(&state), None);
            // A status, a register without seals, a slot that holds eight bytes.
            let mut reply = [0; DRIVER_FRAME_LEN];
            (reply[1], reply[8], reply[10]) = (0xE4, 1, 8);
            let len = driver::frame(&state, b"AB", &staged, &mut frame);
            if len == 20 {
                reply.fill(0);
            }
            driver::next(&mut state, b"AB", &reply, &mut staged, &mut frame);
        }
        assert_eq!(driver::answer(&state), Some(16));
        // A state at a place behind the plan's last has ended.
        start(&mut state, call, Part::Full.array_len(), 3, 1, b"AB");
        for (place, answer) in [(last, None), (last + 1, Some(3)), (255, Some(3))] {
            state[4] = place;
            assert_eq!(driver::answer(&state), answer, "{place}");
        }
    }
}

/// What a put writes is told by the state: with its mark on the days, modulo 2^32,
/// with it off none.
#[test]
fn days_of_a_made_up_put() {
    for call in [0, 4] {
        let mut state = [0; driver::STATE_LEN];
        start(&mut state, call, Part::Short.array_len(), 3, 1, b"AB");
        assert_eq!(state[7], u8::from(call == 4));
        for (mark, first, last) in [
            (0, 1, 2),
            (1, 0, 365),
            (1, 366, 365),
            (0xFF, 73_049, u64::MAX),
            (0x80, 0x1_0000_0002, 0x7_FFFF_FFFE),
        ] {
            state[7] = mark;
            set_number(&mut state, FIRST_DAY, first);
            set_number(&mut state, LAST_DAY, last);
            let mut expected = vec![if mark == 0 { 1 } else { 2 }, 0, 2];
            if mark != 0 {
                expected.extend(&first.to_be_bytes()[4..]);
                expected.extend(&last.to_be_bytes()[4..]);
            }
            expected.extend(b"AB\0\0");
            let (loaded, answer) = talk(state, b"AB", &[]);
            let loaded = loaded.expect("a put loads a page");
            assert_eq!(loaded[..expected.len()], expected, "{state:02X?}");
            assert_eq!((loaded.len(), answer), (264, Some(0)));
        }
    }
}

/// A get judges by the day in its state, which may be any number.
#[test]
fn day_of_a_made_up_get() {
    let slot = |first: u32, last: u32| {
        let mut slot = vec![2, 0, 1];
        slot.extend(first.to_be_bytes());
        slot.extend(last.to_be_bytes());
        slot
    };
    let mut state = [0; driver::STATE_LEN];
    start(&mut state, 2, Part::Short256.array_len(), 3, 1, &[]);
    assert_eq!(number(&state, TODAYS), 59);
    for (today, first, last, expected) in [
        (59, 59, 59, 0),
        (59, 0, 58, 15),
        (59, 60, u32::MAX, 15),
        (73_049, 73_049, 73_049, 0),
        (0xFFFF_FFFF, 0, u32::MAX, 0),
        (0x1_0000_0000, 0, u32::MAX, 15),
        (0x1_0000_003B, 59, 59, 15),
        (u64::MAX, 0, u32::MAX, 15),
    ] {
        set_number(&mut state, TODAYS, today);
        // The days of a put mean nothing here, and its mark neither.
        set_number(&mut state, FIRST_DAY, 1000);
        state[7] = 1;
        let (_, answer) = talk(state, &[], &slot(first, last));
        assert_eq!(answer, Some(expected), "{today} in {first} to {last}");
        let (_, answer) = talk(state, &[], &[1, 0, 1]);
        assert_eq!(answer, Some(0), "without a term");
        let (_, answer) = talk(state, &[], &[2, 0xFF, 0xFF]);
        assert_eq!(answer, Some(12), "without a record");
    }
}

/// A patch looks at no day: neither those of its slot nor those of its state.
#[test]
fn days_are_nothing_to_a_made_up_patch() {
    let mut state = [0; driver::STATE_LEN];
    start(&mut state, 1, Part::Short.array_len(), 3, 1, b"AB");
    for today in [0, 73_048, u64::MAX] {
        set_number(&mut state, TODAYS, today);
        // First after last; five bytes, of which the last two are patched.
        let slot = [
            2, 0, 5, 0, 0, 0, 9, 0, 0, 0, 1, b'v', b'w', b'x', b'y', b'z',
        ];
        let (loaded, answer) = talk(state, b"AB", &slot);
        let loaded = loaded.expect("a patch loads a page");
        let expected = [
            2, 0, 5, 0, 0, 0, 9, 0, 0, 0, 1, b'v', b'w', b'x', b'A', b'B',
        ];
        assert_eq!((&loaded[..16], answer), (&expected[..], Some(0)));
    }
}

/// What is wrong with a driver.
#[derive(Clone, Copy, Debug, PartialEq)]
enum Slip {
    /// A reply byte that is not there counts as 00.
    MissingBytesAreZero,
    /// A reply that is too short is taken for the end.
    ShortReplyEnds,
    /// A turn after the end forgets the answer.
    ForgetsAnswer,
    /// Status is the first byte of the reply.
    FirstByteIsStatus,
    /// A get hands back what follows the recipe too.
    ReadsOn,
    /// A get hands back what stands behind the length, days too.
    ReadsFromByte3,
    /// A get knows no term.
    TermForgotten,
    /// A start tests no dates.
    DatesUntested,
}

/// The model's driver with one slip.
struct Faulty {
    slip: Slip,
    driver: ModelDriver,
    last: Option<Turn>,
    /// The first bytes of the slot that was read.
    days: Vec<u8>,
}

impl Driver for Faulty {
    fn start(&mut self, array_len: usize, request: &Request) -> Turn {
        let mut turn = self.driver.start(array_len, request);
        if self.slip == Slip::DatesUntested && turn == Turn::End(14) {
            turn = Turn::Frame(vec![0xD7, 0x00]);
        }
        self.days.clear();
        self.last = Some(turn.clone());
        turn
    }

    fn next(&mut self, reply: &[u8]) -> Turn {
        let mut reply = reply.to_vec();
        let sent = match &self.last {
            Some(Turn::Frame(frame)) => frame.clone(),
            _ if self.slip == Slip::ForgetsAnswer => return Turn::End(0),
            _ => Vec::new(),
        };
        match self.slip {
            Slip::MissingBytesAreZero if reply.len() < sent.len() => reply.resize(sent.len(), 0),
            Slip::ShortReplyEnds if reply.len() < sent.len() => return Turn::End(8),
            Slip::FirstByteIsStatus if sent.len() == 2 && reply.len() > 1 => reply.swap(0, 1),
            _ => {}
        }
        // The first page read tells the term.
        if sent.first() == Some(&0xD2) && self.days.is_empty() {
            self.days = reply.get(8..19).unwrap_or(&[0]).to_vec();
        }
        let mut turn = self.driver.next(&reply);
        if self.slip == Slip::TermForgotten && turn == Turn::End(15) {
            turn = Turn::End(0);
        }
        self.last = Some(turn.clone());
        turn
    }

    fn recipe(&self) -> Vec<u8> {
        let mut recipe = self.driver.recipe();
        match self.slip {
            Slip::ReadsOn => recipe.push(0),
            Slip::ReadsFromByte3 if self.days[0] == 2 => {
                let len = recipe.len();
                recipe = [&self.days[3..], &recipe].concat();
                recipe.truncate(len);
            }
            _ => {}
        }
        recipe
    }
}

#[test]
fn slips_of_a_driver_are_noticed() {
    for slip in [
        Slip::MissingBytesAreZero,
        Slip::ShortReplyEnds,
        Slip::ForgetsAnswer,
        Slip::FirstByteIsStatus,
        Slip::ReadsOn,
        Slip::ReadsFromByte3,
        Slip::TermForgotten,
        Slip::DatesUntested,
    ] {
        let mut faulty = Faulty {
            slip,
            driver: ModelDriver::default(),
            last: None,
            days: Vec::new(),
        };
        match run(&mut faulty) {
            Ok(_) => panic!("{slip:?} not noticed"),
            Err(broken) => println!("{slip:?}: {broken}"),
        }
    }
}
