//! Compares the library's slot driver with the model's in front of a chip that
//! miscompares: each page's compare bit in turn, at each poll.

use std::io::Write;

use at45db081d_model::Part;
use conformance::compares::{Case, Work};
use conformance::driving::{Driver, LibraryDriver, Turn};
use conformance::lists::Broken;
use conformance::replies::{self, Shown};
use conformance::scenarios::calls::{request, slot, SLOT_KINDS};
use conformance::slips::drivers::{DriverSlip, FaultyDriver, DRIVER_SLIPS};
use conformance::{parts, Rng};

/// The cases that there are: 5 calls on 4 parts, with the compare bit set before or
/// not, 8 pages, after 83 and after 60, each poll of 1, 2 and 3.
const CASES: u64 = 5 * 4 * 2 * 8 * 2 * (1 + 2 + 3);

/// Pairs of runs, by their seeds.
const PAIRS: u64 = 20_000;

/// The compare bit of a status.
const DIFFERS: u8 = 0x40;

/// Says something even when the test passes.
fn say(line: &str) {
    writeln!(std::io::stdout(), "{line}").expect("standard output");
}

/// The answer, and the frames: all of them, whatever the bit says.
fn expected(case: &Case) -> (u64, u8) {
    let frames = match case.work {
        Work::Put | Work::PutTerm => 43,
        Work::Patch | Work::PatchBlank | Work::PatchEnd => 51,
    };
    let answer = match case.work {
        Work::PatchBlank => 12,
        Work::PatchEnd => 13,
        _ if case.after == 0x60 && case.poll == case.busy => 16,
        _ => 0,
    };
    (frames + 16 * case.busy as u64, answer)
}

/// Runs every case on a driver; how many ended with 16, or the first that differs.
fn run(subject: &mut dyn Driver) -> Result<u64, Broken> {
    let mut told = 0;
    for case in Case::all() {
        let (frames, answer) = case.check(subject)?;
        assert_eq!((frames, answer), expected(&case), "{case}");
        told += u64::from(answer == 16);
    }
    Ok(told)
}

#[test]
fn pages_that_differ_are_told_at_the_end() {
    assert_eq!(Case::all().count() as u64, CASES);
    let mut library = LibraryDriver::new(0x5A);
    let told = run(&mut library).unwrap_or_else(|broken| panic!("{broken}"));
    say(&format!("compares: {CASES} cases, {told} ended with 16"));
    // Of 3 calls on 4 parts each page, at the last of 1, 2 and 3 polls.
    assert_eq!(told, 3 * 4 * 2 * 8 * 3);
}

#[test]
fn slips_are_noticed() {
    assert!(run(&mut FaultyDriver::new(DriverSlip::None)).is_ok());
    for slip in DRIVER_SLIPS {
        match run(&mut FaultyDriver::new(slip)) {
            Ok(_) => panic!("{slip:?} not noticed"),
            Err(broken) => println!("{slip:?}: {broken}"),
        }
    }
}

/// Under random replies they are noticed too.
#[test]
fn slips_are_noticed_under_any_replies() {
    for slip in DRIVER_SLIPS {
        let (mut faulty, mut shown) = (FaultyDriver::new(slip), Shown::default());
        let found =
            (0..40_000).find_map(|seed| replies::check(&mut faulty, seed, &mut shown).err());
        let broken = found.unwrap_or_else(|| panic!("{slip:?} not noticed"));
        println!("{slip:?}: {broken}");
    }
}

/// Of a frame its length and first four bytes; 0, 12, 13, 15 and 16 as one.
fn outline(turn: &Turn) -> (usize, Vec<u8>) {
    match turn {
        Turn::Frame(frame) => (frame.len(), frame[..frame.len().min(4)].to_vec()),
        Turn::End(12 | 13 | 15 | 16) => (0, vec![0]),
        Turn::End(answer) => (0, vec![*answer]),
    }
}

/// A reply of a chip that is mostly ready, with nothing sealed and any page.
fn reply_to(rng: &mut Rng, frame: &[u8]) -> Vec<u8> {
    let mut reply = vec![0; frame.len()];
    match frame[0] {
        0xD7 if rng.one_in(6) => reply[1] = rng.pick(&[0x24, 0x66]),
        0xD7 => reply[1] = rng.pick(&[0xA4, 0xA6, 0xA5]) | DIFFERS * u8::from(rng.one_in(12)),
        0xD2 => {
            rng.fill(&mut reply);
            (reply[8], reply[9]) = (rng.pick(&[0, 1, 1, 2]), rng.below(10) as u8);
        }
        _ => {}
    }
    reply
}

/// A reply that a driver hears as this one: another compare bit, and other bytes
/// where it does not listen.
fn heard_alike(rng: &mut Rng, frame: &[u8], reply: &[u8]) -> Vec<u8> {
    let mut other = reply.to_vec();
    match frame[0] {
        0xD7 => {
            other[0] = rng.byte();
            other[1] ^= 0x01 | DIFFERS * u8::from(rng.one_in(12));
        }
        0x32 | 0x35 => rng.fill(&mut other[..4]),
        _ => return reply_to(rng, frame),
    }
    other
}

/// Two runs of a call whose replies are heard alike; the ends, or what shows.
fn heard_twice(seed: u64, mut drivers: [Box<dyn Driver>; 2]) -> Result<[Turn; 2], String> {
    let mut rng = Rng::new(seed);
    let part: Part = parts::pick(&mut rng, 20);
    let (kind, slot) = (rng.below(SLOT_KINDS), slot(&mut rng, part));
    let request = request(&mut rng, part, kind, slot, 4);
    let [first, second] = &mut drivers;
    let array_len = part.array_len();
    let mut turns = [
        first.start(array_len, &request),
        second.start(array_len, &request),
    ];
    loop {
        let [one, other] = [&turns[0], &turns[1]].map(outline);
        if one != other {
            return Err(format!("{seed}: {request}: {one:02X?} and {other:02X?}"));
        }
        let frame = match &turns[0] {
            Turn::Frame(frame) => frame,
            Turn::End(_) => return Ok(turns),
        };
        let reply = reply_to(&mut rng, frame);
        let other = heard_alike(&mut rng, frame, &reply);
        turns = [first.next(&reply), second.next(&other)];
    }
}

/// What shows of a driver does not depend on compare bits and on what was read.
#[test]
fn compare_bits_do_not_show() {
    let (mut unlike, mut told) = (0, 0);
    for seed in 0..PAIRS {
        let drivers = [0x5A, 0xA5].map(|it| Box::new(LibraryDriver::new(it)) as Box<dyn Driver>);
        let ends = heard_twice(seed, drivers).unwrap_or_else(|what| panic!("{what}"));
        unlike += u64::from(ends[0] != ends[1]);
        let [one, other] = ends.map(|end| end == Turn::End(16));
        told += u64::from(one != other);
    }
    say(&format!(
        "compare bits: {PAIRS} pairs, {unlike} ended unlike, {told} of these with 16 in one"
    ));
    // 95 in 100 of those that there are.
    assert!(unlike >= 7_150 && told >= 2_950);
}

#[test]
fn compare_bits_that_show_are_noticed() {
    let slip = DriverSlip::StopsAtFirst;
    let shown = (0..PAIRS).find_map(|seed| {
        let drivers = [slip, slip].map(|it| Box::new(FaultyDriver::new(it)) as Box<dyn Driver>);
        heard_twice(seed, drivers).err()
    });
    println!("{slip:?}: {}", shown.expect("not noticed"));
}
