//! Heads that raw frames have written: every version, lengths around the limit of
//! each, and days that no put would store. They are read and patched.

use at45db081d_model::record::{field, tag};
use at45db081d_model::Part;

use super::{head, load, open_record, slot};
use crate::dates;
use crate::mismatch::Mismatch;
use crate::pair::Pair;
use crate::request::{CallStep, Request};
use crate::rng::{Digits, Rng};
use crate::runner::Scenario;

pub const STORED_TERMS: Scenario = Scenario {
    name: "heads_written_by_raw_frames",
    test: "calls",
    cases,
    run,
};

const VERSIONS: [u8; 4] = [2, 1, 3, 0];

/// Lengths: see `length`.
const LENGTHS: usize = 8;

/// First and last days, each with each.
const DAYS: [u32; 7] = [
    0,
    9_816,
    73_048,
    73_049,
    0x7FFF_FFFF,
    0x8000_0000,
    0xFFFF_FFFF,
];

const TODAYS: [u32; 5] = [0, 9_815, 9_816, 9_817, 73_048];

fn cases(_: Part) -> u64 {
    (VERSIONS.len() * LENGTHS * DAYS.len() * DAYS.len() * TODAYS.len()) as u64
}

fn run(pair: &mut Pair, case: u64) -> Result<(), Mismatch> {
    let (part, mut digits, mut rng) = (pair.part, Digits::new(case), Rng::new(case));
    let version = digits.pick(&VERSIONS);
    let [first, last] = [digits.pick(&DAYS), digits.pick(&DAYS)];
    let today = digits.pick(&TODAYS);
    let len = length(digits.below(LENGTHS), part);
    let slot = slot(&mut rng, part);
    let mut record = open_record(&mut rng, part, (tag::IDLE, 0));
    record[field::WP_HIGH] = 1;
    load(pair, record)?;

    // Into buffer 1, and from there into the slot's first page.
    let mut write = vec![0x84, 0, 0, 0];
    write.extend(head(version, len as u16, [first, last]));
    let [_, high, middle, low] = part.address_of(8 * slot as u16).to_be_bytes();
    for frame in [write, vec![0x83, high, middle, low]] {
        pair.call(CallStep::new(part, Request::raw(frame)))?;
    }

    let date = dates::of(today).expect("a day");
    let get = Request::get(slot, 1, date, part.max_recipe());
    let answer = pair.call(CallStep::new(part, get.clone()))?.answer;
    let slot_size = 8 * part.page_size;
    let expected = match version {
        1 if len <= slot_size - 3 => 0,
        2 if len <= slot_size - 11 && first <= today && today <= last => 0,
        2 if len <= slot_size - 11 => 15,
        _ => 12,
    };
    assert_eq!(answer, expected, "{version} {len} {first} {last} {today}");

    let most = part.max_recipe();
    let place = rng.pick(&[0, len.saturating_sub(1), len]).min(most - 1);
    let patch = Request::patch(slot, 1, place, vec![rng.byte()]);
    let answer = pair.call(CallStep::new(part, patch))?.answer;
    let expected = match expected {
        12 => 12,
        _ if place + 1 > len => 13,
        _ => 0,
    };
    assert_eq!(answer, expected, "{version} {len} {first} {last} {place}");
    pair.call(CallStep::new(part, get))?;
    Ok(())
}

fn length(index: usize, part: Part) -> usize {
    let (plain, most) = (part.max_recipe(), part.max_term_recipe());
    let lengths = [0, 1, most, most + 1, most + 4, plain, plain + 1, 0xFFFF];
    lengths[index]
}
