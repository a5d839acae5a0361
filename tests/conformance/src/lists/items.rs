//! Random items: requests, scripts, frames and what is lent.

use at45db081d_model::{Date, Part, Term};

use super::item::{CallItem, Item, Junk};
use crate::dates;
use crate::frames::{self, ROWS};
use crate::parts;
use crate::request::Request;
use crate::rng::Rng;

/// The slots that lists are mostly about.
pub const SLOTS: usize = 3;

/// A random item for an array of this length.
pub fn item(rng: &mut Rng, part: Part) -> Item {
    match rng.below(20) {
        0..=12 => Item::Call(Box::new(call(rng, part))),
        13..=15 => {
            let frame = frame(rng, part);
            let reply_len = frame.len() + usize::from(rng.one_in(30));
            Item::Send { frame, reply_len }
        }
        16 | 17 => Item::EndBusy,
        18 => Item::MovePin {
            high: !rng.one_in(3),
        },
        _ => Item::Cut {
            junk: junk(rng, part),
        },
    }
}

pub fn call(rng: &mut Rng, part: Part) -> CallItem {
    let request = request(rng, part);
    let log_len = log_len(rng, &request);
    CallItem {
        request,
        script: script(rng),
        junk: junk(rng, part),
        log_len,
    }
}

fn request(rng: &mut Rng, part: Part) -> Request {
    let (slot, limit) = (slot(rng, part), limit(rng));
    let over = rng.one_in(16);
    let wrong = rng.one_in(16);
    match rng.below(13) {
        0..=2 => {
            let term = term(rng, wrong);
            let recipe = recipe(rng, part, term.is_some(), over);
            Request::put(slot, limit, term, recipe)
        }
        3..=5 => {
            let (place, bytes) = patch(rng, part, over);
            Request::patch(slot, limit, place, bytes)
        }
        6..=8 => {
            let buffer_len = match over {
                true => rng.below(part.max_recipe()),
                false => part.max_recipe() + rng.below(3),
            };
            Request::get(slot, limit, today(rng, wrong), buffer_len)
        }
        9 => Request::wipe(slot, limit),
        _ => {
            let frame = frame(rng, part);
            let reply_len = frame.len() + usize::from(rng.one_in(30));
            Request::Raw { frame, reply_len }
        }
    }
}

/// A term or none; one that is wrong is there.
pub fn term(rng: &mut Rng, wrong: bool) -> Option<Term> {
    match wrong {
        true => Some(dates::no_term(rng)),
        false => rng.one_in(2).then(|| dates::term(rng)),
    }
}

pub fn today(rng: &mut Rng, wrong: bool) -> Date {
    match wrong {
        true => dates::no_date(rng),
        false => dates::date(rng),
    }
}

/// A recipe, within the limit or over it; short ones are frequent, so that
/// pages of zeros are.
pub fn recipe(rng: &mut Rng, part: Part, has_term: bool, over: bool) -> Vec<u8> {
    let (most, page) = (part.max_recipe_of(has_term), part.page_size);
    let len = match rng.below(8) {
        0 if over => 0x1_0000 + rng.below(most),
        _ if over => most + 1 + rng.below(200),
        0..=2 => rng.below(300),
        3 => rng.pick(&[0, 1, page - 3, page - 2, most - 1, most]),
        _ => rng.below(most + 1),
    };
    bytes(rng, len)
}

/// A patch's place and bytes, within the limit or over it.
pub fn patch(rng: &mut Rng, part: Part, over: bool) -> (usize, Vec<u8>) {
    let most = part.max_recipe();
    if over {
        let place = rng.pick(&[0, 1000, most, usize::MAX - 5, usize::MAX]);
        let least = (most + 1).saturating_sub(place);
        let more = rng.below(50);
        return (place, bytes(rng, least + more));
    }
    let furthest = rng.pick(&[20, 300, most + 1]);
    let place = rng.below(furthest);
    let longest = rng.pick(&[8, 300, most]).min(most - place);
    let len = rng.below(longest + 1);
    (place, bytes(rng, len))
}

fn bytes(rng: &mut Rng, len: usize) -> Vec<u8> {
    let mut bytes = vec![0; len];
    rng.fill(&mut bytes);
    bytes
}

fn slot(rng: &mut Rng, part: Part) -> usize {
    match rng.below(40) {
        0 => rng.pick(&[part.blocks(), 512, usize::MAX]),
        1..=4 => rng.below(part.blocks()),
        _ => rng.below(SLOTS),
    }
}

fn limit(rng: &mut Rng) -> usize {
    match rng.below(80) {
        0 => rng.pick(&[0, 1001, usize::MAX]),
        1 => 1000,
        _ => rng.pick(&[1, 1, 2, 3, 5]),
    }
}

/// Mostly 0s with some 1s, at times a cut, rarely a byte over 2.
pub fn script(rng: &mut Rng) -> Vec<u8> {
    if rng.one_in(2) {
        return Vec::new();
    }
    let mut script = vec![0; rng.below(60)];
    let rarity = rng.pick(&[2, 8, 30]);
    script.fill_with(|| u8::from(rng.one_in(rarity)));
    if rng.one_in(3) {
        script.push(2);
    }
    if rng.one_in(60) {
        script.push(3);
    }
    script
}

fn junk(rng: &mut Rng, part: Part) -> Junk {
    let len = match rng.below(30) {
        0 => 0,
        1 => part.junk_len() + 1,
        2 => parts::other_page_size(part).junk_len(),
        _ => part.junk_len(),
    };
    Junk::random(rng, part, len)
}

fn log_len(rng: &mut Rng, request: &Request) -> usize {
    let least = request.log_len();
    match rng.below(30) {
        0 => least - 1,
        1 => least + 7,
        _ => least,
    }
}

/// A frame of the table; its page is mostly in the first slots.
fn frame(rng: &mut Rng, part: Part) -> Vec<u8> {
    let row = rng.pick(&ROWS);
    let len = row.lead + rng.pick(&[0, 0, 1, 16, 64, 256, 264, 600]);
    let page = match rng.one_in(4) {
        true => rng.below(part.pages),
        false => rng.below(8 * SLOTS),
    };
    let address = frames::address(rng, page, 0, part);
    row.frame(rng, address, len)
}
