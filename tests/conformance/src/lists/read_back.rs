//! A recipe that was put comes back (14.8): if a put has answered 0, and the list
//! after it is quiet in the slot, each get of the slot says why not with 1 to 9, 11
//! or 14, or else hands over exactly this recipe with 0 if today is inside its term
//! and answers 15 if it is not. A recipe without a term is handed over on any day.

use std::ops::Range;

use at45db081d_model::record::field;
use at45db081d_model::{Chip, Date, Part, Term};

use super::item::{CallItem, Item, Junk};
use super::items;
use super::world::{Outline, World};
use super::Broken;
use crate::dates;
use crate::device::{Device, Model};
use crate::parts;
use crate::records::{self, OPERATIONS};
use crate::request::Request;
use crate::rng::Rng;
use crate::scenarios::calls::slot;

/// Items between the put and the last get.
const LONGEST: usize = 12;

/// A chip, a put, and a list that leaves its slot alone.
pub struct Kept {
    pub world: World,
    pub slot: usize,
    pub term: Option<Term>,
    pub recipe: Vec<u8>,
    /// The put comes first.
    pub items: Vec<Item>,
}

/// What a list has shown.
#[derive(Clone, Copy, Default)]
pub struct Shown {
    pub lists: u64,
    /// Of these the ones on each part.
    pub parts: [u64; 4],
    pub gets: u64,
    /// Gets that answered 0, and of these the ones with a term.
    pub read: u64,
    pub read_inside: u64,
    /// Gets that answered 15.
    pub outside: u64,
}

/// Makes the list of a seed, runs it on a device and looks at every get; adds to
/// what was shown. A put that is not answered with 0 shows nothing.
pub fn check(device: &mut dyn Device, seed: u64, shown: &mut Shown) -> Result<(), Broken> {
    let kept = kept(seed);
    let mut world = kept.world.clone();
    for (i, item) in kept.items.iter().enumerate() {
        let outline = world.run(device, item);
        let answer = outline.outcome.answer;
        if i == 0 && answer != 0 {
            return Ok(());
        }
        let today = match get_of(item, kept.slot) {
            Some(today) => today,
            None => continue,
        };
        let last = i + 1 == kept.items.len();
        if !allowed(&kept, &outline, today, last) {
            return Err(broken(seed, &kept, i, &outline));
        }
        shown.gets += 1;
        shown.read += u64::from(answer == 0);
        shown.read_inside += u64::from(answer == 0 && kept.term.is_some());
        shown.outside += u64::from(answer == 15);
    }
    shown.lists += 1;
    parts::count(&mut shown.parts, kept.world.array.len());
    Ok(())
}

/// The chip is idle and awake at the last get, and its date is one: it must answer
/// 0 or 15. Which of them is told by the dates alone.
fn allowed(kept: &Kept, outline: &Outline, today: Date, last: bool) -> bool {
    match outline.outcome.answer {
        0 => reads_recipe(kept, outline) && is_inside(kept.term, today),
        15 => outline.outcome.n == 0 && !is_inside(kept.term, today),
        1..=9 | 11 | 14 => !last,
        _ => false,
    }
}

fn reads_recipe(kept: &Kept, outline: &Outline) -> bool {
    outline.outcome.n == kept.recipe.len() as u64 && outline.read == kept.recipe
}

/// By year, month and day, with the first and the last day inside.
fn is_inside(term: Option<Term>, today: Date) -> bool {
    let key = |it: Date| (it.year, it.month, it.day);
    term.map_or(true, |it| {
        key(it.first) <= key(today) && key(today) <= key(it.last)
    })
}

fn broken(seed: u64, kept: &Kept, at: usize, outline: &Outline) -> Broken {
    let outcome = outline.outcome;
    let read = match reads_recipe(kept, outline) {
        true => "the recipe",
        false => "something else",
    };
    Broken {
        seed,
        what: format!("item {at}: get of {outcome:?} reads {read}"),
        list: kept.items[..=at].iter().map(Item::to_string).collect(),
    }
}

/// Today's date, if the item is a get of the slot.
fn get_of(item: &Item, aim: usize) -> Option<Date> {
    match item {
        Item::Call(call) => match call.request {
            Request::Get { slot, today, .. } if slot == aim => Some(today),
            _ => None,
        },
        _ => None,
    }
}

/// The list of a seed; if the model does not answer its put with 0, there is
/// nothing between it and the last get.
pub fn kept(seed: u64) -> Kept {
    let mut rng = Rng::new(seed.wrapping_mul(0xC2B2_AE3D_27D4_EB4F));
    let part = parts::pick(&mut rng, 200);
    let slot = slot(&mut rng, part);
    let world = world(&mut rng, part);
    let term = items::term(&mut rng, false);
    let recipe = items::recipe(&mut rng, part, term.is_some(), false);
    let mut put = items::call(&mut rng, part);
    put.request = Request::put(slot, 1 + rng.below(5), term, recipe.clone());
    put.log_len = put.request.log_len();
    let mut items = vec![Item::Call(Box::new(put))];
    let mut ahead = world.clone();
    let longest = match ahead.run(&mut Model, &items[0]).outcome.answer {
        0 => LONGEST,
        _ => 1,
    };
    for _ in 0..rng.below(longest) {
        let mut item = items::item(&mut rng, part);
        aim(&mut rng, &mut item, slot, term);
        if !touches(&ahead, &item, part, slot) {
            ahead.run(&mut Model, &item);
            items.push(item);
        }
    }
    // The chip is made idle and awake.
    items.push(Item::EndBusy);
    items.push(Item::Send {
        frame: vec![0xAB],
        reply_len: 1,
    });
    items.push(last_get(&mut rng, part, slot, term));
    Kept {
        world,
        slot,
        term,
        recipe,
        items,
    }
}

/// A chip that will mostly take a put.
fn world(rng: &mut Rng, part: Part) -> World {
    let mut record = records::random(rng);
    if rng.one_in(2) {
        let operation = rng.pick(&OPERATIONS);
        records::set_operation(rng, &mut record, operation, part);
    }
    if !rng.one_in(4) {
        record[field::PROTECTION].fill(0);
        record[field::LOCKDOWN].fill(0);
    }
    record[field::DEEP_POWER_DOWN] = 0;
    let mut array = vec![0; part.array_len()];
    rng.fill(&mut array);
    World::new(record, array, rng.next_u64())
}

/// Turns calls to the slot half of the time, and gets to days around its term.
fn aim(rng: &mut Rng, item: &mut Item, aim: usize, term: Option<Term>) {
    if let Item::Call(call) = item {
        if let Request::Put { slot, .. }
        | Request::Patch { slot, .. }
        | Request::Get { slot, .. }
        | Request::Wipe { slot, .. } = &mut call.request
        {
            if rng.one_in(2) {
                *slot = aim;
            }
        }
        if let Request::Get { today, .. } = &mut call.request {
            if today.number().is_some() && !rng.one_in(4) {
                *today = a_day(rng, term);
            }
        }
    }
}

/// A day around a term, or any.
fn a_day(rng: &mut Rng, term: Option<Term>) -> Date {
    match term.and_then(Term::days) {
        Some(days) => dates::around(rng, days),
        None => dates::date(rng),
    }
}

fn last_get(rng: &mut Rng, part: Part, slot: usize, term: Option<Term>) -> Item {
    let today = a_day(rng, term);
    let request = Request::get(slot, 1, today, part.max_recipe());
    Item::Call(Box::new(CallItem {
        log_len: request.log_len(),
        request,
        script: Vec::new(),
        junk: Junk::random(rng, part, 0),
    }))
}

/// True if the item is not quiet in the slot: a frame of it is obeyed, and what
/// this starts writes one of the slot's pages (14.6).
fn touches(world: &World, item: &Item, part: Part, slot: usize) -> bool {
    let request = match item {
        Item::Send { frame, .. } => return starts_in(world, frame, part, slot),
        Item::Call(call) => &call.request,
        _ => return false,
    };
    match request {
        Request::Raw { frame, .. } => starts_in(world, frame, part, slot),
        _ if request.slot() != Some(slot) => false,
        _ => {
            // The driver sends 83 and 50 only where they are obeyed.
            let log = world.clone().run(&mut Model, item).log;
            log.chunks(6).any(|line| line[2] == 0x83 || line[2] == 0x50)
        }
    }
}

fn starts_in(world: &World, frame: &[u8], part: Part, slot: usize) -> bool {
    let mut chip = Chip::from_record(&world.record);
    let was_idle = chip.operation.is_idle();
    chip.send(&world.array, frame, &mut vec![0; frame.len()]);
    let block = part.block_range(slot as u16);
    let mut meets = false;
    chip.operation
        .each_altered_range(part, |range: Range<usize>| {
            meets |= range.start < block.end && block.start < range.end;
        });
    was_idle && meets
}
