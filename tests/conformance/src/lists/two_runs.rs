//! What shows on the wire depends on nothing of the recipes: two lists, alike in
//! what an outline may depend on and different in everything else, on two chips
//! alike in registers and otherwise different.
//!
//! The outcomes are the same one by one (14.22): lines of the log, frames, polls
//! and answer of a call, the answer of an event, with 0, 12, 13 and 15 as one.

use at45db081d_model::record::{field, tag};
use at45db081d_model::slot::{store, Head};
use at45db081d_model::{Part, Record, Term};

use super::item::{CallItem, Item, Junk};
use super::items::{self, SLOTS};
use super::world::{Outline, World};
use super::Broken;
use crate::dates;
use crate::device::{Device, Model};
use crate::parts;
use crate::records::{self, OPERATIONS};
use crate::request::{Request, KINDS};
use crate::rng::Rng;

/// Items of the longest list.
const LONGEST: usize = 12;

/// Array lengths of no part.
const NO_PART: [usize; 10] = [0, 1, 256, 264, 2_048, 2_112, 32_767, 32_769, 33_791, 33_793];

/// A premise that is left out, to show that the claim needs it.
#[derive(Clone, Copy, Debug, PartialEq, Eq)]
pub enum Without {
    Nothing,
    /// The junk that reaches a register is free.
    JunkAlike,
    /// Whether 5 is met is free.
    SizeAlike,
    /// Whether 14 is met is free.
    DatesAlike,
}

/// Two chips and two lists.
pub struct Twins {
    pub worlds: [World; 2],
    pub items: Vec<[Item; 2]>,
}

/// What pairs of lists have shown.
#[derive(Clone, Copy, Default)]
pub struct Shown {
    pub pairs: u64,
    /// Of these the ones on each part.
    pub parts: [u64; 4],
    pub frames: u64,
    /// Calls by kind and answer of the first run.
    pub answers: [[u64; 17]; KINDS.len()],
    /// Calls whose answers differ, both being one of 0, 12, 13 and 15.
    pub unlike_answers: u64,
    /// Puts that are accepted, with a term in one run alone.
    pub unlike_terms: u64,
    /// Gets that send frames, on different days.
    pub unlike_days: u64,
}

impl Shown {
    pub fn calls(&self) -> u64 {
        self.answers.iter().flatten().sum()
    }

    fn count(&mut self, items: &[Item; 2], first: &Outline, second: &Outline) {
        if let [Item::Call(call), Item::Call(other)] = items {
            let answer = usize::from(first.outcome.answer);
            self.answers[call.request.kind()][answer] += 1;
            match (&call.request, &other.request) {
                (Request::Put { term, .. }, Request::Put { term: another, .. }) => {
                    let unlike = answer == 0 && term.is_some() != another.is_some();
                    self.unlike_terms += u64::from(unlike);
                }
                (Request::Get { today, .. }, Request::Get { today: another, .. }) => {
                    let unlike = first.outcome.frames > 0 && today != another;
                    self.unlike_days += u64::from(unlike);
                }
                _ => {}
            }
        }
        self.frames += first.outcome.frames;
        self.unlike_answers += u64::from(first.outcome.answer != second.outcome.answer);
    }
}

/// Makes the pair of lists of a seed, runs it on a device and compares; adds to
/// what was shown.
pub fn check(
    device: &mut dyn Device,
    seed: u64,
    without: Without,
    shown: &mut Shown,
) -> Result<(), Broken> {
    let twins = twins(seed, without);
    let [first, second] = [0, 1].map(|run| {
        let mut world = twins.worlds[run].clone();
        let outlines: Vec<Outline> = (twins.items.iter())
            .map(|pair| world.run(device, &pair[run]))
            .collect();
        outlines
    });
    for (i, (a, b)) in first.iter().zip(&second).enumerate() {
        if let Some(what) = difference(a, b) {
            return Err(broken(seed, &twins, i, what));
        }
        shown.count(&twins.items[i], a, b);
    }
    shown.pairs += 1;
    parts::count(&mut shown.parts, twins.worlds[0].array.len());
    Ok(())
}

/// How two outlines differ, if they may not.
fn difference(a: &Outline, b: &Outline) -> Option<String> {
    let class = |answer: u8| match answer {
        12 | 13 | 15 => 0,
        answer => answer,
    };
    let (first, second) = (a.outcome, b.outcome);
    let counts = |outline: &Outline| (outline.outcome.frames, outline.outcome.polls);
    let alike = class(first.answer) == class(second.answer) && counts(a) == counts(b);
    if !alike {
        return Some(format!("{first:?} and {second:?}"));
    }
    let line = (a.log.chunks(6).zip(b.log.chunks(6))).position(|(a, b)| a != b)?;
    let [a, b] = [a, b].map(|outline| &outline.log[6 * line..][..6]);
    Some(format!("frame {line}: log {a:02X?} and {b:02X?}"))
}

fn broken(seed: u64, twins: &Twins, at: usize, what: String) -> Broken {
    let list = twins.items[..=at]
        .iter()
        .map(|[first, second]| format!("{first}\n     {second}"))
        .collect();
    Broken {
        seed,
        what: format!("item {at}: the runs show {what}"),
        list,
    }
}

/// The pair of lists of a seed.
pub fn twins(seed: u64, without: Without) -> Twins {
    let mut rng = Rng::new(seed.wrapping_mul(0x9FB2_1C65_1E98_DF25));
    let (array_len, part) = array_len(&mut rng);
    let first = record(&mut rng, part);
    let second = records::alike_in_registers(&mut rng, &first);
    let worlds = [first, second].map(|record| {
        let array = array(&mut rng, part, array_len);
        World::new(record, array, rng.next_u64())
    });
    // The model goes ahead with the first list.
    let mut ahead = worlds[0].clone();
    let items = (0..1 + rng.below(LONGEST))
        .map(|_| item_pair(&mut rng, &mut ahead, part, without))
        .collect();
    Twins { worlds, items }
}

/// Mostly a short part, rarely a full one or an array of no part.
fn array_len(rng: &mut Rng) -> (usize, Part) {
    let part = parts::pick(rng, 200);
    match rng.below(70) {
        0 if parts::is_short(part) => (rng.pick(&NO_PART), part),
        _ => (part.array_len(), part),
    }
}

/// Any registers; every operation, within the part or rarely beyond it.
fn record(rng: &mut Rng, part: Part) -> Record {
    let mut record = records::random(rng);
    if rng.one_in(2) {
        let operation = rng.pick(&OPERATIONS);
        records::set_operation(rng, &mut record, operation, part);
    }
    if rng.one_in(60) {
        records::set_place(&mut record, (tag::ERASE_BLOCK, 0), 0xFFFF, 0);
    }
    record
}

/// Random bytes; some slots hold a recipe, with a term or without.
fn array(rng: &mut Rng, part: Part, len: usize) -> Vec<u8> {
    let mut array = vec![0; len];
    rng.fill(&mut array);
    for slot in array.chunks_exact_mut(part.slot_size()).take(SLOTS) {
        if rng.one_in(2) {
            let days = rng.one_in(2).then(|| dates::stored(rng));
            let recipe = items::recipe(rng, part, days.is_some(), false);
            store(slot, &recipe, days);
        }
    }
    array
}

/// An item for each run; the model does the first.
fn item_pair(rng: &mut Rng, ahead: &mut World, part: Part, without: Without) -> [Item; 2] {
    let mut first = items::item(rng, part);
    if let Item::Call(call) = &mut first {
        put_again(rng, part, &mut call.request, &ahead.array);
    }
    let reach = match without {
        Without::JunkAlike => Reach::Nothing,
        _ => reach(ahead, &first),
    };
    let answer = ahead.run(&mut Model, &first).outcome.answer;
    // Both meet 5 or neither does (14.19); neither if 1 to 4 come before it.
    let size_matters = !(1..=4).contains(&answer) && without != Without::SizeAlike;
    // Likewise 14, which 5 comes before.
    let dates_matter = !(1..=5).contains(&answer) && without != Without::DatesAlike;
    let mut second = first.clone();
    if let Item::Call(call) = &mut second {
        change_request(rng, part, call, size_matters, dates_matter);
    }
    if let Some(junk) = second.junk() {
        *junk = other_junk(rng, junk, reach);
    }
    [first, second]
}

/// At times puts the recipe that the slot holds already, with its term if it has
/// one of dates.
fn put_again(rng: &mut Rng, part: Part, request: &mut Request, array: &[u8]) {
    let call = request.with_lent(&mut []);
    let fits = call.size_fits(part) && call.dates_fit();
    if let Request::Put {
        slot, term, recipe, ..
    } = request
    {
        let held = array.chunks_exact(part.slot_size()).nth(*slot);
        let head = held.and_then(|held| Head::read(part, held).ok());
        if let Some((held, head)) = held.zip(head).filter(|_| fits && rng.one_in(3)) {
            *term = match head.days.map(|days| days.map(dates::of)) {
                None => None,
                Some([Some(first), Some(last)]) if first_is_first(head) => {
                    Some(Term::new(first, last))
                }
                Some(_) => return,
            };
            *recipe = held[head.body..][..head.len].to_vec();
        }
    }
}

fn first_is_first(head: Head) -> bool {
    head.days.map_or(false, |[first, last]| first <= last)
}

/// Makes recipe or patch another one, its length too; term and today's date
/// others, and whether there is a term.
fn change_request(
    rng: &mut Rng,
    part: Part,
    call: &mut CallItem,
    size_matters: bool,
    dates_matter: bool,
) {
    let most = part.max_recipe();
    match &mut call.request {
        Request::Put { term, recipe, .. } => {
            let over = recipe.len() > part.max_recipe_of(term.is_some());
            let over = if size_matters { over } else { rng.one_in(2) };
            let wrong = term.map_or(false, |term| term.days().is_none());
            let wrong = if dates_matter { wrong } else { rng.one_in(2) };
            *term = items::term(rng, wrong);
            *recipe = items::recipe(rng, part, term.is_some(), over);
        }
        Request::Get { today, .. } => {
            let wrong = today.number().is_none();
            let wrong = if dates_matter { wrong } else { rng.one_in(2) };
            *today = items::today(rng, wrong);
        }
        Request::Patch { place, bytes, .. } => {
            let over = place.saturating_add(bytes.len()) > most;
            let over = if size_matters { over } else { rng.one_in(2) };
            (*place, *bytes) = items::patch(rng, part, over);
        }
        _ => {}
    }
}

/// The junk that reaches a register (8.9).
#[derive(Clone, Copy, PartialEq, Eq)]
enum Reach {
    Nothing,
    /// So many bytes.
    Bytes(usize),
    /// Whether the first of them is 80h or more (8.8).
    Lock,
}

/// What junk reaches a register if the item cuts, told by trying junk of 00 and
/// of FFh.
fn reach(world: &World, item: &Item) -> Reach {
    let mut item = item.clone();
    if item.junk().is_none() {
        return Reach::Nothing;
    }
    let [zeros, ones] = [0x00, 0xFF].map(|byte| {
        let mut world = world.clone();
        item.junk().expect("junk").register = [byte; 64];
        world.run(&mut Model, &item);
        world.record
    });
    let differs = |place: std::ops::Range<usize>| zeros[place.clone()] != ones[place];
    if differs(field::PROTECTION) {
        Reach::Bytes(16)
    } else if differs(field::USER) {
        Reach::Bytes(64)
    } else if differs(field::LOCKDOWN) {
        Reach::Lock
    } else {
        Reach::Nothing
    }
}

/// Junk of the same length, alike in what reaches a register.
fn other_junk(rng: &mut Rng, junk: &Junk, reach: Reach) -> Junk {
    let mut other = junk.another(rng);
    match reach {
        Reach::Nothing => {}
        Reach::Bytes(count) => other.register[..count].copy_from_slice(&junk.register[..count]),
        Reach::Lock => other.register[0] = other.register[0] & 0x7F | junk.register[0] & 0x80,
    }
    other
}
