//! Compares two drivers under replies of a chip and replies from nowhere.

use at45db081d_model::record::field;
use at45db081d_model::slot::store;
use at45db081d_model::{Chip, Part};

use crate::dates;
use crate::driving::{Driver, ModelDriver, Turn};
use crate::lists::Broken;
use crate::parts;
use crate::records;
use crate::request::Request;
use crate::rng::Rng;
use crate::scenarios::calls::{request, slot, SLOT_KINDS};

/// Turns of the longest case, and turns after the end.
const LONGEST: usize = 130;
const AFTER: usize = 3;

/// The compare bit of a status.
const DIFFERS: u8 = 0x40;

/// What is sent to a driver.
enum Source {
    /// A chip, whose busy periods end after a frame or not.
    Chip {
        chip: Box<Chip>,
        array: Vec<u8>,
        /// The compare bit of one status in so many is another; 0 for none.
        odd: usize,
    },
    /// Nothing that is a chip: any bytes; one reply in so many has any length, and
    /// some statuses are of no chip.
    Nowhere { odd: usize },
}

/// What cases have shown.
#[derive(Clone, Copy, Default)]
pub struct Shown {
    /// Frames that were compared.
    pub frames: u64,
    /// Ends by their answers.
    pub answers: [u64; 17],
}

/// Runs one case; adds to what was shown.
pub fn check(subject: &mut dyn Driver, seed: u64, shown: &mut Shown) -> Result<(), Broken> {
    let mut rng = Rng::new(seed.wrapping_mul(0xA076_1D64_78BD_642F));
    let part = parts::pick(&mut rng, 20);
    let request = any_request(&mut rng, part);
    let array_len = match rng.below(40) {
        0 => rng.pick(&[0, 32_769, 33_791, 33_793, 1_048_575, 1_081_345, usize::MAX]),
        _ => part.array_len(),
    };
    let mut source = source(&mut rng, part, &request);
    let mut list = vec![format!("{request}, array {array_len}")];
    let mut model = ModelDriver::default();
    let mut expected = model.start(array_len, &request);
    let mut turn = subject.start(array_len, &request);
    let mut after = 0;
    for _ in 0..LONGEST {
        let what = difference(&expected, &turn);
        if let Some(what) = what.or_else(|| misread(&request, &turn, &model, subject)) {
            return Err(Broken { seed, what, list });
        }
        let reply = match &turn {
            Turn::Frame(frame) => {
                shown.frames += 1;
                source.reply(&mut rng, frame)
            }
            Turn::End(_) if after == AFTER => break,
            Turn::End(answer) => {
                shown.answers[usize::from(*answer)] += u64::from(after == 0);
                after += 1;
                from_nowhere(&mut rng, &[0xD7, 0x00], 4)
            }
        };
        let (len, shown) = (reply.len(), beginning(&reply));
        list.push(format!("reply of {len}: {shown:02X?}"));
        expected = model.next(&reply);
        turn = subject.next(&reply);
    }
    Ok(())
}

/// What is wrong with the recipe that a get has read, at its end with 0.
fn misread(
    request: &Request,
    turn: &Turn,
    model: &ModelDriver,
    subject: &dyn Driver,
) -> Option<String> {
    let reads = matches!(request, Request::Get { .. }) && *turn == Turn::End(0);
    let differs = reads && model.recipe() != subject.recipe();
    differs.then(|| "another recipe was read".to_string())
}

/// How two turns differ, if they do.
pub fn difference(expected: &Turn, turn: &Turn) -> Option<String> {
    let show = |turn: &Turn| match turn {
        Turn::Frame(frame) => format!("frame of {}: {:02X?}", frame.len(), beginning(frame)),
        Turn::End(answer) => format!("end with {answer}"),
    };
    if expected == turn {
        return None;
    }
    let (model, driver) = (show(expected), show(turn));
    let at = match (expected, turn) {
        (Turn::Frame(a), Turn::Frame(b)) => a.iter().zip(b).position(|(a, b)| a != b),
        _ => None,
    };
    let at = at.map_or(String::new(), |at| format!(", first at byte {at}"));
    Some(format!("model {model}, driver {driver}{at}"))
}

fn beginning(reply: &[u8]) -> &[u8] {
    &reply[..reply.len().min(12)]
}

/// Mostly a call that is not refused.
fn any_request(rng: &mut Rng, part: Part) -> Request {
    let slot = match rng.below(40) {
        0 => rng.pick(&[part.blocks(), usize::MAX]),
        _ => slot(rng, part),
    };
    let limit = match rng.below(40) {
        0 => rng.pick(&[0, 1001, usize::MAX]),
        _ => rng.pick(&[1, 2, 3, 5, 1000]),
    };
    match rng.below(40) {
        0 => {
            let term = dates::any_term(rng, 4);
            let over = part.max_recipe_of(term.is_some()) + 1;
            Request::put(slot, limit, term, vec![7; over])
        }
        1 => Request::patch(slot, limit, usize::MAX, vec![7]),
        2 => Request::get(slot, limit, dates::any_date(rng, 4), part.max_recipe() - 1),
        3 => Request::put(slot, limit, Some(dates::no_term(rng)), vec![7]),
        4 => Request::get(slot, limit, dates::no_date(rng), part.max_recipe()),
        _ => {
            let kind = rng.below(SLOT_KINDS);
            request(rng, part, kind, slot, limit)
        }
    }
}

fn source(rng: &mut Rng, part: Part, request: &Request) -> Source {
    if rng.one_in(2) {
        let odd = rng.pick(&[4, 100]);
        return Source::Nowhere { odd };
    }
    let mut record = records::random(rng);
    if rng.one_in(2) {
        record[field::PROTECTION].fill(0);
        record[field::LOCKDOWN].fill(0);
    }
    let mut array = vec![0xFF; part.array_len()];
    let slot = request.slot().unwrap_or(0);
    if let Some(bytes) = array.chunks_exact_mut(part.slot_size()).nth(slot) {
        let days = rng.one_in(2).then(|| dates::stored(rng));
        let mut recipe = vec![0; rng.below(part.max_recipe_of(days.is_some()) + 1)];
        rng.fill(&mut recipe);
        store(bytes, &recipe, days);
    }
    Source::Chip {
        chip: Box::new(Chip::from_record(&record)),
        array,
        odd: rng.pick(&[0, 0, 5, 20, 60]),
    }
}

impl Source {
    fn reply(&mut self, rng: &mut Rng, frame: &[u8]) -> Vec<u8> {
        match self {
            Source::Chip { chip, array, odd } => {
                let mut reply = vec![0; frame.len()];
                chip.send(array, frame, &mut reply);
                if frame[0] == 0xD7 && *odd > 0 && rng.one_in(*odd) {
                    reply[1] ^= DIFFERS;
                }
                if !rng.one_in(4) {
                    chip.end_busy(array);
                }
                reply
            }
            Source::Nowhere { odd } => from_nowhere(rng, frame, *odd),
        }
    }
}

/// Statuses of chips with pages of either size, busy or not; none ends the call with
/// 8. Some have the compare bit.
const STATUSES: [u8; 12] = [
    0xA4, 0xA6, 0xA4, 0xE4, 0x24, 0x66, 0xA5, 0xA7, 0xA5, 0x25, 0x67, 0x64,
];

/// Any bytes; mostly such that the driver goes on.
fn from_nowhere(rng: &mut Rng, frame: &[u8], odd: usize) -> Vec<u8> {
    let len = match rng.below(3) {
        _ if !rng.one_in(odd) => frame.len(),
        0 => rng.below(frame.len() + 1),
        1 => frame.len() + rng.below(300),
        _ => 0,
    };
    let mut reply = vec![0; len];
    rng.fill(&mut reply);
    match frame[0] {
        0xD7 if !rng.one_in(3 * odd) => set(&mut reply, 1, &[rng.pick(&STATUSES)]),
        0x32 | 0x35 if !rng.one_in(4) => reply.fill(0x00),
        0xD2 if rng.one_in(2) => {
            let (version, high) = (rng.pick(&[1, 2, 2]), rng.below(10) as u8);
            set(&mut reply, 8, &[version, high]);
            let [first, last] = dates::stored(rng).map(u32::to_be_bytes);
            if !rng.one_in(4) {
                set(&mut reply, 11, &first);
                set(&mut reply, 15, &last);
            }
        }
        _ => {}
    }
    reply
}

/// Puts bytes at a place of the reply, if it is long enough.
fn set(reply: &mut [u8], at: usize, bytes: &[u8]) {
    if let Some(place) = reply.get_mut(at..at + bytes.len()) {
        place.copy_from_slice(bytes);
    }
}
