//! The parts by their names, the short ones first.

use at45db081d_model::part::BUFFER_SIZE;
use at45db081d_model::Part;

/// Every part with its name.
pub const NAMED: [(&str, Part); 4] = [
    ("short", Part::SHORT),
    ("short256", Part::SHORT_256),
    ("full", Part::FULL),
    ("full256", Part::FULL_256),
];

pub fn name(part: Part) -> &'static str {
    let named = NAMED.iter().find(|(_, it)| *it == part);
    named.expect("one of the four").0
}

pub fn named(name: &str) -> Option<Part> {
    let named = NAMED.iter().find(|(it, _)| *it == name);
    named.map(|(_, part)| *part)
}

/// Adds one to the count of the part whose array has this length, in the order of
/// [`NAMED`].
pub fn count(counts: &mut [u64; 4], array_len: usize) {
    for (count, (_, part)) in counts.iter_mut().zip(NAMED) {
        *count += u64::from(part.array_len() == array_len);
    }
}

/// True for the parts of 128 pages, whose arrays are quickly compared.
pub fn is_short(part: Part) -> bool {
    part.pages == Part::SHORT.pages
}

/// The part with as many pages of the other size.
pub fn other_page_size(part: Part) -> Part {
    let others = Part::ALL.into_iter().filter(|&it| it != part);
    let mut alike = others.filter(|it| it.pages == part.pages);
    alike.next().expect("a part of either page size")
}

/// A short part of either page size; a full one once in `rarity` times.
pub fn pick(rng: &mut crate::Rng, rarity: usize) -> Part {
    let short = if rng.one_in(rarity) { 2 } else { 0 };
    NAMED[short + rng.below(2)].1
}

/// Bytes that a pair has for arrays: those of the longer pages.
pub fn room(part: Part) -> usize {
    part.pages * BUFFER_SIZE
}

/// The parts whose arrays a pair on this part has room for, its own first.
pub fn with_room(part: Part) -> Vec<Part> {
    let others = Part::ALL.into_iter().filter(|&it| it != part);
    let fitting = others.filter(|it| it.array_len() <= room(part));
    std::iter::once(part).chain(fitting).collect()
}
