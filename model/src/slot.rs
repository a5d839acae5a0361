//! What a slot holds: a head, a recipe, and zeros behind it (9.4).

use crate::answer;
use crate::part::{Part, BUFFER_SIZE, PAGES_PER_BLOCK};

/// Bytes of the largest slot (9.1).
pub const SLOT_ROOM: usize = PAGES_PER_BLOCK * BUFFER_SIZE;

/// Version and length stand before a recipe without a term (9.2).
pub const HEADER_SIZE: usize = 3;

/// Before one with a term its first and its last day stand too, four bytes each.
pub const TERM_HEADER_SIZE: usize = HEADER_SIZE + 8;

/// The versions of a record: without a term, with one.
const PLAIN: u8 = 1;
const WITH_TERM: u8 = 2;

impl Part {
    /// The longest recipe (9.3).
    pub const fn max_recipe(self) -> usize {
        self.slot_size() - HEADER_SIZE
    }

    /// The longest recipe with a term (9.3).
    pub const fn max_term_recipe(self) -> usize {
        self.slot_size() - TERM_HEADER_SIZE
    }

    /// The longest recipe, with a term or without.
    pub const fn max_recipe_of(self, has_term: bool) -> usize {
        if has_term {
            self.max_term_recipe()
        } else {
            self.max_recipe()
        }
    }
}

/// Makes a slot's bytes those of a recipe that fits (9.4), with the numbers of
/// its first and its last day if it has a term.
pub fn store(slot: &mut [u8], recipe: &[u8], days: Option<[u32; 2]>) {
    slot.fill(0);
    slot[1..3].copy_from_slice(&(recipe.len() as u16).to_be_bytes());
    let body = match days {
        None => {
            slot[0] = PLAIN;
            HEADER_SIZE
        }
        Some([first, last]) => {
            slot[0] = WITH_TERM;
            slot[3..7].copy_from_slice(&first.to_be_bytes());
            slot[7..11].copy_from_slice(&last.to_be_bytes());
            TERM_HEADER_SIZE
        }
    };
    slot[body..body + recipe.len()].copy_from_slice(recipe);
}

/// What a slot's first bytes tell of a record.
#[derive(Clone, Copy, Debug, PartialEq, Eq)]
pub struct Head {
    /// Where the recipe begins in the slot.
    pub body: usize,
    /// The recipe's length.
    pub len: usize,
    /// First and last day, any two numbers; None without a term.
    pub days: Option<[u32; 2]>,
}

impl Head {
    /// The head of a slot that begins so, or answer 12 if it holds no record
    /// (9.5, 9.6).
    pub fn read(part: Part, bytes: &[u8]) -> Result<Head, u8> {
        let number = |at: usize| {
            let [a, b, c, d] = [0, 1, 2, 3].map(|i| bytes[at + i]);
            u32::from_be_bytes([a, b, c, d])
        };
        let (body, days) = match bytes[0] {
            PLAIN => (HEADER_SIZE, None),
            WITH_TERM => (TERM_HEADER_SIZE, Some([number(3), number(7)])),
            _ => return Err(answer::BLANK),
        };
        let len = usize::from(u16::from_be_bytes([bytes[1], bytes[2]]));
        if body + len > part.slot_size() {
            return Err(answer::BLANK);
        }
        Ok(Head { body, len, days })
    }

    /// Whether the recipe may be read on this day; without a term on any (9.12).
    pub fn is_open(&self, today: u32) -> bool {
        self.days
            .map_or(true, |[first, last]| first <= today && today <= last)
    }
}

/// Whether a get on this day may read the slot: 12, then 15 (9.9).
pub fn judge_get(part: Part, first_bytes: &[u8], today: u32) -> Result<Head, u8> {
    let head = Head::read(part, first_bytes)?;
    if !head.is_open(today) {
        return Err(answer::TERM);
    }
    Ok(head)
}

/// Whether a patch that ends at `end` may change the slot: 12, then 13 (9.10).
/// No term is looked at.
pub fn judge_patch(part: Part, first_bytes: &[u8], end: usize) -> Result<Head, u8> {
    let head = Head::read(part, first_bytes)?;
    if end > head.len {
        return Err(answer::END);
    }
    Ok(head)
}
