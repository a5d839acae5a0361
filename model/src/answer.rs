//! The answers by their numbers (12.1).

/// The call was accepted.
pub const ACCEPTED: u8 = 0;

/// No part has an array of this length, or the part lacks what the operation
/// under way names (12.3).
pub const PART: u8 = 1;

/// A frame, raw or straight, that is empty or too long, or whose reply has
/// another length (3.1).
pub const FRAME: u8 = 2;

/// The part does not have this slot (12.4).
pub const SLOT: u8 = 3;

/// B is 0 or too high (12.4).
pub const LIMIT: u8 = 4;

/// The recipe, with its term if it has one, or the patch does not fit a slot
/// (12.5), or the get buffer is too short for the longest recipe (12.6).
pub const SIZE: u8 = 5;

/// The log is too short for the most frames that the call can send (12.7).
pub const LOG: u8 = 6;

/// A script byte that is 3 or more, or a cut whose junk has the wrong length
/// (12.8).
pub const SCRIPT: u8 = 7;

/// A status that is not this chip's (10.14).
pub const CHIP: u8 = 8;

/// All polls of a wait found the chip busy (10.15).
pub const BUSY: u8 = 9;

/// Replies and status say that the slot's sector is sealed (10.16).
pub const SEALED: u8 = 10;

/// The script cut the supply (11.4).
pub const CUT: u8 = 11;

/// The slot holds no record (9.6).
pub const BLANK: u8 = 12;

/// The patch ends behind the recipe in the slot (9.10).
pub const END: u8 = 13;

/// A date of a put's term or of a get that there is not, or that lies before 2000
/// or after 2199 (15.3); or a term whose first day is after its last (15.5). It is
/// looked at after 5 and before 6 (12.2).
pub const DATES: u8 = 14;

/// Today is outside the term in the slot (9.9).
pub const TERM: u8 = 15;

/// A page that a put or a patch programmed is not what it was to become, by the
/// status after its compare (10.32).
pub const MISCOMPARE: u8 = 16;

/// True for the answers that a call meets before it sends a frame: they leave
/// everything as it was (12.2).
pub fn is_refusal(answer: u8) -> bool {
    matches!(answer, PART..=SCRIPT | DATES)
}
