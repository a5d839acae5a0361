//! Second model of the AT45DB081D chip and its slot driver.
//!
//! It is plain and works in place; the conformance tests compare it with the
//! proved library. It has tables and a structure of its own and depends on
//! nothing of the library; what the two share is the layout of the record
//! block. Numbers in parentheses are those of the rules in
//! `docs/SPECIFICATION.md`.
//!
//! - [`part`]: what an array length says about pages, blocks and sectors
//! - [`command`]: the command table
//! - [`operation`]: the operation under way
//! - [`chip`]: the chip itself: frames, busy end, pin, cut
//! - [`date`]: the calendar, and terms
//! - [`slot`]: what a slot holds
//! - [`driver`]: the slot driver's frames, over any link to a chip
//! - [`calls`]: put, patch, get, wipe and raw on the chip under a script
//! - [`record`]: the record block of 765 bytes

pub mod answer;
pub mod calls;
pub mod chip;
pub mod command;
pub mod date;
pub mod driver;
pub mod operation;
pub mod part;
pub mod record;
pub mod slot;

pub use calls::{Call, Lent, Outcome};
pub use chip::Chip;
pub use date::{Date, Term};
pub use operation::{Buffer, Operation};
pub use part::Part;
pub use record::{Record, RECORD_LEN};
