//! The proved AT45DB081D chip and the proved slot driver, `libslipknoll.a`.
//!
//! * [`Chip`] is a chip that the program holds: its record of registers and
//!   buffers. The flash array is the caller's and is lent to each call. Frames,
//!   busy ends, pin moves and cuts reach it one by one, recipes by
//!   [`put`](Chip::put), [`patch`](Chip::patch), [`get`](Chip::get) and
//!   [`wipe`](Chip::wipe).
//! * [`Driver`] makes the same calls on a chip elsewhere, say a real one behind
//!   a radio link: it yields frames and is given the replies.
//!
//! Every input is answered: the answers 1 to 16 are an [`Error`].
//!
//! ```
//! use slipknoll::{log_len, Chip, Date, Part, Run, FACTORY_LEN};
//!
//! let part = Part::Short256; // 128 pages of 256 bytes
//! let mut array = vec![0; part.array_len()];
//! let mut chip = Chip::fresh(&[0; FACTORY_LEN], &mut array)?;
//!
//! let mut log = [0; log_len::put(1)];
//! let mut run = Run::new(&mut log);
//! chip.put(&mut array, 3, 1, None, b"AB", &mut run)?;
//! assert_eq!((run.frames(), run.polls()), (43, 17));
//!
//! let (today, mut buffer) = (Date::new(2026, 11, 16)?, vec![0; part.recipe_max()]);
//! assert_eq!(chip.get(&mut array, 3, 1, today, &mut buffer, &mut run)?, b"AB");
//! # Ok::<(), slipknoll::Error>(())
//! ```
//!
//! A recipe may have a [`Term`], the days on which a get reads it; `None` is a
//! recipe for good.
//!
//! What shows on the wire, the outlines of the frames, depends on nothing of
//! the recipes and their terms; see `docs/THEOREMS.md` of the repository. [`ffi`] is the C
//! interface as it is.

mod chip;
mod date;
mod driver;
mod error;
pub mod ffi;
mod part;
mod run;

pub use chip::Chip;
pub use date::{Date, Term};
pub use driver::{DriveError, Driver};
pub use error::Error;
pub use part::{Level, Part};
pub use run::{log_len, script, Line, Run};

/// Length of the chip record.
pub const RECORD_LEN: usize = 765;

/// Length of the factory bytes.
pub const FACTORY_LEN: usize = 64;

/// Room for a slot of any part; [`Part::slot_len`] is a part's own.
pub const SLOT_ROOM: usize = Part::Full.slot_len();

/// The longest frame that a chip takes.
pub const FRAME_MAX: usize = 1100;

/// Room for the driver's longest frame, on any part.
pub const DRIVER_FRAME_LEN: usize = 272;

/// The highest poll limit; the lowest is 1.
pub const POLL_LIMIT_MAX: usize = 1000;

/// The chip record as a block of bytes; `include/slipknoll.h` has its layout.
pub type Record = [u8; RECORD_LEN];
