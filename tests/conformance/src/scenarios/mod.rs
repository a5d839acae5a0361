//! The scenarios: which cases are tried.

use crate::runner::Scenario;

mod addresses;
mod busy_ends;
mod caller_records;
pub mod calls;
mod other_parts;
mod random_run;
mod refusals;
mod rows;
mod seals;

pub use addresses::ADDRESSES;
pub use busy_ends::BUSY_ENDS;
pub use caller_records::CALLER_RECORDS;
pub use calls::CALLS;
pub use other_parts::OTHER_PARTS;
pub use random_run::RANDOM_RUN;
pub use refusals::REFUSALS;
pub use rows::ROWS;
pub use seals::SEALS;

/// Every scenario of the chip.
pub const ALL: [Scenario; 8] = [
    ROWS,
    SEALS,
    ADDRESSES,
    BUSY_ENDS,
    CALLER_RECORDS,
    REFUSALS,
    OTHER_PARTS,
    RANDOM_RUN,
];
