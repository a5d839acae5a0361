//! Compares an implementation of the chip with the second model, step by step.
//!
//! A [`Pair`] keeps two devices with memories of their own, does each [`Step`]
//! on both and compares answer, counts, record, array, reply, log and get
//! buffer. A [`Scenario`] is a numbered list of cases; each case stands alone,
//! so that one that fails can be run again by its number:
//!
//! ```text
//! SLIPKNOLL_SEED=random_runs:short:1234 cargo test -p conformance --test library
//! ```
//!
//! `short`, `short256`, `full` or `full256` is the part, the number is the case;
//! of a random run it is the seed. The line to use is printed when a case fails.
//!
//! Beside the comparison: [`lists`] has the runs that do on compiled code what
//! the theorems say, [`driving`], [`replies`] and [`compares`] the driver alone,
//! and [`slips`] devices with seeded faults, which the tests must notice.

pub mod compares;
pub mod coverage;
pub mod dates;
pub mod device;
pub mod driving;
pub mod frames;
pub mod lists;
pub mod mismatch;
pub mod pair;
pub mod parts;
pub mod records;
pub mod replies;
pub mod request;
pub mod runner;
pub mod scenarios;
pub mod side;
pub mod slips;
pub mod step;

pub use coverage::Coverage;
pub use device::{Device, Library, Model};
pub use mismatch::Mismatch;
pub use pair::Pair;
pub use random::{self as rng, Rng};
pub use request::{CallStep, Request};
pub use runner::{run_cases, Cases, Failure, Scenario};
pub use step::Step;
