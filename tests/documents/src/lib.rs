//! Compares the rules of `docs/SPECIFICATION.md` with the definitions that
//! state them.
//!
//! A rule is an item of the page. It begins with its number and ends with the
//! definitions that state it, each group followed by its file:
//!
//! ```text
//! - **5.7** A deep chip obeys AB alone. (`is_wake`, `obeyed`, `crates/control/specs/Obeyed.antt`)
//! ```
//!
//! The same number begins a line of the comment above each of these
//! definitions:
//!
//! ```text
//! -- (5.7) the command is AB
//! abbrev pub isWake : Class → Bool
//! ```
//!
//! A definition that states no rule is an aid: its comment, the heading above
//! it or the first line of its file begins with `Aid:`.

pub mod compare;
pub mod definitions;
pub mod files;
pub mod number;
pub mod page;

pub use compare::{differences, missing};
pub use definitions::{Definition, Source};
pub use number::Number;
pub use page::{Page, Place, Rule};
