//! Lets flashrom, a client that knows the AT45DB081D from its data sheet
//! alone, use the proved chip.
//!
//! A [`Bridge`] holds a chip and the array lent to it. [`client::run`] starts
//! flashrom, which reaches the bridge over a loopback port by its [`serprog`]
//! protocol; each SPI transaction becomes one frame of the chip. [`session`]
//! is what the tests have flashrom do.
//!
//! flashrom 1.3 knows the chip by 9F and D7 (bit 0 tells it the page size), looks at its seals by 32 and 35,
//! clears the protect mark by 3D 2A 7F 9A, reads by 03, erases by 81 (or by
//! 50, 7C or C7 94 80 9A where it can't), writes by 84 and 88, and polls by D7.
//!
//! Each run names the chip (`-c AT45DB081D`). A probe for every chip that
//! flashrom knows would change this one: one of them is asked for its name by
//! 83 00 00 00 and three bytes more, which here programs page 0.

pub mod bridge;
pub mod client;
pub mod device;
pub mod image;
pub mod serprog;
pub mod session;
pub mod slots;

pub use bridge::Bridge;
pub use device::{Device, Library};
pub use session::{Failure, Session};
