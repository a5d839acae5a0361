//! flashrom uses the proved library.

use flashrom::session::{says, Step, ALL};
use flashrom::{image, Bridge, Library, Session};
use slipknoll::Part;
use std::ops::Range;
use std::path::{Path, PathBuf};

const FULL_PARTS: [Part; 2] = [Part::Full, Part::Full256];

/// A directory for each test and part.
fn directory(name: &str, part: Part) -> PathBuf {
    Path::new(env!("CARGO_TARGET_TMPDIR")).join(format!("{name}-{part:?}"))
}

fn every_step(part: Part) {
    let mut library = Library;
    let mut bridge = Bridge::new(&mut library, part);
    let result = Session::new(&mut bridge, directory("every-step", part)).run(&ALL);
    result.unwrap_or_else(|failure| panic!("{failure}"));
}

#[test]
fn every_step_with_pages_of_264() {
    every_step(Part::Full);
}

#[test]
fn every_step_with_pages_of_256() {
    every_step(Part::Full256);
}

/// flashrom sees that the sectors are protected, clears the mark and writes.
#[test]
fn protected_sectors() {
    for part in FULL_PARTS {
        protected(part);
    }
}

fn protected(part: Part) {
    let mut library = Library;
    let mut bridge = Bridge::new(&mut library, part);
    for last in [0xCF, 0xA9] {
        let answer = bridge.command(&[0x3D, 0x2A, 0x7F, last]);
        answer.expect("every sector listed, and the mark set");
    }
    let mut session = Session::new(&mut bridge, directory("protected", part));
    let run = session.flashrom(&["-V".as_ref()]).expect("a probe");
    assert_eq!(run.output.matches(" is protected.").count(), 17);
    let result = session.run(&[Step::Write]);
    result.unwrap_or_else(|failure| panic!("{failure}"));
}

/// flashrom sees that a sector is locked; it can write all others.
#[test]
fn locked_sector() {
    // Page 2,560 is the first of sector 10: its address, and the sector's bytes.
    locked(Part::Full, 0x14, 0xA5000..0xB5800, "0x000a5");
    locked(Part::Full256, 0x0A, 0xA0000..0xB0000, "0x000a0");
}

fn locked(part: Part, high: u8, sector: Range<usize>, first: &str) {
    let mut library = Library;
    let mut bridge = Bridge::new(&mut library, part);
    let answer = bridge.command(&[0x3D, 0x2A, 0x7F, 0x30, high, 0x00, 0x00]);
    answer.expect("sector 10 locked");
    let mut session = Session::new(&mut bridge, directory("locked", part));
    let run = session.flashrom(&["-V".as_ref()]).expect("a probe");
    says(&run, "Sector 10 is locked.").unwrap_or_else(|why| panic!("{why}"));
    assert_eq!(run.output.matches(" is unlocked.").count(), 16);

    let failure = session.run(&[Step::Write]).expect_err("not all is written");
    let words = format!("Verifying flash... FAILED at {first}");
    assert!(failure.why.contains(&words), "{failure}");
    let mut expected = image::written(part);
    expected[sector].fill(0xFF);
    let result = image::compare("the array", bridge.array(), &expected);
    result.unwrap_or_else(|why| panic!("{why}"));
}

/// A programmer with short frames: flashrom loads each page piece by piece.
#[test]
fn short_frames() {
    for part in FULL_PARTS {
        short_frames_on(part);
    }
}

fn short_frames_on(part: Part) {
    let mut library = Library;
    let mut bridge = Bridge::new(&mut library, part);
    bridge.data_max = 61;
    let mut session = Session::new(&mut bridge, directory("short-frames", part));
    let image = image::written(part);
    let run = session.write(&image).unwrap_or_else(|why| panic!("{why}"));
    let pages = image::programmed_pages(part, &image);
    assert_eq!(run.traffic.count(0x88), pages);
    // 264 bytes are four pieces of 61 and one of 20, 256 four and one of 12.
    assert_eq!(run.traffic.count(0x84), pages * 5);
    assert_eq!(run.traffic.longest, 65);
}
