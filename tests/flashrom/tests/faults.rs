//! Shows that the steps notice faults: the proved library but for one slip.

use flashrom::session::{Step, ERASES};
use flashrom::{image, Bridge, Device, Failure, Library, Session};
use slipknoll::{Chip, Date, Error, Part, Term};
use std::path::Path;

/// A byte that the first image leaves erased.
fn byte(part: Part) -> usize {
    1000 * part.page_len() + 77
}

/// The record's byte that tells which operation is under way, and the tag of
/// an 88; the tag of an erase is its opcode.
const TAG: usize = 164;
const PROGRAM_OVER: u8 = 0x88;

#[derive(Clone, Copy, Debug, PartialEq, Eq)]
enum Fault {
    None,
    /// 9F names another chip.
    AnotherName,
    /// The status says that pages have the other size.
    AnotherPageSize,
    /// One bit of one byte is read the wrong way.
    FlippedBit,
    /// The same, but only when it is first read.
    FlippedOnce,
    /// A frame of the command sequences is refused.
    Refusal,
    /// Each page is taken for the next, in reads and writes alike.
    NextPage,
    /// Programming a page also clears a bit far away.
    StrayProgram,
    /// The erase with this tag leaves this page.
    PageLeft(u8, usize),
    /// A busy period never ends.
    BusyForEver,
    /// A put goes to the slot beside.
    NextSlot,
    /// A put leaves out the last page.
    ShortPut,
    /// A get reads the slot beside.
    GetsNextSlot,
    /// A put leaves out the term.
    TermLeftOut,
    /// A get answers outside a term as if nothing were there.
    BlankOutside,
}

/// The proved library with one fault.
struct Faulty(Fault);

impl Device for Faulty {
    fn send(
        &mut self,
        chip: &mut Chip,
        array: &[u8],
        frame: &[u8],
        reply: &mut [u8],
    ) -> Result<(), Error> {
        if self.0 == Fault::Refusal && frame[0] == 0x3D {
            return Err(Error::Frame);
        }
        let mut frame = frame.to_vec();
        let names_page = [0x03, 0x81, 0x88].contains(&frame[0]) && frame.len() >= 4;
        if self.0 == Fault::NextPage && names_page {
            let pages = u16::from_be_bytes([frame[1], frame[2]]);
            let next = pages.wrapping_add(address_of_page(part_of(array), 1) as u16 / 256);
            frame[1..3].copy_from_slice(&next.to_be_bytes());
        }
        let result = Library.send(chip, array, &frame, reply);
        match self.0 {
            Fault::AnotherName if frame[0] == 0x9F => reply[2] = 0x26,
            Fault::AnotherPageSize if frame[0] == 0xD7 => reply[1] ^= 1,
            Fault::FlippedBit | Fault::FlippedOnce if frame[0] == 0x03 => {
                let flipped = flip(part_of(array), &frame, reply);
                if flipped && self.0 == Fault::FlippedOnce {
                    self.0 = Fault::None;
                }
            }
            _ => {}
        }
        result
    }

    fn end_busy(&mut self, chip: &mut Chip, array: &mut [u8]) -> Result<(), Error> {
        let tag = chip.record()[TAG];
        match self.0 {
            Fault::BusyForEver => Ok(()),
            Fault::PageLeft(erase, page) if tag == erase => {
                keeping(array, page, |array| Library.end_busy(chip, array))
            }
            Fault::StrayProgram if tag == PROGRAM_OVER => {
                array[byte(part_of(array))] &= 0xFE;
                Library.end_busy(chip, array)
            }
            _ => Library.end_busy(chip, array),
        }
    }

    fn put(
        &mut self,
        chip: &mut Chip,
        array: &mut [u8],
        slot: usize,
        term: Option<Term>,
        recipe: &[u8],
    ) -> Result<(), Error> {
        match self.0 {
            Fault::NextSlot => Library.put(chip, array, slot ^ 1, term, recipe),
            Fault::ShortPut => keeping(array, 8 * slot + 7, |array| {
                Library.put(chip, array, slot, term, recipe)
            }),
            Fault::TermLeftOut => Library.put(chip, array, slot, None, recipe),
            _ => Library.put(chip, array, slot, term, recipe),
        }
    }

    fn get(
        &mut self,
        chip: &mut Chip,
        array: &mut [u8],
        slot: usize,
        today: Date,
    ) -> Result<Vec<u8>, Error> {
        let slot = match self.0 {
            Fault::GetsNextSlot => slot ^ 1,
            _ => slot,
        };
        match (self.0, Library.get(chip, array, slot, today)) {
            (Fault::BlankOutside, Err(Error::Term)) => Err(Error::Blank),
            (_, got) => got,
        }
    }
}

/// Does something to the array, but for one page.
fn keeping<T>(array: &mut [u8], page: usize, something: impl FnOnce(&mut [u8]) -> T) -> T {
    let len = part_of(array).page_len();
    let page = page * len..(page + 1) * len;
    let before = array[page.clone()].to_vec();
    let result = something(array);
    array[page].copy_from_slice(&before);
    result
}

fn part_of(array: &[u8]) -> Part {
    Part::from_array_len(array.len()).expect("a part")
}

/// The address of a page's first byte.
fn address_of_page(part: Part, page: usize) -> usize {
    match part.page_len() {
        256 => page * 256,
        _ => page * 512,
    }
}

/// Flips a bit of the byte at `byte`, if this read reaches it; says so.
fn flip(part: Part, frame: &[u8], reply: &mut [u8]) -> bool {
    let address = u32::from_be_bytes([0, frame[1], frame[2], frame[3]]) as usize;
    let apart = address_of_page(part, 1);
    let begin = address / apart * part.page_len() + address % apart;
    let place = (4 + byte(part))
        .checked_sub(begin)
        .filter(|place| *place >= 4);
    let byte = place.and_then(|place| reply.get_mut(place));
    byte.map(|byte| *byte ^= 0x10).is_some()
}

/// Takes the steps with a fault, with pages of 264 bytes; how the last of them
/// fails.
fn failure(name: &str, fault: Fault, steps: &[Step]) -> Failure {
    failure_on(Part::Full, name, fault, steps)
}

fn failure_on(part: Part, name: &str, fault: Fault, steps: &[Step]) -> Failure {
    let mut device = Faulty(fault);
    failure_over(name, &mut Bridge::new(&mut device, part), steps)
}

/// Takes the steps over a bridge; how the last of them fails.
fn failure_over(name: &str, bridge: &mut Bridge, steps: &[Step]) -> Failure {
    let directory = Path::new(env!("CARGO_TARGET_TMPDIR")).join(name);
    let mut session = Session::new(bridge, directory);
    let failure = session.run(steps).expect_err("not noticed");
    println!("{failure}");
    assert_eq!(Some(&failure.step), steps.last(), "{failure}");
    failure
}

#[test]
fn another_name() {
    let failure = failure("another-name", Fault::AnotherName, &[Step::Probe]);
    assert!(failure.why.contains("No EEPROM/flash device found"));
}

#[test]
fn another_page_size() {
    for (part, name, words) in [
        (Part::Full, "said-to-have-256", "\"page size 264 B\""),
        (Part::Full256, "said-to-have-264", "\"page size 256 B\""),
    ] {
        let failure = failure_on(part, name, Fault::AnotherPageSize, &[Step::Probe]);
        assert!(failure.why.contains(words), "{failure}");
    }
}

/// The faults that have to do with places, with pages of 256 bytes.
#[test]
fn places_with_pages_of_256() {
    for (name, fault, step, words) in [
        ("flipped-bit-256", Fault::FlippedBit, Step::Write, ""),
        (
            "next-page-256",
            Fault::NextPage,
            Step::Write,
            "the array: byte ",
        ),
        (
            "next-slot-256",
            Fault::NextSlot,
            Step::Put,
            "slot 0: byte 0 ",
        ),
        (
            "short-put-256",
            Fault::ShortPut,
            Step::Put,
            "slot 0: byte 1792 ",
        ),
        (
            "gets-next-256",
            Fault::GetsNextSlot,
            Step::Get,
            "get of slot 5: Err(Blank)",
        ),
    ] {
        let failure = failure_on(Part::Full256, name, fault, &[step]);
        assert!(failure.why.starts_with(words), "{failure}");
    }
}

#[test]
fn flipped_bit() {
    failure("flipped-bit", Fault::FlippedBit, &[Step::Write]);
}

#[test]
fn flipped_once() {
    let failure = failure("flipped-once", Fault::FlippedOnce, &[Step::Write]);
    // flashrom erases the page that seems programmed, and is content.
    assert_eq!(failure.why, "frames 81: 1, not 0");
}

#[test]
fn refusal() {
    let failure = failure("refusal", Fault::Refusal, &[Step::Write]);
    assert_eq!(failure.why, "refused frames: 1");
}

#[test]
fn next_page() {
    let failure = failure("next-page", Fault::NextPage, &[Step::Write]);
    // flashrom is content: it reads what it has written.
    assert!(failure.why.starts_with("the array: byte "));
}

#[test]
fn stray_program() {
    failure("stray-program", Fault::StrayProgram, &[Step::Write]);
}

#[test]
fn page_left_by_page_erase() {
    page_left("page-erase", 0);
}

#[test]
fn page_left_by_block_erase() {
    page_left("block-erase", 1);
}

#[test]
fn page_left_by_sector_erase() {
    page_left("sector-erase", 2);
}

#[test]
fn page_left_by_chip_erase() {
    page_left("chip-erase", 3);
}

#[test]
fn page_left_when_all_is_erased() {
    let fault = Fault::PageLeft(ERASES[0], page_to_erase(0));
    failure("page-left", fault, &[Step::Write, Step::Erase]);
}

fn page_left(name: &str, erase: usize) {
    let fault = Fault::PageLeft(ERASES[erase], page_to_erase(erase));
    let failure = failure(name, fault, &[Step::Write, Step::Overwrite(erase)]);
    // flashrom tries the next kind of erase, if there is one.
    let next = ERASES.get(erase + 1);
    let expected = next.map_or(String::from("ERASE FAILED"), |it| {
        format!("frames {it:02X}")
    });
    assert!(failure.why.contains(&expected));
}

/// A page that this overwriting has to erase.
fn page_to_erase(erase: usize) -> usize {
    let part = Part::Full;
    let [before, after] = [image::written(part), image::overwritten(part, erase)];
    let mut bytes = before.iter().zip(&after);
    let place = bytes.position(|(before, after)| before & after != *after);
    place.expect("such a page") / part.page_len()
}

#[test]
fn busy_for_ever() {
    failure("busy-for-ever", Fault::BusyForEver, &[Step::Write]);
}

#[test]
fn next_slot() {
    let failure = failure("next-slot", Fault::NextSlot, &[Step::Put]);
    assert!(failure.why.starts_with("slot 0: byte 0 "));
}

#[test]
fn short_put() {
    let failure = failure("short-put", Fault::ShortPut, &[Step::Put]);
    assert!(failure.why.starts_with("slot 0: byte 1848 "));
}

#[test]
fn gets_next_slot() {
    let failure = failure("gets-next-slot", Fault::GetsNextSlot, &[Step::Get]);
    assert_eq!(failure.why, "get of slot 5: Err(Blank)");
}

#[test]
fn term_left_out() {
    let failure = failure("term-left-out", Fault::TermLeftOut, &[Step::Put]);
    assert!(failure.why.starts_with("slot 40: byte 0 "));
}

#[test]
fn blank_outside() {
    let failure = failure("blank-outside", Fault::BlankOutside, &[Step::Get]);
    assert_eq!(failure.why, "get of slot 20: Err(Blank)");
}

/// A bridge that promises more than the chip takes.
#[test]
fn long_reads() {
    let mut library = Library;
    let mut bridge = Bridge::new(&mut library, Part::Full);
    bridge.data_max += 1;
    let failure = failure_over("long-reads", &mut bridge, &[Step::Write]);
    assert!(failure.why.contains("error sending read command"));
}

/// A bridge that promises less.
#[test]
fn short_reads() {
    let mut library = Library;
    let mut bridge = Bridge::new(&mut library, Part::Full);
    bridge.data_max -= 1;
    let failure = failure_over("short-reads", &mut bridge, &[Step::Write, Step::Read]);
    assert_eq!(failure.why, "the longest frame has 1099 bytes");
}

/// Reading and verifying what was never written.
#[test]
fn nothing_written() {
    let failure_of = |name, step| failure(name, Fault::None, &[step]);
    let read = failure_of("nothing-read", Step::Read);
    assert!(read.why.starts_with("flashrom's copy: byte 0 "));
    let verified = failure_of("nothing-verified", Step::Verify);
    assert!(verified
        .why
        .contains("Verifying flash... FAILED at 0x00000000!"));
}
