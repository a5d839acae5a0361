//! Keeps recipes in a chip that is reached by exchanging the bytes of one
//! chip-select period. Here the proved chip stands on the other side; with a
//! real one only `Bench::exchange` is another, such as `spi.transfer`.
//!
//! ```text
//! cargo run --example exchange
//! ```

use slipknoll::{Chip, Date, DriveError, Driver, Error, Part, Term, FACTORY_LEN};

const SLOT: usize = 7;
const POLL_LIMIT: usize = 10;

/// Polls that see a busy chip before it is ready.
const BUSY_POLLS: usize = 3;

/// The chip on the other side, and what a listener has seen of the frames:
/// their lengths.
struct Bench {
    chip: Chip,
    array: Vec<u8>,
    busy_polls: usize,
    seen: Vec<usize>,
}

impl Bench {
    fn new(part: Part) -> Result<Bench, Error> {
        let mut array = vec![0; part.array_len()];
        Ok(Bench {
            chip: Chip::fresh(&[0; FACTORY_LEN], &mut array)?,
            array,
            busy_polls: 0,
            seen: Vec::new(),
        })
    }

    /// One chip-select period: the frame goes out while the reply comes in.
    fn exchange(&mut self, frame: &[u8], reply: &mut [u8]) -> Result<(), Error> {
        self.seen.push(frame.len());
        self.chip.send(&self.array, frame, reply)?;
        let busy = frame[0] == 0xD7 && reply[1] & 0x80 == 0;
        if busy {
            self.busy_polls += 1;
        }
        if self.busy_polls == BUSY_POLLS {
            self.busy_polls = 0;
            self.chip.end_busy(&mut self.array)?;
        }
        Ok(())
    }
}

/// Which part a chip is, by bit 0 of its status.
fn part_of(status: u8) -> Part {
    match status & 1 {
        0 => Part::Full,
        _ => Part::Full256,
    }
}

fn keep_recipes(mut bench: Bench) -> Result<(), Box<dyn std::error::Error>> {
    let today = Date::new(2026, 11, 16)?;
    let mut status = [0; 2];
    bench.exchange(&[0xD7, 0x00], &mut status)?;
    let part = part_of(status[1]);
    println!("pages of {} bytes", part.page_len());
    bench.seen.clear();

    let mut seen = Vec::new();
    for recipe in [&b"salt"[..], &vec![0x5A; part.recipe_max()]] {
        let mut put = Driver::put(part, SLOT, POLL_LIMIT, None, recipe)?;
        put.run(|frame, reply| bench.exchange(frame, reply))?;
        seen.push(std::mem::take(&mut bench.seen));

        let mut get = Driver::get(part, SLOT, POLL_LIMIT, today)?;
        get.run(|frame, reply| bench.exchange(frame, reply))?;
        assert_eq!(get.recipe(), Some(recipe));
        seen.push(std::mem::take(&mut bench.seen));
        println!("{} bytes put and read back", recipe.len());
    }

    // For one season, which is over: the frames are the same.
    let season = Term::new(Date::new(2026, 5, 1)?, Date::new(2026, 10, 31)?)?;
    let mut put = Driver::put(part, SLOT, POLL_LIMIT, Some(season), b"pesto")?;
    put.run(|frame, reply| bench.exchange(frame, reply))?;
    seen.push(std::mem::take(&mut bench.seen));
    let mut get = Driver::get(part, SLOT, POLL_LIMIT, today)?;
    let late = get.run(|frame, reply| bench.exchange(frame, reply));
    assert_eq!(late, Err(DriveError::Call(Error::Term)));
    seen.push(std::mem::take(&mut bench.seen));
    println!("{today} is after {}", season.last());

    assert!(seen[0] == seen[2] && seen[0] == seen[4]);
    assert!(seen[1] == seen[3] && seen[1] == seen[5]);
    println!("frames of each put: {:?}", seen[0]);
    println!("frames of each get: {:?}", seen[1]);
    Ok(())
}

fn main() -> Result<(), Box<dyn std::error::Error>> {
    for part in [Part::Full, Part::Full256] {
        keep_recipes(Bench::new(part)?)?;
    }
    Ok(())
}

#[test]
fn runs() {
    main().expect("no error");
}
