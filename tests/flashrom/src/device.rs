//! What stands behind the bridge: a chip, and the slot driver above it.

use slipknoll::{log_len, Chip, Date, Error, Run, Term, SLOT_ROOM};

/// The poll limit of a call: an empty script ends each busy period at once.
const POLL_LIMIT: usize = 1;

/// What is done with a chip over an array that the caller lends.
pub trait Device {
    fn send(
        &mut self,
        chip: &mut Chip,
        array: &[u8],
        frame: &[u8],
        reply: &mut [u8],
    ) -> Result<(), Error>;

    fn end_busy(&mut self, chip: &mut Chip, array: &mut [u8]) -> Result<(), Error>;

    /// Stores a recipe in a slot by the slot driver, with a term or without.
    fn put(
        &mut self,
        chip: &mut Chip,
        array: &mut [u8],
        slot: usize,
        term: Option<Term>,
        recipe: &[u8],
    ) -> Result<(), Error>;

    /// Reads a slot's recipe by the slot driver.
    fn get(
        &mut self,
        chip: &mut Chip,
        array: &mut [u8],
        slot: usize,
        today: Date,
    ) -> Result<Vec<u8>, Error>;
}

/// The proved library.
pub struct Library;

impl Device for Library {
    fn send(
        &mut self,
        chip: &mut Chip,
        array: &[u8],
        frame: &[u8],
        reply: &mut [u8],
    ) -> Result<(), Error> {
        chip.send(array, frame, reply)
    }

    fn end_busy(&mut self, chip: &mut Chip, array: &mut [u8]) -> Result<(), Error> {
        chip.end_busy(array)
    }

    fn put(
        &mut self,
        chip: &mut Chip,
        array: &mut [u8],
        slot: usize,
        term: Option<Term>,
        recipe: &[u8],
    ) -> Result<(), Error> {
        let mut log = [0; log_len::put(POLL_LIMIT)];
        let mut run = Run::new(&mut log);
        chip.put(array, slot, POLL_LIMIT, term, recipe, &mut run)
    }

    fn get(
        &mut self,
        chip: &mut Chip,
        array: &mut [u8],
        slot: usize,
        today: Date,
    ) -> Result<Vec<u8>, Error> {
        let mut log = [0; log_len::get(POLL_LIMIT)];
        let mut buffer = [0; SLOT_ROOM];
        let mut run = Run::new(&mut log);
        let recipe = chip.get(array, slot, POLL_LIMIT, today, &mut buffer, &mut run)?;
        Ok(recipe.to_vec())
    }
}
