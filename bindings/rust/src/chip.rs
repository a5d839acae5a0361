use crate::error::accepted;
use crate::{ffi, Date, Error, Level, Record, Run, Term, FACTORY_LEN};

/// A chip: registers, operation under way, buffers and compare bit.
///
/// Its array is the caller's, and every call must be lent the same one, whose
/// length tells the [`Part`](crate::Part). A copy of both is a copy of the chip.
///
/// ```
/// use slipknoll::{Chip, Part, FACTORY_LEN};
///
/// let mut array = vec![0; Part::Full.array_len()];
/// let mut chip = Chip::fresh(&[0; FACTORY_LEN], &mut array)?;
///
/// let mut reply = [0; 6];
/// chip.send(&array, &[0x84, 0, 0, 0, b'h', b'i'], &mut reply)?;
/// chip.send(&array, &[0x83, 0x00, 0x0A, 0x00], &mut reply[..4])?; // page 5
/// chip.send(&array, &[0xD7, 0x00], &mut reply[..2])?;
/// assert_eq!(reply[1], 0x24); // busy
///
/// chip.end_busy(&mut array)?;
/// assert_eq!(array[5 * 264..][..2], *b"hi");
/// # Ok::<(), slipknoll::Error>(())
/// ```
///
/// With pages of 256 bytes an address has the page above eight bits, and the
/// status a 1 in bit 0:
///
/// ```
/// # use slipknoll::{Chip, Part, FACTORY_LEN};
/// let mut array = vec![0; Part::Full256.array_len()];
/// let mut chip = Chip::fresh(&[0; FACTORY_LEN], &mut array)?;
///
/// let mut reply = [0; 5];
/// chip.send(&array, &[0x82, 0x00, 0x05, 0xFF, b'!'], &mut reply)?; // page 5, byte 255
/// chip.send(&array, &[0xD7, 0x00], &mut reply[..2])?;
/// assert_eq!(reply[1], 0x25);
///
/// chip.end_busy(&mut array)?;
/// assert_eq!(array[5 * 256 + 255], b'!');
/// # Ok::<(), slipknoll::Error>(())
/// ```
#[derive(Clone, Debug, PartialEq, Eq)]
#[repr(transparent)]
pub struct Chip {
    record: Record,
}

impl Chip {
    /// Makes a fresh chip: FFh in all of its array and in its user bytes, the
    /// factory bytes as given, WP high, everything else zero.
    pub fn fresh(factory: &[u8; FACTORY_LEN], array: &mut [u8]) -> Result<Chip, Error> {
        let mut record = [0; crate::RECORD_LEN];
        accepted(ffi::fresh(&mut record, factory, array))?;
        Ok(Chip { record })
    }

    /// The chip that a record holds. Every content is some chip.
    pub fn from_record(record: Record) -> Chip {
        Chip { record }
    }

    /// The same where the record lies, without a copy.
    pub fn from_record_mut(record: &mut Record) -> &mut Chip {
        // SAFETY: a `Chip` is a record and nothing else (`transparent`), and
        // any bytes are one; the reference lives as long as the one given.
        unsafe { &mut *(record as *mut Record).cast::<Chip>() }
    }

    /// The record, to be kept or looked at; `include/slipknoll.h` has its
    /// layout.
    pub fn record(&self) -> &Record {
        &self.record
    }

    /// The record, to be changed by hand.
    pub fn record_mut(&mut self) -> &mut Record {
        &mut self.record
    }

    /// Sends one frame, the bytes of one chip-select period. The reply is as
    /// long; it holds FFh where the chip gives no data. What the frame starts
    /// takes effect at [`end_busy`](Chip::end_busy).
    ///
    /// Errors: `Part`, `Frame`.
    pub fn send(&mut self, array: &[u8], frame: &[u8], reply: &mut [u8]) -> Result<(), Error> {
        accepted(ffi::send(&mut self.record, array, frame, reply))
    }

    /// Ends the busy period: the operation under way takes effect.
    ///
    /// Errors: `Part`.
    pub fn end_busy(&mut self, array: &mut [u8]) -> Result<(), Error> {
        accepted(ffi::end_busy(&mut self.record, array))
    }

    /// Moves the WP pin.
    pub fn move_pin(&mut self, level: Level) {
        let answer = ffi::move_pin(&mut self.record, level == Level::High);
        accepted(answer).expect("a pin move is always accepted");
    }

    /// Cuts the supply. The junk, of [`junk_len`](crate::Part::junk_len) bytes,
    /// stands for what is lost.
    ///
    /// Errors: `Part`, `Script`.
    pub fn cut(&mut self, array: &mut [u8], junk: &[u8]) -> Result<(), Error> {
        accepted(ffi::cut(&mut self.record, array, junk))
    }

    /// Stores a recipe in a slot: without a term, or with the days on which it may
    /// be read, and then at most
    /// [`term_recipe_max`](crate::Part::term_recipe_max) bytes.
    ///
    /// Errors: all but `Frame`, `Blank`, `End`, `Dates`, `Term` and `Miscompare`.
    /// After `Chip`, `Busy`, `Sealed` and `Cut` pages of the slot may be old, new,
    /// or (`Cut`) junk.
    ///
    /// ```
    /// # use slipknoll::{log_len, Chip, Date, Error, Part, Run, Term, FACTORY_LEN};
    /// # let mut array = vec![0; Part::Short.array_len()];
    /// # let mut chip = Chip::fresh(&[0; FACTORY_LEN], &mut array)?;
    /// # let mut log = [0; log_len::put(1)];
    /// # let mut run = Run::new(&mut log);
    /// chip.put(&mut array, 2, 1, None, b"salt", &mut run)?; // for good
    /// let season = Term::new(Date::new(2027, 5, 1)?, Date::new(2027, 10, 31)?)?;
    /// chip.put(&mut array, 3, 1, Some(season), b"malt", &mut run)?;
    ///
    /// let mut buffer = [0; Part::Short.recipe_max()];
    /// let early = Date::new(2027, 4, 30)?;
    /// let read = chip.get(&mut array, 3, 1, early, &mut buffer, &mut run);
    /// assert_eq!(read, Err(Error::Term));
    /// let read = chip.get(&mut array, 3, 1, season.last(), &mut buffer, &mut run);
    /// assert_eq!(read, Ok(&b"malt"[..]));
    /// # Ok::<(), slipknoll::Error>(())
    /// ```
    pub fn put(
        &mut self,
        array: &mut [u8],
        slot: usize,
        poll_limit: usize,
        term: Option<Term>,
        recipe: &[u8],
        run: &mut Run,
    ) -> Result<(), Error> {
        let record = &mut self.record;
        accepted(match term.map(Term::ymd) {
            None => ffi::calls::put(record, array, slot, poll_limit, recipe, run),
            Some([first, last]) => {
                ffi::calls::put_term(record, array, slot, poll_limit, first, last, recipe, run)
            }
        })
    }

    /// The same with days that may be any numbers: year, month and day of the first
    /// and of the last.
    ///
    /// Errors: those of [`put`](Chip::put), and `Dates`.
    #[allow(clippy::too_many_arguments)]
    pub fn put_ymd(
        &mut self,
        array: &mut [u8],
        slot: usize,
        poll_limit: usize,
        first: [u32; 3],
        last: [u32; 3],
        recipe: &[u8],
        run: &mut Run,
    ) -> Result<(), Error> {
        let record = &mut self.record;
        accepted(ffi::calls::put_term(
            record, array, slot, poll_limit, first, last, recipe, run,
        ))
    }

    /// Changes bytes of a slot's recipe from `place` on, on any day; its length and
    /// its term stay.
    ///
    /// Errors: all but `Frame`, `Dates`, `Term` and `Miscompare`. Under `Blank` and
    /// `End` every frame is sent, and the slot keeps its bytes.
    ///
    /// ```
    /// # use slipknoll::{log_len, Chip, Date, Error, Part, Run, FACTORY_LEN};
    /// # let mut array = vec![0; Part::Short.array_len()];
    /// # let mut chip = Chip::fresh(&[0; FACTORY_LEN], &mut array)?;
    /// let mut log = [0; log_len::patch(1)];
    /// let mut run = Run::new(&mut log);
    /// chip.put(&mut array, 3, 1, None, b"salt", &mut run)?;
    /// chip.patch(&mut array, 3, 1, 0, b"m", &mut run)?;
    /// let beyond = chip.patch(&mut array, 3, 1, 3, b"ed", &mut run);
    /// assert_eq!((beyond, run.frames()), (Err(Error::End), 51));
    ///
    /// let (today, mut buffer) = (Date::new(2026, 11, 16)?, [0; Part::Short.recipe_max()]);
    /// assert_eq!(chip.get(&mut array, 3, 1, today, &mut buffer, &mut run)?, b"malt");
    /// # Ok::<(), slipknoll::Error>(())
    /// ```
    pub fn patch(
        &mut self,
        array: &mut [u8],
        slot: usize,
        poll_limit: usize,
        place: usize,
        bytes: &[u8],
        run: &mut Run,
    ) -> Result<(), Error> {
        accepted(ffi::calls::patch(
            &mut self.record,
            array,
            slot,
            poll_limit,
            place,
            bytes,
            run,
        ))
    }

    /// Reads a slot's recipe into the beginning of `buffer`, which has room for
    /// [`recipe_max`](crate::Part::recipe_max) bytes; the rest of it keeps. A
    /// recipe with a term is read on its days alone.
    ///
    /// Errors: all but `Frame`, `Sealed`, `End`, `Dates` and `Miscompare`; the
    /// buffer keeps whole.
    pub fn get<'b>(
        &mut self,
        array: &mut [u8],
        slot: usize,
        poll_limit: usize,
        today: Date,
        buffer: &'b mut [u8],
        run: &mut Run,
    ) -> Result<&'b [u8], Error> {
        self.get_ymd(array, slot, poll_limit, today.ymd(), buffer, run)
    }

    /// The same where today may be any numbers: year, month and day.
    ///
    /// Errors: those of [`get`](Chip::get), and `Dates`, whatever the slot holds.
    pub fn get_ymd<'b>(
        &mut self,
        array: &mut [u8],
        slot: usize,
        poll_limit: usize,
        today: [u32; 3],
        buffer: &'b mut [u8],
        run: &mut Run,
    ) -> Result<&'b [u8], Error> {
        let record = &mut self.record;
        let answer = ffi::calls::get(record, array, slot, poll_limit, today, buffer, run);
        accepted(answer)?;
        let [_, _, len] = run.counts;
        Ok(&buffer[..len as usize])
    }

    /// Erases a slot.
    ///
    /// Errors: all but `Frame`, `Size`, `Blank`, `End`, `Dates`, `Term` and
    /// `Miscompare`.
    pub fn wipe(
        &mut self,
        array: &mut [u8],
        slot: usize,
        poll_limit: usize,
        run: &mut Run,
    ) -> Result<(), Error> {
        accepted(ffi::calls::wipe(
            &mut self.record,
            array,
            slot,
            poll_limit,
            run,
        ))
    }

    /// Sends one frame of the caller's, as [`send`](Chip::send) does, with log
    /// and script.
    ///
    /// Errors: `Part`, `Frame`, `Log`, `Script`, `Cut`.
    pub fn raw(
        &mut self,
        array: &mut [u8],
        frame: &[u8],
        reply: &mut [u8],
        run: &mut Run,
    ) -> Result<(), Error> {
        accepted(ffi::calls::raw(&mut self.record, array, frame, reply, run))
    }
}
