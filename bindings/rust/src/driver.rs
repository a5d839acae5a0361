use std::fmt;

use crate::error::accepted;
use crate::ffi::driver;
use crate::{Date, Error, Part, Term, DRIVER_FRAME_LEN, SLOT_ROOM};

/// A slot call on a chip elsewhere: it yields frames, is given the replies and
/// comes to an end.
///
/// The one who holds it carries the frames: each is one chip-select period,
/// whole and sent once. [`run`](Driver::run) does the loop:
///
/// ```
/// use slipknoll::{Chip, Date, Driver, Part, FACTORY_LEN};
///
/// // On the other side: a chip that is ready at the next frame.
/// let mut array = vec![0; Part::Full.array_len()];
/// let mut chip = Chip::fresh(&[0; FACTORY_LEN], &mut array)?;
/// let mut exchange = |frame: &[u8], reply: &mut [u8]| {
///     chip.send(&array, frame, reply)?;
///     chip.end_busy(&mut array)
/// };
///
/// Driver::put(Part::Full, 7, 100, None, b"AB")?.run(&mut exchange)?;
///
/// let today = Date::new(2026, 11, 16)?;
/// let mut get = Driver::get(Part::Full, 7, 100, today)?;
/// get.run(&mut exchange)?;
/// assert_eq!(get.recipe(), Some(&b"AB"[..]));
/// # Ok::<(), Box<dyn std::error::Error>>(())
/// ```
///
/// By hand, where the link has its own loop or a status may come short:
///
/// ```
/// # use slipknoll::{Driver, Error, Part};
/// # fn exchange(_: &[u8]) -> Vec<u8> { vec![0x00, 0x24] }
/// let mut wipe = Driver::wipe(Part::Full, 7, 100)?;
/// while let Some(frame) = wipe.frame() {
///     let reply = exchange(frame); // of a chip that is never ready
///     wipe.take(&reply);
/// }
/// assert_eq!(wipe.answer(), Some(Err(Error::Busy)));
/// # Ok::<(), Error>(())
/// ```
///
/// Each page that a put or a patch has programmed is compared with what was
/// loaded for it. One that did not take is told at the end, when the others have
/// been programmed too:
///
/// ```
/// # use slipknoll::{DriveError, Driver, Error, Part};
/// let mut put = Driver::put(Part::Full, 7, 100, None, b"AB")?;
/// let told = put.run(|frame, reply| {
///     reply.fill(0x00);
///     if frame[0] == 0xD7 {
///         reply[1] = 0xE4; // ready, and the last compare found a difference
///     }
///     Ok::<(), String>(())
/// });
/// assert_eq!(told, Err(DriveError::Call(Error::Miscompare)));
/// # Ok::<(), Error>(())
/// ```
///
/// A busy chip is asked again at once, as often as the poll limit allows: let
/// the exchange pause before a frame that begins with D7, or choose a limit
/// that outlasts 35 ms (put and patch) or 75 ms (wipe). Wake the chip with AB
/// if it may be in deep power-down. Bit 0 of its status tells the part: 0 for
/// [`Part::Full`], 1 for [`Part::Full256`].
#[derive(Clone)]
pub struct Driver<'a> {
    state: driver::State,
    /// The recipe of a put or the bytes of a patch; else nothing.
    payload: &'a [u8],
    /// What has been read of the slot.
    staged: [u8; SLOT_ROOM],
    frame: [u8; DRIVER_FRAME_LEN],
    /// The length of the frame to send; 0 at the end.
    frame_len: usize,
    is_get: bool,
}

impl<'a> Driver<'a> {
    /// Starts to store a recipe in a slot: without a term, or with the days on which
    /// it may be read.
    ///
    /// Errors of every start: `Slot`, `Limit`, `Size`, and of those with `ymd` in
    /// their names `Dates`; nothing is to be sent.
    pub fn put(
        part: Part,
        slot: usize,
        poll_limit: usize,
        term: Option<Term>,
        recipe: &'a [u8],
    ) -> Result<Driver<'a>, Error> {
        match term.map(Term::ymd) {
            None => Driver::start(recipe, false, |state| {
                driver::start_put(state, part.array_len(), slot, poll_limit, recipe)
            }),
            Some([first, last]) => Driver::put_ymd(part, slot, poll_limit, first, last, recipe),
        }
    }

    /// The same with days that may be any numbers: year, month and day of the first
    /// and of the last.
    pub fn put_ymd(
        part: Part,
        slot: usize,
        poll_limit: usize,
        first: [u32; 3],
        last: [u32; 3],
        recipe: &'a [u8],
    ) -> Result<Driver<'a>, Error> {
        Driver::start(recipe, false, |state| {
            let array_len = part.array_len();
            driver::start_put_term(state, array_len, slot, poll_limit, first, last, recipe)
        })
    }

    /// Starts to change bytes of a slot's recipe, from `place` on, on any day.
    pub fn patch(
        part: Part,
        slot: usize,
        poll_limit: usize,
        place: usize,
        bytes: &'a [u8],
    ) -> Result<Driver<'a>, Error> {
        Driver::start(bytes, false, |state| {
            driver::start_patch(state, part.array_len(), slot, poll_limit, place, bytes)
        })
    }

    /// Starts to read a slot's recipe.
    pub fn get(
        part: Part,
        slot: usize,
        poll_limit: usize,
        today: Date,
    ) -> Result<Driver<'static>, Error> {
        Driver::get_ymd(part, slot, poll_limit, today.ymd())
    }

    /// The same where today may be any numbers: year, month and day.
    pub fn get_ymd(
        part: Part,
        slot: usize,
        poll_limit: usize,
        today: [u32; 3],
    ) -> Result<Driver<'static>, Error> {
        Driver::start(&[], true, |state| {
            let (array_len, room) = (part.array_len(), part.recipe_max());
            driver::start_get(state, array_len, slot, poll_limit, today, room)
        })
    }

    /// Starts to erase a slot.
    pub fn wipe(part: Part, slot: usize, poll_limit: usize) -> Result<Driver<'static>, Error> {
        Driver::start(&[], false, |state| {
            driver::start_wipe(state, part.array_len(), slot, poll_limit)
        })
    }

    fn start<'p>(
        payload: &'p [u8],
        is_get: bool,
        start: impl FnOnce(&mut driver::State),
    ) -> Result<Driver<'p>, Error> {
        let mut it = Driver {
            state: [0; driver::STATE_LEN],
            payload,
            staged: [0; SLOT_ROOM],
            frame: [0; DRIVER_FRAME_LEN],
            frame_len: 0,
            is_get,
        };
        start(&mut it.state);
        it.frame_len = driver::frame(&it.state, payload, &it.staged, &mut it.frame);
        match it.answer() {
            Some(Err(refusal)) => Err(refusal),
            _ => Ok(it),
        }
    }

    /// The frame to send now; None at the end.
    pub fn frame(&self) -> Option<&[u8]> {
        match self.frame_len {
            0 => None,
            len => Some(&self.frame[..len]),
        }
    }

    /// Takes the reply to the frame: all bytes that came in, from the first on.
    ///
    /// A byte that is missing counts as FFh, so that a lost status ends the
    /// call with `Chip` and lost registers with `Sealed`. Two losses cannot be
    /// seen here and end the call by not going on with it: a frame that may
    /// not have reached the chip whole (a put over a lost 84 or 60 might come
    /// to Ok), and a reply to D2 that may be short or damaged (a patch would
    /// program it back).
    pub fn take(&mut self, reply: &[u8]) {
        self.frame_len = driver::next(
            &mut self.state,
            self.payload,
            reply,
            &mut self.staged,
            &mut self.frame,
        );
    }

    /// How the call has ended; None while there is a frame to send.
    ///
    /// Errors: `Chip`, `Busy`, `Sealed` (not of a get), `Blank` (patch and get),
    /// `End` (patch), `Term` (get) and `Miscompare` (put and patch).
    pub fn answer(&self) -> Option<Result<(), Error>> {
        driver::answer(&self.state).map(accepted)
    }

    /// The recipe that a get has read; None before its end, after an error and
    /// of another call.
    pub fn recipe(&self) -> Option<&[u8]> {
        if !self.is_get || self.answer() != Some(Ok(())) {
            return None;
        }
        let len = driver::count(&self.state, &self.staged);
        self.staged[driver::body(&self.staged)..].get(..len)
    }

    /// Goes on to the end over a function that exchanges the bytes of one
    /// chip-select period: it sends the frame and fills the reply, which is as
    /// long. An error of it gives up the call.
    pub fn run<E>(
        &mut self,
        mut exchange: impl FnMut(&[u8], &mut [u8]) -> Result<(), E>,
    ) -> Result<(), DriveError<E>> {
        let mut reply = [0; DRIVER_FRAME_LEN];
        while let Some(frame) = self.frame() {
            let reply = &mut reply[..frame.len()];
            exchange(frame, reply).map_err(DriveError::Link)?;
            self.take(reply);
        }
        let answer = self.answer().expect("a driver without a frame has ended");
        answer.map_err(DriveError::Call)
    }
}

/// Why [`Driver::run`] has not succeeded.
#[derive(Clone, Copy, Debug, PartialEq, Eq)]
pub enum DriveError<E> {
    /// The exchange failed. The slot may hold pages of both recipes, or of
    /// none; start the call again from its beginning.
    Link(E),
    /// The call's answer.
    Call(Error),
}

impl<E: fmt::Display> fmt::Display for DriveError<E> {
    fn fmt(&self, f: &mut fmt::Formatter) -> fmt::Result {
        match self {
            DriveError::Link(error) => write!(f, "link: {error}"),
            DriveError::Call(error) => write!(f, "{error}"),
        }
    }
}

impl<E: fmt::Debug + fmt::Display> std::error::Error for DriveError<E> {}
