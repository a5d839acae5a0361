/// The bytes of a script: what happens after a frame.
pub mod script {
    /// The busy period ends.
    pub const END_BUSY: u8 = 0;
    /// Nothing.
    pub const NOTHING: u8 = 1;
    /// The supply is cut, and the call ends with [`crate::Error::Cut`].
    pub const CUT: u8 = 2;
}

/// The shortest log of each call: six bytes for each frame that it can send
/// with poll limit B.
pub mod log_len {
    use super::LINE_LEN;
    use crate::POLL_LIMIT_MAX;

    /// A limit that is too high is refused whatever the log.
    const fn within(poll_limit: usize) -> usize {
        if poll_limit < POLL_LIMIT_MAX {
            poll_limit
        } else {
            POLL_LIMIT_MAX
        }
    }

    /// For 17 B + 26 frames.
    pub const fn put(poll_limit: usize) -> usize {
        LINE_LEN * (17 * within(poll_limit) + 26)
    }

    /// For 17 B + 34 frames.
    pub const fn patch(poll_limit: usize) -> usize {
        LINE_LEN * (17 * within(poll_limit) + 34)
    }

    /// For B + 8 frames.
    pub const fn get(poll_limit: usize) -> usize {
        LINE_LEN * (within(poll_limit) + 8)
    }

    /// For 2 B + 3 frames.
    pub const fn wipe(poll_limit: usize) -> usize {
        LINE_LEN * (2 * within(poll_limit) + 3)
    }

    /// For one frame.
    pub const fn raw() -> usize {
        LINE_LEN
    }
}

/// Bytes that the log has for a frame.
const LINE_LEN: usize = 6;

/// What a call on a [`Chip`](crate::Chip) is lent beside its array: what the
/// chip does in the meantime, and room for what shows on the wire.
///
/// A run may be used for call after call; the log is written anew each time.
#[derive(Debug)]
pub struct Run<'a> {
    /// A byte of [`script`] for each frame; past its end, `END_BUSY`.
    pub script: &'a [u8],
    /// The junk of a cut, [`Part::junk_len`](crate::Part::junk_len) bytes; not
    /// looked at if the script has no `CUT`.
    pub junk: &'a [u8],
    /// Six bytes for each frame sent; see [`log_len`]. The rest keeps.
    pub log: &'a mut [u8],
    /// Frames, polls and the length of the recipe that was read, as the last
    /// call left them.
    pub counts: [u64; 3],
}

impl<'a> Run<'a> {
    /// A run with an empty script: each busy period ends after its frame.
    pub fn new(log: &'a mut [u8]) -> Run<'a> {
        Run {
            script: &[],
            junk: &[],
            log,
            counts: [0; 3],
        }
    }

    /// Frames that the last call sent, also one with an error.
    pub fn frames(&self) -> u64 {
        self.counts[0]
    }

    /// Polls among them: the status frames of its waits.
    pub fn polls(&self) -> u64 {
        self.counts[1]
    }

    /// The frames of the last call as they showed on the wire.
    ///
    /// ```
    /// use slipknoll::{log_len, Chip, Part, Run, FACTORY_LEN};
    ///
    /// let mut array = vec![0; Part::Short.array_len()];
    /// let mut chip = Chip::fresh(&[0; FACTORY_LEN], &mut array)?;
    /// let mut log = [0; log_len::wipe(1)];
    /// let mut run = Run::new(&mut log);
    /// chip.wipe(&mut array, 2, 1, &mut run)?;
    /// let lines: Vec<String> = run
    ///     .outline()
    ///     .map(|line| format!("{} {:02X?}", line.len, line.beginning()))
    ///     .collect();
    /// assert_eq!(
    ///     lines,
    ///     [
    ///         "2 [D7, 00]",
    ///         "20 [32, 00, 00, 00]",
    ///         "20 [35, 00, 00, 00]",
    ///         "4 [50, 00, 20, 00]",
    ///         "2 [D7, 00]",
    ///     ]
    /// );
    /// # Ok::<(), slipknoll::Error>(())
    /// ```
    pub fn outline(&self) -> impl Iterator<Item = Line> + '_ {
        let lines = self.log.chunks_exact(LINE_LEN);
        lines.take(self.frames() as usize).map(|line| Line {
            len: usize::from(u16::from_be_bytes([line[0], line[1]])),
            first: [line[2], line[3], line[4], line[5]],
        })
    }
}

/// What the log tells of a frame.
#[derive(Clone, Copy, Debug, PartialEq, Eq)]
pub struct Line {
    /// The frame's length.
    pub len: usize,
    /// Its first four bytes, with FFh for those that it has not.
    pub first: [u8; 4],
}

impl Line {
    /// The frame's first bytes, at most four.
    pub fn beginning(&self) -> &[u8] {
        &self.first[..self.len.min(4)]
    }
}
