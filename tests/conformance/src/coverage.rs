//! Counts what the steps have reached.

use crate::frames::ROWS;
use crate::records::OPERATIONS;
use crate::request::KINDS;
use crate::step::CHIP_FUNCTIONS;

/// Answers 0 to 16, and one place for any other.
const ANSWERS: usize = 18;

/// How often a row was obeyed and how often it was ignored.
#[derive(Clone, Copy, Debug, Default)]
pub struct Count {
    pub obeyed: u64,
    pub ignored: u64,
}

/// Counts by row and operation under way, and by function and answer.
#[derive(Clone, Debug)]
pub struct Coverage {
    /// By row and operation. A row counts as obeyed if it showed: the record
    /// changed or the reply has data; as ignored if the frame was complete and
    /// the model says so.
    pub rows: [[Count; OPERATIONS.len()]; ROWS.len()],
    /// By function (fresh, send, end busy, move pin, cut, then put, patch, get,
    /// wipe, raw) and answer.
    pub answers: [[u64; ANSWERS]; CHIP_FUNCTIONS + KINDS.len()],
}

impl Default for Coverage {
    fn default() -> Self {
        Coverage {
            rows: [[Count::default(); OPERATIONS.len()]; ROWS.len()],
            answers: [[0; ANSWERS]; CHIP_FUNCTIONS + KINDS.len()],
        }
    }
}

impl Coverage {
    pub fn obeyed(&self, row: usize) -> u64 {
        self.rows[row].iter().map(|count| count.obeyed).sum()
    }

    pub fn ignored(&self, row: usize) -> u64 {
        self.rows[row].iter().map(|count| count.ignored).sum()
    }

    pub fn count_answer(&mut self, function: usize, answer: u8) {
        self.answers[function][usize::from(answer).min(ANSWERS - 1)] += 1;
    }

    /// The answers that a function has met, in order.
    pub fn answers_of(&self, function: usize) -> Vec<usize> {
        (0..ANSWERS)
            .filter(|&n| self.answers[function][n] > 0)
            .collect()
    }

    /// How often each of put, patch, get, wipe and raw was called.
    pub fn calls(&self) -> [u64; KINDS.len()] {
        std::array::from_fn(|kind| self.answers[CHIP_FUNCTIONS + kind].iter().sum())
    }

    /// Adds what another run has reached.
    pub fn add(&mut self, other: &Coverage) {
        for (rows, others) in self.rows.iter_mut().zip(&other.rows) {
            for (count, other) in rows.iter_mut().zip(others) {
                count.obeyed += other.obeyed;
                count.ignored += other.ignored;
            }
        }
        for (answers, others) in self.answers.iter_mut().zip(&other.answers) {
            for (count, other) in answers.iter_mut().zip(others) {
                *count += other;
            }
        }
    }
}
