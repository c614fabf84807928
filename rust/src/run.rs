//! The runs in a listing's output.

use crate::RUN_BYTES;

/// A stretch of time with one pair. It ends where the next one starts, the last at the end of the span that was listed.
#[derive(Clone, Copy, PartialEq, Eq, Hash, Debug)]
pub struct Run {
    pub start: u32,
    pub count: i32,
    pub sum: i64,
}

impl Run {
    /// "16 bytes each: start (u32), count (i32), sum (i64)", little-endian
    fn of(bytes: &[u8]) -> Run {
        let (start, rest) = bytes.split_at(4);
        let (count, sum) = rest.split_at(4);
        Run {
            start: u32::from_le_bytes(start.try_into().expect("4 bytes")),
            count: i32::from_le_bytes(count.try_into().expect("4 bytes")),
            sum: i64::from_le_bytes(sum.try_into().expect("8 bytes")),
        }
    }
}

/// The first `count` runs in the output of a listing.
///
/// ```
/// use luwhenoka::{runs, Run};
///
/// let output = [10, 0, 0, 0, 1, 0, 0, 0, 6, 0, 0, 0, 0, 0, 0, 0, 0xFF];
/// assert_eq!(runs(&output, 1).next(), Some(Run { start: 10, count: 1, sum: 6 }));
/// ```
///
/// # Panics
///
/// If the output is shorter than so many runs.
pub fn runs(output: &[u8], count: usize) -> Runs<'_> {
    Runs { rest: output[..RUN_BYTES * count].chunks_exact(RUN_BYTES) }
}

/// The iterator of [`runs`].
#[derive(Clone, Debug)]
pub struct Runs<'a> {
    rest: std::slice::ChunksExact<'a, u8>,
}

impl Iterator for Runs<'_> {
    type Item = Run;

    fn next(&mut self) -> Option<Run> {
        self.rest.next().map(Run::of)
    }

    fn size_hint(&self) -> (usize, Option<usize>) {
        self.rest.size_hint()
    }
}

impl DoubleEndedIterator for Runs<'_> {
    fn next_back(&mut self) -> Option<Run> {
        self.rest.next_back().map(Run::of)
    }
}

impl ExactSizeIterator for Runs<'_> {}
