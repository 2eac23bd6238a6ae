//! Requests that were joined without lengths, taken apart again.
use crate::Refusal;
use crate::flat;
use crate::read::{accepted, as_small};
use core::fmt;

/// A joined buffer that was refused.
#[derive(Clone, Copy, Debug, PartialEq, Eq, Hash)]
pub struct NotSplit {
    /// That of the first piece that is no request, [`Refusal::TooMany`], or [`Refusal::NoRoom`].
    pub refusal: Refusal,
    /// How many requests were found before it: of a piece that is refused this is its place, counted from 0.
    pub found: usize,
}

impl fmt::Display for NotSplit {
    fn fmt(&self, f: &mut fmt::Formatter<'_>) -> fmt::Result {
        write!(f, "{} (after {} requests)", self.refusal, self.found)
    }
}

impl core::error::Error for NotSplit {}

/// Takes apart requests that were joined without lengths: fills the list from its start with the length of each, as it stands in the
/// buffer, and answers how many there are. That much of the list is what [`read_batch`](crate::read_batch) takes. Entries from the
/// count on keep what they had, and a refused call changes nothing. An empty buffer has no request.
///
/// # Errors
/// What [`read_request`](crate::read_request) answers to the first piece that it refuses; [`Refusal::TooMany`] where bytes follow
/// 4,096 requests, whatever they are; and last [`Refusal::NoRoom`] where the list has fewer entries than there are requests.
///
/// ```
/// use skrolvind::{NotSplit, Refusal, read_batch, split_joined};
///
/// // the file `a` deleted, and a folder without a name read
/// let buffer = [2, 0, 1, 0x61, 5, 0, 0];
/// let mut lengths = [99; 3];
/// let count = split_joined(&buffer, &mut lengths)?;
/// assert_eq!((count, lengths), (2, [4, 3, 99]));
/// let mut numbers = [99; 2];
/// assert_eq!(read_batch(&buffer, &lengths[..count], &mut numbers), Ok(2));
/// assert_eq!(numbers, [0, 0]);
/// // the second piece is cut
/// let refusal = Refusal::TooShort { needed: 2, available: 1 };
/// assert_eq!(split_joined(&buffer[..6], &mut lengths), Err(NotSplit { refusal, found: 1 }));
/// # Ok::<(), NotSplit>(())
/// ```
#[inline]
pub fn split_joined(buffer: &[u8], lengths: &mut [u32]) -> Result<usize, NotSplit> {
    let r = flat::split_joined(buffer, lengths);
    let found = as_small(r.count);
    match accepted(r.number, r.first, r.second) {
        Ok(()) => Ok(found),
        Err(refusal) => Err(NotSplit { refusal, found }),
    }
}
