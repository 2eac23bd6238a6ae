//! A morning's messages in one call.
use crate::Refusal;
use crate::flat;
use crate::read::accepted;

/// Reads the requests of a buffer, which stand there one after the other, each as long as `lengths` says; a length of 0 is an empty
/// message. The list is filled from its start with the refusal number of each, 0 where it is accepted: what
/// [`read_request`](crate::read_request) answers to it alone. Answers how many entries were filled, one for each length; the others
/// keep what they had, and a refused call changes nothing.
///
/// # Errors
/// [`Refusal::TooMany`] for more than 4,096 messages, then [`Refusal::Cut`] where the lengths do not add up to the buffer exactly,
/// then [`Refusal::NoRoom`] where the list has fewer entries than there are messages.
///
/// ```
/// use skrolvind::{Refusal, read_batch};
///
/// // the file `a` deleted, with a byte left over; an empty message; a mode that does not exist
/// let buffer = [2, 0, 1, 0x61, 0x5A, 7, 0, 1, 0x61];
/// let mut list = [99; 5];
/// assert_eq!(read_batch(&buffer, &[5, 0, 4], &mut list)?, 3);
/// assert_eq!(list, [0, 1, 3, 99, 99]);
/// assert_eq!(Refusal::meaning_of(list[2].into()), Some("unknown mode: no file operation has this number"));
/// # Ok::<(), Refusal>(())
/// ```
#[inline]
pub fn read_batch(buffer: &[u8], lengths: &[u32], list: &mut [u8]) -> Result<usize, Refusal> {
    let r = flat::read_batch(buffer, lengths, list);
    accepted(r.number, r.first, r.second)?;
    Ok(lengths.len())
}
