//! A stand-in for the crate `embedded-io`: a sink of bytes, and a lent buffer as such a sink.
//!
//! What it decides, and the original therefore does not: that bytes arrive in the order in which they are written, and that a
//! buffer without room answers [`Full`]. The comparison never lets it come to that: the original always writes into plenty of
//! room, and too little room is document 01's own rule.
//!
//! Its call may be inlined, so that the original is not slower over it than it has to be when it is timed.
#![no_std]

/// What a sink's errors have in common.
pub trait Error: core::fmt::Debug {}

/// A sink of bytes.
pub trait Write {
    /// What a sink answers when it cannot take the bytes.
    type Error: Error;

    /// Takes all the bytes, or none of them.
    fn write_all(&mut self, bytes: &[u8]) -> Result<(), Self::Error>;
}

/// The buffer has too little room.
#[derive(Clone, Copy, Debug, PartialEq, Eq)]
pub struct Full;

impl Error for Full {}

impl Write for &mut [u8] {
    type Error = Full;

    #[inline]
    fn write_all(&mut self, bytes: &[u8]) -> Result<(), Full> {
        if bytes.len() > self.len() {
            return Err(Full);
        }
        let (taken, left) = core::mem::take(self).split_at_mut(bytes.len());
        taken.copy_from_slice(bytes);
        *self = left;
        Ok(())
    }
}
