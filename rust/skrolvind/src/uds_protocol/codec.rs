//! Reading and writing, by the original's names, and the sink that is written into.
use super::{Error, Incomplete, NoRoom, TrailingBytes};
#[cfg(feature = "alloc")]
use alloc::vec::Vec;
use core::mem;

/// A value that is read from the start of a buffer.
pub trait Decode<'a>: Sized {
    /// Why it is not read.
    type Error;

    /// Reads a value; hands out the value and what follows it.
    ///
    /// # Errors
    /// What the type says.
    #[allow(clippy::type_complexity)]
    fn decode(buf: &'a [u8]) -> Result<(Self, &'a [u8]), Self::Error>;

    /// Reads a value that is the whole buffer.
    ///
    /// # Errors
    /// Those of [`decode`](Self::decode), then [`TrailingBytes`] where something follows.
    fn decode_exact(buf: &'a [u8]) -> Result<Self, Self::Error>
    where
        Self::Error: From<TrailingBytes>,
    {
        match Self::decode(buf)? {
            (value, []) => Ok(value),
            (_, tail) => Err(TrailingBytes { count: tail.len() }.into()),
        }
    }
}

/// A value of which a buffer may hold one after the other.
pub trait DecodeIter<'a>: Sized {
    /// Why it is not read.
    type Error;
    /// How many bytes each one has, where that is always the same.
    const WIRE_SIZE: Option<usize>;

    /// Reads the next value; hands out the value and what follows it, or nothing where the buffer is empty.
    ///
    /// # Errors
    /// What the type says.
    #[allow(clippy::type_complexity)]
    fn decode_next(buf: &'a [u8]) -> Result<Option<(Self, &'a [u8])>, Self::Error>;
}

/// A value that is written into a sink.
pub trait Encode {
    /// Why it is not written.
    type Error;

    /// Writes the value, and answers how many bytes that took.
    ///
    /// # Errors
    /// What the type says, and [`Error::Io`] where the sink has too little room; then nothing is written.
    fn encode(&self, writer: &mut impl Write) -> Result<usize, Self::Error>;
}

/// A sink that lends its room, so that what is encoded is written there at once and not copied; the original takes an
/// `embedded_io::Write` here.
///
/// A slice is a sink, and is what follows once something was written:
///
/// ```
/// use skrolvind::uds_protocol::{Encode, Error, PositionPayload};
///
/// let mut room = [0; 20];
/// let mut sink = &mut room[..];
/// assert_eq!(PositionPayload::new(7).encode(&mut sink)?, 8);
/// assert_eq!(PositionPayload::new(8).encode(&mut sink)?, 8);
/// assert_eq!(sink.len(), 4);
/// # Ok::<(), Error>(())
/// ```
pub trait Write {
    /// Lends room to `write`, which answers how many bytes it wrote at its start or, by [`Error::Io`], how many it needs; takes
    /// those bytes.
    ///
    /// # Errors
    /// Those of `write`; then nothing is taken.
    fn lend(
        &mut self,
        write: impl FnMut(&mut [u8]) -> Result<usize, Error>,
    ) -> Result<usize, Error>;
}

impl Write for &mut [u8] {
    #[inline]
    fn lend(
        &mut self,
        mut write: impl FnMut(&mut [u8]) -> Result<usize, Error>,
    ) -> Result<usize, Error> {
        let written = write(self)?;
        *self = &mut mem::take(self)[written..];
        Ok(written)
    }
}

impl<T: Write + ?Sized> Write for &mut T {
    #[inline]
    fn lend(
        &mut self,
        write: impl FnMut(&mut [u8]) -> Result<usize, Error>,
    ) -> Result<usize, Error> {
        (**self).lend(write)
    }
}

/// Grows by what is written; `write` is asked with no room first.
#[cfg(feature = "alloc")]
impl Write for Vec<u8> {
    fn lend(
        &mut self,
        mut write: impl FnMut(&mut [u8]) -> Result<usize, Error>,
    ) -> Result<usize, Error> {
        let start = self.len();
        match write(&mut []) {
            Err(Error::Io(NoRoom { needed, .. })) => {
                self.resize(start + needed, 0);
                write(&mut self[start..])
            }
            answer => answer,
        }
    }
}

/// The byte at the start of a buffer, and what follows it.
#[inline]
pub(super) fn byte(buf: &[u8]) -> Result<(u8, &[u8]), Error> {
    match buf {
        [byte, tail @ ..] => Ok((*byte, tail)),
        [] => Err(Error::InsufficientData(Incomplete {
            needed: 1,
            available: 0,
        })),
    }
}

/// Puts the bytes of a field into the sink.
#[inline]
pub(super) fn put(writer: &mut impl Write, bytes: &[u8]) -> Result<usize, Error> {
    writer.lend(|room| {
        let short = NoRoom {
            needed: bytes.len(),
            room: room.len(),
        };
        let taken = room.get_mut(..bytes.len()).ok_or(Error::Io(short))?;
        taken.copy_from_slice(bytes);
        Ok(bytes.len())
    })
}
