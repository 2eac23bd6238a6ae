//! A stand-in for the crate `automotive_wire_codec`, by the rules of document 01.
//!
//! What it decides, and the original therefore does not:
//! - how a size is read from its bytes and put into them (high first), and so for the numbers of two and eight bytes that are
//!   written: a name's length, a response's width, a routine identifier, a position. (The original reads those by itself);
//! - how many bytes a writer says that it wrote, which the original adds up;
//! - that a width of 0 or above 16 is refused, and that the refusal carries the width (refusal 6, an exception of the stated
//!   domain). *When* it is asked is the original's: after it has found the whole group present;
//! - the smallest width of a number. Whether the real crate says 0 or 1 for the number 0 does not matter: the original raises a
//!   width of 0 to 1 itself.
//!
//! The original decides everything else: the order of fields and of checks, every count of needed bytes, and the widths in use.
//!
//! Every function may be inlined, so that the original is not slower over them than it has to be when it is timed.
#![no_std]
use embedded_io::Write;

/// A field has fewer bytes than it needs.
#[derive(Clone, Copy, Debug, PartialEq, Eq)]
pub struct Incomplete {
    pub needed: usize,
    pub available: usize,
}

/// A number of this width cannot be read.
#[derive(Clone, Copy, Debug, PartialEq, Eq)]
pub struct InvalidWidth {
    pub width: usize,
}

/// Why a number was not read.
#[derive(Clone, Copy, Debug, PartialEq, Eq)]
pub enum ReadNumberError {
    Incomplete(Incomplete),
    InvalidWidth(InvalidWidth),
}

/// Why a number was not written: the sink's own error.
#[derive(Clone, Copy, Debug, PartialEq, Eq)]
pub struct WriteNumberError<E>(pub E);

/// A value that is read from the start of a buffer, which hands back the rest.
pub trait Decode<'a>: Sized {
    type Error;

    fn decode(buffer: &'a [u8]) -> Result<(Self, &'a [u8]), Self::Error>;
}

/// A value of which a buffer may hold one after the other.
pub trait DecodeIter<'a>: Sized {
    type Error;
    const WIRE_SIZE: Option<usize>;

    #[allow(clippy::type_complexity)]
    fn decode_next(buffer: &'a [u8]) -> Result<Option<(Self, &'a [u8])>, Self::Error>;
}

/// A value that is written into a sink, which answers how many bytes it took.
pub trait Encode {
    type Error;

    fn encode(&self, sink: &mut impl Write) -> Result<usize, Self::Error>;
}

/// How many bytes the number takes; none for 0.
#[must_use]
#[inline]
pub fn minimal_be_len(number: u128) -> usize {
    (u128::BITS - number.leading_zeros()).div_ceil(8) as usize
}

/// The number in the first `width` bytes, high first, and what follows them.
#[inline]
pub fn read_be_uint(buffer: &[u8], width: usize) -> Result<(u128, &[u8]), ReadNumberError> {
    if !(1..=16).contains(&width) {
        return Err(ReadNumberError::InvalidWidth(InvalidWidth { width }));
    }
    let Some((bytes, rest)) = buffer.split_at_checked(width) else {
        return Err(ReadNumberError::Incomplete(Incomplete {
            needed: width,
            available: buffer.len(),
        }));
    };
    let mut all = [0; 16];
    all[16 - width..].copy_from_slice(bytes);
    Ok((u128::from_be_bytes(all), rest))
}

/// The number in `width` bytes, high first. The original asks only for widths that hold it.
#[inline]
pub fn write_be_uint<W: Write>(
    sink: &mut W,
    number: u128,
    width: usize,
) -> Result<usize, WriteNumberError<W::Error>> {
    assert!(
        minimal_be_len(number) <= width && width <= 16,
        "the width {width} does not hold the number {number}"
    );
    write_all(sink, &number.to_be_bytes()[16 - width..]).map_err(WriteNumberError)
}

/// All the bytes.
#[inline]
pub fn write_all<W: Write>(sink: &mut W, bytes: &[u8]) -> Result<usize, W::Error> {
    sink.write_all(bytes).map(|()| bytes.len())
}

/// One byte.
#[inline]
pub fn write_u8<W: Write>(sink: &mut W, number: u8) -> Result<usize, W::Error> {
    write_all(sink, &[number])
}

/// Two bytes, high first.
#[inline]
pub fn write_u16_be<W: Write>(sink: &mut W, number: u16) -> Result<usize, W::Error> {
    write_all(sink, &number.to_be_bytes())
}

/// Eight bytes, high first.
#[inline]
pub fn write_u64_be<W: Write>(sink: &mut W, number: u64) -> Result<usize, W::Error> {
    write_all(sink, &number.to_be_bytes())
}
