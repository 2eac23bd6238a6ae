//! The payloads of file transfer messages, each through a door of its own.
use super::{Decode, Encode, Error, Write};
use crate::flat::{self, PartSizes, Sizes};
use crate::read::{accepted, as_small, part, whole};
use crate::write::count;
use crate::{LONGEST_BLOCK_LENGTH, LONGEST_NAME};

/// A part of a message and what follows it.
type Read<'a, T> = Result<(T, &'a [u8]), Error>;

/// What the door writes into the sink's room.
#[inline]
pub(super) fn through(
    writer: &mut impl Write,
    door: impl Fn(&mut [u8]) -> flat::Written,
) -> Result<usize, Error> {
    writer.lend(|room| Ok(count(door(room))?))
}

/// The name of a file or a directory, behind its length in two bytes.
#[derive(Clone, Copy, Debug, PartialEq, Eq)]
#[non_exhaustive]
pub struct NamePayload<'a> {
    pub(super) file_path_and_name: &'a str,
}

impl<'a> NamePayload<'a> {
    /// A name of at most 65,535 bytes.
    ///
    /// # Errors
    /// [`Error::IncorrectMessageLengthOrInvalidFormat`] where it is longer.
    pub const fn new(file_path_and_name: &'a str) -> Result<Self, Error> {
        match file_path_and_name.len() {
            0..=LONGEST_NAME => Ok(Self { file_path_and_name }),
            _ => Err(Error::IncorrectMessageLengthOrInvalidFormat),
        }
    }

    /// The name.
    #[must_use]
    pub const fn file_path_and_name(&self) -> &'a str {
        self.file_path_and_name
    }
}

impl Encode for NamePayload<'_> {
    type Error = Error;

    fn encode(&self, writer: &mut impl Write) -> Result<usize, Error> {
        let name = self.file_path_and_name().as_bytes();
        through(writer, |room| flat::write_name(name, room))
    }
}

impl<'a> Decode<'a> for NamePayload<'a> {
    type Error = Error;

    fn decode(buf: &'a [u8]) -> Read<'a, Self> {
        let (r, file_path_and_name) = flat::read_name_text(buf);
        accepted(r.number, r.first, r.second)?;
        Ok((Self { file_path_and_name }, &buf[as_small(r.tail)..]))
    }
}

/// How long a block may be, as the bytes that were sent, behind their count in one byte.
#[derive(Clone, Copy, Debug, PartialEq, Eq)]
#[non_exhaustive]
pub struct SentDataPayload<'a> {
    pub(super) max_number_of_block_length: &'a [u8],
}

impl<'a> SentDataPayload<'a> {
    /// A block length of at most 255 bytes.
    ///
    /// # Errors
    /// [`Error::IncorrectMessageLengthOrInvalidFormat`] where it is longer.
    pub const fn new(max_number_of_block_length: &'a [u8]) -> Result<Self, Error> {
        match max_number_of_block_length.len() {
            0..=LONGEST_BLOCK_LENGTH => Ok(Self {
                max_number_of_block_length,
            }),
            _ => Err(Error::IncorrectMessageLengthOrInvalidFormat),
        }
    }

    /// The block length, high byte first.
    #[must_use]
    pub const fn max_number_of_block_length(&self) -> &'a [u8] {
        self.max_number_of_block_length
    }
}

impl Encode for SentDataPayload<'_> {
    type Error = Error;

    fn encode(&self, writer: &mut impl Write) -> Result<usize, Error> {
        let block = self.max_number_of_block_length;
        through(writer, |room| flat::write_block_length(block, room))
    }
}

impl<'a> Decode<'a> for SentDataPayload<'a> {
    type Error = Error;

    fn decode(buf: &'a [u8]) -> Read<'a, Self> {
        let r = flat::read_block_length(buf);
        accepted(r.number, r.first, r.second)?;
        let max_number_of_block_length = part(buf, r.start, r.len);
        let sent = Self {
            max_number_of_block_length,
        };
        Ok((sent, &buf[as_small(r.tail)..]))
    }
}

/// The two sizes that a door has read, and what follows them.
fn sizes(r: PartSizes, buf: &[u8]) -> Read<'_, [u128; 2]> {
    accepted(r.number, r.first, r.second)?;
    let uncompressed = whole(r.uncompressed_high, r.uncompressed_low);
    let compressed = whole(r.compressed_high, r.compressed_low);
    Ok(([uncompressed, compressed], &buf[as_small(r.tail)..]))
}

/// The sizes of a file in a request, behind their width in one byte.
#[derive(Clone, Copy, Debug, PartialEq, Eq)]
pub struct SizePayload {
    /// The size of the file as it is.
    pub file_size_uncompressed: u128,
    /// The size of the file when it is packed.
    pub file_size_compressed: u128,
}

impl SizePayload {
    /// Both sizes; what is written has the smallest width that holds them.
    #[must_use]
    pub const fn new(file_size_uncompressed: u128, file_size_compressed: u128) -> Self {
        Self {
            file_size_uncompressed,
            file_size_compressed,
        }
    }
}

impl Encode for SizePayload {
    type Error = Error;

    fn encode(&self, writer: &mut impl Write) -> Result<usize, Error> {
        let sizes = Sizes::new(self.file_size_uncompressed, self.file_size_compressed);
        through(writer, |room| flat::write_sizes(sizes, room))
    }
}

impl<'a> Decode<'a> for SizePayload {
    type Error = Error;

    fn decode(buf: &'a [u8]) -> Read<'a, Self> {
        let ([uncompressed, compressed], tail) = sizes(flat::read_sizes(buf), buf)?;
        Ok((Self::new(uncompressed, compressed), tail))
    }
}

/// The sizes of a file in a response, behind their width in two bytes.
#[derive(Clone, Copy, Debug, PartialEq, Eq)]
pub struct FileSizePayload {
    /// The size of the file as it is.
    pub file_size_uncompressed: u128,
    /// The size of the file when it is packed.
    pub file_size_compressed: u128,
}

impl FileSizePayload {
    /// Both sizes; what is written has the smallest width that holds them.
    #[must_use]
    pub const fn new(file_size_uncompressed: u128, file_size_compressed: u128) -> Self {
        Self {
            file_size_uncompressed,
            file_size_compressed,
        }
    }
}

impl Encode for FileSizePayload {
    type Error = Error;

    fn encode(&self, writer: &mut impl Write) -> Result<usize, Error> {
        let sizes = Sizes::new(self.file_size_uncompressed, self.file_size_compressed);
        through(writer, |room| flat::write_file_sizes(sizes, room))
    }
}

impl<'a> Decode<'a> for FileSizePayload {
    type Error = Error;

    fn decode(buf: &'a [u8]) -> Read<'a, Self> {
        let ([uncompressed, compressed], tail) = sizes(flat::read_file_sizes(buf), buf)?;
        Ok((Self::new(uncompressed, compressed), tail))
    }
}

/// The size of a directory in a response, behind its width in two bytes.
#[derive(Clone, Copy, Debug, PartialEq, Eq)]
pub struct DirSizePayload {
    /// The size of what is said of the directory.
    pub dir_info_length: u128,
}

impl DirSizePayload {
    /// The size; what is written has the smallest width that holds it.
    #[must_use]
    pub const fn new(dir_info_length: u128) -> Self {
        Self { dir_info_length }
    }
}

impl Encode for DirSizePayload {
    type Error = Error;

    fn encode(&self, writer: &mut impl Write) -> Result<usize, Error> {
        let Sizes {
            uncompressed_high: high,
            uncompressed_low: low,
            ..
        } = Sizes::new(self.dir_info_length, 0);
        through(writer, |room| flat::write_dir_size(high, low, room))
    }
}

impl<'a> Decode<'a> for DirSizePayload {
    type Error = Error;

    fn decode(buf: &'a [u8]) -> Read<'a, Self> {
        let ([size, _], tail) = sizes(flat::read_dir_size(buf), buf)?;
        Ok((Self::new(size), tail))
    }
}

/// Where in the file a transfer goes on, in eight bytes.
#[derive(Clone, Copy, Debug, PartialEq, Eq)]
pub struct PositionPayload {
    /// The position, in bytes.
    pub file_position: u64,
}

impl PositionPayload {
    /// The position.
    #[must_use]
    pub const fn new(file_position: u64) -> Self {
        Self { file_position }
    }
}

impl Encode for PositionPayload {
    type Error = Error;

    fn encode(&self, writer: &mut impl Write) -> Result<usize, Error> {
        through(writer, |room| {
            flat::write_position(self.file_position, room)
        })
    }
}

impl<'a> Decode<'a> for PositionPayload {
    type Error = Error;

    fn decode(buf: &'a [u8]) -> Read<'a, Self> {
        let r = flat::read_position(buf);
        accepted(r.number, r.first, r.second)?;
        Ok((Self::new(r.position), &buf[as_small(r.tail)..]))
    }
}
