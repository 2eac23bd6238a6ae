//! Answers as plain data, in document 01's terms. A part of a message is told by its place in it.

/// A refusal: its number in document 01's table, and the two values that it carries.
#[derive(Clone, Copy, Debug, PartialEq, Eq)]
pub struct Refusal {
    pub number: u64,
    pub first: u64,
    pub second: u64,
}

impl Refusal {
    #[must_use]
    pub const fn new(number: u64, first: u64, second: u64) -> Self {
        Self {
            number,
            first,
            second,
        }
    }
}

/// A file transfer message that was read; what the kind lacks is 0. `start` and `len` are the place of the name or of the block length.
#[derive(Clone, Copy, Debug, Default, PartialEq, Eq)]
pub struct FileTransfer {
    pub kind: u8,
    pub start: usize,
    pub len: usize,
    pub format: u8,
    pub uncompressed: u128,
    pub compressed: u128,
    pub position: u64,
    pub tail_len: usize,
}

/// A routine message that was read. `start` and `len` are the place of its record.
#[derive(Clone, Copy, Debug, PartialEq, Eq)]
pub struct Routine {
    pub suppress: bool,
    pub sub_function: u8,
    pub identifier: u16,
    pub start: usize,
    pub len: usize,
    pub tail_len: usize,
}

/// The next trouble code, high byte first, and how many bytes follow it.
#[derive(Clone, Copy, Debug, PartialEq, Eq)]
pub struct NextCode {
    pub code: [u8; 3],
    pub tail_len: usize,
}

/// The payloads of file transfer messages.
#[derive(Clone, Copy, Debug, PartialEq, Eq)]
pub enum PayloadSort {
    Sizes,
    FileSizes,
    DirSize,
    Position,
    Block,
    Name,
}

/// A payload; what the sort lacks is 0, and the one size of a directory is the uncompressed. `start` and `len` are the place of a block length or of a name.
#[derive(Clone, Copy, Debug, Default, PartialEq, Eq)]
pub struct Payload {
    pub uncompressed: u128,
    pub compressed: u128,
    pub position: u64,
    pub start: usize,
    pub len: usize,
}

/// Where `part` begins in `message`, of which it is a part.
#[must_use]
pub fn place(message: &[u8], part: &[u8]) -> usize {
    (part.as_ptr() as usize).wrapping_sub(message.as_ptr() as usize)
}
