//! What is handed in and out.
use crate::Refusal;
use core::fmt;

/// The ways from a byte to a value of an enum, with a refusal of every other byte, and back.
macro_rules! of_byte {
    ($name:ident, $refusal:expr) => {
        impl TryFrom<u8> for $name {
            type Error = Refusal;

            #[inline]
            fn try_from(byte: u8) -> Result<Self, Refusal> {
                Self::from_number(byte.into()).ok_or(byte).map_err($refusal)
            }
        }

        impl From<$name> for u8 {
            #[inline]
            fn from(value: $name) -> Self {
                value as Self
            }
        }
    };
}

pub(crate) use of_byte;

/// The fields of a file transfer message.
#[derive(Clone, Copy, Debug, PartialEq, Eq, Hash)]
#[repr(u8)]
pub enum Field {
    /// The mode byte.
    Mode = 1,
    /// The name of a request, with its length.
    Name = 2,
    /// The format byte.
    FormatByte = 3,
    /// The sizes, with their width.
    SizeGroup = 4,
    /// The block length of a response, with its count.
    BlockLength = 5,
    /// The position of a response.
    Position = 6,
}

impl Field {
    /// The field that has this number.
    #[must_use]
    pub const fn from_number(number: u64) -> Option<Self> {
        match number {
            1 => Some(Self::Mode),
            2 => Some(Self::Name),
            3 => Some(Self::FormatByte),
            4 => Some(Self::SizeGroup),
            5 => Some(Self::BlockLength),
            6 => Some(Self::Position),
            _ => None,
        }
    }
}

impl From<Field> for u8 {
    #[inline]
    fn from(field: Field) -> Self {
        field as Self
    }
}

impl fmt::Display for Field {
    fn fmt(&self, f: &mut fmt::Formatter<'_>) -> fmt::Result {
        f.write_str(match self {
            Self::Mode => "mode",
            Self::Name => "name",
            Self::FormatByte => "format byte",
            Self::SizeGroup => "size group",
            Self::BlockLength => "block length",
            Self::Position => "position",
        })
    }
}

/// Why a file transfer message is refused: every check that document 01 puts before this one passes.
#[derive(Clone, Copy, Debug, PartialEq, Eq, Hash)]
pub struct Reason {
    /// What reading the message answers.
    pub refusal: Refusal,
    /// The field that stopped it.
    pub field: Field,
    /// Where in the message that field begins.
    pub offset: usize,
}

/// `FIELD at OFFSET: `, the refusal and its meaning.
impl fmt::Display for Reason {
    fn fmt(&self, f: &mut fmt::Formatter<'_>) -> fmt::Result {
        write!(f, "{} at {}: {}", self.field, self.offset, self.refusal)
    }
}

impl core::error::Error for Reason {}

/// The six kinds of file transfer, by their mode bytes.
///
/// ```
/// use skrolvind::{Kind, Refusal};
///
/// assert_eq!(Kind::try_from(6), Ok(Kind::ResumeFile));
/// assert_eq!(Kind::try_from(7), Err(Refusal::UnknownMode(7)));
/// assert_eq!(u8::from(Kind::AddFile), 1);
/// ```
#[derive(Clone, Copy, Debug, PartialEq, Eq, Hash)]
#[repr(u8)]
pub enum Kind {
    /// Add a file.
    AddFile = 1,
    /// Delete a file.
    DeleteFile = 2,
    /// Replace a file.
    ReplaceFile = 3,
    /// Read a file.
    ReadFile = 4,
    /// Read a directory.
    ReadDir = 5,
    /// Go on with a file.
    ResumeFile = 6,
}

impl Kind {
    /// The kind that has this number.
    #[must_use]
    pub const fn from_number(number: u64) -> Option<Self> {
        match number {
            1 => Some(Self::AddFile),
            2 => Some(Self::DeleteFile),
            3 => Some(Self::ReplaceFile),
            4 => Some(Self::ReadFile),
            5 => Some(Self::ReadDir),
            6 => Some(Self::ResumeFile),
            _ => None,
        }
    }
}

of_byte!(Kind, Refusal::UnknownMode);

/// The three things that can be asked of a routine.
#[derive(Clone, Copy, Debug, PartialEq, Eq, Hash)]
#[repr(u8)]
pub enum SubFunction {
    /// Start it.
    Start = 1,
    /// Stop it.
    Stop = 2,
    /// Tell its results.
    Results = 3,
}

impl SubFunction {
    /// The sub-function that has this number.
    #[must_use]
    pub const fn from_number(number: u64) -> Option<Self> {
        match number {
            1 => Some(Self::Start),
            2 => Some(Self::Stop),
            3 => Some(Self::Results),
            _ => None,
        }
    }
}

of_byte!(SubFunction, Refusal::UnknownSubFunction);

/// A file transfer request. What the kind lacks is 0 when it is read, and is ignored when it is written.
#[derive(Clone, Copy, Debug, PartialEq, Eq, Hash)]
pub struct Request<'a> {
    /// Which of the six.
    pub kind: Kind,
    /// The name.
    pub name: &'a str,
    /// The format byte.
    pub format: u8,
    /// The uncompressed size.
    pub uncompressed: u128,
    /// The compressed size.
    pub compressed: u128,
}

/// A file transfer response. What the kind lacks is 0 or empty when it is read, and is ignored when it is written.
#[derive(Clone, Copy, Debug, PartialEq, Eq, Hash)]
pub struct Response<'a> {
    /// Which of the six.
    pub kind: Kind,
    /// The block length, as it was sent.
    pub block: &'a [u8],
    /// The format byte.
    pub format: u8,
    /// The uncompressed size; of a `ReadDir` response the one size.
    pub uncompressed: u128,
    /// The compressed size.
    pub compressed: u128,
    /// Where a `ResumeFile` response goes on.
    pub position: u64,
}

/// A routine request.
#[derive(Clone, Copy, Debug, PartialEq, Eq, Hash)]
pub struct RoutineRequest<'a> {
    /// Whether the positive response is to be suppressed.
    pub suppress: bool,
    /// What is asked.
    pub sub_function: SubFunction,
    /// Of which routine.
    pub identifier: u16,
    /// All that follows.
    pub record: &'a [u8],
}

/// A routine response.
#[derive(Clone, Copy, Debug, PartialEq, Eq, Hash)]
pub struct RoutineResponse<'a> {
    /// What was asked.
    pub sub_function: SubFunction,
    /// Of which routine.
    pub identifier: u16,
    /// All that follows.
    pub record: &'a [u8],
}

/// Whether a recorded transfer is open.
#[derive(Clone, Copy, Debug, Default, PartialEq, Eq, Hash)]
pub enum Transfer {
    /// It is closed, and has no last counter.
    #[default]
    Closed,
    /// It is open; `last` is the counter of its last accepted block, where it has one.
    Open {
        /// The last counter.
        last: Option<u8>,
    },
}

/// The state of a recorded transfer. The first one is its default: closed, and all 0.
#[derive(Clone, Copy, Debug, Default, PartialEq, Eq, Hash)]
pub struct TransferState {
    /// Open or closed.
    pub transfer: Transfer,
    /// How many repeats were counted, over the whole log.
    pub repeats: u64,
    /// How many bytes the new blocks have together, over the whole log.
    pub total: u64,
}

/// A record of a log.
#[derive(Clone, Copy, Debug, PartialEq, Eq, Hash)]
pub struct LogRecord {
    /// 0x38, 0x36 or 0x37.
    pub service: u8,
    /// The kind of an opening, or the counter of a block.
    pub kind_or_counter: u8,
    /// The payload length.
    pub payload: u16,
}

/// Why a log was refused, and the state before the record that was refused.
#[derive(Clone, Copy, Debug, PartialEq, Eq, Hash)]
pub struct Stopped {
    /// The refusal; its first value is the place of the record, or 0 where no record was run.
    pub refusal: Refusal,
    /// The state before that record.
    pub state: TransferState,
}

impl fmt::Display for Stopped {
    fn fmt(&self, f: &mut fmt::Formatter<'_>) -> fmt::Result {
        self.refusal.fmt(f)
    }
}

impl core::error::Error for Stopped {}
