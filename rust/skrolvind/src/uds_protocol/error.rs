//! Why something is refused, by the original's names.
use crate::Refusal;
use core::fmt;

/// A field has fewer bytes than it needs.
#[derive(Clone, Copy, Debug, PartialEq, Eq)]
pub struct Incomplete {
    /// How many it needs.
    pub needed: usize,
    /// How many there are.
    pub available: usize,
}

/// A size is 1 to 16 bytes wide, and this one is not.
#[derive(Clone, Copy, Debug, PartialEq, Eq)]
pub struct InvalidWidth {
    /// How wide it is said to be.
    pub width: usize,
}

/// Bytes are left over where a value has to be the whole buffer.
#[derive(Clone, Copy, Debug, PartialEq, Eq)]
pub struct TrailingBytes {
    /// How many.
    pub count: usize,
}

/// The sink has less room than what is to be written; nothing was written.
#[derive(Clone, Copy, Debug, PartialEq, Eq)]
pub struct NoRoom {
    /// How many bytes are to be written.
    pub needed: usize,
    /// How many the sink has.
    pub room: usize,
}

/// Why something is refused.
///
/// The original's own file of errors was not at hand. The variants that its other files name have their names here;
/// `InvalidWidth`, `TrailingBytes` and `Io` are named after its types and its constructor, and `Refused` is ours.
#[derive(Clone, Copy, Debug, PartialEq, Eq)]
#[non_exhaustive]
pub enum Error {
    /// [`Refusal::TooShort`]: a field has fewer bytes than it needs.
    InsufficientData(Incomplete),
    /// [`Refusal::WrongFormat`]: the name is not UTF-8, or something is too long.
    IncorrectMessageLengthOrInvalidFormat,
    /// [`Refusal::UnknownMode`]: no file operation has this number.
    InvalidFileOperationMode(u8),
    /// [`Refusal::UnknownSubFunction`]: no routine sub-function has this number.
    InvalidRoutineControlSubFunction(u8),
    /// [`Refusal::NoTroubleCode`]: no trouble code has this number.
    InvalidDtcRecord(u32),
    /// [`Refusal::BadWidth`]: a size is 1 to 16 bytes wide.
    InvalidWidth(InvalidWidth),
    /// A compression or encryption method that is no half of a byte.
    InvalidEncryptionCompressionMethod(u8),
    /// [`Refusal::LeftOver`]: bytes are left over.
    TrailingBytes(TrailingBytes),
    /// [`Refusal::NoRoom`]: the sink has too little room.
    Io(NoRoom),
    /// Any other refusal of the library; no call of this module answers it.
    Refused(Refusal),
}

impl From<Refusal> for Error {
    fn from(refusal: Refusal) -> Self {
        match refusal {
            Refusal::TooShort { needed, available } => {
                Self::InsufficientData(Incomplete { needed, available })
            }
            Refusal::WrongFormat { .. } => Self::IncorrectMessageLengthOrInvalidFormat,
            Refusal::UnknownMode(byte) => Self::InvalidFileOperationMode(byte),
            Refusal::UnknownSubFunction(byte) => Self::InvalidRoutineControlSubFunction(byte),
            Refusal::NoTroubleCode(number) => Self::InvalidDtcRecord(number),
            Refusal::BadWidth(width) => Self::InvalidWidth(InvalidWidth { width }),
            Refusal::NoRoom { needed, room } => Self::Io(NoRoom { needed, room }),
            Refusal::LeftOver(count) => Self::TrailingBytes(TrailingBytes { count }),
            other => Self::Refused(other),
        }
    }
}

impl From<TrailingBytes> for Error {
    fn from(left_over: TrailingBytes) -> Self {
        Self::TrailingBytes(left_over)
    }
}

impl fmt::Display for Error {
    fn fmt(&self, f: &mut fmt::Formatter<'_>) -> fmt::Result {
        match self {
            Self::InsufficientData(Incomplete { needed, available }) => {
                write!(f, "a field needs {needed} bytes and has {available}")
            }
            Self::IncorrectMessageLengthOrInvalidFormat => {
                f.write_str("the name is not UTF-8, or something is too long")
            }
            Self::InvalidFileOperationMode(byte) => {
                write!(f, "no file operation has the number {byte:#04X}")
            }
            Self::InvalidRoutineControlSubFunction(byte) => {
                write!(f, "no routine sub-function has the number {byte:#04X}")
            }
            Self::InvalidDtcRecord(number) => {
                write!(f, "no trouble code has the number {number:#010X}")
            }
            Self::InvalidWidth(InvalidWidth { width }) => {
                write!(f, "a size is 1 to 16 bytes wide, not {width}")
            }
            Self::InvalidEncryptionCompressionMethod(method) => {
                write!(f, "the method {method:#04X} is no half of a byte")
            }
            Self::TrailingBytes(TrailingBytes { count }) => {
                write!(f, "{count} bytes are left over")
            }
            Self::Io(NoRoom { needed, room }) => {
                write!(
                    f,
                    "{needed} bytes are to be written and there is room for {room}"
                )
            }
            Self::Refused(refusal) => refusal.fmt(f),
        }
    }
}

impl core::error::Error for Error {}
