//! Stand-ins for the original's own files that were not handed over: its errors, the negative codes, and the sub-function byte
//! with its bit for silence.
//!
//! What they decide, and the original files therefore do not: that the bit 0x80 of a routine request asks for silence, in what is
//! read and in what is written; that the low seven bits alone are judged, and that refusal 4 carries those (an exception of the
//! stated domain); and the numbers of the negative codes.
use automotive_wire_codec::{Incomplete, InvalidWidth, ReadNumberError, WriteNumberError};

/// Every refusal that the original files name.
#[derive(Clone, Copy, Debug, PartialEq, Eq)]
pub enum Error {
    InsufficientData(Incomplete),
    IncorrectMessageLengthOrInvalidFormat,
    InvalidFileOperationMode(u8),
    InvalidRoutineControlSubFunction(u8),
    InvalidDtcRecord(u32),
    InvalidWidth(InvalidWidth),
    InvalidAddressAndLengthFormatIdentifier(u8),
    InvalidEncryptionCompressionMethod(u8),
    Io,
}

impl Error {
    pub fn io(_: impl embedded_io::Error) -> Self {
        Self::Io
    }
}

impl From<ReadNumberError> for Error {
    fn from(error: ReadNumberError) -> Self {
        match error {
            ReadNumberError::Incomplete(i) => Self::InsufficientData(i),
            ReadNumberError::InvalidWidth(w) => Self::InvalidWidth(w),
        }
    }
}

impl<E: embedded_io::Error> From<WriteNumberError<E>> for Error {
    fn from(WriteNumberError(error): WriteNumberError<E>) -> Self {
        Self::io(error)
    }
}

/// The negative codes that the original files name, with document 01's numbers.
#[derive(Clone, Copy, Debug, PartialEq, Eq)]
#[repr(u8)]
pub enum NegativeResponseCode {
    SubFunctionNotSupported = 0x12,
    IncorrectMessageLengthOrInvalidFormat = 0x13,
    ConditionsNotCorrect = 0x22,
    RequestSequenceError = 0x24,
    RequestOutOfRange = 0x31,
    SecurityAccessDenied = 0x33,
    AuthenticationRequired = 0x34,
    UploadDownloadNotAccepted = 0x70,
    GeneralProgrammingFailure = 0x72,
}

const SILENCE: u8 = 0x80;

/// A sub-function, and whether the positive response is to be suppressed.
#[derive(Clone, Copy, Debug, PartialEq, Eq)]
pub struct SuppressablePositiveResponse<T> {
    suppress: bool,
    sub_function: T,
}

impl<T: Copy> SuppressablePositiveResponse<T> {
    pub fn new(suppress: bool, sub_function: T) -> Self {
        Self {
            suppress,
            sub_function,
        }
    }

    pub fn suppress_positive_response(&self) -> bool {
        self.suppress
    }

    pub fn value(&self) -> T {
        self.sub_function
    }
}

impl<T: Into<u8>> From<SuppressablePositiveResponse<T>> for u8 {
    fn from(both: SuppressablePositiveResponse<T>) -> u8 {
        both.sub_function.into() | if both.suppress { SILENCE } else { 0 }
    }
}

impl<T: TryFrom<u8, Error = Error>> TryFrom<u8> for SuppressablePositiveResponse<T> {
    type Error = Error;

    fn try_from(byte: u8) -> Result<Self, Error> {
        let sub_function = T::try_from(byte & !SILENCE)?;
        let suppress = byte & SILENCE != 0;
        Ok(Self {
            suppress,
            sub_function,
        })
    }
}
