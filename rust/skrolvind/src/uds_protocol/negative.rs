//! The negative codes.

/// Why an answer is negative: the codes that the lists of file transfer and routine control have. The original's own file has
/// more of them, and was not at hand.
#[derive(Clone, Copy, Debug, PartialEq, Eq)]
#[repr(u8)]
#[non_exhaustive]
pub enum NegativeResponseCode {
    /// The sub-function is not supported.
    SubFunctionNotSupported = 0x12,
    /// The message has the wrong length or form.
    IncorrectMessageLengthOrInvalidFormat = 0x13,
    /// It cannot be done now.
    ConditionsNotCorrect = 0x22,
    /// Something else has to come before.
    RequestSequenceError = 0x24,
    /// Something in the request is out of range.
    RequestOutOfRange = 0x31,
    /// The server is locked.
    SecurityAccessDenied = 0x33,
    /// Whoever asks has to say who it is.
    AuthenticationRequired = 0x34,
    /// The transfer is not accepted.
    UploadDownloadNotAccepted = 0x70,
    /// Memory could not be written or erased.
    GeneralProgrammingFailure = 0x72,
}

impl From<NegativeResponseCode> for u8 {
    fn from(code: NegativeResponseCode) -> Self {
        code as Self
    }
}
