//! File transfer.
use super::{
    DataFormatIdentifier, Decode, DirSizePayload, Encode, Error, FileSizePayload, NamePayload,
    NegativeResponseCode, PositionPayload, SentDataPayload, SizePayload, Write,
};
use crate::{Kind, Request, Response};

/// What is done with a file.
#[derive(Clone, Copy, Debug, PartialEq, Eq)]
#[repr(u8)]
#[non_exhaustive]
pub enum FileOperationMode {
    /// Any other byte.
    IsoSaeReserved(u8),
    /// Add a file.
    AddFile = 0x01,
    /// Delete a file.
    DeleteFile = 0x02,
    /// Replace a file.
    ReplaceFile = 0x03,
    /// Read a file.
    ReadFile = 0x04,
    /// Read a directory.
    ReadDir = 0x05,
    /// Go on with a file.
    ResumeFile = 0x06,
}

impl FileOperationMode {
    /// The byte.
    #[must_use]
    pub const fn value(&self) -> u8 {
        match *self {
            Self::IsoSaeReserved(byte) => byte,
            Self::AddFile => Kind::AddFile as u8,
            Self::DeleteFile => Kind::DeleteFile as u8,
            Self::ReplaceFile => Kind::ReplaceFile as u8,
            Self::ReadFile => Kind::ReadFile as u8,
            Self::ReadDir => Kind::ReadDir as u8,
            Self::ResumeFile => Kind::ResumeFile as u8,
        }
    }

    /// The mode of a kind.
    const fn of(kind: Kind) -> Self {
        match kind {
            Kind::AddFile => Self::AddFile,
            Kind::DeleteFile => Self::DeleteFile,
            Kind::ReplaceFile => Self::ReplaceFile,
            Kind::ReadFile => Self::ReadFile,
            Kind::ReadDir => Self::ReadDir,
            Kind::ResumeFile => Self::ResumeFile,
        }
    }
}

impl From<Kind> for FileOperationMode {
    fn from(kind: Kind) -> Self {
        Self::of(kind)
    }
}

impl From<u8> for FileOperationMode {
    fn from(byte: u8) -> Self {
        let known = Kind::from_number(byte.into());
        known.map_or(Self::IsoSaeReserved(byte), Self::from)
    }
}

impl From<FileOperationMode> for u8 {
    fn from(mode: FileOperationMode) -> Self {
        mode.value()
    }
}

impl PartialEq<u8> for FileOperationMode {
    fn eq(&self, byte: &u8) -> bool {
        self.value() == *byte
    }
}

/// The negative codes of file transfer, in the original's order.
const NEGATIVE_CODES: [NegativeResponseCode; 7] = [
    NegativeResponseCode::IncorrectMessageLengthOrInvalidFormat,
    NegativeResponseCode::ConditionsNotCorrect,
    NegativeResponseCode::RequestSequenceError,
    NegativeResponseCode::RequestOutOfRange,
    NegativeResponseCode::SecurityAccessDenied,
    NegativeResponseCode::AuthenticationRequired,
    NegativeResponseCode::UploadDownloadNotAccepted,
];

/// A file transfer request, without its service byte.
#[derive(Clone, Copy, Debug, PartialEq, Eq)]
#[non_exhaustive]
pub enum RequestFileTransferRequest<'a> {
    /// Add a file.
    AddFile(NamePayload<'a>, DataFormatIdentifier, SizePayload),
    /// Delete a file.
    DeleteFile(NamePayload<'a>),
    /// Replace a file.
    ReplaceFile(NamePayload<'a>, DataFormatIdentifier, SizePayload),
    /// Read a file.
    ReadFile(NamePayload<'a>, DataFormatIdentifier),
    /// Read a directory.
    ReadDir(NamePayload<'a>),
    /// Go on with a file.
    ResumeFile(NamePayload<'a>, DataFormatIdentifier, SizePayload),
}

impl<'a> RequestFileTransferRequest<'a> {
    /// What is asked for.
    #[must_use]
    pub const fn mode_of_operation(&self) -> FileOperationMode {
        FileOperationMode::of(self.fields().kind)
    }

    /// The negative codes that the standard lists for file transfer.
    #[must_use]
    pub fn allowed_nack_codes() -> &'static [NegativeResponseCode] {
        &NEGATIVE_CODES
    }

    /// The request that it is; what the variant lacks is 0.
    const fn fields(&self) -> Request<'a> {
        const NONE: (DataFormatIdentifier, SizePayload) =
            (DataFormatIdentifier::NONE, SizePayload::new(0, 0));
        let (kind, name, (format, sizes)) = match *self {
            Self::AddFile(name, format, sizes) => (Kind::AddFile, name, (format, sizes)),
            Self::DeleteFile(name) => (Kind::DeleteFile, name, NONE),
            Self::ReplaceFile(name, format, sizes) => (Kind::ReplaceFile, name, (format, sizes)),
            Self::ReadFile(name, format) => (Kind::ReadFile, name, (format, NONE.1)),
            Self::ReadDir(name) => (Kind::ReadDir, name, NONE),
            Self::ResumeFile(name, format, sizes) => (Kind::ResumeFile, name, (format, sizes)),
        };
        Request {
            kind,
            name: name.file_path_and_name,
            format: format.value(),
            uncompressed: sizes.file_size_uncompressed,
            compressed: sizes.file_size_compressed,
        }
    }
}

impl Encode for RequestFileTransferRequest<'_> {
    type Error = Error;

    fn encode(&self, writer: &mut impl Write) -> Result<usize, Error> {
        let request = self.fields();
        writer.lend(|room| Ok(crate::write_request(&request, room)?))
    }
}

impl<'a> Decode<'a> for RequestFileTransferRequest<'a> {
    type Error = Error;

    fn decode(buf: &'a [u8]) -> Result<(Self, &'a [u8]), Error> {
        let (read, tail) = crate::read_request(buf)?;
        let name = NamePayload {
            file_path_and_name: read.name,
        };
        let format = read.format.into();
        let sizes = SizePayload::new(read.uncompressed, read.compressed);
        let request = match read.kind {
            Kind::AddFile => Self::AddFile(name, format, sizes),
            Kind::DeleteFile => Self::DeleteFile(name),
            Kind::ReplaceFile => Self::ReplaceFile(name, format, sizes),
            Kind::ReadFile => Self::ReadFile(name, format),
            Kind::ReadDir => Self::ReadDir(name),
            Kind::ResumeFile => Self::ResumeFile(name, format, sizes),
        };
        Ok((request, tail))
    }
}

/// A file transfer response, without its service byte. Its mode stands beside the payloads, as in the original.
#[derive(Clone, Copy, Debug, PartialEq, Eq)]
#[non_exhaustive]
pub enum RequestFileTransferResponse<'a> {
    /// To adding a file.
    AddFile(FileOperationMode, SentDataPayload<'a>, DataFormatIdentifier),
    /// To deleting a file.
    DeleteFile(FileOperationMode),
    /// To replacing a file.
    ReplaceFile(FileOperationMode, SentDataPayload<'a>, DataFormatIdentifier),
    /// To reading a file, with its sizes.
    ReadFile(
        FileOperationMode,
        SentDataPayload<'a>,
        DataFormatIdentifier,
        FileSizePayload,
    ),
    /// To reading a directory, with its size.
    ReadDir(
        FileOperationMode,
        SentDataPayload<'a>,
        DataFormatIdentifier,
        DirSizePayload,
    ),
    /// To going on with a file, with the position.
    ResumeFile(
        FileOperationMode,
        SentDataPayload<'a>,
        DataFormatIdentifier,
        PositionPayload,
    ),
}

/// A response of this kind; what the kind lacks is 0 or empty.
const fn response<'a>(
    kind: Kind,
    sent: SentDataPayload<'a>,
    format: DataFormatIdentifier,
) -> Response<'a> {
    Response {
        kind,
        block: sent.max_number_of_block_length,
        format: format.value(),
        uncompressed: 0,
        compressed: 0,
        position: 0,
    }
}

impl<'a> RequestFileTransferResponse<'a> {
    /// The mode that it holds, and the response that its variant is.
    fn fields(&self) -> (FileOperationMode, Response<'a>) {
        match *self {
            Self::AddFile(mode, sent, format) => (mode, response(Kind::AddFile, sent, format)),
            Self::ReplaceFile(mode, sent, format) => {
                (mode, response(Kind::ReplaceFile, sent, format))
            }
            Self::DeleteFile(mode) => {
                let none = SentDataPayload {
                    max_number_of_block_length: &[],
                };
                let format = DataFormatIdentifier::NONE;
                (mode, response(Kind::DeleteFile, none, format))
            }
            Self::ReadFile(mode, sent, format, sizes) => {
                let mut read = response(Kind::ReadFile, sent, format);
                read.uncompressed = sizes.file_size_uncompressed;
                read.compressed = sizes.file_size_compressed;
                (mode, read)
            }
            Self::ReadDir(mode, sent, format, size) => {
                let mut read = response(Kind::ReadDir, sent, format);
                read.uncompressed = size.dir_info_length;
                (mode, read)
            }
            Self::ResumeFile(mode, sent, format, at) => {
                let mut resumed = response(Kind::ResumeFile, sent, format);
                resumed.position = at.file_position;
                (mode, resumed)
            }
        }
    }
}

/// A mode that is not the variant's is [`Error::InvalidFileOperationMode`]: no message has it, so that nothing is written.
impl Encode for RequestFileTransferResponse<'_> {
    type Error = Error;

    fn encode(&self, writer: &mut impl Write) -> Result<usize, Error> {
        let (mode, response) = self.fields();
        if mode != response.kind as u8 {
            return Err(Error::InvalidFileOperationMode(mode.value()));
        }
        writer.lend(|room| Ok(crate::write_response(&response, room)?))
    }
}

impl<'a> Decode<'a> for RequestFileTransferResponse<'a> {
    type Error = Error;

    fn decode(buf: &'a [u8]) -> Result<(Self, &'a [u8]), Error> {
        let (read, tail) = crate::read_response(buf)?;
        let mode = read.kind.into();
        let sent = SentDataPayload {
            max_number_of_block_length: read.block,
        };
        let format = read.format.into();
        let response = match read.kind {
            Kind::AddFile => Self::AddFile(mode, sent, format),
            Kind::DeleteFile => Self::DeleteFile(mode),
            Kind::ReplaceFile => Self::ReplaceFile(mode, sent, format),
            Kind::ReadFile => {
                let sizes = FileSizePayload::new(read.uncompressed, read.compressed);
                Self::ReadFile(mode, sent, format, sizes)
            }
            Kind::ReadDir => {
                let size = DirSizePayload::new(read.uncompressed);
                Self::ReadDir(mode, sent, format, size)
            }
            Kind::ResumeFile => {
                let position = PositionPayload::new(read.position);
                Self::ResumeFile(mode, sent, format, position)
            }
        };
        Ok((response, tail))
    }
}
