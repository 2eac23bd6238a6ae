//! Each call of the original, and its answer as plain data.
use crate::missing::Error;
use crate::original::format_identifiers::DataFormatIdentifier;
use crate::original::request_file_transfer::{
    DirSizePayload, FileOperationMode, FileSizePayload, NamePayload, PositionPayload,
    RequestFileTransferRequest, RequestFileTransferResponse, SentDataPayload, SizePayload,
};
use crate::original::routine_control::{
    RoutineControlRequest, RoutineControlResponse, RoutineControlSubFunction,
};
use crate::original::status::DtcRecord;
use crate::plain::{FileTransfer, NextCode, Refusal, Routine, place};
use crate::{Decode, DecodeIter, Encode};

/// The refusal by document 01's table.
pub fn refusal(error: Error) -> Refusal {
    match error {
        Error::InsufficientData(i) => Refusal::new(1, i.needed as u64, i.available as u64),
        Error::IncorrectMessageLengthOrInvalidFormat => Refusal::new(2, 0, 0),
        Error::InvalidFileOperationMode(byte) => Refusal::new(3, byte.into(), 0),
        Error::InvalidRoutineControlSubFunction(byte) => Refusal::new(4, byte.into(), 0),
        Error::InvalidDtcRecord(number) => Refusal::new(5, number.into(), 0),
        Error::InvalidWidth(w) => Refusal::new(6, w.width as u64, 0),
        Error::Io
        | Error::InvalidAddressAndLengthFormatIdentifier(_)
        | Error::InvalidEncryptionCompressionMethod(_) => {
            unreachable!("no call of this crate leads to {error:?}")
        }
    }
}

/// Reads a file transfer request.
pub fn read_request(message: &[u8]) -> Result<FileTransfer, Refusal> {
    use RequestFileTransferRequest as R;
    let (request, tail) = R::decode(message).map_err(refusal)?;
    let mut read = FileTransfer {
        kind: request.mode_of_operation().value(),
        tail_len: tail.len(),
        ..FileTransfer::default()
    };
    let name = match request {
        R::AddFile(name, format, size)
        | R::ReplaceFile(name, format, size)
        | R::ResumeFile(name, format, size) => {
            read.format = format.value();
            read.uncompressed = size.file_size_uncompressed;
            read.compressed = size.file_size_compressed;
            name
        }
        R::ReadFile(name, format) => {
            read.format = format.value();
            name
        }
        R::DeleteFile(name) | R::ReadDir(name) => name,
    };
    let name = name.file_path_and_name().as_bytes();
    (read.start, read.len) = (place(message, name), name.len());
    Ok(read)
}

/// Reads a file transfer response.
pub fn read_response(message: &[u8]) -> Result<FileTransfer, Refusal> {
    use RequestFileTransferResponse as R;
    let (response, tail) = R::decode(message).map_err(refusal)?;
    let mut read = FileTransfer {
        tail_len: tail.len(),
        ..FileTransfer::default()
    };
    let (mode, sent, format) = match response {
        R::DeleteFile(mode) => {
            read.kind = mode.value();
            return Ok(read);
        }
        R::AddFile(mode, sent, format) | R::ReplaceFile(mode, sent, format) => (mode, sent, format),
        R::ReadFile(mode, sent, format, size) => {
            read.uncompressed = size.file_size_uncompressed;
            read.compressed = size.file_size_compressed;
            (mode, sent, format)
        }
        R::ReadDir(mode, sent, format, size) => {
            read.uncompressed = size.dir_info_length;
            (mode, sent, format)
        }
        R::ResumeFile(mode, sent, format, position) => {
            read.position = position.file_position;
            (mode, sent, format)
        }
    };
    let block = sent.max_number_of_block_length();
    (read.kind, read.format) = (mode.value(), format.value());
    (read.start, read.len) = (place(message, block), block.len());
    Ok(read)
}

/// Reads a routine request.
pub fn read_routine_request(message: &[u8]) -> Result<Routine, Refusal> {
    let (read, tail) = RoutineControlRequest::decode(message).map_err(refusal)?;
    Ok(Routine {
        suppress: read.suppress_positive_response,
        sub_function: read.sub_function.into(),
        identifier: read.routine_id,
        start: place(message, read.option_record),
        len: read.option_record.len(),
        tail_len: tail.len(),
    })
}

/// Reads a routine response.
pub fn read_routine_response(message: &[u8]) -> Result<Routine, Refusal> {
    let (read, tail) = RoutineControlResponse::decode(message).map_err(refusal)?;
    Ok(Routine {
        suppress: false,
        sub_function: read.sub_function.into(),
        identifier: read.routine_id,
        start: place(message, read.status_record),
        len: read.status_record.len(),
        tail_len: tail.len(),
    })
}

/// Writes a value at the start of the room, of which there has to be plenty.
pub(crate) fn write(
    value: &impl Encode<Error = Error>,
    mut room: &mut [u8],
) -> Result<usize, Refusal> {
    value.encode(&mut room).map_err(refusal)
}

/// Writes a file transfer request of one of the six kinds into plenty of room. The name is text, as it is in the original: what is
/// not UTF-8 cannot be handed over at all.
pub fn write_request(
    kind: u8,
    name: &str,
    format: u8,
    uncompressed: u128,
    compressed: u128,
    room: &mut [u8],
) -> Result<usize, Refusal> {
    use RequestFileTransferRequest as R;
    let name = NamePayload::new(name).map_err(refusal)?;
    let format = DataFormatIdentifier::from(format);
    let size = SizePayload::new(uncompressed, compressed);
    let request = match kind {
        1 => R::AddFile(name, format, size),
        2 => R::DeleteFile(name),
        3 => R::ReplaceFile(name, format, size),
        4 => R::ReadFile(name, format),
        5 => R::ReadDir(name),
        6 => R::ResumeFile(name, format, size),
        _ => panic!("the original cannot be handed the kind {kind}"),
    };
    write(&request, room)
}

/// Writes a file transfer response of one of the six kinds into plenty of room.
pub fn write_response(
    kind: u8,
    block: &[u8],
    format: u8,
    uncompressed: u128,
    compressed: u128,
    position: u64,
    room: &mut [u8],
) -> Result<usize, Refusal> {
    use RequestFileTransferResponse as R;
    let mode = FileOperationMode::from(kind);
    if mode == FileOperationMode::DeleteFile {
        return write(&R::DeleteFile(mode), room);
    }
    let sent = SentDataPayload::new(block).map_err(refusal)?;
    let format = DataFormatIdentifier::from(format);
    let sizes = FileSizePayload::new(uncompressed, compressed);
    let response = match kind {
        1 => R::AddFile(mode, sent, format),
        3 => R::ReplaceFile(mode, sent, format),
        4 => R::ReadFile(mode, sent, format, sizes),
        5 => R::ReadDir(mode, sent, format, DirSizePayload::new(uncompressed)),
        6 => R::ResumeFile(mode, sent, format, PositionPayload::new(position)),
        _ => panic!("the original cannot be handed the kind {kind}"),
    };
    write(&response, room)
}

fn sub_function(byte: u8) -> RoutineControlSubFunction {
    RoutineControlSubFunction::try_from(byte)
        .expect("the original can be handed only the three sub-functions")
}

/// Writes a routine request into plenty of room.
pub fn write_routine_request(
    suppress: bool,
    sub: u8,
    identifier: u16,
    record: &[u8],
    room: &mut [u8],
) -> Result<usize, Refusal> {
    let request = RoutineControlRequest::new(suppress, sub_function(sub), identifier, record);
    write(&request, room)
}

/// Writes a routine response into plenty of room.
pub fn write_routine_response(
    sub: u8,
    identifier: u16,
    record: &[u8],
    room: &mut [u8],
) -> Result<usize, Refusal> {
    let response = RoutineControlResponse::new(sub_function(sub), identifier, record);
    write(&response, room)
}

/// Reads a file transfer request and writes it anew into plenty of room.
pub fn rewrite_request(message: &[u8], room: &mut [u8]) -> Result<usize, Refusal> {
    let (request, _) = RequestFileTransferRequest::decode(message).map_err(refusal)?;
    write(&request, room)
}

/// Reads a file transfer response and writes it anew into plenty of room.
pub fn rewrite_response(message: &[u8], room: &mut [u8]) -> Result<usize, Refusal> {
    let (response, _) = RequestFileTransferResponse::decode(message).map_err(refusal)?;
    write(&response, room)
}

pub(crate) fn bytes(code: DtcRecord) -> [u8; 3] {
    [code.high_byte(), code.middle_byte(), code.low_byte()]
}

/// The trouble code of a number.
pub fn trouble_code(number: u32) -> Result<[u8; 3], Refusal> {
    DtcRecord::try_from(number).map(bytes).map_err(refusal)
}

/// The first trouble code of a buffer.
pub fn next_trouble_code(buffer: &[u8]) -> Result<Option<NextCode>, Refusal> {
    let next = DtcRecord::decode_next(buffer).map_err(refusal)?;
    Ok(next.map(|(code, tail)| NextCode {
        code: bytes(code),
        tail_len: tail.len(),
    }))
}
