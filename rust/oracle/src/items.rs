//! What the original has beside the messages: masks, names of bytes, trouble codes, negative codes and the payloads of file transfer
//! messages, each with what it says of itself.
use crate::ask::{bytes, refusal, write};
use crate::original::format_identifiers::DataFormatIdentifier;
use crate::original::request_file_transfer::{
    DirSizePayload, FileOperationMode, FileSizePayload, NamePayload, PositionPayload,
    RequestFileTransferRequest, SentDataPayload, SizePayload,
};
use crate::original::routine_control::{RoutineControlRequest, RoutineControlSubFunction};
use crate::original::status::{
    CLEAR_ALL_DTCS, DtcFormatIdentifier, DtcRecord, DtcSeverityMask, DtcStatusMask,
    DtcStoredDataRecordNumber, FunctionalGroupIdentifier,
};
use crate::plain::{Payload, PayloadSort, Refusal, place};
use crate::{Decode, DecodeIter, Encode, Error, NegativeResponseCode};

const STATUS: [DtcStatusMask; 8] = [
    DtcStatusMask::TestFailed,
    DtcStatusMask::TestFailedThisOperationCycle,
    DtcStatusMask::PendingDtc,
    DtcStatusMask::ConfirmedDtc,
    DtcStatusMask::TestNotCompletedSinceLastClear,
    DtcStatusMask::TestFailedSinceLastClear,
    DtcStatusMask::TestNotCompletedThisOperationCycle,
    DtcStatusMask::WarningIndicatorRequested,
];
const SEVERITY: [DtcSeverityMask; 8] = [
    DtcSeverityMask::DtcClass0,
    DtcSeverityMask::DtcClass1,
    DtcSeverityMask::DtcClass2,
    DtcSeverityMask::DtcClass3,
    DtcSeverityMask::DtcClass4,
    DtcSeverityMask::MaintenanceOnly,
    DtcSeverityMask::CheckAtNextHalt,
    DtcSeverityMask::CheckImmediately,
];

/// The bits of a status mask, and whether it has each named one, in the order of the names.
pub fn status(byte: u8) -> (u8, [bool; 8]) {
    let mask = DtcStatusMask::from(byte);
    (mask.bits(), STATUS.map(|named| mask.intersects(named)))
}

/// The same of a severity mask, and whether it is valid.
pub fn severity(byte: u8) -> (u8, [bool; 8], bool) {
    let mask = DtcSeverityMask::from(byte);
    let has = SEVERITY.map(|named| mask.intersects(named));
    (mask.bits(), has, mask.is_valid())
}

/// The bits of either status mask, and those that both have.
pub fn status_joined(a: u8, b: u8) -> [u8; 2] {
    let (a, b) = (DtcStatusMask::from(a), DtcStatusMask::from(b));
    [a | b, a & b].map(|mask| mask.bits())
}

/// The same of severity masks.
pub fn severity_joined(a: u8, b: u8) -> [u8; 2] {
    let (a, b) = (DtcSeverityMask::from(a), DtcSeverityMask::from(b));
    [a | b, a & b].map(|mask| mask.bits())
}

/// The named bits of the status mask, and of the severity mask.
pub fn named_bits() -> [[u8; 8]; 2] {
    [
        STATUS.map(|named| named.bits()),
        SEVERITY.map(|named| named.bits()),
    ]
}

/// Which format a byte is, counted from 0 in the order of the source, and its byte.
pub fn format(byte: u8) -> [u8; 2] {
    use DtcFormatIdentifier as F;
    let format = F::from(byte);
    let which = match format {
        F::SaeJ2012DaDtcFormat00 => 0,
        F::Iso14229_1DtcFormat => 1,
        F::SaeJ1939_73DtcFormat => 2,
        F::Iso11992_4DtcFormat => 3,
        F::SaeJ2012DaDtcFormat04 => 4,
        F::IsoSaeReserved(_) => 5,
    };
    [which, format.value()]
}

/// Which group a byte is, likewise.
pub fn group(byte: u8) -> [u8; 2] {
    use FunctionalGroupIdentifier as G;
    let group = G::from(byte);
    let which = match group {
        G::IsoSaeReserved(_) => 0,
        G::EmissionsSystemGroup => 1,
        G::SafetySystemGroup => 2,
        G::LegislativeSystemGroup(_) => 3,
        G::VobdSystem => 4,
    };
    [which, group.value()]
}

/// The byte of a stored-data record number, and whether it is reserved.
pub fn record_number(byte: u8) -> (u8, bool) {
    let number = DtcStoredDataRecordNumber::new(byte);
    (number.value(), number.is_reserved())
}

/// Beside `value`: the byte that each name of a byte is converted to, and the bytes that it finds itself equal to. Of formats, groups,
/// modes, format bytes and record numbers; the last are converted from a byte alone.
pub fn ways_back(byte: u8) -> [(u8, Vec<u8>); 5] {
    fn ways<T: PartialEq<u8> + Copy>(name: T, back: impl Fn(T) -> u8) -> (u8, Vec<u8>) {
        let equal = (0..=255).filter(|other| name == *other);
        (back(name), equal.collect())
    }
    [
        ways(DtcFormatIdentifier::from(byte), u8::from),
        ways(FunctionalGroupIdentifier::from(byte), u8::from),
        ways(FileOperationMode::from(byte), u8::from),
        ways(DataFormatIdentifier::from(byte), u8::from),
        ways(DtcStoredDataRecordNumber::from(byte), |number| {
            number.value()
        }),
    ]
}

/// What the four trouble-code fields of one byte read from the start of a buffer: status, severity, group and record number. The byte
/// of each, and how many bytes follow it.
pub fn byte_fields(buffer: &[u8]) -> [Result<(u8, usize), Refusal>; 4] {
    fn read<'a, T: Decode<'a, Error = Error>>(
        buffer: &'a [u8],
        byte: impl FnOnce(T) -> u8,
    ) -> Result<(u8, usize), Refusal> {
        let (field, tail) = T::decode(buffer).map_err(refusal)?;
        Ok((byte(field), tail.len()))
    }
    [
        read(buffer, |mask: DtcStatusMask| mask.bits()),
        read(buffer, |mask: DtcSeverityMask| mask.bits()),
        read(buffer, |group: FunctionalGroupIdentifier| group.value()),
        read(buffer, |number: DtcStoredDataRecordNumber| number.value()),
    ]
}

/// How many bytes each of the four writes, and they themselves.
pub fn byte_fields_written(byte: u8) -> [Vec<u8>; 4] {
    [
        written(&DtcStatusMask::from(byte)),
        written(&DtcSeverityMask::from(byte)),
        written(&FunctionalGroupIdentifier::from(byte)),
        written(&DtcStoredDataRecordNumber::from(byte)),
    ]
}

/// What a value writes into plenty of room.
fn written(value: &impl Encode<Error = Error>) -> Vec<u8> {
    let mut room = vec![0; 66_000];
    let count = write(value, &mut room).expect("there is plenty of room");
    room.truncate(count);
    room
}

/// The three bytes of a trouble code, and its number by each way to it.
pub fn code([high, middle, low]: [u8; 3]) -> ([u8; 3], [u32; 2]) {
    let code = DtcRecord::new(high, middle, low);
    (bytes(code), [code.to_u32(), code.into()])
}

/// Whether two trouble codes are equal.
pub fn codes_equal(a: [u8; 3], b: [u8; 3]) -> bool {
    let [a, b] = [a, b].map(|[high, middle, low]| DtcRecord::new(high, middle, low));
    a == b
}

/// What a trouble code writes.
pub fn code_written([high, middle, low]: [u8; 3]) -> Vec<u8> {
    written(&DtcRecord::new(high, middle, low))
}

/// The trouble code at the start of a buffer, and how many bytes follow it.
pub fn code_read(buffer: &[u8]) -> Result<([u8; 3], usize), Refusal> {
    let (code, tail) = DtcRecord::decode(buffer).map_err(refusal)?;
    Ok((bytes(code), tail.len()))
}

/// Of the 65,536 numbers whose third byte is `high`: of how many there is a trouble code, how many of these give the number back, are
/// written as the number's three bytes, and are read from those as a code equal to them.
pub fn codes_of(high: u8) -> [u64; 4] {
    let mut counts = [0; 4];
    for low in 0..=0xFFFF {
        let number = u32::from(high) << 16 | low;
        let Ok(code) = DtcRecord::try_from(number) else {
            continue;
        };
        let mut room = [0; 3];
        let count = write(&code, &mut room);
        let read = DtcRecord::decode(&room);
        let back = code.to_u32() == number && u32::from(code) == number;
        let wrote = count == Ok(3) && room == number.to_be_bytes()[1..];
        let again = matches!(read, Ok((read, [])) if read == code);
        for (sum, one) in counts.iter_mut().zip([true, back, wrote, again]) {
            *sum += u64::from(one);
        }
    }
    counts
}

/// How many bytes a trouble code has, and the one that stands for all.
pub fn code_constants() -> (usize, [u8; 3]) {
    let size = <DtcRecord as DecodeIter>::WIRE_SIZE;
    let size = size.expect("every trouble code has as many bytes");
    (size, bytes(CLEAR_ALL_DTCS))
}

/// The byte of the sub-function of a byte.
pub fn sub_function(byte: u8) -> Result<u8, Refusal> {
    let sub_function = RoutineControlSubFunction::try_from(byte).map_err(refusal)?;
    Ok(sub_function.into())
}

/// The negative codes of routine control, and of file transfer.
pub fn negative_codes() -> [Vec<u8>; 2] {
    [
        RoutineControlRequest::allowed_nack_codes(),
        RequestFileTransferRequest::allowed_nack_codes(),
    ]
    .map(|codes| {
        codes
            .iter()
            .map(|code: &NegativeResponseCode| *code as u8)
            .collect()
    })
}

/// Whether a byte is the mode of one of the six kinds, and its byte.
pub fn mode(byte: u8) -> (bool, u8) {
    let mode = FileOperationMode::from(byte);
    let known = !matches!(mode, FileOperationMode::IsoSaeReserved(_));
    (known, mode.value())
}

/// The byte of a format byte.
pub fn format_byte(byte: u8) -> u8 {
    DataFormatIdentifier::from(byte).value()
}

/// What a request asks for, as its mode byte.
pub fn mode_of_operation(message: &[u8]) -> Result<u8, Refusal> {
    let (request, _) = RequestFileTransferRequest::decode(message).map_err(refusal)?;
    Ok(request.mode_of_operation().value())
}

/// The payload at the start of a buffer, and how many bytes follow it.
pub fn payload_read(sort: PayloadSort, buffer: &[u8]) -> Result<(Payload, usize), Refusal> {
    let mut read = Payload::default();
    let tail = match sort {
        PayloadSort::Sizes => {
            let (sizes, tail) = SizePayload::decode(buffer).map_err(refusal)?;
            read.uncompressed = sizes.file_size_uncompressed;
            read.compressed = sizes.file_size_compressed;
            tail
        }
        PayloadSort::FileSizes => {
            let (sizes, tail) = FileSizePayload::decode(buffer).map_err(refusal)?;
            read.uncompressed = sizes.file_size_uncompressed;
            read.compressed = sizes.file_size_compressed;
            tail
        }
        PayloadSort::DirSize => {
            let (size, tail) = DirSizePayload::decode(buffer).map_err(refusal)?;
            read.uncompressed = size.dir_info_length;
            tail
        }
        PayloadSort::Position => {
            let (position, tail) = PositionPayload::decode(buffer).map_err(refusal)?;
            read.position = position.file_position;
            tail
        }
        PayloadSort::Block => {
            let (sent, tail) = SentDataPayload::decode(buffer).map_err(refusal)?;
            let block = sent.max_number_of_block_length();
            (read.start, read.len) = (place(buffer, block), block.len());
            tail
        }
        PayloadSort::Name => {
            let (payload, tail) = NamePayload::decode(buffer).map_err(refusal)?;
            let name = payload.file_path_and_name().as_bytes();
            (read.start, read.len) = (place(buffer, name), name.len());
            tail
        }
    };
    Ok((read, tail.len()))
}

/// What a payload writes that is made of these numbers, or of this block length or name; a name has to be text.
pub fn payload_written(
    sort: PayloadSort,
    payload: &Payload,
    part: &[u8],
) -> Result<Vec<u8>, Refusal> {
    Ok(match sort {
        PayloadSort::Sizes => written(&SizePayload::new(payload.uncompressed, payload.compressed)),
        PayloadSort::FileSizes => written(&FileSizePayload::new(
            payload.uncompressed,
            payload.compressed,
        )),
        PayloadSort::DirSize => written(&DirSizePayload::new(payload.uncompressed)),
        PayloadSort::Position => written(&PositionPayload::new(payload.position)),
        PayloadSort::Block => written(&SentDataPayload::new(part).map_err(refusal)?),
        PayloadSort::Name => {
            let name = core::str::from_utf8(part).expect("a name is text");
            written(&NamePayload::new(name).map_err(refusal)?)
        }
    })
}

/// What is held of a block length.
pub fn block_held(block: &[u8]) -> Result<&[u8], Refusal> {
    let sent = SentDataPayload::new(block).map_err(refusal)?;
    Ok(sent.max_number_of_block_length())
}

/// What is held of a name.
pub fn name_held(name: &str) -> Result<&str, Refusal> {
    let payload = NamePayload::new(name).map_err(refusal)?;
    Ok(payload.file_path_and_name())
}
