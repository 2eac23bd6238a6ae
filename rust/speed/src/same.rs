//! Whether what the original answers and what this port answers say the same.
use crate::desk::Fault;
use oracle::itself::{
    DtcRecord, Error, RequestFileTransferRequest, RequestFileTransferResponse,
    RoutineControlRequest, RoutineControlResponse,
};
use skrolvind::{Refusal, Request, Response, RoutineRequest, RoutineResponse, TroubleCode};

/// What was read, and the tail.
pub type Read<V> = (V, &'static [u8]);

/// Only requests of `AddFile`, `DeleteFile` and `ReadDir` are timed.
pub fn request(
    (original, tail): &Read<RequestFileTransferRequest<'static>>,
    (port, port_tail): &Read<Request<'static>>,
) -> bool {
    use RequestFileTransferRequest as R;
    let (name, format, (uncompressed, compressed)) = match original {
        R::AddFile(name, format, size) => {
            let sizes = (size.file_size_uncompressed, size.file_size_compressed);
            (name, format.value(), sizes)
        }
        R::DeleteFile(name) | R::ReadDir(name) => (name, 0, (0, 0)),
        _ => return false,
    };
    let wanted = Request {
        kind: port.kind,
        name: name.file_path_and_name(),
        format,
        uncompressed,
        compressed,
    };
    original.mode_of_operation() == port.kind as u8 && *port == wanted && port_tail == tail
}

/// All responses but those of `ReplaceFile` are timed.
pub fn response(
    (original, tail): &Read<RequestFileTransferResponse<'static>>,
    (port, port_tail): &Read<Response<'static>>,
) -> bool {
    use RequestFileTransferResponse as R;
    let mut wanted = Response {
        kind: port.kind,
        block: &[],
        format: 0,
        uncompressed: 0,
        compressed: 0,
        position: 0,
    };
    let mode = match original {
        R::DeleteFile(mode) => mode,
        R::AddFile(mode, sent, format)
        | R::ReadFile(mode, sent, format, _)
        | R::ReadDir(mode, sent, format, _)
        | R::ResumeFile(mode, sent, format, _) => {
            wanted.block = sent.max_number_of_block_length();
            wanted.format = format.value();
            mode
        }
        _ => return false,
    };
    match original {
        R::ReadFile(.., size) => {
            wanted.uncompressed = size.file_size_uncompressed;
            wanted.compressed = size.file_size_compressed;
        }
        R::ReadDir(.., size) => wanted.uncompressed = size.dir_info_length,
        R::ResumeFile(.., place) => wanted.position = place.file_position,
        _ => {}
    }
    *mode == port.kind as u8 && *port == wanted && port_tail == tail
}

/// The tail of a routine message is always empty, and this port has none.
pub fn routine_request(
    (original, tail): &Read<RoutineControlRequest<'static>>,
    port: &RoutineRequest<'static>,
) -> bool {
    let wanted = RoutineRequest {
        suppress: original.suppress_positive_response,
        sub_function: port.sub_function,
        identifier: original.routine_id,
        record: original.option_record,
    };
    u8::from(original.sub_function) == port.sub_function as u8 && *port == wanted && tail.is_empty()
}

pub fn routine_response(
    (original, tail): &Read<RoutineControlResponse<'static>>,
    port: &RoutineResponse<'static>,
) -> bool {
    let wanted = RoutineResponse {
        sub_function: port.sub_function,
        identifier: original.routine_id,
        record: original.status_record,
    };
    u8::from(original.sub_function) == port.sub_function as u8 && *port == wanted && tail.is_empty()
}

pub fn trouble_code(
    original: &Result<DtcRecord, Error>,
    port: &Result<TroubleCode, Refusal>,
) -> bool {
    matches!((original, port), (Ok(o), Ok(p)) if same_code(o, p))
}

pub fn same_code(original: &DtcRecord, port: &TroubleCode) -> bool {
    let original = (
        original.high_byte(),
        original.middle_byte(),
        original.low_byte(),
    );
    original == (port.high, port.middle, port.low)
}

/// What a refusal for a name carries is this port's own.
pub fn refusal(original: Error, port: Refusal) -> bool {
    let original = oracle::refusal(original);
    let carries = (original.first, original.second) == (port.first(), port.second());
    original.number == port.number() && (carries || original.number == 2)
}

/// Whether both refuse, and with the same.
pub fn refused<A, B>(original: &Result<A, Error>, port: &Result<B, Refusal>) -> bool {
    matches!((original, port), (Err(o), Err(p)) if refusal(*o, *p))
}

pub fn judged(original: &Result<(), Fault>, port: &Result<(), Refusal>) -> bool {
    match (original, port) {
        (Ok(()), Ok(())) => true,
        (Err(Fault::Unread(o)), Err(p)) => refusal(*o, *p),
        (Err(Fault::LeftOver(o)), Err(Refusal::LeftOver(p))) => o == p,
        (Err(Fault::UnequalSizes), Err(Refusal::UnequalSizes)) => true,
        _ => false,
    }
}
