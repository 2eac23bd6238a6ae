//! Whole messages off the adapter: a service byte, and then a message of document 01 or a negative answer.
use crate::flat::{self, Sizes};
use crate::read::{accepted, as_small, kind, part, sub_function, whole};
use crate::types::of_byte;
use crate::write::count;
use crate::{Refusal, Request, Response, RoutineRequest, RoutineResponse};

/// The services that a negative answer can be to, by the byte of their requests.
#[derive(Clone, Copy, Debug, PartialEq, Eq, Hash)]
#[repr(u8)]
pub enum Service {
    /// File transfer.
    FileTransfer = 0x38,
    /// Routines.
    RoutineControl = 0x31,
}

impl Service {
    /// The service whose requests begin with this byte.
    #[must_use]
    pub const fn from_number(number: u64) -> Option<Self> {
        match number {
            0x38 => Some(Self::FileTransfer),
            0x31 => Some(Self::RoutineControl),
            _ => None,
        }
    }
}

of_byte!(Service, |_| Refusal::OutOfRange { place: 0 });

/// A negative answer.
#[derive(Clone, Copy, Debug, PartialEq, Eq, Hash)]
pub struct NegativeAnswer {
    /// What is answered.
    pub service: Service,
    /// Why not.
    pub code: u8,
    /// Whether the code stands in the list of that service; another is read all the same.
    pub listed: bool,
}

/// A whole message, by its sort. Of file transfer the tail stands beside it.
#[derive(Clone, Copy, Debug, PartialEq, Eq, Hash)]
pub enum Message<'a> {
    /// 0x38.
    FileRequest(Request<'a>, &'a [u8]),
    /// 0x31.
    RoutineRequest(RoutineRequest<'a>),
    /// 0x78.
    FileResponse(Response<'a>, &'a [u8]),
    /// 0x71.
    RoutineResponse(RoutineResponse<'a>),
    /// 0x7F.
    Negative(NegativeAnswer),
}

/// Reads a whole message: its first byte says what it is.
///
/// # Errors
/// [`Refusal::TooShort`] for an empty message, [`Refusal::UnknownService`] for a service byte that is none of the five; of a negative
/// answer [`Refusal::TooShort`] when it is short, [`Refusal::LeftOver`] when it is longer than three bytes, then
/// [`Refusal::OutOfRange`] when it answers another service; of the others those of their own readers.
///
/// ```
/// use skrolvind::{Message, NegativeAnswer, Refusal, Service, read_message};
///
/// let answer = read_message(&[0x7F, 0x38, 0x31])?;
/// let service = Service::FileTransfer;
/// assert_eq!(answer, Message::Negative(NegativeAnswer { service, code: 0x31, listed: true }));
/// let Message::FileRequest(request, tail) = read_message(&[0x38, 2, 0, 1, b'a'])? else {
///     unreachable!("0x38 begins a request");
/// };
/// assert_eq!((request.name, tail), ("a", &[][..]));
/// assert_eq!(read_message(&[0x39]), Err(Refusal::UnknownService { place: 0 }));
/// # Ok::<(), Refusal>(())
/// ```
#[inline]
pub fn read_message(message: &[u8]) -> Result<Message<'_>, Refusal> {
    let (r, name) = flat::read_named_message(message);
    accepted(r.number, r.first, r.second)?;
    Ok(match r.service {
        0x38 => Message::FileRequest(file_request(name, &r), &message[as_small(r.tail)..]),
        0x31 => Message::RoutineRequest(routine_request(message, &r)),
        0x78 => Message::FileResponse(file_response(message, &r), &message[as_small(r.tail)..]),
        0x71 => Message::RoutineResponse(routine_response(message, &r)),
        _ => Message::Negative(negative(&r)),
    })
}

#[inline]
fn file_request<'a>(name: &'a str, r: &flat::Message) -> Request<'a> {
    Request {
        kind: kind(r.kind),
        name,
        format: as_small(r.format),
        uncompressed: whole(r.uncompressed_high, r.uncompressed_low),
        compressed: whole(r.compressed_high, r.compressed_low),
    }
}

#[inline]
fn file_response<'a>(message: &'a [u8], r: &flat::Message) -> Response<'a> {
    Response {
        kind: kind(r.kind),
        block: part(message, r.start, r.len),
        format: as_small(r.format),
        uncompressed: whole(r.uncompressed_high, r.uncompressed_low),
        compressed: whole(r.compressed_high, r.compressed_low),
        position: r.position,
    }
}

#[inline]
fn routine_request<'a>(message: &'a [u8], r: &flat::Message) -> RoutineRequest<'a> {
    RoutineRequest {
        suppress: r.suppress != 0,
        sub_function: sub_function(r.sub_function),
        identifier: as_small(r.identifier),
        record: part(message, r.start, r.len),
    }
}

#[inline]
fn routine_response<'a>(message: &'a [u8], r: &flat::Message) -> RoutineResponse<'a> {
    RoutineResponse {
        sub_function: sub_function(r.sub_function),
        identifier: as_small(r.identifier),
        record: part(message, r.start, r.len),
    }
}

#[inline]
fn negative(r: &flat::Message) -> NegativeAnswer {
    let service = Service::from_number(r.negative_service);
    NegativeAnswer {
        service: service.expect("the library answers one of the two services"),
        code: as_small(r.code),
        listed: r.listed != 0,
    }
}

/// Writes a file transfer request behind its service byte.
///
/// # Errors
/// [`Refusal::WrongFormat`] for a name that is too long, then [`Refusal::NoRoom`], which counts the service byte.
///
/// ```
/// use skrolvind::{Kind, Refusal, Request, write_request_message};
///
/// let request = Request { kind: Kind::DeleteFile, name: "a", format: 0, uncompressed: 0, compressed: 0 };
/// let mut room = vec![0; 1 + request.needed()?];
/// assert_eq!(write_request_message(&request, &mut room)?, 5);
/// assert_eq!(room, [0x38, 2, 0, 1, b'a']);
/// # Ok::<(), Refusal>(())
/// ```
#[inline]
pub fn write_request_message(request: &Request<'_>, room: &mut [u8]) -> Result<usize, Refusal> {
    count(flat::write_request_message(
        request.kind.into(),
        request.name.as_bytes(),
        request.format,
        Sizes::new(request.uncompressed, request.compressed),
        room,
    ))
}

/// Writes a file transfer response behind its service byte.
///
/// # Errors
/// [`Refusal::WrongFormat`] for a block length that is too long, then [`Refusal::NoRoom`], which counts the service byte.
#[inline]
pub fn write_response_message(response: &Response<'_>, room: &mut [u8]) -> Result<usize, Refusal> {
    count(flat::write_response_message(
        response.kind.into(),
        response.block,
        response.format,
        Sizes::new(response.uncompressed, response.compressed),
        response.position,
        room,
    ))
}

/// Writes a routine request behind its service byte.
///
/// # Errors
/// [`Refusal::WrongFormat`] for a record that is too long, then [`Refusal::NoRoom`], which counts the service byte.
#[inline]
pub fn write_routine_request_message(
    request: &RoutineRequest<'_>,
    room: &mut [u8],
) -> Result<usize, Refusal> {
    count(flat::write_routine_request_message(
        request.suppress,
        request.sub_function.into(),
        request.identifier,
        request.record,
        room,
    ))
}

/// Writes a routine response behind its service byte.
///
/// # Errors
/// [`Refusal::WrongFormat`] for a record that is too long, then [`Refusal::NoRoom`], which counts the service byte.
#[inline]
pub fn write_routine_response_message(
    response: &RoutineResponse<'_>,
    room: &mut [u8],
) -> Result<usize, Refusal> {
    count(flat::write_routine_response_message(
        response.sub_function.into(),
        response.identifier,
        response.record,
        room,
    ))
}

/// Writes a negative answer, whether the code is listed or not.
///
/// # Errors
/// [`Refusal::NoRoom`].
///
/// ```
/// use skrolvind::{Refusal, Service, write_negative};
///
/// let mut room = [0; 3];
/// assert_eq!(write_negative(Service::RoutineControl, 0x72, &mut room)?, 3);
/// assert_eq!(room, [0x7F, 0x31, 0x72]);
/// # Ok::<(), Refusal>(())
/// ```
#[inline]
pub fn write_negative(service: Service, code: u8, room: &mut [u8]) -> Result<usize, Refusal> {
    count(flat::write_negative(service.into(), code, room))
}

#[cfg(test)]
mod tests {
    use super::*;
    use crate::tests::refusal;
    use crate::{Kind, SubFunction};

    #[test]
    fn each_sort_is_read_with_its_parts_of_the_message() {
        let message = [0x38, 2, 0, 1, b'a', 0x5A];
        let Ok(Message::FileRequest(request, tail)) = read_message(&message) else {
            panic!("a request")
        };
        assert_eq!(
            (request.kind, request.name, tail),
            (Kind::DeleteFile, "a", &[0x5A][..])
        );
        assert_eq!(request.name.as_ptr(), &raw const message[4]);
        let message = [0x78, 1, 1, 9, 0x11];
        let Ok(Message::FileResponse(response, tail)) = read_message(&message) else {
            panic!("a response")
        };
        assert_eq!(
            (response.kind, response.block, response.format, tail),
            (Kind::AddFile, &[9][..], 0x11, &[][..])
        );
        let record = &[0xAA][..];
        assert_eq!(
            read_message(&[0x31, 0x81, 2, 3, 0xAA]),
            Ok(Message::RoutineRequest(RoutineRequest {
                suppress: true,
                sub_function: SubFunction::Start,
                identifier: 0x0203,
                record,
            }))
        );
        assert_eq!(
            read_message(&[0x71, 3, 2, 3, 0xAA]),
            Ok(Message::RoutineResponse(RoutineResponse {
                sub_function: SubFunction::Results,
                identifier: 0x0203,
                record,
            }))
        );
    }

    #[test]
    fn negative_answers_have_three_bytes_and_their_own_lists() {
        for (service, byte, listed, unlisted) in [
            (Service::FileTransfer, 0x38, 0x34, 0x12),
            (Service::RoutineControl, 0x31, 0x72, 0x70),
        ] {
            for (code, is_listed) in [(listed, true), (unlisted, false), (0xFF, false)] {
                let answer = NegativeAnswer {
                    service,
                    code,
                    listed: is_listed,
                };
                let mut room = [9; 4];
                assert_eq!(write_negative(service, code, &mut room), Ok(3));
                assert_eq!(room, [0x7F, byte, code, 9]);
                assert_eq!(read_message(&room[..3]), Ok(Message::Negative(answer)));
            }
        }
        assert_eq!(read_message(&[0x7F, 0x38]), Err(refusal(1, 3, 2)));
        assert_eq!(read_message(&[0x7F, 9, 0, 0]), Err(refusal(9, 1, 0)));
        assert_eq!(read_message(&[0x7F, 9, 0]), Err(refusal(11, 0, 0)));
    }

    #[test]
    fn other_bytes_begin_no_message() {
        assert_eq!(read_message(&[]), Err(refusal(1, 1, 0)));
        assert_eq!(read_message(&[0x39, 1, 2]), Err(refusal(15, 0, 0)));
        assert_eq!(read_message(&[0x38]), Err(refusal(1, 1, 0)));
    }

    #[test]
    fn a_room_counts_the_service_byte() {
        let request = Request {
            kind: Kind::DeleteFile,
            name: "a",
            format: 0,
            uncompressed: 0,
            compressed: 0,
        };
        let mut room = [9; 6];
        assert_eq!(write_request_message(&request, &mut room), Ok(5));
        assert_eq!(room, [0x38, 2, 0, 1, b'a', 9]);
        for len in 0..5 {
            let mut room = [9; 5];
            let answer = write_request_message(&request, &mut room[..len]);
            assert_eq!(answer, Err(refusal(7, 5, len as u64)));
            assert_eq!(room, [9; 5]);
        }
        let answer = flat::write_negative(0x39, 0, &mut []);
        assert_eq!(answer.number, 11);
    }
}
