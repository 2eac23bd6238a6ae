//! The calls that read and judge.
use crate::flat;
use crate::{
    Field, Kind, Reason, Refusal, Request, Response, RoutineRequest, RoutineResponse, SubFunction,
};

/// What the first three numbers of every record say.
#[inline]
pub(crate) fn accepted(number: u64, first: u64, second: u64) -> Result<(), Refusal> {
    if number == 0 {
        return Ok(());
    }
    Err(refused(number, first, second))
}

/// The refusal of three numbers, of which the first is not 0. Every refusal of the library is made here.
#[cold]
fn refused(number: u64, first: u64, second: u64) -> Refusal {
    let place = as_small(first);
    match number {
        1 => Refusal::TooShort {
            needed: as_small(first),
            available: as_small(second),
        },
        2 => Refusal::WrongFormat {
            good: as_small(first),
        },
        3 => Refusal::UnknownMode(as_small(first)),
        4 => Refusal::UnknownSubFunction(as_small(first)),
        5 => Refusal::NoTroubleCode(as_small(first)),
        6 => Refusal::BadWidth(as_small(first)),
        7 => Refusal::NoRoom {
            needed: as_small(first),
            room: as_small(second),
        },
        8 => Refusal::UnequalSizes,
        9 => Refusal::LeftOver(as_small(first)),
        10 => Refusal::Cut,
        11 => Refusal::OutOfRange { place },
        12 => Refusal::TooMany,
        13 => Refusal::NotAllowed { place },
        14 => Refusal::WrongCounter { place },
        15 => Refusal::UnknownService { place },
        16 => Refusal::NoSuchCode,
        17 => Refusal::Repeated { place },
        18 => Refusal::BadCharacter { place },
        _ => impossible(number),
    }
}

/// A number of the library as a byte, a length or whatever else is wanted; it is proved to be small enough.
#[inline]
pub(crate) fn as_small<T: TryFrom<u64>>(number: u64) -> T {
    T::try_from(number).unwrap_or_else(|_| impossible(number))
}

/// Takes the number by value, so that it need not lie in memory for the call that is never made.
#[cold]
fn impossible(number: u64) -> ! {
    unreachable!("the library answered {number} where that cannot be")
}

#[inline]
pub(crate) fn part(message: &[u8], start: u64, len: u64) -> &[u8] {
    &message[as_small(start)..][..as_small(len)]
}

#[inline]
pub(crate) fn kind(number: u64) -> Kind {
    Kind::from_number(number).expect("the library answers one of the six kinds")
}

#[inline]
pub(crate) fn sub_function(number: u64) -> SubFunction {
    SubFunction::from_number(number).expect("the library answers one of the three sub-functions")
}

#[inline]
pub(crate) fn whole(high: u64, low: u64) -> u128 {
    u128::from(high) << 64 | u128::from(low)
}

/// Reads a file transfer request from the start of the message; hands out the request and the tail.
///
/// # Errors
/// [`Refusal::TooShort`], [`Refusal::WrongFormat`], [`Refusal::UnknownMode`] and [`Refusal::BadWidth`].
///
/// ```
/// use skrolvind::{Kind, Refusal, read_request};
///
/// // the file `a` deleted, and a byte left over
/// let (request, tail) = read_request(&[2, 0, 1, b'a', 0x5A])?;
/// assert_eq!((request.kind, request.name, tail), (Kind::DeleteFile, "a", &[0x5A][..]));
/// assert_eq!(read_request(&[7, 0, 1, b'a']), Err(Refusal::UnknownMode(7)));
/// # Ok::<(), Refusal>(())
/// ```
#[inline]
pub fn read_request(message: &[u8]) -> Result<(Request<'_>, &[u8]), Refusal> {
    let (r, name) = flat::read_named_request(message);
    accepted(r.number, r.first, r.second)?;
    let request = Request {
        kind: kind(r.kind),
        name,
        format: as_small(r.format),
        uncompressed: whole(r.uncompressed_high, r.uncompressed_low),
        compressed: whole(r.compressed_high, r.compressed_low),
    };
    Ok((request, &message[as_small(r.tail)..]))
}

/// Reads a file transfer response from the start of the message; hands out the response and the tail.
///
/// # Errors
/// [`Refusal::TooShort`], [`Refusal::UnknownMode`] and [`Refusal::BadWidth`].
///
/// ```
/// use skrolvind::{Kind, Refusal, read_response};
///
/// let (response, tail) = read_response(&[1, 2, 0x10, 0, 0x11])?;
/// assert_eq!((response.kind, response.block, response.format), (Kind::AddFile, &[0x10, 0][..], 0x11));
/// assert!(tail.is_empty());
/// # Ok::<(), Refusal>(())
/// ```
#[inline]
pub fn read_response(message: &[u8]) -> Result<(Response<'_>, &[u8]), Refusal> {
    let r = flat::read_response(message);
    accepted(r.number, r.first, r.second)?;
    let response = Response {
        kind: kind(r.kind),
        block: part(message, r.start, r.len),
        format: as_small(r.format),
        uncompressed: whole(r.uncompressed_high, r.uncompressed_low),
        compressed: whole(r.compressed_high, r.compressed_low),
        position: r.position,
    };
    Ok((response, &message[as_small(r.tail)..]))
}

/// Reads a routine request, which is the whole message.
///
/// # Errors
/// [`Refusal::TooShort`], and [`Refusal::UnknownSubFunction`], which carries the low seven bits.
///
/// ```
/// use skrolvind::{Refusal, SubFunction, read_routine_request};
///
/// let request = read_routine_request(&[0x81, 0x02, 0x03, 0xAA])?;
/// assert!(request.suppress);
/// assert_eq!((request.sub_function, request.identifier), (SubFunction::Start, 0x0203));
/// assert_eq!(request.record, [0xAA]);
/// # Ok::<(), Refusal>(())
/// ```
#[inline]
pub fn read_routine_request(message: &[u8]) -> Result<RoutineRequest<'_>, Refusal> {
    let r = flat::read_routine_request(message);
    accepted(r.number, r.first, r.second)?;
    Ok(RoutineRequest {
        suppress: r.suppress != 0,
        sub_function: sub_function(r.sub_function),
        identifier: as_small(r.identifier),
        record: part(message, r.start, r.len),
    })
}

/// Reads a routine response, which is the whole message.
///
/// # Errors
/// [`Refusal::TooShort`] and [`Refusal::UnknownSubFunction`].
///
/// ```
/// use skrolvind::{Refusal, SubFunction, read_routine_response};
///
/// let response = read_routine_response(&[0x03, 0x02, 0x03, 0xAA])?;
/// assert_eq!((response.sub_function, response.record), (SubFunction::Results, &[0xAA][..]));
/// // the bit that asks for silence belongs into requests alone
/// assert_eq!(read_routine_response(&[0x81, 0x02, 0x03]), Err(Refusal::UnknownSubFunction(0x81)));
/// # Ok::<(), Refusal>(())
/// ```
#[inline]
pub fn read_routine_response(message: &[u8]) -> Result<RoutineResponse<'_>, Refusal> {
    let r = flat::read_routine_response(message);
    accepted(r.number, r.first, r.second)?;
    Ok(RoutineResponse {
        sub_function: sub_function(r.sub_function),
        identifier: as_small(r.identifier),
        record: part(message, r.start, r.len),
    })
}

/// Judges one request at the desk.
///
/// # Errors
/// The refusals of [`read_request`], then [`Refusal::LeftOver`], then [`Refusal::UnequalSizes`] under format 0x00.
///
/// ```
/// use skrolvind::{Refusal, desk_check};
///
/// // 255 bytes that are packed to 256
/// assert_eq!(desk_check(&[1, 0, 1, b'a', 0x11, 2, 0, 255, 1, 0]), Ok(()));
/// // the same, and the format byte says that they are not packed
/// assert_eq!(desk_check(&[1, 0, 1, b'a', 0x00, 2, 0, 255, 1, 0]), Err(Refusal::UnequalSizes));
/// assert_eq!(desk_check(&[2, 0, 1, b'a', 0x5A]), Err(Refusal::LeftOver(1)));
/// ```
#[inline]
pub fn desk_check(message: &[u8]) -> Result<(), Refusal> {
    let r = flat::desk_check(message);
    accepted(r.number, r.first, r.second)
}

/// Why a file transfer request is refused. What is left over after it is no reason.
///
/// # Errors
/// The refusals of [`read_request`], each with the field that stopped the message and where that begins.
///
/// ```
/// use skrolvind::{Field, why_request};
///
/// let why = why_request(&[1, 0, 1, b'a', 0x11, 0]).unwrap_err();
/// assert_eq!((why.field, why.offset), (Field::SizeGroup, 5));
/// assert_eq!(why.to_string(), "size group at 5: refused 6 0 0: bad width: a size is 1 to 16 bytes wide");
/// ```
#[inline]
pub fn why_request(message: &[u8]) -> Result<(), Reason> {
    reason(flat::why_request(message))
}

/// Why a file transfer response is refused.
///
/// # Errors
/// The refusals of [`read_response`], likewise.
///
/// ```
/// use skrolvind::{Field, Refusal, why_response};
///
/// let why = why_response(&[6, 1, 0x10, 0, 9, 9]).unwrap_err();
/// assert_eq!((why.field, why.offset), (Field::Position, 4));
/// assert_eq!(why.refusal, Refusal::TooShort { needed: 8, available: 2 });
/// ```
#[inline]
pub fn why_response(message: &[u8]) -> Result<(), Reason> {
    reason(flat::why_response(message))
}

#[inline]
fn reason(r: flat::Why) -> Result<(), Reason> {
    accepted(r.number, r.first, r.second).map_err(|refusal| Reason {
        refusal,
        field: Field::from_number(r.field).expect("the library answers one of the six fields"),
        offset: as_small(r.offset),
    })
}

/// The length of the longest beginning of the name that is UTF-8.
///
/// ```
/// use skrolvind::valid_up_to;
///
/// assert_eq!(valid_up_to("Zürich".as_bytes()), 7);
/// assert_eq!(valid_up_to(b"M\xFCnchen"), 1);
/// ```
#[must_use]
#[inline]
pub fn valid_up_to(name: &[u8]) -> usize {
    as_small(flat::valid_up_to(name))
}

/// How many records of 8 bytes have each month and each refusal number: `table[month - 1][number]`.
///
/// A record is month, station, direction, refusal number, and the coach number in four bytes.
///
/// # Errors
/// [`Refusal::TooMany`] for more than 65,536 whole records, then [`Refusal::Cut`] for a piece after the last one, then
/// [`Refusal::OutOfRange`] with the place of the first record that has a field out of range: month 1 to 12, direction 0 or 1, refusal
/// number 0 to 9.
///
/// ```
/// use skrolvind::{Refusal, tally_records};
///
/// // in January station 7 had a bad width in a request to coach 123,456
/// let table = tally_records(&[1, 7, 0, 6, 0, 1, 0xE2, 0x40])?;
/// assert_eq!(table[0], [0, 0, 0, 0, 0, 0, 1, 0, 0, 0]);
/// # Ok::<(), Refusal>(())
/// ```
#[inline]
pub fn tally_records(records: &[u8]) -> Result<[[u32; 10]; 12], Refusal> {
    let r = flat::tally_records(records);
    accepted(r.number, r.first, r.second)?;
    let mut table = [[0; 10]; 12];
    for (row, cells) in table.iter_mut().zip(r.cells.chunks_exact(10)) {
        row.copy_from_slice(cells);
    }
    Ok(table)
}
