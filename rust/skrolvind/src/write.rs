//! The calls that write. Each answers how many bytes it wrote at the start of the room; the rest of the room keeps what it had, and
//! a refused call changes nothing.
use crate::flat::{self, Rewritten, Sizes, Written};
use crate::read::{accepted, as_small};
use crate::{Refusal, Request, Response, RoutineRequest, RoutineResponse};

/// The count always fits: what was written lies in the room, whose length is a `usize`.
#[inline]
pub(crate) fn count(w: Written) -> Result<usize, Refusal> {
    accepted(w.number, w.first, w.second)?;
    Ok(w.written as usize)
}

/// What writing takes, of its answer where there is no room at all.
#[inline]
fn needed(answer: Result<usize, Refusal>) -> Result<usize, Refusal> {
    match answer {
        Err(Refusal::NoRoom { needed, .. }) => Ok(needed),
        other => other,
    }
}

/// Writes a file transfer request, its sizes at the smallest width.
///
/// # Errors
/// [`Refusal::WrongFormat`] for a name that is too long, then [`Refusal::NoRoom`].
///
/// ```
/// use skrolvind::{Kind, Refusal, Request, write_request};
///
/// let request = Request { kind: Kind::AddFile, name: "a", format: 0x11, uncompressed: 255, compressed: 256 };
/// let mut room = [0; 12];
/// let written = write_request(&request, &mut room)?;
/// assert_eq!(room[..written], [1, 0, 1, b'a', 0x11, 2, 0, 255, 1, 0]);
/// let refused = write_request(&request, &mut room[..9]);
/// assert_eq!(refused, Err(Refusal::NoRoom { needed: 10, room: 9 }));
/// # Ok::<(), Refusal>(())
/// ```
#[inline]
pub fn write_request(request: &Request<'_>, room: &mut [u8]) -> Result<usize, Refusal> {
    count(flat::write_request(
        request.kind.into(),
        request.name.as_bytes(),
        request.format,
        Sizes::new(request.uncompressed, request.compressed),
        room,
    ))
}

/// Writes a file transfer response, its sizes at the smallest width.
///
/// # Errors
/// [`Refusal::WrongFormat`] for a block length that is too long, then [`Refusal::NoRoom`].
///
/// ```
/// use skrolvind::{Kind, Refusal, Response, write_response};
///
/// let response = Response { kind: Kind::ResumeFile, block: &[0x10, 0], format: 0, uncompressed: 0, compressed: 0, position: 4096 };
/// let mut room = [0; 13];
/// assert_eq!(write_response(&response, &mut room)?, 13);
/// assert_eq!(room, [6, 2, 0x10, 0, 0, 0, 0, 0, 0, 0, 0, 0x10, 0]);
/// # Ok::<(), Refusal>(())
/// ```
#[inline]
pub fn write_response(response: &Response<'_>, room: &mut [u8]) -> Result<usize, Refusal> {
    count(flat::write_response(
        response.kind.into(),
        response.block,
        response.format,
        Sizes::new(response.uncompressed, response.compressed),
        response.position,
        room,
    ))
}

/// Writes a routine request.
///
/// # Errors
/// [`Refusal::WrongFormat`] for a record that is too long, then [`Refusal::NoRoom`].
///
/// ```
/// use skrolvind::{Refusal, RoutineRequest, SubFunction, write_routine_request};
///
/// let request = RoutineRequest { suppress: true, sub_function: SubFunction::Start, identifier: 0x0203, record: &[0xAA] };
/// let mut room = [0; 4];
/// assert_eq!(write_routine_request(&request, &mut room)?, 4);
/// assert_eq!(room, [0x81, 0x02, 0x03, 0xAA]);
/// # Ok::<(), Refusal>(())
/// ```
#[inline]
pub fn write_routine_request(
    request: &RoutineRequest<'_>,
    room: &mut [u8],
) -> Result<usize, Refusal> {
    count(flat::write_routine_request(
        request.suppress,
        request.sub_function.into(),
        request.identifier,
        request.record,
        room,
    ))
}

/// Writes a routine response.
///
/// # Errors
/// [`Refusal::WrongFormat`] for a record that is too long, then [`Refusal::NoRoom`].
///
/// ```
/// use skrolvind::{Refusal, RoutineResponse, SubFunction, write_routine_response};
///
/// let response = RoutineResponse { sub_function: SubFunction::Results, identifier: 0x0203, record: &[0xAA] };
/// let mut room = [0; 4];
/// assert_eq!(write_routine_response(&response, &mut room)?, 4);
/// assert_eq!(room, [0x03, 0x02, 0x03, 0xAA]);
/// # Ok::<(), Refusal>(())
/// ```
#[inline]
pub fn write_routine_response(
    response: &RoutineResponse<'_>,
    room: &mut [u8],
) -> Result<usize, Refusal> {
    count(flat::write_routine_response(
        response.sub_function.into(),
        response.identifier,
        response.record,
        room,
    ))
}

/// How many bytes were written, and what follows the message that was read.
#[inline]
fn rewritten(message: &[u8], r: Rewritten) -> Result<(usize, &[u8]), Refusal> {
    accepted(r.number, r.first, r.second)?;
    Ok((as_small(r.written), &message[as_small(r.tail)..]))
}

/// Reads a file transfer request and writes it anew, its sizes at the smallest width and without what is left over after it; answers
/// how many bytes it wrote, and the tail of the message.
///
/// # Errors
/// The refusals of [`read_request`](crate::read_request), then [`Refusal::NoRoom`].
///
/// ```
/// use skrolvind::{Refusal, rewrite_request};
///
/// // sizes a byte wider than they need be, and a byte left over
/// let message = [1, 0, 1, b'a', 0x11, 2, 0, 7, 0, 9, 0x5A];
/// let mut room = [0; 11];
/// let (written, tail) = rewrite_request(&message, &mut room)?;
/// assert_eq!(room[..written], [1, 0, 1, b'a', 0x11, 1, 7, 9]);
/// assert_eq!(tail, [0x5A]);
/// # Ok::<(), Refusal>(())
/// ```
#[inline]
pub fn rewrite_request<'a>(
    message: &'a [u8],
    room: &mut [u8],
) -> Result<(usize, &'a [u8]), Refusal> {
    rewritten(message, flat::rewrite_request(message, room))
}

/// Reads a file transfer response and writes it anew, likewise.
///
/// # Errors
/// The refusals of [`read_response`](crate::read_response), then [`Refusal::NoRoom`].
///
/// ```
/// use skrolvind::{Refusal, rewrite_response};
///
/// // the size of a directory, two bytes wide
/// let message = [5, 0, 0, 0, 2, 0, 7];
/// let mut room = [0; 6];
/// assert_eq!(rewrite_response(&message, &mut room)?, (6, &[][..]));
/// assert_eq!(room, [5, 0, 0, 0, 1, 7]);
/// # Ok::<(), Refusal>(())
/// ```
#[inline]
pub fn rewrite_response<'a>(
    message: &'a [u8],
    room: &mut [u8],
) -> Result<(usize, &'a [u8]), Refusal> {
    rewritten(message, flat::rewrite_response(message, room))
}

impl Request<'_> {
    /// How many bytes [`write_request`] writes of it; with a service byte it is one more.
    ///
    /// # Errors
    /// [`Refusal::WrongFormat`] for a name that is too long.
    ///
    /// ```
    /// use skrolvind::{Kind, Refusal, Request, write_request};
    ///
    /// let request = Request { kind: Kind::ReadDir, name: "cabin-media", format: 0, uncompressed: 0, compressed: 0 };
    /// let mut room = vec![0; request.needed()?];
    /// assert_eq!(write_request(&request, &mut room), Ok(14));
    /// # Ok::<(), Refusal>(())
    /// ```
    #[inline]
    pub fn needed(&self) -> Result<usize, Refusal> {
        needed(write_request(self, &mut []))
    }
}

impl Response<'_> {
    /// How many bytes [`write_response`] writes of it; with a service byte it is one more.
    ///
    /// # Errors
    /// [`Refusal::WrongFormat`] for a block length that is too long.
    #[inline]
    pub fn needed(&self) -> Result<usize, Refusal> {
        needed(write_response(self, &mut []))
    }
}

impl RoutineRequest<'_> {
    /// How many bytes [`write_routine_request`] writes of it; with a service byte it is one more.
    ///
    /// # Errors
    /// [`Refusal::WrongFormat`] for a record that is too long.
    #[inline]
    pub fn needed(&self) -> Result<usize, Refusal> {
        needed(write_routine_request(self, &mut []))
    }
}

impl RoutineResponse<'_> {
    /// How many bytes [`write_routine_response`] writes of it; with a service byte it is one more.
    ///
    /// # Errors
    /// [`Refusal::WrongFormat`] for a record that is too long.
    #[inline]
    pub fn needed(&self) -> Result<usize, Refusal> {
        needed(write_routine_response(self, &mut []))
    }
}
