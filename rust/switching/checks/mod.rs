//! What holds of the original and of ours; which of the two it is, `crate::uds_protocol` says.
mod bytes;
mod codes;
mod example;
mod payloads;
mod requests;
mod responses;
mod routines;

use crate::uds_protocol::{Decode, Encode, Error, Incomplete, InvalidWidth};
use std::fmt::Debug;

/// More than the longest message has.
const PLENTY: usize = 70_000;
/// What the room has where nothing is written.
const FILLER: u8 = 0x5A;

/// What is read and written. What it borrows is borrowed for good, so that every check can lengthen and cut its bytes.
trait Value: Decode<'static, Error = Error> + Encode<Error = Error> + PartialEq + Debug {}

impl<T: Decode<'static, Error = Error> + Encode<Error = Error> + PartialEq + Debug> Value for T {}

/// The bytes, kept for good.
fn kept(bytes: &[u8]) -> &'static [u8] {
    bytes.to_vec().leak()
}

/// The bytes that a value writes; the sink is then what follows them, and no other byte is changed.
fn written(value: &impl Encode<Error = Error>) -> Vec<u8> {
    let mut room = vec![FILLER; PLENTY];
    let mut sink = &mut room[..];
    let count = value.encode(&mut sink).expect("there is plenty of room");
    assert_eq!(sink.len(), PLENTY - count);
    assert!(room[count..].iter().all(|byte| *byte == FILLER));
    room.truncate(count);
    room
}

/// The value is read from the bytes, whatever follows them.
fn is_read<T: Value>(bytes: &[u8], value: &T) {
    for tail in [&[][..], &[0], &[0xFF, 0x5A], bytes] {
        let (read, left) = T::decode(kept(&[bytes, tail].concat())).expect("it is good");
        assert_eq!((&read, left), (value, tail));
    }
}

/// The value is written as the bytes, into just as many and into more, and is not written into fewer.
fn is_written<T: Value>(value: &T, bytes: &[u8]) {
    assert_eq!(written(value), bytes);
    let mut room = vec![FILLER; bytes.len()];
    assert_eq!(value.encode(&mut &mut room[..]), Ok(bytes.len()));
    assert_eq!(room, bytes);
    for len in [0, bytes.len() / 2, bytes.len() - 1] {
        assert!(value.encode(&mut &mut room[..len]).is_err());
    }
}

/// The value stands for the bytes, both ways.
fn is<T: Value>(value: &T, bytes: &[u8]) {
    is_read(bytes, value);
    is_written(value, bytes);
}

/// These bytes are refused so.
fn refused<T: Value>(bytes: &[u8], error: Error) {
    assert_eq!(T::decode(kept(bytes)), Err(error));
}

/// Cut at each place the bytes are too short: how many the field at hand needs, and how many it has.
fn cuts<T: Value>(bytes: &[u8], needs: &[(usize, usize)]) {
    assert_eq!(bytes.len(), needs.len());
    for (len, (needed, available)) in needs.iter().enumerate() {
        refused::<T>(&bytes[..len], short(*needed, *available));
    }
}

fn short(needed: usize, available: usize) -> Error {
    Error::InsufficientData(Incomplete { needed, available })
}

fn bad_width(width: usize) -> Error {
    Error::InvalidWidth(InvalidWidth { width })
}

/// Names that are not UTF-8: a byte that is none, a character cut, one too long, a half of a pair, one above the last, one in the middle.
const BAD_NAMES: [&[u8]; 6] = [
    &[0xFF],
    &[0x61, 0xC3],
    &[0xC0, 0x80],
    &[0xED, 0xA0, 0x80],
    &[0xF4, 0x90, 0x80, 0x80],
    &[0x61, 0x80, 0x61],
];
