//! A morning's messages, and the loops that reading them in one call is timed against.
use crate::messages::{Text, name};
use oracle::itself::{Decode, Error, RequestFileTransferRequest};
use skrolvind::flat;

pub const COUNT: usize = 4_096;

/// The messages one after the other, and how long each one is.
#[derive(Clone, Copy)]
pub struct Morning {
    pub buffer: &'static [u8],
    pub lengths: &'static [u32],
}

pub type List = [u8; COUNT];

/// A request of the floor's size: every kind in turn, names of 10 to 60 bytes, one in four not ASCII, sizes of 2 to 8 bytes.
fn request(turn: usize) -> Vec<u8> {
    let kind = 1 + turn % 6;
    let text = if turn % 4 == 3 {
        Text::TwoBytes
    } else {
        Text::Ascii
    };
    let name = name(text, 10 + turn * 7 % 51);
    let mut message = vec![kind as u8, 0, name.len() as u8];
    message.extend(name);
    if matches!(kind, 1 | 3 | 4 | 6) {
        message.push(0x11);
    }
    if matches!(kind, 1 | 3 | 6) {
        let width = 2 + turn % 7;
        message.push(width as u8);
        message.extend((0..2 * width).map(|i| (turn + 37 * i) as u8));
    }
    message
}

/// The same with one fault of four: an unknown mode, a name that is not UTF-8, its end cut off, a length that is too long.
fn refused(turn: usize) -> Vec<u8> {
    let mut message = request(turn);
    match turn % 4 {
        0 => message[0] = 9,
        1 => message[8] = 0xFF,
        2 => message.truncate(9),
        _ => message[1] = 1,
    }
    message
}

/// So many in a hundred are refused.
pub fn morning(in_a_hundred: usize) -> Morning {
    let spoiled = |turn: usize| turn * 29 % 100 < in_a_hundred;
    let message = |turn| {
        if spoiled(turn) {
            refused(turn)
        } else {
            request(turn)
        }
    };
    let messages: Vec<_> = (0..COUNT).map(message).collect();
    let lengths: Vec<_> = messages
        .iter()
        .map(|message| message.len() as u32)
        .collect();
    Morning {
        buffer: messages.concat().leak(),
        lengths: lengths.leak(),
    }
}

/// The number of each message by a loop around a reader of one.
fn one_by_one(morning: Morning, number: impl Fn(&'static [u8]) -> u8) -> List {
    let (mut list, mut rest) = ([0; COUNT], morning.buffer);
    for (entry, len) in list.iter_mut().zip(morning.lengths) {
        let (message, behind) = rest.split_at(*len as usize);
        *entry = number(message);
        rest = behind;
    }
    list
}

/// The original reads each message.
pub fn by_the_original(morning: Morning) -> List {
    one_by_one(
        morning,
        |message| match RequestFileTransferRequest::decode(message) {
            Ok(_) => 0,
            Err(Error::InsufficientData(_)) => 1,
            Err(Error::IncorrectMessageLengthOrInvalidFormat) => 2,
            Err(Error::InvalidFileOperationMode(_)) => 3,
            Err(Error::InvalidWidth(_)) => 6,
            Err(_) => u8::MAX,
        },
    )
}

/// The door for one message is called for each.
pub fn by_single_calls(morning: Morning) -> List {
    one_by_one(morning, |message| flat::read_request(message).number as u8)
}

/// One call reads them all.
pub fn in_one_call(morning: Morning) -> Option<List> {
    let mut list = [0; COUNT];
    let count = skrolvind::read_batch(morning.buffer, morning.lengths, &mut list).ok()?;
    (count == COUNT).then_some(list)
}
