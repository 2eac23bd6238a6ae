//! Requests that are read, written, written anew and judged.
use super::encoded;
use super::names::{called, names};
use crate::desk;
use crate::messages::{self, Text, name};
use crate::row::{Codec, Row, made_of, read_and_written, read_only};
use crate::same::{self, Read};
use oracle::itself::{Decode, Encode, Error, NamePayload, RequestFileTransferRequest as Original};
use skrolvind::Request;

/// Around the blocks in which a name is checked.
const ASCII_LENGTHS: [usize; 5] = [30, 63, 64, 65, 127];

const CHECKED: [(usize, Text); 5] = [
    (20, Text::Ascii),
    (20, Text::ThreeBytes),
    (200, Text::Ascii),
    (200, Text::ThreeBytes),
    (65_535, Text::ThreeBytes),
];

pub fn rows() -> Vec<Row> {
    let mut rows = vec![add_file("AddFile request, name of 2 bytes", b"ab")];
    let ascii = ASCII_LENGTHS.map(|len| (len, Text::Ascii));
    let mut names: Vec<_> = names().chain(ascii).collect();
    names.sort_by_key(|(len, _)| *len);
    for (len, text) in names {
        let what = format!("AddFile request, name of {}", called(len, text));
        rows.push(add_file(&what, &name(text, len)));
    }
    rows.extend(CHECKED.map(checked_before));
    rows.push(only_named(
        "DeleteFile",
        messages::delete_file_request,
        Original::DeleteFile,
    ));
    rows.push(only_named(
        "ReadDir",
        messages::read_dir_request,
        Original::ReadDir,
    ));
    rows.extend([20, 200].map(rewritten));
    rows.extend(judged());
    rows
}

type OriginalRead = Read<Original<'static>>;

/// The name as if it were at hand as bytes: they are checked, as this port's writer checks every name.
fn from_bytes(name: &NamePayload<'static>) -> Result<NamePayload<'static>, Error> {
    let bytes = name.file_path_and_name().as_bytes();
    let Ok(text) = core::str::from_utf8(bytes) else {
        return Err(Error::IncorrectMessageLengthOrInvalidFormat);
    };
    NamePayload::new(text)
}

/// A request; `write` is how the original writes it.
fn request(
    what: &str,
    message: Vec<u8>,
    write: impl Fn(&OriginalRead, &mut [u8]) -> Result<usize, Error> + 'static,
) -> Row {
    let original = Codec {
        read: Original::decode,
        write,
    };
    let port = Codec {
        read: skrolvind::read_request,
        write: |(value, _): &Read<Request>, room: &mut [u8]| skrolvind::write_request(value, room),
    };
    read_and_written(what, message, original, port, same::request)
}

fn add_file(what: &str, name: &[u8]) -> Row {
    let write = |read: &OriginalRead, room: &mut [u8]| {
        let (Original::AddFile(name, format, size), _) = read else {
            unreachable!("it is an AddFile request");
        };
        Original::AddFile(from_bytes(name)?, *format, *size).encode(&mut &mut *room)
    };
    request(what, messages::add_file_request(name), write)
}

/// The same where both sides are handed a text, which was checked before; this port's door checks all the same.
fn checked_before((len, text): (usize, Text)) -> Row {
    let what = format!("the same, {} that were checked before", called(len, text));
    let message = messages::add_file_request(&name(text, len));
    request(&what, message, encoded)
}

/// A request that has a name and nothing else, which the original makes of it by `make`.
fn only_named(
    kind: &str,
    message: fn(&[u8]) -> Vec<u8>,
    make: impl Fn(NamePayload<'static>) -> Original<'static> + 'static,
) -> Row {
    let what = format!("{kind} request, name of {}", called(20, Text::Ascii));
    let write = move |read: &OriginalRead, room: &mut [u8]| {
        let (Original::DeleteFile(name) | Original::ReadDir(name), _) = read else {
            unreachable!("it is a request that has a name and nothing else");
        };
        make(from_bytes(name)?).encode(&mut &mut *room)
    };
    request(&what, message(&name(Text::Ascii, 20)), write)
}

/// A request that is read and written anew, which this port does in one call.
fn rewritten(len: usize) -> Row {
    let name_called = called(len, Text::Ascii);
    let message: &'static [u8] = messages::add_file_request(&name(Text::Ascii, len)).leak();
    made_of(
        &format!("AddFile request written anew, name of {name_called}"),
        message.len(),
        message,
        (
            |message, room| encoded(&Original::decode(message).ok()?, room).ok(),
            |message, room| Some(skrolvind::rewrite_request(message, room).ok()?.0),
        ),
    )
}

/// Requests at the desk: one that is good, and one of each fault that the desk alone finds.
fn judged() -> [Row; 3] {
    let name = name(Text::Ascii, 20);
    let good = messages::unpacked_request(&name, [40_000, 40_000]);
    let left_over = [&good[..], &[0x5A]].concat();
    let unequal = messages::unpacked_request(&name, [40_000, 12_345]);
    let row = |which, message: Vec<u8>| {
        let what = format!("desk check, {which}");
        let message: &'static [u8] = message.leak();
        let calls = (desk::check, skrolvind::desk_check);
        read_only(&what, message.len(), message, calls, same::judged)
    };
    [
        row("good request", good),
        row("request with a byte left over", left_over),
        row("request with unequal sizes", unequal),
    ]
}
