//! Trouble codes.
use crate::messages;
use crate::row::{Row, read_only};
use crate::same;
use oracle::itself::{DecodeIter, DtcRecord};
use skrolvind::next_trouble_code;
use std::hint::black_box;

pub fn rows() -> Vec<Row> {
    vec![
        trouble_code(0x0012_3456),
        trouble_codes(messages::counted_up(300).leak()),
    ]
}

fn trouble_code(number: u32) -> Row {
    let calls = (DtcRecord::try_from, skrolvind::trouble_code);
    read_only(
        "trouble code of a number",
        size_of_val(&number),
        number,
        calls,
        same::trouble_code,
    )
}

/// Calls `seen` with each code of the buffer, and answers how many there were.
fn read_through<'a, C, E>(
    mut buffer: &'a [u8],
    next: impl Fn(&'a [u8]) -> Result<Option<(C, &'a [u8])>, E>,
    mut seen: impl FnMut(C),
) -> usize {
    let mut count = 0;
    while let Ok(Some((code, rest))) = next(buffer) {
        seen(code);
        buffer = rest;
        count += 1;
    }
    count
}

fn trouble_codes(buffer: &'static [u8]) -> Row {
    let (mut original, mut port) = (vec![], vec![]);
    read_through(buffer, DtcRecord::decode_next, |code| original.push(code));
    read_through(buffer, next_trouble_code, |code| port.push(code));
    let same = original.len() == port.len()
        && original
            .iter()
            .zip(&port)
            .all(|(o, p)| same::same_code(o, p));
    let what = format!("{} trouble codes, one after the other", port.len());
    let calls = (
        |b| read_through(b, DtcRecord::decode_next, looked_at),
        |b| read_through(b, next_trouble_code, looked_at),
    );
    read_only(&what, buffer.len(), buffer, calls, move |a, b| {
        same && a == b
    })
}

fn looked_at<C>(code: C) {
    black_box(&code);
}
