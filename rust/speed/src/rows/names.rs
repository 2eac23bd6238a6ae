//! The check of a name alone.
use crate::messages::{TEXTS, Text, name};
use crate::row::{Row, read_only};

pub fn rows() -> Vec<Row> {
    names().map(|(len, text)| name_check(len, text)).collect()
}

/// The names that are checked, and read and written in requests. The longest ones are of the common alphabets.
pub fn names() -> impl Iterator<Item = (usize, Text)> {
    let of = |len, texts: &'static [Text]| texts.iter().map(move |text| (len, *text));
    of(20, &TEXTS)
        .chain(of(200, &TEXTS))
        .chain(of(65_535, &TEXTS[..3]))
}

pub fn called(len: usize, text: Text) -> String {
    format!("{len} bytes of {}", text.called())
}

/// The check alone, against the one that the original calls.
fn name_check(len: usize, text: Text) -> Row {
    let what = format!("name check, {}", called(len, text));
    let name: &'static [u8] = name(text, len).leak();
    let calls = (core::str::from_utf8, skrolvind::valid_up_to);
    read_only(&what, len, name, calls, |original, port| {
        original.is_ok_and(|text| text.len() == *port)
    })
}
