//! Document 02's Req 12 in plain Rust: codes and listings as the workshop writes them.
use crate::listing_model::{self as listing, Answer, Code, Record};
use oracle::plain::Refusal;

const HEX: &[u8] = b"0123456789ABCDEF";
/// What can stand at each place of a line. The first eight are a code's.
const LINE: [&[u8]; 12] = [
    b"PCBU", b"0123", HEX, HEX, HEX, b"-", HEX, HEX, b" ", HEX, HEX, b"\n",
];

pub fn code_text([high, middle, low]: Code) -> String {
    let letter = char::from(LINE[0][usize::from(high >> 6)]);
    let (digit, four) = (high >> 4 & 3, high & 0xF);
    format!("{letter}{digit}{four:X}{middle:02X}-{low:02X}")
}

fn refused(place: usize) -> Refusal {
    Refusal::new(18, place as u64, 0)
}

/// Refuses the first character that cannot stand where it does in lines one after the other.
fn judged(text: &[u8]) -> Answer<()> {
    let mut places = text.iter().zip(LINE.iter().cycle());
    match places.position(|(character, can)| !can.contains(character)) {
        Some(place) => Err(refused(place)),
        None => Ok(()),
    }
}

/// The number that a character stands for at its place of a line.
fn value(line: &[u8], place: usize) -> u8 {
    let at = LINE[place].iter().position(|can| *can == line[place]);
    at.expect("it was judged") as u8
}

fn code(line: &[u8]) -> Code {
    let value = |place| value(line, place);
    [
        value(0) << 6 | value(1) << 4 | value(2),
        value(3) << 4 | value(4),
        value(6) << 4 | value(7),
    ]
}

pub fn read_code(text: &[u8]) -> Answer<Code> {
    let whole = &text[..text.len().min(8)];
    judged(whole)?;
    if text.len() != 8 {
        // where it ends early, or the ninth character
        return Err(refused(whole.len()));
    }
    Ok(code(text))
}

pub fn export(sub: u8, message: &[u8]) -> Answer<Vec<u8>> {
    let records = listing::read(sub, message)?.records;
    let line = |record: &Record| format!("{} {:02X}\n", code_text(record.code), record.status);
    Ok(records.iter().map(line).collect::<String>().into_bytes())
}

pub fn import(mask: u8, text: &[u8]) -> Answer<Vec<u8>> {
    judged(text)?;
    let lines = text.chunks_exact(12);
    if !lines.remainder().is_empty() {
        return Err(refused(text.len()));
    }
    if lines.len() > 4096 {
        return Err(Refusal::new(12, 0, 0));
    }
    let record = |line| Record {
        rating: None,
        code: code(line),
        status: value(line, 9) << 4 | value(line, 10),
    };
    let records: Vec<Record> = lines.map(record).collect();
    Ok(listing::message(0x02, mask, &records))
}
