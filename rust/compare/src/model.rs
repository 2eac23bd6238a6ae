//! Document 01's rules on reading and on the desk check, with what document 02 changes, written down once more and as plainly as they stand there. The original is
//! held against them too, so that a difference shows on which side it lies.
use crate::names;
use oracle::plain::{FileTransfer, NextCode, Payload, PayloadSort, Refusal, Routine};
use std::ops::RangeInclusive;

type Answer<T> = Result<T, Refusal>;

/// The rest of a message, at the field that comes next.
struct Rest<'a> {
    bytes: &'a [u8],
    at: usize,
}

impl Rest<'_> {
    fn left(&self) -> &[u8] {
        &self.bytes[self.at..]
    }

    /// Refusal 1 unless the field at hand has the bytes that it needs.
    fn need(&self, needed: usize) -> Answer<()> {
        let available = self.left().len();
        if available < needed {
            return Err(Refusal::new(1, needed as u64, available as u64));
        }
        Ok(())
    }

    fn byte(&mut self) -> Answer<u8> {
        self.need(1)?;
        self.at += 1;
        Ok(self.bytes[self.at - 1])
    }

    /// The number in the first bytes of the field, high first.
    fn number(&self, len: usize) -> u128 {
        let add = |sum, b: &u8| 256 * sum + u128::from(*b);
        self.left()[..len].iter().fold(0, add)
    }

    /// A count in `width` bytes and so many bytes after it: the place of the latter.
    fn counted(&mut self, width: usize) -> Answer<(usize, usize)> {
        self.need(width)?;
        let len = self.number(width) as usize;
        self.need(width + len)?;
        let start = self.at + width;
        self.at = start + len;
        Ok((start, len))
    }

    /// The place of a name, with its length in two bytes; it must be UTF-8.
    fn name(&mut self) -> Answer<(usize, usize)> {
        let (start, len) = self.counted(2)?;
        let name = &self.bytes[start..start + len];
        if std::str::from_utf8(name).is_err() {
            return Err(names::refused(name));
        }
        Ok((start, len))
    }

    fn position(&mut self) -> Answer<u64> {
        self.need(8)?;
        let position = self.number(8) as u64;
        self.at += 8;
        Ok(position)
    }

    /// A width in `prefix` bytes, and one size or two of that width.
    fn sizes(&mut self, prefix: usize, count: usize) -> Answer<[u128; 2]> {
        self.need(prefix)?;
        let width = self.number(prefix) as usize;
        self.need(prefix + count * width)?;
        if !(1..=16).contains(&width) {
            return Err(Refusal::new(6, width as u64, 0));
        }
        self.at += prefix;
        let mut sizes = [0; 2];
        for size in &mut sizes[..count] {
            *size = self.number(width);
            self.at += width;
        }
        Ok(sizes)
    }
}

/// The message with its mode read, whatever that is.
fn begun(message: &[u8]) -> Answer<(Rest<'_>, FileTransfer)> {
    let mut rest = Rest {
        bytes: message,
        at: 0,
    };
    let read = FileTransfer {
        kind: rest.byte()?,
        ..FileTransfer::default()
    };
    Ok((rest, read))
}

pub fn read_request(message: &[u8]) -> Answer<FileTransfer> {
    let (mut rest, mut read) = begun(message)?;
    (read.start, read.len) = rest.name()?;
    if !(1..=6).contains(&read.kind) {
        return Err(Refusal::new(3, read.kind.into(), 0));
    }
    if matches!(read.kind, 1 | 3 | 4 | 6) {
        read.format = rest.byte()?;
    }
    if matches!(read.kind, 1 | 3 | 6) {
        [read.uncompressed, read.compressed] = rest.sizes(1, 2)?;
    }
    read.tail_len = rest.left().len();
    Ok(read)
}

pub fn read_response(message: &[u8]) -> Answer<FileTransfer> {
    let (mut rest, mut read) = begun(message)?;
    if !(1..=6).contains(&read.kind) {
        return Err(Refusal::new(3, read.kind.into(), 0));
    }
    if read.kind != 2 {
        (read.start, read.len) = rest.counted(1)?;
        read.format = rest.byte()?;
    }
    match read.kind {
        4 => [read.uncompressed, read.compressed] = rest.sizes(2, 2)?,
        5 => read.uncompressed = rest.sizes(2, 1)?[0],
        6 => read.position = rest.position()?,
        _ => {}
    }
    read.tail_len = rest.left().len();
    Ok(read)
}

fn read_routine(message: &[u8], judged: u8) -> Answer<Routine> {
    let &[byte, high, low, ref record @ ..] = message else {
        return Err(Refusal::new(1, 3, message.len() as u64));
    };
    let sub_function = byte & judged;
    if !(1..=3).contains(&sub_function) {
        return Err(Refusal::new(4, sub_function.into(), 0));
    }
    Ok(Routine {
        suppress: byte != sub_function,
        sub_function,
        identifier: u16::from_be_bytes([high, low]),
        start: 3,
        len: record.len(),
        tail_len: 0,
    })
}

pub fn read_routine_request(message: &[u8]) -> Answer<Routine> {
    read_routine(message, 0x7F)
}

pub fn read_routine_response(message: &[u8]) -> Answer<Routine> {
    read_routine(message, 0xFF)
}

/// What the desk says of a request that was read, or was not. The format byte 0x00 means neither packed nor encrypted: then the sizes
/// must be equal.
pub fn desk_check(read: &Answer<FileTransfer>) -> Answer<()> {
    let read = (*read)?;
    if read.tail_len > 0 {
        return Err(Refusal::new(9, read.tail_len as u64, 0));
    }
    let sized = matches!(read.kind, 1 | 3 | 6);
    if sized && read.format == 0x00 && read.compressed != read.uncompressed {
        return Err(Refusal::new(8, 0, 0));
    }
    Ok(())
}

pub fn trouble_code(number: u32) -> Answer<[u8; 3]> {
    match number.to_be_bytes() {
        [0, high, middle, low] => Ok([high, middle, low]),
        _ => Err(Refusal::new(5, number.into(), 0)),
    }
}

pub fn next_trouble_code(buffer: &[u8]) -> Answer<Option<NextCode>> {
    match *buffer {
        [] => Ok(None),
        [high, middle, low, ref tail @ ..] => Ok(Some(NextCode {
            code: [high, middle, low],
            tail_len: tail.len(),
        })),
        _ => Err(Refusal::new(1, 3, buffer.len() as u64)),
    }
}

/// The negative codes of routine control, and of file transfer.
pub const NEGATIVE_CODES: [[u8; 7]; 2] = [
    [0x12, 0x13, 0x22, 0x24, 0x31, 0x33, 0x72],
    [0x13, 0x22, 0x24, 0x31, 0x33, 0x34, 0x70],
];

/// The bits of a byte, from bit 0 on.
pub fn bits(byte: u8) -> [bool; 8] {
    std::array::from_fn(|bit| byte >> bit & 1 == 1)
}

/// At least one of bits 0 to 4 is set.
pub fn severity_valid(byte: u8) -> bool {
    bits(byte)[..5].contains(&true)
}

/// Some bit is set in both.
pub fn matches(mask: u8, status: u8) -> bool {
    let both = bits(mask).into_iter().zip(bits(status));
    both.into_iter().any(|(a, b)| a && b)
}

/// The five formats that have a name, and then the reserved.
pub fn format(byte: u8) -> u8 {
    byte.min(5)
}

/// Reserved, emissions, safety, legislative, VOBD.
pub fn group(byte: u8) -> u8 {
    match byte {
        0x33 => 1,
        0xD0 => 2,
        0xD1..=0xDF => 3,
        0xFE => 4,
        _ => 0,
    }
}

/// The byte where it is one of these, else the refusal of this number with the byte.
pub fn one_of(these: RangeInclusive<u8>, byte: u8, number: u64) -> Answer<u8> {
    if !these.contains(&byte) {
        return Err(Refusal::new(number, byte.into(), 0));
    }
    Ok(byte)
}

/// A field of so many bytes at the start of a buffer.
pub fn field(buffer: &[u8], len: usize) -> Answer<&[u8]> {
    let rest = Rest {
        bytes: buffer,
        at: 0,
    };
    rest.need(len)?;
    Ok(&buffer[..len])
}

/// A payload at the start of a buffer, and how many bytes follow it.
pub fn payload(sort: PayloadSort, buffer: &[u8]) -> Answer<(Payload, usize)> {
    let mut rest = Rest {
        bytes: buffer,
        at: 0,
    };
    let mut read = Payload::default();
    match sort {
        PayloadSort::Sizes => [read.uncompressed, read.compressed] = rest.sizes(1, 2)?,
        PayloadSort::FileSizes => [read.uncompressed, read.compressed] = rest.sizes(2, 2)?,
        PayloadSort::DirSize => read.uncompressed = rest.sizes(2, 1)?[0],
        PayloadSort::Position => read.position = rest.position()?,
        PayloadSort::Block => (read.start, read.len) = rest.counted(1)?,
        PayloadSort::Name => (read.start, read.len) = rest.name()?,
    }
    Ok((read, rest.left().len()))
}

/// The bytes of a payload; a name is text.
pub fn payload_written(sort: PayloadSort, payload: &Payload, part: &[u8]) -> Answer<Vec<u8>> {
    let sizes = [payload.uncompressed, payload.compressed];
    Ok(match sort {
        PayloadSort::Sizes => written_sizes(1, &sizes),
        PayloadSort::FileSizes => written_sizes(2, &sizes),
        PayloadSort::DirSize => written_sizes(2, &sizes[..1]),
        PayloadSort::Position => payload.position.to_be_bytes().to_vec(),
        PayloadSort::Block => counted(1, held(part, 255)?),
        PayloadSort::Name => counted(2, held(part, 65_535)?),
    })
}

/// A block length or a name, which has to be short enough for its count.
pub fn held(part: &[u8], most: usize) -> Answer<&[u8]> {
    if part.len() > most {
        return Err(Refusal::new(2, 0, 0));
    }
    Ok(part)
}

/// Twelve months by ten refusal numbers.
pub type Table = [[u32; 10]; 12];

/// Document 02's Req 01: the count of records with each month and each refusal number.
pub fn tally_records(records: &[u8]) -> Answer<Table> {
    if records.len() / 8 > 65_536 {
        return Err(Refusal::new(12, 0, 0));
    }
    let (records, piece) = records.as_chunks::<8>();
    if !piece.is_empty() {
        return Err(Refusal::new(10, 0, 0));
    }
    let good = |[month, _, direction, number, ..]: &[u8; 8]| {
        (1..=12).contains(month) && matches!(direction, 0 | 1) && (0..=9).contains(number)
    };
    if let Some(place) = records.iter().position(|record| !good(record)) {
        return Err(Refusal::new(11, place as u64, 0));
    }
    let mut table = Table::default();
    for (row, month) in table.iter_mut().zip(1..) {
        for (cell, number) in row.iter_mut().zip(0..) {
            let here = |record: &&[u8; 8]| record[0] == month && record[3] == number;
            *cell = records.iter().filter(here).count() as u32;
        }
    }
    Ok(table)
}

/// These bytes after their count in `width` bytes.
fn counted(width: usize, part: &[u8]) -> Vec<u8> {
    let count = part.len().to_be_bytes();
    [&count[count.len() - width..], part].concat()
}

/// Sizes at the smallest width from 1 to 16 that holds them, after the width in `prefix` bytes.
fn written_sizes(prefix: usize, sizes: &[u128]) -> Vec<u8> {
    let holds = |width: &usize| *width == 16 || sizes.iter().all(|size| *size < 1 << (8 * width));
    let width = (1..=16).find(holds).expect("16 bytes hold every size");
    let mut bytes = vec![0; prefix - 1];
    bytes.push(width as u8);
    for size in sizes {
        bytes.extend(&size.to_be_bytes()[16 - width..]);
    }
    bytes
}
