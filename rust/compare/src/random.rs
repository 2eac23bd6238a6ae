//! Random inputs: mostly well made, then damaged.
use crate::bench::Bench;
use crate::rng::Rng;
use crate::sheets;
use crate::write::{Routine, Transfer};

/// Pieces of names; those from the tenth on are not UTF-8.
pub const PIECES: [&[u8]; 18] = [
    b"a",
    b"/maps",
    b"\0",
    &[0xC3, 0xA9],
    &[0xDF, 0xBF],
    &[0xE0, 0xA0, 0x80],
    &[0xED, 0x9F, 0xBF],
    &[0xF0, 0x90, 0x80, 0x80],
    &[0xF4, 0x8F, 0xBF, 0xBF],
    &[0x80],
    &[0xC0, 0x80],
    &[0xE0, 0x9F, 0xBF],
    &[0xED, 0xA0, 0x80],
    &[0xF0, 0x8F, 0xBF, 0xBF],
    &[0xF4, 0x90, 0x80, 0x80],
    &[0xE2, 0x82],
    &[0xF5],
    &[0xFF],
];
const GOOD_PIECES: usize = 9;

/// One round of everything.
pub fn round(bench: &mut Bench, rng: &mut Rng) {
    for _ in 0..500 {
        let message = message(rng, 12);
        message_and_damaged(bench, rng, &message);
        let noise = rng.below(80);
        bench.message(&rng.bytes(noise));
        writers(bench, rng, 12);
        bench.name(&name(rng, 40));
        far_fault(bench, rng);
        bench.number(rng.number() as u32 >> rng.below(9));
        let list = rng.below(9);
        bench.next_code(&rng.bytes(list));
    }
    let message = message(rng, 65_600);
    message_and_damaged(bench, rng, &message);
    writers(bench, rng, 65_600);
    bench.name(&name(rng, 5_000));
    for most in [3, 30, 300, 3_000] {
        sheets::random(bench, rng, most);
    }
}

/// A name with one fault, checked, read and written.
fn far_fault(bench: &mut Bench, rng: &mut Rng) {
    let (characters, lengths) = (rng.below(301), rng.choose(&CHARACTERS));
    let name = name_with_fault(rng, characters, lengths);
    bench.name(&name);
    if rng.once_in(8) {
        bench.message(&request_of(rng, &name));
        let sizes = [size(rng), size(rng)];
        bench.written_transfer(Transfer {
            kind: kind(rng),
            part: &name,
            format: rng.byte(),
            sizes,
            position: 0,
        });
    }
}

fn message_and_damaged(bench: &mut Bench, rng: &mut Rng, message: &[u8]) {
    bench.message(message);
    let cut = rng.below(message.len() + 1);
    bench.message(&message[..cut]);
    let more = 1 + rng.below(4);
    bench.message(&[message, &rng.bytes(more)].concat());
    let mut changed = message.to_vec();
    for _ in 0..3 {
        let at = rng.below(changed.len().min(40));
        changed[at] = damaged(rng, changed[at]);
        bench.message(&changed);
    }
}

/// Another byte: any one, or one that differs in a single bit, or a neighbour.
fn damaged(rng: &mut Rng, byte: u8) -> u8 {
    match rng.below(4) {
        0 => rng.byte(),
        1 => byte ^ (1 << rng.below(8)),
        2 => byte.wrapping_add(1),
        _ => byte.wrapping_sub(1),
    }
}

/// A request, a response or a routine message, its name or record shorter than `most`.
pub fn message(rng: &mut Rng, most: usize) -> Vec<u8> {
    match rng.below(5) {
        0 | 1 => request(rng, most),
        2 | 3 => response(rng, most),
        _ => routine(rng, most),
    }
}

pub fn request(rng: &mut Rng, most: usize) -> Vec<u8> {
    let name = name(rng, most);
    request_of(rng, &name)
}

fn request_of(rng: &mut Rng, name: &[u8]) -> Vec<u8> {
    let declared = name.len() as u16;
    let mut message = vec![kind(rng)];
    message.extend(declared.to_be_bytes());
    message.extend(name);
    message.push(rng.byte());
    let width = width(rng);
    message.push(width as u8);
    message.extend(sizes(rng, width, 2));
    message
}

fn response(rng: &mut Rng, most: usize) -> Vec<u8> {
    let block = rng.below(most.min(256));
    let mut message = vec![kind(rng), block as u8];
    message.extend(rng.bytes(block));
    message.push(rng.byte());
    if rng.once_in(3) {
        message.extend(rng.bytes(8));
        return message;
    }
    let width = width(rng);
    message.extend((width as u16).to_be_bytes());
    let count = 1 + rng.below(2);
    message.extend(sizes(rng, width, count));
    message
}

fn routine(rng: &mut Rng, most: usize) -> Vec<u8> {
    let len = 3 + rng.below(most);
    let mut message = rng.bytes(len);
    message[0] = (message[0] & 0x80) | rng.below(5) as u8;
    message
}

/// One of the six, and now and then another byte.
pub fn kind(rng: &mut Rng) -> u8 {
    if rng.once_in(16) {
        return rng.byte();
    }
    1 + rng.below(6) as u8
}

/// From 0 to 18, and now and then another width.
fn width(rng: &mut Rng) -> usize {
    if rng.once_in(32) {
        return rng.below(256);
    }
    rng.below(19)
}

/// Sizes of this width with a random number of leading zeros each.
fn sizes(rng: &mut Rng, width: usize, count: usize) -> Vec<u8> {
    let mut bytes = rng.bytes(width * count);
    for size in bytes.chunks_mut(width.max(1)) {
        let zeros = rng.below(size.len() + 1);
        size[..zeros].fill(0);
    }
    bytes
}

/// A name that is shorter than `most`, or a little longer; once in four times with pieces that are not UTF-8.
pub fn name(rng: &mut Rng, most: usize) -> Vec<u8> {
    let len = rng.below(most);
    let pieces = if rng.once_in(4) {
        PIECES.len()
    } else {
        GOOD_PIECES
    };
    let mut name = Vec::new();
    while name.len() < len {
        name.extend(rng.choose(&PIECES[..pieces]));
    }
    if rng.once_in(8) {
        name.truncate(len);
    }
    name
}

/// Which lengths the characters of a name with a fault have.
pub const CHARACTERS: [&[usize]; 6] = [
    &[1],
    &[2],
    &[3],
    &[4],
    &[1, 2, 3, 4],
    &[1, 1, 1, 1, 1, 1, 1, 3],
];

/// A good name of so many characters, of these lengths, with one piece in it that is not UTF-8 and stands anywhere.
pub fn name_with_fault(rng: &mut Rng, characters: usize, lengths: &[usize]) -> Vec<u8> {
    let place = rng.below(characters + 1);
    let mut name = Vec::new();
    for at in 0..=characters {
        if at == place {
            name.extend(rng.choose(&PIECES[GOOD_PIECES..]));
        }
        if at < characters {
            name.extend(character(rng, lengths).to_string().bytes());
        }
    }
    name
}

/// A character of one of these lengths.
fn character(rng: &mut Rng, lengths: &[usize]) -> char {
    let bounds = [0, 0x80, 0x800, 0x1_0000, 0x11_0000];
    let length = rng.choose(lengths);
    let (first, end) = (bounds[length - 1], bounds[length]);
    let number = first + rng.below(end - first);
    // a surrogate is no character; the one in its place has three bytes too
    char::from_u32(number as u32).unwrap_or(char::REPLACEMENT_CHARACTER)
}

/// A number of any magnitude.
pub fn size(rng: &mut Rng) -> u128 {
    let whole = u128::from(rng.number()) << 64 | u128::from(rng.number());
    let size = whole >> rng.below(128);
    if rng.once_in(8) {
        return 1 << rng.below(128);
    }
    if rng.once_in(8) {
        return u128::MAX >> rng.below(128);
    }
    size
}

/// Every writer once, with random values.
fn writers(bench: &mut Bench, rng: &mut Rng, most: usize) {
    let name = name(rng, most);
    let block_len = rng.below(most.min(260));
    let block = rng.bytes(block_len);
    let t = Transfer {
        kind: kind(rng),
        part: &name,
        format: rng.byte(),
        sizes: [size(rng), size(rng)],
        position: rng.number() >> rng.below(64),
    };
    bench.written_transfer(t);
    bench.written_transfer(Transfer { part: &block, ..t });
    let record_len = rng.below(most);
    let record = rng.bytes(record_len);
    let r = Routine {
        suppress: rng.once_in(2),
        sub_function: rng.below(5) as u8,
        identifier: rng.number() as u16,
        record: &record,
    };
    bench.written_routine(r);
}
