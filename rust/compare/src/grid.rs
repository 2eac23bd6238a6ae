//! Chosen values at every boundary, each with each.
use crate::bench::Bench;
use crate::random::{CHARACTERS, PIECES, name_with_fault};
use crate::rng::Rng;
use crate::write::{Routine, Transfer};

pub const SIZES: [u128; 9] = [
    0,
    1,
    255,
    256,
    u64::MAX as u128,
    1 << 64,
    (1 << 120) - 1,
    1 << 120,
    u128::MAX,
];
const POSITIONS: [u64; 6] = [0, 1, 255, 256, 1 << 63, u64::MAX];
/// The six kinds, and four numbers that are none.
const KINDS: [u8; 10] = [1, 2, 3, 4, 5, 6, 0, 7, 0x81, 255];
/// The three sub-functions, and five numbers that are none.
const SUB_FUNCTIONS: [u8; 8] = [1, 2, 3, 0, 4, 0x7F, 0x81, 0xFF];
const SHORT_PARTS: [usize; 5] = [0, 1, 2, 255, 256];
const LONG_PARTS: [usize; 3] = [65_534, 65_535, 65_536];

/// Requests and responses to be written: every kind, name or block length, and pair of sizes.
pub fn transfers(bench: &mut Bench) {
    for name in SHORT_PARTS.into_iter().flat_map(names) {
        for kind in KINDS {
            for sizes in pairs() {
                transfer(bench, kind, &name, sizes);
            }
        }
    }
    for name in LONG_PARTS.into_iter().flat_map(names) {
        for kind in KINDS {
            for size in SIZES {
                transfer(bench, kind, &name, [size, size / 3]);
            }
        }
    }
}

fn transfer(bench: &mut Bench, kind: u8, part: &[u8], sizes: [u128; 2]) {
    let format = 0x11 ^ kind ^ sizes[1].to_le_bytes()[0];
    let position = POSITIONS[(sizes[0] % 6) as usize];
    let t = Transfer {
        kind,
        part,
        format,
        sizes,
        position,
    };
    bench.written_transfer(t);
}

fn pairs() -> impl Iterator<Item = [u128; 2]> {
    SIZES.into_iter().flat_map(|a| SIZES.map(|b| [a, b]))
}

/// A good name of this length, one of letters of two bytes, and damaged ones.
fn names(len: usize) -> Vec<Vec<u8>> {
    let good = vec![b'a'; len];
    let mut names = vec![good.clone()];
    if len >= 2 {
        let mut wide = "é".repeat(len / 2).into_bytes();
        wide.resize(len, b'z');
        names.push(wide);
    }
    for (at, byte) in [(0, 0xFF), (len / 2, 0x80), (len.saturating_sub(1), 0xC3)] {
        let mut bad = good.clone();
        if let Some(b) = bad.get_mut(at) {
            *b = byte;
            names.push(bad);
        }
    }
    names
}

/// Routine messages to be written, and the same as messages to be read.
pub fn routines(bench: &mut Bench) {
    for len in SHORT_PARTS.into_iter().chain(LONG_PARTS) {
        let record = record(len);
        for sub_function in SUB_FUNCTIONS {
            for identifier in [0, 1, 0x00FF, 0x0100, 0x0203, 0xFFFF] {
                routine(bench, sub_function, identifier, &record);
            }
        }
    }
}

fn record(len: usize) -> Vec<u8> {
    (0..len).map(|i| (i % 251) as u8).collect()
}

fn routine(bench: &mut Bench, sub_function: u8, identifier: u16, record: &[u8]) {
    for suppress in [false, true] {
        let r = Routine {
            suppress,
            sub_function,
            identifier,
            record,
        };
        bench.written_routine(r);
    }
    let [high, low] = identifier.to_be_bytes();
    bench.message(&[&[sub_function, high, low], record].concat());
}

/// Requests and responses to be read: every kind and width, cut at every place, and lengthened.
pub fn groups(bench: &mut Bench) {
    for kind in 0..=8 {
        for width in (0..=19).chain([32, 127, 128, 255]) {
            for part in [0, 1, 2, 3] {
                cuts(bench, &request(kind, &vec![b'n'; part], width));
                cuts(bench, &response(kind, part, width.into()));
            }
        }
    }
}

/// Responses with widths of more than one byte, around the length that the group then needs, and long names around theirs.
pub fn long_groups(bench: &mut Bench) {
    for kind in [4, 5] {
        for width in [256, 257, 4096, 65_535] {
            let message = response(kind, 2, width);
            around(bench, &message, message.len() - 1);
            around(bench, &message, message.len() - 1 - usize::from(width));
        }
    }
    for kind in 0..=8 {
        for part in [255, 256, 65_534, 65_535] {
            let message = request(kind, &vec![b'n'; part], 2);
            around(bench, &message, 3 + part);
            around(bench, &message, message.len() - 1);
        }
        let message = response(kind, 255, 2);
        around(bench, &message, 2 + 255);
        around(bench, &message, message.len() - 1);
    }
}

/// Every length up to 300, of names, block lengths and records: what the other parts leave out between short and long. The recorder
/// draws several times on the way.
pub fn lengths(bench: &mut Bench) {
    for len in 0..=300 {
        let width = (1 + len % 16) as u8;
        let sizes = [SIZES[len % SIZES.len()], SIZES[len / 16 % SIZES.len()]];
        for kind in KINDS {
            for name in names(len) {
                bench.message(&request(kind, &name, width));
                transfer(bench, kind, &name, sizes);
            }
            bench.message(&response(kind, len.min(255), width.into()));
        }
        for sub_function in SUB_FUNCTIONS {
            routine(bench, sub_function, 257 * len as u16, &record(len));
        }
        if len == 255 {
            bench.end_part();
        }
    }
}

/// A name of each length up to 300, of characters of one length each, with a piece amid them, likewise.
pub fn long_names(bench: &mut Bench) {
    for len in 0..=300 {
        bench.name(&long_name(len));
        bench.end_part();
    }
}

/// Names of each number of characters up to 300, of each length of character, with one fault that stands anywhere, likewise.
pub fn far_faults(bench: &mut Bench) {
    let mut rng = Rng::new(300);
    for characters in 0..=300 {
        for lengths in CHARACTERS {
            bench.name(&name_with_fault(&mut rng, characters, lengths));
        }
        if characters % 3 == 0 {
            bench.end_part();
        }
    }
    for characters in 0..=300 {
        for lengths in CHARACTERS {
            let kind = KINDS[characters % KINDS.len()];
            let name = name_with_fault(&mut rng, characters, lengths);
            bench.message(&request(kind, &name, 2));
            transfer(bench, kind, &name, [255, 256]);
        }
    }
}

fn long_name(len: usize) -> Vec<u8> {
    let character = ["a", "é", "日", "𐍈", "\0"][len % 5].as_bytes();
    let piece = PIECES.get(len / 5 % (PIECES.len() + 1)).copied();
    let mut name = vec![b'b'; len % 3];
    while name.len() + character.len() <= len / 2 {
        name.extend(character);
    }
    name.extend(piece.unwrap_or(&[0xC1, 0xBF]));
    while name.len() + character.len() <= len {
        name.extend(character);
    }
    name.resize(len, b'c');
    name
}

/// Sizes at their bounds, read and rewritten in every width that holds them, likewise.
pub fn sizes(bench: &mut Bench) {
    for first in SIZES {
        for second in SIZES {
            let bytes = [first, second].map(u128::to_be_bytes);
            let zeros = (first | second).leading_zeros() as usize / 8;
            for skipped in 0..=zeros.min(15) {
                let sizes = bytes.map(|b| b[skipped..].to_vec()).concat();
                sized(bench, 16 - skipped, &sizes);
            }
        }
        bench.end_part();
    }
}

fn sized(bench: &mut Bench, width: usize, sizes: &[u8]) {
    for kind in 1..=6 {
        let name = vec![b'n'; width % 3];
        bench.message(&[&request_front(kind, &name, width as u8), sizes].concat());
        bench.message(&[&response_front(kind, width % 3, width as u16), sizes].concat());
    }
}

/// Numbers around the bounds of each byte, and whole and broken characters, likewise.
pub fn bounds(bench: &mut Bench) {
    for bit in [0, 8, 16, 24, 25, 31] {
        for more in 0..4 {
            bench.number((1u32 << bit).wrapping_sub(2).wrapping_add(more));
        }
    }
    for piece in PIECES {
        for len in 1..=piece.len() {
            bench.name(&piece[..len]);
        }
    }
}

/// Names that go bad at every place, around lengths at which the check goes another way: after plain letters, and after letters of two
/// bytes, comes a piece that is not UTF-8, or a letter that is. They are read, judged at the desk, rewritten and written.
pub fn bad_names(bench: &mut Bench) {
    for len in (0..=20).chain(60..=70).chain(124..=134).chain([200]) {
        for at in 0..=len {
            for piece in PIECES {
                for letter in ["a", "é"] {
                    bad_name(bench, len, at, letter, piece);
                }
            }
        }
    }
}

fn bad_name(bench: &mut Bench, len: usize, at: usize, letter: &str, piece: &[u8]) {
    let mut name = letter.repeat(at / letter.len()).into_bytes();
    name.extend(piece);
    name.resize(name.len().max(len), b'z');
    bench.message(&request(2, &name, 0));
    bench.written_transfer(Transfer {
        kind: 2,
        part: &name,
        format: 0,
        sizes: [0, 0],
        position: 0,
    });
}

fn request_front(kind: u8, name: &[u8], width: u8) -> Vec<u8> {
    let mut message = vec![kind];
    message.extend((name.len() as u16).to_be_bytes());
    message.extend(name);
    message.extend([0x5A, width]);
    message
}

pub fn request(kind: u8, name: &[u8], width: u8) -> Vec<u8> {
    let mut message = request_front(kind, name, width);
    message.extend((0..2 * usize::from(width)).map(|i| (7 * i + 1) as u8));
    message
}

fn response_front(kind: u8, part: usize, width: u16) -> Vec<u8> {
    let mut message = vec![kind, part as u8];
    message.extend(vec![0; part]);
    message.push(0x5A);
    message.extend(width.to_be_bytes());
    message
}

pub fn response(kind: u8, part: usize, width: u16) -> Vec<u8> {
    let mut message = response_front(kind, part, width);
    let sizes = if kind == 5 { 1 } else { 2 };
    message.extend((0..sizes * usize::from(width)).map(|i| (7 * i + 1) as u8));
    message
}

/// The message cut to every length, and lengthened by one, two and nine bytes.
fn cuts(bench: &mut Bench, message: &[u8]) {
    for len in 0..=message.len() {
        bench.message(&message[..len]);
    }
    for more in [1, 2, 9] {
        bench.message(&[message, &vec![0x33; more]].concat());
    }
}

/// The message cut to the lengths around one place, and whole.
fn around(bench: &mut Bench, message: &[u8], place: usize) {
    for len in place.saturating_sub(3)..=(place + 3).min(message.len()) {
        bench.message(&message[..len]);
    }
    bench.message(message);
    bench.message(&[message, &[0x33]].concat());
}
