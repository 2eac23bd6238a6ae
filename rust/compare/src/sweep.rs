//! Every input of a sort, one after the other.
use crate::bench::Bench;

/// Kinds, widths, counts, sub-functions with and without their high bit, letters and halves of letters.
const WIDE: [u8; 14] = [0, 1, 2, 3, 4, 5, 6, 7, 0x10, 0x11, 0x61, 0x80, 0xC3, 0xFF];
/// Fewer of them, for messages of seven bytes.
const NARROW: [u8; 9] = [0, 1, 2, 3, 4, 5, 6, 0x80, 0xC3];
/// The first and the last byte of every range in RFC 3629's grammar, and their neighbours.
const LETTERS: [u8; 27] = [
    0x00, 0x61, 0x7F, 0x80, 0x8F, 0x90, 0x9F, 0xA0, 0xBF, 0xC0, 0xC1, 0xC2, 0xDF, 0xE0, 0xE1, 0xEC,
    0xED, 0xEE, 0xEF, 0xF0, 0xF1, 0xF3, 0xF4, 0xF5, 0xF7, 0xF8, 0xFF,
];

/// All messages of up to three bytes; also as lists of trouble codes and as names.
pub fn short_messages(bench: &mut Bench) {
    let every: Vec<u8> = (0..=255).collect();
    for len in 0..=3 {
        all(&every, len, |bytes| {
            bench.message(bytes);
            bench.name(bytes);
            bench.next_code(bytes);
        });
    }
}

/// All messages of four to seven bytes over an alphabet.
pub fn chosen_messages(bench: &mut Bench) {
    for len in 4..=6 {
        all(&WIDE, len, |bytes| bench.message(bytes));
    }
    all(&NARROW, 7, |bytes| bench.message(bytes));
}

/// All names of four and five bytes over the ends of the grammar's ranges.
pub fn names(bench: &mut Bench) {
    for len in 4..=5 {
        all(&LETTERS, len, |bytes| bench.name(bytes));
    }
}

/// All numbers up to twice the largest trouble code, and those around every power of two.
pub fn numbers(bench: &mut Bench) {
    for number in 0..0x0200_0000 {
        bench.number(number);
    }
    for bit in 25..32 {
        for number in (1u32 << bit) - 300..=(1 << bit) + 300 {
            bench.number(number);
        }
    }
    for number in u32::MAX - 300..=u32::MAX {
        bench.number(number);
    }
}

/// Calls `f` with every run of `len` bytes over the alphabet.
fn all(alphabet: &[u8], len: usize, mut f: impl FnMut(&[u8])) {
    let mut at = vec![0; len];
    let mut bytes = vec![alphabet[0]; len];
    loop {
        f(&bytes);
        let Some(i) = at.iter().rposition(|i| i + 1 < alphabet.len()) else {
            return;
        };
        at[i] += 1;
        at[i + 1..].fill(0);
        for j in i..len {
            bytes[j] = alphabet[at[j]];
        }
    }
}
