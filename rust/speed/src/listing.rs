//! Listings, and the plain Rust that reading, index, lookup and changes are timed against: the original has none.
use skrolvind::TroubleCode;
use std::collections::HashMap;

pub type Index = ([u32; 256], [u32; 256]);
/// A listing, and the same some time later.
pub type Both = (&'static [u8], &'static [u8]);

/// The records of a listing, four bytes each, or nothing where it is refused.
fn records(message: &[u8]) -> Option<&[[u8; 4]]> {
    let [0x59, 0x02, _, rest @ ..] = message else {
        return None;
    };
    let (records, piece) = rest.as_chunks::<4>();
    (records.len() <= 4096 && piece.is_empty()).then_some(records)
}

/// All bytes of the records added up, so that each is looked at.
pub fn bytes(message: &[u8]) -> Option<u32> {
    let records = records(message)?;
    Some(records.iter().flatten().copied().map(u32::from).sum())
}

/// How many records have each high byte, and the place of the first.
pub fn index(message: &[u8]) -> Option<Index> {
    let (mut counts, mut firsts) = ([0; 256], [0; 256]);
    for (place, record) in records(message)?.iter().enumerate() {
        let high = usize::from(record[0]);
        if counts[high] == 0 {
            firsts[high] = place as u32;
        }
        counts[high] += 1;
    }
    Some((counts, firsts))
}

/// The place of the first record that has the code, by an index that must be the listing's own.
pub fn look_up(message: &[u8], kept: &Index, code: TroubleCode) -> Option<usize> {
    if index(message)? != *kept {
        return None;
    }
    let wanted = [code.high, code.middle, code.low];
    let high = usize::from(code.high);
    let mut left = kept.0[high];
    let from = kept.1[high] as usize;
    for (place, record) in records(message)?.iter().enumerate().skip(from) {
        if left == 0 {
            return None;
        }
        if record[..3] == wanted {
            return Some(place);
        }
        left -= u32::from(record[0] == code.high);
    }
    None
}

/// The status of each code, or nothing where a code stands twice.
fn by_code(records: &[[u8; 4]]) -> Option<HashMap<[u8; 3], u8>> {
    let mut statuses = HashMap::with_capacity(records.len());
    for [high, middle, low, status] in records {
        if statuses.insert([*high, *middle, *low], *status).is_some() {
            return None;
        }
    }
    Some(statuses)
}

/// What changed between two listings, by a hash map of each: six bytes an entry, and how many bytes there are.
pub fn changes(&(first, second): &Both, room: &mut [u8]) -> Option<usize> {
    let (first, second) = (records(first)?, records(second)?);
    let (old, new) = (by_code(first)?, by_code(second)?);
    let (entries, _) = room.as_chunks_mut();
    let mut entries = entries.iter_mut();
    let mut count = 0;
    let mut put = |entry: [u8; 6]| {
        *entries.next()? = entry;
        count += entry.len();
        Some(())
    };
    for &[high, middle, low, status] in first {
        match new.get(&[high, middle, low]) {
            None => put([1, high, middle, low, status, 0])?,
            Some(other) if *other != status => put([2, high, middle, low, status, *other])?,
            Some(_) => {}
        }
    }
    for &[high, middle, low, status] in second {
        if !old.contains_key(&[high, middle, low]) {
            put([3, high, middle, low, 0, status])?;
        }
    }
    Some(count)
}

/// The same listing some time later: of eight codes in a row one is gone, one has another status, and a new one stands behind them.
pub fn later(message: &[u8]) -> Vec<u8> {
    let (head, records) = message.split_at(3);
    let mut all = head.to_vec();
    for eight in records.chunks(32) {
        let mut eight = eight.to_vec();
        eight[15] ^= 0x01;
        let [high, middle, low, status] = [eight[0], eight[1] | 0x80, eight[2], eight[3]];
        all.extend(&eight[4..]);
        all.extend([high, middle, low, status]);
    }
    all
}

/// A listing in which every code stands once, its high bytes taken from `highs` in turn.
pub fn message(count: usize, highs: usize) -> Vec<u8> {
    let record = |place: usize| {
        let [.., middle, low] = (place as u32).to_be_bytes();
        [(place % highs) as u8, middle, low, 0x2F]
    };
    let head = [0x59, 0x02, 0xFF];
    head.into_iter()
        .chain((0..count).flat_map(record))
        .collect()
}

/// The same records in the order of their codes.
pub fn in_order(message: &[u8]) -> Vec<u8> {
    let (head, records) = message.split_at(3);
    let (records, _) = records.as_chunks::<4>();
    let mut records = records.to_vec();
    records.sort_unstable();
    [head, records.as_flattened()].concat()
}
