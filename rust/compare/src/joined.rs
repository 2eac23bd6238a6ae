//! Requests that were joined without lengths and are taken apart again, beside document 02's request 13 and what is agreed of the call,
//! written down plainly; and each buffer that is accepted read again, piece by piece and in one call.
use crate::bench::Bench;
use crate::report::{differ, hex};
use crate::rng::Rng;
use crate::tally::{Call, Rule};
use crate::{expected, model, random};
use oracle::plain::Refusal;
use skrolvind::flat::{self, Split, c};
use std::hint::black_box;
use std::ptr::{null, null_mut};

const MOST: usize = 4_096;
/// Entries before the list and behind it, which nobody may touch.
const AROUND: usize = 8;

/// The count; or the refusal, and how many pieces were found before it.
type Answer = Result<usize, (Refusal, usize)>;

/// What is agreed: the answer, and the list afterwards. Pieces are read until the buffer ends.
fn wanted(buffer: &[u8], list: &[u32]) -> (Answer, Vec<u32>) {
    let refused = |refusal, found| (Err((refusal, found)), list.to_vec());
    let (mut lengths, mut rest) = (vec![], buffer);
    while !rest.is_empty() {
        let found = lengths.len();
        if found == MOST {
            return refused(Refusal::new(12, 0, 0), found);
        }
        match model::read_request(rest) {
            Err(refusal) => return refused(refusal, found),
            Ok(read) => {
                let (piece, behind) = rest.split_at(rest.len() - read.tail_len);
                lengths.push(piece.len() as u32);
                rest = behind;
            }
        }
    }
    let (count, room) = (lengths.len(), list.len());
    if room < count {
        return refused(Refusal::new(7, count as u64, room as u64), count);
    }
    lengths.extend(&list[count..]);
    (Ok(count), lengths)
}

fn record(answer: Answer) -> Split {
    let (refusal, count) = match answer {
        Ok(count) => (Refusal::new(0, 0, 0), count),
        Err((refusal, found)) => (refusal, found),
    };
    Split {
        number: refusal.number,
        first: refusal.first,
        second: refusal.second,
        count: count as u64,
    }
}

impl Bench {
    /// A buffer taken apart into a list of `room` entries, no two neighbours of which are alike, by the door and by the binding.
    fn split(&mut self, buffer: &[u8], room: usize) {
        let marks: Vec<u32> = (0..room + 2 * AROUND)
            .map(|i| 0x8000_0001_u32.wrapping_mul(3 * i as u32 + 1))
            .collect();
        let (answer, list) = wanted(buffer, &marks[AROUND..][..room]);
        let mut after = marks.clone();
        after[AROUND..][..room].copy_from_slice(&list);
        let input = || format!("{}, room {room}", hex(buffer));
        let wanted = || format!("{answer:?} {after:?}");
        let handed = buffer.to_vec();
        let mut lent = marks.clone();
        let ours = flat::split_joined(buffer, &mut lent[AROUND..][..room]);
        if (ours, &lent) != (record(answer), &after) {
            let ours = format!("{ours:?} {lent:?}");
            differ(
                "a joined buffer is taken apart otherwise",
                &input(),
                &ours,
                &wanted(),
            );
        }
        let mut lent = marks.clone();
        let ours = skrolvind::split_joined(buffer, &mut lent[AROUND..][..room]);
        let ours = ours.map_err(|e| (expected::refusal(e.refusal), e.found));
        if (ours, &lent) != (answer, &after) {
            let ours = format!("{ours:?} {lent:?}");
            differ(
                "the binding takes a joined buffer apart otherwise",
                &input(),
                &ours,
                &wanted(),
            );
        }
        // looked at anew: the compiler takes for granted that what is lent for reading stays as it is
        if black_box(buffer) != handed {
            let sentence = "taking a joined buffer apart changes it";
            differ(sentence, &input(), "changed", "as it was");
        }
        if let Ok(count) = answer {
            read_back(buffer, &list[..count]);
        }
        self.tally.count(Call::SplitJoined, Some(Rule::Joined));
    }

    /// Lists of exactly enough entries, one fewer, none, and more.
    fn split_in_rooms(&mut self, buffer: &[u8], count: usize) {
        for room in [0, count.saturating_sub(1), count, count + 1, count + 9] {
            self.split(buffer, room);
        }
    }
}

/// The pieces by their lengths are the whole buffer, each is accepted with nothing left over, and one call that reads them all says so.
fn read_back(buffer: &[u8], lengths: &[u32]) {
    let mut rest = buffer;
    for len in lengths {
        let (piece, behind) = rest.split_at(*len as usize);
        rest = behind;
        let read = flat::read_request(piece);
        if (read.number, read.tail) != (0, u64::from(*len)) {
            let sentence = "a piece of a joined buffer is no whole request";
            differ(
                sentence,
                &hex(piece),
                &format!("{read:?}"),
                "accepted whole",
            );
        }
    }
    let mut numbers = vec![99; lengths.len()];
    let all = skrolvind::read_batch(buffer, lengths, &mut numbers);
    if !rest.is_empty() || all != Ok(lengths.len()) || numbers.iter().any(|n| *n != 0) {
        let sentence = "the lengths of a joined buffer are not those that read it in one call";
        differ(
            sentence,
            &format!("{} {lengths:?}", hex(buffer)),
            &format!("{all:?} {numbers:?}"),
            "0 for each",
        );
    }
}

/// A request of this kind, its sizes 1 and 2, in so many bytes each.
fn request(kind: u8, name: &[u8], width: u8) -> Vec<u8> {
    let mut message = vec![kind];
    message.extend((name.len() as u16).to_be_bytes());
    message.extend(name);
    if matches!(kind, 1 | 3 | 4 | 6) {
        message.push(0x11);
    }
    if matches!(kind, 1 | 3 | 6) {
        message.push(width);
        for size in [1, 2] {
            message.extend(vec![0; usize::from(width) - 1]);
            message.push(size);
        }
    }
    message
}

/// One or two requests of each kind: the smallest width and wider ones, names that are empty, and names whose bytes look like requests.
fn samples() -> Vec<Vec<u8>> {
    vec![
        request(1, b"a", 1),
        request(1, b"", 3),
        request(2, b"\x02\0\0", 0),
        request(2, b"", 0),
        request(3, b"bc", 16),
        request(4, b"d", 0),
        request(5, b"", 0),
        request(5, b"\x05\0\0\x05\0\0", 0),
        request(6, "\u{20ac}".as_bytes(), 2),
    ]
}

/// Two and three requests of every kind joined: whole, cut at each place, with a byte more, and with a piece that is refused at each place.
pub fn every_kind(bench: &mut Bench) {
    let all = samples();
    bench.split_in_rooms(&[], 0);
    for first in &all {
        bench.split_in_rooms(first, 1);
        for second in &all {
            let two = [&first[..], second].concat();
            bench.split_in_rooms(&two, 2);
            for end in 0..two.len() {
                bench.split(&two[..end], 2);
            }
            for third in &all {
                bench.split_in_rooms(&[&two[..], third].concat(), 3);
            }
        }
    }
    refused_pieces(bench, &all);
    null_pointers(bench);
}

/// What is refused in the place of each piece, or before it: an unknown mode, a name that is not UTF-8, a width of 0 and of 17, one byte.
fn refused_pieces(bench: &mut Bench, all: &[Vec<u8>]) {
    let bad: [&[u8]; 5] = [
        &[7, 0, 0],
        &[2, 0, 2, b'a', 0xFF],
        &[1, 0, 1, b'a', 0x11, 0, 0, 0],
        &[3, 0, 0, 0x11, 17],
        &[0],
    ];
    for piece in bad {
        for place in 0..=all.len() {
            let (before, behind) = all.split_at(place);
            let buffer = [&before.concat(), piece, &behind.concat()].concat();
            bench.split_in_rooms(&buffer, place);
        }
    }
}

/// Each slice of the door empty with a null pointer: answered as any other empty slice.
fn null_pointers(bench: &mut Bench) {
    let buffer = [2, 0, 1, b'a', 5, 0, 0];
    for (b, l) in [(0, 0), (0, 2), (7, 0)] {
        let mut list = [0xA5A5_A5A5; 2];
        let pointers = (
            if b == 0 { null() } else { buffer.as_ptr() },
            if l == 0 {
                null_mut()
            } else {
                list.as_mut_ptr()
            },
        );
        // SAFETY: each pointer stands with the length of what it points to, or with the length 0.
        let ours = unsafe { c::skr_split_joined(pointers.0, b, pointers.1, l) };
        let (answer, after) = wanted(&buffer[..b], &[0xA5A5_A5A5; 2][..l]);
        if (ours, &list[..l]) != (record(answer), &after[..]) {
            let sentence = "a null pointer with the length 0 is no empty slice of a joined buffer";
            differ(
                sentence,
                &format!("{b}, {l}"),
                &format!("{ours:?}"),
                &format!("{answer:?}"),
            );
        }
        bench
            .tally
            .count(Call::SplitJoined, Some(Rule::NullPointer));
    }
}

/// 4,095 to 4,098 pieces, and what can follow 4,096 of them; the longest requests, whose lengths pass 16 bits.
pub fn bounds(bench: &mut Bench) {
    let two = [request(5, b"", 0), request(2, b"", 0)];
    for count in [MOST - 1, MOST, MOST + 1, MOST + 2] {
        let mut buffer = two.concat().repeat(count / 2);
        if count % 2 == 1 {
            buffer.extend(&two[0]);
        }
        bench.split_in_rooms(&buffer, count);
        for behind in [&[2][..], &[7, 0, 0], &[2, 0, 1, 0xFF]] {
            bench.split_in_rooms(&[&buffer[..], behind].concat(), count);
        }
    }
    let long: Vec<_> = [65_535, 65_534, 32_768]
        .map(|len| request(1, &vec![b'n'; len], 16))
        .concat();
    bench.split_in_rooms(&long, 3);
    bench.split_in_rooms(&long[..long.len() - 1], 2);
    bench.split_in_rooms(&[&long[..], &long, &[5, 0, 0]].concat(), 7);
}

/// Random requests of any width, most of them whole, joined; now and then a byte changed, bytes lost, or bytes more.
pub fn round(bench: &mut Bench, rng: &mut Rng) {
    for most in [2, 6, 30, 300] {
        let mut buffer = vec![];
        let count = rng.below(most + 1);
        for _ in 0..count {
            let mut message = random::request(rng, 12);
            match model::read_request(&message) {
                Ok(read) => message.truncate(message.len() - read.tail_len),
                Err(_) if rng.once_in(8) => {}
                Err(_) => message.clear(),
            }
            buffer.extend(message);
        }
        bench.split_in_rooms(&buffer, count);
        bench.split(&buffer, rng.below(count + 3));
        if !buffer.is_empty() {
            let at = rng.below(buffer.len());
            bench.split(&buffer[..at], count);
            bench.split(&buffer[at..], count);
            buffer[at] = rng.byte();
            bench.split(&buffer, count);
        }
    }
}
