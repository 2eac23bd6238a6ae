//! A morning's messages in one call, beside document 02's request 08 written down plainly, and beside reading each message alone.
use crate::bench::Bench;
use crate::report::{differ, hex};
use crate::rng::Rng;
use crate::tally::{Call, Rule};
use crate::{expected, model, random};
use oracle::plain::Refusal;
use skrolvind::flat::{self, Batch, c};
use std::hint::black_box;
use std::ptr::{null, null_mut};

const MOST: usize = 4_096;
/// Bytes before the list and behind it, which nobody may touch.
const AROUND: usize = 8;
/// A good request, and others that begin like one: what short buffers are made of.
const BYTES: [u8; 3] = [2, 0, b'a'];

type Answer = Result<usize, Refusal>;

/// What the request says: the answer, and the list afterwards.
fn wanted(buffer: &[u8], lengths: &[u32], list: &[u8]) -> (Answer, Vec<u8>) {
    let (count, room) = (lengths.len(), list.len());
    let refused = |number, first: usize, second: usize| {
        let refusal = Refusal::new(number, first as u64, second as u64);
        (Err(refusal), list.to_vec())
    };
    if count > MOST {
        return refused(12, 0, 0);
    }
    if lengths.iter().map(|n| u128::from(*n)).sum::<u128>() != buffer.len() as u128 {
        return refused(10, 0, 0);
    }
    if room < count {
        return refused(7, count, room);
    }
    let (mut after, mut rest) = (list.to_vec(), buffer);
    for (entry, len) in after.iter_mut().zip(lengths) {
        let (message, behind) = rest.split_at(*len as usize);
        *entry = model::read_request(message).map_or_else(|r| r.number as u8, |_| 0);
        rest = behind;
    }
    (Ok(count), after)
}

fn record(answer: Answer) -> Batch {
    answer.err().map_or_else(Batch::default, |r| Batch {
        number: r.number,
        first: r.first,
        second: r.second,
    })
}

impl Bench {
    /// A batch into a list of `room` entries, no two neighbours of which are alike, by the door and by the binding.
    fn batch(&mut self, buffer: &[u8], lengths: &[u32], room: usize) {
        let marks: Vec<u8> = (0..room + 2 * AROUND)
            .map(|i| (201 + 7 * i) as u8)
            .collect();
        let (answer, list) = wanted(buffer, lengths, &marks[AROUND..][..room]);
        let mut after = marks.clone();
        after[AROUND..][..room].copy_from_slice(&list);
        let input = || format!("{} with lengths {lengths:?}, room {room}", hex(buffer));
        let wanted = || format!("{answer:?} {}", hex(&after));
        let handed = (buffer.to_vec(), lengths.to_vec());
        let mut lent = marks.clone();
        let ours = flat::read_batch(buffer, lengths, &mut lent[AROUND..][..room]);
        if (ours, &lent) != (record(answer), &after) {
            let ours = format!("{ours:?} {}", hex(&lent));
            differ("a batch is read otherwise", &input(), &ours, &wanted());
        }
        let mut lent = marks.clone();
        let ours = skrolvind::read_batch(buffer, lengths, &mut lent[AROUND..][..room]);
        let ours = ours.map_err(expected::refusal);
        if (ours, &lent) != (answer, &after) {
            let ours = format!("{ours:?} {}", hex(&lent));
            differ(
                "the binding reads a batch otherwise",
                &input(),
                &ours,
                &wanted(),
            );
        }
        // looked at anew: the compiler takes for granted that what is lent for reading stays as it is
        if (black_box(buffer), black_box(lengths)) != (&handed.0, &handed.1) {
            differ(
                "a batch changes what is lent for reading",
                &input(),
                "changed",
                "as it was",
            );
        }
        if answer.is_ok() {
            alone(buffer, lengths, &list);
        }
        self.tally.count(Call::ReadBatch, Some(Rule::Batch));
    }
}

/// Entry for entry, what the door that reads one message answers.
fn alone(buffer: &[u8], lengths: &[u32], list: &[u8]) {
    let mut at = 0;
    for (entry, len) in list.iter().zip(lengths) {
        let message = &buffer[at..][..*len as usize];
        at += message.len();
        let number = flat::read_request(message).number;
        if number != u64::from(*entry) {
            let sentence = "a message of a batch is read otherwise alone";
            differ(
                sentence,
                &hex(message),
                &entry.to_string(),
                &number.to_string(),
            );
        }
    }
}

/// All lists of `len` of these.
fn lists<T: Copy>(from: &[T], len: usize) -> Vec<Vec<T>> {
    let mut all = vec![vec![]];
    for _ in 0..len {
        let longer = |list: &Vec<T>| {
            from.iter()
                .map(|x| [&list[..], &[*x]].concat())
                .collect::<Vec<_>>()
        };
        all = all.iter().flat_map(longer).collect();
    }
    all
}

/// All buffers of up to 5 chosen bytes with all lists of up to 3 lengths, into lists of up to 4 entries; and null pointers.
pub fn short(bench: &mut Bench) {
    let lengths: Vec<_> = (0..=3)
        .flat_map(|n| lists(&[0, 1, 2, 3, 4, 5, 6], n))
        .collect();
    for buffer in (0..=5).flat_map(|n| lists(&BYTES, n)) {
        for lengths in &lengths {
            for room in 0..=4 {
                bench.batch(&buffer, lengths, room);
            }
        }
    }
    null_pointers(bench);
}

/// Each slice of the door empty with a null pointer: answered as any other empty slice.
fn null_pointers(bench: &mut Bench) {
    let (buffer, lengths) = ([2, 0, 1, b'a'], [4, 0]);
    for (b, n, l) in [
        (0, 0, 0),
        (0, 0, 2),
        (0, 2, 2),
        (0, 2, 0),
        (4, 0, 0),
        (4, 0, 2),
        (4, 2, 0),
    ] {
        let mut list = [0xA5; 2];
        let pointers = (
            if b == 0 { null() } else { buffer.as_ptr() },
            if n == 0 { null() } else { lengths.as_ptr() },
            if l == 0 {
                null_mut()
            } else {
                list.as_mut_ptr()
            },
        );
        // SAFETY: each pointer stands with the length of what it points to, or with the length 0.
        let ours = unsafe { c::skr_read_batch(pointers.0, b, pointers.1, n, pointers.2, l) };
        let (answer, after) = wanted(&buffer[..b], &lengths[..n], &[0xA5; 2][..l]);
        if (ours, &list[..l]) != (record(answer), &after[..]) {
            let sentence = "a null pointer with the length 0 is no empty slice of a batch";
            differ(
                sentence,
                &format!("{b}, {n}, {l}"),
                &format!("{ours:?}"),
                &format!("{answer:?}"),
            );
        }
        bench.tally.count(Call::ReadBatch, Some(Rule::NullPointer));
    }
}

/// Lists of exactly enough entries, one fewer, half, none, one more and many more.
fn in_rooms(bench: &mut Bench, buffer: &[u8], lengths: &[u32]) {
    let count = lengths.len();
    for room in [
        0,
        count / 2,
        count.saturating_sub(1),
        count,
        count + 1,
        count + 50,
    ] {
        bench.batch(buffer, lengths, room);
    }
}

/// The batch as it is; with each length one more or less; with a byte more or less; and with sums that are off by multiples of 2^32.
fn around(bench: &mut Bench, buffer: &[u8], lengths: &[u32]) {
    in_rooms(bench, buffer, lengths);
    in_rooms(bench, &[buffer, &[0]].concat(), lengths);
    in_rooms(bench, &buffer[..buffer.len().saturating_sub(1)], lengths);
    for place in 0..lengths.len() {
        for changed in [
            lengths[place].wrapping_sub(1),
            lengths[place].wrapping_add(1),
            lengths[place] ^ 1 << 31,
        ] {
            let mut lengths = lengths.to_vec();
            lengths[place] = changed;
            in_rooms(bench, buffer, &lengths);
        }
    }
    for more in [
        &[1 << 31, 1 << 31][..],
        &[u32::MAX, 1],
        &[1, u32::MAX],
        &[1 << 30; 4],
        &[u32::MAX; 3],
    ] {
        in_rooms(bench, buffer, &[lengths, more].concat());
        in_rooms(bench, buffer, &[more, lengths].concat());
    }
}

/// Sums, rooms and counts around their bounds.
pub fn bounds(bench: &mut Bench) {
    let (good, wide) = ([4, 0, 1, b'a', 9], [1, 0, 0, 0x11, 0]);
    around(bench, &[], &[]);
    around(bench, &[], &[0]);
    around(bench, &good, &[5]);
    around(bench, &[good, wide].concat(), &[4, 0, 6]);
    around(bench, &[good, wide, good].concat(), &[5, 5, 0, 5, 0]);
    around(bench, &good.repeat(40), &[5; 40]);
    for count in [MOST - 1, MOST, MOST + 1, MOST + 2, 2 * MOST] {
        let buffer = [good, wide].concat().repeat(count / 2 + 1);
        let mut lengths = vec![5; count];
        in_rooms(bench, &buffer[..5 * count], &lengths);
        in_rooms(bench, &buffer[..5 * count - 1], &lengths);
        lengths.fill(0);
        in_rooms(bench, &[], &lengths);
        in_rooms(bench, &good, &lengths);
        lengths[count - 1] = 5;
        in_rooms(bench, &good, &lengths);
        lengths.fill(u32::MAX);
        in_rooms(bench, &good, &lengths);
    }
}

/// Random requests, some damaged, some cut or with bytes left over, some empty; now and then lengths or a list that do not fit.
pub fn round(bench: &mut Bench, rng: &mut Rng) {
    for most in [3, 8, 30, 300] {
        let (mut buffer, mut lengths) = (vec![], vec![]);
        for _ in 0..rng.below(most + 1) {
            let mut message = random::request(rng, 12);
            match rng.below(6) {
                0 => message.truncate(rng.below(message.len() + 1)),
                1 => message.extend(rng.bytes(3)),
                2 => message.clear(),
                3 if !message.is_empty() => {
                    let at = rng.below(message.len());
                    message[at] = rng.byte();
                }
                _ => {}
            }
            lengths.push(message.len() as u32);
            buffer.extend(message);
        }
        let room = lengths.len() + rng.below(9);
        bench.batch(&buffer, &lengths, room);
        bench.batch(&buffer, &lengths, rng.below(room + 1));
        if !lengths.is_empty() {
            let (at, any) = (rng.below(lengths.len()), rng.number() as u32);
            let more = rng.choose(&[1, u32::MAX, 1 << 31, any]);
            lengths[at] = lengths[at].wrapping_add(more);
            bench.batch(&buffer, &lengths, room);
        }
    }
}
