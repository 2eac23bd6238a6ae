//! Trouble-code listings.
use crate::listing;
use crate::row::{Row, made_of, read_only};
use skrolvind::{Listed, Listing, ListingSub, TroubleCode};

pub fn rows() -> Vec<Row> {
    let in_turn = listing::message(4096, 256);
    let of_one = listing::message(4096, 1);
    let mut rows = vec![passed(in_turn.clone())];
    rows.extend(indexed(256, in_turn.clone()));
    rows.extend(indexed(1, of_one.clone()));
    rows.push(changed("256, in order", listing::in_order(&in_turn)));
    rows.push(changed("256", in_turn));
    rows.push(changed("1", of_one));
    rows
}

fn read_listing(message: &'static [u8]) -> Option<Listing<'static>> {
    Listing::read(ListingSub::ByStatusMask, message).ok()
}

/// All bytes of the records added up.
fn listed_bytes(message: &'static [u8]) -> Option<u32> {
    let records = read_listing(message)?.records();
    let bytes = records.flat_map(|Listed { code, status, .. }| {
        let TroubleCode { high, middle, low } = code;
        [high, middle, low, status]
    });
    Some(bytes.map(u32::from).sum())
}

fn listed_index(message: &'static [u8]) -> Option<listing::Index> {
    let index = read_listing(message)?.index();
    Some((*index.counts(), *index.firsts()))
}

/// The records of a listing, one after the other.
fn passed(message: Vec<u8>) -> Row {
    let message: &'static [u8] = message.leak();
    let calls = (listing::bytes, listed_bytes);
    read_only(
        "listing of 4096 records, one after the other",
        message.len(),
        message,
        calls,
        |a, b| a.is_some() && a == b,
    )
}

/// The index of a listing with so many high bytes in turn, and its last code looked up by it.
fn indexed(highs: usize, message: Vec<u8>) -> [Row; 2] {
    let message: &'static [u8] = message.leak();
    let bytes = message.len();
    let last = &message[bytes - 4..];
    let code = TroubleCode {
        high: last[0],
        middle: last[1],
        low: last[2],
    };
    let index = read_listing(message).expect("it is good").index();
    let kept = (*index.counts(), *index.firsts());
    let named = |what| format!("{what} of 4096 records, high bytes: {highs}");
    [
        read_only(
            &named("index"),
            bytes,
            message,
            (listing::index, listed_index),
            |a, b| a.is_some() && a == b,
        ),
        read_only(
            &named("lookup of the last"),
            bytes,
            code,
            (
                move |code| listing::look_up(message, &kept, code),
                move |code| Some(index.get(code).ok()??.0),
            ),
            |a, b| a.is_some() && a == b,
        ),
    ]
}

/// What changed, and how many bytes there are.
fn listed_changes(&(before, after): &listing::Both, room: &mut [u8]) -> Option<usize> {
    let changes = read_listing(before)?.changes(&read_listing(after)?, room);
    Some(6 * changes.ok()?.len())
}

/// What changed between a listing with these high bytes and the same some time later.
fn changed(highs: &str, before: Vec<u8>) -> Row {
    let after = listing::later(&before);
    made_of(
        &format!("changes in 4096 records, high bytes: {highs}"),
        before.len() + after.len(),
        (&*before.leak(), &*after.leak()),
        (listing::changes, listed_changes),
    )
}
