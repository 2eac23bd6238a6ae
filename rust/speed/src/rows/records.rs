//! Many records or messages in one call.
use crate::batch::{self, List, Morning};
use crate::log;
use crate::row::{Row, read_only};
use crate::sheet;

pub fn rows() -> Vec<Row> {
    let mut rows = vec![
        tallied("a year's sheet", sheet::year(100)),
        tallied("a year's sheet", sheet::year(65_536)),
        tallied("every cell in turn", sheet::cells_in_turn(65_536)),
    ];
    rows.extend([100, 65_536].map(replayed));
    for (called, refused) in [("all good", 0), ("8 in a hundred refused", 8)] {
        let morning = batch::morning(refused);
        rows.push(read_in_one_call(
            called,
            "the original",
            morning,
            batch::by_the_original,
        ));
        rows.push(read_in_one_call(
            called,
            "single calls",
            morning,
            batch::by_single_calls,
        ));
    }
    rows
}

/// A sheet of records, against the same loop in Rust.
fn tallied(called: &str, records: Vec<u8>) -> Row {
    let what = format!("tally of {} records, {called}", records.len() / 8);
    let records: &'static [u8] = records.leak();
    let calls = (sheet::tally, skrolvind::tally_records);
    read_only(&what, records.len(), records, calls, |original, port| {
        original.is_some() && *original == port.ok()
    })
}

/// A log of recorded transfers, against the same loop in Rust.
fn replayed(count: usize) -> Row {
    let what = format!("log of {count} records");
    let log: &'static [u8] = log::day(count).leak();
    let calls = (log::replay, skrolvind::replay_log);
    read_only(&what, log.len(), log, calls, |original, port| {
        original.is_some() && *original == port.ok()
    })
}

/// A morning's requests in one call, against a loop that has each one read.
fn read_in_one_call(called: &str, by: &str, morning: Morning, each: fn(Morning) -> List) -> Row {
    let what = format!("batch of {} requests, {called}, against {by}", batch::COUNT);
    let calls = (each, batch::in_one_call);
    read_only(&what, morning.buffer.len(), morning, calls, |each, port| {
        Some(*each) == *port
    })
}
