//! Sheets of records: every value of every field, every cut, bad records at every place, and as many records as there may be.
use crate::bench::Bench;
use crate::report::agree;
use crate::rng::Rng;
use crate::tally::{Call, Rule};
use crate::{expected, model};
use skrolvind::flat;

/// Within its range, at its ends, and beyond them: month, direction, refusal number.
const MONTHS: [u8; 5] = [0, 1, 7, 12, 13];
const DIRECTIONS: [u8; 3] = [0, 1, 2];
const NUMBERS: [u8; 4] = [0, 6, 9, 10];
const MOST: usize = 65_536;

pub fn sheets(bench: &mut Bench) {
    every_value(bench);
    pairs(bench);
    cuts(bench);
    bad_places(bench);
    many(bench);
}

impl Bench {
    /// The door and the binding beside the model.
    pub fn sheet(&mut self, records: &[u8]) {
        self.watched(records, |bench| {
            let paper = model::tally_records(records);
            agree(
                "a sheet of records is tallied otherwise",
                records,
                &flat::tally_records(records),
                &expected::tally(paper),
            );
            agree(
                "the binding tallies a sheet of records otherwise",
                records,
                &skrolvind::tally_records(records).map_err(expected::refusal),
                &paper,
            );
            bench.tally.count(Call::TallyRecords, Some(Rule::Sheet));
        });
    }
}

const fn record(month: u8, direction: u8, number: u8) -> [u8; 8] {
    [month, 200, direction, number, 0, 1, 0xE2, 0x40]
}

/// Each byte of a good record takes each value, after a good record and before one.
fn every_value(bench: &mut Bench) {
    let good = record(12, 1, 9);
    for place in 0..8 {
        for value in 0..=255 {
            let mut changed = good;
            changed[place] = value;
            bench.sheet(&changed);
            bench.sheet(&[good, changed, good].concat());
        }
    }
}

/// Every two records of chosen values.
fn pairs(bench: &mut Bench) {
    let mut records = vec![];
    for month in MONTHS {
        for direction in DIRECTIONS {
            for number in NUMBERS {
                records.push(record(month, direction, number));
            }
        }
    }
    for first in &records {
        for second in &records {
            bench.sheet(&[*first, *second].concat());
        }
    }
}

/// A record in each cell, good and with a bad one at the end, cut at every place.
fn cuts(bench: &mut Bench) {
    let cell = |i: u8| record(1 + i / 10, i % 2, i % 10);
    let mut sheet: Vec<u8> = (0..120).flat_map(cell).collect();
    sheet.extend(record(13, 0, 0));
    for len in 0..=sheet.len() {
        bench.sheet(&sheet[..len]);
    }
}

/// One record out of range at every place, and a second one after it.
fn bad_places(bench: &mut Bench) {
    for place in 0..100 {
        let mut sheet = record(6, 0, 3).repeat(100);
        sheet[8 * place] = 0;
        bench.sheet(&sheet);
        sheet[8 * 99 + 3] = 10;
        bench.sheet(&sheet);
    }
}

/// As many records as there may be, fewer and more, with every piece of one after them; all in one cell, and one of them bad.
fn many(bench: &mut Bench) {
    let good = record(11, 1, 8).repeat(MOST + 2);
    for records in [MOST - 1, MOST, MOST + 1] {
        for piece in 0..8 {
            bench.sheet(&good[..8 * records + piece]);
        }
    }
    for place in [0, 1, MOST / 2, MOST - 2, MOST - 1] {
        let mut sheet = good[..8 * MOST].to_vec();
        sheet[8 * place + 2] = 2;
        bench.sheet(&sheet);
    }
}

/// Random records, mostly good, and now and then a piece of one after them.
pub fn random(bench: &mut Bench, rng: &mut Rng, most: usize) {
    let (count, bad) = (rng.below(most), rng.once_in(2));
    let mut sheet = Vec::with_capacity(8 * count + 7);
    for _ in 0..count {
        let mut record = record(1 + rng.byte() % 12, rng.byte() % 2, rng.byte() % 10);
        record[1] = rng.byte();
        record[4..].copy_from_slice(&rng.bytes(4));
        if bad && rng.once_in(count) {
            record[rng.choose(&[0, 2, 3])] = rng.byte();
        }
        sheet.extend(record);
    }
    if rng.once_in(4) {
        let piece = rng.below(8);
        sheet.extend(rng.bytes(piece));
    }
    bench.sheet(&sheet);
}
