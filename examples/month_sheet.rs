//! Makes the month's sheet from a file of records of 8 bytes: what month_sheet.c does, in Rust.
//!
//!     tools/library
//!     cd rust && cargo run --release --offline --example month_sheet MONTH FILE
//!
//! The month is a number from 1 to 12. The exit status is 0 where the records are accepted, 1 where they are refused, and 2 where the
//! month is none or the file cannot be read.
use skrolvind::{LONGEST_REFUSAL_TEXT, flat, tally_records};
use std::env;
use std::fs;
use std::process::ExitCode;

/// What the refusal of this number means: the sheet has the numbers alone.
fn words(number: usize) -> String {
    let mut room = [0; LONGEST_REFUSAL_TEXT];
    let written = flat::refusal_text(number as u64, &mut room).written;
    String::from_utf8_lossy(&room[..written as usize]).into_owned()
}

/// The month and the records that the arguments name.
fn asked() -> Option<(usize, Vec<u8>)> {
    let [_, month, path] = &env::args_os().collect::<Vec<_>>()[..] else {
        return None;
    };
    let month = month.to_str()?.parse().ok()?;
    let records = fs::read(path).ok()?;
    (1..=12).contains(&month).then_some((month, records))
}

fn main() -> ExitCode {
    let Some((month, records)) = asked() else {
        eprintln!("usage: month_sheet MONTH FILE");
        return ExitCode::from(2);
    };
    let table = match tally_records(&records) {
        Ok(table) => table,
        Err(refusal) => {
            println!("{refusal}");
            return ExitCode::from(1);
        }
    };
    let counts = table[month - 1];
    println!("month {month}: {} records", counts.iter().sum::<u32>());
    for (number, count) in counts.iter().enumerate().filter(|(_, count)| **count != 0) {
        println!("{count:6}  {number} {}", words(number));
    }
    ExitCode::SUCCESS
}
