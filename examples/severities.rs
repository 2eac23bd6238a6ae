//! Reads a trouble-code listing of sub-function 0x08 from a file and asks the severity of each record, and writes the records that are to
//! be checked immediately as a listing of their own: what severities.c does, in Rust.
//!
//!     tools/library
//!     cd rust && cargo run --release --offline --example severities FILE
//!
//! The exit status is 0 where the listing is accepted, 1 where it is refused, and 2 where the file cannot be read.
use skrolvind::{
    LONGEST_LISTING, Listed, Listing, ListingSub, Rating, Refusal, TroubleCode, write_listing,
};
use std::env;
use std::fs;
use std::process::ExitCode;

fn told(record: &Listed, rating: &Rating) -> String {
    let TroubleCode { high, middle, low } = record.code;
    let Rating { severity, unit } = *rating;
    let valid = if severity.is_valid() {
        "valid"
    } else {
        "names no class"
    };
    let mut text = format!(
        "code {high:02x} {middle:02x} {low:02x}, status {:02x}, unit {unit:02x}, severity {:02x}: {valid}",
        record.status,
        severity.bits()
    );
    for (asked, words) in [
        (severity.maintenance_only(), ", maintenance only"),
        (severity.check_at_next_halt(), ", check at next halt"),
        (severity.check_immediately(), ", check immediately"),
    ] {
        if asked {
            text += words;
        }
    }
    text
}

/// Prints a line about each record, and one about the listing of those that are to be checked immediately.
fn print(message: &[u8]) -> Result<(), Refusal> {
    let listing = Listing::read(ListingSub::BySeverityMask, message)?;
    let mut urgent = vec![];
    for (place, record) in listing.records().enumerate() {
        // in a listing of 0x08 it is always there
        let Some(rating) = record.rating else {
            continue;
        };
        println!("record {place}: {}", told(&record, &rating));
        if rating.severity.check_immediately() {
            urgent.push(record.into());
        }
    }
    let (found, all) = (urgent.len(), listing.len());
    let mut room = vec![0; LONGEST_LISTING];
    let sub = ListingSub::BySeverityMask;
    let written = write_listing(sub, listing.mask(), &urgent, &mut room)?;
    println!("check immediately: {found} of {all}, a listing of {written} bytes");
    Ok(())
}

fn main() -> ExitCode {
    let files: Result<Vec<_>, _> = env::args_os().skip(1).map(fs::read).collect();
    let Ok([message]) = files.as_deref() else {
        eprintln!("usage: severities FILE");
        return ExitCode::from(2);
    };
    match print(message) {
        Ok(()) => ExitCode::SUCCESS,
        Err(refusal) => {
            println!("{refusal}");
            ExitCode::from(1)
        }
    }
}
