//! Reads a morning's archive in one call: what morning_archive.c does, in Rust.
//!
//!     tools/library
//!     cd rust && cargo run --release --offline --example morning_archive ARCHIVE [LENGTHS]
//!
//! The exit status is 0 where every request is accepted, 1 where one is refused, and 2 where a file cannot be read.
use skrolvind::{MOST_MESSAGES, NotSplit, Refusal, read_batch, read_request, split_joined};
use std::env;
use std::fs;
use std::process::ExitCode;

/// The list of lengths, four bytes to each, high first; nothing where the file is none.
fn lengths_in(bytes: &[u8]) -> Option<Vec<u32>> {
    let length = |four: &[u8]| Some(u32::from_be_bytes(four.try_into().ok()?));
    bytes.chunks(4).map(length).collect()
}

/// The lengths of requests that were joined without them.
fn lengths_of(archive: &[u8]) -> Result<Vec<u32>, NotSplit> {
    let mut lengths = vec![0; MOST_MESSAGES];
    let count = split_joined(archive, &mut lengths)?;
    lengths.truncate(count);
    Ok(lengths)
}

/// Prints a line about each request that is refused, and one with their count, which is answered.
fn print_refused(archive: &[u8], lengths: &[u32]) -> Result<usize, Refusal> {
    let mut numbers = vec![0; lengths.len()];
    let all = read_batch(archive, lengths, &mut numbers)?;
    let (mut at, mut refused) = (0, 0);
    for (k, (len, number)) in lengths.iter().zip(numbers).enumerate() {
        let request = &archive[at..][..*len as usize];
        if number != 0 {
            // the list has the number alone
            let refusal =
                read_request(request).expect_err("what is refused in a batch is refused alone");
            println!("request {k}, {len} bytes at {at}: {refusal}");
            refused += 1;
        }
        at += request.len();
    }
    println!("{all} requests, {refused} refused");
    Ok(refused)
}

fn main() -> ExitCode {
    let files: Result<Vec<_>, _> = env::args_os().skip(1).map(fs::read).collect();
    let asked = match files.as_deref() {
        Ok([archive]) => Some((archive, lengths_of(archive))),
        Ok([archive, lengths]) => lengths_in(lengths).map(|lengths| (archive, Ok(lengths))),
        _ => None,
    };
    match asked {
        None => {
            eprintln!("usage: morning_archive ARCHIVE [LENGTHS]");
            ExitCode::from(2)
        }
        Some((_, Err(NotSplit { refusal, found }))) => {
            println!("after {found} requests: {refusal}");
            ExitCode::from(1)
        }
        Some((archive, Ok(lengths))) => match print_refused(archive, &lengths) {
            Ok(refused) => ExitCode::from(u8::from(refused != 0)),
            Err(refusal) => {
                println!("{refusal}");
                ExitCode::from(1)
            }
        },
    }
}
