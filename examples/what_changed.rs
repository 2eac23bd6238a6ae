//! Tells what changed between two trouble-code listings from files: what what_changed.c does, in Rust.
//!
//!     tools/library
//!     cd rust && cargo run --release --offline --example what_changed BEFORE AFTER
//!
//! The exit status is 0 where both listings are accepted, 1 where one is refused, and 2 where a file cannot be read.
use skrolvind::{Change, Listing, ListingSub, Refusal, Which};
use std::env;
use std::fs;
use std::process::ExitCode;

/// Reads a listing of the sub-function that it names itself.
fn read(message: &[u8]) -> Result<Listing<'_>, Refusal> {
    let named = message.get(1).copied().unwrap_or_default();
    let sub = ListingSub::try_from(named).unwrap_or(ListingSub::ByStatusMask);
    Listing::read(sub, message)
}

/// Prints a line about each code. A refusal stands beside the number of the listing that is refused.
fn print(before: &[u8], after: &[u8]) -> Result<(), (u8, Refusal)> {
    let before = read(before).map_err(|refusal| (1, refusal))?;
    let after = read(after).map_err(|refusal| (2, refusal))?;
    let mut room = vec![0; 6 * (before.len() + after.len())];
    let changes = before.changes(&after, &mut room).map_err(|e| {
        // the room is ample, so that it is one of the two
        let which = if e.which == Some(Which::First) { 1 } else { 2 };
        (which, e.refusal)
    })?;
    for change in changes {
        match change {
            Change::Gone { code, old } => println!("{code} is gone, its status was {old:02x}"),
            Change::Differs { code, old, new } => {
                println!("{code} differs, its status was {old:02x} and is {new:02x}");
            }
            Change::New { code, new } => println!("{code} is new, its status is {new:02x}"),
        }
    }
    Ok(())
}

fn main() -> ExitCode {
    let files: Result<Vec<_>, _> = env::args_os().skip(1).map(fs::read).collect();
    let Ok([before, after]) = files.as_deref() else {
        eprintln!("usage: what_changed BEFORE AFTER");
        return ExitCode::from(2);
    };
    if let Err((which, refusal)) = print(before, after) {
        println!("listing {which}: {refusal}");
        return ExitCode::from(1);
    }
    ExitCode::SUCCESS
}
