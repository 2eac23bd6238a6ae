//! Checks a package at the desk: its file transfer request, from a file. What check_package.c does, in Rust.
//!
//!     tools/library
//!     cd rust && cargo run --release --offline --example check_package FILE
//!
//! The exit status is 0 where the desk passes the request, 1 where it is refused, and 2 where the file cannot be read.
use skrolvind::{desk_check, why_request};
use std::env;
use std::fs;
use std::process::ExitCode;

fn main() -> ExitCode {
    let files: Result<Vec<_>, _> = env::args_os().skip(1).map(fs::read).collect();
    let Ok([message]) = files.as_deref() else {
        eprintln!("usage: check_package FILE");
        return ExitCode::from(2);
    };
    let Err(refusal) = desk_check(message) else {
        println!("the desk passes it");
        return ExitCode::SUCCESS;
    };
    println!("{refusal}");
    // bytes left over and unequal sizes are the desk's reasons alone: such a request can be read, and no field stopped it
    if let Err(why) = why_request(message) {
        println!("the field: {} at {}", why.field, why.offset);
    }
    ExitCode::from(1)
}
