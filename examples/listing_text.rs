//! Exports a trouble-code listing from a file, or imports the text of one: what listing_text.c does, in Rust.
//!
//!     tools/library
//!     cd rust && cargo run --release --offline --example listing_text FILE
//!
//! The exit status is 0 where the file is accepted, 1 where it is refused, and 2 where it cannot be read.
use skrolvind::{LONGEST_LISTING_TEXT, Listing, ListingSub, Refusal, import_listing};
use std::env;
use std::fs;
use std::process::ExitCode;

/// The lines of a listing, or the bytes of one that is imported.
fn told(bytes: &[u8]) -> Result<String, Refusal> {
    // no listing is longer than the longest text
    let mut room = vec![0; LONGEST_LISTING_TEXT];
    // no text begins with this byte
    if let [0x59, sub, ..] = bytes {
        let sub = ListingSub::try_from(*sub).unwrap_or(ListingSub::ByStatusMask);
        let len = Listing::read(sub, bytes)?.export(&mut room)?;
        return Ok(String::from_utf8_lossy(&room[..len]).into_owned());
    }
    let len = import_listing(0xFF, bytes, &mut room)?;
    let bytes: Vec<_> = room[..len].iter().map(|b| format!("{b:02x}")).collect();
    Ok(bytes.join(" ") + "\n")
}

fn main() -> ExitCode {
    let files: Result<Vec<_>, _> = env::args_os().skip(1).map(fs::read).collect();
    let Ok([bytes]) = files.as_deref() else {
        eprintln!("usage: listing_text FILE");
        return ExitCode::from(2);
    };
    match told(bytes) {
        Ok(text) => {
            print!("{text}");
            ExitCode::SUCCESS
        }
        Err(refusal) => {
            println!("{refusal}");
            ExitCode::from(1)
        }
    }
}
