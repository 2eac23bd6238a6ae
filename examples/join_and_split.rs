//! Rewrites the file transfer requests in some files into one buffer, one after the other and without their lengths; takes that buffer
//! apart again; and reads all of it in one call: what join_and_split.c does, in Rust.
//!
//!     tools/library
//!     cd rust && cargo run --release --offline --example join_and_split FILE..
//!
//! The exit status is 0 where every file has a request, 1 where one is refused, and 2 where a file cannot be read.
use skrolvind::{MOST_MESSAGES, read_batch, rewrite_request, split_joined};
use std::env;
use std::fs;
use std::process::ExitCode;

/// Room for some requests.
const ROOM: usize = 1_000_000;

/// Joins: the request of each file is written behind those that stand there already. Answers how many bytes there are, and whether a file was refused.
fn join(files: &[Vec<u8>], joined: &mut [u8]) -> (usize, bool) {
    let (mut len, mut refused) = (0, false);
    for (file, message) in files.iter().enumerate() {
        print!("file {}: ", file + 1);
        match rewrite_request(message, &mut joined[len..]) {
            Ok((written, tail)) => {
                println!("{written} bytes behind {len}, left over {}", tail.len());
                len += written;
            }
            Err(refusal) => {
                println!("{refusal}");
                refused = true;
            }
        }
    }
    (len, refused)
}

fn main() -> ExitCode {
    let files: Result<Vec<_>, _> = env::args_os().skip(1).map(fs::read).collect();
    let Ok(files) = files else {
        eprintln!("join_and_split: a file cannot be read");
        return ExitCode::from(2);
    };
    let mut buffer = vec![0; ROOM];
    let (len, refused) = join(&files, &mut buffer);
    let joined = &buffer[..len];

    let mut lengths = [0; MOST_MESSAGES];
    let count = match split_joined(joined, &mut lengths) {
        Ok(count) => count,
        // never, as long as only whole requests were joined, and at most 4,096
        Err(e) => {
            println!("request {}: {}", e.found, e.refusal);
            return ExitCode::from(1);
        }
    };
    println!("{count} requests in {len} bytes");

    let mut numbers = [0; MOST_MESSAGES];
    // never refused: these are the buffer's own lengths
    if let Err(refusal) = read_batch(joined, &lengths[..count], &mut numbers) {
        println!("{refusal}");
        return ExitCode::from(1);
    }
    for (k, (len, number)) in lengths[..count].iter().zip(&numbers).enumerate() {
        println!("request {k}: {len} bytes, read with {number}");
    }
    ExitCode::from(u8::from(refused))
}
