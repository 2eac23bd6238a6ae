//! Reads a whole message off the adapter, with its service byte, from a file: what read_message.c does, in Rust.
//!
//!     tools/library
//!     cd rust && cargo run --release --offline --example read_message FILE
//!
//! The exit status is 0 where the message is accepted, 1 where it is refused, and 2 where the file cannot be read.
use skrolvind::{Message, read_message};
use std::env;
use std::fs;
use std::process::ExitCode;

fn told(message: &Message<'_>) -> String {
    match message {
        Message::FileRequest(r, tail) => format!(
            "request: {:?} of \"{}\", format {:#04x}, uncompressed {:#x}, compressed {:#x}, left over {}",
            r.kind,
            r.name,
            r.format,
            r.uncompressed,
            r.compressed,
            tail.len()
        ),
        Message::FileResponse(r, tail) => format!(
            "response: {:?}, block length of {} bytes, position {}, format {:#04x}, uncompressed {:#x}, compressed {:#x}, left over {}",
            r.kind,
            r.block.len(),
            r.position,
            r.format,
            r.uncompressed,
            r.compressed,
            tail.len()
        ),
        Message::RoutineRequest(r) => format!(
            "routine request: {:?} of {:#06x}, suppress {}, record of {} bytes",
            r.sub_function,
            r.identifier,
            u8::from(r.suppress),
            r.record.len()
        ),
        Message::RoutineResponse(r) => format!(
            "routine response: {:?} of {:#06x}, record of {} bytes",
            r.sub_function,
            r.identifier,
            r.record.len()
        ),
        Message::Negative(n) => format!(
            "negative answer to {:#04x}: code {:#04x}{}",
            u8::from(n.service),
            n.code,
            if n.listed { "" } else { ", unlisted" }
        ),
    }
}

fn main() -> ExitCode {
    let files: Result<Vec<_>, _> = env::args_os().skip(1).map(fs::read).collect();
    let Ok([message]) = files.as_deref() else {
        eprintln!("usage: read_message FILE");
        return ExitCode::from(2);
    };
    match read_message(message) {
        Ok(message) => {
            println!("{}", told(&message));
            ExitCode::SUCCESS
        }
        Err(refusal) => {
            println!("{refusal}");
            ExitCode::from(1)
        }
    }
}
