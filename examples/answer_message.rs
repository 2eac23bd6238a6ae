//! Answers a request off the adapter, with its service byte, from a file: what answer_message.c does, in Rust.
//!
//!     tools/library
//!     cd rust && cargo run --release --offline --example answer_message FILE
//!
//! The exit status is 0 where the answer is positive, 1 where it is negative or this is no request, and 2 where the file cannot be read.
use skrolvind::{
    Kind, LONGEST_MESSAGE, Message, Refusal, Response, RoutineResponse, Service, desk_check,
    read_message, write_negative, write_response_message, write_routine_response_message,
};
use std::env;
use std::fs;
use std::process::ExitCode;

/// Prints a refusal, and answers the code that fits it: no such sub-function, wrong length, or out of range.
fn code_for(refusal: Refusal) -> u8 {
    println!("{refusal}");
    match refusal {
        Refusal::UnknownSubFunction(_) => 0x12,
        Refusal::TooShort { .. } | Refusal::LeftOver(_) => 0x13,
        _ => 0x31,
    }
}

/// Writes the positive answer, or nothing where none is wanted; else answers the code of the negative one.
fn positive(message: &[u8], room: &mut [u8]) -> Result<usize, u8> {
    match read_message(message).map_err(code_for)? {
        Message::FileRequest(request, _) => {
            desk_check(&message[1..]).map_err(code_for)?;
            if let Kind::ReadFile | Kind::ReadDir = request.kind {
                return Err(0x31); // no such file is here
            }
            let response = Response {
                kind: request.kind,
                block: &[0x10, 0x00], // blocks of 4,096 bytes
                format: request.format,
                uncompressed: 0,
                compressed: 0,
                position: 0, // what is resumed begins anew
            };
            write_response_message(&response, room).map_err(code_for)
        }
        Message::RoutineRequest(request) if !request.suppress => {
            let response = RoutineResponse {
                sub_function: request.sub_function,
                identifier: request.identifier,
                record: &[],
            };
            write_routine_response_message(&response, room).map_err(code_for)
        }
        _ => Ok(0),
    }
}

fn main() -> ExitCode {
    let files: Result<Vec<_>, _> = env::args_os().skip(1).map(fs::read).collect();
    let Ok([message]) = files.as_deref() else {
        eprintln!("usage: answer_message FILE");
        return ExitCode::from(2);
    };
    let Some(Ok(service)) = message.first().map(|byte| Service::try_from(*byte)) else {
        println!("this is no request");
        return ExitCode::from(1);
    };
    let mut room = vec![0; LONGEST_MESSAGE];
    let answer = positive(message, &mut room);
    match answer.or_else(|code| write_negative(service, code, &mut room)) {
        Ok(0) => println!("no positive answer is wanted"),
        Ok(len) => {
            let bytes: Vec<_> = room[..len].iter().map(|b| format!("{b:02x}")).collect();
            println!("{}", bytes.join(" "));
        }
        Err(refusal) => println!("{refusal}"), // never: the room is ample
    }
    ExitCode::from(u8::from(answer.is_err()))
}
