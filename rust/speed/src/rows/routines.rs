//! Routine messages that are read and written.
use super::encoded;
use crate::messages;
use crate::row::{Codec, Row, read_and_written};
use crate::same;
use oracle::itself::{Decode, RoutineControlRequest, RoutineControlResponse};

const RECORD_LENGTHS: [usize; 2] = [4, 200];

pub fn rows() -> Vec<Row> {
    let requests = RECORD_LENGTHS.map(routine_request);
    let responses = RECORD_LENGTHS.map(routine_response);
    requests.into_iter().chain(responses).collect()
}

fn routine_request(len: usize) -> Row {
    let what = format!("routine request, record of {len} bytes");
    let original = Codec {
        read: RoutineControlRequest::decode,
        write: encoded,
    };
    let port = Codec {
        read: skrolvind::read_routine_request,
        write: skrolvind::write_routine_request,
    };
    let message = messages::routine(len);
    read_and_written(&what, message, original, port, same::routine_request)
}

fn routine_response(len: usize) -> Row {
    let what = format!("routine response, record of {len} bytes");
    let original = Codec {
        read: RoutineControlResponse::decode,
        write: encoded,
    };
    let port = Codec {
        read: skrolvind::read_routine_response,
        write: skrolvind::write_routine_response,
    };
    let message = messages::routine(len);
    read_and_written(&what, message, original, port, same::routine_response)
}
