//! Responses that are read and written.
use super::encoded;
use crate::messages;
use crate::row::{Codec, Row, read_and_written};
use crate::same::{self, Read};
use oracle::itself::{Decode, RequestFileTransferResponse};
use skrolvind::Response;

pub fn rows() -> Vec<Row> {
    vec![
        response("AddFile response", messages::add_file_response()),
        response("DeleteFile response", messages::delete_file_response()),
        response(
            "ReadFile response, sizes of 8 bytes",
            messages::read_file_response(),
        ),
        response(
            "ReadDir response, size of 4 bytes",
            messages::read_dir_response(),
        ),
        response("ResumeFile response", messages::resume_file_response()),
    ]
}

fn response(what: &str, message: Vec<u8>) -> Row {
    let original = Codec {
        read: RequestFileTransferResponse::decode,
        write: encoded,
    };
    let port = Codec {
        read: skrolvind::read_response,
        write: |(value, _): &Read<Response>, room: &mut [u8]| {
            skrolvind::write_response(value, room)
        },
    };
    read_and_written(what, message, original, port, same::response)
}
