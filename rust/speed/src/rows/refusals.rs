//! Refusals that the original has too.
use crate::messages::{self, Text, name};
use crate::row::{Row, read_only};
use crate::same;
use oracle::itself::{
    Decode, DtcRecord, Error, RequestFileTransferRequest, RequestFileTransferResponse,
    RoutineControlRequest,
};
use skrolvind::Refusal;

pub fn rows() -> Vec<Row> {
    let mut rows = Vec::from(requests());
    rows.push(refused(
        "response of an unknown mode",
        changed(&messages::add_file_response(), 0, 9),
        (
            RequestFileTransferResponse::decode,
            skrolvind::read_response,
        ),
    ));
    rows.push(refused(
        "routine request of an unknown sub-function",
        changed(&messages::routine(4), 0, 9),
        (
            RoutineControlRequest::decode,
            skrolvind::read_routine_request,
        ),
    ));
    rows.push(number(0x0100_0000));
    rows
}

fn requests() -> [Row; 6] {
    let request = messages::add_file_request(&name(Text::Ascii, 20));
    let (name_end, width) = (3 + 20, 3 + 20 + 1);
    let cut = |len| request[..len].to_vec();
    let with = |place, byte| changed(&request, place, byte);
    let bad_name = with(name_end - 1, 0xFF);
    [
        ("that is empty", vec![]),
        ("cut in its name", cut(name_end - 1)),
        ("with a name that is not UTF-8 at its end", bad_name),
        ("of an unknown mode", with(0, 9)),
        ("cut in its sizes", cut(request.len() - 1)),
        ("of width 17", with(width, 17)),
    ]
    .map(|(which, message)| {
        let calls = (RequestFileTransferRequest::decode, skrolvind::read_request);
        refused(&format!("request {which}"), message, calls)
    })
}

/// The message with one other byte.
fn changed(message: &[u8], place: usize, byte: u8) -> Vec<u8> {
    let mut message = message.to_vec();
    message[place] = byte;
    message
}

fn refused<A: 'static, B: 'static>(
    what: &str,
    message: Vec<u8>,
    calls: (
        impl Fn(&'static [u8]) -> Result<A, Error> + 'static,
        impl Fn(&'static [u8]) -> Result<B, Refusal> + 'static,
    ),
) -> Row {
    let message: &'static [u8] = message.leak();
    let what = format!("refused: {what}");
    read_only(&what, message.len(), message, calls, same::refused)
}

fn number(number: u32) -> Row {
    let calls = (DtcRecord::try_from, skrolvind::trouble_code);
    let what = "refused: number that is no trouble code";
    read_only(what, size_of_val(&number), number, calls, same::refused)
}
