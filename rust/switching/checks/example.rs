//! The example of docs/SWITCHING.md.
use crate::uds_protocol;
use uds_protocol::RequestFileTransferRequest as Request;
use uds_protocol::{DataFormatIdentifier, Decode, Encode, Error, NamePayload, SizePayload};

fn add(name: &str, size: u128, room: &mut [u8]) -> Result<usize, Error> {
    let sizes = SizePayload::new(size, size);
    let request = Request::AddFile(NamePayload::new(name)?, DataFormatIdentifier::NONE, sizes);
    request.encode(&mut &mut room[..])
}

fn added(message: &[u8]) -> Result<&str, Error> {
    match Request::decode(message)? {
        (Request::AddFile(name, ..), _) => Ok(name.file_path_and_name()),
        (other, _) => {
            let mode = other.mode_of_operation();
            Err(Error::InvalidFileOperationMode(mode.value()))
        }
    }
}

#[test]
fn a_request_there_and_back() {
    let mut room = [0; 16];
    assert_eq!(add("/a", 256, &mut room), Ok(11));
    assert_eq!(room[..11], [1, 0, 2, 0x2F, 0x61, 0, 2, 1, 0, 1, 0]);
    assert_eq!(added(&room[..11]), Ok("/a"));
    let error = Error::InvalidFileOperationMode(2);
    assert_eq!(added(&[2, 0, 0]), Err(error));
}
