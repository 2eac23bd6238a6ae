//! File transfer responses.
use super::{bad_width, cuts, is, is_read, kept, refused, short, written};
use crate::uds_protocol::{
    DataFormatIdentifier, Decode, DirSizePayload, Error, FileOperationMode as Mode,
    FileSizePayload, PositionPayload, RequestFileTransferResponse as Response, SentDataPayload,
};

fn sent(block: &'static [u8]) -> SentDataPayload<'static> {
    SentDataPayload::new(block).expect("it is short")
}

fn format(byte: u8) -> DataFormatIdentifier {
    DataFormatIdentifier::from(byte)
}

#[test]
fn each_kind() {
    let add = Response::AddFile(Mode::AddFile, sent(&[0, 0x80]), format(0x11));
    is(&add, &[1, 2, 0, 0x80, 0x11]);
    is(&Response::DeleteFile(Mode::DeleteFile), &[2]);
    let replace = Response::ReplaceFile(Mode::ReplaceFile, sent(&[]), format(0x00));
    is(&replace, &[3, 0, 0x00]);
    let sizes = FileSizePayload::new(256, 1);
    let read = Response::ReadFile(Mode::ReadFile, sent(&[7]), format(0xF0), sizes);
    is(&read, &[4, 1, 7, 0xF0, 0, 2, 1, 0, 0, 1]);
    let size = DirSizePayload::new(255);
    let dir = Response::ReadDir(Mode::ReadDir, sent(&[7]), format(0x00), size);
    is(&dir, &[5, 1, 7, 0x00, 0, 1, 255]);
    let position = PositionPayload::new(0x0102_0304_0506_0708);
    let resume = Response::ResumeFile(Mode::ResumeFile, sent(&[7]), format(0x01), position);
    is(&resume, &[6, 1, 7, 0x01, 1, 2, 3, 4, 5, 6, 7, 8]);
}

#[test]
fn a_mode_that_is_held_as_reserved_is_its_byte() {
    let mode = Mode::IsoSaeReserved(2);
    assert_ne!(mode, Mode::DeleteFile);
    assert_eq!(written(&Response::DeleteFile(mode)), [2]);
    let add = Response::AddFile(Mode::IsoSaeReserved(1), sent(&[]), format(0x00));
    assert_eq!(written(&add), [1, 0, 0x00]);
}

#[test]
fn sizes_at_their_bounds() {
    let mut message = vec![4, 0, 0x00, 0, 16];
    message.extend([0xFF; 16]);
    message.extend([0; 16]);
    let sizes = FileSizePayload::new(u128::MAX, 0);
    let read = Response::ReadFile(Mode::ReadFile, sent(&[]), format(0x00), sizes);
    is(&read, &message);

    let mut message = vec![5, 0, 0x00, 0, 16, 1];
    message.extend([0; 15]);
    let size = DirSizePayload::new(1 << 120);
    let dir = Response::ReadDir(Mode::ReadDir, sent(&[]), format(0x00), size);
    is(&dir, &message);
    let none = DirSizePayload::new(0);
    let dir = Response::ReadDir(Mode::ReadDir, sent(&[]), format(0x00), none);
    is(&dir, &[5, 0, 0x00, 0, 1, 0]);
}

#[test]
fn a_wider_size_is_read_and_written_at_the_smallest_width() {
    let sizes = FileSizePayload::new(5, 6);
    let read = Response::ReadFile(Mode::ReadFile, sent(&[]), format(0x00), sizes);
    is_read(&[4, 0, 0x00, 0, 2, 0, 5, 0, 6], &read);
    assert_eq!(written(&read), [4, 0, 0x00, 0, 1, 5, 6]);
}

#[test]
fn block_lengths() {
    let longest: &'static [u8] = vec![0xAB; 255].leak();
    let message = [&[1, 255], longest, &[0x00]].concat();
    is(
        &Response::AddFile(Mode::AddFile, sent(longest), format(0x00)),
        &message,
    );
    let message = kept(&[3, 2, 0, 9, 0x00]);
    let Ok((Response::ReplaceFile(_, sent, _), [])) = Response::decode(message) else {
        panic!("it is good")
    };
    let block = sent.max_number_of_block_length();
    assert_eq!(
        (block, block.as_ptr()),
        (&[0, 9][..], message[2..].as_ptr())
    );
}

#[test]
fn cut_at_each_place() {
    cuts::<Response>(
        &[1, 2, 0, 0x80, 0x11],
        &[(1, 0), (1, 0), (3, 1), (3, 2), (1, 0)],
    );
    cuts::<Response>(&[2], &[(1, 0)]);
    cuts::<Response>(
        &[4, 1, 7, 0xF0, 0, 2, 1, 0, 0, 1],
        &[
            (1, 0),
            (1, 0),
            (2, 1),
            (1, 0),
            (2, 0),
            (2, 1),
            (6, 2),
            (6, 3),
            (6, 4),
            (6, 5),
        ],
    );
    cuts::<Response>(
        &[5, 1, 7, 0x00, 0, 1, 255],
        &[(1, 0), (1, 0), (2, 1), (1, 0), (2, 0), (2, 1), (3, 2)],
    );
    cuts::<Response>(
        &[6, 0, 0x01, 1, 2, 3, 4, 5, 6, 7, 8],
        &[
            (1, 0),
            (1, 0),
            (1, 0),
            (8, 0),
            (8, 1),
            (8, 2),
            (8, 3),
            (8, 4),
            (8, 5),
            (8, 6),
            (8, 7),
        ],
    );
}

#[test]
fn widths_that_are_none() {
    for (mode, count) in [(4, 2), (5, 1)] {
        refused::<Response>(&[mode, 0, 0x00, 0, 0], bad_width(0));
        for width in [17, 255, 256, 0x0110] {
            let [high, low] = u16::to_be_bytes(width);
            let mut message = vec![mode, 0, 0x00, high, low];
            let group = count * usize::from(width);
            message.extend(vec![0; group]);
            let cut = &message[..message.len() - 1];
            refused::<Response>(cut, short(2 + group, 1 + group));
            refused::<Response>(&message, bad_width(width.into()));
        }
    }
}

#[test]
fn modes_that_are_none() {
    for mode in (0..=255).filter(|mode| !(1..=6).contains(mode)) {
        let error = Error::InvalidFileOperationMode(mode);
        refused::<Response>(&[mode], error);
        refused::<Response>(&[mode, 1], error);
    }
}

#[test]
fn each_variant_is_told_apart() {
    #[deny(unreachable_patterns)]
    fn kind(response: &Response<'_>) -> (u8, Mode) {
        match *response {
            Response::AddFile(mode, ..) => (1, mode),
            Response::DeleteFile(mode) => (2, mode),
            Response::ReplaceFile(mode, ..) => (3, mode),
            Response::ReadFile(mode, ..) => (4, mode),
            Response::ReadDir(mode, ..) => (5, mode),
            Response::ResumeFile(mode, ..) => (6, mode),
            // there may be more
            _ => (0, Mode::IsoSaeReserved(0)),
        }
    }
    for byte in 1..=6 {
        let message = kept(&[byte, 0, 0, 0, 1, 0, 0, 0, 0, 0, 0]);
        let (response, _) = Response::decode(message).expect("it is good");
        assert_eq!(kind(&response), (byte, Mode::from(byte)));
    }
}
