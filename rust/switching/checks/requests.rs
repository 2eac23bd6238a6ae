//! File transfer requests.
use super::{BAD_NAMES, bad_width, cuts, is, is_read, kept, refused, short, written};
use crate::uds_protocol::{
    DataFormatIdentifier, Decode, Error, FileOperationMode, NamePayload,
    RequestFileTransferRequest as Request, SizePayload,
};

fn name(name: &'static str) -> NamePayload<'static> {
    NamePayload::new(name).expect("it is short")
}

fn format(byte: u8) -> DataFormatIdentifier {
    DataFormatIdentifier::from(byte)
}

#[test]
fn each_kind() {
    let add = Request::AddFile(name("a"), format(0x11), SizePayload::new(255, 256));
    is(&add, &[1, 0, 1, 0x61, 0x11, 2, 0, 255, 1, 0]);
    is(&Request::DeleteFile(name("a")), &[2, 0, 1, 0x61]);
    let replace = Request::ReplaceFile(name("é"), format(0x00), SizePayload::new(0, 0));
    is(&replace, &[3, 0, 2, 0xC3, 0xA9, 0x00, 1, 0, 0]);
    is(&Request::ReadFile(name(""), format(0xF0)), &[4, 0, 0, 0xF0]);
    is(&Request::ReadDir(name("/a")), &[5, 0, 2, 0x2F, 0x61]);
    let resume = Request::ResumeFile(name("a"), format(0x01), SizePayload::new(1, 65_536));
    is(&resume, &[6, 0, 1, 0x61, 0x01, 3, 0, 0, 1, 1, 0, 0]);
}

#[test]
fn modes() {
    let sizes = SizePayload::new(0, 0);
    let none = DataFormatIdentifier::NONE;
    for (request, mode) in [
        (Request::AddFile(name("a"), none, sizes), 1),
        (Request::DeleteFile(name("a")), 2),
        (Request::ReplaceFile(name("a"), none, sizes), 3),
        (Request::ReadFile(name("a"), none), 4),
        (Request::ReadDir(name("a")), 5),
        (Request::ResumeFile(name("a"), none, sizes), 6),
    ] {
        assert_eq!(request.mode_of_operation().value(), mode);
    }
    const REQUEST: Request<'static> = match NamePayload::new("a") {
        Ok(name) => Request::ReadDir(name),
        Err(_) => panic!(),
    };
    const MODE: FileOperationMode = REQUEST.mode_of_operation();
    assert_eq!(MODE, FileOperationMode::ReadDir);
}

#[test]
fn sizes_at_their_bounds() {
    let mut nine = vec![1, 0, 0, 0x00, 9, 0];
    nine.extend([0xFF; 8]);
    nine.push(1);
    nine.extend([0; 8]);
    let sizes = SizePayload::new(u64::MAX.into(), 1 << 64);
    is(&Request::AddFile(name(""), format(0x00), sizes), &nine);

    let mut sixteen = vec![3, 0, 0, 0x00, 16];
    sixteen.extend([0xFF; 16]);
    sixteen.extend([0; 15]);
    sixteen.push(1);
    let sizes = SizePayload::new(u128::MAX, 1);
    is(
        &Request::ReplaceFile(name(""), format(0x00), sizes),
        &sixteen,
    );
}

#[test]
fn a_wider_size_is_read_and_written_at_the_smallest_width() {
    let request = Request::ResumeFile(name(""), format(0x00), SizePayload::new(5, 6));
    is_read(&[6, 0, 0, 0x00, 3, 0, 0, 5, 0, 0, 6], &request);
    assert_eq!(written(&request), [6, 0, 0, 0x00, 1, 5, 6]);
}

#[test]
fn cut_at_each_place() {
    cuts::<Request>(
        &[1, 0, 1, 0x61, 0x11, 2, 0, 255, 1, 0],
        &[
            (1, 0),
            (2, 0),
            (2, 1),
            (3, 2),
            (1, 0),
            (1, 0),
            (5, 1),
            (5, 2),
            (5, 3),
            (5, 4),
        ],
    );
    cuts::<Request>(&[2, 0, 1, 0x61], &[(1, 0), (2, 0), (2, 1), (3, 2)]);
    cuts::<Request>(&[4, 0, 0, 0xF0], &[(1, 0), (2, 0), (2, 1), (1, 0)]);
    cuts::<Request>(
        &[5, 0, 2, 0x2F, 0x61],
        &[(1, 0), (2, 0), (2, 1), (4, 2), (4, 3)],
    );
}

#[test]
fn widths_that_are_none() {
    for mode in [1, 3, 6] {
        refused::<Request>(&[mode, 0, 0, 0x00, 0], bad_width(0));
        for width in [17, 18, 255] {
            let mut message = vec![mode, 0, 0, 0x00, width];
            let group = 2 * usize::from(width);
            message.extend(vec![0; group]);
            // the whole group has to be there before its width is judged
            let cut = &message[..message.len() - 1];
            refused::<Request>(cut, short(1 + group, group));
            refused::<Request>(&message, bad_width(width.into()));
        }
    }
}

#[test]
fn modes_that_are_none() {
    for mode in (0..=255).filter(|mode| !(1..=6).contains(mode)) {
        let error = Error::InvalidFileOperationMode(mode);
        refused::<Request>(&[mode, 0, 0], error);
        refused::<Request>(&[mode, 0, 1, 0x61, 0x5A], error);
        // the name is judged before the mode
        refused::<Request>(&[mode], short(2, 0));
        refused::<Request>(
            &[mode, 0, 1, 0xFF],
            Error::IncorrectMessageLengthOrInvalidFormat,
        );
    }
}

#[test]
fn names_that_are_not_text() {
    for mode in 1..=6 {
        for bad in BAD_NAMES {
            let message = [&[mode, 0, bad.len() as u8], bad].concat();
            refused::<Request>(&message, Error::IncorrectMessageLengthOrInvalidFormat);
        }
    }
}

#[test]
fn the_longest_name() {
    let longest: &'static str = "ä".repeat(32_767).leak();
    let message = [&[5, 0xFF, 0xFE], longest.as_bytes()].concat();
    is(&Request::ReadDir(name(longest)), &message);
    let longest: &'static str = "a".repeat(65_535).leak();
    let message = [&[2, 0xFF, 0xFF], longest.as_bytes()].concat();
    is(&Request::DeleteFile(name(longest)), &message);
    refused::<Request>(&message[..65_537], short(65_537, 65_536));
}

#[test]
fn the_name_is_the_message_s_own() {
    let message = kept(&[5, 0, 2, 0x2F, 0x61]);
    let Ok((Request::ReadDir(name), [])) = Request::decode(message) else {
        panic!("it is good")
    };
    assert_eq!(name.file_path_and_name().as_ptr(), message[3..].as_ptr());
}

#[test]
fn each_variant_is_told_apart() {
    #[deny(unreachable_patterns)]
    fn kind(request: &Request<'_>) -> u8 {
        match request {
            Request::AddFile(..) => 1,
            Request::DeleteFile(..) => 2,
            Request::ReplaceFile(..) => 3,
            Request::ReadFile(..) => 4,
            Request::ReadDir(..) => 5,
            Request::ResumeFile(..) => 6,
            // there may be more
            _ => 0,
        }
    }
    for mode in 1..=6 {
        let message = kept(&[mode, 0, 0, 0, 1, 0, 0]);
        let (request, _) = Request::decode(message).expect("it is good");
        assert_eq!(kind(&request), mode);
    }
}

#[test]
fn negative_codes() {
    let codes = Request::allowed_nack_codes();
    let codes: Vec<u8> = codes.iter().map(|code| *code as u8).collect();
    assert_eq!(codes, [0x13, 0x22, 0x24, 0x31, 0x33, 0x34, 0x70]);
}
