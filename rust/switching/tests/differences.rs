//! Where the two differ on purpose (docs/DIFFERENCES.md, docs/SWITCHING.md): each is held to its own.
use oracle::itself as original;
use original::{Decode as _, Encode as _};
use skrolvind::Refusal;
use skrolvind::uds_protocol::{self as ours, Decode as _, Encode as _};

const FILLER: u8 = 0x5A;

#[test]
fn ours_writes_nothing_into_too_little_room() {
    let sizes = ours::SizePayload::new(255, 256);
    let mut room = [FILLER; 4];
    let mut sink = &mut room[..];
    let no_room = ours::NoRoom { needed: 5, room: 4 };
    assert_eq!(sizes.encode(&mut sink), Err(ours::Error::Io(no_room)));
    assert_eq!((sink.len(), room), (4, [FILLER; 4]));
    let sizes = original::SizePayload::new(255, 256);
    assert_eq!(sizes.encode(&mut &mut room[..]), Err(original::Error::Io));
    assert_eq!(room, [2, 0, 255, FILLER]);
}

#[test]
fn ours_writes_no_routine_record_over_65_535_bytes() {
    let record = [0; 65_536];
    let mut room = vec![FILLER; 70_000];
    let start = ours::RoutineControlSubFunction::StartRoutine;
    let request = ours::RoutineControlRequest::new(false, start, 1, &record);
    let response = ours::RoutineControlResponse::new(start, 1, &record);
    let too_long = Err(ours::Error::IncorrectMessageLengthOrInvalidFormat);
    assert_eq!(request.encode(&mut &mut room[..]), too_long);
    assert_eq!(response.encode(&mut &mut room[..]), too_long);
    assert!(room.iter().all(|byte| *byte == FILLER));
    let start = original::RoutineControlSubFunction::StartRoutine;
    let request = original::RoutineControlRequest::new(false, start, 1, &record);
    assert_eq!(request.encode(&mut &mut room[..]), Ok(65_539));
}

#[test]
fn ours_writes_no_response_whose_mode_is_another_variant_s() {
    let mut room = [FILLER; 8];
    for (mode, byte) in [
        (ours::FileOperationMode::DeleteFile, 2),
        (ours::FileOperationMode::IsoSaeReserved(0x77), 0x77),
    ] {
        let sent = ours::SentDataPayload::new(&[7]).unwrap();
        let format = ours::DataFormatIdentifier::NONE;
        let response = ours::RequestFileTransferResponse::AddFile(mode, sent, format);
        let error = ours::Error::InvalidFileOperationMode(byte);
        assert_eq!(response.encode(&mut &mut room[..]), Err(error));
        assert_eq!(room, [FILLER; 8]);
    }
    let mode = original::FileOperationMode::DeleteFile;
    let sent = original::SentDataPayload::new(&[7]).unwrap();
    let format = original::DataFormatIdentifier::NONE;
    let response = original::RequestFileTransferResponse::AddFile(mode, sent, format);
    assert_eq!(response.encode(&mut &mut room[..]), Ok(4));
    assert_eq!(room[..4], [2, 1, 7, 0]);
}

#[test]
fn ours_reads_a_value_that_is_the_whole_buffer() {
    let (read, tail) = ours::DtcRecord::decode(&[1, 2, 3, 4, 5]).unwrap();
    assert_eq!((read.to_u32(), tail), (0x0001_0203, &[4, 5][..]));
    assert_eq!(ours::DtcRecord::decode_exact(&[1, 2, 3]), Ok(read));
    let left_over = ours::TrailingBytes { count: 2 };
    let error = ours::Error::TrailingBytes(left_over);
    assert_eq!(ours::DtcRecord::decode_exact(&[1, 2, 3, 4, 5]), Err(error));
    let short = ours::Incomplete {
        needed: 3,
        available: 2,
    };
    let error = ours::Error::InsufficientData(short);
    assert_eq!(ours::DtcRecord::decode_exact(&[1, 2]), Err(error));
    // the original's stand-in has the first of the two alone
    assert!(original::DtcRecord::decode(&[1, 2, 3]).is_ok());
}

#[test]
fn ours_writes_into_a_vector() {
    let mut sink = vec![FILLER];
    let name = ours::NamePayload::new("a").unwrap();
    let sizes = ours::SizePayload::new(255, 256);
    let format = ours::DataFormatIdentifier::from(0x11);
    let request = ours::RequestFileTransferRequest::AddFile(name, format, sizes);
    assert_eq!(request.encode(&mut sink), Ok(10));
    assert_eq!(ours::DtcStatusMask::TestFailed.encode(&mut sink), Ok(1));
    assert_eq!(sink, [FILLER, 1, 0, 1, 0x61, 0x11, 2, 0, 255, 1, 0, 1]);
    // as a sink that somebody else has lent
    let code = ours::DtcRecord::new(1, 2, 3);
    assert_eq!(code.encode(&mut &mut sink), Ok(3));
    assert_eq!(sink.split_off(12), [1, 2, 3]);
    let start = ours::RoutineControlSubFunction::StartRoutine;
    let record = [0; 65_536];
    let long = ours::RoutineControlRequest::new(false, start, 1, &record);
    assert!(long.encode(&mut sink).is_err());
    assert_eq!(sink.len(), 12);
}

/// Every refusal of the library is an error, and the errors say what they mean.
#[test]
fn ours_takes_every_refusal() {
    let refusal = skrolvind::read_request(&[7, 0, 0]).unwrap_err();
    let error = ours::Error::from(refusal);
    assert_eq!(error, ours::Error::InvalidFileOperationMode(7));
    assert_eq!(error.to_string(), "no file operation has the number 0x07");
    let refusal = skrolvind::desk_check(&[2, 0, 0, 9]).unwrap_err();
    let left_over = ours::TrailingBytes { count: 1 };
    assert_eq!(
        ours::Error::from(refusal),
        ours::Error::TrailingBytes(left_over)
    );
    let refusal: Refusal = skrolvind::read_message(&[0x99]).unwrap_err();
    let error = ours::Error::from(refusal);
    assert_eq!(error, ours::Error::Refused(refusal));
    assert_eq!(error.to_string(), refusal.to_string());
}
