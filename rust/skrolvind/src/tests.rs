//! Every row of document 01's bench table, and what the rows do not try.
extern crate std;

use crate::read::accepted;
use crate::*;
use std::string::{String, ToString};
use std::vec;
use std::vec::Vec;

/// As the library says it.
pub fn refusal(number: u64, first: u64, second: u64) -> Refusal {
    accepted(number, first, second).unwrap_err()
}

const fn request(kind: Kind, name: &str) -> Request<'_> {
    Request {
        kind,
        name,
        format: 0,
        uncompressed: 0,
        compressed: 0,
    }
}

#[track_caller]
fn refused_request(message: &[u8], number: u64, first: u64, second: u64) {
    assert_eq!(read_request(message), Err(refusal(number, first, second)));
}

#[test]
fn a_request_to_delete() {
    let message = [2, 0, 1, 0x61];
    let (read, tail) = read_request(&message).unwrap();
    assert_eq!(read, request(Kind::DeleteFile, "a"));
    assert!(tail.is_empty());
    assert_eq!(read.name.as_ptr(), message[3..].as_ptr());
}

#[test]
fn a_request_to_add_nothing() {
    let (read, _) = read_request(&[1, 0, 1, 0x61, 0, 1, 0, 0]).unwrap();
    assert_eq!(read, request(Kind::AddFile, "a"));
}

#[test]
fn sizes_at_two_widths_mean_the_same() {
    let narrow = [1, 0, 1, 0x61, 0x11, 2, 0, 255, 1, 0];
    let wide = [1, 0, 1, 0x61, 0x11, 3, 0, 0, 255, 0, 1, 0];
    let (read, _) = read_request(&narrow).unwrap();
    assert_eq!(read.format, 0x11);
    assert_eq!((read.uncompressed, read.compressed), (255, 256));
    assert_eq!(read_request(&wide).unwrap().0, read);
    let mut room = [0xEE; 12];
    assert_eq!(rewrite_request(&wide, &mut room), Ok((10, &[][..])));
    assert_eq!(room[..10], narrow);
    assert_eq!(room[10..], [0xEE; 2]);
    // what follows is the tail, of the message that was read
    let joined = [&wide[..], &narrow].concat();
    let (written, tail) = rewrite_request(&joined, &mut room).unwrap();
    assert_eq!((written, tail), (10, &narrow[..]));
    assert_eq!(tail.as_ptr(), joined[12..].as_ptr());
}

#[test]
fn refused_requests() {
    refused_request(&[], 1, 1, 0);
    refused_request(&[1, 0, 1, 0x61, 0, 0], 6, 0, 0);
    refused_request(&[1], 1, 2, 0);
    refused_request(&[7, 0, 2, 0x61], 1, 4, 3);
    refused_request(&[7, 0, 1, 0xFF], 2, 0, 0);
    refused_request(&[7, 0, 1, 0x61], 3, 7, 0);
}

#[test]
fn a_request_with_a_width_of_17() {
    let mut message = vec![1, 0, 1, 0x61, 0, 17];
    message.resize(6 + 33, 0);
    refused_request(&message, 1, 35, 34);
    message.push(0);
    refused_request(&message, 6, 17, 0);
}

#[test]
fn a_response_about_a_directory() {
    let wanted = Response {
        kind: Kind::ReadDir,
        block: &[],
        format: 0,
        uncompressed: 0,
        compressed: 0,
        position: 0,
    };
    assert_eq!(read_response(&[5, 0, 0, 0, 1, 0]), Ok((wanted, &[][..])));
}

#[test]
fn a_response_with_a_position() {
    let read = Response {
        kind: Kind::ResumeFile,
        block: &[0, 0x10],
        format: 0x22,
        uncompressed: 0,
        compressed: 0,
        position: 0x0102_0304_0506_0708,
    };
    let message = [6, 2, 0, 0x10, 0x22, 1, 2, 3, 4, 5, 6, 7, 8];
    assert_eq!(read_response(&message), Ok((read, &[][..])));
    let mut room = [0; 13];
    assert_eq!(write_response(&read, &mut room), Ok(13));
    assert_eq!(room, message);
    let short = rewrite_response(&message, &mut room[..12]);
    assert_eq!(short, Err(refusal(7, 13, 12)));
    assert_eq!(room, message);
}

#[test]
fn a_routine_request() {
    let read = RoutineRequest {
        suppress: true,
        sub_function: SubFunction::Start,
        identifier: 0x0203,
        record: &[0xAA],
    };
    let message = [0x81, 2, 3, 0xAA];
    assert_eq!(read_routine_request(&message), Ok(read));
    let mut room = [0; 4];
    assert_eq!(write_routine_request(&read, &mut room), Ok(4));
    assert_eq!(room, message);
    let refused = read_routine_request(&[0xFF, 2, 3]);
    assert_eq!(refused, Err(refusal(4, 0x7F, 0)));
}

#[test]
fn a_routine_response() {
    let read = RoutineResponse {
        sub_function: SubFunction::Results,
        identifier: 0x0203,
        record: &[],
    };
    assert_eq!(read_routine_response(&[3, 2, 3]), Ok(read));
    let mut room = [0xEE; 4];
    assert_eq!(write_routine_response(&read, &mut room), Ok(3));
    assert_eq!(room, [3, 2, 3, 0xEE]);
    let refused = read_routine_response(&[0x81, 2, 3]);
    assert_eq!(refused, Err(refusal(4, 0x81, 0)));
}

#[test]
fn a_routine_record_that_is_too_long() {
    let record = vec![0; 65_536];
    let mut room = vec![0; 65_539];
    let long = RoutineResponse {
        sub_function: SubFunction::Stop,
        identifier: 1,
        record: &record,
    };
    let refused = write_routine_response(&long, &mut room);
    assert_eq!(refused, Err(refusal(2, 0, 0)));
}

#[test]
fn written_widths() {
    for (size, width) in [(u128::from(u64::MAX), 8), (1 << 64, 9), (u128::MAX, 16)] {
        let written = Request {
            uncompressed: size,
            ..request(Kind::AddFile, "a")
        };
        let mut room = [0; 64];
        let count = write_request(&written, &mut room).unwrap();
        assert_eq!((count, usize::from(room[5])), (6 + 2 * width, width));
        assert_eq!(read_request(&room[..count]), Ok((written, &[][..])));
        assert_eq!(desk_check(&room[..count]), Err(refusal(8, 0, 0)));
        room[4] = 0x11;
        assert_eq!(desk_check(&room[..count]), Ok(()));
    }
}

/// What the library says to a name that need not be text, in plenty of room.
fn written_name(name: &[u8]) -> Result<(), Refusal> {
    let (kind, sizes) = (Kind::DeleteFile.into(), flat::Sizes::default());
    let w = flat::write_request(kind, name, 0, sizes, &mut vec![0; 66_000]);
    accepted(w.number, w.first, w.second)
}

#[test]
fn names() {
    let bad: [&[u8]; 3] = [
        &[0xC0, 0x80],
        &[0xED, 0xA0, 0x80],
        &[0xF4, 0x90, 0x80, 0x80],
    ];
    for name in bad {
        assert_eq!(valid_up_to(name), 0);
        let mut message: Vec<u8> = vec![2, 0, u8::try_from(name.len()).unwrap()];
        message.extend(name);
        refused_request(&message, 2, 0, 0);
        assert_eq!(written_name(name), Err(refusal(2, 0, 0)));
    }
    assert_eq!(valid_up_to(&[0xF4, 0x8F, 0xBF, 0xBF]), 4);
    let message = [2, 0, 4, 0xF4, 0x8F, 0xBF, 0xBF];
    let (read, _) = read_request(&message).unwrap();
    assert_eq!(read.name, "\u{10FFFF}");
}

#[test]
fn where_a_name_goes_bad() {
    let mut long = vec![b'a'; 200];
    long[150] = 0xFC;
    let names: [(&[u8], u64); 4] = [
        (&long, 150),
        (&[0xFF, b'a'], 0),
        (&[b'a', 0xE2, 0x82], 1),
        (&[0xC3, 0xBC, b'b', 0x80], 3),
    ];
    for (name, good) in names {
        let mut message: Vec<u8> = vec![2, 0, u8::try_from(name.len()).unwrap()];
        message.extend(name);
        refused_request(&message, 2, good, 0);
        assert_eq!(desk_check(&message), Err(refusal(2, good, 0)));
        let rewritten = rewrite_request(&message, &mut [0; 300]);
        assert_eq!(rewritten, Err(refusal(2, good, 0)));
        assert_eq!(written_name(name), Err(refusal(2, good, 0)));
    }
}

#[test]
fn a_name_that_is_too_long() {
    for byte in [b'a', 0xFF] {
        let name = vec![byte; LONGEST_NAME + 1];
        assert_eq!(written_name(&name), Err(refusal(2, 0, 0)));
        assert_eq!(written_name(&name[1..]).is_ok(), byte == b'a');
    }
    let name = "a".repeat(LONGEST_NAME + 1);
    let long = request(Kind::DeleteFile, &name);
    assert_eq!(long.needed(), Err(refusal(2, 0, 0)));
}

#[test]
fn trouble_codes_of_numbers_and_buffers() {
    let all = TroubleCode {
        high: 255,
        middle: 255,
        low: 255,
    };
    assert_eq!(trouble_code(0x00FF_FFFF), Ok(all));
    assert_eq!(trouble_code(0x0100_0000), Err(refusal(5, 0x0100_0000, 0)));
    assert_eq!(next_trouble_code(&[]), Ok(None));
    assert_eq!(next_trouble_code(&[1, 2]), Err(refusal(1, 3, 2)));
    let next = next_trouble_code(&[255, 255, 255, 4]);
    assert_eq!(next, Ok(Some((all, &[4][..]))));
    for number in [0, 0x03_0111, 0x00FF_FFFF] {
        let code = TroubleCode::try_from(number).unwrap();
        assert_eq!(u32::from(code), number);
        assert_eq!(TroubleCode::from(<[u8; 3]>::from(code)), code);
    }
}

#[test]
fn trouble_codes_one_after_the_other() {
    let buffer = [3, 1, 0x11, 0xC1, 0, 0, 9, 9];
    let all: Vec<_> = trouble_codes(&buffer[..6]).collect();
    assert_eq!(all, [Ok(code(3, 1, 0x11)), Ok(code(0xC1, 0, 0))]);
    let mut cut = trouble_codes(&buffer);
    assert_eq!(cut.len(), 3);
    assert!(cut.by_ref().take(2).eq(all));
    assert_eq!(cut.len(), 1);
    assert_eq!(cut.next(), Some(Err(refusal(1, 3, 2))));
    // nothing comes after a refusal
    assert_eq!((cut.len(), cut.next(), cut.next()), (0, None, None));
    assert_eq!(trouble_codes(&[]).next(), None);
}

#[test]
fn the_desk() {
    let mut message = [1, 0, 1, 0x61, 0x00, 2, 0, 255, 1, 0, 0x5A];
    assert_eq!(desk_check(&message), Err(refusal(9, 1, 0)));
    assert_eq!(desk_check(&message[..10]), Err(refusal(8, 0, 0)));
    assert_eq!(desk_check(&message[..9]), Err(refusal(1, 5, 4)));
    for format in [0x01, 0x0F, 0x10, 0xF0, 0xFF] {
        message[4] = format;
        assert_eq!(desk_check(&message[..10]), Ok(()));
    }
    assert_eq!(desk_check(&[3, 0, 0, 0x00, 1, 9, 9]), Ok(()));
    assert_eq!(desk_check(&[2, 0, 1, 0x61]), Ok(()));
}

/// Records of station 7 and coach 123,456.
fn sheet(records: &[(u8, u8, u8)]) -> Vec<u8> {
    let bytes = |&(month, direction, number)| [month, 7, direction, number, 0, 1, 0xE2, 0x40];
    records.iter().flat_map(bytes).collect()
}

#[test]
fn a_sheet_counted() {
    let records = [(1, 0, 0), (1, 1, 0), (1, 0, 6), (12, 1, 9), (6, 0, 3)];
    let mut wanted = [[0; 10]; 12];
    wanted[0][0] = 2;
    wanted[0][6] = 1;
    wanted[5][3] = 1;
    wanted[11][9] = 1;
    assert_eq!(tally_records(&sheet(&records)), Ok(wanted));
    assert_eq!(tally_records(&[]), Ok([[0; 10]; 12]));
    let mut full = [[0; 10]; 12];
    full[10][8] = 65_536;
    let records = sheet(&vec![(11, 1, 8); 65_536]);
    assert_eq!(tally_records(&records), Ok(full));
}

#[test]
fn refused_sheets() {
    let good = (1, 0, 0);
    for bad in [
        (0, 0, 0),
        (13, 0, 0),
        (1, 2, 0),
        (1, 0, 10),
        (255, 255, 255),
    ] {
        let records = sheet(&[good, good, bad, good, bad]);
        assert_eq!(tally_records(&records), Err(refusal(11, 2, 0)));
        assert_eq!(tally_records(&records[..39]), Err(refusal(10, 0, 0)));
    }
    let many = sheet(&vec![good; 65_537]);
    assert_eq!(tally_records(&many), Err(refusal(12, 0, 0)));
    let piece = &many[..many.len() - 1];
    assert_eq!(tally_records(piece), Err(refusal(10, 0, 0)));
    let more = [&many[..], &[1]].concat();
    assert_eq!(tally_records(&more), Err(refusal(12, 0, 0)));
    assert_eq!(flat::tally_records(&more).cells, [0; 120]);
}

const fn state(transfer: Transfer, repeats: u64, total: u64) -> TransferState {
    TransferState {
        transfer,
        repeats,
        total,
    }
}

#[test]
fn recorded_transfers() {
    let closed = state(Transfer::Closed, 0, 0);
    assert_eq!(replay_log(&[]), Ok(closed));
    assert_eq!(TransferState::default(), closed);
    // a repeat, then the first block of a second transfer
    let log = [
        [0x38, 1, 9, 9],
        [0x36, 1, 0x10, 0],
        [0x36, 1, 0x10, 0],
        [0x37, 1, 2, 3],
        [0x38, 6, 0, 0],
        [0x36, 1, 0, 5],
        [0x36, 3, 0, 5],
    ]
    .concat();
    let open = |last| Transfer::Open { last };
    assert_eq!(replay_log(&log[..4]), Ok(state(open(None), 0, 0)));
    assert_eq!(replay_log(&log[..16]), Ok(state(Transfer::Closed, 1, 4096)));
    assert_eq!(replay_log(&log[..24]), Ok(state(open(Some(1)), 1, 4101)));
    let stopped = Stopped {
        refusal: refusal(14, 6, 0),
        state: state(open(Some(1)), 1, 4101),
    };
    assert_eq!(replay_log(&log), Err(stopped));
    let refused = |number| {
        Err(Stopped {
            refusal: refusal(number, 0, 0),
            state: closed,
        })
    };
    assert_eq!(replay_log(&log[..27]), refused(10));
    assert_eq!(replay_log(&vec![0; 262_145]), refused(10));
    assert_eq!(replay_log(&vec![0; 262_149]), refused(12));
    assert_eq!(replay_log(&vec![0; 262_144]), refused(15));
    assert_eq!(replay_log(&[0x38, 2, 0, 0]), refused(13));
}

#[test]
fn a_transfer_followed_while_it_runs() {
    let block = |kind_or_counter| LogRecord {
        service: 0x36,
        kind_or_counter,
        payload: 4,
    };
    let after = |last| state(Transfer::Open { last: Some(last) }, 3, 4096);
    let next = state(Transfer::Open { last: Some(0) }, 3, 4100);
    assert_eq!(replay_step(&after(255), block(0), 9), Ok(next));
    assert_eq!(
        replay_step(&after(255), block(1), 9),
        Err(refusal(14, 9, 0))
    );
    let full = state(Transfer::Open { last: None }, 0, u64::MAX);
    assert_eq!(replay_step(&full, block(1), 9), Err(refusal(12, 0, 0)));
    assert_eq!(
        replay_step(&TransferState::default(), block(1), 9),
        Err(refusal(13, 9, 0))
    );
}

fn reason(field: Field, offset: usize, number: u64, first: u64, second: u64) -> Result<(), Reason> {
    Err(Reason {
        refusal: refusal(number, first, second),
        field,
        offset,
    })
}

#[test]
fn why_requests_are_refused() {
    for (message, wanted) in [
        (&[][..], reason(Field::Mode, 0, 1, 1, 0)),
        (&[1, 0], reason(Field::Name, 1, 1, 2, 1)),
        (&[7, 0, 2, 0x61], reason(Field::Name, 1, 1, 4, 3)),
        (&[7, 0, 2, 0x61, 0xFF], reason(Field::Name, 1, 2, 1, 0)),
        (&[7, 0, 1, 0x61], reason(Field::Mode, 0, 3, 7, 0)),
        (&[4, 0, 0], reason(Field::FormatByte, 3, 1, 1, 0)),
        (&[1, 0, 0, 0x11], reason(Field::SizeGroup, 4, 1, 1, 0)),
        (&[1, 0, 0, 0x11, 2, 9], reason(Field::SizeGroup, 4, 1, 5, 2)),
        (&[1, 0, 0, 0x11, 0], reason(Field::SizeGroup, 4, 6, 0, 0)),
        (&[2, 0, 0], Ok(())),
        (&[2, 0, 0, 0x5A], Ok(())),
    ] {
        assert_eq!(why_request(message), wanted);
        assert_eq!(
            read_request(message).map(|_| ()).err(),
            wanted.err().map(|r| r.refusal)
        );
    }
}

#[test]
fn why_responses_are_refused() {
    for (message, wanted) in [
        (&[][..], reason(Field::Mode, 0, 1, 1, 0)),
        (&[7], reason(Field::Mode, 0, 3, 7, 0)),
        (&[1], reason(Field::BlockLength, 1, 1, 1, 0)),
        (&[1, 2, 0x10], reason(Field::BlockLength, 1, 1, 3, 2)),
        (&[1, 1, 0x10], reason(Field::FormatByte, 3, 1, 1, 0)),
        (&[4, 0, 0, 0], reason(Field::SizeGroup, 3, 1, 2, 1)),
        (&[5, 0, 0, 1, 0, 9], reason(Field::SizeGroup, 3, 1, 258, 3)),
        (&[5, 0, 0, 0, 0], reason(Field::SizeGroup, 3, 6, 0, 0)),
        (&[6, 1, 0x10, 0, 9, 9], reason(Field::Position, 4, 1, 8, 2)),
        (&[2], Ok(())),
    ] {
        assert_eq!(why_response(message), wanted);
        assert_eq!(
            read_response(message).map(|_| ()).err(),
            wanted.err().map(|r| r.refusal)
        );
    }
}

/// Every refusal with the numbers that it has.
const REFUSALS: [(Refusal, [u64; 3]); 18] = [
    (
        Refusal::TooShort {
            needed: 4,
            available: 3,
        },
        [1, 4, 3],
    ),
    (Refusal::WrongFormat { good: 150 }, [2, 150, 0]),
    (Refusal::UnknownMode(7), [3, 7, 0]),
    (Refusal::UnknownSubFunction(0x7F), [4, 0x7F, 0]),
    (Refusal::NoTroubleCode(0x0100_0000), [5, 0x0100_0000, 0]),
    (Refusal::BadWidth(17), [6, 17, 0]),
    (Refusal::NoRoom { needed: 4, room: 3 }, [7, 4, 3]),
    (Refusal::UnequalSizes, [8, 0, 0]),
    (Refusal::LeftOver(9), [9, 9, 0]),
    (Refusal::Cut, [10, 0, 0]),
    (Refusal::OutOfRange { place: 5 }, [11, 5, 0]),
    (Refusal::TooMany, [12, 0, 0]),
    (Refusal::NotAllowed { place: 5 }, [13, 5, 0]),
    (Refusal::WrongCounter { place: 5 }, [14, 5, 0]),
    (Refusal::UnknownService { place: 5 }, [15, 5, 0]),
    (Refusal::NoSuchCode, [16, 0, 0]),
    (Refusal::Repeated { place: 5 }, [17, 5, 0]),
    (Refusal::BadCharacter { place: 5 }, [18, 5, 0]),
];

#[test]
fn every_refusal_and_its_numbers() {
    assert_eq!(accepted(0, 0, 0), Ok(()));
    for (place, (made, [number, first, second])) in REFUSALS.into_iter().enumerate() {
        assert_eq!(number, place as u64 + 1);
        assert_eq!(refusal(number, first, second), made);
        let said = [made.number(), made.first(), made.second()];
        assert_eq!(said, [number, first, second]);
        assert_eq!(made.needed(), matches!(number, 1 | 7).then_some(4));
        assert_eq!(Refusal::meaning_of(number), Some(made.meaning()));
    }
}

#[test]
#[should_panic(expected = "the library answered 19 where that cannot be")]
fn no_refusal_has_another_number() {
    refusal(19, 0, 0);
}

#[test]
fn the_titles_of_refusals() {
    let titles: Vec<_> = include_str!("../../../docs/REFUSALS.md")
        .lines()
        .filter_map(|line| line.strip_prefix("## ")?.split_once(": "))
        .collect();
    assert_eq!(titles.len(), 19);
    for (place, (number, title)) in titles.into_iter().enumerate() {
        assert_eq!(number, place.to_string());
        let meaning = Refusal::meaning_of(place as u64).unwrap();
        let beginning = meaning.split(": ").next();
        assert_eq!(beginning, Some(title));
    }
}

#[test]
fn what_the_library_says_of_a_number() {
    let mut longest = 0;
    for number in (0..40).chain([255, 256, 1 << 32, u64::MAX]) {
        let mut room = [0xEE; LONGEST_REFUSAL_TEXT + 1];
        let w = flat::refusal_text(number, &mut room);
        let Some(meaning) = Refusal::meaning_of(number) else {
            assert_eq!([w.number, w.first, w.second, w.written], [11, 0, 0, 0]);
            assert_eq!(room, [0xEE; LONGEST_REFUSAL_TEXT + 1]);
            continue;
        };
        let len = meaning.len();
        assert_eq!([w.number, w.written], [0, len as u64]);
        assert_eq!((&room[..len], room[len]), (meaning.as_bytes(), 0xEE));
        let short = flat::refusal_text(number, &mut room[..len - 1]);
        let short = accepted(short.number, short.first, short.second);
        assert_eq!(short, Err(refusal(7, len as u64, len as u64 - 1)));
        longest = longest.max(len);
    }
    assert_eq!(longest, LONGEST_REFUSAL_TEXT);
}

#[test]
fn a_refusal_and_a_reason_print_their_meaning() {
    let text = "refused 1 4 3: too short: a field has fewer bytes than it needs";
    assert_eq!(refusal(1, 4, 3).to_string(), text);
    let why = why_request(&[7, 0, 2, 0x61]).unwrap_err();
    assert_eq!(why.to_string(), std::format!("name at 1: {text}"));
}

/// What is made of each byte, and that there is a way back.
fn of_bytes<T: Copy + TryFrom<u8> + Into<u8>>() -> (Vec<u8>, T::Error) {
    let values = (0..=255).filter_map(|byte| T::try_from(byte).ok());
    (
        values.map(Into::into).collect(),
        T::try_from(0xFF).err().unwrap(),
    )
}

#[test]
fn values_of_bytes() {
    let other = Refusal::UnknownMode(0xFF);
    assert_eq!(of_bytes::<Kind>(), (vec![1, 2, 3, 4, 5, 6], other));
    let other = Refusal::UnknownSubFunction(0xFF);
    assert_eq!(of_bytes::<SubFunction>(), (vec![1, 2, 3], other));
    // as the library refuses these bytes
    let negative = flat::read_message(&[0x7F, 0xFF, 0]);
    let other = refusal(negative.number, negative.first, negative.second);
    assert_eq!(of_bytes::<Service>(), (vec![0x31, 0x38], other));
    let listing = flat::read_listing(0xFF, &[0x59, 0xFF, 0]);
    let other = refusal(listing.number, listing.first, listing.second);
    assert_eq!(of_bytes::<ListingSub>(), (vec![0x02, 0x08], other));
    let numbers = (0..=255).filter_map(Field::from_number);
    assert!(numbers.map(u8::from).eq(1..=6));
}

#[test]
fn the_longest_of_each() {
    let name = "a".repeat(LONGEST_NAME);
    let longest = Request {
        uncompressed: u128::MAX,
        ..request(Kind::AddFile, &name)
    };
    assert_eq!(longest.needed(), Ok(LONGEST_REQUEST));
    let mut room = vec![0; LONGEST_MESSAGE];
    assert_eq!(write_request(&longest, &mut room), Ok(LONGEST_REQUEST));
    assert_eq!(
        write_request_message(&longest, &mut room),
        Ok(LONGEST_MESSAGE)
    );
    let longest = Response {
        kind: Kind::ReadFile,
        block: &[0; LONGEST_BLOCK_LENGTH],
        format: 0,
        uncompressed: 0,
        compressed: u128::MAX,
        position: 0,
    };
    assert_eq!(longest.needed(), Ok(LONGEST_RESPONSE));
    let record = &[0; LONGEST_RECORD];
    let (sub_function, identifier) = (SubFunction::Start, 0);
    let longest = RoutineResponse {
        sub_function,
        identifier,
        record,
    };
    assert_eq!(longest.needed(), Ok(LONGEST_ROUTINE));
    let longest = RoutineRequest {
        suppress: false,
        sub_function,
        identifier,
        record,
    };
    assert_eq!(longest.needed(), Ok(LONGEST_ROUTINE));
}

#[test]
fn the_lengths_and_the_version_of_the_header() {
    let lengths = [
        ("LONGEST_REQUEST", LONGEST_REQUEST),
        ("LONGEST_RESPONSE", LONGEST_RESPONSE),
        ("LONGEST_ROUTINE", LONGEST_ROUTINE),
        ("LONGEST_MESSAGE", LONGEST_MESSAGE),
        ("LONGEST_NAME", LONGEST_NAME),
        ("LONGEST_BLOCK_LENGTH", LONGEST_BLOCK_LENGTH),
        ("LONGEST_RECORD", LONGEST_RECORD),
        ("MOST_MESSAGES", MOST_MESSAGES),
        ("MOST_LISTED", MOST_LISTED),
        ("LONGEST_LISTING", LONGEST_LISTING),
        ("LONGEST_LISTING_TEXT", LONGEST_LISTING_TEXT),
        ("LONGEST_REFUSAL_TEXT", LONGEST_REFUSAL_TEXT),
        ("MOST_RECORDS", MOST_RECORDS),
    ];
    let header = include_str!("../../../include/skrolvind.h");
    let named: Vec<_> = header
        .lines()
        .filter_map(|line| line.strip_prefix("#define SKR_")?.split_once(' '))
        .filter(|(name, _)| name.starts_with("LONGEST_") || name.starts_with("MOST_"))
        .collect();
    assert_eq!(named.len(), lengths.len());
    let version = concat!("#define SKR_VERSION \"", env!("CARGO_PKG_VERSION"), "\"");
    assert!(header.lines().any(|line| line == version));
    for (name, rest) in named {
        let length = lengths.iter().find(|(own, _)| *own == name);
        let number = rest.split(' ').next().and_then(|n| n.parse().ok());
        assert_eq!(length.map(|(_, length)| *length), number, "{name}");
    }
}

#[test]
fn the_longest_listing() {
    let records = vec![handed(ListingSub::BySeverityMask, &RATED)[0]; MOST_LISTED];
    let mut room = vec![0; LONGEST_LISTING];
    let written = write_listing(ListingSub::BySeverityMask, 0, &records, &mut room);
    assert_eq!(written, Ok(LONGEST_LISTING));
    let listing = Listing::read(ListingSub::BySeverityMask, &room).unwrap();
    let text = listing.export(&mut [0; LONGEST_LISTING_TEXT]);
    assert_eq!(text, Ok(LONGEST_LISTING_TEXT));
}

const LISTING: [u8; 15] = [
    0x59, 0x02, 0x7F, 0x03, 0x01, 0x11, 0x2F, 0xC1, 0x00, 0x00, 0x08, 0x03, 0x01, 0x11, 0x09,
];
/// The same codes and statuses with severities and functional units.
const RATED: [u8; 21] = [
    0x59, 0x08, 0x7F, 0x81, 0x05, 0x03, 0x01, 0x11, 0x2F, 0x00, 0x00, 0xC1, 0x00, 0x00, 0x08, 0x20,
    0x03, 0x03, 0x01, 0x11, 0x09,
];
const SUBS: [(ListingSub, &[u8]); 2] = [
    (ListingSub::ByStatusMask, &LISTING),
    (ListingSub::BySeverityMask, &RATED),
];

const fn code(high: u8, middle: u8, low: u8) -> TroubleCode {
    TroubleCode { high, middle, low }
}

fn handed(sub: ListingSub, message: &[u8]) -> Vec<CodeRecord> {
    let listing = Listing::read(sub, message).unwrap();
    listing.records().map(CodeRecord::from).collect()
}

#[test]
fn listings_are_read_and_written_back() {
    for (sub, message) in SUBS {
        let listing = Listing::read(sub, message).unwrap();
        assert_eq!(listing.sub(), sub);
        assert_eq!((listing.mask(), listing.len()), (0x7F, 3));
        assert!(listing.into_iter().eq(listing.records()));
        assert_eq!(listing.records().len(), 3);
        assert_eq!(listing.record(3), None);
        let (records, len) = (handed(sub, message), message.len());
        let mut room = [0xAA; 22];
        let written = write_listing(sub, listing.mask(), &records, &mut room);
        assert_eq!(written, Ok(len));
        assert_eq!((&room[..len], room[len]), (message, 0xAA));
        let short = write_listing(sub, 0, &records, &mut room[..len - 1]);
        let needed = len as u64;
        assert_eq!(short, Err(refusal(7, needed, needed - 1)));
        let bytes = flat::record_bytes(&records);
        let cut = flat::write_listing(sub as u8, 0, &bytes[1..], &mut room);
        assert_eq!((bytes.len(), cut.number), (21, 10));
    }
}

#[test]
fn listings_are_refused() {
    for (message, wanted) in [
        (&[][..], refusal(1, 3, 0)),
        (&[0, 0], refusal(1, 3, 2)),
        (&[0x59, 0x08, 0], refusal(15, 0, 0)),
        (&[0x19, 0x02, 0, 0], refusal(15, 0, 0)),
        (&[0x59, 0x02, 0, 0], refusal(10, 0, 0)),
    ] {
        let read = Listing::read(ListingSub::ByStatusMask, message);
        assert_eq!(read, Err(wanted));
    }
    for ((sub, message), size) in SUBS.into_iter().zip([4, 6]) {
        let mut long = vec![0; 3 + size * 4097];
        long[..3].copy_from_slice(&message[..3]);
        let read = |len: usize| Listing::read(sub, &long[..len]).map(|l| l.len());
        let most = 3 + size * 4096;
        assert_eq!(read(most), Ok(4096));
        assert_eq!(read(most + size - 1), Err(refusal(10, 0, 0)));
        assert_eq!(read(most + size), Err(refusal(12, 0, 0)));
    }
}

#[test]
fn severities_are_known_or_not() {
    let known = |severity, unit| {
        Some(Rating {
            severity: Severity::from_bits(severity),
            unit,
        })
    };
    let ratings = |sub, message| {
        let listing = Listing::read(sub, message).unwrap();
        listing.records().map(|r| r.rating).collect::<Vec<_>>()
    };
    let [(plain, unrated), (by_severity, rated)] = SUBS;
    assert_eq!(ratings(plain, unrated), [None; 3]);
    let wanted = [known(0x81, 0x05), known(0, 0), known(0x20, 0x03)];
    assert_eq!(ratings(by_severity, rated), wanted);
    for (sub, message) in SUBS {
        let listing = Listing::read(sub, message).unwrap();
        for record in listing.records() {
            assert_eq!(Listed::from(CodeRecord::from(record)), record);
        }
    }
    // any other mark than 0 is as good as 1, and beside a mark of 0 nothing else is looked at
    let mut records = handed(by_severity, rated);
    records[1].known = 0xFF;
    let mut room = [0; 22];
    let written = write_listing(by_severity, 0x7F, &records, &mut room);
    assert_eq!((written, &room[..21]), (Ok(21), rated));
    records.iter_mut().for_each(|record| record.known = 0);
    let written = write_listing(plain, 0x7F, &records, &mut room);
    assert_eq!((written, &room[..15]), (Ok(15), unrated));
}

#[test]
fn marks_that_do_not_fit() {
    for ((sub, message), unfit) in SUBS.into_iter().zip([1, 0]) {
        for place in 0..3 {
            let mut records = handed(sub, message);
            records[place].known = unfit;
            records[2].known = unfit;
            let mut room = [0xAA; 21];
            for room in [&mut [][..], &mut room] {
                let written = write_listing(sub, 0, &records, room);
                assert_eq!(written, Err(refusal(11, place as u64, 0)));
            }
            assert_eq!(room, [0xAA; 21]);
            records.resize(4097, records[0]);
            let many = write_listing(sub, 0, &records, &mut room);
            assert_eq!(many, Err(refusal(12, 0, 0)));
        }
    }
}

#[test]
fn questions_to_a_severity() {
    for bits in 0..=255 {
        let severity = Severity::from_bits(bits);
        assert_eq!(severity.bits(), bits);
        let classes: Vec<_> = (0..=255).filter(|c| severity.has_class(*c)).collect();
        let set: Vec<_> = (0..5).filter(|bit| bits >> bit & 1 == 1).collect();
        assert_eq!((severity.is_valid(), classes), (!set.is_empty(), set));
        let todo = [
            severity.maintenance_only(),
            severity.check_at_next_halt(),
            severity.check_immediately(),
        ];
        assert_eq!(todo, [5, 6, 7].map(|bit| bits >> bit & 1 == 1));
    }
}

#[test]
fn codes_are_looked_up_by_the_own_index_alone() {
    for (sub, message) in SUBS {
        let listing = Listing::read(sub, message).unwrap();
        let index = listing.index();
        let found = |place: usize| Ok(listing.record(place).map(|record| (place, record)));
        assert_eq!(index.get(code(3, 1, 0x11)), found(0));
        assert_eq!(index.get(code(0xC1, 0, 0)), found(1));
        assert_eq!(index.get(code(3, 1, 0x12)), Ok(None));
        assert_eq!(index.get(code(4, 1, 0x11)), Ok(None));
        let mut firsts = *index.firsts();
        firsts[0x10] = 1;
        let other = Index::kept(listing, *index.counts(), firsts);
        for code in [code(3, 1, 0x11), code(3, 1, 0x12)] {
            assert_eq!(other.get(code), Err(refusal(11, 0, 0)));
        }
    }
}

#[test]
fn codes_as_text() {
    for (bytes, text) in [
        (code(0x03, 0x01, 0x11), "P0301-11"),
        (code(0xC1, 0x00, 0x00), "U0100-00"),
        (code(0x5A, 0xBC, 0xDE), "C1ABC-DE"),
        (code(0xBF, 0xFF, 0xFF), "B3FFF-FF"),
    ] {
        assert_eq!(std::format!("{bytes}"), text);
        assert_eq!(std::format!("{bytes:>10}"), std::format!("  {text}"));
        assert_eq!(text.parse(), Ok(bytes));
        let mut room = [0xAA; 9];
        let short = flat::code_text(bytes, &mut room[..7]);
        assert_eq!((short.number, short.first, short.second), (7, 8, 7));
        assert_eq!(room, [0xAA; 9]);
        assert_eq!(flat::code_text(bytes, &mut room).written, 8);
        assert_eq!((&room[..8], room[8]), (text.as_bytes(), 0xAA));
    }
    for (text, place) in [
        ("", 0),
        ("P0301-1", 7),
        ("P0301-111", 8),
        ("P0301-11\n", 8),
        ("P0301_111", 5),
        ("p0301-11", 0),
        ("X0301-11", 0),
        ("P4301-11", 1),
        ("P0a01-11", 2),
        ("P0301-1f", 7),
        (" P0301-11", 0),
        ("P03\u{0661}1-11", 3),
    ] {
        let read = text.parse::<TroubleCode>();
        assert_eq!(read, Err(refusal(18, place, 0)), "{text}");
    }
}

#[test]
fn listings_as_text() {
    let text = "P0301-11 2F\nU0100-00 08\nP0301-11 09\n";
    for (sub, message) in SUBS {
        let listing = Listing::read(sub, message).unwrap();
        let mut room = [0xAA; 37];
        let short = listing.export(&mut room[..35]);
        assert_eq!(short, Err(refusal(7, 36, 35)));
        assert_eq!(room, [0xAA; 37]);
        assert_eq!(listing.export(&mut room), Ok(36));
        assert_eq!((&room[..36], room[36]), (text.as_bytes(), 0xAA));
    }
    let empty = Listing::read(ListingSub::BySeverityMask, &RATED[..3]).unwrap();
    assert_eq!(empty.export(&mut []), Ok(0));
    // the severity does not come back
    let mut room = [0xAA; 16];
    let imported = import_listing(0x7F, text.as_bytes(), &mut room);
    assert_eq!(imported, Ok(15));
    assert_eq!((&room[..15], room[15]), (&LISTING[..], 0xAA));
    assert_eq!(import_listing(0x08, b"", &mut room), Ok(3));
    assert_eq!(room[..4], [0x59, 0x02, 0x08, 0x03]);
}

#[test]
fn texts_that_are_no_listing() {
    let line = "P0301-11 2F\n";
    let lines = |count| line.repeat(count);
    for (text, wanted) in [
        (String::from("\n"), refusal(18, 0, 0)),
        (lines(2) + "\n", refusal(18, 24, 0)),
        (lines(2) + "P0301-11 2F", refusal(18, 35, 0)),
        (lines(1) + "P0301-11 2F\r\n", refusal(18, 23, 0)),
        (lines(1) + "P0301-11 2f\n", refusal(18, 22, 0)),
        (lines(1) + "P0301-11\n", refusal(18, 20, 0)),
        (lines(4097) + "x", refusal(18, 49_164, 0)),
        (lines(4097), refusal(12, 0, 0)),
        (lines(2), refusal(7, 11, 10)),
    ] {
        let mut room = [0xAA; 10];
        let imported = import_listing(0xFF, text.as_bytes(), &mut room);
        assert_eq!((imported, room), (Err(wanted), [0xAA; 10]));
    }
    let mut room = vec![0; 3 + 4 * 4096];
    let full = import_listing(0xFF, lines(4096).as_bytes(), &mut room);
    assert_eq!(full, Ok(16_387));
}

#[test]
fn changes_between_listings() {
    let before = [
        0x59, 0x02, 0xFF, 0x03, 0x01, 0x11, 0x2F, 0xC1, 0x00, 0x00, 0x08, 0x44, 0x00, 0x00, 0x09,
    ];
    let after = [
        0x59, 0x02, 0x7F, 0x81, 0x01, 0x00, 0x01, 0x44, 0x00, 0x00, 0x09, 0xC1, 0x00, 0x00, 0x2F,
        0x80, 0x00, 0x00, 0x02,
    ];
    let plain = ListingSub::ByStatusMask;
    let [first, second] = [&before[..], &after].map(|m| Listing::read(plain, m).unwrap());
    let mut room = [0xAA; 25];
    let changes = first.changes(&second, &mut room).unwrap();
    assert_eq!(changes.len(), 4);
    let (a, b) = (code(0x03, 0x01, 0x11), code(0xC1, 0, 0));
    let (c, d) = (code(0x81, 0x01, 0), code(0x80, 0, 0));
    let wanted = [
        Change::Gone { code: a, old: 0x2F },
        Change::Differs {
            code: b,
            old: 0x08,
            new: 0x2F,
        },
        Change::New { code: c, new: 0x01 },
        Change::New { code: d, new: 0x02 },
    ];
    assert_eq!(changes.collect::<Vec<_>>(), wanted);
    assert_eq!(room[..6], [1, 0x03, 0x01, 0x11, 0x2F, 0]);
    assert_eq!(room[24], 0xAA);
    // the mask alone is no change
    let mut masked = before;
    masked[2] = 0;
    let masked = Listing::read(plain, &masked).unwrap();
    assert_eq!(first.changes(&masked, &mut []).unwrap().len(), 0);
}

#[test]
fn a_severity_that_becomes_known_is_a_change() {
    let plain = Listing::read(ListingSub::ByStatusMask, &LISTING[..11]).unwrap();
    let rated = Listing::read(ListingSub::BySeverityMask, &RATED[..15]).unwrap();
    for (first, second) in [(plain, rated), (rated, plain)] {
        let mut room = [0; 12];
        let changes = first.changes(&second, &mut room).unwrap();
        let same = |code, status| Change::Differs {
            code,
            old: status,
            new: status,
        };
        let wanted = [same(code(3, 1, 0x11), 0x2F), same(code(0xC1, 0, 0), 0x08)];
        assert_eq!(changes.collect::<Vec<_>>(), wanted);
    }
}

#[test]
fn listings_that_are_not_compared() {
    let twice = Listing::read(ListingSub::ByStatusMask, &LISTING).unwrap();
    let good = Listing::read(ListingSub::ByStatusMask, &LISTING[..11]).unwrap();
    let empty = Listing::read(ListingSub::BySeverityMask, &RATED[..3]).unwrap();
    for (first, second, number, values, which) in [
        (twice, twice, 17, (2, 0), Some(Which::First)),
        (twice, empty, 17, (2, 0), Some(Which::First)),
        (empty, twice, 17, (2, 0), Some(Which::Second)),
        (good, empty, 7, (12, 11), None),
        (empty, good, 7, (12, 11), None),
    ] {
        let mut room = [0xAA; 11];
        let answer = first.changes(&second, &mut room).unwrap_err();
        let refusal = refusal(number, values.0, values.1);
        assert_eq!(answer, NotCompared { refusal, which });
        assert_eq!(room, [0xAA; 11]);
    }
    let told = std::format!("{}", empty.changes(&twice, &mut []).unwrap_err());
    assert!(told.ends_with("(the second listing)"), "{told}");
    // what reading refuses, of the first listing before the second
    let cut = flat::listing_changes((0x08, &RATED[..4]), (0x0A, &[]), &mut []);
    assert_eq!((cut.number, cut.which), (10, 1));
    let unknown = flat::listing_changes((0x08, &RATED), (0x0A, &[]), &mut []);
    assert_eq!((unknown.number, unknown.which), (17, 1));
    let unknown = flat::listing_changes((0x08, &RATED[..15]), (0x0A, &[]), &mut []);
    assert_eq!((unknown.number, unknown.which), (15, 2));
}

#[test]
fn batches() {
    // accepted with bytes left over, empty, an unknown mode, a name that is not UTF-8, sizes 0 bytes wide, a name that is cut
    let buffer = [
        2, 0, 1, 0x61, 9, 9, 7, 0, 1, 0x61, 2, 0, 1, 0xFF, 1, 0, 1, 0x61, 0, 0, 2, 0, 2, 0x61,
    ];
    let lengths = [6, 0, 4, 4, 6, 4];
    let mut list = [99; 8];
    assert_eq!(read_batch(&buffer, &lengths, &mut list), Ok(6));
    assert_eq!(list, [0, 1, 3, 2, 6, 1, 99, 99]);
    // no messages and an empty buffer
    assert_eq!(read_batch(&[], &[], &mut []), Ok(0));
    let many = vec![0; 4097];
    let mut ones = vec![99; 4097];
    assert_eq!(read_batch(&[], &many[1..], &mut ones), Ok(4096));
    assert_eq!((ones[0], ones[4095], ones[4096]), (1, 1, 99));
    // 12, then 10, then 7, and the list is untouched
    for (buffer, lengths, room, wanted) in [
        (&buffer[..0], &many[..], 3, refusal(12, 0, 0)),
        (&buffer[..1], &many, 9, refusal(12, 0, 0)),
        (&buffer[1..], &lengths, 8, refusal(10, 0, 0)),
        (&buffer, &lengths[1..], 8, refusal(10, 0, 0)),
        (&buffer[..4], &[u32::MAX, 5], 1, refusal(10, 0, 0)),
        (&buffer, &[], 0, refusal(10, 0, 0)),
        (&buffer, &lengths, 5, refusal(7, 6, 5)),
        (&[], &[0], 0, refusal(7, 1, 0)),
    ] {
        let mut list = vec![99; room];
        assert_eq!(read_batch(buffer, lengths, &mut list), Err(wanted));
        assert_eq!(list, vec![99; room]);
    }
}

#[test]
fn joined_requests() {
    // deleted, added with sizes a byte wider than they need be, a folder read
    let pieces: [&[u8]; 3] = [
        &[2, 0, 1, 0x61],
        &[1, 0, 1, 0x61, 0x11, 2, 0, 1, 0, 2],
        &[5, 0, 0],
    ];
    let buffer = pieces.concat();
    let mut lengths = [99; 5];
    assert_eq!(split_joined(&buffer, &mut lengths), Ok(3));
    assert_eq!(lengths, [4, 10, 3, 99, 99]);
    let mut numbers = [99; 3];
    assert_eq!(read_batch(&buffer, &lengths[..3], &mut numbers), Ok(3));
    assert_eq!(numbers, [0; 3]);
    // an empty buffer has no request
    assert_eq!(split_joined(&[], &mut []), Ok(0));
    let dirs = [5, 0, 0].repeat(4097);
    let mut many = vec![99; 4097];
    assert_eq!(split_joined(&dirs[3..], &mut many), Ok(4096));
    assert_eq!((many[0], many[4095], many[4096]), (3, 3, 99));
    // the reader's refusal with the piece's place, 12 whatever follows, then 7; and the list is untouched
    let not_split = |number, first, second, found| {
        Err(NotSplit {
            refusal: refusal(number, first, second),
            found,
        })
    };
    let bad = [&buffer[..], &[7, 0, 0]].concat();
    for (buffer, room, wanted) in [
        (&buffer[..13], 9, not_split(1, 5, 4, 1)),
        (&buffer[..16], 1, not_split(1, 2, 1, 2)),
        (&bad, 2, not_split(3, 7, 0, 3)),
        (&dirs, 9, not_split(12, 0, 0, 4096)),
        (&[&dirs[3..], &[9]].concat(), 9, not_split(12, 0, 0, 4096)),
        (&buffer, 2, not_split(7, 3, 2, 3)),
        (&buffer, 0, not_split(7, 3, 0, 3)),
    ] {
        let mut lengths = vec![99; room];
        assert_eq!(split_joined(buffer, &mut lengths), wanted);
        assert_eq!(lengths, vec![99; room]);
    }
    let told = std::format!("{}", split_joined(&bad, &mut []).unwrap_err());
    assert!(told.ends_with("(after 3 requests)"), "{told}");
}
