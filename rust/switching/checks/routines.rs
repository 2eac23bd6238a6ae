//! Routine messages. A record is all that follows, so that nothing is left over.
use super::{kept, refused, short, written};
use crate::uds_protocol::{
    Decode, Encode, Error, RoutineControlRequest as Request, RoutineControlResponse as Response,
    RoutineControlSubFunction as SubFunction,
};

const SUB_FUNCTIONS: [(SubFunction, u8); 3] = [
    (SubFunction::StartRoutine, 1),
    (SubFunction::StopRoutine, 2),
    (SubFunction::RequestRoutineResults, 3),
];

const RECORDS: [&[u8]; 4] = [&[], &[0], &[0x80, 1], &[0xFF; 300]];

#[test]
fn requests() {
    for (sub_function, byte) in SUB_FUNCTIONS {
        for (suppress, bit) in [(false, 0x00), (true, 0x80)] {
            for record in RECORDS {
                let request = Request::new(suppress, sub_function, 0x0203, record);
                let bytes = [&[byte | bit, 2, 3], record].concat();
                assert_eq!(written(&request), bytes);
                let none: &[u8] = &[];
                assert_eq!(Request::decode(kept(&bytes)), Ok((request, none)));
            }
        }
    }
}

#[test]
fn responses() {
    for (sub_function, byte) in SUB_FUNCTIONS {
        for record in RECORDS {
            let response = Response::new(sub_function, 0xFF00, record);
            let bytes = [&[byte, 0xFF, 0], record].concat();
            assert_eq!(written(&response), bytes);
            let none: &[u8] = &[];
            assert_eq!(Response::decode(kept(&bytes)), Ok((response, none)));
        }
    }
}

#[test]
fn fields() {
    const REQUEST: Request<'static> = Request::new(true, SubFunction::StopRoutine, 0x1234, &[5]);
    let Request {
        suppress_positive_response,
        sub_function,
        routine_id,
        option_record,
        ..
    } = REQUEST;
    assert!(suppress_positive_response);
    assert_eq!(sub_function, SubFunction::StopRoutine);
    assert_eq!((routine_id, option_record), (0x1234, &[5][..]));
    const RESPONSE: Response<'static> = Response::new(SubFunction::StartRoutine, 0xFFFF, &[6]);
    let Response {
        sub_function,
        routine_id,
        status_record,
        ..
    } = RESPONSE;
    assert_eq!(sub_function, SubFunction::StartRoutine);
    assert_eq!((routine_id, status_record), (0xFFFF, &[6][..]));
}

#[test]
fn refusals() {
    for len in 0..3 {
        refused::<Request>(&[1, 2, 3][..len], short(3, len));
        refused::<Response>(&[1, 2, 3][..len], short(3, len));
        // the length is judged before the sub-function
        refused::<Request>(&[0; 3][..len], short(3, len));
    }
    for byte in 0..=255 {
        let judged = byte & 0x7F;
        if !(1..=3).contains(&judged) {
            let error = Error::InvalidRoutineControlSubFunction(judged);
            refused::<Request>(&[byte, 0, 0], error);
        }
        if !(1..=3).contains(&byte) {
            let error = Error::InvalidRoutineControlSubFunction(byte);
            refused::<Response>(&[byte, 0, 0], error);
        }
    }
}

#[test]
fn the_longest_record() {
    let record: &'static [u8] = vec![0xAB; 65_535].leak();
    let request = Request::new(false, SubFunction::StartRoutine, 1, record);
    assert_eq!(written(&request), [&[1, 0, 1], record].concat());
    let response = Response::new(SubFunction::RequestRoutineResults, 1, record);
    assert_eq!(written(&response), [&[3, 0, 1], record].concat());
    // a longer one is read, whatever its length
    let long = kept(&[&[2, 0, 1], record, record].concat());
    let (read, tail) = Response::decode(long).expect("it is good");
    assert_eq!((read.status_record, tail), (&long[3..], &[][..]));
    let (read, tail) = Request::decode(long).expect("it is good");
    assert_eq!((read.option_record, tail), (&long[3..], &[][..]));
}

#[test]
fn too_little_room() {
    let request = Request::new(true, SubFunction::StopRoutine, 0x1234, &[5]);
    let response = Response::new(SubFunction::StopRoutine, 0x1234, &[5]);
    let mut room = [0; 4];
    for len in 0..4 {
        assert!(request.encode(&mut &mut room[..len]).is_err());
        assert!(response.encode(&mut &mut room[..len]).is_err());
    }
    assert_eq!(request.encode(&mut &mut room[..]), Ok(4));
    assert_eq!(room, [0x82, 0x12, 0x34, 5]);
}

#[test]
fn sub_functions() {
    for byte in 0..=255 {
        let wanted = match byte {
            1 => Ok(SubFunction::StartRoutine),
            2 => Ok(SubFunction::StopRoutine),
            3 => Ok(SubFunction::RequestRoutineResults),
            _ => Err(Error::InvalidRoutineControlSubFunction(byte)),
        };
        let made = SubFunction::try_from(byte);
        assert_eq!(made, wanted);
        if let Ok(made) = made {
            assert_eq!(u8::from(made), byte);
        }
    }
    #[deny(unreachable_patterns)]
    fn starts(sub_function: SubFunction) -> bool {
        match sub_function {
            SubFunction::StartRoutine => true,
            SubFunction::StopRoutine | SubFunction::RequestRoutineResults => false,
            // there may be more
            _ => false,
        }
    }
    assert!(starts(SubFunction::StartRoutine));
}

#[test]
fn negative_codes() {
    let codes = Request::allowed_nack_codes();
    let codes: Vec<u8> = codes.iter().map(|code| *code as u8).collect();
    assert_eq!(codes, [0x12, 0x13, 0x22, 0x24, 0x31, 0x33, 0x72]);
}
