//! Trouble codes.
use super::{cuts, is, kept, refused, short};
use crate::uds_protocol::{CLEAR_ALL_DTCS, Decode, DecodeIter, DtcRecord, Error};

#[test]
fn bytes_and_numbers() {
    const CODE: DtcRecord = DtcRecord::new(0x03, 0x01, 0x11);
    const NUMBER: u32 = CODE.to_u32();
    const BYTES: [u8; 3] = [CODE.high_byte(), CODE.middle_byte(), CODE.low_byte()];
    assert_eq!((BYTES, NUMBER), ([0x03, 0x01, 0x11], 0x0003_0111));
    assert_eq!(u32::from(CODE), 0x0003_0111);
    assert_eq!(DtcRecord::try_from(0x0003_0111), Ok(CODE));
    assert_eq!(DtcRecord::try_from(0), Ok(DtcRecord::new(0, 0, 0)));
    assert_eq!(DtcRecord::try_from(0x00FF_FFFF), Ok(CLEAR_ALL_DTCS));
    assert_eq!(CLEAR_ALL_DTCS, DtcRecord::new(0xFF, 0xFF, 0xFF));
    assert_ne!(CODE, DtcRecord::new(0x03, 0x01, 0x12));
    assert_ne!(CODE, DtcRecord::new(0x03, 0x11, 0x01));
}

#[test]
fn numbers_that_are_no_code() {
    for number in [0x0100_0000, 0xFF03_0111, 0x8000_0000, u32::MAX] {
        let error = Error::InvalidDtcRecord(number);
        assert_eq!(DtcRecord::try_from(number), Err(error));
    }
}

#[test]
fn each_byte_by_itself() {
    for byte in 0..=255 {
        for (place, shift) in [(0, 16), (1, 8), (2, 0)] {
            let mut bytes = [0x12, 0x34, 0x56];
            bytes[place] = byte;
            let [high, middle, low] = bytes;
            let code = DtcRecord::new(high, middle, low);
            is(&code, &bytes);
            assert_eq!(code.to_u32() >> shift & 0xFF, byte.into());
            assert_eq!(DtcRecord::try_from(code.to_u32()), Ok(code));
        }
    }
}

#[test]
fn cut_at_each_place() {
    cuts::<DtcRecord>(&[1, 2, 3], &[(3, 0), (3, 1), (3, 2)]);
}

#[test]
fn one_after_the_other() {
    const SIZE: Option<usize> = <DtcRecord as DecodeIter>::WIRE_SIZE;
    assert_eq!(SIZE, Some(3));
    let buffer = kept(&[1, 2, 3, 4, 5, 6, 7, 8]);
    let Ok(Some((first, rest))) = DtcRecord::decode_next(buffer) else {
        panic!("there is a code")
    };
    assert_eq!((first, rest), (DtcRecord::new(1, 2, 3), &buffer[3..]));
    let Ok(Some((second, rest))) = DtcRecord::decode_next(rest) else {
        panic!("there is a second code")
    };
    assert_eq!((second, rest), (DtcRecord::new(4, 5, 6), &buffer[6..]));
    assert_eq!(DtcRecord::decode_next(rest), Err(short(3, 2)));
    assert_eq!(DtcRecord::decode_next(&[9]), Err(short(3, 1)));
    assert_eq!(DtcRecord::decode_next(&[]), Ok(None));
    // of the two, only the other takes nothing for a code
    refused::<DtcRecord>(&[], short(3, 0));
    assert!(DtcRecord::decode(&buffer[5..]).is_ok());
}
