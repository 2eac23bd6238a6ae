//! The payloads of file transfer messages alone, and what their constructors take.
use super::{BAD_NAMES, bad_width, cuts, is, is_read, refused, short, written};
use crate::uds_protocol::{
    DirSizePayload, Error, FileSizePayload, NamePayload, PositionPayload, SentDataPayload,
    SizePayload,
};

const TOO_LONG: Error = Error::IncorrectMessageLengthOrInvalidFormat;

#[test]
fn names() {
    const NAME: NamePayload<'static> = match NamePayload::new("/a") {
        Ok(name) => name,
        Err(_) => panic!(),
    };
    const TEXT: &str = NAME.file_path_and_name();
    assert_eq!(TEXT, "/a");
    is(&NAME, &[0, 2, 0x2F, 0x61]);
    is(&NamePayload::new("").unwrap(), &[0, 0]);
    cuts::<NamePayload>(&[0, 2, 0x2F, 0x61], &[(2, 0), (2, 1), (4, 2), (4, 3)]);
    for bad in BAD_NAMES {
        refused::<NamePayload>(&[&[0, bad.len() as u8], bad].concat(), TOO_LONG);
    }
}

#[test]
fn the_longest_name() {
    let name: &'static str = "a".repeat(65_536).leak();
    assert_eq!(NamePayload::new(name), Err(TOO_LONG));
    let name = &name[1..];
    let longest = NamePayload::new(name).expect("it is short enough");
    is(&longest, &[&[0xFF, 0xFF], name.as_bytes()].concat());
    assert_eq!(longest.file_path_and_name(), name);
}

#[test]
fn block_lengths() {
    const SENT: SentDataPayload<'static> = match SentDataPayload::new(&[0, 0x80]) {
        Ok(sent) => sent,
        Err(_) => panic!(),
    };
    const BLOCK: &[u8] = SENT.max_number_of_block_length();
    assert_eq!(BLOCK, [0, 0x80]);
    is(&SENT, &[2, 0, 0x80]);
    is(&SentDataPayload::new(&[]).unwrap(), &[0]);
    cuts::<SentDataPayload>(&[2, 0, 0x80], &[(1, 0), (3, 1), (3, 2)]);

    let block: &'static [u8] = vec![0xFF; 256].leak();
    assert_eq!(SentDataPayload::new(block), Err(TOO_LONG));
    let longest = SentDataPayload::new(&block[1..]).expect("it is short enough");
    is(&longest, block);
    assert_eq!(longest.max_number_of_block_length(), &block[1..]);
}

/// Two sizes and the bytes of both, without their width.
fn sizes() -> Vec<([u128; 2], usize, Vec<u8>)> {
    let max = u64::MAX.into();
    let nine = [&[0; 1][..], &[0xFF; 8], &[1], &[0; 8]].concat();
    let sixteen = [&[1][..], &[0; 15], &[0xFF; 16]].concat();
    vec![
        ([0, 0], 1, vec![0, 0]),
        ([255, 1], 1, vec![255, 1]),
        ([255, 256], 2, vec![0, 255, 1, 0]),
        ([65_536, 0], 3, vec![1, 0, 0, 0, 0, 0]),
        ([max, max], 8, vec![0xFF; 16]),
        ([max, max + 1], 9, nine),
        ([1 << 120, u128::MAX], 16, sixteen),
    ]
}

#[test]
fn sizes_of_requests() {
    for ([uncompressed, compressed], width, bytes) in sizes() {
        let value = SizePayload::new(uncompressed, compressed);
        assert_eq!(value.file_size_uncompressed, uncompressed);
        assert_eq!(value.file_size_compressed, compressed);
        is(&value, &[&[width as u8], &bytes[..]].concat());
    }
    cuts::<SizePayload>(
        &[2, 0, 255, 1, 0],
        &[(1, 0), (5, 1), (5, 2), (5, 3), (5, 4)],
    );
    refused::<SizePayload>(&[0], bad_width(0));
    refused::<SizePayload>(&[0, 1, 2], bad_width(0));
    refused::<SizePayload>(&[&[17], &[0; 33][..]].concat(), short(35, 34));
    refused::<SizePayload>(&[&[17], &[0; 34][..]].concat(), bad_width(17));
    refused::<SizePayload>(&[255; 511], bad_width(255));
}

#[test]
fn sizes_of_responses() {
    for ([uncompressed, compressed], width, bytes) in sizes() {
        let value = FileSizePayload::new(uncompressed, compressed);
        assert_eq!(value.file_size_uncompressed, uncompressed);
        assert_eq!(value.file_size_compressed, compressed);
        is(&value, &[&[0, width as u8], &bytes[..]].concat());
    }
    cuts::<FileSizePayload>(&[0, 1, 255, 1], &[(2, 0), (2, 1), (4, 2), (4, 3)]);
    refused::<FileSizePayload>(&[0, 0], bad_width(0));
    refused::<FileSizePayload>(&[&[0, 17], &[0; 33][..]].concat(), short(36, 35));
    refused::<FileSizePayload>(&[&[0, 17], &[0; 34][..]].concat(), bad_width(17));
    refused::<FileSizePayload>(&[&[1, 1], &[0; 514][..]].concat(), bad_width(257));
}

#[test]
fn sizes_of_directories() {
    for ([size, _], _, _) in sizes() {
        assert_eq!(DirSizePayload::new(size).dir_info_length, size);
    }
    is(&DirSizePayload::new(0), &[0, 1, 0]);
    is(&DirSizePayload::new(255), &[0, 1, 255]);
    is(&DirSizePayload::new(256), &[0, 2, 1, 0]);
    let most = [&[0, 16], &[0xFF; 16][..]].concat();
    is(&DirSizePayload::new(u128::MAX), &most);
    cuts::<DirSizePayload>(&[0, 2, 1, 0], &[(2, 0), (2, 1), (4, 2), (4, 3)]);
    refused::<DirSizePayload>(&[0, 0, 1], bad_width(0));
    refused::<DirSizePayload>(&[&[0, 17], &[0; 16][..]].concat(), short(19, 18));
    refused::<DirSizePayload>(&[&[0, 17], &[0; 17][..]].concat(), bad_width(17));
    refused::<DirSizePayload>(&[&[1, 0], &[0; 256][..]].concat(), bad_width(256));
}

#[test]
fn every_width_is_read() {
    for width in 1..=16 {
        let bytes = [vec![0; width - 1], vec![7], vec![0; width - 1], vec![9]].concat();
        let small = u8::try_from(width).expect("it is at most 16");
        let one = [&[small], &bytes[..]].concat();
        is_read(&one, &SizePayload::new(7, 9));
        let two = [&[0, small], &bytes[..]].concat();
        is_read(&two, &FileSizePayload::new(7, 9));
        is_read(&two[..2 + width], &DirSizePayload::new(7));
    }
    assert_eq!(written(&SizePayload::new(7, 9)), [1, 7, 9]);
    assert_eq!(written(&FileSizePayload::new(7, 9)), [0, 1, 7, 9]);
    assert_eq!(written(&DirSizePayload::new(7)), [0, 1, 7]);
}

#[test]
fn positions() {
    const POSITION: PositionPayload = PositionPayload::new(0x0102_0304_0506_0708);
    assert_eq!(POSITION.file_position, 0x0102_0304_0506_0708);
    is(&POSITION, &[1, 2, 3, 4, 5, 6, 7, 8]);
    is(&PositionPayload::new(0), &[0; 8]);
    is(&PositionPayload::new(u64::MAX), &[0xFF; 8]);
    for len in 0..8 {
        refused::<PositionPayload>(&[0xFF; 8][..len], short(8, len));
    }
}

#[test]
fn sizes_are_made_in_constants() {
    const SIZES: SizePayload = SizePayload::new(1, 2);
    const FILE: FileSizePayload = FileSizePayload::new(3, 4);
    const DIR: DirSizePayload = DirSizePayload::new(5);
    let sizes = SizePayload {
        file_size_uncompressed: 1,
        file_size_compressed: 2,
    };
    let file = FileSizePayload {
        file_size_uncompressed: 3,
        file_size_compressed: 4,
    };
    let dir = DirSizePayload { dir_info_length: 5 };
    assert_eq!((SIZES, FILE, DIR), (sizes, file, dir));
}
