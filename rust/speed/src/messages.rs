//! The messages that are timed, byte by byte.

/// What a name is made of.
#[derive(Clone, Copy)]
pub enum Text {
    Ascii,
    TwoBytes,
    ThreeBytes,
    FourBytes,
    /// Words of ASCII with single letters of two bytes among it.
    Mixed,
}

pub const TEXTS: [Text; 5] = [
    Text::Ascii,
    Text::TwoBytes,
    Text::ThreeBytes,
    Text::FourBytes,
    Text::Mixed,
];

const MIXED: [char; 14] = [
    'Z', 'ü', 'r', 'i', 'c', 'h', '/', 'G', 'e', 'n', 'è', 'v', 'e', '/',
];

impl Text {
    pub const fn called(self) -> &'static str {
        match self {
            Self::Ascii => "ASCII",
            Self::TwoBytes => "two-byte characters",
            Self::ThreeBytes => "three-byte characters",
            Self::FourBytes => "four-byte characters",
            Self::Mixed => "mixed text",
        }
    }

    /// The characters in turn: Latin, Cyrillic, Chinese and pictures, so that their bytes vary as those of words do, or words.
    fn character(self, turn: u32) -> char {
        let number = match self {
            Self::Ascii => 0x61 + turn % 26,
            Self::TwoBytes => 0x430 + turn % 32,
            Self::ThreeBytes => 0x4E00 + turn * 37 % 0x2000,
            Self::FourBytes => 0x1F300 + turn * 37 % 0x400,
            Self::Mixed => return MIXED[turn as usize % MIXED.len()],
        };
        char::from_u32(number).expect("these numbers are characters")
    }
}

/// A name of exactly `len` bytes: as many whole characters as fit, and letters of ASCII after them.
pub fn name(text: Text, len: usize) -> Vec<u8> {
    let mut name = String::with_capacity(len);
    for turn in 0.. {
        let next = text.character(turn);
        if name.len() + next.len_utf8() > len {
            break;
        }
        name.push(next);
    }
    while name.len() < len {
        name.push('z');
    }
    name.into_bytes()
}

/// The start of a request: mode and name. Of `DeleteFile` and `ReadDir` it is all.
fn named(mode: u8, name: &[u8]) -> Vec<u8> {
    let len = u16::try_from(name.len()).expect("a name has at most 65,535 bytes");
    [&[mode], &len.to_be_bytes()[..], name].concat()
}

/// An `AddFile` request with sizes of two bytes each.
fn sized_request(name: &[u8], format: u8, sizes: [u16; 2]) -> Vec<u8> {
    let sizes = sizes.map(u16::to_be_bytes).concat();
    [&named(1, name)[..], &[format, 2], &sizes].concat()
}

/// One of a file that is packed.
pub fn add_file_request(name: &[u8]) -> Vec<u8> {
    sized_request(name, 0x11, [40_000, 12_345])
}

/// One of a file that is not, so that its sizes are to be equal.
pub fn unpacked_request(name: &[u8], sizes: [u16; 2]) -> Vec<u8> {
    sized_request(name, 0x00, sizes)
}

pub fn delete_file_request(name: &[u8]) -> Vec<u8> {
    named(2, name)
}

pub fn read_dir_request(name: &[u8]) -> Vec<u8> {
    named(5, name)
}

/// The start of a response: mode, a block length of four bytes, and the format byte.
fn response(mode: u8) -> Vec<u8> {
    vec![mode, 4, 0, 1, 0xF0, 0x02, 0x11]
}

pub fn add_file_response() -> Vec<u8> {
    response(1)
}

/// The mode byte is all of it.
pub fn delete_file_response() -> Vec<u8> {
    vec![2]
}

/// With two sizes that take eight bytes each.
pub fn read_file_response() -> Vec<u8> {
    let mut message = response(4);
    message.extend(8_u16.to_be_bytes());
    message.extend(0x0123_4567_89AB_CDEF_u64.to_be_bytes());
    message.extend(0x0023_4567_89AB_CDEF_u64.to_be_bytes());
    message
}

/// With a size that takes four bytes.
pub fn read_dir_response() -> Vec<u8> {
    let mut message = response(5);
    message.extend(4_u16.to_be_bytes());
    message.extend(0x1234_5678_u32.to_be_bytes());
    message
}

pub fn resume_file_response() -> Vec<u8> {
    let mut message = response(6);
    message.extend(0x0000_0012_3456_789A_u64.to_be_bytes());
    message
}

/// A routine message: start the routine 0x0203, with a record of `len` bytes.
pub fn routine(len: usize) -> Vec<u8> {
    let mut message = vec![1, 0x02, 0x03];
    message.extend(counted_up(len));
    message
}

/// Bytes of which each is another than the one before it.
pub fn counted_up(len: usize) -> Vec<u8> {
    (0..=u8::MAX).cycle().take(len).collect()
}
