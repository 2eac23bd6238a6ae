//! Why a call is refused.
use core::fmt;

/// Why a call is refused: a variant for each refusal, with what it carries. `docs/REFUSALS.md` has an example of each, and what to do.
///
/// There may be more of them one day, so that a `match` needs an arm for the others.
///
/// ```
/// use skrolvind::{Refusal, read_request};
///
/// let refusal = read_request(&[7, 0, 2, 0x61]).unwrap_err();
/// assert_eq!(refusal, Refusal::TooShort { needed: 4, available: 3 });
/// assert_eq!(refusal.needed(), Some(4));
/// assert_eq!(refusal.to_string(), "refused 1 4 3: too short: a field has fewer bytes than it needs");
/// ```
#[derive(Clone, Copy, Debug, PartialEq, Eq, Hash)]
#[non_exhaustive]
pub enum Refusal {
    /// 1: the field at hand has fewer bytes than it needs, both counted from where it begins.
    TooShort {
        /// How many bytes the field needs.
        needed: usize,
        /// How many there are.
        available: usize,
    },
    /// 2: the name is not UTF-8; or the name, the block length or the routine's record is too long, and `good` is then 0.
    WrongFormat {
        /// The length of the longest beginning of the name that is UTF-8.
        good: usize,
    },
    /// 3: no file operation has this number.
    UnknownMode(u8),
    /// 4: no routine sub-function has this number.
    UnknownSubFunction(u8),
    /// 5: the number is above `0x00FF_FFFF`, and no trouble code.
    NoTroubleCode(u32),
    /// 6: the sizes are so many bytes wide, and not 1 to 16.
    BadWidth(usize),
    /// 7: the room is smaller than what is to be written; nothing was. Both count bytes, or entries where a list is to be filled.
    NoRoom {
        /// How much room it takes.
        needed: usize,
        /// How much there is.
        room: usize,
    },
    /// 8: the sizes differ though the format byte says that the file is not packed.
    UnequalSizes,
    /// 9: so many bytes are left over behind the message.
    LeftOver(usize),
    /// 10: the last record is cut, or lengths do not add up to their buffer.
    Cut,
    /// 11: a field is out of range or does not fit; or an index is another listing's, or a negative answer is to a service that we do
    /// not have, and `place` is then 0.
    OutOfRange {
        /// The place of the record, counted from 0.
        place: usize,
    },
    /// 12: there are more records or messages than are taken.
    TooMany,
    /// 13: the step of a recorded transfer cannot come where it does.
    NotAllowed {
        /// The place of the record, counted from 0.
        place: usize,
    },
    /// 14: the block of a recorded transfer has neither the next counter nor the last one.
    WrongCounter {
        /// The place of the record, counted from 0.
        place: usize,
    },
    /// 15: the service byte of a record is none of a transfer's; or the first bytes of a message or of a listing are none that we have,
    /// and `place` is then 0.
    UnknownService {
        /// The place of the record, counted from 0.
        place: usize,
    },
    /// 16: no record of the listing has the code.
    NoSuchCode,
    /// 17: a record of a listing has a code that stood before it.
    Repeated {
        /// The place of the record, counted from 0.
        place: usize,
    },
    /// 18: a character of a text cannot stand where it does.
    BadCharacter {
        /// The place of the character, counted from 0; where the text ends early, its length.
        place: usize,
    },
}

/// What each number means, as the library's own text has it.
const MEANINGS: [&str; 19] = [
    "accepted",
    "too short: a field has fewer bytes than it needs",
    "wrong format: the name is not UTF-8, or something is too long",
    "unknown mode: no file operation has this number",
    "unknown routine sub-function: it is not start, stop or results",
    "no trouble code: the number is above 0x00FFFFFF",
    "bad width: a size is 1 to 16 bytes wide",
    "no room: the room is smaller than what is to be written",
    "unequal sizes: the sizes differ though the file is not packed",
    "bytes left over: the message ends before its bytes do",
    "cut: the last record is cut, or lengths do not add up",
    "out of range: a field is out of range or does not fit, or the index is another listing's",
    "too many: there are more records or messages than are taken",
    "not allowed: this step cannot come here",
    "wrong counter: a block has neither the next counter nor the last one",
    "unknown service: this service byte, or these first bytes, are none that we have",
    "no such code: no record has this code",
    "repeated: a code stands twice in a listing",
    "bad character: a character cannot stand where it does, or the text ends early",
];

impl Refusal {
    /// Its number: from 1 to 9 for what document 01 has, and from 10 up for document 02.
    #[must_use]
    pub const fn number(&self) -> u64 {
        match self {
            Self::TooShort { .. } => 1,
            Self::WrongFormat { .. } => 2,
            Self::UnknownMode(_) => 3,
            Self::UnknownSubFunction(_) => 4,
            Self::NoTroubleCode(_) => 5,
            Self::BadWidth(_) => 6,
            Self::NoRoom { .. } => 7,
            Self::UnequalSizes => 8,
            Self::LeftOver(_) => 9,
            Self::Cut => 10,
            Self::OutOfRange { .. } => 11,
            Self::TooMany => 12,
            Self::NotAllowed { .. } => 13,
            Self::WrongCounter { .. } => 14,
            Self::UnknownService { .. } => 15,
            Self::NoSuchCode => 16,
            Self::Repeated { .. } => 17,
            Self::BadCharacter { .. } => 18,
        }
    }

    /// The first value that it carries, or 0.
    #[must_use]
    pub const fn first(&self) -> u64 {
        match *self {
            Self::UnknownMode(byte) | Self::UnknownSubFunction(byte) => byte as u64,
            Self::NoTroubleCode(number) => number as u64,
            Self::TooShort { needed: value, .. }
            | Self::NoRoom { needed: value, .. }
            | Self::WrongFormat { good: value }
            | Self::BadWidth(value)
            | Self::LeftOver(value)
            | Self::OutOfRange { place: value }
            | Self::NotAllowed { place: value }
            | Self::WrongCounter { place: value }
            | Self::UnknownService { place: value }
            | Self::Repeated { place: value }
            | Self::BadCharacter { place: value } => value as u64,
            Self::UnequalSizes | Self::Cut | Self::TooMany | Self::NoSuchCode => 0,
        }
    }

    /// The second value that it carries, or 0.
    #[must_use]
    pub const fn second(&self) -> u64 {
        match *self {
            Self::TooShort { available, .. } => available as u64,
            Self::NoRoom { room, .. } => room as u64,
            _ => 0,
        }
    }

    /// What it means in plain words: a title of `docs/REFUSALS.md`, a colon, and a sentence.
    #[must_use]
    pub const fn meaning(&self) -> &'static str {
        MEANINGS[self.number() as usize]
    }

    /// What a number means that stands by itself, as in the list of [`read_batch`](crate::read_batch); none where no refusal has it. Of
    /// 0 it is `accepted`.
    #[must_use]
    pub const fn meaning_of(number: u64) -> Option<&'static str> {
        if number < MEANINGS.len() as u64 {
            Some(MEANINGS[number as usize])
        } else {
            None
        }
    }

    /// How much would have been enough: of [`TooShort`](Self::TooShort) bytes of the field, of [`NoRoom`](Self::NoRoom) room.
    #[must_use]
    pub const fn needed(&self) -> Option<usize> {
        match *self {
            Self::TooShort { needed, .. } | Self::NoRoom { needed, .. } => Some(needed),
            _ => None,
        }
    }
}

/// `refused N A B: ` and the meaning.
impl fmt::Display for Refusal {
    fn fmt(&self, f: &mut fmt::Formatter<'_>) -> fmt::Result {
        let [number, first, second] = [self.number(), self.first(), self.second()];
        write!(f, "refused {number} {first} {second}: {}", self.meaning())
    }
}

impl core::error::Error for Refusal {}
