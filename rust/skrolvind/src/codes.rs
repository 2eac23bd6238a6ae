//! Trouble codes: of a number, and of a buffer, one after the other.
use crate::Refusal;
use crate::flat;
use crate::read::{accepted, as_small};
use core::iter::FusedIterator;

/// A trouble code.
///
/// ```
/// use skrolvind::{Refusal, TroubleCode};
///
/// let code = TroubleCode { high: 0x03, middle: 0x01, low: 0x11 };
/// assert_eq!(TroubleCode::try_from(0x03_0111), Ok(code));
/// assert_eq!(u32::from(code), 0x03_0111);
/// assert_eq!(<[u8; 3]>::from(code), [0x03, 0x01, 0x11]);
/// assert_eq!(TroubleCode::try_from(0x0100_0000), Err(Refusal::NoTroubleCode(0x0100_0000)));
/// ```
#[derive(Clone, Copy, Debug, PartialEq, Eq, PartialOrd, Ord, Hash)]
pub struct TroubleCode {
    /// Its first byte.
    pub high: u8,
    /// Its second byte.
    pub middle: u8,
    /// Its third byte.
    pub low: u8,
}

impl From<[u8; 3]> for TroubleCode {
    #[inline]
    fn from([high, middle, low]: [u8; 3]) -> Self {
        Self { high, middle, low }
    }
}

impl From<TroubleCode> for [u8; 3] {
    #[inline]
    fn from(code: TroubleCode) -> Self {
        [code.high, code.middle, code.low]
    }
}

impl TryFrom<u32> for TroubleCode {
    type Error = Refusal;

    #[inline]
    fn try_from(number: u32) -> Result<Self, Refusal> {
        trouble_code(number)
    }
}

impl From<TroubleCode> for u32 {
    #[inline]
    fn from(code: TroubleCode) -> Self {
        Self::from_be_bytes([0, code.high, code.middle, code.low])
    }
}

/// The trouble code of a number.
///
/// # Errors
/// [`Refusal::NoTroubleCode`] above `0x00FF_FFFF`.
///
/// ```
/// use skrolvind::{Refusal, trouble_code};
///
/// assert_eq!(trouble_code(0x03_0111)?.to_string(), "P0301-11");
/// assert_eq!(trouble_code(0x0100_0000), Err(Refusal::NoTroubleCode(0x0100_0000)));
/// # Ok::<(), Refusal>(())
/// ```
#[inline]
pub fn trouble_code(number: u32) -> Result<TroubleCode, Refusal> {
    code(flat::dtc_from_number(number))
}

#[inline]
pub(crate) fn code(r: flat::TroubleCode) -> Result<TroubleCode, Refusal> {
    accepted(r.number, r.first, r.second)?;
    Ok(TroubleCode {
        high: as_small(r.high),
        middle: as_small(r.middle),
        low: as_small(r.low),
    })
}

/// The first trouble code of a buffer and what follows it, or nothing where the buffer is empty; [`trouble_codes`] hands out all.
///
/// # Errors
/// [`Refusal::TooShort`] for one or two bytes.
///
/// ```
/// use skrolvind::{Refusal, next_trouble_code};
///
/// let (code, rest) = next_trouble_code(&[0x03, 0x01, 0x11, 0xC1])?.expect("there is one");
/// assert_eq!((u32::from(code), rest), (0x03_0111, &[0xC1][..]));
/// assert_eq!(next_trouble_code(&[])?, None);
/// # Ok::<(), Refusal>(())
/// ```
#[inline]
pub fn next_trouble_code(buffer: &[u8]) -> Result<Option<(TroubleCode, &[u8])>, Refusal> {
    let r = flat::dtc_next(buffer);
    accepted(r.number, r.first, r.second)?;
    if r.found == 0 {
        return Ok(None);
    }
    let code = TroubleCode {
        high: as_small(r.high),
        middle: as_small(r.middle),
        low: as_small(r.low),
    };
    Ok(Some((code, &buffer[as_small(r.tail)..])))
}

/// The trouble codes of a buffer, one after the other. Where the last one is cut, a refusal ends them.
///
/// ```
/// use skrolvind::{Refusal, TroubleCode, trouble_codes};
///
/// let codes: Result<Vec<TroubleCode>, _> = trouble_codes(&[0x03, 0x01, 0x11, 0xC1, 0x00, 0x00]).collect();
/// assert_eq!(codes, Ok(vec![[0x03, 0x01, 0x11].into(), [0xC1, 0x00, 0x00].into()]));
/// let mut cut = trouble_codes(&[0x03, 0x01]);
/// assert_eq!(cut.next(), Some(Err(Refusal::TooShort { needed: 3, available: 2 })));
/// assert_eq!(cut.next(), None);
/// ```
#[must_use]
#[inline]
pub const fn trouble_codes(buffer: &[u8]) -> TroubleCodes<'_> {
    TroubleCodes { left: buffer }
}

/// What [`trouble_codes`] hands out.
#[derive(Clone, Debug)]
pub struct TroubleCodes<'a> {
    left: &'a [u8],
}

impl Iterator for TroubleCodes<'_> {
    type Item = Result<TroubleCode, Refusal>;

    #[inline]
    fn next(&mut self) -> Option<Self::Item> {
        let (next, left) = match next_trouble_code(self.left) {
            Ok(None) => (None, &[][..]),
            Ok(Some((code, left))) => (Some(Ok(code)), left),
            Err(refusal) => (Some(Err(refusal)), &[][..]),
        };
        self.left = left;
        next
    }

    #[inline]
    fn size_hint(&self) -> (usize, Option<usize>) {
        let left = self.left.len().div_ceil(3);
        (left, Some(left))
    }
}

impl ExactSizeIterator for TroubleCodes<'_> {}

impl FusedIterator for TroubleCodes<'_> {}
