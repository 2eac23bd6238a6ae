//! Codes and listings as the workshop writes them.
use crate::codes::code;
use crate::flat;
use crate::write::count;
use crate::{Listing, Refusal, TroubleCode};
use core::fmt;
use core::str::FromStr;

/// Eight characters, as the workshop writes a code.
///
/// ```
/// use skrolvind::{Refusal, TroubleCode};
///
/// let code = TroubleCode { high: 0x03, middle: 0x01, low: 0x11 };
/// assert_eq!(code.to_string(), "P0301-11");
/// assert_eq!("P0301-11".parse(), Ok(code));
/// let refused = "P03o1-11".parse::<TroubleCode>();
/// assert_eq!(refused, Err(Refusal::BadCharacter { place: 3 }));
/// ```
impl fmt::Display for TroubleCode {
    fn fmt(&self, f: &mut fmt::Formatter<'_>) -> fmt::Result {
        let mut text = [0; 8];
        flat::code_text(*self, &mut text);
        f.pad(str::from_utf8(&text).expect("the library writes letters, digits and a dash"))
    }
}

/// Takes exactly the eight characters that are displayed, capitals only. [`Refusal::BadCharacter`] with the place of the first character
/// that cannot stand there; the end of the text counts as its length.
impl FromStr for TroubleCode {
    type Err = Refusal;

    #[inline]
    fn from_str(text: &str) -> Result<Self, Refusal> {
        code(flat::read_code_text(text.as_bytes()))
    }
}

impl Listing<'_> {
    /// Exports the listing as text at the start of the room, a line of twelve bytes to each record: the code, a space, the status as two
    /// hex digits, and a line feed. Severity and functional unit are not carried. Answers how many bytes there are.
    ///
    /// # Errors
    /// [`Refusal::NoRoom`].
    #[inline]
    pub fn export(&self, room: &mut [u8]) -> Result<usize, Refusal> {
        count(flat::export_listing(self.sub.into(), self.message, room))
    }
}

/// Imports an exported text: writes it as a listing of 0x02 with this availability mask, its lines in their order. An empty text is a
/// listing without records.
///
/// # Errors
/// [`Refusal::BadCharacter`] with the place, in the whole text, of the first character that cannot stand there, the end of the text
/// counting as its length; then [`Refusal::TooMany`] for more than 4,096 lines; then [`Refusal::NoRoom`].
///
/// ```
/// use skrolvind::{Listing, ListingSub, Refusal, import_listing};
///
/// let text = b"P0301-11 2F\nU0100-00 08\n";
/// let mut room = [0; 11];
/// assert_eq!(import_listing(0xFF, text, &mut room)?, 11);
/// assert_eq!(room, [0x59, 0x02, 0xFF, 0x03, 0x01, 0x11, 0x2F, 0xC1, 0x00, 0x00, 0x08]);
/// let mut again = [0; 24];
/// assert_eq!(Listing::read(ListingSub::ByStatusMask, &room)?.export(&mut again)?, 24);
/// assert_eq!(again, *text);
/// # Ok::<(), Refusal>(())
/// ```
#[inline]
pub fn import_listing(mask: u8, text: &[u8], room: &mut [u8]) -> Result<usize, Refusal> {
    count(flat::import_listing(mask, text, room))
}
