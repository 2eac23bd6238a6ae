//! The format byte.
use super::Error;

/// How a file is packed (the high half of the byte) and encrypted (the low half). What a half means is the manufacturer's, but for 0,
/// which means not at all.
#[derive(Clone, Copy, Debug, PartialEq, Eq)]
pub struct DataFormatIdentifier(u8);

impl DataFormatIdentifier {
    /// Neither packed nor encrypted.
    pub const NONE: Self = Self(0x00);

    /// The format of two methods, each of which is half a byte.
    ///
    /// # Errors
    /// [`Error::InvalidEncryptionCompressionMethod`] with the first that is more.
    pub const fn new(compression_method: u8, encryption_method: u8) -> Result<Self, Error> {
        match (compression_method, encryption_method) {
            (0..=15, 0..=15) => Ok(Self(compression_method * 16 + encryption_method)),
            (0..=15, more) | (more, _) => Err(Error::InvalidEncryptionCompressionMethod(more)),
        }
    }

    /// How the file is packed.
    #[must_use]
    pub const fn compression_method(&self) -> u8 {
        self.0 / 16
    }

    /// How the file is encrypted.
    #[must_use]
    pub const fn encryption_method(&self) -> u8 {
        self.0 % 16
    }

    /// The byte.
    #[must_use]
    pub const fn value(&self) -> u8 {
        self.0
    }
}

impl From<u8> for DataFormatIdentifier {
    fn from(byte: u8) -> Self {
        Self(byte)
    }
}

impl From<DataFormatIdentifier> for u8 {
    fn from(format: DataFormatIdentifier) -> Self {
        format.0
    }
}

impl PartialEq<u8> for DataFormatIdentifier {
    fn eq(&self, byte: &u8) -> bool {
        self.0 == *byte
    }
}
