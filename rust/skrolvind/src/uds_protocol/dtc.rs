//! Trouble codes, and the names of bytes around them.
use super::codec::{byte, put};
use super::{Decode, DecodeIter, Encode, Error, Incomplete, Write};
use crate::TroubleCode;

/// The code that stands for all.
pub const CLEAR_ALL_DTCS: DtcRecord = DtcRecord::new(0xFF, 0xFF, 0xFF);

/// How many bytes a trouble code has.
const CODE_LEN: usize = 3;

/// A trouble code of three bytes.
#[derive(Clone, Copy, Debug, PartialEq, Eq)]
pub struct DtcRecord {
    bytes: [u8; CODE_LEN],
}

impl DtcRecord {
    /// The code of three bytes.
    #[must_use]
    pub const fn new(high_byte: u8, middle_byte: u8, low_byte: u8) -> Self {
        let bytes = [high_byte, middle_byte, low_byte];
        Self { bytes }
    }

    /// Its first byte.
    #[must_use]
    pub const fn high_byte(&self) -> u8 {
        self.bytes[0]
    }

    /// Its second byte.
    #[must_use]
    pub const fn middle_byte(&self) -> u8 {
        self.bytes[1]
    }

    /// Its third byte.
    #[must_use]
    pub const fn low_byte(&self) -> u8 {
        self.bytes[2]
    }

    /// Its number: the three bytes, high first.
    #[must_use]
    pub const fn to_u32(&self) -> u32 {
        let [high, middle, low] = self.bytes;
        u32::from_be_bytes([0, high, middle, low])
    }
}

impl From<TroubleCode> for DtcRecord {
    fn from(code: TroubleCode) -> Self {
        Self::new(code.high, code.middle, code.low)
    }
}

impl TryFrom<u32> for DtcRecord {
    type Error = Error;

    fn try_from(number: u32) -> Result<Self, Error> {
        Ok(crate::trouble_code(number)?.into())
    }
}

impl From<DtcRecord> for u32 {
    fn from(code: DtcRecord) -> Self {
        code.to_u32()
    }
}

impl Encode for DtcRecord {
    type Error = Error;

    fn encode(&self, writer: &mut impl Write) -> Result<usize, Error> {
        put(writer, &self.bytes)
    }
}

impl<'a> Decode<'a> for DtcRecord {
    type Error = Error;

    fn decode(buf: &'a [u8]) -> Result<(Self, &'a [u8]), Error> {
        let none = Incomplete {
            needed: CODE_LEN,
            available: 0,
        };
        Self::decode_next(buf)?.ok_or(Error::InsufficientData(none))
    }
}

impl<'a> DecodeIter<'a> for DtcRecord {
    type Error = Error;
    const WIRE_SIZE: Option<usize> = Some(CODE_LEN);

    fn decode_next(buf: &'a [u8]) -> Result<Option<(Self, &'a [u8])>, Error> {
        let next = crate::next_trouble_code(buf)?;
        Ok(next.map(|(code, tail)| (code.into(), tail)))
    }
}

/// What is a byte in a message: equal to that byte, written as it and read from it.
macro_rules! one_byte {
    ($name:ident) => {
        impl PartialEq<u8> for $name {
            fn eq(&self, byte: &u8) -> bool {
                self.value() == *byte
            }
        }

        impl Encode for $name {
            type Error = Error;

            fn encode(&self, writer: &mut impl Write) -> Result<usize, Error> {
                put(writer, &[self.value()])
            }
        }

        impl<'a> Decode<'a> for $name {
            type Error = Error;

            fn decode(buf: &'a [u8]) -> Result<(Self, &'a [u8]), Error> {
                byte(buf).map(|(byte, tail)| (Self::from(byte), tail))
            }
        }
    };
}

/// How a server's trouble codes are to be understood.
#[derive(Clone, Copy, Debug, PartialEq, Eq)]
#[repr(u8)]
#[non_exhaustive]
pub enum DtcFormatIdentifier {
    /// SAE J2012-DA, format 0x00.
    SaeJ2012DaDtcFormat00 = 0x00,
    /// ISO 14229-1.
    Iso14229_1DtcFormat = 0x01,
    /// SAE J1939-73.
    SaeJ1939_73DtcFormat = 0x02,
    /// ISO 11992-4.
    Iso11992_4DtcFormat = 0x03,
    /// SAE J2012-DA, format 0x04.
    SaeJ2012DaDtcFormat04 = 0x04,
    /// Any other byte.
    IsoSaeReserved(u8),
}

impl DtcFormatIdentifier {
    /// The byte.
    #[must_use]
    pub const fn value(&self) -> u8 {
        match *self {
            Self::SaeJ2012DaDtcFormat00 => 0x00,
            Self::Iso14229_1DtcFormat => 0x01,
            Self::SaeJ1939_73DtcFormat => 0x02,
            Self::Iso11992_4DtcFormat => 0x03,
            Self::SaeJ2012DaDtcFormat04 => 0x04,
            Self::IsoSaeReserved(byte) => byte,
        }
    }
}

impl From<u8> for DtcFormatIdentifier {
    fn from(byte: u8) -> Self {
        match byte {
            0x00 => Self::SaeJ2012DaDtcFormat00,
            0x01 => Self::Iso14229_1DtcFormat,
            0x02 => Self::SaeJ1939_73DtcFormat,
            0x03 => Self::Iso11992_4DtcFormat,
            0x04 => Self::SaeJ2012DaDtcFormat04,
            0x05..=0xFF => Self::IsoSaeReserved(byte),
        }
    }
}

impl From<DtcFormatIdentifier> for u8 {
    fn from(format: DtcFormatIdentifier) -> Self {
        format.value()
    }
}

impl PartialEq<u8> for DtcFormatIdentifier {
    fn eq(&self, byte: &u8) -> bool {
        self.value() == *byte
    }
}

/// Which group of a vehicle's systems is meant.
#[derive(Clone, Copy, Debug, PartialEq, Eq)]
#[non_exhaustive]
pub enum FunctionalGroupIdentifier {
    /// Any byte that no other name has.
    IsoSaeReserved(u8),
    /// 0x33: emissions.
    EmissionsSystemGroup,
    /// 0xD0: safety.
    SafetySystemGroup,
    /// 0xD1 to 0xDF: for the legislator.
    LegislativeSystemGroup(u8),
    /// 0xFE: VOBD.
    VobdSystem,
}

impl FunctionalGroupIdentifier {
    /// The byte.
    #[must_use]
    pub const fn value(&self) -> u8 {
        match *self {
            Self::IsoSaeReserved(byte) | Self::LegislativeSystemGroup(byte) => byte,
            Self::EmissionsSystemGroup => 0x33,
            Self::SafetySystemGroup => 0xD0,
            Self::VobdSystem => 0xFE,
        }
    }
}

impl From<u8> for FunctionalGroupIdentifier {
    fn from(byte: u8) -> Self {
        match byte {
            0x33 => Self::EmissionsSystemGroup,
            0xD0 => Self::SafetySystemGroup,
            0xD1..=0xDF => Self::LegislativeSystemGroup(byte),
            0xFE => Self::VobdSystem,
            _ => Self::IsoSaeReserved(byte),
        }
    }
}

impl From<FunctionalGroupIdentifier> for u8 {
    fn from(group: FunctionalGroupIdentifier) -> Self {
        group.value()
    }
}

one_byte!(FunctionalGroupIdentifier);

/// Which stored record is meant; 0xFF means all.
#[derive(Clone, Copy, Debug, PartialEq, Eq)]
pub struct DtcStoredDataRecordNumber(u8);

impl DtcStoredDataRecordNumber {
    /// The number of a byte; every byte is one.
    #[must_use]
    pub const fn new(record_number: u8) -> Self {
        Self(record_number)
    }

    /// Whether it is 0x00, which is the legislator's.
    #[must_use]
    pub const fn is_reserved(&self) -> bool {
        self.0 == 0x00
    }

    /// The byte.
    #[must_use]
    pub const fn value(&self) -> u8 {
        self.0
    }
}

impl From<u8> for DtcStoredDataRecordNumber {
    fn from(byte: u8) -> Self {
        Self(byte)
    }
}

one_byte!(DtcStoredDataRecordNumber);
