//! What a byte is called, on every byte.
use super::{is, refused, short};
use crate::uds_protocol::{
    DataFormatIdentifier, DtcFormatIdentifier as Format, DtcSeverityMask as Severity,
    DtcStatusMask as Status, DtcStoredDataRecordNumber as RecordNumber, Error,
    FileOperationMode as Mode, FunctionalGroupIdentifier as Group,
};

/// Of all bytes, the name is equal to this one alone.
fn equal_to<T: PartialEq<u8>>(name: &T, byte: u8) {
    for other in 0..=255 {
        assert_eq!(*name == other, other == byte);
    }
}

#[test]
fn modes() {
    for byte in 0..=255 {
        let wanted = match byte {
            1 => Mode::AddFile,
            2 => Mode::DeleteFile,
            3 => Mode::ReplaceFile,
            4 => Mode::ReadFile,
            5 => Mode::ReadDir,
            6 => Mode::ResumeFile,
            _ => Mode::IsoSaeReserved(byte),
        };
        let mode = Mode::from(byte);
        assert_eq!(mode, wanted);
        assert_eq!((mode.value(), u8::from(mode)), (byte, byte));
        equal_to(&mode, byte);
        // what is held as reserved is not the name, and has its byte
        let reserved = Mode::IsoSaeReserved(byte);
        assert_eq!(reserved == mode, !(1..=6).contains(&byte));
        equal_to(&reserved, byte);
    }
    const VALUE: u8 = Mode::ResumeFile.value();
    assert_eq!(VALUE, 6);
}

#[test]
fn formats_of_codes() {
    for byte in 0..=255 {
        let wanted = match byte {
            0 => Format::SaeJ2012DaDtcFormat00,
            1 => Format::Iso14229_1DtcFormat,
            2 => Format::SaeJ1939_73DtcFormat,
            3 => Format::Iso11992_4DtcFormat,
            4 => Format::SaeJ2012DaDtcFormat04,
            _ => Format::IsoSaeReserved(byte),
        };
        let format = Format::from(byte);
        assert_eq!(format, wanted);
        assert_eq!((format.value(), u8::from(format)), (byte, byte));
        equal_to(&format, byte);
        equal_to(&Format::IsoSaeReserved(byte), byte);
    }
    const VALUE: u8 = Format::Iso11992_4DtcFormat.value();
    assert_eq!(VALUE, 3);
}

#[test]
fn groups() {
    for byte in 0..=255 {
        let wanted = match byte {
            0x33 => Group::EmissionsSystemGroup,
            0xD0 => Group::SafetySystemGroup,
            0xD1..=0xDF => Group::LegislativeSystemGroup(byte),
            0xFE => Group::VobdSystem,
            _ => Group::IsoSaeReserved(byte),
        };
        let group = Group::from(byte);
        assert_eq!(group, wanted);
        assert_eq!((group.value(), u8::from(group)), (byte, byte));
        equal_to(&group, byte);
        equal_to(&Group::LegislativeSystemGroup(byte), byte);
        is(&group, &[byte]);
    }
    refused::<Group>(&[], short(1, 0));
    const VALUE: u8 = Group::VobdSystem.value();
    assert_eq!(VALUE, 0xFE);
}

#[test]
fn names_of_which_there_may_be_more() {
    #[deny(unreachable_patterns)]
    fn known(mode: Mode, format: Format, group: Group) -> [bool; 3] {
        let mode = match mode {
            Mode::AddFile | Mode::DeleteFile | Mode::ReplaceFile => true,
            Mode::ReadFile | Mode::ReadDir | Mode::ResumeFile => true,
            Mode::IsoSaeReserved(_) => false,
            _ => false,
        };
        let format = match format {
            Format::SaeJ2012DaDtcFormat00 | Format::SaeJ2012DaDtcFormat04 => true,
            Format::Iso14229_1DtcFormat | Format::Iso11992_4DtcFormat => true,
            Format::SaeJ1939_73DtcFormat => true,
            Format::IsoSaeReserved(_) => false,
            _ => false,
        };
        let group = match group {
            Group::EmissionsSystemGroup | Group::SafetySystemGroup | Group::VobdSystem => true,
            Group::LegislativeSystemGroup(_) => true,
            Group::IsoSaeReserved(_) => false,
            _ => false,
        };
        [mode, format, group]
    }
    let known = |byte: u8| known(byte.into(), byte.into(), byte.into());
    assert_eq!(known(0x02), [true, true, false]);
    assert_eq!(known(0xD7), [false, false, true]);
}

#[test]
fn record_numbers() {
    for byte in 0..=255 {
        let number = RecordNumber::new(byte);
        assert_eq!(number, RecordNumber::from(byte));
        assert_eq!(number.value(), byte);
        assert_eq!(number.is_reserved(), byte == 0);
        equal_to(&number, byte);
        is(&number, &[byte]);
    }
    refused::<RecordNumber>(&[], short(1, 0));
    const { assert!(RecordNumber::new(0).is_reserved()) }
}

#[test]
fn format_bytes() {
    for byte in 0..=255 {
        let format = DataFormatIdentifier::from(byte);
        assert_eq!((format.value(), u8::from(format)), (byte, byte));
        let (high, low) = (byte / 16, byte % 16);
        assert_eq!(format.compression_method(), high);
        assert_eq!(format.encryption_method(), low);
        assert_eq!(DataFormatIdentifier::new(high, low), Ok(format));
        equal_to(&format, byte);
    }
    assert_eq!(DataFormatIdentifier::NONE, DataFormatIdentifier::from(0));
    const FORMAT: u8 = match DataFormatIdentifier::new(1, 2) {
        Ok(format) => format.value(),
        Err(_) => panic!(),
    };
    assert_eq!(FORMAT, 0x12);
}

#[test]
fn methods_that_are_no_half_of_a_byte() {
    let refused = |method| Err(Error::InvalidEncryptionCompressionMethod(method));
    for more in 16..=255 {
        assert_eq!(DataFormatIdentifier::new(more, 0), refused(more));
        assert_eq!(DataFormatIdentifier::new(15, more), refused(more));
        assert_eq!(DataFormatIdentifier::new(more, 255), refused(more));
    }
}

#[test]
fn status_masks() {
    let named = [
        Status::TestFailed,
        Status::TestFailedThisOperationCycle,
        Status::PendingDtc,
        Status::ConfirmedDtc,
        Status::TestNotCompletedSinceLastClear,
        Status::TestFailedSinceLastClear,
        Status::TestNotCompletedThisOperationCycle,
        Status::WarningIndicatorRequested,
    ];
    for byte in 0..=255 {
        let mask = Status::from(byte);
        assert_eq!(mask.bits(), byte);
        for (bit, named) in named.iter().enumerate() {
            assert_eq!(named.bits(), 1 << bit);
            assert_eq!(mask.intersects(*named), byte >> bit & 1 == 1);
        }
        for other in 0..=255 {
            assert_eq!((mask | Status::from(other)).bits(), byte | other);
            assert_eq!((mask & Status::from(other)).bits(), byte & other);
            assert_eq!(mask.intersects(other.into()), byte & other != 0);
        }
        is(&mask, &[byte]);
    }
    refused::<Status>(&[], short(1, 0));
    assert_eq!(Status::TestFailed | Status::PendingDtc, Status::from(0x05));
}

#[test]
fn severity_masks() {
    let named = [
        Severity::DtcClass0,
        Severity::DtcClass1,
        Severity::DtcClass2,
        Severity::DtcClass3,
        Severity::DtcClass4,
        Severity::MaintenanceOnly,
        Severity::CheckAtNextHalt,
        Severity::CheckImmediately,
    ];
    for byte in 0..=255 {
        let mask = Severity::from(byte);
        assert_eq!(mask.bits(), byte);
        assert_eq!(mask.is_valid(), byte & 0x1F != 0);
        for (bit, named) in named.iter().enumerate() {
            assert_eq!(named.bits(), 1 << bit);
            assert_eq!(mask.intersects(*named), byte >> bit & 1 == 1);
        }
        for other in 0..=255 {
            assert_eq!((mask | Severity::from(other)).bits(), byte | other);
            assert_eq!((mask & Severity::from(other)).bits(), byte & other);
            assert_eq!(mask.intersects(other.into()), byte & other != 0);
        }
        is(&mask, &[byte]);
    }
    refused::<Severity>(&[], short(1, 0));
    assert!(!(Severity::CheckAtNextHalt | Severity::CheckImmediately).is_valid());
}
