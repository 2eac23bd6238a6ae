//! The two masks of trouble codes. A mask is a byte with a constant for each of its bits, as the original's macro makes it.
use super::codec::{byte, put};
use super::{Decode, Encode, Error, Write};
use crate::Severity;
use core::ops::{BitAnd, BitOr};

/// A mask with its constants: the type, the names and bits, and what every mask can do.
macro_rules! mask {
    ($(#[$about:meta])* $mask:ident { $($(#[$means:meta])* $name:ident = $bit:literal,)* }) => {
        $(#[$about])*
        #[derive(Clone, Copy, Debug, PartialEq, Eq)]
        pub struct $mask(u8);

        #[allow(non_upper_case_globals)]
        impl $mask {
            $($(#[$means])* pub const $name: Self = Self(1 << $bit);)*

            /// The byte.
            #[must_use]
            pub const fn bits(&self) -> u8 {
                self.0
            }

            /// Whether some bit is set in both.
            #[must_use]
            pub const fn intersects(&self, other: Self) -> bool {
                self.0 & other.0 != 0
            }
        }

        impl From<u8> for $mask {
            fn from(bits: u8) -> Self {
                Self(bits)
            }
        }

        impl BitOr for $mask {
            type Output = Self;

            fn bitor(self, other: Self) -> Self {
                Self(self.0 | other.0)
            }
        }

        impl BitAnd for $mask {
            type Output = Self;

            fn bitand(self, other: Self) -> Self {
                Self(self.0 & other.0)
            }
        }

        impl Encode for $mask {
            type Error = Error;

            fn encode(&self, writer: &mut impl Write) -> Result<usize, Error> {
                put(writer, &[self.0])
            }
        }

        impl<'a> Decode<'a> for $mask {
            type Error = Error;

            fn decode(buf: &'a [u8]) -> Result<(Self, &'a [u8]), Error> {
                byte(buf).map(|(bits, tail)| (Self(bits), tail))
            }
        }
    };
}

mask! {
    /// What became of a trouble code's tests.
    DtcStatusMask {
        /// The last test failed.
        TestFailed = 0,
        /// A test failed in this cycle.
        TestFailedThisOperationCycle = 1,
        /// A test failed in this cycle or in the one before.
        PendingDtc = 2,
        /// It failed often enough to be stored.
        ConfirmedDtc = 3,
        /// No test ended since codes were cleared.
        TestNotCompletedSinceLastClear = 4,
        /// A test failed since codes were cleared.
        TestFailedSinceLastClear = 5,
        /// No test ended in this cycle.
        TestNotCompletedThisOperationCycle = 6,
        /// A warning is to be shown.
        WarningIndicatorRequested = 7,
    }
}

mask! {
    /// How grave a trouble code is: its classes in bits 0 to 4, what to do in bits 5 to 7.
    DtcSeverityMask {
        /// Class 0: not classified.
        DtcClass0 = 0,
        /// Class 1.
        DtcClass1 = 1,
        /// Class 2.
        DtcClass2 = 2,
        /// Class 3.
        DtcClass3 = 3,
        /// Class 4.
        DtcClass4 = 4,
        /// Look after it with the next maintenance.
        MaintenanceOnly = 5,
        /// Look after it at the next halt.
        CheckAtNextHalt = 6,
        /// Look after it at once.
        CheckImmediately = 7,
    }
}

impl DtcSeverityMask {
    /// Whether it has a class.
    #[must_use]
    pub fn is_valid(&self) -> bool {
        Severity::from_bits(self.0).is_valid()
    }
}
