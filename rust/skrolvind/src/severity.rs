//! What the severity byte of a trouble code says.

/// How grave a trouble code is: its classes in bits 0 to 4, and what to do in bits 5 to 7. No byte is refused.
///
/// ```
/// use skrolvind::Severity;
///
/// let severity = Severity::from_bits(0x82);
/// assert!(severity.is_valid() && severity.has_class(1) && severity.check_immediately());
/// assert!(!Severity::from_bits(0x80).is_valid());
/// ```
#[derive(Clone, Copy, Debug, PartialEq, Eq, Hash)]
pub struct Severity {
    bits: u8,
}

impl Severity {
    /// The severity of a byte.
    #[must_use]
    pub const fn from_bits(bits: u8) -> Self {
        Self { bits }
    }

    /// Its byte.
    #[must_use]
    pub const fn bits(self) -> u8 {
        self.bits
    }

    const fn has(self, bits: u8) -> bool {
        self.bits & bits != 0
    }

    /// Whether it names at least one class.
    #[must_use]
    pub const fn is_valid(self) -> bool {
        self.has(0x1F)
    }

    /// Whether it names this class, of 0 to 4; no other can be named.
    #[must_use]
    pub const fn has_class(self, class: u8) -> bool {
        class <= 4 && self.has(1 << class)
    }

    /// Whether maintenance is enough.
    #[must_use]
    pub const fn maintenance_only(self) -> bool {
        self.has(0x20)
    }

    /// Whether the coach is to be checked at the next halt.
    #[must_use]
    pub const fn check_at_next_halt(self) -> bool {
        self.has(0x40)
    }

    /// Whether the coach is to be checked at once.
    #[must_use]
    pub const fn check_immediately(self) -> bool {
        self.has(0x80)
    }
}

impl From<u8> for Severity {
    #[inline]
    fn from(bits: u8) -> Self {
        Self::from_bits(bits)
    }
}

impl From<Severity> for u8 {
    #[inline]
    fn from(severity: Severity) -> Self {
        severity.bits
    }
}
