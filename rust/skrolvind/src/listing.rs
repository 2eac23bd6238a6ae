//! Trouble-code listings: read, their records one by one, an index beside them, and codes looked up by it.
use crate::flat;
use crate::read::{accepted, as_small};
use crate::types::of_byte;
use crate::write::count;
use crate::{Refusal, Severity, TroubleCode};
use core::iter::FusedIterator;

pub use crate::flat::CodeRecord;

/// Which question a listing answers, and with it a record's form.
#[derive(Clone, Copy, Debug, PartialEq, Eq, Hash)]
#[repr(u8)]
pub enum ListingSub {
    /// 0x02: three code bytes and a status byte.
    ByStatusMask = 0x02,
    /// 0x08: severity, functional unit, three code bytes and a status byte.
    BySeverityMask = 0x08,
}

impl ListingSub {
    /// The sub-function that has this number.
    #[must_use]
    pub const fn from_number(number: u64) -> Option<Self> {
        match number {
            0x02 => Some(Self::ByStatusMask),
            0x08 => Some(Self::BySeverityMask),
            _ => None,
        }
    }
}

of_byte!(ListingSub, |_| Refusal::UnknownService { place: 0 });

/// What a listing of 0x08 has before each code.
#[derive(Clone, Copy, Debug, PartialEq, Eq, Hash)]
pub struct Rating {
    /// How grave the code is.
    pub severity: Severity,
    /// The functional unit.
    pub unit: u8,
}

/// A record of a listing.
#[derive(Clone, Copy, Debug, PartialEq, Eq, Hash)]
pub struct Listed {
    /// Severity and functional unit, which are known together or not at all: in a listing of 0x08 they are, in one of 0x02 not.
    pub rating: Option<Rating>,
    /// The trouble code.
    pub code: TroubleCode,
    /// Its status byte.
    pub status: u8,
}

/// What is read can be handed over. Where severity and functional unit are unknown, both bytes are 0.
impl From<Listed> for CodeRecord {
    #[inline]
    fn from(record: Listed) -> Self {
        let Listed {
            rating,
            code: TroubleCode { high, middle, low },
            status,
        } = record;
        let (severity, unit) = rating.map_or((0, 0), |known| (known.severity.bits(), known.unit));
        Self {
            known: rating.is_some().into(),
            severity,
            unit,
            high,
            middle,
            low,
            status,
        }
    }
}

/// What is handed over, as it would be read: the mark decides whether severity and functional unit are known.
impl From<CodeRecord> for Listed {
    #[inline]
    fn from(record: CodeRecord) -> Self {
        let CodeRecord {
            known,
            severity,
            unit,
            high,
            middle,
            low,
            status,
        } = record;
        let rating = Rating {
            severity: Severity::from_bits(severity),
            unit,
        };
        Self {
            rating: (known != 0).then_some(rating),
            code: TroubleCode { high, middle, low },
            status,
        }
    }
}

/// A listing that was read: it stays in its message, which it keeps.
///
/// ```
/// use skrolvind::{Listing, ListingSub, Refusal};
///
/// let message = [0x59, 0x02, 0xFF, 0x03, 0x01, 0x11, 0x2F, 0xC1, 0x00, 0x00, 0x08, 0x03, 0x01, 0x11, 0x09];
/// let listing = Listing::read(ListingSub::ByStatusMask, &message)?;
/// for record in &listing {
///     println!("{}, status {:02x}", record.code, record.status);
/// }
/// assert_eq!((listing.len(), listing.mask()), (3, 0xFF));
/// let index = listing.index();
/// assert_eq!((index.counts()[0x03], index.firsts()[0xC1]), (2, 1));
/// let code = listing.record(2).expect("there are three").code;
/// let (place, record) = index.get(code)?.expect("it is there");
/// assert_eq!((place, record.status), (0, 0x2F));
/// # Ok::<(), Refusal>(())
/// ```
#[derive(Clone, Copy, Debug, PartialEq, Eq, Hash)]
pub struct Listing<'a> {
    pub(crate) sub: ListingSub,
    pub(crate) message: &'a [u8],
    mask: u8,
    len: usize,
}

impl<'a> Listing<'a> {
    /// Reads a listing.
    ///
    /// # Errors
    /// [`Refusal::TooShort`] for fewer than 3 bytes, [`Refusal::UnknownService`] for other first bytes than 0x59 and the sub-function,
    /// [`Refusal::TooMany`] for more than 4,096 whole records, [`Refusal::Cut`] for a piece after the last one.
    #[inline]
    pub fn read(sub: ListingSub, message: &'a [u8]) -> Result<Self, Refusal> {
        let r = flat::read_listing(sub.into(), message);
        accepted(r.number, r.first, r.second)?;
        Ok(Self {
            sub,
            message,
            mask: as_small(r.mask),
            len: as_small(r.count),
        })
    }

    /// Which question it answers.
    #[must_use]
    pub const fn sub(&self) -> ListingSub {
        self.sub
    }

    /// The availability mask.
    #[must_use]
    pub const fn mask(&self) -> u8 {
        self.mask
    }

    /// How many records there are.
    #[must_use]
    pub const fn len(&self) -> usize {
        self.len
    }

    /// Whether there is no record.
    #[must_use]
    pub const fn is_empty(&self) -> bool {
        self.len == 0
    }

    /// The record at a place, counted from 0; none past the last one.
    #[must_use]
    #[inline]
    pub fn record(&self, place: usize) -> Option<Listed> {
        let r = flat::listing_record(self.sub.into(), self.message, place);
        (r.found != 0).then(|| {
            listed([
                r.known, r.severity, r.unit, r.high, r.middle, r.low, r.status,
            ])
        })
    }

    /// The records in their order.
    #[must_use]
    pub const fn records(&self) -> Records<'a> {
        Records {
            listing: *self,
            next: 0,
        }
    }

    /// The index of this listing.
    #[must_use]
    #[inline]
    pub fn index(&self) -> Index<'a> {
        let r = flat::listing_index(self.sub.into(), self.message);
        Index {
            listing: *self,
            counts: r.counts,
            firsts: r.firsts,
        }
    }
}

impl<'a> IntoIterator for &Listing<'a> {
    type Item = Listed;
    type IntoIter = Records<'a>;

    #[inline]
    fn into_iter(self) -> Records<'a> {
        self.records()
    }
}

/// A record from its numbers, in the order in which one is handed over.
#[inline]
fn listed([known, severity, unit, high, middle, low, status]: [u64; 7]) -> Listed {
    Listed::from(CodeRecord {
        known: as_small(known),
        severity: as_small(severity),
        unit: as_small(unit),
        high: as_small(high),
        middle: as_small(middle),
        low: as_small(low),
        status: as_small(status),
    })
}

/// The records of a listing, one after the other.
#[derive(Clone, Debug)]
pub struct Records<'a> {
    listing: Listing<'a>,
    next: usize,
}

impl Iterator for Records<'_> {
    type Item = Listed;

    #[inline]
    fn next(&mut self) -> Option<Listed> {
        let record = self.listing.record(self.next)?;
        self.next += 1;
        Some(record)
    }

    #[inline]
    fn size_hint(&self) -> (usize, Option<usize>) {
        let left = self.listing.len.saturating_sub(self.next);
        (left, Some(left))
    }
}

impl ExactSizeIterator for Records<'_> {}

impl FusedIterator for Records<'_> {}

/// The index beside a listing: for each high byte, how many records have it and the place of the first.
#[derive(Clone, Copy, Debug, PartialEq, Eq)]
pub struct Index<'a> {
    listing: Listing<'a>,
    counts: [u32; 256],
    firsts: [u32; 256],
}

impl<'a> Index<'a> {
    /// An index that was kept elsewhere, beside the listing that it is said to belong to.
    #[must_use]
    pub const fn kept(listing: Listing<'a>, counts: [u32; 256], firsts: [u32; 256]) -> Self {
        Self {
            listing,
            counts,
            firsts,
        }
    }

    /// How many records have each high byte.
    #[must_use]
    pub const fn counts(&self) -> &[u32; 256] {
        &self.counts
    }

    /// The place of the first of them, 0 where there is none.
    #[must_use]
    pub const fn firsts(&self) -> &[u32; 256] {
        &self.firsts
    }

    /// The first record that has the code and its place, or none where no record has it.
    ///
    /// # Errors
    /// [`Refusal::OutOfRange`] for an index that is not this listing's own: only one that was kept elsewhere can be.
    #[inline]
    pub fn get(&self, code: TroubleCode) -> Result<Option<(usize, Listed)>, Refusal> {
        let Listing { sub, message, .. } = self.listing;
        let r = flat::listing_lookup(sub.into(), message, &self.counts, &self.firsts, code);
        match accepted(r.number, r.first, r.second) {
            Ok(()) => {
                let record = listed([
                    r.known, r.severity, r.unit, r.high, r.middle, r.low, r.status,
                ]);
                Ok(Some((as_small(r.place), record)))
            }
            Err(Refusal::NoSuchCode) => Ok(None),
            Err(refusal) => Err(refusal),
        }
    }
}

/// Writes a listing from records that are handed over (`CodeRecord::from` of a [`Listed`]).
///
/// # Errors
/// [`Refusal::TooMany`] for more than 4,096 records; [`Refusal::OutOfRange`] with the place of the first record whose severity is known
/// where a listing of 0x02 is to be written, or unknown where one of 0x08 is; and last [`Refusal::NoRoom`].
///
/// ```
/// use skrolvind::{CodeRecord, Listing, ListingSub, Refusal, write_listing};
///
/// let message = [0x59, 0x08, 0xFF, 0x81, 0x05, 0x03, 0x01, 0x11, 0x2F, 0x20, 0x05, 0xC1, 0x00, 0x00, 0x08];
/// let listing = Listing::read(ListingSub::BySeverityMask, &message)?;
/// let rating = listing.record(1).and_then(|record| record.rating).expect("0x08 has it");
/// assert!(rating.severity.maintenance_only() && !rating.severity.is_valid());
/// let mut records = [CodeRecord::default(); 2];
/// for (handed, read) in records.iter_mut().zip(listing.records()) {
///     *handed = read.into();
/// }
/// let mut room = [0; 15];
/// assert_eq!(write_listing(ListingSub::BySeverityMask, 0xFF, &records, &mut room)?, 15);
/// assert_eq!(room, message);
/// // the second record loses its severity
/// records[1].known = 0;
/// let refused = write_listing(ListingSub::BySeverityMask, 0xFF, &records, &mut room);
/// assert_eq!(refused, Err(Refusal::OutOfRange { place: 1 }));
/// # Ok::<(), Refusal>(())
/// ```
#[inline]
pub fn write_listing(
    sub: ListingSub,
    mask: u8,
    records: &[CodeRecord],
    room: &mut [u8],
) -> Result<usize, Refusal> {
    let records = flat::record_bytes(records);
    count(flat::write_listing(sub.into(), mask, records, room))
}
