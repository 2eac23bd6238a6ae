//! What changed between two listings.
use crate::flat;
use crate::read::{accepted, as_small};
use crate::{Listing, Refusal, TroubleCode};
use core::fmt;
use core::iter::FusedIterator;
use core::slice::Iter;

/// What became of a code between two listings.
#[derive(Clone, Copy, Debug, PartialEq, Eq, Hash)]
pub enum Change {
    /// Only the first listing has it.
    Gone {
        /// The code.
        code: TroubleCode,
        /// Its status in the first listing.
        old: u8,
    },
    /// Its records differ: in status, severity or functional unit, or in whether these two are known. The statuses may be equal.
    Differs {
        /// The code.
        code: TroubleCode,
        /// Its status in the first listing.
        old: u8,
        /// Its status in the second.
        new: u8,
    },
    /// Only the second listing has it.
    New {
        /// The code.
        code: TroubleCode,
        /// Its status in the second listing.
        new: u8,
    },
}

impl Change {
    /// What six bytes of the library say.
    #[inline]
    fn of([change, high, middle, low, old, new]: [u8; 6]) -> Self {
        let code = TroubleCode { high, middle, low };
        match change {
            1 => Self::Gone { code, old },
            2 => Self::Differs { code, old, new },
            3 => Self::New { code, new },
            _ => unreachable!("the library writes one of the three changes"),
        }
    }
}

/// The changes between two listings: in the first's order what is gone and what differs, then in the second's what is new.
#[derive(Clone, Debug)]
pub struct Changes<'r> {
    entries: Iter<'r, [u8; 6]>,
}

impl Iterator for Changes<'_> {
    type Item = Change;

    #[inline]
    fn next(&mut self) -> Option<Change> {
        self.entries.next().copied().map(Change::of)
    }

    #[inline]
    fn size_hint(&self) -> (usize, Option<usize>) {
        self.entries.size_hint()
    }
}

impl ExactSizeIterator for Changes<'_> {}

impl FusedIterator for Changes<'_> {}

/// One of two listings.
#[derive(Clone, Copy, Debug, PartialEq, Eq, Hash)]
pub enum Which {
    /// The first.
    First,
    /// The second.
    Second,
}

/// Two listings that were not compared.
#[derive(Clone, Copy, Debug, PartialEq, Eq, Hash)]
pub struct NotCompared {
    /// [`Refusal::Repeated`] with the place of the first record whose code stood before it, or [`Refusal::NoRoom`].
    pub refusal: Refusal,
    /// The listing that is refused; none where the room is too small.
    pub which: Option<Which>,
}

impl fmt::Display for NotCompared {
    fn fmt(&self, f: &mut fmt::Formatter<'_>) -> fmt::Result {
        let listing = match self.which {
            None => "",
            Some(Which::First) => " (the first listing)",
            Some(Which::Second) => " (the second listing)",
        };
        write!(f, "{}{listing}", self.refusal)
    }
}

impl core::error::Error for NotCompared {}

impl Listing<'_> {
    /// What changed from this listing to a later one. The changes are written into the room, six bytes each, and read from there: at
    /// most one for each record of the two listings. Availability masks are not compared.
    ///
    /// # Errors
    /// [`Refusal::Repeated`] where a code stands twice in this listing, then where it does in the later one; then [`Refusal::NoRoom`].
    ///
    /// ```
    /// use skrolvind::{Change, Listing, ListingSub, NotCompared, TroubleCode};
    ///
    /// let read = |message| Listing::read(ListingSub::ByStatusMask, message).expect("both are good");
    /// let before = read(&[0x59, 0x02, 0xFF, 0x03, 0x01, 0x11, 0x2F, 0xC1, 0x00, 0x00, 0x08]);
    /// let after = read(&[0x59, 0x02, 0xFF, 0x44, 0x00, 0x00, 0x09, 0xC1, 0x00, 0x00, 0x08]);
    /// let mut room = [0; 6 * 4];
    /// let changes: Vec<_> = before.changes(&after, &mut room)?.collect();
    /// let (gone, new) = (TroubleCode { high: 3, middle: 1, low: 0x11 }, TroubleCode { high: 0x44, middle: 0, low: 0 });
    /// assert_eq!(changes, [Change::Gone { code: gone, old: 0x2F }, Change::New { code: new, new: 0x09 }]);
    /// # Ok::<(), NotCompared>(())
    /// ```
    #[inline]
    pub fn changes<'r>(
        &self,
        later: &Listing<'_>,
        room: &'r mut [u8],
    ) -> Result<Changes<'r>, NotCompared> {
        let (first, second) = (
            (self.sub.into(), self.message),
            (later.sub.into(), later.message),
        );
        let r = flat::listing_changes(first, second, room);
        let which = match r.which {
            0 => None,
            1 => Some(Which::First),
            _ => Some(Which::Second),
        };
        accepted(r.number, r.first, r.second).map_err(|refusal| NotCompared { refusal, which })?;
        let (entries, _) = room[..as_small(r.written)].as_chunks();
        Ok(Changes {
            entries: entries.iter(),
        })
    }
}
