//! Document 02's Req 09 and Req 10 in plain Rust: listings, their index, lookups and writing.
use oracle::plain::Refusal;

pub type Answer<T> = Result<T, Refusal>;
pub type Code = [u8; 3];

/// Severity and functional unit where they are known, the code and the status.
#[derive(Clone, Copy, Debug, PartialEq)]
pub struct Record {
    pub rating: Option<[u8; 2]>,
    pub code: Code,
    pub status: u8,
}

impl Record {
    /// From the bytes of a record of 0x02 or of 0x08, or from seven that are handed over.
    pub fn of(bytes: &[u8]) -> Self {
        let (rating, code, status) = match *bytes {
            [high, middle, low, status] => (None, [high, middle, low], status),
            [severity, unit, high, middle, low, status] => {
                (Some([severity, unit]), [high, middle, low], status)
            }
            [known, severity, unit, high, middle, low, status] => {
                let rating = (known != 0).then_some([severity, unit]);
                (rating, [high, middle, low], status)
            }
            _ => unreachable!("a record has four, six or seven bytes"),
        };
        Self {
            rating,
            code,
            status,
        }
    }

    /// Its bytes in a listing.
    pub fn bytes(&self) -> Vec<u8> {
        let rating = self.rating.as_ref().map_or(&[][..], |both| both);
        [rating, &self.code, &[self.status]].concat()
    }
}

#[derive(Clone, Debug, PartialEq)]
pub struct Listing {
    pub mask: u8,
    pub records: Vec<Record>,
}

/// For each high byte how many records have it, and the place of the first.
#[derive(Clone, Debug, PartialEq)]
pub struct Index {
    pub counts: Vec<u32>,
    pub firsts: Vec<u32>,
}

/// How many bytes a record of this sub-function has.
fn size(sub: u8) -> Answer<usize> {
    match sub {
        0x02 => Ok(4),
        0x08 => Ok(6),
        _ => Err(Refusal::new(15, 0, 0)),
    }
}

/// The records of so many bytes each: too many first, then a cut one.
fn records(bytes: &[u8], size: usize) -> Answer<Vec<Record>> {
    let pieces = bytes.chunks_exact(size);
    if pieces.len() > 4096 {
        return Err(Refusal::new(12, 0, 0));
    }
    if !pieces.remainder().is_empty() {
        return Err(Refusal::new(10, 0, 0));
    }
    Ok(pieces.map(Record::of).collect())
}

pub fn read(sub: u8, message: &[u8]) -> Answer<Listing> {
    let size = size(sub)?;
    let [answer, asked, mask, rest @ ..] = message else {
        return Err(Refusal::new(1, 3, message.len() as u64));
    };
    if [*answer, *asked] != [0x59, sub] {
        return Err(Refusal::new(15, 0, 0));
    }
    Ok(Listing {
        mask: *mask,
        records: records(rest, size)?,
    })
}

pub fn index(records: &[Record]) -> Index {
    let has = |high: u8| move |record: &Record| record.code[0] == high;
    let count = |high| records.iter().filter(|record| has(high)(record)).count() as u32;
    let first = |high| records.iter().position(has(high)).unwrap_or(0) as u32;
    Index {
        counts: (0..=255).map(count).collect(),
        firsts: (0..=255).map(first).collect(),
    }
}

/// The first record that has the code, and its place.
pub fn look_up(sub: u8, message: &[u8], kept: &Index, code: Code) -> Answer<(usize, Record)> {
    let records = read(sub, message)?.records;
    if *kept != index(&records) {
        return Err(Refusal::new(11, 0, 0));
    }
    let place = records.iter().position(|record| record.code == code);
    let place = place.ok_or(Refusal::new(16, 0, 0))?;
    Ok((place, records[place]))
}

/// A listing from its mask and its records.
pub fn message(sub: u8, mask: u8, records: &[Record]) -> Vec<u8> {
    let records: Vec<u8> = records.iter().flat_map(Record::bytes).collect();
    [&[0x59, sub, mask], &records[..]].concat()
}

pub fn write(sub: u8, mask: u8, handed: &[u8]) -> Answer<Vec<u8>> {
    size(sub)?;
    let records = records(handed, 7)?;
    let must_be_known = sub == 0x08;
    let unfit = |record: &Record| record.rating.is_some() != must_be_known;
    match records.iter().position(unfit) {
        Some(place) => Err(Refusal::new(11, place as u64, 0)),
        None => Ok(message(sub, mask, &records)),
    }
}
