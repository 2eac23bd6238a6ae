//! Document 02's Req 11 in plain Rust: what changed between two listings.
use crate::listing_model::{self as listing, Answer, Code, Record};
use oracle::plain::Refusal;

/// A listing behind its sub-function.
pub type Handed<'a> = (u8, &'a [u8]);
/// A code, its old status and its new one, 0 for the one that is missing, behind 1 gone, 2 differs or 3 new.
pub type Entry = [u8; 6];

/// The records of a listing in which no code stands twice.
fn distinct((sub, message): Handed<'_>) -> Answer<Vec<Record>> {
    let records = listing::read(sub, message)?.records;
    let stood_before = |place: &usize| with(&records[..*place], records[*place].code).is_some();
    match (0..records.len()).find(stood_before) {
        Some(place) => Err(Refusal::new(17, place as u64, 0)),
        None => Ok(records),
    }
}

fn with(records: &[Record], code: Code) -> Option<&Record> {
    records.iter().find(|record| record.code == code)
}

fn entry(change: u8, [high, middle, low]: Code, old: u8, new: u8) -> Entry {
    [change, high, middle, low, old, new]
}

/// The entries; or which listing is refused, 1 or 2, and the refusal.
pub fn changes(first: Handed<'_>, second: Handed<'_>) -> Result<Vec<Entry>, (u64, Refusal)> {
    let old = distinct(first).map_err(|refusal| (1, refusal))?;
    let new = distinct(second).map_err(|refusal| (2, refusal))?;
    let mut entries = vec![];
    for before in &old {
        match with(&new, before.code) {
            None => entries.push(entry(1, before.code, before.status, 0)),
            Some(after) if after != before => {
                entries.push(entry(2, before.code, before.status, after.status));
            }
            Some(_) => {}
        }
    }
    let is_new = |after: &&Record| with(&old, after.code).is_none();
    let added = new.iter().filter(is_new);
    entries.extend(added.map(|after| entry(3, after.code, 0, after.status)));
    Ok(entries)
}
