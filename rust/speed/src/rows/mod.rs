//! The rows of the table, by their subjects: the original called as itself, and this port through its binding.
mod codes;
mod listings;
mod names;
mod records;
mod refusals;
mod requests;
mod responses;
mod routines;

use crate::row::Row;
use crate::same::Read;
use oracle::itself::Encode;

/// All of them, in the order in which they are printed.
pub fn rows() -> Vec<Row> {
    [
        requests::rows(),
        responses::rows(),
        routines::rows(),
        refusals::rows(),
        codes::rows(),
        names::rows(),
        records::rows(),
        listings::rows(),
    ]
    .into_iter()
    .flatten()
    .collect()
}

/// How the original writes a value, here beside the tail with which it was read.
fn encoded<V: Encode>((value, _): &Read<V>, room: &mut [u8]) -> Result<usize, V::Error> {
    value.encode(&mut &mut *room)
}
