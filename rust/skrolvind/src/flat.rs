//! The C functions as `include/skrolvind.h` has them, over slices: flat records, numbers for kinds and sub-functions, sizes in two
//! halves. All the unsafe code of this crate is here. The functions of the crate's root are the ones to use; these are for those
//! who want the very records. Each record has the fields of the header, under the names that they have there, and the header says what
//! they are: first the three numbers of a refusal, all 0 where the call is accepted.
#![allow(unsafe_code)]
#![allow(
    missing_docs,
    reason = "fields and C functions are the header's, which says what they are"
)]
use crate::read::part;
use core::mem::offset_of;

/// A file transfer message that was read.
#[repr(C)]
#[derive(Clone, Copy, Debug, Default, PartialEq, Eq)]
pub struct FileTransfer {
    pub number: u64,
    pub first: u64,
    pub second: u64,
    pub kind: u64,
    pub start: u64,
    pub len: u64,
    pub format: u64,
    pub uncompressed_high: u64,
    pub uncompressed_low: u64,
    pub compressed_high: u64,
    pub compressed_low: u64,
    pub position: u64,
    pub tail: u64,
}

/// A routine message that was read.
#[repr(C)]
#[derive(Clone, Copy, Debug, Default, PartialEq, Eq)]
pub struct Routine {
    pub number: u64,
    pub first: u64,
    pub second: u64,
    pub suppress: u64,
    pub sub_function: u64,
    pub identifier: u64,
    pub start: u64,
    pub len: u64,
}

/// What a writer did.
#[repr(C)]
#[derive(Clone, Copy, Debug, Default, PartialEq, Eq)]
pub struct Written {
    pub number: u64,
    pub first: u64,
    pub second: u64,
    pub written: u64,
}

/// What a rewriting did: how many bytes it wrote, and where the message that it read ends.
#[repr(C)]
#[derive(Clone, Copy, Debug, Default, PartialEq, Eq)]
pub struct Rewritten {
    pub number: u64,
    pub first: u64,
    pub second: u64,
    pub written: u64,
    pub tail: u64,
}

/// The desk's answer.
#[repr(C)]
#[derive(Clone, Copy, Debug, Default, PartialEq, Eq)]
pub struct Desk {
    pub number: u64,
    pub first: u64,
    pub second: u64,
}

/// What is answered to a batch of messages: the three numbers and nothing more.
pub type Batch = Desk;

/// What a joined buffer is taken apart to: how many requests there are, or beside a refusal how many were found before it.
#[repr(C)]
#[derive(Clone, Copy, Debug, Default, PartialEq, Eq)]
pub struct Split {
    pub number: u64,
    pub first: u64,
    pub second: u64,
    pub count: u64,
}

/// Why a file transfer message is refused: the field that stopped it, 0 where none did, and where it begins.
#[repr(C)]
#[derive(Clone, Copy, Debug, Default, PartialEq, Eq)]
pub struct Why {
    pub number: u64,
    pub first: u64,
    pub second: u64,
    pub field: u64,
    pub offset: u64,
}

/// A trouble code.
#[repr(C)]
#[derive(Clone, Copy, Debug, Default, PartialEq, Eq)]
pub struct TroubleCode {
    pub number: u64,
    pub first: u64,
    pub second: u64,
    pub high: u64,
    pub middle: u64,
    pub low: u64,
}

/// The next trouble code of a list.
#[repr(C)]
#[derive(Clone, Copy, Debug, Default, PartialEq, Eq)]
pub struct NextTroubleCode {
    pub number: u64,
    pub first: u64,
    pub second: u64,
    pub found: u64,
    pub high: u64,
    pub middle: u64,
    pub low: u64,
    pub tail: u64,
}

/// A sheet of records counted.
#[repr(C)]
#[derive(Clone, Copy, Debug, PartialEq, Eq)]
pub struct Tally {
    pub number: u64,
    pub first: u64,
    pub second: u64,
    pub cells: [u32; 120],
}

/// The state of a recorded transfer, or beside a refusal the state before it.
#[repr(C)]
#[derive(Clone, Copy, Debug, Default, PartialEq, Eq)]
pub struct Replay {
    pub number: u64,
    pub first: u64,
    pub second: u64,
    pub open: u64,
    pub has_last: u64,
    pub last: u64,
    pub repeats: u64,
    pub total: u64,
}

/// A whole message that was read: its service byte, and the fields of its sort.
#[repr(C)]
#[derive(Clone, Copy, Debug, Default, PartialEq, Eq)]
pub struct Message {
    pub number: u64,
    pub first: u64,
    pub second: u64,
    pub service: u64,
    pub kind: u64,
    pub start: u64,
    pub len: u64,
    pub format: u64,
    pub uncompressed_high: u64,
    pub uncompressed_low: u64,
    pub compressed_high: u64,
    pub compressed_low: u64,
    pub position: u64,
    pub tail: u64,
    pub suppress: u64,
    pub sub_function: u64,
    pub identifier: u64,
    pub negative_service: u64,
    pub code: u64,
    pub listed: u64,
}

/// The head of a listing.
#[repr(C)]
#[derive(Clone, Copy, Debug, Default, PartialEq, Eq)]
pub struct Head {
    pub number: u64,
    pub first: u64,
    pub second: u64,
    pub mask: u64,
    pub count: u64,
}

/// A record of a listing.
#[repr(C)]
#[derive(Clone, Copy, Debug, Default, PartialEq, Eq)]
pub struct Listed {
    pub number: u64,
    pub first: u64,
    pub second: u64,
    pub found: u64,
    pub known: u64,
    pub severity: u64,
    pub unit: u64,
    pub high: u64,
    pub middle: u64,
    pub low: u64,
    pub status: u64,
}

/// The index of a listing, by high byte.
#[repr(C)]
#[derive(Clone, Copy, Debug, PartialEq, Eq)]
pub struct Index {
    pub number: u64,
    pub first: u64,
    pub second: u64,
    pub counts: [u32; 256],
    pub firsts: [u32; 256],
}

/// The first record that has a code, and its place.
#[repr(C)]
#[derive(Clone, Copy, Debug, Default, PartialEq, Eq)]
pub struct Found {
    pub number: u64,
    pub first: u64,
    pub second: u64,
    pub place: u64,
    pub known: u64,
    pub severity: u64,
    pub unit: u64,
    pub high: u64,
    pub middle: u64,
    pub low: u64,
    pub status: u64,
}

/// A record as it is handed over to be written, seven bytes.
#[repr(C)]
#[derive(Clone, Copy, Debug, Default, PartialEq, Eq, Hash)]
pub struct CodeRecord {
    /// 0 says that severity and functional unit are unknown, whatever the two are; any other, that they are known.
    pub known: u8,
    /// The severity byte.
    pub severity: u8,
    /// The functional unit.
    pub unit: u8,
    /// The first byte of the code.
    pub high: u8,
    /// Its second byte.
    pub middle: u8,
    /// Its third byte.
    pub low: u8,
    /// The status byte.
    pub status: u8,
}

// the very form that the library takes
const _: () = {
    assert!(size_of::<CodeRecord>() == 7 && align_of::<CodeRecord>() == 1);
    assert!(offset_of!(CodeRecord, known) == 0);
    assert!(offset_of!(CodeRecord, severity) == 1);
    assert!(offset_of!(CodeRecord, unit) == 2);
    assert!(offset_of!(CodeRecord, high) == 3);
    assert!(offset_of!(CodeRecord, middle) == 4);
    assert!(offset_of!(CodeRecord, low) == 5);
    assert!(offset_of!(CodeRecord, status) == 6);
};

/// The bytes of records that are handed over.
#[must_use]
#[inline]
pub const fn record_bytes(records: &[CodeRecord]) -> &[u8] {
    let bytes = records.as_ptr().cast();
    // SAFETY: a record is bytes and nothing between them, as is checked above, and all of these are lent as long as the records.
    unsafe { core::slice::from_raw_parts(bytes, size_of_val(records)) }
}

/// What changed between two listings: how many bytes of entries there are, and beside a refusal which listing it is.
#[repr(C)]
#[derive(Clone, Copy, Debug, Default, PartialEq, Eq)]
pub struct Changes {
    pub number: u64,
    pub first: u64,
    pub second: u64,
    pub which: u64,
    pub written: u64,
}

/// The two sizes of a message to be written, in halves.
#[derive(Clone, Copy, Debug, Default, PartialEq, Eq)]
pub struct Sizes {
    pub uncompressed_high: u64,
    pub uncompressed_low: u64,
    pub compressed_high: u64,
    pub compressed_low: u64,
}

impl Sizes {
    /// Takes two sizes apart.
    #[must_use]
    pub const fn new(uncompressed: u128, compressed: u128) -> Self {
        Self {
            uncompressed_high: (uncompressed >> 64) as u64,
            uncompressed_low: uncompressed as u64,
            compressed_high: (compressed >> 64) as u64,
            compressed_low: compressed as u64,
        }
    }
}

/// The C functions themselves, over pointers: for those who have to hand over what no slice can be.
pub mod c {
    use super::{
        Batch, Changes, Desk, FileTransfer, Found, Head, Index, Listed, Message, NextTroubleCode,
        Replay, Rewritten, Routine, Split, Tally, TroubleCode, Why, Written,
    };

    unsafe extern "C" {
        pub fn skr_read_request(message: *const u8, message_len: usize) -> FileTransfer;
        pub fn skr_read_response(message: *const u8, message_len: usize) -> FileTransfer;
        pub fn skr_read_routine_request(message: *const u8, message_len: usize) -> Routine;
        pub fn skr_read_routine_response(message: *const u8, message_len: usize) -> Routine;
        pub fn skr_write_request(
            kind: u8,
            name: *const u8,
            name_len: usize,
            format: u8,
            uncompressed_high: u64,
            uncompressed_low: u64,
            compressed_high: u64,
            compressed_low: u64,
            room: *mut u8,
            room_len: usize,
        ) -> Written;
        pub fn skr_write_response(
            kind: u8,
            block: *const u8,
            block_len: usize,
            format: u8,
            uncompressed_high: u64,
            uncompressed_low: u64,
            compressed_high: u64,
            compressed_low: u64,
            position: u64,
            room: *mut u8,
            room_len: usize,
        ) -> Written;
        pub fn skr_write_routine_request(
            suppress: bool,
            sub_function: u8,
            identifier: u16,
            record: *const u8,
            record_len: usize,
            room: *mut u8,
            room_len: usize,
        ) -> Written;
        pub fn skr_write_routine_response(
            sub_function: u8,
            identifier: u16,
            record: *const u8,
            record_len: usize,
            room: *mut u8,
            room_len: usize,
        ) -> Written;
        pub fn skr_rewrite_request(
            message: *const u8,
            message_len: usize,
            room: *mut u8,
            room_len: usize,
        ) -> Rewritten;
        pub fn skr_rewrite_response(
            message: *const u8,
            message_len: usize,
            room: *mut u8,
            room_len: usize,
        ) -> Rewritten;
        pub fn skr_desk_check(message: *const u8, message_len: usize) -> Desk;
        pub fn skr_why_request(message: *const u8, message_len: usize) -> Why;
        pub fn skr_why_response(message: *const u8, message_len: usize) -> Why;
        pub fn skr_refusal_text(number: u64, room: *mut u8, room_len: usize) -> Written;
        pub fn skr_valid_up_to(name: *const u8, name_len: usize) -> u64;
        pub safe fn skr_dtc_from_number(number: u32) -> TroubleCode;
        pub fn skr_dtc_next(buffer: *const u8, buffer_len: usize) -> NextTroubleCode;
        pub fn skr_tally_records(records: *const u8, records_len: usize) -> Tally;
        pub fn skr_read_batch(
            buffer: *const u8,
            buffer_len: usize,
            lengths: *const u32,
            lengths_len: usize,
            list: *mut u8,
            list_len: usize,
        ) -> Batch;
        pub fn skr_split_joined(
            buffer: *const u8,
            buffer_len: usize,
            lengths: *mut u32,
            lengths_len: usize,
        ) -> Split;
        pub fn skr_replay_log(log: *const u8, log_len: usize) -> Replay;
        pub safe fn skr_replay_step(
            open: bool,
            has_last: bool,
            last: u8,
            repeats: u64,
            total: u64,
            service: u8,
            kind_or_counter: u8,
            payload: u16,
            place: usize,
        ) -> Replay;
        pub fn skr_read_message(message: *const u8, message_len: usize) -> Message;
        pub fn skr_write_request_message(
            kind: u8,
            name: *const u8,
            name_len: usize,
            format: u8,
            uncompressed_high: u64,
            uncompressed_low: u64,
            compressed_high: u64,
            compressed_low: u64,
            room: *mut u8,
            room_len: usize,
        ) -> Written;
        pub fn skr_write_response_message(
            kind: u8,
            block: *const u8,
            block_len: usize,
            format: u8,
            uncompressed_high: u64,
            uncompressed_low: u64,
            compressed_high: u64,
            compressed_low: u64,
            position: u64,
            room: *mut u8,
            room_len: usize,
        ) -> Written;
        pub fn skr_write_routine_request_message(
            suppress: bool,
            sub_function: u8,
            identifier: u16,
            record: *const u8,
            record_len: usize,
            room: *mut u8,
            room_len: usize,
        ) -> Written;
        pub fn skr_write_routine_response_message(
            sub_function: u8,
            identifier: u16,
            record: *const u8,
            record_len: usize,
            room: *mut u8,
            room_len: usize,
        ) -> Written;
        pub fn skr_write_negative(service: u8, code: u8, room: *mut u8, room_len: usize)
        -> Written;
        pub fn skr_read_listing(sub: u8, listing: *const u8, listing_len: usize) -> Head;
        pub fn skr_listing_record(
            sub: u8,
            listing: *const u8,
            listing_len: usize,
            place: usize,
        ) -> Listed;
        pub fn skr_listing_index(sub: u8, listing: *const u8, listing_len: usize) -> Index;
        pub fn skr_listing_lookup(
            sub: u8,
            listing: *const u8,
            listing_len: usize,
            counts: *const u32,
            counts_len: usize,
            firsts: *const u32,
            firsts_len: usize,
            high: u8,
            middle: u8,
            low: u8,
        ) -> Found;
        pub fn skr_write_listing(
            sub: u8,
            mask: u8,
            records: *const u8,
            records_len: usize,
            room: *mut u8,
            room_len: usize,
        ) -> Written;
        pub fn skr_code_text(
            high: u8,
            middle: u8,
            low: u8,
            room: *mut u8,
            room_len: usize,
        ) -> Written;
        pub fn skr_read_code_text(text: *const u8, text_len: usize) -> TroubleCode;
        pub fn skr_export_listing(
            sub: u8,
            listing: *const u8,
            listing_len: usize,
            room: *mut u8,
            room_len: usize,
        ) -> Written;
        pub fn skr_import_listing(
            mask: u8,
            text: *const u8,
            text_len: usize,
            room: *mut u8,
            room_len: usize,
        ) -> Written;
        pub fn skr_listing_changes(
            first_sub: u8,
            first: *const u8,
            first_len: usize,
            second_sub: u8,
            second: *const u8,
            second_len: usize,
            room: *mut u8,
            room_len: usize,
        ) -> Changes;
    }

    unsafe extern "C" {
        pub fn skr_read_name(buffer: *const u8, buffer_len: usize) -> super::Part;
        pub fn skr_read_block_length(buffer: *const u8, buffer_len: usize) -> super::Part;
        pub fn skr_read_sizes(buffer: *const u8, buffer_len: usize) -> super::PartSizes;
        pub fn skr_read_file_sizes(buffer: *const u8, buffer_len: usize) -> super::PartSizes;
        pub fn skr_read_dir_size(buffer: *const u8, buffer_len: usize) -> super::PartSizes;
        pub fn skr_read_position(buffer: *const u8, buffer_len: usize) -> super::PartPosition;
        pub fn skr_write_name(
            name: *const u8,
            name_len: usize,
            room: *mut u8,
            room_len: usize,
        ) -> Written;
        pub fn skr_write_block_length(
            block: *const u8,
            block_len: usize,
            room: *mut u8,
            room_len: usize,
        ) -> Written;
        pub fn skr_write_sizes(
            uncompressed_high: u64,
            uncompressed_low: u64,
            compressed_high: u64,
            compressed_low: u64,
            room: *mut u8,
            room_len: usize,
        ) -> Written;
        pub fn skr_write_file_sizes(
            uncompressed_high: u64,
            uncompressed_low: u64,
            compressed_high: u64,
            compressed_low: u64,
            room: *mut u8,
            room_len: usize,
        ) -> Written;
        pub fn skr_write_dir_size(high: u64, low: u64, room: *mut u8, room_len: usize) -> Written;
        pub fn skr_write_position(position: u64, room: *mut u8, room_len: usize) -> Written;
    }
}

// Every block below is sound for one reason: a Rust slice is a pointer and a length that belong together, the functions read and
// write nothing else and keep no pointer, and a shared slice cannot overlap one that is lent for writing.

/// `skr_read_request`.
#[must_use]
#[inline]
pub fn read_request(message: &[u8]) -> FileTransfer {
    // SAFETY: the pointer and the length are those of one slice.
    unsafe { c::skr_read_request(message.as_ptr(), message.len()) }
}

/// The name of a request that the library read, at the place that it answered.
///
/// # Safety
/// Message and place belong together so.
#[inline]
unsafe fn name(message: &[u8], start: u64, len: u64) -> &str {
    let name = part(message, start, len);
    debug_assert!(str::from_utf8(name).is_ok());
    // SAFETY: the library is proved to accept a request only where its name is UTF-8 as RFC 3629 has it, which is what `str` asks for:
    // `paper:specs/Field.name`, `paper:proofs/Utf8.is-utf8` (docs/STATEMENTS.md).
    unsafe { str::from_utf8_unchecked(name) }
}

/// `skr_read_request`, and the name; empty where the request is refused.
#[inline]
pub(crate) fn read_named_request(message: &[u8]) -> (FileTransfer, &str) {
    let r = read_request(message);
    // SAFETY: the place is the library's answer to this very message; after a refusal it is empty.
    (r, unsafe { name(message, r.start, r.len) })
}

/// `skr_read_response`.
#[must_use]
#[inline]
pub fn read_response(message: &[u8]) -> FileTransfer {
    // SAFETY: the pointer and the length are those of one slice.
    unsafe { c::skr_read_response(message.as_ptr(), message.len()) }
}

/// `skr_read_routine_request`.
#[must_use]
#[inline]
pub fn read_routine_request(message: &[u8]) -> Routine {
    // SAFETY: the pointer and the length are those of one slice.
    unsafe { c::skr_read_routine_request(message.as_ptr(), message.len()) }
}

/// `skr_read_routine_response`.
#[must_use]
#[inline]
pub fn read_routine_response(message: &[u8]) -> Routine {
    // SAFETY: the pointer and the length are those of one slice.
    unsafe { c::skr_read_routine_response(message.as_ptr(), message.len()) }
}

/// `skr_write_request`.
#[inline]
pub fn write_request(kind: u8, name: &[u8], format: u8, s: Sizes, room: &mut [u8]) -> Written {
    let (n, n_len) = (name.as_ptr(), name.len());
    let (r, r_len) = (room.as_mut_ptr(), room.len());
    let (uh, ul) = (s.uncompressed_high, s.uncompressed_low);
    let (ch, cl) = (s.compressed_high, s.compressed_low);
    // SAFETY: each pointer stands with its own slice's length, and the two slices do not overlap.
    unsafe { c::skr_write_request(kind, n, n_len, format, uh, ul, ch, cl, r, r_len) }
}

/// `skr_write_response`.
#[inline]
pub fn write_response(
    kind: u8,
    block: &[u8],
    format: u8,
    s: Sizes,
    position: u64,
    room: &mut [u8],
) -> Written {
    let (b, b_len) = (block.as_ptr(), block.len());
    let (r, r_len) = (room.as_mut_ptr(), room.len());
    let (uh, ul) = (s.uncompressed_high, s.uncompressed_low);
    let (ch, cl) = (s.compressed_high, s.compressed_low);
    // SAFETY: each pointer stands with its own slice's length, and the two slices do not overlap.
    unsafe { c::skr_write_response(kind, b, b_len, format, uh, ul, ch, cl, position, r, r_len) }
}

/// `skr_write_routine_request`.
#[inline]
pub fn write_routine_request(
    suppress: bool,
    sub: u8,
    identifier: u16,
    record: &[u8],
    room: &mut [u8],
) -> Written {
    let (d, d_len) = (record.as_ptr(), record.len());
    let (r, r_len) = (room.as_mut_ptr(), room.len());
    // SAFETY: each pointer stands with its own slice's length, and the two slices do not overlap.
    unsafe { c::skr_write_routine_request(suppress, sub, identifier, d, d_len, r, r_len) }
}

/// `skr_write_routine_response`.
#[inline]
pub fn write_routine_response(sub: u8, identifier: u16, record: &[u8], room: &mut [u8]) -> Written {
    let (d, d_len) = (record.as_ptr(), record.len());
    let (r, r_len) = (room.as_mut_ptr(), room.len());
    // SAFETY: each pointer stands with its own slice's length, and the two slices do not overlap.
    unsafe { c::skr_write_routine_response(sub, identifier, d, d_len, r, r_len) }
}

/// `skr_rewrite_request`.
#[inline]
pub fn rewrite_request(message: &[u8], room: &mut [u8]) -> Rewritten {
    let (m, m_len) = (message.as_ptr(), message.len());
    let (r, r_len) = (room.as_mut_ptr(), room.len());
    // SAFETY: each pointer stands with its own slice's length, and the two slices do not overlap.
    unsafe { c::skr_rewrite_request(m, m_len, r, r_len) }
}

/// `skr_rewrite_response`.
#[inline]
pub fn rewrite_response(message: &[u8], room: &mut [u8]) -> Rewritten {
    let (m, m_len) = (message.as_ptr(), message.len());
    let (r, r_len) = (room.as_mut_ptr(), room.len());
    // SAFETY: each pointer stands with its own slice's length, and the two slices do not overlap.
    unsafe { c::skr_rewrite_response(m, m_len, r, r_len) }
}

/// `skr_desk_check`.
#[must_use]
#[inline]
pub fn desk_check(message: &[u8]) -> Desk {
    // SAFETY: the pointer and the length are those of one slice.
    unsafe { c::skr_desk_check(message.as_ptr(), message.len()) }
}

/// `skr_why_request`.
#[must_use]
#[inline]
pub fn why_request(message: &[u8]) -> Why {
    // SAFETY: the pointer and the length are those of one slice.
    unsafe { c::skr_why_request(message.as_ptr(), message.len()) }
}

/// `skr_why_response`.
#[must_use]
#[inline]
pub fn why_response(message: &[u8]) -> Why {
    // SAFETY: the pointer and the length are those of one slice.
    unsafe { c::skr_why_response(message.as_ptr(), message.len()) }
}

/// `skr_refusal_text`.
#[inline]
pub fn refusal_text(number: u64, room: &mut [u8]) -> Written {
    // SAFETY: the pointer and the length are those of one slice.
    unsafe { c::skr_refusal_text(number, room.as_mut_ptr(), room.len()) }
}

/// `skr_valid_up_to`.
#[must_use]
#[inline]
pub fn valid_up_to(name: &[u8]) -> u64 {
    // SAFETY: the pointer and the length are those of one slice.
    unsafe { c::skr_valid_up_to(name.as_ptr(), name.len()) }
}

/// `skr_dtc_from_number`.
#[must_use]
#[inline]
pub fn dtc_from_number(number: u32) -> TroubleCode {
    c::skr_dtc_from_number(number)
}

/// `skr_dtc_next`.
#[must_use]
#[inline]
pub fn dtc_next(buffer: &[u8]) -> NextTroubleCode {
    // SAFETY: the pointer and the length are those of one slice.
    unsafe { c::skr_dtc_next(buffer.as_ptr(), buffer.len()) }
}

/// `skr_tally_records`.
#[must_use]
#[inline]
pub fn tally_records(records: &[u8]) -> Tally {
    // SAFETY: the pointer and the length are those of one slice.
    unsafe { c::skr_tally_records(records.as_ptr(), records.len()) }
}

/// `skr_read_batch`.
#[inline]
pub fn read_batch(buffer: &[u8], lengths: &[u32], list: &mut [u8]) -> Batch {
    let (b, b_len) = (buffer.as_ptr(), buffer.len());
    let (n, n_len) = (lengths.as_ptr(), lengths.len());
    let (l, l_len) = (list.as_mut_ptr(), list.len());
    // SAFETY: each pointer stands with its own slice's length, and none of the other two overlaps the list.
    unsafe { c::skr_read_batch(b, b_len, n, n_len, l, l_len) }
}

/// `skr_split_joined`.
#[inline]
pub fn split_joined(buffer: &[u8], lengths: &mut [u32]) -> Split {
    let (b, b_len) = (buffer.as_ptr(), buffer.len());
    let (n, n_len) = (lengths.as_mut_ptr(), lengths.len());
    // SAFETY: each pointer stands with its own slice's length, and the two do not overlap.
    unsafe { c::skr_split_joined(b, b_len, n, n_len) }
}

/// `skr_replay_log`.
#[must_use]
#[inline]
pub fn replay_log(log: &[u8]) -> Replay {
    // SAFETY: the pointer and the length are those of one slice.
    unsafe { c::skr_replay_log(log.as_ptr(), log.len()) }
}

/// `skr_read_message`.
#[must_use]
#[inline]
pub fn read_message(message: &[u8]) -> Message {
    // SAFETY: the pointer and the length are those of one slice.
    unsafe { c::skr_read_message(message.as_ptr(), message.len()) }
}

/// `skr_read_message`, and the name; empty where the message is refused, or is no file transfer request.
#[inline]
pub(crate) fn read_named_message(message: &[u8]) -> (Message, &str) {
    let r = read_message(message);
    if r.service != 0x38 {
        return (r, "");
    }
    // SAFETY: the place is the library's answer to this very message, which is a request.
    (r, unsafe { name(message, r.start, r.len) })
}

/// `skr_write_request_message`.
#[inline]
pub fn write_request_message(
    kind: u8,
    name: &[u8],
    format: u8,
    s: Sizes,
    room: &mut [u8],
) -> Written {
    let (n, n_len) = (name.as_ptr(), name.len());
    let (r, r_len) = (room.as_mut_ptr(), room.len());
    let (uh, ul) = (s.uncompressed_high, s.uncompressed_low);
    let (ch, cl) = (s.compressed_high, s.compressed_low);
    // SAFETY: each pointer stands with its own slice's length, and the two slices do not overlap.
    unsafe { c::skr_write_request_message(kind, n, n_len, format, uh, ul, ch, cl, r, r_len) }
}

/// `skr_write_response_message`.
#[inline]
pub fn write_response_message(
    kind: u8,
    block: &[u8],
    format: u8,
    s: Sizes,
    position: u64,
    room: &mut [u8],
) -> Written {
    let (b, b_len) = (block.as_ptr(), block.len());
    let (r, r_len) = (room.as_mut_ptr(), room.len());
    let (uh, ul) = (s.uncompressed_high, s.uncompressed_low);
    let (ch, cl) = (s.compressed_high, s.compressed_low);
    // SAFETY: each pointer stands with its own slice's length, and the two slices do not overlap.
    unsafe {
        c::skr_write_response_message(kind, b, b_len, format, uh, ul, ch, cl, position, r, r_len)
    }
}

/// `skr_write_routine_request_message`.
#[inline]
pub fn write_routine_request_message(
    suppress: bool,
    sub: u8,
    identifier: u16,
    record: &[u8],
    room: &mut [u8],
) -> Written {
    let (d, d_len) = (record.as_ptr(), record.len());
    let (r, r_len) = (room.as_mut_ptr(), room.len());
    // SAFETY: each pointer stands with its own slice's length, and the two slices do not overlap.
    unsafe { c::skr_write_routine_request_message(suppress, sub, identifier, d, d_len, r, r_len) }
}

/// `skr_write_routine_response_message`.
#[inline]
pub fn write_routine_response_message(
    sub: u8,
    identifier: u16,
    record: &[u8],
    room: &mut [u8],
) -> Written {
    let (d, d_len) = (record.as_ptr(), record.len());
    let (r, r_len) = (room.as_mut_ptr(), room.len());
    // SAFETY: each pointer stands with its own slice's length, and the two slices do not overlap.
    unsafe { c::skr_write_routine_response_message(sub, identifier, d, d_len, r, r_len) }
}

/// `skr_write_negative`.
#[inline]
pub fn write_negative(service: u8, code: u8, room: &mut [u8]) -> Written {
    // SAFETY: the pointer and the length are those of one slice.
    unsafe { c::skr_write_negative(service, code, room.as_mut_ptr(), room.len()) }
}

/// `skr_read_listing`.
#[must_use]
#[inline]
pub fn read_listing(sub: u8, listing: &[u8]) -> Head {
    // SAFETY: the pointer and the length are those of one slice.
    unsafe { c::skr_read_listing(sub, listing.as_ptr(), listing.len()) }
}

/// `skr_listing_record`.
#[must_use]
#[inline]
pub fn listing_record(sub: u8, listing: &[u8], place: usize) -> Listed {
    // SAFETY: the pointer and the length are those of one slice.
    unsafe { c::skr_listing_record(sub, listing.as_ptr(), listing.len(), place) }
}

/// `skr_listing_index`.
#[must_use]
#[inline]
pub fn listing_index(sub: u8, listing: &[u8]) -> Index {
    // SAFETY: the pointer and the length are those of one slice.
    unsafe { c::skr_listing_index(sub, listing.as_ptr(), listing.len()) }
}

/// `skr_listing_lookup`.
#[must_use]
#[inline]
pub fn listing_lookup(
    sub: u8,
    listing: &[u8],
    counts: &[u32],
    firsts: &[u32],
    code: crate::TroubleCode,
) -> Found {
    let (l, l_len) = (listing.as_ptr(), listing.len());
    let (n, n_len) = (counts.as_ptr(), counts.len());
    let (p, p_len) = (firsts.as_ptr(), firsts.len());
    let crate::TroubleCode { high, middle, low } = code;
    // SAFETY: each pointer stands with its own slice's length, and nothing is written.
    unsafe { c::skr_listing_lookup(sub, l, l_len, n, n_len, p, p_len, high, middle, low) }
}

/// `skr_write_listing`; seven bytes a record, as [`record_bytes`] has them.
#[inline]
pub fn write_listing(sub: u8, mask: u8, records: &[u8], room: &mut [u8]) -> Written {
    let (d, d_len) = (records.as_ptr(), records.len());
    let (r, r_len) = (room.as_mut_ptr(), room.len());
    // SAFETY: each pointer stands with its own slice's length, and the two slices do not overlap.
    unsafe { c::skr_write_listing(sub, mask, d, d_len, r, r_len) }
}

/// `skr_code_text`.
#[inline]
pub fn code_text(code: crate::TroubleCode, room: &mut [u8]) -> Written {
    let crate::TroubleCode { high, middle, low } = code;
    // SAFETY: the pointer and the length are those of one slice.
    unsafe { c::skr_code_text(high, middle, low, room.as_mut_ptr(), room.len()) }
}

/// `skr_read_code_text`.
#[must_use]
#[inline]
pub fn read_code_text(text: &[u8]) -> TroubleCode {
    // SAFETY: the pointer and the length are those of one slice.
    unsafe { c::skr_read_code_text(text.as_ptr(), text.len()) }
}

/// `skr_export_listing`.
#[inline]
pub fn export_listing(sub: u8, listing: &[u8], room: &mut [u8]) -> Written {
    let (l, l_len) = (listing.as_ptr(), listing.len());
    let (r, r_len) = (room.as_mut_ptr(), room.len());
    // SAFETY: each pointer stands with its own slice's length, and the two slices do not overlap.
    unsafe { c::skr_export_listing(sub, l, l_len, r, r_len) }
}

/// `skr_import_listing`.
#[inline]
pub fn import_listing(mask: u8, text: &[u8], room: &mut [u8]) -> Written {
    let (t, t_len) = (text.as_ptr(), text.len());
    let (r, r_len) = (room.as_mut_ptr(), room.len());
    // SAFETY: each pointer stands with its own slice's length, and the two slices do not overlap.
    unsafe { c::skr_import_listing(mask, t, t_len, r, r_len) }
}

/// `skr_listing_changes`; each listing stands behind its sub-function.
#[inline]
pub fn listing_changes(first: (u8, &[u8]), second: (u8, &[u8]), room: &mut [u8]) -> Changes {
    let (a_sub, a, a_len) = (first.0, first.1.as_ptr(), first.1.len());
    let (b_sub, b, b_len) = (second.0, second.1.as_ptr(), second.1.len());
    let (r, r_len) = (room.as_mut_ptr(), room.len());
    // SAFETY: each pointer stands with its own slice's length, and none of the other two overlaps the room.
    unsafe { c::skr_listing_changes(a_sub, a, a_len, b_sub, b, b_len, r, r_len) }
}

/// A name or a block length that was read from the start of a buffer: its place, and where the part ends.
#[repr(C)]
#[derive(Clone, Copy, Debug, Default, PartialEq, Eq)]
pub struct Part {
    pub number: u64,
    pub first: u64,
    pub second: u64,
    pub start: u64,
    pub len: u64,
    pub tail: u64,
}

/// The sizes at the start of a buffer, in halves, and where they end (`skr_sizes`).
#[repr(C)]
#[derive(Clone, Copy, Debug, Default, PartialEq, Eq)]
pub struct PartSizes {
    pub number: u64,
    pub first: u64,
    pub second: u64,
    pub uncompressed_high: u64,
    pub uncompressed_low: u64,
    pub compressed_high: u64,
    pub compressed_low: u64,
    pub tail: u64,
}

/// The position at the start of a buffer, and where it ends (`skr_position`).
#[repr(C)]
#[derive(Clone, Copy, Debug, Default, PartialEq, Eq)]
pub struct PartPosition {
    pub number: u64,
    pub first: u64,
    pub second: u64,
    pub position: u64,
    pub tail: u64,
}

/// `skr_read_name`.
#[must_use]
#[inline]
pub fn read_name(buffer: &[u8]) -> Part {
    // SAFETY: the pointer and the length are those of one slice.
    unsafe { c::skr_read_name(buffer.as_ptr(), buffer.len()) }
}

/// `skr_read_name`, and the name; empty where it is refused.
#[inline]
pub(crate) fn read_name_text(buffer: &[u8]) -> (Part, &str) {
    let r = read_name(buffer);
    // SAFETY: the place is the library's answer to this very buffer; after a refusal it is empty.
    (r, unsafe { name(buffer, r.start, r.len) })
}

/// `skr_read_block_length`.
#[must_use]
#[inline]
pub fn read_block_length(buffer: &[u8]) -> Part {
    // SAFETY: the pointer and the length are those of one slice.
    unsafe { c::skr_read_block_length(buffer.as_ptr(), buffer.len()) }
}

/// `skr_read_sizes`.
#[must_use]
#[inline]
pub fn read_sizes(buffer: &[u8]) -> PartSizes {
    // SAFETY: the pointer and the length are those of one slice.
    unsafe { c::skr_read_sizes(buffer.as_ptr(), buffer.len()) }
}

/// `skr_read_file_sizes`.
#[must_use]
#[inline]
pub fn read_file_sizes(buffer: &[u8]) -> PartSizes {
    // SAFETY: the pointer and the length are those of one slice.
    unsafe { c::skr_read_file_sizes(buffer.as_ptr(), buffer.len()) }
}

/// `skr_read_dir_size`.
#[must_use]
#[inline]
pub fn read_dir_size(buffer: &[u8]) -> PartSizes {
    // SAFETY: the pointer and the length are those of one slice.
    unsafe { c::skr_read_dir_size(buffer.as_ptr(), buffer.len()) }
}

/// `skr_read_position`.
#[must_use]
#[inline]
pub fn read_position(buffer: &[u8]) -> PartPosition {
    // SAFETY: the pointer and the length are those of one slice.
    unsafe { c::skr_read_position(buffer.as_ptr(), buffer.len()) }
}

/// `skr_write_name`.
#[inline]
pub fn write_name(name: &[u8], room: &mut [u8]) -> Written {
    let (n, n_len) = (name.as_ptr(), name.len());
    let (r, r_len) = (room.as_mut_ptr(), room.len());
    // SAFETY: each pointer stands with its own slice's length, and the two slices do not overlap.
    unsafe { c::skr_write_name(n, n_len, r, r_len) }
}

/// `skr_write_block_length`.
#[inline]
pub fn write_block_length(block: &[u8], room: &mut [u8]) -> Written {
    let (b, b_len) = (block.as_ptr(), block.len());
    let (r, r_len) = (room.as_mut_ptr(), room.len());
    // SAFETY: each pointer stands with its own slice's length, and the two slices do not overlap.
    unsafe { c::skr_write_block_length(b, b_len, r, r_len) }
}

/// `skr_write_sizes`.
#[inline]
pub fn write_sizes(s: Sizes, room: &mut [u8]) -> Written {
    let (r, r_len) = (room.as_mut_ptr(), room.len());
    let (uh, ul) = (s.uncompressed_high, s.uncompressed_low);
    let (ch, cl) = (s.compressed_high, s.compressed_low);
    // SAFETY: the pointer and the length are those of one slice.
    unsafe { c::skr_write_sizes(uh, ul, ch, cl, r, r_len) }
}

/// `skr_write_file_sizes`.
#[inline]
pub fn write_file_sizes(s: Sizes, room: &mut [u8]) -> Written {
    let (r, r_len) = (room.as_mut_ptr(), room.len());
    let (uh, ul) = (s.uncompressed_high, s.uncompressed_low);
    let (ch, cl) = (s.compressed_high, s.compressed_low);
    // SAFETY: the pointer and the length are those of one slice.
    unsafe { c::skr_write_file_sizes(uh, ul, ch, cl, r, r_len) }
}

/// `skr_write_dir_size`.
#[inline]
pub fn write_dir_size(high: u64, low: u64, room: &mut [u8]) -> Written {
    // SAFETY: the pointer and the length are those of one slice.
    unsafe { c::skr_write_dir_size(high, low, room.as_mut_ptr(), room.len()) }
}

/// `skr_write_position`.
#[inline]
pub fn write_position(position: u64, room: &mut [u8]) -> Written {
    // SAFETY: the pointer and the length are those of one slice.
    unsafe { c::skr_write_position(position, room.as_mut_ptr(), room.len()) }
}
