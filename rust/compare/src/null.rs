//! Empty slices with a null pointer, which only C can hand over: each door must answer as it does to any other empty slice.
use crate::bench::Bench;
use crate::report::agree;
use crate::tally::{Call, Rule};
use skrolvind::flat::{self, c};
use std::fmt::Debug;
use std::ptr::{null, null_mut};

const ROOM: usize = 40;
const FILLER: u8 = 0xA5;
/// A message that can be rewritten, a name, a block length, a routine's record and one of a listing.
const PART: [u8; 7] = [2, 0, 1, b'a', 0, 0, 0];

/// Every slice of every door.
pub fn pointers(bench: &mut Bench) {
    readers(bench);
    for kind in 0..=7 {
        transfers(bench, kind);
    }
    for sub_function in 0..=4 {
        routines(bench, sub_function);
    }
    messages(bench);
    for number in [0, 1, 19] {
        writer(bench, Call::RefusalText, |_, _, r, k| unsafe {
            c::skr_refusal_text(number, r, k)
        });
    }
    parts(bench);
    // SAFETY (of every block of this file): each pointer stands with the length of what it points to, or with the length 0.
    writer(bench, Call::RewriteRequest, |m, n, r, k| unsafe {
        c::skr_rewrite_request(m, n, r, k)
    });
    writer(bench, Call::RewriteResponse, |m, n, r, k| unsafe {
        c::skr_rewrite_response(m, n, r, k)
    });
}

fn readers(bench: &mut Bench) {
    let (null, none) = (null::<u8>(), &[]);
    reader(
        bench,
        Call::ReadRequest,
        unsafe { c::skr_read_request(null, 0) },
        flat::read_request(none),
    );
    reader(
        bench,
        Call::ReadResponse,
        unsafe { c::skr_read_response(null, 0) },
        flat::read_response(none),
    );
    reader(
        bench,
        Call::ReadRoutineRequest,
        unsafe { c::skr_read_routine_request(null, 0) },
        flat::read_routine_request(none),
    );
    reader(
        bench,
        Call::ReadRoutineResponse,
        unsafe { c::skr_read_routine_response(null, 0) },
        flat::read_routine_response(none),
    );
    reader(
        bench,
        Call::DeskCheck,
        unsafe { c::skr_desk_check(null, 0) },
        flat::desk_check(none),
    );
    reader(
        bench,
        Call::WhyRequest,
        unsafe { c::skr_why_request(null, 0) },
        flat::why_request(none),
    );
    reader(
        bench,
        Call::WhyResponse,
        unsafe { c::skr_why_response(null, 0) },
        flat::why_response(none),
    );
    reader(
        bench,
        Call::ValidUpTo,
        unsafe { c::skr_valid_up_to(null, 0) },
        flat::valid_up_to(none),
    );
    reader(
        bench,
        Call::NextTroubleCode,
        unsafe { c::skr_dtc_next(null, 0) },
        flat::dtc_next(none),
    );
    reader(
        bench,
        Call::TallyRecords,
        unsafe { c::skr_tally_records(null, 0) },
        flat::tally_records(none),
    );
    reader(
        bench,
        Call::ReplayLog,
        unsafe { c::skr_replay_log(null, 0) },
        flat::replay_log(none),
    );
    listings(bench);
    texts(bench);
    changes(bench);
}

fn listings(bench: &mut Bench) {
    let (null, no_numbers) = (null::<u8>(), null::<u32>());
    let code = skrolvind::TroubleCode {
        high: 0,
        middle: 0,
        low: 0,
    };
    for sub in [0x01, 0x02, 0x08] {
        let empty = [0x59, sub, 0xFF];
        let (listing, len) = (empty.as_ptr(), empty.len());
        reader(
            bench,
            Call::ReadListing,
            unsafe { c::skr_read_listing(sub, null, 0) },
            flat::read_listing(sub, &[]),
        );
        reader(
            bench,
            Call::ListingRecord,
            unsafe { c::skr_listing_record(sub, null, 0, 0) },
            flat::listing_record(sub, &[], 0),
        );
        reader(
            bench,
            Call::ListingIndex,
            unsafe { c::skr_listing_index(sub, null, 0) },
            flat::listing_index(sub, &[]),
        );
        reader(
            bench,
            Call::LookUp,
            unsafe {
                c::skr_listing_lookup(sub, listing, len, no_numbers, 0, no_numbers, 0, 0, 0, 0)
            },
            flat::listing_lookup(sub, &empty, &[], &[], code),
        );
        writer(bench, Call::WriteListing, |p, n, r, k| unsafe {
            c::skr_write_listing(sub, 0x7F, p, n, r, k)
        });
        writer(bench, Call::ExportListing, |p, n, r, k| unsafe {
            c::skr_export_listing(sub, p, n, r, k)
        });
        let one = [0x59, sub, 0xFF, 0x81, 0x05, 0x03, 0x01, 0x11, 0x2F];
        let len = if sub == 0x02 { 7 } else { one.len() };
        writer(bench, Call::ExportListing, |_, _, r, k| unsafe {
            c::skr_export_listing(sub, one.as_ptr(), len, r, k)
        });
    }
}

fn changes(bench: &mut Bench) {
    let one = [0x59, 0x02, 0xFF, 0x03, 0x01, 0x11, 0x2F];
    let (listing, len, empty) = (one.as_ptr(), one.len(), 3);
    writer(bench, Call::ListingChanges, |p, n, r, k| unsafe {
        c::skr_listing_changes(0x02, p, n, 0x08, p, n, r, k)
    });
    writer(bench, Call::ListingChanges, |p, n, r, k| unsafe {
        c::skr_listing_changes(0x02, listing, len, 0x02, p, n, r, k)
    });
    writer(bench, Call::ListingChanges, |_, _, r, k| unsafe {
        c::skr_listing_changes(0x02, listing, len, 0x02, listing, empty, r, k)
    });
}

fn texts(bench: &mut Bench) {
    reader(
        bench,
        Call::ReadCodeText,
        unsafe { c::skr_read_code_text(null(), 0) },
        flat::read_code_text(&[]),
    );
    writer(bench, Call::CodeText, |_, _, r, k| unsafe {
        c::skr_code_text(0x03, 0x01, 0x11, r, k)
    });
    writer(bench, Call::ImportListing, |p, n, r, k| unsafe {
        c::skr_import_listing(0x7F, p, n, r, k)
    });
}

/// The doors of whole messages.
fn messages(bench: &mut Bench) {
    reader(
        bench,
        Call::ReadMessage,
        unsafe { c::skr_read_message(null(), 0) },
        flat::read_message(&[]),
    );
    for kind in 0..=7 {
        writer(bench, Call::WriteRequestMessage, |p, n, r, k| unsafe {
            c::skr_write_request_message(kind, p, n, 0x11, 0, 255, 0, 256, r, k)
        });
        writer(bench, Call::WriteResponseMessage, |p, n, r, k| unsafe {
            c::skr_write_response_message(kind, p, n, 0x11, 0, 255, 0, 256, 7, r, k)
        });
    }
    for sub in 0..=4 {
        writer(
            bench,
            Call::WriteRoutineRequestMessage,
            |p, n, r, k| unsafe {
                c::skr_write_routine_request_message(true, sub, 0x0203, p, n, r, k)
            },
        );
        writer(
            bench,
            Call::WriteRoutineResponseMessage,
            |p, n, r, k| unsafe { c::skr_write_routine_response_message(sub, 0x0203, p, n, r, k) },
        );
    }
    for service in [0x38, 0x39] {
        writer(bench, Call::WriteNegative, |_, _, r, k| unsafe {
            c::skr_write_negative(service, 0x31, r, k)
        });
    }
}

fn reader<T: PartialEq + Debug>(bench: &mut Bench, call: Call, ours: T, wanted: T) {
    agree(
        "a null pointer with the length 0 is read otherwise than an empty slice",
        &[],
        &ours,
        &wanted,
    );
    bench.tally.count(call, Some(Rule::NullPointer));
}

fn transfers(bench: &mut Bench, kind: u8) {
    writer(bench, Call::WriteRequest, |p, n, r, k| unsafe {
        c::skr_write_request(kind, p, n, 0x11, 0, 255, 0, 256, r, k)
    });
    writer(bench, Call::WriteResponse, |p, n, r, k| unsafe {
        c::skr_write_response(kind, p, n, 0x11, 0, 255, 0, 256, 7, r, k)
    });
}

fn routines(bench: &mut Bench, sub_function: u8) {
    for suppress in [false, true] {
        writer(bench, Call::WriteRoutineRequest, |p, n, r, k| unsafe {
            c::skr_write_routine_request(suppress, sub_function, 0x0203, p, n, r, k)
        });
    }
    writer(bench, Call::WriteRoutineResponse, |p, n, r, k| unsafe {
        c::skr_write_routine_response(sub_function, 0x0203, p, n, r, k)
    });
}

/// A writer that is lent a part or none, and a room or none: what is empty has a null pointer, or another one.
fn writer<T: PartialEq + Debug>(
    bench: &mut Bench,
    call: Call,
    write: impl Fn(*const u8, usize, *mut u8, usize) -> T,
) {
    for (part, room) in [(0, 0), (0, ROOM), (PART.len(), 0)] {
        let wanted = lent(&write, (part, false), (room, false));
        for (null_part, null_room) in [(true, false), (false, true), (true, true)] {
            if null_part && part > 0 || null_room && room > 0 {
                continue;
            }
            let sentence =
                "a writer takes a null pointer with the length 0 otherwise than an empty slice";
            let ours = lent(&write, (part, null_part), (room, null_room));
            agree(sentence, &PART[..part], &ours, &wanted);
            bench.tally.count(call, Some(Rule::NullPointer));
        }
    }
}

/// What the writer answers and what it leaves in the room, each slice with its length and whether its pointer is null.
fn lent<T>(
    write: &impl Fn(*const u8, usize, *mut u8, usize) -> T,
    (part, null_part): (usize, bool),
    (room, null_room): (usize, bool),
) -> (T, [u8; ROOM]) {
    let mut contents = [FILLER; ROOM];
    let part_pointer = if null_part { null() } else { PART.as_ptr() };
    let room_pointer = if null_room {
        null_mut()
    } else {
        contents.as_mut_ptr()
    };
    (write(part_pointer, part, room_pointer, room), contents)
}

/// The doors of parts.
fn parts(bench: &mut Bench) {
    let (null, none) = (null::<u8>(), &[]);
    reader(
        bench,
        Call::ReadName,
        unsafe { c::skr_read_name(null, 0) },
        flat::read_name(none),
    );
    reader(
        bench,
        Call::ReadBlockLength,
        unsafe { c::skr_read_block_length(null, 0) },
        flat::read_block_length(none),
    );
    reader(
        bench,
        Call::ReadSizes,
        unsafe { c::skr_read_sizes(null, 0) },
        flat::read_sizes(none),
    );
    reader(
        bench,
        Call::ReadFileSizes,
        unsafe { c::skr_read_file_sizes(null, 0) },
        flat::read_file_sizes(none),
    );
    reader(
        bench,
        Call::ReadDirSize,
        unsafe { c::skr_read_dir_size(null, 0) },
        flat::read_dir_size(none),
    );
    reader(
        bench,
        Call::ReadPosition,
        unsafe { c::skr_read_position(null, 0) },
        flat::read_position(none),
    );
    parts_written(bench);
}

fn parts_written(bench: &mut Bench) {
    writer(bench, Call::WriteName, |p, n, r, k| unsafe {
        c::skr_write_name(p, n, r, k)
    });
    writer(bench, Call::WriteBlockLength, |p, n, r, k| unsafe {
        c::skr_write_block_length(p, n, r, k)
    });
    writer(bench, Call::WriteSizes, |_, _, r, k| unsafe {
        c::skr_write_sizes(0, 255, 0, 256, r, k)
    });
    writer(bench, Call::WriteFileSizes, |_, _, r, k| unsafe {
        c::skr_write_file_sizes(0, 255, 0, 256, r, k)
    });
    writer(bench, Call::WriteDirSize, |_, _, r, k| unsafe {
        c::skr_write_dir_size(0, 255, r, k)
    });
    writer(bench, Call::WritePosition, |_, _, r, k| unsafe {
        c::skr_write_position(7, r, k)
    });
}
