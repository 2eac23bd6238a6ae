//! What the original has and no door leads to, and payloads, whose doors module `parts` compares. The original's answers must be
//! document 01's, and each goes into the recorded list, for the program `oracle_answers` to hold ours against them.
use crate::bench::Bench;
use crate::grid::{SIZES, request};
use crate::record::Answer;
use crate::report::agree;
use crate::rng::Rng;
use crate::tally::Item;
use crate::{model, names};
use oracle::items;
use oracle::plain::{Payload, PayloadSort, Refusal};
use skrolvind::Severity;
use std::array::from_fn;

/// In the order in which the list counts them, from 0.
const SORTS: [PayloadSort; 6] = [
    PayloadSort::Sizes,
    PayloadSort::FileSizes,
    PayloadSort::DirSize,
    PayloadSort::Position,
    PayloadSort::Block,
    PayloadSort::Name,
];

/// What is made of a byte, or of two: every byte, and every pair of bytes.
pub fn of_bytes(bench: &mut Bench) {
    for byte in 0..=255 {
        masks(bench, byte);
        masks_joined(bench, byte);
        names(bench, byte);
        ways_back(bench, byte);
        sub_function(bench, byte);
        mode(bench, byte);
    }
    constants(bench);
}

fn masks(bench: &mut Bench, byte: u8) {
    let paper = Answer::of([byte]).and(model::bits(byte));
    let (bits, has) = items::status(byte);
    let original = Answer::of([bits]).and(has);
    bench.item(Item::Status, &[byte], original, &paper);
    let paper = paper.and([model::severity_valid(byte)]);
    let (bits, has, valid) = items::severity(byte);
    agree(
        "the binding's severity answers otherwise than the original",
        &[byte],
        &bound_severity(byte),
        &(bits, has, valid),
    );
    let original = Answer::of([bits]).and(has).and([valid]);
    bench.item(Item::Severity, &[byte], original, &paper);
}

/// What the binding says of a severity, likewise: its bits, whether each named one is set, and whether it is valid.
fn bound_severity(byte: u8) -> (u8, [bool; 8], bool) {
    let severity = Severity::from_bits(byte);
    let [a, b, c, d, e] = from_fn(|class| severity.has_class(class as u8));
    let (f, g) = (severity.maintenance_only(), severity.check_at_next_halt());
    let has = [a, b, c, d, e, f, g, severity.check_immediately()];
    (severity.bits(), has, severity.is_valid())
}

/// A mask with every other: the bits of either, those of both, and whether they match.
fn masks_joined(bench: &mut Bench, a: u8) {
    let paper = rows(|b| [a | b, a & b]);
    let status = rows(|b| items::status_joined(a, b));
    bench.item(Item::StatusJoined, &[a], status, &paper);
    let severity = rows(|b| items::severity_joined(a, b));
    bench.item(Item::SeverityJoined, &[a], severity, &paper);
    // of this the original has a rule in a comment, and no call
    let matching = (0..=255).map(|b| model::matches(a, b));
    bench.item_by_rule(
        Item::StatusMatches,
        &[a],
        Answer::default().digits(matching),
    );
}

/// Two rows of 256 bytes.
fn rows(joined: impl Fn(u8) -> [u8; 2]) -> Answer {
    let (either, both): (Vec<u8>, Vec<u8>) = (0..=255).map(|b| joined(b).into()).unzip();
    Answer::default().bytes(&either).bytes(&both)
}

fn names(bench: &mut Bench, byte: u8) {
    let original = Answer::of(items::format(byte));
    let paper = Answer::of([model::format(byte), byte]);
    bench.item(Item::Format, &[byte], original, &paper);
    let original = Answer::of(items::group(byte));
    let paper = Answer::of([model::group(byte), byte]);
    bench.item(Item::Group, &[byte], original, &paper);
    let (value, reserved) = items::record_number(byte);
    let original = Answer::of([value]).and([reserved]);
    let paper = Answer::of([byte]).and([byte == 0]);
    bench.item(Item::RecordNumber, &[byte], original, &paper);
    let original = Answer::of([items::format_byte(byte)]);
    bench.item(Item::FormatByte, &[byte], original, &Answer::of([byte]));
}

/// The original's other ways from a name to its byte lead where `value` leads, which is the one that we have.
fn ways_back(bench: &mut Bench, byte: u8) {
    for ways in items::ways_back(byte) {
        let sentence = "the original converts a name to another byte than its value, or finds it equal to another";
        agree(sentence, &[byte], &ways, &(byte, vec![byte]));
    }
    bench.tally.count_item(Item::WaysBack, false);
}

fn sub_function(bench: &mut Bench, byte: u8) {
    let original = items::sub_function(byte);
    let paper = model::one_of(1..=3, byte, 4);
    let [original, paper] =
        [original, paper].map(|a| Answer::default().read(a.map(|b| [b.into()])));
    bench.item(Item::SubFunction, &[byte], original, &paper);
}

/// A mode that the original holds as reserved is a refusal here.
fn mode(bench: &mut Bench, byte: u8) {
    let original = match items::mode(byte) {
        (true, value) => Ok(value),
        (false, value) => Err(Refusal::new(3, value.into(), 0)),
    };
    let paper = model::one_of(1..=6, byte, 3);
    let [original, paper] =
        [original, paper].map(|a| Answer::default().read(a.map(|b| [b.into()])));
    bench.item(Item::Mode, &[byte], original, &paper);
}

fn constants(bench: &mut Bench) {
    let (size, all_codes) = items::code_constants();
    let original = Answer::of(all_codes).and([size as u64]);
    bench.item(
        Item::Constants,
        &[0],
        original,
        &Answer::of([255u8, 255, 255, 3]),
    );
    for (mask, named) in items::named_bits().into_iter().enumerate() {
        let paper = Answer::of((0..8).map(|bit| 1u8 << bit));
        bench.item(
            Item::Constants,
            &[1 + mask as u8],
            Answer::of(named),
            &paper,
        );
    }
    for (list, codes) in items::negative_codes().into_iter().enumerate() {
        let original = Answer::default().bytes(&codes);
        let paper = Answer::default().bytes(&model::NEGATIVE_CODES[list]);
        bench.item(Item::NegativeCodes, &[list as u8], original, &paper);
    }
}

/// Trouble codes as numbers, and trouble-code fields read and written.
pub fn trouble_codes(bench: &mut Bench) {
    let mut rng = Rng::new(24);
    for byte in 0..=255 {
        codes_of(bench, byte);
        let code = [rng.byte(), rng.byte(), rng.byte()];
        for changed in 0..3 {
            let mut other = code;
            other[changed] = byte;
            code_number(bench, other);
            codes_equal(bench, code, other);
            codes_equal(bench, other, other);
        }
        code_written(bench, code, 3 + usize::from(byte % 4));
        byte_fields_written(bench, byte, 1 + usize::from(byte % 4));
        byte_fields(bench, 0, &[byte]);
    }
    for len in 0..=9 {
        for at in 0..=len {
            let buffer = rng.bytes(len);
            byte_fields(bench, at, &buffer);
            code_read(bench, at, &buffer);
        }
    }
}

fn codes_of(bench: &mut Bench, high: u8) {
    let original = Answer::of(items::codes_of(high));
    bench.item(
        Item::CodesOf,
        &[high],
        original,
        &Answer::of([65_536u32; 4]),
    );
}

fn code_number(bench: &mut Bench, code: [u8; 3]) {
    let (bytes, [number, converted]) = items::code(code);
    let sentence = "the original converts a trouble code to another number than it says";
    agree(sentence, &code, &number, &converted);
    let [high, middle, low] = code.map(u32::from);
    let paper = Answer::of(code).and([65_536 * high + 256 * middle + low]);
    bench.item(Item::Code, &code, Answer::of(bytes).and([number]), &paper);
}

fn codes_equal(bench: &mut Bench, a: [u8; 3], b: [u8; 3]) {
    let original = Answer::of([items::codes_equal(a, b)]);
    bench.item(
        Item::CodesEqual,
        &[a, b].concat(),
        original,
        &Answer::of([a == b]),
    );
}

fn code_written(bench: &mut Bench, code: [u8; 3], room: usize) {
    let original = Answer::default().written(Ok(&items::code_written(code)), room);
    let paper = Answer::default().written(Ok(&code), room);
    bench.item(Item::CodeWritten, &in_room(room, &code), original, &paper);
}

fn byte_fields_written(bench: &mut Bench, byte: u8, room: usize) {
    for (field, bytes) in items::byte_fields_written(byte).into_iter().enumerate() {
        let original = Answer::default().written(Ok(&bytes), room);
        let paper = Answer::default().written(Ok(&[byte]), room);
        let input = in_room(room, &[field as u8, byte]);
        bench.item(Item::ByteFieldsWritten, &input, original, &paper);
    }
}

fn byte_fields(bench: &mut Bench, at: usize, buffer: &[u8]) {
    for (field, read) in items::byte_fields(&buffer[at..]).into_iter().enumerate() {
        let original = read.map(|(byte, tail)| [byte.into(), (buffer.len() - tail) as u64]);
        let paper = model::field(&buffer[at..], 1);
        let paper = paper.map(|bytes| [bytes[0].into(), at as u64 + 1]);
        let [original, paper] = [original, paper].map(|answer| Answer::default().read(answer));
        bench.item(
            Item::ByteFields,
            &at_place(field, at, buffer),
            original,
            &paper,
        );
    }
}

fn code_read(bench: &mut Bench, at: usize, buffer: &[u8]) {
    let numbers =
        |code: &[u8], next: usize| [code[0].into(), code[1].into(), code[2].into(), next as u64];
    let original = items::code_read(&buffer[at..]);
    let original = original.map(|(code, tail)| numbers(&code, buffer.len() - tail));
    let paper = model::field(&buffer[at..], 3).map(|code| numbers(code, at + 3));
    let [original, paper] = [original, paper].map(|answer| Answer::default().read(answer));
    bench.item(Item::CodeRead, &at_place(0, at, buffer), original, &paper);
}

/// The length of a room, and what is written into it.
fn in_room(room: usize, bytes: &[u8]) -> Vec<u8> {
    [&(room as u16).to_be_bytes(), bytes].concat()
}

/// Which field, its place in a buffer, and the buffer.
fn at_place(which: usize, at: usize, buffer: &[u8]) -> Vec<u8> {
    [&[which as u8, at as u8], buffer].concat()
}

/// Payloads of file transfer messages, read and written; and what a request says that it asks for.
pub fn payloads(bench: &mut Bench) {
    let mut rng = Rng::new(38);
    for width in 1..=16 {
        for sort in 0..SORTS.len() {
            payload_cut(bench, &mut rng, sort, width);
        }
    }
    for uncompressed in SIZES {
        for compressed in SIZES {
            sizes_written(bench, uncompressed, compressed);
        }
    }
    for len in [0, 1, 2, 20, 254, 255, 256, 257] {
        let block = rng.bytes(len);
        payload_written(bench, 4, Payload::default(), &block, 260);
        payload_written(bench, 5, Payload::default(), &ascii(&block), 260);
    }
    for len in (0..=300).chain([1_000, 4_096, 65_535, 65_536]) {
        block_held(bench, len);
        name_held(bench, len);
    }
    for kind in 0..=8 {
        for len in [0, 3, 20] {
            mode_of_operation(bench, &request(kind, &vec![b'n'; len], 2));
        }
    }
}

/// The bytes without their top bits.
fn ascii(bytes: &[u8]) -> Vec<u8> {
    bytes.iter().map(|byte| byte & 0x7F).collect()
}

/// A payload of this sort, its sizes, its block length or its name of this width, with bytes before it, whole, cut and lengthened.
fn payload_cut(bench: &mut Bench, rng: &mut Rng, sort: usize, width: usize) {
    let (head, bytes) = match SORTS[sort] {
        PayloadSort::Sizes => (vec![width as u8], rng.bytes(2 * width)),
        PayloadSort::FileSizes => (vec![0, width as u8], rng.bytes(2 * width)),
        PayloadSort::DirSize => (vec![0, width as u8], rng.bytes(width)),
        PayloadSort::Position => (vec![], rng.bytes(8)),
        PayloadSort::Block => (vec![width as u8], rng.bytes(width)),
        // one name in two is good
        PayloadSort::Name if width.is_multiple_of(2) => {
            (vec![0, width as u8], ascii(&rng.bytes(width)))
        }
        PayloadSort::Name => (vec![0, width as u8], rng.bytes(width)),
    };
    let at = width % 3;
    let payload = [rng.bytes(at), head, bytes, rng.bytes(2)].concat();
    let end = payload.len() - 2;
    for len in [at, at + 1, at + 2, end - 1, end, end + 2] {
        payload_read(bench, sort, at, &payload[..len]);
    }
}

fn payload_read(bench: &mut Bench, sort: usize, at: usize, buffer: &[u8]) {
    let numbers = |(read, tail): (Payload, usize)| {
        let [uncompressed, compressed] =
            [read.uncompressed, read.compressed].map(|size| [(size >> 64) as u64, size as u64]);
        // a place is counted from the start of the buffer; only a block length and a name have one
        let start = match SORTS[sort] {
            PayloadSort::Block | PayloadSort::Name => at + read.start,
            _ => 0,
        };
        let [start, len, next] = [start, read.len, buffer.len() - tail].map(|n| n as u64);
        [
            uncompressed[0],
            uncompressed[1],
            compressed[0],
            compressed[1],
            read.position,
            start,
            len,
            next,
        ]
    };
    let original = items::payload_read(SORTS[sort], &buffer[at..]);
    // only a name is refused with 2
    let original = names::told(original, names::of_payload(&buffer[at..]));
    let paper = model::payload(SORTS[sort], &buffer[at..]);
    let [original, paper] =
        [original, paper].map(|answer| Answer::default().read(answer.map(numbers)));
    bench.item(
        Item::PayloadRead,
        &at_place(sort, at, buffer),
        original,
        &paper,
    );
}

fn sizes_written(bench: &mut Bench, uncompressed: u128, compressed: u128) {
    let payload = Payload {
        uncompressed,
        compressed,
        position: uncompressed as u64 ^ compressed as u64,
        ..Payload::default()
    };
    for sort in 0..4 {
        payload_written(bench, sort, payload, &[], 40);
    }
}

fn payload_written(bench: &mut Bench, sort: usize, payload: Payload, part: &[u8], room: usize) {
    let original = items::payload_written(SORTS[sort], &payload, part);
    let paper = model::payload_written(SORTS[sort], &payload, part);
    let [original, paper] = [original, paper]
        .map(|bytes| Answer::default().written(bytes.as_deref().map_err(|r| *r), room));
    let input = [
        &(room as u16).to_be_bytes()[..],
        &[sort as u8],
        &payload.uncompressed.to_be_bytes(),
        &payload.compressed.to_be_bytes(),
        &payload.position.to_be_bytes(),
        part,
    ];
    bench.item(Item::PayloadWritten, &input.concat(), original, &paper);
}

fn block_held(bench: &mut Bench, len: usize) {
    let block = vec![0; len];
    let held = items::block_held(&block);
    part_held(bench, Item::BlockHeld, &block, held, 255);
}

fn name_held(bench: &mut Bench, len: usize) {
    let name = "a".repeat(len);
    let held = items::name_held(&name).map(str::as_bytes);
    part_held(bench, Item::NameHeld, name.as_bytes(), held, 65_535);
}

/// What the original holds of a block length or of a name: that very slice, where it has at most so many bytes.
fn part_held(
    bench: &mut Bench,
    item: Item,
    part: &[u8],
    held: Result<&[u8], Refusal>,
    most: usize,
) {
    let same = held.map_or(part, |held| held);
    let sentence = "the original holds another slice than the one that it was lent";
    agree(
        sentence,
        &[],
        &(same.as_ptr(), same.len()),
        &(part.as_ptr(), part.len()),
    );
    let [original, paper] = [held, model::held(part, most)]
        .map(|held| Answer::default().read(held.map(|held| [held.len() as u64])));
    let length = (part.len() as u32).to_be_bytes();
    bench.item(item, &length, original, &paper);
}

fn mode_of_operation(bench: &mut Bench, message: &[u8]) {
    let original = items::mode_of_operation(message);
    let paper = model::read_request(message).map(|read| read.kind);
    let [original, paper] =
        [original, paper].map(|a| Answer::default().read(a.map(|kind| [kind.into()])));
    bench.item(Item::ModeOfOperation, message, original, &paper);
}
