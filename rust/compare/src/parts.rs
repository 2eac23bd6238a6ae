//! The doors of parts: a name, a block length, sizes and a position by themselves, beside the original's payloads.
use crate::bench::{Bench, Writer};
use crate::grid::SIZES;
use crate::random::{self, CHARACTERS, name_with_fault};
use crate::report::{agree, hex};
use crate::rng::Rng;
use crate::tally::{Call, Rule};
use crate::{model, names};
use oracle::items;
use oracle::plain::{Payload, PayloadSort, Refusal};
use skrolvind::flat::{self, Part, PartPosition, PartSizes, Sizes, Written};

const SORTS: [PayloadSort; 6] = [
    PayloadSort::Name,
    PayloadSort::Block,
    PayloadSort::Sizes,
    PayloadSort::FileSizes,
    PayloadSort::DirSize,
    PayloadSort::Position,
];
/// The sorts that are made of numbers.
const NUMBERS: [PayloadSort; 4] = [SORTS[2], SORTS[3], SORTS[4], SORTS[5]];

/// What is to be read: the payload and how many bytes follow it, or the refusal.
type Answer = Result<(Payload, usize), Refusal>;

/// The doors of a sort, the reader and the writer.
fn calls(sort: PayloadSort) -> [Call; 2] {
    match sort {
        PayloadSort::Name => [Call::ReadName, Call::WriteName],
        PayloadSort::Block => [Call::ReadBlockLength, Call::WriteBlockLength],
        PayloadSort::Sizes => [Call::ReadSizes, Call::WriteSizes],
        PayloadSort::FileSizes => [Call::ReadFileSizes, Call::WriteFileSizes],
        PayloadSort::DirSize => [Call::ReadDirSize, Call::WriteDirSize],
        PayloadSort::Position => [Call::ReadPosition, Call::WritePosition],
    }
}

/// The three numbers of a refusal, the payload and where it ends; after a refusal the last two are 0.
fn told(buffer: &[u8], answer: Answer) -> ([u64; 3], Payload, u64) {
    match answer {
        Ok((payload, left)) => ([0; 3], payload, (buffer.len() - left) as u64),
        Err(r) => ([r.number, r.first, r.second], Payload::default(), 0),
    }
}

fn part(buffer: &[u8], answer: Answer) -> Part {
    let ([number, first, second], payload, tail) = told(buffer, answer);
    Part {
        number,
        first,
        second,
        start: payload.start as u64,
        len: payload.len as u64,
        tail,
    }
}

fn sizes(buffer: &[u8], answer: Answer) -> PartSizes {
    let ([number, first, second], payload, tail) = told(buffer, answer);
    let halves = Sizes::new(payload.uncompressed, payload.compressed);
    PartSizes {
        number,
        first,
        second,
        uncompressed_high: halves.uncompressed_high,
        uncompressed_low: halves.uncompressed_low,
        compressed_high: halves.compressed_high,
        compressed_low: halves.compressed_low,
        tail,
    }
}

fn position(buffer: &[u8], answer: Answer) -> PartPosition {
    let ([number, first, second], payload, tail) = told(buffer, answer);
    PartPosition {
        number,
        first,
        second,
        position: payload.position,
        tail,
    }
}

impl Bench {
    /// A part of this sort read from the start of the buffer.
    fn part_read(&mut self, sort: PayloadSort, buffer: &[u8]) {
        let original = items::payload_read(sort, buffer);
        // only a name is refused with 2
        let wanted = names::told(original, names::of_payload(buffer));
        let sentence = "the original reads a payload otherwise than document 01";
        agree(sentence, buffer, &wanted, &model::payload(sort, buffer));
        self.watched(buffer, |bench| {
            door_agrees(sort, buffer, wanted);
            bench.tally.count(calls(sort)[0], Rule::of_read(&wanted));
        });
    }

    /// A part of every sort.
    fn parts_read(&mut self, buffer: &[u8]) {
        for sort in SORTS {
            self.part_read(sort, buffer);
        }
    }

    /// A part of this sort written, in rooms of several lengths; `bytes` is the name or the block length.
    fn part_written(&mut self, sort: PayloadSort, payload: Payload, bytes: &[u8]) {
        let writer = Writer {
            call: calls(sort)[1],
            kind: 0,
            input: &|| format!("{sort:?} {payload:?} {}", hex(bytes)),
            arguments: &Vec::new,
            bytes,
            flat: |room: &mut [u8]| write(sort, &payload, bytes, room),
            bound: |_: &mut [u8]| None,
        };
        let text = !matches!(sort, PayloadSort::Name) || str::from_utf8(bytes).is_ok();
        // what is no text cannot be handed to the original
        if !text {
            let refusal = names::refused(bytes);
            return self.watched(bytes, |bench| {
                bench.in_rooms(&writer, Err(refusal), Some(Rule::NotText));
            });
        }
        let original = items::payload_written(sort, &payload, bytes);
        let sentence = "the original writes a payload otherwise than document 01";
        let paper = model::payload_written(sort, &payload, bytes);
        agree(sentence, bytes, &original, &paper);
        let wanted = original.map(|written| {
            self.plenty[..written.len()].copy_from_slice(&written);
            written.len()
        });
        self.watched(bytes, |bench| bench.in_rooms(&writer, wanted, None));
    }

    /// Sizes, the size of a directory and a position, each by its own door.
    fn numbers_written(&mut self, uncompressed: u128, compressed: u128, position: u64) {
        let payload = Payload {
            uncompressed,
            compressed,
            position,
            ..Payload::default()
        };
        for sort in NUMBERS {
            self.part_written(sort, payload, &[]);
        }
    }
}

/// The door that reads a part of this sort answers so.
fn door_agrees(sort: PayloadSort, b: &[u8], wanted: Answer) {
    match sort {
        PayloadSort::Name => {
            let (ours, wanted) = (flat::read_name(b), part(b, wanted));
            agree("a name is read otherwise", b, &ours, &wanted);
        }
        PayloadSort::Block => {
            let (ours, wanted) = (flat::read_block_length(b), part(b, wanted));
            agree("a block length is read otherwise", b, &ours, &wanted);
        }
        PayloadSort::Sizes => {
            let (ours, wanted) = (flat::read_sizes(b), sizes(b, wanted));
            agree("a request's sizes are read otherwise", b, &ours, &wanted);
        }
        PayloadSort::FileSizes => {
            let (ours, wanted) = (flat::read_file_sizes(b), sizes(b, wanted));
            agree("a response's sizes are read otherwise", b, &ours, &wanted);
        }
        PayloadSort::DirSize => {
            let (ours, wanted) = (flat::read_dir_size(b), sizes(b, wanted));
            agree("a directory's size is read otherwise", b, &ours, &wanted);
        }
        PayloadSort::Position => {
            let (ours, wanted) = (flat::read_position(b), position(b, wanted));
            agree("a position is read otherwise", b, &ours, &wanted);
        }
    }
}

/// The door that writes a part of this sort.
fn write(sort: PayloadSort, payload: &Payload, bytes: &[u8], room: &mut [u8]) -> Written {
    let sizes = Sizes::new(payload.uncompressed, payload.compressed);
    match sort {
        PayloadSort::Name => flat::write_name(bytes, room),
        PayloadSort::Block => flat::write_block_length(bytes, room),
        PayloadSort::Sizes => flat::write_sizes(sizes, room),
        PayloadSort::FileSizes => flat::write_file_sizes(sizes, room),
        PayloadSort::DirSize => {
            flat::write_dir_size(sizes.uncompressed_high, sizes.uncompressed_low, room)
        }
        PayloadSort::Position => flat::write_position(payload.position, room),
    }
}

/// Parts to be read: all buffers of up to 2 bytes and of 4 chosen ones; every width, whole, cut at every place and lengthened; sizes
/// at their bounds in every width that holds them; names and block lengths around their lengths, good and bad.
pub fn read(bench: &mut Bench) {
    let mut rng = Rng::new(146);
    bench.parts_read(&[]);
    for a in 0..=255 {
        bench.parts_read(&[a]);
        for b in 0..=255 {
            bench.parts_read(&[a, b]);
        }
    }
    let chosen = [0, 1, 2, 17, 0x61, 0xC3, 0xFF];
    for number in 0..chosen.len().pow(4) {
        let places = [1, 7, 49, 343].map(|place| chosen[number / place % chosen.len()]);
        bench.parts_read(&places);
    }
    for width in (0..=19).chain([32, 127, 128, 255]) {
        cuts(
            bench,
            &[vec![width as u8], rng.bytes(2 * width + 3)].concat(),
        );
        cuts(
            bench,
            &[vec![0, width as u8], rng.bytes(2 * width + 3)].concat(),
        );
    }
    for width in [256, 257, 272, 4_096, 32_767, 65_535] {
        let [high, low] = (width as u16).to_be_bytes();
        let buffer = [vec![high, low], vec![0x61; 2 * width + 3]].concat();
        for end in [2, 2 + width, 2 + 2 * width] {
            for len in end - 1..=end + 1 {
                bench.parts_read(&buffer[..len]);
            }
        }
    }
    sizes_at_bounds(bench);
    names_read(bench, &mut rng);
}

/// The buffer cut at every place.
fn cuts(bench: &mut Bench, buffer: &[u8]) {
    for len in 0..=buffer.len() {
        bench.parts_read(&buffer[..len]);
    }
}

/// Two sizes of one width, behind it in one byte and in two.
fn sizes_at_bounds(bench: &mut Bench) {
    for width in 1..=16 {
        let fits = |size: &u128| width == 16 || size >> (8 * width) == 0;
        for a in SIZES.into_iter().filter(fits) {
            for b in SIZES.into_iter().filter(fits) {
                let bytes = [a, b].map(|size| size.to_be_bytes()[16 - width..].to_vec());
                let two = [vec![0, width as u8], bytes.concat()].concat();
                bench.parts_read(&two);
                bench.parts_read(&two[1..]);
            }
        }
    }
}

/// Names of each number of characters up to 100, with one fault and without, and the bytes of each as a block length.
fn names_read(bench: &mut Bench, rng: &mut Rng) {
    for characters in 0..=100 {
        for lengths in CHARACTERS {
            let bad = name_with_fault(rng, characters, lengths);
            let good = vec![b'n'; bad.len()];
            for name in [bad, good] {
                let [high, low] = (name.len() as u16).to_be_bytes();
                let tail = rng.bytes(characters % 3);
                let buffer = [&[high, low], &name[..], &tail].concat();
                bench.parts_read(&buffer);
                bench.parts_read(&buffer[1..]);
                bench.parts_read(&buffer[..1 + name.len()]);
            }
        }
    }
}

/// Parts to be written: every pair of sizes at their bounds; block lengths and names of every length up to 300, around their longest,
/// and bad ones.
pub fn written(bench: &mut Bench) {
    let mut rng = Rng::new(147);
    for uncompressed in SIZES {
        for compressed in SIZES {
            bench.numbers_written(uncompressed, compressed, rng.number());
        }
    }
    for position in [0, 1, 255, 256, 1 << 63, u64::MAX] {
        bench.numbers_written(0, 0, position);
    }
    let none = Payload::default();
    for len in (0..=300).chain([65_534, 65_535, 65_536, 65_537]) {
        bench.part_written(PayloadSort::Block, none, &rng.bytes(len));
        bench.part_written(PayloadSort::Name, none, &vec![b'n'; len]);
        let mut bad = vec![b'n'; len + 1];
        bad[rng.below(len + 1)] = 0xFF;
        bench.part_written(PayloadSort::Name, none, &bad);
    }
    for characters in 0..=100 {
        let name = name_with_fault(&mut rng, characters, CHARACTERS[characters % 6]);
        bench.part_written(PayloadSort::Name, none, &name);
    }
}

/// Random parts, read and written.
pub fn round(bench: &mut Bench, rng: &mut Rng) {
    for _ in 0..20 {
        let len = rng.below(40);
        let mut buffer = rng.bytes(len);
        bench.parts_read(&buffer);
        if let [first, second, ..] = &mut buffer[..] {
            (*first, *second) = (0, (len / 2) as u8);
            bench.parts_read(&buffer);
            bench.parts_read(&buffer[1..]);
        }
        bench.numbers_written(random::size(rng), random::size(rng), rng.number());
        let none = Payload::default();
        let long = rng.choose(&[3, 30, 300]);
        let block = rng.bytes(long);
        bench.part_written(PayloadSort::Block, none, &block);
        bench.part_written(PayloadSort::Name, none, &block);
        let name = name_with_fault(rng, len, CHARACTERS[len % 6]);
        bench.part_written(PayloadSort::Name, none, &name);
    }
}
