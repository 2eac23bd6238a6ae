//! The counts, the recorder, and the rooms that both sides write into.
use crate::expected;
use crate::record::{Answer, LONGEST_ROOM, Recorder, numbers, sort, with_room};
use crate::report::{agree, differ, hex};
use crate::tally::{Call, Item, Rule, Tally};
use oracle::plain::Refusal;
use skrolvind::flat::Written;
use std::fmt::Debug;
use std::hint::black_box;

/// More than the longest message has, a routine message with a record that is too long among them.
const PLENTY: usize = 66_000;
/// Bytes before the room and as many behind it, which nobody may touch.
const AROUND: usize = 16;
/// What is refused though its room is ample, an over-long part, a fault in a long name, in a long listing or its text, is tried in plenty
/// of room too.
const SHORT: usize = 255;

pub struct Bench {
    pub tally: Tally,
    pub recorder: Option<Recorder>,
    pub plenty: Vec<u8>,
    lent: Vec<u8>,
    filler: u8,
    before: Vec<u8>,
}

/// A call that writes, as the library has it and as the binding has it. `input` tells what it is handed; in a recorded list that is
/// the length of the room, the arguments and the bytes. `kind` is the kind or sub-function of a message that can be written.
pub struct Writer<'a, F, B> {
    pub call: Call,
    pub kind: u8,
    pub input: &'a dyn Fn() -> String,
    pub arguments: &'a dyn Fn() -> Vec<u8>,
    pub bytes: &'a [u8],
    pub flat: F,
    pub bound: B,
}

impl Bench {
    pub fn new(recorder: Option<Recorder>) -> Self {
        Self {
            tally: Tally::new(),
            recorder,
            plenty: vec![0; PLENTY],
            lent: vec![0; 2 * PLENTY],
            filler: 0,
            before: Vec::new(),
        }
    }

    /// Makes calls that are lent these bytes for reading, and ends the program unless the bytes are as they were.
    pub fn watched(&mut self, bytes: &[u8], calls: impl FnOnce(&mut Self)) {
        let mut before = std::mem::take(&mut self.before);
        before.clear();
        before.extend_from_slice(bytes);
        calls(self);
        // looked at anew: the compiler takes for granted that bytes lent for reading stay as they are
        agree(
            "bytes lent for reading are changed",
            &before,
            &black_box(bytes),
            &&before[..],
        );
        self.before = before;
    }

    /// An answer to a call that does not write was equal: it is counted, and handed to the recorder where it is the original's own.
    pub fn equal(
        &mut self,
        call: Call,
        rule: Option<Rule>,
        sort: usize,
        input: &[u8],
        record: &dyn Debug,
    ) {
        self.tally.count(call, rule);
        if let (Some(recorder), true) = (&mut self.recorder, Rule::is_recorded(rule)) {
            recorder.offer(call, sort, &[], input, || numbers(record));
        }
    }

    /// What the original answers to a call that has no door, and what document 01 says.
    pub fn item(&mut self, item: Item, input: &[u8], original: Answer, paper: &Answer) {
        agree(
            "the original answers otherwise than document 01",
            input,
            &original,
            paper,
        );
        self.tally.count_item(item, false);
        if let Some(recorder) = &mut self.recorder {
            recorder.put(item, input, &original);
        }
    }

    /// What document 01 says of a call that the original does not have.
    pub fn item_by_rule(&mut self, item: Item, input: &[u8], paper: Answer) {
        self.tally.count_item(item, true);
        if let Some(recorder) = &mut self.recorder {
            recorder.put(item, input, &paper);
        }
    }

    /// The recorder draws anew.
    pub fn end_part(&mut self) {
        if let Some(recorder) = &mut self.recorder {
            recorder.end_part();
        }
    }

    /// A writing call that the original does not have, in rooms of several lengths: `wanted` is what a model of the rule writes in plenty
    /// of room. What the call is lent for reading must stay as it was.
    pub fn beside_model<F, B>(
        &mut self,
        writer: &Writer<'_, F, B>,
        wanted: Result<Vec<u8>, Refusal>,
        rule: Rule,
    ) where
        F: Fn(&mut [u8]) -> Written,
        B: Fn(&mut [u8]) -> Option<Result<usize, skrolvind::Refusal>>,
    {
        let wanted = wanted.map(|bytes| {
            self.plenty[..bytes.len()].copy_from_slice(&bytes);
            bytes.len()
        });
        self.watched(writer.bytes, |bench| {
            bench.in_rooms(writer, wanted, Some(rule));
        });
    }

    /// A writing call in rooms of several lengths. `wanted` is the original's answer in plenty of room, and what it wrote stands in
    /// `plenty`; where a rule is given, `wanted` is that rule's answer.
    pub fn in_rooms<F, B>(
        &mut self,
        writer: &Writer<'_, F, B>,
        wanted: Result<usize, Refusal>,
        rule: Option<Rule>,
    ) where
        F: Fn(&mut [u8]) -> Written,
        B: Fn(&mut [u8]) -> Option<Result<usize, skrolvind::Refusal>>,
    {
        match wanted {
            Err(refusal) => {
                self.in_room(writer, wanted, rule, 0);
                self.in_room(writer, wanted, rule, 40);
                let ours = [Rule::Listing, Rule::Text, Rule::Changes].map(Some);
                let ample = refusal.number == 2 || ours.contains(&rule);
                if ample && writer.bytes.len() > SHORT {
                    self.in_room(writer, wanted, rule, PLENTY);
                }
            }
            Ok(needed) => {
                // none is too short for an empty text
                let rooms = [0, needed / 2, needed.saturating_sub(1)];
                for room in rooms.into_iter().filter(|room| *room < needed) {
                    let short = Refusal::new(7, needed as u64, room as u64);
                    self.in_room(writer, Err(short), Some(Rule::Room), room);
                }
                for room in [needed, needed + 1, needed + 23] {
                    self.in_room(writer, wanted, rule, room);
                }
            }
        }
    }

    fn in_room<F, B>(
        &mut self,
        writer: &Writer<'_, F, B>,
        wanted: Result<usize, Refusal>,
        rule: Option<Rule>,
        room: usize,
    ) where
        F: Fn(&mut [u8]) -> Written,
        B: Fn(&mut [u8]) -> Option<Result<usize, skrolvind::Refusal>>,
    {
        self.fill(room);
        let record = (writer.flat)(&mut self.lent[AROUND..][..room]);
        if record != expected::written(wanted) {
            self.differ("a writer answers otherwise", writer, room, &record, &wanted);
        }
        self.contents(writer, wanted, room);
        self.fill(room);
        let Some(answer) = (writer.bound)(&mut self.lent[AROUND..][..room]) else {
            self.tally.count(writer.call, rule);
            return;
        };
        if answer.map_err(expected::refusal) != wanted {
            self.differ(
                "the binding's writer answers otherwise",
                writer,
                room,
                &answer,
                &wanted,
            );
        }
        self.contents(writer, wanted, room);
        self.equal_in_room(writer, wanted, rule, room);
    }

    /// An answer to a writing call was equal, likewise.
    fn equal_in_room<F, B>(
        &mut self,
        writer: &Writer<'_, F, B>,
        wanted: Result<usize, Refusal>,
        rule: Option<Rule>,
        room: usize,
    ) {
        self.tally.count(writer.call, rule);
        if room > LONGEST_ROOM {
            return;
        }
        if let (Some(recorder), true) = (&mut self.recorder, Rule::is_recorded(rule)) {
            let room_length = (room as u16).to_be_bytes();
            let arguments = [&room_length[..], &(writer.arguments)()].concat();
            let written = &self.plenty[..wanted.unwrap_or(0)];
            let text = || with_room(&expected::written(wanted), written, room);
            let sort = sort(&wanted, |_| writer.kind);
            recorder.offer(writer.call, sort, &arguments, writer.bytes, text);
        }
    }

    /// Fills the room and what is around it, with another byte each time.
    fn fill(&mut self, room: usize) {
        self.filler = self.filler.wrapping_add(0x3B);
        self.lent[..room + 2 * AROUND].fill(self.filler);
    }

    /// The bytes written are the original's, and every other byte is what it was.
    fn contents<F, B>(
        &self,
        writer: &Writer<'_, F, B>,
        wanted: Result<usize, Refusal>,
        room: usize,
    ) {
        let count = wanted.unwrap_or(0);
        let (before, rest) = self.lent[..room + 2 * AROUND].split_at(AROUND);
        let (written, kept) = rest.split_at(count);
        if written != &self.plenty[..count] {
            differ(
                "other bytes are written",
                &(writer.input)(),
                &hex(written),
                &hex(&self.plenty[..count]),
            );
        }
        for (place, bytes) in [("before", before), ("behind", kept)] {
            if bytes.iter().any(|b| *b != self.filler) {
                differ(
                    &format!(
                        "bytes are changed {place} the {count} to be written, in a room of {room} with {AROUND} around it"
                    ),
                    &(writer.input)(),
                    &hex(bytes),
                    &format!("every byte {:02X}", self.filler),
                );
            }
        }
    }

    fn differ<F, B>(
        &self,
        sentence: &str,
        writer: &Writer<'_, F, B>,
        room: usize,
        ours: &dyn std::fmt::Debug,
        wanted: &dyn std::fmt::Debug,
    ) -> ! {
        differ(
            &format!("{sentence}, in a room of {room}"),
            &(writer.input)(),
            &format!("{ours:?}"),
            &format!("{wanted:?}"),
        )
    }
}
