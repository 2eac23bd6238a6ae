//! The list of the original's answers that `--record` writes: some of what was compared, a line for each answer.
//!
//! They are drawn in each part of the comparison anew, so many of each call with each refusal, or with each kind of what was accepted,
//! and the more of them the shorter they are. The draw goes by the seed alone, so that the same command writes the same bytes.
use crate::rng::Rng;
use crate::tally::{Call, Item};
use oracle::plain::Refusal;
use std::collections::BTreeSet;
use std::fmt::Debug;

/// What the list says of itself.
const HEAD: &str = include_str!("record.txt");
/// No line crosses the end of a page.
const PAGE: usize = 65_536;
/// A longer input goes into no list, but for a name that is checked.
const LONGEST: usize = 300;
const LONGEST_NAME: usize = 1_300;
/// An answer from a longer room goes into no list.
pub const LONGEST_ROOM: usize = 400;
/// How many of a sort are drawn in a part where the message, name or record has up to so many bytes: of one whose lines are long, and
/// of one whose lines are short (a call that only reads, and was refused or has no kinds).
const QUOTAS: [(usize, [usize; 2]); 5] = [
    (8, [49, 300]),
    (20, [10, 40]),
    (64, [5, 20]),
    (LONGEST, [2, 2]),
    (LONGEST_NAME, [1, 1]),
];
/// What stands in a room before the call.
const FILLER: u8 = 0xAA;
/// The letters of the calls; those of the desk, of sheets, of logs and of reasons are not the original's, and have none.
const LETTERS: [char; 19] = [
    'A', 'B', 'C', 'D', 'E', 'F', 'G', 'H', 'I', 'J', '-', 'K', 'L', 'M', '-', '-', '-', '-', '-',
];
/// Refusals, of which the original's run up to 5, and then the kinds of what was accepted, up to 6.
const ACCEPTED: usize = 6;
const SORTS: usize = ACCEPTED + 7;

/// The answers of one sort in one part: how many there were, and those that were drawn.
#[derive(Clone, Default)]
struct Sort {
    offered: usize,
    drawn: Vec<String>,
}

pub struct Recorder {
    seed: u64,
    rng: Rng,
    sorts: Vec<Sort>,
    lines: BTreeSet<String>,
    ended: bool,
}

impl Recorder {
    pub fn new(seed: u64) -> Self {
        Self {
            seed,
            rng: Rng::new(seed),
            sorts: vec![Sort::default(); LETTERS.len() * SORTS * QUOTAS.len()],
            lines: BTreeSet::new(),
            ended: false,
        }
    }

    /// An answer of the original's: its input is the arguments and then the bytes, `sort` is what [`sort`] says. Each of a sort is
    /// drawn with the same chance.
    pub fn offer(
        &mut self,
        call: Call,
        sort: usize,
        arguments: &[u8],
        bytes: &[u8],
        answer: impl FnOnce() -> String,
    ) {
        let longest = match call {
            Call::ValidUpTo => LONGEST_NAME,
            _ => LONGEST,
        };
        if self.ended || arguments.len() + bytes.len() > longest {
            return;
        }
        let length = QUOTAS.partition_point(|(most, _)| *most < bytes.len());
        let short = sort <= ACCEPTED && arguments.is_empty();
        let quota = QUOTAS[length].1[usize::from(short)];
        let sort = (call as usize * SORTS + sort) * QUOTAS.len() + length;
        let sort = &mut self.sorts[sort];
        sort.offered += 1;
        let full = sort.drawn.len() == quota;
        let place = self.rng.below(sort.offered);
        if full && place >= quota {
            return;
        }
        let input = hex(&[arguments, bytes].concat());
        let line = format!("{} {input} {}", LETTERS[call as usize], answer());
        if full {
            sort.drawn[place] = line;
        } else {
            sort.drawn.push(line);
        }
    }

    /// An answer to a call that has no door: all of these go into the list.
    pub fn put(&mut self, item: Item, input: &[u8], answer: &Answer) {
        let line = format!("{} {}{}", item.letter(), hex(input), answer.0);
        self.lines.insert(line);
    }

    /// A part is over: what was drawn in it goes into the list.
    pub fn end_part(&mut self) {
        for sort in &mut self.sorts {
            sort.offered = 0;
            self.lines.extend(sort.drawn.drain(..));
        }
    }

    /// Nothing more goes into the list.
    pub fn end(&mut self) {
        self.end_part();
        self.ended = true;
    }

    /// How many answers the list has.
    pub fn count(&self) -> usize {
        self.lines.len()
    }

    /// The whole list: its head, then the answers in order, no line across the end of a page.
    pub fn text(&self) -> String {
        let mut text = HEAD.replace("SEED", &self.seed.to_string());
        for line in &self.lines {
            let left = PAGE - text.len() % PAGE;
            if left < line.len() + 1 {
                text.push_str(&"\n".repeat(left));
            }
            text.push_str(line);
            text.push('\n');
        }
        text
    }
}

/// An answer as the list has it, each part of it after a space.
#[derive(Clone, Debug, Default, PartialEq)]
pub struct Answer(String);

impl Answer {
    pub fn of<T: Into<u64>>(numbers: impl IntoIterator<Item = T>) -> Self {
        Self::default().and(numbers)
    }

    /// With these numbers, of which a truth is 0 or 1.
    pub fn and<T: Into<u64>>(mut self, numbers: impl IntoIterator<Item = T>) -> Self {
        for number in numbers {
            self.0.push_str(&format!(" {}", number.into()));
        }
        self
    }

    /// With these bytes in hexadecimal.
    pub fn bytes(self, bytes: &[u8]) -> Self {
        Self(format!("{} {}", self.0, hex(bytes)))
    }

    /// With these truths as one word.
    pub fn digits(mut self, truths: impl IntoIterator<Item = bool>) -> Self {
        let digits = truths
            .into_iter()
            .map(|truth| if truth { '1' } else { '0' });
        self.0.push(' ');
        self.0.extend(digits);
        self
    }

    /// With what was read after a refusal's three numbers; where it was refused, zeros.
    pub fn read<const N: usize>(self, answer: Result<[u64; N], Refusal>) -> Self {
        let none = Refusal::new(0, 0, 0);
        let refusal = answer.err().unwrap_or(none);
        let three = [refusal.number, refusal.first, refusal.second];
        self.and(three).and(answer.unwrap_or([0; N]))
    }

    /// With what a writer answers that wrote these bytes, and the whole room after the call.
    pub fn written(self, answer: Result<&[u8], Refusal>, room: usize) -> Self {
        let answered = self.read(answer.map(|written| [written.len() as u64]));
        answered.bytes(&filled(answer.unwrap_or(&[]), room))
    }
}

/// Which sort an answer is: its refusal, or the kind or sub-function of what was accepted.
pub fn sort<T>(answer: &Result<T, Refusal>, kind: impl FnOnce(&T) -> u8) -> usize {
    match answer {
        Err(refusal) => refusal.number as usize,
        Ok(accepted) => ACCEPTED + usize::from(kind(accepted)),
    }
}

/// The bytes in hexadecimal, or a dash where there are none.
fn hex(bytes: &[u8]) -> String {
    if bytes.is_empty() {
        return "-".into();
    }
    bytes.iter().map(|byte| format!("{byte:02x}")).collect()
}

/// The numbers of a record in the order of its fields, which is that of `include/skrolvind.h`: what its `Debug` form has beside names.
pub fn numbers(record: &dyn Debug) -> String {
    let text = format!("{record:?}");
    let words = text.split(|c: char| !c.is_ascii_digit());
    let numbers: Vec<&str> = words.filter(|word| !word.is_empty()).collect();
    numbers.join(" ")
}

/// The same of a writer's record, and the whole room after the call.
pub fn with_room(record: &dyn Debug, written: &[u8], room: usize) -> String {
    format!("{} {}", numbers(record), hex(&filled(written, room)))
}

/// A room with these bytes at its start.
fn filled(written: &[u8], room: usize) -> Vec<u8> {
    let mut contents = written.to_vec();
    contents.resize(room, FILLER);
    contents
}
