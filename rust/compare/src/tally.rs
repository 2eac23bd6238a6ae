//! What was compared, and how often.
use oracle::plain::Refusal;

/// The calls that a door leads to, in the order of the table.
#[derive(Clone, Copy)]
pub enum Call {
    ReadRequest,
    ReadResponse,
    ReadRoutineRequest,
    ReadRoutineResponse,
    WriteRequest,
    WriteResponse,
    WriteRoutineRequest,
    WriteRoutineResponse,
    RewriteRequest,
    RewriteResponse,
    DeskCheck,
    ValidUpTo,
    TroubleCode,
    NextTroubleCode,
    TallyRecords,
    ReplayLog,
    ReplayStep,
    WhyRequest,
    WhyResponse,
    Needed,
    RefusalText,
    ReadBatch,
    SplitJoined,
    ReadMessage,
    WriteRequestMessage,
    WriteResponseMessage,
    WriteRoutineRequestMessage,
    WriteRoutineResponseMessage,
    WriteNegative,
    ReadListing,
    ListingRecord,
    ListingIndex,
    LookUp,
    WriteListing,
    CodeText,
    ReadCodeText,
    ExportListing,
    ImportListing,
    ListingChanges,
    ReadName,
    ReadBlockLength,
    ReadSizes,
    ReadFileSizes,
    ReadDirSize,
    ReadPosition,
    WriteName,
    WriteBlockLength,
    WriteSizes,
    WriteFileSizes,
    WriteDirSize,
    WritePosition,
}

const CALLS: [&str; 51] = [
    "requests read",
    "responses read",
    "routine requests read",
    "routine responses read",
    "requests written",
    "responses written",
    "routine requests written",
    "routine responses written",
    "requests rewritten",
    "responses rewritten",
    "requests judged at the desk",
    "names checked (against core::str::from_utf8)",
    "trouble codes of numbers",
    "next trouble codes",
    "sheets of records tallied",
    "logs of transfers run",
    "records of transfers run",
    "reasons of requests",
    "reasons of responses",
    "lengths of what is to be written (the binding's)",
    "words of refusals",
    "batches of requests read",
    "joined requests taken apart",
    "whole messages read",
    "whole requests written",
    "whole responses written",
    "whole routine requests written",
    "whole routine responses written",
    "negative answers written",
    "listings read",
    "records of listings",
    "indexes of listings",
    "codes looked up",
    "listings written",
    "codes written as text",
    "codes read as text",
    "listings exported as text",
    "listings imported from text",
    "changes between two listings",
    "names read by themselves",
    "block lengths read by themselves",
    "sizes of requests read by themselves",
    "sizes of responses read by themselves",
    "sizes of directories read by themselves",
    "positions read by themselves",
    "names written by themselves",
    "block lengths written by themselves",
    "sizes of requests written by themselves",
    "sizes of responses written by themselves",
    "sizes of directories written by themselves",
    "positions written by themselves",
];

/// What no door leads to, in the order of the letters that the recorded list has for it.
#[derive(Clone, Copy)]
pub enum Item {
    Status,
    Severity,
    StatusJoined,
    SeverityJoined,
    StatusMatches,
    Format,
    Group,
    RecordNumber,
    ByteFields,
    ByteFieldsWritten,
    Code,
    CodesOf,
    CodesEqual,
    CodeRead,
    CodeWritten,
    Constants,
    SubFunction,
    NegativeCodes,
    Mode,
    ModeOfOperation,
    FormatByte,
    PayloadRead,
    PayloadWritten,
    BlockHeld,
    NameHeld,
    WaysBack,
}

/// The letter, for how many inputs a line stands, and what it is. The last is of the original alone.
const ITEMS: [(char, u64, &str); 26] = [
    ('a', 1, "status masks: bits and eight questions"),
    ('b', 1, "severity masks: bits, eight questions, is_valid"),
    ('c', 256, "two status masks: union and intersection"),
    ('d', 256, "two severity masks: union and intersection"),
    ('e', 256, "two status masks: matches"),
    ('f', 1, "formats: which one, and its byte"),
    ('g', 1, "groups: which one, and its byte"),
    ('h', 1, "stored-data record numbers: value, is_reserved"),
    ('i', 1, "status, severity, group, record number decoded"),
    ('j', 1, "status, severity, group, record number encoded"),
    ('k', 1, "trouble codes: their bytes and their number"),
    ('l', 65_536, "trouble codes from every number, and back"),
    ('m', 1, "two trouble codes: equal or not"),
    ('n', 1, "trouble codes decoded"),
    ('o', 1, "trouble codes encoded"),
    ('p', 1, "constants of trouble codes and masks"),
    ('q', 1, "routine sub-functions from and to a byte"),
    ('r', 1, "lists of negative codes"),
    ('s', 1, "modes of file transfer from and to a byte"),
    ('t', 1, "mode_of_operation of requests"),
    ('u', 1, "format bytes in and out"),
    ('v', 1, "payloads decoded"),
    ('w', 1, "payloads encoded"),
    ('x', 1, "block lengths held or not"),
    ('y', 1, "names held or not"),
    ('-', 5 * 256, "names of bytes equal to bytes, and converted"),
];

/// Where the answer, or a part of it, is compared with a rule of this project, since the original does not decide it.
#[derive(Clone, Copy, PartialEq)]
pub enum Rule {
    Width,
    SubFunctionByte,
    Room,
    LongRecord,
    NoSuchValue,
    NotText,
    NameLength,
    NullPointer,
    Desk,
    Sheet,
    Replay,
    Why,
    Words,
    Batch,
    Joined,
    WholeMessage,
    Listing,
    Text,
    Changes,
}

const RULES: [&str; 19] = [
    "size width 0 or 17 up: refusal 6 with the width",
    "routine request refused with 4: the byte is the low seven bits",
    "too little room: refusal 7, and nothing is written",
    "routine record over 65,535 bytes: refusal 2",
    "kind or sub-function that does not exist: refused at once",
    "name written that is not UTF-8: refusal 2 with its good length",
    "name read that is not UTF-8: refusal 2 carries its good length",
    "null pointer with the length 0: an empty slice like any other",
    "desk check: ours, as document 02 has it",
    "sheet of records: ours, as document 02 has it",
    "recorded transfers: ours, as document 02 has them",
    "why a message is refused: document 02's",
    "words of a refusal: ours, as the binding has them",
    "batches of messages: ours, as document 02 has them",
    "joined requests: ours, as document 02 has them",
    "whole messages: document 02's, behind the service byte 01's",
    "listings, indexes and lookups: ours, as document 02 has them",
    "codes and listings as text: ours, as document 02 has them",
    "changes between two listings: ours, as document 02 has them",
];

impl Rule {
    /// The rule of what is answered to a file transfer message: a width's refusal is document 01's own, and what a name's carries
    /// document 02's.
    pub fn of_read<T>(answer: &Result<T, Refusal>) -> Option<Self> {
        match answer.as_ref().err()?.number {
            2 => Some(Self::NameLength),
            6 => Some(Self::Width),
            _ => None,
        }
    }

    /// Whether an answer by this rule goes into the recorded list: the length of a name stands there beside the original's number.
    pub fn is_recorded(rule: Option<Self>) -> bool {
        matches!(rule, None | Some(Self::NameLength))
    }
}

/// The counts.
pub struct Tally {
    original: [u64; CALLS.len()],
    number: [u64; CALLS.len()],
    paper: [u64; CALLS.len()],
    rules: [u64; RULES.len()],
    items: [[u64; 2]; ITEMS.len()],
}

impl Tally {
    /// Nothing was compared yet.
    pub fn new() -> Self {
        Self {
            original: [0; CALLS.len()],
            number: [0; CALLS.len()],
            paper: [0; CALLS.len()],
            rules: [0; RULES.len()],
            items: [[0; 2]; ITEMS.len()],
        }
    }

    /// One more answer that was equal to the original's, or, where a rule is given, to what that rule says. Of a sub-function's byte
    /// and of a name's length the rule says no more than these: the refusal's number is as the original's.
    pub fn count(&mut self, call: Call, rule: Option<Rule>) {
        let column = match rule {
            None => &mut self.original,
            Some(Rule::SubFunctionByte | Rule::NameLength) => &mut self.number,
            Some(_) => &mut self.paper,
        };
        column[call as usize] += 1;
        if let Some(rule) = rule {
            self.rules[rule as usize] += 1;
        }
    }

    /// One more line about what no door leads to; `by_rule` where the original has no such call.
    pub fn count_item(&mut self, item: Item, by_rule: bool) {
        let (_, inputs, _) = ITEMS[item as usize];
        self.items[item as usize][usize::from(by_rule)] += inputs;
    }

    /// How many answers were compared in all.
    pub fn all(&self) -> u64 {
        let columns = [&self.original, &self.number, &self.paper];
        let items = self.items.iter().flatten();
        columns.into_iter().flatten().chain(items).sum()
    }

    /// Prints the tables.
    pub fn print(&self) {
        let heads = ["as the original", "its number alone", "as document 01"];
        line("What was compared", heads.map(String::from));
        for (i, call) in CALLS.iter().enumerate() {
            let counts = [self.original[i], self.number[i], self.paper[i]];
            line(call, counts.map(grouped));
        }
        let columns = [&self.original, &self.number, &self.paper];
        line("together", columns.map(|c| grouped(c.iter().sum())));
        println!();
        line(
            "By which rule of document 01",
            ["", "", "how often"].map(String::from),
        );
        for (rule, count) in RULES.iter().zip(self.rules) {
            line(rule, [String::new(), String::new(), grouped(count)]);
        }
        println!();
        let heads = ["as the original", "", "as document 01"];
        line(
            "What no door leads to, by its letter in the recorded list",
            heads.map(String::from),
        );
        for ((letter, _, what), [original, paper]) in ITEMS.iter().zip(self.items) {
            let counts = [grouped(original), String::new(), grouped(paper)];
            line(&format!("{letter}  {what}"), counts);
        }
    }
}

impl Item {
    /// The letter of its lines.
    pub fn letter(self) -> char {
        ITEMS[self as usize].0
    }
}

fn line(what: &str, columns: [String; 3]) {
    let [first, second, third] = columns;
    println!("{what:<64}{first:>18}{second:>18}{third:>18}");
}

/// The number with a comma after every three digits.
pub fn grouped(number: u64) -> String {
    let digits = number.to_string();
    let mut text = String::new();
    for (i, digit) in digits.chars().enumerate() {
        if i > 0 && (digits.len() - i).is_multiple_of(3) {
            text.push(',');
        }
        text.push(digit);
    }
    text
}
