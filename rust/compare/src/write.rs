//! The writers, each in rooms of several lengths.
use crate::bench::{Bench, Writer};
use crate::report::{agree, differ, hex};
use crate::tally::{Call, Rule};
use crate::{expected, names};
use oracle::plain::{FileTransfer, Refusal};
use skrolvind::flat::{self, Rewritten, Sizes, Written};
use skrolvind::{Kind, Request, Response, RoutineRequest, RoutineResponse, SubFunction};

/// A file transfer message to be written: `part` is the name or the block length.
#[derive(Clone, Copy)]
pub struct Transfer<'a> {
    pub kind: u8,
    pub part: &'a [u8],
    pub format: u8,
    pub sizes: [u128; 2],
    pub position: u64,
}

impl<'a> Transfer<'a> {
    /// The binding's request, where there is one: its kinds exist, and its names are text.
    pub fn request(&self) -> Option<Request<'a>> {
        Some(Request {
            kind: Kind::try_from(self.kind).ok()?,
            name: std::str::from_utf8(self.part).ok()?,
            format: self.format,
            uncompressed: self.sizes[0],
            compressed: self.sizes[1],
        })
    }

    /// The binding's response, where there is one.
    pub fn response(&self) -> Option<Response<'a>> {
        Some(Response {
            kind: Kind::try_from(self.kind).ok()?,
            block: self.part,
            format: self.format,
            uncompressed: self.sizes[0],
            compressed: self.sizes[1],
            position: self.position,
        })
    }

    pub fn told(&self) -> String {
        let [uncompressed, compressed] = self.sizes;
        format!(
            "kind {} format {:02X} sizes {uncompressed} {compressed} position {} name or block length {}",
            self.kind,
            self.format,
            self.position,
            hex(self.part)
        )
    }

    /// All but the name or block length, as a recorded list has it.
    fn arguments(&self) -> Vec<u8> {
        let [uncompressed, compressed] = self.sizes;
        [
            &[self.kind, self.format][..],
            &uncompressed.to_be_bytes(),
            &compressed.to_be_bytes(),
            &self.position.to_be_bytes(),
        ]
        .concat()
    }

    pub fn flat_sizes(&self) -> Sizes {
        Sizes::new(self.sizes[0], self.sizes[1])
    }
}

/// A routine message to be written.
#[derive(Clone, Copy)]
pub struct Routine<'a> {
    pub suppress: bool,
    pub sub_function: u8,
    pub identifier: u16,
    pub record: &'a [u8],
}

impl<'a> Routine<'a> {
    /// The binding's request, where there is one.
    pub fn request(&self) -> Option<RoutineRequest<'a>> {
        Some(RoutineRequest {
            suppress: self.suppress,
            sub_function: SubFunction::try_from(self.sub_function).ok()?,
            identifier: self.identifier,
            record: self.record,
        })
    }

    /// The binding's response, where there is one.
    pub fn response(&self) -> Option<RoutineResponse<'a>> {
        Some(RoutineResponse {
            sub_function: SubFunction::try_from(self.sub_function).ok()?,
            identifier: self.identifier,
            record: self.record,
        })
    }

    pub fn told(&self) -> String {
        format!(
            "suppress {} sub-function {:02X} identifier {:04X} record {}",
            self.suppress,
            self.sub_function,
            self.identifier,
            hex(self.record)
        )
    }

    /// All but the record, as a recorded list has it.
    fn arguments(&self) -> Vec<u8> {
        let [high, low] = self.identifier.to_be_bytes();
        vec![self.suppress.into(), self.sub_function, high, low]
    }

    /// The answer by the rule that it goes by where the original is not asked: a sub-function that it cannot be handed, or a record that
    /// is too long. Else the original's.
    pub fn answered(
        &self,
        original: impl FnOnce() -> Result<usize, Refusal>,
    ) -> (Result<usize, Refusal>, Option<Rule>) {
        if !(1..=3).contains(&self.sub_function) {
            let refusal = Refusal::new(4, self.sub_function.into(), 0);
            return (Err(refusal), Some(Rule::NoSuchValue));
        }
        if self.record.len() > 65_535 {
            return (Err(Refusal::new(2, 0, 0)), Some(Rule::LongRecord));
        }
        (original(), None)
    }
}

/// The first byte of a message, which says its kind.
fn first(message: &[u8]) -> u8 {
    message.first().copied().unwrap_or(0)
}

/// The answer to a kind that the original cannot be handed.
pub fn no_such_kind(kind: u8) -> Option<Refusal> {
    (!(1..=6).contains(&kind)).then(|| Refusal::new(3, kind.into(), 0))
}

/// Where a message ends, as the reader and the original say.
fn end(message: &[u8], read: &Result<FileTransfer, Refusal>) -> usize {
    read.map_or(0, |read| message.len() - read.tail_len)
}

/// What was written anew; where the message ends, the tail begins, and after a refusal it is 0.
fn without_tail(message: &[u8], end: usize, r: Rewritten) -> Written {
    let wanted = if r.number == 0 { end as u64 } else { 0 };
    agree("a rewriting has another tail", message, &r.tail, &wanted);
    Written {
        number: r.number,
        first: r.first,
        second: r.second,
        written: r.written,
    }
}

type Bound<T> = Result<T, skrolvind::Refusal>;

/// The same of the binding, whose tail is that very part of the message.
fn bound_without_tail(message: &[u8], end: usize, answer: Bound<(usize, &[u8])>) -> Bound<usize> {
    answer.map(|(written, tail)| {
        agree(
            "the binding's rewriting has another tail",
            message,
            &tail.as_ptr_range(),
            &message[end..].as_ptr_range(),
        );
        written
    })
}

impl Bench {
    /// What the binding says that a value takes, beside what is written of it in plenty of room.
    fn needed(
        &mut self,
        told: impl Fn() -> String,
        ours: Option<Bound<usize>>,
        wanted: Result<usize, Refusal>,
        rule: Option<Rule>,
    ) {
        let Some(ours) = ours else { return };
        if ours.map_err(expected::refusal) != wanted {
            let sentence = "the binding says that a message takes more bytes or fewer";
            differ(
                sentence,
                &told(),
                &format!("{ours:?}"),
                &format!("{wanted:?}"),
            );
        }
        self.tally.count(Call::Needed, rule);
    }

    /// Both writers of file transfer messages.
    pub fn written_transfer(&mut self, t: Transfer<'_>) {
        self.watched(t.part, |bench| {
            bench.written_request(t);
            bench.written_response(t);
        });
    }

    /// Both writers of routine messages.
    pub fn written_routine(&mut self, r: Routine<'_>) {
        self.watched(r.record, |bench| {
            bench.written_routine_request(r);
            bench.written_routine_response(r);
        });
    }

    fn written_request(&mut self, t: Transfer<'_>) {
        let writer = Writer {
            call: Call::WriteRequest,
            kind: t.kind,
            input: &|| t.told(),
            arguments: &|| t.arguments(),
            bytes: t.part,
            flat: |room: &mut [u8]| {
                flat::write_request(t.kind, t.part, t.format, t.flat_sizes(), room)
            },
            bound: |room: &mut [u8]| Some(skrolvind::write_request(&t.request()?, room)),
        };
        if let Some(refusal) = no_such_kind(t.kind) {
            return self.in_rooms(&writer, Err(refusal), Some(Rule::NoSuchValue));
        }
        // the original's type for a name is text, so that it cannot be asked about any other bytes
        let Ok(name) = std::str::from_utf8(t.part) else {
            let refusal = names::refused(t.part);
            return self.in_rooms(&writer, Err(refusal), Some(Rule::NotText));
        };
        let ([uncompressed, compressed], room) = (t.sizes, &mut self.plenty);
        let wanted = oracle::write_request(t.kind, name, t.format, uncompressed, compressed, room);
        self.in_rooms(&writer, wanted, None);
        let needed = t.request().map(|request| request.needed());
        self.needed(|| t.told(), needed, wanted, None);
    }

    fn written_response(&mut self, t: Transfer<'_>) {
        let writer = Writer {
            call: Call::WriteResponse,
            kind: t.kind,
            input: &|| t.told(),
            arguments: &|| t.arguments(),
            bytes: t.part,
            flat: |room: &mut [u8]| {
                flat::write_response(t.kind, t.part, t.format, t.flat_sizes(), t.position, room)
            },
            bound: |room: &mut [u8]| Some(skrolvind::write_response(&t.response()?, room)),
        };
        if let Some(refusal) = no_such_kind(t.kind) {
            return self.in_rooms(&writer, Err(refusal), Some(Rule::NoSuchValue));
        }
        let [uncompressed, compressed] = t.sizes;
        let wanted = oracle::write_response(
            t.kind,
            t.part,
            t.format,
            uncompressed,
            compressed,
            t.position,
            &mut self.plenty,
        );
        self.in_rooms(&writer, wanted, None);
        let needed = t.response().map(|response| response.needed());
        self.needed(|| t.told(), needed, wanted, None);
    }

    fn written_routine_request(&mut self, r: Routine<'_>) {
        let (sub, identifier) = (r.sub_function, r.identifier);
        let writer = Writer {
            call: Call::WriteRoutineRequest,
            kind: sub,
            input: &|| r.told(),
            arguments: &|| r.arguments(),
            bytes: r.record,
            flat: |room: &mut [u8]| {
                flat::write_routine_request(r.suppress, sub, identifier, r.record, room)
            },
            bound: |room: &mut [u8]| Some(skrolvind::write_routine_request(&r.request()?, room)),
        };
        let (wanted, rule) = r.answered(|| {
            let room = &mut self.plenty;
            oracle::write_routine_request(r.suppress, sub, identifier, r.record, room)
        });
        self.in_rooms(&writer, wanted, rule);
        let needed = r.request().map(|request| request.needed());
        self.needed(|| r.told(), needed, wanted, rule);
    }

    fn written_routine_response(&mut self, r: Routine<'_>) {
        let (sub, identifier) = (r.sub_function, r.identifier);
        let writer = Writer {
            call: Call::WriteRoutineResponse,
            kind: sub,
            input: &|| r.told(),
            arguments: &|| r.arguments(),
            bytes: r.record,
            flat: |room: &mut [u8]| flat::write_routine_response(sub, identifier, r.record, room),
            bound: |room: &mut [u8]| Some(skrolvind::write_routine_response(&r.response()?, room)),
        };
        let (wanted, rule) = r.answered(|| {
            oracle::write_routine_response(sub, identifier, r.record, &mut self.plenty)
        });
        self.in_rooms(&writer, wanted, rule);
        let needed = r.response().map(|response| response.needed());
        self.needed(|| r.told(), needed, wanted, rule);
    }

    /// `read` is the reader's answer, which is the original's.
    pub fn rewritten_request(&mut self, message: &[u8], read: &Result<FileTransfer, Refusal>) {
        let end = end(message, read);
        let writer = Writer {
            call: Call::RewriteRequest,
            kind: first(message),
            input: &|| hex(message),
            arguments: &Vec::new,
            bytes: message,
            flat: |room: &mut [u8]| {
                without_tail(message, end, flat::rewrite_request(message, room))
            },
            bound: |room: &mut [u8]| {
                let answer = skrolvind::rewrite_request(message, room);
                Some(bound_without_tail(message, end, answer))
            },
        };
        let answer = oracle::rewrite_request(message, &mut self.plenty);
        let wanted = names::told(answer, names::of_request(message));
        self.in_rooms(&writer, wanted, Rule::of_read(&wanted));
    }

    /// Likewise.
    pub fn rewritten_response(&mut self, message: &[u8], read: &Result<FileTransfer, Refusal>) {
        let end = end(message, read);
        let writer = Writer {
            call: Call::RewriteResponse,
            kind: first(message),
            input: &|| hex(message),
            arguments: &Vec::new,
            bytes: message,
            flat: |room: &mut [u8]| {
                without_tail(message, end, flat::rewrite_response(message, room))
            },
            bound: |room: &mut [u8]| {
                let answer = skrolvind::rewrite_response(message, room);
                Some(bound_without_tail(message, end, answer))
            },
        };
        let wanted = oracle::rewrite_response(message, &mut self.plenty);
        self.in_rooms(&writer, wanted, Rule::of_read(&wanted));
    }
}
