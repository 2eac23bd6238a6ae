//! Document 02's request 14, as plainly as it stands there: what a service byte begins, and the negative answer of three bytes. Behind
//! the service bytes of document 01's four sorts the original is asked.
use crate::bench::{Bench, Writer};
use crate::report::{agree, hex};
use crate::rng::Rng;
use crate::tally::{Call, Rule};
use crate::write::{Routine, Transfer, no_such_kind};
use crate::{expected, grid, names, random};
use oracle::items::negative_codes;
use oracle::plain::{Refusal, place};
use skrolvind::flat::{self, Message, Written};
use skrolvind::{Response, Service};

/// File transfer request, routine request, file transfer response, routine response, negative answer.
const SERVICES: [u8; 5] = [0x38, 0x31, 0x78, 0x71, 0x7F];

fn refused(r: Refusal) -> Message {
    Message {
        number: r.number,
        first: r.first,
        second: r.second,
        ..Message::default()
    }
}

/// A place behind the service byte, counted in the whole message.
fn moved(place: u64) -> u64 {
    place + 1
}

/// The record of the bytes behind the service byte, as that of the whole message. A kind with no block length has it at 0.
fn transfer(service: u8, t: &flat::FileTransfer) -> Message {
    if t.number != 0 {
        return refused(Refusal::new(t.number, t.first, t.second));
    }
    let start = if service == 0x78 && t.kind == 2 {
        0
    } else {
        moved(t.start)
    };
    Message {
        service: service.into(),
        kind: t.kind,
        start,
        len: t.len,
        format: t.format,
        uncompressed_high: t.uncompressed_high,
        uncompressed_low: t.uncompressed_low,
        compressed_high: t.compressed_high,
        compressed_low: t.compressed_low,
        position: t.position,
        tail: moved(t.tail),
        ..Message::default()
    }
}

fn routine(service: u8, r: &flat::Routine) -> Message {
    if r.number != 0 {
        return refused(Refusal::new(r.number, r.first, r.second));
    }
    Message {
        service: service.into(),
        suppress: r.suppress,
        sub_function: r.sub_function,
        identifier: r.identifier,
        start: moved(r.start),
        len: r.len,
        ..Message::default()
    }
}

/// Exactly three bytes, of which the second is a service that we have.
fn negative(message: &[u8]) -> Message {
    let len = message.len() as u64;
    if len < 3 {
        return refused(Refusal::new(1, 3, len));
    }
    if len > 3 {
        return refused(Refusal::new(9, len - 3, 0));
    }
    let [routine, transfer] = negative_codes();
    let list = match message[1] {
        0x38 => transfer,
        0x31 => routine,
        _ => return refused(Refusal::new(11, 0, 0)),
    };
    Message {
        service: 0x7F,
        negative_service: message[1].into(),
        code: message[2].into(),
        listed: list.contains(&message[2]).into(),
        ..Message::default()
    }
}

fn wanted(message: &[u8]) -> Message {
    let Some((&service, rest)) = message.split_first() else {
        return refused(Refusal::new(1, 1, 0));
    };
    match service {
        0x38 => {
            let read = names::told(oracle::read_request(rest), names::of_request(rest));
            transfer(service, &expected::transfer(rest, &read))
        }
        0x31 => {
            let read = oracle::read_routine_request(rest);
            routine(service, &expected::routine(&read))
        }
        0x78 => {
            let read = oracle::read_response(rest);
            transfer(service, &expected::transfer(rest, &read))
        }
        0x71 => {
            let read = oracle::read_routine_response(rest);
            routine(service, &expected::routine(&read))
        }
        0x7F => negative(message),
        _ => refused(Refusal::new(15, 0, 0)),
    }
}

/// What the binding read, as a record.
fn bound(message: &[u8]) -> Message {
    match skrolvind::read_message(message) {
        Err(r) => refused(expected::refusal(r)),
        Ok(skrolvind::Message::FileRequest(q, tail)) => {
            let response = Response {
                kind: q.kind,
                block: q.name.as_bytes(),
                format: q.format,
                uncompressed: q.uncompressed,
                compressed: q.compressed,
                position: 0,
            };
            bound_transfer(message, 0x38, &response, tail)
        }
        Ok(skrolvind::Message::FileResponse(q, tail)) => bound_transfer(message, 0x78, &q, tail),
        Ok(skrolvind::Message::RoutineRequest(q)) => Message {
            service: 0x31,
            suppress: q.suppress.into(),
            sub_function: q.sub_function as u64,
            identifier: q.identifier.into(),
            start: place(message, q.record) as u64,
            len: q.record.len() as u64,
            ..Message::default()
        },
        Ok(skrolvind::Message::RoutineResponse(q)) => Message {
            service: 0x71,
            sub_function: q.sub_function as u64,
            identifier: q.identifier.into(),
            start: place(message, q.record) as u64,
            len: q.record.len() as u64,
            ..Message::default()
        },
        Ok(skrolvind::Message::Negative(q)) => Message {
            service: 0x7F,
            negative_service: q.service as u64,
            code: q.code.into(),
            listed: q.listed.into(),
            ..Message::default()
        },
    }
}

fn bound_transfer(message: &[u8], service: u64, q: &Response<'_>, tail: &[u8]) -> Message {
    let sizes = flat::Sizes::new(q.uncompressed, q.compressed);
    Message {
        service,
        kind: q.kind as u64,
        start: place(message, q.block) as u64,
        len: q.block.len() as u64,
        format: q.format.into(),
        uncompressed_high: sizes.uncompressed_high,
        uncompressed_low: sizes.uncompressed_low,
        compressed_high: sizes.compressed_high,
        compressed_low: sizes.compressed_low,
        position: q.position,
        tail: (message.len() - tail.len()) as u64,
        ..Message::default()
    }
}

impl Bench {
    /// The door and the binding beside the model.
    pub fn whole_message(&mut self, message: &[u8]) {
        self.watched(message, |bench| {
            let wanted = wanted(message);
            let sentence = "a whole message is read otherwise";
            agree(sentence, message, &flat::read_message(message), &wanted);
            let sentence = "the binding reads a whole message otherwise";
            agree(sentence, message, &bound(message), &wanted);
            bench
                .tally
                .count(Call::ReadMessage, Some(Rule::WholeMessage));
        });
    }

    /// These bytes behind each service byte that we have.
    fn behind_each(&mut self, rest: &[u8]) {
        for service in SERVICES {
            self.whole_message(&[&[service], rest].concat());
        }
    }

    /// A writer whose message, without the service byte, stands in `plenty`: with that byte, its `kind`, every room counts one more.
    fn written_behind<F, B>(&mut self, writer: &Writer<'_, F, B>, answer: Result<usize, Refusal>)
    where
        F: Fn(&mut [u8]) -> Written,
        B: Fn(&mut [u8]) -> Option<Result<usize, skrolvind::Refusal>>,
    {
        let wanted = answer.map(|len| {
            self.plenty.copy_within(..len, 1);
            self.plenty[0] = writer.kind;
            len + 1
        });
        self.in_rooms(writer, wanted, Some(Rule::WholeMessage));
    }

    fn whole_transfer(&mut self, t: Transfer<'_>) {
        self.whole_request(t);
        self.whole_response(t);
    }

    fn whole_request(&mut self, t: Transfer<'_>) {
        let [uncompressed, compressed] = t.sizes;
        let answer = no_such_kind(t.kind).map_or_else(
            || {
                let Ok(name) = std::str::from_utf8(t.part) else {
                    return Err(names::refused(t.part));
                };
                let room = &mut self.plenty;
                oracle::write_request(t.kind, name, t.format, uncompressed, compressed, room)
            },
            Err,
        );
        let writer = Writer {
            call: Call::WriteRequestMessage,
            kind: 0x38,
            input: &|| t.told(),
            arguments: &Vec::new,
            bytes: t.part,
            flat: |room: &mut [u8]| {
                flat::write_request_message(t.kind, t.part, t.format, t.flat_sizes(), room)
            },
            bound: |room: &mut [u8]| Some(skrolvind::write_request_message(&t.request()?, room)),
        };
        self.written_behind(&writer, answer);
    }

    fn whole_response(&mut self, t: Transfer<'_>) {
        let [uncompressed, compressed] = t.sizes;
        let (kind, format, position) = (t.kind, t.format, t.position);
        let answer = no_such_kind(kind).map_or_else(
            || {
                let room = &mut self.plenty;
                let (u, c) = (uncompressed, compressed);
                oracle::write_response(kind, t.part, format, u, c, position, room)
            },
            Err,
        );
        let writer = Writer {
            call: Call::WriteResponseMessage,
            kind: 0x78,
            input: &|| t.told(),
            arguments: &Vec::new,
            bytes: t.part,
            flat: |room: &mut [u8]| {
                flat::write_response_message(kind, t.part, format, t.flat_sizes(), position, room)
            },
            bound: |room: &mut [u8]| Some(skrolvind::write_response_message(&t.response()?, room)),
        };
        self.written_behind(&writer, answer);
    }

    fn whole_routine(&mut self, r: Routine<'_>) {
        let (sub, identifier) = (r.sub_function, r.identifier);
        let (answer, _) = r.answered(|| {
            let room = &mut self.plenty;
            oracle::write_routine_request(r.suppress, sub, identifier, r.record, room)
        });
        let writer = Writer {
            call: Call::WriteRoutineRequestMessage,
            kind: 0x31,
            input: &|| r.told(),
            arguments: &Vec::new,
            bytes: r.record,
            flat: |room: &mut [u8]| {
                flat::write_routine_request_message(r.suppress, sub, identifier, r.record, room)
            },
            bound: |room: &mut [u8]| {
                Some(skrolvind::write_routine_request_message(
                    &r.request()?,
                    room,
                ))
            },
        };
        self.written_behind(&writer, answer);
        let (answer, _) = r.answered(|| {
            oracle::write_routine_response(sub, identifier, r.record, &mut self.plenty)
        });
        let writer = Writer {
            call: Call::WriteRoutineResponseMessage,
            kind: 0x71,
            input: &|| r.told(),
            arguments: &Vec::new,
            bytes: r.record,
            flat: |room: &mut [u8]| {
                flat::write_routine_response_message(sub, identifier, r.record, room)
            },
            bound: |room: &mut [u8]| {
                Some(skrolvind::write_routine_response_message(
                    &r.response()?,
                    room,
                ))
            },
        };
        self.written_behind(&writer, answer);
    }

    fn written_negative(&mut self, service: u8, code: u8) {
        let answer = if matches!(service, 0x38 | 0x31) {
            self.plenty[..2].copy_from_slice(&[service, code]);
            Ok(2)
        } else {
            Err(Refusal::new(11, 0, 0))
        };
        let writer = Writer {
            call: Call::WriteNegative,
            kind: 0x7F,
            input: &|| format!("negative answer {}", hex(&[service, code])),
            arguments: &Vec::new,
            bytes: &[],
            flat: |room: &mut [u8]| flat::write_negative(service, code, room),
            bound: |room: &mut [u8]| {
                let service = Service::try_from(service).ok()?;
                Some(skrolvind::write_negative(service, code, room))
            },
        };
        self.written_behind(&writer, answer);
    }
}

/// Every negative answer of up to three bytes, read and written, and longer ones to every service.
pub fn negatives(bench: &mut Bench) {
    bench.whole_message(&[]);
    bench.whole_message(&[0x7F]);
    for service in 0..=255 {
        bench.whole_message(&[0x7F, service]);
        for code in 0..=255 {
            bench.whole_message(&[0x7F, service, code]);
            bench.written_negative(service, code);
        }
        for more in 1..=5 {
            bench.whole_message(&[&[0x7F, service, 0x31], &vec![0x38; more][..]].concat());
        }
    }
}

/// Every service byte before nothing and before a message of each sort; then every kind and width, cut at every place and lengthened.
pub fn chosen(bench: &mut Bench) {
    let sorts = [
        grid::request(1, b"a", 2),
        grid::response(4, 1, 2),
        vec![0x81, 2, 3, 0xAA],
        vec![0x38, 0x31],
        vec![],
    ];
    for service in 0..=255 {
        for rest in &sorts {
            bench.whole_message(&[&[service], &rest[..]].concat());
        }
    }
    for kind in 0..=8 {
        for width in 0..=18 {
            for part in 0..=2 {
                cuts(bench, &grid::request(kind, &vec![b'n'; part], width));
                cuts(bench, &grid::response(kind, part, width.into()));
            }
        }
    }
    for control in 0..=255 {
        cuts(bench, &[control, 0x02, 0x03, 0xAA, 0xBB]);
    }
}

fn cuts(bench: &mut Bench, rest: &[u8]) {
    for len in 0..=rest.len() {
        bench.behind_each(&rest[..len]);
    }
    bench.behind_each(&[rest, &[0x33]].concat());
}

/// Every kind and sub-function, with parts that are empty, short, as long as they may be, and longer.
pub fn written(bench: &mut Bench) {
    let name = |len: usize| vec![b'a'; len];
    for kind in 0..=8 {
        for len in [0, 1, 2, 255, 256, 65_535, 65_536] {
            for sizes in [[0, 0], [255, 256], [1 << 64, 3], [u128::MAX, 0]] {
                bench.whole_transfer(Transfer {
                    kind,
                    part: &name(len),
                    format: 0x11,
                    sizes,
                    position: u64::MAX - 7,
                });
            }
        }
        bench.whole_transfer(Transfer {
            kind,
            part: &[b'a', 0xFF],
            format: 0,
            sizes: [1, 2],
            position: 0,
        });
    }
    for sub_function in 0..=4 {
        for len in [0, 1, 65_535, 65_536] {
            for suppress in [false, true] {
                bench.whole_routine(Routine {
                    suppress,
                    sub_function,
                    identifier: 0x0203,
                    record: &name(len),
                });
            }
        }
    }
}

/// Random messages behind each service byte, noise, and every writer.
pub fn round(bench: &mut Bench, rng: &mut Rng) {
    for _ in 0..200 {
        let rest = random::message(rng, 12);
        bench.behind_each(&rest);
        let cut = rng.below(rest.len() + 1);
        bench.behind_each(&rest[..cut]);
        let noise = rng.below(12);
        bench.whole_message(&rng.bytes(noise));
        let (part, code) = (random::name(rng, 12), rng.byte());
        bench.whole_transfer(Transfer {
            kind: random::kind(rng),
            part: &part,
            format: rng.byte(),
            sizes: [random::size(rng), random::size(rng)],
            position: rng.number() >> rng.below(64),
        });
        bench.whole_routine(Routine {
            suppress: rng.once_in(2),
            sub_function: rng.below(5) as u8,
            identifier: rng.number() as u16,
            record: &part,
        });
        bench.written_negative(rng.choose(&[0x38, 0x31, 0x39, code]), code);
    }
}
