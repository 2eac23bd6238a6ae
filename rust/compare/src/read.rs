//! One message, and everything that can be asked of it.
use crate::bench::Bench;
use crate::record::sort;
use crate::report::agree;
use crate::tally::{Call, Rule};
use crate::{expected, model, names};
use oracle::plain::{FileTransfer, Refusal};
use skrolvind::flat;

/// The trouble codes of a buffer by the original, up to its end or to a refusal.
fn all_codes(mut buffer: &[u8]) -> Vec<Result<[u8; 3], Refusal>> {
    let mut codes = vec![];
    while let Some(next) = oracle::next_trouble_code(buffer).transpose() {
        codes.push(next.map(|next| next.code));
        let left = next.map_or(0, |next| next.tail_len);
        buffer = &buffer[buffer.len() - left..];
    }
    codes
}

impl Bench {
    /// Every call that takes a message.
    pub fn message(&mut self, message: &[u8]) {
        self.watched(message, |bench| {
            let request = bench.request(message);
            bench.desk(message, &request);
            bench.rewritten_request(message, &request);
            let response = bench.response(message);
            bench.rewritten_response(message, &response);
            bench.routine_request(message);
            bench.routine_response(message);
            bench.why(message);
        });
    }

    fn request(&mut self, message: &[u8]) -> Result<FileTransfer, Refusal> {
        let paper = model::read_request(message);
        let original = names::told(oracle::read_request(message), names::of_request(message));
        let record = expected::transfer(message, &original);
        agree(
            "the original reads a request otherwise than document 01",
            message,
            &original,
            &paper,
        );
        agree(
            "a request is read otherwise",
            message,
            &flat::read_request(message),
            &record,
        );
        agree(
            "the binding reads a request otherwise",
            message,
            &expected::bound_request(message),
            &paper,
        );
        let (rule, sort) = (Rule::of_read(&original), sort(&original, |t| t.kind));
        self.equal(Call::ReadRequest, rule, sort, message, &record);
        paper
    }

    fn response(&mut self, message: &[u8]) -> Result<FileTransfer, Refusal> {
        let paper = model::read_response(message);
        let original = oracle::read_response(message);
        let record = expected::transfer(message, &original);
        agree(
            "the original reads a response otherwise than document 01",
            message,
            &original,
            &paper,
        );
        agree(
            "a response is read otherwise",
            message,
            &flat::read_response(message),
            &record,
        );
        agree(
            "the binding reads a response otherwise",
            message,
            &expected::bound_response(message),
            &paper,
        );
        let (rule, sort) = (Rule::of_read(&original), sort(&original, |t| t.kind));
        self.equal(Call::ReadResponse, rule, sort, message, &record);
        paper
    }

    fn routine_request(&mut self, message: &[u8]) {
        let paper = model::read_routine_request(message);
        let original = oracle::read_routine_request(message);
        let record = expected::routine(&original);
        agree(
            "the original reads a routine request otherwise than document 01",
            message,
            &original,
            &paper,
        );
        agree(
            "a routine request is read otherwise",
            message,
            &flat::read_routine_request(message),
            &record,
        );
        agree(
            "the binding reads a routine request otherwise",
            message,
            &expected::bound_routine_request(message),
            &paper,
        );
        let judged = matches!(original, Err(r) if r.number == 4);
        let rule = judged.then_some(Rule::SubFunctionByte);
        let sort = sort(&original, |r| r.sub_function);
        self.equal(Call::ReadRoutineRequest, rule, sort, message, &record);
    }

    fn routine_response(&mut self, message: &[u8]) {
        let paper = model::read_routine_response(message);
        let original = oracle::read_routine_response(message);
        let record = expected::routine(&original);
        agree(
            "the original reads a routine response otherwise than document 01",
            message,
            &original,
            &paper,
        );
        agree(
            "a routine response is read otherwise",
            message,
            &flat::read_routine_response(message),
            &record,
        );
        agree(
            "the binding reads a routine response otherwise",
            message,
            &expected::bound_routine_response(message),
            &paper,
        );
        let sort = sort(&original, |r| r.sub_function);
        self.equal(Call::ReadRoutineResponse, None, sort, message, &record);
    }

    /// The desk alone.
    pub fn judged(&mut self, message: &[u8]) {
        self.desk(message, &model::read_request(message));
    }

    fn desk(&mut self, message: &[u8], request: &Result<FileTransfer, Refusal>) {
        let paper = model::desk_check(request);
        agree(
            "the desk judges a request otherwise",
            message,
            &flat::desk_check(message),
            &expected::desk(paper),
        );
        agree(
            "the binding's desk judges a request otherwise",
            message,
            &skrolvind::desk_check(message).map_err(expected::refusal),
            &paper,
        );
        self.tally.count(Call::DeskCheck, Some(Rule::Desk));
    }

    /// A name, against Rust's own check.
    pub fn name(&mut self, name: &[u8]) {
        self.watched(name, |bench| bench.valid_up_to(name));
    }

    fn valid_up_to(&mut self, name: &[u8]) {
        let good = names::valid_up_to(name);
        agree(
            "a name is UTF-8 up to another place",
            name,
            &flat::valid_up_to(name),
            &(good as u64),
        );
        agree(
            "the binding finds a name UTF-8 up to another place",
            name,
            &skrolvind::valid_up_to(name),
            &good,
        );
        self.equal(Call::ValidUpTo, None, 0, name, &good);
    }

    /// The trouble code of a number.
    pub fn number(&mut self, number: u32) {
        let original = oracle::trouble_code(number);
        let record = expected::code(original);
        let bytes = number.to_be_bytes();
        agree(
            "the original makes another trouble code of a number than document 01",
            &bytes,
            &original,
            &model::trouble_code(number),
        );
        agree(
            "another trouble code is made of a number",
            &bytes,
            &flat::dtc_from_number(number),
            &record,
        );
        agree(
            "the binding makes another trouble code of a number",
            &bytes,
            &expected::bound_code(number),
            &original,
        );
        let sort = sort(&original, |_| 0);
        self.equal(Call::TroubleCode, None, sort, &bytes, &record);
    }

    /// The next trouble code of a buffer.
    pub fn next_code(&mut self, buffer: &[u8]) {
        self.watched(buffer, |bench| bench.next_trouble_code(buffer));
    }

    fn next_trouble_code(&mut self, buffer: &[u8]) {
        let original = oracle::next_trouble_code(buffer);
        let record = expected::next(buffer, original);
        agree(
            "the original finds another next trouble code than document 01",
            buffer,
            &original,
            &model::next_trouble_code(buffer),
        );
        agree(
            "another next trouble code is found",
            buffer,
            &flat::dtc_next(buffer),
            &record,
        );
        agree(
            "the binding finds another next trouble code",
            buffer,
            &expected::bound_next(buffer),
            &original,
        );
        agree(
            "the binding finds other trouble codes, one after the other",
            buffer,
            &expected::bound_codes(buffer),
            &all_codes(buffer),
        );
        let sort = sort(&original, |_| 0);
        self.equal(Call::NextTroubleCode, None, sort, buffer, &record);
    }
}
