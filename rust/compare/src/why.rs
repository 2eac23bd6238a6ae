//! Document 02's request 06, as plainly as it stands there: document 01's checks one after the other, and the first that fails names its field and where that begins.
use crate::bench::Bench;
use crate::report::agree;
use crate::tally::{Call, Rule};
use crate::{expected, names};
use skrolvind::flat::{self, Why};
use skrolvind::{Reason, why_request, why_response};

const MODE: u64 = 1;
const NAME: u64 = 2;
const FORMAT: u64 = 3;
const SIZES: u64 = 4;
const BLOCK: u64 = 5;
const POSITION: u64 = 6;

type Checked = Result<(), Why>;

/// Stops at a field that begins at this offset.
fn stop(field: u64, at: usize, [number, first, second]: [usize; 3]) -> Checked {
    Err(Why {
        number: number as u64,
        first: first as u64,
        second: second as u64,
        field,
        offset: at as u64,
    })
}

/// The field that begins at this offset has so many bytes.
fn present(message: &[u8], field: u64, at: usize, needed: usize) -> Checked {
    let available = message.len().saturating_sub(at);
    if available < needed {
        return stop(field, at, [1, needed, available]);
    }
    Ok(())
}

/// The number in some bytes, high first.
fn number(bytes: &[u8]) -> usize {
    bytes.iter().fold(0, |sum, b| 256 * sum + usize::from(*b))
}

fn known(mode: u8) -> Checked {
    if !(1..=6).contains(&mode) {
        return stop(MODE, 0, [3, mode.into(), 0]);
    }
    Ok(())
}

/// Width present, whole group present, width 1 to 16.
fn sizes(message: &[u8], at: usize, prefix: usize, count: usize) -> Checked {
    present(message, SIZES, at, prefix)?;
    let width = number(&message[at..at + prefix]);
    present(message, SIZES, at, prefix + count * width)?;
    if !(1..=16).contains(&width) {
        return stop(SIZES, at, [6, width, 0]);
    }
    Ok(())
}

fn request(message: &[u8]) -> Checked {
    present(message, MODE, 0, 1)?;
    present(message, NAME, 1, 2)?;
    let len = number(&message[1..3]);
    present(message, NAME, 1, 2 + len)?;
    let name = &message[3..3 + len];
    let good = names::valid_up_to(name);
    if good < len {
        return stop(NAME, 1, [2, good, 0]);
    }
    known(message[0])?;
    let at = 3 + len;
    if matches!(message[0], 1 | 3 | 4 | 6) {
        present(message, FORMAT, at, 1)?;
    }
    if matches!(message[0], 1 | 3 | 6) {
        sizes(message, at + 1, 1, 2)?;
    }
    Ok(())
}

fn response(message: &[u8]) -> Checked {
    present(message, MODE, 0, 1)?;
    known(message[0])?;
    if message[0] == 2 {
        return Ok(());
    }
    present(message, BLOCK, 1, 1)?;
    let len = usize::from(message[1]);
    present(message, BLOCK, 1, 1 + len)?;
    present(message, FORMAT, 2 + len, 1)?;
    let at = 3 + len;
    match message[0] {
        4 => sizes(message, at, 2, 2),
        5 => sizes(message, at, 2, 1),
        6 => present(message, POSITION, at, 8),
        _ => Ok(()),
    }
}

/// The binding's answer as a record.
fn flattened(answer: Result<(), Reason>) -> Why {
    answer.err().map_or_else(Why::default, |r| {
        let refusal = expected::refusal(r.refusal);
        Why {
            number: refusal.number,
            first: refusal.first,
            second: refusal.second,
            field: r.field as u64,
            offset: r.offset as u64,
        }
    })
}

impl Bench {
    /// Why the message is refused, taken for a request and for a response.
    pub fn why(&mut self, message: &[u8]) {
        let wanted = request(message).err().unwrap_or_default();
        let sentence = "a request is refused for another reason";
        agree(sentence, message, &flat::why_request(message), &wanted);
        let sentence = "the binding tells another reason of a request";
        agree(sentence, message, &flattened(why_request(message)), &wanted);
        self.tally.count(Call::WhyRequest, Some(Rule::Why));
        let wanted = response(message).err().unwrap_or_default();
        let sentence = "a response is refused for another reason";
        agree(sentence, message, &flat::why_response(message), &wanted);
        let sentence = "the binding tells another reason of a response";
        agree(
            sentence,
            message,
            &flattened(why_response(message)),
            &wanted,
        );
        self.tally.count(Call::WhyResponse, Some(Rule::Why));
    }
}
