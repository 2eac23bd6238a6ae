//! The library's records and the binding's answers beside the plain answers: which record an answer has to be, and which answer the
//! binding gave.
use crate::model;
use crate::report::agree;
use oracle::plain::{FileTransfer, NextCode, Refusal, Routine, place};
use skrolvind::flat;

/// The numbers of the binding's refusal, by what it is; those that it says itself have to be the same.
pub fn refusal(r: skrolvind::Refusal) -> Refusal {
    use skrolvind::Refusal as R;
    let (number, first, second) = match r {
        R::TooShort { needed, available } => (1, needed, available),
        R::WrongFormat { good } => (2, good, 0),
        R::UnknownMode(byte) => (3, byte.into(), 0),
        R::UnknownSubFunction(byte) => (4, byte.into(), 0),
        R::NoTroubleCode(number) => (5, number as usize, 0),
        R::BadWidth(width) => (6, width, 0),
        R::NoRoom { needed, room } => (7, needed, room),
        R::UnequalSizes => (8, 0, 0),
        R::LeftOver(count) => (9, count, 0),
        R::Cut => (10, 0, 0),
        R::OutOfRange { place } => (11, place, 0),
        R::TooMany => (12, 0, 0),
        R::NotAllowed { place } => (13, place, 0),
        R::WrongCounter { place } => (14, place, 0),
        R::UnknownService { place } => (15, place, 0),
        R::NoSuchCode => (16, 0, 0),
        R::Repeated { place } => (17, place, 0),
        R::BadCharacter { place } => (18, place, 0),
        _ => unreachable!("a refusal that is not known here: {r}"),
    };
    let refusal = Refusal::new(number, first as u64, second as u64);
    agree(
        "the binding says other numbers of a refusal",
        &[],
        &Refusal::new(r.number(), r.first(), r.second()),
        &refusal,
    );
    refusal
}

/// The record of a file transfer message. After a refusal every field but its three is 0.
pub fn transfer(message: &[u8], answer: &Result<FileTransfer, Refusal>) -> flat::FileTransfer {
    match *answer {
        Err(r) => flat::FileTransfer {
            number: r.number,
            first: r.first,
            second: r.second,
            ..flat::FileTransfer::default()
        },
        Ok(t) => {
            let sizes = flat::Sizes::new(t.uncompressed, t.compressed);
            flat::FileTransfer {
                number: 0,
                first: 0,
                second: 0,
                kind: t.kind.into(),
                start: t.start as u64,
                len: t.len as u64,
                format: t.format.into(),
                uncompressed_high: sizes.uncompressed_high,
                uncompressed_low: sizes.uncompressed_low,
                compressed_high: sizes.compressed_high,
                compressed_low: sizes.compressed_low,
                position: t.position,
                tail: (message.len() - t.tail_len) as u64,
            }
        }
    }
}

pub fn routine(answer: &Result<Routine, Refusal>) -> flat::Routine {
    match *answer {
        Err(r) => flat::Routine {
            number: r.number,
            first: r.first,
            second: r.second,
            ..flat::Routine::default()
        },
        Ok(r) => flat::Routine {
            number: 0,
            first: 0,
            second: 0,
            suppress: r.suppress.into(),
            sub_function: r.sub_function.into(),
            identifier: r.identifier.into(),
            start: r.start as u64,
            len: r.len as u64,
        },
    }
}

pub fn written(answer: Result<usize, Refusal>) -> flat::Written {
    let (r, written) = match answer {
        Ok(written) => (Refusal::new(0, 0, 0), written as u64),
        Err(r) => (r, 0),
    };
    flat::Written {
        number: r.number,
        first: r.first,
        second: r.second,
        written,
    }
}

pub fn desk(answer: Result<(), Refusal>) -> flat::Desk {
    let r = answer.err().unwrap_or(Refusal::new(0, 0, 0));
    flat::Desk {
        number: r.number,
        first: r.first,
        second: r.second,
    }
}

pub fn tally(answer: Result<model::Table, Refusal>) -> flat::Tally {
    let (r, table) = match answer {
        Ok(table) => (Refusal::new(0, 0, 0), table),
        Err(r) => (r, model::Table::default()),
    };
    let cells = table.concat().try_into();
    flat::Tally {
        number: r.number,
        first: r.first,
        second: r.second,
        cells: cells.expect("twelve rows of ten cells"),
    }
}

pub fn code(answer: Result<[u8; 3], Refusal>) -> flat::TroubleCode {
    let (r, code) = match answer {
        Ok(code) => (Refusal::new(0, 0, 0), code.map(u64::from)),
        Err(r) => (r, [0; 3]),
    };
    flat::TroubleCode {
        number: r.number,
        first: r.first,
        second: r.second,
        high: code[0],
        middle: code[1],
        low: code[2],
    }
}

pub fn next(buffer: &[u8], answer: Result<Option<NextCode>, Refusal>) -> flat::NextTroubleCode {
    match answer {
        Err(r) => flat::NextTroubleCode {
            number: r.number,
            first: r.first,
            second: r.second,
            ..flat::NextTroubleCode::default()
        },
        Ok(None) => flat::NextTroubleCode::default(),
        Ok(Some(next)) => flat::NextTroubleCode {
            found: 1,
            high: next.code[0].into(),
            middle: next.code[1].into(),
            low: next.code[2].into(),
            tail: (buffer.len() - next.tail_len) as u64,
            ..flat::NextTroubleCode::default()
        },
    }
}

/// What the binding read, as plain data.
pub fn bound_request(message: &[u8]) -> Result<FileTransfer, Refusal> {
    let (read, tail) = skrolvind::read_request(message).map_err(refusal)?;
    Ok(FileTransfer {
        kind: read.kind as u8,
        start: place(message, read.name.as_bytes()),
        len: read.name.len(),
        format: read.format,
        uncompressed: read.uncompressed,
        compressed: read.compressed,
        position: 0,
        tail_len: tail.len(),
    })
}

pub fn bound_response(message: &[u8]) -> Result<FileTransfer, Refusal> {
    let (read, tail) = skrolvind::read_response(message).map_err(refusal)?;
    Ok(FileTransfer {
        kind: read.kind as u8,
        start: place(message, read.block),
        len: read.block.len(),
        format: read.format,
        uncompressed: read.uncompressed,
        compressed: read.compressed,
        position: read.position,
        tail_len: tail.len(),
    })
}

pub fn bound_routine_request(message: &[u8]) -> Result<Routine, Refusal> {
    let read = skrolvind::read_routine_request(message).map_err(refusal)?;
    Ok(Routine {
        suppress: read.suppress,
        sub_function: read.sub_function as u8,
        identifier: read.identifier,
        start: place(message, read.record),
        len: read.record.len(),
        tail_len: 0,
    })
}

pub fn bound_routine_response(message: &[u8]) -> Result<Routine, Refusal> {
    let read = skrolvind::read_routine_response(message).map_err(refusal)?;
    Ok(Routine {
        suppress: false,
        sub_function: read.sub_function as u8,
        identifier: read.identifier,
        start: place(message, read.record),
        len: read.record.len(),
        tail_len: 0,
    })
}

pub fn bound_next(buffer: &[u8]) -> Result<Option<NextCode>, Refusal> {
    let next = skrolvind::next_trouble_code(buffer).map_err(refusal)?;
    Ok(next.map(|(c, tail)| NextCode {
        code: [c.high, c.middle, c.low],
        tail_len: tail.len(),
    }))
}

pub fn bound_codes(buffer: &[u8]) -> Vec<Result<[u8; 3], Refusal>> {
    let codes = skrolvind::trouble_codes(buffer);
    codes
        .map(|code| code.map_or_else(|r| Err(refusal(r)), |code| Ok(code.into())))
        .collect()
}

pub fn bound_code(number: u32) -> Result<[u8; 3], Refusal> {
    let code = skrolvind::trouble_code(number).map_err(refusal)?;
    Ok(code.into())
}
