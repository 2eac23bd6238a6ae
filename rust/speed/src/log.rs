//! Logs of recorded transfers, and the loop that running one is timed against: the original has none.
use skrolvind::{Transfer, TransferState};

/// The state that a log leads to, or nothing where it is refused: one loop, as one would write it.
pub fn replay(log: &[u8]) -> Option<TransferState> {
    let (records, piece) = log.as_chunks::<4>();
    if records.len() > 65_536 || !piece.is_empty() {
        return None;
    }
    let mut state = TransferState::default();
    for [service, second, high, low] in records {
        state.transfer = match (service, state.transfer) {
            (0x38, Transfer::Closed) if matches!(second, 1 | 3 | 6) => {
                Transfer::Open { last: None }
            }
            (0x36, Transfer::Open { last }) => {
                if last == Some(*second) {
                    state.repeats += 1;
                } else if *second == last.map_or(1, |last| last.wrapping_add(1)) {
                    state.total += u64::from(u16::from_be_bytes([*high, *low]));
                } else {
                    return None;
                }
                Transfer::Open {
                    last: Some(*second),
                }
            }
            (0x37, Transfer::Open { .. }) => Transfer::Closed,
            _ => return None,
        };
    }
    Some(state)
}

/// Transfer after transfer, of 320 records each: an opening, blocks, of which every tenth is a repeat, and an end.
pub fn day(count: usize) -> Vec<u8> {
    let record = |turn: usize| match turn % 320 {
        0 => [0x38, 1, 0, 0],
        319 => [0x37, 0, 0, 0],
        place => [0x36, (place - place / 10) as u8, 0x0F, 0xFE],
    };
    (0..count).flat_map(record).collect()
}
