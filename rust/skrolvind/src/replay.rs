//! Recorded transfers: a whole log, and one record after a state.
use crate::flat::{self, Replay, c};
use crate::read::{accepted, as_small};
use crate::{LogRecord, Refusal, Stopped, Transfer, TransferState};

#[inline]
fn state(r: &Replay) -> TransferState {
    let last = (r.has_last != 0).then(|| as_small(r.last));
    let transfer = match r.open {
        0 => Transfer::Closed,
        _ => Transfer::Open { last },
    };
    TransferState {
        transfer,
        repeats: r.repeats,
        total: r.total,
    }
}

/// Runs a log, records of 4 bytes each, through the rules: the state that it leads to. It may be empty, and may end open.
///
/// # Errors
/// [`Refusal::TooMany`] for more than 65,536 records, then [`Refusal::Cut`] for a cut last one; then of the first bad record
/// [`Refusal::UnknownService`], [`Refusal::NotAllowed`] or [`Refusal::WrongCounter`], with its place.
///
/// ```
/// use skrolvind::{Transfer, replay_log};
///
/// let state = replay_log(&[0x38, 1, 0, 0, 0x36, 1, 0x10, 0, 0x36, 1, 0x10, 0])?;
/// assert_eq!(state.transfer, Transfer::Open { last: Some(1) });
/// assert_eq!((state.repeats, state.total), (1, 4096));
/// # Ok::<(), skrolvind::Stopped>(())
/// ```
#[inline]
pub fn replay_log(log: &[u8]) -> Result<TransferState, Stopped> {
    let r = flat::replay_log(log);
    let state = state(&r);
    match accepted(r.number, r.first, r.second) {
        Ok(()) => Ok(state),
        Err(refusal) => Err(Stopped { refusal, state }),
    }
}

/// Runs one record after a state, for whoever follows a transfer while it runs. A refusal carries the place that is handed over,
/// and the state is then as it was.
///
/// # Errors
/// [`Refusal::UnknownService`], [`Refusal::NotAllowed`] and [`Refusal::WrongCounter`], and [`Refusal::TooMany`] where repeats or
/// total would pass 64 bits.
///
/// ```
/// use skrolvind::{LogRecord, Refusal, TransferState, replay_step};
///
/// let opening = LogRecord { service: 0x38, kind_or_counter: 1, payload: 0 };
/// let block = |counter| LogRecord { service: 0x36, kind_or_counter: counter, payload: 512 };
/// let state = replay_step(&TransferState::default(), opening, 0)?;
/// let state = replay_step(&state, block(1), 1)?;
/// assert_eq!(state.total, 512);
/// assert_eq!(replay_step(&state, block(3), 2), Err(Refusal::WrongCounter { place: 2 }));
/// # Ok::<(), Refusal>(())
/// ```
#[inline]
pub fn replay_step(
    state: &TransferState,
    record: LogRecord,
    place: usize,
) -> Result<TransferState, Refusal> {
    let (open, last) = match state.transfer {
        Transfer::Closed => (false, None),
        Transfer::Open { last } => (true, last),
    };
    let r = c::skr_replay_step(
        open,
        last.is_some(),
        last.unwrap_or(0),
        state.repeats,
        state.total,
        record.service,
        record.kind_or_counter,
        record.payload,
        place,
    );
    accepted(r.number, r.first, r.second)?;
    Ok(self::state(&r))
}
