//! Document 02's request 04, written down once more and as plainly as it stands there: a two-state machine over the records of a log.
use oracle::plain::Refusal;

/// The state; once closed there is no last counter.
#[derive(Clone, Copy, Debug, Default, PartialEq, Eq)]
pub struct State {
    pub open: bool,
    pub last: Option<u8>,
    pub repeats: u64,
    pub total: u64,
}

pub type Record = [u8; 4];

const MOST: usize = 65_536;
/// Ours: no number of a step is cut to 64 bits.
const TOO_MANY: Refusal = Refusal::new(12, 0, 0);

/// One record at its place.
pub fn step(state: State, record: Record, place: u64) -> Result<State, Refusal> {
    let [service, second, high, low] = record;
    let number = match (service, state.open) {
        (0x38, false) if [1, 3, 6].contains(&second) => {
            return Ok(State {
                open: true,
                ..state
            });
        }
        (0x36, true) => return block(state, second, u16::from_be_bytes([high, low]), place),
        (0x37, true) => {
            return Ok(State {
                open: false,
                last: None,
                ..state
            });
        }
        (0x36..=0x38, _) => 13,
        _ => 15,
    };
    Err(Refusal::new(number, place, 0))
}

/// A block in an open transfer.
fn block(state: State, counter: u8, payload: u16, place: u64) -> Result<State, Refusal> {
    let (repeats, total) = (state.repeats, state.total);
    if state.last == Some(counter) {
        let repeats = repeats.checked_add(1).ok_or(TOO_MANY)?;
        return Ok(State { repeats, ..state });
    }
    let next = match state.last {
        None => 1,
        Some(255) => 0,
        Some(last) => last + 1,
    };
    if counter != next {
        return Err(Refusal::new(14, place, 0));
    }
    let total = total.checked_add(payload.into()).ok_or(TOO_MANY)?;
    Ok(State {
        last: Some(counter),
        total,
        ..state
    })
}

/// A whole log: the state at its end, or the refusal and the state before it.
pub fn run(log: &[u8]) -> Result<State, (Refusal, State)> {
    let mut state = State::default();
    let (records, cut) = log.as_chunks::<4>();
    if records.len() > MOST {
        return Err((TOO_MANY, state));
    }
    if !cut.is_empty() {
        return Err((Refusal::new(10, 0, 0), state));
    }
    for (place, record) in records.iter().enumerate() {
        state = step(state, *record, place as u64).map_err(|refusal| (refusal, state))?;
    }
    Ok(state)
}
