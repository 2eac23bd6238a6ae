//! Recorded transfers: logs run whole and record by record.
use crate::bench::Bench;
use crate::expected;
use crate::log_model::{Record, State, run, step};
use crate::report::agree;
use crate::rng::Rng;
use crate::tally::{Call, Rule};
use oracle::plain::Refusal;
use skrolvind::flat::{self, Replay, c};
use skrolvind::{LogRecord, Transfer, TransferState};

/// One of each sort that a record can be, with counters around 0.
const CHOSEN: [Record; 12] = [
    [0x38, 1, 0, 9],
    [0x38, 2, 0, 0],
    [0x38, 3, 1, 0],
    [0x38, 6, 255, 255],
    [0x36, 0, 0, 1],
    [0x36, 1, 0, 2],
    [0x36, 2, 1, 0],
    [0x36, 3, 0, 0],
    [0x36, 255, 0, 8],
    [0x37, 1, 2, 3],
    [0x35, 1, 0, 0],
    [0x78, 1, 0, 0],
];
const COUNTERS: [u8; 7] = [0, 1, 2, 127, 128, 254, 255];

/// The record of a state, after the three numbers of what was answered.
fn record(answer: Result<State, (Refusal, State)>) -> Replay {
    let (refusal, state) = match answer {
        Ok(state) => (Refusal::new(0, 0, 0), state),
        Err((refusal, state)) => (refusal, state),
    };
    Replay {
        number: refusal.number,
        first: refusal.first,
        second: refusal.second,
        open: state.open.into(),
        has_last: state.last.is_some().into(),
        last: state.last.unwrap_or(0).into(),
        repeats: state.repeats,
        total: state.total,
    }
}

fn bound_state(state: State) -> TransferState {
    let transfer = match state {
        State { open: false, .. } => Transfer::Closed,
        State { last, .. } => Transfer::Open { last },
    };
    TransferState {
        transfer,
        repeats: state.repeats,
        total: state.total,
    }
}

impl Bench {
    /// A log, whole.
    fn log(&mut self, log: &[u8]) {
        self.watched(log, |bench| {
            let wanted = run(log);
            agree(
                "a log is run otherwise",
                log,
                &flat::replay_log(log),
                &record(wanted),
            );
            let bound = skrolvind::replay_log(log);
            agree(
                "the binding runs a log otherwise",
                log,
                &bound.map_err(|s| (expected::refusal(s.refusal), s.state)),
                &wanted
                    .map(bound_state)
                    .map_err(|(refusal, state)| (refusal, bound_state(state))),
            );
            bench.tally.count(Call::ReplayLog, Some(Rule::Replay));
        });
    }

    /// One record after a state.
    fn log_step(&mut self, state: State, logged: Record, place: usize) -> Result<State, Refusal> {
        let wanted = step(state, logged, place as u64);
        let [service, kind_or_counter, high, low] = logged;
        let payload = u16::from_be_bytes([high, low]);
        let ours = c::skr_replay_step(
            state.open,
            state.last.is_some(),
            state.last.unwrap_or(0),
            state.repeats,
            state.total,
            service,
            kind_or_counter,
            payload,
            place,
        );
        let answer = record(wanted.map_err(|refusal| (refusal, state)));
        agree("a record is run otherwise", &logged, &ours, &answer);
        let handed = LogRecord {
            service,
            kind_or_counter,
            payload,
        };
        agree(
            "the binding runs a record otherwise",
            &logged,
            &skrolvind::replay_step(&bound_state(state), handed, place).map_err(expected::refusal),
            &wanted.map(bound_state),
        );
        self.tally.count(Call::ReplayStep, Some(Rule::Replay));
        wanted
    }

    /// A log whole, and record by record up to the first bad one.
    fn log_and_steps(&mut self, log: &[u8]) {
        self.log(log);
        let mut state = State::default();
        for (place, logged) in log.as_chunks::<4>().0.iter().enumerate() {
            match self.log_step(state, *logged, place) {
                Ok(next) => state = next,
                Err(_) => return,
            }
        }
    }
}

/// All logs of up to 5 chosen records; those of up to 3 are also cut.
pub fn short_logs(bench: &mut Bench) {
    for len in 0..=5 {
        for number in 0..CHOSEN.len().pow(len) {
            let mut left = number;
            let mut log = Vec::new();
            for _ in 0..len {
                log.extend(CHOSEN[left % CHOSEN.len()]);
                left /= CHOSEN.len();
            }
            bench.log_and_steps(&log);
            if len <= 3 {
                for cut in 1..=log.len().min(3) {
                    bench.log(&log[..log.len() - cut]);
                }
            }
        }
    }
}

/// Every service byte with every second byte, after each sort of state.
pub fn every_record(bench: &mut Bench) {
    let closed = State {
        repeats: 3,
        total: 4096,
        ..State::default()
    };
    let open = State {
        open: true,
        ..closed
    };
    let after = |counter| State {
        last: Some(counter),
        ..open
    };
    for state in [closed, open].into_iter().chain(COUNTERS.map(after)) {
        for service in 0..=255 {
            for second in 0..=255 {
                let _ = bench.log_step(state, [service, second, 1, 2], usize::from(second));
            }
        }
    }
    handed_over(bench);
    bounds(bench);
}

/// What C says of a last counter where there is none is not looked at.
fn handed_over(bench: &mut Bench) {
    for (service, second) in [
        (0x38, 1),
        (0x38, 2),
        (0x36, 1),
        (0x36, 9),
        (0x37, 0),
        (0, 0),
    ] {
        for (open, has_last, last) in [(false, false, 9), (false, true, 9), (true, false, 9)] {
            let state = State {
                open,
                ..State::default()
            };
            let logged = [service, second, 0, 7];
            let wanted = step(state, logged, 4).map_err(|refusal| (refusal, state));
            let ours = c::skr_replay_step(open, has_last, last, 0, 0, service, second, 7, 4);
            agree(
                "a last counter that is none is looked at",
                &logged,
                &ours,
                &record(wanted),
            );
            bench.tally.count(Call::ReplayStep, Some(Rule::Replay));
        }
    }
}

/// Repeats and totals up to the largest number.
fn bounds(bench: &mut Bench) {
    for less in [0, 1, 2, 65_534, 65_535, 65_536] {
        for (repeats, total) in [
            (u64::MAX - less, 0),
            (0, u64::MAX - less),
            (u64::MAX, u64::MAX),
        ] {
            for last in [None, Some(0), Some(1)] {
                for logged in CHOSEN {
                    let state = State {
                        open: true,
                        last,
                        repeats,
                        total,
                    };
                    let _ = bench.log_step(state, logged, usize::MAX);
                    let long = [logged[0], logged[1], 255, 255];
                    let _ = bench.log_step(state, long, 0);
                }
            }
        }
    }
}

/// An opening and so many blocks, of one byte each.
fn blocks(count: usize) -> Vec<u8> {
    let block = |place: usize| [0x36, place as u8, 0, 1];
    let blocks = (1..=count).flat_map(block);
    [0x38, 1, 0, 0].into_iter().chain(blocks).collect()
}

/// Counters around 255 and 0, each followed by every counter; and logs as long as they may be, and longer.
pub fn long_logs(bench: &mut Bench) {
    for count in [0, 1, 2, 254, 255, 256, 257, 510, 511, 512, 513] {
        let before = blocks(count);
        for counter in 0..=255 {
            bench.log(&[&before[..], &[0x36, counter, 255, 255]].concat());
        }
    }
    let good = blocks(65_540);
    let bad = vec![0; good.len()];
    let closed = [0x38, 1, 0, 0, 0x37, 0, 0, 0].repeat(32_770);
    for records in [65_534, 65_535, 65_536, 65_537, 65_538] {
        for log in [&good, &bad, &closed] {
            for more in 0..4 {
                bench.log(&log[..4 * records + more]);
            }
        }
    }
}

/// Random logs: mostly as the rules have them.
pub fn round(bench: &mut Bench, rng: &mut Rng) {
    for _ in 0..50 {
        let len = rng.below(600);
        let log = random_log(rng, len);
        bench.log_and_steps(&log);
        let noise = rng.below(24);
        bench.log_and_steps(&rng.bytes(noise));
    }
    let log = random_log(rng, 65_536);
    bench.log_and_steps(&log);
}

fn random_log(rng: &mut Rng, len: usize) -> Vec<u8> {
    let (mut log, mut state) = (Vec::new(), State::default());
    for place in 0..len {
        let mut logged = likely(rng, &state);
        if rng.once_in(len + 1) {
            let at = rng.below(4);
            logged[at] = rng.byte();
        }
        log.extend(logged);
        if let Ok(next) = step(state, logged, place as u64) {
            state = next;
        }
    }
    log
}

/// A record that is good after this state.
fn likely(rng: &mut Rng, state: &State) -> Record {
    let [high, low] = [rng.byte(), rng.byte()];
    if !state.open {
        return [0x38, rng.choose(&[1, 3, 6]), high, low];
    }
    if rng.once_in(40) {
        return [0x37, rng.byte(), high, low];
    }
    let new = state.last.map_or(1, |last| last.wrapping_add(1));
    let counter = match state.last {
        Some(last) if rng.once_in(8) => last,
        _ => new,
    };
    [0x36, counter, high, low]
}
