//! The best of many rounds, in which both sides take turns.
use crate::row::{Repeated, Side, Sides};
use std::hint::black_box;
use std::time::{Duration, Instant};

/// About how long a round of the slower side is to take.
const ROUND: Duration = Duration::from_millis(10);

/// How long one call takes in the best round of each side, in nanoseconds.
#[derive(Clone, Copy)]
pub struct Best {
    pub original: f64,
    pub port: f64,
}

impl Best {
    pub fn ratio(self) -> f64 {
        self.port / self.original
    }

    fn take(&mut self, side: Side, nanoseconds: f64) {
        let best = match side {
            Side::Original => &mut self.original,
            Side::Port => &mut self.port,
        };
        *best = best.min(nanoseconds);
    }
}

fn timed(call: &Repeated, iterations: u64, room: &mut [u8]) -> Duration {
    let start = Instant::now();
    call(iterations, room);
    start.elapsed()
}

/// How many calls make a round. The count is doubled until they take so long that the clock's steps do not matter.
fn calibrated(call: &Repeated, room: &mut [u8]) -> u64 {
    let mut iterations = 1;
    loop {
        let taken = timed(call, iterations, room);
        if taken >= ROUND / 4 {
            let rounds = ROUND.as_secs_f64() / taken.as_secs_f64();
            return ((iterations as f64 * rounds) as u64).max(1);
        }
        iterations *= 2;
    }
}

/// Runs with the stack at one of four places in a cache line, in turn: where the answer of a call of few nanoseconds happens to lie
/// there can double its time, and neither side is to win by that.
fn at_place<T>(turn: u32, run: impl FnOnce() -> T) -> T {
    match turn % 4 {
        0 => below::<16, T>(run),
        1 => below::<32, T>(run),
        2 => below::<48, T>(run),
        _ => below::<64, T>(run),
    }
}

/// Runs with so many bytes more on the stack.
#[inline(never)]
fn below<const BYTES: usize, T>(run: impl FnOnce() -> T) -> T {
    let bytes = black_box([0_u8; BYTES]);
    let answer = run();
    black_box(&bytes);
    answer
}

/// The original begins the even rounds, this port the odd ones. Both write into the same room, of `bytes` bytes.
pub fn best_of(rounds: u32, sides: &Sides, bytes: usize) -> Best {
    let room = &mut vec![0; bytes];
    let counts = [Side::Original, Side::Port].map(|side| calibrated(sides.of(side), room));
    let iterations = counts[0].min(counts[1]);
    let mut best = Best {
        original: f64::INFINITY,
        port: f64::INFINITY,
    };
    for round in 0..rounds {
        let mut turns = [Side::Original, Side::Port];
        if round % 2 == 1 {
            turns.reverse();
        }
        for side in turns {
            let taken = at_place(round / 2, || timed(sides.of(side), iterations, room));
            best.take(side, taken.as_secs_f64() * 1e9 / iterations as f64);
        }
    }
    best
}
