//! Clocks and orders of times.

use std::hint::black_box;
use std::time::Instant;

/// The nanoseconds that a call took.
#[inline(always)]
pub fn timed(run: impl FnOnce()) -> f64 {
    let start = Instant::now();
    run();
    start.elapsed().as_nanos() as f64
}

/// The tenth part of the times from below, which other work on the machine moves little.
pub fn typical(rounds: &mut [f64]) -> f64 {
    percentile(rounds, 100)
}

/// The times of work that each round does in the same pieces. A piece is short: other work on the machine seldom comes
/// into it, and the typical times of all pieces together are that of a round without it.
#[derive(Default)]
pub struct Pieces(Vec<Vec<f64>>);

impl Pieces {
    pub fn push(&mut self, piece: usize, time: f64) {
        if self.0.len() == piece {
            self.0.push(Vec::new());
        }
        self.0[piece].push(time);
    }

    pub fn typical(&mut self) -> f64 {
        self.0.iter_mut().map(|times| typical(times)).sum()
    }
}

/// The time that so many of a thousand stay below.
pub fn percentile(times: &mut [f64], thousandths: usize) -> f64 {
    let place = times.len() * thousandths / 1_000;
    *times.select_nth_unstable_by(place, f64::total_cmp).1
}

/// The nanoseconds of one copy of so many bytes.
pub fn copy<const BYTES: usize>(rounds: usize) -> f64 {
    const TIMES: usize = 1_000;
    let from = vec![7u8; BYTES];
    let mut to = vec![0u8; BYTES];
    let mut times: Vec<f64> = (0..rounds)
        .map(|_| {
            let copies = || {
                for _ in 0..TIMES {
                    black_box(&mut to).copy_from_slice(black_box(&from));
                }
            };
            timed(copies) / TIMES as f64
        })
        .collect();
    typical(&mut times)
}

/// The nanoseconds that a timed call shows which does nothing.
pub fn tick() -> f64 {
    const TIMES: usize = 10_000;
    (0..TIMES).map(|_| timed(|| ())).sum::<f64>() / TIMES as f64
}
