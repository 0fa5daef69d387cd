//! Times of several functions on one input, measured in turns.
use std::{hint::black_box, time::Instant};

/// About how long a batch lasts, in nanoseconds.
const BATCH: f64 = 20_000.0;

fn batch<I: ?Sized, R>(run: fn(&I) -> R, input: &I, times: usize) -> f64 {
    let start = Instant::now();
    for _ in 0..times {
        black_box(run(black_box(input)));
    }
    start.elapsed().as_nanos() as f64 / times as f64
}

/// Nanoseconds a call of each function, the lower decile of its batches.
pub fn measure<I: ?Sized, R, const N: usize>(
    runs: [fn(&I) -> R; N],
    input: &I,
    rounds: usize,
) -> [f64; N] {
    let repeats = runs.map(|run| {
        let warm = (0..5).map(|_| batch(run, input, 4)).fold(f64::MAX, f64::min);
        ((BATCH / warm.max(1.0)) as usize).clamp(1, 4000)
    });
    let mut samples = runs.map(|_| Vec::with_capacity(rounds));
    for round in 0..rounds {
        for turn in 0..N {
            let i = (round + turn) % N;
            samples[i].push(batch(runs[i], input, repeats[i]));
        }
    }
    samples.map(|mut times| {
        times.sort_unstable_by(f64::total_cmp);
        times[times.len() / 10]
    })
}
