//! The time of short calls.
#![forbid(unsafe_code)]

use std::time::{Duration, Instant};

const MOST_BATCHES: u128 = 101;
const FEWEST_BATCHES: u128 = 5;
const TIME_OF_A_BATCH: Duration = Duration::from_micros(500);
/// No more batches are begun than fit into it, unless there are very few.
const TIME_OF_ALL: Duration = Duration::from_secs(2);

/// Nanoseconds of one call of each: medians of many batches, by turns, so that a change of the
/// machine's pace meets all.
pub fn nanoseconds<const CALLS: usize>(mut calls: [&mut dyn FnMut(); CALLS]) -> [f64; CALLS] {
    let mut sizes = [1; CALLS];
    let mut time_of_a_turn = Duration::ZERO;
    for (call, size) in calls.iter_mut().zip(&mut sizes) {
        let mut time = batch(call, *size);
        while time < TIME_OF_A_BATCH {
            *size *= 2;
            time = batch(call, *size);
        }
        time_of_a_turn += time;
    }
    let turns = TIME_OF_ALL.as_nanos() / time_of_a_turn.as_nanos();
    let mut times = [const { Vec::new() }; CALLS];
    for _ in 0..turns.clamp(FEWEST_BATCHES, MOST_BATCHES) {
        for which in 0..CALLS {
            times[which].push(batch(calls[which], sizes[which]));
        }
    }
    std::array::from_fn(|which| {
        times[which].sort();
        let median = times[which][times[which].len() / 2];
        median.as_nanos() as f64 / f64::from(sizes[which])
    })
}

fn batch(call: &mut dyn FnMut(), size: u32) -> Duration {
    let begun = Instant::now();
    for _ in 0..size {
        call();
    }
    begun.elapsed()
}
