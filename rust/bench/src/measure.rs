//! Time of a call.
use std::time::{Duration, Instant};

pub const ROUNDS: usize = 90;
pub const ROUND: Duration = Duration::from_millis(1);

/// Makes so many calls, and answers how long they took.
pub type Timed<'a> = Box<dyn FnMut(usize) -> Duration + 'a>;

/// Calls that are timed as they are.
pub fn timed<'a>(mut call: impl FnMut() + 'a) -> Timed<'a> {
    Box::new(move |count| {
        let start = Instant::now();
        for _ in 0..count {
            call();
        }
        start.elapsed()
    })
}

/// Nanoseconds of one call of each: the best of the rounds, each of enough calls to last `ROUND`. The rounds of the calls alternate.
pub fn best(mut calls: Vec<Timed>) -> Vec<f64> {
    let counts: Vec<usize> = calls.iter_mut().map(|call| calls_in_a_round(call)).collect();
    let mut best = vec![f64::INFINITY; calls.len()];
    for _ in 0..ROUNDS {
        for (i, call) in calls.iter_mut().enumerate() {
            let time = call(counts[i]).as_nanos() as f64 / counts[i] as f64;
            best[i] = best[i].min(time);
        }
    }
    best
}

/// These first calls warm the caches, too.
fn calls_in_a_round(call: &mut Timed) -> usize {
    let mut count = 1;
    while call(count) < ROUND {
        count *= 2;
    }
    count
}
