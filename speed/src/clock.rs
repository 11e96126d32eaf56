//! What a call takes: the best of many short batches, in which those who are compared take turns, so that what else runs on
//! the machine falls out. A batch is shorter than the time for which a system leaves the processor to a program.

use std::hint::black_box;
use std::time::{Duration, Instant};

/// How long a batch takes at least, how many there are, and when there are enough for calls that are long themselves.
pub const BATCH: Duration = Duration::from_micros(250);
const BATCHES: usize = 400;
pub const ENOUGH: Duration = Duration::from_millis(1200);

/// The batches of this run: with the word `check` one is enough, to see that all answer alike.
pub fn batches() -> usize {
    if std::env::args().any(|word| word == "check") {
        1
    } else {
        BATCHES
    }
}

/// Makes so many calls, and hands back the sum of their answers.
pub type Batch<'a> = &'a mut dyn FnMut(u64) -> u64;

/// A batch of calls of one function.
pub fn calls(mut call: impl FnMut() -> u64) -> impl FnMut(u64) -> u64 {
    move |count| (0..count).fold(0u64, |sum, _| sum.wrapping_add(black_box(call())))
}

fn timed(batch: &mut Batch, count: u64) -> (Duration, u64) {
    let begin = Instant::now();
    let sum = batch(count);
    (begin.elapsed(), black_box(sum))
}

/// So many calls that the slowest of all takes at least a batch. This is the warming up as well.
fn batch_length(all: &mut [Batch]) -> u64 {
    let mut count = 1;
    loop {
        let times: Vec<Duration> = all.iter_mut().map(|batch| timed(batch, count).0).collect();
        if times.iter().all(|&time| time >= BATCH) {
            return count;
        }
        count *= 2;
    }
}

/// What a call takes in nanoseconds, for each of those who are compared. They answer alike through all batches.
pub fn race<const N: usize>(mut all: [Batch; N]) -> [f64; N] {
    let count = batch_length(&mut all);
    let mut best = [Duration::MAX; N];
    let begin = Instant::now();
    for _ in 0..batches() {
        let results = all.each_mut().map(|batch| timed(batch, count));
        for (best, (time, sum)) in best.iter_mut().zip(results) {
            assert_eq!(sum, results[0].1, "all answer alike in each batch");
            *best = time.min(*best);
        }
        if begin.elapsed() > ENOUGH {
            break;
        }
    }
    best.map(|time| time.as_secs_f64() * 1e9 / count as f64)
}
