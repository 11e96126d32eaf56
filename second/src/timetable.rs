//! The runs of trains in absolute ticks, laid out for a stretch of time: every start of every train is written down and sorted,
//! so that millions of ticks are answered without asking each place at each of them.

use crate::dispatcher::Train;

/// A run of the train at a place: the ticks from its start up to its end, which is not one of them.
pub struct Run {
    pub place: usize,
    pub start: u128,
    pub end: u128,
}

/// The runs that have a tick in the stretch, in the order of their starts. No two of them have one in common.
pub fn runs(held: &[(usize, Train)], from: u128, to: u128) -> Vec<Run> {
    let mut runs: Vec<Run> = held.iter().flat_map(|(place, train)| of_train(*place, *train, from, to)).collect();
    runs.sort_by_key(|run| run.start);
    assert!(runs.windows(2).all(|pair| pair[0].end <= pair[1].start), "a tick is claimed twice");
    runs
}

/// The runs of one train that have a tick in the stretch.
fn of_train(place: usize, train: Train, from: u128, to: u128) -> impl Iterator<Item = Run> {
    let first_end = train.first + train.duration;
    let over = if from < first_end { 0 } else { (from - first_end) / train.period + 1 };
    let starts = (over..).map(move |number| train.first + number * train.period);
    let starts = starts.take_while(move |start| *start < to);
    starts.map(move |start| Run { place, start, end: start + train.duration })
}

/// The first start of a train that is not before a tick.
pub fn next_start(train: Train, tick: u128) -> u128 {
    let since = tick.saturating_sub(train.first);
    train.first + since.div_ceil(train.period) * train.period
}
