//! What one does without the theorem: walk through the ticks, up to where the pattern repeats, and look for one that is claimed
//! twice. The trains are in whole ticks. It allocates nothing in the walk: the ticks of `mark` are lent.

use crate::data::TRAINS;

#[derive(Clone, Copy)]
struct Running {
    next: u64,
    left: u32,
    period: u32,
    duration: u32,
}

fn divisor(a: u64, b: u64) -> u64 {
    if b == 0 {
        a
    } else {
        divisor(b, a % b)
    }
}

/// The last phase and one common period: from there on all repeats. None where that is above 64 bits.
pub fn end(trains: &[[u32; 3]]) -> Option<u64> {
    let common = trains.iter().try_fold(1u64, |common, train| {
        let period = u64::from(train[1]);
        (common / divisor(common, period)).checked_mul(period)
    })?;
    let last = trains.iter().map(|train| train[0]).max().unwrap_or(0);
    common.checked_add(last.into())
}

/// Tick by tick, as a dispatcher goes: the first tick that two trains claim. Each train knows its next start.
#[inline(never)]
pub fn tick_by_tick(trains: &[[u32; 3]], end: u64) -> Option<u64> {
    let mut running = [Running { next: 0, left: 0, period: 0, duration: 0 }; TRAINS as usize];
    let running = &mut running[..trains.len()];
    for (train, &[phase, period, duration]) in running.iter_mut().zip(trains) {
        *train = Running { next: phase.into(), left: 0, period, duration };
    }
    (0..end).find(|&tick| claims(running, tick) > 1)
}

/// How many trains claim this tick, which comes after the last that was asked for.
fn claims(running: &mut [Running], tick: u64) -> u32 {
    let mut claims = 0;
    for train in running {
        if train.next == tick {
            train.next += u64::from(train.period);
            train.left = train.duration;
        }
        claims += u32::from(train.left > 0);
        train.left = train.left.saturating_sub(1);
    }
    claims
}

/// Train by train: each marks its ticks up to `end` among the lent ones; whether one is marked twice.
#[inline(never)]
pub fn mark(trains: &[[u32; 3]], ticks: &mut [bool]) -> bool {
    ticks.fill(false);
    for &[phase, period, duration] in trains {
        for start in (phase as usize..ticks.len()).step_by(period as usize) {
            let end = ticks.len().min(start + duration as usize);
            for tick in &mut ticks[start..end] {
                if std::mem::replace(tick, true) {
                    return true;
                }
            }
        }
    }
    false
}
