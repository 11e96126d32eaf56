//! The dispatcher in place in its words: four for each place (whether there is a train, its next count, its period and its
//! duration), then the last count, the place of the run in progress and how many of its ticks are still to come.

use super::numbers::{compare, Train};
use super::{code, handed, header, Refusal};
use crate::proved::{Words, WORDS};

pub const PLACES: usize = header::PLACES as usize;
pub const PLACE: usize = 4;
pub const LAST: usize = PLACE * PLACES;
const RUNS: usize = LAST + 1;
const LEFT: usize = LAST + 2;

/// The lowest place of which the test holds.
fn lowest(words: &Words, test: impl Fn(&[u32; PLACE]) -> bool) -> Option<usize> {
    words[..LAST].as_chunks().0.iter().position(test)
}

#[inline(never)]
pub fn fresh(words: &mut Words, count: u32) {
    *words = [0; WORDS];
    words[LAST] = count;
}

fn admitted(words: &mut Words, train: Train) -> Result<usize, Refusal> {
    if !train.within_limits() {
        return Err(Refusal::NOT_A_TRAIN);
    }
    let empty = lowest(words, |place| place[0] == 0).ok_or(Refusal::NO_EMPTY_PLACE)?;
    let count = words[LAST].wrapping_add(1);
    let met = lowest(words, |place| {
        let there = Train { phase: place[1].wrapping_sub(count), period: place[2], duration: place[3] };
        place[0] != 0 && !compare(&there, &train).0
    });
    if let Some(place) = met {
        return Err(Refusal::of(header::REFUSAL_COLLISION, place));
    }
    let place = &mut words[empty * PLACE..][..PLACE];
    place.copy_from_slice(&[1, count.wrapping_add(train.phase), train.period, train.duration]);
    Ok(empty)
}

#[inline(never)]
pub fn admit(words: &mut Words, delay: u32, period: u32, duration: u32) -> u64 {
    handed(admitted(words, Train { phase: delay, period, duration }))
}

fn withdrew(words: &mut Words, place: u32) -> Result<usize, Refusal> {
    let at = place as usize * PLACE;
    if place as usize >= PLACES || words[at] == 0 {
        return Err(Refusal::NO_TRAIN_THERE);
    }
    words[at..at + PLACE].fill(0);
    if words[RUNS] == place {
        words[LEFT] = 0;
    }
    Ok(0)
}

#[inline(never)]
pub fn withdraw(words: &mut Words, place: u32) -> u64 {
    handed(withdrew(words, place))
}

#[inline(never)]
pub fn step(words: &mut Words, count: u32) -> u64 {
    if count != words[LAST].wrapping_add(1) {
        return Refusal::WRONG_COUNT.code();
    }
    words[LAST] = count;
    if words[LEFT] > 0 {
        words[LEFT] -= 1;
        return code(header::GOES_ON, words[RUNS] as usize);
    }
    let Some(due) = lowest(words, |place| place[0] != 0 && place[1] == count) else {
        return code(header::IDLE, 0);
    };
    let place = &mut words[due * PLACE..][..PLACE];
    place[1] = count.wrapping_add(place[2]);
    words[LEFT] = place[3].saturating_sub(1);
    words[RUNS] = due as u32;
    code(header::STARTS, due)
}
