//! The dispatcher as a Rust program would keep it: a struct, changed in place.

use super::numbers::{compare, Train};
use super::words::{LAST, PLACE, PLACES};
use super::{code, handed, header, Refusal};
use crate::proved::{Words, WORDS};

#[derive(Clone, Copy)]
struct Placed {
    next: u32,
    period: u32,
    duration: u32,
}

pub struct Dispatcher {
    places: [Option<Placed>; PLACES],
    last: u32,
    runs: u32,
    left: u32,
}

impl Dispatcher {
    pub const EMPTY: Dispatcher = Dispatcher { places: [None; PLACES], last: 0, runs: 0, left: 0 };

    #[inline(never)]
    pub fn fresh(&mut self, count: u32) {
        *self = Dispatcher { last: count, ..Dispatcher::EMPTY };
    }

    fn admitted(&mut self, train: Train) -> Result<usize, Refusal> {
        if !train.within_limits() {
            return Err(Refusal::NOT_A_TRAIN);
        }
        let empty = self.places.iter().position(Option::is_none).ok_or(Refusal::NO_EMPTY_PLACE)?;
        let count = self.last.wrapping_add(1);
        let met = self.places.iter().position(|place| {
            place.is_some_and(|placed| {
                let phase = placed.next.wrapping_sub(count);
                !compare(&Train { phase, period: placed.period, duration: placed.duration }, &train).0
            })
        });
        if let Some(place) = met {
            return Err(Refusal::of(header::REFUSAL_COLLISION, place));
        }
        self.places[empty] =
            Some(Placed { next: count.wrapping_add(train.phase), period: train.period, duration: train.duration });
        Ok(empty)
    }

    #[inline(never)]
    pub fn admit(&mut self, delay: u32, period: u32, duration: u32) -> u64 {
        handed(self.admitted(Train { phase: delay, period, duration }))
    }

    fn withdrew(&mut self, place: u32) -> Result<usize, Refusal> {
        let there = self.places.get_mut(place as usize).ok_or(Refusal::NO_TRAIN_THERE)?;
        there.take().ok_or(Refusal::NO_TRAIN_THERE)?;
        if self.runs == place {
            self.left = 0;
        }
        Ok(0)
    }

    #[inline(never)]
    pub fn withdraw(&mut self, place: u32) -> u64 {
        handed(self.withdrew(place))
    }

    #[inline(never)]
    pub fn step(&mut self, count: u32) -> u64 {
        if count != self.last.wrapping_add(1) {
            return Refusal::WRONG_COUNT.code();
        }
        self.last = count;
        if self.left > 0 {
            self.left -= 1;
            return code(header::GOES_ON, self.runs as usize);
        }
        for (place, there) in self.places.iter_mut().enumerate() {
            let Some(placed) = there.as_mut().filter(|placed| placed.next == count) else {
                continue;
            };
            placed.next = count.wrapping_add(placed.period);
            self.left = placed.duration.saturating_sub(1);
            self.runs = place as u32;
            return code(header::STARTS, place);
        }
        code(header::IDLE, 0)
    }

    /// The words that stand for it.
    pub fn words(&self) -> Words {
        let mut words = [0; WORDS];
        for (here, place) in words.chunks_exact_mut(PLACE).zip(&self.places) {
            if let Some(placed) = place {
                here.copy_from_slice(&[1, placed.next, placed.period, placed.duration]);
            }
        }
        words[LAST..].copy_from_slice(&[self.last, self.runs, self.left]);
        words
    }
}
