//! A dispatcher's record on any words, however they came about: what docs/DISPATCHER.md says that the calls answer and leave.
//! A place is four words: 0 where it is empty, whatever follows; else its next count, its period and its duration follow.
//! Behind the places come the last count, and the place of the run in progress with the ticks that it has left.
//!
//! Whether two trains are free is `trains`' own search, and expression (1) only of values that are no trains.

use crate::dispatcher::{Answer, Call};
use crate::library::{Words, WORDS};
use crate::paper::{MOST_TICKS, NO_PLACE, PLACES};
use crate::trains::{free, Train};

const WORDS_A_PLACE: usize = 4;

/// Where the words behind the places stand.
pub const LAST: usize = PLACES * WORDS_A_PLACE;
pub const RUN_PLACE: usize = LAST + 1;
pub const RUN_LEFT: usize = LAST + 2;

const _: () = assert!(WORDS == RUN_LEFT + 1, "there are no words behind these");

/// The count comes round after so many.
const COUNTS: u64 = 1 << 32;

/// What a place holds.
#[derive(Clone, Copy)]
pub struct Placed {
    pub next: u32,
    pub period: u32,
    pub duration: u32,
}

pub struct Record {
    pub words: Words,
}

impl Record {
    pub fn fresh(count: u32) -> Record {
        let mut words = [0; WORDS];
        words[LAST] = count;
        Record { words }
    }

    /// The words of a place that there is.
    fn place(&mut self, place: usize) -> &mut [u32] {
        &mut self.words[place * WORDS_A_PLACE..][..WORDS_A_PLACE]
    }

    pub fn put(&mut self, place: usize, flag: u32, placed: Placed) {
        self.place(place).copy_from_slice(&[flag, placed.next, placed.period, placed.duration]);
    }

    /// The places that hold a train, the lowest first.
    pub fn held(&self) -> impl Iterator<Item = (usize, Placed)> + '_ {
        let places = self.words[..LAST].chunks(WORDS_A_PLACE).enumerate().filter(|(_, words)| words[0] != 0);
        places.map(|(place, words)| (place, Placed { next: words[1], period: words[2], duration: words[3] }))
    }

    /// The count that comes after the last one and so many others.
    pub fn count_after(&self, others: u32) -> u32 {
        ((u64::from(self.words[LAST]) + 1 + u64::from(others)) % COUNTS) as u32
    }

    /// How many steps come before the one with this count.
    fn wait(&self, count: u32) -> u64 {
        (u64::from(count) + COUNTS - u64::from(self.count_after(0))) % COUNTS
    }

    pub fn play(&mut self, call: Call) -> Answer {
        match call {
            Call::Fresh(count) => {
                *self = Record::fresh(count);
                Answer::Fresh
            }
            Call::Admit(delay, period, duration) => self.admit(delay, period, duration),
            Call::Withdraw(place) => self.withdraw(place),
            Call::Step(count) => self.step(count),
        }
    }

    fn admit(&mut self, delay: u32, period: u32, duration: u32) -> Answer {
        let new = Train { phase: delay.into(), period: period.into(), duration: duration.into() };
        if duration == 0 || duration > period || period > MOST_TICKS || delay > MOST_TICKS {
            return Answer::Refuse(13, NO_PLACE);
        }
        let Some(empty) = (0..PLACES).find(|place| self.place(*place)[0] == 0) else {
            return Answer::Refuse(14, NO_PLACE);
        };
        let is_met = |placed: Placed| !free(self.as_train(placed), new);
        if let Some((place, _)) = self.held().find(|(_, placed)| is_met(*placed)) {
            return Answer::Refuse(15, place);
        }
        self.put(empty, 1, Placed { next: self.count_after(delay), period, duration });
        Answer::Place(empty)
    }

    /// A placed train as one whose phase is its wait.
    fn as_train(&self, placed: Placed) -> Train {
        Train { phase: self.wait(placed.next).into(), period: placed.period.into(), duration: placed.duration.into() }
    }

    fn withdraw(&mut self, place: u32) -> Answer {
        let at = place as usize;
        if at >= PLACES || self.place(at)[0] == 0 {
            return Answer::Refuse(16, NO_PLACE);
        }
        self.place(at).fill(0);
        if self.words[RUN_PLACE] == place {
            self.words[RUN_LEFT] = 0;
        }
        Answer::Withdrawn
    }

    fn step(&mut self, count: u32) -> Answer {
        if count != self.count_after(0) {
            return Answer::Refuse(17, NO_PLACE);
        }
        self.words[LAST] = count;
        if self.words[RUN_LEFT] > 0 {
            self.words[RUN_LEFT] -= 1;
            return Answer::GoesOn(self.words[RUN_PLACE] as usize);
        }
        let due = self.held().find(|(_, placed)| placed.next == count);
        let Some((place, placed)) = due else {
            return Answer::Idle;
        };
        let next = ((u64::from(count) + u64::from(placed.period)) % COUNTS) as u32;
        self.put(place, 1, Placed { next, ..placed });
        self.words[RUN_PLACE] = place as u32;
        self.words[RUN_LEFT] = placed.duration.saturating_sub(1);
        Answer::Starts(place)
    }
}
