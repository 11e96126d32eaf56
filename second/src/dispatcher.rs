//! The dispatcher in absolute ticks, from the paper's words: the steps since the fresh start are counted without end, a
//! place keeps the first start of its train for good, and what happens in a tick is asked of every place by the claim
//! rule. Whether two trains ever meet is looked for: tick by tick where their claims soon repeat, and offset by offset
//! where that is late.

use crate::divisors::greatest_common_divisor;
use crate::paper::{MOST_TICKS, NO_PLACE, PLACES};
use std::fmt;

/// The hardware count comes round after so many.
const COUNTS: u128 = 1 << 32;

/// Two trains whose claims repeat within so many ticks are walked tick by tick.
const WALKED_TICKS: u128 = 500;

#[derive(Clone, Copy)]
pub enum Call {
    Fresh(u32),
    /// Delay, period and duration.
    Admit(u32, u32, u32),
    Withdraw(u32),
    Step(u32),
}

impl fmt::Display for Call {
    fn fmt(&self, out: &mut fmt::Formatter) -> fmt::Result {
        match self {
            Call::Fresh(count) => write!(out, "fresh {count}"),
            Call::Admit(delay, period, duration) => write!(out, "admit {delay} {period} {duration}"),
            Call::Withdraw(place) => write!(out, "withdraw {place}"),
            Call::Step(count) => write!(out, "step {count}"),
        }
    }
}

#[derive(Clone, Copy, PartialEq)]
pub enum Answer {
    Fresh,
    Place(usize),
    Withdrawn,
    Idle,
    Starts(usize),
    GoesOn(usize),
    /// The refusal's number, and its place.
    Refuse(u32, usize),
}

impl fmt::Display for Answer {
    fn fmt(&self, out: &mut fmt::Formatter) -> fmt::Result {
        match self {
            Answer::Fresh => write!(out, "fresh"),
            Answer::Place(place) => write!(out, "place {place}"),
            Answer::Withdrawn => write!(out, "withdrawn"),
            Answer::Idle => write!(out, "idle"),
            Answer::Starts(place) => write!(out, "starts {place}"),
            Answer::GoesOn(place) => write!(out, "goes-on {place}"),
            Answer::Refuse(number, place) => write!(out, "refuse {number} {place}"),
        }
    }
}

/// A train in its place. Its first start is a tick since the fresh start, and may be long over.
#[derive(Clone, Copy)]
pub struct Train {
    pub first: u128,
    pub period: u128,
    pub duration: u128,
}

impl Train {
    fn claims(self, tick: u128) -> bool {
        tick >= self.first && (tick - self.first) % self.period < self.duration
    }

    fn starts(self, tick: u128) -> bool {
        (tick - self.first) % self.period == 0
    }
}

pub struct Dispatcher {
    places: [Option<Train>; PLACES],
    /// The count of the fresh start.
    count: u32,
    /// How many steps were accepted since, which is the tick of the next one.
    steps: u128,
}

impl Dispatcher {
    pub fn fresh(count: u32) -> Dispatcher {
        Dispatcher { places: [None; PLACES], count, steps: 0 }
    }

    pub fn steps(&self) -> u128 {
        self.steps
    }

    /// The count of the step that is this tick.
    pub fn count_at(&self, tick: u128) -> u32 {
        ((u128::from(self.count) + 1 + tick) % COUNTS) as u32
    }

    /// Takes so many steps, whose answers were settled elsewhere.
    pub fn pass(&mut self, steps: u128) {
        self.steps += steps;
    }

    /// The places that hold a train.
    pub fn held(&self) -> Vec<(usize, Train)> {
        let held = self.places.iter().enumerate().filter_map(|(place, train)| Some((place, (*train)?)));
        held.collect()
    }

    pub fn play(&mut self, call: Call) -> Answer {
        match call {
            Call::Fresh(count) => {
                *self = Dispatcher::fresh(count);
                Answer::Fresh
            }
            Call::Admit(delay, period, duration) => self.admit(delay, period, duration),
            Call::Withdraw(place) => self.withdraw(place as usize),
            Call::Step(count) => self.step(count),
        }
    }

    fn admit(&mut self, delay: u32, period: u32, duration: u32) -> Answer {
        let is_train = (1..=MOST_TICKS).contains(&period) && (1..=period).contains(&duration);
        if !is_train || delay > MOST_TICKS {
            return Answer::Refuse(13, NO_PLACE);
        }
        let Some(empty) = self.places.iter().position(Option::is_none) else {
            return Answer::Refuse(14, NO_PLACE);
        };
        let first = self.steps + u128::from(delay);
        let train = Train { first, period: period.into(), duration: duration.into() };
        let met = self.places.iter().position(|held| held.is_some_and(|held| meet(held, train, self.steps)));
        if let Some(place) = met {
            return Answer::Refuse(15, place);
        }
        self.places[empty] = Some(train);
        Answer::Place(empty)
    }

    fn withdraw(&mut self, place: usize) -> Answer {
        match self.places.get_mut(place).and_then(Option::take) {
            Some(_) => Answer::Withdrawn,
            None => Answer::Refuse(16, NO_PLACE),
        }
    }

    fn step(&mut self, count: u32) -> Answer {
        if count != self.count_at(self.steps) {
            return Answer::Refuse(17, NO_PLACE);
        }
        let tick = self.steps;
        self.steps += 1;
        self.at(tick)
    }

    /// What happens in a tick, by the trains that are there now.
    pub fn at(&self, tick: u128) -> Answer {
        let trains = self.places.iter().enumerate().filter_map(|(place, train)| Some((place, (*train)?)));
        let mut claims = trains.filter(|(_, train)| train.claims(tick));
        let claim = claims.next();
        assert!(claims.next().is_none(), "a tick is claimed twice");
        match claim {
            None => Answer::Idle,
            Some((place, train)) if train.starts(tick) => Answer::Starts(place),
            Some((place, _)) => Answer::GoesOn(place),
        }
    }
}

/// Whether some tick from `now` on is claimed by both.
fn meet(a: Train, b: Train, now: u128) -> bool {
    let offset = agreeing_offset(a, b);
    // before the later first start one of them claims nothing, and from then on both repeat their claims
    let begin = now.max(a.first).max(b.first);
    let repeat = a.period / greatest_common_divisor(a.period, b.period) * b.period;
    if repeat <= WALKED_TICKS {
        let is_met = (begin..begin + repeat).any(|tick| a.claims(tick) && b.claims(tick));
        assert_eq!(is_met, offset.is_some(), "the second program disagrees with itself");
    }
    offset.is_some()
}

/// An offset in the runs of the train with the shorter ones at which it sooner or later meets the other. From its first
/// start on, the ticks at offset i of a train's runs are those that leave the remainder of first + i by its period; and
/// two remainders by two periods are those of one tick, as late as one likes, exactly where they agree by the divisor of
/// the periods (the Chinese remainder theorem). So each offset of the one is asked whether the other has one that agrees.
fn agreeing_offset(a: Train, b: Train) -> Option<u64> {
    let (short, long) = if a.duration <= b.duration { (a, b) } else { (b, a) };
    let divisor = greatest_common_divisor(a.period, b.period);
    let between = (short.first + divisor - long.first % divisor) % divisor;
    let [divisor, between, shorter, longer] = [divisor, between, short.duration, long.duration].map(|n| n as u64);
    // the least number that agrees with offset i is the remainder of between + i, which has to be an offset of the other
    (0..shorter.min(divisor)).find(|i| (between + i) % divisor < longer)
}
