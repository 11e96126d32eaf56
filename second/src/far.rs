//! Scenes of a dispatcher whose trains wait for millions of ticks, up to the longest delay and period that there are, drawn
//! from a seed. Between stretches of steps trains are withdrawn and admitted. What is answered is not settled here.

use crate::dispatcher::{Call, Dispatcher, Train};
use crate::draw::Draw;
use crate::paper;
use crate::timetable::next_start;

const MOST_TICKS: u64 = paper::MOST_TICKS as u64;
const LARGEST: u64 = u32::MAX as u64;

/// The base, of which all periods are multiples; how many slots it has; and how many steps the scene takes. The first scene
/// sees the third start of a train with the longest period, and the second one the first two with the longest delay.
const SCENES: [(u64, u64, u64); 8] = [
    (MOST_TICKS, 2, 21_000_000),
    (MOST_TICKS, 64, 21_000_000),
    (5_000_000, 3, 12_500_000),
    (9_999_991, 7, 12_500_000),
    (2_500_000, 5, 12_500_000),
    (1_000_000, 20, 12_500_000),
    (3_333_333, 2, 12_500_000),
    (250_000, 64, 12_500_000),
];

/// Half of the stretches have up to so many steps.
const LONG: u64 = 1_500_000;

pub struct Scene {
    draw: Draw,
    base: u64,
    /// Where each begins in the base, and its length.
    slots: Vec<(u64, u64)>,
    /// Whether the train that stays from the beginning to the end starts as late as can be.
    is_late: bool,
    /// The steps that the scene still takes.
    left: u64,
}

/// From so many scenes on, there was one of each shape.
pub const SHAPES: u64 = SCENES.len() as u64;

/// The scenes of a seed, without end. The shapes come round in turn.
pub fn scenes(seed: u64) -> impl Iterator<Item = Scene> {
    (0..).map(move |number| Scene::new(Draw::new(seed, number), SCENES[(number % SHAPES) as usize], number % 2 == 1))
}

impl Scene {
    fn new(mut draw: Draw, (base, count, left): (u64, u64, u64), is_late: bool) -> Scene {
        let width = base / count;
        let mut slots = vec![(0, width)];
        for number in 1..count {
            // without a gap a run begins as another ends
            let gap = draw.of(&[0, 1, width / 3]);
            slots.push((number * width + gap, width - gap));
        }
        Scene { draw, base, slots, is_late, left }
    }

    /// The count of the fresh start. The count wraps in the scene: at a start, beside one, or at any tick.
    pub fn count(&mut self) -> u32 {
        let any = self.draw.between(1, MOST_TICKS);
        let slot = self.draw.of(&self.slots).0;
        let wrap = self.draw.of(&[0, slot, slot + 1, MOST_TICKS, MOST_TICKS + 1, any, any]);
        (LARGEST - wrap) as u32
    }

    /// A train for each slot: first the one that stays, with the longest period, and then the others in any order.
    pub fn opening(&mut self, dispatcher: &Dispatcher) -> Vec<Call> {
        let longest = MOST_TICKS / self.base * self.base;
        let delay = if self.is_late { longest } else { 0 };
        let mut slots = self.slots.clone();
        let (_, width) = slots.remove(0);
        let stays = Call::Admit(delay as u32, longest as u32, self.draw.of(&[1, width]) as u32);
        self.draw.shuffle(&mut slots);
        let others = slots.into_iter().map(|slot| self.admission(slot, dispatcher));
        std::iter::once(stays).chain(others).collect()
    }

    /// A train in a slot, soon or as late as the limit allows, and with any period within it.
    fn admission(&mut self, (start, length): (u64, u64), dispatcher: &Dispatcher) -> Call {
        let now = (dispatcher.steps() % u128::from(self.base)) as u64;
        let soonest = (start + self.base - now) % self.base;
        let most = (MOST_TICKS - soonest) / self.base;
        let turns = self.draw.between(0, most);
        let delay = soonest + self.base * self.draw.of(&[0, turns, most]);
        let period = self.base * self.draw.between(1, MOST_TICKS / self.base);
        let part = self.draw.between(1, length);
        let duration = self.draw.of(&[1, 1, length, part]);
        Call::Admit(delay as u32, period as u32, duration as u32)
    }

    /// The next stretch: how many steps it takes. It ends before the next start, at it or behind it, or anywhere; nothing
    /// where the scene is over.
    pub fn stretch(&mut self, dispatcher: &Dispatcher) -> Option<u64> {
        let now = dispatcher.steps();
        let starts = dispatcher.held().into_iter().map(|(_, train)| (next_start(train, now) - now) as u64);
        let next = starts.min().unwrap_or(0);
        let [few, long] = [self.draw.between(1, 1_000), self.draw.between(1, LONG)];
        let length = self.draw.of(&[next, next + 1, next + few, long, long, long]).min(self.left);
        let is_over = self.left == 0;
        self.left -= length;
        (!is_over).then_some(length)
    }

    /// The call after a stretch: a withdrawal, an admission, often of what collides, or a step that has not the next count.
    pub fn call(&mut self, dispatcher: &Dispatcher) -> Call {
        match self.draw.between(0, 9) {
            0..=2 => self.withdrawal(dispatcher),
            3..=7 => {
                let slot = self.draw.of(&self.slots);
                self.moved(slot, dispatcher)
            }
            _ => self.wrong_step(dispatcher),
        }
    }

    /// A train in a slot, now and then a tick late or early.
    fn moved(&mut self, (start, length): (u64, u64), dispatcher: &Dispatcher) -> Call {
        let late = start + 1;
        let early = (start + self.base - 1) % self.base;
        let start = self.draw.of(&[start, start, start, late, early]) % self.base;
        self.admission((start, length), dispatcher)
    }

    /// Mostly of a train that has started before, so that those with long delays come to their start; never of the first.
    fn withdrawal(&mut self, dispatcher: &Dispatcher) -> Call {
        let has_started = |train: Train| train.first < dispatcher.steps();
        let is_any = self.draw.once_in(8);
        let held = dispatcher.held().into_iter().filter(|(place, train)| *place > 0 && (is_any || has_started(*train)));
        let places: Vec<usize> = held.map(|(place, _)| place).collect();
        match places.is_empty() {
            true => self.wrong_step(dispatcher),
            false => Call::Withdraw(self.draw.of(&places) as u32),
        }
    }

    /// The last count again, the one after the next, or 0; one that is the next by chance is left out.
    fn wrong_step(&mut self, dispatcher: &Dispatcher) -> Call {
        let next = dispatcher.count_at(dispatcher.steps());
        let count = self.draw.of(&[next.wrapping_sub(1), next.wrapping_add(1), 0, u32::MAX]);
        Call::Step(if count == next { next.wrapping_add(2) } else { count })
    }
}
