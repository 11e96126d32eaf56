//! Calls of a dispatcher drawn from a seed. They come in scenes, each with its own kind of trains, and each kind is aimed at
//! a place of the paper where a program is likely to go wrong. The second dispatcher plays along, so that trains are
//! withdrawn in mid-run and come close to those that are placed. What a call answers is not settled here, but in
//! `dispatcher`.

use crate::dispatcher::{Answer, Call, Dispatcher, Train};
use crate::draw::Draw;
use crate::paper;
use std::collections::VecDeque;
use std::iter;

const PLACES: u64 = paper::PLACES as u64;
const MOST_TICKS: u64 = paper::MOST_TICKS as u64;
const LARGEST: u64 = u32::MAX as u64;

/// Delay, period and duration.
type Strokes = [u64; 3];

// ---- scenes

/// What the calls of a stretch of the script have in common.
struct Scene {
    draw: Draw,
    /// How the trains are drawn, mostly.
    favourite: Kind,
    /// The periods are multiples of a base, in which there are slots: where each begins, and how long it is.
    base: u64,
    slots: Vec<(u64, u64)>,
    multiples: &'static [u64],
    /// How late the trains in slots first start, in a scene that goes on until then; else 0.
    latest: u64,
    /// The longest stretch of steps that nothing interrupts.
    longest: u64,
    /// How many calls are still to come.
    left: u64,
}

type Kind = fn(&mut Scene, &Dispatcher) -> Strokes;

/// The kinds of trains.
const KINDS: [Kind; 8] = [small, in_a_slot, beside_a_slot, beside_a_train, fibonacci, coprime, long, at_a_limit];

/// The kinds of scenes, which come round in turn: the favourite kind of train, the most slots, the longest of them, and
/// the multiples of the base. The first two are full houses: as many slots as places, all taken at the start. The last goes
/// on until its late trains start.
const SCENES: [(Kind, u64, u64, &[u64]); 13] = [
    (in_a_slot, PLACES, 1, &[1]),
    (in_a_slot, PLACES, 5, &[1, 2, 3, 5, 8]),
    (small, 4, 2, &[1, 2]),
    (in_a_slot, 8, 3, &[1, 2, 3, 4, 6]),
    (beside_a_slot, 8, 9, &[1, 2, 3, 5]),
    (beside_a_train, 12, 4, &[1, 2, 3]),
    (beside_a_train, 3, 60, &[1, 5, 7]),
    (fibonacci, 8, 2, &[1, 2, 3, 5, 8, 13, 21, 34]),
    (coprime, 3, 2, &[1, 2]),
    (long, 5, 2_000, &[1, 2, 3, 100]),
    (at_a_limit, 6, 2, &[1, 2]),
    (in_a_slot, 20, 1, &[1, 1, 2, 50_000]),
    (in_a_slot, 6, 30, &[1, 2, 7]),
];

/// How late they start.
const LATE: [u64; 12] = [800, 800, 800, 2_500, 2_500, 2_500, 2_500, 2_500, 2_500, 2_500, 2_500, 25_000];

impl Scene {
    fn new(seed: u64, number: u64) -> Scene {
        let mut draw = Draw::new(seed, number);
        let (favourite, most, widest, multiples) = SCENES[(number % SCENES.len() as u64) as usize];
        let count = if most == PLACES { most } else { draw.between(1, most) };
        // where there is nothing between the slots, a run begins as another ends
        let loosest = draw.of(&[0, 0, 1, widest]);
        let mut base = 0;
        let mut slots = Vec::new();
        for _ in 0..count {
            let length = draw.between(1, widest);
            slots.push((base, length));
            base += length + draw.between(0, loosest);
        }
        let longest = draw.of(&[1, 8, 40, 40, 300, 1_000]);
        let left = draw.of(&[30, 150, 150, 600, 600, 3_000]);
        let is_late = number % SCENES.len() as u64 == SCENES.len() as u64 - 1;
        let latest = if is_late { draw.of(&LATE) } else { 0 };
        let (longest, left) = if is_late { (latest / 2, latest + latest / 5) } else { (longest, left) };
        Scene { draw, favourite, base, slots, multiples, latest, longest, left }
    }

    /// A fresh start, mostly so that the count wraps in the scene; seldom none, so that trains of two kinds meet.
    fn fresh(&mut self) -> Option<Call> {
        let draw = &mut self.draw;
        let soon = LARGEST - draw.between(1, 40);
        let later = LARGEST - draw.between(0, 2_000);
        let anywhere = draw.between(0, LARGEST);
        let count = draw.of(&[0, LARGEST, LARGEST - 1, soon, soon, later, later, anywhere]);
        (!draw.once_in(5)).then_some(Call::Fresh(count as u32))
    }

    /// The first admissions: of each slot in any order, and of a few more; none in some scenes.
    fn opening(&mut self, dispatcher: &Dispatcher) -> Vec<Call> {
        if !self.is_house() && self.draw.once_in(4) {
            return Vec::new();
        }
        let mut slots = self.slots.clone();
        self.draw.shuffle(&mut slots);
        let mut calls: Vec<Call> = slots.into_iter().map(|slot| admit(self.slot(slot, dispatcher))).collect();
        calls.extend((0..self.draw.between(0, 5)).map(|_| self.admission(dispatcher)));
        calls
    }

    fn is_house(&self) -> bool {
        self.slots.len() as u64 == PLACES
    }

    fn admission(&mut self, dispatcher: &Dispatcher) -> Call {
        let kind = if self.draw.once_in(4) { self.draw.of(&KINDS) } else { self.favourite };
        let mut strokes = kind(self, dispatcher);
        if self.draw.once_in(25) {
            self.spoil(&mut strokes);
        }
        admit(strokes)
    }

    /// One fault of those that refusal 13 names, by as little as can be, or its neighbour that is none.
    fn spoil(&mut self, [delay, period, duration]: &mut Strokes) {
        let draw = &mut self.draw;
        match draw.between(0, 4) {
            0 => *period = draw.of(&[0, MOST_TICKS, MOST_TICKS + 1, LARGEST]),
            1 => *duration = 0,
            2 => *duration = *period + draw.of(&[0, 1]),
            3 => *delay = draw.of(&[MOST_TICKS, MOST_TICKS + 1, LARGEST]),
            _ => (*period, *duration) = (MOST_TICKS + 1, MOST_TICKS + 1),
        }
    }

    /// A train that has this slot for itself, from the next time on that it comes round, or some times later.
    fn slot(&mut self, (start, length): (u64, u64), dispatcher: &Dispatcher) -> Strokes {
        let late = self.latest * self.draw.between(1, 10) / 10 / self.base;
        let turns = if self.latest > 0 { late } else { self.turns(self.base) };
        let delay = until(start, self.base, dispatcher) + self.base * turns;
        [delay, self.period(), self.draw.of(&[1, length, length])]
    }

    /// A multiple of the base within the limit.
    fn period(&mut self) -> u64 {
        let most = MOST_TICKS / self.base;
        self.base * self.draw.of(self.multiples).min(most)
    }

    /// How many periods later a train first starts, within the limit: mostly none.
    fn turns(&mut self, period: u64) -> u64 {
        let most = MOST_TICKS / period;
        let many = self.draw.between(0, most);
        self.draw.of(&[0, 0, 0, 0, 0, 1, 2, 9, 9, many]).min(most.saturating_sub(1))
    }
}

fn admit(strokes: Strokes) -> Call {
    let [delay, period, duration] = strokes.map(|ticks| ticks as u32);
    Call::Admit(delay, period, duration)
}

/// The ticks until the next one that leaves this remainder by the period.
fn until(remainder: u64, period: u64, dispatcher: &Dispatcher) -> u64 {
    let now = (dispatcher.steps() % u128::from(period)) as u64;
    (remainder % period + period - now) % period
}

// ---- kinds of trains

/// Trains so small that anything may happen.
fn small(scene: &mut Scene, _: &Dispatcher) -> Strokes {
    let draw = &mut scene.draw;
    let period = draw.between(1, 12);
    [draw.between(0, 15), period, draw.between(1, 1 + period / 4)]
}

/// A train in a slot: free, where no other train is there.
fn in_a_slot(scene: &mut Scene, dispatcher: &Dispatcher) -> Strokes {
    let slot = scene.draw.position(scene.slots.len());
    scene.slot(scene.slots[slot], dispatcher)
}

/// The same, but that it comes a tick later or earlier, or is a tick longer.
fn beside_a_slot(scene: &mut Scene, dispatcher: &Dispatcher) -> Strokes {
    let [delay, period, duration] = in_a_slot(scene, dispatcher);
    match scene.draw.between(0, 3) {
        0 => [delay + 1, period, duration],
        1 => [delay.saturating_sub(1), period, duration],
        2 => [delay, period, (duration + 1).min(period)],
        _ => [delay, period, duration],
    }
}

/// A train that begins as the run of a placed one ends, or ends as that begins, or a tick beside that, or at the same
/// tick; with the same period, a multiple or a part of it, or one that has only a divisor in common with it.
fn beside_a_train(scene: &mut Scene, dispatcher: &Dispatcher) -> Strokes {
    let held = dispatcher.held();
    if held.is_empty() {
        return in_a_slot(scene, dispatcher);
    }
    let (_, Train { first, period, duration }) = scene.draw.of(&held);
    let [period, taken] = [period, duration].map(|ticks| ticks as u64);
    let start = (first % u128::from(period)) as u64;
    let draw = &mut scene.draw;
    let factor = draw.of(&[1, 1, 1, 2, 2, 3, 7]);
    let own = match draw.between(0, 4) {
        0 if period % factor == 0 => period / factor,
        1 => (period + draw.of(&[1, 2, 6])).min(MOST_TICKS),
        _ => period * if period * factor <= MOST_TICKS { factor } else { 1 },
    };
    let most = draw.of(&[1, 3, period]);
    let duration = draw.between(1, most.min(own));
    let ends = start + period - duration % period;
    let near = draw.of(&[start, start + taken, start + taken, start + taken - 1, start + taken + 1, ends, ends + 1]);
    let delay = until(near, period, dispatcher);
    let turns = scene.turns(period);
    [delay + period * turns, own, duration]
}

/// The numbers of Fibonacci as periods, of which any two neighbours have no divisor, and many others have one.
fn fibonacci(scene: &mut Scene, dispatcher: &Dispatcher) -> Strokes {
    if scene.draw.once_in(2) {
        // as multiples of a base, in which the trains may be free
        return in_a_slot(scene, dispatcher);
    }
    let mut numbers = vec![1, 2];
    while numbers[numbers.len() - 1] < MOST_TICKS {
        numbers.push(numbers[numbers.len() - 1] + numbers[numbers.len() - 2]);
    }
    let end = scene.draw.of(&[8, 16, numbers.len() - 1]);
    let period = scene.draw.of(&numbers[..end]);
    [scene.draw.between(0, 40), period, 1]
}

/// Two periods with divisor 1, or nearly so, which may first meet many periods later.
fn coprime(scene: &mut Scene, _: &Dispatcher) -> Strokes {
    let draw = &mut scene.draw;
    let around = draw.of(&[12, 30, 100, 100, 1_000, 100_000]);
    let period = around + draw.between(0, 12);
    [draw.between(0, 2 * around.min(200)), period, draw.between(1, 1 + period / 20)]
}

/// Long periods, runs and delays.
fn long(scene: &mut Scene, dispatcher: &Dispatcher) -> Strokes {
    let draw = &mut scene.draw;
    if draw.once_in(2) {
        return in_a_slot(scene, dispatcher);
    }
    let base = draw.of(&[500, 12_500, 100_000, 1_000_000]);
    let start = draw.between(0, 4) * base / 5;
    let period = base * draw.between(1, 10);
    let duration = draw.between(1, base / 5);
    let delay = until(start, base, dispatcher);
    let turns = scene.turns(base);
    [delay + base * turns, period, duration]
}

/// Numbers at the limits and beside them.
fn at_a_limit(scene: &mut Scene, dispatcher: &Dispatcher) -> Strokes {
    let draw = &mut scene.draw;
    let period = draw.of(&[0, 1, 2, 9, 30, MOST_TICKS - 1, MOST_TICKS, MOST_TICKS, MOST_TICKS + 1, LARGEST]);
    let soon = draw.between(0, 30);
    let delay = draw.of(&[0, 1, soon, soon, soon, MOST_TICKS - 1, MOST_TICKS, MOST_TICKS + 1, LARGEST]);
    let duration = draw.of(&[0, 1, 1, 1, 2, 20, period.saturating_sub(1), period, period + 1]);
    if draw.once_in(2) {
        return in_a_slot(scene, dispatcher);
    }
    [delay, period, duration.min(LARGEST)]
}

// ---- the script

/// The calls that are drawn from a seed, with their answers, without end.
pub struct Script {
    seed: u64,
    /// How many scenes were drawn.
    scenes: u64,
    scene: Scene,
    /// The calls that come next.
    next: VecDeque<Call>,
    dispatcher: Dispatcher,
    /// The last count that was accepted, and the last answer.
    last: u32,
    answer: Answer,
}

impl Script {
    pub fn new(seed: u64) -> Script {
        Script {
            seed,
            scenes: 1,
            scene: Scene::new(seed, 0),
            next: VecDeque::new(),
            dispatcher: Dispatcher::fresh(0),
            last: 0,
            answer: Answer::Fresh,
        }
    }

    /// A scene begins where the last one is over, and its opening follows the fresh start. The first has neither: it goes
    /// on from where the program begins.
    fn draw_next(&mut self) {
        if self.scene.left == 0 {
            self.scene = Scene::new(self.seed, self.scenes);
            self.scenes += 1;
            let fresh = self.scene.fresh();
            let opening = match fresh {
                Some(_) => self.scene.opening(&Dispatcher::fresh(0)),
                None => self.scene.opening(&self.dispatcher),
            };
            self.next.extend(fresh.into_iter().chain(opening));
            return;
        }
        let calls = match self.scene.draw.between(0, 99) {
            0..=29 => vec![self.scene.admission(&self.dispatcher)],
            30..=43 => self.withdrawal(),
            44..=54 => vec![self.wrong_step()],
            _ => self.stretch(),
        };
        self.scene.left = self.scene.left.saturating_sub(calls.len() as u64);
        self.next.extend(calls);
    }

    /// Steps with the counts that come next; few, where no train is there to start.
    fn stretch(&mut self) -> Vec<Call> {
        let longest = if self.dispatcher.held().is_empty() { 2 } else { self.scene.longest };
        let length = self.scene.draw.between(1, longest) as u32;
        (1..=length).map(|further| Call::Step(self.last.wrapping_add(further))).collect()
    }

    /// A step with a count that is mostly not the next.
    fn wrong_step(&mut self) -> Call {
        let last = self.last;
        let any = self.scene.draw.between(0, LARGEST) as u32;
        let beside = [last, last, last.wrapping_sub(1), last.wrapping_add(2), last.wrapping_add(2)];
        let far = [0, 1, u32::MAX, last.wrapping_add(1 << 31), last.wrapping_add(257), any];
        Call::Step(if self.scene.draw.once_in(2) { self.scene.draw.of(&beside) } else { self.scene.draw.of(&far) })
    }

    /// A withdrawal: of the train that runs or has just run, of any train, or of a place that is mostly empty or none.
    fn withdrawal(&mut self) -> Vec<Call> {
        let held = self.dispatcher.held();
        let draw = &mut self.scene.draw;
        match draw.between(0, 9) {
            0 => return vec![Call::Withdraw(draw.of(&[63, 64, 65, 127, 1 << 16, u32::MAX]))],
            1 => return vec![Call::Withdraw(draw.between(0, PLACES - 1) as u32)],
            _ if held.is_empty() => return vec![Call::Withdraw(0)],
            _ => {}
        }
        let runs = |place| [Answer::Starts(place), Answer::GoesOn(place)].contains(&self.answer);
        let running = held.iter().copied().find(|(place, _)| runs(*place));
        let any = draw.of(&held);
        let (place, train) = if draw.once_in(2) { running.unwrap_or(any) } else { any };
        let withdraw = Call::Withdraw(place as u32);
        iter::once(withdraw).chain(self.in_its_stead(train)).collect()
    }

    /// Nothing, or a train for the rest of the run of a withdrawn one, or that one itself, which goes on with its
    /// strokes. A house is kept full.
    fn in_its_stead(&mut self, train: Train) -> Option<Call> {
        let [period, duration] = [train.period, train.duration].map(|ticks| ticks as u64);
        let is_house = self.scene.is_house();
        let draw = &mut self.scene.draw;
        let is_kept = is_house && !draw.once_in(8);
        match draw.between(0, 3) {
            _ if is_kept => {}
            0 => return Some(admit([draw.of(&[0, 0, 1]), period, draw.between(1, duration)])),
            1 => {}
            _ => return None,
        }
        let start = (train.first % train.period) as u64;
        Some(admit([until(start, period, &self.dispatcher), period, duration]))
    }

    /// Plays a call, and keeps what the drawing goes by.
    fn play(&mut self, call: Call) -> Answer {
        self.answer = self.dispatcher.play(call);
        match (call, self.answer) {
            (Call::Fresh(count), _) => self.last = count,
            (Call::Step(_), Answer::Refuse(_, _)) => {}
            (Call::Step(count), _) => self.last = count,
            _ => {}
        }
        self.answer
    }
}

impl Iterator for Script {
    type Item = (Call, Answer);

    fn next(&mut self) -> Option<(Call, Answer)> {
        while self.next.is_empty() {
            self.draw_next();
        }
        let call = self.next.pop_front()?;
        Some((call, self.play(call)))
    }
}
