//! Dispatchers that are stepped for millions of ticks, each step with the library, across the wrap of the count. What each
//! step answers comes from the runs in absolute ticks, which are laid out stretch by stretch; the claim rule is asked at both
//! ends of every piece of it. The words are made from absolute ticks too, and are compared after each piece and each call.

use super::calls::{listed, parts, play};
use super::memory::Lent;
use super::{Difference, Tally};
use crate::dispatcher::{Answer, Call, Dispatcher};
use crate::far::{self, Scene};
use crate::library::{self, Words, WORDS};
use crate::records::{Placed, Record, RUN_LEFT, RUN_PLACE};
use crate::timetable::{next_start, runs};
use std::io::{self, Error, Write};

const ANSWERS: [&str; 9] =
    ["fresh", "place", "withdrawn", "idle", "starts", "goes-on", "refuse 14", "refuse 15", "refuse 17"];

/// Compares so many scenes of a seed, and where each shape was among them sees that every answer was met.
pub fn compare(seed: u64, scenes: u64, out: &mut impl Write) -> io::Result<()> {
    let mut tally = Tally::new("far steps and calls", &ANSWERS);
    let mut wraps = 0;
    for (number, scene) in (0..scenes).zip(far::scenes(seed)) {
        let told =
            |difference| Error::other(format!("a difference far off, seed {seed}, scene {number}\n{difference}"));
        wraps += play_scene(scene, seed, &mut tally).map_err(told)?;
    }
    writeln!(out, "seed {seed}: {scenes} scenes, in which the count wrapped {wraps} times\n{tally}")?;
    if scenes >= far::SHAPES && !tally.missing().is_empty() {
        return Err(Error::other(format!("far off nothing has the answer {}", tally.missing().join(", "))));
    }
    writeln!(out, "no difference")
}

/// Plays a scene to its end, and answers how often the count wrapped.
fn play_scene(mut scene: Scene, seed: u64, tally: &mut Tally) -> Result<u32, Difference> {
    let mut stage = Stage::new(seed, scene.count(), tally);
    for call in scene.opening(&stage.dispatcher) {
        stage.call(call)?;
    }
    while let Some(length) = scene.stretch(&stage.dispatcher) {
        stage.stretch(length)?;
        let call = scene.call(&stage.dispatcher);
        stage.call(call)?;
    }
    Ok(stage.wraps)
}

/// A dispatcher of the library beside the second one.
struct Stage<'a> {
    dispatcher: Dispatcher,
    lent: Lent<u32>,
    /// The place of the run that started last.
    ran: usize,
    wraps: u32,
    /// The calls since the fresh start, with the steps between them.
    story: String,
    tally: &'a mut Tally,
}

impl Stage<'_> {
    fn new(salt: u64, count: u32, tally: &mut Tally) -> Stage<'_> {
        let mut lent = Lent::new(salt, WORDS);
        library::fresh(lent.array(), count);
        tally.count("fresh");
        let story = listed(&[Call::Fresh(count)]);
        Stage { dispatcher: Dispatcher::fresh(count), lent, ran: 0, wraps: 0, story, tally }
    }

    fn call(&mut self, call: Call) -> Result<(), Difference> {
        self.story += &listed(&[call]);
        let right = self.dispatcher.play(call);
        let answered = play(call, self.lent.array());
        self.tally.count(&right.to_string());
        if answered != parts(right) {
            return Err(self.told(format!("the library: {answered:?}\nthe second program: {right}")));
        }
        self.compare_words()
    }

    /// So many steps: idle up to a run, its start, the rest of it, and so on.
    fn stretch(&mut self, length: u64) -> Result<(), Difference> {
        self.story += &format!("{length} steps\n");
        let from = self.dispatcher.steps();
        let to = from + u128::from(length);
        for run in runs(&self.dispatcher.held(), from, to) {
            self.piece(run.start, Answer::Idle)?;
            if run.start >= from {
                self.ran = run.place;
                self.piece(run.start + 1, Answer::Starts(run.place))?;
            }
            self.piece(run.end.min(to), Answer::GoesOn(run.place))?;
        }
        self.piece(to, Answer::Idle)
    }

    /// The steps up to a tick, all of which answer the same. None where that tick is passed.
    fn piece(&mut self, to: u128, right: Answer) -> Result<(), Difference> {
        let from = self.dispatcher.steps();
        if to <= from {
            return Ok(());
        }
        for end in [from, to - 1] {
            assert!(self.dispatcher.at(end) == right, "the second program disagrees with itself");
        }
        let length = (to - from) as u64;
        let (first, expected) = (self.dispatcher.count_at(from), parts(right));
        let words = self.lent.array();
        for further in 0..length {
            let count = (u64::from(first) + further) as u32;
            let answered = library::step(words, count);
            if answered != expected {
                let step = format!("{further} steps later step {count}");
                return Err(self.told(format!("{step}\nthe library: {answered:?}\nthe second program: {right}")));
            }
            self.wraps += u32::from(count == 0);
        }
        self.tally.count_times(&right.to_string(), length);
        self.dispatcher.pass(to - from);
        self.compare_words()
    }

    fn compare_words(&self) -> Result<(), Difference> {
        let right = self.words();
        match self.lent.holds(&right) {
            true => Ok(()),
            false => Err(self.told(self.lent.shown(&right))),
        }
    }

    /// The words of this moment: each place with the count of its train's next start, and of a run in progress what is left.
    fn words(&self) -> Words {
        let now = self.dispatcher.steps();
        let mut record = Record::fresh(self.dispatcher.count_at(now).wrapping_sub(1));
        for (place, train) in self.dispatcher.held() {
            let next = self.dispatcher.count_at(next_start(train, now));
            record.put(place, 1, Placed { next, period: train.period as u32, duration: train.duration as u32 });
        }
        record.words[RUN_PLACE] = self.ran as u32;
        let run = runs(&self.dispatcher.held(), now, now + 1).into_iter().find(|run| run.start < now);
        record.words[RUN_LEFT] = run.map_or(0, |run| (run.end - now) as u32);
        record.words
    }

    fn told(&self, difference: String) -> Difference {
        let now = self.dispatcher.steps();
        format!("{}in them, after {now} steps in all: {difference}", self.story)
    }
}
