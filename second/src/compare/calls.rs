//! Drawn calls of dispatchers, each from its fresh start on: the answers with those of the second dispatcher, which counts
//! absolute ticks, and the words with those of the record that docs/DISPATCHER.md describes. Several dispatchers are played
//! by turns, as the library keeps nothing from one call to the next.

use super::memory::Lent;
use super::{same, Difference, Tally};
use crate::dispatcher::{Answer, Call};
use crate::draw::Draw;
use crate::library::{self, header, Parts, Words, WORDS};
use crate::records::Record;
use crate::scripts::Script;

pub const ANSWERS: [&str; 11] = [
    "fresh",
    "place",
    "withdrawn",
    "idle",
    "starts",
    "goes-on",
    "refuse 13",
    "refuse 14",
    "refuse 15",
    "refuse 16",
    "refuse 17",
];

/// So many dispatchers are played by turns.
const STAGES: u64 = 3;

pub fn compare(seed: u64, cases: u64) -> Result<Vec<Tally>, (u64, Difference)> {
    let mut tally = Tally::new("calls", &ANSWERS);
    let mut stages: Vec<Stage> = (0..STAGES).map(|number| Stage::new(seed, number)).collect();
    for case in 0..cases {
        let turn = Draw::beside(seed, case).position(stages.len());
        let answer = stages[turn].play_next().map_err(|difference| (case, difference))?;
        tally.count(&answer.to_string());
    }
    Ok(vec![tally])
}

/// A dispatcher with its script.
struct Stage {
    script: Script,
    /// What its words have to be.
    record: Record,
    lent: Lent<u32>,
    /// The calls since the fresh start, this one included.
    calls: Vec<Call>,
}

impl Stage {
    /// The script begins as after a fresh start at 0.
    fn new(seed: u64, number: u64) -> Stage {
        let mut draw = Draw::new(seed, number);
        let script = Script::new(draw.any());
        let mut lent = Lent::new(draw.any(), WORDS);
        library::fresh(lent.array(), 0);
        Stage { script, record: Record::fresh(0), lent, calls: vec![Call::Fresh(0)] }
    }

    fn play_next(&mut self) -> Result<Answer, Difference> {
        let (call, answer) = self.script.next().expect("a script has no end");
        if let Call::Fresh(_) = call {
            self.calls.clear();
        }
        self.calls.push(call);
        let told = |difference| format!("the calls\n{}the last of them: {difference}", listed(&self.calls));
        let by_record = check(call, &mut self.record, &mut self.lent).map_err(told)?;
        if by_record != answer {
            return Err(told(format!("the second dispatcher answers {answer}, and the record {by_record}")));
        }
        Ok(answer)
    }
}

/// What a call answers on a record. A difference where the library answers otherwise, or leaves other words.
pub fn check(call: Call, record: &mut Record, lent: &mut Lent<u32>) -> Result<Answer, Difference> {
    let before = record.words;
    let answer = record.play(call);
    let answered = play(call, lent.array());
    let right = (parts(answer), &record.words[..]);
    same(format_args!("{call}, on the words {before:?}"), (answered, lent), right)?;
    Ok(answer)
}

/// The calls in words, a line each.
pub fn listed(calls: &[Call]) -> String {
    calls.iter().map(|call| format!("{call}\n")).collect()
}

/// Plays a call with the library.
pub fn play(call: Call, words: &mut Words) -> Parts {
    match call {
        Call::Fresh(count) => {
            library::fresh(words, count);
            parts(Answer::Fresh)
        }
        Call::Admit(delay, period, duration) => library::admit(words, delay, period, duration),
        Call::Withdraw(place) => library::withdraw(words, place),
        Call::Step(count) => library::step(words, count),
    }
}

/// The number that the library has to hand back for an answer, taken apart.
pub fn parts(answer: Answer) -> Parts {
    match answer {
        Answer::Fresh | Answer::Withdrawn => Parts::done(0),
        Answer::Place(place) => Parts::done(place),
        Answer::Idle => Parts::of_kind(header::IDLE, 0),
        Answer::Starts(place) => Parts::of_kind(header::STARTS, place),
        Answer::GoesOn(place) => Parts::of_kind(header::GOES_ON, place),
        Answer::Refuse(number, place) => Parts::refused((number, place)),
    }
}
