//! The dispatcher in place: the proved calls on its words, beside the same by hand, on such words and on a struct.

use crate::by_hand::Dispatcher;
use crate::clock::{calls, race, Batch};
use crate::data::{self, EMPTY_WORDS};
use crate::print;
use crate::proved::{code, header, Words};
use crate::{by_hand, proved};
use std::hint::black_box;

/// How many calls are compared one by one before any is measured.
const COMPARED: u32 = 200_000;

/// The three that are compared.
trait Calls {
    fn new() -> Self;
    fn fresh(&mut self, count: u32);
    fn admit(&mut self, train: [u32; 3]) -> u64;
    fn withdraw(&mut self, place: u32) -> u64;
    fn step(&mut self, count: u32) -> u64;
    fn words(&self) -> Words;
}

struct Proved(Words);

impl Calls for Proved {
    fn new() -> Self {
        Proved(EMPTY_WORDS)
    }

    fn fresh(&mut self, count: u32) {
        proved::fresh(&mut self.0, count);
    }

    fn admit(&mut self, [delay, period, duration]: [u32; 3]) -> u64 {
        proved::admit(&mut self.0, delay, period, duration)
    }

    fn withdraw(&mut self, place: u32) -> u64 {
        proved::withdraw(&mut self.0, place)
    }

    fn step(&mut self, count: u32) -> u64 {
        proved::step(&mut self.0, count)
    }

    fn words(&self) -> Words {
        self.0
    }
}

struct ByHand(Words);

impl Calls for ByHand {
    fn new() -> Self {
        ByHand(EMPTY_WORDS)
    }

    fn fresh(&mut self, count: u32) {
        by_hand::fresh(&mut self.0, count);
    }

    fn admit(&mut self, [delay, period, duration]: [u32; 3]) -> u64 {
        by_hand::admit(&mut self.0, delay, period, duration)
    }

    fn withdraw(&mut self, place: u32) -> u64 {
        by_hand::withdraw(&mut self.0, place)
    }

    fn step(&mut self, count: u32) -> u64 {
        by_hand::step(&mut self.0, count)
    }

    fn words(&self) -> Words {
        self.0
    }
}

impl Calls for Dispatcher {
    fn new() -> Self {
        Dispatcher::EMPTY
    }

    fn fresh(&mut self, count: u32) {
        Dispatcher::fresh(self, count);
    }

    fn admit(&mut self, [delay, period, duration]: [u32; 3]) -> u64 {
        Dispatcher::admit(self, delay, period, duration)
    }

    fn withdraw(&mut self, place: u32) -> u64 {
        Dispatcher::withdraw(self, place)
    }

    fn step(&mut self, count: u32) -> u64 {
        Dispatcher::step(self, count)
    }

    fn words(&self) -> Words {
        Dispatcher::words(self)
    }
}

/// A dispatcher of these trains, all of which it admits. Its first step is the one with the count 0.
fn placed<C: Calls>(trains: &[[u32; 3]]) -> C {
    let mut dispatcher = C::new();
    dispatcher.fresh(u32::MAX);
    for (place, &train) in trains.iter().enumerate() {
        assert_eq!(dispatcher.admit(train), code(header::DONE, place), "a train that is measured is admitted");
    }
    dispatcher
}

/// Steps two dispatchers side by side.
fn compare_steps<A: Calls, B: Calls>(name: &str, trains: &[[u32; 3]]) {
    let (mut a, mut b): (A, B) = (placed(trains), placed(trains));
    for count in 0..COMPARED {
        assert_eq!(a.step(count), b.step(count), "{name}: the step with the count {count}");
        assert_eq!(a.words(), b.words(), "{name}: the words after the count {count}");
    }
}

/// A batch of steps, which goes on where the batch before it ended.
fn steps<C: Calls>(trains: &[[u32; 3]]) -> impl FnMut(u64) -> u64 {
    let mut dispatcher: C = placed(trains);
    let mut count = u32::MAX;
    calls(move || {
        count = count.wrapping_add(1);
        black_box(&mut dispatcher).step(black_box(count))
    })
}

fn print_three(name: &str, all: [Batch; 3]) {
    let [proved, words, structure] = race(all);
    let cells = [
        print::time(proved),
        print::time(words),
        print::ratio(proved, words),
        print::time(structure),
        print::ratio(proved, structure),
    ];
    print::row(name, &cells);
}

fn step(name: &str, trains: &[[u32; 3]]) {
    compare_steps::<Proved, ByHand>(name, trains);
    compare_steps::<Proved, Dispatcher>(name, trains);
    print_three(name, [&mut steps::<Proved>(trains), &mut steps::<ByHand>(trains), &mut steps::<Dispatcher>(trains)]);
}

/// A batch of an admission and a withdrawal that undoes it, measured together.
fn admissions<C: Calls>(trains: &[[u32; 3]]) -> impl FnMut(u64) -> u64 {
    let (&last, others) = trains.split_last().expect("there is a train to admit");
    let mut dispatcher: C = placed(others);
    let place = others.len() as u32;
    calls(move || {
        let admitted = black_box(&mut dispatcher).admit(black_box(last));
        admitted.wrapping_add(black_box(&mut dispatcher).withdraw(black_box(place)))
    })
}

/// The words after the last train was admitted, and after it was withdrawn.
fn admitted_and_withdrawn<C: Calls>(trains: &[[u32; 3]]) -> [Words; 2] {
    let mut dispatcher: C = placed(trains);
    let admitted = dispatcher.words();
    assert_eq!(dispatcher.withdraw(trains.len() as u32 - 1), code(header::DONE, 0));
    [admitted, dispatcher.words()]
}

fn admission(name: &str, trains: &[[u32; 3]]) {
    let words = admitted_and_withdrawn::<Proved>(trains);
    assert_eq!(words, admitted_and_withdrawn::<ByHand>(trains), "{name}");
    assert_eq!(words, admitted_and_withdrawn::<Dispatcher>(trains), "{name}");
    print_three(
        name,
        [&mut admissions::<Proved>(trains), &mut admissions::<ByHand>(trains), &mut admissions::<Dispatcher>(trains)],
    );
}

/// A batch of fresh starts.
fn freshes<C: Calls>() -> impl FnMut(u64) -> u64 {
    let mut dispatcher = C::new();
    calls(move || {
        black_box(&mut dispatcher).fresh(black_box(7));
        0
    })
}

pub fn all() {
    let longest = data::MOST_TICKS;
    print::title("dispatcher, ns a call", &["proved", "Rust on words", "proved/Rust", "Rust, a struct", "proved/that"]);
    step("step in mid-run, 1 train (0, 10000000, 10000000)", &[[0, longest, longest]]);
    let runs: Vec<[u32; 3]> = (0..data::TRAINS).map(|train| [train * 10_000, 640_000, 10_000]).collect();
    step("step in mid-run, 64 trains (10000 i, 640000, 10000)", &runs);
    step("idle step, 1 train (10000000, 10000000, 1)", &[[longest, longest, 1]]);
    let late: Vec<[u32; 3]> = (0..data::TRAINS).map(|train| [longest - train, longest, 1]).collect();
    step("idle step, 64 trains (10000000 - i, 10000000, 1)", &late);
    step("a start each step, 1 train (0, 1, 1)", &[[0, 1, 1]]);
    step("a start each step, 64 trains (i, 64, 1)", &data::in_turn(&[64]));
    admission("admit and withdraw, beside 63 trains (i, 64, 1)", &data::in_turn(&[64]));
    admission("admit and withdraw, beside 63 trains, the most divisions", &data::found_admission());
    print_three("fresh", [&mut freshes::<Proved>(), &mut freshes::<ByHand>(), &mut freshes::<Dispatcher>()]);
}
