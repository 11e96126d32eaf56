//! What lies below every verdict: the division instructions that it has to make, and what one of them takes on this machine.

use crate::by_hand::common_divisor;
use crate::clock::{calls, race};
use crate::{data, print};
use std::arch::asm;
use std::hint::black_box;

/// What a division takes in nanoseconds: where each waits for the one before, as in Euclid's method, and where none does.
struct Division {
    waiting: f64,
    apart: f64,
}

/// How many divisions a measured call makes.
const CHAIN: usize = 33;

/// The instruction itself, so that the compiler neither narrows it nor leaves it out.
fn remainder32(a: u32, b: u32) -> u32 {
    let remainder;
    unsafe { asm!("div {0:e}", in(reg) b, inout("eax") a => _, inout("edx") 0 => remainder, options(nomem, nostack)) };
    remainder
}

fn remainder64(a: u64, b: u64) -> u64 {
    let remainder;
    unsafe {
        asm!("div {0:r}", in(reg) b, inout("rax") a => _, inout("rdx") 0u64 => remainder, options(nomem, nostack))
    };
    remainder
}

/// Euclid's method for a fixed number of steps, each of which waits for the one before.
fn chain<N: Copy>(remainder: impl Fn(N, N) -> N, pair: [N; 2]) -> N {
    let [a, _] = (0..CHAIN).fold(pair, |[a, b], _| [b, remainder(a, b)]);
    a
}

/// As many divisions of the same two numbers, none of which waits for another.
fn apart<N: Copy>(remainder: impl Fn(N, N) -> N, [a, b]: [N; 2]) {
    for _ in 0..CHAIN {
        remainder(a, b);
    }
}

fn each(call: impl FnMut() -> u64) -> f64 {
    let [time] = race([&mut calls(call)]);
    time / CHAIN as f64
}

/// Divisions of 32 bits, on the two periods that take the most of them.
fn division32() -> Division {
    let pair = data::MOST_DIVISIONS;
    Division {
        waiting: each(|| chain(remainder32, black_box(pair)).into()),
        apart: each(|| {
            apart(remainder32, black_box(pair));
            0
        }),
    }
}

/// Divisions of 64 bits, on the same numbers.
fn division64() -> Division {
    let pair = data::MOST_DIVISIONS.map(u64::from);
    Division {
        waiting: each(|| chain(remainder64, black_box(pair))),
        apart: each(|| {
            apart(remainder64, black_box(pair));
            0
        }),
    }
}

/// The divisions of reading a table, and its multiple: for each time the remainders of its lowest terms and two quotients, the
/// remainders of the running multiple and one quotient, and one division for its ticks.
fn reading(row: &[u32]) -> (u64, u32) {
    row.chunks_exact(2).fold((0, 1), |(divisions, multiple), time| {
        let (divisor, reduced) = common_divisor(time[0], time[1]);
        let denominator = time[1] / divisor;
        let (shared, included) = common_divisor(multiple, denominator);
        (divisions + u64::from(reduced + 2 + included + 1 + 1), multiple / shared * denominator)
    })
}

/// The divisions of a pair: its division count, and one for the offset where the phases are not nearer than the divisor.
fn of_pair(a: [u32; 2], b: [u32; 2]) -> u64 {
    let (divisor, divisions) = common_divisor(a[1], b[1]);
    u64::from(divisions) + u64::from(a[0].abs_diff(b[0]) >= divisor)
}

/// The divisions of the verdict on an accepted row.
fn divisions(row: &[u32]) -> u64 {
    let (read, multiple) = reading(row);
    let ticks = |time: &[u32]| (u64::from(time[0]) * u64::from(multiple) / u64::from(time[1])) as u32;
    let trains: Vec<[u32; 2]> = row.chunks_exact(6).map(|train| [ticks(&train[0..2]), ticks(&train[2..4])]).collect();
    let pairs = trains.iter().enumerate().flat_map(|(first, &a)| trains[first + 1..].iter().map(move |&b| (a, b)));
    read + pairs.map(|(a, b)| of_pair(a, b)).sum::<u64>()
}

/// A measured verdict: its name, its row, its division count and what the proved call takes.
pub struct Measured {
    pub name: &'static str,
    pub row: Vec<u32>,
    pub counted: u64,
    pub proved: f64,
}

fn share(divisions: u64, each: f64, whole: f64) -> String {
    format!("{:.0}%", 100.0 * divisions as f64 * each / whole)
}

pub fn all(verdicts: &[Measured]) {
    print::title("a division instruction, ns", &["waiting", "apart"]);
    let narrow = division32();
    for (name, division) in [("32 bits", &narrow), ("64 bits", &division64())] {
        print::row(name, &[print::time(division.waiting), print::time(division.apart)]);
    }
    let columns = ["counted", "all divisions", "ns a division", "share, apart", "share, waiting"];
    print::title("divisions of an accepted verdict, of 32 bits each", &columns);
    for verdict in verdicts {
        let all = divisions(&verdict.row);
        let cells = [
            verdict.counted.to_string(),
            all.to_string(),
            print::time(verdict.proved / all as f64),
            share(all, narrow.apart, verdict.proved),
            share(all, narrow.waiting, verdict.proved),
        ];
        print::row(verdict.name, &cells);
    }
}
