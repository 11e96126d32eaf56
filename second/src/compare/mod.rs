//! Compares the proved library with the second program, in this one process, on cases drawn from a seed. The first
//! difference ends it, and is shown with the whole case. At the end a line for each kind says what was compared.

mod calls;
mod exports;
pub mod far;
mod imports;
mod loads;
mod memory;
mod saves;
mod tally;
mod verdicts;
mod words;

use crate::library::Parts;
use memory::{Element, Lent};
use std::fmt::Display;
use std::io::{self, Error, Write};
use tally::Tally;

/// What is said of a difference.
type Difference = String;

/// Compares so many cases of a kind. A difference is told with the number of its case.
type Kind = fn(seed: u64, cases: u64) -> Result<Vec<Tally>, (u64, Difference)>;

/// A kind with its name, and its share of a hundred cases.
type Share = (&'static str, u64, Kind);

/// All kinds: a verdict takes twenty times as long as a call.
const KINDS: [Share; 7] = [
    ("verdicts", 15, verdicts::compare),
    ("saves", 10, saves::compare),
    ("loads", 10, loads::compare),
    ("imports", 15, imports::compare),
    ("exports", 5, exports::compare),
    ("calls", 30, calls::compare),
    ("words", 15, words::compare),
];

/// Those of listings.
const LISTINGS: [Share; 2] = [("imports", 80, imports::compare), ("exports", 20, exports::compare)];

/// From so many cases on, every answer has to be met.
const MANY: u64 = 100_000;

/// Compares so many cases of all kinds together.
pub fn compare(seed: u64, cases: u64, out: &mut impl Write) -> io::Result<()> {
    compare_kinds(&KINDS, seed, cases, out)
}

/// Compares so many listings, imported and exported.
pub fn listings(seed: u64, cases: u64, out: &mut impl Write) -> io::Result<()> {
    compare_kinds(&LISTINGS, seed, cases, out)
}

fn compare_kinds(kinds: &[Share], seed: u64, cases: u64, out: &mut impl Write) -> io::Result<()> {
    writeln!(out, "seed {seed}: {cases} cases")?;
    for (name, share, kind) in kinds {
        let told = |(case, difference)| {
            Error::other(format!("a difference in {name}, seed {seed}, case {case}\n{difference}"))
        };
        for tally in kind(seed, cases * share / 100).map_err(told)? {
            writeln!(out, "{tally}")?;
            if cases >= MANY && !tally.missing().is_empty() {
                return Err(Error::other(format!("in {name} no case has the answer {}", tally.missing().join(", "))));
            }
        }
    }
    writeln!(out, "no difference")
}

/// A difference where a call does not answer what is right, or where the lent memory has anything else in it than that at
/// its front, and what was there before behind it and around it.
fn same<T: Element>(
    call: impl Display,
    (answered, lent): (Parts, &Lent<T>),
    (right, front): (Parts, &[T]),
) -> Result<(), Difference> {
    if answered == right && lent.holds(front) {
        return Ok(());
    }
    let answers = format!("the library: {answered:?}\nthe second program: {right:?}");
    Err(format!("{call}\n{answers}\n{}", lent.shown(front)))
}
