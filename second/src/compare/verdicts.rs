//! Verdicts on drawn rows: the answer, the figures, and the printed line in a text that is long enough, or too short. What
//! is not written has to keep its value.

use super::memory::Lent;
use super::{same, Difference, Tally};
use crate::draw::Draw;
use crate::files::hex;
use crate::library::{self, header, Figures, Parts, FIGURES};
use crate::paper::NO_TRAIN;
use crate::rows;
use crate::tables::{self, Meeting, Verdict};
use std::fmt;

/// The bytes of the longest line, as the header has it.
const LONGEST_LINE: usize = header::LONGEST_LINE as usize;

const ANSWERS: [&str; 8] =
    ["accept", "collide", "refuse 1", "refuse 2", "refuse 3", "refuse 4", "refuse 5", "refuse 6"];

pub fn compare(seed: u64, cases: u64) -> Result<Vec<Tally>, (u64, Difference)> {
    let mut tally = Tally::new("verdicts", &ANSWERS);
    for case in 0..cases {
        let row = rows::row(seed, case);
        let verdict = tables::verdict(&row);
        check(&Input::Row(&row), &verdict, &mut Draw::beside(seed, case)).map_err(|difference| (case, difference))?;
        tally.count(&verdict.to_string());
    }
    Ok(vec![tally])
}

/// What is judged.
pub enum Input<'a> {
    Row(&'a [u32]),
    File(&'a [u8]),
}

impl Input<'_> {
    fn judge(&self, figures: &mut Figures) -> Parts {
        match self {
            Input::Row(row) => library::judge(row, figures),
            Input::File(file) => library::judge_stored(file, figures),
        }
    }

    fn line(&self, text: &mut [u8]) -> Parts {
        match self {
            Input::Row(row) => library::line(row, text),
            Input::File(file) => library::line_stored(file, text),
        }
    }
}

impl fmt::Display for Input<'_> {
    fn fmt(&self, out: &mut fmt::Formatter) -> fmt::Result {
        match self {
            Input::Row(row) => write!(out, "the row {row:?}"),
            Input::File(file) => write!(out, "the file {}", hex(file)),
        }
    }
}

/// A difference where the library's verdict is not this one.
pub fn check(input: &Input, verdict: &Verdict, draw: &mut Draw) -> Result<(), Difference> {
    let (right, written) = figures(verdict);
    let mut lent = Lent::new(draw.any(), FIGURES);
    let answered = input.judge(lent.array());
    same(format_args!("the figures of {input}"), (answered, &lent), (right, &written))?;
    let line = verdict.line();
    let length = line.len();
    let more = length + draw.between(1, 40) as usize;
    let room = draw.of(&[0, length - 1, length, length, length + 1, more, more, LONGEST_LINE]);
    let mut lent = Lent::new(draw.any(), room);
    let answered = input.line(lent.part());
    let (right, written) = match line.as_bytes() {
        _ if room < length => (Parts::refused((8, NO_TRAIN)), &[][..]),
        bytes => (Parts::done(length), bytes),
    };
    same(format_args!("the line, in {room} bytes, of {input}"), (answered, &lent), (right, written))
}

/// The answer to a verdict, and the figures that it writes, each at its index.
fn figures(verdict: &Verdict) -> (Parts, Vec<u64>) {
    match verdict {
        Verdict::Accept { multiple, divisions } => {
            let figures = [(header::MULTIPLE, u64::from(*multiple)), (header::DIVISIONS, *divisions as u64)];
            (Parts::of_kind(header::ACCEPTED, 0), indexed(figures))
        }
        Verdict::Collide { meeting: Meeting { first, second, tick }, multiple, divisions } => {
            let figures = [
                (header::MULTIPLE, u64::from(*multiple)),
                (header::DIVISIONS, *divisions as u64),
                (header::FIRST, *first as u64),
                (header::SECOND, *second as u64),
                (header::TICK, *tick as u64),
            ];
            (Parts::of_kind(header::COLLIDE, 0), indexed(figures))
        }
        Verdict::Refuse { number, train } => (Parts::refused((*number, *train)), Vec::new()),
    }
}

/// Figures at the front, in the order of their indices, none of which is left out.
fn indexed<const COUNT: usize>(figures: [(u32, u64); COUNT]) -> Vec<u64> {
    let mut front = vec![0; COUNT];
    figures.into_iter().for_each(|(index, figure)| front[index as usize] = figure);
    front
}
