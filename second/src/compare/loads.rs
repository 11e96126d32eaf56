//! Loads of drawn and damaged files, and the verdicts on them. What could be loaded is saved again, as the same file.

use super::memory::Lent;
use super::verdicts::{self, Input};
use super::{same, Difference, Tally};
use crate::draw::Draw;
use crate::files::{self, hex};
use crate::library::{self, Parts};
use crate::paper::{BYTES_A_TRAIN, HEAD, NUMBERS_A_TRAIN};
use crate::stored::{self, Refused};
use crate::sweeps::Sweeps;
use crate::tables::Verdict;

const LOADED: [&str; 10] = [
    "loaded",
    "refuse 1",
    "refuse 2",
    "refuse 3",
    "refuse 4",
    "refuse 8",
    "refuse 9",
    "refuse 10",
    "refuse 11",
    "refuse 12",
];

const JUDGED: [&str; 12] = [
    "accept",
    "collide",
    "refuse 1",
    "refuse 2",
    "refuse 3",
    "refuse 4",
    "refuse 5",
    "refuse 6",
    "refuse 9",
    "refuse 10",
    "refuse 11",
    "refuse 12",
];

/// In a sweep files of no more trains than two are small.
const SMALL: usize = HEAD + 2 * BYTES_A_TRAIN;

/// Every other case is a drawn file, and every other one of a sweep.
pub fn compare(seed: u64, cases: u64) -> Result<Vec<Tally>, (u64, Difference)> {
    let mut loaded = Tally::new("loads", &LOADED);
    let mut judged = Tally::new("verdicts on the same files", &JUDGED);
    let mut sweeps = Sweeps::new(seed, files::good, SMALL);
    for case in 0..cases {
        let draw = &mut Draw::beside(seed, case);
        let file = if case % 2 == 0 { files::loaded(seed, case / 2) } else { sweeps.file() };
        let room = files::room_for(draw, &file);
        let load = check(&file, room, draw).map_err(|difference| (case, difference))?;
        loaded.count(&load.map_or_else(|(number, _)| format!("refuse {number}"), |_| "loaded".to_string()));
        let verdict = check_verdict(&file, draw).map_err(|difference| (case, difference))?;
        judged.count(&verdict.to_string());
    }
    Ok(vec![loaded, judged])
}

/// What the second program loads of the file. A difference where the library does not write the same, or does not save it
/// as the file that it was.
fn check(file: &[u8], room: usize, draw: &mut Draw) -> Result<Result<Vec<u32>, Refused>, Difference> {
    let loaded = stored::load(file, room);
    let mut lent = Lent::new(draw.any(), room);
    let answered = library::load(file, lent.part());
    let right = match &loaded {
        Ok(row) => (Parts::done(row.len() / NUMBERS_A_TRAIN), &row[..]),
        Err(refused) => (Parts::refused(*refused), &[][..]),
    };
    same(format_args!("loading, in {room} numbers, the file {}", Shown(file)), (answered, &lent), right)?;
    if let Ok(row) = &loaded {
        let mut lent = Lent::new(draw.any(), file.len());
        let answered = library::save(row, lent.part());
        let right = (Parts::done(file.len()), file);
        same(format_args!("saving what was loaded of the file {}", Shown(file)), (answered, &lent), right)?;
    }
    Ok(loaded)
}

fn check_verdict(file: &[u8], draw: &mut Draw) -> Result<Verdict, Difference> {
    let verdict = stored::verdict(file);
    verdicts::check(&Input::File(file), &verdict, draw)?;
    Ok(verdict)
}

/// A file in hexadecimal digits, written only where it is shown.
struct Shown<'a>(&'a [u8]);

impl std::fmt::Display for Shown<'_> {
    fn fmt(&self, out: &mut std::fmt::Formatter) -> std::fmt::Result {
        out.write_str(&hex(self.0))
    }
}
