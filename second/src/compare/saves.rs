//! Saves of drawn rows: the answer, the bytes, and what lies behind them. What was saved is loaded again, and saved again.

use super::memory::Lent;
use super::{same, Difference, Tally};
use crate::draw::Draw;
use crate::files;
use crate::library::{self, Parts};
use crate::paper::{MOST_NUMBERS, NUMBERS_A_TRAIN};
use crate::stored::{self, Refused};

const ANSWERS: [&str; 6] = ["saved", "refuse 1", "refuse 2", "refuse 3", "refuse 4", "refuse 8"];

pub fn compare(seed: u64, cases: u64) -> Result<Vec<Tally>, (u64, Difference)> {
    let mut tally = Tally::new("saves", &ANSWERS);
    for case in 0..cases {
        let (row, room) = files::saved(seed, case);
        let saved = check(&row, room, &mut Draw::beside(seed, case)).map_err(|difference| (case, difference))?;
        tally.count(&saved.map_or_else(|(number, _)| format!("refuse {number}"), |_| "saved".to_string()));
    }
    Ok(vec![tally])
}

/// What the second program saves of the row. A difference where the library does not write the same, or where that is not
/// loaded as the same fractions, or not saved again as the same bytes.
fn check(row: &[u32], room: usize, draw: &mut Draw) -> Result<Result<Vec<u8>, Refused>, Difference> {
    let saved = stored::save(row, room);
    let mut lent = Lent::new(draw.any(), room);
    let answered = library::save(row, lent.part());
    let right = match &saved {
        Ok(file) => (Parts::done(file.len()), &file[..]),
        Err(refused) => (Parts::refused(*refused), &[][..]),
    };
    same(format_args!("saving, in {room} bytes, the row {row:?}"), (answered, &lent), right)?;
    if let Ok(file) = &saved {
        again(row, file, draw)?;
    }
    Ok(saved)
}

/// A difference where the file of a row is not loaded as its fractions, or these are not saved as that file.
fn again(row: &[u32], file: &[u8], draw: &mut Draw) -> Result<(), Difference> {
    let lowest = stored::load(file, MOST_NUMBERS).expect("a saved table can be loaded");
    for (before, after) in row.chunks(2).zip(lowest.chunks(2)) {
        assert_eq!(crossed(before, after), crossed(after, before), "the second program saves another fraction");
    }
    let mut lent = Lent::new(draw.any(), row.len());
    let answered = library::load(file, lent.part());
    let right = Parts::done(row.len() / NUMBERS_A_TRAIN);
    same(format_args!("loading what was saved of the row {row:?}"), (answered, &lent), (right, &lowest))?;
    let mut lent = Lent::new(draw.any(), file.len());
    let answered = library::save(&lowest, lent.part());
    let right = Parts::done(file.len());
    same(format_args!("saving again the row {lowest:?}"), (answered, &lent), (right, file))
}

/// The numerator of one fraction times the denominator of another, by which two of them are compared.
fn crossed(a: &[u32], b: &[u32]) -> u64 {
    u64::from(a[0]) * u64::from(b[1])
}
