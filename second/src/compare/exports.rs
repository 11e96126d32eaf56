//! Exports of drawn rows: the answer, the text, and what lies behind it. What was exported is imported, and exported again.

use super::memory::Lent;
use super::{same, Difference, Tally};
use crate::draw::Draw;
use crate::files::room;
use crate::library::{self, Parts};
use crate::listing::{self, LONGEST_EXPORT};
use crate::listings;
use crate::paper::NUMBERS_A_TRAIN;
use crate::settled;
use crate::stored::{in_lowest_terms, trains, Refused};

const ANSWERS: [&str; 6] = ["exported", "refuse 1", "refuse 2", "refuse 3", "refuse 4", "refuse 8"];

/// The most bytes that are lent, beyond those of the longest text.
const MOST_ROOM: usize = LONGEST_EXPORT + 60;

/// The settled rows, and then the drawn ones.
pub fn compare(seed: u64, cases: u64) -> Result<Vec<Tally>, (u64, Difference)> {
    let mut tally = Tally::new("exports", &ANSWERS);
    for (number, (row, room, right)) in (0..).zip(settled::exports()) {
        let answer = check(&row, room, &mut Draw::beside(seed, number)).map_err(|difference| (number, difference))?;
        assert_eq!(answer, right, "what is settled of the row {row:?}");
    }
    for case in 0..cases {
        let draw = &mut Draw::beside(seed, case);
        let row = listings::row(seed, case);
        let needed = listing::export(&row, usize::MAX).map_or(row.len() * 2, |text| text.len());
        let room = draw_room(draw, needed);
        let exported = check(&row, room, draw).map_err(|difference| (case, difference))?;
        tally.count(&exported.map_or_else(|(number, _)| format!("refuse {number}"), |_| "exported".to_string()));
    }
    Ok(vec![tally])
}

/// A room for what is needed, or what is enough for every text, or a byte less.
fn draw_room(draw: &mut Draw, needed: usize) -> usize {
    let room = room(draw, needed, MOST_ROOM);
    draw.of(&[room, room, room, LONGEST_EXPORT - 1, LONGEST_EXPORT, MOST_ROOM])
}

/// What the second program exports of the row. A difference where the library does not write the same, or where that is not
/// imported as the same fractions, or not exported again as the same text.
fn check(row: &[u32], room: usize, draw: &mut Draw) -> Result<Result<Vec<u8>, Refused>, Difference> {
    let exported = listing::export(row, room);
    let mut lent = Lent::new(draw.any(), room);
    let answered = library::export(row, lent.part());
    let right = match &exported {
        Ok(text) => (Parts::done(text.len()), &text[..]),
        Err(refused) => (Parts::refused(*refused), &[][..]),
    };
    same(format_args!("exporting, in {room} bytes, the row {row:?}"), (answered, &lent), right)?;
    if exported.is_ok() {
        let table = trains(row).expect("what was exported is a table");
        again(&in_lowest_terms(&table), draw)?;
    }
    Ok(exported)
}

/// A difference where a row in lowest terms is not exported as its text, or that is not imported as the row.
pub fn again(row: &[u32], draw: &mut Draw) -> Result<(), Difference> {
    let text = listing::export(row, LONGEST_EXPORT).expect("a table in lowest terms can be exported");
    assert_eq!(listing::import(&text, row.len()).as_deref(), Ok(row), "the second program imports another row");
    let mut lent = Lent::new(draw.any(), text.len());
    let answered = library::export(row, lent.part());
    let right = Parts::done(text.len());
    same(format_args!("exporting the row in lowest terms {row:?}"), (answered, &lent), (right, &text))?;
    let mut lent = Lent::new(draw.any(), row.len());
    let answered = library::import(&text, lent.part());
    let right = Parts::done(row.len() / NUMBERS_A_TRAIN);
    same(format_args!("importing what was exported of the row {row:?}"), (answered, &lent), (right, row))
}
