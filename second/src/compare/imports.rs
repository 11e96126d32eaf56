//! Imports of drawn and damaged listings: the answer, the numbers, and what lies behind them. What could be imported is exported,
//! and imported again as the same row.

use super::exports;
use super::memory::Lent;
use super::{same, Difference, Tally};
use crate::draw::Draw;
use crate::files::room;
use crate::library::{self, Parts};
use crate::listing::{self, listed};
use crate::listings;
use crate::paper::{MOST_NUMBERS, MOST_TRAINS, NUMBERS_A_TRAIN};
use crate::settled;
use crate::stored::Refused;
use crate::sweeps::Sweeps;

/// The last is for a bad record behind more trains than a table takes.
const ANSWERS: [&str; 8] =
    ["imported", "refuse 1", "refuse 3", "refuse 4", "refuse 7", "refuse 8", "refuse 18", "far-off refuse 18"];

/// The most numbers that are lent, beyond those that a table takes.
const LONGEST_ROW: usize = MOST_NUMBERS + 30;

/// In a sweep listings of no more bytes are small.
const SMALL: usize = 45;

/// What may lie in front of a text and behind it: a call that does not keep to the text takes it for a part of it.
const AROUND: [&[u8]; 10] =
    [b"", b"0", b"/1", b",1", b"\"", b"\n", b"\r\n", b"\r\n0,1,1\r\n", b"phase,period,duration\r\n", b"\0\0\0\0"];

/// After the settled listings every fourth case is of a sweep, and the others are drawn listings.
pub fn compare(seed: u64, cases: u64) -> Result<Vec<Tally>, (u64, Difference)> {
    let mut tally = Tally::new("imports", &ANSWERS);
    for (number, (text, room, right)) in (0..).zip(settled::imports()) {
        let answer = check(&text, room, &mut Draw::beside(seed, number)).map_err(|difference| (number, difference))?;
        assert_eq!(answer, right, "what is settled of the text {}", text.escape_ascii());
    }
    let mut sweeps = Sweeps::new(seed, listings::good, SMALL);
    for case in 0..cases {
        let draw = &mut Draw::beside(seed, case);
        let text = match case % 4 {
            3 => sweeps.file(),
            turn => listings::listing(seed, case / 4 * 3 + turn),
        };
        let needed = listed(&text).trains.len() * NUMBERS_A_TRAIN;
        let room = room(draw, needed, LONGEST_ROW);
        let imported = check(&text, room, draw).map_err(|difference| (case, difference))?;
        tally.count(&name(&imported));
    }
    Ok(vec![tally])
}

fn name(imported: &Result<Vec<u32>, Refused>) -> String {
    match imported {
        Ok(_) => "imported".to_string(),
        // the heading, as many trains as a table takes, and one more
        Err((18, record)) if *record > 1 + MOST_TRAINS + 1 => "far-off refuse 18".to_string(),
        Err((number, _)) => format!("refuse {number}"),
    }
}

/// What the second program imports of the text. A difference where the library does not write the same, or does not export it
/// as what is imported so again.
fn check(text: &[u8], room: usize, draw: &mut Draw) -> Result<Result<Vec<u32>, Refused>, Difference> {
    let imported = listing::import(text, room);
    let mut lent = Lent::new(draw.any(), room);
    let before = draw.of(&AROUND);
    let around = [before, text, draw.of(&AROUND)].concat();
    let answered = library::import(&around[before.len()..][..text.len()], lent.part());
    let right = match &imported {
        Ok(row) => (Parts::done(row.len() / NUMBERS_A_TRAIN), &row[..]),
        Err(refused) => (Parts::refused(*refused), &[][..]),
    };
    same(format_args!("importing, in {room} numbers, the text {}", text.escape_ascii()), (answered, &lent), right)?;
    if let Ok(row) = &imported {
        exports::again(row, draw)?;
    }
    Ok(imported)
}
