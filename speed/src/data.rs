//! The tables that are measured, as rows of six numbers a train.

use crate::proved::{header, Words, WORDS};

pub const TRAINS: u32 = header::TRAINS;
pub const MOST_TICKS: u32 = header::MAX_TICKS;
const LONGEST_TEXT: usize = header::LONGEST_TEXT as usize;

/// Two that follow each other in Fibonacci's sequence: no periods within the limits take more divisions. They are 33.
pub const MOST_DIVISIONS: [u32; 2] = [9_227_465, 5_702_887];

/// The accepted table with the most divisions that was found (see search.rs): a period, and how many trains have it. Those at
/// index i start at ticks that leave i by 4, and all periods are multiples of 4: it and four in Fibonacci's sequence.
pub const FOUND: [(u32, u32); 4] = [(4 * 2_178_309, 15), (4 * 1_346_269, 20), (4 * 832_040, 20), (4 * 514_229, 9)];

/// The same for those that start at ticks that leave 1, 5, 7 or 11 by 12, so that two more trains are free of them, one at ticks
/// that 2 divides and with a period that it divides, and one with 3 in its stead.
const FOUND_BESIDE: [(u32, u32); 4] = [(12 * 832_040, 15), (12 * 514_229, 20), (12 * 317_811, 19), (12 * 196_418, 8)];

/// Twice two that follow each other in Fibonacci's sequence. Two trains that never meet have a common divisor of at least 2, and
/// so no two take more divisions than these: 31, as 32 need a number of 5,702,887.
const MOST_DIVISIONS_FREE: [u32; 2] = [2 * 3_524_578, 2 * 2_178_309];

/// Two trains that first meet at the last of the strokes at which they can meet, the 10,000,000th: no search is longer.
const LONGEST_SEARCH: [[u32; 3]; 2] = [[0, MOST_TICKS, 1], [MOST_TICKS - 1, MOST_TICKS - 1, 1]];

/// The largest prime that a table takes as its L. As a denominator it makes reading a table slower too.
pub const PRIME: u32 = 999_983;

/// Two periods with a common period of 1,024,000 ticks.
pub const WALKED_PERIODS: [u32; 2] = [8_000, 8_192];

/// Fibonacci's numbers of 32 bits: no fraction takes more divisions to be reduced. They are 45.
const MOST_DIVISIONS_FRACTION: [u32; 2] = [1_836_311_903, 2_971_215_073];

/// 64 trains that start one after the other and run for a tick, with these periods in turn.
pub fn in_turn(periods: &[u32]) -> Vec<[u32; 3]> {
    let period = |train: u32| periods[train as usize % periods.len()];
    (0..TRAINS).map(|train| [train, period(train), 1]).collect()
}

/// Trains of whole milliseconds as a row.
pub fn whole(trains: &[[u32; 3]]) -> Vec<u32> {
    scaled(trains, 1, 1)
}

/// The row of trains whose times are so many times `up` over `down` milliseconds.
pub fn scaled(trains: &[[u32; 3]], up: u32, down: u32) -> Vec<u32> {
    trains.iter().flatten().flat_map(|&time| [time * up, down]).collect()
}

/// The trains (i, 64, 1) in thirteenths of a millisecond, all of them with six times both numbers.
pub fn thirteenths() -> Vec<u32> {
    scaled(&in_turn(&[64]), 6, 6 * 13)
}

/// Trains of a tick with the periods and residues of a table that was found.
fn with_residues(classes: &[(u32, u32)], residues: &[u32], base: u32) -> Vec<[u32; 3]> {
    let of_class = |(&(period, count), &residue): (&(u32, u32), &u32)| -> Vec<[u32; 3]> {
        (0..count).map(|number| [residue + base * number, period, 1]).collect()
    };
    classes.iter().zip(residues).flat_map(of_class).collect()
}

/// The accepted table with the most divisions that was found.
pub fn found() -> Vec<[u32; 3]> {
    with_residues(&FOUND, &[0, 1, 2, 3], 4)
}

/// 63 trains, and a last one that is free of them: no admission takes more divisions.
pub fn found_admission() -> Vec<[u32; 3]> {
    let [placed, new] = MOST_DIVISIONS_FREE;
    let others = (0..TRAINS - 1).map(|train| [2 * train, placed, 1]);
    others.chain([[1, new, 1]]).collect()
}

/// Two trains with the longest search for the tick at which they meet.
pub fn longest_search() -> Vec<u32> {
    whole(&LONGEST_SEARCH)
}

/// The same two behind 62 that are free of them and of each other, with the most divisions that were found.
pub fn longest_known() -> Vec<u32> {
    let others = with_residues(&FOUND_BESIDE, &[1, 5, 7, 11], 12);
    whole(&[&others[..], &LONGEST_SEARCH].concat())
}

/// 64 trains whose times are a Fibonacci fraction or its inverse.
pub fn most_divisions_fractions() -> Vec<u32> {
    let [n, m] = MOST_DIVISIONS_FRACTION;
    [n, m, m, n, n, m].repeat(TRAINS as usize)
}

/// The trains (i, 64, 1), the first of them without a denominator.
pub fn early_refusal() -> Vec<u32> {
    let mut row = whole(&in_turn(&[64]));
    row[1] = 0;
    row
}

/// The trains (i, 64, 1), the last of them without a period.
pub fn late_refusal() -> Vec<u32> {
    let mut row = whole(&in_turn(&[64]));
    row[63 * 6 + 2] = 0;
    row
}

/// Two trains that first meet at tick 4,745,030,099,485.
pub fn late_collision() -> Vec<u32> {
    whole(&[[0, 9_227_465, 1], [5, 5_702_887, 1]])
}

/// Two trains that meet at once.
pub fn early_collision() -> Vec<u32> {
    whole(&[[0, 10, 5], [3, 10, 5]])
}

/// The listing with so many zeros before its first number that no longer text is imported.
pub fn longest_text(listing: &[u8]) -> Vec<u8> {
    let first = listing.iter().position(u8::is_ascii_digit).expect("a listing with a train");
    let zeros = vec![b'0'; LONGEST_TEXT - listing.len()];
    [&listing[..first], &zeros, &listing[first..]].concat()
}

/// As many trains as a text can list, with a blank phase: more than a table takes, so that all of them are read, once.
pub fn most_records() -> Vec<u8> {
    let (heading, record) = (&b"phase,period,duration\r\n"[..], &b",1,1\r\n"[..]);
    [heading, &record.repeat((LONGEST_TEXT - heading.len()) / record.len())].concat()
}

/// What lent memory holds before a call, so that it shows what a call leaves as it was.
pub const BYTE: u8 = 0xa5;
pub const NUMBER: u32 = 0xa5a5_a5a5;
pub const FIGURE: u64 = 0xa5a5_a5a5_a5a5_a5a5;
pub const EMPTY_WORDS: Words = [NUMBER; WORDS];
