//! Stored tables, from the paper's words. A file is taken apart in one pass, in which a byte that is not there counts
//! as 0. So every question can be asked of any file: its faults stand in the paper's order, and the first is answered.

use crate::paper::{BYTES_A_TRAIN, HEAD, LONGEST_FILE, MOST_NUMBERS, MOST_TRAINS, NO_TRAIN, NUMBERS_A_TRAIN};
use crate::tables::{self, fault, lowest, times, Time, Verdict};

const MARK: [u8; 3] = *b"STT";
const VERSION: u16 = 1;

/// So many bytes of its input are judged by the program `verdict`: one more than the longest file has.
pub const MOST_JUDGED: usize = LONGEST_FILE + 1;

/// The number of a refusal, and the train or the record that it blames.
pub type Refused = (u32, usize);

/// The file of a row, if it fits into so many bytes.
pub fn save(row: &[u32], room: usize) -> Result<Vec<u8>, Refused> {
    let file = packed(&in_lowest_terms(&trains(row)?));
    match room < file.len() {
        true => Err((8, NO_TRAIN)),
        false => Ok(file),
    }
}

/// The trains of a row that can be saved, or exported, if there is room for it.
pub fn trains(row: &[u32]) -> Result<Vec<[Time; 3]>, Refused> {
    let is_no_table = row.len() % NUMBERS_A_TRAIN != 0 || row.len() > MOST_NUMBERS;
    let table: Vec<[Time; 3]> = row.chunks_exact(NUMBERS_A_TRAIN).map(times).collect();
    let of_row = is_no_table.then_some((1, NO_TRAIN));
    let of_trains = table.iter().enumerate().filter_map(|(at, train)| Some((fault(train)?, at)));
    let refused = of_row.into_iter().chain(of_trains).next();
    refused.map_or(Ok(table), Err)
}

pub fn in_lowest_terms(table: &[[Time; 3]]) -> Vec<u32> {
    let times = table.iter().flatten().map(|time| lowest(*time));
    times.flat_map(|time| [time.numerator, time.denominator]).collect()
}

/// The file of these numbers just as they are; nothing is asked of them.
pub fn packed(numbers: &[u32]) -> Vec<u8> {
    let count = (numbers.len() / NUMBERS_A_TRAIN) as u16;
    let head = MARK.into_iter().chain(VERSION.to_be_bytes()).chain(count.to_be_bytes());
    head.chain(numbers.iter().flat_map(|number| number.to_be_bytes())).collect()
}

/// The numbers of a file, if they fit into a row of so many.
pub fn load(bytes: &[u8], room: usize) -> Result<Vec<u32>, Refused> {
    let File { mark, version, count, numbers } = taken_apart(bytes);
    let head = [
        (11, bytes.len() < HEAD),
        (9, mark != MARK),
        (10, version != VERSION),
        (1, count > MOST_TRAINS),
        (11, bytes.len() != HEAD + BYTES_A_TRAIN * count),
    ];
    let of_head = head.into_iter().filter_map(|(number, is_given)| is_given.then_some((number, NO_TRAIN)));
    let trains = numbers.chunks_exact(NUMBERS_A_TRAIN).map(times).enumerate();
    let of_trains = trains.filter_map(|(at, train)| Some((stored_fault(&train)?, at)));
    let of_room = (room < NUMBERS_A_TRAIN * count).then_some((8, NO_TRAIN));
    let refused = of_head.chain(of_trains).chain(of_room).next();
    refused.map_or(Ok(numbers), Err)
}

/// The first refusal of a stored train by itself: each time in turn, and then what a train in a row is refused for too.
fn stored_fault(train: &[Time; 3]) -> Option<u32> {
    let of_times = train.iter().flat_map(|time| [(2, time.denominator == 0), (12, lowest(*time) != *time)]);
    of_times.filter_map(|(number, is_given)| is_given.then_some(number)).chain(fault(train)).next()
}

/// What a file says, none of it believed.
struct File {
    mark: [u8; 3],
    version: u16,
    count: usize,
    numbers: Vec<u32>,
}

fn taken_apart(bytes: &[u8]) -> File {
    let mut rest = bytes.iter().copied();
    let mark = next(&mut rest);
    let version = u16::from_be_bytes(next(&mut rest));
    let count = u16::from_be_bytes(next(&mut rest)).into();
    let mut numbers = Vec::new();
    while rest.len() > 0 {
        numbers.push(u32::from_be_bytes(next(&mut rest)));
    }
    File { mark, version, count, numbers }
}

/// The next bytes, and 0 where there are none.
fn next<const LENGTH: usize>(rest: &mut impl Iterator<Item = u8>) -> [u8; LENGTH] {
    [(); LENGTH].map(|()| rest.next().unwrap_or(0))
}

/// The verdict on a file: that on its row, if it can be loaded.
pub fn verdict(bytes: &[u8]) -> Verdict {
    match load(bytes, MOST_NUMBERS) {
        Ok(row) => tables::verdict(&row),
        Err((number, train)) => Verdict::Refuse { number, train },
    }
}

/// What the program `verdict` has to print for an input.
pub fn line(input: &[u8]) -> String {
    verdict(&input[..input.len().min(MOST_JUDGED)]).line()
}
