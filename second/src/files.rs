//! Rows to be saved and files to be loaded, drawn from a seed, with the room that is lent for them. Each kind is aimed at a
//! place of the paper where a program is likely to go wrong. What they deserve is not settled here, but in `stored`.

use crate::draw::Draw;
use crate::paper::{BYTES_A_TRAIN, HEAD, MOST_NUMBERS, MOST_TRAINS, NUMBERS_A_TRAIN};
use crate::rows;
use crate::stored::{load, packed, save};
use crate::tables::{lowest, Time};

/// The most bytes that are lent, and the longest file but for a few, beyond those of the longest good file.
const LONGEST_FILE: usize = 1_600;

/// The most numbers that are lent, beyond those that a table takes.
const LONGEST_ROW: usize = 400;

const LARGEST: u64 = u32::MAX as u64;

/// More rows than are ever drawn until one can be saved, so that a wrong program does not go on for ever.
const TRIES: usize = 1_000;

/// The kinds of rows that are saved, which come round in turn; the first has many kinds itself, and comes twice.
const SAVED: [fn(&mut Draw) -> Vec<u32>; 5] =
    [any_row, any_row, row_at_the_limit, row_of_small_numbers, large_fractions];

/// The kinds of files that are loaded, which come round in turn.
const LOADED: [fn(&mut Draw) -> Vec<u8>; 18] = [
    undamaged,
    truncated,
    lengthened,
    one_byte,
    two_bytes,
    one_bit,
    wrong_head,
    fitted,
    not_lowest,
    no_denominator,
    no_time,
    too_long,
    harmed_train,
    harmed_trains,
    behind_a_head,
    small_numbers,
    at_the_limit,
    short,
];

/// A row to be saved, and the room for its bytes: its kind by the case's number, the rest by the seed.
pub fn saved(seed: u64, case: u64) -> (Vec<u32>, usize) {
    let draw = &mut Draw::new(seed, case);
    let row = SAVED[(case % SAVED.len() as u64) as usize](draw);
    let needed = HEAD + row.len() / NUMBERS_A_TRAIN * BYTES_A_TRAIN;
    let room = room(draw, needed, LONGEST_FILE);
    (row, room)
}

/// A file to be loaded, likewise.
pub fn loaded(seed: u64, case: u64) -> Vec<u8> {
    LOADED[(case % LOADED.len() as u64) as usize](&mut Draw::new(seed, case))
}

/// A room for the numbers of a file.
pub fn room_for(draw: &mut Draw, file: &[u8]) -> usize {
    let needed = file.len().saturating_sub(HEAD) / BYTES_A_TRAIN * NUMBERS_A_TRAIN;
    room(draw, needed, LONGEST_ROW)
}

/// A room for what is needed: none, too little by one, just enough, more than enough, or any.
pub fn room(draw: &mut Draw, needed: usize, most: usize) -> usize {
    let any = draw.between(0, most as u64) as usize;
    let more = needed + draw.between(1, 30) as usize;
    draw.of(&[0, needed.saturating_sub(1), needed, needed, more, more, more, any]).min(most)
}

pub fn hex(bytes: &[u8]) -> String {
    let digits: Vec<String> = bytes.iter().map(|byte| format!("{byte:02x}")).collect();
    digits.join(" ")
}

/// The numerator of one fraction times the denominator of another, by which two of them are compared.
fn crossed(a: &[u32], b: &[u32]) -> u64 {
    u64::from(a[0]) * u64::from(b[1])
}

// ---- rows to be saved

/// A row of any kind that is drawn for verdicts.
pub fn any_row(draw: &mut Draw) -> Vec<u32> {
    rows::row(draw.between(0, LARGEST), draw.between(0, LARGEST))
}

/// Good trains, as many as a table takes or nearly so, and now and then not a whole number of them.
fn row_at_the_limit(draw: &mut Draw) -> Vec<u32> {
    let most = MOST_NUMBERS;
    let near = [most - NUMBERS_A_TRAIN, most - 1, most, most, most, most + 1, most + NUMBERS_A_TRAIN, LONGEST_ROW];
    let length = draw.of(&near);
    lowest_row(draw).into_iter().cycle().take(length).collect()
}

/// Numbers so small that every fault is met beside every other.
fn row_of_small_numbers(draw: &mut Draw) -> Vec<u32> {
    let length = if draw.once_in(8) { draw.between(0, 20) } else { draw.of(&[6, 12, 18]) };
    (0..length).map(|_| draw.of(&[0, 1, 1, 1, 2, 2, 2, 3, 3, 4, 4, 6])).collect()
}

/// Times over large denominators, of which each byte counts, with or without a factor to be reduced.
fn large_fractions(draw: &mut Draw) -> Vec<u32> {
    let mut row = Vec::new();
    for _ in 0..draw.between(1, 4) {
        let mut times = [0; 3].map(|_| {
            let factor = draw.of(&[1, 1, 2, 6, 255, 256, 65_537, 1 << 20]);
            [0; 2].map(|_| (factor * draw.between(1, LARGEST / factor)) as u32)
        });
        // the longer of the last two is mostly the period
        if crossed(&times[2], &times[1]) > crossed(&times[1], &times[2]) && !draw.once_in(8) {
            times.swap(1, 2);
        }
        row.extend(times.concat());
    }
    row
}

// ---- good files

/// Trains that can be stored just as they are, at least one.
pub fn lowest_row(draw: &mut Draw) -> Vec<u32> {
    let mut rows = (0..TRIES).filter_map(|_| {
        let row = if draw.once_in(4) { large_fractions(draw) } else { any_row(draw) };
        load(&save(&row, LONGEST_FILE).ok()?, LONGEST_ROW).ok()
    });
    rows.find(|row| !row.is_empty()).expect("a table that can be saved is drawn soon")
}

/// A good file with at least one train.
pub fn good(draw: &mut Draw) -> Vec<u8> {
    packed(&lowest_row(draw))
}

fn undamaged(draw: &mut Draw) -> Vec<u8> {
    if draw.once_in(16) {
        packed(&[])
    } else {
        good(draw)
    }
}

/// As many trains as a table takes or more, in a file of the length that its count asks for.
fn at_the_limit(draw: &mut Draw) -> Vec<u8> {
    let far = if draw.once_in(100) { draw.of(&[256 + 64, 2_731, u16::MAX.into()]) } else { 66 };
    let most = MOST_TRAINS;
    let count = draw.of(&[most - 1, most, most, most, most + 1, far]);
    let row = lowest_row(draw).into_iter().cycle().take(count * NUMBERS_A_TRAIN).collect::<Vec<_>>();
    packed(&row)
}

// ---- files with damaged bytes

/// A file that ends too soon: anywhere, by one byte, or by whole trains.
fn truncated(draw: &mut Draw) -> Vec<u8> {
    let mut file = good(draw);
    let anywhere = draw.position(file.len());
    let trains = draw.position((file.len() - HEAD) / BYTES_A_TRAIN);
    let length = draw.of(&[anywhere, file.len() - 1, HEAD + trains * BYTES_A_TRAIN]);
    file.truncate(length);
    file
}

/// A file that goes on: by a byte, by a train, by any bytes, or so far that its length is the same in 16 bits.
fn lengthened(draw: &mut Draw) -> Vec<u8> {
    let mut file = good(draw);
    let any = draw.between(1, 50) as usize;
    let far = if draw.once_in(10) { 1 << 16 } else { any };
    let length = file.len() + draw.of(&[1, BYTES_A_TRAIN, any, far]);
    file.resize_with(length, || any_byte(draw));
    file
}

fn any_byte(draw: &mut Draw) -> u8 {
    draw.between(0, 255) as u8
}

/// Another value for a byte: next to it, at an end, or any.
fn change(draw: &mut Draw, byte: &mut u8) {
    let any = any_byte(draw);
    *byte = draw.of(&[byte.wrapping_add(1), byte.wrapping_sub(1), 0, 255, any]);
}

fn one_byte(draw: &mut Draw) -> Vec<u8> {
    let mut file = good(draw);
    let at = draw.position(file.len());
    change(draw, &mut file[at]);
    file
}

fn two_bytes(draw: &mut Draw) -> Vec<u8> {
    let mut file = one_byte(draw);
    let at = draw.position(file.len());
    change(draw, &mut file[at]);
    file
}

fn one_bit(draw: &mut Draw) -> Vec<u8> {
    let mut file = good(draw);
    let at = draw.position(file.len());
    file[at] ^= 1 << draw.between(0, 7);
    file
}

/// A wrong mark, version, count or length, or up to three of these, so that their order counts.
fn wrong_head(draw: &mut Draw) -> Vec<u8> {
    let mut file = good(draw);
    let count = ((file.len() - HEAD) / BYTES_A_TRAIN) as u16;
    // the last of them asks for the same length in 16 bits
    let counts = [0, 1, count - 1, count + 1, count << 8, 64, 65, 256, u16::MAX, count + 8_192];
    let mut length = file.len();
    for _ in 0..draw.between(1, 3) {
        match draw.between(0, 3) {
            0 => file[draw.position(3)] = draw.of(b"STst\0\x54\xD4"),
            1 => file[3..5].copy_from_slice(&draw.of(&[0u16, 2, 255, 256, 257, u16::MAX]).to_be_bytes()),
            2 => file[5..HEAD].copy_from_slice(&draw.of(&counts).to_be_bytes()),
            _ => length = draw.of(&[HEAD, length - 1, length + 1, length + BYTES_A_TRAIN]),
        }
    }
    file.resize(length.min(LONGEST_FILE), 1);
    file
}

/// Another count, with the length that it asks for.
fn fitted(draw: &mut Draw) -> Vec<u8> {
    let mut file = good(draw);
    let count = draw.between(0, 9) as u16;
    file[5..HEAD].copy_from_slice(&count.to_be_bytes());
    let filling = draw.of(&[0, 1, 255]);
    file.resize(HEAD + usize::from(count) * BYTES_A_TRAIN, filling);
    file
}

// ---- files with faults in their trains

/// Gives a train a fault that mostly deserves the refusal of that number, if no other comes before it.
pub fn harm(draw: &mut Draw, train: &mut [u32], number: u32) {
    match number {
        2 => train[draw.of(&[1, 3, 5])] = 0,
        // as 0/1, or as 0/m, which is not in lowest terms either
        3 => {
            let time = draw.of(&[2, 4]);
            train[time] = 0;
            train[time + 1] = draw.of(&[1, 1, train[time + 1]]);
        }
        4 => lengthen(draw, train),
        _ => {
            let time = draw.of(&[0, 2, 4]);
            let most = LARGEST / u64::from(train[time].max(train[time + 1]).max(1));
            let furthest = draw.of(&[2, 3, 60, LARGEST]);
            let factor = draw.between(2.min(most), furthest.min(most)) as u32;
            train[time] *= factor;
            train[time + 1] *= factor;
        }
    }
}

/// Lets the duration be above the period by as little as can be: by one of its parts, or by so little that floats of
/// 64 bits do not tell them apart.
fn lengthen(draw: &mut Draw, train: &mut [u32]) {
    if draw.once_in(3) {
        let n = u32::MAX - draw.between(0, 1_000) as u32;
        train[2..].copy_from_slice(&[n, n - 1, n - 1, n - 2]);
    } else {
        let duration = lowest(Time { numerator: train[2].saturating_add(1), denominator: train[3] });
        train[4..].copy_from_slice(&[duration.numerator, duration.denominator]);
    }
}

/// A file with some faults, in the one train or in any; the numbers are of the refusals that they mostly deserve.
fn harmed(draw: &mut Draw, numbers: &[u32], is_one_train: bool) -> Vec<u8> {
    let mut row = lowest_row(draw);
    let trains = row.len() / NUMBERS_A_TRAIN;
    let favourite = draw.position(trains);
    for number in numbers {
        let at = if is_one_train { favourite } else { draw.position(trains) };
        harm(draw, &mut row[at * NUMBERS_A_TRAIN..][..NUMBERS_A_TRAIN], *number);
    }
    packed(&row)
}

fn not_lowest(draw: &mut Draw) -> Vec<u8> {
    harmed(draw, &[12], true)
}

fn no_denominator(draw: &mut Draw) -> Vec<u8> {
    harmed(draw, &[2], true)
}

fn no_time(draw: &mut Draw) -> Vec<u8> {
    harmed(draw, &[3], true)
}

fn too_long(draw: &mut Draw) -> Vec<u8> {
    harmed(draw, &[4], true)
}

/// Two to four of the faults, in any order.
fn some_faults(draw: &mut Draw) -> Vec<u32> {
    (0..draw.between(2, 4)).map(|_| draw.of(&[2, 3, 4, 12, 12])).collect()
}

fn harmed_train(draw: &mut Draw) -> Vec<u8> {
    let numbers = some_faults(draw);
    harmed(draw, &numbers, true)
}

fn harmed_trains(draw: &mut Draw) -> Vec<u8> {
    let numbers = some_faults(draw);
    harmed(draw, &numbers, false)
}

// ---- files of any numbers

/// Any bytes behind a good head, or bytes that are mostly 0, so that the numbers are often small.
fn behind_a_head(draw: &mut Draw) -> Vec<u8> {
    let mut file = packed(&vec![0; NUMBERS_A_TRAIN * draw.between(1, 3) as usize]);
    let is_sparse = draw.once_in(2);
    for byte in &mut file[HEAD..] {
        if !is_sparse || draw.once_in(4) {
            *byte = any_byte(draw);
        }
    }
    file
}

fn small_numbers(draw: &mut Draw) -> Vec<u8> {
    let row = row_of_small_numbers(draw);
    packed(&row)
}

/// Not more than eight bytes, mostly those of the smallest file.
fn short(draw: &mut Draw) -> Vec<u8> {
    let mut file = packed(&[]);
    file.push(0);
    file.truncate(draw.between(0, 8) as usize);
    for byte in &mut file {
        if draw.once_in(8) {
            change(draw, byte);
        }
    }
    file
}
