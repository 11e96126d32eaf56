//! Saving a row as a stored table, loading one, and the verdict on one.

use super::numbers::Fraction;
use super::verdict::{check, hand, verdict, Entry, CAPACITY, NUMBERS};
use super::{handed, header, Refusal};
use crate::proved::Figures;

const MARK: &[u8; 3] = b"STT";
const VERSION: u16 = 1;
const HEAD: usize = 7;
const RECORD: usize = 4 * NUMBERS;

fn put_time(out: &mut [[u8; 4]; 2], time: Fraction) {
    let lowest = time.lowest();
    *out = [lowest.numerator.to_be_bytes(), lowest.denominator.to_be_bytes()];
}

fn saved(row: &[u32], out: &mut [u8]) -> Result<usize, Refusal> {
    check(row)?;
    let count = row.len() / NUMBERS;
    let end = HEAD + count * RECORD;
    let out = out.get_mut(..end).ok_or(Refusal::BUFFER_TOO_SHORT)?;
    let (head, records) = out.split_at_mut(HEAD);
    head[..3].copy_from_slice(MARK);
    head[3..5].copy_from_slice(&VERSION.to_be_bytes());
    head[5..7].copy_from_slice(&(count as u16).to_be_bytes());
    let times = records.as_chunks_mut().0.as_chunks_mut().0;
    for (&[numerator, denominator], time) in row.as_chunks().0.iter().zip(times) {
        put_time(time, Fraction { numerator, denominator });
    }
    Ok(end)
}

#[inline(never)]
pub fn save(row: &[u32], out: &mut [u8]) -> u64 {
    handed(saved(row, out))
}

/// A record: six numbers of four bytes.
type Record = [[u8; 4]; NUMBERS];

fn get_time(numerator: [u8; 4], denominator: [u8; 4]) -> Fraction {
    Fraction { numerator: u32::from_be_bytes(numerator), denominator: u32::from_be_bytes(denominator) }
}

fn get_entry(&[a, b, c, d, e, f]: &Record) -> Entry {
    Entry { phase: get_time(a, b), period: get_time(c, d), duration: get_time(e, f) }
}

/// The records of a file whose head is in order.
fn records(bytes: &[u8]) -> Result<&[Record], Refusal> {
    let Some((&[s, t, u, version_high, version_low, count_high, count_low], rest)) = bytes.split_first_chunk::<HEAD>()
    else {
        return Err(Refusal::WRONG_LENGTH);
    };
    if [s, t, u] != *MARK {
        return Err(Refusal::WRONG_MARK);
    }
    if u16::from_be_bytes([version_high, version_low]) != VERSION {
        return Err(Refusal::WRONG_VERSION);
    }
    let count = usize::from(u16::from_be_bytes([count_high, count_low]));
    if count > CAPACITY {
        return Err(Refusal::TRAIN_COUNT);
    }
    if rest.len() != count * RECORD {
        return Err(Refusal::WRONG_LENGTH);
    }
    Ok(rest.as_chunks().0.as_chunks().0)
}

/// The train at a position of a file: each time 2 and 12, then 3 and 4.
fn check_record(entry: Entry, position: usize) -> Result<(), Refusal> {
    for time in entry.times() {
        if time.denominator == 0 {
            return Err(Refusal::of(header::REFUSAL_ZERO_DENOMINATOR, position));
        }
        if !time.is_lowest() {
            return Err(Refusal::of(header::REFUSAL_NOT_LOWEST_TERMS, position));
        }
    }
    entry.check(position)
}

fn loaded(bytes: &[u8], row: &mut [u32]) -> Result<usize, Refusal> {
    let records = records(bytes)?;
    for (position, record) in records.iter().enumerate() {
        check_record(get_entry(record), position)?;
    }
    let row = row.get_mut(..records.len() * NUMBERS).ok_or(Refusal::BUFFER_TOO_SHORT)?;
    for (number, bytes) in row.iter_mut().zip(records.as_flattened()) {
        *number = u32::from_be_bytes(*bytes);
    }
    Ok(records.len())
}

#[inline(never)]
pub fn load(bytes: &[u8], row: &mut [u32]) -> u64 {
    handed(loaded(bytes, row))
}

#[inline(never)]
pub fn judge_stored(bytes: &[u8], figures: &mut Figures) -> u64 {
    let mut row = [0; NUMBERS * CAPACITY];
    let verdict = loaded(bytes, &mut row).and_then(|count| verdict(&row[..count * NUMBERS]));
    hand(verdict, figures)
}
