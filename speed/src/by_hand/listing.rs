//! Importing a listing and exporting one. An import walks over the text twice, since all records come before the first number
//! that is written; an export measures its text first, but where the buffer is long enough for any.

use super::line::{digits, put_decimal};
use super::numbers::Fraction;
use super::verdict::{check, entries, Entry, CAPACITY, NUMBERS};
use super::{handed, header, Refusal};

const LONGEST_TEXT: usize = header::LONGEST_TEXT as usize;
const LONGEST_EXPORT: usize = header::LONGEST_EXPORT as usize;
const HEADING: &[u8] = b"phase,period,duration\r\n";

/// What is left of a text. Its calls take what they look for from the front, and answer nothing where it does not stand there.
#[derive(Clone, Copy)]
struct Rest<'a>(&'a [u8]);

impl Rest<'_> {
    fn word(&mut self, word: &[u8]) -> Option<()> {
        self.0 = self.0.strip_prefix(word)?;
        Some(())
    }

    fn number(&mut self) -> Option<u32> {
        let mut number = 0;
        let mut digits = 0;
        for digit in self.0.iter().take_while(|byte| byte.is_ascii_digit()) {
            number = number * 10 + u64::from(digit - b'0');
            if number > u32::MAX.into() {
                return None;
            }
            digits += 1;
        }
        self.0 = &self.0[digits..];
        (digits > 0).then_some(number as u32)
    }

    fn time(&mut self) -> Option<Fraction> {
        let numerator = self.number()?;
        let denominator = match self.word(b"/") {
            Some(()) => self.number().filter(|&denominator| denominator != 0)?,
            None => 1,
        };
        Some(Fraction { numerator, denominator })
    }

    /// A time, or where there is no digit a blank one.
    fn phase(&mut self) -> Option<Fraction> {
        match self.0 {
            [b'0'..=b'9', ..] => self.time(),
            _ => Some(Fraction { numerator: 0, denominator: 1 }),
        }
    }

    /// A field that the call reads, in quotes or without.
    fn field<T>(&mut self, read: impl FnOnce(&mut Self) -> Option<T>) -> Option<T> {
        if self.word(b"\"").is_none() {
            return read(self);
        }
        let value = read(self)?;
        self.word(b"\"")?;
        Some(value)
    }

    fn end(&mut self) -> Option<()> {
        match self.0 {
            [] => Some(()),
            _ => self.word(b"\r\n"),
        }
    }

    fn heading(&mut self) -> Option<()> {
        self.field(|rest| rest.word(b"phase"))?;
        self.word(b",")?;
        self.field(|rest| rest.word(b"period"))?;
        self.word(b",")?;
        self.field(|rest| rest.word(b"duration"))?;
        self.end()
    }

    fn entry(&mut self) -> Option<Entry> {
        let phase = self.field(Self::phase)?;
        self.word(b",")?;
        let period = self.field(Self::time)?;
        self.word(b",")?;
        let duration = self.field(Self::time)?;
        self.end()?;
        Some(Entry { phase, period, duration })
    }
}

/// The count of the records behind the heading, which are all good, and the first refusal of a train.
fn trains(mut rest: Rest) -> Result<(usize, Result<(), Refusal>), Refusal> {
    let mut count = 0;
    let mut first = Ok(());
    while !rest.0.is_empty() {
        let entry = rest.entry().ok_or(Refusal::of(header::REFUSAL_BAD_RECORD, count + 2))?;
        first = first.and_then(|()| entry.check(count));
        count += 1;
    }
    Ok((count, first))
}

fn numbers(entry: Entry) -> [u32; NUMBERS] {
    let [phase, period, duration] = entry.times().map(Fraction::lowest);
    [phase.numerator, phase.denominator, period.numerator, period.denominator, duration.numerator, duration.denominator]
}

fn imported(text: &[u8], row: &mut [u32]) -> Result<usize, Refusal> {
    if text.len() > LONGEST_TEXT {
        return Err(Refusal::TEXT_TOO_LONG);
    }
    let mut rest = Rest(text);
    rest.heading().ok_or(Refusal::of(header::REFUSAL_BAD_RECORD, 1))?;
    let (count, first) = trains(rest)?;
    if count > CAPACITY {
        return Err(Refusal::TRAIN_COUNT);
    }
    first?;
    let row = row.get_mut(..count * NUMBERS).ok_or(Refusal::BUFFER_TOO_SHORT)?;
    for train in row.as_chunks_mut().0 {
        *train = numbers(rest.entry().expect("all records are good"));
    }
    Ok(count)
}

#[inline(never)]
pub fn import(text: &[u8], row: &mut [u32]) -> u64 {
    handed(imported(text, row))
}

/// The bytes of a time in lowest terms.
fn time_length(time: Fraction) -> usize {
    match time.denominator {
        1 => digits(time.numerator.into()),
        denominator => digits(time.numerator.into()) + 1 + digits(denominator.into()),
    }
}

fn length(row: &[u32]) -> usize {
    let times = entries(row).flat_map(|entry| entry.times().map(Fraction::lowest));
    // behind each three times there are two commas and an end of two bytes
    HEADING.len() + times.map(time_length).sum::<usize>() + row.len() / NUMBERS * 4
}

fn put(text: &mut [u8], at: usize, bytes: &[u8]) -> usize {
    let end = at + bytes.len();
    text[at..end].copy_from_slice(bytes);
    end
}

fn put_number(text: &mut [u8], at: usize, number: u32) -> usize {
    let end = at + digits(number.into());
    put_decimal(&mut text[at..end], number.into());
    end
}

fn put_time(text: &mut [u8], at: usize, time: Fraction) -> usize {
    let end = put_number(text, at, time.numerator);
    match time.denominator {
        1 => end,
        denominator => {
            let end = put(text, end, b"/");
            put_number(text, end, denominator)
        }
    }
}

fn exported(row: &[u32], text: &mut [u8]) -> Result<usize, Refusal> {
    check(row)?;
    if text.len() < LONGEST_EXPORT && text.len() < length(row) {
        return Err(Refusal::BUFFER_TOO_SHORT);
    }
    let mut at = put(text, 0, HEADING);
    for entry in entries(row) {
        at = put_time(text, at, entry.phase.lowest());
        at = put(text, at, b",");
        at = put_time(text, at, entry.period.lowest());
        at = put(text, at, b",");
        at = put_time(text, at, entry.duration.lowest());
        at = put(text, at, b"\r\n");
    }
    Ok(at)
}

#[inline(never)]
pub fn export(row: &[u32], text: &mut [u8]) -> u64 {
    handed(exported(row, text))
}
