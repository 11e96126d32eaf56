//! Listings, from the words of RFC 4180 and of the request. An automaton, which is a table, walks over the whole text and cuts
//! it into records of values; only then is a value asked what it says. Numbers are compared as words, and written by `format!`.

use crate::paper::{LONGEST_TEXT, MOST_TRAINS, NO_TRAIN, NUMBERS_A_TRAIN};
use crate::stored::{in_lowest_terms, trains, Refused};
use crate::tables::{fault, times, Time};

/// The values of the first record.
pub const HEADING: [&str; 3] = ["phase", "period", "duration"];

/// The bytes of the longest text that is written: the heading, and of each train six numbers of ten digits, three slashes, two
/// commas and the end.
pub const LONGEST_EXPORT: usize = "phase,period,duration\r\n".len() + MOST_TRAINS * (6 * 10 + 3 + 2 + 2);

/// The row of a listing, if it fits into so many numbers. Every question is asked, and the first refusal is answered.
pub fn import(text: &[u8], room: usize) -> Result<Vec<u32>, Refused> {
    let listed = listed(text);
    let table = &listed.trains;
    let of_text = (text.len() > LONGEST_TEXT).then_some((7, NO_TRAIN));
    let of_record = listed.bad.map(|number| (18, number));
    let of_count = (table.len() > MOST_TRAINS).then_some((1, NO_TRAIN));
    let of_trains = table.iter().enumerate().filter_map(|(at, train)| Some((fault(train)?, at)));
    let of_room = (room < table.len() * NUMBERS_A_TRAIN).then_some((8, NO_TRAIN));
    let mut in_order = of_text.into_iter().chain(of_record).chain(of_count).chain(of_trains).chain(of_room);
    match in_order.next() {
        Some(refused) => Err(refused),
        None => Ok(in_lowest_terms(table)),
    }
}

/// The listing of a row, if it fits into so many bytes.
pub fn export(row: &[u32], room: usize) -> Result<Vec<u8>, Refused> {
    let lowest = in_lowest_terms(&trains(row)?);
    let records = lowest.chunks_exact(NUMBERS_A_TRAIN).map(|numbers| times(numbers).map(written));
    let records = std::iter::once(HEADING.map(String::from)).chain(records);
    let text: String = records.map(|[phase, period, duration]| format!("{phase},{period},{duration}\r\n")).collect();
    match room < text.len() {
        true => Err((8, NO_TRAIN)),
        false => Ok(text.into_bytes()),
    }
}

/// A time as it is exported.
fn written(time: Time) -> String {
    match time {
        Time { numerator, denominator: 1 } => format!("{numerator}"),
        Time { numerator, denominator } => format!("{numerator}/{denominator}"),
    }
}

/// What a text lists.
pub struct Listed {
    /// The trains of the good records.
    pub trains: Vec<[Time; 3]>,
    /// The number of the first record that is not good, the heading being 1.
    pub bad: Option<usize>,
}

pub fn listed(text: &[u8]) -> Listed {
    let Cut { records, is_broken } = cut(text);
    // the record in which the grammar breaks is the one behind those that end before
    let broken = is_broken.then_some(records.len() + 1);
    let is_heading = records.first().is_some_and(|values| *values == HEADING);
    let no_heading = (!records.is_empty() && !is_heading).then_some(1);
    let said: Vec<Option<[Time; 3]>> = records.iter().skip(1).map(|values| train(values)).collect();
    let unsaid = said.iter().position(Option::is_none).map(|at| at + 2);
    Listed { trains: said.into_iter().flatten().collect(), bad: no_heading.or(unsaid).or(broken) }
}

// ---- what values say

/// Three times, of which the phase may be blank.
fn train(values: &[String]) -> Option<[Time; 3]> {
    let [phase, period, duration] = values else { return None };
    let phase = if phase.is_empty() { "0" } else { phase };
    Some([time(phase)?, time(period)?, time(duration)?])
}

fn time(value: &str) -> Option<Time> {
    let numbers: Vec<Option<u32>> = value.split('/').map(number).collect();
    match numbers[..] {
        [Some(numerator)] => Some(Time { numerator, denominator: 1 }),
        [Some(numerator), Some(denominator)] if denominator > 0 => Some(Time { numerator, denominator }),
        _ => None,
    }
}

/// A number of 32 bits. Without the zeros before it the longer of two numbers is the larger, and of two that are as long the one
/// that comes later in a dictionary.
fn number(digits: &str) -> Option<u32> {
    if digits.is_empty() || digits.contains(|character: char| !character.is_ascii_digit()) {
        return None;
    }
    let largest = u32::MAX.to_string();
    let digits = digits.trim_start_matches('0');
    let is_too_large = (digits.len(), digits) > (largest.len(), &largest);
    (!is_too_large).then(|| digits.bytes().fold(0u128, |number, digit| number * 10 + u128::from(digit - b'0')) as u32)
}

// ---- the automaton

/// What a byte is in the grammar.
#[derive(Clone, Copy)]
enum Class {
    Quote,
    Comma,
    Return,
    Newline,
    /// TEXTDATA: %x20-21 / %x23-2B / %x2D-7E.
    Text,
    /// A byte that stands in no field.
    Other,
}

fn class(byte: u8) -> Class {
    match byte {
        0x22 => Class::Quote,
        0x2C => Class::Comma,
        0x0D => Class::Return,
        0x0A => Class::Newline,
        0x20..=0x7E => Class::Text,
        _ => Class::Other,
    }
}

/// What was read.
#[derive(Clone, Copy)]
enum State {
    /// Nothing of a record.
    Record,
    /// A comma, and nothing of the field behind it.
    Field,
    /// Something of a field without quotes.
    Plain,
    /// A quote, and something of the field behind it.
    Quoted,
    /// In a quoted field a quote: its end, or the first of two.
    Closing,
    /// A field and a carriage return.
    Returned,
}

/// What a byte does to the field, and what was read then.
#[derive(Clone, Copy)]
enum Step {
    Keep(State),
    Pass(State),
    EndField(State),
    EndRecord(State),
    Break,
}

/// For each state, and in it for each class of bytes.
const STEPS: [[Step; 6]; 6] = {
    use State::*;
    use Step::*;
    [
        // Quote, Comma, Return, Newline, Text, Other
        [Pass(Quoted), EndField(Field), Pass(Returned), Break, Keep(Plain), Break],
        [Pass(Quoted), EndField(Field), Pass(Returned), Break, Keep(Plain), Break],
        [Break, EndField(Field), Pass(Returned), Break, Keep(Plain), Break],
        [Pass(Closing), Keep(Quoted), Keep(Quoted), Keep(Quoted), Keep(Quoted), Break],
        [Keep(Quoted), EndField(Field), Pass(Returned), Break, Break, Break],
        [Break, Break, Break, EndRecord(Record), Break, Break],
    ]
};

/// A text in records of values, as far as it is one.
struct Cut {
    records: Vec<Vec<String>>,
    /// Whether the text goes on, or ends, where no record does.
    is_broken: bool,
}

fn cut(text: &[u8]) -> Cut {
    let mut records = Vec::new();
    let mut values = Vec::new();
    let mut value = String::new();
    let mut state = State::Record;
    for byte in text {
        state = match STEPS[state as usize][class(*byte) as usize] {
            Step::Break => return Cut { records, is_broken: true },
            Step::Keep(next) => {
                value.push(char::from(*byte));
                next
            }
            Step::Pass(next) => next,
            Step::EndField(next) => {
                values.push(std::mem::take(&mut value));
                next
            }
            Step::EndRecord(next) => {
                values.push(std::mem::take(&mut value));
                records.push(std::mem::take(&mut values));
                next
            }
        };
    }
    match state {
        State::Quoted | State::Returned => return Cut { records, is_broken: true },
        // behind the last end of a record there is no further one
        State::Record if !records.is_empty() => {}
        _ => {
            values.push(value);
            records.push(values);
        }
    }
    Cut { records, is_broken: false }
}
