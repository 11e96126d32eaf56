//! What the program `replay` has to print for a text: a line for each line of it. A call is a word and its numbers with
//! single spaces between them: `fresh C`, `admit D P D`, `withdraw P`, `step C`. Any other line is bad, and changes nothing.

use crate::dispatcher::{Call, Dispatcher};

/// A longer line is bad. Its newline is not counted, nor is the carriage return before it.
const LONGEST: usize = 80;

/// The printed lines. The dispatcher begins as after a fresh start at 0.
pub fn answers(text: &[u8]) -> String {
    let mut dispatcher = Dispatcher::fresh(0);
    let answer = |line| match read(line) {
        Some(call) => format!("{}\n", dispatcher.play(call)),
        None => "bad\n".to_string(),
    };
    lines(text).map(answer).collect()
}

/// What stands between newlines. Behind the last newline there is a line only where there is a byte.
fn lines(text: &[u8]) -> impl Iterator<Item = &[u8]> {
    text.split_inclusive(|byte| *byte == b'\n').map(|line| line.strip_suffix(b"\n").unwrap_or(line))
}

/// The call of a line, if it is one.
pub fn read(line: &[u8]) -> Option<Call> {
    let line = line.strip_suffix(b"\r").unwrap_or(line);
    if line.len() > LONGEST {
        return None;
    }
    let words: Vec<&[u8]> = line.split(|byte| *byte == b' ').collect();
    match words[..] {
        [b"fresh", count] => Some(Call::Fresh(number(count)?)),
        [b"admit", delay, period, duration] => Some(Call::Admit(number(delay)?, number(period)?, number(duration)?)),
        [b"withdraw", place] => Some(Call::Withdraw(number(place)?)),
        [b"step", count] => Some(Call::Step(number(count)?)),
        _ => None,
    }
}

/// A number of 32 bits in decimal digits, at least one; zeros before it say nothing.
fn number(word: &[u8]) -> Option<u32> {
    if word.is_empty() || !word.iter().all(u8::is_ascii_digit) {
        return None;
    }
    let zeros = word.iter().take_while(|digit| **digit == b'0').count();
    match &word[zeros..] {
        [] => Some(0),
        digits => std::str::from_utf8(digits).ok()?.parse().ok(),
    }
}
