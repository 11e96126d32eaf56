//! The printed line of the verdict on a row: its length first, so that a buffer that is too short stays as it is.

use super::verdict::verdict;
use super::{handed, Refusal};

pub fn digits(mut n: u64) -> usize {
    let mut digits = 1;
    while n >= 10 {
        n /= 10;
        digits += 1;
    }
    digits
}

/// Writes the digits of n so that they end where `out` ends, and hands back what is in front of them.
pub fn put_decimal(out: &mut [u8], mut n: u64) -> &mut [u8] {
    let mut at = out.len();
    loop {
        at -= 1;
        out[at] = b'0' + (n % 10) as u8;
        n /= 10;
        if n == 0 {
            return &mut out[..at];
        }
    }
}

/// Writes a word, the numbers with a space before each, and a newline.
fn put(text: &mut [u8], word: &[u8], numbers: &[u64]) -> Result<usize, Refusal> {
    let length = word.len() + numbers.iter().map(|&n| 1 + digits(n)).sum::<usize>() + 1;
    let text = text.get_mut(..length).ok_or(Refusal::BUFFER_TOO_SHORT)?;
    let (newline, mut rest) = text.split_last_mut().expect("a line has a newline");
    *newline = b'\n';
    for &n in numbers.iter().rev() {
        let (space, before) = put_decimal(rest, n).split_last_mut().expect("a number has a space before it");
        *space = b' ';
        rest = before;
    }
    rest.copy_from_slice(word);
    Ok(length)
}

fn written(row: &[u32], text: &mut [u8]) -> Result<usize, Refusal> {
    let verdict = match verdict(row) {
        Err(refusal) => return put(text, b"refuse", &[refusal.number.into(), refusal.place.into()]),
        Ok(verdict) => verdict,
    };
    let (multiple, divisions) = (verdict.multiple.into(), verdict.divisions.into());
    match verdict.meeting {
        None => put(text, b"accept", &[multiple, divisions]),
        Some(meeting) => {
            let numbers = [meeting.first as u64, meeting.second as u64, meeting.tick, multiple, divisions];
            put(text, b"collide", &numbers)
        }
    }
}

#[inline(never)]
pub fn line(row: &[u32], text: &mut [u8]) -> u64 {
    handed(written(row, text))
}
