//! Calls of a dispatcher written as a text for the program `replay`: drawn calls, now and then with zeros before their
//! numbers, a carriage return at the end or as many bytes as a line may have, and bad lines among them. What is printed for
//! a line is not settled here, but in `replay`.

use crate::dispatcher::Call;
use crate::draw::Draw;
use crate::replay;
use crate::scripts::Script;

/// A line is written in an odd way once in so many lines, and a bad line stands before it once in so many.
const ODD: u64 = 12;
const BAD: u64 = 25;

/// More bad lines than are ever drawn until one is bad, so that a wrong program does not go on for ever.
const TRIES: usize = 1_000;

/// The text of so many drawn calls; every other text has no newline at its end.
pub fn drawn(seed: u64, calls: u64) -> Vec<u8> {
    let draw = &mut Draw::beside(seed, calls);
    let mut text = Vec::new();
    for (call, _) in Script::new(seed).take(calls as usize) {
        if draw.once_in(BAD) {
            text.extend(bad(draw, call));
            text.extend(ending(draw));
        }
        text.extend(line(draw, call));
        text.extend(ending(draw));
    }
    if draw.once_in(2) {
        text.pop();
    }
    text
}

/// A newline, seldom with a carriage return before it.
fn ending(draw: &mut Draw) -> &'static [u8] {
    if draw.once_in(ODD) {
        b"\r\n"
    } else {
        b"\n"
    }
}

/// A call as a line, which is read as that call.
fn line(draw: &mut Draw, call: Call) -> Vec<u8> {
    let line = call.to_string();
    if !draw.once_in(ODD) {
        return line.into_bytes();
    }
    let wanted = draw.of(&[line.len() + 1, line.len() + 3, 79, 80, 80]);
    padded(draw, &line, wanted)
}

/// The line made so long with zeros before one of its numbers.
fn padded(draw: &mut Draw, line: &str, length: usize) -> Vec<u8> {
    let spaces: Vec<usize> = line.match_indices(' ').map(|(at, _)| at).collect();
    let (before, behind) = line.split_at(draw.of(&spaces) + 1);
    let zeros = "0".repeat(length.saturating_sub(line.len()));
    [before, &zeros, behind].concat().into_bytes()
}

/// A line that is no call, mostly because of one fault in a call.
fn bad(draw: &mut Draw, call: Call) -> Vec<u8> {
    let mut lines = (0..TRIES).map(|_| harmed(draw, call));
    lines.find(|line| replay::read(line).is_none()).expect("a bad line is drawn soon")
}

/// A call with a fault. It may still be a call.
fn harmed(draw: &mut Draw, call: Call) -> Vec<u8> {
    let good = call.to_string();
    let mut line = good.clone().into_bytes();
    let at = draw.position(line.len());
    match draw.between(0, 13) {
        0 => line[at] = draw.of(b" \t\r\0x0-+./:,;A\x7f\x80\xff"),
        1 => line.insert(at, draw.of(b" \t\r\0a0-+.'\"\xc2\xa0")),
        2 => {
            line.extend_from_slice(draw.of(&[" ", " 0", "0000000000", "\r", "\r\r", ".0", " fresh 0", "\0"]).as_bytes())
        }
        3 => line.truncate(at),
        4 => _ = line.remove(at),
        5 => line.insert(0, draw.of(b" \t\r\n0#")),
        6 => line = padded(draw, &good, draw_long(at)),
        7 => line = vec![b' '; at],
        8 => line = "0".repeat(draw.of(&[1, 80, 81, 500, 5_000])).into_bytes(),
        9 => line = too_large(draw, &good),
        10 => line.make_ascii_uppercase(),
        11 => {
            line =
                draw.of(&[&b""[..], b"\r", b"fresh", b"admit 0 8", b"admit 0 8 2 0", b"step", b"help", b"bad"]).to_vec()
        }
        12 => line = (0..at).map(|_| draw.any() as u8).filter(|byte| *byte != b'\n').collect(),
        _ => line.swap(at, 0),
    }
    line.retain(|byte| *byte != b'\n');
    line
}

/// A length beyond what a line may have.
fn draw_long(at: usize) -> usize {
    [81, 81, 82, 96, 161, 1_000][at % 6]
}

/// The last number of 32 bits or more, in one of the ways that come round to few bits.
fn too_large(draw: &mut Draw, line: &str) -> Vec<u8> {
    let (before, number) = line.rsplit_once(' ').expect("a call has a number");
    let number: u128 = number.parse().expect("its number is one");
    let beyond = draw.of(&[number + (1 << 32), number + (1 << 64), 1 << 32, 9_999_999_999, u128::MAX]);
    format!("{before} {beyond}").into_bytes()
}
