//! Runs the proved program `verdict` on stored tables that are damaged in every place, and compares what it prints with
//! what the second program makes of the same bytes.

use crate::files::hex;
use crate::stored::{line, MOST_JUDGED};
use std::io::{Error, ErrorKind, Result, Write};
use std::process::{ChildStdin, Command, Stdio};
use std::thread::sleep;
use std::time::Duration;

/// Between two bytes of an input that comes slowly: enough for a program that waits to read the one before.
const PAUSE: Duration = Duration::from_micros(50);

/// Lengths at the longest good file and at the most that is judged, and beyond.
const PADDED: [usize; 4] = [MOST_JUDGED - 1, MOST_JUDGED, MOST_JUDGED + 1, 2_000];

/// Compares the printed lines for all that is made of the files, and says how many there were.
pub fn compare(program: &str, files: &[&str]) -> Result<String> {
    let mut inputs = 0;
    for file in files {
        let file = std::fs::read(file)?;
        for input in damaged(&file) {
            agree(program, &input, false)?;
            inputs += 1;
        }
        for input in some(&file) {
            agree(program, &input, true)?;
            inputs += 1;
        }
    }
    Ok(format!("{inputs} inputs of {} files: no difference\n", files.len()))
}

/// The file itself; every beginning of it; it with another byte at each place; and it with further bytes.
fn damaged(file: &[u8]) -> impl Iterator<Item = Vec<u8>> + '_ {
    let beginnings = (0..=file.len()).rev().map(|length| file[..length].to_vec());
    let changed = (0..file.len()).flat_map(|at| other_bytes(file[at]).into_iter().map(move |byte| (at, byte)));
    let changed = changed.map(|(at, byte)| {
        let mut file = file.to_vec();
        file[at] = byte;
        file
    });
    let lengths = [file.len() + 1, file.len() + 3].into_iter().chain(PADDED);
    let padded = lengths.filter(|length| *length > file.len()).map(|length| padded(file, length));
    beginnings.chain(changed).chain(padded)
}

/// A few of them, for slow reading.
fn some(file: &[u8]) -> [Vec<u8>; 4] {
    let half = file[..file.len() / 2].to_vec();
    [file.to_vec(), half, padded(file, file.len() + 3), padded(file, (file.len() + 1).max(MOST_JUDGED + 1))]
}

fn padded(file: &[u8], length: usize) -> Vec<u8> {
    let mut file = file.to_vec();
    file.resize(length, 0);
    file
}

/// Values beside a byte, across from it and at the ends, without its own.
fn other_bytes(byte: u8) -> Vec<u8> {
    let mut others = vec![byte.wrapping_add(1), byte.wrapping_sub(1), byte ^ 0x80, 0, 255];
    others.sort();
    others.dedup();
    others.retain(|other| *other != byte);
    others
}

/// An error where the program prints another line for the input than the second one.
fn agree(program: &str, input: &[u8], is_slow: bool) -> Result<()> {
    let printed = printed(program, input, is_slow)?;
    let expected = line(input);
    if printed == expected {
        return Ok(());
    }
    let lines = format!("{program}: {printed}second: {}", expected.trim_end());
    Err(Error::other(format!("a difference on the input\n{}\n{lines}", hex(input))))
}

/// What the program prints for an input, and how it ended where it did not end by itself.
fn printed(program: &str, input: &[u8], is_slow: bool) -> Result<String> {
    let mut child = Command::new(program).stdin(Stdio::piped()).stdout(Stdio::piped()).spawn()?;
    let pipe = child.stdin.take().expect("the standard input is a pipe");
    match hand_over(pipe, input, is_slow) {
        // a program that has read all that it judges need not wait for the rest
        Err(error) if error.kind() != ErrorKind::BrokenPipe => return Err(error),
        _ => {}
    }
    let output = child.wait_with_output()?;
    let text = String::from_utf8_lossy(&output.stdout).into_owned();
    match output.status.code() {
        Some(_) => Ok(text),
        None => Ok(format!("{text}{}\n", output.status)),
    }
}

/// Writes the input, at once or byte by byte, and closes the pipe.
fn hand_over(mut pipe: ChildStdin, input: &[u8], is_slow: bool) -> Result<()> {
    if !is_slow {
        return pipe.write_all(input);
    }
    for byte in input {
        pipe.write_all(&[*byte])?;
        pipe.flush()?;
        sleep(PAUSE);
    }
    Ok(())
}
