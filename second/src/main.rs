//! The second program: the paper's answers by other means than the proved crates, to compare with what they answer.
//! It shares no code with the crates; only `compare` calls them. Its usage text says what each command does.

mod compare;
mod damaged;
mod dispatcher;
mod divisors;
mod draw;
mod far;
mod files;
mod library;
mod listing;
mod listings;
mod paper;
mod records;
mod replay;
mod rows;
mod scripts;
mod settled;
mod sheet;
mod states;
mod stored;
mod sweeps;
mod tables;
mod texts;
mod timetable;
mod trains;
mod wrap;

use std::io::{stdout, BufWriter, Result, Write};
use std::process::ExitCode;

const USAGE: &str = "\
usage: second compare SEED CASES
                                 compares the proved library with the second program on so many cases drawn from
                                 the seed: verdicts on rows, saves, loads and verdicts on files, imports and
                                 exports of listings, calls of a dispatcher, and calls on words that no calls need
                                 have led to; the first difference is shown with its case, and the exit status is
                                 then 1
       second listings SEED CASES
                                 the same for imports and exports of listings alone
       second far SEED SCENES    steps dispatchers of the library, for twelve to twenty-one million steps in each of so
                                 many scenes drawn from the seed, and compares each step: delays and periods up to ten
                                 million ticks, the wrap of the count, withdrawals and admissions in between; in
                                 eight scenes there is one of each shape
       second sheet              the lines of the tables of the bench sheet, in order
       second damaged PROGRAM FILE..
                                 compares what the program `verdict`, which is at PROGRAM, prints for each
                                 stored table, for every beginning of it, and for it with other bytes
       second script SEED CALLS  a text of calls of a dispatcher drawn from the seed, with bad lines among them, for
                                 the program `replay`
       second script-lines SEED CALLS
                                 what the program `replay` has to print for it
       second wrap-script        a text of calls across the wrap of the count, written out, for the program `replay`
       second wrap-lines         what it has to print for it
";

fn main() -> ExitCode {
    let words: Vec<String> = std::env::args().skip(1).collect();
    let words: Vec<&str> = words.iter().map(String::as_str).collect();
    let mut out = BufWriter::new(stdout().lock());
    match run(&words, &mut out) {
        None => {
            eprint!("{USAGE}");
            ExitCode::from(2)
        }
        Some(done) => {
            // what was written before a difference is shown too
            let flushed = out.flush();
            match done.and(flushed) {
                Ok(()) => ExitCode::SUCCESS,
                Err(error) => {
                    eprintln!("second: {error}");
                    ExitCode::FAILURE
                }
            }
        }
    }
}

/// Does what the words ask for; nothing where they are no command.
fn run(words: &[&str], out: &mut impl Write) -> Option<Result<()>> {
    match words {
        ["sheet"] => Some(sheet::rows().try_for_each(|row| out.write_all(tables::verdict(&row).line().as_bytes()))),
        ["damaged", program, files @ ..] if !files.is_empty() => {
            Some(damaged::compare(program, files).and_then(|said| out.write_all(said.as_bytes())))
        }
        ["wrap-script"] => Some(out.write_all(&wrap::text())),
        ["wrap-lines"] => Some(out.write_all(replay::answers(&wrap::text()).as_bytes())),
        [command, seed, number] => drawn(command, seed.parse().ok()?, number.parse().ok()?, out),
        _ => None,
    }
}

/// The commands on what is drawn from a seed.
fn drawn(command: &str, seed: u64, number: u64, out: &mut impl Write) -> Option<Result<()>> {
    match command {
        "compare" => Some(compare::compare(seed, number, out)),
        "listings" => Some(compare::listings(seed, number, out)),
        "far" => Some(compare::far::compare(seed, number, out)),
        "script" => Some(out.write_all(&texts::drawn(seed, number))),
        "script-lines" => Some(out.write_all(replay::answers(&texts::drawn(seed, number)).as_bytes())),
        _ => None,
    }
}
