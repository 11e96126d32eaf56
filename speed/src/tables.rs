//! Verdicts, lines, saves and loads: the proved call beside the same algorithm by hand, on the same row or file.

use crate::clock::{calls, race};
use crate::data::{self, BYTE, FIGURE, NUMBER};
use crate::floor::Measured;
use crate::print;
use crate::proved::{header, value, Figures, DIVISIONS, FIGURES};
use crate::{by_hand, proved};
use std::fmt::Debug;
use std::hint::black_box;

/// A call that judges, and one that writes to lent memory. The compiler sees which one it is, so that no call goes by a pointer.
trait Judge<T>: Fn(&[T], &mut Figures) -> u64 {}
trait Write<T, U>: Fn(&[T], &mut [U]) -> u64 {}

impl<T, F: Fn(&[T], &mut Figures) -> u64> Judge<T> for F {}
impl<T, U, F: Fn(&[T], &mut [U]) -> u64> Write<T, U> for F {}

const LONGEST_STORED: usize = header::LONGEST_STORED as usize;
const LONGEST_ROW: usize = header::LONGEST_ROW as usize;
const LONGEST_LINE: usize = header::LONGEST_LINE as usize;
const LONGEST_EXPORT: usize = header::LONGEST_EXPORT as usize;

/// One call of a judge, with all that it leaves in the figures.
fn figures_of<T>(judge: impl Judge<T>, input: &[T]) -> (u64, Figures) {
    let mut figures = [FIGURE; FIGURES];
    (judge(input, &mut figures), figures)
}

/// A batch of verdicts.
fn verdicts<'a, T>(judge: impl Judge<T> + 'a, input: &'a [T]) -> impl FnMut(u64) -> u64 + 'a {
    let mut figures = [FIGURE; FIGURES];
    calls(move || {
        let answer = judge(black_box(input), &mut figures);
        answer.wrapping_add(black_box(&figures)[DIVISIONS])
    })
}

/// A batch of calls that write to lent memory.
fn writes<'a, T, U: Copy + 'a>(
    write: impl Write<T, U> + 'a,
    input: &'a [T],
    fill: U,
    room: usize,
) -> impl FnMut(u64) -> u64 + 'a {
    let mut lent = vec![fill; room];
    calls(move || {
        let answer = write(black_box(input), black_box(&mut lent));
        black_box(&lent);
        answer
    })
}

fn print_pair(name: &str, [proved, by_hand]: [f64; 2]) {
    print::row(name, &[print::time(proved), print::time(by_hand), print::ratio(proved, by_hand)]);
}

/// Measures a verdict on a row, and prints its line.
fn verdict(name: &'static str, row: Vec<u32>) -> Measured {
    let expected = figures_of(proved::judge, &row);
    assert_eq!(expected, figures_of(by_hand::judge, &row), "{name}");
    let [proved, by_hand] = race([&mut verdicts(proved::judge, &row), &mut verdicts(by_hand::judge, &row)]);
    print_pair(name, [proved, by_hand]);
    Measured { name, row, counted: expected.1[DIVISIONS], proved }
}

fn verdict_stored(name: &str, bytes: &[u8]) {
    assert_eq!(figures_of(proved::judge_stored, bytes), figures_of(by_hand::judge_stored, bytes), "{name}");
    print_pair(name, race([&mut verdicts(proved::judge_stored, bytes), &mut verdicts(by_hand::judge_stored, bytes)]));
}

/// One call that writes to lent memory, with all that it leaves there.
fn left_by<T, U: Copy>(write: impl Write<T, U>, input: &[T], fill: U, room: usize) -> (u64, Vec<U>) {
    let mut lent = vec![fill; room];
    (write(input, &mut lent), lent)
}

/// Measures two calls that write to lent memory, and prints their line.
fn written<T, U: Copy + PartialEq + Debug>(
    name: &str,
    (proved, by_hand): (impl Write<T, U> + Copy, impl Write<T, U> + Copy),
    input: &[T],
    (fill, room): (U, usize),
) {
    assert_eq!(left_by(proved, input, fill, room), left_by(by_hand, input, fill, room), "{name}");
    print_pair(name, race([&mut writes(proved, input, fill, room), &mut writes(by_hand, input, fill, room)]));
}

fn line(name: &str, row: &[u32]) {
    written(name, (proved::line, by_hand::line), row, (BYTE, LONGEST_LINE));
}

fn save(name: &str, row: &[u32]) {
    written(name, (proved::save, by_hand::save), row, (BYTE, LONGEST_STORED));
}

fn load(name: &str, bytes: &[u8]) {
    written(name, (proved::load, by_hand::load), bytes, (NUMBER, LONGEST_ROW));
}

fn import(name: &str, text: &[u8]) {
    written(name, (proved::import, by_hand::import), text, (NUMBER, LONGEST_ROW));
}

fn export(name: &str, row: &[u32], room: usize) {
    written(name, (proved::export, by_hand::export), row, (BYTE, room));
}

/// The stored table of a row.
fn stored(row: &[u32]) -> Vec<u8> {
    let mut bytes = vec![BYTE; LONGEST_STORED];
    let length = value(proved::save(row, &mut bytes), header::DONE);
    bytes.truncate(length);
    bytes
}

/// The listing of a row.
fn listing(row: &[u32]) -> Vec<u8> {
    let mut text = vec![BYTE; LONGEST_EXPORT];
    let length = value(proved::export(row, &mut text), header::DONE);
    text.truncate(length);
    text
}

const COLUMNS: [&str; 3] = ["proved", "Rust", "proved/Rust"];

/// Verdicts on rows; hands back those that are accepted after all pairs were compared.
pub fn on_rows() -> Vec<Measured> {
    print::title("verdict on a row, ns a call", &COLUMNS);
    let accepted = vec![
        verdict("accepted: 64 trains (i, 64, 1)", data::whole(&data::in_turn(&[64]))),
        verdict("accepted: the same in thirteenths, unreduced", data::thirteenths()),
        verdict("accepted: 64 trains, the most divisions that were found", data::whole(&data::found())),
        verdict("accepted: the same in ticks of 1/999983 ms", data::scaled(&data::found(), 1, data::PRIME)),
    ];
    verdict("accepted: the empty row", Vec::new());
    verdict("refused early: 64 trains, the first without a denominator", data::early_refusal());
    verdict("refused late: 64 trains, the last without a period", data::late_refusal());
    verdict("collide early: (0, 10, 5) (3, 10, 5)", data::early_collision());
    verdict("collide late: (0, 9227465, 1) (5, 5702887, 1)", data::late_collision());
    verdict("collide: 2 trains, the longest search for a common tick", data::longest_search());
    verdict("collide: the same at the end of 64 trains, the longest known", data::longest_known());
    accepted
}

/// Verdicts on stored tables, and printed lines.
pub fn on_files_and_lines() {
    print::title("verdict on a stored table, ns a call", &COLUMNS);
    verdict_stored("64 trains (i, 64, 1)", &stored(&data::whole(&data::in_turn(&[64]))));
    verdict_stored("64 trains in thirteenths", &stored(&data::thirteenths()));
    verdict_stored("64 trains, the most divisions that were found", &stored(&data::whole(&data::found())));
    verdict_stored("64 trains that collide, the longest known", &stored(&data::longest_known()));

    print::title("printed line of the verdict on a row, ns a call", &COLUMNS);
    let lines = [
        ("accepted: 64 trains (i, 64, 1)", data::whole(&data::in_turn(&[64]))),
        ("refused early", data::early_refusal()),
        ("collide early", data::early_collision()),
    ];
    for (name, row) in &lines {
        line(name, row);
    }
}

/// Saves and loads.
pub fn kept() {
    let rows = [
        ("64 trains (i, 64, 1)", data::whole(&data::in_turn(&[64]))),
        ("64 trains in thirteenths, unreduced before they are saved", data::thirteenths()),
        ("64 trains of Fibonacci's fractions, the most divisions", data::most_divisions_fractions()),
    ];
    print::title("save, ns a call", &COLUMNS);
    for (name, row) in &rows {
        save(name, row);
    }
    print::title("load, ns a call", &COLUMNS);
    for (name, row) in &rows {
        load(name, &stored(row));
    }
}

/// The listings that are imported.
fn imports() -> [(&'static str, Vec<u8>); 5] {
    let most_divisions = listing(&data::most_divisions_fractions());
    [
        ("64 trains (i, 64, 1)", listing(&data::whole(&data::in_turn(&[64])))),
        ("64 trains in thirteenths", listing(&data::thirteenths())),
        ("the longest text: 64 trains of Fibonacci's fractions behind zeros", data::longest_text(&most_divisions)),
        ("64 trains of Fibonacci's fractions, the most divisions", most_divisions),
        ("refused: 5457 trains, the most records", data::most_records()),
    ]
}

/// The rows that are exported, each to a buffer of so many bytes.
fn exports() -> [(&'static str, Vec<u32>, usize); 4] {
    let whole = data::whole(&data::in_turn(&[64]));
    let length = listing(&whole).len();
    [
        ("64 trains (i, 64, 1)", whole.clone(), LONGEST_EXPORT),
        ("the same in a buffer without a byte more", whole, length),
        ("64 trains in thirteenths, unreduced", data::thirteenths(), LONGEST_EXPORT),
        ("64 trains of Fibonacci's fractions, the most divisions", data::most_divisions_fractions(), LONGEST_EXPORT),
    ]
}

/// Imports and exports of listings.
pub fn listed() {
    print::title("import, ns a call", &COLUMNS);
    for (name, text) in &imports() {
        import(name, text);
    }
    print::title("export, ns a call", &COLUMNS);
    for (name, row, room) in &exports() {
        export(name, row, *room);
    }
}

/// So many calls of one side for one of these rows, counted from 0, the imports first; for whoever counts their instructions.
pub fn repeated(side: &str, number: usize, calls: u64) {
    let is_proved = side == "proved";
    let (imports, exports) = (imports(), exports());
    let (title, sum) = match imports.get(number) {
        Some((name, text)) if is_proved => (format!("import, {name}"), writes(proved::import, text, NUMBER, LONGEST_ROW)(calls)),
        Some((name, text)) => (format!("import, {name}"), writes(by_hand::import, text, NUMBER, LONGEST_ROW)(calls)),
        None => {
            let (name, row, room) = &exports[number - imports.len()];
            let batch = |calls| match is_proved {
                true => writes(proved::export, row, BYTE, *room)(calls),
                false => writes(by_hand::export, row, BYTE, *room)(calls),
            };
            (format!("export, {name}"), batch(calls))
        }
    };
    black_box(sum);
    println!("{title}");
}
