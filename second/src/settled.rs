//! Listings and rows with their answers, written out from the words of the request and of what was settled about it. Both
//! programs have to answer so.

use crate::listing::LONGEST_EXPORT;
use crate::paper::{LONGEST_TEXT, MOST_NUMBERS, NO_TRAIN, NUMBERS_A_TRAIN};
use crate::stored::Refused;

/// A text, the room for its row, and the answer.
pub type Import = (Vec<u8>, usize, Result<Vec<u32>, Refused>);

/// A row, the room for its text, and the answer.
pub type Export = (Vec<u32>, usize, Result<Vec<u8>, Refused>);

const HEAD: &str = "phase,period,duration\r\n";

/// Whole texts. An answer is the fractions of the row, or a refusal.
const WHOLE: [(&str, &str); 34] = [
    ("phase,period,duration\r\n", ""),
    ("phase,period,duration", ""),
    ("\"phase\",\"period\",\"duration\"\r\n", ""),
    ("phase,\"period\",duration", ""),
    // the first record is bad
    ("", "refuse 18 1"),
    ("\r\n", "refuse 18 1"),
    ("\r", "refuse 18 1"),
    ("\n", "refuse 18 1"),
    ("\"", "refuse 18 1"),
    ("0,1,1\r\n", "refuse 18 1"),
    ("\r\nphase,period,duration\r\n", "refuse 18 1"),
    ("phase,period,duration\n0,1,1\n", "refuse 18 1"),
    ("phase,period,duration\r", "refuse 18 1"),
    ("phase,period,duration\r0,1,1", "refuse 18 1"),
    ("phase,period,duration\r\r\n", "refuse 18 1"),
    ("phase,period\r\n0,1,1\r\n", "refuse 18 1"),
    ("phase,period,duration,\r\n", "refuse 18 1"),
    ("phase,period,duration \r\n", "refuse 18 1"),
    ("phase, period, duration\r\n", "refuse 18 1"),
    ("Phase,period,duration\r\n", "refuse 18 1"),
    ("phase0,period,duration\r\n", "refuse 18 1"),
    ("phas,period,duration\r\n", "refuse 18 1"),
    ("period,phase,duration\r\n", "refuse 18 1"),
    ("phase;period;duration\r\n0;1;1\r\n", "refuse 18 1"),
    ("phase\tperiod\tduration\r\n", "refuse 18 1"),
    ("sep=,\r\nphase,period,duration\r\n", "refuse 18 1"),
    ("\u{feff}phase,period,duration\r\n", "refuse 18 1"),
    ("\"phase,period,duration\"\r\n", "refuse 18 1"),
    ("phase,period,\"duration\r\n0,1,1\r\n", "refuse 18 1"),
    ("ph\"ase\",period,duration\r\n", "refuse 18 1"),
    ("\"ph\"\"ase\",period,duration\r\n", "refuse 18 1"),
    ("\"phase\"\"\",period,duration\r\n", "refuse 18 1"),
    // the second is
    ("phase,period,duration\r\n\r\n", "refuse 18 2"),
    ("phase,period,duration\r\n\n", "refuse 18 2"),
];

/// What stands behind the heading.
const RECORDS: [(&str, &str); 81] = [
    ("0,36/13,12/13\r\n12/13,72/13,12/13\r\n", "0/1 36/13 12/13 12/13 72/13 12/13"),
    ("0,36/13,12/13\r\n12/13,72/13,12/13", "0/1 36/13 12/13 12/13 72/13 12/13"),
    ("\"0\",\"36/13\",\"12/13\"\r\n", "0/1 36/13 12/13"),
    ("0,36/13,\"12/13\"", "0/1 36/13 12/13"),
    // two that collide
    ("0,1,1\r\n0,1,1\r\n", "0/1 1/1 1/1 0/1 1/1 1/1"),
    // a blank phase is 0, and nothing else may be blank
    (",3,1\r\n", "0/1 3/1 1/1"),
    ("\"\",3,1\r\n", "0/1 3/1 1/1"),
    ("0,,1\r\n", "refuse 18 2"),
    ("0,\"\",1\r\n", "refuse 18 2"),
    ("0,3,\r\n", "refuse 18 2"),
    ("0,3,\"\"", "refuse 18 2"),
    (" ,3,1\r\n", "refuse 18 2"),
    (",,\r\n", "refuse 18 2"),
    // numbers
    ("6/4,36/13,0012/0013\r\n", "3/2 36/13 12/13"),
    ("0/5,2/2,1\r\n", "0/1 1/1 1/1"),
    ("4294967295/4294967294,4294967295,4294967295\r\n", "4294967295/4294967294 4294967295/1 4294967295/1"),
    ("00000000000000000000004294967295,1,1/4294967295\r\n", "4294967295/1 1/1 1/4294967295"),
    ("4294967296,1,1\r\n", "refuse 18 2"),
    ("0,4294967296,1\r\n", "refuse 18 2"),
    ("0,1,1/4294967296\r\n", "refuse 18 2"),
    ("18446744073709551617,1,1\r\n", "refuse 18 2"),
    ("00000000000000000000004294967296,1,1\r\n", "refuse 18 2"),
    ("1/0,1,1\r\n", "refuse 18 2"),
    ("0/0,1,1\r\n", "refuse 18 2"),
    ("0,1/00,1\r\n", "refuse 18 2"),
    ("1/,1,1\r\n", "refuse 18 2"),
    ("/1,1,1\r\n", "refuse 18 2"),
    ("/,1,1\r\n", "refuse 18 2"),
    ("1/2/3,1,1\r\n", "refuse 18 2"),
    (" 1,2,1\r\n", "refuse 18 2"),
    ("1 ,2,1\r\n", "refuse 18 2"),
    ("1,2,1 \r\n", "refuse 18 2"),
    ("-1,2,1\r\n", "refuse 18 2"),
    ("+1,2,1\r\n", "refuse 18 2"),
    ("1.5,2,1\r\n", "refuse 18 2"),
    ("1e0,2,1\r\n", "refuse 18 2"),
    ("1:2,2,1\r\n", "refuse 18 2"),
    ("\t1,2,1\r\n", "refuse 18 2"),
    ("'1,2,1\r\n", "refuse 18 2"),
    // fields
    ("0,1\r\n", "refuse 18 2"),
    ("0\r\n", "refuse 18 2"),
    ("0,1,1,\r\n", "refuse 18 2"),
    ("0,1,1,1\r\n", "refuse 18 2"),
    ("0;1;1\r\n", "refuse 18 2"),
    ("phase,period,duration\r\n", "refuse 18 2"),
    // ends
    ("0,1,1\n", "refuse 18 2"),
    ("0,1,1\r", "refuse 18 2"),
    ("0,1,1\r0,1,1", "refuse 18 2"),
    ("0,1,1\r\r\n", "refuse 18 2"),
    ("0,1,1\n\r", "refuse 18 2"),
    ("0,1,1\r\n0,1,1\n", "refuse 18 3"),
    ("0,1,1\r\n\r\n", "refuse 18 3"),
    ("0,1,1\r\n\r\n0,1,1\r\n", "refuse 18 3"),
    ("0,1,1\r\n\n", "refuse 18 3"),
    ("0,1,1\r\n\r", "refuse 18 3"),
    ("0,1,1\r\n\u{1a}", "refuse 18 3"),
    // quotes
    ("\"0,1,1\r\n0,1,1\r\n", "refuse 18 2"),
    ("0,1,\"1", "refuse 18 2"),
    ("0,1,1\"\r\n", "refuse 18 2"),
    ("0,1,\"1\"1\r\n", "refuse 18 2"),
    ("0,1,\"1\" \r\n", "refuse 18 2"),
    ("0,1, \"1\"\r\n", "refuse 18 2"),
    ("0,1,\"\"1\"\"\r\n", "refuse 18 2"),
    ("0,1,\"\"\"1\"\"\"\r\n", "refuse 18 2"),
    ("0,1,\"1\"\"\"\r\n", "refuse 18 2"),
    ("0,1,\"1\r\n\"\r\n", "refuse 18 2"),
    ("0,1,\"1,1\"\r\n", "refuse 18 2"),
    ("0,1,\"1\u{7f}\"\r\n", "refuse 18 2"),
    ("0,\"1\"\",\"1\"\r\n", "refuse 18 2"),
    // trains
    ("0,0,1\r\n", "refuse 3 0"),
    ("0,1,0\r\n", "refuse 3 0"),
    ("0,0/5,0\r\n", "refuse 3 0"),
    ("0,1,2\r\n", "refuse 4 0"),
    ("0,3,10/3\r\n", "refuse 4 0"),
    ("0,3,9/3\r\n", "0/1 3/1 3/1"),
    ("0,4294967295/4294967294,4294967294/4294967293\r\n", "refuse 4 0"),
    ("0,1,1\r\n0,1,0\r\n0,1,2\r\n", "refuse 3 1"),
    ("0,1,2\r\n0,1,0\r\n", "refuse 4 0"),
    ("0,1,0\r\n0,1,2\r\n0,1,1/0\r\n", "refuse 18 4"),
    ("0,1,0\r\nx", "refuse 18 3"),
    ("0,1,0\r\n\"", "refuse 18 3"),
];

/// The settled listings. Those that are written out above have room for any row.
pub fn imports() -> Vec<Import> {
    let whole = WHOLE.iter().map(|(text, answer)| (text.to_string(), *answer));
    let records = RECORDS.iter().map(|(records, answer)| (format!("{HEAD}{records}"), *answer));
    let written = whole.chain(records).map(|(text, answer)| (text.into_bytes(), MOST_NUMBERS, said(answer)));
    written.chain(counts()).chain(lengths()).chain(rooms()).collect()
}

/// An answer that is written out.
fn said(answer: &str) -> Result<Vec<u32>, Refused> {
    let mut numbers = answer.split([' ', '/']).filter_map(|word| word.parse().ok());
    match answer.starts_with("refuse") {
        true => Err((numbers.next().expect("its number"), numbers.next().expect("its place") as usize)),
        false => Ok(numbers.collect()),
    }
}

/// So many records `0,1,1`, and what stands behind them.
fn repeated(count: usize, behind: &str) -> Vec<u8> {
    format!("{HEAD}{}{behind}", "0,1,1\r\n".repeat(count)).into_bytes()
}

fn row(count: usize) -> Vec<u32> {
    [0, 1, 1, 1, 1, 1].repeat(count)
}

/// 64 trains are a table and 65 are not; a bad record comes before that, also behind them, and that comes before other faults.
fn counts() -> Vec<Import> {
    let of_count = Err((1, NO_TRAIN));
    vec![
        (repeated(64, ""), MOST_NUMBERS, Ok(row(64))),
        (repeated(65, ""), MOST_NUMBERS, of_count.clone()),
        (repeated(65, ""), 0, of_count.clone()),
        (repeated(64, "0,1,0\r\n"), MOST_NUMBERS, of_count.clone()),
        (repeated(63, "0,1,0\r\n"), MOST_NUMBERS, Err((3, 63))),
        (repeated(64, "0,1,x\r\n"), MOST_NUMBERS, Err((18, 66))),
        (repeated(65, "0,1,x\r\n"), MOST_NUMBERS, Err((18, 67))),
        (repeated(300, "\r\n"), MOST_NUMBERS, Err((18, 302))),
        (repeated(0, &format!("x\r\n{}", "0,1,1\r\n".repeat(70))), MOST_NUMBERS, Err((18, 2))),
        (repeated(4_000, "0,1,1\n"), 0, Err((18, 4_002))),
    ]
}

/// A listing of so many bytes, by zeros.
fn of_length(length: usize) -> Vec<u8> {
    let zeros = "0".repeat(length - HEAD.len() - "0,1,1\r\n".len());
    repeated(0, &format!("{zeros}0,1,1\r\n"))
}

/// 32,768 bytes are read, whatever they are, and 32,769 are not.
fn lengths() -> Vec<Import> {
    let too_long = Err((7, NO_TRAIN));
    let shortest = |count: usize| format!("{HEAD}{}", ",1,1\r\n".repeat(count)).into_bytes();
    vec![
        (of_length(LONGEST_TEXT), 6, Ok(row(1))),
        (of_length(LONGEST_TEXT), 5, Err((8, NO_TRAIN))),
        (of_length(LONGEST_TEXT + 1), 6, too_long.clone()),
        (vec![b'0'; LONGEST_TEXT], 6, Err((18, 1))),
        (vec![b'0'; LONGEST_TEXT + 1], 6, too_long.clone()),
        (of_length(65_536 + 40), 0, too_long.clone()),
        (shortest(5_457), MOST_NUMBERS, Err((1, NO_TRAIN))),
        ([shortest(5_456), b",1,x\r\n".to_vec()].concat(), MOST_NUMBERS, Err((18, 5_458))),
        (shortest(5_458), MOST_NUMBERS, too_long),
    ]
}

/// The room is asked for last.
fn rooms() -> Vec<Import> {
    let too_short = Err((8, NO_TRAIN));
    vec![
        (repeated(0, ""), 0, Ok(Vec::new())),
        (repeated(1, ""), 0, too_short.clone()),
        (repeated(1, ""), 5, too_short.clone()),
        (repeated(1, ""), 6, Ok(row(1))),
        (repeated(2, ""), 11, too_short.clone()),
        (repeated(2, ""), 400, Ok(row(2))),
        (repeated(64, ""), MOST_NUMBERS - 1, too_short),
        (repeated(1, "0,1,0\r\n"), 0, Err((3, 1))),
        (repeated(1, "0,1,2\r\n"), 0, Err((4, 1))),
        (repeated(1, "x"), 0, Err((18, 3))),
    ]
}

/// The settled rows.
pub fn exports() -> Vec<Export> {
    let refused = |numbers: &[u32], room, refused| (numbers.to_vec(), room, Err(refused));
    let written = |numbers: &[u32], text: &str| (numbers.to_vec(), LONGEST_EXPORT, Ok(format!("{HEAD}{text}").into()));
    let longest = [4_294_967_295, 4_294_967_294, 4_294_967_295, 4_294_967_294, 4_294_967_291, 4_294_967_295].repeat(64);
    let line = "4294967295/4294967294,4294967295/4294967294,4294967291/4294967295\r\n";
    let text = format!("{HEAD}{}", line.repeat(64)).into_bytes();
    let shorter = format!("{HEAD}{}", line.repeat(63)).into_bytes();
    assert_eq!(text.len(), 4_311, "the longest text that is exported");
    vec![
        written(&[], ""),
        (vec![], HEAD.len(), Ok(HEAD.into())),
        refused(&[], HEAD.len() - 1, (8, NO_TRAIN)),
        refused(&[], 0, (8, NO_TRAIN)),
        written(&[0, 7, 36, 13, 24, 26, 12, 13, 72, 13, 36, 39], "0,36/13,12/13\r\n12/13,72/13,12/13\r\n"),
        written(&[10, 5, 4_294_967_295, 1, 4_294_967_295, 3], "2,4294967295,1431655765\r\n"),
        // two that collide
        written(&row(2), "0,1,1\r\n0,1,1\r\n"),
        (longest.clone(), LONGEST_EXPORT, Ok(text)),
        refused(&longest, LONGEST_EXPORT - 1, (8, NO_TRAIN)),
        (longest[6..].to_vec(), shorter.len(), Ok(shorter)),
        refused(&row(65), LONGEST_EXPORT, (1, NO_TRAIN)),
        refused(&[0; 5], LONGEST_EXPORT, (1, NO_TRAIN)),
        refused(&[0; NUMBERS_A_TRAIN + 1], 0, (1, NO_TRAIN)),
        refused(&[0, 0, 0, 1, 2, 1], 0, (2, 0)),
        refused(&[0, 1, 0, 1, 2, 1], 0, (3, 0)),
        refused(&[0, 1, 1, 1, 2, 1], 0, (4, 0)),
        refused(&[0, 1, 1, 1, 2, 1, 0, 0, 0, 0, 0, 0], LONGEST_EXPORT, (4, 0)),
        refused(&[0, 1, 1, 1, 1, 1, 0, 1, 1, 1, 1, 0], LONGEST_EXPORT, (2, 1)),
    ]
}
