//! Listings to be imported and rows to be exported, drawn from a seed. Each kind is aimed at a place of RFC 4180 or of the
//! request where a program is likely to go wrong. What they deserve is not settled here, but in `listing`.

use crate::draw::Draw;
use crate::files::{any_row, harm, lowest_row, saved};
use crate::listing::{export, HEADING};
use crate::paper::{LONGEST_TEXT, MOST_TRAINS, NUMBERS_A_TRAIN};

const LARGEST: u64 = u32::MAX as u64;

/// So seldom that it is hardly ever.
const SELDOM: u64 = 1_000_000;

/// One listing in so many of its kind is as long as may be, or longer.
const LARGE: u64 = 16;

const END: &str = "\r\n";

/// The kinds that come round in turn, after one of every short text.
const KINDS: [fn(&mut Draw) -> Vec<u8>; 19] = [
    exported,
    good,
    of_any_row,
    one_byte,
    byte_more,
    byte_less,
    cut,
    piece_again,
    odd_values,
    odd_quotes,
    odd_records,
    odd_heading,
    odd_ends,
    odd_commas,
    odd_joints,
    faults,
    many_trains,
    long,
    of_the_grammar,
];

/// The listing of a case: its kind by the case's number, the rest by the seed.
pub fn listing(seed: u64, case: u64) -> Vec<u8> {
    let draw = &mut Draw::new(seed, case);
    let round = KINDS.len() as u64 + 1;
    match case % round {
        0 => every_text(case / round),
        kind => KINDS[kind as usize - 1](draw),
    }
}

/// The row to be exported in a case: now and then one whose text is long, and else one that is saved too.
pub fn row(seed: u64, case: u64) -> Vec<u32> {
    match case % 8 {
        0 => long_row(&mut Draw::new(seed, case)),
        _ => saved(seed, case).0,
    }
}

/// As many trains as a table takes, or fewer, with numbers of nine or ten digits and fractions that cannot be reduced.
fn long_row(draw: &mut Draw) -> Vec<u32> {
    let count = draw.of(&[1, 2, 7, 63, MOST_TRAINS, MOST_TRAINS]);
    let further = draw.of(&[0, 0, 20, 3_294_967_290, 3_394_967_290]);
    let mut number = || (LARGEST - draw.between(0, further)) as u32 | 1;
    let train = |_| {
        let [phase, period, duration] = [number(), number(), number()];
        [phase, phase - 1, period, period - 1, duration - 2, duration]
    };
    (0..count).flat_map(train).collect()
}

// ---- records, and how they are written

/// The values of a record.
type Values = Vec<String>;

/// The heading, and the record of each train, with its times in any way.
fn records(draw: &mut Draw, row: &[u32]) -> Vec<Values> {
    let odd = draw.of(&[3, 20, SELDOM]);
    let blank = draw.of(&[1, 2, SELDOM]);
    let mut records = vec![HEADING.map(String::from).to_vec()];
    for train in row.chunks_exact(NUMBERS_A_TRAIN) {
        let mut values: Values = train.chunks(2).map(|time| written(draw, [time[0], time[1]], odd)).collect();
        if train[0] == 0 && draw.once_in(blank) {
            values[0].clear();
        }
        records.push(values);
    }
    records
}

/// A time, once in so many with a further factor, with 1 below it, or with zeros before a number.
fn written(draw: &mut Draw, time: [u32; 2], odd: u64) -> String {
    let most = LARGEST / u64::from(time[0].max(time[1]).max(1));
    let furthest = draw.of(&[2, 60, LARGEST]).min(most);
    let factor = if draw.once_in(odd) { draw.between(1, furthest) as u32 } else { 1 };
    let [numerator, denominator] = time.map(|number| {
        let zeros = if draw.once_in(odd) { draw.of(&[1, 1, 2, 10, 30]) } else { 0 };
        format!("{}{}", "0".repeat(zeros), number * factor)
    });
    match time[1] * factor {
        1 if !draw.once_in(odd) => numerator,
        _ => format!("{numerator}/{denominator}"),
    }
}

/// The values as fields, with quotes round some, round all or round none.
fn fields(draw: &mut Draw, records: Vec<Values>) -> Vec<Values> {
    let turns = draw.of(&[1, 2, 8, SELDOM, SELDOM]);
    let mut field = |value: String| if draw.once_in(turns) { quoted(&value) } else { value };
    records.into_iter().map(|values| values.into_iter().map(&mut field).collect()).collect()
}

fn quoted(value: &str) -> String {
    format!("\"{}\"", value.replace('"', "\"\""))
}

/// Fields in lines, of which the last mostly has an end too.
fn joined(draw: &mut Draw, fields: &[Values]) -> Vec<u8> {
    let lines: Vec<String> = fields.iter().map(|fields| fields.join(",")).collect();
    let end = if draw.once_in(4) { "" } else { END };
    format!("{}{end}", lines.join(END)).into_bytes()
}

/// Records as a text, quoted somehow.
fn text(draw: &mut Draw, records: Vec<Values>) -> Vec<u8> {
    let fields = fields(draw, records);
    joined(draw, &fields)
}

fn good_records(draw: &mut Draw) -> Vec<Values> {
    let row = lowest_row(draw);
    records(draw, &row)
}

/// Some value of some record, the heading's among them.
fn some_value<'a>(draw: &mut Draw, records: &'a mut [Values]) -> &'a mut String {
    let record = draw.position(records.len());
    let value = draw.position(records[record].len());
    &mut records[record][value]
}

// ---- listings of tables

fn exported(draw: &mut Draw) -> Vec<u8> {
    let row = if draw.once_in(16) { Vec::new() } else { lowest_row(draw) };
    export(&row, usize::MAX).expect("a table that can be saved can be exported")
}

/// A listing that can be imported, written in any way.
pub fn good(draw: &mut Draw) -> Vec<u8> {
    let records = good_records(draw);
    text(draw, records)
}

/// Any row, of which a denominator of 0 makes a bad record.
fn of_any_row(draw: &mut Draw) -> Vec<u8> {
    let row = any_row(draw);
    let records = records(draw, &row);
    text(draw, records)
}

/// Trains with faults of their own, or that are no records, so that their order counts.
fn faults(draw: &mut Draw) -> Vec<u8> {
    let mut row = lowest_row(draw);
    let numbers = draw.of(&[&[3, 4][..], &[3, 3, 4, 4, 2]]);
    for _ in 0..draw.between(1, 4) {
        harm_one(draw, &mut row, numbers);
    }
    let records = records(draw, &row);
    text(draw, records)
}

/// Gives some train a fault that mostly deserves one of these refusals; 2 is a bad record here.
fn harm_one(draw: &mut Draw, row: &mut [u32], numbers: &[u32]) {
    let at = draw.position(row.len() / NUMBERS_A_TRAIN) * NUMBERS_A_TRAIN;
    let number = draw.of(numbers);
    harm(draw, &mut row[at..at + NUMBERS_A_TRAIN], number);
}

/// As many trains as a table takes, or more, and now and then far more, in records that may be as short as can be. Some of
/// them may have faults of their own, and some may be no records, also behind the 65th.
fn many_trains(draw: &mut Draw) -> Vec<u8> {
    let far = if draw.once_in(LARGE) { draw.of(&[256, 257, 1_000, 4_096, 5_456, 5_457, 5_458]) } else { 67 };
    let most = MOST_TRAINS;
    let count = draw.of(&[most - 1, most, most, most + 1, most + 1, most + 2, 100, far]);
    let train = if far > 67 || draw.once_in(2) { vec![0, 1, 1, 1, 1, 1] } else { lowest_row(draw) };
    let mut row: Vec<u32> = train.into_iter().cycle().take(count * NUMBERS_A_TRAIN).collect();
    for _ in 0..draw.of(&[0, 0, 1, 2]) {
        harm_one(draw, &mut row, &[3, 4]);
    }
    let mut records = records(draw, &row);
    for _ in 0..draw.of(&[0, 0, 1, 2]) {
        // the last two more often
        let last = records.len() as u64 - 1;
        let first = draw.of(&[0, last - 1]);
        let at = draw.between(first, last) as usize;
        let value = draw.position(3);
        records[at][value] = odd_value(draw, "1");
    }
    text(draw, records)
}

/// A listing with so many zeros in it that it is as long as a text may be, a byte shorter or longer, or so long that it is
/// short in 16 bits; now and then with a byte changed.
fn long(draw: &mut Draw) -> Vec<u8> {
    let most = if draw.once_in(LARGE) { LONGEST_TEXT } else { 400 };
    let length = draw.of(&[most - 1, most, most, most + 1, most + 2, 2 * most, 2 * most + 50, 3 * most]);
    let mut text = good(draw);
    let zeros = vec![b'0'; length.saturating_sub(text.len())];
    // before a digit, and not in the heading, which has none
    let digits: Vec<usize> = (0..text.len()).filter(|at| text[*at].is_ascii_digit()).collect();
    let at = draw.of(&digits);
    text.splice(at..at, zeros);
    if draw.once_in(3) {
        let at = draw.position(text.len());
        text[at] = odd_byte(draw);
    }
    text
}

// ---- a good listing with a few bytes changed

/// Any byte, but mostly one that means something, or that a spreadsheet or a person may write.
fn odd_byte(draw: &mut Draw) -> u8 {
    match draw.once_in(8) {
        true => draw.between(0, 255) as u8,
        false => draw.of(b"\"\"\"\",,\r\r\n\n//001239 !#+-.:;~\t'=aAeE\0\x1a\x1f\x7f\x80\xa0\xbb\xbf\xc2\xef\xff"),
    }
}

fn one_byte(draw: &mut Draw) -> Vec<u8> {
    let mut text = good(draw);
    for _ in 0..draw.of(&[1, 1, 2]) {
        let at = draw.position(text.len());
        text[at] = odd_byte(draw);
    }
    text
}

fn byte_more(draw: &mut Draw) -> Vec<u8> {
    let mut text = good(draw);
    for _ in 0..draw.of(&[1, 1, 2]) {
        let at = draw.position(text.len() + 1);
        text.insert(at, odd_byte(draw));
    }
    text
}

fn byte_less(draw: &mut Draw) -> Vec<u8> {
    let mut text = good(draw);
    for _ in 0..draw.of(&[1, 1, 2]) {
        text.remove(draw.position(text.len()));
    }
    text
}

/// A beginning of a listing; seldom an end of one.
fn cut(draw: &mut Draw) -> Vec<u8> {
    let mut text = good(draw);
    let end = text.split_off(draw.position(text.len() + 1));
    match draw.once_in(8) {
        true => end,
        false => text,
    }
}

/// A listing with a piece of it a second time, anywhere.
fn piece_again(draw: &mut Draw) -> Vec<u8> {
    let mut text = good(draw);
    let begin = draw.position(text.len());
    let piece = text[begin..text.len().min(begin + draw.between(1, 30) as usize)].to_vec();
    let at = draw.position(text.len() + 1);
    text.splice(at..at, piece);
    text
}

// ---- odd values, quotes and records

/// What may stand where a time should. Some of them are times.
const VALUES: [&str; 58] = [
    "",
    "0",
    "00",
    "/",
    "1/",
    "/1",
    "1//1",
    "1/2/3",
    "1/1/",
    "1/0",
    "1/000",
    "0/0",
    "0/1",
    "0/4294967295",
    "007/0013",
    "4294967295",
    "4294967296",
    "4294967297",
    "4294967299",
    "4294967300",
    "5000000000",
    "9999999999",
    "10000000000",
    "42949672950",
    "4294967295/4294967295",
    "4294967295/4294967296",
    "4294967296/1",
    "1/4294967296",
    "1/8589934592",
    "18446744073709551615",
    "18446744073709551616",
    "18446744073709551617",
    "340282366920938463463374607431768211456",
    "340282366920938463463374607431768211457",
    "1.5",
    "1,5",
    "1;5",
    "1:2",
    "-1",
    "+1",
    "1e3",
    "0x10",
    " 1",
    "1 ",
    " ",
    "1 / 2",
    "1 1/2",
    "\t1",
    "'1/2",
    "=1/2",
    "1\"",
    "\"\"",
    "1\r\n",
    "1,1",
    "12.13.2026",
    "13-Dec",
    "phase",
    "\u{bd}",
];

/// A value in place of another: one of those, or that one behind many zeros, or so much more of it that it is as much in 32 or
/// 64 bits.
fn odd_value(draw: &mut Draw, value: &str) -> String {
    let (numerator, rest) = value.split_at(value.find('/').unwrap_or(value.len()));
    match draw.between(0, 7) {
        0 => format!("{}{value}", "0".repeat(draw.of(&[1, 9, 10, 11, 19, 20, 21, 39, 300]))),
        1 => match numerator.parse::<u128>() {
            Ok(number) if number <= u128::from(LARGEST) => {
                format!("{}{rest}", number + (1 << draw.of(&[32, 33, 64, 96])))
            }
            _ => draw.of(&VALUES).to_string(),
        },
        _ => draw.of(&VALUES).to_string(),
    }
}

fn odd_values(draw: &mut Draw) -> Vec<u8> {
    let mut records = good_records(draw);
    for _ in 0..draw.of(&[1, 1, 2]) {
        let value = some_value(draw, &mut records);
        *value = odd_value(draw, value);
    }
    text(draw, records)
}

/// How a field v may be quoted, rightly or wrongly.
const QUOTES: [&str; 32] = [
    "\"v\"",
    "\"v",
    "v\"",
    "\"v\"\"",
    "\"\"v\"",
    "\"\"v\"\"",
    "\"\"\"v\"\"\"",
    "v\"v\"",
    "\"v\"v",
    "\"v\"\"v\"",
    " \"v\"",
    "\"v\" ",
    "\" v\"",
    "\"v \"",
    "\"v,\"",
    "\",v\"",
    "\"v,v\"",
    "\"v\r\"",
    "\"v\n\"",
    "\"v\r\n\"",
    "\"\r\nv\"",
    "\"v\"\r",
    "\"v\"\n",
    "\"\"",
    "\"",
    "\"\"\"",
    "\"\"\"\"",
    "'v'",
    "\"v'",
    "\"v\0\"",
    "\"v\"\0\"",
    "\"v\"\n\"",
];

fn odd_quotes(draw: &mut Draw) -> Vec<u8> {
    let records = good_records(draw);
    let mut fields = fields(draw, records);
    for _ in 0..draw.of(&[1, 1, 2, 3]) {
        let field = some_value(draw, &mut fields);
        *field = draw.of(&QUOTES).replace('v', field.trim_matches('"'));
    }
    joined(draw, &fields)
}

/// Records of too few values or too many, blank ones, and records that are missing or too many themselves.
fn odd_records(draw: &mut Draw) -> Vec<u8> {
    let mut records = good_records(draw);
    for _ in 0..draw.of(&[1, 1, 2]) {
        let at = draw.position(records.len());
        let value = draw.position(3).min(records[at].len());
        match draw.between(0, 7) {
            0 => records[at].truncate(value),
            1 => records[at].insert(value, draw.of(&["", "", "0", "1"]).to_string()),
            2 => records[at].push(draw.of(&["", "1", " "]).to_string()),
            3 => records[at].rotate_left(value),
            4 => records[at] = Vec::new(),
            5 => records[at].iter_mut().for_each(String::clear),
            6 => {
                let further = draw.of(&[&[""][..], &["", "", ""], &HEADING]);
                records.insert(at, further.iter().map(|value| value.to_string()).collect());
            }
            _ if records.len() > 1 => _ = records.remove(at),
            _ => records.push(Vec::new()),
        }
    }
    text(draw, records)
}

/// What may stand where the heading should, with what comes before it. Some of them are headings.
const HEADINGS: [&[u8]; 32] = [
    b"phase,period,duration",
    b"\"phase\",\"period\",\"duration\"",
    b"phase,\"period\",duration",
    b"Phase,Period,Duration",
    b"phase,period,Duration",
    b"PHASE,PERIOD,DURATION",
    b"phase;period;duration",
    b"phase\tperiod\tduration",
    b"phase, period, duration",
    b" phase,period,duration",
    b"phase,period,duration ",
    b"phase,period",
    b"phase,period,",
    b"phase,period,duration,",
    b"phase,period,duration,name",
    b"period,phase,duration",
    b"phase,duration,period",
    b"\"phase,period,duration\"",
    b"ph\"a\"se,period,duration",
    b"\"ph\"ase,period,duration",
    b"\"phase\"\"\",period,duration",
    b"\"\"phase,period,duration",
    b"\xef\xbb\xbfphase,period,duration",
    b"\xef\xbb\xbf\"phase\",period,duration",
    b"\xff\xfep\0h\0a\0s\0e\0,\0p\0e\0r\0i\0o\0d\0,\0d\0u\0r\0a\0t\0i\0o\0n\0",
    b"sep=,\r\nphase,period,duration",
    b"phase0,period,duration",
    b"phas,period,duration",
    b"phase,periods,duration",
    b"phase,period,duratio",
    b"",
    b"0,1,1",
];

fn odd_heading(draw: &mut Draw) -> Vec<u8> {
    let mut records = good_records(draw);
    let rest = records.split_off(1);
    let rest = text(draw, rest);
    let end = draw.of(&[END, END, END, "\n", "\r", ""]);
    [draw.of(&HEADINGS), end.as_bytes(), &rest].concat()
}

/// What may stand between two records.
const ENDS: [&str; 14] = [
    "\n", "\n", "\r", "\n\r", "\r\r\n", "\r\n\r\n", "\r\n\n", "\r\n\r", "", " \r\n", "\r \n", "\r\n ", "\0\r\n",
    "\u{85}",
];

/// What may stand at the end of a text.
const LAST: [&str; 18] = [
    "",
    "\r",
    "\n",
    "\r\n",
    "\r\n\r",
    "\r\n\n",
    "\r\n\r\n",
    "\r\n\r\n\r\n",
    "\n\n",
    "\x1a",
    "\r\n\x1a",
    "\0",
    "\r\n\0",
    " ",
    "\r\n ",
    ",",
    "\r\n,",
    "\r\n\"",
];

/// Other ends than CRLF: all of them, or some.
fn odd_ends(draw: &mut Draw) -> Vec<u8> {
    let records = good_records(draw);
    let fields = fields(draw, records);
    let turns = draw.of(&[1, 1, 4, SELDOM]);
    let (end, last) = (draw.of(&ENDS), draw.of(&LAST));
    let mut text = String::new();
    for (at, fields) in fields.iter().enumerate() {
        if at > 0 {
            text += if draw.once_in(turns) { end } else { END };
        }
        text += &fields.join(",");
    }
    (text + last).into_bytes()
}

/// Other bytes than commas: in place of all of them, or of some.
fn odd_commas(draw: &mut Draw) -> Vec<u8> {
    let text = good(draw);
    let turns = draw.of(&[1, 2, 8]);
    let instead = draw.of(&[";", "\t", "|", " ", "", ", ", " ,", ",,", ",\"\",", ".", "\",\"", "\r\n"]);
    let odd = |byte: &u8| match byte {
        b',' if draw.once_in(turns) => instead.as_bytes().to_vec(),
        other => vec![*other],
    };
    text.iter().flat_map(odd).collect()
}

/// A few odd bytes where two fields meet, in place of the comma or of the end of a record, and of the quotes beside it or not.
fn odd_joints(draw: &mut Draw) -> Vec<u8> {
    let mut text = good(draw);
    for _ in 0..draw.of(&[1, 1, 2]) {
        let joints: Vec<usize> = (0..text.len()).filter(|at| b",\r\n".contains(&text[*at])).collect();
        let Some(at) = (!joints.is_empty()).then(|| draw.of(&joints)) else { break };
        let is_quote = |at: usize| text.get(at) == Some(&b'"');
        let begin = if at > 0 && is_quote(at - 1) && draw.once_in(2) { at - 1 } else { at };
        let end = if is_quote(at + 1) && draw.once_in(2) { at + 2 } else { at + 1 };
        let instead: Vec<u8> = (0..draw.between(0, 3)).map(|_| draw.of(b"\"\"\r\n,,\0 1/;")).collect();
        text.splice(begin..end, instead);
    }
    text
}

// ---- any bytes

/// What may stand before bytes of any kind.
const BEFORE: [&str; 6] = [
    "phase,period,duration\r\n",
    "phase,period,duration\r\n0,1,",
    "phase,period,duration\r\n0,1,1",
    "phase,period,duration\r\n0,\"1\",\"1",
    "phase,\"period\",duration",
    "",
];

/// Every text of the bytes that mean something, the shorter ones first, behind each of those.
fn every_text(number: u64) -> Vec<u8> {
    let bytes = b"\"1,\r\n/";
    let mut text = BEFORE[(number % BEFORE.len() as u64) as usize].as_bytes().to_vec();
    let mut left = number / BEFORE.len() as u64;
    while left > 0 {
        left -= 1;
        text.push(bytes[(left % bytes.len() as u64) as usize]);
        left /= bytes.len() as u64;
    }
    text
}

/// Longer ones, drawn; or of any bytes.
fn of_the_grammar(draw: &mut Draw) -> Vec<u8> {
    let mut text = draw.of(&BEFORE).as_bytes().to_vec();
    let bytes = draw.of(&[&b"\"\"1,\r\n/"[..], b"\"1,,0", b"011,,/\r\n", b"\"\",\r\n \0"]);
    let is_any = draw.once_in(8);
    for _ in 0..draw.between(0, 30) {
        text.push(if is_any { odd_byte(draw) } else { draw.of(bytes) });
    }
    text
}
