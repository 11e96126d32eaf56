//! The proved library, libbench.a, as include/urzabelki.h says it: a safe function for each of its C functions, with slices
//! and arrays for its pointers. Only this file knows that there is C in between.

use crate::{listing, paper};

/// The numbers of the header, without the name that each begins with; build.rs takes them from there.
#[allow(dead_code)]
pub mod header {
    include!(concat!(env!("OUT_DIR"), "/header.rs"));
}

pub const FIGURES: usize = header::FIGURES as usize;
pub const WORDS: usize = header::WORDS as usize;

/// The figures of a verdict.
pub type Figures = [u64; FIGURES];

/// The words of a dispatcher.
pub type Words = [u32; WORDS];

// The header's numbers are those of the paper.
const _: () = assert!(header::TRAINS as usize == paper::MOST_TRAINS);
const _: () = assert!(header::NUMBERS as usize == paper::NUMBERS_A_TRAIN);
const _: () = assert!(header::LONGEST_ROW as usize == paper::MOST_NUMBERS);
const _: () = assert!(header::LONGEST_STORED as usize == paper::LONGEST_FILE);
const _: () = assert!(header::LONGEST_TEXT as usize == paper::LONGEST_TEXT);
const _: () = assert!(header::LONGEST_EXPORT as usize == listing::LONGEST_EXPORT);
const _: () = assert!(header::MAX_MULTIPLE == paper::MOST_MULTIPLE);
const _: () = assert!(header::MAX_TICKS == paper::MOST_TICKS);
const _: () = assert!(header::PLACES as usize == paper::PLACES);
const _: () = assert!(header::NO_PLACE as usize == paper::NO_PLACE);

/// The three numbers that one answer holds.
#[derive(Clone, Copy, PartialEq, Eq, Debug)]
pub struct Parts {
    pub refusal: u32,
    pub kind: u32,
    pub value: u32,
}

impl Parts {
    /// What a call answers that was done.
    pub fn done(value: usize) -> Parts {
        Parts::of_kind(header::DONE, value)
    }

    pub fn of_kind(kind: u32, value: usize) -> Parts {
        Parts { refusal: 0, kind, value: value as u32 }
    }

    pub fn refused((number, place): (u32, usize)) -> Parts {
        Parts { refusal: number, kind: header::REFUSED, value: place as u32 }
    }

    fn taken_apart(answer: u64) -> Parts {
        Parts { refusal: (answer >> 40) as u32, kind: (answer >> 32) as u32 & 0xff, value: answer as u32 }
    }
}

extern "C" {
    fn urzabelki_judge(row: *const u32, length: usize, figures: *mut u64) -> u64;
    fn urzabelki_judge_stored(bytes: *const u8, length: usize, figures: *mut u64) -> u64;
    fn urzabelki_line(row: *const u32, length: usize, text: *mut u8, room: usize) -> u64;
    fn urzabelki_line_stored(bytes: *const u8, length: usize, text: *mut u8, room: usize) -> u64;
    fn urzabelki_save(row: *const u32, length: usize, bytes: *mut u8, room: usize) -> u64;
    fn urzabelki_load(bytes: *const u8, length: usize, row: *mut u32, room: usize) -> u64;
    fn urzabelki_import(text: *const u8, length: usize, row: *mut u32, room: usize) -> u64;
    fn urzabelki_export(row: *const u32, length: usize, text: *mut u8, room: usize) -> u64;
    fn urzabelki_fresh(words: *mut u32, count: u32);
    fn urzabelki_admit(words: *mut u32, delay: u32, period: u32, duration: u32) -> u64;
    fn urzabelki_withdraw(words: *mut u32, place: u32) -> u64;
    fn urzabelki_step(words: *mut u32, count: u32) -> u64;
}

// In each of these calls the pointers point to as many elements as the header asks for, and what is written is borrowed for
// the call alone; the header asks for nothing else.

pub fn judge(row: &[u32], figures: &mut Figures) -> Parts {
    Parts::taken_apart(unsafe { urzabelki_judge(row.as_ptr(), row.len(), figures.as_mut_ptr()) })
}

pub fn judge_stored(bytes: &[u8], figures: &mut Figures) -> Parts {
    Parts::taken_apart(unsafe { urzabelki_judge_stored(bytes.as_ptr(), bytes.len(), figures.as_mut_ptr()) })
}

pub fn line(row: &[u32], text: &mut [u8]) -> Parts {
    Parts::taken_apart(unsafe { urzabelki_line(row.as_ptr(), row.len(), text.as_mut_ptr(), text.len()) })
}

pub fn line_stored(bytes: &[u8], text: &mut [u8]) -> Parts {
    Parts::taken_apart(unsafe { urzabelki_line_stored(bytes.as_ptr(), bytes.len(), text.as_mut_ptr(), text.len()) })
}

pub fn save(row: &[u32], bytes: &mut [u8]) -> Parts {
    Parts::taken_apart(unsafe { urzabelki_save(row.as_ptr(), row.len(), bytes.as_mut_ptr(), bytes.len()) })
}

pub fn load(bytes: &[u8], row: &mut [u32]) -> Parts {
    Parts::taken_apart(unsafe { urzabelki_load(bytes.as_ptr(), bytes.len(), row.as_mut_ptr(), row.len()) })
}

pub fn import(text: &[u8], row: &mut [u32]) -> Parts {
    Parts::taken_apart(unsafe { urzabelki_import(text.as_ptr(), text.len(), row.as_mut_ptr(), row.len()) })
}

pub fn export(row: &[u32], text: &mut [u8]) -> Parts {
    Parts::taken_apart(unsafe { urzabelki_export(row.as_ptr(), row.len(), text.as_mut_ptr(), text.len()) })
}

pub fn fresh(words: &mut Words, count: u32) {
    unsafe { urzabelki_fresh(words.as_mut_ptr(), count) }
}

pub fn admit(words: &mut Words, delay: u32, period: u32, duration: u32) -> Parts {
    Parts::taken_apart(unsafe { urzabelki_admit(words.as_mut_ptr(), delay, period, duration) })
}

pub fn withdraw(words: &mut Words, place: u32) -> Parts {
    Parts::taken_apart(unsafe { urzabelki_withdraw(words.as_mut_ptr(), place) })
}

pub fn step(words: &mut Words, count: u32) -> Parts {
    Parts::taken_apart(unsafe { urzabelki_step(words.as_mut_ptr(), count) })
}
