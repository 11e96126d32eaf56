//! The proved calls, as include/urzabelki.h declares them, behind functions that any Rust program may call. A slice carries
//! its own length and an array its size, which is all that the header asks; and what is written is lent to nobody else.

/// The numbers of the header, without the name that each begins with.
#[allow(dead_code)]
pub mod header {
    include!(concat!(env!("OUT_DIR"), "/header.rs"));
}

pub const FIGURES: usize = header::FIGURES as usize;
pub const WORDS: usize = header::WORDS as usize;

/// Where the division count stands among the figures.
pub const DIVISIONS: usize = header::DIVISIONS as usize;

pub type Figures = [u64; FIGURES];
pub type Words = [u32; WORDS];

mod calls {
    extern "C" {
        pub fn urzabelki_judge(row: *const u32, length: usize, figures: *mut u64) -> u64;
        pub fn urzabelki_judge_stored(bytes: *const u8, length: usize, figures: *mut u64) -> u64;
        pub fn urzabelki_line(row: *const u32, length: usize, text: *mut u8, room: usize) -> u64;
        pub fn urzabelki_save(row: *const u32, length: usize, bytes: *mut u8, room: usize) -> u64;
        pub fn urzabelki_load(bytes: *const u8, length: usize, row: *mut u32, room: usize) -> u64;
        pub fn urzabelki_import(text: *const u8, length: usize, row: *mut u32, room: usize) -> u64;
        pub fn urzabelki_export(row: *const u32, length: usize, text: *mut u8, room: usize) -> u64;
        pub fn urzabelki_fresh(words: *mut u32, count: u32);
        pub fn urzabelki_admit(words: *mut u32, delay: u32, period: u32, duration: u32) -> u64;
        pub fn urzabelki_withdraw(words: *mut u32, place: u32) -> u64;
        pub fn urzabelki_step(words: *mut u32, count: u32) -> u64;
    }
}

/// The number that a call hands back for an answer of a kind, with a value.
pub fn code(kind: u32, value: usize) -> u64 {
    u64::from(kind) << 32 | value as u64
}

/// The value of an answer of this kind.
pub fn value(answer: u64, kind: u32) -> usize {
    assert_eq!(answer >> 32, kind.into(), "the answer is of another kind");
    answer as u32 as usize
}

pub fn judge(row: &[u32], figures: &mut Figures) -> u64 {
    unsafe { calls::urzabelki_judge(row.as_ptr(), row.len(), figures.as_mut_ptr()) }
}

pub fn judge_stored(bytes: &[u8], figures: &mut Figures) -> u64 {
    unsafe { calls::urzabelki_judge_stored(bytes.as_ptr(), bytes.len(), figures.as_mut_ptr()) }
}

pub fn line(row: &[u32], text: &mut [u8]) -> u64 {
    unsafe { calls::urzabelki_line(row.as_ptr(), row.len(), text.as_mut_ptr(), text.len()) }
}

pub fn save(row: &[u32], bytes: &mut [u8]) -> u64 {
    unsafe { calls::urzabelki_save(row.as_ptr(), row.len(), bytes.as_mut_ptr(), bytes.len()) }
}

pub fn load(bytes: &[u8], row: &mut [u32]) -> u64 {
    unsafe { calls::urzabelki_load(bytes.as_ptr(), bytes.len(), row.as_mut_ptr(), row.len()) }
}

pub fn import(text: &[u8], row: &mut [u32]) -> u64 {
    unsafe { calls::urzabelki_import(text.as_ptr(), text.len(), row.as_mut_ptr(), row.len()) }
}

pub fn export(row: &[u32], text: &mut [u8]) -> u64 {
    unsafe { calls::urzabelki_export(row.as_ptr(), row.len(), text.as_mut_ptr(), text.len()) }
}

pub fn fresh(words: &mut Words, count: u32) {
    unsafe { calls::urzabelki_fresh(words.as_mut_ptr(), count) }
}

pub fn admit(words: &mut Words, delay: u32, period: u32, duration: u32) -> u64 {
    unsafe { calls::urzabelki_admit(words.as_mut_ptr(), delay, period, duration) }
}

pub fn withdraw(words: &mut Words, place: u32) -> u64 {
    unsafe { calls::urzabelki_withdraw(words.as_mut_ptr(), place) }
}

pub fn step(words: &mut Words, count: u32) -> u64 {
    unsafe { calls::urzabelki_step(words.as_mut_ptr(), count) }
}
