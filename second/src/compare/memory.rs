//! Memory that is lent to a call. It lies in more memory, and there is a pattern in all of it, so that whatever a call writes
//! shows, also in front of what was lent and behind it.

use std::fmt::Debug;

/// So many elements lie in front of what is lent, and as many behind.
const MARGIN: usize = 16;

pub trait Element: Copy + PartialEq + Debug {
    fn of(number: u64) -> Self;
}

impl Element for u8 {
    fn of(number: u64) -> u8 {
        number as u8
    }
}

impl Element for u32 {
    fn of(number: u64) -> u32 {
        number as u32
    }
}

impl Element for u64 {
    fn of(number: u64) -> u64 {
        number
    }
}

pub struct Lent<T> {
    all: Vec<T>,
    salt: u64,
}

/// What the salt puts at an index. Neighbours differ.
fn pattern<T: Element>(salt: u64, index: usize) -> T {
    T::of((salt + index as u64).wrapping_mul(0x9E37_79B9_7F4A_7C15) >> 7)
}

impl<T: Element> Lent<T> {
    pub fn new(salt: u64, room: usize) -> Lent<T> {
        let salt = salt >> 1;
        Lent { all: (0..MARGIN + room + MARGIN).map(|index| pattern(salt, index)).collect(), salt }
    }

    /// What is lent.
    pub fn part(&mut self) -> &mut [T] {
        let end = self.all.len() - MARGIN;
        &mut self.all[MARGIN..end]
    }

    /// The same as an array, where so much is lent.
    pub fn array<const LENGTH: usize>(&mut self) -> &mut [T; LENGTH] {
        self.part().try_into().expect("the memory is lent in this length")
    }

    /// Whether this was written to its front, and all the rest kept its value.
    pub fn holds(&self, front: &[T]) -> bool {
        let end = MARGIN + front.len();
        let keeps = |index| self.all[index] == pattern(self.salt, index);
        self.all[MARGIN..end] == *front && (0..MARGIN).all(keeps) && (end..self.all.len()).all(keeps)
    }

    /// What is there and what should be there, with the margins, for people to read.
    pub fn shown(&self, front: &[T]) -> String {
        let mut right: Vec<T> = (0..self.all.len()).map(|index| pattern(self.salt, index)).collect();
        right[MARGIN..MARGIN + front.len()].copy_from_slice(front);
        let first = match self.all.iter().zip(&right).position(|(found, right)| found != right) {
            Some(index) => format!("the memory differs first at index {}", index as i64 - MARGIN as i64),
            None => "the memory is the same".to_string(),
        };
        let found = format!("the library's memory, with {MARGIN} elements before it and behind it: {:?}", self.all);
        format!("{first}\n{found}\nthe second program's: {right:?}")
    }
}
