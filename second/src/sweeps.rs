//! Good files, stored tables or listings, each damaged in every place in turn: every beginning of it, and it with every byte
//! changed, to all other values where the file is small and to a few drawn ones where it is not.

use crate::draw::Draw;

/// Other files than small ones get so many drawn values at every place.
const DRAWN: usize = 3;

/// Every so many files a small one.
const TURNS: u64 = 8;

pub struct Sweeps {
    seed: u64,
    /// Draws a good file.
    good: fn(&mut Draw) -> Vec<u8>,
    /// A file of no more bytes is small: it gets every other value at every place.
    small: usize,
    /// How many files were swept.
    swept: u64,
    /// What is still to come of this one.
    next: Box<dyn Iterator<Item = Vec<u8>>>,
}

impl Sweeps {
    pub fn new(seed: u64, good: fn(&mut Draw) -> Vec<u8>, small: usize) -> Sweeps {
        Sweeps { seed, good, small, swept: 0, next: Box::new(std::iter::empty()) }
    }

    /// The next damaged file, without end.
    pub fn file(&mut self) -> Vec<u8> {
        loop {
            if let Some(file) = self.next.next() {
                return file;
            }
            let mut draw = Draw::new(self.seed, self.swept);
            let file = (self.good)(&mut draw);
            self.next = match self.swept % TURNS {
                0 => whole_sweep(self.small_file(draw, file)),
                _ => drawn_sweep(draw, file),
            };
            self.swept += 1;
        }
    }

    /// The file, or the first small one that is drawn after it.
    fn small_file(&self, mut draw: Draw, mut file: Vec<u8>) -> Vec<u8> {
        while file.len() > self.small {
            file = (self.good)(&mut draw);
        }
        file
    }
}

/// Every beginning of a file, the whole of it first.
fn beginnings(file: Vec<u8>) -> impl Iterator<Item = Vec<u8>> {
    (0..=file.len()).rev().map(move |length| file[..length].to_vec())
}

fn changed(file: &[u8], at: usize, byte: u8) -> Vec<u8> {
    let mut file = file.to_vec();
    file[at] = byte;
    file
}

/// A small file with each byte changed to each other value.
fn whole_sweep(file: Vec<u8>) -> Box<dyn Iterator<Item = Vec<u8>>> {
    let values = (0..file.len()).flat_map(|at| (1..=255).map(move |further| (at, further)));
    let original = file.clone();
    let swept = values.map(move |(at, further)| changed(&file, at, file[at].wrapping_add(further)));
    Box::new(beginnings(original).chain(swept))
}

/// A file of any length with each byte changed to a few other values.
fn drawn_sweep(mut draw: Draw, file: Vec<u8>) -> Box<dyn Iterator<Item = Vec<u8>>> {
    let original = file.clone();
    let places = (0..file.len()).flat_map(|at| [at; DRAWN]);
    let swept = places.map(move |at| changed(&file, at, file[at].wrapping_add(draw.between(1, 255) as u8)));
    Box::new(beginnings(original).chain(swept))
}
