//! The paper's numbers, as this program has read them. Where the header of the library has the same number, `library` holds
//! the two to each other.

pub const MOST_TRAINS: usize = 64;
pub const NUMBERS_A_TRAIN: usize = 6;
pub const MOST_NUMBERS: usize = MOST_TRAINS * NUMBERS_A_TRAIN;
pub const MOST_MULTIPLE: u32 = 1_000_000;
pub const MOST_TICKS: u32 = 10_000_000;
pub const MOST_DIVISIONS_A_PAIR: u128 = 33;

/// A stored table: the mark, the version and the count, and then each train.
pub const HEAD: usize = 7;
pub const BYTES_A_TRAIN: usize = 24;
pub const LONGEST_FILE: usize = HEAD + MOST_TRAINS * BYTES_A_TRAIN;

/// A listing that is read has no more bytes.
pub const LONGEST_TEXT: usize = 32_768;

/// The places of a dispatcher.
pub const PLACES: usize = 64;

/// What a refusal carries that names no train, or no place.
pub const NO_TRAIN: usize = 64;
pub const NO_PLACE: usize = NO_TRAIN;
