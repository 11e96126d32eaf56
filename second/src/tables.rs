//! The verdict on a row, from the paper's words: the refusals in their order, then the pairs in theirs. Lowest terms
//! and the order of fractions come from continued fractions, L from prime factors, and collisions from looking for
//! them.

use crate::divisors::{division_count, greatest_common_divisor};
use crate::paper::{MOST_DIVISIONS_A_PAIR, MOST_MULTIPLE, MOST_NUMBERS, MOST_TICKS, NO_TRAIN, NUMBERS_A_TRAIN};
use crate::trains::{earliest, free, Train};
use std::collections::BTreeMap;
use std::fmt;

/// A table that repeats itself within so many ticks is walked tick by tick as well.
const WALKED_TICKS: i128 = 2_000;

pub enum Verdict {
    Accept { multiple: u32, divisions: u128 },
    Collide { meeting: Meeting, multiple: u32, divisions: u128 },
    Refuse { number: u32, train: usize },
}

/// Two positions of the table, and the earliest tick that both claim.
#[derive(PartialEq, Debug)]
pub struct Meeting {
    pub first: usize,
    pub second: usize,
    pub tick: i128,
}

impl fmt::Display for Verdict {
    fn fmt(&self, out: &mut fmt::Formatter) -> fmt::Result {
        match self {
            Verdict::Accept { multiple, divisions } => write!(out, "accept {multiple} {divisions}"),
            Verdict::Collide { meeting: Meeting { first, second, tick }, multiple, divisions } => {
                write!(out, "collide {first} {second} {tick} {multiple} {divisions}")
            }
            Verdict::Refuse { number, train } => write!(out, "refuse {number} {train}"),
        }
    }
}

impl Verdict {
    /// The printed line, with its end.
    pub fn line(&self) -> String {
        format!("{self}\n")
    }
}

/// The refusals in the paper's order, each with the train that it blames, and then the pairs.
pub fn verdict(row: &[u32]) -> Verdict {
    if row.len() % NUMBERS_A_TRAIN != 0 || row.len() > MOST_NUMBERS {
        return Verdict::Refuse { number: 1, train: NO_TRAIN };
    }
    let table: Vec<[Time; 3]> = row.chunks(NUMBERS_A_TRAIN).map(times).collect();
    for (train, of_train) in table.iter().enumerate() {
        if let Some(number) = fault(of_train) {
            return Verdict::Refuse { number, train };
        }
    }
    let multiple = match common_multiple(&table) {
        Ok(multiple) => multiple,
        Err(train) => return Verdict::Refuse { number: 5, train },
    };
    let trains: Vec<Train> = table.iter().map(|of_train| in_ticks(of_train, multiple)).collect();
    if let Some(train) = trains.iter().position(too_long) {
        return Verdict::Refuse { number: 6, train };
    }
    compared(&trains, multiple)
}

/// A time as it stands in the row.
#[derive(Clone, Copy, PartialEq)]
pub struct Time {
    pub numerator: u32,
    pub denominator: u32,
}

pub fn times(numbers: &[u32]) -> [Time; 3] {
    [0, 2, 4].map(|at| Time { numerator: numbers[at], denominator: numbers[at + 1] })
}

/// The first refusal of a train by itself.
pub fn fault(train: &[Time; 3]) -> Option<u32> {
    let [_, period, duration] = train;
    if train.iter().any(|time| time.denominator == 0) {
        Some(2)
    } else if period.numerator == 0 || duration.numerator == 0 {
        Some(3)
    } else if above(*duration, *period) {
        Some(4)
    } else {
        None
    }
}

/// Whether a is more than b: by their whole parts, and where those are equal by what is left, turned over.
fn above(a: Time, b: Time) -> bool {
    let (whole_a, whole_b) = (a.numerator / a.denominator, b.numerator / b.denominator);
    if whole_a != whole_b {
        return whole_a > whole_b;
    }
    let (left_a, left_b) = (a.numerator % a.denominator, b.numerator % b.denominator);
    if left_a == 0 || left_b == 0 {
        return left_a > left_b;
    }
    let over_a = Time { numerator: a.denominator, denominator: left_a };
    let over_b = Time { numerator: b.denominator, denominator: left_b };
    above(over_b, over_a)
}

/// The fraction in lowest terms: the last convergent of its continued fraction, which no division reduces.
pub fn lowest(time: Time) -> Time {
    let (mut n, mut m) = (time.numerator, time.denominator);
    let (mut before, mut last) = ((0u64, 1u64), (1u64, 0u64));
    while m != 0 {
        let whole = u64::from(n / m);
        (before, last) = (last, (whole * last.0 + before.0, whole * last.1 + before.1));
        (n, m) = (m, n % m);
    }
    Time { numerator: last.0 as u32, denominator: last.1 as u32 }
}

/// L, as the product of the prime powers that the denominators need, or the first train at which it is too large.
fn common_multiple(table: &[[Time; 3]]) -> Result<u32, usize> {
    let mut exponents = BTreeMap::new();
    let mut multiple = 1;
    for (at, train) in table.iter().enumerate() {
        for time in train {
            let denominator = lowest(*time).denominator;
            // a multiple of it is no smaller, so its factors are not needed
            if denominator > MOST_MULTIPLE {
                return Err(at);
            }
            multiple *= u64::from(missing(&mut exponents, denominator));
            if multiple > u64::from(MOST_MULTIPLE) {
                return Err(at);
            }
        }
    }
    Ok(multiple as u32)
}

/// Raises the exponents to those of the number, and answers the product of the primes that were missing for it.
fn missing(exponents: &mut BTreeMap<u32, u32>, number: u32) -> u32 {
    let (mut left, mut prime, mut product) = (number, 2, 1);
    while left > 1 {
        if prime * prime > left {
            prime = left;
        }
        let mut exponent = 0;
        while left % prime == 0 {
            left /= prime;
            exponent += 1;
        }
        let known = exponents.get(&prime).copied().unwrap_or(0);
        if exponent > known {
            product *= prime.pow(exponent - known);
            exponents.insert(prime, exponent);
        }
        prime += 1;
    }
    product
}

/// The train in ticks of 1/L, of which each of its times is a whole number.
fn in_ticks(train: &[Time; 3], multiple: u32) -> Train {
    let [phase, period, duration] = train.map(|time| {
        let product = i128::from(time.numerator) * i128::from(multiple);
        assert_eq!(product % i128::from(time.denominator), 0, "a time is no whole number of ticks");
        product / i128::from(time.denominator)
    });
    Train { phase, period, duration }
}

fn too_long(train: &Train) -> bool {
    [train.phase, train.period, train.duration].into_iter().any(|ticks| ticks > MOST_TICKS.into())
}

/// The pairs in the paper's order, until one collides.
fn compared(trains: &[Train], multiple: u32) -> Verdict {
    let pairs = (0..trains.len()).flat_map(|first| (first + 1..trains.len()).map(move |second| (first, second)));
    let mut divisions = 0;
    let mut meeting = None;
    for (first, second) in pairs {
        let (a, b) = (trains[first], trains[second]);
        let taken = division_count(a.period as u128, b.period as u128);
        assert!(taken <= MOST_DIVISIONS_A_PAIR, "more remainders than the paper allows");
        divisions += taken;
        if !free(a, b) {
            let tick = earliest(a, b).expect("a pair that is not free has a common tick");
            meeting = Some(Meeting { first, second, tick });
            break;
        }
    }
    if let Some(walked) = walked(trains) {
        assert_eq!(walked, meeting, "the second program disagrees with itself");
    }
    match meeting {
        None => Verdict::Accept { multiple, divisions },
        Some(meeting) => Verdict::Collide { meeting, multiple, divisions },
    }
}

/// The first colliding pair and its first tick, if any, from what every train claims until the table repeats itself;
/// nothing where that is late. At each tick the two lowest positions are the least pair there, so the least pair of all
/// is the least pair wherever it meets.
fn walked(trains: &[Train]) -> Option<Option<Meeting>> {
    let mut end = 1;
    for train in trains {
        let divisor = greatest_common_divisor(end as u128, train.period as u128) as i128;
        end = end / divisor * train.period;
        if end > WALKED_TICKS {
            return None;
        }
    }
    end += trains.iter().map(|train| train.phase).max().unwrap_or(0);
    if end > WALKED_TICKS {
        return None;
    }
    let mut claims = vec![Vec::new(); end as usize];
    for (position, train) in trains.iter().enumerate() {
        for start in (train.phase..end).step_by(train.period as usize) {
            for tick in start..end.min(start + train.duration) {
                claims[tick as usize].push(position);
            }
        }
    }
    let meetings = claims.iter().enumerate().filter(|(_, by)| by.len() > 1);
    let least = meetings.min_by_key(|(tick, by)| (by[0], by[1], *tick));
    Some(least.map(|(tick, by)| Meeting { first: by[0], second: by[1], tick: tick as i128 }))
}
