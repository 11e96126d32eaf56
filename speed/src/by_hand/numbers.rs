//! Euclid's method by remainders, fractions of 32 bits, and Korst's test of two trains.

use crate::proved::header::{MAX_MULTIPLE, MAX_TICKS};

/// The greatest common divisor of a and b, and the remainders that it took, larger number first.
pub fn common_divisor(a: u32, b: u32) -> (u32, u32) {
    let (mut a, mut b) = if a < b { (b, a) } else { (a, b) };
    let mut divisions = 0;
    while b != 0 {
        (a, b) = (b, a % b);
        divisions += 1;
    }
    (a, divisions)
}

#[derive(Clone, Copy)]
pub struct Fraction {
    pub numerator: u32,
    pub denominator: u32,
}

impl Fraction {
    /// The same fraction in lowest terms. Its denominator is not 0.
    pub fn lowest(self) -> Fraction {
        let (divisor, _) = common_divisor(self.numerator, self.denominator);
        Fraction { numerator: self.numerator / divisor, denominator: self.denominator / divisor }
    }

    pub fn is_lowest(self) -> bool {
        self.denominator != 0 && common_divisor(self.numerator, self.denominator).0 == 1
    }

    pub fn above(self, other: Fraction) -> bool {
        u64::from(other.numerator) * u64::from(self.denominator)
            < u64::from(self.numerator) * u64::from(other.denominator)
    }

    /// How many ticks of 1/multiple this time is, if a train takes so many.
    pub fn ticks(self, multiple: u32) -> Option<u32> {
        let ticks = u64::from(self.numerator) * u64::from(multiple) / u64::from(self.denominator);
        (ticks <= MAX_TICKS.into()).then_some(ticks as u32)
    }
}

/// The least common multiple, if a table takes it.
pub fn multiple(a: u32, b: u32) -> Option<u32> {
    let (divisor, _) = common_divisor(a, b);
    let multiple = u64::from(a / divisor) * u64::from(b);
    (multiple <= MAX_MULTIPLE.into()).then_some(multiple as u32)
}

#[derive(Clone, Copy, Default)]
pub struct Train {
    pub phase: u32,
    pub period: u32,
    pub duration: u32,
}

impl Train {
    pub fn within_limits(self) -> bool {
        self.duration != 0 && self.duration <= self.period && self.period <= MAX_TICKS && self.phase <= MAX_TICKS
    }
}

/// Whether two trains are free of collision for all time, and the division count of their periods.
pub fn compare(a: &Train, b: &Train) -> (bool, u32) {
    let (divisor, divisions) = common_divisor(a.period, b.period);
    let (early, late) = if a.phase <= b.phase { (a, b) } else { (b, a) };
    if divisor == 0 {
        return (false, divisions);
    }
    let offset = (late.phase - early.phase) % divisor;
    (offset >= early.duration && u64::from(offset) + u64::from(late.duration) <= divisor.into(), divisions)
}

/// The earliest tick that two trains within the limits both claim, which collide.
pub fn earliest(a: &Train, b: &Train) -> Option<u64> {
    let (early, late) = if a.phase <= b.phase { (a, b) } else { (b, a) };
    let period = u64::from(early.period);
    let turns = early.period / common_divisor(early.period, late.period).0;
    let mut start = u64::from(late.phase);
    for _ in 0..turns {
        let into = (start - u64::from(early.phase)) % period;
        if into < early.duration.into() {
            return Some(start);
        }
        let left = period - into;
        if left < late.duration.into() {
            return Some(start + left);
        }
        start += u64::from(late.period);
    }
    None
}
