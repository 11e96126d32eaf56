//! The verdict on a row: its refusals, the common tick, the trains in ticks, and then every pair up to the first that collides.

use super::numbers::{compare, earliest, multiple, Fraction, Train};
use super::{code, header, Refusal};
use crate::proved::Figures;

pub const NUMBERS: usize = header::NUMBERS as usize;
pub const CAPACITY: usize = header::TRAINS as usize;

#[derive(Clone, Copy)]
pub struct Entry {
    pub phase: Fraction,
    pub period: Fraction,
    pub duration: Fraction,
}

impl Entry {
    pub fn times(self) -> [Fraction; 3] {
        [self.phase, self.period, self.duration]
    }

    /// Refusals 2, 3 and 4, for the train at a position.
    pub fn check(self, position: usize) -> Result<(), Refusal> {
        if self.times().iter().any(|time| time.denominator == 0) {
            return Err(Refusal::of(header::REFUSAL_ZERO_DENOMINATOR, position));
        }
        if self.period.numerator == 0 || self.duration.numerator == 0 {
            return Err(Refusal::of(header::REFUSAL_ZERO_TIME, position));
        }
        if self.duration.above(self.period) {
            return Err(Refusal::of(header::REFUSAL_DURATION_ABOVE_PERIOD, position));
        }
        Ok(())
    }
}

/// The trains of a row, as they stand there.
pub fn entries(row: &[u32]) -> impl Iterator<Item = Entry> + '_ {
    let time = |numerator, denominator| Fraction { numerator, denominator };
    row.as_chunks().0.iter().map(move |&[a, b, c, d, e, f]| Entry {
        phase: time(a, b),
        period: time(c, d),
        duration: time(e, f),
    })
}

/// Refusals 1 to 4, in the order of saving.
pub fn check(row: &[u32]) -> Result<(), Refusal> {
    if row.len() % NUMBERS != 0 || row.len() > NUMBERS * CAPACITY {
        return Err(Refusal::TRAIN_COUNT);
    }
    entries(row).enumerate().try_for_each(|(position, entry)| entry.check(position))
}

fn common_multiple(row: &[u32]) -> Result<u32, Refusal> {
    let mut running = 1;
    for (position, entry) in entries(row).enumerate() {
        let lowest = entry.times().map(Fraction::lowest);
        for time in lowest {
            let too_fine = Refusal::of(header::REFUSAL_TICK_TOO_FINE, position);
            running = multiple(running, time.denominator).ok_or(too_fine)?;
        }
    }
    Ok(running)
}

/// Puts the trains in ticks to the front of the array, and hands them back.
fn in_ticks<'a>(row: &[u32], multiple: u32, trains: &'a mut [Train; CAPACITY]) -> Result<&'a [Train], Refusal> {
    for (position, (entry, train)) in entries(row).zip(trains.iter_mut()).enumerate() {
        let too_long = Refusal::of(header::REFUSAL_TIME_TOO_LONG, position);
        *train = Train {
            phase: entry.phase.ticks(multiple).ok_or(too_long)?,
            period: entry.period.ticks(multiple).ok_or(too_long)?,
            duration: entry.duration.ticks(multiple).ok_or(too_long)?,
        };
    }
    Ok(&trains[..row.len() / NUMBERS])
}

pub struct Meeting {
    pub first: usize,
    pub second: usize,
    pub tick: u64,
}

pub struct Verdict {
    pub multiple: u32,
    pub divisions: u32,
    pub meeting: Option<Meeting>,
}

/// The first two trains that collide, and the division count of all pairs up to there.
fn scan(trains: &[Train]) -> (Option<(usize, usize)>, u32) {
    let mut divisions = 0;
    for (first, a) in trains.iter().enumerate() {
        for (second, b) in trains.iter().enumerate().skip(first + 1) {
            let (free, taken) = compare(a, b);
            divisions += taken;
            if !free {
                return (Some((first, second)), divisions);
            }
        }
    }
    (None, divisions)
}

pub fn verdict(row: &[u32]) -> Result<Verdict, Refusal> {
    check(row)?;
    let multiple = common_multiple(row)?;
    let mut trains = [Train::default(); CAPACITY];
    let trains = in_ticks(row, multiple, &mut trains)?;
    let (pair, divisions) = scan(trains);
    let meeting = pair.map(|(first, second)| Meeting {
        first,
        second,
        tick: earliest(&trains[first], &trains[second]).unwrap_or(0),
    });
    Ok(Verdict { multiple, divisions, meeting })
}

/// Writes the figures of a verdict, and answers its number.
pub fn hand(verdict: Result<Verdict, Refusal>, figures: &mut Figures) -> u64 {
    let verdict = match verdict {
        Err(refusal) => return refusal.code(),
        Ok(verdict) => verdict,
    };
    figures[header::MULTIPLE as usize] = verdict.multiple.into();
    figures[header::DIVISIONS as usize] = verdict.divisions.into();
    let Some(meeting) = verdict.meeting else {
        return code(header::ACCEPTED, 0);
    };
    figures[header::FIRST as usize] = meeting.first as u64;
    figures[header::SECOND as usize] = meeting.second as u64;
    figures[header::TICK as usize] = meeting.tick;
    code(header::COLLIDE, 0)
}

#[inline(never)]
pub fn judge(row: &[u32], figures: &mut Figures) -> u64 {
    hand(verdict(row), figures)
}
