//! Trains and where two of them meet: tick by tick where that is short, and by the first multiple that falls in a range
//! modulo a number where it is long.

use crate::divisors::greatest_common_divisor;
use crate::paper::MOST_TICKS;

#[derive(Clone, Copy)]
pub struct Train {
    pub phase: i128,
    pub period: i128,
    pub duration: i128,
}

impl Train {
    /// 1 <= duration <= period.
    fn is_strict(self) -> bool {
        (1..=self.period).contains(&self.duration)
    }

    pub fn within_limits(self) -> bool {
        let most = MOST_TICKS.into();
        self.is_strict() && self.period <= most && self.phase <= most
    }

    fn claims(self, tick: i128) -> bool {
        tick >= self.phase && (tick - self.phase) % self.period < self.duration
    }
}

fn common_period(a: Train, b: Train) -> i128 {
    greatest_common_divisor(a.period as u128, b.period as u128) as i128
}

/// Whether no tick is ever claimed by both: looked for, and not by expression (1). On values that are no trains there is
/// nothing to look for, and the answer is what expression (1) says of them; two periods of 0 are never free.
pub fn free(a: Train, b: Train) -> bool {
    if a.is_strict() && b.is_strict() {
        return first_meeting(a, b).is_none();
    }
    let g = common_period(a, b);
    if g == 0 {
        return false;
    }
    let (first, second) = if b.phase < a.phase { (b, a) } else { (a, b) };
    let between = (second.phase - first.phase).rem_euclid(g);
    first.duration <= between && between <= g - second.duration
}

/// The earliest tick that both claim, for trains within the limits.
pub fn earliest(a: Train, b: Train) -> Option<i128> {
    if !a.within_limits() || !b.within_limits() {
        return None;
    }
    let hyperperiod = a.period / common_period(a, b) * b.period;
    let end = a.phase.max(b.phase) + hyperperiod;
    let by_range = first_meeting(a, b);
    if end <= 20_000 {
        let by_walking = (0..end).find(|&t| a.claims(t) && b.claims(t));
        assert_eq!(by_walking, by_range, "the second program disagrees with itself");
    }
    by_range
}

/// The first tick that both claim: there one of the two starts while the other runs.
fn first_meeting(a: Train, b: Train) -> Option<i128> {
    [stroke_in_run(a, b), stroke_in_run(b, a)].into_iter().flatten().min()
}

/// The first stroke of `a` that falls in a run of `b`.
fn stroke_in_run(a: Train, b: Train) -> Option<i128> {
    // the first stroke of a that is not before b's phase
    let skipped = if a.phase >= b.phase { 0 } else { (b.phase - a.phase + a.period - 1) / a.period };
    let stroke = a.phase + skipped * a.period;
    let ahead = (stroke - b.phase).rem_euclid(b.period);
    let step = a.period.rem_euclid(b.period);
    // step * k modulo b.period has to lie from -ahead to -ahead + duration - 1
    let low = (-ahead).rem_euclid(b.period);
    let high = low + b.duration - 1;
    let turns = if high < b.period {
        first_in_range(step, b.period, low, high)
    } else {
        // the range goes through 0, so k = 0 is in it
        Some(0)
    };
    turns.map(|k| stroke + k * a.period)
}

/// The least k >= 0 for which step * k modulo m lies from low to high, where 0 <= low <= high < m and 0 <= step < m.
fn first_in_range(step: i128, m: i128, low: i128, high: i128) -> Option<i128> {
    if low == 0 {
        return Some(0);
    }
    if step == 0 {
        return None;
    }
    let k = (low + step - 1) / step;
    if step * k <= high {
        return Some(k);
    }
    let y = first_in_range(m.rem_euclid(step), step, (-high).rem_euclid(step), (-low).rem_euclid(step))?;
    Some((low + m * y + step - 1) / step)
}
