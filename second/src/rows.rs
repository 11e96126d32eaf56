//! Rows drawn from a seed. Each kind is aimed at a place of the paper where a program is likely to go wrong. What verdict a
//! row deserves is not settled here.
//!
//! A search for the earliest common tick may take as many turns as a period has the divisor of both in it. So where
//! trains collide that number is modest, but for one row in `LARGE` of some kinds.

use crate::divisors::greatest_common_divisor;
use crate::draw::Draw;
use crate::paper::{self, MOST_NUMBERS, NUMBERS_A_TRAIN};

const MOST_TRAINS: u64 = paper::MOST_TRAINS as u64;
const MOST_MULTIPLE: u64 = paper::MOST_MULTIPLE as u64;
const MOST_TICKS: u64 = paper::MOST_TICKS as u64;
const LARGEST: u64 = u32::MAX as u64;

/// The longest row but for a few, beyond the numbers that a table takes.
const LONGEST: u64 = 400;

/// Lengths far beyond, the last of which is six trains in 16 bits.
const FAR: [usize; 6] = [402, 408, 768, 4_096, 65_538, 3 * 65_536 + 36];

/// One row in so many of its kind has trains that may meet only after millions of periods.
const LARGE: u64 = 700;

/// L, from whole milliseconds to the finest tick.
const MULTIPLES: [u64; 16] = [1, 1, 1, 1, 2, 3, 7, 12, 13, 60, 1_000, 65_536, 720_720, 999_983, 999_999, MOST_MULTIPLE];

/// L at its limit or above half of it, so that any new factor passes the limit.
const NEARLY_TOO_FINE: [u64; 8] = [MOST_MULTIPLE, MOST_MULTIPLE, 999_999, 999_983, 999_000, 720_720, 524_288, 510_510];

/// L just above its limit, though none of its prime powers is.
const JUST_TOO_FINE: [u64; 3] = [1_000_001, 1_000_002, 1_000_008];

/// Phase, period and duration in ticks.
type Strokes = [u64; 3];

/// The kinds that come round in turn, after one of every length.
const KINDS: [fn(&mut Draw) -> Vec<u32>; 15] = [
    small,
    accepted,
    fibonacci,
    boundary,
    nearly_apart,
    coprime,
    ties,
    duration_at_period,
    bad_trains,
    faults,
    spread,
    too_fine,
    long_time,
    wrapped,
    giants,
];

/// The row of a case: its kind by the case's number, the rest by the seed.
pub fn row(seed: u64, case: u64) -> Vec<u32> {
    let draw = &mut Draw::new(seed, case);
    let round = KINDS.len() as u64 + 1;
    match case % round {
        0 => every_length(draw, case / round),
        kind => KINDS[kind as usize - 1](draw),
    }
}

// ---- trains in ticks, and how they are written down

/// A small number of trains.
fn few(draw: &mut Draw) -> u64 {
    draw.between(1, 6)
}

/// A number of trains, small ones more often.
fn some(draw: &mut Draw) -> u64 {
    match draw.between(0, 15) {
        0..=8 => draw.between(2, 5),
        9..=12 => draw.between(6, 12),
        13..=14 => draw.between(13, 30),
        _ => draw.of(&[31, 48, 63, MOST_TRAINS]),
    }
}

/// Trains that never meet: each period is a multiple of one base, in which each train has a slot of its own. Where
/// there is nothing between the slots, each run may begin as another ends. The slots are in the order of the trains.
fn apart(draw: &mut Draw, count: u64, multiples: &[u64]) -> Vec<Strokes> {
    let widest = draw.of(&[1, 1, 2, 9, 60, 1_000]);
    let loosest = draw.of(&[0, 0, 1, widest]);
    let mut base = 0;
    let mut slots = Vec::new();
    for _ in 0..count {
        let duration = draw.between(1, widest);
        slots.push((base, duration));
        base += duration + draw.between(0, loosest);
    }
    let turned = draw.between(0, base - 1);
    let latest = draw.of(&[0, 0, 3, MOST_TICKS / base - 2]);
    let most = MOST_TICKS / base;
    let train = |(start, duration)| {
        let phase = (start + turned) % base + base * draw.between(0, latest);
        [phase, base * draw.of(multiples).min(most), duration]
    };
    slots.into_iter().map(train).collect()
}

/// Multiples of the base for the periods, none of which is many times the divisor of two.
fn modest(draw: &mut Draw) -> &'static [u64] {
    draw.of(&[&[1][..], &[1, 2], &[1, 2, 3, 4, 5, 6], &[2, 3, 5, 8, 13, 21, 34]])
}

/// Ticks of 1/L as a fraction, in lowest terms or as far from them as is drawn.
fn fraction(draw: &mut Draw, ticks: u64, multiple: u64, furthest: u64) -> [u32; 2] {
    let divisor = greatest_common_divisor(ticks.into(), multiple.into()) as u64;
    let (numerator, denominator) = (ticks / divisor, multiple / divisor);
    let factor = draw.between(1, furthest.min(LARGEST / numerator.max(denominator)));
    [(numerator * factor) as u32, (denominator * factor) as u32]
}

/// The row of trains in ticks of 1/L, which is the common tick unless a coarser one serves all their times.
fn written(draw: &mut Draw, trains: &[Strokes], multiple: u64) -> Vec<u32> {
    let furthest = draw.of(&[1, 1, 12, LARGEST]);
    trains.iter().flatten().flat_map(|ticks| fraction(draw, *ticks, multiple, furthest)).collect()
}

fn written_somehow(draw: &mut Draw, trains: &[Strokes]) -> Vec<u32> {
    let multiple = draw.of(&MULTIPLES);
    written(draw, trains, multiple)
}

// ---- tables that pass the refusals

/// Every length in turn: numbers in which no other refusal finds a fault, or any numbers.
fn every_length(draw: &mut Draw, round: u64) -> Vec<u32> {
    let length = (round % (LONGEST + 1)) as usize;
    let trains = apart(draw, LONGEST / NUMBERS_A_TRAIN as u64 + 1, &[1, 2, 3]);
    let mut row = written_somehow(draw, &trains);
    if draw.once_in(4) {
        row.fill_with(|| any_number(draw));
    }
    if draw.once_in(100) {
        return row.into_iter().cycle().take(draw.of(&FAR)).collect();
    }
    row.truncate(length);
    row
}

/// Tables so small that anything may happen.
fn small(draw: &mut Draw) -> Vec<u32> {
    let mut trains = Vec::new();
    for _ in 0..draw.between(1, 4) {
        let period = draw.between(1, 12);
        trains.push([draw.between(0, 15), period, draw.between(1, 1 + period / 4)]);
    }
    let multiple = draw.of(&[1, 1, 2, 3, 10]);
    written(draw, &trains, multiple)
}

/// Trains that never meet, in any order.
fn accepted(draw: &mut Draw) -> Vec<u32> {
    let count = some(draw);
    let multiples = modest(draw);
    let mut trains = apart(draw, count, multiples);
    draw.shuffle(&mut trains);
    written_somehow(draw, &trains)
}

/// Periods in the ratio of Fibonacci numbers, which take the most remainders: trains that never meet, or one of them
/// moved by a tick.
fn fibonacci(draw: &mut Draw) -> Vec<u32> {
    let mut numbers = vec![1, 2];
    while numbers[numbers.len() - 1] < MOST_TICKS {
        numbers.push(numbers[numbers.len() - 1] + numbers[numbers.len() - 2]);
    }
    let count = some(draw);
    let is_free = draw.once_in(2);
    let end = if is_free || draw.once_in(LARGE) { draw.between(2, numbers.len() as u64) } else { 14 } as usize;
    let begin = draw.of(&[0, end - 2]);
    let mut trains = apart(draw, count, &numbers[begin..end]);
    if !is_free {
        move_one(draw, &mut trains);
    }
    draw.shuffle(&mut trains);
    written_somehow(draw, &trains)
}

// ---- collisions

/// Two trains whose phases are apart, modulo the divisor of the periods, by just what expression (1) asks, by one tick
/// less or more, or by any number. Either may stand first.
fn boundary(draw: &mut Draw) -> Vec<u32> {
    // the divisor and how many times a period has it, each from and to; the last is for ticks above 32 bits
    let usual = draw.of(&[[2, 4, 1, 9], [2, 12, 1, 900], [2, 10_000, 1, 9], [9_000, 10_000, 800, 950]]);
    let [smallest, largest, fewest, most] = if draw.once_in(LARGE) { [2, 4, 1, 2_000_000] } else { usual };
    let divisor = draw.between(smallest, largest);
    let multiple = draw.between(fewest, most);
    let other = draw.between(fewest, most);
    let multiples = [multiple, draw.of(&[1, multiple + 1, multiple + 1, other])];
    let earlier = draw.between(1, divisor - 1);
    let later = draw.between(1, divisor - earlier);
    let anywhere = draw.between(0, divisor);
    let between = draw.of(&[0, earlier - 1, earlier, divisor - later, divisor - later + 1, anywhere]);
    let phase = draw.of(&[0, 1, 17, 5_000_000]);
    let latest = draw.of(&[0, 0, 3, 4_900_000 / divisor]);
    let mut trains = [
        [phase, divisor * multiples[0], earlier],
        [phase + between + divisor * draw.between(0, latest), divisor * multiples[1], later],
    ];
    draw.shuffle(&mut trains);
    written_somehow(draw, &trains)
}

/// The phase of the last train or of another one tick later or earlier, or its duration one tick longer.
fn move_one(draw: &mut Draw, trains: &mut [Strokes]) {
    let last = trains.len() - 1;
    let train = if draw.once_in(2) { last } else { draw.position(trains.len()) };
    let [phase, period, duration] = &mut trains[train];
    match draw.between(0, 3) {
        0 => *phase += 1,
        1 => *duration = (*duration + 1).min(*period),
        // nothing is earlier than 0, but a period later is as good
        _ if *phase == 0 => *phase = *period - 1,
        _ => *phase -= 1,
    }
}

/// Trains that never meet, but that one is moved by a tick. Where their order is kept, it may be the last two that
/// meet.
fn nearly_apart(draw: &mut Draw) -> Vec<u32> {
    let count = some(draw);
    let multiples = modest(draw);
    let mut trains = apart(draw, count, multiples);
    move_one(draw, &mut trains);
    if draw.once_in(2) {
        draw.shuffle(&mut trains);
    }
    written_somehow(draw, &trains)
}

/// Two periods with divisor 1, alone or behind a train that is free of both.
fn coprime(draw: &mut Draw) -> Vec<u32> {
    let largest = if draw.once_in(LARGE) { MOST_TICKS - 1 } else { draw.of(&[9, 300, 300]) };
    let a = draw.between(2, largest);
    let b = a + 1;
    let latest = draw.of(&[0, 30]);
    let turns = [draw.between(0, latest), draw.between(0, latest)];
    if a <= 3_000 && draw.once_in(2) {
        let trains = [[0, a * b, 1], [1 + a * turns[0], a, 1], [1 + b * turns[1], b, 1]];
        return written_somehow(draw, &trains);
    }
    let mut durations = || draw.between(1, 1 + a / 20);
    let mut trains = [[turns[0], a, durations()], [turns[1], b, durations()]];
    draw.shuffle(&mut trains);
    written_somehow(draw, &trains)
}

/// Trains that never meet, but that one is given the phase of another, or is the same train, up to three times.
fn ties(draw: &mut Draw) -> Vec<u32> {
    let count = some(draw);
    let multiples = modest(draw);
    let mut trains = apart(draw, count, multiples);
    draw.shuffle(&mut trains);
    for _ in 0..draw.between(1, 3) {
        let (from, to) = (draw.position(trains.len()), draw.position(trains.len()));
        if draw.once_in(2) {
            trains[to] = trains[from];
        } else {
            trains[to][0] = trains[from][0];
        }
    }
    written_somehow(draw, &trains)
}

// ---- refusals

/// A duration that is its period over another denominator, or just above or below it.
fn duration_at_period(draw: &mut Draw) -> Vec<u32> {
    let count = draw.of(&[1, 1, 2, 4]);
    let mut row: Vec<u32> = apart(draw, count, &[1, 2]).iter().flatten().flat_map(|t| [*t as u32, 1]).collect();
    let at = draw.position(count as usize) * NUMBERS_A_TRAIN;
    let [period, duration] = if draw.once_in(4) {
        // their cross products of 64 bits differ by 1, and floats of 64 bits do not tell them apart
        let n = u32::MAX - draw.between(0, 1_000) as u32;
        let mut pair = [[n, n - 1], [n - 1, n - 2]];
        draw.shuffle(&mut pair);
        pair
    } else {
        let (n, m) = (draw.between(1, 60) as u32, draw.of(&[1, 1, 2, 3, 13, 64]));
        let most = draw.of(&[3, 60, u64::from(u32::MAX / n.max(m) - 1)]);
        let factor = draw.between(1, most) as u32;
        [[n, m], [n * factor + draw.of(&[0, 0, 1]) - draw.of(&[0, 0, 1]), m * factor]]
    };
    row[at + 2..at + 4].copy_from_slice(&period);
    row[at + 4..at + 6].copy_from_slice(&duration);
    row
}

/// Gives a train, or the row, a fault that mostly deserves the refusal of that number, if no other comes before it.
fn harm(draw: &mut Draw, row: &mut Vec<u32>, at: usize, number: u32) {
    let train = &mut row[at * NUMBERS_A_TRAIN..][..NUMBERS_A_TRAIN];
    match number {
        2 => train[draw.of(&[1, 3, 5])] = 0,
        3 => train[draw.of(&[2, 4])] = 0,
        4 => {
            let factor = draw.between(1, 9) as u32;
            train[4] = train[2].saturating_mul(factor).saturating_add(1);
            train[5] = train[3].saturating_mul(factor);
        }
        // a phase or a duration over a prime, or over a power
        5 => {
            let time = draw.of(&[0, 4]);
            train[time] = 1;
            train[time + 1] = draw.of(&[1_000_003, 4_294_967_291, u32::MAX, 1 << 20, 1 << 31]);
        }
        6 => train[..2].copy_from_slice(&[draw.of(&[10_000_001, 4_294_968, u32::MAX]), 1]),
        _ => {
            if draw.once_in(2) {
                row.truncate(row.len() - draw.between(1, 5) as usize);
            } else {
                row.resize(draw.between(MOST_NUMBERS as u64 + 1, LONGEST) as usize, 1);
            }
        }
    }
}

/// Trains that never meet, with up to four faults: about half of them in one train.
fn harmed(draw: &mut Draw, numbers: &[u32]) -> Vec<u32> {
    let count = some(draw);
    let multiples = modest(draw);
    let mut trains = apart(draw, count, multiples);
    draw.shuffle(&mut trains);
    let mut row = written_somehow(draw, &trains);
    let favourite = draw.position(trains.len());
    let mut wanted: Vec<u32> = (0..draw.between(1, 4)).map(|_| draw.of(numbers)).collect();
    // the length last, as it takes trains away
    wanted.sort_by_key(|number| std::cmp::Reverse(*number));
    for number in wanted {
        let at = if draw.once_in(2) { favourite } else { draw.position(trains.len()) };
        harm(draw, &mut row, at, number);
        if number == 1 {
            break;
        }
    }
    row
}

/// Some trains that are bad by themselves, among good ones.
fn bad_trains(draw: &mut Draw) -> Vec<u32> {
    harmed(draw, &[2, 3, 4])
}

/// Some faults of any kind, so that their order counts.
fn faults(draw: &mut Draw) -> Vec<u32> {
    harmed(draw, &[1, 2, 3, 4, 5, 5, 6, 6])
}

/// The prime powers whose product is the number.
fn prime_powers(mut number: u64) -> Vec<u64> {
    let mut powers = Vec::new();
    let mut prime = 2;
    while prime * prime <= number {
        let mut power = 1;
        while number % prime == 0 {
            number /= prime;
            power *= prime;
        }
        powers.push(power);
        prime += 1;
    }
    powers.push(number);
    powers.retain(|power| *power > 1);
    powers
}

/// Denominators of phases and durations, among which the prime powers of their common multiple lie anywhere, and now
/// and then the multiple itself.
fn denominators(draw: &mut Draw, count: u64, multiple: u64) -> Vec<[u64; 2]> {
    let powers = prime_powers(multiple);
    let mut choices = powers.clone();
    choices.extend([1, 1]);
    let mut table: Vec<[u64; 2]> = (0..count).map(|_| [draw.of(&choices), draw.of(&choices)]).collect();
    let whole = draw.once_in(4).then_some(multiple);
    for number in powers.into_iter().chain(whole) {
        table[draw.position(count as usize)][draw.position(2)] = number;
    }
    table
}

/// The row of such denominators, with numerators that have no factor of them. The periods are whole milliseconds, so
/// that two of them are few times their divisor.
fn over(draw: &mut Draw, denominators: &[[u64; 2]], longest: u64) -> Vec<u32> {
    let mut row = Vec::new();
    let furthest = draw.of(&[1, 1, 9, 4_000]);
    for [of_phase, of_duration] in denominators {
        let whole = draw.between(0, longest.min(LARGEST / of_phase - 1));
        let phase = [whole * of_phase + draw.of(&[1, 1, of_phase - 1]), *of_phase];
        let duration = [draw.of(&[1, 1, (of_duration - 1).max(1)]), *of_duration];
        let period = [draw.between(1, longest), 1];
        for time in [phase, period, duration] {
            let factor = draw.between(1, furthest.min(LARGEST / time[0].max(time[1])));
            row.extend(time.map(|number| (number * factor) as u32));
        }
    }
    row
}

/// A running multiple that comes to its limit, or near it, and stays there.
fn spread(draw: &mut Draw) -> Vec<u32> {
    let multiple = draw.of(&NEARLY_TOO_FINE);
    let count = few(draw);
    let denominators = denominators(draw, count, multiple);
    over(draw, &denominators, MOST_TICKS / multiple - 1)
}

/// A running multiple that passes the limit, at any train, by one small factor more or by just a little.
fn too_fine(draw: &mut Draw) -> Vec<u32> {
    let small = some(draw);
    let count = draw.between(small, MOST_TRAINS);
    let last = count as usize - 1;
    let at = if draw.once_in(4) { last } else { draw.position(count as usize) };
    let time = draw.position(2);
    let is_spread = draw.once_in(4);
    let multiple = if is_spread { draw.of(&JUST_TOO_FINE) } else { draw.of(&NEARLY_TOO_FINE) };
    let mut denominators = denominators(draw, count, multiple);
    if !is_spread {
        let new: Vec<u64> = [2, 3, 5, 7, 11, 17, 37, 101, 4_241].into_iter().filter(|p| multiple % p != 0).collect();
        denominators[at][time] *= draw.of(&new);
    }
    if draw.once_in(8) {
        denominators[at][time] = draw.of(&[1_000_001, 1_000_003, 4_294_967_291, LARGEST]);
    }
    let mut row = over(draw, &denominators, 3);
    if draw.once_in(4) {
        // the period as what is too fine; it is above 1, which no duration here is
        row[at * NUMBERS_A_TRAIN + 2..][..2].copy_from_slice(&[1_000_004, 1_000_003]);
    }
    row
}

/// A phase, a period or a duration at the limit of ticks or beside it. Where it is within the limit, the base of the
/// other periods divides it, so that it is modestly many times the divisor.
fn long_time(draw: &mut Draw) -> Vec<u32> {
    let ticks =
        draw.of(&[9_999_999, 10_000_000, 10_000_000, 10_000_001, 10_000_001, 10_000_002, 16_777_216, 20_000_000]);
    let base = if ticks == 9_999_999 { draw.of(&[2_151, 4_649, 41_841]) } else { draw.of(&[500, 12_500, 100_000]) };
    let slot = base / 8;
    // each phase is one tick more than a slot's start, so that the first keeps L as it is drawn
    let trains = 0..few(draw);
    let mut trains: Vec<Strokes> =
        trains.map(|at| [at * slot + 1, base * draw.between(1, 9), draw.between(1, slot)]).collect();
    for _ in 0..draw.of(&[1, 1, 2]) {
        let at = draw.position(trains.len());
        match draw.between(0, 3) {
            0 => trains[at][0] = ticks,
            1 | 2 => trains[at][1] = ticks,
            _ => trains[at] = [1, ticks, ticks],
        }
    }
    let multiple = draw.of(&[1, 1, 7, 13, 64, 999_983, MOST_MULTIPLE]);
    written(draw, &trains, multiple)
}

/// A phase or a period so long that its ticks are few again in 32 bits, among good trains.
fn wrapped(draw: &mut Draw) -> Vec<u32> {
    let count = few(draw);
    let trains: Vec<Strokes> = (0..count).map(|at| [at * 1_000 + 1, 64_000 * draw.between(1, 9), 1_000]).collect();
    let multiple = draw.of(&[64, 640, 64_000, MOST_MULTIPLE]);
    let mut row = written(draw, &trains, multiple);
    let time = draw.position(trains.len()) * NUMBERS_A_TRAIN + draw.of(&[0, 2]);
    let turns = draw.of(&[0, 1, 1, 2, 63]);
    row[time..time + 2].copy_from_slice(&[((turns << 26) + draw.between(1, 9)) as u32, 1]);
    row
}

/// A number of any size, the limits and their neighbours among them; seldom 0.
fn any_number(draw: &mut Draw) -> u32 {
    match draw.between(0, 40) {
        0 => 0,
        1..=4 => draw.of(&[u32::MAX, u32::MAX - 1, 1 << 31, 1 << 16, 4_294_967_291]),
        5..=8 => draw.of(&[999_999, 1_000_000, 1_000_001, 9_999_999, 10_000_000, 10_000_001]),
        9..=16 => draw.between(0, LARGEST) as u32,
        17..=28 => 1,
        _ => draw.between(1, 60) as u32,
    }
}

/// A few trains of any numbers.
fn giants(draw: &mut Draw) -> Vec<u32> {
    let count = draw.between(1, 4) as usize;
    (0..count * NUMBERS_A_TRAIN).map(|_| any_number(draw)).collect()
}
