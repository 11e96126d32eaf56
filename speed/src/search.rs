//! Looks for accepted tables whose verdict takes many divisions, by climbing; what it finds is what data.rs has. Nothing says
//! that there is no better one.
//!
//! With runs of one tick two trains are free exactly where their phases differ by the divisor of their periods. So trains of the
//! same period are free wherever they start at different ticks, and take one division each pair. All others are put into
//! classes, of which any two have residues that differ by the divisor of their bases; the period of a class is a multiple of
//! its base. Each turn takes a shape of classes, begins with Fibonacci's numbers or any, and then by turns gives a class the
//! best of all periods that it may have beside the others, and moves trains from class to class, as long as that helps.

use crate::by_hand::common_divisor;
use crate::data::{self, MOST_TICKS, TRAINS};
use crate::proved::{self, header, DIVISIONS, FIGURES};
use std::time::{Duration, Instant};

/// The bases of the classes, with their residues.
const SHAPES: [&[(u32, u32)]; 9] = [
    &[(3, 0), (3, 1), (3, 2)],
    &[(4, 0), (4, 1), (4, 2), (4, 3)],
    &[(6, 0), (6, 1), (6, 2), (6, 3), (6, 4), (6, 5)],
    &[(8, 0), (8, 1), (8, 2), (8, 3), (8, 4), (8, 5), (8, 6), (8, 7)],
    &[(2, 0), (4, 1), (4, 3)],
    &[(2, 0), (6, 1), (6, 3), (6, 5)],
    &[(4, 0), (4, 2), (6, 1), (6, 3), (6, 5)],
    &[(4, 0), (4, 1), (4, 2), (8, 3), (8, 7)],
    &[(4, 0), (4, 1), (4, 2), (12, 3), (12, 7), (12, 11)],
];

/// No two periods with a common divisor take more.
const MOST_A_PAIR: u32 = 31;

/// Numbers drawn from a seed (SplitMix64).
struct Draw(u64);

impl Draw {
    fn below(&mut self, end: u32) -> u32 {
        self.0 = self.0.wrapping_add(0x9E37_79B9_7F4A_7C15);
        let mut drawn = self.0;
        drawn = (drawn ^ (drawn >> 30)).wrapping_mul(0xBF58_476D_1CE4_E5B9);
        drawn = (drawn ^ (drawn >> 27)).wrapping_mul(0x94D0_49BB_1331_11EB);
        ((drawn ^ (drawn >> 31)) % u64::from(end)) as u32
    }
}

#[derive(Clone)]
struct Class {
    base: u32,
    residue: u32,
    period: u32,
    trains: u32,
}

/// Prints each table that is better than all before it, for so many seconds.
pub fn climb(seed: u64, seconds: u64) {
    let end = Instant::now() + Duration::from_secs(seconds);
    let mut draw = Draw(seed);
    let (mut best, mut turns) = (0, 0);
    while Instant::now() < end {
        let mut classes = beginning(&mut draw);
        while Instant::now() < end && improved(&mut classes) {}
        turns += 1;
        if divisions(&classes) > best {
            best = divisions(&classes);
            println!("seed {seed}, turn {turns}: {best} divisions");
            print(&classes);
            assert_eq!(judged(&classes), Some(best), "the table is accepted, with these divisions");
        }
    }
    println!("seed {seed}: {turns} turns in {seconds} s, the most divisions that were found are {best}");
}

fn print(classes: &[Class]) {
    for Class { base, residue, period, trains } in classes.iter().filter(|class| class.trains > 0) {
        println!("    {trains} trains with the period {period}, from ticks on that leave {residue} by {base}");
    }
}

/// The division count of the verdict on the table, if it is accepted.
fn judged(classes: &[Class]) -> Option<u32> {
    let of_class = |class: &Class| -> Vec<[u32; 3]> {
        (0..class.trains).map(|number| [class.residue + class.base * number, class.period, 1]).collect()
    };
    let trains: Vec<[u32; 3]> = classes.iter().flat_map(of_class).collect();
    let mut figures = [0; FIGURES];
    let answer = proved::judge(&data::whole(&trains), &mut figures);
    (answer == proved::code(header::ACCEPTED, 0)).then_some(figures[DIVISIONS] as u32)
}

/// The classes of a shape: the first three with as many trains each, and with Fibonacci's numbers as periods, or with any.
fn beginning(draw: &mut Draw) -> Vec<Class> {
    let shape = SHAPES[draw.below(SHAPES.len() as u32) as usize];
    let common = shape[..3].iter().fold(1, |common, &(base, _)| common / common_divisor(common, base).0 * base);
    let mut numbers = [1, 1];
    while common * (numbers[0] + numbers[1]) <= MOST_TICKS {
        numbers = [numbers[0] + numbers[1], numbers[0]];
    }
    let [a, b] = numbers;
    let is_drawn = draw.below(2) == 0;
    let class = |(number, &(base, residue)): (usize, &(u32, u32))| {
        let any = base * (1 + draw.below(MOST_TICKS / base));
        let fibonacci = [a, b, a - b].get(number).map_or(any, |number| common * number);
        let trains = TRAINS / 3 + u32::from(number == 0);
        Class {
            base,
            residue,
            period: if is_drawn { any } else { fibonacci },
            trains: if number < 3 { trains } else { 0 },
        }
    };
    shape.iter().enumerate().map(class).collect()
}

/// Whether a period for one of the classes, or a train in another class, made it better.
fn improved(classes: &mut [Class]) -> bool {
    let before = divisions(classes);
    for class in 0..classes.len() {
        classes[class].period = best_period(classes, class);
        while moved(classes) {}
    }
    divisions(classes) > before
}

/// The divisions of all pairs: one for each pair of a class.
fn divisions(classes: &[Class]) -> u32 {
    let of_class = |(number, class): (usize, &Class)| {
        let others = classes[..number].iter().map(|other| other.trains * taken(other.period, class.period));
        class.trains * class.trains.saturating_sub(1) / 2 + class.trains * others.sum::<u32>()
    };
    classes.iter().enumerate().map(of_class).sum()
}

fn taken(a: u32, b: u32) -> u32 {
    common_divisor(a, b).1
}

/// The period that one train of this class takes the most divisions with, beside all trains of the others.
fn best_period(classes: &[Class], number: usize) -> u32 {
    let mut others = [&classes[..number], &classes[number + 1..]].concat();
    others.retain(|other| other.trains > 0);
    others.sort_by_key(|other| std::cmp::Reverse(other.trains));
    let Class { base, period, .. } = classes[number];
    let mut best = (period, beside(period, &others, 0).unwrap_or(0));
    for period in (base..=MOST_TICKS).step_by(base as usize) {
        if let Some(divisions) = beside(period, &others, best.1) {
            best = (period, divisions);
        }
    }
    best.0
}

/// The divisions of a train with this period and all of these, if they are more than so many.
fn beside(period: u32, others: &[Class], least: u32) -> Option<u32> {
    let mut left: u32 = others.iter().map(|other| other.trains).sum();
    let mut sum = 0;
    for other in others {
        left -= other.trains;
        sum += other.trains * taken(period, other.period);
        if sum + left * MOST_A_PAIR <= least {
            return None;
        }
    }
    Some(sum)
}

/// Moves the train from class to class that helps most, if one helps.
fn moved(classes: &mut [Class]) -> bool {
    let before = divisions(classes);
    let mut best = (before, 0, 0);
    for from in 0..classes.len() {
        for to in (0..classes.len()).filter(|&to| to != from && classes[from].trains > 0).collect::<Vec<_>>() {
            move_train(classes, from, to);
            best = best.max((divisions(classes), from, to));
            move_train(classes, to, from);
        }
    }
    let (divisions, from, to) = best;
    if divisions > before {
        move_train(classes, from, to);
    }
    divisions > before
}

fn move_train(classes: &mut [Class], from: usize, to: usize) {
    classes[from].trains -= 1;
    classes[to].trains += 1;
}
