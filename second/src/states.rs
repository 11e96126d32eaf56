//! Words of a dispatcher that no calls need have led to, and calls on them, drawn so that every path of the calls is met:
//! places that are empty with something behind the 0, other flags than 1, trains that are none, starts that were passed
//! over, and runs at places that there are not. What the calls answer is not settled here, but in `records`.

use crate::dispatcher::Call;
use crate::draw::Draw;
use crate::library::WORDS;
use crate::paper::{MOST_TICKS, PLACES};
use crate::records::{Placed, Record, LAST, RUN_LEFT, RUN_PLACE};

/// Flags other than 0: a place holds a train with any of them.
const FLAGS: [u32; 8] = [1, 1, 1, 1, 2, 256, 1 << 31, u32::MAX];

/// The periods of a scene are multiples of the base, in which each slot is so long, so that trains may be free.
struct Slots {
    base: u32,
    length: u32,
}

/// The kinds of words, which are drawn alike often.
const KINDS: [fn(&mut Draw, &mut Record); 6] = [a_few, a_few, in_slots, in_slots, crowded, any_words];

pub fn drawn(draw: &mut Draw) -> Record {
    let count = any_count(draw);
    let mut record = Record::fresh(count);
    draw.of(&KINDS)(draw, &mut record);
    if draw.once_in(2) {
        behind_zeros(draw, &mut record);
    }
    record
}

/// A count, often about the wrap.
fn any_count(draw: &mut Draw) -> u32 {
    let soon = u32::MAX - draw.between(0, 40) as u32;
    let any = draw.any() as u32;
    draw.of(&[0, 1, 1 << 31, soon, soon, u32::MAX, any, any])
}

/// The run in progress: mostly none.
fn draw_run(draw: &mut Draw, record: &mut Record) {
    let place = draw.between(0, PLACES as u64 - 1) as u32;
    record.words[RUN_PLACE] = draw.of(&[0, place, place, 63, 64, 65, 127, 1 << 16, u32::MAX]);
    let some = draw.between(0, 9) as u32;
    record.words[RUN_LEFT] = draw.of(&[0, 0, 0, 0, 1, some, MOST_TICKS, u32::MAX]);
}

/// A train, or what is none: a wait from the next count on, a period and a duration, each odd as often as not.
fn odd_train(draw: &mut Draw, record: &Record) -> Placed {
    let small = draw.between(0, 40) as u32;
    let any = draw.any() as u32;
    let wait = draw.of(&[0, 0, 0, 1, small, small, MOST_TICKS, MOST_TICKS + 1, u32::MAX, u32::MAX - 1, any]);
    let period = draw.of(&[0, 0, 1, 2, 8, 12, small, small, MOST_TICKS, MOST_TICKS + 1, u32::MAX, 1 << 31, any]);
    let few = draw.between(0, 5) as u32;
    let near = [period, period.saturating_sub(1), period.saturating_add(1)];
    let duration = draw.of(&[0, 0, 1, 1, few, few, near[0], near[1], near[2], u32::MAX, any]);
    Placed { next: record.count_after(wait), period, duration }
}

/// Some odd trains at any places.
fn a_few(draw: &mut Draw, record: &mut Record) {
    draw_run(draw, record);
    for _ in 0..draw.between(0, 5) {
        let placed = odd_train(draw, record);
        record.put(draw.position(PLACES), draw.of(&FLAGS), placed);
    }
}

/// Trains in slots of a base, which are free of each other, with some that are odd: without a period or a duration, or due
/// at the same count.
fn in_slots(draw: &mut Draw, record: &mut Record) {
    draw_run(draw, record);
    let slots = Slots { base: draw.of(&[6, 12, 60, 1_000]), length: draw.of(&[1, 2, 3]) };
    let count = draw.between(1, 12);
    for _ in 0..count {
        let placed = slot_train(draw, record, &slots);
        record.put(draw.position(PLACES), draw.of(&FLAGS), placed);
    }
}

fn slot_train(draw: &mut Draw, record: &Record, slots: &Slots) -> Placed {
    let slot = draw.between(0, u64::from(slots.base / slots.length) - 1) as u32;
    let late = slots.base * draw.of(&[0, 0, 0, 1, 7, 4_000_000]);
    let wait = slots.length * slot + late;
    let period = slots.base * draw.of(&[1, 1, 1, 2, 3, 5, 0]);
    let duration = draw.of(&[1, slots.length, slots.length, 0]);
    Placed { next: record.count_after(wait), period, duration }
}

/// All places are taken, or all but one or two.
fn crowded(draw: &mut Draw, record: &mut Record) {
    draw_run(draw, record);
    let is_house = draw.once_in(2);
    for place in 0..PLACES {
        let house = Placed { next: record.count_after(place as u32), period: PLACES as u32, duration: 1 };
        let placed = if is_house { house } else { odd_train(draw, record) };
        record.put(place, draw.of(&FLAGS), placed);
    }
    for _ in 0..draw.of(&[0, 1, 1, 2]) {
        let placed = odd_train(draw, record);
        record.put(draw.position(PLACES), 0, placed);
    }
}

/// Anything at all, but that a train is often due, and that often no run is in progress.
fn any_words(draw: &mut Draw, record: &mut Record) {
    let is_sparse = draw.once_in(2);
    for at in 0..WORDS {
        let is_zero = is_sparse && !draw.once_in(8);
        record.words[at] = if is_zero { 0 } else { draw.any() as u32 };
    }
    for _ in 0..draw.of(&[0, 1, 2]) {
        let placed = Placed { next: record.count_after(0), ..odd_train(draw, record) };
        record.put(draw.position(PLACES), draw.of(&FLAGS), placed);
    }
    if draw.once_in(2) {
        record.words[RUN_LEFT] = 0;
    }
}

/// Numbers behind the 0 of an empty place, which say nothing.
fn behind_zeros(draw: &mut Draw, record: &mut Record) {
    let held: Vec<usize> = record.held().map(|(place, _)| place).collect();
    for place in 0..PLACES {
        if !held.contains(&place) && draw.once_in(4) {
            let placed = odd_train(draw, record);
            record.put(place, 0, placed);
        }
    }
}

// ---- calls

/// A call on these words.
pub fn call(draw: &mut Draw, record: &Record) -> Call {
    match draw.between(0, 99) {
        0..=39 => admission(draw, record),
        40..=59 => Call::Withdraw(a_place(draw, record)),
        60..=98 => Call::Step(a_count(draw, record)),
        _ => Call::Fresh(draw.any() as u32),
    }
}

/// Mostly a train within the limits: small, or beside a placed one.
fn admission(draw: &mut Draw, record: &Record) -> Call {
    let small = draw.between(0, 40) as u32;
    let delay = draw.of(&[0, 0, 1, small, small, MOST_TICKS, MOST_TICKS, MOST_TICKS + 1]);
    let held: Vec<Placed> = record.held().map(|(_, placed)| placed).collect();
    if !held.is_empty() && !draw.once_in(4) {
        let placed = draw.of(&held);
        return beside(draw, record, placed);
    }
    let period = draw.of(&[1, 2, 12, 60, 60, 1_000, 8, MOST_TICKS, MOST_TICKS, 0, MOST_TICKS + 1]);
    let duration = draw.of(&[1, 1, 1, 1, 2, 3, period, period.saturating_sub(1), 0, period + 1]);
    Call::Admit(delay, period, duration)
}

/// A train that begins as a placed one ends, or ends as that begins, or a tick beside, or at the same tick.
fn beside(draw: &mut Draw, record: &Record, placed: Placed) -> Call {
    let wait = placed.next.wrapping_sub(record.count_after(0));
    let period = placed.period.saturating_mul(draw.of(&[1, 1, 1, 2, 3])).clamp(1, MOST_TICKS);
    let period = draw.of(&[period, period, period, 60, 1_000, 840]);
    let duration = draw.of(&[1, 1, 1, 2, placed.duration.max(1), period]).min(period);
    let begins = wait.wrapping_add(placed.duration);
    let ends = wait.wrapping_sub(duration);
    let near = [wait, begins, begins, begins.wrapping_sub(1), begins.wrapping_add(1), ends, ends, ends.wrapping_add(1)];
    // what lies behind the limit comes round by the period, or stays there now and then
    let start = draw.of(&near);
    let turned = if start > MOST_TICKS && !draw.once_in(20) { start % period } else { start };
    Call::Admit(turned, period, duration)
}

/// A place: of a train, of the run in progress, or any.
fn a_place(draw: &mut Draw, record: &Record) -> u32 {
    let any = draw.between(0, PLACES as u64 - 1) as u32;
    let mut places =
        vec![any, record.words[RUN_PLACE], record.words[RUN_PLACE], draw.of(&[64, 65, 127, 1 << 16, u32::MAX])];
    let held: Vec<u32> = record.held().map(|(place, _)| place as u32).collect();
    if !held.is_empty() {
        places.extend([draw.of(&held); 6]);
    }
    draw.of(&places)
}

/// The next count, mostly.
fn a_count(draw: &mut Draw, record: &Record) -> u32 {
    let next = record.count_after(0);
    let wrong = [record.words[LAST], next.wrapping_add(1), 0, u32::MAX, draw.any() as u32];
    if draw.once_in(6) {
        draw.of(&wrong)
    } else {
        next
    }
}
