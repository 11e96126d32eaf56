//! A text of calls across the wrap of the count, written out. It stands beside the program `replay`, with what that has
//! to print for it.

use crate::dispatcher::Call::{self, Admit, Fresh, Step, Withdraw};

/// The calls, a line each, and the lines that are odd or bad.
pub fn text() -> Vec<u8> {
    let calls = [
        paragraph(),
        trains(),
        refusals(),
        to_the_wrap(),
        across_the_wrap(),
        taken_over(),
        used_again(),
        full_house(),
        long_run(),
    ];
    let lines: String = calls.concat().into_iter().map(|call| format!("{call}\n")).collect();
    [lines.into_bytes(), odd_lines()].concat()
}

/// The bench sheet's paragraph on the dispatcher.
fn paragraph() -> Vec<Call> {
    vec![Fresh(4_294_967_295), Admit(0, 8, 2), Admit(3, 12, 1), Step(0), Admit(0, 4, 1), Admit(1, 4, 1)]
}

/// Steps with the counts from `first` to `last`.
fn steps(first: u32, last: u32) -> impl Iterator<Item = Call> {
    (first..=last).map(Step)
}

/// Tick 0 has the count 4,294,967,281, tick 14 the count 4,294,967,295, and tick 15 the count 0.
fn trains() -> Vec<Call> {
    vec![
        Fresh(4_294_967_280),
        // place 0: starts at ticks 0, 8, 16, ..
        Admit(0, 8, 3),
        // place 1: its first run, ticks 13 to 15, lies across the wrap
        Admit(13, 24, 3),
        // place 2: starts at ticks 3, 19, 35, ..
        Admit(3, 16, 1),
        // place 3: its first start, tick 28, is behind the wrap
        Admit(28, 48, 1),
    ]
}

/// One of each kind, none of which changes anything.
fn refusals() -> Vec<Call> {
    vec![
        // 13: no period, a period above the limit, no duration, a duration above the period, a delay above the limit
        Admit(0, 0, 1),
        Admit(4, 10_000_001, 1),
        Admit(4, 8, 0),
        Admit(4, 8, 9),
        Admit(10_000_001, 8, 1),
        // 15: at each place; the last two meet several, and the lowest is blamed
        Admit(2, 8, 1),
        Admit(5, 8, 1),
        Admit(3, 8, 1),
        Admit(4, 8, 1),
        Admit(3, 8, 5),
        Admit(6, 7, 1),
        // 16: a place without a train, and places that there are not
        Withdraw(4),
        Withdraw(64),
        Withdraw(65),
        Withdraw(4_294_967_295),
        // 17: the last count, the one after the next, and those at the wrap
        Step(4_294_967_280),
        Step(4_294_967_282),
        Step(0),
        Step(4_294_967_295),
    ]
}

/// Ticks 0 to 14. Before and after the last of them the counts across the wrap are wrong.
fn to_the_wrap() -> Vec<Call> {
    let before = steps(4_294_967_281, 4_294_967_294);
    let last = [Step(0), Step(4_294_967_295), Step(4_294_967_295), Step(1), Step(4_294_967_294)];
    before.chain(last).collect()
}

/// Tick 15, the end of a run that began before the wrap, and tick 16.
fn across_the_wrap() -> Vec<Call> {
    vec![Step(0), Step(0), Step(4_294_967_295), Step(2), Step(1)]
}

/// The train at place 0 is withdrawn after one tick of its run. Another has the other two ticks, from the next one on and
/// at the same place, and a third has the first tick from the next period on.
fn taken_over() -> Vec<Call> {
    let calls = [
        Withdraw(0),
        Withdraw(0),
        Admit(0, 8, 3),
        Admit(0, 8, 2),
        // place 4: tick 24
        Admit(7, 8, 1),
        // of eight ticks none is left that no train ever claims
        Admit(0, 8, 1),
        Admit(4, 8, 1),
    ];
    calls.into_iter().chain(steps(2, 40)).collect()
}

/// Freed places are used again, the lowest first. The run of place 1 that begins with the count 46 is cut by a
/// withdrawal, and its other ticks are idle.
fn used_again() -> Vec<Call> {
    let calls = [
        Withdraw(1),
        Step(47),
        Withdraw(3),
        Withdraw(2),
        // places 1, 2 and 3 in turn, the last with a delay and a period at the limit; then place 5
        Admit(4, 8, 2),
        Admit(1_006, 16, 1),
        Admit(10_000_000, 10_000_000, 1),
        Admit(7, 16, 1),
    ];
    steps(41, 46).chain(calls).chain(steps(48, 80)).collect()
}

/// Each place has one tick of 64, beginning with the count 0.
fn full_house() -> Vec<Call> {
    let house = (0..64).map(|tick| Admit(tick, 64, 1));
    let calls = [
        // 14; what is no train is 13 before, and what collides is 14 before 15
        Admit(0, 64, 1),
        Admit(0, 64, 65),
        Admit(7, 1, 1),
        Step(0),
        Step(1),
        // place 40 is freed and has its tick again, a round later; and place 2 has just now been due
        Withdraw(40),
        Admit(37, 64, 1),
        Admit(38 + 64, 64, 1),
        Withdraw(2),
        Step(2),
        Admit(64 - 1, 64, 1),
    ];
    [Fresh(4_294_967_295)].into_iter().chain(house).chain(calls).chain(steps(3, 44)).collect()
}

/// One train that claims every tick, across the wrap.
fn long_run() -> Vec<Call> {
    vec![
        Fresh(4_294_967_293),
        Admit(0, 10_000_000, 10_000_000),
        Admit(5, 10_000_000, 1),
        Step(4_294_967_294),
        Step(4_294_967_295),
        Step(0),
        Step(1),
        Withdraw(0),
        Admit(1, 1, 1),
        Step(2),
        Step(3),
        Step(4),
    ]
}

/// Lines that are calls though they look odd, and lines that are none; the last has no newline.
fn odd_lines() -> Vec<u8> {
    let zeros = "0".repeat(74);
    let lines = [
        // leading zeros; a carriage return; both; 80 bytes, without a carriage return and with one
        "fresh 00000000007\n".to_string(),
        "admit 0 8 2\r\n".to_string(),
        "step 008\r\n".to_string(),
        format!("step {zeros}9\n"),
        format!("step {zeros}10\r\n").replacen("00", "0", 1),
        // 81 bytes; two carriage returns; one that is not at the end
        format!("step {zeros}11\n"),
        "step 11\r\r\n".to_string(),
        "step\r 11\n".to_string(),
        // spaces before, between and behind; a tab; no number; one too many; none at all
        " step 11\nstep  11\nstep 11 \nstep\t11\nstep\nstep \nstep 11 0\n\n\r\n".to_string(),
        // what is no number of 32 bits, or no digits
        "step 4294967296\nstep 18446744073709551627\nstep +11\nstep -1\nstep 1_1\nstep 0x0b\n".to_string(),
        // no call
        "Step 11\nSTEP 11\nstop 11\nadmit 3 12\nadmit 3 12 1 0\nwithdraw\nbad\n".to_string(),
        // nothing was changed by these
        "step 11\nwithdraw 0".to_string(),
    ];
    lines.concat().into_bytes()
}
