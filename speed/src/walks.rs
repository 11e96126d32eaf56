//! The verdict on a table beside the walks of walk.rs, for tables whose ticks can be walked through at all.

use crate::clock::{calls, race, Batch};
use crate::data::{self, FIGURE};
use crate::print;
use crate::proved::{self, header, FIGURES};
use crate::walk;
use std::hint::black_box;

/// No walk is longer: longer ones would take minutes.
const WALKABLE: u64 = 100_000_000;

fn table(name: &str, trains: &[[u32; 3]]) {
    let row = data::whole(trains);
    let mut figures = [FIGURE; FIGURES];
    let mut judged = calls(|| proved::judge(black_box(&row), black_box(&mut figures)));
    let end = walk::end(trains).filter(|&end| end <= WALKABLE);
    let Some(end) = end else {
        let [proved] = race([&mut judged]);
        print::row(name, &[ticks(trains), print::time(proved), "-".into(), "-".into()]);
        return;
    };
    let mut lent = vec![false; end as usize];
    assert_eq!(judged(1), proved::code(header::ACCEPTED, 0), "{name} is accepted");
    let mut stepped = calls(|| u64::from(walk::tick_by_tick(black_box(trains), end).is_some()));
    let mut marked = calls(|| u64::from(walk::mark(black_box(trains), black_box(&mut lent))));
    let batches: [Batch; 3] = [&mut judged, &mut stepped, &mut marked];
    let times = batches.map(|batch| race([batch])[0]);
    print::row(name, &[&[ticks(trains)][..], &times.map(print::time)].concat());
}

fn ticks(trains: &[[u32; 3]]) -> String {
    walk::end(trains).map_or("above 64 bits".into(), |end| end.to_string())
}

pub fn all() {
    print::title(
        "verdict, or a walk through all ticks, ns a call",
        &["ticks", "proved", "tick by tick", "train by train"],
    );
    table("64 trains (i, 64, 1)", &data::in_turn(&[64]));
    table("64 trains (i, P, 1), P in turn 8000 and 8192", &data::in_turn(&data::WALKED_PERIODS));
    table("64 trains, the most divisions that were found", &data::found());
}
