//! Calls on drawn words, which need not come from a fresh start: the answer and all the words after it, with those of the
//! record that docs/DISPATCHER.md describes.

use super::calls::{check, ANSWERS};
use super::memory::Lent;
use super::{Difference, Tally};
use crate::draw::Draw;
use crate::library::WORDS;
use crate::states;

/// So many calls are played on the same words, one after another, at the most.
const LONGEST: u64 = 8;

pub fn compare(seed: u64, cases: u64) -> Result<Vec<Tally>, (u64, Difference)> {
    let mut tally = Tally::new("words", &ANSWERS);
    let mut case = 0;
    while case < cases {
        let draw = &mut Draw::new(seed, case);
        let mut record = states::drawn(draw);
        let mut lent = Lent::new(draw.any(), WORDS);
        lent.part().copy_from_slice(&record.words);
        let length = draw.between(1, LONGEST).min(cases - case);
        for _ in 0..length {
            let call = states::call(draw, &record);
            let answer = check(call, &mut record, &mut lent).map_err(|difference| (case, difference))?;
            tally.count(&answer.to_string());
            case += 1;
        }
    }
    Ok(vec![tally])
}
