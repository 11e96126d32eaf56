//! The same algorithms in Rust as one writes it by hand: slices, iterators, `Result`, `&mut`. What a caller of the proved
//! library calls is here too, with the same arguments, the same answer and the same memory, and is never inlined.

mod dispatcher;
mod line;
mod listing;
mod numbers;
mod stored;
mod verdict;
mod words;

use crate::proved::{code, header};

pub use dispatcher::Dispatcher;
pub use line::line;
pub use listing::{export, import};
pub use numbers::common_divisor;
pub use stored::{judge_stored, load, save};
pub use verdict::judge;
pub use words::{admit, fresh, step, withdraw};

/// A refusal by its number, with the train or the place that it names.
#[derive(Clone, Copy)]
struct Refusal {
    number: u32,
    place: u32,
}

impl Refusal {
    const TRAIN_COUNT: Refusal = Refusal::of_none(header::REFUSAL_TRAIN_COUNT);
    const TEXT_TOO_LONG: Refusal = Refusal::of_none(header::REFUSAL_TEXT_TOO_LONG);
    const BUFFER_TOO_SHORT: Refusal = Refusal::of_none(header::REFUSAL_BUFFER_TOO_SHORT);
    const WRONG_MARK: Refusal = Refusal::of_none(header::REFUSAL_WRONG_MARK);
    const WRONG_VERSION: Refusal = Refusal::of_none(header::REFUSAL_WRONG_VERSION);
    const WRONG_LENGTH: Refusal = Refusal::of_none(header::REFUSAL_WRONG_LENGTH);
    const NOT_A_TRAIN: Refusal = Refusal::of_none(header::REFUSAL_NOT_A_TRAIN);
    const NO_EMPTY_PLACE: Refusal = Refusal::of_none(header::REFUSAL_NO_EMPTY_PLACE);
    const NO_TRAIN_THERE: Refusal = Refusal::of_none(header::REFUSAL_NO_TRAIN_THERE);
    const WRONG_COUNT: Refusal = Refusal::of_none(header::REFUSAL_WRONG_COUNT);

    const fn of_none(number: u32) -> Refusal {
        Refusal { number, place: header::NO_PLACE }
    }

    fn of(number: u32, place: usize) -> Refusal {
        Refusal { number, place: place as u32 }
    }

    fn code(self) -> u64 {
        u64::from(self.number) << 40 | code(header::REFUSED, self.place as usize)
    }
}

/// The number that a call hands back that is done or refused.
fn handed(answer: Result<usize, Refusal>) -> u64 {
    answer.map_or_else(Refusal::code, |value| code(header::DONE, value))
}
