//! Numbers drawn from a seed, by adding a constant and scrambling the sum (SplitMix64).

pub struct Draw {
    state: u64,
}

fn scrambled(mut number: u64) -> u64 {
    number = (number ^ (number >> 30)).wrapping_mul(0xBF58_476D_1CE4_E5B9);
    number = (number ^ (number >> 27)).wrapping_mul(0x94D0_49BB_1331_11EB);
    number ^ (number >> 31)
}

impl Draw {
    /// The drawing of one case. It depends on the seed and on the case's number, and on no case before it.
    pub fn new(seed: u64, case: u64) -> Draw {
        Draw { state: scrambled(scrambled(seed).wrapping_add(case)) }
    }

    /// Another drawing for the same case: of what is lent to it, say, and not of what it is.
    pub fn beside(seed: u64, case: u64) -> Draw {
        Draw::new(!seed, case)
    }

    /// Any number.
    pub fn any(&mut self) -> u64 {
        self.state = self.state.wrapping_add(0x9E37_79B9_7F4A_7C15);
        scrambled(self.state)
    }

    /// A number from the lowest to the highest, both included.
    pub fn between(&mut self, lowest: u64, highest: u64) -> u64 {
        lowest + self.any() % (highest - lowest + 1)
    }

    pub fn once_in(&mut self, turns: u64) -> bool {
        self.between(1, turns) == 1
    }

    pub fn position(&mut self, length: usize) -> usize {
        self.between(0, length as u64 - 1) as usize
    }

    pub fn of<T: Copy>(&mut self, choices: &[T]) -> T {
        choices[self.position(choices.len())]
    }

    pub fn shuffle<T>(&mut self, items: &mut [T]) {
        for last in (1..items.len()).rev() {
            items.swap(last, self.position(last + 1));
        }
    }
}
