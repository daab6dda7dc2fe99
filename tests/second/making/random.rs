//! A small generator with a fixed seed, so that every run makes the same
//! requests and a difference found once is found again.

/// The three constants of the published splitmix64 generator.
const STEP: u64 = 0x9E37_79B9_7F4A_7C15;
const FIRST_MIX: u64 = 0xBF58_476D_1CE4_E5B9;
const SECOND_MIX: u64 = 0x94D0_49BB_1331_11EB;

const TEN: usize = 10;
const BYTE_VALUES: usize = 256;

pub struct Random {
    state: u64,
}

impl Random {
    pub fn with_seed(seed: u64) -> Random {
        Random { state: seed }
    }

    fn next(&mut self) -> u64 {
        self.state = self.state.wrapping_add(STEP);
        let mut mixed = self.state;
        mixed = (mixed ^ (mixed >> 30)).wrapping_mul(FIRST_MIX);
        mixed = (mixed ^ (mixed >> 27)).wrapping_mul(SECOND_MIX);
        mixed ^ (mixed >> 31)
    }

    /// A number from 0 to `bound` - 1; the slight unevenness of the remainder
    /// does not matter for making cases.
    pub fn below(&mut self, bound: usize) -> usize {
        (self.next() % bound as u64) as usize
    }

    /// A number from `first` to `last`, both included.
    pub fn between(&mut self, first: usize, last: usize) -> usize {
        first + self.below(last - first + 1)
    }

    pub fn coin(&mut self) -> bool {
        self.below(2) == 0
    }

    pub fn byte(&mut self) -> u8 {
        self.below(BYTE_VALUES) as u8
    }

    /// A digit as it stands in a digit string.
    pub fn digit(&mut self) -> u8 {
        b'0' + self.below(TEN) as u8
    }

    /// A digit other than the given one.
    pub fn other_digit(&mut self, digit: u8) -> u8 {
        let distance = self.between(1, TEN - 1) as u8;
        b'0' + (digit - b'0' + distance) % TEN as u8
    }

    pub fn pick<T: Copy>(&mut self, choices: &[T]) -> T {
        choices[self.below(choices.len())]
    }

    pub fn shuffle<T>(&mut self, items: &mut [T]) {
        for last in (1..items.len()).rev() {
            let chosen = self.below(last + 1);
            items.swap(last, chosen);
        }
    }
}
