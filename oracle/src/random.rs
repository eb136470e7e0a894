//! Repeatable random numbers (splitmix64).

const STEP: u64 = 0x9E37_79B9_7F4A_7C15;

pub struct Random(u64);

impl Random {
    /// The numbers of one case: they depend on the seed, the part and the case's number alone.
    pub fn of_case(seed: u64, part: &str, number: u64) -> Self {
        let fold = |state: u64, word: u64| Self(state ^ word).word();
        let named = part.bytes().fold(seed, |state, byte| fold(state, u64::from(byte)));
        Self(fold(named, number))
    }

    pub fn word(&mut self) -> u64 {
        self.0 = self.0.wrapping_add(STEP);
        let mixed = (self.0 ^ (self.0 >> 30)).wrapping_mul(0xBF58_476D_1CE4_E5B9);
        let mixed = (mixed ^ (mixed >> 27)).wrapping_mul(0x94D0_49BB_1331_11EB);
        mixed ^ (mixed >> 31)
    }

    /// A number from 0 up to but not including the bound, which is at least 1.
    pub fn below(&mut self, bound: u64) -> u64 {
        ((u128::from(self.word()) * u128::from(bound)) >> 64) as u64
    }

    /// A number from the first to the last, both included.
    pub fn between(&mut self, first: u64, last: u64) -> u64 {
        match (last - first).checked_add(1) {
            Some(choices) => first + self.below(choices),
            None => self.word(),
        }
    }

    /// True once in so many times.
    pub fn once_in(&mut self, times: u64) -> bool {
        self.below(times) == 0
    }

    pub fn pick<N: Copy>(&mut self, choices: &[N]) -> N {
        choices[self.below(choices.len() as u64) as usize]
    }
}
