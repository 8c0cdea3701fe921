/// A source of numbers that look random, the same ones for each seed (xorshift).
#[derive(Clone, Copy)]
pub struct Random {
    state: u64,
}

impl Random {
    pub fn new(seed: u64) -> Random {
        Random {
            state: seed.wrapping_mul(0x9E37_79B9_7F4A_7C15) | 1,
        }
    }

    fn next(&mut self) -> u64 {
        let mut state = self.state;
        state ^= state << 13;
        state ^= state >> 7;
        state ^= state << 17;
        self.state = state;
        state >> 16
    }

    /// A number below the limit, which is not 0.
    pub fn below(&mut self, limit: u32) -> u32 {
        (self.next() % limit as u64) as u32
    }

    /// One of the numbers.
    pub fn of(&mut self, choices: &[u32]) -> u32 {
        choices[self.below(choices.len() as u32) as usize]
    }

    /// Whether a thing that comes once in so many times comes now.
    pub fn once_in(&mut self, times: u32) -> bool {
        self.below(times) == 0
    }
}
