//! The xorshift64* generator, for fills and for the seeded scripts.

/// Its state is never 0: a seed of 0 is replaced by a fixed number.
#[derive(Clone, Debug)]
pub struct Xorshift {
    state: u64,
}

impl Xorshift {
    pub fn new(seed: u64) -> Self {
        Xorshift { state: if seed == 0 { 0x9E37_79B9_7F4A_7C15 } else { seed } }
    }

    pub fn step(&mut self) -> u64 {
        self.state ^= self.state >> 12;
        self.state ^= self.state << 25;
        self.state ^= self.state >> 27;
        self.state.wrapping_mul(0x2545_F491_4F6C_DD1D)
    }

    /// The next byte of a fill: the top byte of one step.
    pub fn byte(&mut self) -> u8 {
        (self.step() >> 56) as u8
    }

    /// A number below `limit`, 0 when the limit is 0.
    pub fn below(&mut self, limit: u64) -> u64 {
        (self.step() >> 11).checked_rem(limit).unwrap_or(0)
    }

    /// True in about `percent` cases of a hundred.
    pub fn chance(&mut self, percent: u64) -> bool {
        self.below(100) < percent
    }

    /// One of the choices, which must not be empty for the result to be more than the default.
    pub fn pick<T: Clone + Default>(&mut self, choices: &[T]) -> T {
        let place = self.below(choices.len() as u64) as usize;
        choices.get(place).cloned().unwrap_or_default()
    }
}

/// `length` bytes of fill.
pub fn fill(length: usize, seed: u64) -> Vec<u8> {
    let mut source = Xorshift::new(seed);
    (0..length).map(|_| source.byte()).collect()
}
