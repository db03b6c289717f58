//! A small generator of pseudo-random numbers (splitmix64), so that a seed
//! gives the same requests and cases everywhere.

pub struct Random {
    state: u64,
}

/// Mixes 64 bits into 64 others (the finaliser of splitmix64).
fn mix(mut z: u64) -> u64 {
    z = (z ^ (z >> 30)).wrapping_mul(0xBF58_476D_1CE4_E5B9);
    z = (z ^ (z >> 27)).wrapping_mul(0x94D0_49BB_1331_11EB);
    z ^ (z >> 31)
}

impl Random {
    /// The stream of `seed` for one purpose, named by `word`.
    pub fn new(word: &str, seed: u64) -> Self {
        let start = word
            .bytes()
            .fold(0, |state, byte| mix(state ^ u64::from(byte)));
        Self {
            state: mix(start ^ mix(seed)),
        }
    }

    pub fn bits(&mut self) -> u64 {
        self.state = self.state.wrapping_add(0x9E37_79B9_7F4A_7C15);
        mix(self.state)
    }

    /// A whole number below `bound`, which is not zero.
    pub fn below(&mut self, bound: usize) -> usize {
        (self.bits() % bound as u64) as usize
    }

    /// A whole number from `least` to `most`.
    pub fn from_to(&mut self, least: usize, most: usize) -> usize {
        least + self.below(most - least + 1)
    }

    /// True once in `times`.
    pub fn once_in(&mut self, times: usize) -> bool {
        self.below(times) == 0
    }

    /// A figure from 0 up to but not including 1.
    pub fn unit(&mut self) -> f64 {
        (self.bits() >> 11) as f64 / (1u64 << 53) as f64
    }

    pub fn between(&mut self, least: f64, most: f64) -> f64 {
        least + (most - least) * self.unit()
    }

    /// A figure whose binary exponent is spread evenly; both bounds above
    /// zero. Drawn on the bits, which grow as the figures do.
    pub fn log_between(&mut self, least: f64, most: f64) -> f64 {
        let (least, most) = (least.to_bits(), most.to_bits());
        f64::from_bits(least + self.bits() % (most - least + 1))
    }

    pub fn pick<T: Copy>(&mut self, choices: &[T]) -> T {
        choices[self.below(choices.len())]
    }

    /// Any 64 bits as a figure.
    pub fn any_figure(&mut self) -> f64 {
        f64::from_bits(self.bits())
    }

    /// `v` or one of its neighbours up to `steps` last places away.
    pub fn near(&mut self, v: f64, steps: usize) -> f64 {
        let offset = self.below(2 * steps + 1) as i64 - steps as i64;
        f64::from_bits(v.to_bits().wrapping_add_signed(offset))
    }

    /// The numbers below `count` in some order.
    pub fn shuffled(&mut self, count: usize) -> Vec<usize> {
        let mut order: Vec<usize> = (0..count).collect();
        for i in (1..count).rev() {
            order.swap(i, self.below(i + 1));
        }
        order
    }
}
