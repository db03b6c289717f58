//! A small generator of figures, the same on every machine.

pub struct Draws(pub u64);

impl Draws {
    pub fn new(seed: usize) -> Self {
        Self(0x9E37_79B9_7F4A_7C15 ^ seed as u64)
    }

    /// A figure in (0, 1).
    pub fn next(&mut self) -> f64 {
        self.0 ^= self.0 << 13;
        self.0 ^= self.0 >> 7;
        self.0 ^= self.0 << 17;
        ((self.0 >> 11) as f64 + 0.5) / (1u64 << 53) as f64
    }

    /// A whole number below `most`.
    pub fn below(&mut self, most: usize) -> usize {
        (self.next() * most as f64) as usize
    }
}
