//! Random messages, and the symbols of their words by plain arithmetic.

/// A xorshift generator (Marsaglia, "Xorshift RNGs", 2003).
pub struct Random(pub u64);

impl Random {
    /// A number below the bound.
    pub fn below(&mut self, bound: u64) -> u64 {
        self.0 ^= self.0 << 13;
        self.0 ^= self.0 >> 7;
        self.0 ^= self.0 << 17;
        self.0 % bound
    }
}

/// The value at x, modulo m, of the polynomial whose coefficients the message has, the constant first.
pub fn value(m: u64, message: &[u64], x: u64) -> u64 {
    message.iter().rev().fold(0, |v, c| (v * x + c) % m)
}
