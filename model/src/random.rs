//! Numbers that look drawn and are the same on every run: for those who compare
//! the model with the product. No rule of the model asks for one.

/// Marsaglia's xorshift of 64 bits. It is a bijection, and never leaves 0 or
/// comes to it, so it serves for drawing and for mixing a digest alike.
pub fn next(x: u64) -> u64 {
    let a = x ^ (x << 13);
    let b = a ^ (a >> 7);
    b ^ (b << 17)
}

/// The low 32 bits.
pub fn word(x: u64) -> u32 {
    (x & 0xFFFF_FFFF) as u32
}

/// Where the draws of number `n` begin: never 0, and another place for each of
/// the first 2^32 numbers.
pub fn start(n: u64) -> u64 {
    let apart = (n % (1 << 32)) * 2_654_435_769;
    next(next(next(next((apart ^ 0x9E37_79B9_7F4A_7C15) | 1))))
}

/// A stream of draws, for those who need not say how many they take.
pub struct Random(u64);

impl Random {
    pub fn new(n: u64) -> Random {
        Random(start(n))
    }

    /// Any number of 32 bits.
    pub fn any(&mut self) -> u32 {
        self.0 = next(self.0);
        word(self.0 >> 16)
    }

    /// A number below `bound`, which is not 0.
    pub fn below(&mut self, bound: u32) -> u32 {
        self.any() % bound
    }

    /// True about once in `n`.
    pub fn once_in(&mut self, n: u32) -> bool {
        self.below(n) == 0
    }
}
