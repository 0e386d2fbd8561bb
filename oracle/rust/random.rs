//! Random numbers for the comparisons and the benchmark, by xorshift64*. The same seed gives the same numbers on every machine.
#![allow(dead_code)]

/// The state is never 0.
pub struct Rng(pub u64);

impl Rng {
    /// The numbers of a seed that somebody chose: small seeds, too, start far from each other.
    pub fn of_seed(seed: u64) -> Rng {
        Rng(seed.wrapping_mul(0x9e37_79b9_7f4a_7c15) | 1)
    }
    /// Any bits.
    pub fn next(&mut self) -> u64 {
        self.0 ^= self.0 << 13;
        self.0 ^= self.0 >> 7;
        self.0 ^= self.0 << 17;
        self.0.wrapping_mul(0x2545_f491_4f6c_dd1d)
    }
    /// A number below n, which is at most 2^31.
    pub fn below(&mut self, n: usize) -> usize {
        (self.next() >> 33) as usize % n
    }
    pub fn one_in(&mut self, n: usize) -> bool {
        self.below(n) == 0
    }
    /// A number from 0 to 1, 1 excluded: a whole number of units of 2^-53.
    pub fn unit(&mut self) -> f64 {
        (self.next() >> 11) as f64 / (1u64 << 53) as f64
    }
    /// A number from a to b.
    pub fn from(&mut self, a: f64, b: f64) -> f64 {
        a + (b - a) * self.unit()
    }
    /// One of a list.
    pub fn of<T: Copy>(&mut self, l: &[T]) -> T {
        l[self.below(l.len())]
    }
}
