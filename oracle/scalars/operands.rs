//! The operands: all tuples of a list of edges, and random ones.
use crate::random::Rng;

/// What an operation takes.
#[derive(Clone, Copy, PartialEq, Debug)]
pub enum Takes {
    Nothing,
    Number,
    Root,
    Numbers,
    Ratio,
    Interval,
    Intervals,
    Alpha,
}

impl Takes {
    pub const ALL: [Takes; 8] = [
        Takes::Nothing,
        Takes::Number,
        Takes::Root,
        Takes::Numbers,
        Takes::Ratio,
        Takes::Interval,
        Takes::Intervals,
        Takes::Alpha,
    ];

    /// How many numbers: an interval has two.
    pub fn count(self) -> usize {
        match self {
            Takes::Nothing => 0,
            Takes::Number | Takes::Root => 1,
            Takes::Numbers | Takes::Ratio | Takes::Interval => 2,
            Takes::Intervals => 4,
            Takes::Alpha => 6,
        }
    }

    /// The list of which all tuples are tried.
    pub fn edges(self) -> Vec<f64> {
        match self {
            Takes::Ratio => (0..=600)
                .chain([1000, 65535, 65536, 16777215, 16777216, 16777217, 0x7fff_ffff, 0x8000_0000, 0xffff_fffe, 0xffff_ffff])
                .map(|n: u32| n as f64)
                .collect(),
            // Three intervals have six bounds: a shorter list.
            Takes::Alpha => [0xbff0 << 48, 1 << 63 | 1, 1 << 63, 0, 1, 0x3fe0 << 48, ONE - 1, ONE, ONE + 1, 0x7fef_ffff_ffff_ffff, INF, 1 << 63 | INF, 0x7ff8 << 48]
                .map(f64::from_bits)
                .to_vec(),
            _ => edges(),
        }
    }
}

const ONE: u64 = 0x3ff0 << 48;
const INF: u64 = 0x7ff0 << 48;

/// The edges, of both signs, and two NaNs.
pub fn edges() -> Vec<f64> {
    let magnitudes = [
        0,
        1,                     // 2^-1074
        2,
        0x000f_ffff_ffff_ffff, // the largest subnormal
        0x0010_0000_0000_0000, // 2^-1022
        0x0010_0000_0000_0001,
        0x1e60 << 48,          // 2^-537, whose square is 2^-1074
        0x3fe0 << 48,          // 1/2
        ONE - 1,
        ONE,
        ONE + 1,
        0x4000 << 48,          // 2
        0x4008 << 48,          // 3
        0x4330 << 48,          // 2^52
        0x4630_0000_0000_0000 - 1,
        0x4630 << 48,          // 2^100
        (0x4630 << 48) + 1,
        0x7fdf_ffff_ffff_ffff,
        0x7fe0 << 48,          // 2^1023
        0x7fef_ffff_ffff_ffff, // the largest
        INF,
    ];
    let signed = magnitudes.iter().flat_map(|&m| [m, m | 1 << 63]);
    signed.chain([0x7ff8 << 48, 0xfff0_0000_0000_0001]).map(f64::from_bits).collect()
}

/// The alphas around the range from 0 to 1.
const ALPHAS: [u64; 12] =
    [0, 1 << 63, 1, 1 << 63 | 1, ONE - 1, ONE, ONE + 1, 0x3fe0 << 48, 0x3fd0 << 48, 0x3fe8 << 48, 0x4000 << 48, 0xbff0 << 48];

pub struct Operands {
    random: Rng,
    edges: Vec<f64>,
}

impl Operands {
    pub fn new(seed: u64) -> Self {
        Operands { random: Rng(seed), edges: edges() }
    }

    /// The exponent between two bounds, the rest any bits.
    fn scaled(&mut self, least: usize, greatest: usize) -> f64 {
        let r = self.random.next();
        let e = least + self.random.below(greatest - least + 1);
        f64::from_bits(r & !INF | (e as u64) << 52)
    }

    fn number(&mut self, kind: usize) -> f64 {
        match kind {
            0 => f64::from_bits(self.random.next()),
            1 => self.scaled(1023 - 32, 1023 + 32),
            // Few digits: sums and products that are exact, and many that are zero or equal.
            2 => (self.random.below(33) as f64 - 16.0) / 8.0,
            3 => self.random.of(&self.edges),
            4 => self.scaled(0, 60),
            5 => self.scaled(2046 - 60, 2046),
            6 => self.scaled(1023 - 540, 1023 - 500),
            _ => self.scaled(1023 + 505, 1023 + 515),
        }
    }

    /// A number a few steps from x, at times of the other sign.
    fn near(&mut self, x: f64) -> f64 {
        let b = x.to_bits().wrapping_add(self.random.below(7) as u64).wrapping_sub(3);
        f64::from_bits(if self.random.one_in(8) { b ^ 1 << 63 } else { b })
    }

    /// Numbers of one kind, of mixed kinds, or near each other.
    fn numbers(&mut self, v: &mut [f64]) {
        let way = self.random.below(16);
        if way < 4 {
            let kind = self.random.below(4);
            v[0] = self.number(kind);
            for i in 1..v.len() {
                v[i] = self.near(v[0]);
            }
        } else {
            for x in v {
                let kind = if way < 12 { way - 4 } else { self.random.below(8) };
                *x = self.number(kind);
            }
        }
    }

    /// Makes intervals of the pairs of v: most ordered, some sharp, some equal to the first, a few the whole line.
    fn intervals(&mut self, v: &mut [f64]) {
        for i in (0..v.len()).step_by(2) {
            let way = self.random.below(64);
            if way < 40 && v[i] > v[i + 1] {
                v.swap(i, i + 1);
            } else if way < 40 {
            } else if way < 48 {
                v[i + 1] = v[i];
            } else if way < 54 {
                v[i + 1] = self.near(v[i]);
            } else if way < 61 {
                v.copy_within(0..2, i);
            } else if way < 62 {
                v[i] = f64::NEG_INFINITY;
                v[i + 1] = f64::INFINITY;
            }
        }
    }

    fn alpha(&mut self, v: &mut [f64]) {
        for x in &mut *v {
            *x = match self.random.below(4) {
                0 => f64::from_bits(self.random.of(&ALPHAS)),
                1 => self.random.below(9) as f64 / 8.0,
                _ => self.random.unit(),
            };
        }
        let way = self.random.below(8);
        if way < 3 {
            v[1] = v[0];
        } else if way < 7 && v[0] > v[1] {
            v.swap(0, 1);
        }
    }

    /// A whole number m of 53 or 54 digits whose root, to 53 digits, lies very close to halfway between two numbers:
    /// y * y = m * 2^54 + r for an odd y of 54 digits and a small r. Such a y is a root of r modulo 2^55, digit by digit.
    fn halfway(&mut self) -> f64 {
        let bits = 1 + self.random.below(24);
        let r = 8 * (self.random.below(1 << bits) as i128 - (1 << (bits - 1))) + 1;
        let mut y: i128 = 1;
        for bit in 3..55 {
            if (y * y - r) >> bit & 1 != 0 {
                y += 1 << (bit - 1);
            }
        }
        if y < 1 << 53 {
            y = (1 << 54) - y;
        }
        ((y * y - r) >> 54) as f64
    }

    /// Numbers for the square root: any bits, subnormals, squares of whole numbers and what is near to them, and the
    /// hardest to round, times an even power of two.
    fn root(&mut self) -> f64 {
        let even = f64::from_bits((1023 - 400 + 2 * self.random.below(400) as u64) << 52);
        match self.random.below(8) {
            0 => f64::from_bits(self.random.next()),
            1 | 2 => f64::from_bits(self.random.next() >> 1),
            3 => {
                // A subnormal of any length.
                let shift = 12 + self.random.below(52);
                f64::from_bits(self.random.next() >> shift)
            }
            4 => {
                let q = self.random.next() >> 37;
                let x = (q * q) as f64 * even;
                self.near(x)
            }
            5 | 6 => self.halfway() * even,
            _ => {
                let kind = self.random.below(8);
                self.number(kind).abs()
            }
        }
    }

    pub fn fill(&mut self, takes: Takes, v: &mut [f64; 6]) {
        match takes {
            Takes::Nothing => {}
            Takes::Root => v[0] = self.root(),
            Takes::Ratio => {
                for x in &mut v[..2] {
                    let bits = 1 + self.random.below(32);
                    *x = (self.random.next() >> (64 - bits)) as f64;
                }
            }
            Takes::Number | Takes::Numbers => self.numbers(&mut v[..takes.count()]),
            Takes::Interval | Takes::Intervals => {
                self.numbers(&mut v[..takes.count()]);
                self.intervals(&mut v[..takes.count()]);
            }
            Takes::Alpha => {
                self.numbers(v);
                self.intervals(v);
                if !self.random.one_in(4) {
                    self.alpha(&mut v[4..]);
                }
            }
        }
    }
}
