//! Random cases, from a small generator (splitmix64): the same seed and case number give the same case everywhere.

pub mod bad_codes;
pub mod cards;
pub mod cases;
pub mod codes;
pub mod formulas;
pub mod images;
pub mod texts;

use crate::reference::memory::{Bank, BANKS};
use crate::reference::operators::{unary_kind, Unary, UNARIES};
use crate::reference::totals::{Total, TOTALS};
use crate::reference::value::Kind;

pub struct Random {
    state: u64,
    /// Whether formulas and codes may have reals.
    pub reals: bool,
}

fn mix(mut z: u64) -> u64 {
    z = (z ^ (z >> 30)).wrapping_mul(0xBF58476D1CE4E5B9);
    z = (z ^ (z >> 27)).wrapping_mul(0x94D049BB133111EB);
    z ^ (z >> 31)
}

impl Random {
    pub fn new(seed: u64, case: u64) -> Random {
        Random { state: mix(mix(seed) ^ case), reals: true }
    }

    pub fn next(&mut self) -> u64 {
        self.state = self.state.wrapping_add(0x9E3779B97F4A7C15);
        mix(self.state)
    }

    pub fn word(&mut self) -> u32 {
        self.next() as u32
    }

    pub fn byte(&mut self) -> u8 {
        self.next() as u8
    }

    /// 0 to limit - 1.
    pub fn below(&mut self, limit: usize) -> usize {
        (self.next() % limit as u64) as usize
    }

    /// First to last, both included.
    pub fn between(&mut self, first: i64, last: i64) -> i64 {
        first + (self.next() % (last - first + 1) as u64) as i64
    }

    pub fn one_in(&mut self, n: usize) -> bool {
        self.below(n) == 0
    }

    pub fn pick<'a, T>(&mut self, choices: &'a [T]) -> &'a T {
        &choices[self.below(choices.len())]
    }

    pub fn fill(&mut self, bytes: &mut [u8]) {
        for chunk in bytes.chunks_mut(8) {
            let random = self.next().to_le_bytes();
            chunk.copy_from_slice(&random[..chunk.len()]);
        }
    }

    /// Those that formulas and codes may name: R, the last, only with reals.
    pub fn banks(&self) -> &'static [Bank] {
        if self.reals {
            &BANKS
        } else {
            &BANKS[..Bank::R as usize]
        }
    }

    pub fn bank(&mut self) -> Bank {
        *self.pick(self.banks())
    }

    pub fn kind(&mut self) -> Kind {
        match self.below(2) {
            0 if self.reals => Kind::Real,
            _ => Kind::Int,
        }
    }

    /// One that gives no real, without reals.
    pub fn unary(&mut self) -> Unary {
        loop {
            let op = *self.pick(&UNARIES);
            if self.reals || unary_kind(op, Kind::Int).0 == Kind::Int {
                return op;
            }
        }
    }

    pub fn total(&mut self) -> Total {
        loop {
            let op = *self.pick(&TOTALS);
            if self.reals || op != Total::Average {
                return op;
            }
        }
    }

    /// Any integer, with small ones, powers of two and the ends of the ranges more often.
    pub fn integer(&mut self) -> i32 {
        match self.below(6) {
            0 | 1 => self.between(-12, 12) as i32,
            2 => (self.word() >> self.below(32)) as i32,
            3 => (1u32 << self.below(32)).wrapping_add(self.between(-2, 2) as u32) as i32,
            4 => -((self.word() >> self.below(32)) as i64) as i32,
            _ => *self.pick(&[i32::MIN, i32::MIN + 1, i32::MAX, i32::MAX - 1, 65535, 32768, 16777217, 0, -1]),
        }
    }

    /// Any tick, those around the turns of the counter and of its sign more often.
    pub fn tick(&mut self) -> u32 {
        match self.below(3) {
            0 => self.word(),
            1 => self.integer() as u32,
            _ => *self.pick(&[0, 1, 0x7FFF_FFFF, 0x8000_0000, 0xFFFF_FFFF]),
        }
    }

    /// Any single that is no infinity and no NaN, with those near the rounding and range borders more often.
    pub fn real(&mut self) -> f32 {
        let r = match self.below(9) {
            0 => f32::from_bits(self.word()),
            1 => self.integer() as f32,
            2 => self.between(-40, 40) as f32 / 2.0,
            3 => self.between(-100_000, 100_000) as f32 / (1 << self.below(16)) as f32,
            // Any fraction with a moderate exponent, so that sums and remainders of two of them are not trivial.
            4 | 5 => f32::from_bits(self.word() & 0x807F_FFFF | (self.between(115, 139) as u32) << 23),
            // Denormals.
            6 => f32::from_bits(self.word() & 0x80FF_FFFF),
            7 => self.neighbour(),
            _ => *self.pick(&[0.0, -0.0, f32::MAX, f32::MIN, 1.0, -1.0, 0.5, -0.5, 2147483648.0, -2147483648.0]),
        };
        if r.is_finite() {
            r
        } else {
            1.5
        }
    }

    /// A neighbour of a half, of a power of two, of an end of the integers, or of where fractions end.
    pub fn neighbour(&mut self) -> f32 {
        let near = match self.below(5) {
            0 => 0.5,
            1 => self.between(-9, 9) as f32 + 0.5,
            2 => f32::from_bits((self.between(1, 254) as u32) << 23),
            3 => 2147483648.0,
            _ => (1 << self.between(21, 24)) as f32 + self.below(9) as f32 / 2.0,
        };
        let bits = near.to_bits().wrapping_add(self.between(-2, 2) as u32);
        f32::from_bits(bits ^ (self.word() & 0x8000_0000))
    }
}
