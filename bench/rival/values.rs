//! Values and the operators on them.

use super::op;

#[derive(Clone, Copy, PartialEq, Debug)]
pub enum Kind {
    Int,
    Real,
}

#[derive(Clone, Copy, PartialEq, Debug)]
pub enum Value {
    Int(i32),
    Real(f32),
}

/// Why a run ends before its end: a fault by its answer, or code that no check accepted. As wide as what a value holds, so that
/// an outcome is moved as one word and not byte by byte.
#[derive(Clone, Copy, PartialEq, Debug)]
#[repr(u32)]
pub enum Stop {
    Stuck = 0,
    DividedByZero = 11,
    Overflow = 12,
    OutOfRange = 13,
    IndexError = 14,
}

use Stop::*;
use Value::{Int, Real};

pub type Outcome = Result<Value, Stop>;

impl Value {
    pub fn single(self) -> f32 {
        match self {
            Int(z) => z as f32,
            Real(x) => x,
        }
    }

    pub fn truth(self) -> bool {
        match self {
            Int(z) => z != 0,
            Real(x) => x != 0.0,
        }
    }

    /// The integer, or the real cut toward zero.
    pub fn cut(self) -> Result<i32, Stop> {
        match self {
            Int(z) => Ok(z),
            Real(x) => cut(x),
        }
    }
}

#[inline(always)]
pub fn cut(x: f32) -> Result<i32, Stop> {
    if (-2147483648.0..2147483648.0).contains(&x) {
        Ok(x as i32)
    } else {
        Err(OutOfRange)
    }
}

pub fn joined(a: Kind, b: Kind) -> Kind {
    if a == Kind::Real {
        a
    } else {
        b
    }
}

#[inline(always)]
pub fn exact(z: Option<i32>) -> Outcome {
    z.map(Int).ok_or(Overflow)
}

// No operation of two finite singles gives a NaN where the divisor is not zero.
#[inline(always)]
pub fn finite(x: f32) -> Outcome {
    if x.is_finite() {
        Ok(Real(x))
    } else {
        Err(Overflow)
    }
}

#[inline(always)]
pub fn bit(t: bool) -> Outcome {
    Ok(Int(t as i32))
}

#[inline(always)]
pub fn shift(y: i32) -> Result<u32, Stop> {
    if (0..32).contains(&y) {
        Ok(y as u32)
    } else {
        Err(OutOfRange)
    }
}

#[inline(always)]
pub fn on_reals(operator: u8, x: f32, y: f32) -> Outcome {
    match operator {
        op::TIMES => finite(x * y),
        op::DIVIDE | op::REMAINDER if y == 0.0 => Err(DividedByZero),
        op::DIVIDE => finite(x / y),
        op::REMAINDER => finite(x % y),
        op::PLUS => finite(x + y),
        op::MINUS => finite(x - y),
        op::LESS => bit(x < y),
        op::GREATER => bit(x > y),
        op::LESS_EQUAL => bit(x <= y),
        op::GREATER_EQUAL => bit(x >= y),
        op::EQUAL => bit(x == y),
        op::NOT_EQUAL => bit(x != y),
        op::MAX => Ok(Real(if x < y { y } else { x })),
        op::MIN => Ok(Real(if y < x { y } else { x })),
        _ => Err(Stuck),
    }
}

pub fn power(z: i32, n: i32) -> Outcome {
    if !(0..=64).contains(&n) {
        return Err(OutOfRange);
    }
    exact(z.checked_pow(n as u32))
}

pub fn real_power(x: f32, n: i32) -> Outcome {
    if !(0..=64).contains(&n) {
        return Err(OutOfRange);
    }
    // each product is rounded, so there is no way around the loop
    finite((0..n).fold(1.0, |y, _| y * x))
}
