//! Values, kinds and faults.

#[derive(Clone, Copy, PartialEq, Debug)]
pub enum Kind {
    Int,
    Real,
}

#[derive(Clone, Copy, Debug)]
pub enum Value {
    Int(i32),
    Real(f32),
}

#[derive(Clone, Copy, PartialEq, Debug)]
pub enum Fault {
    DividedByZero = 11,
    Overflow = 12,
    OutOfRange = 13,
    IndexError = 14,
}

/// By their answers, from 11 on.
pub const FAULTS: [Fault; 4] = [Fault::DividedByZero, Fault::Overflow, Fault::OutOfRange, Fault::IndexError];

use Value::{Int, Real};

impl Kind {
    /// Of two operands: real if either is.
    pub fn wider(self, other: Kind) -> Kind {
        if self == Kind::Real {
            self
        } else {
            other
        }
    }
}

impl Value {
    pub fn kind(self) -> Kind {
        match self {
            Int(_) => Kind::Int,
            Real(_) => Kind::Real,
        }
    }

    pub fn bits(self) -> u32 {
        match self {
            Int(i) => i as u32,
            Real(r) => r.to_bits(),
        }
    }

    /// Of a kind, where every number but 0 is that of a real, and a pattern.
    pub fn of_bits(kind: u32, bits: u32) -> Value {
        match kind {
            0 => Int(bits as i32),
            _ => Real(f32::from_bits(bits)),
        }
    }

    /// Not an infinity and not a NaN.
    pub fn is_finite(self) -> bool {
        match self {
            Int(_) => true,
            Real(r) => r.is_finite(),
        }
    }

    pub fn truth(self) -> bool {
        match self {
            Int(i) => i != 0,
            Real(r) => r != 0.0,
        }
    }

    /// The nearest single, ties to even: that is what `as` gives.
    pub fn real(self) -> f32 {
        match self {
            Int(i) => i as f32,
            Real(r) => r,
        }
    }

    /// Promoted if that kind is real.
    pub fn promoted(self, kind: Kind) -> Value {
        match kind {
            Kind::Real => Real(self.real()),
            Kind::Int => self,
        }
    }

    /// The integer, or the real cut toward zero.
    pub fn trunc(self) -> Result<i32, Fault> {
        match self {
            Int(i) => Ok(i),
            Real(r) => whole(r.trunc()),
        }
    }

    /// The integer, or the nearest to the real: f32::round takes halves away from zero.
    pub fn round(self) -> Result<i32, Fault> {
        match self {
            Int(i) => Ok(i),
            Real(r) => whole(r.round()),
        }
    }
}

// A single without a fraction as an integer. A double holds both ends of the range exactly.
fn whole(r: f32) -> Result<i32, Fault> {
    let r = f64::from(r);
    if (-2147483648.0..=2147483647.0).contains(&r) {
        Ok(r as i32)
    } else {
        Err(Fault::OutOfRange)
    }
}
