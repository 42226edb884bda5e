//! What the operators do with values, and with kinds.

use super::value::{Fault, Kind, Value};

#[derive(Clone, Copy, PartialEq, Debug)]
pub enum Unary {
    Negate,
    Invert,
    Not,
    Abs,
    ToReal,
    Trunc,
    Round,
    Frac,
}

#[derive(Clone, Copy, PartialEq, Debug)]
pub enum Binary {
    Power,
    Times,
    Divide,
    Remainder,
    Plus,
    Minus,
    ShiftLeft,
    ShiftRight,
    ShiftRightZero,
    Less,
    Greater,
    LessEqual,
    GreaterEqual,
    Equal,
    NotEqual,
    And,
    Xor,
    Or,
    Max,
    Min,
}

use Binary::*;
use Fault::*;
use Value::{Int, Real};

// In the order of the operand numbers of the instruction set.
pub const UNARIES: [Unary; 8] =
    [Unary::Negate, Unary::Invert, Unary::Not, Unary::Abs, Unary::ToReal, Unary::Trunc, Unary::Round, Unary::Frac];
#[rustfmt::skip]
pub const BINARIES: [Binary; 20] = [
    Power, Times, Divide, Remainder, Plus, Minus, ShiftLeft, ShiftRight, ShiftRightZero, Less, Greater, LessEqual,
    GreaterEqual, Equal, NotEqual, And, Xor, Or, Max, Min,
];

fn exact(i: i64) -> Result<Value, Fault> {
    i32::try_from(i).map(Int).map_err(|_| Overflow)
}

fn finite(r: f32) -> Result<Value, Fault> {
    if r.is_infinite() {
        Err(Overflow)
    } else if r.is_nan() {
        Err(OutOfRange)
    } else {
        Ok(Real(r))
    }
}

fn truth(b: bool) -> Result<Value, Fault> {
    Ok(Int(i32::from(b)))
}

/// The kind of the result, and whether the operand's kind is taken.
pub fn unary_kind(op: Unary, operand: Kind) -> (Kind, bool) {
    match op {
        Unary::Negate | Unary::Abs => (operand, true),
        Unary::ToReal | Unary::Frac => (Kind::Real, true),
        Unary::Not | Unary::Trunc | Unary::Round => (Kind::Int, true),
        Unary::Invert => (Kind::Int, operand == Kind::Int),
    }
}

/// The kind of the result, and whether the operands' kinds are taken.
pub fn binary_kind(op: Binary, left: Kind, right: Kind) -> (Kind, bool) {
    match op {
        Power => (left, right == Kind::Int),
        Times | Divide | Remainder | Plus | Minus | Max | Min => (left.wider(right), true),
        Less | Greater | LessEqual | GreaterEqual | Equal | NotEqual => (Kind::Int, true),
        ShiftLeft | ShiftRight | ShiftRightZero | And | Xor | Or => (Kind::Int, left == Kind::Int && right == Kind::Int),
    }
}

pub fn unary(op: Unary, v: Value) -> Result<Value, Fault> {
    match (op, v) {
        (Unary::Negate, Int(i)) => exact(-i64::from(i)),
        (Unary::Negate, Real(r)) => Ok(Real(-r)),
        (Unary::Invert, v) => Ok(Int(!integer(v))),
        (Unary::Not, v) => truth(!v.truth()),
        (Unary::Abs, Int(i)) => exact(i64::from(i).abs()),
        (Unary::Abs, Real(r)) => Ok(Real(r.abs())),
        (Unary::ToReal, v) => Ok(Real(v.real())),
        (Unary::Trunc, v) => v.trunc().map(Int),
        (Unary::Round, v) => v.round().map(Int),
        (Unary::Frac, v) => finite(v.real() % 1.0),
    }
}

/// The kind of SINCE, and whether its operand's kind is taken.
pub fn since_kind(operand: Kind) -> (Kind, bool) {
    (Kind::Int, operand == Kind::Int)
}

/// The tick less an integer on 32 bits, around the end of the counter.
pub fn since(tick: u32, v: Value) -> Value {
    Int(tick.wrapping_sub(integer(v) as u32) as i32)
}

// Only for operands that the kinds have shown to be integers.
fn integer(v: Value) -> i32 {
    match v {
        Int(i) => i,
        Real(_) => panic!("a real where the check asks for an integer"),
    }
}

pub fn binary(op: Binary, a: Value, b: Value) -> Result<Value, Fault> {
    match op {
        Power => power(a, integer(b)),
        ShiftLeft | ShiftRight | ShiftRightZero => shift(op, integer(a), integer(b)),
        And => Ok(Int(integer(a) & integer(b))),
        Xor => Ok(Int(integer(a) ^ integer(b))),
        Or => Ok(Int(integer(a) | integer(b))),
        _ => match (a, b) {
            (Int(a), Int(b)) => on_integers(op, i64::from(a), i64::from(b)),
            _ => on_reals(op, a.real(), b.real()),
        },
    }
}

// In 64 bits no result can overflow, so exact() sees the exact one.
fn on_integers(op: Binary, a: i64, b: i64) -> Result<Value, Fault> {
    match op {
        Times => exact(a * b),
        Divide if b == 0 => Err(DividedByZero),
        Divide => exact(a / b),
        Remainder if b == 0 => Err(DividedByZero),
        Remainder => exact(a % b),
        Plus => exact(a + b),
        Minus => exact(a - b),
        Max => exact(if a < b { b } else { a }),
        Min => exact(if b < a { b } else { a }),
        _ => truth(compare(op, a, b)),
    }
}

fn on_reals(op: Binary, a: f32, b: f32) -> Result<Value, Fault> {
    match op {
        Times => finite(a * b),
        Divide if b == 0.0 => Err(DividedByZero),
        Divide => finite(a / b),
        Remainder if b == 0.0 => Err(DividedByZero),
        Remainder => finite(a % b),
        Plus => finite(a + b),
        Minus => finite(a - b),
        Max => Ok(Real(if a < b { b } else { a })),
        Min => Ok(Real(if b < a { b } else { a })),
        _ => truth(compare(op, a, b)),
    }
}

fn compare<T: PartialOrd>(op: Binary, a: T, b: T) -> bool {
    match op {
        Less => a < b,
        Greater => a > b,
        LessEqual => a <= b,
        GreaterEqual => a >= b,
        Equal => a == b,
        NotEqual => a != b,
        _ => unreachable!("not a comparison"),
    }
}

fn power(base: Value, exponent: i32) -> Result<Value, Fault> {
    if !(0..=64).contains(&exponent) {
        return Err(OutOfRange);
    }
    let mut product = match base {
        Int(_) => Int(1),
        Real(_) => Real(1.0),
    };
    // A product that has left the range never comes back, so the first fault is the power's.
    for _ in 0..exponent {
        product = binary(Times, product, base)?;
    }
    Ok(product)
}

fn shift(op: Binary, a: i32, count: i32) -> Result<Value, Fault> {
    if !(0..=31).contains(&count) {
        return Err(OutOfRange);
    }
    let pattern = a as u32;
    Ok(Int(match op {
        ShiftLeft => (pattern << count) as i32,
        ShiftRight => a >> count,
        _ => (pattern >> count) as i32,
    }))
}
