//! The operators by number.

pub const NEGATE: u8 = 0;
pub const INVERT: u8 = 1;
pub const NOT: u8 = 2;
pub const ABS: u8 = 3;
pub const TO_REAL: u8 = 4;
pub const TRUNC: u8 = 5;
pub const ROUND: u8 = 6;
pub const FRAC: u8 = 7;

pub const POWER: u8 = 0;
pub const TIMES: u8 = 1;
pub const DIVIDE: u8 = 2;
pub const REMAINDER: u8 = 3;
pub const PLUS: u8 = 4;
pub const MINUS: u8 = 5;
pub const SHIFT_LEFT: u8 = 6;
pub const SHIFT_RIGHT: u8 = 7;
pub const SHIFT_RIGHT_ZERO: u8 = 8;
pub const LESS: u8 = 9;
pub const GREATER: u8 = 10;
pub const LESS_EQUAL: u8 = 11;
pub const GREATER_EQUAL: u8 = 12;
pub const EQUAL: u8 = 13;
pub const NOT_EQUAL: u8 = 14;
pub const AND: u8 = 15;
pub const XOR: u8 = 16;
pub const OR: u8 = 17;
pub const MAX: u8 = 18;
pub const MIN: u8 = 19;

pub const SUM: u8 = 0;
pub const AVERAGE: u8 = 1;
pub const GREATEST: u8 = 2;
pub const LEAST: u8 = 3;
pub const TOTALS: u8 = 4;

// COUNTIF with the tests EQ, NE, GE, GT, LE, LT, then SUMIF with the same.
pub const COUNT_WHERE: u8 = 0;
pub const SUM_WHERE: u8 = 6;
pub const MATCHES: u8 = 12;

// `&&` and `||` are jumps, and no operators on values.
pub const LOGICAL_AND: u8 = 20;
pub const LOGICAL_OR: u8 = 21;
