//! crates/value_cases: every operator on a table of edge cases.

use super::{shown, shown_end};
use crate::reference::machine::Stop::{self, Stuck};
use crate::reference::memory::element;
use crate::reference::operators::{binary, binary_kind, since, since_kind, unary, unary_kind, Binary, Unary};
use crate::reference::value::{Kind, Value};

// The tables of crates/value_cases/src/main.rt, which says what each number is there for.
#[rustfmt::skip]
const INTEGERS: [i32; 15] = [
    0, 1, -1, 2, 3, -7, 31, 32, 64, 65, 16777217, -16777219, 1073741962, i32::MAX, i32::MIN,
];
#[rustfmt::skip]
const SINGLES: [u32; 22] = [
    0x00000000, 0x80000000, 0x00000001, 0x80000001, 0x007FFFFF, 0x00800000, 0x3EFFFFFF, 0x3F000000, 0xBF000000, 0x3F7FFFFF,
    0x3F800000, 0xBF800000, 0x3FC00000, 0xC0200000, 0x4AFFFFFF, 0x4B800000, 0x4EFFFFFF, 0x4F000000, 0xCF000000, 0xCF000001,
    0x7F7FFFFF, 0xFF7FFFFF,
];
const BASES: [i32; 13] = [i32::MIN, -46341, -46340, -3, -2, -1, 0, 1, 2, 3, 46340, 46341, i32::MAX];
const EXPONENTS: [i32; 19] = [0, 1, 2, 3, 4, 5, 6, 7, 15, 16, 30, 31, 32, 33, 62, 63, 64, 65, -1];

const TICKS: [u32; 5] = [0, 1, 0x7FFF_FFFF, 0x8000_0000, 0xFFFF_FFFF];

const UNARY_NAMES: [(&str, Unary); 8] = [
    ("-", Unary::Negate),
    ("~", Unary::Invert),
    ("!", Unary::Not),
    ("ABS", Unary::Abs),
    ("TOREAL", Unary::ToReal),
    ("TRUNC", Unary::Trunc),
    ("ROUND", Unary::Round),
    ("FRAC", Unary::Frac),
];
const BINARY_NAMES: [(&str, Binary); 20] = [
    ("+", Binary::Plus),
    ("-", Binary::Minus),
    ("*", Binary::Times),
    ("/", Binary::Divide),
    ("%", Binary::Remainder),
    ("**", Binary::Power),
    ("<<", Binary::ShiftLeft),
    (">>", Binary::ShiftRight),
    (">>>", Binary::ShiftRightZero),
    ("<", Binary::Less),
    (">", Binary::Greater),
    ("<=", Binary::LessEqual),
    (">=", Binary::GreaterEqual),
    ("==", Binary::Equal),
    ("!=", Binary::NotEqual),
    ("&", Binary::And),
    ("|", Binary::Or),
    ("^", Binary::Xor),
    ("MAX", Binary::Max),
    ("MIN", Binary::Min),
];

type End = Result<Value, Stop>;

pub fn lines() -> String {
    let mut all = "faults !11 !12 !13 !14\n".to_string();
    all += &results("branch of int", |v| Ok(v.promoted(Kind::Int)));
    all += &results("branch of real", |v| Ok(v.promoted(Kind::Real)));
    all += &results("truth", |v| Ok(Value::Int(i32::from(v.truth()))));
    for cells in [64, 256] {
        all += &results(&format!("index of {cells}"), |v| Ok(Value::Int(element(v, cells)? as i32)));
    }
    for (name, op) in UNARY_NAMES {
        all += &results(name, |v| of_one(op, v));
    }
    for tick in TICKS {
        all += &results(&format!("SINCE at {tick:08X}:"), |v| of_since(tick, v));
    }
    for (name, op) in BINARY_NAMES {
        for left in operands() {
            all += &results(&format!("{name} {}:", shown(left)), |right| of_two(op, left, right));
        }
    }
    all + &powers()
}

fn operands() -> impl Iterator<Item = Value> {
    let singles = SINGLES.map(|pattern| Value::Real(f32::from_bits(pattern)));
    INTEGERS.map(Value::Int).into_iter().chain(singles)
}

fn results(name: &str, f: impl Fn(Value) -> End) -> String {
    let all: String = operands().map(|v| format!(" {}", shown_end(f(v)))).collect();
    format!("{name}{all}\n")
}

fn of_one(op: Unary, v: Value) -> End {
    match unary_kind(op, v.kind()) {
        (_, true) => Ok(unary(op, v)?),
        _ => Err(Stuck),
    }
}

fn of_since(tick: u32, v: Value) -> End {
    match since_kind(v.kind()) {
        (_, true) => Ok(since(tick, v)),
        _ => Err(Stuck),
    }
}

fn of_two(op: Binary, left: Value, right: Value) -> End {
    match binary_kind(op, left.kind(), right.kind()) {
        (_, true) => Ok(binary(op, left, right)?),
        _ => Err(Stuck),
    }
}

fn powers() -> String {
    let power = |base, exponent| shown_end(of_two(Binary::Power, Value::Int(base), Value::Int(exponent)));
    let line = |base| {
        let all = EXPONENTS.map(|exponent| format!(" {}", power(base, exponent)));
        format!("powers of i{base}:{}\n", all.concat())
    };
    let counts = BASES.iter().flat_map(|base| EXPONENTS.map(|exponent| multiplications(*base, exponent)));
    BASES.map(line).concat() + &format!("most multiplications {}\n", counts.max().unwrap())
}

// Squaring from the highest binary digit down: a multiplication for each digit after the first, and one more for each of them
// that is a one, up to the product that leaves 32 bits.
fn multiplications(base: i32, exponent: i32) -> u32 {
    if !(1..=64).contains(&exponent) {
        return 0;
    }
    let (mut product, mut count) = (i64::from(base), 0);
    let mut times = |product: &mut i64, factor: i64| {
        if i32::try_from(*product).is_ok() {
            *product *= factor;
            count += 1;
        }
    };
    for digit in (0..exponent.ilog2()).rev() {
        let square = product;
        times(&mut product, square);
        if exponent >> digit & 1 == 1 {
            times(&mut product, i64::from(base));
        }
    }
    count
}
