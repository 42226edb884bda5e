//! Totals over a run of cells, taken upwards.

use super::memory::{read, Bank};
use super::operators::{binary, Binary};
use super::value::{Fault, Kind, Value};

#[derive(Clone, Copy, PartialEq, Debug)]
pub enum Total {
    Sum,
    Average,
    Greatest,
    Least,
}

/// What is worked out of the cells that pass a test.
#[derive(Clone, Copy, PartialEq, Debug)]
pub enum Matching {
    Count,
    Sum,
}

// In the order of the operand numbers of the instruction set: each of the two with each test.
pub const TOTALS: [Total; 4] = [Total::Sum, Total::Average, Total::Greatest, Total::Least];
pub const MATCHINGS: [Matching; 2] = [Matching::Count, Matching::Sum];
#[rustfmt::skip]
pub const TESTS: [Binary; 6] =
    [Binary::Equal, Binary::NotEqual, Binary::GreaterEqual, Binary::Greater, Binary::LessEqual, Binary::Less];

/// Cells of one bank from the first on. There is at least one, and all lie within the bank.
#[derive(Clone, Copy, PartialEq, Debug)]
pub struct Range {
    pub bank: Bank,
    pub first: usize,
    pub count: usize,
}

impl Range {
    pub fn new(bank: Bank, first: usize, count: i64) -> Option<Range> {
        let count = usize::try_from(count).ok()?;
        (count >= 1 && first + count <= bank.cells()).then_some(Range { bank, first, count })
    }
}

pub fn total_kind(op: Total, bank: Bank) -> Kind {
    match op {
        Total::Average => Kind::Real,
        _ => bank.kind(),
    }
}

pub fn matching_kind(op: Matching, bank: Bank) -> Kind {
    match op {
        Matching::Count => Kind::Int,
        Matching::Sum => bank.kind(),
    }
}

fn zero(kind: Kind) -> Value {
    Value::Int(0).promoted(kind)
}

/// A total, or the first fault met, and the cells visited, the faulting one included.
pub type Visited = (Result<Value, Fault>, u32);

pub fn total(op: Total, range: Range, memory: &[u8]) -> Visited {
    let kind = total_kind(op, range.bank);
    let (result, cells) = visit(range, memory, None, |so_far, cell| match (op, so_far) {
        (Total::Sum | Total::Average, so_far) => binary(Binary::Plus, so_far.unwrap_or(zero(kind)), cell.promoted(kind)),
        (_, None) => Ok(cell),
        (Total::Greatest, Some(greatest)) => binary(Binary::Max, greatest, cell),
        (Total::Least, Some(least)) => binary(Binary::Min, least, cell),
    });
    let divided = |sum: Value| match op {
        Total::Average => binary(Binary::Divide, sum, Value::Int(range.count as i32)),
        _ => Ok(sum),
    };
    (result.and_then(divided), cells)
}

/// Of the cells with `cell test value`.
pub fn matching(op: Matching, test: Binary, value: Value, range: Range, memory: &[u8]) -> Visited {
    let start = zero(matching_kind(op, range.bank));
    visit(range, memory, Some(start), |so_far, cell| {
        let so_far = so_far.unwrap_or(start);
        match (binary(test, cell, value)?.truth(), op) {
            (false, _) => Ok(so_far),
            (true, Matching::Count) => binary(Binary::Plus, so_far, Value::Int(1)),
            (true, Matching::Sum) => binary(Binary::Plus, so_far, cell),
        }
    })
}

// Each cell is read, and then taken into what there is so far.
fn visit(
    range: Range,
    memory: &[u8],
    mut so_far: Option<Value>,
    take: impl Fn(Option<Value>, Value) -> Result<Value, Fault>,
) -> Visited {
    for visited in 0..range.count {
        match read(memory, range.bank, range.first + visited).and_then(|cell| take(so_far, cell)) {
            Ok(value) => so_far = Some(value),
            Err(fault) => return (Err(fault), visited as u32 + 1),
        }
    }
    (Ok(so_far.expect("a range has a cell")), range.count as u32)
}
