//! Totals over a run of cells. Each counts the cells visited, the one with a fault too.

use super::image::{bit, elements, BANK_STARTS, REAL_BANK};
use super::op;
use super::values::{exact, finite, Kind, Outcome, Stop, Value};

use Value::{Int, Real};

/// Cells of one bank: at least one, and all within the bank.
#[derive(Clone, Copy)]
pub struct Range {
    pub bank: u8,
    first: u32,
    count: u32,
}

impl Range {
    pub fn new(bank: u8, first: u32, count: u32) -> Option<Range> {
        if bank <= REAL_BANK && count >= 1 && count <= elements(bank) && first <= elements(bank) - count {
            Some(Range { bank, first, count })
        } else {
            None
        }
    }

    /// The first cell of a bank.
    pub fn one(bank: u8) -> Range {
        Range { bank, first: 0, count: 1 }
    }

    /// From and to the word of an instruction.
    #[inline]
    pub fn of_word(word: u32) -> Option<Range> {
        Range::new(word as u8, word >> 8 & 0xFF, word >> 16)
    }

    pub fn word(self) -> u32 {
        self.bank as u32 | self.first << 8 | self.count << 16
    }

    fn bytes(self, image: &[u8], width: usize) -> &[u8] {
        let start = BANK_STARTS[self.bank as usize] + width * self.first as usize;
        &image[start..start + width * self.count as usize]
    }

    fn bits(self) -> std::ops::Range<usize> {
        let start = 64 * self.bank as usize + self.first as usize;
        start..start + self.count as usize
    }

    fn integers(self, image: &[u8], count: &mut usize, mut take: impl FnMut(i32) -> Result<(), Stop>) -> Result<(), Stop> {
        let mut visit = |z: i32| {
            *count += 1;
            take(z)
        };
        match self.bank {
            0 | 1 => self.bits().try_for_each(|k| visit(bit(image, k))),
            2 => self.bytes(image, 2).chunks_exact(2).try_for_each(|b| visit(u16::from_le_bytes([b[0], b[1]]) as i32)),
            3 => self.bytes(image, 2).chunks_exact(2).try_for_each(|b| visit(i16::from_le_bytes([b[0], b[1]]) as i32)),
            _ => self.bytes(image, 4).chunks_exact(4).try_for_each(|b| visit(i32::from_le_bytes([b[0], b[1], b[2], b[3]]))),
        }
    }

    fn reals(self, image: &[u8], count: &mut usize, mut take: impl FnMut(f32) -> Result<(), Stop>) -> Result<(), Stop> {
        self.bytes(image, 4).chunks_exact(4).try_for_each(|b| {
            *count += 1;
            let x = f32::from_le_bytes([b[0], b[1], b[2], b[3]]);
            if !x.is_finite() {
                return Err(Stop::OutOfRange);
            }
            take(x)
        })
    }
}

#[inline]
pub fn total_kind(operator: u8, bank: u8) -> Kind {
    if operator == op::AVERAGE || bank == REAL_BANK {
        Kind::Real
    } else {
        Kind::Int
    }
}

#[inline]
pub fn match_kind(operator: u8, bank: u8) -> Kind {
    if operator >= op::SUM_WHERE && bank == REAL_BANK {
        Kind::Real
    } else {
        Kind::Int
    }
}

pub fn total(operator: u8, range: Range, image: &[u8], count: &mut usize) -> Outcome {
    match (operator, range.bank == REAL_BANK) {
        (op::AVERAGE, true) => average(range, |take| range.reals(image, count, take)),
        (op::AVERAGE, false) => average(range, |take| range.integers(image, count, |z| take(z as f32))),
        (_, true) => real_total(operator, range, image, count),
        _ => integer_total(operator, range, image, count),
    }
}

fn average(range: Range, over: impl FnOnce(&mut dyn FnMut(f32) -> Result<(), Stop>) -> Result<(), Stop>) -> Outcome {
    let mut sum = 0.0;
    over(&mut |x| add(&mut sum, x))?;
    Ok(Real(sum / range.count as f32))
}

#[inline]
fn add(sum: &mut f32, x: f32) -> Result<(), Stop> {
    *sum += x;
    finite(*sum).map(|_| ())
}

fn real_total(operator: u8, range: Range, image: &[u8], count: &mut usize) -> Outcome {
    let mut so_far = 0.0;
    let mut first = true;
    match operator {
        op::SUM => range.reals(image, count, |x| add(&mut so_far, x)),
        _ => range.reals(image, count, |x| {
            if first || (if operator == op::GREATEST { so_far < x } else { x < so_far }) {
                so_far = x;
                first = false;
            }
            Ok(())
        }),
    }?;
    Ok(Real(so_far))
}

fn integer_total(operator: u8, range: Range, image: &[u8], count: &mut usize) -> Outcome {
    let mut so_far: i32 = match operator {
        op::SUM => 0,
        op::GREATEST => i32::MIN,
        _ => i32::MAX,
    };
    range.integers(image, count, |z| {
        so_far = match operator {
            op::SUM => so_far.checked_add(z).ok_or(Stop::Overflow)?,
            op::GREATEST => so_far.max(z),
            _ => so_far.min(z),
        };
        Ok(())
    })?;
    Ok(Int(so_far))
}

#[inline]
fn passes<T: PartialOrd>(operator: u8, cell: T, value: T) -> bool {
    match operator % op::SUM_WHERE {
        0 => cell == value,
        1 => cell != value,
        2 => cell >= value,
        3 => cell > value,
        4 => cell <= value,
        _ => cell < value,
    }
}

/// Over the cells that pass the operator's test against a value.
pub fn matching(operator: u8, value: Value, range: Range, image: &[u8], count: &mut usize) -> Outcome {
    let sums = operator >= op::SUM_WHERE;
    let mut found = 0;
    if range.bank == REAL_BANK {
        let (value, mut sum) = (value.single(), 0.0);
        range.reals(image, count, |x| {
            if !passes(operator, x, value) {
                return Ok(());
            }
            found += 1;
            if sums {
                add(&mut sum, x)?;
            }
            Ok(())
        })?;
        return if sums { finite(sum) } else { Ok(Int(found)) };
    }
    let mut sum: i32 = 0;
    range.integers(image, count, |z| {
        let passed = match value {
            Int(v) => passes(operator, z, v),
            Real(v) => passes(operator, z as f32, v),
        };
        if passed {
            found += 1;
            sum = if sums { sum.checked_add(z).ok_or(Stop::Overflow)? } else { 0 };
        }
        Ok(())
    })?;
    exact(Some(if sums { sum } else { found }))
}
