//! The run of code that the check accepted: one `match` on the opcode. In safe Rust it still tests heights and kinds where they are
//! wanted, since nothing tells the compiler that the check did.

use super::image::{bit_cell, double, half, indexed, real, signed_half};
use super::op;
use super::opcode::*;
use super::totals::{matching, total, Range};
use super::values::*;

use Value::{Int, Real};

pub type Instruction = [u8; 8];

pub fn instruction(opcode: u8, operand: u8, word: u32) -> Instruction {
    let [a, b, c, d] = word.to_le_bytes();
    [opcode, operand, 0, 0, a, b, c, d]
}

/// The opcode, the operand with the two bytes above it, and the word.
#[inline]
pub fn fields(bytes: &Instruction) -> (u8, u32, u32) {
    // one load, and not a byte at a time
    let whole = u64::from_le_bytes(*bytes);
    (whole as u8, whole as u32 >> 8, (whole >> 32) as u32)
}

/// The first so many instructions, if the bytes have them.
pub fn instructions(code: &[u8], n: usize) -> Option<&[Instruction]> {
    code.as_chunks().0.get(..n)
}

// The values are borrowed, so that the height can be kept in a register.
struct Stack<'a> {
    values: &'a mut [Value; 128],
    height: usize,
}

impl Stack<'_> {
    #[inline(always)]
    fn pop(&mut self) -> Result<Value, Stop> {
        self.height = self.height.checked_sub(1).ok_or(Stop::Stuck)?;
        self.values.get(self.height).copied().ok_or(Stop::Stuck)
    }

    #[inline(always)]
    fn int(&mut self) -> Result<i32, Stop> {
        match self.pop()? {
            Int(z) => Ok(z),
            Real(_) => Err(Stop::Stuck),
        }
    }

    #[inline(always)]
    fn real(&mut self) -> Result<f32, Stop> {
        match self.pop()? {
            Real(x) => Ok(x),
            Int(_) => Err(Stop::Stuck),
        }
    }

    // What the two last give: the right one is the last pushed.
    #[inline(always)]
    fn ints(&mut self, f: impl Fn(i32, i32) -> Outcome) -> Outcome {
        let right = self.int()?;
        f(self.int()?, right)
    }

    #[inline(always)]
    fn reals(&mut self, f: impl Fn(f32, f32) -> Outcome) -> Outcome {
        let right = self.real()?;
        f(self.real()?, right)
    }

    #[inline(always)]
    fn push(&mut self, v: Value) -> Result<(), Stop> {
        *self.values.get_mut(self.height).ok_or(Stop::Stuck)? = v;
        self.height += 1;
        Ok(())
    }
}

struct Surroundings<'a> {
    image: &'a [u8],
    tick: u32,
}

// What an instruction gives that is no jump; a total counts its cells.
#[inline(always)]
fn given(stack: &mut Stack, opcode: u8, operand: u8, word: u32, around: &Surroundings, count: &mut usize) -> Outcome {
    let image = around.image;
    let at = word as usize;
    match opcode {
        PUSH_INT => Ok(Int(word as i32)),
        PUSH_REAL => Ok(Real(f32::from_bits(word))),
        TICK => Ok(Int(around.tick as i32)),
        LOAD_X => bit_cell(image, 0, at),
        LOAD_C => bit_cell(image, 1, at),
        LOAD_V => half(image, at),
        LOAD_N => signed_half(image, at),
        LOAD_D => double(image, at),
        LOAD_R => real(image, at),
        INDEX_X => bit_cell(image, 0, indexed(0, Int(stack.int()?))? as usize),
        INDEX_C => bit_cell(image, 1, indexed(1, Int(stack.int()?))? as usize),
        INDEX_V => half(image, indexed(2, Int(stack.int()?))? as usize),
        INDEX_N => signed_half(image, indexed(3, Int(stack.int()?))? as usize),
        INDEX_D => double(image, indexed(4, Int(stack.int()?))? as usize),
        INDEX_R => real(image, indexed(5, Int(stack.int()?))? as usize),
        AT_REAL_X => bit_cell(image, 0, indexed(0, Real(stack.real()?))? as usize),
        AT_REAL_C => bit_cell(image, 1, indexed(1, Real(stack.real()?))? as usize),
        AT_REAL_V => half(image, indexed(2, Real(stack.real()?))? as usize),
        AT_REAL_N => signed_half(image, indexed(3, Real(stack.real()?))? as usize),
        AT_REAL_D => double(image, indexed(4, Real(stack.real()?))? as usize),
        AT_REAL_R => real(image, indexed(5, Real(stack.real()?))? as usize),
        TOTAL => total(operand, Range::of_word(word).ok_or(Stop::Stuck)?, image, count),
        MATCH_INT | MATCH_REAL => matching(operand, stack.pop()?, Range::of_word(word).ok_or(Stop::Stuck)?, image, count),
        SINCE => Ok(Int(around.tick.wrapping_sub(stack.int()? as u32) as i32)),
        NEGATE_INT => exact(stack.int()?.checked_neg()),
        INVERT_INT => Ok(Int(!stack.int()?)),
        NOT_INT => bit(stack.int()? == 0),
        ABS_INT => exact(stack.int()?.checked_abs()),
        TO_REAL_INT => Ok(Real(stack.int()? as f32)),
        TRUNC_INT | ROUND_INT => Ok(Int(stack.int()?)),
        FRAC_INT => Ok(Real(stack.int()? as f32 % 1.0)),
        NEGATE_REAL => Ok(Real(-stack.real()?)),
        NOT_REAL => bit(stack.real()? == 0.0),
        ABS_REAL => Ok(Real(stack.real()?.abs())),
        TO_REAL_REAL => Ok(Real(stack.real()?)),
        TRUNC_REAL => cut(stack.real()?).map(Int),
        ROUND_REAL => cut(stack.real()?.round()).map(Int),
        FRAC_REAL => Ok(Real(stack.real()? % 1.0)),
        POWER_INT => stack.ints(power),
        TIMES_INT => stack.ints(|x, y| exact(x.checked_mul(y))),
        DIVIDE_INT => stack.ints(|x, y| if y == 0 { Err(Stop::DividedByZero) } else { exact(x.checked_div(y)) }),
        REMAINDER_INT => stack.ints(|x, y| if y == 0 { Err(Stop::DividedByZero) } else { Ok(Int(x.wrapping_rem(y))) }),
        PLUS_INT => stack.ints(|x, y| exact(x.checked_add(y))),
        MINUS_INT => stack.ints(|x, y| exact(x.checked_sub(y))),
        SHIFT_LEFT_INT => stack.ints(|x, y| Ok(Int(x << shift(y)?))),
        SHIFT_RIGHT_INT => stack.ints(|x, y| Ok(Int(x >> shift(y)?))),
        SHIFT_RIGHT_ZERO_INT => stack.ints(|x, y| Ok(Int((x as u32 >> shift(y)?) as i32))),
        LESS_INT => stack.ints(|x, y| bit(x < y)),
        GREATER_INT => stack.ints(|x, y| bit(x > y)),
        LESS_EQUAL_INT => stack.ints(|x, y| bit(x <= y)),
        GREATER_EQUAL_INT => stack.ints(|x, y| bit(x >= y)),
        EQUAL_INT => stack.ints(|x, y| bit(x == y)),
        NOT_EQUAL_INT => stack.ints(|x, y| bit(x != y)),
        AND_INT => stack.ints(|x, y| Ok(Int(x & y))),
        XOR_INT => stack.ints(|x, y| Ok(Int(x ^ y))),
        OR_INT => stack.ints(|x, y| Ok(Int(x | y))),
        MAX_INT => stack.ints(|x, y| Ok(Int(x.max(y)))),
        MIN_INT => stack.ints(|x, y| Ok(Int(x.min(y)))),
        TIMES_REAL => stack.reals(|x, y| on_reals(op::TIMES, x, y)),
        DIVIDE_REAL => stack.reals(|x, y| on_reals(op::DIVIDE, x, y)),
        REMAINDER_REAL => stack.reals(|x, y| on_reals(op::REMAINDER, x, y)),
        PLUS_REAL => stack.reals(|x, y| on_reals(op::PLUS, x, y)),
        MINUS_REAL => stack.reals(|x, y| on_reals(op::MINUS, x, y)),
        LESS_REAL => stack.reals(|x, y| on_reals(op::LESS, x, y)),
        GREATER_REAL => stack.reals(|x, y| on_reals(op::GREATER, x, y)),
        LESS_EQUAL_REAL => stack.reals(|x, y| on_reals(op::LESS_EQUAL, x, y)),
        GREATER_EQUAL_REAL => stack.reals(|x, y| on_reals(op::GREATER_EQUAL, x, y)),
        EQUAL_REAL => stack.reals(|x, y| on_reals(op::EQUAL, x, y)),
        NOT_EQUAL_REAL => stack.reals(|x, y| on_reals(op::NOT_EQUAL, x, y)),
        MAX_REAL => stack.reals(|x, y| on_reals(op::MAX, x, y)),
        MIN_REAL => stack.reals(|x, y| on_reals(op::MIN, x, y)),
        POWER_FIRST => {
            let n = stack.int()?;
            real_power(stack.real()?, n)
        }
        POWER_LATER..=MIN_LATER => {
            let y = stack.real()?;
            on_reals(opcode - POWER_LATER, stack.int()? as f32, y)
        }
        TIMES_FIRST..=MIN_FIRST => {
            let y = stack.int()? as f32;
            on_reals(opcode - POWER_FIRST, stack.real()?, y)
        }
        _ => Err(Stop::Stuck),
    }
}

// Runs to the end and counts the instructions begun and the cells visited.
#[inline]
fn go(code: &[Instruction], around: &Surroundings, count: &mut usize) -> Outcome {
    let mut stack = Stack { values: &mut [Int(0); 128], height: 0 };
    let mut place = 0;
    while let Some(bytes) = code.get(place) {
        *count += 1;
        let (opcode, operand, word) = fields(bytes);
        place += 1;
        let jumps = match opcode {
            JUMP => true,
            JUMP_IF_FALSE_INT => stack.int()? == 0,
            JUMP_IF_TRUE_INT => stack.int()? != 0,
            JUMP_IF_FALSE_REAL => stack.real()? == 0.0,
            JUMP_IF_TRUE_REAL => stack.real()? != 0.0,
            _ => {
                let v = given(&mut stack, opcode, operand as u8, word, around, count)?;
                stack.push(v)?;
                false
            }
        };
        if jumps {
            place += word as usize;
        }
    }
    if stack.height == 1 {
        Ok(stack.values[0])
    } else {
        Err(Stop::Stuck)
    }
}

/// What the code gives, and the count.
#[inline(never)]
pub fn run(code: &[Instruction], image: &[u8], tick: u32) -> (Outcome, usize) {
    let mut count = 0;
    let given = go(code, &Surroundings { image, tick }, &mut count);
    (given, count)
}
