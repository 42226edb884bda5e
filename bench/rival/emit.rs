//! Formulas to instructions.
//!
//! A refusal must leave the caller's buffer as it was. So the instructions go to a scratch, of the size that they can need at
//! most, and are copied when the whole text has been read. To judge the text first and then read it again into the buffer was
//! measured too: it takes twice the time.

use super::machine::{instruction, Instruction};
use super::op;
use super::opcode::{self, *};
use super::reader::read;
use super::tokens::Refusal;
use super::totals::Range;
use super::values::Kind::{self, Int, Real};

/// The instructions so far. A gap is the place of a jump that skips what comes next.
pub struct Code(Vec<Instruction>);

impl Code {
    /// Room for so many.
    pub fn new(instructions: usize) -> Code {
        Code(Vec::with_capacity(instructions))
    }

    fn push(&mut self, opcode: u8, operand: u8, word: u32) {
        self.0.push(instruction(opcode, operand, word));
    }

    fn fill(&mut self, gap: usize, opcode: u8, distance: usize) {
        self.0[gap] = instruction(opcode, 0, distance as u32);
    }

    // The instructions after a gap.
    fn since(&self, gap: usize) -> usize {
        self.0.len() - gap - 1
    }

    /// Copies the code to a buffer and gives the number of instructions.
    pub fn write(&self, buffer: &mut [u8]) -> usize {
        let bytes = self.0.as_flattened();
        buffer[..bytes.len()].copy_from_slice(bytes);
        self.0.len()
    }

    pub fn number(&mut self, kind: Kind, bits: u32) {
        self.push(if kind == Int { PUSH_INT } else { PUSH_REAL }, 0, bits);
    }

    pub fn cell(&mut self, bank: u8, element: u8) {
        self.push(LOAD_X + bank, 0, element as u32);
    }

    pub fn indexed(&mut self, bank: u8, index: Kind) {
        self.push(opcode::indexed(bank, index), 0, 0);
    }

    pub fn unary(&mut self, operator: u8, kind: Kind) {
        self.push(opcode::unary(operator, kind), 0, 0);
    }

    pub fn binary(&mut self, operator: u8, left: Kind, right: Kind) {
        self.push(opcode::binary(operator, left, right), 0, 0);
    }

    pub fn tick(&mut self) {
        self.push(TICK, 0, 0);
    }

    pub fn elapsed(&mut self) {
        self.push(SINCE, 0, 0);
    }

    pub fn total(&mut self, operator: u8, range: Range) {
        self.push(TOTAL, operator, range.word());
    }

    pub fn matching(&mut self, operator: u8, kind: Kind, range: Range) {
        self.push(opcode::matching(kind), operator, range.word());
    }

    pub fn jump(&mut self, distance: usize) {
        self.push(JUMP, 0, distance as u32);
    }

    pub fn jump_if_true(&mut self, kind: Kind, distance: usize) {
        self.push(jump_if(true, kind), 0, distance as u32);
    }

    /// After the left side of `&&` and `||`, and after the condition of IF.
    pub fn gap(&mut self) -> usize {
        self.jump(0);
        self.0.len() - 1
    }

    /// After the right side: `&&` (false) or `||` (true), the truth of the left side that decides, and the kinds of both sides.
    pub fn decide(&mut self, decides: bool, gap: usize, left: Kind, right: Kind) {
        self.fill(gap, jump_if(decides, left), self.since(gap) + 3);
        self.push(jump_if(decides, right), 0, 2);
        self.push(PUSH_INT, 0, !decides as u32);
        self.jump(1);
        self.push(PUSH_INT, 0, decides as u32);
    }

    /// After the first branch of IF, with the kind of its condition; gives the next gap.
    pub fn branch(&mut self, gap: usize, condition: Kind) -> usize {
        let next = self.gap();
        self.fill(gap, jump_if(false, condition), self.since(gap));
        next
    }

    /// After the second branch, with the kinds of both.
    pub fn choose(&mut self, gap: usize, first: Kind, second: Kind) {
        let distance = self.since(gap);
        match (first, second) {
            // the second branch skips the promotion of the first
            (Int, Real) => {
                self.jump(1);
                self.unary(op::TO_REAL, Int);
                self.fill(gap, JUMP, distance + 1);
            }
            (Real, Int) => {
                self.unary(op::TO_REAL, Int);
                self.fill(gap, JUMP, distance + 1);
            }
            _ => self.fill(gap, JUMP, distance),
        }
    }
}

/// The code of a formula behind so many open brackets.
#[inline(never)]
pub fn compile(text: &[u8], open: u8) -> Result<Code, Refusal> {
    // two instructions a byte are the most, so it never grows
    let mut scratch = Code::new(2 * text.len().min(1024));
    read(text, open, &mut scratch)?;
    Ok(scratch)
}
