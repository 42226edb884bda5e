//! Instructions and their eight bytes: docs/INSTRUCTIONS.md.

use super::memory::{Bank, BANKS};
use super::operators::{Binary, Unary, BINARIES, UNARIES};
use super::totals::{Matching, Range, Total, MATCHINGS, TESTS, TOTALS};
use super::value::Value;

pub const INSTRUCTION_BYTES: usize = 8;
pub const INSTRUCTION_LIMIT: usize = 2048;
pub const HEIGHT_LIMIT: usize = 128;

#[derive(Clone, Copy, Debug)]
pub enum Instruction {
    Push(Value),
    Load(Bank, usize),
    LoadIndexed(Bank),
    Unary(Unary),
    Binary(Binary),
    /// The number of instructions skipped after this one.
    Jump(u32),
    /// Jumps if the value taken has this truth.
    JumpIf(bool, u32),
    Tick,
    Since,
    Total(Total, Range),
    Match(Matching, Binary, Range),
}

use Instruction::*;

// The page of opcodes. Each of the last six is the first of a class: the operand, a bank or an operator, is added to it.
pub const PUSH_INT: u8 = 1;
pub const PUSH_REAL: u8 = 2;
pub const JUMP: u8 = 3;
pub const JUMP_IF_FALSE: u8 = 4;
pub const JUMP_IF_TRUE: u8 = 5;
pub const TICK: u8 = 6;
pub const SINCE: u8 = 7;
pub const LOAD: u8 = 32;
pub const LOAD_INDEXED: u8 = 64;
pub const UNARY: u8 = 96;
pub const BINARY: u8 = 128;
pub const TOTAL: u8 = 160;
pub const MATCH: u8 = 192;

#[rustfmt::skip]
pub const OPCODES: [u8; 13] = [
    PUSH_INT, PUSH_REAL, JUMP, JUMP_IF_FALSE, JUMP_IF_TRUE, TICK, SINCE, LOAD, LOAD_INDEXED, UNARY, BINARY, TOTAL, MATCH,
];

// So many opcodes has a class.
const CLASS: u8 = 32;

/// Bytes 0 and 1.
pub fn head(opcode: u8, operand: u8) -> [u8; 2] {
    [opcode + operand, 0]
}

// The first opcode of the class, and the operand, of bytes 0 and 1.
fn parts([opcode, zero]: [u8; 2]) -> Option<(u8, usize)> {
    let first = if opcode < CLASS { opcode } else { opcode / CLASS * CLASS };
    (zero == 0).then_some((first, usize::from(opcode - first)))
}

/// Any eight bytes with zeros at 2 and 3, known or not.
pub fn bytes(opcode: u8, operand: u8, word: u32) -> [u8; INSTRUCTION_BYTES] {
    let ([a, b], w) = (head(opcode, operand), word.to_le_bytes());
    [a, b, 0, 0, w[0], w[1], w[2], w[3]]
}

// The word of a range, and the range of a word: the bank, the first element and the count in 8, 8 and 16 bits.
fn range_word(range: Range) -> u32 {
    range.bank as u32 | (range.first as u32) << 8 | (range.count as u32) << 16
}

fn range_of(word: u32) -> Option<Range> {
    let [bank, first, ..] = word.to_le_bytes();
    Range::new(*BANKS.get(usize::from(bank))?, usize::from(first), i64::from(word >> 16))
}

fn match_operand(op: Matching, test: Binary) -> u8 {
    let test = TESTS.iter().position(|t| *t == test).expect("a comparison");
    (op as usize * TESTS.len() + test) as u8
}

pub fn encode(instruction: Instruction) -> [u8; INSTRUCTION_BYTES] {
    match instruction {
        Push(Value::Int(i)) => bytes(PUSH_INT, 0, i as u32),
        Push(Value::Real(r)) => bytes(PUSH_REAL, 0, r.to_bits()),
        Load(bank, element) => bytes(LOAD, bank as u8, element as u32),
        LoadIndexed(bank) => bytes(LOAD_INDEXED, bank as u8, 0),
        Unary(op) => bytes(UNARY, op as u8, 0),
        Binary(op) => bytes(BINARY, op as u8, 0),
        Jump(distance) => bytes(JUMP, 0, distance),
        JumpIf(false, distance) => bytes(JUMP_IF_FALSE, 0, distance),
        JumpIf(true, distance) => bytes(JUMP_IF_TRUE, 0, distance),
        Tick => bytes(TICK, 0, 0),
        Since => bytes(SINCE, 0, 0),
        Total(op, range) => bytes(TOTAL, op as u8, range_word(range)),
        Match(op, test, range) => bytes(MATCH, match_operand(op, test), range_word(range)),
    }
}

pub fn decode(bytes: &[u8]) -> Option<Instruction> {
    let word = u32::from_le_bytes(bytes[4..8].try_into().unwrap());
    let (opcode, operand) = parts([bytes[0], bytes[1]])?;
    if bytes[2] != 0 || bytes[3] != 0 {
        return None;
    }
    match (opcode, operand, word) {
        (PUSH_INT, 0, _) => Some(Push(Value::Int(word as i32))),
        (PUSH_REAL, 0, _) => Some(f32::from_bits(word)).filter(|r| r.is_finite()).map(|r| Push(Value::Real(r))),
        (LOAD, _, _) => {
            let (bank, element) = (*BANKS.get(operand)?, word as usize);
            (element < bank.cells()).then_some(Load(bank, element))
        }
        (LOAD_INDEXED, _, 0) => Some(LoadIndexed(*BANKS.get(operand)?)),
        (UNARY, _, 0) => Some(Unary(*UNARIES.get(operand)?)),
        (BINARY, _, 0) => Some(Binary(*BINARIES.get(operand)?)),
        (JUMP, 0, _) => Some(Jump(word)),
        (JUMP_IF_FALSE, 0, _) => Some(JumpIf(false, word)),
        (JUMP_IF_TRUE, 0, _) => Some(JumpIf(true, word)),
        (TICK, 0, 0) => Some(Tick),
        (SINCE, 0, 0) => Some(Since),
        (TOTAL, ..) => Some(Total(*TOTALS.get(operand)?, range_of(word)?)),
        (MATCH, ..) => {
            let op = *MATCHINGS.get(operand / TESTS.len())?;
            Some(Match(op, TESTS[operand % TESTS.len()], range_of(word)?))
        }
        _ => None,
    }
}

/// The instruction at a place, if there are eight bytes of a known one.
pub fn at(code: &[u8], place: usize) -> Option<Instruction> {
    let start = place.checked_mul(INSTRUCTION_BYTES)?;
    decode(code.get(start..start.checked_add(INSTRUCTION_BYTES)?)?)
}
