//! Random code of one instruction, damaged code, and any bytes.

use super::codes::{bytes_of, range};
use super::Random;
use crate::reference::code::*;
use crate::reference::memory::BANKS;
use crate::reference::operators::{binary_kind, unary_kind, BINARIES};
use crate::reference::totals::{MATCHINGS, TESTS};
use crate::reference::value::{Kind, Value};

/// Code of one operator on values pushed: the cheapest way to try many operands. Few are of a wrong kind.
pub fn one_operator(random: &mut Random) -> Vec<u8> {
    let code = match random.below(10) {
        0 => one_total(random),
        1..=3 => one_unary(random),
        _ => one_binary(random),
    };
    bytes_of(&code)
}

fn one_total(random: &mut Random) -> Vec<Instruction> {
    let (operand, range) = (operand(random, true), range(random));
    if random.one_in(2) {
        vec![Instruction::Total(random.total(), range)]
    } else {
        vec![operand, Instruction::Match(*random.pick(&MATCHINGS), *random.pick(&TESTS), range)]
    }
}

fn one_unary(random: &mut Random) -> Vec<Instruction> {
    let op = random.unary();
    let (_, takes_real) = unary_kind(op, Kind::Real);
    let operand = match random.below(2) {
        0 if takes_real && random.reals => Instruction::Push(Value::Real(random.neighbour())),
        _ => operand(random, takes_real),
    };
    let operator = match random.below(18) {
        0 | 1 => Instruction::LoadIndexed(random.bank()),
        2 => return vec![self::operand(random, false), Instruction::Since],
        _ => Instruction::Unary(op),
    };
    vec![operand, operator]
}

// Where sums, products and quotients leave 32 bits.
const LEFT_ENDS: [i32; 6] = [i32::MIN, i32::MIN + 1, i32::MAX, 65536, 46341, -46341];
const RIGHT_ENDS: [i32; 6] = [i32::MIN, i32::MAX, -1, 1, 32768, 46341];

fn one_binary(random: &mut Random) -> Vec<Instruction> {
    let op = *random.pick(&BINARIES);
    let (_, left_real) = binary_kind(op, Kind::Real, Kind::Int);
    let (_, right_real) = binary_kind(op, Kind::Int, Kind::Real);
    let integer = |i: i32| Instruction::Push(Value::Int(i));
    let (left, right) = (operand(random, left_real), operand(random, right_real));
    let (left, right) = match random.below(16) {
        // Exponents and shift counts that are not refused, and zero divisors.
        0..=3 => (left, integer(random.below(33) as i32)),
        4 if random.reals => (left, Instruction::Push(*random.pick(&[Value::Int(0), Value::Real(0.0), Value::Real(-0.0)]))),
        5 | 6 => (integer(*random.pick(&LEFT_ENDS)), integer(*random.pick(&RIGHT_ENDS))),
        // An integer and the real next to it.
        7 if right_real && random.reals => {
            let i = random.integer();
            (integer(i), Instruction::Push(Value::Real(i as f32)))
        }
        _ => (left, right),
    };
    vec![left, right, Instruction::Binary(op)]
}

fn operand(random: &mut Random, real: bool) -> Instruction {
    let real = random.reals && if random.one_in(30) { !real } else { real && random.one_in(2) };
    Instruction::Push(if real { Value::Real(random.real()) } else { Value::Int(random.integer()) })
}

/// The code with one to three faults in its bytes or in the order of its instructions.
pub fn damaged(random: &mut Random, code: &[u8]) -> Vec<u8> {
    let mut code = code.to_vec();
    for _ in 0..1 + random.below(3) {
        damage(random, &mut code);
    }
    code
}

// Elements and distances at a border, infinities and NaNs.
#[rustfmt::skip]
const WORDS: [u32; 14] = [
    0, 1, 2, 63, 64, 255, 256, 0x7F7F_FFFF, 0x7F80_0000, 0xFF80_0000, 0x7FC0_0000, 0x7F80_0001, 0x8000_0000, u32::MAX,
];

// The word of a range at a border: bank, first element and count.
fn range_word(random: &mut Random) -> u32 {
    let bank = random.below(7) as u32;
    let cells = BANKS.get(bank as usize).map_or(256, |bank| bank.cells()) as u32;
    let first = [0, 1, 63, 64, 255, random.word() % 256][random.below(6)];
    let count = cells.wrapping_sub(first).wrapping_add(random.between(-1, 1) as u32);
    bank | first << 8 | *random.pick(&[0, 1, 2, 256, 257, count]) << 16
}

// An opcode, with an operand that it has or not.
fn likely_head(random: &mut Random) -> [u8; 2] {
    let operand = [0, random.below(8), random.below(22)][random.below(3)];
    head(*random.pick(&OPCODES), operand as u8)
}

fn damage(random: &mut Random, code: &mut Vec<u8>) {
    let number = code.len() / INSTRUCTION_BYTES;
    if number == 0 {
        return code.push(random.byte());
    }
    let at = random.below(number) * INSTRUCTION_BYTES;
    let other = random.below(number) * INSTRUCTION_BYTES;
    match random.below(9) {
        0 => code[at + random.below(INSTRUCTION_BYTES)] ^= 1 << random.below(8),
        1 => code[at + random.below(INSTRUCTION_BYTES)] = random.byte(),
        2 => code[at..at + 2].copy_from_slice(&likely_head(random)),
        3 => {
            let word = if random.one_in(4) { range_word(random) } else { *random.pick(&WORDS) };
            code[at + 4..at + 8].copy_from_slice(&word.to_le_bytes());
        }
        // Distances and elements one off.
        4 => code[at + 4] = code[at + 4].wrapping_add(random.between(-1, 1) as u8),
        5 => drop(code.drain(at..at + INSTRUCTION_BYTES)),
        6 => code.copy_within(other..other + INSTRUCTION_BYTES, at),
        _ => {
            let copy = code[other..other + INSTRUCTION_BYTES].to_vec();
            code.splice(at..at, copy);
        }
    }
}

/// One instruction of any parts, known or not, with the values that it takes.
pub fn one_instruction(random: &mut Random) -> Vec<u8> {
    let opcode = *random.pick(&OPCODES);
    let pushes = match opcode {
        PUSH_INT | PUSH_REAL | LOAD | TICK | TOTAL => 0,
        LOAD_INDEXED | UNARY | JUMP | SINCE | MATCH => 1,
        _ => 2,
    };
    let mut code = bytes_of(&vec![Instruction::Push(Value::Int(1)); pushes]);
    let operand = match (opcode, random.below(8)) {
        (_, 0) | (UNARY | BINARY, _) => random.below(22),
        (LOAD | LOAD_INDEXED, _) => random.below(6),
        (TOTAL | MATCH, _) => random.below(13),
        _ => 0,
    };
    let word = match (opcode, random.below(8)) {
        (TOTAL | MATCH, _) => range_word(random),
        (_, 0) | (PUSH_INT | PUSH_REAL | LOAD, _) => *random.pick(&WORDS),
        _ => 0,
    };
    code.extend(bytes(opcode, operand as u8, word));
    if random.one_in(8) {
        let at = code.len() - 1 - random.below(INSTRUCTION_BYTES);
        code[at] = random.byte();
    }
    code
}

/// Any bytes, or instructions whose parts are likely and fit nothing.
pub fn noise(random: &mut Random) -> Vec<u8> {
    let number = random.below(12);
    let mut code = vec![0; number * INSTRUCTION_BYTES + random.below(8)];
    if random.one_in(3) {
        random.fill(&mut code);
        return code;
    }
    for bytes in code.chunks_exact_mut(INSTRUCTION_BYTES) {
        bytes[..2].copy_from_slice(&likely_head(random));
        bytes[4] = [0, random.below(4) as u8, random.byte()][random.below(3)];
        if random.one_in(20) {
            let at = random.below(INSTRUCTION_BYTES);
            bytes[at] = random.byte();
        }
    }
    code
}
