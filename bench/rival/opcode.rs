//! Opcodes: one for each operation and the kinds that it takes, so that a run finds what to do by one jump and no kind has to be
//! asked for twice. The emitter knows the kinds. Within a group they stand in the order of their operators' numbers (op), or of banks.

use super::op;
use super::values::Kind::{self, Int, Real};

macro_rules! numbered {
    ($($name:ident)*) => {
        // some are only ever reached by their number from the first of their group
        #[allow(non_camel_case_types, clippy::upper_case_acronyms, dead_code)]
        #[repr(u8)]
        enum Number { $($name),* }
        $(#[allow(dead_code)] pub const $name: u8 = Number::$name as u8;)*
    };
}

numbered! {
    PUSH_INT PUSH_REAL TICK
    LOAD_X LOAD_C LOAD_V LOAD_N LOAD_D LOAD_R
    INDEX_X INDEX_C INDEX_V INDEX_N INDEX_D INDEX_R
    AT_REAL_X AT_REAL_C AT_REAL_V AT_REAL_N AT_REAL_D AT_REAL_R
    TOTAL MATCH_INT MATCH_REAL SINCE
    NEGATE_INT INVERT_INT NOT_INT ABS_INT TO_REAL_INT TRUNC_INT ROUND_INT FRAC_INT
    NEGATE_REAL INVERT_REAL NOT_REAL ABS_REAL TO_REAL_REAL TRUNC_REAL ROUND_REAL FRAC_REAL
    POWER_INT TIMES_INT DIVIDE_INT REMAINDER_INT PLUS_INT MINUS_INT SHIFT_LEFT_INT SHIFT_RIGHT_INT SHIFT_RIGHT_ZERO_INT
    LESS_INT GREATER_INT LESS_EQUAL_INT GREATER_EQUAL_INT EQUAL_INT NOT_EQUAL_INT AND_INT XOR_INT OR_INT MAX_INT MIN_INT
    POWER_REAL TIMES_REAL DIVIDE_REAL REMAINDER_REAL PLUS_REAL MINUS_REAL SHIFT_LEFT_REAL SHIFT_RIGHT_REAL SHIFT_RIGHT_ZERO_REAL
    LESS_REAL GREATER_REAL LESS_EQUAL_REAL GREATER_EQUAL_REAL EQUAL_REAL NOT_EQUAL_REAL AND_REAL XOR_REAL OR_REAL MAX_REAL MIN_REAL
    POWER_LATER TIMES_LATER DIVIDE_LATER REMAINDER_LATER PLUS_LATER MINUS_LATER SHIFT_LEFT_LATER SHIFT_RIGHT_LATER
    SHIFT_RIGHT_ZERO_LATER LESS_LATER GREATER_LATER LESS_EQUAL_LATER GREATER_EQUAL_LATER EQUAL_LATER NOT_EQUAL_LATER
    AND_LATER XOR_LATER OR_LATER MAX_LATER MIN_LATER
    POWER_FIRST TIMES_FIRST DIVIDE_FIRST REMAINDER_FIRST PLUS_FIRST MINUS_FIRST SHIFT_LEFT_FIRST SHIFT_RIGHT_FIRST
    SHIFT_RIGHT_ZERO_FIRST LESS_FIRST GREATER_FIRST LESS_EQUAL_FIRST GREATER_EQUAL_FIRST EQUAL_FIRST NOT_EQUAL_FIRST
    AND_FIRST XOR_FIRST OR_FIRST MAX_FIRST MIN_FIRST
    JUMP JUMP_IF_FALSE_INT JUMP_IF_TRUE_INT JUMP_IF_FALSE_REAL JUMP_IF_TRUE_REAL
}

pub fn indexed(bank: u8, index: Kind) -> u8 {
    bank + if index == Int { INDEX_X } else { AT_REAL_X }
}

pub fn unary(operator: u8, kind: Kind) -> u8 {
    operator + if kind == Int { NEGATE_INT } else { NEGATE_REAL }
}

/// Where one operand alone is real it is the later one, or the first.
pub fn binary(operator: u8, left: Kind, right: Kind) -> u8 {
    operator
        + match (left, right) {
            (Int, Int) => POWER_INT,
            (Real, Real) => POWER_REAL,
            (Int, Real) => POWER_LATER,
            (Real, Int) => POWER_FIRST,
        }
}

pub fn matching(kind: Kind) -> u8 {
    if kind == Int {
        MATCH_INT
    } else {
        MATCH_REAL
    }
}

/// A jump on a value of a kind, made where its truth is this.
pub fn jump_if(truth: bool, kind: Kind) -> u8 {
    match (truth, kind) {
        (false, Int) => JUMP_IF_FALSE_INT,
        (true, Int) => JUMP_IF_TRUE_INT,
        (false, Real) => JUMP_IF_FALSE_REAL,
        (true, Real) => JUMP_IF_TRUE_REAL,
    }
}

/// What an instruction takes and leaves: how many values, their kinds as bits (1 for a real, the last pushed lowest) under a mask,
/// and the bit of what it leaves. For a total and a match that depends on the word.
#[derive(Clone, Copy)]
pub struct Rule {
    pub takes: u8,
    pub kinds: u8,
    pub mask: u8,
    pub leaves: u8,
    pub form: Form,
    /// the greatest word
    pub most: u32,
}

#[derive(Clone, Copy, PartialEq, PartialOrd)]
pub enum Form {
    Plain,
    /// its word is a finite single
    Finite,
    /// its word is a range of cells, its operand an operator
    Total,
    Match,
    /// a jump, that leads to its place alone, or to the next too
    Alone,
    Beside,
}

const REAL: u8 = 1;
// takes more than there can be
const NEVER: u8 = 129;

const fn rule(opcode: u8) -> Rule {
    let (takes, kinds, leaves) = match opcode {
        PUSH_REAL | LOAD_R => (0, 0, REAL),
        PUSH_INT..=LOAD_D | TOTAL | JUMP => (0, 0, 0),
        INDEX_R | TO_REAL_INT | FRAC_INT => (1, 0, REAL),
        INDEX_X..=INDEX_D | SINCE | MATCH_INT | NEGATE_INT..=ROUND_INT | JUMP_IF_FALSE_INT | JUMP_IF_TRUE_INT => (1, 0, 0),
        INVERT_REAL => (NEVER, 0, 0),
        AT_REAL_X..=AT_REAL_D | MATCH_REAL | NOT_REAL | TRUNC_REAL | ROUND_REAL | JUMP_IF_FALSE_REAL | JUMP_IF_TRUE_REAL => (1, REAL, 0),
        AT_REAL_R | NEGATE_REAL..=FRAC_REAL => (1, REAL, REAL),
        POWER_INT..=MIN_INT => (2, 0, 0),
        POWER_REAL..=MIN_REAL => with_real(opcode - POWER_REAL, 3),
        POWER_LATER..=MIN_LATER => with_real(opcode - POWER_LATER, 1),
        POWER_FIRST => (2, 2, REAL),
        TIMES_FIRST..=MIN_FIRST => with_real(opcode - POWER_FIRST, 2),
        END.. => (NEVER, 0, 0),
    };
    let form = match opcode {
        PUSH_REAL => Form::Finite,
        TOTAL => Form::Total,
        MATCH_INT | MATCH_REAL => Form::Match,
        JUMP => Form::Alone,
        JUMP_IF_FALSE_INT..=JUMP_IF_TRUE_REAL => Form::Beside,
        _ => Form::Plain,
    };
    let most = match opcode {
        PUSH_INT | PUSH_REAL | TOTAL..=MATCH_REAL | JUMP..=JUMP_IF_TRUE_REAL => u32::MAX,
        LOAD_X | LOAD_C => 63,
        LOAD_V..=LOAD_R => 255,
        _ => 0,
    };
    Rule { takes, kinds, mask: if takes == 2 { 3 } else { takes & 1 }, leaves, form, most }
}

const END: u8 = JUMP_IF_TRUE_REAL + 1;

// A binary operator with a real operand, no power.
const fn with_real(operator: u8, kinds: u8) -> (u8, u8, u8) {
    match operator {
        op::POWER | op::SHIFT_LEFT..=op::SHIFT_RIGHT_ZERO | op::AND..=op::OR => (NEVER, 0, 0),
        op::LESS..=op::NOT_EQUAL => (2, kinds, 0),
        _ => (2, kinds, REAL),
    }
}

/// By opcode, for any byte.
pub static RULES: [Rule; 256] = {
    let mut rules = [rule(0); 256];
    let mut opcode = 0;
    while opcode < 256 {
        rules[opcode] = rule(opcode as u8);
        opcode += 1;
    }
    rules
};
