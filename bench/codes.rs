//! Code made by hand, of the greatest length, for what no text compiles to: each as the library's instructions and as the rival's.

use crate::data::{Formula, SCAN};
use crate::reference::code::{self, BINARY, INSTRUCTION_LIMIT, JUMP, JUMP_IF_TRUE, LOAD, PUSH_INT, PUSH_REAL, UNARY};
use crate::rival::op::{DIVIDE, FRAC, MINUS, PLUS, POWER, REMAINDER, ROUND};
use crate::rival::Code;
use crate::rival::Kind::{self, Int, Real};

const R: u8 = 5;
const D: u8 = 4;
// As many as may be held beside a condition.
const VALUES: usize = 127;

/// The same instructions for each side.
pub struct Made {
    pub name: &'static str,
    pub ours: Vec<u8>,
    pub theirs: Vec<u8>,
}

struct Writer {
    ours: Vec<u8>,
    theirs: Code,
}

impl Writer {
    fn new() -> Writer {
        Writer { ours: Vec::new(), theirs: Code::new(INSTRUCTION_LIMIT) }
    }

    fn instructions(&self) -> usize {
        self.ours.len() / 8
    }

    fn put(&mut self, opcode: u8, operand: u8, word: u32) {
        self.ours.extend(code::bytes(opcode, operand, word));
    }

    fn number(&mut self, kind: Kind, bits: u32) {
        self.put(if kind == Int { PUSH_INT } else { PUSH_REAL }, 0, bits);
        self.theirs.number(kind, bits);
    }

    fn cell(&mut self, bank: u8, element: u8) {
        self.put(LOAD, bank, element as u32);
        self.theirs.cell(bank, element);
    }

    fn unary(&mut self, operator: u8, kind: Kind) {
        self.put(UNARY, operator, 0);
        self.theirs.unary(operator, kind);
    }

    fn binary(&mut self, operator: u8, left: Kind, right: Kind) {
        self.put(BINARY, operator, 0);
        self.theirs.binary(operator, left, right);
    }

    fn jump(&mut self, distance: usize) {
        self.put(JUMP, 0, distance as u32);
        self.theirs.jump(distance);
    }

    fn jump_if_true(&mut self, kind: Kind, distance: usize) {
        self.put(JUMP_IF_TRUE, 0, distance as u32);
        self.theirs.jump_if_true(kind, distance);
    }

    fn made(self, name: &'static str) -> Made {
        let mut theirs = vec![0; self.ours.len()];
        self.theirs.write(&mut theirs);
        Made { name, ours: self.ours, theirs }
    }

    // So many values of a kind, and later what brings them to one.
    fn values(&mut self, kind: Kind) {
        let bits = if kind == Int { 1 } else { 1f32.to_bits() };
        (0..VALUES).for_each(|_| self.number(kind, bits));
    }

    fn folded(&mut self, kind: Kind) {
        (1..VALUES).for_each(|_| self.binary(MINUS, kind, kind));
    }
}

/// Two streams, of integers and of reals, whose jumps take turns: at each place the values held are those that the place before
/// does not hold.
fn alternating_jumps() -> Made {
    let mut w = Writer::new();
    w.number(Int, 1);
    w.jump_if_true(Int, VALUES + 1);
    w.values(Int);
    // over the reals and their first jump
    w.jump(VALUES + 1);
    w.values(Real);
    // in the end each is brought to one value, and the reals' is made whole
    let end = 2 * VALUES;
    while w.instructions() < INSTRUCTION_LIMIT - end - 1 {
        w.jump(1);
    }
    w.jump(VALUES);
    w.folded(Int);
    w.jump(VALUES);
    w.folded(Real);
    w.unary(ROUND, Real);
    w.made("alternating-jumps")
}

// A first value, then as often as there is room the instructions that a step adds.
fn chain(name: &'static str, first: impl FnOnce(&mut Writer), step: impl Fn(&mut Writer)) -> Made {
    let mut w = Writer::new();
    first(&mut w);
    let before = w.instructions();
    step(&mut w);
    let each = w.instructions() - before;
    while w.instructions() + each <= INSTRUCTION_LIMIT {
        step(&mut w);
    }
    w.made(name)
}

// The farthest remainder of two cells.
fn far_remainder(w: &mut Writer) {
    w.cell(R, 8);
    w.cell(R, 9);
    w.binary(REMAINDER, Real, Real);
}

pub fn all() -> Vec<Made> {
    vec![
        alternating_jumps(),
        chain("far-remainders", far_remainder, |w| {
            far_remainder(w);
            w.binary(PLUS, Real, Real);
        }),
        chain("fractions", |w| w.number(Real, 0.75f32.to_bits()), |w| w.unary(FRAC, Real)),
        chain(
            "power-chain",
            |w| w.number(Real, 1f32.to_bits()),
            |w| {
                w.number(Int, 64);
                w.binary(POWER, Real, Int);
            },
        ),
        chain(
            "promotion-chain",
            |w| w.number(Real, 1f32.to_bits()),
            |w| {
                w.cell(D, 9);
                w.binary(DIVIDE, Real, Int);
            },
        ),
    ]
}

/// A scan has the same code forty times, with a target for each.
pub fn targets() -> Vec<Formula> {
    (0..SCAN).map(|i| Formula { target: format!("R{}", 200 + i).into(), text: Vec::new() }).collect()
}
