//! Random code that the check accepts and no formula has, and code close to what it accepts.

use super::Random;
use crate::reference::code::{encode, Instruction, HEIGHT_LIMIT, INSTRUCTION_LIMIT};
use crate::reference::operators::{binary_kind, since_kind, unary_kind, BINARIES, UNARIES};
use crate::reference::totals::{matching_kind, total_kind, Range, MATCHINGS, TESTS};
use crate::reference::value::{Kind, Value};

pub fn bytes_of(code: &[Instruction]) -> Vec<u8> {
    code.iter().flat_map(|i| encode(*i)).collect()
}

/// Any good range; a short one more often.
pub fn range(random: &mut Random) -> Range {
    let bank = random.bank();
    let first = [0, random.below(bank.cells()), bank.cells() - 1][random.below(3)];
    let left = bank.cells() - first;
    let count = [1, 1 + random.below(left.min(8)), 1 + random.below(left), left][random.below(4)];
    Range { bank, first, count }
}

struct Builder<'a> {
    random: &'a mut Random,
    code: Vec<Instruction>,
    held: Vec<Kind>,
}

/// Code that the check accepts: every instruction has its operands, jumps meet with equal kinds, one value is left.
pub fn accepted(random: &mut Random) -> Vec<u8> {
    let steps = *random.pick(&[1, 5, 20, 60, 300]);
    let mut builder = Builder { random, code: Vec::new(), held: Vec::new() };
    builder.push();
    for _ in 0..steps {
        builder.step();
    }
    builder.lower(1);
    bytes_of(&builder.code)
}

/// Code at a border of the check: heights 128 and 129, 2,048 and 2,049 instructions, no value or two at the end.
pub fn border(random: &mut Random) -> Vec<u8> {
    let mut builder = Builder { random, code: Vec::new(), held: Vec::new() };
    let height = *builder.random.pick(&[1, 2, 127, 128, 129, 130]);
    for _ in 0..height {
        builder.push();
    }
    let left = *builder.random.pick(&[0, 1, 1, 1, 2]);
    builder.lower(left);
    let length = *builder.random.pick(&[1, INSTRUCTION_LIMIT - 1, INSTRUCTION_LIMIT, INSTRUCTION_LIMIT + 1]);
    let filler = builder.hole();
    while builder.code.len() < length {
        let instruction = *builder.random.pick(&[Instruction::Jump(0), Instruction::Unary(UNARIES[5])]);
        builder.code.push(instruction);
    }
    if builder.random.one_in(2) {
        // Over all that follows: one short of the end, to the end, or one beyond it.
        let distance = builder.distance(filler) + builder.random.below(3) as u32;
        builder.code[filler] = Instruction::Jump(distance.wrapping_sub(1));
    }
    bytes_of(&builder.code)
}

/// Two ways that meet, with the same kinds or not.
pub fn two_ways(random: &mut Random) -> Vec<u8> {
    if random.one_in(2) {
        low_ways(random)
    } else {
        high_ways(random)
    }
}

// With up to 128 values held, one way takes many and pushes as many again. Half of the time one is of the other kind.
fn high_ways(random: &mut Random) -> Vec<u8> {
    let mut builder = Builder { random, code: Vec::new(), held: Vec::new() };
    let any = 2 + builder.random.below(HEIGHT_LIMIT - 1);
    for _ in 0..*builder.random.pick(&[any, any, 64, 65, 66, HEIGHT_LIMIT, HEIGHT_LIMIT]) {
        builder.push();
    }
    let jump = builder.hole();
    builder.held.pop();
    let before = builder.held.clone();
    builder.rebuild(true);
    if builder.random.one_in(2) {
        // Each way pushes one more, so that both may meet with 128.
        builder.push();
        let over = builder.hole();
        builder.code[jump] = Instruction::JumpIf(builder.random.one_in(2), builder.distance(jump));
        builder.held = before;
        builder.rebuild(false);
        builder.push();
        builder.code[over] = Instruction::Jump(builder.distance(over));
    } else {
        builder.code[jump] = Instruction::JumpIf(builder.random.one_in(2), builder.distance(jump));
    }
    builder.lower(1);
    bytes_of(&builder.code)
}

// A jump on a value over a few instructions.
fn low_ways(random: &mut Random) -> Vec<u8> {
    let mut builder = Builder { random, code: Vec::new(), held: Vec::new() };
    for _ in 0..2 + builder.random.below(3) {
        builder.push();
    }
    let jump = builder.hole();
    builder.held.pop();
    for _ in 0..builder.random.below(4) {
        builder.any_step();
    }
    if builder.random.one_in(4) {
        // The first way jumps too, over one more instruction.
        builder.code.push(Instruction::Jump(1));
        builder.push();
    }
    builder.code[jump] = Instruction::JumpIf(builder.random.one_in(2), builder.distance(jump));
    for _ in 0..builder.random.below(3) {
        builder.any_step();
    }
    if builder.random.one_in(2) {
        builder.lower(1);
    }
    bytes_of(&builder.code)
}

impl Builder<'_> {
    // A place for a jump whose distance is not known yet.
    fn hole(&mut self) -> usize {
        self.code.push(Instruction::Jump(0));
        self.code.len() - 1
    }

    // The distance from a hole to where the next instruction will stand.
    fn distance(&self, hole: usize) -> u32 {
        (self.code.len() - hole - 1) as u32
    }

    // Takes some of the values held and pushes others of the same kinds, or one of the other kind.
    fn rebuild(&mut self, may_differ: bool) {
        let height = self.held.len();
        let left = self.random.below(height);
        let mut kinds = self.held[left..].to_vec();
        if may_differ && self.random.one_in(2) {
            let any = self.random.below(kinds.len());
            let at = *self.random.pick(&[any, 0, kinds.len() - 1]);
            kinds[at] = if kinds[at] == Kind::Int { Kind::Real } else { Kind::Int };
        }
        for _ in left..height {
            self.code.push(Instruction::JumpIf(true, 0));
        }
        for kind in &kinds {
            self.code.push(Instruction::Push(if *kind == Kind::Int { Value::Int(3) } else { Value::Real(3.5) }));
        }
        self.held.truncate(left);
        self.held.extend(kinds);
    }

    // A push, an operator if its operands are there, or a value taken.
    fn any_step(&mut self) {
        match (self.random.below(5), self.held.len()) {
            (0, _) | (_, 0) => self.push(),
            (1 | 2, _) => self.unary(),
            (3, 2..) => self.binary(),
            (_, height) => self.lower(height - 1),
        }
    }

    fn push(&mut self) {
        let instruction = match self.random.below(10) {
            0 | 1 => Instruction::Push(Value::Int(self.random.below(9) as i32)),
            2 | 3 => Instruction::Push(Value::Int(self.random.integer())),
            4 | 5 if self.random.reals => Instruction::Push(Value::Real(self.random.real())),
            6 => Instruction::Tick,
            7 => Instruction::Total(self.random.total(), range(self.random)),
            _ => {
                let bank = self.random.bank();
                Instruction::Load(bank, self.random.below(bank.cells()))
            }
        };
        self.held.push(match instruction {
            Instruction::Push(v) => v.kind(),
            Instruction::Load(bank, _) => bank.kind(),
            Instruction::Tick => Kind::Int,
            Instruction::Total(op, range) => total_kind(op, range.bank),
            _ => unreachable!(),
        });
        self.code.push(instruction);
    }

    fn step(&mut self) {
        match self.random.below(10) {
            0..=3 if self.held.len() < HEIGHT_LIMIT => self.push(),
            4 => self.unary(),
            5 if self.held.len() > 1 => self.binary(),
            6 if self.held.len() < HEIGHT_LIMIT => self.indexed(),
            7 => self.jump_over_anything(),
            8 if self.held.len() > 1 => self.choice(),
            _ => {}
        }
    }

    // Most often with an index of its own that lies within the bank.
    fn indexed(&mut self) {
        let bank = self.random.bank();
        if !self.random.one_in(6) {
            let index = self.random.below(bank.cells()) as i32;
            self.code.push(Instruction::Push(Value::Int(index)));
            self.held.push(Kind::Int);
        }
        self.code.push(Instruction::LoadIndexed(bank));
        *self.held.last_mut().unwrap() = bank.kind();
    }

    // SINCE and the tests of cells stand among the operators of one value.
    fn unary(&mut self) {
        let (op, choice) = (self.random.unary(), self.random.below(UNARIES.len() + 2));
        let (matching, test, range) = (*self.random.pick(&MATCHINGS), *self.random.pick(&TESTS), range(self.random));
        let operand = self.held.last_mut().unwrap();
        let (instruction, kinds) = match choice {
            0 => (Instruction::Since, since_kind(*operand)),
            1 => (Instruction::Match(matching, test, range), (matching_kind(matching, range.bank), true)),
            _ => (Instruction::Unary(op), unary_kind(op, *operand)),
        };
        if let (kind, true) = kinds {
            *operand = kind;
            self.code.push(instruction);
        }
    }

    fn binary(&mut self) {
        let op = *self.random.pick(&BINARIES);
        let height = self.held.len();
        if let (kind, true) = binary_kind(op, self.held[height - 2], self.held[height - 1]) {
            self.held.pop();
            self.held[height - 2] = kind;
            self.code.push(Instruction::Binary(op));
        }
    }

    // A jump over instructions that are never reached. They must be known, but nothing else is asked of them.
    fn jump_over_anything(&mut self) {
        let skipped = self.random.below(4);
        self.code.push(Instruction::Jump(skipped as u32));
        for left in (0..skipped).rev() {
            let instruction = match self.random.below(4) {
                0 => *self.random.pick(&[Instruction::Tick, Instruction::Since]),
                1 => Instruction::JumpIf(self.random.one_in(2), self.random.below(left + 1) as u32),
                2 => Instruction::Binary(*self.random.pick(&BINARIES)),
                _ => Instruction::Unary(*self.random.pick(&UNARIES)),
            };
            self.code.push(instruction);
        }
    }

    // A jump on a value over a few steps that leave the kinds as they were.
    fn choice(&mut self) {
        self.held.pop();
        let jump = self.hole();
        let before = self.held.clone();
        for _ in 0..self.random.below(4) {
            let op = *self.random.pick(&UNARIES[..1]);
            self.code.push(Instruction::Unary(op));
        }
        if self.held.len() < HEIGHT_LIMIT && self.random.one_in(2) {
            self.push();
            self.step();
            self.lower(before.len());
        }
        // If the steps changed a kind, the jump may not skip them.
        let distance = if self.held == before { self.distance(jump) } else { 0 };
        self.code[jump] = Instruction::JumpIf(self.random.one_in(2), distance);
    }

    // Down to the height: a jump on a value to the next instruction only takes the value.
    fn lower(&mut self, height: usize) {
        while self.held.len() > height {
            if self.random.one_in(3) && self.held.len() > height + 1 {
                self.binary();
            } else {
                self.held.pop();
                self.code.push(Instruction::JumpIf(self.random.one_in(2), 0));
            }
        }
    }
}
