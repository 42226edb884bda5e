//! The operations: which answer comes first, and what each one writes.

use super::check::check as check_code;
use super::code::{encode, Instruction, INSTRUCTION_BYTES};
use super::compile::compile as compile_tree;
use super::grammar::parse;
use super::machine::{run as run_code, Stop};
use super::memory::{element, set_flag, store, target_name, Bank, MEMORY_BYTES};
use super::target::{target_of, Target};
use super::text::Refusal;
use super::tree::{worth, Tree};
use super::value::{Fault, Kind, Value};

pub const CODE_BYTES: usize = 16384;
pub const TEXT_BYTES: usize = 1024;

/// What an operation reports: the seven words of the C structure, in its order.
#[derive(Clone, Copy, PartialEq, Debug, Default)]
#[repr(C)]
pub struct Report {
    pub answer: u32,
    pub place: u32,
    pub kind: u32,
    pub bits: u32,
    pub count: u32,
    /// Those of the cell stored to.
    pub bank: u32,
    pub element: u32,
}

type Cell = (Bank, usize);

impl Report {
    fn answer(answer: u32) -> Report {
        Report { answer, ..Report::default() }
    }

    fn refused(refusal: Refusal) -> Report {
        Report { answer: refusal.answer, place: refusal.place as u32, ..Report::default() }
    }

    fn at(self, (bank, element): Cell) -> Report {
        Report { bank: bank as u32, element: element as u32, ..self }
    }

    fn done(value: Value, count: u32) -> Report {
        let kind = u32::from(value.kind() == Kind::Real);
        Report { kind, bits: value.bits(), count, ..Report::default() }
    }

    fn fault(fault: Fault, count: u32) -> Report {
        Report { answer: fault as u32, count, ..Report::default() }
    }
}

/// The tree of a text, or its refusal, 3 to 9.
pub fn read_text(expr: &[u8]) -> Result<Tree, Refusal> {
    if expr.is_empty() || expr.len() > TEXT_BYTES {
        return Err(Refusal { answer: 3, place: 0 });
    }
    parse(expr)
}

// Writes the code of a tree and gives the number of instructions.
fn write_code(tree: &Tree, code: &mut [u8]) -> usize {
    let mut instructions: Vec<Instruction> = Vec::new();
    compile_tree(tree, &mut instructions);
    for (instruction, bytes) in instructions.iter().zip(code.chunks_exact_mut(INSTRUCTION_BYTES)) {
        bytes.copy_from_slice(&encode(*instruction));
    }
    instructions.len()
}

// A run of code that the check accepts, or that was just compiled.
fn run_accepted(code: Code, memory: &[u8], tick: u32) -> (Result<Value, Fault>, u32) {
    let (result, count) = run_code(code.bytes, code.instructions, memory, tick);
    let result = result.map_err(|stop| match stop {
        Stop::Fault(fault) => fault,
        Stop::Stuck => panic!("accepted code is stuck"),
    });
    (result, count)
}

/// Code and the number of its instructions.
#[derive(Clone, Copy)]
pub struct Code<'a> {
    pub bytes: &'a [u8],
    pub instructions: usize,
}

impl Code<'_> {
    fn accepted(self) -> bool {
        check_code(self.bytes, self.instructions).is_some()
    }
}

// Where a value goes: the index of a bank is code, or a tree.
enum Destination<'a> {
    Cell(Bank, usize),
    Coded(Bank, Code<'a>),
    Worth(Bank, &'a Tree),
}

impl Destination<'_> {
    // The cell, or the first fault met in finding it; counts what was begun.
    fn cell(&self, memory: &[u8], tick: u32, count: &mut u32) -> Result<Cell, Fault> {
        let (bank, index) = match self {
            Destination::Cell(bank, element) => return Ok((*bank, *element)),
            Destination::Coded(bank, code) => {
                let (index, begun) = run_accepted(*code, memory, tick);
                *count += begun;
                (*bank, index?)
            }
            Destination::Worth(bank, tree) => (*bank, worth(tree, memory, tick)?),
        };
        Ok((bank, element(index, bank.cells())?))
    }
}

// What follows a value: an infinity or a NaN is refused, then its cell is found, then it is stored; a fault turns on its flag.
fn settle(memory: &mut [u8], to: Destination, (result, mut count): (Result<Value, Fault>, u32), tick: u32) -> Report {
    let mut stored = |value: Value| {
        if !value.is_finite() {
            return Err(Fault::OutOfRange);
        }
        let cell = to.cell(memory, tick, &mut count)?;
        store(memory, cell, value).map(|()| (value, cell))
    };
    match result.and_then(&mut stored) {
        Ok((value, cell)) => Report::done(value, count).at(cell),
        Err(fault) => {
            set_flag(memory, fault);
            Report::fault(fault, count)
        }
    }
}

pub fn compile(expr: &[u8], code: &mut [u8]) -> Report {
    if code.len() < CODE_BYTES {
        return Report::answer(10);
    }
    match read_text(expr) {
        Err(refusal) => Report::refused(refusal),
        Ok(tree) => Report { count: write_code(&tree, code) as u32, ..Report::default() },
    }
}

pub fn check(code: &[u8], instructions: usize) -> Report {
    Report::answer(if check_code(code, instructions).is_some() { 0 } else { 15 })
}

/// The bank and the element of a plain cell; of an indexed target the bank, and the code of its index is written.
pub fn compile_target(target: &[u8], index_code: &mut [u8]) -> Report {
    if index_code.len() < CODE_BYTES {
        return Report::answer(10);
    }
    match target_of(target) {
        None => Report::answer(2),
        Some(Target::Cell(bank, element)) => Report::default().at((bank, element)),
        Some(Target::Indexed(bank, tree)) => {
            Report { count: write_code(&tree, index_code) as u32, ..Report::default() }.at((bank, 0))
        }
    }
}

// A target as a run takes it: a cell, or the letter of a bank whose element the index code gives. The answer if it is refused.
fn destination<'a>(target: &[u8], index_code: Code<'a>) -> Result<Destination<'a>, u32> {
    match target_name(target) {
        None => Err(2),
        Some((bank, Some(element))) => Ok(Destination::Cell(bank, element)),
        Some((bank, None)) if index_code.accepted() => Ok(Destination::Coded(bank, index_code)),
        Some((_, None)) => Err(15),
    }
}

pub fn run(code: Code, memory: &mut [u8], target: &[u8], index_code: Code, tick: u32) -> Report {
    if memory.len() != MEMORY_BYTES {
        return Report::answer(1);
    }
    match destination(target, index_code) {
        Err(answer) => Report::answer(answer),
        Ok(_) if !code.accepted() => Report::answer(15),
        Ok(to) => {
            let outcome = run_accepted(code, memory, tick);
            settle(memory, to, outcome, tick)
        }
    }
}

/// The first half of a run: the value, or the fault without its flag.
pub fn evaluate(code: Code, memory: &[u8], tick: u32) -> Report {
    if memory.len() != MEMORY_BYTES {
        return Report::answer(1);
    }
    if !code.accepted() {
        return Report::answer(15);
    }
    match run_accepted(code, memory, tick) {
        (Ok(value), count) => Report::done(value, count),
        (Err(fault), count) => Report::fault(fault, count),
    }
}

/// The second half, of any value.
pub fn store_value(value: Value, memory: &mut [u8], target: &[u8], index_code: Code, tick: u32) -> Report {
    if memory.len() != MEMORY_BYTES {
        return Report::answer(1);
    }
    match destination(target, index_code) {
        Err(answer) => Report::answer(answer),
        Ok(to) => settle(memory, to, (Ok(value), 0), tick),
    }
}

pub fn compile_and_run(target: &[u8], expr: &[u8], memory: &mut [u8], codes: [&mut [u8]; 2], tick: u32) -> Report {
    let [code, index_code] = codes;
    if memory.len() != MEMORY_BYTES {
        return Report::answer(1);
    }
    if code.len() < CODE_BYTES || index_code.len() < CODE_BYTES {
        return Report::answer(10);
    }
    let Some(target) = target_of(target) else { return Report::answer(2) };
    let tree = match read_text(expr) {
        Err(refusal) => return Report::refused(refusal),
        Ok(tree) => tree,
    };
    let instructions = write_code(&tree, code);
    let outcome = run_accepted(Code { bytes: code, instructions }, memory, tick);
    let to = match target {
        Target::Cell(bank, element) => Destination::Cell(bank, element),
        Target::Indexed(bank, index) => {
            let instructions = write_code(&index, index_code);
            Destination::Coded(bank, Code { bytes: index_code, instructions })
        }
    };
    settle(memory, to, outcome, tick)
}

/// The most formulas of a list.
pub const LISTED: usize = 40;

/// The words of the C structure: the operation's own answer, and one for each place of a list.
#[derive(Clone, PartialEq, Debug)]
#[repr(C)]
pub struct Answers {
    pub answer: u32,
    pub answers: [u32; LISTED],
}

/// Formulas in turn, four words each: where in the texts its target and its expression begin, and how long they are.
pub fn run_list(words: &[u32], texts: &[u8], memory: &mut [u8], codes: [&mut [u8]; 2], tick: u32) -> Answers {
    let [code, index_code] = codes;
    let text = |start: u32, length: u32| -> Vec<u8> { texts.iter().skip(start as usize).take(length as usize).copied().collect() };
    let mut result = Answers { answer: 0, answers: [0; LISTED] };
    let formulas = words.chunks_exact(4);
    if formulas.len() > LISTED {
        result.answer = 20;
        return result;
    }
    for (answer, w) in result.answers.iter_mut().zip(formulas) {
        let codes = [&mut *code, &mut *index_code];
        *answer = compile_and_run(&text(w[0], w[1]), &text(w[2], w[3]), memory, codes, tick).answer;
    }
    result
}

/// As compile_and_run with good sizes, but worked out on the trees: it has no code and counts no instructions.
pub fn walk(target: &[u8], expr: &[u8], memory: &mut [u8], tick: u32) -> Report {
    let target = target_of(target);
    let to = match &target {
        None => return Report::answer(2),
        Some(Target::Cell(bank, element)) => Destination::Cell(*bank, *element),
        Some(Target::Indexed(bank, index)) => Destination::Worth(*bank, index),
    };
    match read_text(expr) {
        Err(refusal) => Report::refused(refusal),
        Ok(tree) => {
            let result = worth(&tree, memory, tick);
            settle(memory, to, (result, 0), tick)
        }
    }
}
