//! The random cases by class. A case is one or more requests on the same text or code.

use super::images::memory;
use super::{bad_codes, codes, formulas, texts, Random};
use crate::reference::check::check as check_code;
use crate::reference::code::{at, Instruction, INSTRUCTION_BYTES};
use crate::reference::memory::{FLAGS, MEMORY_BYTES, PACKED_BYTES};
use crate::reference::operations::{compile, compile_target, CODE_BYTES};
use crate::reference::text::{tokens, Function, Token};

#[derive(Clone, Copy, PartialEq, Debug)]
pub enum Operation {
    Compile,
    Check,
    Run,
    CompileAndRun,
    CompileTarget,
    Evaluate,
    Store,
}

use Operation::*;

pub const OPERATIONS: [Operation; 7] = [Compile, Check, Run, CompileAndRun, CompileTarget, Evaluate, Store];

/// One call. An operation looks only at what it has inputs for.
#[derive(Clone)]
pub struct Request {
    pub operation: Operation,
    pub target: Vec<u8>,
    pub expr: Vec<u8>,
    pub memory: Vec<u8>,
    pub code: Vec<u8>,
    pub instructions: usize,
    pub index_code: Vec<u8>,
    pub index_instructions: usize,
    /// Kind and pattern of a value to be stored.
    pub value: (u32, u32),
    pub tick: u32,
    pub alignment: usize,
}

pub struct Class {
    pub name: &'static str,
    /// How many of all the weights' cases are of this class.
    pub weight: usize,
    pub make: fn(&mut Random) -> Vec<Request>,
}

pub const CLASSES: [Class; 14] = [
    Class { name: "formula", weight: 25, make: |r| text_case(r, formulas::formula) },
    Class { name: "damaged formula", weight: 13, make: |r| text_case(r, damaged_formula) },
    Class { name: "one word", weight: 6, make: |r| text_case(r, texts::one_word) },
    Class { name: "any text", weight: 4, make: |r| text_case(r, texts::noise) },
    Class { name: "text length", weight: 2, make: |r| text_case(r, texts::long) },
    Class { name: "sizes and targets", weight: 8, make: sizes_case },
    Class { name: "value stored", weight: 8, make: store_case },
    Class { name: "one operator", weight: 17, make: |r| code_case(r, bad_codes::one_operator) },
    Class { name: "one instruction", weight: 4, make: |r| code_case(r, bad_codes::one_instruction) },
    Class { name: "accepted code", weight: 8, make: |r| code_case(r, codes::accepted) },
    Class { name: "two ways", weight: 3, make: |r| code_case(r, codes::two_ways) },
    Class { name: "border code", weight: 2, make: |r| code_case(r, codes::border) },
    Class { name: "damaged code", weight: 6, make: |r| code_case(r, damaged_code) },
    Class { name: "any code", weight: 2, make: |r| code_case(r, bad_codes::noise) },
];

pub fn class_of(random: &mut Random) -> usize {
    let total: usize = CLASSES.iter().map(|c| c.weight).sum();
    let mut left = random.below(total);
    for (number, class) in CLASSES.iter().enumerate() {
        if left < class.weight {
            return number;
        }
        left -= class.weight;
    }
    unreachable!("the weights add up to the total")
}

fn damaged_formula(random: &mut Random) -> Vec<u8> {
    let text = formulas::formula(random);
    texts::damaged(random, &text)
}

// Damaged code of a formula, or of what only the check knows.
fn damaged_code(random: &mut Random) -> Vec<u8> {
    let code = match random.below(3) {
        0 => codes::accepted(random),
        1 => codes::border(random),
        _ => compiled(&formulas::formula(random)),
    };
    bad_codes::damaged(random, &code)
}

// The code of a text, none if it is refused.
fn compiled(text: &[u8]) -> Vec<u8> {
    let mut code = vec![0; CODE_BYTES];
    let report = compile(text, &mut code);
    code.truncate(report.count as usize * INSTRUCTION_BYTES);
    code
}

fn request(random: &mut Random, operation: Operation) -> Request {
    Request {
        operation,
        target: target(random),
        expr: Vec::new(),
        memory: Vec::new(),
        code: Vec::new(),
        instructions: 0,
        index_code: Vec::new(),
        index_instructions: 0,
        value: value(random),
        tick: random.tick(),
        alignment: random.below(8),
    }
}

// A value to be stored: infinities, NaNs and kinds that no value has are among them.
fn value(random: &mut Random) -> (u32, u32) {
    const ODD: [u32; 6] = [0x7F80_0000, 0xFF80_0000, 0x7FC0_0000, 0x7F80_0001, 0xFFFF_FFFF, 0x7149_F2CA];
    match random.below(6) {
        0 | 1 => (0, random.integer() as u32),
        2..=4 if !random.reals => (0, random.integer() as u32),
        2 | 3 => (1, random.real().to_bits()),
        4 => (1, *random.pick(&ODD)),
        _ => (*random.pick(&[0, 1, 2, 77, u32::MAX]), random.word()),
    }
}

// What a code buffer holds before: compiling must leave what lies beyond the code.
fn buffer(random: &mut Random, length: usize) -> Vec<u8> {
    vec![random.byte(); length]
}

fn large_buffer(random: &mut Random) -> Vec<u8> {
    let length = CODE_BYTES + if random.one_in(10) { random.below(100) } else { 0 };
    buffer(random, length)
}

fn text_case(random: &mut Random, text: fn(&mut Random) -> Vec<u8>) -> Vec<Request> {
    let expr = text(random);
    let memory = memory(random);
    let (code, index_code) = (large_buffer(random), large_buffer(random));
    on_text(Request { expr, memory, code, index_code, ..request(random, Compile) })
}

/// All operations on a text and a target, check and run only if the text is accepted.
pub fn on_text(base: Request) -> Vec<Request> {
    let both = Request { operation: CompileAndRun, ..base.clone() };
    let target = Request { operation: CompileTarget, ..base.clone() };
    let code = compiled(&base.expr);
    let mut requests = vec![base, both, target];
    if !code.is_empty() {
        let instructions = code.len() / INSTRUCTION_BYTES;
        let run = Request { operation: Run, code, instructions, ..requests[1].clone() };
        requests.push(Request { operation: Check, ..run.clone() });
        requests.push(Request { operation: Evaluate, ..run.clone() });
        requests.push(as_run(run));
    }
    requests
}

// The request of a run for a target as compile-and-run takes it: an indexed one becomes its bank's letter and its code.
fn as_run(mut request: Request) -> Request {
    request.index_code = vec![0; CODE_BYTES];
    let report = compile_target(&request.target, &mut request.index_code);
    request.index_instructions = report.count as usize;
    request.index_code.truncate(request.index_instructions * INSTRUCTION_BYTES);
    if report.answer == 0 && report.count > 0 {
        request.target.truncate(1);
    }
    request
}

// The target of a run: a cell, or a bank's letter with code of any kind for its index. With a cell that code is not looked at.
fn with_index_code(random: &mut Random, request: Request) -> Request {
    if random.one_in(2) {
        return as_run(request);
    }
    let index_code = match random.below(6) {
        0 => bad_codes::noise(random),
        1 => codes::accepted(random),
        2 => damaged_code(random),
        3 => bad_codes::one_operator(random),
        _ => compiled(&formulas::index(random)),
    };
    let index_instructions = number(random, index_code.len() / INSTRUCTION_BYTES);
    let target = if random.one_in(4) { request.target } else { vec![random.bank().letter()] };
    Request { target, index_code, index_instructions, ..request }
}

// Check and run of code, most often with the number of instructions that it has.
fn code_case(random: &mut Random, code: fn(&mut Random) -> Vec<u8>) -> Vec<Request> {
    let mut code = code(random);
    let instructions = number(random, code.len() / INSTRUCTION_BYTES);
    if random.one_in(4) {
        let more = random.below(20);
        code.extend((0..more).map(|_| random.byte()));
    }
    let memory = memory(random);
    let check = Request { code, memory, instructions, ..request(random, Check) };
    let run = Request { operation: Run, ..check.clone() };
    vec![check, with_index_code(random, run)]
}

fn number(random: &mut Random, instructions: usize) -> usize {
    match random.below(24) {
        0 => instructions.wrapping_sub(1),
        1 => instructions + 1,
        2 => random.below(instructions + 2),
        // Times eight bytes, these wrap around to a number that fits.
        3 => instructions.wrapping_add(1 << (usize::BITS - 3)),
        4 => *random.pick(&[0, 2048, 2049, 4096, usize::MAX, usize::MAX / 8, 1 << 32, (1 << 32) + 1]),
        _ => instructions,
    }
}

// A value stored, with flags that stand at 0, 1 or more.
fn store_case(random: &mut Random) -> Vec<Request> {
    let mut memory = memory(random);
    for flag in &mut memory[FLAGS..] {
        *flag = *random.pick(&[0, 1, 2, 255]);
    }
    let request = Request { memory, ..request(random, Store) };
    vec![with_index_code(random, request)]
}

// Any operation with any sizes: which answer comes first.
fn sizes_case(random: &mut Random) -> Vec<Request> {
    let mut memory = memory(random);
    memory.resize(*random.pick(&[MEMORY_BYTES, MEMORY_BYTES, MEMORY_BYTES, PACKED_BYTES - 1, PACKED_BYTES + 1, 0, 1, FLAGS, 2 * MEMORY_BYTES]), 0);
    let expr = match random.below(4) {
        0 => Vec::new(),
        1 => texts::noise(random),
        2 => texts::long(random),
        _ => formulas::formula(random),
    };
    let operation = *random.pick(&OPERATIONS);
    let length = *random.pick(&[16384, 16384, 16385, 16383, 16376, 0, 7, 20000]);
    let mut code = buffer(random, length);
    let mut instructions = 0;
    if matches!(operation, Check | Run | Evaluate) {
        code = if random.one_in(4) { bad_codes::noise(random) } else { codes::accepted(random) };
        instructions = number(random, code.len() / INSTRUCTION_BYTES);
        if random.one_in(4) {
            code.truncate(code.len() - random.below(9).min(code.len()));
        }
    }
    let length = *random.pick(&[16384, 16384, 16385, 16383, 16376, 0, 7, 20000]);
    let index_code = buffer(random, length);
    let mut request = Request { expr, memory, code, instructions, index_code, ..request(random, operation) };
    if matches!(operation, Run | Store) {
        request = with_index_code(random, request);
    }
    if random.one_in(3) {
        request.target = bad_target(random);
    }
    vec![request]
}

#[rustfmt::skip]
const BAD_TARGETS: [&str; 43] = [
    "", "D", "X0", "X63", "C64", "V256", "N256", "D256", "R256", "D01", "D00", "d0", "D0 ", " D0", "D 0", "D[0]",
    "D [0]", " D[0]", "D[0] ", "D[]", "X[0]", "D[0]+D[1]", "D[0][1]", "D[1.5 & 1]", "D[((((((((0))))))))]", "D[0", "D0]", "[0]", "d[0]",
    "DD[0]", "D[ ]", "D[(]", "D[1,2]", "(D0)", "D0\0", "D0\n", "-D0", "D-1", "D99999999999999999999", "D4294967296", "E0", "ABS", "0",
];

/// A target, good or not.
pub fn target(random: &mut Random) -> Vec<u8> {
    let letter = random.pick(&random.banks()[1..]).letter();
    match random.below(16) {
        0 => bad_target(random),
        1 => {
            let index = formulas::index(random);
            indexed_target(letter, &texts::damaged(random, &index))
        }
        2 if random.one_in(8) => long_target(random, letter),
        _ => good_target(random),
    }
}

/// A cell, or a bank with an index. Few have operands of the wrong kind or a ninth bracket open.
pub fn good_target(random: &mut Random) -> Vec<u8> {
    let bank = *random.pick(&random.banks()[1..]);
    match random.below(3) {
        0 => indexed_target(bank.letter(), &formulas::index(random)),
        _ => format!("{}{}", bank.letter() as char, random.below(bank.cells())).into_bytes(),
    }
}

fn indexed_target(letter: u8, index: &[u8]) -> Vec<u8> {
    [&[letter, b'['], index, b"]"].concat()
}

// About as long as a target may be.
fn long_target(random: &mut Random, letter: u8) -> Vec<u8> {
    let mut index = formulas::index(random);
    index.resize(random.between(1019, 1024) as usize, b' ');
    indexed_target(letter, &index)
}

// Some of them are good by chance.
fn bad_target(random: &mut Random) -> Vec<u8> {
    match random.below(3) {
        0 => random.pick(&BAD_TARGETS).as_bytes().to_vec(),
        1 => (0..random.below(5)).map(|_| *random.pick(b"XCVNDR0123456789 ")).collect(),
        _ => (0..random.below(5)).map(|_| random.byte()).collect(),
    }
}

/// The promise on the count of a run that was begun: two a byte of the texts, or the lengths of the codes given, and 256 for
/// each call over a range.
pub fn counted_as_promised(request: &Request, count: u32) -> bool {
    let Request { expr, target, code, instructions, index_code, index_instructions, .. } = request;
    let most = match request.operation {
        CompileAndRun => most_of_text(expr) + most_of_text(target),
        Run => most_of_code(code, *instructions) + most_of_code(index_code, *index_instructions),
        Evaluate => most_of_code(code, *instructions),
        Store => most_of_code(index_code, *index_instructions),
        Compile | Check | CompileTarget => return true,
    };
    count as usize <= most
}

const MOST_CELLS: usize = 256;

fn most_of_text(text: &[u8]) -> usize {
    let ranged = |token: Token| matches!(token, Token::Function(Function::Total(_) | Function::Matching(..)));
    2 * text.len() + MOST_CELLS * tokens(text).unwrap_or_default().iter().filter(|t| ranged(t.token)).count()
}

fn most_of_code(code: &[u8], instructions: usize) -> usize {
    let ranged = |place: &usize| matches!(at(code, *place), Some(Instruction::Total(..) | Instruction::Match(..)));
    let instructions = instructions.min(code.len() / INSTRUCTION_BYTES);
    instructions + MOST_CELLS * (0..instructions).filter(ranged).count()
}

/// The promises that hold of a compiled formula whatever its value: the check accepts it, and it has at most two
/// instructions a byte.
pub fn compiled_as_promised(expr: &[u8], code: &[u8], count: u32) -> bool {
    count as usize <= 2 * expr.len() && check_code(code, count as usize).is_some()
}
