//! The run of code, also of code that no check has accepted.

use super::code::Instruction::{self, *};
use super::code::{at, HEIGHT_LIMIT};
use super::memory::{read, read_indexed};
use super::operators::{binary, binary_kind, since, since_kind, unary, unary_kind};
use super::totals::{matching, total, Visited};
use super::value::{Fault, Value};

/// Why a run has no value: a fault, or code that no check accepts.
#[derive(Clone, Copy, PartialEq, Debug)]
pub enum Stop {
    Fault(Fault),
    Stuck,
}

use Stop::Stuck;

impl From<Fault> for Stop {
    fn from(fault: Fault) -> Stop {
        Stop::Fault(fault)
    }
}

/// What so many instructions give on a memory at a tick; and the count, one for each instruction begun and each cell visited.
pub fn run(code: &[u8], number: usize, memory: &[u8], tick: u32) -> (Result<Value, Stop>, u32) {
    let mut count = 0;
    let result = run_counted(code, number, memory, tick, &mut count);
    (result, count)
}

fn run_counted(code: &[u8], number: usize, memory: &[u8], tick: u32, count: &mut u32) -> Result<Value, Stop> {
    let mut held = Vec::new();
    let mut place = 0;
    while place < number {
        *count += 1;
        let instruction = at(code, place).ok_or(Stuck)?;
        place += 1 + execute(instruction, &mut held, memory, tick, count)? as usize;
    }
    match held[..] {
        [value] if place == number => Ok(value),
        _ => Err(Stuck),
    }
}

// Does one instruction and says how many to skip.
fn execute(instruction: Instruction, held: &mut Vec<Value>, memory: &[u8], tick: u32, count: &mut u32) -> Result<u32, Stop> {
    let mut counted = |(result, cells): Visited| {
        *count += cells;
        result
    };
    let value = match instruction {
        Push(v) => v,
        Load(bank, element) => read(memory, bank, element)?,
        LoadIndexed(bank) => read_indexed(memory, bank, pop(held)?)?,
        Unary(op) => {
            let operand = pop(held)?;
            taken(unary_kind(op, operand.kind()).1)?;
            unary(op, operand)?
        }
        Binary(op) => {
            let (right, left) = (pop(held)?, pop(held)?);
            taken(binary_kind(op, left.kind(), right.kind()).1)?;
            binary(op, left, right)?
        }
        Jump(distance) => return Ok(distance),
        JumpIf(truth, distance) => return Ok(if pop(held)?.truth() == truth { distance } else { 0 }),
        Tick => Value::Int(tick as i32),
        Since => {
            let operand = pop(held)?;
            taken(since_kind(operand.kind()).1)?;
            since(tick, operand)
        }
        Total(op, range) => counted(total(op, range, memory))?,
        Match(op, test, range) => counted(matching(op, test, pop(held)?, range, memory))?,
    };
    if held.len() == HEIGHT_LIMIT {
        return Err(Stuck);
    }
    held.push(value);
    Ok(0)
}

fn pop(held: &mut Vec<Value>) -> Result<Value, Stop> {
    held.pop().ok_or(Stuck)
}

fn taken(kinds: bool) -> Result<(), Stop> {
    kinds.then_some(()).ok_or(Stuck)
}
