//! The operations of the library, with its report.

use super::check::accepts;
use super::emit::{self, Code};
use super::image::{self, element, indexed, set_flag, store};
use super::machine::{self, instructions, Instruction};
use super::tokens::Refusal;
use super::values::{Outcome, Stop, Value};
use crate::library::{Report, Target, CODE_BYTES};

fn answered(answer: u32) -> Report {
    Report { answer, ..Report::default() }
}

fn refused(refusal: Refusal) -> Report {
    Report { answer: refusal.answer, place: refusal.place as u32, ..Report::default() }
}

// Where a value goes.
enum Destination<'a> {
    Cell(u8, u8),
    // with the code of the index
    Indexed(u8, &'a [Instruction]),
}

impl Destination<'_> {
    #[inline]
    fn cell(&self, memory: &[u8], tick: u32, count: &mut usize) -> Result<(u8, u8), Stop> {
        match *self {
            Destination::Cell(bank, element) => Ok((bank, element)),
            Destination::Indexed(bank, code) => {
                let (index, begun) = machine::run(code, memory, tick);
                *count += begun;
                Ok((bank, indexed(bank, index?)?))
            }
        }
    }
}

// Stores what a run gave, or turns on its flag.
fn settled(memory: &mut [u8], to: Destination, given: Outcome, mut count: usize, tick: u32) -> Report {
    let stored = given.and_then(|value| {
        let cell = to.cell(memory, tick, &mut count)?;
        store(memory, cell, value)?;
        Ok((value, cell))
    });
    let count = count as u32;
    match stored {
        Ok((value, (bank, element))) => {
            let (kind, bits) = match value {
                Value::Int(z) => (0, z as u32),
                Value::Real(x) => (1, x.to_bits()),
            };
            Report { kind, bits, count, bank: bank as u32, element: element as u32, ..Report::default() }
        }
        Err(fault) => {
            set_flag(memory, fault);
            Report { answer: fault as u32, count, ..Report::default() }
        }
    }
}

pub fn compile(text: &[u8], code: &mut [u8]) -> Report {
    if code.len() < CODE_BYTES {
        return answered(10);
    }
    match emit::compile(text, 0) {
        Ok(compiled) => Report { count: compiled.write(code) as u32, ..Report::default() },
        Err(refusal) => refused(refusal),
    }
}

#[inline(never)]
pub fn check(code: &[u8], n: usize) -> Report {
    answered(if instructions(code, n).is_some_and(accepts) { 0 } else { 15 })
}

// The bank of a target's text, with its element or the code of its index.
#[inline]
pub fn read_target(text: &[u8]) -> Option<(u8, Result<u8, Code>)> {
    let (bank, rest) = image::target(text)?;
    match rest {
        [b'[', index @ .., b']'] if text.len() <= 1024 => Some((bank, Err(emit::compile(index, 1).ok()?))),
        digits => Some((bank, Ok(element(bank, digits)?))),
    }
}

pub fn compile_target(target: &[u8], index_code: &mut [u8]) -> Report {
    if index_code.len() < CODE_BYTES {
        return answered(10);
    }
    let Some((bank, place)) = read_target(target) else {
        return answered(2);
    };
    let (element, count) = match place {
        Ok(element) => (element, 0),
        Err(code) => (0, code.write(index_code)),
    };
    Report { bank: bank as u32, element: element as u32, count: count as u32, ..Report::default() }
}

#[inline(never)]
pub fn run(code: &[u8], n: usize, memory: &mut [u8], target: &Target, tick: u32) -> Report {
    if memory.len() != image::BYTES {
        return answered(1);
    }
    let Some((bank, rest)) = image::target(target.text) else {
        return answered(2);
    };
    let cell = element(bank, rest);
    if !rest.is_empty() && cell.is_none() {
        return answered(2);
    }
    let Some(code) = instructions(code, n).filter(|code| accepts(code)) else {
        return answered(15);
    };
    let to = match cell {
        Some(element) => Destination::Cell(bank, element),
        None => match instructions(target.index_code, target.index_instructions).filter(|code| accepts(code)) {
            Some(index) => Destination::Indexed(bank, index),
            None => return answered(15),
        },
    };
    let (given, count) = machine::run(code, memory, tick);
    settled(memory, to, given, count, tick)
}

#[inline(never)]
pub fn compile_and_run(target: &[u8], text: &[u8], memory: &mut [u8], codes: [&mut [u8]; 2], tick: u32) -> Report {
    let [code, index_code] = codes;
    if memory.len() != image::BYTES {
        return answered(1);
    }
    if code.len() < CODE_BYTES || index_code.len() < CODE_BYTES {
        return answered(10);
    }
    let Some((bank, place)) = read_target(target) else {
        return answered(2);
    };
    let n = match emit::compile(text, 0) {
        Ok(compiled) => compiled.write(code),
        Err(refusal) => return refused(refusal),
    };
    let to = match place {
        Ok(element) => Destination::Cell(bank, element),
        Err(compiled) => {
            let k = compiled.write(index_code);
            Destination::Indexed(bank, instructions(index_code, k).unwrap_or(&[]))
        }
    };
    // just compiled, so there is nothing to check
    let (given, count) = machine::run(instructions(code, n).unwrap_or(&[]), memory, tick);
    settled(memory, to, given, count, tick)
}
