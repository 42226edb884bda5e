//! Code and answers in words. The names of the instructions are those of docs/INSTRUCTIONS.md, the words those of docs/ANSWERS.md.

use std::fs;

use super::check::check;
use super::code::{at, encode, Instruction, Instruction::*};
use super::memory::Bank;
use super::totals::Range;
use super::value::Value;

pub const LISTING_BYTES: usize = 65536;

pub struct Pages {
    names: Vec<(u32, String)>,
    words: Vec<(u32, String)>,
}

// The second column of a table whose first is a number.
fn column(page: &str) -> Vec<(u32, String)> {
    let text = fs::read_to_string(page).unwrap_or_else(|_| panic!("{page} cannot be read"));
    let rows = text.lines().filter_map(|line| line.strip_prefix("| ")?.split_once(" | "));
    rows.filter_map(|(number, rest)| Some((number.parse().ok()?, rest.split(" |").next()?.to_string()))).collect()
}

fn find(rows: &[(u32, String)], number: u32) -> &str {
    rows.iter().find(|(n, _)| *n == number).map_or("", |(_, text)| text)
}

impl Pages {
    /// At the root of the repository.
    pub fn read() -> Pages {
        let plain = |name: String| name.replace(['`', '\\'], "").split(',').next().unwrap_or_default().to_string();
        let names = column("docs/INSTRUCTIONS.md").into_iter().map(|(opcode, name)| (opcode, plain(name))).collect();
        Pages { names, words: column("docs/ANSWERS.md") }
    }

    /// What an answer means; empty for a number that is none.
    pub fn words(&self, answer: u32) -> &str {
        find(&self.words, answer)
    }

    fn line(&self, place: usize, instruction: Instruction) -> String {
        let name = find(&self.names, encode(instruction)[0].into());
        format!("{place} {name}{}\n", operand(place, instruction))
    }

    /// A line an instruction.
    pub fn lines(&self, code: impl IntoIterator<Item = Instruction>) -> String {
        code.into_iter().enumerate().map(|(place, instruction)| self.line(place, instruction)).collect()
    }

    /// The text for a buffer of so many bytes, or the answer of the refusal.
    pub fn listing(&self, code: &[u8], instructions: usize, room: usize) -> Result<String, u32> {
        if room < LISTING_BYTES {
            return Err(10);
        }
        check(code, instructions).ok_or(15u32)?;
        Ok(self.lines((0..instructions).filter_map(|place| at(code, place))))
    }
}

pub fn letter(bank: Bank) -> char {
    bank.letter().into()
}

// The letter of a bank is part of a load's name.
fn operand(place: usize, instruction: Instruction) -> String {
    let range = |r: Range| format!(" {}{} {}", letter(r.bank), r.first, r.count);
    match instruction {
        Push(Value::Int(n)) => format!(" {n}"),
        Push(Value::Real(x)) => format!(" 0x{:08X}", x.to_bits()),
        Load(_, element) => format!("{element}"),
        Jump(distance) | JumpIf(_, distance) => format!(" {}", place + 1 + distance as usize),
        Total(_, r) | Match(_, _, r) => range(r),
        LoadIndexed(_) | Unary(_) | Binary(_) | Tick | Since => String::new(),
    }
}
