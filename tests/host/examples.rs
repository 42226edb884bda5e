//! The examples of the documents, by both implementations.
//!
//! In a block ```cells a line `R1 = 2.5` says what a cell holds in the examples that follow, and `tick = 704` their tick, which
//! is 0 before. In any other block a line with an arrow is an example: `EXPR -> 64` (an integer), `EXPR -> 3.5` (a real),
//! `EXPR -> V0 = 0` (the cell after the store), `EXPR -> answer 12` or `EXPR -> answer 7 at 4` (the place). Before the result a
//! target can stand, as in `EXPR -> D[V2]: D6 = 0`. A block ```profile has examples in the profile without reals.

use crate::library::{self, Lent, Library};
use crate::reference::memory::{cell_name, pack, unpack, Bank};
use crate::reference::operations::{compile_and_run, walk, Report};
use crate::reference::profile;
use crate::reference::program::{output, read_input, Operation};
use crate::reference::text::{tokens, Function, Placed, Token};

#[derive(Default)]
pub struct Examples {
    /// How many were tried.
    pub number: usize,
    /// Each cell's name and its line of the program.
    cells: Vec<(String, String)>,
    tick: u32,
}

struct Stated {
    target: String,
    output: String,
    /// The kind of the value, where the result is one.
    kind: Option<u32>,
}

impl Examples {
    /// Tries those of a document, after its cells and those of the documents before it. The error is the first that is wrong.
    pub fn try_all(&mut self, document: &str) -> Result<(), String> {
        let mut block = None;
        for line in document.lines() {
            match (block, line.strip_prefix("```")) {
                (None, Some(name)) => block = Some(name),
                (Some(_), Some(_)) => block = None,
                (Some("cells"), None) => self.add_cell(line).ok_or(format!("no cell: {line}"))?,
                (Some("profile"), None) => self.try_one(line, [profile::compile_and_run, through_integer_library])?,
                (Some(_), None) => self.try_one(line, [compile_and_run, through_full_library])?,
                (None, None) => {}
            }
        }
        Ok(())
    }

    fn add_cell(&mut self, line: &str) -> Option<()> {
        let (name, value) = line.split_once(" = ")?;
        if name == "tick" {
            self.tick = value.parse().ok()?;
            return Some(());
        }
        let value = match cell_name(name.as_bytes())? {
            (Bank::R, Some(_)) => pattern(value)?,
            _ => value.to_string(),
        };
        self.cells.push((name.to_string(), format!("{name}={value}\n")));
        Some(())
    }

    fn try_one(&mut self, line: &str, operations: [Operation; 2]) -> Result<(), String> {
        let Some((expr, result)) = line.rsplit_once(" -> ") else { return Ok(()) };
        let stated = stated(result).ok_or(format!("no result: {line}"))?;
        let cells = self.cells_of(&[expr, &stated.target]);
        let case = format!("{cells}target={}\nexpr={expr}\n", stated.target);
        for operation in operations {
            let given = output(read_input(case.as_bytes()), operation, self.tick);
            if given != stated.output {
                return Err(format!("{line}\nexpected\n{}got\n{given}", stated.output));
            }
        }
        if stated.kind.is_some_and(|kind| kind != kind_of(&case, self.tick)) {
            return Err(format!("the other kind of number: {line}"));
        }
        self.number += 1;
        Ok(())
    }

    // The lines of the cells that texts can read.
    fn cells_of(&self, texts: &[&str]) -> String {
        let tokens: Vec<Placed> = texts.iter().flat_map(|text| tokens(text.as_bytes()).unwrap_or_default()).collect();
        let totals = tokens.iter().any(|t| matches!(t.token, Token::Function(Function::Total(_) | Function::Matching(..))));
        let read = |name: &str| {
            tokens.iter().any(|t| match t.token {
                Token::Cell(bank, _) if totals => name.as_bytes()[0] == bank.letter(),
                Token::Cell(bank, element) => cell_name(name.as_bytes()) == Some((bank, Some(element))),
                Token::Bank(bank) => name.as_bytes()[0] == bank.letter(),
                _ => false,
            })
        };
        self.cells.iter().filter(|(name, _)| read(name)).map(|(_, line)| line.as_str()).collect()
    }
}

fn through_full_library(target: &[u8], expr: &[u8], memory: &mut [u8], codes: [&mut [u8]; 2], tick: u32) -> Report {
    through(&library::FULL, target, expr, memory, codes, tick)
}

fn through_integer_library(target: &[u8], expr: &[u8], memory: &mut [u8], codes: [&mut [u8]; 2], tick: u32) -> Report {
    through(&library::INTEGERS, target, expr, memory, codes, tick)
}

fn through(library: &Library, target: &[u8], expr: &[u8], memory: &mut [u8], codes: [&mut [u8]; 2], tick: u32) -> Report {
    let (mut lent_memory, [mut code, mut index_code]) = (Lent::new(&pack(memory), 0), codes.map(|code| Lent::new(code, 0)));
    let (target, expr) = (Lent::new(target, 0), Lent::new(expr, 0));
    let report = library.compile_and_run(&target, &expr, &mut lent_memory, [&mut code, &mut index_code], tick);
    memory.copy_from_slice(&unpack(lent_memory.content()));
    report
}

fn kind_of(case: &str, tick: u32) -> u32 {
    let mut input = read_input(case.as_bytes());
    walk(&input.target, &input.expr, &mut input.memory, tick).kind
}

fn pattern(decimal: &str) -> Option<String> {
    decimal.parse::<f32>().ok().map(|r| format!("0x{:08X}", r.to_bits()))
}

fn stated(result: &str) -> Option<Stated> {
    if let Some((target, result)) = result.split_once(": ") {
        return Some(Stated { target: target.into(), ..stated(result)? });
    }
    if let Some(answer) = result.strip_prefix("answer ") {
        let (answer, place) = answer.split_once(" at ").unwrap_or((answer, "0"));
        return Some(refused(answer.parse().ok()?, place.parse().ok()?));
    }
    match result.split_once(" = ") {
        Some((target, value)) if target.starts_with('R') => Some(stored(target, &pattern(value)?, None)),
        Some((target, value)) => Some(stored(target, value, None)),
        None if result.contains('.') => Some(stored("R0", &pattern(result)?, Some(1))),
        None => Some(stored("D0", &result.parse::<i32>().ok()?.to_string(), Some(0))),
    }
}

fn refused(answer: u32, place: usize) -> Stated {
    Stated { target: "D0".into(), output: format!("answer={answer}\nplace={place}\n"), kind: None }
}

fn stored(target: &str, value: &str, kind: Option<u32>) -> Stated {
    Stated { target: target.into(), output: format!("answer=0\nplace=0\n{target}={value}\n"), kind }
}
