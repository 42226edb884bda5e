//! Which cells a formula, a target's index and code read.

use std::collections::BTreeSet;

use super::code::{at, Instruction, INSTRUCTION_BYTES};
use super::memory::{Bank, BANKS};
use super::target::Target;
use super::totals::Range;
use super::tree::Tree;

/// How many cells there are.
pub const CELLS: usize = 1152;

/// Cells by number, in memory order.
pub type Cells = BTreeSet<u16>;

pub fn number(bank: Bank, element: usize) -> u16 {
    let before: usize = BANKS[..bank as usize].iter().map(|b| b.cells()).sum();
    (before + element) as u16
}

/// The cell of a number.
pub fn cell(number: u16) -> (Bank, usize) {
    let mut element = usize::from(number);
    for bank in BANKS {
        if element < bank.cells() {
            return (bank, element);
        }
        element -= bank.cells();
    }
    panic!("there is no cell {number}")
}

fn range(Range { bank, first, count }: Range, cells: &mut Cells) {
    cells.extend((first..first + count).map(|element| number(bank, element)));
}

fn whole(bank: Bank, cells: &mut Cells) {
    range(Range { bank, first: 0, count: bank.cells() }, cells);
}

pub fn of_tree(tree: &Tree, cells: &mut Cells) {
    match tree {
        Tree::Literal(_) | Tree::Tick => {}
        Tree::Cell(bank, element) => {
            cells.insert(number(*bank, *element));
        }
        Tree::Indexed(bank, index) => {
            of_tree(index, cells);
            whole(*bank, cells);
        }
        Tree::Unary(_, _, t) | Tree::Since(_, t) => of_tree(t, cells),
        Tree::Binary(_, _, t, u) | Tree::Decide(_, t, u) => {
            of_tree(t, cells);
            of_tree(u, cells);
        }
        Tree::If(c, t, u) => {
            of_tree(c, cells);
            of_tree(t, cells);
            of_tree(u, cells);
        }
        Tree::Total(_, span) => range(span.range(), cells),
        Tree::Matching(_, _, t, span) => {
            of_tree(t, cells);
            range(span.range(), cells);
        }
    }
}

/// The cell or the bank that is stored to is not read.
pub fn of_target(target: &Target, cells: &mut Cells) {
    if let Target::Indexed(_, index) = target {
        of_tree(index, cells);
    }
}

/// Bytes that are no instruction read nothing, and what lies beyond the buffer is not there.
pub fn of_code(code: &[u8], instructions: usize, cells: &mut Cells) {
    for place in 0..instructions.min(code.len() / INSTRUCTION_BYTES) {
        match at(code, place) {
            Some(Instruction::Load(bank, element)) => {
                cells.insert(number(bank, element));
            }
            Some(Instruction::LoadIndexed(bank)) => whole(bank, cells),
            Some(Instruction::Total(_, r) | Instruction::Match(_, _, r)) => range(r, cells),
            _ => {}
        }
    }
}

pub fn name(number: u16) -> String {
    let (bank, element) = cell(number);
    format!("{}{element}", char::from(bank.letter()))
}
