//! The library as a controller calls it.

use crate::header::*;
pub use crate::reference::memory::PACKED_BYTES as MEMORY_BYTES;
pub use crate::reference::operations::{Report, CODE_BYTES};

// Slices are readable, or writable where they are mutable, and do not overlap: that is all that the header asks for.

pub fn compile(expr: &[u8], code: &mut [u8]) -> Report {
    let mut report = Report::default();
    unsafe { formula_compile(expr.as_ptr(), expr.len(), code.as_mut_ptr(), code.len(), &mut report) };
    report
}

pub fn check(code: &[u8], instructions: usize) -> Report {
    let mut report = Report::default();
    unsafe { formula_check(code.as_ptr(), code.len(), instructions, &mut report) };
    report
}

/// A target as a run takes it: a cell, or a bank's letter with the code of its index.
pub struct Target<'a> {
    pub text: &'a [u8],
    pub index_code: &'a [u8],
    pub index_instructions: usize,
}

impl<'a> Target<'a> {
    /// A plain cell.
    pub fn cell(text: &'a [u8]) -> Target<'a> {
        Target { text, index_code: &[], index_instructions: 0 }
    }

    /// The bank's letter of an indexed target, with its code and so many instructions; a plain cell has none.
    pub fn compiled(text: &'a [u8], index_code: &'a [u8], index_instructions: usize) -> Target<'a> {
        let text = if index_instructions == 0 { text } else { &text[..1] };
        Target { text, index_code, index_instructions }
    }
}

#[rustfmt::skip]
pub fn run(code: &[u8], instructions: usize, memory: &mut [u8], target: &Target, tick: u32) -> Report {
    let mut report = Report::default();
    unsafe {
        formula_run(
            code.as_ptr(), code.len(), instructions, memory.as_mut_ptr(), memory.len(),
            target.text.as_ptr(), target.text.len(), target.index_code.as_ptr(), target.index_code.len(),
            target.index_instructions, tick, &mut report,
        );
    }
    report
}

#[rustfmt::skip]
pub fn compile_and_run(target: &[u8], expr: &[u8], memory: &mut [u8], codes: [&mut [u8]; 2], tick: u32) -> Report {
    let [code, index_code] = codes;
    let mut report = Report::default();
    unsafe {
        formula_compile_and_run(
            target.as_ptr(), target.len(), expr.as_ptr(), expr.len(), memory.as_mut_ptr(), memory.len(),
            code.as_mut_ptr(), code.len(), index_code.as_mut_ptr(), index_code.len(), tick, &mut report,
        );
    }
    report
}

pub fn compile_target(target: &[u8], index_code: &mut [u8]) -> Report {
    let mut report = Report::default();
    unsafe {
        formula_compile_target(target.as_ptr(), target.len(), index_code.as_mut_ptr(), index_code.len(), &mut report);
    }
    report
}

pub fn cards_read(file: &[u8]) -> Cards {
    let mut result = Cards { answer: 0, place: 0, count: 0, cards: [CardWords::default(); 64] };
    unsafe { formula_cards_read(file.as_ptr(), file.len(), &mut result) };
    result
}

/// The cells that so many instructions of a code read, without an index.
pub fn cells(code: &[u8], n: usize, list: &mut [u16]) -> usize {
    unsafe { formula_cells(code.as_ptr(), code.len(), n, code.as_ptr(), 0, 0, list.as_mut_ptr(), list.len()) as usize }
}
