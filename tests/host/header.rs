//! include/formula.h and include/formula_int.h in Rust: the operations of the archives formula_c and formula_int_c. Lengths have 64 bits there, as they have
//! on this machine.

use crate::reference::operations::{Answers, Report};

/// A card: its number, and the places and lengths of its texts.
#[derive(Clone, Copy, PartialEq, Debug, Default)]
#[repr(C)]
pub struct CardWords {
    pub number: u32,
    pub target: u32,
    pub target_len: u32,
    pub expr: u32,
    pub expr_len: u32,
}

#[derive(Clone, PartialEq, Debug)]
#[repr(C)]
pub struct Cards {
    pub answer: u32,
    pub place: u32,
    pub count: u32,
    pub cards: [CardWords; 64],
}

#[derive(Clone, Copy, PartialEq, Debug)]
#[repr(C)]
pub struct Written {
    pub answer: u32,
    pub place: u32,
    pub length: u32,
}

#[derive(Clone, Copy, PartialEq, Debug)]
#[repr(C)]
pub struct Salvaged {
    pub answer: u64,
    pub kept: u64,
    pub named: u64,
}

#[derive(Clone, Copy, PartialEq, Debug)]
#[repr(C)]
pub struct Listed {
    pub answer: u32,
    pub length: u32,
}

/// All 0 before the first call.
#[derive(Clone, Copy, PartialEq, Debug, Default)]
#[repr(C)]
pub struct ReplayState {
    pub at: u64,
    pub tick: u64,
    pub done: u64,
    pub written: u64,
}

#[rustfmt::skip]
#[link(name = "formula_c", kind = "static")]
extern "C" {
    pub fn formula_compile(expr: *const u8, expr_len: usize, code: *mut u8, code_len: usize, report: *mut Report);
    pub fn formula_format(expr: *const u8, expr_len: usize, out: *mut u8, out_len: usize, report: *mut Report);
    pub fn formula_check(code: *const u8, code_len: usize, instructions: usize, report: *mut Report);
    pub fn formula_run(
        code: *const u8, code_len: usize, instructions: usize, memory: *mut u8, memory_len: usize,
        target: *const u8, target_len: usize, index_code: *const u8, index_len: usize, index_instructions: usize, tick: u32,
        report: *mut Report,
    );
    pub fn formula_compile_and_run(
        target: *const u8, target_len: usize, expr: *const u8, expr_len: usize, memory: *mut u8, memory_len: usize,
        code: *mut u8, code_len: usize, index_code: *mut u8, index_len: usize, tick: u32, report: *mut Report,
    );
    pub fn formula_evaluate(
        code: *const u8, code_len: usize, instructions: usize, memory: *const u8, memory_len: usize, tick: u32,
        report: *mut Report,
    );
    pub fn formula_store(
        kind: u32, bits: u32, memory: *mut u8, memory_len: usize, target: *const u8, target_len: usize,
        index_code: *const u8, index_len: usize, index_instructions: usize, tick: u32, report: *mut Report,
    );
    pub fn formula_compile_target(
        target: *const u8, target_len: usize, index_code: *mut u8, index_len: usize, report: *mut Report,
    );
    pub fn formula_pack(old: *const u8, old_len: usize, image: *mut u8, image_len: usize) -> u32;
    pub fn formula_unpack(image: *const u8, image_len: usize, old: *mut u8, old_len: usize) -> u32;
    pub fn formula_run_list(
        places: *const u32, words: usize, texts: *const u8, texts_len: usize, memory: *mut u8, memory_len: usize,
        code: *mut u8, code_len: usize, index_code: *mut u8, index_len: usize, tick: u32, result: *mut Answers,
    );
    pub fn formula_cards_read(file: *const u8, file_len: usize, result: *mut Cards);
    pub fn formula_cards_write(
        texts: *const u8, texts_len: usize, cards: *const u32, words: usize, out: *mut u8, out_len: usize,
        result: *mut Written,
    );
    pub fn formula_salvage(
        file: *const u8, file_len: usize, kept: *mut u8, kept_len: usize, named: *mut u8, named_len: usize,
        result: *mut Salvaged,
    );
    pub fn formula_replay(
        cards: *const u8, cards_len: usize, log: *const u8, log_len: usize, memory: *mut u8, memory_len: usize,
        out: *mut u8, out_len: usize, state: *mut ReplayState,
    );
    pub fn formula_cells(
        code: *const u8, code_len: usize, instructions: usize, index_code: *const u8, index_len: usize,
        index_instructions: usize, list: *mut u16, list_len: usize,
    ) -> u32;
    pub fn formula_listing(code: *const u8, code_len: usize, instructions: usize, text: *mut u8, text_len: usize, result: *mut Listed);
    pub fn formula_words(answer: u32, text: *mut u8, text_len: usize) -> u32;
}

#[rustfmt::skip]
#[link(name = "formula_int_c", kind = "static")]
extern "C" {
    pub fn formula_int_compile(expr: *const u8, expr_len: usize, code: *mut u8, code_len: usize, report: *mut Report);
    pub fn formula_int_check(code: *const u8, code_len: usize, instructions: usize, report: *mut Report);
    pub fn formula_int_run(
        code: *const u8, code_len: usize, instructions: usize, memory: *mut u8, memory_len: usize,
        target: *const u8, target_len: usize, index_code: *const u8, index_len: usize, index_instructions: usize, tick: u32,
        report: *mut Report,
    );
    pub fn formula_int_compile_and_run(
        target: *const u8, target_len: usize, expr: *const u8, expr_len: usize, memory: *mut u8, memory_len: usize,
        code: *mut u8, code_len: usize, index_code: *mut u8, index_len: usize, tick: u32, report: *mut Report,
    );
    pub fn formula_int_evaluate(
        code: *const u8, code_len: usize, instructions: usize, memory: *const u8, memory_len: usize, tick: u32,
        report: *mut Report,
    );
    pub fn formula_int_store(
        kind: u32, bits: u32, memory: *mut u8, memory_len: usize, target: *const u8, target_len: usize,
        index_code: *const u8, index_len: usize, index_instructions: usize, tick: u32, report: *mut Report,
    );
    pub fn formula_int_compile_target(
        target: *const u8, target_len: usize, index_code: *mut u8, index_len: usize, report: *mut Report,
    );
}
