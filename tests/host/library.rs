//! The C library, called on buffers with guard bytes around them.

use crate::header::*;
use crate::reference::operations::{Answers, Report, LISTED};

const GUARD: usize = 24;
const GUARD_BYTE: u8 = 0xA5;

/// Bytes lent to the library. They start at any alignment, and what stands around them must stay as it is.
pub struct Lent {
    bytes: Vec<u8>,
    start: usize,
    length: usize,
}

impl Lent {
    pub fn new(content: &[u8], alignment: usize) -> Lent {
        let start = GUARD + alignment;
        let mut bytes = Vec::with_capacity(start + content.len() + GUARD);
        bytes.resize(start, GUARD_BYTE);
        bytes.extend_from_slice(content);
        bytes.resize(start + content.len() + GUARD, GUARD_BYTE);
        Lent { bytes, start, length: content.len() }
    }

    pub fn content(&self) -> &[u8] {
        &self.bytes[self.start..self.start + self.length]
    }

    pub fn guards_stand(&self) -> bool {
        let (before, rest) = self.bytes.split_at(self.start);
        before.iter().chain(&rest[self.length..]).all(|b| *b == GUARD_BYTE)
    }

    fn lend(&self) -> (*const u8, usize) {
        (self.content().as_ptr(), self.length)
    }

    fn lend_to_write(&mut self) -> (*mut u8, usize) {
        (self.bytes[self.start..].as_mut_ptr(), self.length)
    }
}

// What a report holds before the call: every word must be written.
const UNWRITTEN: Report = Report { answer: 77, place: 77, kind: 77, bits: 77, count: 77, bank: 77, element: 77 };

type Bytes = *const u8;
type Writable = *mut u8;
type Filled = *mut Report;

/// The operations that both libraries have.
pub struct Library {
    compile: unsafe extern "C" fn(Bytes, usize, Writable, usize, Filled),
    check: unsafe extern "C" fn(Bytes, usize, usize, Filled),
    run: unsafe extern "C" fn(Bytes, usize, usize, Writable, usize, Bytes, usize, Bytes, usize, usize, u32, Filled),
    compile_and_run: unsafe extern "C" fn(Bytes, usize, Bytes, usize, Writable, usize, Writable, usize, Writable, usize, u32, Filled),
    compile_target: unsafe extern "C" fn(Bytes, usize, Writable, usize, Filled),
    evaluate: unsafe extern "C" fn(Bytes, usize, usize, Bytes, usize, u32, Filled),
    store: unsafe extern "C" fn(u32, u32, Writable, usize, Bytes, usize, Bytes, usize, usize, u32, Filled),
}

/// That of include/formula.h.
pub const FULL: Library = Library {
    compile: formula_compile,
    check: formula_check,
    run: formula_run,
    compile_and_run: formula_compile_and_run,
    compile_target: formula_compile_target,
    evaluate: formula_evaluate,
    store: formula_store,
};

/// That of include/formula_int.h, without reals.
pub const INTEGERS: Library = Library {
    compile: formula_int_compile,
    check: formula_int_check,
    run: formula_int_run,
    compile_and_run: formula_int_compile_and_run,
    compile_target: formula_int_compile_target,
    evaluate: formula_int_evaluate,
    store: formula_int_store,
};

/// Code that is lent to be run.
pub struct Code<'a> {
    pub lent: &'a Lent,
    pub instructions: usize,
}

// Each call lends what the header asks for: readable or writable bytes of the given length that do not overlap.

impl Library {
    pub fn compile(&self, expr: &Lent, code: &mut Lent) -> Report {
        let mut report = UNWRITTEN;
        let (expr, (code, code_len)) = (expr.lend(), code.lend_to_write());
        unsafe { (self.compile)(expr.0, expr.1, code, code_len, &mut report) };
        report
    }

    pub fn check(&self, code: &Lent, instructions: usize) -> Report {
        let mut report = UNWRITTEN;
        let code = code.lend();
        unsafe { (self.check)(code.0, code.1, instructions, &mut report) };
        report
    }

    #[rustfmt::skip]
    pub fn run(&self, code: Code, memory: &mut Lent, target: &Lent, index_code: Code, tick: u32) -> Report {
        let mut report = UNWRITTEN;
        let (instructions, index_instructions) = (code.instructions, index_code.instructions);
        let (code, target, index, memory) = (code.lent.lend(), target.lend(), index_code.lent.lend(), memory.lend_to_write());
        unsafe {
            (self.run)(
                code.0, code.1, instructions, memory.0, memory.1, target.0, target.1, index.0, index.1, index_instructions, tick,
                &mut report,
            );
        }
        report
    }

    #[rustfmt::skip]
    pub fn compile_and_run(&self, target: &Lent, expr: &Lent, memory: &mut Lent, codes: [&mut Lent; 2], tick: u32) -> Report {
        let mut report = UNWRITTEN;
        let (target, expr) = (target.lend(), expr.lend());
        let (memory, [code, index]) = (memory.lend_to_write(), codes.map(Lent::lend_to_write));
        unsafe {
            (self.compile_and_run)(
                target.0, target.1, expr.0, expr.1, memory.0, memory.1, code.0, code.1, index.0, index.1, tick, &mut report,
            );
        }
        report
    }

    pub fn compile_target(&self, target: &Lent, index_code: &mut Lent) -> Report {
        let mut report = UNWRITTEN;
        let (target, index) = (target.lend(), index_code.lend_to_write());
        unsafe { (self.compile_target)(target.0, target.1, index.0, index.1, &mut report) };
        report
    }

    pub fn evaluate(&self, code: Code, memory: &Lent, tick: u32) -> Report {
        let mut report = UNWRITTEN;
        let (instructions, code, memory) = (code.instructions, code.lent.lend(), memory.lend());
        unsafe { (self.evaluate)(code.0, code.1, instructions, memory.0, memory.1, tick, &mut report) };
        report
    }

    /// The kind is any number, the bits any pattern.
    #[rustfmt::skip]
    pub fn store(&self, (kind, bits): (u32, u32), memory: &mut Lent, target: &Lent, index_code: Code, tick: u32) -> Report {
        let mut report = UNWRITTEN;
        let (target, index, memory) = (target.lend(), index_code.lent.lend(), memory.lend_to_write());
        unsafe {
            (self.store)(
                kind, bits, memory.0, memory.1, target.0, target.1, index.0, index.1, index_code.instructions, tick, &mut report,
            );
        }
        report
    }
}

pub fn format(expr: &Lent, out: &mut Lent) -> Report {
    let mut report = UNWRITTEN;
    let (expr, (out, out_len)) = (expr.lend(), out.lend_to_write());
    unsafe { formula_format(expr.0, expr.1, out, out_len, &mut report) };
    report
}

#[rustfmt::skip]
pub fn run_list(words: &[u32], texts: &Lent, memory: &mut Lent, codes: [&mut Lent; 2], tick: u32) -> Answers {
    let mut result = Answers { answer: 77, answers: [77; LISTED] };
    let (texts, memory, [code, index]) = (texts.lend(), memory.lend_to_write(), codes.map(Lent::lend_to_write));
    unsafe {
        formula_run_list(
            words.as_ptr(), words.len(), texts.0, texts.1, memory.0, memory.1, code.0, code.1, index.0, index.1, tick, &mut result,
        );
    }
    result
}

pub fn cards_read(file: &Lent) -> Cards {
    const UNWRITTEN_CARD: CardWords = CardWords { number: 77, target: 77, target_len: 77, expr: 77, expr_len: 77 };
    let mut result = Cards { answer: 77, place: 77, count: 77, cards: [UNWRITTEN_CARD; 64] };
    let file = file.lend();
    unsafe { formula_cards_read(file.0, file.1, &mut result) };
    result
}

/// Five words a card.
pub fn cards_write(texts: &Lent, words: &[u32], out: &mut Lent) -> Written {
    let mut result = Written { answer: 77, place: 77, length: 77 };
    let (texts, out) = (texts.lend(), out.lend_to_write());
    unsafe { formula_cards_write(texts.0, texts.1, words.as_ptr(), words.len(), out.0, out.1, &mut result) };
    result
}

pub fn salvage(file: &Lent, kept: &mut Lent, named: &mut Lent) -> Salvaged {
    let mut result = Salvaged { answer: 77, kept: 77, named: 77 };
    let (file, kept, named) = (file.lend(), kept.lend_to_write(), named.lend_to_write());
    unsafe { formula_salvage(file.0, file.1, kept.0, kept.1, named.0, named.1, &mut result) };
    result
}

#[rustfmt::skip]
pub fn replay(cards: &Lent, log: &Lent, memory: &mut Lent, out: &mut Lent, state: &mut ReplayState) {
    let (cards, log, memory, out) = (cards.lend(), log.lend(), memory.lend_to_write(), out.lend_to_write());
    unsafe { formula_replay(cards.0, cards.1, log.0, log.1, memory.0, memory.1, out.0, out.1, state) };
}

/// How many cells the two codes read; the list gets the numbers of the first of them.
pub fn cells(code: Code, index_code: Code, list: &mut [u16]) -> u32 {
    let (n, k) = (code.instructions, index_code.instructions);
    let (code, index) = (code.lent.lend(), index_code.lent.lend());
    unsafe { formula_cells(code.0, code.1, n, index.0, index.1, k, list.as_mut_ptr(), list.len()) }
}

pub fn listing(code: Code, text: &mut Lent) -> Listed {
    let mut result = Listed { answer: 77, length: 77 };
    let (instructions, code, text) = (code.instructions, code.lent.lend(), text.lend_to_write());
    unsafe { formula_listing(code.0, code.1, instructions, text.0, text.1, &mut result) };
    result
}

pub fn words(answer: u32, text: &mut Lent) -> u32 {
    let text = text.lend_to_write();
    unsafe { formula_words(answer, text.0, text.1) }
}

pub fn pack(old: &Lent, image: &mut Lent) -> u32 {
    let (old, image) = (old.lend(), image.lend_to_write());
    unsafe { formula_pack(old.0, old.1, image.0, image.1) }
}

pub fn unpack(image: &Lent, old: &mut Lent) -> u32 {
    let (image, old) = (image.lend(), old.lend_to_write());
    unsafe { formula_unpack(image.0, image.1, old.0, old.1) }
}
