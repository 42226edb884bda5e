//! The profile without reals, by the request: each operation refuses what is real, in the place that the request gives the refusal, and else is the full box's.

use super::check::check_integers;
use super::memory::{target_name, Bank, MEMORY_BYTES};
use super::operations::{self, Code, Report, CODE_BYTES, TEXT_BYTES};
use super::operators::Unary;
use super::target::{target_of, Target};
use super::text::{tokens, Function, Token};
use super::totals::Total;
use super::tree::Tree;
use super::value::{Kind, Value};

fn refused(answer: u32, place: usize) -> Report {
    Report { answer, place: place as u32, ..Report::default() }
}

fn real_token(token: Token) -> bool {
    match token {
        Token::Literal(value) => value.kind() == Kind::Real,
        Token::Cell(bank, _) | Token::Bank(bank) => bank == Bank::R,
        Token::Function(Function::One(op)) => real_operator(op),
        Token::Function(Function::Total(op)) => op == Total::Average,
        Token::Function(_) | Token::Symbol(_) => false,
    }
}

fn real_operator(op: Unary) -> bool {
    matches!(op, Unary::ToReal | Unary::Frac)
}

/// "19, at the first real token, looked for just before 7": none in a text whose length is wrong or whose bytes are not all tokens.
fn first_real(expr: &[u8]) -> Option<usize> {
    if expr.is_empty() || expr.len() > TEXT_BYTES {
        return None;
    }
    tokens(expr).ok()?.iter().find(|token| real_token(token.token)).map(|token| token.place)
}

/// Whether a part of the tree is real.
pub fn real_part(tree: &Tree) -> bool {
    match tree {
        Tree::Literal(value) => value.kind() == Kind::Real,
        Tree::Cell(bank, _) => *bank == Bank::R,
        Tree::Indexed(bank, t) => *bank == Bank::R || real_part(t),
        Tree::Unary(op, _, t) => real_operator(*op) || real_part(t),
        Tree::Binary(_, _, t, u) | Tree::Decide(_, t, u) => real_part(t) || real_part(u),
        Tree::If(c, t, u) => real_part(c) || real_part(t) || real_part(u),
        Tree::Tick => false,
        Tree::Since(_, t) => real_part(t),
        Tree::Total(op, span) => *op == Total::Average || span.bank == Bank::R,
        Tree::Matching(_, _, t, span) => span.bank == Bank::R || real_part(t),
    }
}

// "an R target, or one with a real part in its index".
fn real_target(target: &[u8]) -> bool {
    match target_of(target) {
        Some(Target::Cell(bank, _)) => bank == Bank::R,
        Some(Target::Indexed(bank, index)) => bank == Bank::R || real_part(&index),
        None => false,
    }
}

// The refusal of a target as run and store take it: 2 in R, 15 for index code that the profile's check does not accept.
fn refused_run_target(target: &[u8], index_code: Code) -> Option<u32> {
    match target_name(target) {
        None | Some((Bank::R, _)) => Some(2),
        Some((_, None)) if !check_integers(index_code.bytes, index_code.instructions) => Some(15),
        Some(_) => None,
    }
}

pub fn compile(expr: &[u8], code: &mut [u8]) -> Report {
    match first_real(expr) {
        Some(place) if code.len() >= CODE_BYTES => refused(19, place),
        _ => operations::compile(expr, code),
    }
}

pub fn compile_target(target: &[u8], index_code: &mut [u8]) -> Report {
    if index_code.len() >= CODE_BYTES && real_target(target) {
        return refused(2, 0);
    }
    operations::compile_target(target, index_code)
}

pub fn check(code: &[u8], instructions: usize) -> Report {
    refused(if check_integers(code, instructions) { 0 } else { 15 }, 0)
}

pub fn run(code: Code, memory: &mut [u8], target: &[u8], index_code: Code, tick: u32) -> Report {
    if memory.len() != MEMORY_BYTES {
        return refused(1, 0);
    }
    match refused_run_target(target, index_code) {
        Some(answer) => refused(answer, 0),
        None if !check_integers(code.bytes, code.instructions) => refused(15, 0),
        None => operations::run(code, memory, target, index_code, tick),
    }
}

pub fn evaluate(code: Code, memory: &[u8], tick: u32) -> Report {
    if memory.len() == MEMORY_BYTES && !check_integers(code.bytes, code.instructions) {
        return refused(15, 0);
    }
    operations::evaluate(code, memory, tick)
}

/// A real is refused where the full box looks for an infinity or a NaN: docs/DECISIONS.md.
pub fn store_value(value: Value, memory: &mut [u8], target: &[u8], index_code: Code, tick: u32) -> Report {
    if memory.len() != MEMORY_BYTES {
        return refused(1, 0);
    }
    match refused_run_target(target, index_code) {
        Some(answer) => refused(answer, 0),
        None if value.kind() == Kind::Real => refused(19, 0),
        None => operations::store_value(value, memory, target, index_code, tick),
    }
}

pub fn compile_and_run(target: &[u8], expr: &[u8], memory: &mut [u8], codes: [&mut [u8]; 2], tick: u32) -> Report {
    let large = memory.len() == MEMORY_BYTES && codes.iter().all(|code| code.len() >= CODE_BYTES);
    if large && real_target(target) {
        return refused(2, 0);
    }
    match first_real(expr) {
        Some(place) if large && target_of(target).is_some() => refused(19, place),
        _ => operations::compile_and_run(target, expr, memory, codes, tick),
    }
}
