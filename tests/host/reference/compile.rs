//! The code of a tree.

use super::code::Instruction::{self, *};
use super::operators::{binary_kind, since_kind, unary_kind, Unary};
use super::totals::{matching_kind, total_kind};
use super::tree::Tree;
use super::value::{Kind, Value};

/// Appends the code of the tree and gives its kind.
pub fn compile(tree: &Tree, code: &mut Vec<Instruction>) -> Kind {
    match tree {
        Tree::Literal(v) => {
            code.push(Push(*v));
            v.kind()
        }
        Tree::Cell(bank, element) => {
            code.push(Load(*bank, *element));
            bank.kind()
        }
        Tree::Indexed(bank, index) => {
            compile(index, code);
            code.push(LoadIndexed(*bank));
            bank.kind()
        }
        Tree::Unary(op, _, t) => {
            let operand = compile(t, code);
            code.push(Unary(*op));
            unary_kind(*op, operand).0
        }
        Tree::Binary(op, _, t, u) => {
            let left = compile(t, code);
            let right = compile(u, code);
            code.push(Binary(*op));
            binary_kind(*op, left, right).0
        }
        Tree::Decide(decides, t, u) => compile_decide(*decides, t, u, code),
        Tree::If(c, t, u) => compile_if(c, t, u, code),
        Tree::Tick => {
            code.push(Tick);
            Kind::Int
        }
        Tree::Since(_, t) => {
            let operand = compile(t, code);
            code.push(Since);
            since_kind(operand).0
        }
        Tree::Total(op, span) => {
            code.push(Total(*op, span.range()));
            total_kind(*op, span.bank)
        }
        Tree::Matching(op, test, t, span) => {
            compile(t, code);
            code.push(Match(*op, *test, span.range()));
            matching_kind(*op, span.bank)
        }
    }
}

// A place in the code whose jump gets its distance later.
fn hole(code: &mut Vec<Instruction>) -> usize {
    code.push(Jump(0));
    code.len() - 1
}

// The distance from a hole to where the next instruction will stand.
fn distance(hole: usize, code: &[Instruction]) -> u32 {
    (code.len() - hole - 1) as u32
}

fn compile_decide(decides: bool, t: &Tree, u: &Tree, code: &mut Vec<Instruction>) -> Kind {
    compile(t, code);
    let left = hole(code);
    compile(u, code);
    let right = hole(code);
    code.push(Push(Value::Int(i32::from(!decides))));
    let over = hole(code);
    code[left] = JumpIf(decides, distance(left, code));
    code[right] = JumpIf(decides, distance(right, code));
    code.push(Push(Value::Int(i32::from(decides))));
    code[over] = Jump(distance(over, code));
    Kind::Int
}

fn compile_if(c: &Tree, t: &Tree, u: &Tree, code: &mut Vec<Instruction>) -> Kind {
    compile(c, code);
    let to_second = hole(code);
    let first = compile(t, code);
    let to_end = hole(code);
    code[to_second] = JumpIf(false, distance(to_second, code));
    let second = compile(u, code);
    match (first, second) {
        // The second branch jumps over the promotion that the first one needs.
        (Kind::Int, Kind::Real) => {
            code.push(Jump(1));
            code[to_end] = Jump(distance(to_end, code));
            code.push(Unary(Unary::ToReal));
        }
        (Kind::Real, Kind::Int) => {
            code.push(Unary(Unary::ToReal));
            code[to_end] = Jump(distance(to_end, code));
        }
        _ => code[to_end] = Jump(distance(to_end, code)),
    }
    first.wider(second)
}
