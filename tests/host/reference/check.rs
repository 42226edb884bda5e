//! The check of code.

use super::code::Instruction::{self, *};
use super::code::{at, HEIGHT_LIMIT, INSTRUCTION_LIMIT};
use super::memory::Bank;
use super::operators::{binary_kind, since_kind, unary_kind};
use super::totals::{matching_kind, total_kind};
use super::value::Kind;

/// The kind of the one value at the end, if the check accepts so many instructions.
pub fn check(bytes: &[u8], number: usize) -> Option<Kind> {
    accepted(bytes, number).map(|accepted| accepted.kind)
}

/// Whether the check of the profile without reals accepts them: no real is ever held, and no instruction, reached or not, reads R.
pub fn check_integers(bytes: &[u8], number: usize) -> bool {
    accepted(bytes, number).is_some_and(|accepted| !accepted.held_real && !accepted.reads_r)
}

struct Accepted {
    kind: Kind,
    held_real: bool,
    reads_r: bool,
}

fn reads_r(instruction: &Instruction) -> bool {
    match instruction {
        Load(bank, _) | LoadIndexed(bank) => *bank == Bank::R,
        Total(_, range) | Match(_, _, range) => range.bank == Bank::R,
        _ => false,
    }
}

fn accepted(bytes: &[u8], number: usize) -> Option<Accepted> {
    if number == 0 || number > INSTRUCTION_LIMIT {
        return None;
    }
    let code: Vec<Instruction> = (0..number).map(|place| at(bytes, place)).collect::<Option<_>>()?;
    let inside = |at: usize| jump_target(&code, at).is_none_or(|target| target <= code.len());
    if !(0..code.len()).all(inside) {
        return None;
    }
    let mut held_real = false;
    match kinds_at_end(&code, &mut held_real)?[..] {
        [kind] => Some(Accepted { kind, held_real, reads_r: code.iter().any(reads_r) }),
        _ => None,
    }
}

fn jump_target(code: &[Instruction], at: usize) -> Option<usize> {
    match code[at] {
        Jump(distance) | JumpIf(_, distance) => Some(at + 1 + distance as usize),
        _ => None,
    }
}

// Goes through the code once: jumps go forward, so a place's kinds are known before it is met. `coming` has
// the kinds with which a jump arrives at a place; `held_real` becomes true where one of them is real.
fn kinds_at_end(code: &[Instruction], held_real: &mut bool) -> Option<Vec<Kind>> {
    let mut coming: Vec<Option<Vec<Kind>>> = vec![None; code.len() + 1];
    let mut held = Some(Vec::new());
    for at in 0..code.len() {
        held = meet(held, coming[at].take())?;
        let Some(kinds) = &mut held else { continue };
        step(code[at], kinds)?;
        *held_real |= kinds.contains(&Kind::Real);
        if let Some(target) = jump_target(code, at) {
            coming[target] = meet(Some(kinds.clone()), coming[target].take())?;
        }
        if matches!(code[at], Jump(_)) {
            held = None;
        }
    }
    meet(held, coming[code.len()].take())?
}

// The kinds at a place that two ways may reach; the outer None if they differ.
fn meet(a: Option<Vec<Kind>>, b: Option<Vec<Kind>>) -> Option<Option<Vec<Kind>>> {
    match (a, b) {
        (Some(a), Some(b)) if a != b => None,
        (Some(a), _) => Some(Some(a)),
        (None, b) => Some(b),
    }
}

fn step(instruction: Instruction, held: &mut Vec<Kind>) -> Option<()> {
    let left = match instruction {
        Push(v) => v.kind(),
        Load(bank, _) => bank.kind(),
        LoadIndexed(bank) => {
            held.pop()?;
            bank.kind()
        }
        Unary(op) => taken(unary_kind(op, held.pop()?))?,
        Binary(op) => {
            let right = held.pop()?;
            taken(binary_kind(op, held.pop()?, right))?
        }
        Jump(_) => return Some(()),
        JumpIf(..) => return held.pop().map(|_| ()),
        Tick => Kind::Int,
        Since => taken(since_kind(held.pop()?))?,
        Total(op, range) => total_kind(op, range.bank),
        Match(op, _, range) => {
            held.pop()?;
            matching_kind(op, range.bank)
        }
    };
    held.push(left);
    (held.len() <= HEIGHT_LIMIT).then_some(())
}

fn taken((kind, taken): (Kind, bool)) -> Option<Kind> {
    taken.then_some(kind)
}
