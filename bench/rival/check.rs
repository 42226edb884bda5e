//! The check of code: one pass, since jumps go forward. Kinds held are bits, 1 for a real, the last pushed lowest. The tables of
//! what jumps bring to a place are on the stack, of one of four sizes, so that nothing is allocated and short code clears little.

use super::machine::{fields, Instruction};
use super::op;
use super::opcode::{Form, Rule, RULES};
use super::totals::{match_kind, total_kind, Range};
use super::values::Kind;

#[derive(Clone, Copy, PartialEq)]
struct Held {
    height: usize,
    kinds: u128,
}

// What jumps bring to each place: one more than the height, and the kinds.
struct Arrivals<const PLACES: usize> {
    tops: [u8; PLACES],
    kinds: [u128; PLACES],
}

impl<const PLACES: usize> Arrivals<PLACES> {
    #[inline]
    fn get(&self, place: usize) -> Option<Held> {
        let top = self.tops[place] as usize;
        if top == 0 {
            return None;
        }
        Some(Held { height: top - 1, kinds: self.kinds[place] })
    }

    // None where another jump brings something else.
    #[inline]
    fn add(&mut self, place: usize, held: Held) -> Option<()> {
        match self.get(place) {
            None => {
                self.tops[place] = held.height as u8 + 1;
                self.kinds[place] = held.kinds;
                Some(())
            }
            Some(there) if there == held => Some(()),
            Some(_) => None,
        }
    }
}

/// Whether the check accepts the instructions.
#[inline(never)]
pub fn accepts(code: &[Instruction]) -> bool {
    let height = match code.len() {
        0 => None,
        1..=32 => height_at_end::<33>(code),
        33..=128 => height_at_end::<129>(code),
        129..=512 => height_at_end::<513>(code),
        513..=2048 => height_at_end::<2049>(code),
        _ => None,
    };
    height == Some(1)
}

#[inline(never)]
fn height_at_end<const PLACES: usize>(code: &[Instruction]) -> Option<usize> {
    let mut arrivals = Arrivals { tops: [0; PLACES], kinds: [0; PLACES] };
    let mut held = Held { height: 0, kinds: 0 };
    let mut reached = true;
    for (place, instruction) in code.iter().enumerate() {
        let (opcode, operand, word) = fields(instruction);
        let rule = &RULES[opcode as usize];
        let left = code.len() - place - 1;
        if !known(rule, operand, word, left) {
            return None;
        }
        if reached {
            step(rule, operand, word, &mut held)?;
            if rule.form >= Form::Alone {
                arrivals.add(place + 1 + word as usize, held)?;
                reached = rule.form == Form::Beside;
            }
        }
        if let Some(there) = arrivals.get(place + 1) {
            if reached && held != there {
                return None;
            }
            held = there;
            reached = true;
        }
    }
    if reached {
        Some(held.height)
    } else {
        None
    }
}

// Whether an instruction is known, where so many follow it.
#[inline(always)]
fn known(rule: &Rule, operand: u32, word: u32, left: usize) -> bool {
    if rule.form == Form::Plain {
        return operand == 0 && word <= rule.most && rule.takes <= 2;
    }
    match rule.form {
        Form::Total => operand < op::TOTALS as u32 && Range::of_word(word).is_some(),
        Form::Match => operand < op::MATCHES as u32 && Range::of_word(word).is_some(),
        Form::Finite => operand == 0 && f32::from_bits(word).is_finite(),
        _ => operand == 0 && word as usize <= left,
    }
}

// What an instruction makes of what is held, None where it needs more or other kinds.
#[inline(always)]
fn step(rule: &Rule, operand: u32, word: u32, held: &mut Held) -> Option<()> {
    let takes = rule.takes as usize;
    if held.height < takes || (held.kinds as u8 ^ rule.kinds) & rule.mask != 0 {
        return None;
    }
    if rule.form >= Form::Alone {
        held.height -= takes;
        held.kinds >>= takes;
        return Some(());
    }
    let leaves = match rule.form {
        Form::Total => (total_kind(operand as u8, word as u8) == Kind::Real) as u8,
        Form::Match => (match_kind(operand as u8, word as u8) == Kind::Real) as u8,
        _ => rule.leaves,
    };
    // where the kind that is left stands lowest
    let moved = match takes {
        0 => held.kinds << 1,
        1 => held.kinds,
        _ => held.kinds >> 1,
    };
    held.height = held.height + 1 - takes;
    held.kinds = moved & !1 | leaves as u128;
    if held.height > 128 {
        return None;
    }
    Some(())
}
