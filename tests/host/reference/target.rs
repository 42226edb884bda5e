//! Targets: a cell, or a bank with an index that is worked out.

use super::grammar::parse_within;
use super::memory::{target_cell, target_name, Bank};
use super::operations::TEXT_BYTES;
use super::tree::Tree;

/// What a target's text says.
pub enum Target {
    Cell(Bank, usize),
    Indexed(Bank, Tree),
}

// The bracket of the target itself.
const OPEN: usize = 1;

/// A cell's name, or `bank[expression]` of at most 1,024 bytes with blanks inside the brackets only.
pub fn target_of(text: &[u8]) -> Option<Target> {
    match text {
        [_, b'[', index @ .., b']'] if text.len() <= TEXT_BYTES => {
            let (bank, _) = target_name(&text[..1])?;
            Some(Target::Indexed(bank, parse_within(index, OPEN).ok()?))
        }
        _ => target_cell(text).map(|(bank, element)| Target::Cell(bank, element)),
    }
}
