//! Which cells code reads: a mark for each, then the list of their numbers.

use super::image::elements;
use super::machine::{fields, instructions};
use super::opcode::*;

const CELLS: usize = 1152;
// The number of a bank's first cell.
const FIRST: [usize; 6] = [0, 64, 128, 384, 640, 896];

/// How many there are; the list gets the first of them, as many as fit.
#[inline(never)]
pub fn cells(code: &[u8], n: usize, list: &mut [u16]) -> usize {
    let mut marks = [false; CELLS];
    let n = n.min(code.len() / 8);
    for instruction in instructions(code, n).unwrap_or(&[]) {
        let (opcode, _, word) = fields(instruction);
        let (bank, first, count) = match opcode {
            LOAD_X..=LOAD_R => (opcode - LOAD_X, word, 1),
            INDEX_X..=INDEX_R => (opcode - INDEX_X, 0, elements(opcode - INDEX_X)),
            AT_REAL_X..=AT_REAL_R => (opcode - AT_REAL_X, 0, elements(opcode - AT_REAL_X)),
            TOTAL | MATCH_INT | MATCH_REAL => (word as u8, word >> 8 & 0xFF, word >> 16),
            _ => continue,
        };
        let start = FIRST[bank as usize] + first as usize;
        marks[start..start + count as usize].fill(true);
    }
    let mut found = 0;
    for number in (0..CELLS).filter(|number| marks[*number]) {
        if let Some(place) = list.get_mut(found) {
            *place = number as u16;
        }
        found += 1;
    }
    found
}
