//! Random memories.

use super::Random;
use crate::reference::memory::{offset, Bank, BANKS, MEMORY_BYTES};

pub fn memory(random: &mut Random) -> Vec<u8> {
    let mut memory = vec![0; MEMORY_BYTES];
    match random.below(5) {
        0 => {}
        1 => random.fill(&mut memory),
        2 => mixed(random, &mut memory),
        _ => tame(random, &mut memory),
    }
    memory
}

fn put(memory: &mut [u8], bank: Bank, element: usize, word: u32) {
    let at = offset(bank, element);
    match bank {
        Bank::X | Bank::C => memory[at] = word as u8,
        Bank::V | Bank::N => memory[at..at + 2].copy_from_slice(&(word as u16).to_le_bytes()),
        Bank::D | Bank::R => memory[at..at + 4].copy_from_slice(&word.to_le_bytes()),
    }
}

// Small numbers, so that most formulas have a value.
fn tame(random: &mut Random, memory: &mut [u8]) {
    for bank in BANKS {
        for element in 0..bank.cells() {
            let small = random.word();
            let word = match bank {
                Bank::X | Bank::C => small & 1,
                Bank::V => small & 0x3F,
                Bank::N | Bank::D => (small & 0x7F).wrapping_sub(40),
                Bank::R => (((small & 0xFFF) as i32 - 1500) as f32 / 16.0).to_bits(),
            };
            put(memory, bank, element, word);
        }
    }
}

// Any numbers, those at the borders more often; now and then an infinity or a NaN.
fn mixed(random: &mut Random, memory: &mut [u8]) {
    random.fill(memory);
    for bank in BANKS {
        for element in 0..bank.cells() {
            let word = match bank {
                Bank::R if random.one_in(20) => *random.pick(&[0x7F80_0000, 0xFF80_0000, 0x7FC0_0000, 0xFF80_0001]),
                Bank::R => random.real().to_bits(),
                _ => random.integer() as u32,
            };
            put(memory, bank, element, word);
        }
    }
}
