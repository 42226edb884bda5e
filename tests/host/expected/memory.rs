//! crates/memory_cases: reads and stores on edge images, and texts as targets.

use super::{shown, shown_end, shown_fault};
use crate::reference::memory::{pack, read_indexed, set_flag, store, target_cell, unpack, Bank, BANKS, MEMORY_BYTES, PACKED_BYTES};
use crate::reference::value::{Fault, Value};

const INTEGERS: [i32; 8] = [0, 1, -1, 32768, 65535, 65536, i32::MAX, i32::MIN];
// crates/memory_cases/src/main.rt says which they are.
#[rustfmt::skip]
const SINGLES: [u32; 16] = [
    0x00000000, 0x80000000, 0x3F000000, 0xBF7FFFFF, 0x477FFF80, 0x4EFFFFFF, 0x4F000000, 0xCF000001,
    0x80000001, 0xBF000000, 0xBF800000, 0xCF000000, 0x427F999A, 0x42800000, 0x437FE666, 0x43800000,
];
#[rustfmt::skip]
const TARGETS: [&str; 18] = [
    "C0", "C63", "C64", "V255", "N0", "D42", "R255", "R256", "X0", "D01", "D00", "D", "d1", " D1", "D1 ", "D+1",
    "D1000000000000000000000", "",
];
const IMAGES: usize = 4;
// The image that each bank is stored into.
const STORED_INTO: [usize; 6] = [0, 1, 0, 1, 2, 3];
const BEYOND: usize = 300;

pub fn lines() -> String {
    let mut all = String::new();
    for number in 0..IMAGES {
        let image = image(number);
        for bank in BANKS {
            all += &reads(&image, number, bank);
            all += &indexed_reads(&image, bank);
        }
    }
    for (bank, number) in BANKS.into_iter().zip(STORED_INTO) {
        for (place, value) in operands().enumerate() {
            // One value in four goes beyond the bank.
            let element = if place % 4 == 3 { BEYOND } else { bank.cells() - 1 };
            all += &store_line(number, (bank, element), value);
        }
    }
    for bank in [Bank::X, Bank::C] {
        for number in 0..2 {
            all += &(0..bank.cells()).map(|element| bit_line(number, (bank, element))).collect::<String>();
        }
    }
    all + &TARGETS.map(target_line).concat()
}

fn operands() -> impl Iterator<Item = Value> {
    let singles = SINGLES.map(|pattern| Value::Real(f32::from_bits(pattern)));
    INTEGERS.map(Value::Int).into_iter().chain(singles)
}

// Zeros, ones, alternating bits, or a pattern with every byte in every bank.
fn image(number: usize) -> Vec<u8> {
    let byte = |at: usize| match number {
        0 => 0,
        1 => 255,
        2 => [85, 170][at % 2],
        _ => (at * 37 + at / 256) as u8,
    };
    (0..PACKED_BYTES).map(byte).collect()
}

fn letter(bank: Bank) -> char {
    bank.letter().into()
}

fn read_all(image: &[u8], bank: Bank, indexes: impl Iterator<Item = Value>) -> String {
    let image = unpack(image);
    let read = |index| read_indexed(&image, bank, index).map_err(Into::into);
    indexes.map(|index| format!(" {}", shown_end(read(index)))).collect()
}

fn reads(image: &[u8], number: usize, bank: Bank) -> String {
    let end = bank.cells() as i32;
    let indexes = [0, 1, end - 1, end].map(Value::Int);
    format!("{}{number}{}\n", letter(bank), read_all(image, bank, indexes.into_iter()))
}

fn indexed_reads(image: &[u8], bank: Bank) -> String {
    format!("{}[]{}\n", letter(bank), read_all(image, bank, operands()))
}

// The answer if it is a fault, and every byte that changed.
fn store_line(number: usize, cell: (Bank, usize), value: Value) -> String {
    let before = image(number);
    let mut after = unpack(&before);
    let inside = cell.1 < cell.0.cells();
    let stored = if inside { store(&mut after, cell, value) } else { Err(Fault::IndexError) };
    let mut line = format!("{}={}", letter(cell.0), shown(value));
    if let Err(fault) = stored {
        set_flag(&mut after, fault);
        line += &shown_fault(fault);
    }
    line + &changed(&before, &pack(&after)) + "\n"
}

fn changed(before: &[u8], after: &[u8]) -> String {
    let places = (0..PACKED_BYTES).filter(|at| before[*at] != after[*at]);
    places.map(|at| format!(" {at}:{}", after[at])).collect()
}

// A bit turned on among zeros, or off among ones: what it then reads, and every byte that changed.
fn bit_line(number: usize, cell: (Bank, usize)) -> String {
    let before = image(number);
    let mut after = unpack(&before);
    store(&mut after, cell, Value::Int(i32::from(number == 0))).expect("a bit takes every integer");
    let after = pack(&after);
    let read = read_all(&after, cell.0, [Value::Int(cell.1 as i32)].into_iter());
    format!("{}{}{read}{}\n", letter(cell.0), cell.1, changed(&before, &after))
}

// Where a bank starts in the packed image.
fn start(bank: Bank) -> usize {
    match bank {
        Bank::X | Bank::C => bank.start() / 8,
        _ => bank.start() - (MEMORY_BYTES - PACKED_BYTES),
    }
}

fn target_line(text: &str) -> String {
    match target_cell(text.as_bytes()) {
        Some((bank, element)) => format!("{text}|{} {element}\n", start(bank)),
        None => format!("{text}|2\n"),
    }
}
