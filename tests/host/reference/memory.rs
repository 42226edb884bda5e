//! The memory: its banks, its cells, its flags and the store, all on the old image; and the conversions to and from the packed one, which the library is lent.

use super::value::{Fault, Kind, Value};

pub const MEMORY_BYTES: usize = 3204;
pub const FLAGS: usize = 3200;
pub const PACKED_BYTES: usize = 3092;

// The bytes of the bits in the old image: X, then C.
const BITS: usize = 128;

#[derive(Clone, Copy, PartialEq, Debug)]
pub enum Bank {
    X,
    C,
    V,
    N,
    D,
    R,
}

// In the order of the operand numbers of the instruction set.
pub const BANKS: [Bank; 6] = [Bank::X, Bank::C, Bank::V, Bank::N, Bank::D, Bank::R];

impl Bank {
    pub fn letter(self) -> u8 {
        b"XCVNDR"[self as usize]
    }

    pub fn cells(self) -> usize {
        [64, 64, 256, 256, 256, 256][self as usize]
    }

    pub fn kind(self) -> Kind {
        if self == Bank::R {
            Kind::Real
        } else {
            Kind::Int
        }
    }

    fn width(self) -> usize {
        [1, 1, 2, 2, 4, 4][self as usize]
    }

    pub fn start(self) -> usize {
        [0, 64, 128, 640, 1152, 2176][self as usize]
    }
}

/// Eight bits to a byte, the lowest first; what stands behind the bits as it is.
pub fn pack(old: &[u8]) -> Vec<u8> {
    let (bits, rest) = old.split_at(BITS);
    let byte = |bits: &[u8]| bits.iter().rev().fold(0, |byte, bit| byte << 1 | u8::from(*bit != 0));
    bits.chunks(8).map(byte).chain(rest.iter().copied()).collect()
}

pub fn unpack(packed: &[u8]) -> Vec<u8> {
    let (bytes, rest) = packed.split_at(BITS / 8);
    let bits = bytes.iter().flat_map(|byte| (0..8).map(move |k| byte >> k & 1));
    bits.chain(rest.iter().copied()).collect()
}

/// What the library is lent for an old image: the packed one; an image of any other size as it is.
pub fn lent(old: &[u8]) -> Vec<u8> {
    if old.len() == MEMORY_BYTES {
        pack(old)
    } else {
        old.to_vec()
    }
}

pub fn offset(bank: Bank, element: usize) -> usize {
    bank.start() + element * bank.width()
}

/// A bank's letter alone, or with a decimal number without a leading zero that lies within the bank.
pub fn cell_name(word: &[u8]) -> Option<(Bank, Option<usize>)> {
    let (first, digits) = word.split_first()?;
    let bank = *BANKS.iter().find(|b| b.letter() == *first)?;
    if digits.is_empty() {
        return Some((bank, None));
    }
    let leading_zero = digits[0] == b'0' && digits.len() > 1;
    // No bank has more than 256 cells, so more than three digits are always beyond it.
    if leading_zero || digits.len() > 3 || !digits.iter().all(u8::is_ascii_digit) {
        return None;
    }
    let element = digits.iter().fold(0, |n, d| n * 10 + usize::from(d - b'0'));
    (element < bank.cells()).then_some((bank, Some(element)))
}

/// A cell's name or a bank's letter that can be stored to: any but X.
pub fn target_name(text: &[u8]) -> Option<(Bank, Option<usize>)> {
    cell_name(text).filter(|(bank, _)| *bank != Bank::X)
}

/// The cell that a target names.
pub fn target_cell(text: &[u8]) -> Option<(Bank, usize)> {
    let (bank, element) = target_name(text)?;
    Some((bank, element?))
}

fn word(memory: &[u8], at: usize) -> u32 {
    u32::from_le_bytes(memory[at..at + 4].try_into().unwrap())
}

fn half(memory: &[u8], at: usize) -> u16 {
    u16::from_le_bytes(memory[at..at + 2].try_into().unwrap())
}

pub fn read(memory: &[u8], bank: Bank, element: usize) -> Result<Value, Fault> {
    let at = offset(bank, element);
    match bank {
        Bank::X | Bank::C => Ok(Value::Int(i32::from(memory[at] != 0))),
        Bank::V => Ok(Value::Int(i32::from(half(memory, at)))),
        Bank::N => Ok(Value::Int(i32::from(half(memory, at) as i16))),
        Bank::D => Ok(Value::Int(word(memory, at) as i32)),
        Bank::R => {
            let r = f32::from_bits(word(memory, at));
            if r.is_finite() {
                Ok(Value::Real(r))
            } else {
                Err(Fault::OutOfRange)
            }
        }
    }
}

/// The element that an index names. A real below zero names none, however little it lies below.
pub fn element(index: Value, cells: usize) -> Result<usize, Fault> {
    if matches!(index, Value::Real(r) if r < 0.0) {
        return Err(Fault::IndexError);
    }
    match usize::try_from(index.trunc()?) {
        Ok(element) if element < cells => Ok(element),
        _ => Err(Fault::IndexError),
    }
}

pub fn read_indexed(memory: &[u8], bank: Bank, index: Value) -> Result<Value, Fault> {
    read(memory, bank, element(index, bank.cells())?)
}

pub fn store(memory: &mut [u8], (bank, element): (Bank, usize), v: Value) -> Result<(), Fault> {
    let at = offset(bank, element);
    match bank {
        Bank::X | Bank::C => memory[at] = u8::from(v.truth()),
        Bank::V | Bank::N => memory[at..at + 2].copy_from_slice(&(v.trunc()? as u16).to_le_bytes()),
        Bank::D => memory[at..at + 4].copy_from_slice(&v.trunc()?.to_le_bytes()),
        Bank::R => memory[at..at + 4].copy_from_slice(&v.real().to_bits().to_le_bytes()),
    }
    Ok(())
}

pub fn set_flag(memory: &mut [u8], fault: Fault) {
    let flag = match fault {
        Fault::IndexError => 0,
        Fault::OutOfRange => 1,
        Fault::Overflow => 2,
        Fault::DividedByZero => 3,
    };
    memory[FLAGS + flag] = 1;
}
