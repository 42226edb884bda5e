//! The memory: cells read and stored, flags, and the names of targets.

use super::values::{Outcome, Stop, Value};

use Value::{Int, Real};

pub const BYTES: usize = 3092;
pub const REAL_BANK: u8 = 5;
pub const BANK_STARTS: [usize; 6] = [0, 8, 16, 528, 1040, 2064];

pub fn elements(bank: u8) -> u32 {
    if bank < 2 {
        64
    } else {
        256
    }
}

/// A cell of X or C, the banks 0 and 1.
#[inline(always)]
pub fn bit_cell(image: &[u8], bank: usize, element: usize) -> Outcome {
    Ok(Int(bit(image, 64 * bank + element)))
}

/// A bit of X, or from 64 on of C.
#[inline(always)]
pub fn bit(image: &[u8], k: usize) -> i32 {
    (image[k / 8] >> (k % 8) & 1) as i32
}

/// A cell of V.
#[inline(always)]
pub fn half(image: &[u8], element: usize) -> Outcome {
    Ok(Int(u16::from_le_bytes(bytes(image, 16 + 2 * element)) as i32))
}

/// A cell of N.
#[inline(always)]
pub fn signed_half(image: &[u8], element: usize) -> Outcome {
    Ok(Int(i16::from_le_bytes(bytes(image, 528 + 2 * element)) as i32))
}

/// A cell of D.
#[inline(always)]
pub fn double(image: &[u8], element: usize) -> Outcome {
    Ok(Int(i32::from_le_bytes(bytes(image, 1040 + 4 * element))))
}

/// A cell of R.
#[inline(always)]
pub fn real(image: &[u8], element: usize) -> Outcome {
    let x = f32::from_le_bytes(bytes(image, 2064 + 4 * element));
    if x.is_finite() {
        Ok(Real(x))
    } else {
        Err(Stop::OutOfRange)
    }
}

#[inline(always)]
fn bytes<const N: usize>(image: &[u8], at: usize) -> [u8; N] {
    *image[at..].first_chunk().expect("the image has its size")
}

/// The element that an index names.
#[inline]
pub fn indexed(bank: u8, index: Value) -> Result<u8, Stop> {
    // a real index below zero is refused before it is cut
    if matches!(index, Real(x) if x < 0.0) {
        return Err(Stop::IndexError);
    }
    let index = index.cut()? as u32;
    // a negative index is beyond every bank
    if index < elements(bank) {
        Ok(index as u8)
    } else {
        Err(Stop::IndexError)
    }
}

/// The bank by its letter.
pub fn bank(letter: u8) -> Option<u8> {
    match letter {
        b'X' => Some(0),
        b'C' => Some(1),
        b'V' => Some(2),
        b'N' => Some(3),
        b'D' => Some(4),
        b'R' => Some(REAL_BANK),
        _ => None,
    }
}

/// The element that the digits of a cell's name stand for.
pub fn element(bank: u8, digits: &[u8]) -> Option<u8> {
    if digits.is_empty() || digits.len() > 3 || (digits[0] == b'0' && digits.len() > 1) {
        return None;
    }
    let mut n = 0;
    for &d in digits {
        if !d.is_ascii_digit() {
            return None;
        }
        n = n * 10 + (d - b'0') as u32;
    }
    if n < elements(bank) {
        Some(n as u8)
    } else {
        None
    }
}

/// The bank of a target, any but X, and what stands behind its letter.
pub fn target(text: &[u8]) -> Option<(u8, &[u8])> {
    let (&letter, rest) = text.split_first()?;
    let bank = bank(letter)?;
    if bank == 0 {
        return None;
    }
    Some((bank, rest))
}

pub fn store(image: &mut [u8], (bank, element): (u8, u8), v: Value) -> Result<(), Stop> {
    let element = element as usize;
    match bank {
        1 => {
            let byte = &mut image[8 + element / 8];
            *byte = *byte & !(1 << (element % 8)) | (v.truth() as u8) << (element % 8);
        }
        2 => image[16 + 2 * element..][..2].copy_from_slice(&(v.cut()? as u16).to_le_bytes()),
        3 => image[528 + 2 * element..][..2].copy_from_slice(&(v.cut()? as u16).to_le_bytes()),
        4 => image[1040 + 4 * element..][..4].copy_from_slice(&v.cut()?.to_le_bytes()),
        _ => image[2064 + 4 * element..][..4].copy_from_slice(&v.single().to_le_bytes()),
    }
    Ok(())
}

pub fn set_flag(image: &mut [u8], fault: Stop) {
    let flag = match fault {
        Stop::IndexError => 3088,
        Stop::OutOfRange => 3089,
        Stop::Overflow => 3090,
        Stop::DividedByZero => 3091,
        Stop::Stuck => return,
    };
    image[flag] = 1;
}
