//! Random real literals: the pattern that the compiled code pushes, against the exact fraction.

use crate::header::formula_compile;
use crate::random::Random;
use crate::reference::literal::nearest;
use crate::reference::operations::Report;

const CODE_BYTES: usize = 16384;
const MOST_DIGITS: usize = 9;
const MOST_EXPONENT: usize = 20;

struct Literal {
    text: String,
    mantissa: u32,
    scale: i32,
}

/// One to nine digits with a dot, an exponent or both.
fn literal(random: &mut Random) -> Literal {
    let digits: String = (0..1 + random.below(MOST_DIGITS)).map(|_| char::from(b'0' + random.below(10) as u8)).collect();
    let behind = random.below(digits.len());
    let (before, after) = digits.split_at(digits.len() - behind);
    let mut text = before.to_string();
    if behind > 0 {
        text = format!("{before}.{after}");
    }
    let mut scale = -(behind as i32);
    if behind == 0 || random.below(2) == 0 {
        let size = random.below(MOST_EXPONENT + 1) as i32;
        let (sign, exponent) = [("", size), ("+", size), ("-", -size)][random.below(3)];
        text = format!("{text}E{sign}{size}");
        scale += exponent;
    }
    Literal { text, mantissa: digits.parse().unwrap(), scale }
}

pub fn try_literals(number: u64, seed: u64) -> Result<(), String> {
    let mut random = Random::new(seed, 0);
    let mut code = vec![0u8; CODE_BYTES];
    for _ in 0..number {
        let Literal { text, mantissa, scale } = literal(&mut random);
        let mut report = Report::default();
        unsafe { formula_compile(text.as_ptr(), text.len(), code.as_mut_ptr(), code.len(), &mut report) };
        let pushed = u32::from_le_bytes(code[4..8].try_into().unwrap());
        let expected = nearest(mantissa, scale);
        if report.answer != 0 || pushed != expected {
            return Err(format!("{text}: answer {}, pushed {pushed:08X}, expected {expected:08X}", report.answer));
        }
    }
    println!("{number} literals, 0 differences");
    Ok(())
}
