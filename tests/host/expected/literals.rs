//! crates/literal_cases: the nearest singles of decimals.

use crate::reference::literal::nearest;

// One digit; a tie between two singles, and twice it; and the most nines of a mantissa.
const MANTISSAS: [u32; 5] = [1, 9, 16777217, 33554434, 999999999];
const SCALES: std::ops::RangeInclusive<i32> = -28..=20;

pub fn lines() -> String {
    let all = MANTISSAS.map(|mantissa| line(mantissa, SCALES));
    all.concat() + &line(1, [-29, 21])
}

// A scale that no literal has gives 0.
fn line(mantissa: u32, scales: impl IntoIterator<Item = i32>) -> String {
    let pattern = |scale| if SCALES.contains(&scale) { nearest(mantissa, scale) } else { 0 };
    let patterns: String = scales.into_iter().map(|scale| format!(" {:08X}", pattern(scale))).collect();
    format!("{mantissa}{patterns}\n")
}
