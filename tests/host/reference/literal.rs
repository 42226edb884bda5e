//! The single nearest to a decimal, by exact fractions of whole numbers.

const FRACTION_BITS: u32 = 23;
const BIAS: i32 = 127;

/// The pattern of the single nearest to mantissa * 10^scale, ties to even. Mantissas up to 10^9 and scales from -28 to 20 give
/// normal singles, and stay within 128 bits here.
pub fn nearest(mantissa: u32, scale: i32) -> u32 {
    if mantissa == 0 {
        return 0;
    }
    let (over, under) = (scale.max(0) as u32, (-scale).max(0) as u32);
    let (mut numerator, mut denominator) = (u128::from(mantissa) * 10u128.pow(over), 10u128.pow(under));
    let mut exponent = FRACTION_BITS as i32;
    while numerator < denominator << FRACTION_BITS {
        numerator *= 2;
        exponent -= 1;
    }
    while numerator >= denominator << (FRACTION_BITS + 1) {
        denominator *= 2;
        exponent += 1;
    }
    let (below, left) = (numerator / denominator, numerator % denominator);
    let up = 2 * left > denominator || (2 * left == denominator && below % 2 == 1);
    // The leading one of `below` counts the exponent up by one, and so does a carry out of the fraction.
    (((exponent + BIAS - 1) as u32) << FRACTION_BITS) + below as u32 + u32::from(up)
}
