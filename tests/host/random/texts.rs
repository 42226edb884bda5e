//! Random texts that follow no grammar, and texts at the borders of the length.

use super::formulas::formula;
use super::Random;
use crate::reference::memory::BANKS;
use crate::reference::text::tokens;

// Pieces that texts are damaged with: every symbol and name, and forms of numerals and words that are refused.
#[rustfmt::skip]
const PIECES: [&str; 102] = [
    "-", "~", "!", "**", "*", "/", "%", "+", "<<", ">>", ">>>", "<", ">", "<=", ">=", "==", "!=", "&", "^", "|", "&&",
    "||", "(", ")", "[", "]", ",", "TICKms", "SINCE", "TICKMS", "TICKms()", "SUMR", "AVGR", "MAXR",
    "MINR", "COUNTIFGE", "SUMIFLT", "COUNTIF", "SUMIFEQ(", "SUMR(D0", ",D0,2)", "MAXR(R250,9)", "COUNTIFNE(1.5,V0,0)", "ABS", "TOREAL", "TOINT", "TRUNC", "ROUND", "FRAC", "MAX", "MIN", "IF", "X", "C",
    "V", "N", "D", "R", "D0", "R1", "X63", "C64", "V255", "D256", "D01", "d0", "abs", "T0", "E", "0", "7", "1.5",
    "0x1F", "0xFFFFFFFFF", "0x", "0X1", "1.", "1..2", "1.2.3", "2147483648", "2147483647", "12345678.", "1234567.8",
    "0.000001", "1e5", "1E5", "1E", "1.5E+2", "2E-3", "1E21", "1E-20", "123456789.0", "1234567890E0", "3MAX", "=", ".", "$", ":R", " ", "\t", "\r", "_",
];

fn piece(random: &mut Random) -> &'static [u8] {
    random.pick(&PIECES).as_bytes()
}

/// The text with one to three faults: bytes or tokens changed, swapped, left out, put in.
pub fn damaged(random: &mut Random, text: &[u8]) -> Vec<u8> {
    let mut text = text.to_vec();
    for _ in 0..1 + random.below(3) {
        match random.below(3) {
            0 => damage_bytes(random, &mut text),
            _ => damage_tokens(random, &mut text),
        }
    }
    text
}

fn damage_bytes(random: &mut Random, text: &mut Vec<u8>) {
    if text.is_empty() {
        return text.push(random.byte());
    }
    let at = random.below(text.len());
    match random.below(5) {
        0 => text[at] ^= 1 << random.below(8),
        1 => text[at] = random.byte(),
        2 => drop(text.remove(at)),
        3 => text.insert(at, random.byte()),
        _ => text.truncate(at),
    }
}

fn damage_tokens(random: &mut Random, text: &mut Vec<u8>) {
    let mut parts = parts(text);
    if parts.is_empty() {
        return text.extend(piece(random));
    }
    let at = random.below(parts.len());
    match random.below(5) {
        0 => parts[at] = piece(random).to_vec(),
        1 => drop(parts.remove(at)),
        2 => parts.insert(at, piece(random).to_vec()),
        3 => {
            let other = random.below(parts.len());
            parts.swap(at, other);
        }
        _ => parts.insert(at, parts[random.below(parts.len())].clone()),
    }
    *text = parts.concat();
}

// The text cut at the start of each token. A text with a refused token is one part.
fn parts(text: &[u8]) -> Vec<Vec<u8>> {
    let Ok(tokens) = tokens(text) else { return vec![text.to_vec()] };
    let ends = tokens.iter().skip(1).map(|t| t.place).chain([text.len()]);
    tokens.iter().zip(ends).map(|(t, end)| text[t.place..end].to_vec()).collect()
}

/// One numeral or word, good or not, sometimes with a minus: most of the borders of answers 4, 5 and 6.
pub fn one_word(random: &mut Random) -> Vec<u8> {
    let mut text = if random.one_in(4) { b"-".to_vec() } else { Vec::new() };
    let mut digits = |most: usize, of: &[u8]| -> Vec<u8> {
        let number = random.below(most + 1);
        (0..number).map(|_| *random.pick(of)).collect()
    };
    let (before, after) = (digits(7, b"00123456789"), digits(7, b"0123456789"));
    let (decimal, hex) = (digits(11, b"0012345678999"), digits(10, b"000123456789abcdefABCDEF"));
    let number = digits(3, b"0123456");
    match random.below(8) {
        0..=3 => text.extend([&before[..], b".", &after].concat()),
        4 => text.extend(decimal),
        5 => text.extend([b"0x", &hex[..]].concat()),
        6 => text.extend([&[random.pick(&BANKS).letter()][..], &number].concat()),
        _ => text.extend((0..2).flat_map(|_| piece(random))),
    }
    text
}

// Six to eleven openers, then pieces: answers 7 and 8 close to each other.
fn openers(random: &mut Random) -> Vec<u8> {
    const OPENERS: [&str; 12] =
        ["(", "(", "D[", "-(", "MAX(", "MAX(1,", "1+(", "IF(1,(2),", "ABS(", "SINCE(", "TICKms()+(", "SUMIFEQ("];
    let number = 6 + random.below(6);
    let mut text: Vec<u8> = (0..number).flat_map(|_| random.pick(&OPENERS).bytes()).collect();
    for _ in 0..random.below(4) {
        text.extend(random.pick(&["1", ")", "(", "D", "ABS", "TICKms(", "SUMR(D0,3", "D0", "[", "]", ",", "+", " "]).as_bytes());
    }
    text
}

/// A text that no grammar made: bytes or pieces at random.
pub fn noise(random: &mut Random) -> Vec<u8> {
    let length = random.below(40);
    match random.below(4) {
        3 => openers(random),
        0 => (0..length).map(|_| random.byte()).collect(),
        1 => (0..length).map(|_| *random.pick(b"0123456789.xXABCDFNRVM()[]+-*/%<>=!&|^~, \t")).collect(),
        _ => (0..length).flat_map(|_| piece(random)).copied().collect(),
    }
}

// What long texts are made of.
#[rustfmt::skip]
const UNITS: [&str; 20] = [
    "1+", "1&&", "1||", "-", "!", "0", " ", "(", "D0**", "R1*", "1<", "IF(1,1,1)+", "D[0]-", "1.5,", "~", "IF(1,2,R1)+",
    "MAX(1,", "TICKms()-", "SUMR(R0,256)+", "COUNTIFLT(1,X0,64)-",
];

// A value waits at every level in every bracket: the most values that a formula can hold.
fn deepest(random: &mut Random) -> Vec<u8> {
    let brackets = random.below(10);
    let level = "V0|1^1&1==1<1<<1+1*1**";
    [&format!("{level}MAX(1,").repeat(brackets), level, "V1", &")".repeat(brackets)].concat().into_bytes()
}

/// A text at or near the borders of the length: nothing, blanks only, and 1,023 to 1,026 bytes.
pub fn long(random: &mut Random) -> Vec<u8> {
    let length = *random.pick(&[0, 1, 1022, 1023, 1024, 1024, 1024, 1025, 1026, 3000]);
    let unit = random.pick(&UNITS).as_bytes();
    let mut text: Vec<u8> = match random.below(6) {
        0 | 1 => formula(random),
        2 => deepest(random),
        _ => Vec::new(),
    };
    let end: &[u8] = if random.one_in(3) { b"" } else { b"1" };
    text.truncate(length);
    if !text.is_empty() {
        text.resize(length.max(text.len()), b' ');
        return text;
    }
    let body = length.saturating_sub(end.len());
    text.extend(unit.iter().cycle().take(body / unit.len() * unit.len()));
    text.extend(&end[..end.len().min(length)]);
    // Blanks at the start, so that the last byte stays the operand.
    let missing = length - text.len();
    text.splice(0..0, std::iter::repeat_n(b' ', missing));
    text
}
