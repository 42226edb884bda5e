//! Bytes to tokens: answers 4, 5 and 6.

use super::literal::nearest;
use super::memory::{cell_name, Bank};
use super::operators::{Binary, Unary};
use super::totals::{Matching, Total};
use super::value::Value;

#[derive(Clone, Copy, PartialEq, Debug)]
pub enum Function {
    One(Unary),
    Two(Binary),
    If,
    /// TICKms, which takes nothing.
    Tick,
    Since,
    /// These two end with a first cell and a count.
    Total(Total),
    Matching(Matching, Binary),
}

#[derive(Clone, Copy, Debug)]
pub enum Token {
    Literal(Value),
    Cell(Bank, usize),
    Bank(Bank),
    Function(Function),
    Symbol(&'static str),
}

const REAL_DIGITS: usize = 9;
const EXPONENT: u32 = 20;

/// A refusal of a text: its answer and its place.
#[derive(Clone, Copy, PartialEq, Debug)]
pub struct Refusal {
    pub answer: u32,
    pub place: usize,
}

pub struct Placed {
    pub token: Token,
    pub place: usize,
}

// A symbol stands before those that it begins with, so the first one found is the longest.
#[rustfmt::skip]
const SYMBOLS: [&str; 27] = [
    ">>>", ">>", ">=", ">", "<<", "<=", "<", "**", "*", "==", "!=", "!", "&&", "&", "||", "|", "/", "%", "+", "-", "^",
    "~", "(", ")", "[", "]", ",",
];

const FUNCTIONS: [(&str, Function); 27] = [
    ("ABS", Function::One(Unary::Abs)),
    ("TOREAL", Function::One(Unary::ToReal)),
    ("TOINT", Function::One(Unary::Trunc)),
    ("TRUNC", Function::One(Unary::Trunc)),
    ("ROUND", Function::One(Unary::Round)),
    ("FRAC", Function::One(Unary::Frac)),
    ("MAX", Function::Two(Binary::Max)),
    ("MIN", Function::Two(Binary::Min)),
    ("IF", Function::If),
    ("TICKms", Function::Tick),
    ("SINCE", Function::Since),
    ("SUMR", Function::Total(Total::Sum)),
    ("AVGR", Function::Total(Total::Average)),
    ("MAXR", Function::Total(Total::Greatest)),
    ("MINR", Function::Total(Total::Least)),
    ("COUNTIFEQ", Function::Matching(Matching::Count, Binary::Equal)),
    ("COUNTIFNE", Function::Matching(Matching::Count, Binary::NotEqual)),
    ("COUNTIFGE", Function::Matching(Matching::Count, Binary::GreaterEqual)),
    ("COUNTIFGT", Function::Matching(Matching::Count, Binary::Greater)),
    ("COUNTIFLE", Function::Matching(Matching::Count, Binary::LessEqual)),
    ("COUNTIFLT", Function::Matching(Matching::Count, Binary::Less)),
    ("SUMIFEQ", Function::Matching(Matching::Sum, Binary::Equal)),
    ("SUMIFNE", Function::Matching(Matching::Sum, Binary::NotEqual)),
    ("SUMIFGE", Function::Matching(Matching::Sum, Binary::GreaterEqual)),
    ("SUMIFGT", Function::Matching(Matching::Sum, Binary::Greater)),
    ("SUMIFLE", Function::Matching(Matching::Sum, Binary::LessEqual)),
    ("SUMIFLT", Function::Matching(Matching::Sum, Binary::Less)),
];

/// All tokens of the text, or its first refusal among 4, 5 and 6.
pub fn tokens(text: &[u8]) -> Result<Vec<Placed>, Refusal> {
    let mut found = Vec::new();
    let mut place = 0;
    while place < text.len() {
        if matches!(text[place], b' ' | b'\t') {
            place += 1;
            continue;
        }
        let (token, length) = token(&text[place..]).map_err(|answer| Refusal { answer, place })?;
        found.push(Placed { token, place });
        place += length;
    }
    Ok(found)
}

fn token(rest: &[u8]) -> Result<(Token, usize), u32> {
    if rest[0].is_ascii_alphabetic() {
        let length = run(rest, |b| b.is_ascii_alphanumeric());
        word(&rest[..length]).map(|t| (t, length)).ok_or(6)
    } else if rest[0].is_ascii_digit() {
        let length = numeral_length(rest);
        numeral(&rest[..length]).map(|v| (Token::Literal(v), length))
    } else {
        let symbol = SYMBOLS.iter().find(|s| rest.starts_with(s.as_bytes())).ok_or(4u32)?;
        Ok((Token::Symbol(symbol), symbol.len()))
    }
}

fn run(rest: &[u8], belongs: impl Fn(u8) -> bool) -> usize {
    rest.iter().position(|b| !belongs(*b)).unwrap_or(rest.len())
}

/// The longest run; where it is a mantissa and `E`, and a sign comes next, the run behind the sign too.
fn numeral_length(rest: &[u8]) -> usize {
    let belongs = |b: u8| b.is_ascii_alphanumeric() || b == b'.';
    let length = run(rest, belongs);
    let open = rest[length - 1] == b'E' && mantissa(&rest[..length - 1]).is_some();
    match rest.get(length) {
        Some(b'+' | b'-') if open => length + 1 + run(&rest[length + 1..], belongs),
        _ => length,
    }
}

/// The digits of a mantissa, and how many of them stand behind its dot.
fn mantissa(run: &[u8]) -> Option<(Vec<u8>, usize)> {
    let parts: Vec<&[u8]> = run.split(|b| *b == b'.').collect();
    let behind = parts.get(1).map_or(0, |p| p.len());
    (parts.len() <= 2 && parts.iter().all(|p| all_digits(p))).then(|| (parts.concat(), behind))
}

fn all_digits(part: &[u8]) -> bool {
    !part.is_empty() && part.iter().all(u8::is_ascii_digit)
}

fn word(word: &[u8]) -> Option<Token> {
    if let Some((_, function)) = FUNCTIONS.iter().find(|(name, _)| name.as_bytes() == word) {
        return Some(Token::Function(*function));
    }
    Some(match cell_name(word)? {
        (bank, None) => Token::Bank(bank),
        (bank, Some(element)) => Token::Cell(bank, element),
    })
}

fn numeral(run: &[u8]) -> Result<Value, u32> {
    if let Some(digits) = run.strip_prefix(b"0x") {
        return hexadecimal(digits);
    }
    if all_digits(run) {
        return decimal(run);
    }
    real(run)
}

fn hexadecimal(digits: &[u8]) -> Result<Value, u32> {
    if digits.is_empty() || !digits.iter().all(u8::is_ascii_hexdigit) {
        return Err(4);
    }
    let text = std::str::from_utf8(digits).unwrap();
    if digits.len() > 8 {
        return Err(5);
    }
    Ok(Value::Int(u32::from_str_radix(text, 16).unwrap() as i32))
}

fn decimal(digits: &[u8]) -> Result<Value, u32> {
    // The text is all digits, so parsing fails only where the number does not fit.
    std::str::from_utf8(digits).unwrap().parse().map(Value::Int).map_err(|_| 5)
}

fn real(run: &[u8]) -> Result<Value, u32> {
    let e = run.iter().position(|b| *b == b'E').unwrap_or(run.len());
    let (digits, behind) = mantissa(&run[..e]).ok_or(4u32)?;
    let exponent = run.get(e + 1..).unwrap_or(b"0");
    let (negative, size) = match exponent {
        [b'-', size @ ..] => (true, size),
        [b'+', size @ ..] => (false, size),
        size => (false, size),
    };
    if !all_digits(size) {
        return Err(4);
    }
    // One more than the largest exponent stands for all beyond it.
    let size = size.iter().fold(0, |n, d| (n * 10 + u32::from(d - b'0')).min(EXPONENT + 1));
    if digits.len() > REAL_DIGITS || size > EXPONENT {
        return Err(5);
    }
    let scale = if negative { -(size as i32) } else { size as i32 } - behind as i32;
    let number = digits.iter().fold(0, |n, d| n * 10 + u32::from(d - b'0'));
    Ok(Value::Real(f32::from_bits(nearest(number, scale))))
}
