//! The tokens of a formula: answers 4, 5 and 6.

use super::image::{bank, element, REAL_BANK};
use super::op;
use super::values::Kind;

#[derive(Clone, Copy)]
pub enum Function {
    /// By the number of the unary or binary operator that it is.
    One(u8),
    Two(u8),
    If,
    Tick,
    Since,
    /// These end with a first cell and a count.
    Total(u8),
    Match(u8),
}

#[derive(Clone, Copy)]
pub enum Token {
    /// A numeral's kind and pattern.
    Number(Kind, u32),
    Cell(u8, u8),
    Bank(u8),
    Name(Function),
    /// The number of a binary operator, `&&` or `||`, with its group: 1 is the tightest.
    Infix(u8, u8),
    Invert,
    Not,
    Open,
    Close,
    OpenIndex,
    CloseIndex,
    Comma,
    End,
}

const MOST_DIGITS: usize = 9;
const MOST_EXPONENT: i32 = 20;
const TENS: [f32; 11] = [1.0, 1e1, 1e2, 1e3, 1e4, 1e5, 1e6, 1e7, 1e8, 1e9, 1e10];

pub fn kind_of(bank: u8) -> Kind {
    if bank == REAL_BANK {
        Kind::Real
    } else {
        Kind::Int
    }
}

/// The token of a run of letters and digits that starts with a letter.
pub fn word(run: &[u8]) -> Option<Token> {
    match run {
        b"ABS" => return Some(Token::Name(Function::One(op::ABS))),
        b"TOREAL" => return Some(Token::Name(Function::One(op::TO_REAL))),
        b"TOINT" | b"TRUNC" => return Some(Token::Name(Function::One(op::TRUNC))),
        b"ROUND" => return Some(Token::Name(Function::One(op::ROUND))),
        b"FRAC" => return Some(Token::Name(Function::One(op::FRAC))),
        b"MAX" => return Some(Token::Name(Function::Two(op::MAX))),
        b"MIN" => return Some(Token::Name(Function::Two(op::MIN))),
        b"IF" => return Some(Token::Name(Function::If)),
        b"TICKms" => return Some(Token::Name(Function::Tick)),
        b"SINCE" => return Some(Token::Name(Function::Since)),
        b"SUMR" => return Some(Token::Name(Function::Total(op::SUM))),
        b"AVGR" => return Some(Token::Name(Function::Total(op::AVERAGE))),
        b"MAXR" => return Some(Token::Name(Function::Total(op::GREATEST))),
        b"MINR" => return Some(Token::Name(Function::Total(op::LEAST))),
        [b'C', b'O', b'U', b'N', b'T', b'I', b'F', test @ ..] => return test_of(test, op::COUNT_WHERE),
        [b'S', b'U', b'M', b'I', b'F', test @ ..] => return test_of(test, op::SUM_WHERE),
        _ => {}
    }
    let bank = bank(run[0])?;
    if run.len() == 1 {
        return Some(Token::Bank(bank));
    }
    Some(Token::Cell(bank, element(bank, &run[1..])?))
}

// COUNTIF or SUMIF with a test.
fn test_of(test: &[u8], operator: u8) -> Option<Token> {
    let test = match test {
        b"EQ" => 0,
        b"NE" => 1,
        b"GE" => 2,
        b"GT" => 3,
        b"LE" => 4,
        b"LT" => 5,
        _ => return None,
    };
    Some(Token::Name(Function::Match(operator + test)))
}

/// The token of a numeral: digits, a real, or hexadecimal digits behind `0x`.
pub fn numeral(run: &[u8]) -> Result<Token, u32> {
    let mut n: u64 = 0;
    let mut dot = None;
    for (i, &b) in run.iter().enumerate() {
        if b.is_ascii_digit() {
            n = n.saturating_mul(10).saturating_add((b - b'0') as u64);
        } else if b == b'.' && dot.is_none() {
            dot = Some(i);
        } else {
            return if b == b'E' { exponent(run, i, dot, n) } else { hexadecimal(run) };
        }
    }
    let Some(d) = dot else {
        return if n <= i32::MAX as u64 { Ok(Token::Number(Kind::Int, n as u32)) } else { Err(5) };
    };
    let places = run.len() - d - 1;
    if places == 0 {
        return Err(4);
    }
    if run.len() > MOST_DIGITS + 1 {
        return Err(5);
    }
    Ok(real(run, n, -(places as i32)))
}

/// A real literal with an `E` at e, after a mantissa that makes n.
fn exponent(run: &[u8], e: usize, dot: Option<usize>, n: u64) -> Result<Token, u32> {
    let places = dot.map_or(0, |d| e - d - 1);
    let (negative, digits) = match run.get(e + 1) {
        Some(b'-') => (true, &run[e + 2..]),
        Some(b'+') => (false, &run[e + 2..]),
        _ => (false, &run[e + 1..]),
    };
    if dot == Some(e - 1) || digits.is_empty() || !digits.iter().all(u8::is_ascii_digit) {
        return Err(4);
    }
    let size = digits.iter().fold(0, |m, b| (10 * m + (b - b'0') as i32).min(MOST_EXPONENT + 1));
    if e - dot.is_some() as usize > MOST_DIGITS || size > MOST_EXPONENT {
        return Err(5);
    }
    Ok(real(run, n, if negative { -size } else { size } - places as i32))
}

/// n * 10^scale, which the run spells.
fn real(run: &[u8], n: u64, scale: i32) -> Token {
    let x: f32 = if n <= 1 << 24 && scale.abs() <= 10 {
        // both are exact, so that one operation rounds to the nearest
        if scale < 0 { n as f32 / TENS[-scale as usize] } else { n as f32 * TENS[scale as usize] }
    } else {
        std::str::from_utf8(run).unwrap().parse().unwrap()
    };
    Token::Number(Kind::Real, x.to_bits())
}

/// Digits, or digits, a dot and digits.
fn is_mantissa(run: &[u8]) -> bool {
    let mut parts = run.splitn(2, |b| *b == b'.');
    parts.all(|p| !p.is_empty() && p.iter().all(u8::is_ascii_digit))
}

fn hexadecimal(run: &[u8]) -> Result<Token, u32> {
    if run.len() < 3 || &run[..2] != b"0x" {
        return Err(4);
    }
    let mut n: u32 = 0;
    for &b in &run[2..] {
        let Some(d) = (b as char).to_digit(16) else {
            return Err(4);
        };
        n = n << 4 | d;
    }
    if run.len() > 10 {
        Err(5)
    } else {
        Ok(Token::Number(Kind::Int, n))
    }
}

/// The token of a symbol and its length, by its first three bytes, 0 past the end.
#[inline]
pub fn symbol(first: u8, second: u8, third: u8) -> Option<(Token, usize)> {
    use Token::Infix;
    Some(match (first, second) {
        (b'*', b'*') => (Infix(op::POWER, 1), 2),
        (b'*', _) => (Infix(op::TIMES, 2), 1),
        (b'/', _) => (Infix(op::DIVIDE, 2), 1),
        (b'%', _) => (Infix(op::REMAINDER, 2), 1),
        (b'+', _) => (Infix(op::PLUS, 3), 1),
        (b'-', _) => (Infix(op::MINUS, 3), 1),
        (b'<', b'<') => (Infix(op::SHIFT_LEFT, 4), 2),
        (b'>', b'>') if third == b'>' => (Infix(op::SHIFT_RIGHT_ZERO, 4), 3),
        (b'>', b'>') => (Infix(op::SHIFT_RIGHT, 4), 2),
        (b'<', b'=') => (Infix(op::LESS_EQUAL, 5), 2),
        (b'>', b'=') => (Infix(op::GREATER_EQUAL, 5), 2),
        (b'<', _) => (Infix(op::LESS, 5), 1),
        (b'>', _) => (Infix(op::GREATER, 5), 1),
        (b'=', b'=') => (Infix(op::EQUAL, 6), 2),
        (b'!', b'=') => (Infix(op::NOT_EQUAL, 6), 2),
        (b'&', b'&') => (Infix(op::LOGICAL_AND, 10), 2),
        (b'|', b'|') => (Infix(op::LOGICAL_OR, 11), 2),
        (b'&', _) => (Infix(op::AND, 7), 1),
        (b'^', _) => (Infix(op::XOR, 8), 1),
        (b'|', _) => (Infix(op::OR, 9), 1),
        (b'~', _) => (Token::Invert, 1),
        (b'!', _) => (Token::Not, 1),
        (b'(', _) => (Token::Open, 1),
        (b')', _) => (Token::Close, 1),
        (b'[', _) => (Token::OpenIndex, 1),
        (b']', _) => (Token::CloseIndex, 1),
        (b',', _) => (Token::Comma, 1),
        _ => return None,
    })
}

/// An answer and its place.
#[derive(Clone, Copy, PartialEq, Debug)]
pub struct Refusal {
    pub answer: u32,
    pub place: usize,
}

pub type Read<T> = Result<T, Refusal>;

/// Reads a text token by token.
pub struct Scanner<'a> {
    pub text: &'a [u8],
    /// The token ahead, and its place.
    pub token: Token,
    pub place: usize,
    // where the token ahead ends
    end: usize,
}

impl Scanner<'_> {
    pub fn new(text: &[u8]) -> Scanner<'_> {
        // any token will do before the first one is read
        Scanner { text, token: Token::Comma, place: 0, end: 0 }
    }

    fn byte(&self, at: usize) -> u8 {
        if at < self.text.len() {
            self.text[at]
        } else {
            0
        }
    }

    /// Reads the next token.
    pub fn advance(&mut self) -> Read<()> {
        let text = self.text;
        let mut at = self.end;
        while at < text.len() && (text[at] == b' ' || text[at] == b'\t') {
            at += 1;
        }
        self.place = at;
        if at == text.len() {
            self.token = Token::End;
            self.end = at;
            return Ok(());
        }
        if text[at].is_ascii_alphanumeric() {
            return self.run(at);
        }
        match symbol(text[at], self.byte(at + 1), self.byte(at + 2)) {
            Some((token, length)) => {
                self.token = token;
                self.end = at + length;
                Ok(())
            }
            None => Err(Refusal { answer: 4, place: at }),
        }
    }

    // The word or numeral that starts here.
    fn run(&mut self, at: usize) -> Read<()> {
        let text = self.text;
        let number = text[at].is_ascii_digit();
        let mut end = at + 1;
        let belongs = |b: u8| b.is_ascii_alphanumeric() || number && b == b'.';
        while end < text.len() && belongs(text[end]) {
            end += 1;
        }
        let signed = end < text.len() && matches!(text[end], b'+' | b'-') && text[end - 1] == b'E';
        if number && signed && is_mantissa(&text[at..end - 1]) {
            end += 1;
            while end < text.len() && belongs(text[end]) {
                end += 1;
            }
        }
        self.end = end;
        let run = &text[at..end];
        let token = if number { numeral(run) } else { word(run).ok_or(6) };
        match token {
            Ok(token) => {
                self.token = token;
                Ok(())
            }
            Err(answer) => Err(Refusal { answer, place: at }),
        }
    }
}
