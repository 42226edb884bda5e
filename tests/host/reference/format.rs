//! A formula as it is saved, by cutting its tokens at the operator that binds last: another way than the library's, which goes from left to right.

use super::operations::{read_text, TEXT_BYTES};
use super::text::{tokens, Refusal, Token};

const MOST_OPEN: usize = 8;

// The groups of binary operators, the tightest first.
const GROUPS: [&[&str]; 11] = [
    &["**"],
    &["*", "/", "%"],
    &["+", "-"],
    &["<<", ">>", ">>>"],
    &["<", ">", "<=", ">="],
    &["==", "!="],
    &["&"],
    &["^"],
    &["|"],
    &["&&"],
    &["||"],
];

struct Piece<'a> {
    token: Token,
    bytes: &'a str,
}

fn symbol(piece: &Piece) -> &'static str {
    match piece.token {
        Token::Symbol(s) => s,
        _ => "",
    }
}

fn group(s: &str) -> usize {
    GROUPS.iter().position(|names| names.contains(&s)).map_or(0, |at| at + 1)
}

// Whether an operand ends with the piece: what follows is then no unary operator.
fn ends_operand(piece: &Piece) -> bool {
    matches!(symbol(piece), ")" | "]") || matches!(piece.token, Token::Literal(_) | Token::Cell(_, _))
}

// The places outside of all brackets.
fn outside(pieces: &[Piece]) -> Vec<usize> {
    let mut depth = 0;
    let mut places = Vec::new();
    for (at, piece) in pieces.iter().enumerate() {
        match symbol(piece) {
            "(" | "[" => depth += 1,
            ")" | "]" => depth -= 1,
            _ if depth == 0 => places.push(at),
            _ => {}
        }
    }
    places
}

fn enclosed(text: String, needed: bool) -> String {
    if needed { format!("({text})") } else { text }
}

/// The text of an expression, and the group of the operator that binds last; 0 where there is none.
fn expression(pieces: &[Piece]) -> (String, usize) {
    let binary = |at: &usize| *at > 0 && group(symbol(&pieces[*at])) > 0 && ends_operand(&pieces[*at - 1]);
    let last = outside(pieces).into_iter().filter(binary).max_by_key(|at| group(symbol(&pieces[*at])));
    if let Some(at) = last {
        let own = group(symbol(&pieces[at]));
        let (left, l) = expression(&pieces[..at]);
        let (right, r) = expression(&pieces[at + 1..]);
        let text = format!("{} {} {}", enclosed(left, l != 0 && l != own), pieces[at].bytes, enclosed(right, r != 0));
        return (text, own);
    }
    let first = &pieces[0];
    if matches!(symbol(first), "-" | "~" | "!") {
        let (operand, top) = expression(&pieces[1..]);
        return (first.bytes.to_string() + &enclosed(operand, top != 0), 0);
    }
    if symbol(first) == "(" {
        return expression(&pieces[1..pieces.len() - 1]);
    }
    if pieces.len() == 1 {
        return (first.bytes.to_string(), 0);
    }
    let inside = &pieces[2..pieces.len() - 1];
    (format!("{}{}{}{}", first.bytes, pieces[1].bytes, list(inside), pieces[pieces.len() - 1].bytes), 0)
}

fn list(pieces: &[Piece]) -> String {
    if pieces.is_empty() {
        return String::new();
    }
    let commas: Vec<usize> = outside(pieces).into_iter().filter(|at| symbol(&pieces[*at]) == ",").collect();
    let mut items = Vec::new();
    let mut start = 0;
    for end in commas.into_iter().chain([pieces.len()]) {
        items.push(expression(&pieces[start..end]).0);
        start = end + 1;
    }
    items.join(", ")
}

/// The most `(` and `[` open at once.
fn levels(text: &str) -> usize {
    let (mut open, mut most) = (0usize, 0);
    for c in text.chars() {
        match c {
            '(' | '[' => open += 1,
            ')' | ']' => open -= 1,
            _ => {}
        }
        most = most.max(open);
    }
    most
}

/// The text that is saved for a buffer of `room` bytes, or the refusal.
pub fn format(expr: &[u8], room: usize) -> Result<String, Refusal> {
    read_text(expr)?;
    let refused = |answer| Err(Refusal { answer, place: 0 });
    if room < TEXT_BYTES {
        return refused(10);
    }
    let text = std::str::from_utf8(expr).expect("a formula is ASCII");
    let placed = tokens(expr)?;
    let ends = placed.iter().skip(1).map(|next| next.place).chain([text.len()]);
    let pieces: Vec<Piece> = placed.iter().zip(ends).map(|(p, end)| Piece { token: p.token, bytes: text[p.place..end].trim_end() }).collect();
    let saved = expression(&pieces).0;
    if saved.len() > TEXT_BYTES {
        return refused(3);
    }
    if levels(&saved) > MOST_OPEN {
        return refused(8);
    }
    Ok(saved)
}
