//! A file of cards: each is four lines, a number, a target, an expression and a check.

use std::ops::Range;

use super::operations::read_text;
use super::target::target_of;
use super::text::Refusal;

pub const CARDS: u32 = 64;
const MODULUS: u64 = 65521;
const CHECK_DIGITS: usize = 5;

/// A card as it is written.
#[derive(Clone, PartialEq, Debug)]
pub struct Card {
    pub number: u32,
    pub target: Vec<u8>,
    pub expr: Vec<u8>,
}

impl Card {
    /// Its four lines.
    pub fn bytes(&self) -> Vec<u8> {
        let number = self.number.to_string();
        let check = check(&self.target, &self.expr);
        let lines: [(&str, &[u8]); 4] =
            [("card", number.as_bytes()), ("target", &self.target), ("expr", &self.expr), ("check", check.as_bytes())];
        lines.iter().flat_map(|(key, value)| [key.as_bytes(), b"=", value, b"\n"].concat()).collect()
    }
}

/// A card in a file: its number, and where its texts lie.
#[derive(Clone, PartialEq, Debug)]
pub struct Found {
    pub number: u32,
    pub target: Range<usize>,
    pub expr: Range<usize>,
}

/// Five digits: the sum of position times byte over the two lines with their ends.
pub fn check(target: &[u8], expr: &[u8]) -> String {
    let lines = [b"target=", target, b"\nexpr=", expr, b"\n"].concat();
    let sum = (1..).zip(&lines).fold(0, |sum, (position, byte)| (sum + position * u64::from(*byte)) % MODULUS);
    format!("{sum:0CHECK_DIGITS$}")
}

/// Four lines in their order and form at a place: the card, the text of its check, and the place behind it.
pub struct Form {
    pub card: Found,
    pub check: Range<usize>,
    pub end: usize,
}

// The value of the line with a key at a place.
fn field(file: &[u8], at: usize, key: &[u8]) -> Option<Range<usize>> {
    let value = file.get(at..)?.strip_prefix(key)?;
    let length = value.iter().position(|b| *b == b'\n')?;
    let start = at + key.len();
    Some(start..start + length)
}

pub fn form(file: &[u8], at: usize) -> Option<Form> {
    let number = field(file, at, b"card=")?;
    let target = field(file, number.end + 1, b"target=")?;
    let expr = field(file, target.end + 1, b"expr=")?;
    let check = field(file, expr.end + 1, b"check=")?;
    let number = (1..=CARDS).find(|n| n.to_string().as_bytes() == &file[number.clone()])?;
    let digits = &file[check.clone()];
    let good = digits.len() == CHECK_DIGITS && digits.iter().all(u8::is_ascii_digit);
    let end = check.end + 1;
    good.then_some(Form { card: Found { number, target, expr }, check, end })
}

/// The refusal of a formula and its target, 2 to 9.
fn formula_answer(target: &[u8], expr: &[u8]) -> Option<u32> {
    match (target_of(target), read_text(expr)) {
        (None, _) => Some(2),
        (_, Err(refusal)) => Some(refusal.answer),
        _ => None,
    }
}

/// What is wrong with a card in form that follows the number `last`.
pub fn judged(file: &[u8], last: u32, form: &Form) -> Option<u32> {
    let (target, expr) = (&file[form.card.target.clone()], &file[form.card.expr.clone()]);
    if check(target, expr).as_bytes() != &file[form.check.clone()] {
        return Some(17);
    }
    if form.card.number <= last {
        return Some(18);
    }
    formula_answer(target, expr)
}

/// The cards of a file, or the first refused card's answer and first byte.
pub fn read(file: &[u8]) -> Result<Vec<Found>, Refusal> {
    let mut cards: Vec<Found> = Vec::new();
    let mut place = 0;
    while place < file.len() {
        let form = form(file, place).ok_or(Refusal { answer: 16, place })?;
        let last = cards.last().map_or(0, |card| card.number);
        if let Some(answer) = judged(file, last, &form) {
            return Err(Refusal { answer, place });
        }
        place = form.end;
        cards.push(form.card);
    }
    Ok(cards)
}

/// The file of cards, or a refusal: 10 at 0, or that of the first refused card and where it would stand.
pub fn write(cards: &[Card], room: usize) -> Result<Vec<u8>, Refusal> {
    let size: usize = cards.iter().map(|card| card.bytes().len()).sum();
    if size > room {
        return Err(Refusal { answer: 10, place: 0 });
    }
    let (mut file, mut last) = (Vec::new(), 0);
    for card in cards {
        if let Some(answer) = unwritable(card, last) {
            return Err(Refusal { answer, place: file.len() });
        }
        last = card.number;
        file.extend(card.bytes());
    }
    Ok(file)
}

fn unwritable(card: &Card, last: u32) -> Option<u32> {
    if card.target.contains(&b'\n') || card.expr.contains(&b'\n') || !(1..=CARDS).contains(&card.number) {
        Some(16)
    } else if card.number <= last {
        Some(18)
    } else {
        formula_answer(&card.target, &card.expr)
    }
}
